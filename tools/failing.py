"""What tools/chaos runs its scenarios with: hosts and clients that fail, the exchange beside them, and what is asked of it."""
import http.client
import json
import os
import resource
import selectors
import shutil
import socket
import socketserver
import subprocess
import sys
import tempfile
import threading
import time

TOP = os.path.dirname(os.path.dirname(os.path.realpath(__file__)))
# How many ports are used.
PORTS = 32
# Where files are in memory, if the system has such a place.
MEMORY = '/dev/shm' if os.access('/dev/shm', os.W_OK) else None


def is_free(port):
    with socket.socket() as one:
        one.setsockopt(socket.SOL_SOCKET, socket.SO_REUSEADDR, 1)
        try:
            one.bind(('127.0.0.1', port))
        except OSError:
            return False
    return True


def first_port():
    """The first port from which on nobody has one."""
    for port in range(9600, 30000, PORTS):
        if all(is_free(port + n) for n in range(PORTS)):
            return port
    sys.exit('chaos: no %d ports are free' % PORTS)


PORT = int(os.environ.get('CHAOS_PORT') or first_port())
NO_BID = b'HTTP/1.1 204 No Content\r\n\r\n'
NOT_FOUND = b'HTTP/1.1 404 Not Found\r\nContent-Length: 0\r\n\r\n'
CONFLICT = b'HTTP/1.1 409 Conflict\r\nContent-Length: 0\r\n\r\n'
METERS = b'GET /meters HTTP/1.1\r\nHost: x\r\n\r\n'
RESET = b'\1\0\0\0\0\0\0\0'
REFUSED = 'http://127.0.0.1:1'


class Server(socketserver.ThreadingTCPServer):
    """A host whose connections are answered by a function, and counted."""
    allow_reuse_address = True
    daemon_threads = True
    request_queue_size = 512

    def __init__(self, port, answer, host='127.0.0.1'):
        class Handler(socketserver.BaseRequestHandler):
            def handle(self):
                self.server.seen += 1
                try:
                    answer(self.request)
                except OSError:
                    pass
        self.seen = 0
        if host != '127.0.0.1':
            self.address_family = socket.AF_INET6
        super().__init__((host, port), Handler)
        threading.Thread(target=self.serve_forever, kwargs={'poll_interval': 0.05}, daemon=True).start()

    def handle_error(self, request, address):
        pass

    def close(self):
        self.shutdown()
        self.server_close()


def whole(one):
    """A request, as far as it is needed here: its head and what came with it."""
    got = b''
    while b'\r\n\r\n' not in got:
        piece = one.recv(65536)
        if not piece:
            return got
        got += piece
    return got


def answers(reply):
    def answer(one):
        whole(one)
        one.sendall(reply)
    return answer


def answers_bids(body):
    def answer(one):
        asked = whole(one)
        auction = json.loads(asked.split(b'\r\n\r\n', 1)[1] or b'{"id":""}')['id']
        reply = body.replace('ID', auction).encode()
        one.sendall(b'HTTP/1.1 200 OK\r\nContent-Length: %d\r\n\r\n' % len(reply) + reply)
    return answer


def silent(one):
    time.sleep(4)


def trickle(one):
    whole(one)
    for byte in b'HTTP/1.1 200 OK\r\nX: ' + b'y' * 16000:
        one.sendall(bytes([byte]))
        time.sleep(0.7)


class Run:
    """The programs and hosts of a scenario, in a folder of its own; all of them end with it."""

    def __init__(self, program, short):
        self.program, self.short, self.wrong = program, short, False
        self.folder, self.made, self.hosts = None, [], []

    def __enter__(self):
        self.folder = tempfile.mkdtemp(prefix='chaos-')
        os.chdir(self.folder)
        self.market()
        return self

    def __exit__(self, *_):
        self.end()
        os.chdir('/')
        shutil.rmtree(self.folder, ignore_errors=True)

    def end(self):
        for one in self.made:
            if one.poll() is None:
                one.kill()
            one.wait()
        for host in self.hosts:
            host.close()
        self.made, self.hosts = [], []

    def say(self, holds, text):
        if not holds:
            self.wrong = True
        print(('' if holds else 'WRONG ') + text, flush=True)

    def market(self, **more):
        roster = {'day': '2025-03-01', 'base': 'http://127.0.0.1:%d' % PORT,
                  'bidders': [{'name': 'b1', 'port': PORT + 1}, {'name': 'b2', 'port': PORT + 2}],
                  'campaigns': [{'bidder': 'b1', 'seat': 's1', 'cid': 'c1', 'budget': 1000},
                                {'bidder': 'b2', 'seat': 's2', 'cid': 'c1', 'budget': 1000}], **more}
        with open('roster', 'w') as file:
            file.write(json.dumps(roster) + '\n')
        return roster

    def host(self, port, answer, *where):
        self.hosts.append(Server(port, answer, *where))
        return self.hosts[-1]

    def bidder(self, port, seat, price, base=None):
        name = 'prices-%d' % port
        with open(name, 'w') as file:
            file.write(json.dumps({'seat': seat, 'base': base or 'http://127.0.0.1:%d' % port, 'prices': [{'cid': 'c1', 'price': price}]}) + '\n')
        self.start('bid', '--prices', name, '--port', str(port))

    def start(self, *words, error=None, before='', through=()):
        """Starts the program with these words: after those of a shell, or as the last words of another program."""
        error = error if error is not None else open(words[0] + '.err', 'w')
        shown = ['sh', '-c', before + ' exec "$0" "$@"', self.program, *words] if before else [*through, self.program, *words]
        self.made.append(subprocess.Popen(shown, stdin=subprocess.DEVNULL, stdout=subprocess.DEVNULL, stderr=error))
        return self.made[-1]

    def serve(self, workers, fresh=True, journal='j', **more):
        """Starts an exchange, and waits until it takes connections, a minute at most."""
        if fresh and os.path.exists(journal):
            os.remove(journal)
        roster = os.path.join(self.folder, 'roster')
        made = self.start('serve', '--roster', roster, '--journal', journal, '--port', str(PORT), '--workers', str(workers), **more)
        for _ in range(3000):
            try:
                socket.create_connection(('127.0.0.1', PORT), 1).close()
                break
            except OSError:
                if made.poll() is not None:
                    break
                time.sleep(0.02)
        return made

    def stop(self, made):
        """Kills what was started, as a loss of power would."""
        self.made.remove(made)
        made.kill()
        made.wait()

    def history(self, urls, noticed=None, **more):
        """A journal `j` of an award for each pair of URLs, and a win and a bill for each of them, or for so many of them."""
        lines = [json.dumps(self.market(**more))]
        for n, (won, billed) in enumerate(urls):
            bid = {'id': 'x', 'impid': '1', 'price': 0.0001, 'cid': 'c1', 'nurl': won, 'burl': billed}
            lines.append(json.dumps({'ask': {'id': 'a%d' % n, 'imp': [{'id': '1'}]}, 'now': 10,
                                     'answers': [{'id': 'a%d' % n, 'seatbid': [{'seat': 's1', 'bid': [bid]}]}]}))
        for n in range(len(urls) if noticed is None else noticed):
            for kind in ('win', 'bill'):
                lines.append(json.dumps({'notice': kind, 'auction': 'a%d' % n, 'bid': n}))
        with open('script', 'w') as file:
            file.write('\n'.join(lines) + '\n')
        self.day('script')

    def day(self, script):
        """The journal `j` of a script, made in memory where the system has a place for that: each ask costs two syncs."""
        with tempfile.TemporaryDirectory(dir=MEMORY) as folder:
            with open(script, 'rb') as file, open('answers', 'wb') as told:
                subprocess.run([self.program, 'day', '--journal', folder + '/j'], stdin=file, stdout=told, check=True)
            shutil.copy(folder + '/j', 'j')


def connection(limit=5.0):
    one = socket.create_connection(('127.0.0.1', PORT), limit)
    one.settimeout(limit)
    return one


def reset(one):
    one.setsockopt(socket.SOL_SOCKET, socket.SO_LINGER, RESET)
    one.close()


def alive(limit=10.0):
    """Whether a new connection is answered, and within how many seconds."""
    begin = time.time()
    try:
        one = connection(limit)
        one.sendall(METERS.replace(b'\r\n\r\n', b'\r\nConnection: close\r\n\r\n'))
        got = one.recv(99)
        one.close()
        return got[9:12] == b'200', time.time() - begin
    except OSError:
        return False, time.time() - begin


def shown(said):
    return ' '.join('%.2f' % seconds if well else 'none' for well, seconds in said)


def processor(made):
    fields = open('/proc/%d/stat' % made.pid).read().rsplit(')', 1)[1].split()
    return (int(fields[11]) + int(fields[12])) / os.sysconf('SC_CLK_TCK')


def kilobytes(made, name='VmHWM'):
    """The greatest resident set of what runs, or another of its figures."""
    return int(open('/proc/%d/status' % made.pid).read().split(name + ':')[1].split()[0])


# Runs a program below a process that has hardly any memory: the greatest resident set of a process counts what it was before it ran the program.
ALONE = """import os, resource, sys, time
resource.setrlimit(resource.RLIMIT_CPU, (120, 120))
begin = time.time()
_, status, used = os.wait4(os.posix_spawn(sys.argv[1], sys.argv[1:], os.environ), 0)
print('', os.waitstatus_to_exitcode(status), time.time() - begin, used.ru_utime + used.ru_stime, used.ru_maxrss // 1024, file=sys.stderr)
"""


class Command:
    """A command of the program that read a file, and took two minutes of a processor at most: its status, how its output begins, seconds by the clock and
    of a processor, and megabytes."""

    def __init__(self, program, words, source, into='output'):
        with open(source, 'rb') as read, open(into, 'wb') as written:
            ended = subprocess.run([sys.executable, '-S', '-E', '-c', ALONE, program, *words], stdin=read, stdout=written, stderr=subprocess.PIPE, text=True)
        status, seconds, used, most = ended.stderr.split('\n')[-2].split()[-4:]
        self.status, self.seconds, self.used, self.most = int(status), float(seconds), float(used), int(most)
        with open(into) as written:
            self.begins = written.read(200)

    def __str__(self):
        return '%.2f s of a processor, %d MB' % (self.used, self.most)


def auctions(part, threads, many):
    """Auctions with their bills, each on a connection of its own: how many a second, the median in milliseconds, and what failed."""
    late, failed, lock = [], {}, threading.Lock()

    def one(words, body=None):
        call = http.client.HTTPConnection('127.0.0.1', PORT, timeout=60)
        call.request(*words, body, {'Connection': 'close'})
        reply = call.getresponse()
        return reply.status, reply.read()

    def work(k):
        for i in range(many):
            begin, fault = time.time(), None
            try:
                status, body = one(('POST', '/openrtb'), '{"id":"d%d-%d-%d","imp":[{"id":"1","bidfloor":1.1}]}' % (part, k, i))
                bill = json.loads(body)['seatbid'][0]['bid'][0]['burl'].split(str(PORT), 1)[1] if status == 200 else None
                status = one(('GET', bill))[0] if bill else status
                fault = None if status == 204 else status
            except Exception as error:
                fault = type(error).__name__
            with lock:
                late.append(time.time() - begin)
                if fault:
                    failed[fault] = failed.get(fault, 0) + 1
    begin = time.time()
    workers = [threading.Thread(target=work, args=(k,)) for k in range(threads)]
    for each in workers:
        each.start()
    for each in workers:
        each.join()
    late.sort()
    return len(late) / (time.time() - begin), late[len(late) // 2] * 1000, failed


LUA = """local threads = 0
local n = 0
function setup(thread) threads = threads + 1; thread:set("t", threads) end
request = function() n = n + 1; return wrk.format("POST", "/openrtb", HEADERS, '{"id":"'..t..'-'..n..'","imp":[{"id":"1"}]}') end
"""


def asks_by_wrk(clients, seconds, headers='nil'):
    """Asks a second by so many clients, which keep their connections unless a header closes them; 0 where one had another status than 2xx or 3xx."""
    with open('ask.lua', 'w') as file:
        file.write(LUA.replace('HEADERS', headers))
    got = subprocess.run(['wrk', '-t2', '-c%d' % clients, '-d%ds' % seconds, '-s', 'ask.lua', '--timeout', '10s', 'http://127.0.0.1:%d' % PORT],
                         capture_output=True, text=True).stdout
    return float(got.split('Requests/sec:')[1].split()[0]) if 'Requests/sec:' in got and 'Non-2xx' not in got else 0


def ask(n):
    body = b'{"id":"t%d","imp":[{"id":"1"}]}' % n
    return b'POST /openrtb HTTP/1.1\r\nHost: x\r\nContent-Length: %d\r\n\r\n' % len(body) + body


def asks_by(port, threads, many):
    """The statuses of so many asks in all, by clients that each keep a connection as long as it is kept."""
    counts, lock = {}, threading.Lock()

    def work(k):
        call, found = None, {}
        for n in range(many // threads):
            try:
                if call is None:
                    call = http.client.HTTPConnection('127.0.0.1', port, timeout=60)
                call.request('POST', '/openrtb', '{"id":"p%d-%d","imp":[{"id":"1"}]}' % (k, n))
                reply = call.getresponse()
                reply.read()
                status = reply.status
            except (OSError, http.client.HTTPException) as fault:
                status = type(fault).__name__
                call.close()
                call = None
            found[status] = found.get(status, 0) + 1
        if call:
            call.close()
        with lock:
            for status, count in found.items():
                counts[status] = counts.get(status, 0) + count
    clients = [threading.Thread(target=work, args=(k,)) for k in range(threads)]
    for each in clients:
        each.start()
    for each in clients:
        each.join()
    return counts


def asked_one(n, limit=5.0):
    """The status of an ask, on a connection of its own."""
    one = connection(limit)
    one.sendall(ask(n))
    got = one.recv(999)[9:12].decode()
    one.close()
    return got


def threads_of(made):
    return len(os.listdir('/proc/%d/task' % made.pid))


class Keeping:
    """A host that answers each piece that comes at once, and keeps its connections, or ends each after its first answer; by one thread. `most` is how
    many it had at the same time."""

    def __init__(self, port, reply, keeps=True):
        self.listener = socket.create_server(('127.0.0.1', port), backlog=4096)
        self.listener.setblocking(False)
        self.reply, self.keeps, self.kept, self.most, self.over = reply, keeps, set(), 0, False
        self.thread = threading.Thread(target=self.work, daemon=True)
        self.thread.start()

    def work(self):
        with selectors.DefaultSelector() as ready:
            ready.register(self.listener, selectors.EVENT_READ)
            while not self.over:
                for key, _ in ready.select(0.05):
                    try:
                        if key.fileobj is self.listener:
                            one = self.listener.accept()[0]
                            ready.register(one, selectors.EVENT_READ)
                            self.kept.add(one)
                            self.most = max(self.most, len(self.kept))
                        elif key.fileobj.recv(65536):
                            key.fileobj.sendall(self.reply)
                            if not self.keeps:
                                raise OSError
                        else:
                            raise OSError
                    except OSError:
                        if key.fileobj is not self.listener:
                            ready.unregister(key.fileobj)
                            self.kept.discard(key.fileobj)
                            key.fileobj.close()

    def close(self):
        self.over = True
        self.thread.join(5)
        for one in (self.listener, *self.kept):
            one.close()


def crowd(many, message, seconds):
    """So many connections at once, each of which sends a message and ends with the first bytes of its reply: how many there were of each status, of what
    failed, and of what had none in so many seconds; and when the last one was answered."""
    counts, last, begin = {}, 0, time.time()

    def count(what):
        counts[what] = counts.get(what, 0) + 1
    with selectors.DefaultSelector() as ready:
        for n in range(many):
            one = socket.socket()
            one.setblocking(False)
            one.connect_ex(('127.0.0.1', PORT))
            ready.register(one, selectors.EVENT_WRITE, n)
        while ready.get_map() and time.time() - begin < seconds:
            for key, _ in ready.select(0.5):
                one = key.fileobj
                try:
                    if key.events == selectors.EVENT_WRITE:
                        one.sendall(message(key.data))
                        ready.modify(one, selectors.EVENT_READ, key.data)
                        continue
                    count(one.recv(9999)[9:12].decode() or 'no reply')
                    last = time.time() - begin
                except OSError as fault:
                    count(type(fault).__name__)
                ready.unregister(one)
                one.close()
        for key in list(ready.get_map().values()):
            count('none')
            key.fileobj.close()
    return counts, last


class Publisher:
    """Sends asks, and bills of their awards, on a connection that is opened again where it ends, and keeps what was acknowledged."""

    def __init__(self, prefix):
        self.prefix, self.call, self.asked, self.given, self.billed = prefix, None, 0, {}, {}

    def send(self, method, target, body=None):
        """The status and the body of the reply; the name of the fault where there is none."""
        try:
            self.call = self.call or http.client.HTTPConnection('127.0.0.1', PORT, timeout=20)
            self.call.request(method, target, body)
            reply = self.call.getresponse()
            return reply.status, reply.read()
        except (OSError, http.client.HTTPException) as fault:
            self.close()
            return type(fault).__name__, b''

    def close(self):
        if self.call:
            self.call.close()
        self.call = None

    def again(self, name):
        return self.send('POST', '/openrtb', json.dumps({'id': name, 'imp': [{'id': '1'}]}))

    def asks(self, most, faults):
        """So many asks at most, until so many weren't sold: how many replies there were of each status."""
        counts = {}
        for _ in range(most):
            name = '%s%d' % (self.prefix, self.asked)
            self.asked += 1
            status, body = self.again(name)
            counts[status] = counts.get(status, 0) + 1
            if status == 200:
                self.given[name] = body
            elif sum(counts.values()) - counts.get(200, 0) >= faults:
                break
        return counts

    def bills(self, most):
        """Bills of so many of the awards that have none: how many replies there were of each status."""
        counts = {}
        for name in [name for name in self.given if name not in self.billed][:most]:
            target = '/' + json.loads(self.given[name])['seatbid'][0]['bid'][0]['burl'].split('/', 3)[3]
            status, _ = self.send('GET', target)
            counts[status] = counts.get(status, 0) + 1
            if status == 204:
                self.billed[name] = target
        return counts

    def lost(self):
        """How many of the acknowledged asks aren't answered as they were, and how many of the acknowledged bills aren't counted."""
        asks = sum(self.again(name) != (200, body) for name, body in self.given.items())
        bills = sum(self.send('GET', target)[0] != 204 for target in self.billed.values())
        counted = json.loads(self.send('GET', '/books')[1].splitlines()[-1])['asks'], json.loads(self.meters())['bills']
        return asks, max(bills, len(self.billed) - counted[1])

    def meters(self):
        """The meters, by a connection of their own."""
        self.close()
        return self.send('GET', '/meters')[1]


def told(counts):
    return ', '.join('%s: %d' % each for each in sorted(counts.items(), key=str)) or 'none'


class SmallDisk:
    """A file system of so many KB, in memory and in a mount namespace of its own, which lasts until what holds it ends; where the system lets one be
    made. Else a file of so many KB at most."""

    def __init__(self, run, size):
        self.place = run.folder + '/small'
        os.mkdir(self.place)
        made = subprocess.Popen(['unshare', '-m', 'sh', '-c', 'mount -t tmpfs -o size=%dk none "$0" && echo there && exec sleep 900' % size, self.place],
                                stdin=subprocess.DEVNULL, stdout=subprocess.PIPE, stderr=subprocess.DEVNULL)
        run.made.append(made)
        self.is_mounted = made.stdout.readline() == b'there\n'
        self.inside = ['nsenter', '-m', '-t', str(made.pid)]
        self.limit = 'trap "" XFSZ; ulimit -S -f %d;' % (2 * size)
        self.journal = self.place + '/j'

    def how(self):
        """With which further words of `start` the exchange is on it."""
        return {'through': self.inside} if self.is_mounted else {'before': self.limit}

    def grow(self, made, size):
        if self.is_mounted:
            subprocess.run([*self.inside, 'mount', '-o', 'remount,size=%dk' % size, self.place], check=True)
        else:
            resource.prlimit(made.pid, resource.RLIMIT_FSIZE, (size << 10, resource.RLIM_INFINITY))
        self.limit = ''
