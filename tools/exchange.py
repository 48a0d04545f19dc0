"""What tools/board, tools/metrics and tools/report share: money without floats, a running exchange's figures, and pages for this machine alone."""
import contextlib
import http.client
import http.server
import json
import re
import socket
import threading
import time
import urllib.parse

UNITS = 10 ** 9                      # of a dollar
GREATEST = 10 ** 15                  # units of a budget
METERS = ('entries', 'asks', 'awards', 'wins', 'bills', 'losses', 'expired', 'reserved', 'billed')
ROW = ('budget', 'reserved', 'billed', 'slab')
COUNTS = ('asks', 'awards', 'entries')
LONGEST = 1 << 22                    # bytes of a reply; the books of 1,024 campaigns have 1.8 MB at most
SLOWEST = 30                         # seconds between two askings, at most
LOCAL = re.compile(r'(127\.0\.0\.1|localhost)(:\d{1,5})?\Z')


def discounts():
    """The discount of each slab, 0 to 100, in billionths (docs/FORMATS.md, "Discount table")."""
    row = [10 ** 9]
    for _ in range(100):
        row.append(max(0, -(-(101 * row[-1] - 1586575000) // 100)))
    return row


DISCOUNTS = discounts()


def dollars(units, least=0):
    """Units as dollars in decimal, exact: no zero at the end after the point, but at least so many digits."""
    whole, part = divmod(abs(units), UNITS)
    digits = ('%09d' % part).rstrip('0').ljust(least, '0')
    return '-' * (units < 0) + str(whole) + ('.' + digits if digits else '')


def shown_dollars(units):
    """The same for people: with a dollar sign, commas, and cents at least."""
    whole, _, part = dollars(abs(units), 2).partition('.')
    return '-' * (units < 0) + '$' + format(int(whole), ',') + '.' + part


def units_of(text):
    """Dollars in plain decimal as units of a budget; ValueError where they are none."""
    match = re.fullmatch(r'([0-9]{1,7})(?:\.([0-9]{1,9}))?', text)
    units = int(match[1]) * UNITS + int((match[2] or '').ljust(9, '0')) if match else 0
    if not 0 < units <= GREATEST:
        raise ValueError('a budget is in dollars, as 12.5: above 0, at most 1000000, with at most nine digits after the point')
    return units


def shown(text):
    """A name with what can't be seen, or turns the line round, spelled out."""
    return ''.join(c if c.isprintable() else '\\u{%x}' % ord(c) for c in text)


def members(line, names, texts=()):
    """The members of a line of JSON, bytes: whole numbers, and texts."""
    try:
        found = json.loads(line.decode('utf-8'))
    except (ValueError, RecursionError):
        found = None
    if not isinstance(found, dict) or any(type(found.get(n)) is not int or found[n] < 0 for n in names) \
            or any(not isinstance(found.get(n), str) for n in texts):
        raise ValueError('what answers there is no exchange, or none of this version: %.80r' % line)
    return {name: found[name] for name in (*texts, *names)}


def read_meters(body):
    return members(body, METERS)


def read_books(body):
    """The rows of the campaigns, and the counts."""
    *rows, last = body.removesuffix(b'\n').split(b'\n')
    return [members(row, ROW, ('seat', 'cid')) for row in rows], members(last, COUNTS)


class Exchange:
    """Asks an exchange. A connection takes one of its workers while it is open, so each call opens one, asks, and closes it. `timeout` is how many seconds
    a connection may take in all, whatever trickles in meanwhile."""

    def __init__(self, address, timeout=5):
        host, _, port = address.rpartition(':')
        if not host or not port.isdecimal() or not 0 < int(port) < 65536:
            raise ValueError('%s: an address is HOST:PORT, as 127.0.0.1:8080' % address)
        self.address, self.host, self.port, self.timeout = address, host, int(port), timeout

    @contextlib.contextmanager
    def connected(self):
        """A connection, which is shut when its time is over: TimeoutError says so."""
        connection, late = http.client.HTTPConnection(self.host, self.port, timeout=self.timeout), threading.Event()
        begun = time.monotonic()
        try:
            connection.connect()
            at = connection.sock

            def shut():
                late.set()
                with contextlib.suppress(OSError):
                    at.shutdown(socket.SHUT_RDWR)
            timer = threading.Timer(max(0, self.timeout - (time.monotonic() - begun)), shut)
            timer.daemon = True
            timer.start()
            try:
                yield connection
            except (OSError, ValueError, http.client.HTTPException):
                if late.is_set():
                    raise TimeoutError from None
                raise
            finally:
                timer.cancel()
        finally:
            connection.close()

    @staticmethod
    def call(connection, method, path, last):
        """The status and body of a reply. The last message of a connection says so, so that the exchange closes it."""
        connection.request(method, path, headers={'Connection': 'close'} if last else {})
        reply = connection.getresponse()
        body = reply.read(LONGEST + 1)
        if len(body) > LONGEST:
            raise ValueError('a reply of the exchange is too long')
        if reply.length:
            raise ValueError('the answer was cut short')
        return reply.status, body

    def get(self, connection, path, last=False):
        status, body = self.call(connection, 'GET', path, last)
        if status != 200:
            raise ValueError('the exchange answered %d at %s' % (status, path))
        return body

    def set_budget(self, seat, cid, change, budget):
        """The status and the body word by word, and the campaign's row in the books right after it (None where there is none)."""
        query = urllib.parse.urlencode({'seat': seat, 'cid': cid, 'change': change, 'budget': dollars(budget)}, quote_via=urllib.parse.quote)
        with self.connected() as connection:
            status, body = self.call(connection, 'POST', '/budget?' + query, False)
            try:
                rows = read_books(self.get(connection, '/books', True))[0]
            except (OSError, ValueError, http.client.HTTPException):
                rows = []
        return status, body.decode('utf-8', 'replace'), next((r for r in rows if (r['seat'], r['cid']) == (seat, cid)), None)


def why_of(fault, seconds):
    """Why an asking failed, in words that any terminal can show."""
    if isinstance(fault, (TimeoutError, socket.timeout)):
        return 'no answer within %g seconds' % seconds
    if isinstance(fault, http.client.RemoteDisconnected):
        return 'the connection was closed without an answer'
    if isinstance(fault, http.client.BadStatusLine):
        return 'what answers there doesn\'t speak HTTP: %s' % shown(fault.line.strip())[:80]
    if isinstance(fault, http.client.IncompleteRead):
        return 'the answer was cut short'
    return shown(getattr(fault, 'strerror', '') or str(fault) or repr(fault))[:200]


class Figures:
    """The last figures of an exchange. Whoever calls `fresh`, and however many: it is asked at most once in `every` seconds, and up to thirty where it
    doesn't answer, or answers slowly. At the end of each connection, an empty one too, the exchange tries all notices that it owes, and everyone waits
    for a host that is silent; who looks shouldn't add to that."""

    def __init__(self, exchange, every=1, clock=time.monotonic):
        self.exchange, self.every, self.clock, self.lock = exchange, every, clock, threading.Lock()
        self.next, self.pace, self.books_at = None, 0, None
        self.meters, self.rows, self.counts = None, [], None
        self.ok, self.why, self.since, self.at, self.took = None, 'it was not asked yet', time.time(), None, 0

    def fresh(self):
        """Asks the exchange where its turn has come; whether it answered when it was asked last. Where it doesn't, the figures before stay."""
        with self.lock:
            begun = self.clock()
            if self.next is not None and begun < self.next:
                return self.ok
            was, self.why = self.ok, ''
            try:
                self.ask(begun)
                self.ok, self.at = True, time.time()
            except (OSError, ValueError, RecursionError, http.client.HTTPException) as fault:
                self.ok = False
                self.why = why_of(fault, self.exchange.timeout)
            self.since = self.since if self.ok == was else time.time()
            self.took = self.clock() - begun
            if self.ok:
                self.pace = max(self.every, min(SLOWEST, self.took * 10), self.pace / 2 if was else 0)
            else:
                self.pace = min(SLOWEST, max(self.every, self.pace) * 2)
            self.next = begun + max(self.pace, self.took + self.every)
            return self.ok

    def ask(self, now):
        """The meters, which wait for no one, and the books where they have changed: these wait for the desk. They are asked for at least twice a minute."""
        with self.exchange.connected() as connection:
            meters = read_meters(self.exchange.get(connection, '/meters'))
            if not self.ok or meters['entries'] != self.counts['entries'] or now - self.books_at > 30:
                self.rows, self.counts = read_books(self.exchange.get(connection, '/books', True))
                self.books_at = now
            self.meters = meters


class Page(http.server.BaseHTTPRequestHandler):
    """A handler for browsers and programs of this machine. The name in Host has to be this machine's, so that no page of another site that
    lets its own name point here (DNS rebinding) reads anything."""
    protocol_version = 'HTTP/1.1'
    server_version, sys_version, timeout = 'adx-tools', '', 20

    def is_local(self):
        hosts = self.headers.get_all('Host') or []
        if len(hosts) == 1 and LOCAL.match(hosts[0]):
            return True
        self.give(403, 'text/plain', b'The host has to be 127.0.0.1 or localhost.\n')
        return False

    def give(self, status, kind, body, **headers):
        self.send_response(status)
        for name, value in {'Content-Type': kind + '; charset=utf-8', 'Content-Length': str(len(body)), 'Cache-Control': 'no-store',
                            'X-Content-Type-Options': 'nosniff', 'Cross-Origin-Resource-Policy': 'same-origin',
                            **{key.replace('_', '-'): value for key, value in headers.items()}}.items():
            self.send_header(name, value)
        if status >= 400:
            self.close_connection = True
            self.send_header('Connection', 'close')
        self.end_headers()
        if self.command != 'HEAD':
            self.wfile.write(body)

    def log_message(self, *_):
        pass


class Pages(http.server.ThreadingHTTPServer):
    daemon_threads, allow_reuse_address, request_queue_size = True, True, 64

    def handle_error(self, *_):
        """A browser that goes away in the middle of a reply is no fault."""
