#!/usr/bin/python3
"""Starts a fleet of exchanges on this machine, in a scratch folder: PostgreSQL, bidders, exchanges, HAProxy, and a controller.

    fleet.py up 4 --adx PROGRAM            4 exchanges for --seconds 30, with a load, and the sums at the end
    fleet.py config 4                      prints the configuration of HAProxy

Nothing outlives it: every process is its own child and is ended by its number, and the folder is removed. It needs no root; as root
it starts PostgreSQL as the user postgres, since PostgreSQL refuses to be root's.
"""
import argparse
import json
import os
import pathlib
import shutil
import signal
import socket
import subprocess
import sys
import tempfile
import time
from typing import Optional

import psycopg2

sys.dont_write_bytecode = True
sys.path.insert(0, str(pathlib.Path(__file__).resolve().parent))
import archive                                                      # noqa: E402
import day as days                                                  # noqa: E402

HERE = pathlib.Path(__file__).resolve().parent
BIN = str(max(pathlib.Path('/usr/lib/postgresql').glob('*/bin'), key=lambda path: int(path.parent.name), default=pathlib.Path())) + '/'
SLOTS = 256


def free_port() -> int:
    """A port of 127.0.0.1 at which nobody listens."""
    with socket.socket() as probe:
        probe.bind(('127.0.0.1', 0))
        return probe.getsockname()[1]


def wait_for(port: int, seconds: float = 60) -> None:
    """Until somebody listens at a port."""
    end = time.monotonic() + seconds
    while time.monotonic() < end:
        with socket.socket() as probe:
            probe.settimeout(1)
            if probe.connect_ex(('127.0.0.1', port)) == 0:
                return
        time.sleep(0.05)
    raise TimeoutError('nobody listens at %d' % port)


def slots_map(names: list[str], weights: Optional[list[int]] = None) -> str:
    """Which exchange has which slot of auctions' ids: as many as its weight says."""
    weights = weights or [1] * len(names)
    row = [name for name, weight in zip(names, weights) for _ in range(weight)]
    return ''.join('%d %s\n' % (slot, row[slot * len(row) // SLOTS]) for slot in range(SLOTS))


# An exchange sends the notices that it owes as a connection ends, and a connection holds a worker: one for each request, or a few that
# are used for two seconds at most after they were last needed.
CLOSE = 'option http-server-close'
REUSE = 'option http-keep-alive\n    http-reuse always'


def haproxy_config(folder: str, port: int, exchanges: list[tuple[str, int]], workers: int, reuse: bool = False) -> str:
    """The template, filled in."""
    pool = ' pool-purge-delay 2s' if reuse else ''
    row = 'backend %s\n    option httpchk GET /meters\n    server %s 127.0.0.1:%d check inter 2s downinter 500ms fall 3 rise 1 maxconn %d%s\n'
    rows = [row % (name, name, at, max(1, workers - 4), pool) for name, at in exchanges]
    return (HERE / 'haproxy.cfg.in').read_text().format(folder=folder, port=port, exchanges='\n'.join(rows), connections=REUSE if reuse else CLOSE)


def lacking() -> list[str]:
    """The engines that this system doesn't have."""
    return [name for name, path in (('haproxy', shutil.which('haproxy')), ('postgres', shutil.which(BIN + 'postgres'))) if not path]


class Fleet:
    """All processes of a fleet, in a folder. A with-block ends them and removes the folder."""

    def __init__(self, adx: str, count: int, day: str, prices: list[dict], budget: int, workers: int = 16,
                 weights: Optional[list[int]] = None, extra: tuple[str, ...] = (), keep: Optional[str] = None) -> None:
        """prices are the bidders' price lines without base, and each of their campaigns has this whole budget in units. The door knows the extra
        exchanges, too, which are started later."""
        self.adx, self.day, self.workers, self.keep, self.reuse = adx, day, workers, keep, False
        self.folder = pathlib.Path(keep or tempfile.mkdtemp(prefix='fleet.'))
        self.folder.mkdir(exist_ok=True)
        self.folder.chmod(0o755)
        self.names, self.weights = ['x%d' % (at + 1) for at in range(count)], weights
        self.ports = {name: free_port() for name in (*self.names, *extra)}
        self.door = free_port()
        self.processes: dict[str, subprocess.Popen] = {}
        self.addresses: dict[str, str] = {}              # where the controller calls an exchange, if not at its port
        self.prices, self.bidders = prices, []
        self.campaigns = [{'bidder': line['seat'], 'seat': line['seat'], 'cid': price['cid'], 'budget': budget} for line in prices for price in line['prices']]
        self.dsn = 'host=%s dbname=postgres user=fleet' % (self.folder / 'pg')

    def __enter__(self) -> 'Fleet':
        signal.signal(signal.SIGTERM, self.leave)                        # as `timeout` ends it: all is cleaned up
        return self

    @staticmethod
    def leave(*_: object) -> None:
        for sign in (signal.SIGTERM, signal.SIGINT):                     # `timeout` sends it twice
            signal.signal(sign, signal.SIG_IGN)
        sys.exit(1)

    def __exit__(self, *_: object) -> None:
        for name in list(self.processes):
            self.stop(name, signal.SIGINT if name == 'postgres' else signal.SIGKILL)
        if not self.keep:
            shutil.rmtree(self.folder, ignore_errors=True)

    def start(self, name: str, *words: str, user: Optional[str] = None) -> subprocess.Popen:
        with open(self.folder / (name + '.said'), 'ab') as said:
            self.processes[name] = subprocess.Popen(words, stdin=subprocess.DEVNULL, stdout=said, stderr=said, start_new_session=True,
                                                    user=user, group=user, cwd=self.folder)
        return self.processes[name]

    def stop(self, name: str, sign: int = signal.SIGKILL) -> None:
        process = self.processes.pop(name)
        if process.poll() is None:
            process.send_signal(sign)
        try:
            process.wait(30)
        except subprocess.TimeoutExpired:
            process.kill()
            process.wait()

    # PostgreSQL
    def start_postgres(self, *more: str) -> None:
        user, data = 'postgres' if os.getuid() == 0 else None, self.folder / 'pg'
        if not data.exists():
            data.mkdir(mode=0o700)
            if user:
                shutil.chown(data, user, user)
            subprocess.run([BIN + 'initdb', '-D', str(data), '-A', 'trust', '-U', 'fleet', '-E', 'UTF8', '--locale=C'], check=True, stdout=subprocess.DEVNULL,
                           user=user, group=user, cwd=data, timeout=300)
        self.start('postgres', BIN + 'postgres', '-D', str(data), '-k', str(data), '-c', 'listen_addresses=', '-c', 'max_connections=40', *more, user=user)
        for _ in range(600):
            try:
                self.connect().close()
                return
            except psycopg2.OperationalError:
                time.sleep(0.1)
        raise TimeoutError('PostgreSQL takes no connections')

    def connect(self):
        return psycopg2.connect(self.dsn, connect_timeout=5)

    # Bidders and exchanges
    def start_bidders(self) -> None:
        for line in self.prices:
            port = free_port()
            (self.folder / (line['seat'] + '.prices')).write_text(json.dumps({**line, 'base': 'http://127.0.0.1:%d' % port}) + '\n')
            self.start_bidder(line['seat'], port)
            self.bidders.append({'name': line['seat'], 'port': port})

    def start_bidder(self, seat: str, port: int) -> None:
        self.start('bidder-' + seat, self.adx, 'bid', '--prices', str(self.folder / (seat + '.prices')), '--port', str(port))
        wait_for(port)

    def restart_bidder(self, seat: str, seconds: float) -> None:
        """It is killed, and there again so many seconds later."""
        self.stop('bidder-' + seat)
        time.sleep(seconds)
        self.start_bidder(seat, next(row['port'] for row in self.bidders if row['name'] == seat))

    def base(self, name: str) -> str:
        return 'http://127.0.0.1:%d/at/%s' % (self.door, name)

    def start_exchange(self, name: str, parts: int) -> None:
        connection = self.connect()
        roster = days.register(connection, self.day, name, self.addresses.get(name, '127.0.0.1:%d' % self.ports[name]), self.base(name), self.bidders, parts)
        connection.close()
        self.roster(name).write_text(roster + '\n')
        self.serve(name)

    def serve(self, name: str) -> None:
        """Starts an exchange on its roster's file and its journal."""
        self.start(name, self.adx, 'serve', '--roster', str(self.roster(name)), '--journal', str(self.journal(name)),
                   '--port', str(self.ports[name]), '--workers', str(self.workers))
        wait_for(self.ports[name])

    def roster(self, name: str) -> pathlib.Path:
        return self.folder / (name + '.roster')

    def journal(self, name: str) -> pathlib.Path:
        return self.folder / (name + '.journal')

    # HAProxy
    def start_door(self) -> None:
        if not (self.folder / 'slots.map').exists():
            (self.folder / 'slots.map').write_text(slots_map(self.names, self.weights))
        config = self.folder / 'haproxy.cfg'
        config.write_text(haproxy_config(str(self.folder), self.door, list(self.ports.items()), self.workers, self.reuse))
        subprocess.run(['haproxy', '-c', '-q', '-f', str(config)], check=True, timeout=60)
        self.start('haproxy', 'haproxy', '-db', '-f', str(config))
        wait_for(self.door)

    def door_says(self, command: str) -> str:
        """A command on HAProxy's socket."""
        with socket.socket(socket.AF_UNIX) as talk:
            talk.settimeout(5)
            talk.connect(str(self.folder / 'haproxy.sock'))
            talk.sendall(command.encode() + b'\n')
            return b''.join(iter(lambda: talk.recv(65536), b'')).decode()

    def set_state(self, name: str, state: str) -> None:
        connection = self.connect()
        with connection, connection.cursor() as cursor:
            cursor.execute('UPDATE exchange SET state = %s WHERE (day, name) = (%s, %s)', (state, self.day, name))
        connection.close()

    def set_slots(self, names: list[str], weights: Optional[list[int]] = None) -> None:
        """New asks go to these exchanges from here on; notices find all others still. An ask that was sent before and is sent again may come
        to another exchange: move slots where none is, as at a change of day."""
        text = slots_map(names, weights)
        (self.folder / 'slots.map').write_text(text)
        for line in text.splitlines():
            self.door_says('set map %s/slots.map %s' % (self.folder, line))

    def drain(self, name: str, others: list[str]) -> None:
        """No new asks to an exchange: its slots go to the others, and its shares go down to what it has committed."""
        self.set_state(name, 'draining')
        self.set_slots(others)

    def start_controller(self, name: str = 'controller', every: float = 1.0, *more: str) -> subprocess.Popen:
        return self.start(name, sys.executable, str(HERE / 'controller.py'), '--dsn', self.dsn, '--day', self.day, '--every', str(every), *more)

    def up(self) -> None:
        """All but the controller."""
        self.start_postgres()
        connection = self.connect()
        with connection, connection.cursor() as cursor:
            cursor.execute((HERE / 'schema.sql').read_text())
        days.open_day(connection, self.day, self.campaigns)
        connection.close()
        self.start_bidders()
        for name in self.names:
            self.start_exchange(name, len(self.names))
        self.start_door()

    # The evening
    def close(self, name: str) -> pathlib.Path:
        """Ends an exchange's day, and makes its document."""
        roster, document = self.roster(name).read_text(), self.folder / (name + '.document')
        tick = '{"tick":%d}\n' % (int(time.time()) + 8 * 86400)
        subprocess.run([self.adx, 'day', '--journal', str(self.journal(name))], input=roster + tick, text=True, check=True,
                       stdout=subprocess.DEVNULL, timeout=120)
        with open(document, 'wb') as out:
            subprocess.run([self.adx, 'close', '--journal', str(self.journal(name))], input=roster.encode(), check=True, stdout=out, timeout=120)
        return document

    def file_day(self, merge_days: str, names: Optional[list[str]] = None, without: tuple[str, ...] = ()) -> int:
        """Files the documents of a day's exchanges, which have ended, and the fleet's without those whose journals are lost; the merged bound."""
        connection = self.connect()
        documents = {name: self.close(name) for name in names or self.names}
        for name, document in documents.items():
            archive.put(connection, self.adx, name, document)
        bound = archive.put_fleet(connection, self.adx, merge_days, list(documents.values()), self.folder / 'fleet.document', without)
        connection.close()
        return bound


def two_bidders(campaigns: int) -> list[dict]:
    """Price lines of two bidders with so many campaigns each."""
    return [{'seat': seat, 'prices': [{'cid': '%s%d' % (seat, at), 'price': float(low + 37 * at) / 100} for at in range(campaigns)]}
            for seat, low in (('n', 150), ('s', 163))]


def main() -> None:
    parser = argparse.ArgumentParser(description='A fleet of exchanges in a scratch folder.')
    parser.add_argument('what', choices=['up', 'config'])
    parser.add_argument('count', type=int)
    parser.add_argument('--adx', default='./adx')
    parser.add_argument('--seconds', type=float, default=30)
    parser.add_argument('--budget', type=int, default=2 * 10 ** 9, help='units for each campaign')
    parser.add_argument('--merge-days', help='tools/merge-days of the project: files the day at the end')
    options = parser.parse_args()
    if options.count < 1:
        parser.error('count is 1 or more')
    for program in [options.adx, options.merge_days] if options.what == 'up' else []:
        if program and not (os.path.isfile(program) and os.access(program, os.X_OK)):
            sys.exit('fleet: %s: no such program' % program)
    if options.what == 'up' and lacking():
        sys.exit('fleet: this system has no %s (Debian: apt-get install haproxy postgresql python3-psycopg2)' % ' and no '.join(lacking()))
    if options.what == 'config':
        print(haproxy_config('/run/adx', 8080, [('x%d' % at, 8100 + at) for at in range(1, options.count + 1)], 16))
        return
    import load
    with Fleet(os.path.abspath(options.adx), options.count, '2025-03-01', two_bidders(4), options.budget) as fleet:
        fleet.up()
        fleet.start_controller('controller', 1.0)
        print('the door is at http://127.0.0.1:%d/openrtb, for %g seconds' % (fleet.door, options.seconds), flush=True)
        print('load     %s' % load.run(fleet.door, options.seconds, 8))
        fleet.stop('controller', signal.SIGTERM)
        for name in fleet.names:
            fleet.stop(name, signal.SIGTERM)
        if options.merge_days:
            print('bound    %d' % fleet.file_day(options.merge_days))
            with fleet.connect() as connection, connection.cursor() as cursor:
                cursor.execute('SELECT seat, cid, budget, committed, billed FROM fleet_campaign ORDER BY 1, 2')
                for row in cursor.fetchall():
                    print('campaign %s %s budget %s committed %s billed %s' % row)


if __name__ == '__main__':
    main()
