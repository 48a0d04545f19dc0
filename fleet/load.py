#!/usr/bin/python3
"""Publishers of a fleet: asks and notices through its door, each sent again with the same id until it is answered.

    load.py --port PORT --seconds 10 --threads 8
"""
import argparse
import collections
import json
import random
import re
import socket
import threading
import time

LENGTH = re.compile(rb'\r\ncontent-length: *(\d+)', re.I)
CLOSES = re.compile(rb'\r\nconnection: *close', re.I)


class Publisher:
    """A thread's calls, over a connection that it keeps."""

    def __init__(self, port: int, number: int, patience: float, seed: int) -> None:
        self.port, self.number, self.patience, self.rng = port, number, patience, random.Random(seed * 1000 + number)
        self.connection: socket.socket | None = None
        self.counts: collections.Counter = collections.Counter()
        self.billed: collections.Counter = collections.Counter()      # units by seat and cid, as the prices of answers say
        self.problems: list[str] = []

    def once(self, method: str, path: str, body: bytes = b'') -> tuple[int, bytes]:
        """One call, without http.client, which takes three times the processor. Every failure is an OSError."""
        try:
            if self.connection is None:
                self.connection = socket.create_connection(('127.0.0.1', self.port), timeout=15)
                self.connection.setsockopt(socket.IPPROTO_TCP, socket.TCP_NODELAY, 1)
            self.connection.sendall(b'%s %s HTTP/1.1\r\nHost: x\r\nContent-Length: %d\r\n\r\n%s' % (method.encode(), path.encode(), len(body), body))
            said = self.connection.recv(65536)
            while b'\r\n\r\n' not in said:
                said += self.more()
            head, said = said.split(b'\r\n\r\n', 1)
            length = LENGTH.search(head)
            while length and len(said) < int(length.group(1)):
                said += self.more()
            if CLOSES.search(head):
                self.leave()
            return int(head[9:12]), said
        except (OSError, ValueError) as error:
            self.leave()
            raise OSError('no answer') from error

    def more(self) -> bytes:
        more = self.connection.recv(65536)
        if not more:
            raise OSError('it ended')
        return more

    def leave(self) -> None:
        if self.connection:
            self.connection.close()
        self.connection = None

    def call(self, method: str, path: str, body: bytes = b'') -> tuple[int, bytes]:
        """Again and again until there is an answer below 500."""
        end = time.monotonic() + self.patience
        while True:
            try:
                status, said = self.once(method, path, body)
                if status < 500:
                    return status, said
                self.counts['answers %d' % status] += 1
            except OSError:
                self.counts['no answer'] += 1
            if time.monotonic() > end:
                self.problems.append('given up: %s %s' % (method, path))
                return 0, b''
            time.sleep(self.rng.uniform(0.05, 0.3))

    def ask(self, count: int) -> None:
        name = '%d-%d-%d' % (self.number, count, self.rng.randrange(10 ** 6))
        body = json.dumps({'id': name, 'imp': [{'id': '1', 'bidfloor': self.rng.choice([0.5, 1.6, 2.1])}]}).encode()
        path = '/openrtb?auction=' + name if self.rng.random() < 0.5 else '/openrtb'      # by the query, or by the body's id
        status, said = self.call('POST', path, body)
        self.counts['asks'] += 1
        if self.rng.random() < 0.05:
            path = '/openrtb?auction=' + name if self.rng.random() < 0.5 else '/openrtb'
            again = self.call('POST', path, body)
            self.counts['asks again'] += 1
            if status and again[0] and again != (status, said):
                self.problems.append('another answer to %s: %s %s' % (name, status, again[0]))
        if status != 200:
            self.counts['without a sale' if status == 204 else 'status %d' % status] += 1
            return
        for seat in json.loads(said)['seatbid']:
            for bid in seat['bid']:
                self.notice(seat['seat'], bid)

    def notice(self, seat: str, bid: dict) -> None:
        self.counts['sold'] += 1
        chance = self.rng.random()
        if chance < 0.04:
            return                                                      # no notice ever: it stays open
        kind = 'lurl' if chance < 0.10 else 'burl'
        path = '/' + bid[kind].split('/', 3)[3]
        for _ in range(2 if self.rng.random() < 0.05 else 1):
            status, _ = self.call('GET', path)
            if status not in (204, 0):
                self.problems.append('%d to %s' % (status, path))
        if kind == 'burl' and status == 204:
            self.counts['bills'] += 1
            self.billed[seat, bid['cid']] += round(bid['price'] * 10 ** 6)
        else:
            self.counts['losses'] += 1

    def run(self, end: float, most: int) -> None:
        count = 0
        while time.monotonic() < end and count < most:
            self.ask(count)
            count += 1


def start(port: int, seconds: float, threads: int, patience: float = 60, seed: int = 1, most: int = 10 ** 9) -> tuple[list[threading.Thread], list[Publisher]]:
    publishers = [Publisher(port, number, patience, seed) for number in range(threads)]
    end = time.monotonic() + seconds
    workers = [threading.Thread(target=publisher.run, args=(end, most), daemon=True) for publisher in publishers]
    for worker in workers:
        worker.start()
    return workers, publishers


def total(publishers: list[Publisher]) -> tuple[collections.Counter, collections.Counter, list[str]]:
    return (sum((p.counts for p in publishers), collections.Counter()), sum((p.billed for p in publishers), collections.Counter()),
            [problem for p in publishers for problem in p.problems])


def run(port: int, seconds: float, threads: int, **more: int) -> dict:
    workers, publishers = start(port, seconds, threads, **more)
    for worker in workers:
        worker.join()
    counts, _, problems = total(publishers)
    return {**counts, 'problems': len(problems)}


def main() -> None:
    parser = argparse.ArgumentParser(description='A load for a fleet.')
    parser.add_argument('--port', type=int, required=True)
    parser.add_argument('--seconds', type=float, default=10)
    parser.add_argument('--threads', type=int, default=8)
    options = parser.parse_args()
    print(json.dumps(run(options.port, options.seconds, options.threads)))


if __name__ == '__main__':
    main()
