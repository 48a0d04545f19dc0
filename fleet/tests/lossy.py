"""A small proxy between a controller and an exchange that loses, repeats and delays requests and answers, and writes down what it let through."""
import random
import socket
import threading
import time
import urllib.parse
from dataclasses import dataclass, field
from typing import Optional


@dataclass
class Passed:
    """A change of a budget that was sent on: when, and when and how it was answered, if it was."""
    exchange: str
    campaign: tuple[str, str]
    number: int
    budget: str
    sent: float
    answered: Optional[float] = None
    status: int = 0


@dataclass
class Lossy:
    """Listens at a free port for an exchange's. rates are the parts of requests that are lost, answered in vain, sent twice, and late."""
    name: str
    target: int
    seed: int = 1
    rates: tuple[float, float, float, float] = (0.08, 0.08, 0.08, 0.04)
    passed: list[Passed] = field(default_factory=list)
    counts: dict[str, int] = field(default_factory=dict)

    def __post_init__(self) -> None:
        self.rng, self.lock = random.Random(self.seed), threading.Lock()
        self.listener = socket.create_server(('127.0.0.1', 0), backlog=64)
        self.port = self.listener.getsockname()[1]
        threading.Thread(target=self.listen, daemon=True).start()

    def listen(self) -> None:
        while True:
            try:
                client, _ = self.listener.accept()
            except OSError:
                return
            threading.Thread(target=self.serve, args=(client,), daemon=True).start()

    def close(self) -> None:
        self.listener.close()

    def serve(self, client: socket.socket) -> None:
        with client:
            client.settimeout(5)
            head = b''
            try:
                while b'\r\n\r\n' not in head:
                    more = client.recv(65536)
                    if not more:
                        return
                    head += more
                with self.lock:
                    dice, wait = self.rng.random(), self.rng.uniform(0.3, 4)
                lost, vain, twice, late = self.rates
                what = ('lost' if dice < lost else 'vain' if dice < lost + vain else 'twice' if dice < lost + vain + twice
                        else 'late' if dice < lost + vain + twice + late else 'passed')
                with self.lock:
                    self.counts[what] = self.counts.get(what, 0) + 1
                if what in ('twice', 'late'):
                    timer = threading.Timer(wait, self.forward, (head,))
                    timer.daemon = True
                    timer.start()
                if what in ('vain', 'twice', 'passed'):
                    answer = self.forward(head)
                    if what != 'vain' and answer:
                        client.sendall(answer)
            except OSError:
                return

    def forward(self, head: bytes) -> bytes:
        row = None
        first, rest = head.split(b'\r\n', 1)
        method, path, _ = first.decode().split(' ')
        head = first + b'\r\nConnection: close\r\n' + rest                      # a connection for each request
        if method == 'POST':
            query = dict(urllib.parse.parse_qsl(urllib.parse.urlsplit(path).query))
            row = Passed(self.name, (query['seat'], query['cid']), int(query['change']), query['budget'], time.monotonic())
            self.passed.append(row)
        try:
            with socket.create_connection(('127.0.0.1', self.target), timeout=5) as exchange:
                exchange.sendall(head)
                answer = b''.join(iter(lambda: exchange.recv(65536), b''))
        except OSError:
            return b''
        if row and answer:
            row.status, row.answered = int(answer.split(b' ', 2)[1]), time.monotonic()
        return answer
