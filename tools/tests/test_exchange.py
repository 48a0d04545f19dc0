"""Tests of tools/exchange.py: python3 -m unittest discover tools/tests"""
import http.server
import importlib.machinery
import importlib.util
import json
import os
import random
import socket
import sys
import threading
import time
import unittest
from fractions import Fraction

sys.dont_write_bytecode = True
TOOLS = os.path.dirname(os.path.dirname(os.path.realpath(__file__)))
sys.path[:0] = [TOOLS]
import exchange as lib


def tool(name):
    """A tool as a module."""
    loader = importlib.machinery.SourceFileLoader('tool_' + name.replace('-', '_'), os.path.join(TOOLS, name))
    module = importlib.util.module_from_spec(importlib.util.spec_from_loader(loader.name, loader))
    loader.exec_module(module)
    return module


METERS = dict(zip(lib.METERS, (2, 1, 1, 0, 1, 0, 0, 0, 2500000)))
ROWS = [{'seat': 's1', 'cid': 'c1', 'budget': 10000000, 'reserved': 0, 'billed': 2500000, 'slab': 25}]


class Fake(http.server.BaseHTTPRequestHandler):
    """An exchange that answers what its server says, and counts."""
    protocol_version = 'HTTP/1.1'

    def setup(self):
        super().setup()
        self.server.connections += 1
        self.server.open += 1

    def finish(self):
        super().finish()
        self.server.open -= 1

    def do_GET(self):
        self.server.asked.append((time.monotonic(), self.command, self.path))
        self.server.last = self.headers.get('Connection')
        if self.server.silent:
            time.sleep(self.server.silent)
        if self.path == '/meters':
            body = json.dumps(self.server.meters)
        elif self.path == '/books':
            body = ''.join(json.dumps(row, ensure_ascii=False) + '\n' for row in self.server.rows + [{'asks': 1, 'awards': 1, 'entries': self.server.meters['entries']}])
        else:
            return self.reply(*self.server.answer)
        self.reply(200, self.server.garbage or body)

    do_POST = do_GET

    def reply(self, status, body):
        self.send_response(status)
        self.send_header('Content-Length', str(len(body.encode())))
        self.end_headers()
        for byte in body.encode() if self.server.trickle else ():
            time.sleep(self.server.trickle)
            self.wfile.write(bytes([byte]))
        if not self.server.trickle:
            self.wfile.write(body.encode())

    def log_message(self, *_):
        pass


def fake():
    server = http.server.ThreadingHTTPServer(('127.0.0.1', 0), Fake)
    server.daemon_threads, server.handle_error = True, lambda *_: None
    server.connections, server.open, server.asked, server.silent, server.garbage, server.trickle = 0, 0, [], 0, None, 0
    server.meters, server.rows, server.answer = dict(METERS), [dict(row) for row in ROWS], (204, '')
    threading.Thread(target=server.serve_forever, kwargs={'poll_interval': 0.02}, daemon=True).start()
    server.address = '127.0.0.1:%d' % server.server_port
    return server


class Money(unittest.TestCase):
    def test_dollars(self):
        for units, text, for_people in ((0, '0', '$0.00'), (1, '0.000000001', '$0.000000001'), (2500000, '0.0025', '$0.0025'), (10 ** 9, '1', '$1.00'),
                                        (1024 * 10 ** 15, '1024000000', '$1,024,000,000.00'), (1234567890123456789, '1234567890.123456789', '$1,234,567,890.123456789'),
                                        (-1500000000, '-1.5', '-$1.50'), (9007199254740993, '9007199.254740993', '$9,007,199.254740993')):
            self.assertEqual((lib.dollars(units), lib.shown_dollars(units)), (text, for_people))

    def test_there_and_back(self):
        rng = random.Random(1)
        for _ in range(2000):
            units = rng.randrange(1, 10 ** rng.randrange(1, 16))
            self.assertEqual(lib.units_of(lib.dollars(units)), units)
            self.assertEqual(Fraction(lib.dollars(units)) * 10 ** 9, units)

    def test_no_budget(self):
        for text in ('', '0', '0.0', '-1', '+1', '1e3', '.5', '5.', '1,000', ' 1', '1 ', '1\n', '0.0000000001', '1000000.000000001', '10000000', 'NaN', '\u0661', '\uff11', '0x10', '1_000'):
            with self.assertRaises(ValueError, msg=text):
                lib.units_of(text)

    def test_discounts(self):
        self.assertEqual([lib.DISCOUNTS[k] for k in (0, 1, 2, 49, 99, 100)], [10 ** 9, 994134250, 988209843, 631426607, 15707589, 0])


class Lines(unittest.TestCase):
    def test_books(self):
        body = '{"seat":"s","cid":"\u6771\\u001f\\"","budget":1000000000000000,"reserved":0,"billed":1,"slab":0}\n{"asks":1,"awards":1,"entries":3}\n'
        rows, counts = lib.read_books(body.encode())
        self.assertEqual((rows[0]['cid'], rows[0]['budget'], counts['entries']), ('\u6771\x1f"', 10 ** 15, 3))

    def test_no_books(self):
        good = '{"seat":"s","cid":"c","budget":1,"reserved":0,"billed":1,"slab":0}\n'
        last = '{"asks":1,"awards":1,"entries":3}\n'
        for body in ('', 'x', '[]', good, last + good, good.replace('"budget":1', '"budget":1.5') + last, good.replace('"budget":1', '"budget":true') + last,
                     good.replace('"s"', '5') + last, good.replace('"reserved":0', '"reserved":-1') + last, '[' * 5000):
            with self.assertRaises((ValueError, RecursionError), msg=body[:40]):
                lib.read_books(body.encode())

    def test_shown(self):
        self.assertEqual(lib.shown('a\u202eb\n\x1b[31m \u00a0\u6771'), 'a\\u{202e}b\\u{a}\\u{1b}[31m \\u{a0}\u6771')


class Asking(unittest.TestCase):
    def setUp(self):
        self.fake = fake()
        self.now = 0.0
        self.figures = lib.Figures(lib.Exchange(self.fake.address, 0.5), clock=lambda: self.now)

    def tearDown(self):
        self.fake.shutdown()
        self.fake.server_close()

    def paths(self):
        return [path for _, _, path in self.fake.asked]

    def test_once_a_second_however_many(self):
        threads = [threading.Thread(target=self.figures.fresh) for _ in range(50)]
        for thread in threads:
            thread.start()
        for thread in threads:
            thread.join()
        self.assertEqual((self.paths(), self.fake.connections, self.fake.last), (['/meters', '/books'], 1, 'close'))
        self.now = 0.9
        self.figures.fresh()
        self.assertEqual(len(self.fake.asked), 2)

    def test_books_where_they_moved_and_each_half_minute(self):
        self.assertTrue(self.figures.fresh())
        self.now = 2
        self.figures.fresh()
        self.assertEqual(self.paths()[2:], ['/meters'])
        self.fake.meters['entries'] += 1
        self.now = 4
        self.figures.fresh()
        self.assertEqual(self.paths()[3:], ['/meters', '/books'])
        self.now = 40
        self.figures.fresh()
        self.assertEqual(self.paths()[5:], ['/meters', '/books'])
        end = time.monotonic() + 10
        while self.fake.open and time.monotonic() < end:
            time.sleep(0.02)
        self.assertEqual(self.fake.open, 0)                     # no worker is held

    def test_failing(self):
        self.figures.fresh()
        self.fake.garbage = '{"entries":1e400}'
        waits = []
        for _ in range(8):
            self.now = self.figures.next
            self.assertFalse(self.figures.fresh())
            waits.append(round(self.figures.next - self.now))
        self.assertEqual(waits, [2, 4, 8, 16, 30, 30, 30, 30])
        self.assertEqual(self.figures.rows, ROWS)                # what was there stays
        since = self.figures.since
        self.fake.garbage = None
        self.now = self.figures.next
        self.assertTrue(self.figures.fresh())
        self.assertGreaterEqual(self.figures.since, since)
        self.assertEqual(self.figures.why, '')

    def test_silent(self):
        self.fake.silent = 1
        self.assertFalse(self.figures.fresh())
        self.assertEqual(self.figures.why, 'no answer within 0.5 seconds')

    def test_trickle(self):
        """A byte now and then doesn't make an asking longer than its time."""
        self.fake.trickle = 0.2
        begun = time.monotonic()
        self.assertFalse(self.figures.fresh())
        self.assertLess(time.monotonic() - begun, 15)           # of half a minute that the bytes would take
        self.assertEqual(self.figures.why, 'no answer within 0.5 seconds')

    def test_long_reply(self):
        self.fake.garbage = ' ' * (lib.LONGEST + 1)
        self.figures.exchange.timeout = 30
        self.assertFalse(self.figures.fresh())
        self.assertEqual(self.figures.why, 'a reply of the exchange is too long')

    def test_slow(self):
        """A slow answer makes the pace slow, and quick ones make it quick again by and by."""
        waits = []
        for took in (0, 0.2, 0, 0, 1, 9, 0, 0):
            self.figures.next, begun = None, self.now
            self.figures.ask = lambda _, took=took: setattr(self, 'now', self.now + took)
            self.figures.fresh()
            waits.append(self.figures.next - begun)
        self.assertEqual(waits, [1, 2, 1, 1, 10, 30, 15, 7.5])

    def test_no_exchange(self):
        """What answers is something else: a sentence each, without what a terminal would obey."""
        for reply, why in ((b'', 'the connection was closed without an answer'), (b'SSH-2.0-x\x1b[31m\r\n', 'what answers there doesn\'t speak HTTP: SSH-2.0-x\\u{1b}[31m'),
                           (b'HTTP/1.1 404 Not Found\r\nContent-Length: 0\r\n\r\n', 'the exchange answered 404 at /meters'),
                           (b'HTTP/1.1 200 OK\r\nContent-Length: 9\r\n\r\n<!DOCTYPE', 'what answers there is no exchange, or none of this version: b\'<!DOCTYPE\''),
                           (b'HTTP/1.1 200 OK\r\nContent-Length: 2\r\n\r\n[]', 'what answers there is no exchange, or none of this version: b\'[]\''),
                           (b'HTTP/1.1 200 OK\r\nContent-Length: 50\r\n\r\n{"entries', 'the answer was cut short')):
            with socket.socket() as server:
                server.bind(('127.0.0.1', 0))
                server.listen()

                def answer():
                    connection, _ = server.accept()
                    with connection:
                        connection.recv(4096)
                        connection.sendall(reply)
                thread = threading.Thread(target=answer)
                thread.start()
                figures = lib.Figures(lib.Exchange('127.0.0.1:%d' % server.getsockname()[1]))
                self.assertFalse(figures.fresh())
                thread.join()
                self.assertEqual(figures.why, why)

    def test_nobody_there(self):
        figures = lib.Figures(lib.Exchange('127.0.0.1:9'))
        self.assertFalse(figures.fresh())
        self.assertEqual(figures.why, 'Connection refused')

    def test_address(self):
        for text in ('8080', ':8080', 'h:', 'h:x', 'h:0', 'h:65536', ''):
            with self.assertRaises(ValueError, msg=text):
                lib.Exchange(text)


if __name__ == '__main__':
    unittest.main()
