"""Tests of tools/board and tools/metrics, over an exchange that is none; with ADX also over `adx serve`."""
import http.client
import json
import os
import shutil
import stat
import subprocess
import sys
import tempfile
import threading
import unittest

from test_exchange import TOOLS, fake, lib, tool
import test_journal
import world

board, metrics = tool('board'), tool('metrics')


class OverFake(unittest.TestCase):
    allowed = True

    def setUp(self):
        self.fake = fake()
        self.board = board.Board(lib.Figures(lib.Exchange(self.fake.address), 1), self.allowed)
        self.board.look()
        self.board.follow = lambda: None
        self.server = board.serving(self.board, 0)
        threading.Thread(target=self.server.serve_forever, kwargs={'poll_interval': 0.02}, daemon=True).start()
        self.host = '127.0.0.1:%d' % self.server.server_port
        self.said, sys.stderr = sys.stderr, open(os.devnull, 'w', encoding='utf-8')

    def tearDown(self):
        sys.stderr.close()
        sys.stderr = self.said
        for server in (self.server, self.fake):
            server.shutdown()
            server.server_close()

    def call(self, method, path, body=None, **heads):
        connection = http.client.HTTPConnection('127.0.0.1', self.server.server_port, timeout=10)
        try:
            heads = {'Host': self.host, **{name.replace('_', '-'): value for name, value in heads.items()}}
            connection.request(method, path, body, {name: value for name, value in heads.items() if value is not None})
            reply = connection.getresponse()
            return reply, reply.read()
        finally:
            connection.close()

    def change(self, **other):
        heads = {'Origin': 'http://' + self.host, 'Content_Type': 'application/json', 'X_Board_Token': self.server.token, 'body': None, **other}
        body = heads.pop('body') or {'seat': 's1', 'cid': 'c1', 'change': 1, 'budget': '0.02'}
        reply, answer = self.call('POST', '/budget', body if isinstance(body, (str, bytes)) else json.dumps(body), **heads)
        return reply.status, json.loads(answer) if reply.status == 200 else answer.decode()

    def posted(self):
        return [path for _, method, path in self.fake.asked if method == 'POST']


class Pages(OverFake):
    def test_page(self):
        reply, page = self.call('GET', '/')
        policy = reply.headers['Content-Security-Policy']
        nonce = policy.split("script-src 'nonce-")[1].split("'")[0]
        self.assertIn(('<script nonce="%s">' % nonce).encode(), page)
        self.assertIn(self.server.token.encode(), page)
        self.assertNotIn(b'NONCE', page)
        self.assertNotIn("'unsafe", policy)
        self.assertIn("frame-ancestors 'none'", policy)
        self.assertNotIn(nonce, self.call('GET', '/')[0].headers['Content-Security-Policy'])
        for word in (b'http://', b'https://', b'@import', b'innerHTML', b' src=', b'<link rel="stylesheet'):
            self.assertNotIn(word, page.replace(b'http://www.w3.org/2000/svg', b'').replace(b'http://127.0.0.1', b''), word)

    def test_other_hosts(self):
        for host in ('evil.example', 'evil.example:8090', '127.0.0.1.evil.example', 'localhost.evil:80', '', '127.0.0.1:80\x00', '[::1]:80', 'LOCALHOST@evil', None):
            for path in ('/', '/state'):
                reply, body = self.call('GET', path, Host=host) if host is not None else self.call('GET', path, Host='x')
                self.assertIn(reply.status, (400, 403), host)
                self.assertNotIn(self.server.token.encode(), body)
        for host in ('127.0.0.1', 'localhost', 'localhost:9000', '127.0.0.1:9000'):
            self.assertEqual(self.call('GET', '/', Host=host)[0].status, 200)

    def test_state(self):
        state = json.loads(self.call('GET', '/state')[1])
        self.assertEqual(state['rows'], [[0, 's1', 'c1', '10000000', '0', '2500000', 25, 1]])
        self.assertEqual((state['all'], state['ok'], state['totals'], len(state['points'])), (True, True, ['10000000', '0', '2500000'], 1))
        after = json.loads(self.call('GET', '/state?since=' + state['since'])[1])
        self.assertEqual((after['all'], after['rows'], after['points']), (False, [], []))
        for since in ('x', '1', '1.', '9.9', '1.-1', '1.1e1', '\u0661.1', '1.1&since=2', state['since'].split('.')[0] + '.' + '9' * 5000):
            self.assertEqual(self.call('GET', '/state?since=' + since.encode().decode('latin-1') if since.isascii() else '/state?since=%D9%A1.1')[0].status, 200)

    def test_only_what_changed_and_another_day(self):
        self.fake.rows.append(dict(self.fake.rows[0], cid='c2'))
        self.board.figures.next = None
        self.fake.meters['entries'] += 1
        self.board.look()
        first = self.board.state('')
        self.fake.rows[1]['billed'] = 7
        self.fake.meters['entries'] += 1
        self.board.figures.next = None
        self.board.look()
        state = self.board.state(first['since'])
        self.assertEqual([(row[0], row[5]) for row in state['rows']], [(1, '7')])
        self.fake.meters.update(entries=0, asks=0)
        self.board.figures.next = None
        self.board.look()
        again = self.board.state(state['since'])
        self.assertEqual((again['all'], len(again['rows']), len(again['points'])), (True, 2, 1))

    def test_another_board(self):
        """A page that a board from before served takes everything anew."""
        since = self.board.state('')['since']
        other = board.Board(self.board.figures, False)
        other.look()
        self.assertTrue(other.state(since)['all'])

    def test_many_viewers(self):
        before = len(self.fake.asked)
        threads = [threading.Thread(target=lambda: [self.call('GET', '/state') for _ in range(5)]) for _ in range(20)]
        for thread in threads:
            thread.start()
        for thread in threads:
            thread.join()
        self.assertEqual(len(self.fake.asked), before)

    def test_other_paths(self):
        self.assertEqual(self.call('GET', '/board.html')[0].status, 404)
        self.assertEqual(self.call('GET', '/../board')[0].status, 404)
        self.assertEqual(self.call('PUT', '/budget', 'x')[0].status, 501)
        self.assertEqual(self.call('HEAD', '/')[1], b'')


class OfJournal(OverFake):
    """The last auctions, with a journal that grows beside the board."""

    def setUp(self):
        super().setUp()
        self.folder = tempfile.TemporaryDirectory()
        self.path = os.path.join(self.folder.name, 'today.journal')
        self.board.journal = board.LastAuctions(self.path, 100)
        self.w = test_journal.Writer(2).add(bytes(32))

    def tearDown(self):
        self.board.journal.close()
        self.folder.cleanup()
        super().tearDown()

    def look(self):
        with open(self.path, 'wb') as file:
            file.write(self.w.bytes)
        self.board.look_at_journal()

    def state(self, since=''):
        return json.loads(self.call('GET', '/state?since=' + since)[1])

    def test_only_what_changed(self):
        self.assertIsNone(board.Board(self.board.figures, False).state('')['journal'])
        self.board.look_at_journal()
        self.assertEqual(self.state()['journal'], {'file': 'today.journal', 'ok': False, 'says': 'No such file or directory.', 'asks': 0, 'first': 0, 'auctions': []})
        for k in range(3):
            self.w.add(self.w.ask('a%d' % k, 1740787200 + k, k, ['1'], [(0, 0, 2500, 3600, 0), (0, 0, 0, 0, 104)]))
        self.look()
        first = self.state()
        self.assertEqual([a[0] for a in first['journal']['auctions']], [0, 1, 2])
        self.assertEqual(first['journal']['auctions'][2][4][0], ['1', 0, None, '2500', 0, 10 ** 9])
        self.assertEqual(self.state(first['since'])['journal']['auctions'], [])
        self.w.add(self.w.notice('bill', 1)).add(self.w.ask('a3', 1740787204, 3, ['1'], []))
        self.look()
        after = self.state(first['since'])
        self.assertEqual([(a[0], a[5]) for a in after['journal']['auctions']], [(1, [[0, 'billed', False]]), (3, [])])
        self.w.bytes += b'\1'
        self.w.bytes = self.w.bytes[:-2] + b'\1'
        self.look()
        broken = self.state(after['since'])['journal']
        self.assertEqual((broken['ok'], broken['auctions'], broken['asks']), (False, [], 4))
        self.assertIn('It is cut', broken['says'])

    def test_a_hundred(self):
        for k in range(130):
            self.w.add(self.w.ask('a%d' % k, k, 0, ['1'], []))
        self.look()
        state = self.state()['journal']
        self.assertEqual((state['first'], state['asks'], len(state['auctions'])), (30, 130, 100))
        os.remove(self.path)
        self.w = test_journal.Writer(2).add(bytes(32)).add(self.w.ask('b', 1, 0, ['1'], []))
        self.look()
        state = self.state()['journal']
        self.assertEqual((state['first'], state['asks'], [a[2] for a in state['auctions']]), (0, 1, ['b']))

    def test_words(self):
        """Each reason has its words in the page."""
        page = self.call('GET', '/')[1].decode()
        self.assertIn('const reasons = {"0": "it won",', page)
        self.assertEqual(set(board.REASONS), {0, 3, 4, 100, 101, 102, 104, 205, 209, 1001})


class Changes(OverFake):
    def test_taken(self):
        self.fake.rows[0]['budget'] = 20000000
        status, answer = self.change()
        self.assertEqual((status, answer['status'], answer['next']), (200, 204, 2))
        self.assertEqual(self.posted(), ['/budget?seat=s1&cid=c1&change=1&budget=0.02'])
        self.assertEqual(self.board.state('')['rows'][0][7], 2)

    def test_names_of_any_text(self):
        self.change(body={'seat': 's&cid=x', 'cid': ' \u6771+%\r\nGET / ', 'change': 4294967295, 'budget': '0.000000001'})
        self.assertEqual(self.posted(), ['/budget?seat=s%26cid%3Dx&cid=%20%E6%9D%B1%2B%25%0D%0AGET%20%2F%20&change=4294967295&budget=0.000000001'])

    def test_not_from_the_page(self):
        for other in ({'Origin': None}, {'Origin': 'http://evil.example'}, {'Origin': 'null'}, {'Origin': 'https://' + self.host}, {'Origin': 'http://127.0.0.1:1'}, {'Host': 'evil.example'},
                      {'Content_Type': 'text/plain'}, {'Content_Type': 'application/x-www-form-urlencoded'}, {'X_Board_Token': None}, {'X_Board_Token': 'x'},
                      {'X_Board_Token': '\u00fc'.encode().decode('latin-1')}, {'Sec_Fetch_Site': 'cross-site'}, {'Sec_Fetch_Site': 'same-site'}):
            self.assertEqual(self.change(**other)[0], 403, other)
        self.assertEqual(self.posted(), [])

    def test_no_change(self):
        for body in ('', 'x', '[]', '{}', '[' * 8000, 'x' * 9000, {'seat': 's', 'cid': 'c', 'change': 0, 'budget': '1'}, {'seat': 's', 'cid': 'c', 'change': True, 'budget': '1'},
                     {'seat': 's', 'cid': 'c', 'change': 1 << 32, 'budget': '1'}, {'seat': 5, 'cid': 'c', 'change': 1, 'budget': '1'}, {'seat': 's', 'cid': 'c', 'change': 1, 'budget': '1e9'},
                     {'seat': 's', 'cid': 'c', 'change': 1, 'budget': 0.1 + 0.2}):
            self.assertEqual(self.change(body=body if body != '' else ' ')[0], 400, str(body)[:60])
        self.assertEqual(self.posted(), [])

    def test_word_by_word(self):
        for answer, said, after in (((409, '{"answer":"late","last":7}'), 'the number 7', 8), ((409, '{"answer":"budgetreused","kept":60000000}'), '$0.06 before', 2),
                                    ((409, '{"answer":"below","committed":2500000}'), '$0.0025 are committed', 1), ((404, '{"answer":"nocampaign"}'), 'no such campaign', 1),
                                    ((503, '{"answer":"dayfull","which":"changes","count":1000001}'), 'full', 1), ((500, '{"answer":"diskfault"}'), 'disk', 1), ((418, '<b>"'), 'Nothing', 1),
                                    ((204, ''), 'had this change already', 2)):
            self.fake.answer = answer
            got = self.change()[1]
            self.assertEqual((got['status'], got['body'], got['next']), (*answer, after))
            self.assertIn(said, got['says'])

    def test_no_answer(self):
        self.board.figures.exchange = lib.Exchange('127.0.0.1:9')
        got = self.change(body={'seat': 's1', 'cid': 'c1', 'change': 3, 'budget': '1'})[1]
        self.assertEqual((got['status'], got['next']), (0, 3))
        self.assertIn('counts once', got['says'])


class Off(OverFake):
    allowed = False

    def test_off(self):
        self.assertEqual(self.change()[0], 403)
        self.assertEqual(self.posted(), [])
        self.assertFalse(self.board.state('')['changes'])


class Metrics(unittest.TestCase):
    def setUp(self):
        self.fake = fake()
        self.fake.rows = [{'seat': 'a\\b"c\nd', 'cid': '\u6771{x="1"} 2', 'budget': 10 ** 15, 'reserved': 1, 'billed': 9007199254740993, 'slab': 99}]
        self.figures = lib.Figures(lib.Exchange(self.fake.address))
        self.figures.fresh()

    def tearDown(self):
        self.fake.shutdown()
        self.fake.server_close()

    def test_text(self):
        text = metrics.exposed(self.figures)
        labels = '{seat="a\\\\b\\"c\\nd",cid="\u6771{x=\\"1\\"} 2"} '
        for line in ('adx_up 1', 'adx_awards_total 1', 'adx_open_awards 0', 'adx_billed_dollars_total 0.0025', 'adx_campaign_budget_dollars' + labels + '1000000',
                     'adx_campaign_billed_dollars_total' + labels + '9007199.254740993', 'adx_campaign_reserved_dollars' + labels + '0.000000001',
                     'adx_campaign_discount_ratio' + labels + '0.015707589', 'adx_campaigns_spent 1'):
            self.assertIn(line, text.split('\n'))
        self.assertNotIn('seat=', metrics.exposed(self.figures, False))

    @unittest.skipUnless(shutil.which('promtool'), 'no promtool')
    def test_promtool(self):
        for campaigns in (True, False):
            found = subprocess.run(['promtool', 'check', 'metrics'], input=metrics.exposed(self.figures, campaigns).encode(), capture_output=True)
            self.assertEqual((found.returncode, found.stdout, found.stderr), (0, b'', b''))

    def test_down(self):
        self.fake.garbage, self.figures.next = 'x', None
        self.figures.fresh()
        self.assertEqual([line.split(' ')[0] for line in metrics.exposed(self.figures).splitlines() if line[0] != '#'], ['adx_up', 'adx_scrape_duration_seconds'])

    def test_file(self):
        path = os.path.join(os.environ.get('TMPDIR', '/tmp'), 'adx-test-%d.prom' % os.getpid())
        try:
            for address, status in ((self.fake.address, 0), ('127.0.0.1:9', 1)):
                found = subprocess.run([sys.executable, TOOLS + '/metrics', '--exchange', address, '--file', path], capture_output=True)
                with open(path, encoding='utf-8') as file:
                    self.assertIn('\nadx_up %d\n' % (1 - status), file.read())
                self.assertEqual(found.returncode, status)
                self.assertFalse(os.path.exists(path + '.new'))
            os.remove(path)
            os.mkfifo(path)
            found = subprocess.run([sys.executable, TOOLS + '/metrics', '--exchange', self.fake.address, '--file', path], capture_output=True)
            self.assertEqual((found.returncode, found.stderr.decode()), (1, "metrics: %s: isn't a regular file\n" % path))
            self.assertTrue(stat.S_ISFIFO(os.stat(path).st_mode))
        finally:
            os.remove(path)


@unittest.skipUnless(os.access(world.ADX, os.X_OK) and 'ADX' in os.environ, 'ADX names no program')
class OverServe(unittest.TestCase):
    """What the exchange really answers."""

    def test_all(self):
        day = world.World([('north', 'shoes', '0.05'), ('south', 'boats & <b>', '0.04')], {'north': [('shoes', 2.5)], 'south': [('boats & <b>', 2.25)]}, workers=1)
        try:
            world.trade(day, ['a%d' % i for i in range(6)])
            figures = lib.Figures(lib.Exchange('127.0.0.1:%d' % day.port), 1)
            self.assertTrue(figures.fresh(), figures.why)
            self.assertEqual(figures.meters['billed'], sum(row['billed'] for row in figures.rows))
            self.assertEqual(figures.meters['entries'], figures.counts['entries'])
            at = board.Board(figures, True)
            at.look()
            said, sys.stderr = sys.stderr, open(os.devnull, 'w', encoding='utf-8')
            try:
                got = [at.change('south', 'boats & <b>', n, b) for n, b in ((1, 50000000), (1, 60000000), (9, 70000000), (3, 80000000), (1, 50000000), (10, 1))]
                none = at.change('south', 'x', 1, 1)
            finally:
                sys.stderr.close()
                sys.stderr = said
            self.assertEqual([(one['status'], one['next']) for one in got], [(204, 2), (409, 2), (204, 10), (409, 10), (204, 2), (409, 10)])
            self.assertIn('already', got[4]['says'])
            self.assertEqual(none['body'], '{"answer":"nocampaign"}')
            day.kill()
            figures.next = None
            self.assertFalse(figures.fresh())
        finally:
            day.close()


if __name__ == '__main__':
    unittest.main()
