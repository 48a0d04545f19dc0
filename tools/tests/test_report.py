"""Tests of tools/report."""
import collections
import html.parser
import io
import json
import os
import random
import resource
import subprocess
import sys
import tempfile
import unittest

import test_journal
from test_exchange import TOOLS, lib, tool

report = tool('report')
CLOSED = b'''adx-record 2
day 2025-03-01
campaign 0 100 0 "s1" "c1"
campaign 1 10000 2 "s 1" "c \\" 2"
imp 0 "a1" "1" 0 live 0:100 1:100
imp 1 "a 2" "\\" 0 live 0:100" - - 0:100
imp 2 "a3" "1" 1 billed 0:7 1:200
imp 3 "a4" "1" - -
imp 4 "a5" "1" 0 lost 1:50
imp 5 "a6" "1" 0 expired 1:60 1:1
end 6
adx-cert 1
alpha 0 1000000000
alpha 1 11790157
beta 0 99
beta 1 0
beta 2 198
beta 3 0
beta 4 0
beta 5 0
bound 514
'''
RATIO = '{"small":false,"committed":300,"greatest":300,"imps":6,"bound":514,"left":1,"right":2,"holds":true}'


def read(text):
    return report.read(io.BytesIO(text))


class Well(html.parser.HTMLParser):
    """Whether elements are closed in their order, and which there are."""
    OPEN = {'meta', 'br'}

    def __init__(self, text):
        super().__init__()
        self.open, self.seen, self.said, self.text = [], set(), set(), ''
        self.feed(text)
        assert not self.open, self.open

    def handle_starttag(self, tag, attrs):
        self.seen.add(tag)
        self.said |= dict(attrs).keys()
        if tag not in self.OPEN:
            self.open.append(tag)

    def handle_endtag(self, tag):
        if tag not in self.OPEN:
            assert self.open and self.open.pop() == tag, tag

    def handle_data(self, data):
        self.text += data


class Documents(unittest.TestCase):
    def test_sums(self):
        day = read(CLOSED)
        self.assertEqual((day.day, day.imps, day.sold(), day.bound, day.betas), ('2025-03-01', 6, 4, 514, 297))
        self.assertEqual(day.names, [('s1', 'c1'), ('s 1', 'c " 2')])
        self.assertEqual(day.money, {'live': [100, 0], 'billed': [0, 200], 'lost': [0, 50], 'expired': [0, 60]})
        self.assertEqual((list(day.committed), day.budgets, day.changes), ([100, 200], [100, 10000], [0, 2]))
        self.assertEqual(report.groups(day.offers, day.sold_of), [('0', 1, 0), ('1', 2, 1), ('2', 3, 3)])
        self.assertEqual([day.bound_part(i) for i in report.binding(day)], [117, 100])

    def test_format_1(self):
        old = b'adx-record 1\nday 2025-03-01\ncampaign 0 100 "s" "c"\nimp 0 0 billed 0:40\nimp 1 - - 0:70\nend 2\nadx-cert 1\nalpha 0 5\nbeta 0 1\nbeta 1 1\nbound 2\n'
        day = read(old)
        self.assertEqual((day.committed[0], day.sold(), day.changes), (40, 1, [0]))

    def test_no_document(self):
        lines = CLOSED.split(b'\n')
        for k in range(len(lines) - 1):
            with self.assertRaises(report.Fault, msg=lines[k]):
                read(b'\n'.join(lines[:k] + lines[k + 1:]) if not lines[k].startswith((b'day', b'imp')) else b'\n'.join(lines[:k] + [b'x'] + lines[k + 1:]))
            with self.assertRaises(report.Fault):
                read(b'\n'.join(lines[:k]))
        for text in (b'', b'\n', CLOSED[:-1], CLOSED + b'x\n', CLOSED.replace(b'0:100 1:100', b'5:100 1:100'), CLOSED.replace(b' 0 live', b' 2 live'),
                     CLOSED.replace(b'billed', b'sold'), CLOSED.replace(b'1:200', b'1'), b'\xff' * 99, CLOSED.replace(b'"s1"', b'"s1')):
            with self.assertRaises(report.Fault, msg=text[:60]):
                read(text)

    def test_against_a_plain_reading(self):
        """A random day, and its sums by a reading that keeps everything."""
        rng = random.Random(2)
        campaigns = 7
        imps = [[(rng.randrange(campaigns), rng.randrange(1, 10 ** 6)) for _ in range(rng.randrange(30))] for _ in range(5000)]
        text, kept = ['adx-record 2', 'day 2025-03-01'] + ['campaign %d %d 0 "s" "c%d"' % (i, 10 ** 10, i) for i in range(campaigns)], []
        for j, offers in enumerate(imps):
            chosen = rng.randrange(len(offers)) if offers and rng.random() < 0.6 else None
            end = rng.choice(report.ENDS) if chosen is not None else '-'
            kept.append((offers[chosen] if chosen is not None else None, end))
            text.append(' '.join(['imp %d "a b%d" "1" %s %s' % (j, j, '-' if chosen is None else chosen, end)] + ['%d:%d' % o for o in offers]))
        text += ['end %d' % len(imps), 'adx-cert 1'] + ['alpha %d 0' % i for i in range(campaigns)] + ['beta %d 1' % j for j in range(len(imps))] + ['bound 5000', '']
        day = read('\n'.join(text).encode())
        for end in report.ENDS:
            self.assertEqual(day.money[end], [sum(o[1] for o, e in kept if e == end and o[0] == i) for i in range(campaigns)])
        self.assertEqual(list(day.committed), [sum(o[1] for o, e in kept if e in ('billed', 'live') and o[0] == i) for i in range(campaigns)])
        self.assertEqual(sum(n for _, n, _ in report.groups(day.offers, day.sold_of)), 5000)
        self.assertEqual(day.offers[0], sum(not offers for offers in imps))
        self.assertTrue(report.POINTS // 2 <= len(day.points) <= report.POINTS, len(day.points))
        for imps_, sold, committed in day.points:
            self.assertEqual(sold, sum(o is not None for o, _ in kept[:imps_]))
            self.assertEqual(sum(committed), sum(o[1] for o, e in kept[:imps_] if e in ('billed', 'live')))
        self.assertEqual(day.points[-1][0], 5000)
        self.assertEqual([imps for imps, _, _ in day.points[:-1]], [day.stride * (k + 1) for k in range(len(day.points) - 1)])

    def test_percent(self):
        for some, all_, text in ((1, 3, '33.33%'), (2, 3, '66.66%'), (0, 5, '0.00%'), (5, 5, '100.00%'), (1, 0, '–'), (10 ** 30 - 1, 10 ** 30, '99.99%')):
            self.assertEqual(report.percent(some, all_), text)

    def test_ticks(self):
        for top in list(range(1, 200)) + [10 ** 9, 1024 * 10 ** 15, 999, 123456789]:
            found = list(report.ticks(top))
            self.assertTrue(2 <= len(found) <= 7 and found[-1] <= top, (top, found))


# A journal of two campaigns, and the document of its day: of 3 impressions one is billed, one open, one lost.
JOURNAL = test_journal.Writer(2).add(bytes(32))
for _k, _moment in enumerate((1740787200, 1740790800, 1740830400)):
    JOURNAL.add(JOURNAL.ask('a%d' % _k, _moment, _k, ['1'], [(0, 0, 100, 3600, 0) if _k < 2 else (0, 1, 50, 3600, 0)]))
JOURNAL.add(JOURNAL.notice('bill', 0)).add(JOURNAL.notice('loss', 1))
OF_JOURNAL = b"""adx-record 2
day 2025-03-01
campaign 0 1000 0 "s1" "c1"
campaign 1 10000 0 "s1" "c2"
imp 0 "a0" "1" 0 billed 0:100
imp 1 "a1" "1" 0 lost 0:100
imp 2 "a2" "1" 0 live 1:50
end 3
adx-cert 1
alpha 0 0
alpha 1 0
beta 0 100
beta 1 100
beta 2 50
bound 250
"""


class Courses(unittest.TestCase):
    def course(self, data, campaigns=2):
        found = report.Course(campaigns)
        with tempfile.NamedTemporaryFile() as file:
            file.write(data)
            file.flush()
            found.read(file.name)
        return found

    def test_moments(self):
        found, day = self.course(JOURNAL.bytes), read(OF_JOURNAL)
        self.assertTrue(found.is_of(day))
        self.assertEqual([(moment, list(committed), billed) for moment, committed, billed in found.rows()],
                         [(1740787200, [100, 0], 0), (1740790800, [200, 0], 0), (1740830400, [100, 50], 100)])
        for other in (CLOSED, OF_JOURNAL.replace(b'lost', b'live'), OF_JOURNAL.replace(b'billed', b'live'), OF_JOURNAL.replace(b'1:50', b'1:51')):
            self.assertFalse(found.is_of(read(other)))
        self.assertFalse(self.course(JOURNAL.bytes, 1).is_of(read(CLOSED[:0] + OF_JOURNAL.replace(b'campaign 1 10000 0 "s1" "c2"\n', b'').replace(b'alpha 1 0\n', b'').replace(b'1:50', b'0:50'))))

    def test_long_days(self):
        """However long a day is, so many moments are kept, each with the money of its end."""
        w, money, at = test_journal.Writer(2).add(bytes(32)), [], 0
        rng = random.Random(4)
        for k in range(3000):
            at += rng.choice((0, 1, 2, 500))
            w.add(w.ask('a%d' % k, at, k, ['1'], [(0, 0, 7, 3600, 0)]))
            money.append((at, 7 * (k + 1)))
        found = self.course(w.bytes, 1)
        rows = found.rows()
        self.assertTrue(report.POINTS // 3 < len(rows) <= report.POINTS, len(rows))
        self.assertEqual((rows[-1][0], rows[-1][1][0]), money[-1])
        for moment, committed, _ in rows:
            self.assertEqual(committed[0], max(total for when, total in money if when == moment))
        self.assertEqual([row[0] for row in rows], sorted({row[0] for row in rows}))

    def test_ticks(self):
        rng = random.Random(6)
        for _ in range(300):
            first = rng.choice((0, 1740787200)) + rng.randrange(10 ** 5)
            last = first + rng.randrange(10 ** rng.randrange(1, 9))
            found = list(report.time_ticks(first, last))
            self.assertLessEqual(len(found), 8)
            self.assertTrue(all(first <= x <= last for x in found))
            self.assertTrue(len(found) >= 2 or last - first < 8 or len(found) == 1, (first, last, found))
        self.assertEqual(report.clock(1740790800, 1740787200, 1740830400), '01:00')
        self.assertEqual(report.clock(3600, 10, 9999), '3,600')


class Merging(unittest.TestCase):
    """tools/merge-days says what is wrong with a document, and where; so do both where nothing can be written."""

    def run_on(self, text, name='merge-days', **more):
        with tempfile.NamedTemporaryFile() as file:
            file.write(text)
            file.flush()
            found = subprocess.run([sys.executable, TOOLS + '/' + name, file.name], stderr=subprocess.PIPE, **more)
            return found.returncode, found.stderr.decode().replace(file.name, 'FILE')

    def test_faults(self):
        told = ": line %d is none of a document; `adx check` says more\n"
        for text, said in ((b'', ': it is no record of format 2\n'), (b'\xff', ": it isn't UTF-8\n"), (CLOSED.replace(b'\n', b'\r\n'), ': it is no record of format 2\n'),
                           (CLOSED.replace(b' 0:100 1:100', b' 0:100 2:100'), told % 5), (CLOSED.replace(b'campaign 0 100', b'campaign 0 0'), told % 3),
                           (CLOSED[:65], told % 4), (CLOSED[:-1], ': it has no whole certificate\n')):
            self.assertEqual(self.run_on(text, stdout=subprocess.DEVNULL), (1, 'merge-days: FILE' + said))
        self.assertEqual(self.run_on(CLOSED, stdout=subprocess.DEVNULL), (0, ''))

    def test_full(self):
        for name in ('merge-days', 'report'):
            with open('/dev/full', 'wb') as full:
                self.assertEqual(self.run_on(CLOSED, name, stdout=full), (1, name + ': standard output: No space left on device\n'))


class Printing(unittest.TestCase):
    said = set('lang charset name content http-equiv class role aria-label viewbox preserveaspectratio x y width height x1 x2 y1 y2 points text-anchor '
               'dominant-baseline scope title'.split())

    def setUp(self):
        self.folder = tempfile.TemporaryDirectory()
        self.path = os.path.join(self.folder.name, 'd')

    def tearDown(self):
        self.folder.cleanup()

    def run_(self, text, *words):
        with open(self.path, 'wb') as file:
            file.write(text)
        return subprocess.run([sys.executable, TOOLS + '/report', self.path, *words], capture_output=True, env={**os.environ, 'COLUMNS': '100', 'PYTHONDONTWRITEBYTECODE': '1'})

    def test_html(self):
        found = self.run_(CLOSED, '--ratio', RATIO)
        self.assertEqual((found.returncode, found.stderr), (0, b''))
        page = Well(found.stdout.decode())
        self.assertEqual(page.said, self.said)
        for words in ('58.36%', '$0.000000514', 'isn\'t small', '66.66%'):
            self.assertIn(words, page.text)
        self.assertFalse(page.seen & {'script', 'img', 'link', 'iframe', 'object'})
        self.assertNotIn('http', found.stdout.decode().replace('http-equiv', ''))

    def test_hostile_names(self):
        name = '</title><script>alert(1)</script>" onload=x \u202e\'&amp;'
        found = self.run_(CLOSED.replace(b'"s1"', json.dumps(name).encode()).replace(b'2025-03-01', b'<b>5-03-01'))
        page = Well(found.stdout.decode())
        self.assertNotIn('script', page.seen)
        self.assertEqual(page.said, self.said)
        self.assertIn(name.replace('\u202e', '\\u{202e}'), page.text)
        text = self.run_(CLOSED.replace(b'"s1"', b'"\\u001b[31mred\\u0007"'), '--text').stdout
        self.assertNotIn(b'\x1b', text)
        self.assertNotIn(b'\x07', text)

    def test_beside(self):
        notices, ledger = self.path + '.n', self.path + '.l'
        with open(notices, 'w', encoding='utf-8') as file:
            file.write('nurl http://n.example:80/<b>?p=1\nburl http://n.example:80/x\nnurl \n')
        with open(ledger, 'w', encoding='utf-8') as file:
            file.write('{"auction":"<i>","price":2500000,"exchange":1,"bidder":0}\n{"exchange":2500000,"bidder":0}\n')
        page = Well(self.run_(CLOSED, '--notices', notices, '--reconcile', 'b1=' + ledger).stdout.decode())
        for words in ('n.example:80', 'no host', '<i>', 'Bills beside the ledger of b1: 1 different', 'exchange $0.0025'):
            self.assertIn(words, page.text)
        self.assertNotIn('i', page.seen)

    def test_faults(self):
        for text, words, status, said in ((CLOSED[:-5], (), 3, 'is cut'), (b'x\n', (), 3, 'line 1 is none'), (CLOSED, ('--ratio', '{"x":1}'), 1, 'no line of'),
                                          (CLOSED, ('--ratio', '/nowhere'), 1, 'No such file'), (CLOSED, ('--notices', '/nowhere'), 1, '/nowhere')):
            found = self.run_(text, *words)
            self.assertEqual((found.returncode, found.stdout), (status, b''), words)
            self.assertIn(said, found.stderr.decode())
            self.assertEqual(found.stderr.count(b'\n'), 1)

    def test_journal(self):
        path = self.path + '.j'
        for data, status, wanted in ((JOURNAL.bytes, 0, 'Money over the day:'), (b'\1ADXJRNL4\0', 3, 'it is a journal of format 4, and this reads the formats 1 and 2'),
                                     (JOURNAL.bytes[:-3], 3, 'it is cut: the record at byte'), (test_journal.Writer(2).add(bytes(32)).bytes, 0, 'The journal is another day')):
            with open(path, 'wb') as file:
                file.write(data)
            for words in ((), ('--text',)):
                found = self.run_(OF_JOURNAL, '--journal', path, *words)
                self.assertEqual((found.returncode, found.stderr.count(b'\n')), (status, int(status != 0)), found.stderr)
                self.assertIn(wanted if words == () or status or 'another' in wanted else 'Committed money over the day. By the moments', found.stdout.decode() + found.stderr.decode())
            if status == 0:
                self.assertEqual(Well(self.run_(OF_JOURNAL, '--journal', path).stdout.decode()).said - self.said, set())
        self.assertIn('No such file', self.run_(OF_JOURNAL, '--journal', '/nowhere').stderr.decode())

    def test_empty_day(self):
        """A day without an ask, by its document and its journal."""
        path = self.path + '.j'
        with open(path, 'wb') as file:
            file.write(test_journal.Writer(2).add(bytes(32)).bytes)
        for words in ((), ('--text',)):
            found = self.run_(b'adx-record 2\nday 2025-03-01\ncampaign 0 100 0 "s" "c"\nend 0\nadx-cert 1\nalpha 0 0\nbound 0\n', '--journal', path, *words)
            self.assertEqual((found.returncode, found.stderr), (0, b''))
            self.assertNotIn(b'another day', found.stdout)

    def test_of_the_bound(self):
        """What of the bound each campaign makes: 100 and 50 of 250."""
        page = Well(self.run_(OF_JOURNAL).stdout.decode())
        self.assertIn('s1 c1 40.00%', page.text)
        self.assertIn('s1 c2 20.00%', page.text)
        self.assertIn('earned by none 40.00%', page.text)

    def test_too_long(self):
        """More than a document may have: a sentence, before the rest is read."""
        class Endless(io.RawIOBase):
            def read(self, size=-1):
                return b'x\n' * (size // 2)
        before, report.GREATEST = report.GREATEST, 1 << 22
        try:
            with self.assertRaisesRegex(report.Fault, 'line 1 is none'):
                report.read(Endless())
            with self.assertRaisesRegex(report.Fault, 'more than 4194304 bytes, which no document has'):
                collections.deque(report.lines_of(Endless(), lambda size: None), 0)
        finally:
            report.GREATEST = before
        self.assertEqual(report.GREATEST, 2147483648)

    def test_zeros_of_two_gib(self):
        """A file of 2 GiB that is none: a sentence, in little time and memory."""
        with open(self.path, 'wb') as file:
            file.truncate(1 << 31)
        found = subprocess.run([sys.executable, TOOLS + '/report', self.path], capture_output=True, timeout=120)
        self.assertEqual((found.returncode, found.stdout), (3, b''))
        self.assertIn(b'it has a line of more than 67108864 bytes', found.stderr)

    def test_another_days_ratio(self):
        self.assertIn('another day\'s', Well(self.run_(CLOSED, '--ratio', RATIO.replace('514', '515')).stdout.decode()).text)

    def test_memory(self):
        """A document of 40 MB takes no more memory than one of 4 MB, but for a little."""
        def peak(imps):
            head = CLOSED[:CLOSED.index(b'imp')]
            with open(self.path, 'wb') as file:
                file.write(head)
                for j in range(imps):
                    file.write(b'imp %d "auction-%032d" "1" 0 billed 1:1 1:1 1:1 1:1 1:1\n' % (j, j))
                file.write(b'end %d\nadx-cert 1\nalpha 0 0\nalpha 1 0\n' % imps + b''.join(b'beta %d 0\n' % j for j in range(imps)) + b'bound 0\n')
            code = 'import resource,subprocess,sys; subprocess.run(sys.argv[1:],check=True,stdout=subprocess.DEVNULL); print(resource.getrusage(resource.RUSAGE_CHILDREN).ru_maxrss)'
            return int(subprocess.run([sys.executable, '-c', code, sys.executable, TOOLS + '/report', self.path], capture_output=True, check=True).stdout)
        small, large = peak(40000), peak(400000)
        self.assertLess(large, small + 12000)


if __name__ == '__main__':
    unittest.main()
