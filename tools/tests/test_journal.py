"""Tests of tools/journal.py and tools/read-journal: journals written here by the bytes of docs/FORMATS.md, and with ADX those of the program."""
import collections
import contextlib
import io
import json
import os
import random
import signal
import subprocess
import sys
import tempfile
import time
import unittest

from test_exchange import TOOLS, lib, tool
import journal
import world

reader = tool('read-journal')
ROSTER = '{"day":"2025-03-01","bidders":[{"name":"b"}],"campaigns":[{"bidder":"b","seat":"n","cid":"shoes","budget":0.01},{"bidder":"b","seat":"s","cid":"boats","budget":2e-2}]}'
DIGEST = bytes.fromhex('07' * 32)


class Writer:
    """Writes journals of a format."""

    def __init__(self, form):
        self.form, self.bytes = form, b'\1ADXJRNL%d\0' % form

    def number(self, value, width):
        if self.form == 1:
            return value.to_bytes(width, 'little')
        out = b''
        while value > 127:
            out, value = out + bytes([128 | value & 127]), value >> 7
        return out + bytes([value])

    def text(self, text):
        data = text.encode()
        return self.number(len(data), 4) + data

    def ask(self, auction, moment, first, imps, offers, kept=()):
        out = b'\1' + self.text(auction) + bytes(32) + self.number(moment, 8) + self.number(first, 4) + self.number(len(imps), 1) + b''.join(map(self.text, imps))
        out += self.number(len(offers), 4) + b''.join(self.number(v, w) for offer in offers for v, w in zip(offer, (1, 4, 8, 4, 2)))
        return out + self.number(len(kept), 4) + b''.join(self.number(bid, 4) + b''.join(map(self.text, texts)) for bid, texts in kept)

    def notice(self, kind, award):
        return bytes([{'win': 2, 'bill': 3, 'loss': 4}[kind]]) + self.number(award, 4)

    def expire(self, moment):
        return b'\5' + self.number(moment, 8)

    def budget(self, campaign, change, budget):
        return b'\6' + self.number(campaign, 4) + self.number(change, 4) + self.number(budget, 8)

    def add(self, *entries):
        payload = b''.join(entries)
        self.bytes = self.bytes[:-1] + b'\1' + len(payload).to_bytes(4, 'little') + payload + b'\0'
        return self


def small(form):
    """A day of three asks with each kind of entry."""
    w = Writer(form).add(DIGEST)
    w.add(w.ask('a', 10, 0, ['top'], [(0, 0, 2500000, 3600, 0), (0, 0, 0, 0, 100)], [(0, ('n', '', 'ad', '', 'http://b/?p=${AUCTION_PRICE}', '', '{"cid":"shoes"}'))]))
    # two impressions: award 1 is of the first impression, though its bid comes last
    w.add(w.ask('b', 20, 1, ['x', 'y'], [(1, 1, 4000000, 60, 0), (0, 0, 3000000, 60, 102), (0, 1, 3900000, 60, 0), (16, 0, 0, 0, 3)]))
    w.add(w.notice('bill', 0), w.notice('win', 1)).add(w.notice('loss', 1)).add(w.budget(1, 7, 300000000))
    w.add(w.ask('c', 30, 3, ['top'], [(0, 1, 7, 3600, 1001)])).add(w.expire(81)).add(w.notice('win', 0))
    return w.bytes


def lines_of(data, roster=None):
    """The lines of a journal of these bytes, and the sentence where it ends."""
    with tempfile.NamedTemporaryFile() as file:
        file.write(data)
        file.flush()
        found = []
        try:
            lines = reader.Lines(journal.Journal(file.name), roster, True)
            with contextlib.closing(lines.journal):
                for line in lines.all():
                    found.append(line)
        except journal.Damage as fault:
            return found, str(fault)
        return found, ''


def bare(lines):
    """Lines without their places and the format."""
    return [{name: value for name, value in line.items() if name not in ('byte', 'format')} for line in lines]


class Folder(unittest.TestCase):
    def setUp(self):
        self.folder = tempfile.TemporaryDirectory()
        self.path = os.path.join(self.folder.name, 'j')

    def tearDown(self):
        self.folder.cleanup()

    def write(self, data, name='j'):
        path = os.path.join(self.folder.name, name)
        with open(path, 'wb') as file:
            file.write(data if isinstance(data, bytes) else data.encode())
        return path

    def run_(self, *words):
        return subprocess.run([sys.executable, TOOLS + '/read-journal', *words], capture_output=True, timeout=60)


class Lines(Folder):
    def test_both_formats(self):
        found, said = lines_of(small(2))
        self.assertEqual(said, '')
        self.assertEqual((found[0]['entry'], found[0]['digest'], found[0]['byte'], found[1]['byte']), ('roster', DIGEST.hex(), 9, 46))
        self.assertEqual([line['entry'] for line in found], ['roster', 'ask', 'ask', 'bill', 'win', 'loss', 'budget', 'ask', 'expire', 'win'])
        self.assertEqual(bare(lines_of(small(1))[0]), bare(found))

    def test_an_ask(self):
        ask = bare(lines_of(small(2))[0])[1]
        self.assertEqual(ask['awards'], [{'award': 0, 'imp': 'top', 'campaign': 0, 'charge': 2500000}])
        won, low = ask['bids']
        self.assertEqual((won['why'], won['texts']['body'], won['texts']['adid']), ('it won', '{"cid":"shoes"}', 'ad'))
        self.assertEqual(low, {'bid': 1, 'imp': 'top', 'campaign': None, 'charge': None, 'life': None, 'reason': 100, 'why': 'it is below the floor of the impression'})
        self.assertEqual((ask['moment'], ask['auction']), (10, 'a'))

    def test_awards_are_in_the_order_of_impressions(self):
        found = bare(lines_of(small(2))[0])
        self.assertEqual([(a['award'], a['imp'], a['charge']) for a in found[2]['awards']], [(1, 'x', 3900000), (2, 'y', 4000000)])
        self.assertEqual(found[5], {'entry': 'loss', 'moment': 20, 'award': 1, 'auction': 'b', 'imp': 'x', 'campaign': 1, 'charge': 3900000})
        self.assertEqual([a['award'] for a in found[8]['awards']], [2])
        self.assertIsNone(found[2]['bids'][3]['imp'])

    def test_weights(self):
        roster = journal.Roster(self.write(ROSTER + '\n'))
        data = small(2).replace(DIGEST, roster.digest)
        found, said = lines_of(data, roster)
        self.assertEqual(said, '')
        # of campaign 0 a quarter is committed: 3000000 times the discount of slab 25, 0.834332469
        self.assertEqual(found[2]['bids'][1]['why'], 'it lost to bid 2, which weighs 3900000, and it 2502997.407')
        self.assertEqual((found[2]['bids'][1]['seat'], found[2]['bids'][1]['cid']), ('n', 'shoes'))
        self.assertEqual(found[7]['bids'][0]['why'], 'the budget of its campaign doesn\'t cover it: 296000000 units are left of it')
        self.assertIn('another roster', lines_of(small(2), roster)[1])

    def test_same_weight(self):
        roster = journal.Roster(self.write(ROSTER + '\n'))
        w = Writer(2).add(roster.digest)
        w.add(w.ask('a', 1, 0, ['i'], [(0, 0, 5, 1, 0), (0, 1, 5, 1, 102)]))
        self.assertEqual(lines_of(w.bytes, roster)[0][1]['bids'][1]['why'], 'it lost to bid 0, which is earlier and weighs 5 as well')

    def test_hostile_names(self):
        """What can't be seen or turns a line round never reaches a terminal as it is."""
        name = '<script>\u202e\x1b[31m"\\\n' + 'x' * 80
        w = Writer(2).add(DIGEST)
        w.add(w.ask(name, 1, 0, [name], [(0, 0, 5, 1, 0)], [(0, (name,) * 7)]))
        found = self.run_(self.write(w.bytes))
        self.assertEqual((found.returncode, found.stderr), (0, b''))
        self.assertTrue(all(32 <= byte < 127 or byte == 10 for byte in found.stdout))
        line = json.loads(found.stdout.splitlines()[1])
        self.assertEqual((line['auction'], line['imps'], line['bids'][0]['texts']['seat']), (name, [name], name))


class Faults(Folder):
    def test_cut_anywhere(self):
        """Of each front part of a journal what is whole is printed, and a sentence says where it ends."""
        for form in (1, 2):
            data = small(form)
            all_, places = lines_of(data)[0], [9]
            while data[places[-1]] == 1:
                places.append(places[-1] + 5 + int.from_bytes(data[places[-1] + 1:places[-1] + 5], 'little'))
            for size in range(len(data)):
                found, said = lines_of(data[:size])
                self.assertEqual(found, [line for line in all_ if next(p for p in places if p > line['byte']) <= size] if size > 8 else [], size)
                if size <= 1:
                    self.assertEqual(said, '', size)
                else:
                    self.assertIn('is no journal: its byte %d' % size if size < 9 else 'is cut: ', said)

    def test_each_byte_changed(self):
        """No change of a byte makes more than a sentence."""
        data, rng = small(2), random.Random(5)
        for at in range(len(data)):
            for value in {data[at] ^ 1, data[at] ^ 128, rng.randrange(256), 0, 255}:
                lines_of(data[:at] + bytes([value]) + data[at + 1:])

    def test_other_files(self):
        for data, said in ((b'\1ADXJRNL3\0', 'is a journal of format 3, and this reads the formats 1 and 2'), (b'hello', 'is no journal: its byte 0'), (b'\1ADXJRMM2\0', 'is no journal: its byte 6'),
                           (b'\1ADXJRNL2\1\0\0\0\0\0', 'the record at byte 9 would have 0 bytes'), (b'\1ADXJRNL2\1\1\0\0\4' + bytes(9), 'would have 67108865 bytes'),
                           (b'\1ADXJRNL2\1\xff\xff\xff\xff\0', 'would have 4294967295 bytes'), (b'\1ADXJRNL1', 'is cut: it ends at byte 9')):
            found, fault = lines_of(data)
            self.assertEqual(found, [])
            self.assertIn(said, fault, data)
        for data in (b'', b'\1', b'\0', bytes(10), b'\0ADXJRNL2\0', b'\1ADXJRNL2\0', b'\1ADXJRNL1\0'):
            self.assertEqual(lines_of(data), ([], ''), data)

    def test_entries_that_are_none(self):
        w = Writer(2)
        for payload, said in ((b'\7\0', 'at byte 51 an entry that is none'), (b'\3', 'an entry that is none'), (b'\3\x80\0', 'an entry that is none'), (b'\3\xff\xff\xff\xff\x10', 'an entry that is none'),
                              (b'\5' + b'\xff' * 9 + b'\2', 'an entry that is none'), (w.notice('bill', 0), 'can\'t follow'), (w.ask('a', 1, 1, ['i'], []), 'can\'t follow'),
                              (w.ask('a', 1, 0, ['i'], [(1, 0, 1, 1, 0)]), 'an entry that is none'), (w.ask('a', 1, 0, ['i'], [(0, 0, 1, 1, 77)]), 'an entry that is none'),
                              (w.ask('', 1, 0, ['i'], []), 'an entry that is none'), (w.ask('a', 1, 0, ['x' * 129], []), 'an entry that is none'),
                              (w.ask('a', 1, 0, ['i'], [], [(0, ('',) * 7)]), 'an entry that is none'), (w.ask('a', 1, 0, ['i'], [])[:-1] + b'\xff\xff\xff\xff\x0f', 'an entry that is none')):
            found, fault = lines_of(Writer(2).add(DIGEST).add(payload).bytes)
            self.assertEqual(len(found), 1)
            self.assertIn('the record at byte 46', fault)
            self.assertIn(said, fault, payload)
        w.add(DIGEST).add(w.ask('a', 1, 0, ['i'], [(0, 0, 1, 1, 0)])).add(w.notice('bill', 0)).add(w.notice('loss', 0))
        self.assertIn('can\'t follow', lines_of(w.bytes)[1])

    def test_sentences(self):
        """A run ends with one sentence and a status."""
        data = small(2)
        roster = self.write('{"day":5}\n', 'r')
        for words, status, said in ((('/nowhere/j',), 1, 'read-journal: /nowhere/j: No such file or directory'), ((self.folder.name,), 1, 'Is a directory'),
                                    ((self.write(data[:60], 'cut'),), 3, 'cut: it is cut: the record at byte 46'), ((self.write(b'x' * 99, 'none'),), 3, 'it is no journal: its byte 0'),
                                    ((self.write(data + b'\1\2', 'more'),), 0, 'the journal ends at byte %d, and what follows is no whole record (2 bytes)' % (len(data) - 1)),
                                    ((self.write(b'\0', 'begun'),), 0, 'it is a journal that was begun, and has nothing yet'), ((self.write(data), '--roster', roster), 3, 'r: it has no roster in its first line')):
            found = self.run_(*words)
            self.assertEqual(found.returncode, status, found.stderr)
            self.assertIn(said, found.stderr.decode())
            self.assertEqual(found.stderr.count(b'\n'), 1)

    def test_a_pipe_is_no_file(self):
        os.mkfifo(self.path)
        writer = os.open(self.path, os.O_RDWR)
        try:
            with self.assertRaisesRegex(journal.Damage, 'is no file'):
                journal.Journal(self.path)
        finally:
            os.close(writer)

    def test_long_records(self):
        """Records that are longer than what is read at once, and one that ends with a piece."""
        for size in (journal.PIECE - 60, journal.PIECE, 3 * journal.PIECE):
            w = Writer(2).add(DIGEST)
            kept = [(0, ('', '', '', '', '', '', 'x' * size))]
            w.add(w.ask('a', 1, 0, ['i'], [(0, 0, 1, 1, 0)], kept)).add(w.notice('bill', 0))
            found, said = lines_of(w.bytes)
            self.assertEqual((said, [line['entry'] for line in found], len(found[1]['bids'][0]['texts']['body'])), ('', ['roster', 'ask', 'bill'], size))


class Following(Folder):
    def setUp(self):
        super().setUp()
        self.w = Writer(2).add(DIGEST)
        self.w.add(self.w.ask('a', 10, 0, ['top'], [(0, 0, 2500000, 3600, 0)]))

    def follow(self):
        self.write(self.w.bytes)
        # A shell has its background commands ignore this signal, and theirs do so, too.
        process = subprocess.Popen([sys.executable, TOOLS + '/read-journal', self.path, '--follow'], stdout=subprocess.PIPE, stderr=subprocess.PIPE,
                                   preexec_fn=lambda: signal.signal(signal.SIGINT, signal.SIG_DFL))
        self.assertEqual([json.loads(process.stdout.readline())['entry'] for _ in range(2)], ['roster', 'ask'])
        return process

    def patch(self, at, data):
        with open(self.path, 'r+b', buffering=0) as file:
            file.seek(at)
            file.write(data)

    def ends(self, process, status, said):
        out, err = process.communicate(timeout=20)
        self.assertEqual((process.returncode, out), (status, b''), err)
        self.assertIn(said, err.decode())

    def test_follow(self):
        process = self.follow()
        try:
            at, before = len(self.w.bytes) - 1, self.w.bytes
            self.w.add(self.w.notice('bill', 0))
            self.patch(at + 1, self.w.bytes[at + 1:])           # as the program does: all but the gate, and then the gate
            time.sleep(1.2)
            self.assertIsNone(process.poll())
            self.patch(at, b'\1')
            line = json.loads(process.stdout.readline())
            self.assertEqual((line['entry'], line['auction'], line['byte']), ('bill', 'a', at))
            self.patch(at, b'\0')                                # a disk that failed: the record is taken back
            self.ends(process, 3, 'taken back')
            self.assertEqual(before[at], 0)
        finally:
            process.kill()
            process.wait()

    def test_replaced(self):
        process = self.follow()
        try:
            os.rename(self.write(self.w.bytes, 'other'), self.path)
            self.ends(process, 3, 'it was replaced')
        finally:
            process.kill()
            process.wait()

    def test_ended_by_a_signal(self):
        process = self.follow()
        process.send_signal(signal.SIGINT)
        self.assertEqual(process.communicate(timeout=20), (b'', b''))
        self.assertEqual(process.returncode, 0)


class Last(Folder):
    def day(self, asks):
        w = Writer(2).add(DIGEST)
        for k in range(asks):
            w.add(w.ask('a%d' % k, k, k, ['i'], [(0, 0, 10, 5, 0), (0, 1, 9, 5, 102), (0, 0, 0, 0, 205)], [(1, ('seat-1', '', '', '', '', 'http://l', ''))]))
        return w

    def last(self, path):
        last = journal.LastAuctions(path)
        self.addCleanup(last.close)
        return last

    def test_the_last(self):
        w = self.day(250)
        w.add(w.notice('win', 249), w.notice('bill', 248)).add(w.notice('loss', 247)).add(w.expire(251)).add(w.notice('win', 245))
        last = self.last(self.write(w.bytes))
        last.look()
        found = last.auctions([10 ** 6] * 2)
        self.assertEqual((last.ok, last.says, last.count, [a[0] for a in found]), (True, '', 250, list(range(150, 250))))
        self.assertEqual([a[5][0][1] for a in found[-6:]], ['expired', 'expired', 'open', 'lost', 'billed', 'open'])
        self.assertEqual([a[5][0][2] for a in found[-6:]], [False, True, False, False, False, True])
        # of the budget of campaign 0 so much is committed that its slab is 0; the refused bid has no campaign
        self.assertEqual(found[-1][4], [['i', 0, None, '10', 0, 10 ** 9], ['i', 1, 'seat-1', '9', 102, 10 ** 9], ['i', None, None, None, 205, None]])

    def test_budgets(self):
        """Without the budgets, or with others than those of the day, nothing is said of weights."""
        w = self.day(3)
        last = self.last(self.write(w.bytes))
        last.look()
        self.assertEqual([bid[5] for bid in last.auctions()[2][4]], [None] * 3)
        self.assertEqual([bid[5] for bid in last.auctions([20, 10 ** 6])[2][4]], [None] * 3)
        self.assertEqual([bid[5] for bid in last.auctions([1000, 10 ** 6])[2][4]], [lib.DISCOUNTS[2], 10 ** 9, None])
        w.add(w.budget(0, 1, 400)).add(w.ask('z', 9, 3, ['i'], [(0, 0, 10, 5, 0), (0, 1, 9, 5, 102)]))
        self.write(w.bytes)
        last.look()
        found = last.auctions([400, 10 ** 6])
        self.assertEqual([bid[5] for bid in found[2][4]], [None] * 3)
        self.assertEqual([bid[5] for bid in found[3][4]], [lib.DISCOUNTS[7], 10 ** 9])

    def test_damage_and_another_file(self):
        w = self.day(2)
        last = self.last(self.path)
        last.look()
        self.assertEqual((last.ok, last.says), (False, 'No such file or directory.'))
        self.write(w.bytes[:-30])
        last.look()
        self.assertIn('It is cut: the record at byte', last.says)
        self.write(w.bytes)
        last.look()
        self.assertEqual((last.ok, last.count), (True, 2))
        w.add(b'\7').add(w.notice('bill', 0))
        self.write(w.bytes)
        for _ in range(2):
            last.look()
            self.assertIn('an entry that is none', last.says)
            self.assertEqual([a[5][0][1] for a in last.auctions()], ['open', 'open'])
        os.rename(self.write(self.day(1).bytes, 'other'), self.path)
        last.look()
        self.assertEqual((last.ok, last.says, last.count), (True, '', 1))
        self.write(b'\1ADXJRNL9\0', 'other')
        os.rename(os.path.join(self.folder.name, 'other'), self.path)
        last.look()
        self.assertIn('a journal of format 9', last.says)

    def test_taken_back(self):
        w = self.day(3)
        last = self.last(self.write(w.bytes))
        last.look()
        self.write(self.day(2).bytes)
        last.look()
        self.assertEqual(last.count, 2)


class Sums(unittest.TestCase):
    def test_against_a_plain_reading(self):
        """A random day: the money of each campaign, and which awards expire, by a reading that keeps everything."""
        rng = random.Random(7)
        awards, due, plain, moment = journal.Awards(), [], collections.defaultdict(lambda: [0, 0]), 0
        state = []
        for step in range(6000):
            kind = rng.random()
            if kind < 0.5 or not state:
                moment += rng.randrange(3)
                offers = [journal.Offer(k, rng.randrange(5), rng.randrange(1, 1000), rng.randrange(1, 60), 0) for k in range(rng.randrange(3))]
                awards.take(journal.Ask('a', b'', moment, len(state), ['i'] * 3, offers, {}), step)
                for offer in offers:
                    state.append(['open', offer, moment + offer.life])
            elif kind < 0.9:
                award, end = rng.randrange(len(state)), rng.choice(('bill', 'loss'))
                if state[award][0] == 'open':
                    awards.take(journal.Notice(end, award), step)
                    state[award][0] = end
            else:
                moment += rng.randrange(5)
                gone = [k for k, row in enumerate(state) if row[0] == 'open' and row[2] < moment]
                if gone:
                    self.assertEqual(awards.take(journal.Expire(moment), step), gone)
                    for k in gone:
                        state[k][0] = 'expired'
        for campaign in range(5):
            mine = [row for row in state if row[1].campaign == campaign]
            self.assertEqual((awards.reserved[campaign], awards.billed[campaign]), tuple(sum(row[1].charge for row in mine if row[0] == end) for end in ('open', 'bill')))

    def test_what_is_kept_of_open_awards(self):
        """Of awards that ended no deadline is kept for long, and none of an open one is lost."""
        awards, still = journal.Awards(), []
        for k in range(6000):
            awards.take(journal.Ask('a', b'', k, k, ['i'], [journal.Offer(0, 0, 1, 10 ** 6 - k % 7, 0)], {}), k)
            if k % 100:
                awards.take(journal.Notice('bill', k), k)
            else:
                still.append(k)
        self.assertLess(len(awards.due), 2 * len(still) + 1100)
        self.assertEqual(awards.take(journal.Expire(2 * 10 ** 6), 0), still)

    def test_rosters(self):
        with tempfile.TemporaryDirectory() as folder:
            path = os.path.join(folder, 'r')

            def roster(text):
                with open(path, 'w', encoding='utf-8') as file:
                    file.write(text)
                return journal.Roster(path)
            # the digest that the program wrote for this roster
            first = '{"day":"2025-03-01","bidders":[{"name":"b1"}],"campaigns":[{"bidder":"b1","seat":"s1","cid":"c1","budget":0.01}]}\n'
            self.assertEqual(roster(first).digest.hex(), 'ecc1c1c9b03b1d0e1412211a8689cc953507b712e5820ee80ba2572b579226ea')
            self.assertEqual(roster(first.replace(',', ' ,\t')).digest, roster(first).digest)
            self.assertNotEqual(roster(first.replace('0.01', '0.010')).digest, roster(first).digest)
            self.assertEqual(roster(ROSTER).budgets, [10000000, 20000000])
            for text in ('', 'x', '[]', '{}', first.replace('"s1"', '5'), first.replace('0.01', '0.0000000001'), first.replace('0.01', 'NaN'), first.replace('0.01', '-1'), '[' * 99999):
                with self.assertRaisesRegex(journal.Damage, 'no roster'):
                    roster(text)


@unittest.skipUnless(os.access(world.ADX, os.X_OK) and 'ADX' in os.environ, 'ADX names no program')
class OfTheProgram(Folder):
    def test_digests(self):
        """Of any spelling of a roster the digest is the program's."""
        for k, row in enumerate((r'"seat":"a\"b\\c\/d","cid":"\b\t\n\f\r\u0001\u001f\u007f\u00e9\u202e","budget":1', r'"seat":"\ud83d\ude80 é 東","cid":"x\ud800y\udc00","budget":1e-2',
                                 '"seat" : "s" ,"cid":"c","budget":0.010,"more":{"b":[1.0,-2E+3,true,false,null,{}],"a":[]}', '"seat":"s","cid":"c","seat":"t","budget":5,"budget":2.50')):
            text = ('{"day":"2025-03-01","bidders":[{"name":"b"}],"campaigns":[{"bidder":"b",%s}]}\n' % row).encode()
            path, file = self.write(text, 'r%d' % k), os.path.join(self.folder.name, 'j%d' % k)
            subprocess.run([world.ADX, 'day', '--journal', file], input=text, capture_output=True, timeout=60, check=True)
            book, roster = journal.Journal(file), journal.Roster(path)
            self.assertEqual([payload for _, payload in book.records()], [roster.digest], row)
            book.close()

    def test_a_day(self):
        """A day of `adx day`: each reason is that of the weights, the money is that of its table, and the entries are as many."""
        rng, budgets = random.Random(3), [0.02, 0.05, 0.01, 0.5]
        rows = [{'bidder': 'b', 'seat': 's', 'cid': 'c%d' % k, 'budget': budget} for k, budget in enumerate(budgets)]
        script = [{'day': '2025-03-01', 'bidders': [{'name': 'b'}], 'campaigns': rows}]
        for k in range(80):
            bids = [{'id': str(n), 'impid': str(rng.randrange(3)), 'price': round(rng.uniform(0.1, 3), 6), 'cid': 'c%d' % rng.randrange(5), 'exp': rng.randrange(1, 40), 'lurl': 'http://l/'}
                    for n in range(rng.randrange(12))]
            script.append({'ask': {'id': 'a%d \u00fc\u202e' % k, 'imp': [{'id': str(n), 'bidfloor': rng.choice((0, 1))} for n in range(2)]}, 'answers': [{'id': 'a%d \u00fc\u202e' % k, 'seatbid': [{'seat': 's', 'bid': bids}]}], 'now': k})
            for _ in range(2):
                script.append({'notice': rng.choice(('win', 'bill', 'loss')), 'auction': 'a%d \u00fc\u202e' % rng.randrange(k + 1), 'bid': rng.randrange(2 * k + 1)})
            if k % 10 == 9:
                script.append({'tick': k})
                script.append({'budget': 0.05 + k / 1000, 'seat': 's', 'cid': 'c2', 'change': k})
        text = ''.join(json.dumps(line) + '\n' for line in script).encode()
        answers = subprocess.run([world.ADX, 'day', '--journal', self.path], input=text, capture_output=True, timeout=120, check=True).stdout.splitlines()
        table, counts = [json.loads(line) for line in answers[-1 - len(budgets):-1]], json.loads(answers[-1])
        roster = journal.Roster(self.write(text.split(b'\n')[0] + b'\n', 'r'))
        lines = reader.Lines(journal.Journal(self.path), roster, True)
        found = list(lines.all())
        self.assertEqual(len(found) - 1, counts['entries'])
        self.assertGreater({line['entry'] for line in found}, {'ask', 'win', 'bill', 'loss', 'expire', 'budget'})
        self.assertEqual([(lines.awards.reserved[k], lines.awards.billed[k]) for k in range(len(budgets))], [(row['reserved'], row['billed']) for row in table])
        told = [json.loads(line)['reasons'] for line in answers if b'"reasons"' in line]
        self.assertEqual([[bid['reason'] for bid in line['bids']] for line in found if line['entry'] == 'ask'], told)
        self.assertGreaterEqual({reason for reasons in told for reason in reasons}, {0, 3, 100, 102, 1001})
        last = journal.LastAuctions(self.path)
        self.addCleanup(last.close)
        last.look()
        auctions = last.auctions(roster.budgets)
        self.assertEqual([[bid[4] for bid in auction[4]] for auction in auctions], told)
        # with the budgets each choice is that of the weights; before the first change of campaign 2 they are known to nobody
        self.assertFalse([a[0] for a in auctions[30:] for bid in a[4] if bid[4] in (0, 102, 1001) and bid[5] is None])
        lines.journal.close()


if __name__ == '__main__':
    unittest.main()
