"""The bytes of a journal, a disk that fails by a list, and a day kept on it, as docs/FORMATS.md has them. Entries are read by the reader of
tools/read-journal."""
import os
import sys

from day import Day, kept_bids

sys.path.append(os.path.dirname(os.path.dirname(os.path.realpath(__file__))))
from journal import TEXTS, Ask, Expire, Notice, Reader  # noqa: E402

MARK = b'ADXJRNL2'
HEAD = b'\x01' + MARK + b'\x00'
MOST = 67_108_864


class Failed(Exception):
    """A call of a disk, a source or a sink that failed."""


def number(value, size, form):
    """A number of so many bytes in format 1, and in groups of seven bits in format 2."""
    if form == 1:
        return value.to_bytes(size, 'little')
    out = b''
    while value > 127:
        out += bytes([value % 128 + 128])
        value //= 128
    return out + bytes([value])


def text(value, form):
    data = value.encode()
    return number(len(data), 4, form) + data


def entry_bytes(kind, entry, form=2):
    if kind in ('win', 'bill', 'loss'):
        return bytes([{'win': 2, 'bill': 3, 'loss': 4}[kind]]) + number(entry, 4, form)
    if kind == 'expire':
        return b'\x05' + number(entry, 8, form)
    if kind == 'budget':
        return b'\x06' + number(entry[0], 4, form) + number(entry[1], 4, form) + number(entry[2], 8, form)
    out = b'\x01' + text(entry['auction'], form) + entry['digest'] + number(entry['now'], 8, form) + number(entry['first'], 4, form)
    out += number(len(entry['imps']), 1, form) + b''.join(text(name, form) for name in entry['imps'])
    out += number(len(entry['bids']), 4, form)
    for bid in entry['bids']:
        out += number(bid.imp, 1, form) + number(bid.campaign, 4, form) + number(bid.charge, 8, form) + number(bid.life, 4, form) + number(bid.reason, 2, form)
    kept = kept_bids(entry)
    out += number(len(kept), 4, form)
    for place, texts in kept:
        out += number(place, 4, form) + b''.join(text(each, form) for each in texts)
    return out


def record(payload):
    """What a payload adds to a journal after its gate: the gate is opened, and the next one shut."""
    return b'\x01' + len(payload).to_bytes(4, 'little') + payload


def journal_of(payloads, form=2):
    """The file of a journal with these payloads."""
    return b'\x01ADXJRNL%d' % form + b''.join(map(record, payloads)) + b'\x00'


def day_file(roster, history, form=2):
    """The file of a day with these entries, one a record."""
    return journal_of([roster.digest] + [entry_bytes(kind, entry, form) for kind, entry in history], form)


class Disk:
    """A disk in memory. Calls with a number in `fails`, from 0, fail, and all from number `stop` on."""

    def __init__(self, data=b'', fails=(), stop=None):
        self.durable, self.read_now, self.pending = data, data, []
        self.fails, self.stop, self.calls, self.faults = list(fails), stop, 0, 0

    def begin(self):
        call, self.calls = self.calls, self.calls + 1
        if call in self.fails or (self.stop is not None and call >= self.stop):
            self.faults += 1
            raise Failed()

    def size(self):
        self.begin()
        return len(self.read_now)

    def read(self, at, count):
        self.begin()
        return self.read_now[at:at + count]

    def write(self, at, piece):
        # A write that fails may still be left by a crash.
        try:
            self.begin()
            self.read_now = overwritten(self.read_now, at, piece)
        finally:
            self.pending.append((at, piece))

    def sync(self):
        self.begin()
        self.durable, self.pending = self.read_now, []

    def image(self, picked):
        """What a crash may leave: of the writes since the last sync all or none, whose ranges are then zeros."""
        data = self.durable
        for at, piece in self.pending:
            data = overwritten(data, at, piece if picked else bytes(len(piece)))
        return data


def overwritten(data, at, piece):
    data = data + bytes(max(0, at - len(data)))
    return data[:at] + piece + data[at + len(piece):]


class Kept:
    """A day on a disk: it is made where there is none, and else gone on with."""

    def __init__(self, roster, disk):
        self.day, self.disk, self.doubt = Day(roster), disk, False
        disk.sync()
        size = disk.size()
        first = disk.read(0, 10)
        if is_unfinished(first, size):
            for at, piece in ((0, b'\x00'), (1, MARK + b'\x00'), (0, b'\x01')):
                if (at, piece) == (0, b'\x00') and first[:1] == b'\x00':
                    continue
                disk.write(at, piece)
                disk.sync()
        self.gate = 9
        payloads = []
        for payload in self.read_payloads():
            payloads.append(payload)
        if not payloads:
            self.append(roster.digest)
        else:
            assert payloads[0] == roster.digest
            self.day.history = entries_in(b''.join(payloads[1:]))

    def read_payloads(self):
        """What the file's open gates have, which is read in one piece and then to its end."""
        data = self.disk.read(9, 65_536)
        found, at = [], 0
        while data[at:at + 1] == b'\x01':
            size = int.from_bytes(data[at + 1:at + 5], 'little')
            found.append(data[at + 5:at + 5 + size])
            at += 5 + size
        self.gate += at
        if found:
            self.disk.read(self.gate, 1)
        return found

    def take_all(self, calls, over):
        """Takes calls in turn, and ends at the first fault."""
        for call in calls:
            _, entry = call()
            if entry is not None:
                try:
                    self.append(entry_bytes(*entry))
                except Failed:
                    raise over(6) from None
                self.day.history.append(entry)

    def append(self, payload):
        """Adds a payload: where a tail is in doubt its gate is shut first."""
        if self.doubt:
            self.disk.write(self.gate, b'\x00')
            self.disk.sync()
            self.doubt = False
        self.disk.write(self.gate + 1, record(payload)[1:] + b'\x00')
        self.disk.sync()
        self.doubt = True
        self.disk.write(self.gate, b'\x01')
        self.disk.sync()
        self.doubt = False
        self.gate += 5 + len(payload)

    def answer(self, line):
        """The answer to a line; a fault of the disk gives the call up."""
        answer, entry = self.day.plan(line)
        if entry is not None:
            try:
                self.append(entry_bytes(*entry))
            except Failed:
                return '{"answer":"diskfault"}'
            self.day.history.append(entry)
        return answer


def is_unfinished(first, size):
    return size <= 1 or (size <= 10 and first[0] == 0) or (size == 10 and first[9] == 0 and first[1:9] in (MARK, b'ADXJRNL1'))


class Read:
    """A bid that was read. Of an ask no bid is read that wasn't written so."""

    def __init__(self, offer, texts):
        self.imp, self.campaign, self.charge, self.life, self.reason = offer
        self.seat, self.bidid, self.adid, self.nurl, self.burl, self.lurl, self.body = (texts.get(name, '') for name in TEXTS)

    def size(self):
        return sum(len(text.encode()) for text in (self.seat, self.bidid, self.adid, self.nurl, self.burl, self.lurl, self.body))


def entries_in(data):
    """The entries of format 2 that follow each other, as the plain day has them."""
    found = []
    for entry in Reader(2).entries(data, 0):
        if isinstance(entry, Ask):
            bids = [Read(offer, entry.kept.get(place, {})) for place, offer in enumerate(entry.offers)]
            found.append(('ask', {'auction': entry.auction, 'digest': entry.digest, 'now': entry.moment, 'first': entry.first, 'imps': entry.imps,
                                  'bids': bids}))
        elif isinstance(entry, Notice):
            found.append((entry.kind, entry.award))
        else:
            found.append(('expire', entry.moment) if isinstance(entry, Expire) else ('budget', tuple(entry)))
    return found
