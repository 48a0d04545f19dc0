"""A day's journal, read from its file while others may be adding to it: whole records, their entries, and what became of each award. The bytes are those
of docs/FORMATS.md, "The journal file"."""
import array
import collections
import hashlib
import heapq
import json
import os
import stat
from fractions import Fraction

import exchange as lib

MARK = b'ADXJRNL'
LONGEST = 1 << 26                    # bytes of a payload
PIECE = 1 << 20                      # bytes that are read at once
MOST_IMPS = 16
NOTICES = {2: 'win', 3: 'bill', 4: 'loss'}
ENDS = {'bill': 'billed', 'loss': 'lost'}
# What each reason of a bid means. Of the others than these three neither the campaign nor the charge is kept.
ADMITTED = {0, 102, 1001}
REASONS = {
    0: 'it won',
    3: 'it can\'t be sold: no price that can be read, no impression or campaign of that name, too much text, or several bids that must win together',
    4: 'a deal is needed and none is named, or the one named isn\'t open to it',
    100: 'it is below the floor of the impression',
    101: 'it is below the floor of the deal',
    102: 'it lost to a bid of greater weight, or to an earlier one of the same weight',
    104: 'the request doesn\'t let this seat bid',
    205: 'its advertiser is blocked',
    209: 'its category is blocked',
    1001: 'the budget of its campaign doesn\'t cover it'}

Ask = collections.namedtuple('Ask', 'auction digest moment first imps offers kept')
Offer = collections.namedtuple('Offer', 'imp campaign charge life reason')
Notice = collections.namedtuple('Notice', 'kind award')
Expire = collections.namedtuple('Expire', 'moment')
Budget = collections.namedtuple('Budget', 'campaign change budget')
TEXTS = ('seat', 'bidid', 'adid', 'nurl', 'burl', 'lurl', 'body')


class Damage(Exception):
    """What a file is in place of a journal, or where a journal ends that isn't whole: a sentence without its subject."""


# ---- bytes

def fixed(width):
    def read(data, at):
        if at + width > len(data):
            raise ValueError
        return int.from_bytes(data[at:at + width], 'little'), at + width
    return read


def grouped(width):
    most = 1 << 8 * width

    def read(data, at):
        """Groups of 7 bits, the least first, in as few bytes as there can be."""
        value = data[at]
        at += 1
        if value > 127:
            value, shift, group = value & 127, 7, 128
            while group > 127:
                group = data[at]
                at += 1
                value |= (group & 127) << shift
                shift += 7
                if shift > 70:
                    raise ValueError
            if not group:
                raise ValueError
        if value >= most:
            raise ValueError
        return value, at
    return read


class Reader:
    """Reads the entries of payloads of one format."""

    def __init__(self, form):
        self.small, self.short, self.long, self.wide = map(grouped if form == 2 else fixed, (1, 2, 4, 8))

    def text(self, data, at):
        size, at = self.long(data, at)
        if at + size > len(data):
            raise ValueError
        return data[at:at + size].decode('utf-8'), at + size

    def name(self, data, at):
        text, after = self.text(data, at)
        if not 0 < len(text.encode()) <= 128:
            raise ValueError
        return text, after

    def ask(self, data, at, whole):
        auction, at = self.name(data, at)
        digest, at = data[at:at + 32], at + 32
        moment, at = self.wide(data, at)
        first, at = self.long(data, at)
        count, at = self.small(data, at)
        imps = []
        for _ in range(count):
            imp, at = self.name(data, at)
            imps.append(imp)
        offers, at = self.offers(data, at, len(imps))
        count, at = self.long(data, at)
        kept = {}
        for _ in range(count):
            bid, at = self.long(data, at)
            texts = {}
            for name in TEXTS:
                if whole:
                    texts[name], at = self.text(data, at)
                else:
                    size, at = self.long(data, at)
                    at += size
            if bid >= len(offers) or bid in kept or at > len(data):
                raise ValueError
            kept[bid] = texts
        return Ask(auction, digest, moment, first, imps, offers, kept), at

    def offers(self, data, at, imps):
        """The bids after their number."""
        small, long, wide, short = self.small, self.long, self.wide, self.short
        count, at = long(data, at)
        offers = []
        for _ in range(count):
            imp, at = small(data, at)
            campaign, at = long(data, at)
            charge, at = wide(data, at)
            life, at = long(data, at)
            reason, at = short(data, at)
            if reason not in REASONS or imp >= imps and (reason in ADMITTED or imp != MOST_IMPS):
                raise ValueError
            offers.append(Offer(imp, campaign, charge, life, reason))
        return offers, at

    def entry(self, data, at, whole):
        kind = data[at]
        if kind == 1:
            return self.ask(data, at + 1, whole)
        if kind in NOTICES:
            award, at = self.long(data, at + 1)
            return Notice(NOTICES[kind], award), at
        if kind == 5:
            moment, at = self.wide(data, at + 1)
            return Expire(moment), at
        if kind != 6:
            raise ValueError
        campaign, at = self.long(data, at + 1)
        change, at = self.long(data, at)
        budget, at = self.wide(data, at)
        return Budget(campaign, change, budget), at

    def entries(self, data, place, whole=True):
        """The entries of a record whose gate is at that place of the file; where they aren't wanted whole, without the texts of bids."""
        at = 0
        while at < len(data):
            try:
                entry, after = self.entry(data, at, whole)
            except (ValueError, IndexError):
                raise Damage('is damaged: the record at byte %d has at byte %d an entry that is none' % (place, place + 5 + at)) from None
            yield entry
            at = after


# ---- the file

class Journal:
    """The records of a file, in their order. It is read without its lock, so that it may be in use: a record is there as soon as its gate is open, for
    the program writes the rest before, and only the last one may still be taken back, by a program whose disk failed."""

    def __init__(self, path):
        self.path, self.format, self.reader, self.digest, self.at, self.last = path, None, None, None, 0, None
        self.file = open(path, 'rb', buffering=0)
        if not stat.S_ISREG(os.fstat(self.file.fileno()).st_mode):
            self.file.close()
            raise Damage('is no file')

    def close(self):
        self.file.close()

    def pread(self, size, at):
        return os.pread(self.file.fileno(), size, at)

    def begun(self):
        """Whether the file has a journal's head. Where it has only a part of one it is an empty journal, which a program is making or was."""
        if self.format:
            return True
        head = self.pread(10, 0)
        if len(head) <= 1 or head[0] == 0 and len(head) <= 10 and os.fstat(self.file.fileno()).st_size <= 10:
            return False
        for at, wanted in enumerate((b'\1', *(MARK[k:k + 1] for k in range(7)), b'12')):
            found = head[at:at + 1]
            if at == 8 and found.isdigit() and found not in (b'1', b'2'):
                raise Damage('is a journal of format %s, and this reads the formats 1 and 2' % found.decode())
            if not found or found not in wanted:
                raise Damage('is no journal: its byte %d is none of a journal\'s head' % at)
        self.format, self.at = int(head[8:9]), 9
        self.reader = Reader(self.format)
        return True

    def records(self):
        """The records that are there now and weren't given before: the place of the gate and the payload, from the roster's digest on. Damage after
        the last whole one where the file is cut or damaged there."""
        if not self.begun():
            return
        while True:
            piece, at, start = self.pread(PIECE, self.at), 0, self.at
            while at < len(piece) and piece[at] == 1 and at + 5 <= len(piece):
                size = int.from_bytes(piece[at + 1:at + 5], 'little')
                if not 0 < size <= LONGEST:
                    raise Damage('is damaged: the record at byte %d would have %d bytes' % (start + at, size))
                if at + 5 + size > len(piece):
                    break
                self.last, self.at = (start + at, piece[at:at + 5 + size]), start + at + 5 + size
                yield start + at, piece[at + 5:at + 5 + size]
                at += 5 + size
            if at < len(piece) and piece[at] != 1:
                return
            if at:
                continue
            # The record at the front isn't in the piece whole: it is longer, or the file is cut.
            if len(piece) < 5:
                raise Damage('is cut: it ends at byte %d, without the gate of a further record' % start if not piece
                             else 'is cut: it ends in the length of the record at byte %d' % start)
            payload = self.pread(size, start + 5)
            if len(payload) < size:
                raise Damage('is cut: the record at byte %d has %d bytes, and %d of them are there' % (start, size, len(payload)))
            self.last, self.at = (start, piece[:5] + payload), start + 5 + size
            yield start, payload

    def left(self):
        """How many bytes follow the gate that ends the journal: of a record that isn't whole yet, or that a crash left."""
        return max(0, os.fstat(self.file.fileno()).st_size - self.at - 1) if self.format else 0

    def is_same(self):
        """Whether the file has under its name what was read of it: it is the same file, not shorter, and the last record wasn't taken back."""
        try:
            now, then = os.stat(self.path), os.fstat(self.file.fileno())
        except OSError:
            return False
        if (now.st_dev, now.st_ino) != (then.st_dev, then.st_ino):
            return False
        return self.last is None or self.pread(len(self.last[1]), self.last[0]) == self.last[1]


# ---- the day

class Awards:
    """What became of the awards of a journal, entry by entry. Kept are 23 bytes for each award, and some 44 for each that
    is open."""

    def __init__(self):
        self.campaign, self.charge, self.place, self.imp, self.end = array.array('I'), array.array('Q'), array.array('Q'), bytearray(), bytearray()
        self.won, self.due, self.moment, self.asks, self.imps, self.open = bytearray(), [], 0, 0, 0, 0
        self.reserved, self.billed = collections.Counter(), collections.Counter()    # units, by the number of the campaign

    def __len__(self):
        return len(self.campaign)

    def ended(self, award, end):
        """An open award ends."""
        self.end[award] = end
        self.open -= 1
        self.reserved[self.campaign[award]] -= self.charge[award]
        if end == 1:
            self.billed[self.campaign[award]] += self.charge[award]

    def take(self, entry, place):
        """The numbers of the awards that the entry makes or ends. `place` is that of its record."""
        if isinstance(entry, Ask):
            return self.take_ask(entry, place)
        if isinstance(entry, Notice):
            award = entry.award
            if award >= len(self) or self.won[award] if entry.kind == 'win' else award >= len(self) or self.end[award]:
                raise Damage('is damaged: a notice of the record at byte %d can\'t follow what is before it' % place)
            if entry.kind == 'win':
                self.won[award] = 1
            else:
                self.ended(award, 1 if entry.kind == 'bill' else 2)
            return [award]
        if isinstance(entry, Expire):
            self.moment, gone = max(self.moment, entry.moment), []
            while self.due and self.due[0] >> 32 < self.moment:
                award = heapq.heappop(self.due) & 0xFFFFFFFF
                if not self.end[award]:
                    self.ended(award, 3)
                    gone.append(award)
            return sorted(gone)
        return []

    def take_ask(self, ask, place):
        if ask.first != len(self):
            raise Damage('is damaged: the ask of the record at byte %d can\'t follow what is before it' % place)
        self.moment = max(self.moment, ask.moment)
        self.asks += 1
        self.imps += len(ask.imps)
        if len(self.due) > 2 * self.open + 1000:
            self.due = [due for due in self.due if not self.end[due & 0xFFFFFFFF]]
            heapq.heapify(self.due)
        for offer in won(ask):
            self.open += 1
            heapq.heappush(self.due, ask.moment + offer.life << 32 | len(self))
            self.campaign.append(offer.campaign)
            self.charge.append(offer.charge)
            self.place.append(place)
            for row, value in ((self.imp, offer.imp), (self.end, 0), (self.won, 0)):
                row.append(value)
            self.reserved[offer.campaign] += offer.charge
        return range(ask.first, len(self))


def won(ask):
    """The offers that were awarded, in the order of their awards, which is that of the impressions."""
    return sorted([offer for offer in ask.offers if not offer.reason], key=lambda offer: offer.imp)


# ---- the roster

class Number(str):
    """A number of JSON by its text."""


def compact(tree):
    """The compact spelling of a tree: no white space, numbers as their texts, members in their order."""
    if isinstance(tree, Number):
        return str(tree)
    if isinstance(tree, str):
        short = {'"': '\\"', '\\': '\\\\', '\b': '\\b', '\t': '\\t', '\n': '\\n', '\f': '\\f', '\r': '\\r'}
        return '"%s"' % ''.join(short.get(c) or ('\\u%04x' % ord(c) if c < ' ' else c) for c in tree)
    if isinstance(tree, tuple):
        return '{%s}' % ','.join('%s:%s' % (compact(name), compact(value)) for name, value in tree)
    if isinstance(tree, list):
        return '[%s]' % ','.join(map(compact, tree))
    return {None: 'null', True: 'true', False: 'false'}[tree]


def read_tree(text):
    """A tree of JSON that keeps the texts of numbers and the order of members: an object is a tuple of pairs, of members with one name the last alone."""
    def object_of(pairs):
        last = {name: place for place, (name, _) in enumerate(pairs)}
        return tuple(pair for place, pair in enumerate(pairs) if last[pair[0]] == place)

    def no_number(name):
        raise ValueError('%s is no JSON' % name)
    return json.loads(text, object_pairs_hook=object_of, parse_int=Number, parse_float=Number, parse_constant=no_number)


class Roster:
    """The campaigns of a roster's file, with the digest that the journals of this roster begin with."""

    def __init__(self, path):
        with open(path, 'rb') as file:
            line = file.readline(1 << 22)
        try:
            tree = dict(read_tree(line.decode('utf-8')))
            rows = [dict(row) for row in tree['campaigns']]
            self.names = [(row['seat'], row['cid']) for row in rows]
            self.budgets = [Fraction(row['budget']) * lib.UNITS for row in rows]
            self.day = tree['day']
            if not all(type(text) is str for pair in self.names for text in pair) or type(self.day) is not str \
                    or not all(budget.denominator == 1 and budget > 0 for budget in self.budgets):
                raise ValueError
        except (ValueError, KeyError, TypeError, IndexError, RecursionError):
            raise Damage('has no roster in its first line') from None
        self.budgets = list(map(int, self.budgets))
        text = compact([tree['day'], tree['campaigns']])
        self.digest = hashlib.sha256(''.join('\ufffd' if '\ud800' <= c <= '\udfff' else c for c in text).encode()).digest()


Weighed = collections.namedtuple('Weighed', 'discount weight winner left')


def weigh(ask, held):
    """For each bid of an ask what it weighs: the discount of its campaign in billionths, the charge times it, the place of the bid that won there, or None,
    and the units that were left of the budget; None for a bid that was refused. `held` gives a campaign's budget and committed money before the ask.
    Impressions are decided in their order, and each award counts for the next."""
    found, spent = [None] * len(ask.offers), collections.Counter()
    for imp in range(len(ask.imps)):
        places = [place for place, offer in enumerate(ask.offers) if offer.imp == imp and offer.reason in ADMITTED]
        winner = next((place for place in places if not ask.offers[place].reason), None)
        for place in places:
            offer = ask.offers[place]
            budget, committed = held(offer.campaign)
            committed += spent[offer.campaign]
            discount = lib.DISCOUNTS[min(100, 100 * committed // budget)]
            found[place] = Weighed(discount, offer.charge * discount, winner, budget - committed)
        if winner is not None:
            spent[ask.offers[winner].campaign] += ask.offers[winner].charge
    return found


# ---- the last auctions, for those who look

class LastAuctions:
    """The last auctions of a journal that goes on: of each its bids with their reasons, and what became of its awards. The journal is read once from its
    front, since what a campaign has committed, and so what its bids weigh, comes of all before."""

    def __init__(self, path, most=100):
        self.path, self.most = path, most
        self.says, self.ok = 'It was not read yet.', True
        self.start()

    def start(self):
        self.journal, self.awards, self.changed, self.stopped = None, Awards(), {}, False
        self.asks, self.read = collections.deque(maxlen=self.most), {}

    def close(self):
        if self.journal:
            self.journal.close()

    @property
    def count(self):
        """How many auctions the journal has."""
        return self.awards.asks

    def look(self):
        """Reads what came. `says` has a sentence where the file can't be read further."""
        try:
            if self.journal and not self.journal.is_same():
                self.close()
                self.start()
            if self.stopped:
                return
            if not self.journal:
                self.journal, self.says = Journal(self.path), 'It is being read from its front.'
            for place, payload in self.journal.records():
                if self.journal.digest is None:
                    self.journal.digest = payload
                    continue
                self.stopped = True             # after a record that can't be read no other is
                self.take(place, payload)
                self.stopped = False
            self.ok, self.says = True, '' if self.journal.format else 'It has no record yet.'
        except Damage as fault:
            self.ok, self.says = False, 'It %s.' % fault
        except OSError as fault:
            self.ok, self.says = False, '%s.' % (fault.strerror or fault)

    def take(self, place, payload):
        awards = self.awards
        for entry in self.journal.reader.entries(payload, place, False):
            if isinstance(entry, Ask):
                # what each campaign of the bids has committed, and its budget where that was changed
                held = {o.campaign: (awards.reserved[o.campaign] + awards.billed[o.campaign], self.changed.get(o.campaign))
                        for o in entry.offers if o.reason in ADMITTED}
                self.asks.append((awards.asks, place, payload, entry.first, held))
            elif isinstance(entry, Budget):
                self.changed[entry.campaign] = entry.budget
            awards.take(entry, place)

    def auctions(self, budgets=()):
        """The auctions, the newest last: number from 0, moment, auction, impressions, bids as [impression or null, campaign or null, seat or null, charge
        as a text or null, reason, discount or null], and awards as [place of the bid, end, whether a win came]. The discount is what the bid's price is
        multiplied with to weigh it, in billionths; it is known where the budgets of the roster's campaigns are."""
        found, read = [], self.read
        self.read = {}
        for number, place, payload, first, held in self.asks:
            ask = read.get(number) or next(e for e in self.journal.reader.entries(payload, place) if isinstance(e, Ask) and e.first == first)
            self.read[number] = ask
            discounts = self.discounts(ask, held, budgets)
            bids = []
            for k, offer in enumerate(ask.offers):
                good = offer.reason in ADMITTED
                bids.append([ask.imps[offer.imp] if offer.imp < len(ask.imps) else None, offer.campaign if good else None,
                             ask.kept[k]['seat'] if k in ask.kept else None, str(offer.charge) if good else None, offer.reason, discounts[k]])
            places = sorted((k for k, offer in enumerate(ask.offers) if not offer.reason), key=lambda k: ask.offers[k].imp)
            found.append([number, ask.moment, ask.auction, ask.imps, bids, [[k, ('open', 'billed', 'lost', 'expired')[self.awards.end[award]],
                          bool(self.awards.won[award])] for award, k in enumerate(places, first)]])
        return found

    def discounts(self, ask, held, budgets):
        """The discount of each bid, as far as the budgets are known; none where the choice isn't that of these budgets."""
        none, known = [None] * len(ask.offers), {}
        for campaign, (committed, changed) in held.items():
            budget = changed or (budgets[campaign] if campaign < len(budgets) and campaign not in self.changed else None)
            if not budget:
                return none
            known[campaign] = budget, committed
        found = weigh(ask, lambda campaign: known[campaign])
        for k, offer in enumerate(ask.offers):
            if found[k] and (offer.reason == 1001) != (found[k].left < offer.charge) or offer.reason == 102 and (
                    found[k].winner is None or found[found[k].winner].weight < found[k].weight):
                return none
        return [each and each.discount for each in found]
