"""The plain world: an exchange's day, the messages that it ever sent, and a bidder with its ledger, step by step.

It was written from docs/FORMATS.md and not from the program. A message is the URL that it fetches; the bidder reads the notice
in it. The posts are those of the plain day's whole history, found anew at each pump.
"""
import json
import re
import urllib.parse
from day import Day, Imp, Roster, given
from posts import price_text, posts_of
from texts import budget, price, read

MOST_BIDS = 64
KINDS = {'win': 'Win', 'bill': 'Bill', 'loss': 'Loss'}


class Bidder:
    """The bidder of a price line, and the notices that it counted: auction, bid, kind and price."""

    def __init__(self, line):
        tree = read(line.encode())
        base = given(tree, 'base')
        self.seat, self.base, self.ledger = tree.get('seat'), base if isinstance(base, str) else 'http://127.0.0.1', []
        self.prices = [(each.get('cid'), price(each.get('price'))) for each in tree.get('prices')]

    def answer(self, request):
        """The answer to a request; None where no price reaches a floor."""
        bids = []
        for place, tree in enumerate(given(request, 'imp')):
            imp = Imp(tree, request)
            for k, (cid, units) in enumerate(self.prices):
                if imp.floor <= units and len(bids) < MOST_BIDS:
                    name = '%d-%d' % (place, k)
                    front, told = '%s/n/%%s?a=${AUCTION_ID}&b=%s' % (self.base, name), '&p=${AUCTION_PRICE}'
                    bids.append('{"id":"%s","impid":%s,"price":%s,"cid":%s,"nurl":%s,"burl":%s,"lurl":%s}' % (
                        name, json.dumps(imp.id), price_text(units), json.dumps(cid),
                        json.dumps(front % 'win' + told), json.dumps(front % 'bill' + told), json.dumps(front % 'loss')))
        return read(('{"id":%s,"seatbid":[{"seat":%s,"bid":[%s]}],"cur":"USD"}' % (
            json.dumps(given(request, 'id')), json.dumps(self.seat), ','.join(bids))).encode()) if bids else None

    def hears(self, url):
        """The status of the reply to a notice's URL, which is counted where it is new."""
        place, _, query = url.partition('?')
        path = re.match(r'http://[^/]*(/.*)$', place).group(1)
        if path not in ('/n/win', '/n/bill', '/n/loss'):
            return 404
        values = dict(reversed([pair.split('=') for pair in query.split('&')]))
        kind, auction, bid = KINDS[path[3:]], urllib.parse.unquote_plus(values['a']), values['b']
        known = re.fullmatch(r'(0|[1-9][0-9]*)-(0|[1-9][0-9]*)', bid)
        if not known or int(known.group(1)) >= 16 or int(known.group(2)) >= len(self.prices):
            return 404
        counted = {row[2] for row in self.ledger if row[:2] == (auction, bid)}
        if kind in counted:
            return 204
        if not counted or (kind == 'Win' and 'Loss' not in counted) or counted == {'Win'}:
            units = price(read(values['p'].encode())) if 'p' in values else 0
            self.ledger.append((auction, bid, kind, units))
            return 204
        return 409


class World:
    def __init__(self, roster, prices):
        self.day, self.bidder = Day(Roster(roster.encode())), Bidder(prices)
        self.messages, self.replies = [], []
        self.begin()

    def begin(self):
        """The exchange's outbox, before the first entry."""
        self.followed, self.pending, self.given_up = 0, [], 0

    def add(self, planned):
        if planned[1] is not None:
            self.day.history.append(planned[1])

    def pump(self, fates):
        due = self.pending + [post for post in posts_of(self.day) if post[0] >= self.followed]
        self.followed, self.pending = len(self.day.history), []
        for post in due:
            if not post[2].startswith('http://'):
                self.given_up += 1
                continue
            self.messages.append(post[2])
            fate, fates = (fates[0], fates[1:]) if fates else ('T', '')
            status = self.bidder.hears(post[2]) if fate in 'MT' else None
            if fate != 'T' or status != 204:
                self.pending.append(post)

    def take(self, step):
        """Takes a step; one that is none changes nothing."""
        name, _, rest = step.partition(' ')
        if name == 'ask':
            now, _, text = rest.partition(' ')
            request = read(text.encode())
            answer = self.bidder.answer(request)
            self.add(self.day.ask(request, [answer], int(now)))
        elif name in KINDS:
            awards = self.day.awards()
            if int(rest) < len(awards):
                self.add(self.day.notice(name, awards[int(rest)].auction, int(rest)))
        elif name == 'tick':
            self.add(self.day.tick(int(rest)))
        elif name == 'budget':
            campaign, change, units = map(int, rest.split(' '))
            if campaign < len(self.day.roster.campaigns):
                _, seat, cid, _ = self.day.roster.campaigns[campaign]
                self.add(self.day.budget(seat, cid, change, units))
        elif name == 'pump':
            self.pump(rest)
        elif name == 'again' and int(rest) < len(self.messages):
            url = self.messages[int(rest)]
            self.replies.append((url, self.bidder.hears(url)))
        elif name == 'ack' and int(rest) < len(self.replies):
            url, status = self.replies[int(rest)]
            at = next((k for k, post in enumerate(self.pending) if post[2] == url), None)
            if at is not None and status == 204:
                del self.pending[at]
        elif name == 'restart':
            self.begin()

    def said(self):
        """The two sums, the day's entries and the money of each campaign, what is pending, and the ledger."""
        budgets, count = self.day.budgets(), len(self.day.roster.campaigns)
        books = ['%d/%d/%d' % (budgets[k], self.day.reserved(k), self.day.billed(k)) for k in range(count)]
        pending = ''.join(', %d %s %s' % (at, name.capitalize(), url) for at, name, url in self.pending)
        rows = ''.join(', %s %s %s %d' % row for row in self.bidder.ledger)
        return 'sums %d %d; entries %d; books %s; messages %d; given up %d; pending %d%s; ledger %d%s' % (
            sum(self.day.billed(k) for k in range(count)), sum(row[3] for row in self.bidder.ledger if row[2] == 'Bill'),
            len(self.day.history), ' '.join(books), len(self.messages), self.given_up, len(self.pending), pending, len(self.bidder.ledger), rows)


def row_of(roster, prices, steps):
    """The row of a world for crates/part_cases: what it comes to after these steps."""
    world = World(roster, prices)
    for step in steps:
        world.take(step)
    return 'world %s ; %s ; %s => %s' % (roster, prices, ' ; '.join(steps), world.said())
