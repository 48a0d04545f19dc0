#!/usr/bin/python3
"""Moves shares of campaigns' budgets between the exchanges of a fleet, so that all together never have more than the whole.

    controller.py --dsn DSN --day DAY                 runs until a signal comes; a second one waits as a standby
    controller.py --dsn DSN --day DAY --rounds 1      one round, for cron
    controller.py --dsn DSN --day DAY --recover 10000000      rebuilds the shares of a ledger that lost some, from the exchanges

All that it knows is in PostgreSQL (schema.sql), in rows written before each call to an exchange and after its answer. So it may be
killed at any moment, and started anywhere, also twice: what is under way is sent again with the same number and budget. The sum is
safe by the schema's rules alone; the advisory lock of the day only keeps two controllers from doing the same work. What doesn't fit
the ledger is an alarm, a line on standard error, and no share of that campaign is raised until it fits again: a raise rests on books
that were read after the last change of each share of the campaign.
"""
import argparse
import collections
import concurrent.futures
import http.client
import http.server
import json
import signal
import sys
import threading
import time
import urllib.parse
from dataclasses import dataclass
from typing import Callable, Iterable, Optional

import psycopg2
import psycopg2.extensions

SECONDS = 2.0                     # that an exchange has for an answer
UNITS = 10 ** 9                   # in a dollar
SPARE = 64                        # units of each campaign that no policy gives away: a new exchange begins with one
Key = tuple[str, str]             # a campaign's seat and cid


class Refused(Exception):
    """What can't be done, in a sentence."""


def dollars(units: int) -> str:
    """Units as the text of a budget, exactly."""
    return '%d.%09d' % divmod(units, UNITS)


@dataclass(frozen=True)
class Share:
    """A row of the ledger. Money is in units."""
    exchange: str
    address: str
    state: str
    confirmed: int
    intended: Optional[int]
    number: int
    committed: int
    before: int

    @property
    def most(self) -> int:
        """What the exchange may have."""
        return max(self.confirmed, self.intended or 0)


@dataclass(frozen=True)
class Answer:
    """What an exchange said to a change: confirmed, refused (below its committed money), foreign (its numbers are another hand's; the
    last of them), or absent (it has no such campaign)."""
    state: str
    last: int = 0


@dataclass(frozen=True)
class Books:
    """An exchange's entries, the budget, committed and billed money of each campaign in units, and its meters."""
    entries: int
    rows: dict[Key, tuple[int, int, int]]
    meters: dict[str, int]


class Line:
    """A connection to an exchange, for a few calls one after another. A call that fails leaves nothing said."""

    def __init__(self, address: str, seconds: float = SECONDS) -> None:
        host, port = address.rsplit(':', 1)
        self.connection = http.client.HTTPConnection(host, int(port), timeout=seconds)

    def close(self) -> None:
        self.connection.close()

    def __enter__(self) -> 'Line':
        return self

    def __exit__(self, *_: object) -> None:
        self.close()

    def call(self, method: str, path: str) -> tuple[int, bytes]:
        """One request. Every failure is an OSError or an HTTPException, after which the line is of no use."""
        self.connection.request(method, path, headers={'Content-Length': '0'} if method == 'POST' else {})
        response = self.connection.getresponse()
        return response.status, response.read()

    def change(self, seat: str, cid: str, number: int, budget: int) -> Optional[Answer]:
        """Sends a change once. None where it isn't known what became of it, or where it is to be sent again later."""
        query = urllib.parse.urlencode({'seat': seat, 'cid': cid, 'change': number, 'budget': dollars(budget)})
        try:
            status, body = self.call('POST', '/budget?' + query)
            said = json.loads(body) if status in (404, 409) else {}
        except (OSError, http.client.HTTPException, ValueError):
            return None
        if status == 204:
            return Answer('confirmed')
        kind = said.get('answer')
        if kind == 'below':
            return Answer('refused')
        if kind in ('late', 'budgetreused'):
            return Answer('foreign', said.get('last', number))
        return Answer('absent') if kind == 'nocampaign' else None

    def books(self) -> Optional[Books]:
        """None where it doesn't answer."""
        try:
            (status, books), (also, meters) = self.call('GET', '/books'), self.call('GET', '/meters')
            if status != 200 or also != 200:
                return None
            *rows, last = [json.loads(line) for line in books.splitlines()]
            return Books(last['entries'], {(row['seat'], row['cid']): (row['budget'], row['reserved'] + row['billed'], row['billed']) for row in rows},
                         json.loads(meters))
        except (OSError, http.client.HTTPException, ValueError, KeyError):
            return None


def read_books(address: str) -> Optional[Books]:
    """The books of an exchange, over a connection of their own."""
    with Line(address) as line:
        return line.books()


# Policies: what each exchange is to have of a campaign, in the order of its shares. They need not be careful: the ledger is.

def by_use(whole: int, shares: list[Share]) -> list[int]:
    """What isn't committed is shared anew, half of it equally and half by what each sold since the last round: early, large shares, whose
    used parts stay alike. Who doesn't serve keeps what it has committed; who doesn't answer (dead) keeps what it may have."""
    serving = [share for share in shares if share.state == 'serving']
    fixed = sum(share.most if share.state == 'dead' else share.committed for share in shares)
    left = max(0, whole - fixed)
    use = sum(max(0, share.committed - share.before) for share in serving)
    wanted = []
    for share in shares:
        if share.state == 'dead':
            wanted.append(share.most)
        elif share.state == 'draining':
            wanted.append(max(1, share.committed))
        else:
            mine = left // len(serving) if not use else left // (2 * len(serving)) + left // 2 * max(0, share.committed - share.before) // use
            wanted.append(max(1, share.committed + mine))
    return wanted


def equal(whole: int, shares: list[Share]) -> list[int]:
    """The same for each that serves; who is drained keeps what it has."""
    serving = sum(share.state == 'serving' for share in shares)
    left = whole - sum(share.most for share in shares if share.state != 'serving')
    return [max(1, left // serving) if share.state == 'serving' else share.most for share in shares]


POLICIES: dict[str, Callable[[int, list[Share]], list[int]]] = {'use': by_use, 'equal': equal}


class Ledger:
    """The rows of a day. Each method is one transaction; campaigns are locked in their order, and before their shares."""

    def __init__(self, connection: psycopg2.extensions.connection, day: str) -> None:
        self.connection, self.day, self.leads = connection, day, False

    def lead(self) -> bool:
        """Whether this session has the day's advisory lock, which ends with the session."""
        if not self.leads:
            with self.connection, self.connection.cursor() as cursor:
                cursor.execute('SELECT pg_try_advisory_lock(4711, hashtext(%s))', (self.day,))
                self.leads = bool(cursor.fetchone()[0])
        return self.leads

    def exchanges(self) -> list[tuple[str, str, str, int]]:
        """Name, address, state and entries."""
        with self.connection, self.connection.cursor() as cursor:
            cursor.execute('SELECT name, address, state, entries FROM exchange WHERE day = %s ORDER BY name', (self.day,))
            return cursor.fetchall()

    def under_way(self) -> list[tuple[str, str, str, str, int, int]]:
        """What is intended: exchange, address, seat, cid, number and budget."""
        with self.connection, self.connection.cursor() as cursor:
            cursor.execute('SELECT exchange, address, seat, cid, number, intended FROM share JOIN exchange e ON (e.day, name) = (share.day, exchange)'
                           " WHERE share.day = %s AND intended IS NOT NULL AND state <> 'dead' ORDER BY exchange, seat, cid", (self.day,))
            return cursor.fetchall()

    def is_under_way(self, exchange: str, seat: str, cid: str, number: int, budget: int) -> bool:
        """Whether just that change is still under way."""
        with self.connection, self.connection.cursor() as cursor:
            cursor.execute('SELECT 1 FROM share WHERE (day, exchange, seat, cid, number, intended) = (%s, %s, %s, %s, %s, %s)',
                           (self.day, exchange, seat, cid, number, budget))
            return cursor.fetchone() is not None

    def settle(self, exchange: str, seat: str, cid: str, number: int, budget: int, answer: Answer) -> bool:
        """Writes down an answer. Nothing where it is an old one: a later change is under way, or another controller was faster."""
        with self.connection, self.connection.cursor() as cursor:
            cursor.execute('SELECT 1 FROM campaign WHERE (day, seat, cid) = (%s, %s, %s) FOR UPDATE', (self.day, seat, cid))
            cursor.execute(
                'UPDATE share SET intended = NULL, number = CASE %(said)s WHEN \'foreign\' THEN greatest(number, %(last)s) ELSE number END,'
                ' confirmed = CASE %(said)s WHEN \'confirmed\' THEN intended WHEN \'refused\' THEN confirmed ELSE most END'
                ' WHERE (day, exchange, seat, cid, number, intended) = (%(day)s, %(exchange)s, %(seat)s, %(cid)s, %(number)s, %(budget)s)',
                {'said': answer.state, 'last': answer.last, 'day': self.day, 'exchange': exchange, 'seat': seat, 'cid': cid,
                 'number': number, 'budget': budget})
            return cursor.rowcount == 1

    def confirmed(self, exchange: str, seat: str, cid: str) -> int:
        """What an exchange was last known to have."""
        with self.connection, self.connection.cursor() as cursor:
            cursor.execute('SELECT confirmed FROM share WHERE (day, exchange, seat, cid) = (%s, %s, %s, %s)', (self.day, exchange, seat, cid))
            return cursor.fetchone()[0]

    def saw(self, name: str, entries: int, rows: dict[Key, tuple[int, int, int]]) -> None:
        """What the books of an exchange said, for the policy and the metrics."""
        with self.connection, self.connection.cursor() as cursor:
            cursor.execute('UPDATE exchange SET entries = greatest(entries, %s) WHERE (day, name) = (%s, %s)', (entries, self.day, name))
            cursor.executemany('UPDATE share SET before = committed, committed = %s, billed = %s WHERE (day, exchange, seat, cid) = (%s, %s, %s, %s)',
                               [(committed, billed, self.day, name, seat, cid) for (seat, cid), (_, committed, billed) in sorted(rows.items())])

    def intend(self, policy: Callable[[int, list[Share]], list[int]], raising: bool, least: int, fits: Callable[[str, str, str], bool]) -> int:
        """Asks for all lower shares (or, where raising, for all higher ones that the rest of the budget allows). Changes of less than a
        least-th of the whole aren't worth two syncs of a disk. Nothing is asked of a share that has a change under way, and nothing is raised
        of a campaign of which an exchange that isn't dead hasn't shown that it has what the ledger says (fits)."""
        asked = 0
        with self.connection, self.connection.cursor() as cursor:
            cursor.execute('SELECT seat, cid, budget, wanted, held FROM campaign WHERE day = %s ORDER BY seat, cid FOR UPDATE', (self.day,))
            for seat, cid, budget, wanted, held in cursor.fetchall():
                now = max(wanted, held)           # the budget goes up at once, and down as far as shares were given back
                if now != budget:
                    cursor.execute('UPDATE campaign SET budget = %s WHERE (day, seat, cid) = (%s, %s, %s)', (now, self.day, seat, cid))
                cursor.execute('SELECT exchange, address, state, confirmed, intended, number, committed, before FROM share JOIN exchange e'
                               ' ON (e.day, name) = (share.day, exchange) WHERE (share.day, seat, cid) = (%s, %s, %s) ORDER BY exchange', (self.day, seat, cid))
                shares = [Share(*row) for row in cursor.fetchall()]
                if raising and not all(share.state == 'dead' or fits(share.exchange, seat, cid) for share in shares):
                    continue
                free = max(0, min(now, wanted) - SPARE - held)
                enough = 1 if held > wanted else max(1, now // least)          # a budget that goes down is worth each change
                for share, target in zip(shares, policy(max(1, wanted - SPARE), shares)):
                    if share.state == 'dead' or share.intended is not None:
                        continue
                    target = min(target, share.confirmed + free) if raising else target
                    if (target > share.confirmed) == raising and abs(target - share.confirmed) >= enough:
                        cursor.execute('UPDATE share SET intended = %s, number = number + 1 WHERE (day, exchange, seat, cid) = (%s, %s, %s, %s)',
                                       (target, self.day, share.exchange, seat, cid))
                        free -= max(0, target - share.confirmed)
                        asked += 1
        return asked

    def shares(self, name: str) -> dict[Key, tuple[int, Optional[int], int]]:
        """What an exchange was last known to have of each campaign, what it is being asked to have, and the last change's number."""
        with self.connection, self.connection.cursor() as cursor:
            cursor.execute('SELECT seat, cid, confirmed, intended, number FROM share WHERE (day, exchange) = (%s, %s)', (self.day, name))
            return {(seat, cid): (confirmed, intended, number) for seat, cid, confirmed, intended, number in cursor.fetchall()}

    def campaigns(self) -> dict[Key, int]:
        """The budget of each campaign, in units."""
        with self.connection, self.connection.cursor() as cursor:
            cursor.execute('SELECT seat, cid, budget FROM campaign WHERE day = %s ORDER BY 1, 2', (self.day,))
            return {(seat, cid): budget for seat, cid, budget in cursor.fetchall()}

    def last_number(self) -> int:
        """The greatest number that the ledger knows."""
        with self.connection, self.connection.cursor() as cursor:
            cursor.execute('SELECT coalesce(max(number), 0) FROM share WHERE day = %s', (self.day,))
            return cursor.fetchone()[0]

    def rebuild(self, number: int, budgets: dict[tuple[str, str, str], int]) -> None:
        """Writes down what exchanges were found to have, whatever the rows say, with the number that they confirmed it by. Shares that
        weren't asked for stay. The rule of the sum holds here, too."""
        with self.connection, self.connection.cursor() as cursor:
            cursor.execute('SELECT 1 FROM campaign WHERE day = %s ORDER BY seat, cid FOR UPDATE', (self.day,))
            cursor.execute('ALTER TABLE share DISABLE TRIGGER USER')
            for (exchange, seat, cid), budget in sorted(budgets.items()):
                cursor.execute('INSERT INTO share (day, exchange, seat, cid, confirmed, number) VALUES (%s, %s, %s, %s, %s, %s)'
                               ' ON CONFLICT (day, exchange, seat, cid)'
                               ' DO UPDATE SET confirmed = excluded.confirmed, intended = NULL, number = excluded.number',
                               (self.day, exchange, seat, cid, budget, number))
                cursor.execute("UPDATE change SET state = 'foreign', settled = now()"
                               " WHERE (day, exchange, seat, cid, state) = (%s, %s, %s, %s, 'intended')", (self.day, exchange, seat, cid))
            cursor.execute('UPDATE campaign c SET held = (SELECT coalesce(sum(most), 0) FROM share s'
                           ' WHERE (s.day, s.seat, s.cid) = (c.day, c.seat, c.cid)) WHERE day = %s', (self.day,))
            cursor.execute('ALTER TABLE share ENABLE TRIGGER USER')

    def repair(self, name: str, seat: str, cid: str) -> None:
        """Asks an exchange for what it was confirmed to have, by a new number."""
        with self.connection, self.connection.cursor() as cursor:
            cursor.execute('SELECT 1 FROM campaign WHERE (day, seat, cid) = (%s, %s, %s) FOR UPDATE', (self.day, seat, cid))
            cursor.execute('UPDATE share SET intended = confirmed, number = number + 1'
                           ' WHERE (day, exchange, seat, cid) = (%s, %s, %s, %s) AND intended IS NULL',
                           (self.day, name, seat, cid))

    def reassert(self, name: str) -> list[tuple[str, str, int, int]]:
        """The last confirmed changes of an exchange, to be sent again where its journal went back (a copy was restored)."""
        with self.connection, self.connection.cursor() as cursor:
            cursor.execute('SELECT seat, cid, number, confirmed FROM share'
                           ' WHERE (day, exchange) = (%s, %s) AND intended IS NULL AND number > 0 ORDER BY 1, 2', (self.day, name))
            return cursor.fetchall()

    def numbers(self) -> dict[str, list[tuple]]:
        """What the metrics show of the ledger."""
        with self.connection, self.connection.cursor() as cursor:
            found = {}
            for what, query in (('campaign', 'SELECT seat, cid, budget, held FROM campaign WHERE day = %s ORDER BY 1, 2'),
                                ('share', 'SELECT exchange, seat, cid, most, committed, billed FROM share WHERE day = %s ORDER BY 1, 2, 3'),
                                ('change', 'SELECT state, count(*) FROM change WHERE day = %s GROUP BY 1 ORDER BY 1')):
                cursor.execute(query, (self.day,))
                found[what] = cursor.fetchall()
            return found


# How an exchange's books may differ from its shares, in the words of an alarm.
MORE, LESS, LACKS, UNKNOWN = 'more than its share', 'less than its share', 'no campaign, and a share of it', 'a campaign that the ledger gives it no share of'


class Controller:
    """Rounds over a ledger: send what is under way, read, raise, lower."""

    def __init__(self, ledger: Ledger, policy: str = 'use', least: int = 500, adopt: bool = False, line: Callable[[str], Line] = Line) -> None:
        self.ledger, self.policy, self.least, self.line = ledger, POLICIES[policy], least, line
        self.adopt = adopt                        # take up numbers of another hand; else such a share stays under way until a person looks
        self.alarms = 0
        self.strange: collections.Counter = collections.Counter()      # what didn't fit, and how often it was seen, without a break
        self.fitting: set[tuple[str, str, str]] = set()                # exchange, seat and cid that fitted since their last change, as this session saw
        self.standing: set[tuple] = set()         # changes that another hand is in the way of, each of which was an alarm once
        self.meters: dict[str, Optional[dict[str, int]]] = {}

    def each(self, work: Callable, rows: Iterable) -> list:
        """Calls that wait for exchanges, side by side. The ledger isn't touched there."""
        rows = list(rows)
        if not rows:
            return []
        with concurrent.futures.ThreadPoolExecutor(min(16, len(rows))) as pool:
            return list(pool.map(work, rows))

    def alarm(self, text: str) -> None:
        self.alarms += 1
        print('controller: ALARM: ' + text, file=sys.stderr, flush=True)

    def send_all(self, address: str, changes: list[tuple[str, str, int, int]]) -> list[Optional[Answer]]:
        """Sends changes of one exchange one after another. Where one isn't answered the exchange is slow or gone, and the rest waits for the
        next round."""
        answers: list[Optional[Answer]] = []
        with self.line(address) as line:
            for change in changes:
                answers.append(line.change(*change))
                if answers[-1] is None:
                    break
        return answers

    def send(self) -> None:
        """Sends all that is under way, of whoever, once, and settles what is answered."""
        lanes: dict[str, list[tuple]] = collections.defaultdict(list)
        for row in self.ledger.under_way():
            lanes[row[0]].append(row)
        answered = self.each(lambda own: list(zip(own, self.send_all(own[0][1], [row[2:] for row in own]))), lanes.values())
        for row, answer in [pair for answers in answered for pair in answers]:
            if answer:
                self.settle((row[0], *row[2:]), answer)

    def settle(self, change: tuple[str, str, str, int, int], answer: Answer) -> None:
        """An answer is written down. One that only another hand, or another ledger, can be the cause of is an alarm, and leaves the change under
        way: both budgets stay counted."""
        exchange, seat, cid, number, budget = change
        if answer.state == 'refused' and budget >= self.ledger.confirmed(exchange, seat, cid):
            answer = Answer('foreign', number)    # it has committed more than it was known to have
        if answer.state in ('confirmed', 'refused'):
            self.fitting.discard((exchange, seat, cid))                       # until its books show it
            self.ledger.settle(*change, answer)
        elif self.ledger.is_under_way(*change):   # else it is the answer to an old one, of a controller that slept
            if change not in self.standing:
                self.standing.add(change)
                self.alarm('%s has no campaign %s %s, and a share of it' % (exchange, seat, cid) if answer.state == 'absent' else
                           '%s has numbers of another hand for %s %s, the last %d' % (exchange, seat, cid, answer.last))
            if answer.state == 'foreign' and self.adopt:
                self.ledger.settle(*change, answer)

    def look(self) -> None:
        """Reads the books of all exchanges."""
        known = [row for row in self.ledger.exchanges() if row[2] != 'dead']

        def books(row: tuple) -> Optional[Books]:
            with self.line(row[1]) as line:
                return line.books()

        rounds: collections.Counter = collections.Counter()
        for (name, address, _, before), found in zip(known, self.each(books, known)):
            self.meters[name] = found.meters if found else None
            if not found:                         # nothing new is known of it
                rounds.update({row: seen for row, seen in self.strange.items() if row[0] == name})
                continue
            if found.entries < before:
                self.alarm('%s shows %d entries and had %d: its journal went back' % (name, found.entries, before))
                self.send_all(address, self.ledger.reassert(name))
            rounds.update({row: self.strange[row] + 1 for row in self.compare(name, found)})
            self.ledger.saw(name, found.entries, found.rows)
        again = sorted(row for row, seen in rounds.items() if seen == 2 and self.strange[row] == 1)
        self.strange = rounds
        for row in again:                         # once may be a controller that was faster
            self.mend(*row)

    def compare(self, name: str, found: Books) -> set[tuple[str, str, str, str, int, int]]:
        """What an exchange's books have otherwise than its shares: exchange, seat, cid, how, its budget, and the last change's number."""
        shares, strange = self.ledger.shares(name), set()
        for seat, cid in sorted(shares.keys() | found.rows.keys()):
            confirmed, intended, number = shares.get((seat, cid), (0, None, 0))
            budget = found.rows.get((seat, cid), (0, 0, 0))[0]
            how = (UNKNOWN if (seat, cid) not in shares else LACKS if (seat, cid) not in found.rows
                   else MORE if budget > max(confirmed, intended or 0) else LESS if budget not in (confirmed, intended) else None)
            if how:
                strange.add((name, seat, cid, how, budget, number))
            if how in (None, LESS):               # the ledger covers it
                self.fitting.add((name, seat, cid))
            else:
                self.fitting.discard((name, seat, cid))
        return strange

    def mend(self, name: str, seat: str, cid: str, how: str, budget: int, number: int) -> None:
        """Says what is otherwise, and asks for the share once more where the exchange has one."""
        if how != LESS or number == 0:            # less may be a change that was refused, and then came once more and was taken
            self.alarm('%s has %d of %s %s: %s' % (name, budget, seat, cid, how) + (' (was it started with another roster?)' if number == 0 else ''))
        if how in (MORE, LESS):
            self.ledger.repair(name, seat, cid)

    def round(self) -> None:
        self.send()
        self.look()
        for raising in (True, False):             # what is given up now is raised elsewhere in the next round, when books showed that it is
            if self.ledger.intend(self.policy, raising, self.least, lambda *place: place in self.fitting):
                self.send()

    def confirm(self, name: str, address: str, number: int, tries: int) -> dict[tuple[str, str, str], int]:
        """What an exchange has, each budget confirmed by that number."""
        found: dict[tuple[str, str, str], int] = {}
        campaigns, why = self.ledger.campaigns(), 'doesn\'t answer: mark it dead, where it is'
        for _ in range(tries):
            with self.line(address) as line:
                books = line.books()
                if not books:
                    time.sleep(0.05)
                    continue
                for (seat, cid), (budget, _, _) in books.rows.items():
                    if (seat, cid) not in campaigns or (name, seat, cid) in found:
                        continue
                    answer = line.change(seat, cid, number, budget)
                    if answer is None:
                        break
                    if answer.state == 'confirmed':
                        found[name, seat, cid] = budget
                    elif answer.state == 'foreign':
                        why = 'has a change of %s %s with the number %d or a greater one: take a greater one yet' % (seat, cid, number)
            if all((name, *key) in found for key in books.rows if key in campaigns):
                return found
        raise Refused('%s %s' % (name, why))

    def recover(self, number: int, tries: int = 100) -> None:
        """Rebuilds the shares of a ledger that forgot some (it was restored, or a standby that lagged took over). Each exchange is asked for the
        budget that it has, by a number above all that were ever used: where it confirms that, no older change can be taken any more,
        not even one that is still on its way, and whoever goes on with the old ledger is answered `late`. What a dead exchange has nobody knows
        then but that it is at most the rest: so one may be dead, and its share is all that the others don't have."""
        exchanges = self.ledger.exchanges()
        dead = [name for name, _, state, _ in exchanges if state == 'dead']
        if len(dead) > 1:
            raise Refused('%s are dead, and a ledger that forgot doesn\'t know what each of them may have: bring all back but one' % ' and '.join(dead))
        if number <= self.ledger.last_number():
            raise Refused('the ledger knows the number %d: take a greater one' % self.ledger.last_number())
        found: dict[tuple[str, str, str], int] = {}
        for name, address, state, _ in exchanges:
            if state != 'dead':
                found.update(self.confirm(name, address, number, tries))
        rest = self.ledger.campaigns()
        for (_, seat, cid), budget in found.items():
            rest[seat, cid] -= budget
        for (seat, cid), units in rest.items():
            if units < 0:
                raise Refused('the exchanges have %d units of %s %s more than its budget: another hand was there, or its budget was lowered' % (-units, seat, cid))
            for name in dead:
                found[name, seat, cid] = max(1, units)
        self.ledger.rebuild(number, found)

    def metrics(self, rounds: int, seconds: float) -> str:
        """In Prometheus's text form."""
        numbers, lines = self.ledger.numbers(), []

        def quoted(text: str) -> str:
            return '"%s"' % text.replace('\\', '\\\\').replace('"', '\\"').replace('\n', '\\n')

        def add(name: str, value: int | float, **labels: str) -> None:
            shown = ','.join('%s=%s' % (key, quoted(text)) for key, text in labels.items())
            lines.append('adx_fleet_%s%s %s' % (name, '{%s}' % shown if shown else '', value))

        for seat, cid, budget, held in numbers['campaign']:
            add('campaign_budget_units', budget, seat=seat, cid=cid)
            add('campaign_held_units', held, seat=seat, cid=cid)
        for exchange, seat, cid, most, committed, billed in numbers['share']:
            add('share_units', most, exchange=exchange, seat=seat, cid=cid)
            add('committed_units', committed, exchange=exchange, seat=seat, cid=cid)
            add('billed_units', billed, exchange=exchange, seat=seat, cid=cid)
        for state, count in numbers['change']:
            add('changes', count, state=state)
        for name, meters in sorted(self.meters.items()):
            add('exchange_up', int(meters is not None), exchange=name)
            for key, value in (meters or {}).items():
                add('exchange_' + key, value, exchange=name)
        for key, value in (('alarms_total', self.alarms), ('strange', len(self.strange)), ('rounds_total', rounds), ('round_seconds', round(seconds, 3))):
            add(key, value)
        return '\n'.join(lines) + '\n'


class Page:
    """Serves the last text of the metrics."""

    def __init__(self, port: int) -> None:
        self.text = ''
        page = self

        class Handler(http.server.BaseHTTPRequestHandler):
            def do_GET(self) -> None:
                body = page.text.encode() if self.path == '/metrics' else b''
                self.send_response(200 if self.path == '/metrics' else 404)
                self.send_header('Content-Type', 'text/plain; version=0.0.4; charset=utf-8')
                self.send_header('Content-Length', str(len(body)))
                self.end_headers()
                self.wfile.write(body)

            def log_message(self, *_: object) -> None:
                pass

        server = http.server.ThreadingHTTPServer(('127.0.0.1', port), Handler)
        threading.Thread(target=server.serve_forever, daemon=True).start()


def connect(options: argparse.Namespace) -> Controller:
    connection = psycopg2.connect(options.dsn, connect_timeout=5, application_name='adx fleet controller',
                                  options='-c statement_timeout=20000 -c lock_timeout=10000')
    return Controller(Ledger(connection, options.day), options.policy, options.least, options.adopt)


def recover(options: argparse.Namespace) -> None:
    controller = connect(options)
    if not options.no_lock and not controller.ledger.lead():
        raise Refused('another controller leads: end it first')
    controller.recover(options.recover)


def run(options: argparse.Namespace) -> None:
    page = Page(options.metrics) if options.metrics else None
    controller, rounds = None, 0
    while not options.rounds or rounds < options.rounds:
        began = time.monotonic()
        try:
            if controller is None:
                controller = connect(options)
            if options.no_lock or controller.ledger.lead():
                controller.round()
                rounds += 1
                if page:
                    page.text = controller.metrics(rounds, time.monotonic() - began)
        except psycopg2.Error as error:           # what was written stays, and what wasn't is asked anew
            print('controller: %s' % str(error).strip().split('\n')[0], file=sys.stderr, flush=True)
            controller = None
        if not options.rounds or rounds < options.rounds:
            time.sleep(max(0.05, options.every - (time.monotonic() - began)))


def main() -> int:
    parser = argparse.ArgumentParser(description='Moves shares of budgets between the exchanges of a fleet.')
    parser.add_argument('--dsn', required=True, help='where PostgreSQL is, as libpq reads it')
    parser.add_argument('--day', required=True, help='as 2025-03-01')
    parser.add_argument('--policy', choices=sorted(POLICIES), default='use')
    parser.add_argument('--every', type=float, default=5.0, help='seconds between rounds')
    parser.add_argument('--rounds', type=int, default=0, help='end after so many (0: never)')
    parser.add_argument('--least', type=int, default=500, help='a change is at least this part of the whole')
    parser.add_argument('--metrics', type=int, default=0, help='port of /metrics on 127.0.0.1 (0: none)')
    parser.add_argument('--adopt', action='store_true', help='go on where another hand changed a budget (never beside a forked ledger)')
    parser.add_argument('--recover', type=int, default=0, metavar='NUMBER', help='rebuild the shares, by a number above all that were used')
    parser.add_argument('--no-lock', action='store_true', help='don\'t wait for the lead (for tests)')
    options = parser.parse_args()
    signal.signal(signal.SIGTERM, lambda *_: sys.exit(0))
    try:
        recover(options) if options.recover else run(options)
    except (Refused, psycopg2.Error) as error:
        print('controller: %s' % str(error).strip().split('\n')[0], file=sys.stderr)
        return 1
    return 0


if __name__ == '__main__':
    sys.exit(main())
