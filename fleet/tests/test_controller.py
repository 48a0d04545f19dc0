#!/usr/bin/python3
"""The controller against a true PostgreSQL and exchanges of 30 lines, dying before and after each step of its rounds.

    fleet/tests/test_controller.py        prints what was tried; two minutes at most
"""
import atexit
import itertools
import pathlib
import random
import signal
import subprocess
import sys
import unittest
from typing import Optional

import psycopg2
import psycopg2.errors

sys.dont_write_bytecode = True
sys.path.insert(0, str(pathlib.Path(__file__).resolve().parent.parent))
import controller as c                                               # noqa: E402
import day as days                                                   # noqa: E402
import fleet as f                                                    # noqa: E402

DAY, WHOLE, CAMPAIGNS = '2025-03-01', 1000000, [('n', 'a'), ('n', 'b')]


class Died(BaseException):
    """A kill at this point."""


class World:
    """Three exchanges by the rules of docs/FORMATS.md, a network that loses, repeats and delays, and a count of steps until the controller dies."""

    def __init__(self, roster: dict[str, dict], seed: int, loss: float) -> None:
        self.budget = {(x, key): money for x, row in roster.items() for key, money in row.items()}
        self.changes: dict[tuple, dict[int, int]] = {at: {} for at in self.budget}
        self.committed = {at: 0 for at in self.budget}
        self.rng, self.loss, self.late, self.steps = random.Random(seed), loss, [], itertools.repeat(1)
        self.selling, self.down = True, set()

    def sound(self) -> None:
        for key in CAMPAIGNS:
            assert sum(money for (_, k), money in self.budget.items() if k == key) <= WHOLE, (key, self.budget)

    def step(self) -> None:
        if not next(self.steps, 0):
            raise Died()

    def line(self, address: str) -> 'Wire':
        return Wire(self, address)

    def take(self, x: str, key: tuple[str, str], number: int, budget: int) -> c.Answer:
        if (x, key) not in self.budget:
            return c.Answer('absent')
        changes = self.changes[x, key]
        if number in changes:
            answer = c.Answer('confirmed' if changes[number] == budget else 'foreign', number)
        elif changes and max(changes) > number:
            answer = c.Answer('foreign', max(changes))
        elif budget < self.committed[x, key]:
            answer = c.Answer('refused')
        else:
            self.budget[x, key] = budget
            changes[number] = budget
            answer = c.Answer('confirmed')
        self.sound()
        return answer

    def post(self, address: str, seat: str, cid: str, number: int, budget: int) -> Optional[c.Answer]:
        self.step()
        if address in self.down:
            return None
        message = (address, (seat, cid), number, budget)
        for old in [m for m in self.late if self.rng.random() < 0.3]:      # late and repeated ones come between
            self.take(*old)
        dice = self.rng.random()
        if dice < self.loss:
            self.late.append(message)
            return None
        if dice < 2 * self.loss:
            self.late.append(message)
        answer = self.take(*message)
        self.step()
        return None if self.rng.random() < self.loss else answer

    def books(self, address: str) -> Optional[c.Books]:
        if address in self.down or self.rng.random() < self.loss:
            return None
        rows = [at for at in self.budget if at[0] == address]
        for at in rows if self.selling else []:                            # something is sold, and something given back
            self.committed[at] = max(0, min(self.budget[at], self.committed[at] + self.rng.randrange(-WHOLE // 40, WHOLE // 20)))
        return c.Books(1, {at[1]: (self.budget[at], self.committed[at], 0) for at in rows}, {})


class Wire(c.Line):
    """A connection to one of them."""

    def __init__(self, world: World, address: str) -> None:
        self.world, self.address = world, address

    def close(self) -> None:
        pass

    def change(self, seat: str, cid: str, number: int, budget: int) -> Optional[c.Answer]:
        return self.world.post(self.address, seat, cid, number, budget)

    def books(self) -> Optional[c.Books]:
        return self.world.books(self.address)


class Steps:
    """A connection whose commits are steps: it dies before or after one."""

    def __init__(self, connection, world: World) -> None:
        self.connection, self.world = connection, world

    def cursor(self):
        return self.connection.cursor()

    def __enter__(self):
        self.connection.__enter__()

    def __exit__(self, kind, value, trace):
        if kind is None:
            try:
                self.world.step()
            except Died as died:
                self.connection.__exit__(Died, died, None)               # rolled back, as by a session that ended
                raise
        self.connection.__exit__(kind, value, trace)
        if kind is None:
            self.world.step()


class Tests(unittest.TestCase):
    @classmethod
    def setUpClass(cls) -> None:
        cls.fleet = f.Fleet('none', 0, DAY, [], 1)
        atexit.register(cls.fleet.__exit__)                                # also where a signal ends it
        signal.signal(signal.SIGTERM, signal.default_int_handler)
        cls.fleet.start_postgres('-c', 'fsync=off', '-c', 'synchronous_commit=off', '-c', 'full_page_writes=off')    # nobody stops it here
        cls.connection = cls.fleet.connect()
        with cls.connection, cls.connection.cursor() as cursor:
            cursor.execute((f.HERE / 'schema.sql').read_text())

    @classmethod
    def tearDownClass(cls) -> None:
        cls.connection.close()

    def fresh(self, seed: int = 1, loss: float = 0.1) -> World:
        with self.connection, self.connection.cursor() as cursor:
            cursor.execute('TRUNCATE campaign, exchange, share, change')
        days.open_day(self.connection, DAY, [{'seat': s, 'cid': k, 'bidder': s, 'budget': WHOLE} for s, k in CAMPAIGNS])
        for name in ('x1', 'x2', 'x3'):
            days.register(self.connection, DAY, name, name, '', [], 3)
        with self.connection, self.connection.cursor() as cursor:
            cursor.execute('SELECT exchange, seat, cid, confirmed FROM share')
            roster: dict[str, dict] = {}
            for x, seat, cid, money in cursor.fetchall():
                roster.setdefault(x, {})[seat, cid] = money
        return World(roster, seed, loss)

    def controller(self, world: World, **more) -> c.Controller:
        made = c.Controller(c.Ledger(Steps(self.connection, world), DAY), line=world.line, **more)
        made.each = lambda work, rows: [work(row) for row in list(rows)]     # one after another, so that a seed is a schedule
        return made

    def covers(self, world: World) -> None:
        """What the ledger says that exchanges may have covers what they have."""
        with self.connection, self.connection.cursor() as cursor:
            cursor.execute('SELECT exchange, seat, cid, most FROM share')
            for x, seat, cid, most in cursor.fetchall():
                self.assertLessEqual(world.budget[x, (seat, cid)], most)
            cursor.execute('SELECT c.held, sum(most), c.budget FROM campaign c JOIN share s USING (day, seat, cid) GROUP BY c.day, c.seat, c.cid')
            for held, most, budget in cursor.fetchall():
                self.assertEqual(held, most)
                self.assertLessEqual(held, budget)

    def test_dies_at_each_step(self) -> None:
        deaths = 0
        for seed in range(6):
            for alive in range(0, 45):
                if (alive + seed) % 3:
                    continue
                world = self.fresh(seed)
                for life in (alive, alive // 2 + 1, alive + 7):            # dies three times, and then lives
                    world.steps = itertools.repeat(1, life)
                    try:
                        self.controller(world).round()
                    except Died:
                        deaths += 1
                        self.connection.rollback()
                    self.covers(world)
                world.steps = itertools.repeat(1)
                self.controller(world).round()
                self.covers(world)
        print('%d deaths' % deaths, end=' ')

    def test_many_rounds_end_settled(self) -> None:
        world = self.fresh(7, 0.3)
        controller = self.controller(world)
        for _ in range(60):
            controller.round()
            self.covers(world)
        world.loss, world.late = 0, []
        for _ in range(3):
            controller.round()
        self.assertEqual(controller.ledger.under_way(), [])
        for at, money in world.budget.items():
            with self.connection, self.connection.cursor() as cursor:
                cursor.execute('SELECT confirmed FROM share WHERE (exchange, seat, cid) = (%s, %s, %s)', (at[0], *at[1]))
                self.assertEqual(cursor.fetchone()[0], money)

    def refused(self, statement: str, *values: object) -> None:
        with self.assertRaises((psycopg2.errors.RaiseException, psycopg2.errors.CheckViolation)):
            with self.connection, self.connection.cursor() as cursor:
                cursor.execute(statement, values)

    def test_schema_refuses_what_is_no_step(self) -> None:
        self.fresh()
        where = " WHERE exchange = 'x1' AND cid = 'a'"
        self.refused('UPDATE share SET intended = %s, number = number + 1' + where, WHOLE)           # more than there is
        self.refused('UPDATE share SET confirmed = confirmed - 1' + where)                           # lower without an answer
        self.refused('UPDATE share SET intended = 5' + where)                                        # without a number
        self.refused('UPDATE share SET intended = 5, number = number + 2' + where)
        self.refused('DELETE FROM share' + where)
        self.refused('UPDATE campaign SET budget = held - 1')
        with self.connection, self.connection.cursor() as cursor:
            cursor.execute('UPDATE share SET intended = 5, number = number + 1' + where)
        self.refused('UPDATE share SET intended = 6' + where)                                        # the same number with another budget
        self.refused('UPDATE share SET intended = 6, number = number + 1' + where)                   # two under way
        with self.connection, self.connection.cursor() as cursor:
            cursor.execute('UPDATE share SET intended = NULL, confirmed = 5' + where)
            cursor.execute('UPDATE share SET intended = 10, number = number + 1' + where)
        self.refused('UPDATE share SET intended = NULL' + where)                                     # a raise isn't dropped

    def test_old_answers_change_nothing(self) -> None:
        world = self.fresh(1, 0)
        ledger = self.controller(world).ledger
        with self.connection, self.connection.cursor() as cursor:
            cursor.execute("UPDATE share SET intended = 5, number = number + 1 WHERE exchange = 'x1' AND cid = 'a'")
        row = ('x1', 'n', 'a', 1, 5)
        self.assertFalse(ledger.settle('x1', 'n', 'a', 1, 6, c.Answer('confirmed')))
        self.assertFalse(ledger.settle('x1', 'n', 'a', 0, 5, c.Answer('confirmed')))
        self.assertTrue(ledger.settle(*row, c.Answer('confirmed')))
        for said in ('confirmed', 'refused', 'foreign'):
            self.assertFalse(ledger.settle(*row, c.Answer(said, 9)))

    def test_drained_gives_back_and_dead_keeps(self) -> None:
        world = self.fresh(1, 0)
        controller = self.controller(world, least=10 ** 9)
        controller.round()
        with self.connection, self.connection.cursor() as cursor:
            cursor.execute("UPDATE exchange SET state = 'draining' WHERE name = 'x1'")
            cursor.execute("UPDATE exchange SET state = 'dead' WHERE name = 'x2'")
            cursor.execute("SELECT confirmed FROM share WHERE exchange = 'x2' AND cid = 'a'")
            before = cursor.fetchone()[0]
        for _ in range(3):
            controller.round()
        self.covers(world)
        with self.connection, self.connection.cursor() as cursor:
            cursor.execute("SELECT exchange, confirmed FROM share WHERE cid = 'a' ORDER BY exchange")
            rows = dict(cursor.fetchall())
        self.assertLess(rows['x1'], WHOLE // 4)
        self.assertEqual(rows['x2'], before)
        self.assertGreater(rows['x3'], WHOLE // 3)

    def test_budget_goes_down_as_shares_do_and_a_new_exchange_has_a_unit(self) -> None:
        world = self.fresh(1, 0)
        controller = self.controller(world, least=3)                               # changes of less than a third aren't worth it, but for this
        with self.connection, self.connection.cursor() as cursor:
            cursor.execute('UPDATE campaign SET wanted = %s', (WHOLE // 2,))
        for _ in range(3):
            controller.round()
        with self.connection, self.connection.cursor() as cursor:
            cursor.execute('SELECT budget, held FROM campaign')
            for budget, held in cursor.fetchall():
                self.assertLessEqual(held, budget)
                self.assertEqual(budget, WHOLE // 2)
        days.register(self.connection, DAY, 'x4', 'x4', '', [], 4)
        with self.connection, self.connection.cursor() as cursor:
            cursor.execute("SELECT min(confirmed) FROM share WHERE exchange = 'x4'")
            self.assertGreaterEqual(cursor.fetchone()[0], 1)

    def test_another_hand(self) -> None:
        world = self.fresh(3, 0)
        controller = self.controller(world)
        world.changes['x1', ('n', 'a')][9] = world.budget['x1', ('n', 'a')] = 1000      # an operator's curl, lower
        for _ in range(4):
            controller.round()
            self.covers(world)
        self.assertGreater(controller.alarms, 0)
        self.assertEqual([row[:1] + row[2:4] for row in controller.ledger.under_way()], [('x1', 'n', 'a')])      # it stays as it is
        controller = self.controller(world, adopt=True)
        for _ in range(4):
            controller.round()
        self.covers(world)
        self.assertEqual(controller.ledger.under_way(), [])

    def keep(self) -> None:
        """What a backup has."""
        with self.connection, self.connection.cursor() as cursor:
            cursor.execute('CREATE TABLE kept AS SELECT exchange, seat, cid, confirmed, intended, number FROM share;'
                           ' CREATE TABLE kept_campaign AS SELECT seat, cid, budget, wanted, held FROM campaign')

    def restore(self) -> None:
        """The ledger is as it was then."""
        with self.connection, self.connection.cursor() as cursor:
            cursor.execute('ALTER TABLE share DISABLE TRIGGER USER; DELETE FROM change;'
                           ' UPDATE share s SET confirmed = k.confirmed, intended = k.intended, number = k.number FROM kept k WHERE (s.exchange, s.seat, s.cid) = (k.exchange, k.seat, k.cid);'
                           ' UPDATE campaign c SET budget = k.budget, wanted = k.wanted, held = k.held FROM kept_campaign k WHERE (c.seat, c.cid) = (k.seat, k.cid);'
                           ' ALTER TABLE share ENABLE TRIGGER USER; DROP TABLE kept; DROP TABLE kept_campaign')

    def test_recovers_a_ledger_that_forgot(self) -> None:
        for seed in range(4):
            world = self.fresh(seed, 0.1)
            controller = self.controller(world)
            for _ in range(3):
                controller.round()
            self.keep()
            for _ in range(3):
                controller.round()
            self.restore()
            new = self.controller(world)
            new.recover(10 ** 9)
            self.covers(world)
            for _ in range(20):                                                          # what was late comes between, and changes nothing
                new.round()
                self.covers(world)
            self.assertRaises(c.Refused, new.recover, 10 ** 8)

    def test_recovers_with_one_dead_and_not_with_two(self) -> None:
        for seed in range(4):
            world = self.fresh(seed, 0.1)
            controller = self.controller(world)
            self.keep()
            for _ in range(6):
                controller.round()
            self.restore()
            self.set_state('x1', 'dead')
            world.down = {'x1'}
            new = self.controller(world)
            new.recover(10 ** 9)
            self.covers(world)                                                           # what the dead one has is at most the rest
            for _ in range(5):
                new.round()
                self.covers(world)
            self.set_state('x1', 'serving')
            world.down = set()
            for _ in range(10):
                new.round()
                self.covers(world)
            self.set_state('x1', 'dead'), self.set_state('x2', 'dead')
            self.assertRaisesRegex(c.Refused, 'x1 and x2 are dead', new.recover, 2 * 10 ** 9)
            self.set_state('x1', 'serving'), self.set_state('x2', 'serving')
            world.down = {'x3'}
            self.assertRaisesRegex(c.Refused, "x3 doesn't answer", new.recover, 2 * 10 ** 9)

    def set_state(self, name: str, state: str) -> None:
        with self.connection, self.connection.cursor() as cursor:
            cursor.execute('UPDATE exchange SET state = %s WHERE name = %s', (state, name))

    def test_an_old_ledger_never_costs_money(self) -> None:
        """A ledger that was restored from an old backup, and a controller that doesn't know of it. Nothing is on its way."""
        alarms = 0
        for seed in range(12):
            world = self.fresh(seed, 0)
            policy = {'policy': 'equal'} if seed % 2 else {}                             # whose budgets repeat
            controller = self.controller(world, least=100, **policy)
            for at in range(2 + seed % 3):
                controller.round()
            self.keep()
            for at in range(2 + seed // 3):
                with self.connection, self.connection.cursor() as cursor:
                    cursor.execute('UPDATE campaign SET wanted = %s', (WHOLE - (WHOLE // 4) * (at % 2),))
                controller.round()
            self.restore()
            new = self.controller(world, least=100, **policy)
            for at in range(8):
                with self.connection, self.connection.cursor() as cursor:
                    cursor.execute('UPDATE campaign SET wanted = %s', (WHOLE - (WHOLE // 4) * (at % 2),))
                new.round()                                                              # world.sound after each message
            alarms += new.alarms
        self.assertGreater(alarms, 6)
        print('%d alarms' % alarms, end=' ')

    def want(self, units: int) -> None:
        with self.connection, self.connection.cursor() as cursor:
            cursor.execute('UPDATE campaign SET wanted = %s', (units,))

    def test_an_old_ledger_that_knows_nothing_of_a_raise(self) -> None:
        """What was free in the backup was given to one exchange since: the others mustn't have it once more."""
        world = self.fresh(1, 0)
        world.selling = False
        controller = self.controller(world, least=100, policy='equal')
        self.want(WHOLE * 6 // 10)
        for _ in range(3):
            controller.round()
        self.want(WHOLE)
        self.keep()
        self.set_state('x2', 'draining'), self.set_state('x3', 'draining')
        for _ in range(3):
            controller.round()
        self.assertGreater(world.budget['x1', ('n', 'a')], WHOLE // 2)
        self.restore()
        self.set_state('x2', 'serving'), self.set_state('x3', 'serving')
        new = self.controller(world, least=100, policy='equal')
        for _ in range(5):
            new.round()                                                                  # world.sound after each message
        self.assertGreater(new.alarms, 0)

    def test_a_raise_rests_on_books(self) -> None:
        """An old ledger asks for a lower share by a number that the exchange knows with just that budget: it says done, and has more."""
        world = self.fresh(1, 0)
        world.selling = False
        controller = self.controller(world, least=100, policy='equal')
        self.keep()
        self.set_state('x2', 'draining')                                                 # so x2 has no number of these changes
        for units in (WHOLE * 3 // 4, WHOLE):
            self.want(units)
            for _ in range(2):
                controller.round()
        self.restore()
        new = self.controller(world, least=100, policy='equal')
        new.look()
        self.want(WHOLE * 3 // 4)
        self.assertEqual(new.ledger.intend(c.equal, False, 100, lambda *_: True), 2 * len(CAMPAIGNS))
        new.send()
        self.set_state('x2', 'serving'), self.set_state('x1', 'draining'), self.set_state('x3', 'draining')
        self.want(WHOLE)
        self.assertEqual(new.ledger.intend(c.equal, True, 100, lambda *place: place in new.fitting), 0)
        for _ in range(5):
            new.round()
        self.assertGreater(new.alarms, 0)

    def test_a_raise_below_what_is_committed(self) -> None:
        """Another hand gave an exchange more, which it sold: a raise below that is refused, and stays counted."""
        world = self.fresh(5, 0)
        world.selling = False
        controller = self.controller(world)
        controller.round()
        with self.connection, self.connection.cursor() as cursor:
            cursor.execute("UPDATE share SET intended = confirmed - 1000, number = number + 1 WHERE exchange = 'x2' AND cid = 'a'")
        controller.send()
        at = 'x2', ('n', 'a')
        world.budget[at] += 1000
        world.committed[at] = world.budget[at]
        with self.connection, self.connection.cursor() as cursor:
            cursor.execute("UPDATE share SET intended = confirmed + 500, number = number + 1 WHERE exchange = 'x2' AND cid = 'a'")
        for _ in range(3):
            controller.round()
        self.assertGreater(controller.alarms, 0)
        with self.connection, self.connection.cursor() as cursor:
            cursor.execute("SELECT intended IS NOT NULL FROM share WHERE exchange = 'x2' AND cid = 'a'")
            self.assertTrue(cursor.fetchone()[0])                                        # as long as nobody looks
        world.committed[at] = 0
        for _ in range(4):
            controller.round()
        self.assertEqual(controller.ledger.under_way(), [])
        self.covers(world)

    def test_a_share_below_what_is_committed(self) -> None:
        world = self.fresh(5, 0)
        world.selling = False
        controller = self.controller(world)
        controller.round()
        at = 'x2', ('n', 'a')
        world.committed[at] = world.budget[at]                                           # sold since its books were read
        with self.connection, self.connection.cursor() as cursor:
            cursor.execute("UPDATE share SET intended = 5, number = number + 1 WHERE exchange = 'x2' AND cid = 'a'")
        before = world.budget[at]
        controller.send()
        self.assertEqual((controller.ledger.under_way(), controller.alarms, world.budget[at]), ([], 0, before))
        self.covers(world)

    def test_a_campaign_in_one_exchange_alone(self) -> None:
        world = self.fresh(5, 0)
        controller = self.controller(world)
        world.budget['x2', ('n', 'zzz')], world.changes['x2', ('n', 'zzz')], world.committed['x2', ('n', 'zzz')] = 77, {}, 0
        del world.budget['x3', ('n', 'b')]
        before = dict(world.budget)
        for _ in range(4):
            controller.round()
        self.assertEqual(controller.alarms, 2 + 1)                                       # each once, and the change that can't be
        self.assertEqual(controller.ledger.under_way(), [row for row in controller.ledger.under_way() if row[0::1][:1] == ('x3',)])
        self.assertEqual(world.budget['x2', ('n', 'zzz')], 77)
        for x in ('x1', 'x2'):
            self.assertLessEqual(world.budget[x, ('n', 'b')], before[x, ('n', 'b')])     # no raise of what doesn't fit
        self.covers_but(world, {('x3', ('n', 'b'))})

    def covers_but(self, world: World, absent: set) -> None:
        world.budget.update({at: 0 for at in absent})
        self.covers(world)

    def test_a_roster_that_differs(self) -> None:
        for more in (5000, -5000):
            world = self.fresh(5, 0)
            world.budget['x2', ('n', 'a')] += more                                       # it was started with another line
            controller = self.controller(world, least=10 ** 9)
            for key in CAMPAIGNS:
                if more > 0:                                                             # the sum was passed as it was started, by that hand
                    world.sound = lambda: None
            controller.round()
            self.assertEqual(controller.alarms, 0)                                       # once may be a controller that was faster
            raised = [world.budget[x, ('n', 'a')] for x in ('x1', 'x3')]
            controller.round()
            self.assertEqual(controller.alarms, 1)
            if more > 0:
                self.assertTrue(all(new <= old for new, old in zip([world.budget[x, ('n', 'a')] for x in ('x1', 'x3')], raised)))
            for _ in range(3):
                controller.round()
            self.covers(world)
            self.assertEqual(controller.alarms, 1)

    def test_an_old_answer_is_no_alarm(self) -> None:
        """Of a controller that slept: what it asked was settled by another one, and the exchange says late."""
        world = self.fresh(5, 0)
        controller = self.controller(world)
        controller.settle(('x1', 'n', 'a', 1, 5), c.Answer('foreign', 3))
        self.assertEqual(controller.alarms, 0)

    def day(self, *words: str) -> tuple[int, str, str]:
        done = subprocess.run([sys.executable, str(f.HERE / 'day.py'), '--dsn', self.fleet.dsn, *words], capture_output=True, text=True, timeout=60)
        return done.returncode, done.stdout, done.stderr

    def test_a_day_from_the_command_line(self) -> None:
        self.fresh()
        folder = self.fleet.folder
        (folder / 'campaigns').write_text('[{"bidder":"n","seat":"n","cid":"c1","budget":0.000000999},{"bidder":"n","seat":"n","cid":"c2","budget":1.5}]')
        (folder / 'bad').write_text('[{"bidder":"n","seat":"n","cid":"c1","budget":0.0000000001}]')
        (folder / 'bidders').write_text('[{"name":"n","port":1}]')
        other = '2025-03-02'
        self.assertEqual(self.day('register', other, 'y1', '127.0.0.1:1', 'http://x/at/y1', str(folder / 'bidders'), '2')[::2], (1, 'day: %s has no campaigns: open it first\n' % other))
        self.assertEqual(self.day('open', other, str(folder / 'bad'))[0], 1)
        self.assertEqual(self.day('open', other, str(folder / 'campaigns')), (0, '', ''))
        line = self.day('register', other, 'y1', '127.0.0.1:1', 'http://x/at/y1', str(folder / 'bidders'), '2')
        self.assertEqual(line, (0, '{"day":"2025-03-02","base":"http://x/at/y1","bidders":[{"name":"n","port":1}],"campaigns":[{"bidder":"n","seat":"n","cid":"c1","budget":0.000000467},'
                                '{"bidder":"n","seat":"n","cid":"c2","budget":0.749999968}]}\n', ''))
        self.assertEqual(self.day('register', other, 'y1', 'elsewhere:2', 'z', str(folder / 'bidders'), '9'), line)          # what its journal is of
        self.assertEqual(self.day('budget', other, 'n', 'c2', '2.25'), (0, '', ''))
        self.assertEqual(self.day('budget', other, 'n', 'c3', '2.25'), (1, '', 'day: the ledger has no such row\n'))
        self.assertEqual(self.day('state', other, 'y1', 'dead'), (0, '', ''))
        self.assertEqual(self.day('restored', other, 'y2')[0], 1)
        self.assertEqual(self.day('show', other)[1].splitlines()[0],
                         '{"exchange":"y1","state":"dead","seat":"n","cid":"c1","confirmed":467,"intended":null,"number":0,"committed":0,"billed":0}')

    def test_metrics(self) -> None:
        controller = self.controller(self.fresh(1, 0))
        controller.round()
        text = controller.metrics(1, 0.5)
        self.assertIn('adx_fleet_campaign_budget_units{seat="n",cid="a"} %d\n' % WHOLE, text)
        self.assertIn('adx_fleet_exchange_up{exchange="x1"} 1\n', text)

    def test_one_leads(self) -> None:
        self.fresh()
        one, two = (c.Ledger(self.fleet.connect(), DAY) for _ in range(2))
        self.assertTrue(one.lead())
        self.assertFalse(two.lead())
        one.connection.close()
        for _ in range(50):
            if two.lead():
                break
        self.assertTrue(two.leads)
        two.connection.close()

    def test_amounts(self) -> None:
        self.assertEqual(c.dollars(1), '0.000000001')
        self.assertEqual(c.dollars(2500000000), '2.500000000')
        self.assertEqual(sum(map(int, (line.split()[1] == 'x1' for line in f.slots_map(['x1', 'x2'], [3, 1]).splitlines()))), 192)


if __name__ == '__main__':
    unittest.main(verbosity=2)
