#!/usr/bin/python3
"""The quiet events of a fleet, one after another: a standby that takes over, an exchange that is new, drained, dead or restored from a copy,
another hand at an exchange's budgets, a campaign's budget that changes, the metrics, and a change of day with bills of the day before.

    fleet/tests/test_days.py --adx PROGRAM --merge-days TOOL
"""
import argparse
import json
import os
import pathlib
import shutil
import signal
import sys
import time
import urllib.request

sys.dont_write_bytecode = True
sys.path.insert(0, str(pathlib.Path(__file__).resolve().parent.parent))
import controller as c                                               # noqa: E402
import day as days                                                   # noqa: E402
import fleet as f                                                    # noqa: E402
import load                                                          # noqa: E402

ONE, TWO = '2025-03-01', '2025-03-02'


def ensure(holds: bool, *what: object) -> None:
    if not holds:
        raise AssertionError(what)


def call(port: int, method: str, path: str) -> tuple[int, bytes]:
    with c.Line('127.0.0.1:%d' % port, 10) as line:
        return line.call(method, path)


class Days:
    def __init__(self, options: argparse.Namespace, fleet: f.Fleet) -> None:
        self.options, self.fleet, self.seed = options, fleet, 0

    def rows(self, query: str, *values: object) -> list[tuple]:
        connection = self.fleet.connect()
        with connection, connection.cursor() as cursor:
            cursor.execute(query, values)
            found = cursor.fetchall() if cursor.description else []
        connection.close()
        return found

    def load(self, seconds: float = 4) -> dict:
        self.seed += 1
        workers, publishers = load.start(self.fleet.door, seconds, 6, seed=self.seed)
        for worker in workers:
            worker.join()
        counts, _, problems = load.total(publishers)
        ensure(not problems, problems[:5])
        return dict(counts)

    def meters(self, name: str) -> dict:
        return json.loads(call(self.fleet.ports[name], 'GET', '/meters')[1])

    def quick(self, name: str) -> bool:
        """Whether twenty calls in a row, more than it has workers, are answered at once."""
        began = time.monotonic()
        for _ in range(20):
            if c.read_books('127.0.0.1:%d' % self.fleet.ports[name]) is None:
                return False
        return time.monotonic() - began < 2

    def budgets(self, name: str) -> dict:
        for _ in range(50):
            found = c.read_books('127.0.0.1:%d' % self.fleet.ports[name])
            if found:
                return {key: row[0] for key, row in found.rows.items()}
            time.sleep(0.1)
        raise TimeoutError(name)

    def within(self, name: str) -> bool:
        """Whether an exchange has at most what the ledger says that it may have."""
        budgets = self.budgets(name)
        return all(budgets[seat, cid] <= most for seat, cid, most in self.rows('SELECT seat, cid, most FROM share WHERE (day, exchange) = (%s, %s)', ONE, name))

    def until(self, what: str, holds, seconds: float = 30) -> float:
        began = time.monotonic()
        while not holds():
            ensure(time.monotonic() - began < seconds, 'never: ' + what)
            time.sleep(0.1)
        return time.monotonic() - began

    def alarms(self) -> int:
        return sum((self.fleet.folder / (name + '.said')).read_text().count('ALARM') for name in ('leader', 'standby', 'third') if (self.fleet.folder / (name + '.said')).exists())

    def sound(self) -> None:
        for seat, cid, budget, held, most in self.rows('SELECT seat, cid, budget, held, sum(most) FROM campaign JOIN share USING (day, seat, cid) WHERE day = %s GROUP BY 1, 2, 3, 4', ONE):
            ensure(held == most <= budget, seat, cid, budget, held, most)

    def changes(self) -> int:
        return self.rows("SELECT count(*) FROM change WHERE state <> 'intended'")[0][0]

    def run(self) -> None:
        fleet, port = self.fleet, f.free_port()
        fleet.up()
        fleet.start_controller('leader', 0.3, '--metrics', str(port))
        print('load       %s' % self.load())
        with urllib.request.urlopen('http://127.0.0.1:%d/metrics' % port, timeout=10) as page:
            text = page.read().decode()
        ensure(all(line.startswith('adx_fleet_') and len(line.rsplit(' ', 1)) == 2 for line in text.splitlines()), text)
        print('metrics    %d lines, as %s' % (len(text.splitlines()), next(line for line in text.splitlines() if 'exchange_asks' in line)))

        fleet.start_controller('standby', 0.3, '--adopt')
        workers, _ = load.start(fleet.door, 8, 6, seed=77)
        time.sleep(3)
        fleet.stop('leader')
        before = self.changes()
        print('standby    takes over within %.1f s' % self.until('a change by the standby', lambda: self.changes() > before))
        for worker in workers:
            worker.join()

        before = self.meters('x1')['asks']
        fleet.start_exchange('x4', 4)                     # new, with what is free of each budget: a unit at least
        first = self.rows("SELECT min(confirmed), max(confirmed) FROM share WHERE exchange = 'x4'")[0]
        fleet.drain('x1', ['x2', 'x3', 'x4'])
        took = self.until('shares for the new exchange', lambda: self.rows("SELECT min(confirmed) FROM share WHERE exchange = 'x4'")[0][0] > 10 ** 6)
        print('new        x4 began with %d to %d units, and has %s after %.1f s' % (*first, self.rows("SELECT min(confirmed), max(confirmed) FROM share WHERE exchange = 'x4'")[0], took))
        self.load()
        ensure(self.meters('x1')['asks'] == before and self.meters('x4')['asks'] > 0, 'asks of the drained and the new exchange')
        left = self.until('shares of the drained', lambda: self.rows("SELECT sum(most - greatest(committed, 1)) FROM share WHERE exchange = 'x1'")[0][0] * 100 < self.rows('SELECT sum(budget) FROM campaign WHERE day = %s', ONE)[0][0])
        print('drained    x1 has its committed money and less than a hundredth beside it, %.1f s later' % left)

        copy = fleet.folder / 'x2.copy'                   # a copy of a day at rest, for later
        fleet.stop('x2')
        shutil.copy(fleet.journal('x2'), copy)
        fleet.set_state('x2', 'dead')
        time.sleep(2)                                     # a round that began before may still write
        held = self.rows("SELECT sum(most) FROM share WHERE exchange = 'x2'")[0][0]
        fleet.set_slots(['x3', 'x4'])
        self.load(3)
        ensure(self.rows("SELECT sum(most) FROM share WHERE exchange = 'x2'")[0][0] == held, 'a dead exchange keeps its shares')
        fleet.start_exchange('x2', 4)
        fleet.set_state('x2', 'serving')
        fleet.set_slots(['x2', 'x3', 'x4'])
        took = self.until('x2 answers as before', lambda: self.quick('x2'), 60)
        before = self.meters('x2')['asks']
        self.load(3)
        ensure(self.meters('x2')['asks'] > before, 'asks of the exchange that came back')
        self.sound()
        print('dead       x2 kept %d units while it was, and came back; it sent the notices of its day again, and answered as before after %.1f s; alarms %d' % (held, took, self.alarms()))

        entries, alarms = self.meters('x2')['entries'], self.alarms()
        fleet.stop('x2')                                  # its disk is lost, and an older copy is put back: entries and changes are missing
        shutil.copy(copy, fleet.journal('x2'))
        fleet.start_exchange('x2', 4)
        self.until('an alarm of a journal that went back', lambda: self.alarms() > alarms)
        self.until('the books of x2 within its shares', lambda: self.within('x2'))
        print('restored   x2 had %d entries and has %d: %s' % (entries, self.meters('x2')['entries'], 'alarm, and its shares asked for again'))
        self.rows("UPDATE exchange SET entries = 0 WHERE name = 'x2'")

        alarms = self.alarms()
        number = self.rows("SELECT number FROM share WHERE (exchange, seat, cid) = ('x3', 'n', 'n1')")[0][0] + 5
        status, _ = call(fleet.ports['x3'], 'POST', '/budget?seat=n&cid=n1&change=%d&budget=900' % number)
        ensure(status == 204, status)
        self.until('an alarm of another hand', lambda: self.alarms() > alarms)
        took = self.until('the share put right', lambda: self.within('x3'))
        print('other hand x3 was given 900 dollars by curl: alarm, and its share again %.1f s later' % took)

        whole = self.rows("SELECT budget FROM campaign WHERE (day, seat, cid) = (%s, 's', 's2')", ONE)[0][0]
        committed = int(self.rows("SELECT sum(committed) FROM share WHERE (day, seat, cid) = (%s, 's', 's2')", ONE)[0][0])
        for wanted in ((whole + committed) // 2, whole * 2):
            self.rows("UPDATE campaign SET wanted = %s WHERE (day, seat, cid) = (%s, 's', 's2')", wanted, ONE)
            took = self.until('the budget of a campaign', lambda: self.rows("SELECT budget FROM campaign WHERE (day, seat, cid) = (%s, 's', 's2')", ONE)[0][0] == wanted)
            print('budget     of s2, %d, to %d, of which %d are committed: %.1f s' % (whole, wanted, committed, took))
            self.sound()

        # midnight: bills of the old day that come after it
        held_back = []
        publisher = load.Publisher(fleet.door, 99, 30, 1)
        for at in range(20):
            status, said = publisher.call('POST', '/openrtb', json.dumps({'id': 'late-%d' % at, 'imp': [{'id': '1'}]}).encode())
            held_back += ['/' + bid['burl'].split('/', 3)[3] for seat in (json.loads(said)['seatbid'] if status == 200 else []) for bid in seat['bid']]
        fleet.day = TWO
        connection = fleet.connect()
        days.open_day(connection, TWO, fleet.campaigns)
        connection.close()
        for name in ('y1', 'y2'):
            fleet.start_exchange(name, 2)
        fleet.set_slots(['y1', 'y2'])
        fleet.start_controller('third', 0.3)
        self.load()
        ensure(self.meters('y1')['asks'] > 0 and self.meters('y2')['asks'] > 0, 'asks of the new day')
        answers = [publisher.call('GET', path)[0] for path in held_back]
        ensure(answers == [204] * len(held_back), answers)
        print('day change %d bills of the old day found it after the change; the new day has %d asks' % (len(answers), self.meters('y1')['asks'] + self.meters('y2')['asks']))
        for name in ('standby', 'third'):
            fleet.stop(name, signal.SIGTERM)
        for day, names in ((ONE, ['x1', 'x2', 'x3', 'x4']), (TWO, ['y1', 'y2'])):
            for name in names:
                fleet.stop(name)
            bound = fleet.file_day(self.options.merge_days, names)
            print('filed      %s: bound %d, committed and billed %s' % (day, bound, self.rows('SELECT committed, billed FROM fleet_sum WHERE day = %s', day)[0]))
        for table in ('closed_campaign',):
            for row in self.rows('SELECT day, seat, cid, f.committed, c.budget FROM fleet_campaign f JOIN campaign c USING (day, seat, cid)'):
                ensure(row[3] <= row[4], row)
        print('all        as it should be')


def main() -> None:
    parser = argparse.ArgumentParser(description='The quiet events of a fleet.')
    parser.add_argument('--adx', required=True)
    parser.add_argument('--merge-days', required=True)
    options = parser.parse_args()
    with f.Fleet(os.path.abspath(options.adx), 3, ONE, f.two_bidders(4), 6 * 10 ** 9, extra=('x4', 'y1', 'y2')) as fleet:
        try:
            Days(options, fleet).run()
        except BaseException:
            for path in sorted(fleet.folder.glob('*.said')):
                print('--- %s\n%s' % (path.name, path.read_text()[-800:]), file=sys.stderr)
            raise


if __name__ == '__main__':
    main()
