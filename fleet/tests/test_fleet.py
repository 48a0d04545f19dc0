#!/usr/bin/python3
"""A fleet under load whose parts are killed at random moments: what it must keep is looked at after each kill, and at the end.

    fleet/tests/test_fleet.py --adx PROGRAM --merge-days TOOL --seconds 90 --exchanges 4 --seed 1
    fleet/tests/test_fleet.py --adx PROGRAM --merge-days TOOL --asks 100000 --seconds 3000 --budget 20000000000     ends with so many asks

After each event, with all controllers dead (so that nothing new is asked; what is late in the proxies may still come): for each campaign the
budgets of all exchanges' books come to at most the whole, each is covered by the ledger, and committed money is at most the whole.
At the end: everything is settled, the ledger, the books and the documents say the same, the publishers' bills are those of the
documents, no ask is in two of them, and each is in one, each bill is there once, the merged certificate is accepted, the sums in
PostgreSQL are those of the exchanges' own archives, and what the proxies saw allows no moment at which the sum could have passed the whole.
"""
import argparse
import collections
import json
import os
import pathlib
import random
import signal
import subprocess
import sys
import time
from decimal import Decimal

sys.dont_write_bytecode = True
sys.path[:0] = [str(pathlib.Path(__file__).resolve().parent.parent), str(pathlib.Path(__file__).resolve().parent)]
import archive                                                       # noqa: E402
import controller as c                                               # noqa: E402
import evening                                                       # noqa: E402
import fleet as f                                                    # noqa: E402
import load                                                          # noqa: E402
from lossy import Lossy, Passed                                      # noqa: E402

DAY = '2025-03-01'
RECOVERED = 10 ** 7                # the number of the first ledger that was rebuilt; a day has a million changes at most
Key = tuple[str, str]


def ensure(holds: bool, *what: object) -> None:
    if not holds:
        raise AssertionError(what)


def greatest_sums(roster: dict[str, dict[Key, int]], passed: list[Passed]) -> dict[Key, int]:
    """The greatest sum of a campaign's budgets that any order allows which the proxies' clock doesn't exclude: a change may have been taken
    as it was first sent, also where no answer was seen, and what was before may have been there until it was answered."""
    found = {}
    for key in next(iter(roster.values())):
        events: list[tuple[float, int, str, str, int]] = []
        budgets: dict[tuple[str, int], int] = {}
        for row in passed:
            if row.campaign == key:
                money = int(Decimal(row.budget) * c.UNITS)
                ensure(row.number >= RECOVERED or budgets.get((row.exchange, row.number), money) == money, 'a number with two budgets', row)
                budgets[row.exchange, row.number] = max(money, budgets.get((row.exchange, row.number), 0))
                events.append((row.sent, 1, row.exchange, 'sent', row.number))
                if row.status == 204:
                    events.append((row.answered, 0, row.exchange, 'taken', row.number))
        taken = {name: (0, roster[name][key]) for name in roster}                # the last number that was answered, and its budget
        sent: dict[str, set[int]] = {name: set() for name in roster}
        most = sum(money for _, money in taken.values())
        for _, _, name, what, number in sorted(events):
            if what == 'sent':
                sent[name].add(number)
            elif number > taken[name][0]:
                taken[name] = number, budgets[name, number]
                sent[name] = {later for later in sent[name] if later > number}
            most = max(most, sum(max([taken[x][1]] + [budgets[x, n] for n in sent[x] if n > taken[x][0]]) for x in roster))
        found[key] = most
    return found


class Trial:
    def __init__(self, options: argparse.Namespace, fleet: f.Fleet) -> None:
        self.options, self.fleet, self.rng = options, fleet, random.Random(options.seed)
        self.whole = {(row['seat'], row['cid']): row['budget'] for row in fleet.campaigns}
        self.proxies = {name: Lossy(name, fleet.ports[name], options.seed + at) for at, name in enumerate(fleet.names)}
        fleet.addresses = {name: '127.0.0.1:%d' % proxy.port for name, proxy in self.proxies.items()}
        self.charge = {(line['seat'], price['cid']): round(price['price'] * 10 ** 6) for line in fleet.prices for price in line['prices']}
        self.events: collections.Counter = collections.Counter()
        self.looks = 0

    def books(self, name: str) -> dict[Key, tuple[int, int, int]]:
        for _ in range(100):
            found = c.read_books('127.0.0.1:%d' % self.fleet.ports[name])
            if found:
                return found.rows
            time.sleep(0.1)
        raise TimeoutError(name)

    def look(self) -> None:
        """The invariant. Controllers are dead."""
        rows = {name: self.books(name) for name in self.fleet.names}
        with self.fleet.connect() as connection, connection.cursor() as cursor:
            cursor.execute('SELECT exchange, seat, cid, most FROM share')
            for name, seat, cid, most in cursor.fetchall():
                ensure(rows[name][seat, cid][0] <= most, 'more than the ledger knows', name, seat, cid, rows[name][seat, cid], most)
        connection.close()
        for key, whole in self.whole.items():
            budgets, committed = (sum(rows[name][key][at] for name in rows) for at in (0, 1))
            ensure(budgets <= whole, 'budgets pass the whole', key, budgets, whole)
            ensure(committed <= whole, 'committed passes the whole', key, committed, whole)
        self.looks += 1

    def kill_controllers(self) -> None:
        for name in ('one', 'two'):
            if name in self.fleet.processes:
                self.fleet.stop(name)
                self.events['controllers killed'] += 1

    def start_controllers(self) -> None:
        for name in ('one', 'two'):
            if name not in self.fleet.processes:
                self.fleet.start_controller(name, 0.2, '--no-lock', '--least', '2000')

    def forget(self) -> None:
        """A copy of the database; or, where there is one, the database is lost, and the copy takes its place: it forgot what was since."""
        fleet, data, copy = self.fleet, self.fleet.folder / 'pg', self.fleet.folder / 'pg.copy'
        fleet.stop('postgres', signal.SIGINT)
        if copy.exists():
            self.kill_controllers()
            subprocess.run(['rm', '-rf', str(data)], check=True)
            copy.rename(data)
            fleet.start_postgres()
            self.events['ledgers that forgot'] += 1
            number = str(RECOVERED * self.events['ledgers that forgot'])
            fleet.start_controller('recovery', 0.2, '--recover', number).wait(120)
            ensure(fleet.processes.pop('recovery').returncode == 0, (fleet.folder / 'recovery.said').read_text())
        else:
            subprocess.run(['cp', '-a', str(data), str(copy)], check=True)
            fleet.start_postgres()

    def event(self) -> None:
        """Something goes wrong."""
        what = self.rng.choices(['controller', 'controllers', 'exchange', 'postgres', 'pause', 'door', 'bidder', 'forget'], [6, 6, 3, 1, 2, 1, 1, 1])[0]
        fleet = self.fleet
        if what == 'controller':
            fleet.stop(self.rng.choice(('one', 'two')))
            self.events['controllers killed'] += 1
        elif what == 'pause':                     # one that sleeps through what the other does, and goes on as if nothing had been
            process = fleet.processes[self.rng.choice(('one', 'two'))]
            process.send_signal(signal.SIGSTOP)
            time.sleep(self.rng.uniform(1, 3))
            process.send_signal(signal.SIGCONT)
            self.events['controllers paused'] += 1
        elif what == 'exchange':
            name = self.rng.choice(fleet.names)
            fleet.stop(name)
            time.sleep(self.rng.uniform(0, 1))
            fleet.start_exchange(name, len(fleet.names))
            self.events['exchanges killed'] += 1
        elif what == 'postgres':
            sign = self.rng.choice((signal.SIGINT, signal.SIGKILL, signal.SIGQUIT))
            fleet.stop('postgres', sign)
            for stale in (fleet.folder / 'pg').glob('postmaster.pid'):
                for _ in range(50):                # its children end by themselves; they hold the memory until then
                    time.sleep(0.1)
                stale.unlink(missing_ok=True)
            fleet.start_postgres()
            self.events['PostgreSQL stopped (%s)' % signal.Signals(sign).name] += 1
        elif what == 'bidder':
            fleet.restart_bidder(self.rng.choice(fleet.prices)['seat'], self.rng.uniform(0, 1))
            self.events['bidders killed'] += 1
        elif what == 'forget':
            self.forget()
        elif what == 'door':
            fleet.stop('haproxy')
            fleet.start_door()
            self.events['doors killed'] += 1
        self.kill_controllers()
        self.look()
        self.start_controllers()

    def run(self) -> None:
        fleet, options = self.fleet, self.options
        fleet.up()
        self.start_controllers()
        workers, publishers = load.start(fleet.door, options.seconds, 8, patience=300, seed=options.seed, most=-(-options.asks // 8) if options.asks else 10 ** 9)
        began = time.monotonic()
        while time.monotonic() - began < options.seconds and any(worker.is_alive() for worker in workers):
            time.sleep(self.rng.uniform(0.1, 2 * options.every))
            self.event()
            print('%6.0f s  %d asks, %d events, %d looks' % (time.monotonic() - began, sum(p.counts['asks'] for p in publishers), sum(self.events.values()), self.looks),
                  file=sys.stderr, flush=True)
        for worker in workers:
            worker.join(180)
        self.kill_controllers()
        for proxy in self.proxies.values():
            proxy.rates = (0, 0, 0, 0)
        time.sleep(4.5)                           # what is late comes now
        self.look()
        fleet.start_controller('last', 0.2, '--rounds', '6', '--least', '1000000').wait(120)
        fleet.processes.pop('last')
        self.look()
        self.last(publishers)

    def last(self, publishers: list[load.Publisher]) -> None:
        fleet = self.fleet
        counts, billed, problems = load.total(publishers)
        with fleet.connect() as connection, connection.cursor() as cursor:
            cursor.execute('SELECT exchange, seat, cid, confirmed, intended, number FROM share')
            ledger = {(name, seat, cid): (confirmed, intended, number) for name, seat, cid, confirmed, intended, number in cursor.fetchall()}
            cursor.execute('SELECT state, count(*) FROM change GROUP BY 1')
            changes = dict(cursor.fetchall())
        connection.close()
        roster = {}
        for name in fleet.names:
            fleet.stop(name)
            line = json.loads(fleet.roster(name).read_text(), parse_float=Decimal)
            roster[name] = {(row['seat'], row['cid']): int(row['budget'] * c.UNITS) for row in line['campaigns']}
        began = time.monotonic()
        bound = fleet.file_day(self.options.merge_days)
        again = fleet.file_day(self.options.merge_days)                          # nothing is counted twice
        ensure(bound == again, bound, again)
        filed = time.monotonic() - began
        documents = [fleet.folder / (name + '.document') for name in fleet.names]
        archives, found = evening.own_archives(fleet.adx, documents), evening.recorded(documents)
        for (name, seat, cid), row in ledger.items():
            ensure(row[:2] == (archives[name][seat, cid][0], None), 'ledger and document', name, seat, cid, row, archives[name][seat, cid])
        connection = fleet.connect()
        sums, differences = evening.fleet_sums(connection, DAY), archive.differences(connection, DAY)
        with connection, connection.cursor() as cursor:
            cursor.execute('SELECT committed, billed, bound FROM fleet_sum')
            whole_day = cursor.fetchone()
        connection.close()
        ensure(sums == evening.added(archives) and sums.keys() == self.whole.keys(), 'sums', sums, archives)
        ensure(not differences, differences)
        unused = {}
        for key, money in sums.items():
            ensure(money[0] <= self.whole[key] and money[1] <= money[0], key, money)
            ensure(billed[key] == money[2], 'the publishers\' bills', key, billed[key], money)
            unused[key[1]] = self.whole[key] - money[1], found.expired[key]
            if counts['without a sale'] * 2 > counts['asks']:     # budgets were used up: unused is what expired at the end, and less than a charge on each exchange
                ensure(unused[key[1]][0] - unused[key[1]][1] < len(fleet.names) * self.charge[key] + self.whole[key] // 500, 'unused', key, unused[key[1]])
        ensure(found.imps == len(found.ids) == counts['asks'], 'asks', found.imps, len(found.ids), counts)
        ensure(found.bills == counts['bills'], 'bills', found.bills, counts)
        # changes of the documents are those that the ledger confirmed, but for refused ones that were taken by a late message; one that an exchange
        # took as it was killed has no answer, where it was a late copy
        taken = {(p.exchange, p.campaign, p.number) for name in fleet.names for p in self.proxies[name].passed if p.status == 204}
        greatest = greatest_sums(roster, [row for proxy in self.proxies.values() for row in proxy.passed])
        for key, most in greatest.items():
            ensure(most <= self.whole[key], 'there may have been a moment with more than the whole', key, most)
        network: collections.Counter = collections.Counter()
        for proxy in self.proxies.values():
            network.update(proxy.counts)
        print('asks       %d in the documents, of %d ids; %d billed, once each' % (found.imps, len(found.ids), found.bills))
        print('events     %s' % dict(self.events))
        print('looks      %d, each sound' % self.looks)
        print('publishers %s' % dict(counts))
        print('network    %s' % dict(network))
        print('changes    %s; %d taken as the proxies saw, %d in the documents' % (changes, len(taken), found.changes))
        print('greatest   sums that any order allows, of the whole: %s' % ', '.join('%.6f' % (greatest[key] / self.whole[key]) for key in sorted(greatest)))
        alarms = [line for name in ('one', 'two', 'last') for line in (fleet.folder / (name + '.said')).read_text().splitlines() if 'ALARM' in line]
        print('alarms     %d%s' % (len(alarms), ''.join('\n           ' + line for line in alarms[:20])))
        print('unused     units of %d, and how many of these expired at the end: %s' % (next(iter(self.whole.values())), unused))
        print('day        committed %s, billed %s, bound %s; closed and filed twice in %.1f s' % (*whole_day, filed))
        ensure(not problems, problems[:10])
        ensure(0 <= found.changes - len(taken) <= self.events['exchanges killed'], 'changes', found.changes, len(taken))


def main() -> None:
    parser = argparse.ArgumentParser(description='Kills parts of a fleet under load.')
    parser.add_argument('--adx', required=True)
    parser.add_argument('--merge-days', required=True)
    parser.add_argument('--seconds', type=float, default=90)
    parser.add_argument('--asks', type=int, default=0, help='ends after so many (0: by the seconds alone)')
    parser.add_argument('--every', type=float, default=1.3, help='seconds between two events, on the average')
    parser.add_argument('--exchanges', type=int, default=4)
    parser.add_argument('--budget', type=int, default=300 * 10 ** 6)
    parser.add_argument('--seed', type=int, default=1)
    options = parser.parse_args()
    weights = [8, 4, 2, 2, 1, 1, 1, 1][:options.exchanges]
    with f.Fleet(os.path.abspath(options.adx), options.exchanges, DAY, f.two_bidders(4), options.budget, weights=weights) as fleet:
        trial = Trial(options, fleet)
        try:
            trial.run()
        except BaseException:
            for name in ('one', 'two', 'postgres', 'haproxy', *fleet.names):
                said = fleet.folder / (name + '.said')
                if said.exists():
                    print('--- %s\n%s' % (name, said.read_text()[-1500:]), file=sys.stderr)
            raise
        finally:
            for proxy in trial.proxies.values():
                proxy.close()


if __name__ == '__main__':
    main()
