#!/usr/bin/python3
"""Files closed days of exchanges in the archive of a fleet, in PostgreSQL.

    archive.py --dsn DSN --adx ADX put EXCHANGE DOCUMENT            one exchange's document, once
    archive.py --dsn DSN --adx ADX fleet MERGE_DAYS MERGED DOCUMENT..   the merged record of all, whose bound `adx check` accepts

A document is judged by `adx check` first, and filed in one transaction. The same document again changes nothing; another one for the
same day and exchange is refused, and so is a merged record that isn't of just the exchanges that the ledger has of the day
(--without NAME: but for one whose journal is lost). Documents belong into object storage, by their SHA-256. Where the filed budgets of a
campaign come to more than the ledger's, or an exchange's to another one than its share, that is an alarm, a line on standard error and
status 1, and it is filed all the same.
"""
import argparse
import hashlib
import json
import pathlib
import subprocess
import sys
from dataclasses import dataclass, field

import psycopg2

SECONDS = 600                     # that a check or a merge may take


class Refused(Exception):
    """What isn't filed, in a sentence."""


@dataclass
class Sums:
    """What the archive keeps of a record. Money is in units."""
    day: str = ''
    imps: int = 0
    names: list[tuple[str, str]] = field(default_factory=list)
    budget: list[int] = field(default_factory=list)
    committed: list[int] = field(default_factory=list)
    billed: list[int] = field(default_factory=list)


def texts(line: str, count: int) -> tuple[list[str], str]:
    """So many JSON texts, each with a space after it or at the line's end, and what is left."""
    found = []
    for _ in range(count):
        text, end = json.JSONDecoder().raw_decode(line)
        found.append(text)
        line = line[end + 1:]
    return found, line


def sums_of(document: str) -> Sums:
    """The sums of a record of format 2."""
    lines = document.split('\n')
    if lines[0] != 'adx-record 2':
        raise Refused('no record of format 2')
    sums = Sums(day=lines[1].split(' ')[1])
    for line in lines[2:]:
        word = line.split(' ', 1)[0]
        if word == 'campaign':
            _, _, budget, _, names = line.split(' ', 4)
            seat, cid = texts(names, 2)[0]
            sums.names.append((seat, cid))
            sums.budget.append(int(budget)), sums.committed.append(0), sums.billed.append(0)
        elif word == 'imp':
            chosen, end, *offers = texts(line.split(' ', 2)[2], 2)[1].split(' ')
            sums.imps += 1
            if end in ('live', 'billed'):
                at, charge = map(int, offers[int(chosen)].split(':'))
                sums.committed[at] += charge
                sums.billed[at] += charge if end == 'billed' else 0
        elif word == 'end':
            break
    return sums


def check(adx: str, document: bytes) -> int:
    """The bound that the checker accepts."""
    done = subprocess.run([adx, 'check'], input=document, capture_output=True, timeout=SECONDS)
    if done.returncode != 0:
        raise Refused('the checker doesn\'t accept it (status %d): %s' % (done.returncode, (done.stdout or done.stderr).decode('utf-8', 'replace').strip()))
    return int(json.loads(done.stdout)['bound'])


def put(connection, adx: str, exchange: str, path: pathlib.Path) -> bool:
    """Files a document. False where it was there."""
    document = path.read_bytes()
    bound, sums, digest = check(adx, document), sums_of(document.decode()), hashlib.sha256(document).hexdigest()
    with connection, connection.cursor() as cursor:
        cursor.execute('INSERT INTO closed_day (day, exchange, sha256, bound, imps) VALUES (%s, %s, %s, %s, %s) ON CONFLICT DO NOTHING',
                       (sums.day, exchange, digest, bound, sums.imps))
        if cursor.rowcount == 0:
            cursor.execute('SELECT sha256 FROM closed_day WHERE (day, exchange) = (%s, %s)', (sums.day, exchange))
            if cursor.fetchone()[0] != digest:
                raise Refused('%s of %s is filed already, with another document' % (sums.day, exchange))
            return False
        cursor.executemany('INSERT INTO closed_campaign (day, exchange, seat, cid, budget, committed, billed) VALUES (%s, %s, %s, %s, %s, %s, %s)',
                           [(sums.day, exchange, *names, *money) for names, *money in zip(sums.names, sums.budget, sums.committed, sums.billed)])
        return True


def put_fleet(connection, adx: str, merge_days: str, paths: list[pathlib.Path], merged: pathlib.Path, without: tuple[str, ...] = ()) -> int:
    """Makes the merged record of filed documents, has it checked, and files its bound."""
    digests = [hashlib.sha256(path.read_bytes()).hexdigest() for path in paths]
    with open(merged, 'wb') as out:
        done = subprocess.run([sys.executable, merge_days, *map(str, paths)], stdout=out, stderr=subprocess.PIPE, timeout=SECONDS)
    said = done.stderr.decode('utf-8', 'replace').strip().splitlines()
    if done.returncode != 0:
        raise Refused((said or ['the documents aren\'t merged'])[-1])
    for line in said:                             # asks that are in two documents
        print('archive: ALARM: ' + line, file=sys.stderr)
    document = merged.read_bytes()
    bound, sums = check(adx, document), sums_of(document.decode())
    with connection, connection.cursor() as cursor:
        cursor.execute('SELECT coalesce(array_agg(sha256 ORDER BY sha256), \'{}\') FROM closed_day WHERE day = %s', (sums.day,))
        if cursor.fetchone()[0] != sorted(digests):
            raise Refused('the merged documents aren\'t those that are filed of %s' % sums.day)
        cursor.execute('SELECT name FROM exchange WHERE day = %(day)s EXCEPT SELECT exchange FROM closed_day WHERE day = %(day)s', {'day': sums.day})
        lacking = sorted({name for name, in cursor.fetchall()} - set(without))
        if lacking:
            raise Refused('no document of %s is filed of %s' % (sums.day, ' and '.join(lacking)))
        cursor.execute('INSERT INTO fleet_day (day, exchanges, bound, sha256) VALUES (%s, %s, %s, %s)'
                       ' ON CONFLICT (day) DO UPDATE SET exchanges = excluded.exchanges, bound = excluded.bound, sha256 = excluded.sha256',
                       (sums.day, len(paths), bound, hashlib.sha256(document).hexdigest()))
    return bound


def differences(connection, day: str) -> list[str]:
    """Where the filed days differ from the ledger: more than a campaign's budget, and a share with another budget than was confirmed."""
    with connection, connection.cursor() as cursor:
        cursor.execute('SELECT seat, cid, f.budget, coalesce(c.budget, 0) FROM fleet_campaign f LEFT JOIN campaign c USING (day, seat, cid)'
                       ' WHERE day = %s AND f.budget > coalesce(c.budget, 0) ORDER BY 1, 2', (day,))
        found = ['the exchanges had %d units of %s %s, and its budget is %d' % (budget, seat, cid, whole) for seat, cid, budget, whole in cursor.fetchall()]
        cursor.execute('SELECT exchange, seat, cid, d.budget, confirmed FROM closed_campaign d JOIN share s USING (day, exchange, seat, cid)'
                       ' WHERE day = %s AND d.budget <> confirmed AND d.budget IS DISTINCT FROM intended ORDER BY 1, 2, 3', (day,))
        return found + ['%s closed with %d units of %s %s, and the ledger has %d' % (name, budget, seat, cid, confirmed)
                        for name, seat, cid, budget, confirmed in cursor.fetchall()]


def main() -> int:
    parser = argparse.ArgumentParser(description='The archive of a fleet.')
    parser.add_argument('--dsn', required=True)
    parser.add_argument('--adx', required=True, help='the program, whose check judges each document')
    what = parser.add_subparsers(dest='what', required=True)
    one = what.add_parser('put')
    one.add_argument('exchange')
    one.add_argument('document', type=pathlib.Path)
    fleet = what.add_parser('fleet')
    fleet.add_argument('--without', action='append', default=[], metavar='NAME', help='an exchange whose journal is lost')
    fleet.add_argument('merge_days')
    fleet.add_argument('merged', type=pathlib.Path)
    fleet.add_argument('documents', type=pathlib.Path, nargs='+')
    options = parser.parse_args()
    try:
        connection = psycopg2.connect(options.dsn)
        if options.what == 'put':
            print('kept' if put(connection, options.adx, options.exchange, options.document) else 'there')
            return 0
        print(put_fleet(connection, options.adx, options.merge_days, options.documents, options.merged, tuple(options.without)))
        found = differences(connection, sums_of(options.merged.read_text()).day)
        for text in found:
            print('archive: ALARM: ' + text, file=sys.stderr)
        return 1 if found else 0
    except (Refused, psycopg2.Error, OSError, ValueError, subprocess.TimeoutExpired) as error:
        print('archive: %s' % str(error).strip().split('\n')[0], file=sys.stderr)
        return 1


if __name__ == '__main__':
    sys.exit(main())
