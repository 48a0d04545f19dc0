#!/usr/bin/python3
"""A day of a fleet in its ledger: opened, its exchanges registered, and what a person decides of them.

    day.py --dsn DSN open DAY CAMPAIGNS                  the campaigns and their whole budgets: a file with a JSON list of objects with
                                                         bidder, seat, cid, and budget in dollars
    day.py --dsn DSN register DAY NAME ADDRESS BASE BIDDERS PARTS
                                                         writes an exchange down with a PARTS-th of what is free of each budget, and prints the
                                                         roster line that it is to be started with, always the same: BIDDERS is a file
                                                         with a roster's list of bidders, BASE what its notices' URLs begin with
    day.py --dsn DSN state DAY NAME serving|draining|dead
    day.py --dsn DSN budget DAY SEAT CID DOLLARS         what a campaign's owner asks for: up at once, down as shares are given back
    day.py --dsn DSN restored DAY NAME                   its journal went back to a copy, and all alarms of that were read
    day.py --dsn DSN show DAY                            a line for each share

The ledger is made by `psql -f fleet/schema.sql`. An exchange is written down before it is started, so that what it may sell is counted.
"""
import argparse
import json
import pathlib
import sys
from decimal import Decimal

import psycopg2

sys.dont_write_bytecode = True
sys.path.insert(0, str(pathlib.Path(__file__).resolve().parent))
from controller import SPARE, UNITS, Refused, dollars                # noqa: E402


def units(amount: Decimal) -> int:
    """Dollars in units, exactly."""
    found = amount * UNITS
    if found != int(found) or not 1 <= found <= 10 ** 15:
        raise Refused('%s is no budget: it is at least 0.000000001 dollar and at most 1000000, in whole units' % amount)
    return int(found)


def open_day(connection, day: str, campaigns: list[dict]) -> None:
    """The campaigns of a day, with whole budgets in units. A campaign that is there stays as it is."""
    with connection, connection.cursor() as cursor:
        cursor.executemany('INSERT INTO campaign (day, seat, cid, bidder, budget, wanted) VALUES (%s, %s, %s, %s, %s, %s) ON CONFLICT DO NOTHING',
                           [(day, row['seat'], row['cid'], row['bidder'], row['budget'], row['budget']) for row in campaigns])


def register(connection, day: str, name: str, address: str, base: str, bidders: list[dict], parts: int) -> str:
    """Writes a new exchange down, with a parts-th of each budget as far as it is free, and a unit at least; then, and only then, it may be
    started with the roster that comes back. One that was written down before has its roster as it was."""
    with connection, connection.cursor() as cursor:
        cursor.execute('SELECT roster FROM exchange WHERE (day, name) = (%s, %s)', (day, name))
        known = cursor.fetchone()
        if known:
            return known[0]
        cursor.execute('SELECT seat, cid, bidder, budget, held FROM campaign WHERE day = %s ORDER BY seat, cid FOR UPDATE', (day,))
        rows = [(seat, cid, bidder, max(1, min((budget - SPARE) // parts, budget - held))) for seat, cid, bidder, budget, held in cursor.fetchall()]
        if not rows:
            raise Refused('%s has no campaigns: open it first' % day)
        roster = json.dumps({'day': day, 'base': base, 'bidders': bidders, 'campaigns': [
            {'bidder': bidder, 'seat': seat, 'cid': cid, 'budget': '@%s@' % dollars(share)} for seat, cid, bidder, share in rows]},
            separators=(',', ':')).replace('"@', '').replace('@"', '')
        cursor.execute('INSERT INTO exchange (day, name, address, roster) VALUES (%s, %s, %s, %s)', (day, name, address, roster))
        cursor.executemany('INSERT INTO share (day, exchange, seat, cid, confirmed) VALUES (%s, %s, %s, %s, %s)',
                           [(day, name, seat, cid, share) for seat, cid, _, share in rows])
        return roster


def update(connection, statement: str, *values: object) -> None:
    """One row changes."""
    with connection, connection.cursor() as cursor:
        cursor.execute(statement, values)
        if cursor.rowcount != 1:
            raise Refused('the ledger has no such row')


def show(connection, day: str) -> str:
    with connection, connection.cursor() as cursor:
        cursor.execute('SELECT exchange, state, seat, cid, confirmed, intended, number, committed, billed FROM share JOIN exchange e'
                       ' ON (e.day, name) = (share.day, exchange) WHERE share.day = %s ORDER BY 3, 4, 1', (day,))
        return ''.join('%s\n' % json.dumps(dict(zip(('exchange', 'state', 'seat', 'cid', 'confirmed', 'intended', 'number', 'committed', 'billed'), row)),
                                           separators=(',', ':')) for row in cursor.fetchall())


def run(connection, options: argparse.Namespace) -> None:
    if options.what == 'open':
        rows = json.loads(options.campaigns.read_text(), parse_float=Decimal)
        open_day(connection, options.day, [{**row, 'budget': units(Decimal(row['budget']))} for row in rows])
    elif options.what == 'register':
        print(register(connection, options.day, options.name, options.address, options.base, json.loads(options.bidders.read_text()), options.parts))
    elif options.what == 'state':
        update(connection, 'UPDATE exchange SET state = %s WHERE (day, name) = (%s, %s)', options.state, options.day, options.name)
    elif options.what == 'budget':
        update(connection, 'UPDATE campaign SET wanted = %s WHERE (day, seat, cid) = (%s, %s, %s)', units(options.dollars), options.day, options.seat, options.cid)
    elif options.what == 'restored':
        update(connection, 'UPDATE exchange SET entries = 0 WHERE (day, name) = (%s, %s)', options.day, options.name)
    else:
        sys.stdout.write(show(connection, options.day))


def main() -> int:
    parser = argparse.ArgumentParser(description='A day of a fleet in its ledger.')
    parser.add_argument('--dsn', required=True)
    what = parser.add_subparsers(dest='what', required=True)
    kinds = {'campaigns': pathlib.Path, 'bidders': pathlib.Path, 'parts': int, 'dollars': Decimal}
    for name, words in (('open', 'campaigns'), ('register', 'name address base bidders parts'), ('state', 'name state'), ('budget', 'seat cid dollars'),
                        ('restored', 'name'), ('show', '')):
        one = what.add_parser(name)
        one.add_argument('day')
        for word in words.split():
            one.add_argument(word, type=kinds.get(word, str), choices=['serving', 'draining', 'dead'] if word == 'state' else None)
    options = parser.parse_args()
    try:
        run(psycopg2.connect(options.dsn), options)
    except (Refused, psycopg2.Error, OSError, ValueError, KeyError) as error:
        print('day: %s' % (str(error).strip().split('\n') or [''])[0], file=sys.stderr)
        return 1
    return 0


if __name__ == '__main__':
    sys.exit(main())
