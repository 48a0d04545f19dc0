"""What the closed days of a fleet's exchanges say, to be compared with what publishers were told, with the ledger and with the archives."""
import collections
import json
import pathlib
import sqlite3
import subprocess
from dataclasses import dataclass, field

Key = tuple[str, str]             # a campaign's seat and cid


@dataclass
class Recorded:
    """Of all documents together: impressions, their auctions' ids, bills, changes of budgets, and money that expired, in units."""
    imps: int = 0
    ids: set[str] = field(default_factory=set)
    bills: int = 0
    changes: int = 0
    expired: collections.Counter = field(default_factory=collections.Counter)


def recorded(documents: list[pathlib.Path]) -> Recorded:
    """Reads documents whose asks have one impression each and ids without spaces, as load.py's have."""
    found = Recorded()
    for path in documents:
        names: list[Key] = []
        for line in path.read_text().splitlines():
            if line.startswith('campaign '):
                _, _, _, changes, seat, cid = line.split(' ')
                names.append((json.loads(seat), json.loads(cid)))
                found.changes += int(changes)
            elif line.startswith('imp '):
                _, _, auction, _, chosen, end, *offers = line.split(' ')
                found.imps += 1
                found.ids.add(auction)
                found.bills += end == 'billed'
                if end == 'expired':
                    at, charge = map(int, offers[int(chosen)].split(':'))
                    found.expired[names[at]] += charge
    return found


def own_archives(adx: str, documents: list[pathlib.Path]) -> dict[str, dict[Key, tuple[int, int, int]]]:
    """Files each document in an archive of its own by the program, and reads it: budget, committed and billed units of each campaign, by
    the names of the documents' files."""
    found = {}
    for path in documents:
        archive = path.with_suffix('.db')
        archive.unlink(missing_ok=True)
        with open(path, 'rb') as document:
            subprocess.run([adx, 'archive-put', '--archive', str(archive)], stdin=document, check=True, stdout=subprocess.DEVNULL, timeout=600)
        with sqlite3.connect(archive) as rows:
            found[path.stem] = {(seat, cid): (int(budget), int(committed), int(billed))
                                for seat, cid, budget, committed, billed in rows.execute('SELECT seat, cid, budget, committed, billed FROM campaign2')}
        rows.close()
    return found


def fleet_sums(connection, day: str) -> dict[Key, tuple[int, int, int]]:
    """Budget, committed and billed units of each campaign, as PostgreSQL adds up what was filed."""
    with connection, connection.cursor() as cursor:
        cursor.execute('SELECT seat, cid, budget, committed, billed FROM fleet_campaign WHERE day = %s', (day,))
        return {(seat, cid): (int(budget), int(committed), int(billed)) for seat, cid, budget, committed, billed in cursor.fetchall()}


def added(archives: dict[str, dict[Key, tuple[int, int, int]]]) -> dict[Key, tuple[int, int, int]]:
    """The sums over the archives."""
    sums: dict[Key, tuple[int, int, int]] = {}
    for rows in archives.values():
        for key, money in rows.items():
            sums[key] = tuple(map(sum, zip(sums.get(key, (0, 0, 0)), money)))
    return sums
