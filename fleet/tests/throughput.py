#!/usr/bin/python3
"""What 1, 2 and 4 exchanges take with their door, and one without it: asks with two bidders and a bill of each sale, by wrk.

    fleet/tests/throughput.py --adx PROGRAM --lua examples/load.lua --seconds 6 --times 3 [--reuse]

They are measured in turn, --times times, and the last lines have the ratios of each turn, to one exchange without a door and to one with
it, and the middle one: where the machine has other work these are what counts. TMPDIR says on which disk the journals are. Beside calls a
second it shows the processor time of each kind of process for a thousand calls.
"""
import argparse
import os
import pathlib
import re
import signal
import subprocess
import sys

sys.dont_write_bytecode = True
sys.path.insert(0, str(pathlib.Path(__file__).resolve().parent.parent))
import fleet as f                                                    # noqa: E402

TICK = os.sysconf('SC_CLK_TCK')


def spent(session: int) -> float:
    """Seconds of processors that the processes of a session took, ended children among them."""
    total = 0
    for entry in os.listdir('/proc'):
        if entry.isdigit():
            try:
                fields = pathlib.Path('/proc', entry, 'stat').read_text().rsplit(')', 1)[1].split()
            except OSError:
                continue
            if int(fields[3]) == session:
                total += sum(map(int, fields[11:15]))
    return total / TICK


class Direct(f.Fleet):
    """Notices go to the exchange itself."""

    def base(self, name: str) -> str:
        return 'http://127.0.0.1:%d' % self.ports[name]


def trial(options: argparse.Namespace, count: int, direct: bool) -> tuple[float, str]:
    with (Direct if direct else f.Fleet)(os.path.abspath(options.adx), count, '2025-03-01', f.two_bidders(1), 9000 * 10 ** 9, workers=options.workers) as fleet:
        fleet.reuse = options.reuse
        fleet.up()
        fleet.start_controller('controller', 1.0, '--least', '100000')
        before = {name: spent(process.pid) for name, process in fleet.processes.items()}
        said = subprocess.run(['wrk', '-t', '2', '-c', str(4 * count), '-d', '%gs' % options.seconds, '--timeout', '10s', '--latency', '-s', options.lua,
                               'http://127.0.0.1:%d' % (fleet.ports['x1'] if direct else fleet.door)], capture_output=True, text=True, timeout=options.seconds + 60).stdout
        kinds: dict[str, float] = {}
        for name, process in fleet.processes.items():
            kind = 'exchanges' if name[1:].isdigit() else name.split('-')[0]
            kinds[kind] = kinds.get(kind, 0) + spent(process.pid) - before[name]
        fleet.stop('controller', signal.SIGTERM)
        calls, rate = re.search(r'calls +(\d+) .*? (\d+) a second', said).groups()
        rest = '; '.join(' '.join(re.search(pattern, said).group(1).split()) for pattern in (r'replies +(.*)', r'took +(.*)'))
        shares = ', '.join('%s %.0f' % (kind, 10 ** 6 * seconds / int(calls)) for kind, seconds in sorted(kinds.items()) if seconds)
        with open('/proc/loadavg') as load:
            return float(rate), '%s a second; %s; ms of processors for 1000 calls: %s; load %s' % (rate, rest, shares, load.read().split()[0])


def main() -> None:
    parser = argparse.ArgumentParser(description='Throughput of a fleet.')
    parser.add_argument('--adx', required=True)
    parser.add_argument('--lua', required=True)
    parser.add_argument('--seconds', type=float, default=6)
    parser.add_argument('--times', type=int, default=1)
    parser.add_argument('--workers', type=int, default=16)
    parser.add_argument('--counts', default='1,2,4')
    parser.add_argument('--reuse', action='store_true', help='the door keeps connections to exchanges')
    options = parser.parse_args()
    counts = list(map(int, options.counts.split(',')))
    rates: dict[str, list[float]] = {}
    for _ in range(options.times):
        for name, count, direct in [('no door', 1, True)] + [('door, %d' % count, count, False) for count in counts]:
            rate, said = trial(options, count, direct)
            rates.setdefault(name, []).append(rate)
            print('%-9s %s' % (name, said), flush=True)
    for base in ('no door', 'door, %d' % counts[0]):
        for name, row in rates.items():
            ratios = [rate / one for rate, one in zip(row, rates[base])]
            print('%-9s of %-9s %.2f (%s)' % (name, base, sorted(ratios)[len(ratios) // 2], ', '.join('%.2f' % ratio for ratio in ratios)))


if __name__ == '__main__':
    main()
