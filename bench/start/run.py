#!/usr/bin/env python3
"""Prints how much processor time the installed command takes to start, with all that it starts: for
its version, for a trim of ten pairs, and for the same with a report and its page. Medians, and the
least. No time fails."""

import argparse
import gzip
import os
import resource
import statistics
import subprocess
import tempfile
from pathlib import Path

TREE = Path(__file__).resolve().parent.parent.parent
TRIM = ['trim', '-1', '1.fq.gz', '-2', '2.fq.gz', '--out', 's', 'LEADING:3', 'MINLEN:36']
ROWS = {
    '`tibzharuk --version`': ['--version'],
    'ten pairs': [*TRIM[:-2], '--no-report', *TRIM[-2:]],
    'ten pairs, report and page': TRIM,
}


def milliseconds(words, environment):
    """The processor time of a call."""
    def used():
        all_children = resource.getrusage(resource.RUSAGE_CHILDREN)
        return 1000 * (all_children.ru_utime + all_children.ru_stime)
    before = used()
    subprocess.run(words, env=environment, check=True, stdout=subprocess.DEVNULL)
    return used() - before


def main():
    parser = argparse.ArgumentParser(description=__doc__)
    parser.add_argument('--rounds', type=int, default=30, help='calls of each row (30)')
    parser.add_argument('--program', type=Path, default=TREE / 'crates/fq_prog/out/fq_prog',
                        help='the program (crates/fq_prog/out/fq_prog)')
    given = parser.parse_args()
    program = given.program.resolve()
    with tempfile.TemporaryDirectory() as room:
        subprocess.run(['bash', TREE / 'packaging/install.sh', program, room], check=True,
                       stdout=subprocess.DEVNULL)
        for side in '12':
            reads = (TREE / f'examples/reads_{side}.fq').read_bytes().splitlines(True)[:40]
            Path(room, f'{side}.fq.gz').write_bytes(gzip.compress(b''.join(reads)))
        os.chdir(room)
        environment = {**os.environ, 'PATH': f'{room}/bin:{os.environ["PATH"]}'}
        times = {row: [] for row in ROWS}
        for _ in range(given.rounds):
            for row, words in ROWS.items():
                times[row].append(milliseconds([f'{room}/bin/tibzharuk', *words], environment))
    print('| Call | Processor milliseconds | Least |', '|---|---|---|', sep='\n')
    for row, each in times.items():
        print(f'| {row} | {statistics.median(each):.0f} | {min(each):.0f} |')


main()
