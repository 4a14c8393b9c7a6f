#!/usr/bin/env python3
"""Measures solve under mixed logit with 1, 2 and 4 workers, on inputs whose search is long. See README.md.

Every number of workers prints the same bytes, which is tested here; none is claimed to be faster than another."""
import os
import subprocess
import tempfile
from concurrent.futures import ThreadPoolExecutor

from calls import NODES, calls, count
from mixed import categories, sparse, trial, words_of
from run import best_time, in_folder, machine, options, report

REPEATS = 3
WORKERS = (1, 2, 4)


def solve(words):
    return subprocess.run(words, stdout=subprocess.PIPE, check=True).stdout


def asked(case, folder):
    """The words of a solve with each number of workers, over files in a folder of its own."""
    own = os.path.join(folder, case.name.replace(' ', '-'))
    os.makedirs(own, exist_ok=True)
    case.write(own)
    return own, [words_of(own, 'solve') + ['--workers', str(workers)] for workers in WORKERS]


def times(words):
    timed = [best_time(lambda one=one: solve(one), REPEATS) for one in words]
    assert len({said for _, said in timed}) == 1, 'two numbers of workers print different bytes'
    return [time for time, _ in timed]


def nodes(words, folder):
    """How many nodes each solve meets, each counted in a folder of its own, since they are counted side by side."""
    own = tempfile.mkdtemp(dir=folder)
    return count(calls(words, own), NODES)


def rows(cases, folder):
    runs = [(case, *asked(case, folder)) for case in cases]
    timed = [times(words) for _, _, words in runs]
    with ThreadPoolExecutor(os.cpu_count()) as pool:
        met = [list(pool.map(nodes, words, [own] * len(words))) for _, own, words in runs]
    for (case, _, _), took, each in zip(runs, timed, met):
        cells = ['%.1f (%.2fx), %s nodes' % (time, time / took[0], found) for time, found in zip(took, each)]
        yield '| ' + ' | '.join([case.name] + cells) + ' |'


def main():
    keep = options(__doc__).parse_args().keep
    cases = [trial(128, 7), sparse(64, 7), categories(64, 7), sparse(128, 7)]
    lines = ['Milliseconds, the least of %d; in brackets how many times the time of one worker; nodes of one solve.' % REPEATS, '', machine(), '',
             '| input | ' + ' | '.join('%d worker%s' % (workers, '' if workers == 1 else 's') for workers in WORKERS) + ' |', '|---|' + '---|' * len(WORKERS)]
    lines += in_folder(lambda folder: list(rows(cases, folder)))
    report('solve under mixed logit by several workers', lines, ['workers'], keep)


if __name__ == '__main__':
    main()
