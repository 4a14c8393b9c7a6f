#!/usr/bin/env python3
"""Measures the built program beside peers on the same inputs. See README.md."""
import argparse
import datetime
import itertools
import os
import platform
import shutil
import subprocess
import sys
import tempfile
import time
from fractions import Fraction

import generate
from models import Model

HERE = os.path.dirname(os.path.abspath(__file__))
PROGRAM = os.path.join(HERE, '..', 'crates', 'assort', 'out', 'assort')
REPEATS = 7


def best_time(work, repeats=REPEATS):
    """The least of a few times, in milliseconds, and what the work gave."""
    times = []
    for _ in range(repeats):
        start = time.perf_counter()
        found = work()
        times.append(time.perf_counter() - start)
    return 1000 * min(times), found


def solve(path, none):
    words = [PROGRAM, 'solve', '--model', 'logit', '--products', path, '--none', str(none)]
    ran = subprocess.run(words, stdout=subprocess.PIPE, check=True)
    value = ran.stdout.decode().splitlines()[-1].split()[1]
    return Fraction(*(int(part) for part in value.split('/')))


def certify(path, none, folder):
    """The times of solve with a certificate and of its check, and the certificate's bytes."""
    proof = os.path.join(folder, 'proof.txt')
    words = ['--model', 'logit', '--products', path, '--none', str(none), '--proof', proof]
    def work(command):
        said = subprocess.run([PROGRAM, command] + words, stdout=subprocess.PIPE, check=True).stdout
        assert command == 'solve' or said == b'accepted\n', 'a certificate was rejected'
    solved, _ = best_time(lambda: work('solve'))
    checked, _ = best_time(lambda: work('check'))
    return solved, checked, os.path.getsize(proof)


def enumerate_sets(products, none):
    best = Fraction(0)
    for chosen in itertools.product((False, True), repeat=len(products)):
        offered = [p for p, c in zip(products, chosen) if c]
        value = Fraction(sum(r * v for _, r, v in offered), none + sum(v for _, _, v in offered))
        best = max(best, value)
    return best


def highs(products, none):
    try:
        from scipy.optimize import linprog
    except ImportError:
        return None
    n = len(products)
    cost = [0.0] + [-float(r) for _, r, _ in products]
    rows = [[-v / none] + [1.0 if j == i else 0.0 for j in range(n)] for i, (_, _, v) in enumerate(products)]
    def work():
        return -linprog(cost, A_ub=rows, b_ub=[0.0] * n, A_eq=[[1.0] * (n + 1)], b_eq=[1.0], method='highs').fun
    return work


def glpk(products, none, folder):
    if not shutil.which('glpsol'):
        return None
    path, bought = os.path.join(folder, 'model.lp'), ['y%d' % i for i in range(len(products))]
    model = Model(bought + ['z'], [])
    model.objective = {y: r for y, (_, r, _) in zip(bought, products)}
    model.row({'z': 1, **{y: 1 for y in bought}}, '=', 1, 'one')
    for y, (_, _, v) in zip(bought, products):
        model.row({y: 1, 'z': -v / none}, '<=', 0)
    with open(path, 'w') as f:
        model.write(f)
    def work():
        subprocess.run(['glpsol', '--lp', path, '-o', os.path.join(folder, 'solution')], stdout=subprocess.DEVNULL, check=True)
    return work


def machine():
    model = 'unknown processor'
    try:
        with open('/proc/cpuinfo') as f:
            model = next(line.split(':', 1)[1].strip() for line in f if line.startswith('model name'))
    except (OSError, StopIteration):
        pass
    return '%s, %d processors, %s, load %.1f at the start' % (model, os.cpu_count() or 0, platform.system(), os.getloadavg()[0])


def cases():
    for n in (8, 12, 16):
        yield 'random, %d products' % n, *generate.random_products(n, n)
    for n in (64, 256):
        yield 'random, %d products' % n, *generate.random_products(n, n)
    yield 'largest numbers, 256 products', *generate.largest_products(256)
    yield 'equal ratios, 256 products', *generate.tied_products(256)
    yield 'falling margins, 256 products', *generate.falling_products(256)


def row(name, products, none, folder):
    path = os.path.join(folder, 'products.csv')
    generate.write_products(path, products)
    own, value = best_time(lambda: solve(path, none))
    solved, checked, size = certify(path, none, folder)
    cells = [name, '%.1f' % own, '%.1f (%.1fx)' % (solved, solved / own), '%.1f (%.1fx)' % (checked, checked / own), str(size)]
    if len(products) <= 16:
        start = time.perf_counter()
        assert enumerate_sets(products, none) == value, 'the enumeration finds another value'
        took = 1000 * (time.perf_counter() - start)
        cells.append('%.1f (%.1fx)' % (took, took / own))
    else:
        cells.append('')
    for work in (highs(products, none), glpk(products, none, folder)):
        if work is None:
            cells.append('not installed')
            continue
        took, _ = best_time(work)
        cells.append('%.1f (%.1fx)' % (took, took / own))
    return '| ' + ' | '.join(cells) + ' |'


def options(description):
    """The options that all measurements have."""
    found = argparse.ArgumentParser(description=description)
    found.add_argument('--keep', action='store_true', help='write the run to bench/runs/')
    if not os.path.exists(PROGRAM):
        sys.exit('no program: build it first (rt ci, or tools/assort once)')
    return found


def in_folder(work):
    """What the work gives in a folder of its own, which goes afterwards."""
    folder = tempfile.mkdtemp()
    try:
        return work(folder)
    finally:
        shutil.rmtree(folder)


def report(title, lines, name, keep):
    """Prints the lines, and keeps them in bench/runs/ under the day and the name."""
    print('\n'.join(lines))
    if keep:
        name = '-'.join([datetime.date.today().isoformat()] + name + [platform.machine()]) + '.md'
        os.makedirs(os.path.join(HERE, 'runs'), exist_ok=True)
        with open(os.path.join(HERE, 'runs', name), 'w') as f:
            f.write('# %s\n\n' % title + '\n'.join(lines) + '\n')


def main():
    keep = options(__doc__).parse_args().keep
    lines = ['Milliseconds, the least of %d; in brackets how many times the time of solve.' % REPEATS, '', machine(), '',
             '| input | solve | solve with a certificate | check | its bytes | enumeration in Python | HiGHS | GLPK |', '|---|---|---|---|---|---|---|---|']
    lines += in_folder(lambda folder: [row(*case, folder) for case in cases()])
    report('solve and check under multinomial logit', lines, [], keep)


if __name__ == '__main__':
    main()
