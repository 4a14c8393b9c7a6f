#!/usr/bin/env python3
"""Measures solve, certificates and check under limits beside HiGHS, GLPK and CBC on the usual models. See README.md.

Caps and requirements are rows whose linear program is integral; a shelf and a ladder need a binary variable for each product."""
import os
import random
import shutil
import subprocess
import threading
from fractions import Fraction

from calls import TRIALS, calls, count
from models import ratio_model
from run import PROGRAM, REPEATS, best_time, in_folder, machine, options, report


class Case:
    """A catalogue with limits: columns by name, the limits' rows, and the rows of the model over z (weights, most)."""

    def __init__(self, name, n, seed):
        draw = random.Random(seed)
        self.name, self.n, self.none = name, n, draw.randint(1000, 10000)
        self.columns = {'name': ['p%d' % i for i in range(n)],
                        'margin': [draw.randint(1, 1000) for _ in range(n)],
                        'attraction': [draw.randint(1, 1000) for _ in range(n)]}
        self.limits, self.rows, self.binary, self.draw = [], [], False, draw

    def write(self, folder):
        names = list(self.columns)
        with open(os.path.join(folder, 'products.csv'), 'w') as f:
            f.write(','.join(names) + '\n')
            for i in range(self.n):
                f.write(','.join(str(self.columns[c][i]) for c in names) + '\n')
        with open(os.path.join(folder, 'limits.csv'), 'w') as f:
            f.write('kind,first,second,number\n' + ''.join(','.join(map(str, row)) + '\n' for row in self.limits))


def caps(n):
    case = Case('caps: total and 16 categories, %d products' % n, n, 1)
    case.columns['category'] = ['c%d' % (i % 16) for i in range(n)]
    case.limits = [('total', '', '', n // 5)] + [('category', 'c%d' % c, '', 1 + c % 5) for c in range(16)]
    case.rows = [({i: 1 for i in range(n)}, n // 5)]
    case.rows += [({i: 1 for i in range(n) if i % 16 == c}, 1 + c % 5) for c in range(16)]
    return case


def requires(n, rows, layered):
    case = Case('requires: %d %s rows, %d products' % (rows, 'layered' if layered else 'random', n), n, 2)
    pairs = set()
    while len(pairs) < rows:
        a, b = (case.draw.randrange(n // 2), case.draw.randrange(n // 2, n)) if layered else case.draw.sample(range(n), 2)
        pairs.add((a, b))
    case.columns['margin'] = [m if i < n // 2 or not layered else 0 for i, m in enumerate(case.columns['margin'])]
    for a, b in sorted(pairs):
        case.limits.append(('requires', 'p%d' % a, 'p%d' % b, ''))
        case.rows.append(({a: 1, b: -1}, 0))
    return case


def shelf(n):
    case = Case('shelf of 1,000, %d products' % n, n, 3)
    case.columns['space'] = [case.draw.randint(1, 60) for _ in range(n)]
    case.limits = [('shelf', '', '', 1000)]
    case.rows = [(dict(enumerate(case.columns['space'])), 1000)]
    case.binary = True
    return case


def ladders(n, count):
    case = Case('%d ladders, %d products' % (count, n), n, 4)
    case.columns['ladder'] = ['k%d' % (i % count) for i in range(n)]
    case.columns['grade'] = [case.draw.randint(1, n // count) for _ in range(n)]
    case.columns['price'] = [case.draw.randint(1, 1000) for _ in range(n)]
    case.limits = [('ladder', 'k%d' % k, '', '') for k in range(count)]
    grade, price = case.columns['grade'], case.columns['price']
    for i in range(n):
        for j in range(i + 1, n):
            if i % count == j % count and (grade[i] == grade[j] or (grade[i] < grade[j]) != (price[i] <= price[j])):
                if grade[i] == grade[j] or price[i] != price[j]:
                    case.rows.append(({i: 1, j: 1}, 1))
    case.binary = True
    return case


def words_of(case, folder, command, proof=None):
    return [PROGRAM, command, '--model', 'logit', '--products', os.path.join(folder, 'products.csv'), '--limits',
            os.path.join(folder, 'limits.csv'), '--none', str(case.none)] + (['--proof', proof] if proof else [])


def program(case, folder, command, proof=None):
    said = subprocess.run(words_of(case, folder, command, proof), stdout=subprocess.PIPE, check=True).stdout.decode()
    assert command == 'solve' or said == 'accepted\n', 'a certificate was rejected'
    return said


def highs(case):
    try:
        import numpy
        from scipy.optimize import linprog
        from scipy.sparse import lil_matrix
    except ImportError:
        return None
    n, v, r = case.n, case.columns['attraction'], case.columns['margin']
    rows = lil_matrix((n + len(case.rows), n + 1))
    for i in range(n):
        rows[i, 0], rows[i, i + 1] = -1, case.none / v[i]
    for k, (weights, most) in enumerate(case.rows):
        rows[n + k, 0] = -most
        for i, w in weights.items():
            rows[n + k, i + 1] = w * case.none / v[i]
    rows, cost, one = rows.tocsr(), numpy.array([0.0] + [-float(x) for x in r]), numpy.ones((1, n + 1))
    return lambda: -linprog(cost, A_ub=rows, b_ub=numpy.zeros(rows.shape[0]), A_eq=one, b_eq=[1.0], method='highs').fun


def write_lp(case, path):
    columns = case.columns
    model = ratio_model(case.none, columns['margin'], columns['attraction'], [0] * case.n, case.rows, case.binary)
    with open(path, 'w') as f:
        model.write(f)


def solver(words, limit):
    if not shutil.which(words[0]):
        return None
    def work():
        # A wait with a limit of its own looks only now and then whether the process has ended.
        child = subprocess.Popen(words, stdout=subprocess.DEVNULL)
        end = threading.Timer(limit, child.kill)
        end.start()
        status = child.wait()
        end.cancel()
        if status > 0:
            raise subprocess.CalledProcessError(status, words)
        return status == 0
    return work


def cell(work, own, times=None):
    if work is None:
        return 'not installed'
    took, found = best_time(work) if times is None else best_time(work, times)
    text = '%.1f (%.0fx)' % (took, took / own)
    return text if found is not False else 'more than ' + text


def row(case, folder):
    case.write(folder)
    proof, path = os.path.join(folder, 'proof.txt'), os.path.join(folder, 'model.lp')
    own, said = best_time(lambda: program(case, folder, 'solve'))
    solved, _ = best_time(lambda: program(case, folder, 'solve', proof))
    checked, _ = best_time(lambda: program(case, folder, 'check', proof))
    write_lp(case, path)
    value = float(Fraction(said.splitlines()[-1].split()[1]))
    trials = count(calls(words_of(case, folder, 'solve'), folder), TRIALS)
    cells = [case.name, '%.1f' % own, trials, '%.1f (%.1fx)' % (solved, solved / own), '%.1f (%.1fx)' % (checked, checked / own), str(os.path.getsize(proof))]
    linear = None if case.binary else highs(case)
    if linear is not None:
        assert abs(linear() - value) < 1e-6 * value, 'HiGHS finds another value'
    cells.append('no linear model' if case.binary else cell(linear, own))
    solution = os.path.join(folder, 'solution')
    for words in (['glpsol', '--lp', path, '-o', solution], ['cbc', path, 'solve', 'quit']):
        cells.append(cell(solver(words, 10), own, 1 if case.binary else None))
    return '| ' + ' | '.join(cells) + ' |'


def main():
    parser = options(__doc__)
    parser.add_argument('kinds', nargs='*', help='caps, requires, shelf, ladders; all without any')
    given = parser.parse_args()
    cases = {'caps': [lambda: caps(64), lambda: caps(256)],
             'requires': [lambda: requires(256, 512, False), lambda: requires(256, 512, True)],
             'shelf': [lambda: shelf(64), lambda: shelf(256)],
             'ladders': [lambda: ladders(64, 8), lambda: ladders(256, 8)]}
    lines = ['Milliseconds, the least of %d; in brackets how many times the time of solve. Peers with binary variables run once, at most 10 seconds.' % REPEATS,
             'Trials are the revenues that were tried.',
             '', machine(), '', '| input | solve | trials | solve with a certificate | check | its bytes | HiGHS | GLPK | CBC |', '|---|---|---|---|---|---|---|---|---|']
    lines += in_folder(lambda folder: [row(make(), folder) for kind in given.kinds or cases for make in cases[kind]])
    report('solve and check under limits', lines, ['limits'], given.keep)


if __name__ == '__main__':
    main()
