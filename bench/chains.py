#!/usr/bin/env python3
"""Measures solve, certificates and check under Markov chain choice beside HiGHS on the linear program of optimal stopping. See README.md.

The linear program: the least sum of arrival_i * U_i where U_i >= margin_i and Q * U_i >= the sum over j of parts(i, j) * U_j."""
import os
import random
import subprocess

from limits import cell
from run import PROGRAM, best_time, in_folder, machine, options, report

REPEATS = 3
SCALE = 10000
MOST_ARCS = 65536


class Chain:
    """Margins, arrivals, and arcs as (from, to, parts) of SCALE."""

    def __init__(self, name, margins, arrivals, arcs):
        self.name, self.margins, self.arrivals, self.arcs = name, margins, arrivals, arcs

    def write(self, folder):
        n = len(self.margins)
        with open(os.path.join(folder, 'products.csv'), 'w') as f:
            f.write('name,margin,arrival\n' + ''.join('p%d,%d,%d\n' % (i, self.margins[i], self.arrivals[i]) for i in range(n)))
        with open(os.path.join(folder, 'arcs.csv'), 'w') as f:
            f.write('from,to,parts\n' + ''.join('p%d,p%d,%d\n' % arc for arc in self.arcs))


def with_silent(n, arcs):
    """The same arcs, and arcs without parts for the pairs that have none, up to 65,000: the file is as large as it gets."""
    pairs = {(i, j) for i, j, _ in arcs}
    more = [(i, j, 0) for i in range(n) for j in range(n) if (i, j) not in pairs]
    return arcs + more[:65000 - len(arcs)]


def dear_apart(n, seed):
    """One dear product far from where customers arrive: a line of products that bring nothing leads to it."""
    arcs = [(i, i - 1, SCALE - 1) for i in range(1, n)]
    return Chain('a dear product apart', [10 ** 9] + [1] * (n - 1), [0] * (n - 1) + [1], with_silent(n, arcs))


def ring_both(n, seed):
    """A ring in both directions, on which hardly anybody leaves."""
    arcs = [arc for i in range(n) for arc in ((i, (i + 1) % n, SCALE // 2), (i, (i - 1) % n, SCALE // 2 - 1))]
    return Chain('a ring in both directions', [10 ** 9] + [1] * (n - 1), [1] * n, with_silent(n, arcs))


def ring_random(n, seed):
    """A ring in random order, with a step back now and then."""
    draw = random.Random(seed)
    order = list(range(n))
    draw.shuffle(order)
    arcs = []
    for k, i in enumerate(order):
        back = draw.randint(0, 3000)
        arcs += [(i, order[(k + 1) % n], SCALE - 1 - back), (i, order[k - 1], back)]
    return Chain('a ring at random', [draw.randint(1, 10 ** 9) for _ in range(n)], [1] * n, with_silent(n, arcs))


def random_margins(n, seed):
    """Four moves from each product, margins at random."""
    draw = random.Random(seed)
    arcs = []
    for i in range(n):
        ends, left = draw.sample([j for j in range(n) if j != i], 4), SCALE - 1
        for k, j in enumerate(ends):
            parts = left if k == 3 else draw.randint(0, left)
            arcs.append((i, j, parts))
            left -= parts
    return Chain('random margins, four moves each', [draw.randint(1, 10 ** 9) for _ in range(n)], [draw.randint(0, 99) for _ in range(n)], with_silent(n, arcs))


def dense_random(n, seed):
    """Moves from each product to all others, in random parts that sum to one less than the scale."""
    draw = random.Random(seed)
    arcs = []
    for i in range(n):
        ends = [j for j in range(n) if j != i]
        cuts = sorted(draw.randint(0, SCALE - 1) for _ in range(len(ends) - 1))
        parts = [b - a for a, b in zip([0] + cuts, cuts + [SCALE - 1])]
        arcs += list(zip([i] * len(ends), ends, parts))
    return Chain('dense and random', [draw.randint(1, 10 ** 9) for _ in range(n)], [draw.randint(0, 99) for _ in range(n)], arcs)


def leaving(n, seed):
    """Dense and random, but from each product a tenth leaves."""
    case = dense_random(n, seed)
    return Chain('dense and random, a tenth leaves', case.margins, case.arrivals, [(i, j, parts * 9 // 10) for i, j, parts in case.arcs])


def words_of(folder, command, proof=None):
    path = lambda name: os.path.join(folder, name)
    return [PROGRAM, command, '--model', 'chain', '--products', path('products.csv'), '--arcs', path('arcs.csv'), '--scale', str(SCALE)] + (['--proof', proof] if proof else [])


def program(folder, command, proof=None):
    said = subprocess.run(words_of(folder, command, proof), stdout=subprocess.PIPE, check=True).stdout.decode()
    assert command == 'solve' or said == 'accepted\n', 'a certificate was rejected'
    return said


def highs(case):
    """HiGHS on the linear program, and the least sum that it finds, in margin units a customer."""
    try:
        import numpy
        from scipy.optimize import linprog
        from scipy.sparse import csr_matrix
    except ImportError:
        return None
    n = len(case.margins)
    moves = [arc for arc in case.arcs if arc[2]]
    rows = [i for i, _, _ in moves] + list(range(n))
    columns = [j for _, j, _ in moves] + list(range(n))
    values = [parts / SCALE for _, _, parts in moves] + [-1.0] * n
    matrix = csr_matrix((values, (rows, columns)), shape=(n, n))
    cost = numpy.array(case.arrivals, dtype=float) / sum(case.arrivals)
    bounds = [(float(margin), None) for margin in case.margins]
    return lambda: linprog(cost, A_ub=matrix, b_ub=numpy.zeros(n), bounds=bounds, method='highs').fun


def row(case, folder):
    case.write(folder)
    proof = os.path.join(folder, 'proof.txt')
    own, said = best_time(lambda: program(folder, 'solve'), REPEATS)
    low, high = (int(line.split()[1]) for line in said.splitlines()[-2:])
    written, _ = best_time(lambda: program(folder, 'solve', proof), REPEATS)
    checked, _ = best_time(lambda: program(folder, 'check', proof), REPEATS)
    peer, near = highs(case), ''
    if peer:
        near = '%.1e' % abs(peer() * 1000000 / high - 1)
    cells = [case.name, str(len(case.arcs)), '%.1f' % own, '%.1f (%.2fx)' % (written, written / own), '%.1f (%.2fx)' % (checked, checked / own), str(high - low)]
    return '| ' + ' | '.join(cells + [cell(peer, own, REPEATS), near]) + ' |'


def main():
    parser = options(__doc__)
    parser.add_argument('--products', type=int, default=256, help='how many products')
    given = parser.parse_args()
    families = [dear_apart, ring_both, ring_random, random_margins, dense_random, leaving]
    cases = [family(given.products, 7) for family in families]
    lines = ['%d products, scale %d; but in the last row 1 part leaves at each product. Milliseconds, the least of %d; in brackets how many times the time of solve. Apart: the two bounds, in millionths. Differs: the value that HiGHS finds from the upper bound, as a part of it.' % (given.products, SCALE, REPEATS),
             '', machine(), '',
             '| chain | arcs | solve | solve with a certificate | check | apart | HiGHS | differs |', '|---|---|---|---|---|---|---|---|']
    lines += in_folder(lambda folder: [row(case, folder) for case in cases])
    report('solve and check under Markov chain choice', lines, ['chains'], given.keep)


if __name__ == '__main__':
    main()
