#!/usr/bin/env python3
"""Measures solve, certificates and check under mixed logit beside HiGHS, GLPK and CBC on the usual mixed-integer model. See README.md."""
import os
import random
import statistics
import subprocess

import models
from calls import NODES, calls, count
from limits import solver
from run import PROGRAM, best_time, in_folder, machine, options, report

REPEATS = 3
MASK = (1 << 64) - 1

# The most bytes of a certificate that check reads.
MOST_PROOF = 268435456


def words_from(seed):
    """The words of SplitMix64."""
    while True:
        seed = (seed + 0x9E3779B97F4A7C15) & MASK
        z = ((seed ^ (seed >> 30)) * 0xBF58476D1CE4E5B9) & MASK
        z = ((z ^ (z >> 27)) * 0x94D049BB133111EB) & MASK
        yield z ^ (z >> 31)


class Mixed:
    """Margins, segments as (size, weight of buying nothing, attractions), a cap on all products, None without one, and by category
    its products and their cap."""

    def __init__(self, name, margins, segments, cap, categories=()):
        self.name, self.margins, self.segments, self.cap, self.categories = name, margins, segments, cap, categories

    def caps(self):
        """Each cap with its products."""
        whole = [] if self.cap is None else [(list(range(len(self.margins))), self.cap)]
        return whole + list(self.categories)

    def write(self, folder):
        n = len(self.margins)
        with open(os.path.join(folder, 'products.csv'), 'w') as f:
            of = {i: 'c%d' % c for c, (products, _) in enumerate(self.categories) for i in products}
            f.write('name,margin%s\n' % (',category' if of else ''))
            f.write(''.join('p%d,%d%s\n' % (i, self.margins[i], ',' + of[i] if of else '') for i in range(n)))
        with open(os.path.join(folder, 'segments.csv'), 'w') as f:
            f.write('segment,product,size,attraction\n')
            for g, (size, none, attractions) in enumerate(self.segments):
                f.write('g%d,,%d,%d\n' % (g, size, none))
                f.write(''.join('g%d,p%d,,%d\n' % (g, i, v) for i, v in enumerate(attractions) if v))
        with open(os.path.join(folder, 'limits.csv'), 'w') as f:
            f.write('kind,first,second,number\n' + ('' if self.cap is None else 'total,,,%d\n' % self.cap))
            f.write(''.join('category,c%d,,%d\n' % (c, cap) for c, (_, cap) in enumerate(self.categories)))


def trial(n, seed):
    """The inputs of the generator that the formats fix: weights of buying nothing near the attractions."""
    z = words_from(seed)
    margins = [1 + next(z) % 1000 for _ in range(n)]
    segments = []
    for _ in range(min(n + 1, 4)):
        head = next(z)
        segments.append((1 + head % 10, 50 + head // 10 % 100, [next(z) % 100 for _ in range(n)]))
    return Mixed('trial, %d products, seed %d' % (n, seed), margins, segments, n // 3 + 1)


def reluctant(n, seed):
    """Most customers buy nothing: weights from 1,000 to 1,999 beside attractions from 0 to 99."""
    draw = random.Random(seed)
    margins = [draw.randint(1, 1000) for _ in range(n)]
    segments = [(draw.randint(1, 10), draw.randint(1000, 1999), [draw.randint(0, 99) for _ in range(n)]) for _ in range(4)]
    return Mixed('reluctant, %d products, seed %d' % (n, seed), margins, segments, n // 3 + 1)


def sparse(n, seed):
    """The same, with two thirds of the attractions 0."""
    draw = random.Random(seed)
    margins = [draw.randint(1, 1000) for _ in range(n)]
    attraction = lambda: draw.randint(0, 99) if draw.randrange(3) == 0 else 0
    segments = [(draw.randint(1, 10), draw.randint(1000, 1999), [attraction() for _ in range(n)]) for _ in range(4)]
    return Mixed('sparse, %d products, seed %d' % (n, seed), margins, segments, n // 3 + 1)


def many(n, seed):
    """Ten segments, each with the weight 500 of buying nothing."""
    draw = random.Random(seed)
    margins = [draw.randint(1, 1000) for _ in range(n)]
    segments = [(draw.randint(1, 10), 500, [draw.randint(0, 99) for _ in range(n)]) for _ in range(10)]
    return Mixed('many segments, %d products, seed %d' % (n, seed), margins, segments, n // 5 + 1)


def categories(n, seed):
    """The products of `reluctant` in n / 4 categories, each with a cap of 1 or 2, and no cap on all."""
    case, draw = reluctant(n, seed), random.Random(seed)
    count = max(1, n // 4)
    parts = [([i for i in range(n) if i % count == c], draw.randint(1, 2)) for c in range(count)]
    return Mixed('categories, %d products, seed %d' % (n, seed), case.margins, case.segments, None, parts)


def words_of(folder, command, proof=None):
    path = lambda name: os.path.join(folder, name)
    return [PROGRAM, command, '--model', 'mixed', '--products', path('products.csv'), '--limits', path('limits.csv'),
            '--segments', path('segments.csv')] + (['--proof', proof] if proof else [])


def program(folder, command, proof=None, most=None):
    said = subprocess.run(words_of(folder, command, proof), stdout=subprocess.PIPE, check=True, timeout=most).stdout.decode()
    assert command == 'solve' or said == 'accepted\n', 'a certificate was rejected'
    return said


def model_of(case):
    return models.mixed_model(case.margins, case.segments, [({i: 1 for i in products}, cap) for products, cap in case.caps()])


def write_lp(case, path):
    with open(path, 'w') as f:
        model_of(case).write(f)


def highs(case, most):
    work = models.highs(model_of(case), most)
    return work and (lambda: work().status == 0)


def ended(work):
    """The time of a piece of work in milliseconds, or None where it was cut off."""
    try:
        return best_time(work, 1)[0]
    except subprocess.TimeoutExpired:
        return None


def certificate(folder, own, most):
    """The cells of a certificate: times of writing and checking, its lines and bytes."""
    proof = os.path.join(folder, 'proof.txt')
    written = ended(lambda: program(folder, 'solve', proof, most))
    if written is None:
        return ['more than %d s' % most, '', '', '']
    with open(proof, 'rb') as f:
        lines = sum(1 for _ in f)
    size, text = os.path.getsize(proof), '%.1f (%.1fx)' % (written, written / own)
    if size > MOST_PROOF:
        return [text, 'too large', str(lines), str(size)]
    checked, _ = best_time(lambda: program(folder, 'check', proof), REPEATS)
    return [text, '%.1f (%.1fx)' % (checked, checked / own), str(lines), str(size)]


def timed(work):
    """How long a peer took, in milliseconds, and whether it ended. None where it isn't installed."""
    if work is None:
        return None
    took, found = best_time(work, 1)
    return took, found is not False


def told(peer, own):
    """A peer's cell."""
    if peer is None:
        return 'not installed'
    took, whole = peer
    return '%s%.1f (%.0fx)' % ('' if whole else 'more than ', took, took / own)


def empty_process():
    """How long a process takes that does nothing, in milliseconds: what starting one costs."""
    return best_time(lambda: subprocess.run(['true'], stdout=subprocess.PIPE, check=True))[0]


def best_peer(peers, empty):
    """The least time of the peers that ended, or where none did the time at which they were cut off, with what of it is the start of
    a process; HiGHS runs without one."""
    there = [(took, whole, start) for (took, whole), start in ((peer, start) for peer, start in zip(peers, (0, empty, empty)) if peer)]
    return min(there, key=lambda peer: (not peer[1], peer[0])) if there else None


def row(case, folder, most, empty):
    """The row of one input, and for the medians its time, its nodes and the best peer. Without an end in time there is no such figure."""
    case.write(folder)
    first = ended(lambda: program(folder, 'solve', None, most))
    if first is None:
        return '| %s | more than %d s |  |  |  |  |  |  |  |  |' % (case.name, most), None
    own = first if first > 1000 else best_time(lambda: program(folder, 'solve'), REPEATS)[0]
    nodes = count(calls(words_of(folder, 'solve'), folder), NODES)
    cells = [case.name, '%.1f' % own, nodes] + certificate(folder, own, most)
    path, solution = os.path.join(folder, 'model.lp'), os.path.join(folder, 'solution')
    write_lp(case, path)
    works = [highs(case, most), solver(['glpsol', '--lp', path, '-o', solution], most), solver(['cbc', path, 'solve', 'solu', solution, 'quit'], most)]
    peers = [timed(work) for work in works]
    return '| ' + ' | '.join(cells + [told(peer, own) for peer in peers]) + ' |', (own, nodes, best_peer(peers, empty))


def median_row(name, figures, empty):
    """The medians over the seeds of the time, the nodes, the best peer, and its ratio with and without what starting a process takes. A
    peer that was cut off counts with the time it had."""
    if any(figure is None for figure in figures):
        return '| %s | not each ended |  |  |  |  |' % name
    owns, nodes, peers = zip(*figures)
    counted = str(round(statistics.median(int(met) for met in nodes))) if all(met.isdigit() for met in nodes) else nodes[0]
    cells = [name, '%.1f' % statistics.median(owns), counted]
    if any(peer is None for peer in peers):
        return '| ' + ' | '.join(cells + ['not installed', '', '']) + ' |'
    least = '' if all(whole for _, whole, _ in peers) else 'more than '
    ratios = [took / own for own, (took, _, _) in zip(owns, peers)]
    without = [(took - start) / max(own - empty, 0.01) for own, (took, _, start) in zip(owns, peers)]
    cells += [least + '%.1f' % statistics.median(took for took, _, _ in peers), least + '%.0fx' % statistics.median(ratios), least + '%.0fx' % statistics.median(without)]
    return '| ' + ' | '.join(cells) + ' |'


def main():
    parser = options(__doc__)
    parser.add_argument('--trial', type=int, nargs='*', default=[32, 64, 128], help='how many products, for each a row of trial inputs')
    parser.add_argument('--reluctant', type=int, nargs='*', default=[16, 24, 32], help='how many products, for each a row where most buy nothing')
    parser.add_argument('--sparse', type=int, nargs='*', default=[24, 48], help='how many products, for each a row where most buy nothing and two thirds of the attractions are 0')
    parser.add_argument('--many', type=int, nargs='*', default=[32], help='how many products, for each a row of ten segments')
    parser.add_argument('--categories', type=int, nargs='*', default=[32], help='how many products, for each a row under category caps')
    parser.add_argument('--seeds', type=int, nargs='*', default=[7], help='the seeds of each input; with more than one a table of medians follows')
    parser.add_argument('--seconds', type=int, default=60, help='how long a piece of work may take')
    given = parser.parse_args()
    families = [(trial, given.trial), (reluctant, given.reluctant), (sparse, given.sparse), (many, given.many), (categories, given.categories)]
    lines = ['Milliseconds, the least of %d; in brackets how many times the time of solve. The peers run once, at most %d seconds. Nodes are those of one solve without a certificate.' % (REPEATS, given.seconds),
             '', machine(), '',
             '| input | solve | nodes | solve with a certificate | check | its lines | its bytes | HiGHS | GLPK | CBC |', '|---|---|---|---|---|---|---|---|---|---|']
    groups = [[family(n, seed) for seed in given.seeds] for family, counts in families for n in counts]
    empty = empty_process()
    found = in_folder(lambda folder: [[row(case, folder, given.seconds, empty) for case in group] for group in groups])
    lines += [line for rows in found for line, _ in rows]
    if len(given.seeds) > 1:
        lines += ['', 'Medians over the seeds, beside the best of the peers for each. A process that does nothing takes %.1f; the last column is the ratio without that.' % empty, '',
                  '| inputs | solve | nodes | best peer | its ratio | without process start |', '|---|---|---|---|---|---|']
        lines += [median_row(group[0].name.rpartition(',')[0], [figure for _, figure in rows], empty) for group, rows in zip(groups, found)]
    report('solve and check under mixed logit', lines, ['mixed'], given.keep)


if __name__ == '__main__':
    main()
