#!/usr/bin/env python3
"""Measures solve under limits of several kinds, by families of inputs and seeds, beside the better of GLPK and CBC. See README.md."""
import os
import re
from fractions import Fraction

from calls import NODES, calls, count
from limits import Case, program, solver, words_of, write_lp
from run import PROGRAM, best_time, in_folder, machine, options, report
from several import may_stand

REPEATS = 3

# How many ladders there are, which part of the products is on one (every k-th), which part of the products requirements are, and
# whether category caps, the shelf and the total bind.
FAMILIES = {
    'loose': dict(ladders=0, every=3, requires=None, binding=False),
    'binding': dict(ladders=2, every=3, requires=8, binding=True),
    'four ladders': dict(ladders=4, every=1, requires=4, binding=True),
    'requirements': dict(ladders=0, every=3, requires=2, binding=True),
    'small amounts': dict(ladders=2, every=3, requires=8, binding=True, amounts=6),
    'space by worth': dict(ladders=2, every=3, requires=8, binding=True, worth=True),
    'long ladders': dict(ladders=2, every=1, requires=8, binding=True),
}


def columns_of(case, n, family):
    """Sizes, categories, and which products are on which ladder."""
    draw, columns = case.draw, case.columns
    if 'amounts' in family:
        for name in ('margin', 'attraction'):
            columns[name] = [draw.randint(1, family['amounts']) for _ in range(n)]
        case.none = draw.randint(family['amounts'], 10 * family['amounts'])
    columns['category'] = ['c%d' % (i % 4) for i in range(n)]
    columns['space'] = [draw.randint(1, 20) for _ in range(n)]
    if 'worth' in family:
        columns['space'] = [1 + (m * v * 17) // 1000000 + draw.randint(0, 2) for m, v in zip(columns['margin'], columns['attraction'])]
    columns['price'] = [draw.randint(1, 50) for _ in range(n)]
    every, ladders = family['every'], family['ladders']
    columns['ladder'] = ['k%d' % (i // every % ladders) if ladders and i % every == 0 else '' for i in range(n)]
    columns['grade'] = [draw.randint(1, 8) for _ in range(n)]


def family_case(name, n, seed):
    """The case of a family, a size and a seed."""
    family = FAMILIES[name]
    case = Case('%s, %d products' % (name, n), n, seed)
    columns_of(case, n, family)
    binding = family['binding']
    total, space = (n // 5, n * 3 // 2) if binding else (n // 2, min(1000, n * 7))
    limits, rows = case.limits, case.rows
    limits += [('total', '', '', total), ('shelf', '', '', min(1000, space))]
    rows += [({i: 1 for i in range(n)}, total), (dict(enumerate(case.columns['space'])), min(1000, space))]
    pairs = set()
    while len(pairs) < (n // family['requires'] if family['requires'] else 2):
        pairs.add(tuple(case.draw.sample(range(n), 2)))
    for a, b in sorted(pairs):
        limits.append(('requires', 'p%d' % a, 'p%d' % b, ''))
        rows.append(({a: 1, b: -1}, 0))
    for c in range(4 if binding else 0):
        limits.append(('category', 'c%d' % c, '', max(1, n // 12)))
        rows.append(({i: 1 for i in range(n) if i % 4 == c}, max(1, n // 12)))
    add_ladders(case, n, family['ladders'])
    case.binary = True
    return case


def add_ladders(case, n, ladders):
    columns = case.columns
    for k in range(ladders):
        case.limits.append(('ladder', 'k%d' % k, '', ''))
        held = [i for i in range(n) if columns['ladder'][i] == 'k%d' % k]
        case.rows += [({i: 1, j: 1}, 1) for i in held for j in held
                      if i < j and not may_stand(columns['grade'], columns['price'], i, j)]


def peers(path, solution, most):
    """The times of GLPK and CBC, None where one isn't installed or didn't end, and what they found."""
    found = {}
    for name, words in (('GLPK', ['glpsol', '--lp', path, '-o', solution]), ('CBC', ['cbc', path, 'solve', 'solu', solution, 'quit'])):
        work = solver(words, most)
        if work is None:
            continue
        took, ended = best_time(work, 1)
        found[name] = (took, value_of(name, solution) if ended else None)
    return found


def value_of(name, solution):
    with open(solution) as f:
        text = f.read()
    if name == 'GLPK':
        return float(re.search(r'^Objective:\s+obj = (\S+)', text, re.M).group(1))
    return float(re.search(r'objective value\s+(\S+)', text).group(1))


def nodes(case, folder):
    """How many nodes the searches meet, where the program is there that counts them."""
    if not os.path.exists(PROGRAM + '.counted'):
        return '?'
    return count(calls(words_of(case, folder, 'solve'), folder), NODES)


def row(name, n, seed, folder, most):
    case = family_case(name, n, seed)
    case.write(folder)
    path, solution = os.path.join(folder, 'model.lp'), os.path.join(folder, 'solution')
    own, said = best_time(lambda: program(case, folder, 'solve'), REPEATS)
    value = float(Fraction(said.splitlines()[-1].split()[1]))
    write_lp(case, path)
    cells = ['%s, %d, %d' % (name, n, seed), '%.1f' % own, nodes(case, folder)]
    ended = []
    for peer, (took, found) in peers(path, solution, most).items():
        same = found is not None and abs(abs(found) - value) < 1e-5 * max(1, value)
        cells.append('%.1f%s' % (took, '' if same else ' (no end)' if found is None else ' (%g, not %g)' % (abs(found), value)))
        ended.append(took)
    cells.append('%.1f' % (min(ended) / own) if ended else '')
    return '| ' + ' | '.join(cells) + ' |'


def main():
    parser = options(__doc__)
    parser.add_argument('--families', nargs='*', default=list(FAMILIES))
    parser.add_argument('--products', type=int, nargs='*', default=[64, 128, 192, 256])
    parser.add_argument('--seeds', type=int, nargs='*', default=[5, 6, 7])
    parser.add_argument('--seconds', type=int, default=60, help='how long a peer may take')
    given = parser.parse_args()
    lines = ['Milliseconds, the least of %d, by family, products and seed; peers run once, at most %d seconds; the ratio is that of the better of the two. Where a peer finds another value both stand there.' % (REPEATS, given.seconds),
             '', machine(), '', '| input | solve | nodes | GLPK | CBC | ratio |', '|---|---|---|---|---|---|']
    lines += in_folder(lambda folder: [row(name, n, seed, folder, given.seconds) for name in given.families for n in given.products for seed in given.seeds])
    report('solve under limits of several kinds, by families', lines, ['families'], given.keep)


if __name__ == '__main__':
    main()
