#!/usr/bin/env python3
"""Measures solve and certificates under limits of several kinds together, loose and binding, beside GLPK and CBC. See README.md."""
import os
import resource
import subprocess

from calls import NODES, TRIALS, calls, count
from limits import Case, cell, program, solver, words_of, write_lp
from run import best_time, in_folder, machine, options, report

REPEATS = 3

# The most bytes of a certificate that check reads.
MOST_PROOF = 268435456


def may_stand(grade, price, i, j):
    """Whether two products of a ladder may be offered together."""
    low, high = (i, j) if grade[i] < grade[j] else (j, i)
    return grade[i] != grade[j] and price[high] >= price[low]


def several(n, binding):
    """Caps, requirements, a shelf and, where they bind, two ladders."""
    case = Case('%s limits, %d products' % ('binding' if binding else 'loose', n), n, 5)
    draw, columns = case.draw, case.columns
    columns['category'] = ['c%d' % (i % 4) for i in range(n)]
    columns['space'] = [draw.randint(1, 20) for _ in range(n)]
    columns['price'] = [draw.randint(1, 50) for _ in range(n)]
    columns['ladder'] = ['k%d' % (i // 3 % 2) if i % 3 == 0 else '' for i in range(n)]
    columns['grade'] = [draw.randint(1, 8) for _ in range(n)]
    total, space = (n // 5, n * 3 // 2) if binding else (n // 2, min(1000, n * 7))
    case.limits = [('total', '', '', total), ('shelf', '', '', space)]
    case.rows = [({i: 1 for i in range(n)}, total), (dict(enumerate(columns['space'])), space)]
    pairs = set()
    while len(pairs) < (n // 8 if binding else 2):
        pairs.add(tuple(draw.sample(range(n), 2)))
    for a, b in sorted(pairs):
        case.limits.append(('requires', 'p%d' % a, 'p%d' % b, ''))
        case.rows.append(({a: 1, b: -1}, 0))
    if binding:
        for c in range(4):
            case.limits.append(('category', 'c%d' % c, '', max(1, n // 12)))
            case.rows.append(({i: 1 for i in range(n) if i % 4 == c}, max(1, n // 12)))
        for ladder in ('k0', 'k1'):
            case.limits.append(('ladder', ladder, '', ''))
            held = [i for i in range(n) if columns['ladder'][i] == ladder]
            case.rows += [({i: 1, j: 1}, 1) for i in held for j in held
                          if i < j and not may_stand(columns['grade'], columns['price'], i, j)]
    case.binary = True
    return case


def certificate(case, folder, own, most):
    """The cells of a certificate: times of writing and checking, lines and bytes. With several limits that bind it may be too
    long to be checked, and to be kept."""
    proof = os.path.join(folder, 'proof.txt')
    words = words_of(case, folder, 'solve', proof)
    def work():
        subprocess.run(words, stdout=subprocess.DEVNULL, check=True, timeout=most,
                       preexec_fn=lambda: resource.setrlimit(resource.RLIMIT_FSIZE, (MOST_PROOF + 1, MOST_PROOF + 1)))
    try:
        solved, _ = best_time(work, 1)
        solved = min(solved, best_time(work, REPEATS - 1)[0]) if solved < 5000 else solved
    except subprocess.TimeoutExpired:
        return ['more than %d s' % most, '', '', '']
    except subprocess.CalledProcessError:
        return ['too large', '', '', 'more than %d' % MOST_PROOF]
    with open(proof, 'rb') as f:
        lines = sum(1 for _ in f)
    size = os.path.getsize(proof)
    checked, _ = best_time(lambda: program(case, folder, 'check', proof), REPEATS)
    return ['%.1f (%.1fx)' % (solved, solved / own), '%.1f (%.1fx)' % (checked, checked / own), str(lines), str(size)]


def row(case, folder, most):
    case.write(folder)
    path, solution = os.path.join(folder, 'model.lp'), os.path.join(folder, 'solution')
    own, _ = best_time(lambda: program(case, folder, 'solve'), REPEATS)
    found = calls(words_of(case, folder, 'solve'), folder)
    write_lp(case, path)
    cells = [case.name, '%.1f' % own, count(found, TRIALS), count(found, NODES)] + certificate(case, folder, own, most)
    for words in (['glpsol', '--lp', path, '-o', solution], ['cbc', path, 'solve', 'solu', solution, 'quit']):
        cells.append(cell(solver(words, most), own, 1))
    return '| ' + ' | '.join(cells) + ' |'


def main():
    parser = options(__doc__)
    parser.add_argument('--products', type=int, nargs='*', default=[12, 24, 40, 64], help='how many products, for each a row loose and one binding')
    parser.add_argument('--seconds', type=int, default=60, help='how long a peer and the writing of a certificate may take')
    given = parser.parse_args()
    lines = ['Milliseconds, the least of %d; in brackets how many times the time of solve. GLPK and CBC run once, at most %d seconds. Trials are the revenues that were tried, nodes those of all searches of one solve together, both without a certificate.' % (REPEATS, given.seconds),
             '', machine(), '',
             '| input | solve | trials | nodes | solve with a certificate | check | its lines | its bytes | GLPK | CBC |', '|---|---|---|---|---|---|---|---|---|---|']
    lines += in_folder(lambda folder: [row(several(n, binding), folder, given.seconds) for n in given.products for binding in (False, True)])
    report('solve and check under limits of several kinds', lines, ['several'], given.keep)


if __name__ == '__main__':
    main()
