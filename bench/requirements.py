#!/usr/bin/env python3
"""Measures solve, certificates and check under requirements that hurt a minimum cut, beside the peers of limits.py. See README.md.

Products with a profit stand at the heads of long chains, products that cost something at their ends, and between the chains stands a dense
middle, in which each entry requires each exit. Profits and costs fall by powers of two, so that each augmenting path fills one product, and
much stays for the next. The rows stand in the order of the chains, against it, or shuffled with the products."""
import random

from limits import Case, row
from run import REPEATS, in_folder, machine, options, report

PRODUCTS, ROWS = 256, 512

# Powers of two over which profits and costs fall: few enough for the peers' floating numbers.
POWERS = 14


def chained(name, heads, length, order):
    """So many chains of this length into the middle, and as many out of it."""
    case = Case('%s: %d chains of %d, rows %s' % (name, 2 * heads, length, order), PRODUCTS, 6)
    margin, attraction = [0] * PRODUCTS, [1] * PRODUCTS
    inward = [list(range(c * length, (c + 1) * length)) for c in range(heads)]
    outward = [list(range((heads + c) * length, (heads + c + 1) * length)) for c in range(heads)]
    for c in range(heads):
        margin[inward[c][0]], attraction[inward[c][0]] = 2 ** (POWERS - c % POWERS), 16
        attraction[outward[c][-1]] = 2 ** (POWERS - c % POWERS)
    pairs = [pair for chain in inward + outward for pair in zip(chain, chain[1:])]
    pairs += [(into[-1], out[0]) for into in inward for out in outward]
    finish(case, margin, attraction, pairs, order)
    return case


def gathered(name, givers, length, order):
    """Many products with a profit that require one chain, whose last product requires as many that cost something."""
    takers = PRODUCTS - givers - length
    case = Case('%s: %d to %d over a chain of %d, rows %s' % (name, givers, takers, length, order), PRODUCTS, 7)
    margin, attraction = [0] * PRODUCTS, [1] * PRODUCTS
    first, last = givers, givers + length - 1
    for i in range(givers):
        margin[i], attraction[i] = 2 ** (POWERS - i % POWERS), 16
    for i in range(last + 1, PRODUCTS):
        attraction[i] = 2 ** (POWERS - i % POWERS)
    pairs = [(i, first) for i in range(givers)] + [(i, i + 1) for i in range(first, last)]
    pairs += [(last, i) for i in range(last + 1, PRODUCTS)]
    finish(case, margin, attraction, pairs, order)
    return case


def finish(case, margin, attraction, pairs, order):
    """Fills the rows up by random ones from earlier to later products, which make no cycle, and puts all in their order."""
    draw, pairs = case.draw, list(dict.fromkeys(pairs))
    while len(pairs) < ROWS:
        pair = tuple(sorted(draw.sample(range(PRODUCTS), 2)))
        if pair not in pairs:
            pairs.append(pair)
    assert len(pairs) == ROWS
    place = list(range(PRODUCTS))
    if order == 'backwards':
        pairs.reverse()
    if order == 'shuffled':
        draw.shuffle(pairs)
        draw.shuffle(place)
    for i, p in enumerate(place):
        case.columns['margin'][p], case.columns['attraction'][p] = margin[i], attraction[i]
    for a, b in pairs:
        case.limits.append(('requires', 'p%d' % place[a], 'p%d' % place[b], ''))
        case.rows.append(({place[a]: 1, place[b]: -1}, 0))


def cases():
    for order in ('forwards', 'backwards', 'shuffled'):
        yield chained('short chains', 16, 8, order)
        yield chained('long chains', 10, 12, order)
        yield gathered('gathered', 100, 56, order)


def main():
    given = options(__doc__).parse_args()
    lines = ['Milliseconds, the least of %d; in brackets how many times the time of solve. %d products, %d rows.' % (REPEATS, PRODUCTS, ROWS),
             'Trials are the revenues that were tried.', '', machine(), '',
             '| input | solve | trials | solve with a certificate | check | its bytes | HiGHS | GLPK | CBC |',
             '|---|---|---|---|---|---|---|---|---|']
    lines += in_folder(lambda folder: [row(case, folder) for case in cases()])
    report('solve and check under requirements', lines, ['requirements'], given.keep)


if __name__ == '__main__':
    main()
