"""Inputs for the measurements: lists of (name, margin, attraction), and the weight of buying nothing."""
import random

LARGEST = 1_000_000_000


def random_products(n, seed):
    draw = random.Random(seed)
    return [('p%d' % i, draw.randint(1, 1000), draw.randint(1, 1000)) for i in range(n)], draw.randint(100, 10000)


def largest_products(n):
    return [('p%d' % i, LARGEST, LARGEST) for i in range(n)], 1


def tied_products(n):
    """Equal products: every set of one size earns the same."""
    return [('p%d' % i, 100, 10) for i in range(n)], 100


def falling_products(n):
    """Margins that fall by one: the best set is a front of the catalogue."""
    return [('p%d' % i, 2 * n - i, 10) for i in range(n)], 20


def write_products(path, products):
    with open(path, 'w') as f:
        f.write('name,margin,attraction\n')
        for name, margin, attraction in products:
            f.write('%s,%d,%d\n' % (name, margin, attraction))
