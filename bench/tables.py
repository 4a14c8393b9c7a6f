#!/usr/bin/env python3
"""Measures how long the built program takes to read and judge tables, beside Python's csv module, and its memory. See README.md."""
import csv
import os
import resource
import subprocess

from run import PROGRAM, REPEATS, best_time, in_folder, machine, options, report

MOST = 16_777_216


def write(path, header, row, size):
    """Rows up to so many bytes."""
    with open(path, 'w') as f:
        f.write(header)
        left, k = size - len(header), 0
        while True:
            text = row(k)
            if len(text) > left:
                return
            f.write(text)
            left, k = left - len(text), k + 1


def cases(folder):
    few = os.path.join(folder, 'few.csv')
    with open(few, 'w') as f:
        f.write('name,margin,attraction,shadow,category,space,price,ladder,grade,arrival\n')
        for i in range(256):
            f.write('"product, number %d",%d,%d,0,category %d,%d,%d,ladder %d,%d,%d\n' % (i, 1 + i, 7 * i, i % 16, i % 60, 9 * i, i % 8, i, i))
    yield '256 products, ten columns', few, ['--products', few]
    many = os.path.join(folder, 'many.csv')
    write(many, 'name,margin,attraction\n', lambda k: 'product %d,%d,%d\n' % (k, k % 1000, k % 777), MOST)
    yield 'products, 16 MB: refused at row 258', many, ['--products', many]
    wide = os.path.join(folder, 'limits.csv')
    with open(wide, 'w') as f:
        f.write('kind,first,second,number\n')
        f.write('total,"%s",,1000\n' % ('x' * (MOST - 100)))
    yield 'limits, 16 MB in one unused field', wide, ['--products', few, '--limits', wide]


def solve(words):
    subprocess.run([PROGRAM, 'solve', '--model', 'logit', '--none', '5'] + words, stdout=subprocess.DEVNULL, stderr=subprocess.DEVNULL)


def read(path):
    csv.field_size_limit(MOST)
    with open(path, newline='') as f:
        return sum(1 for _ in csv.reader(f))


def peak(words):
    """The most memory that the program takes, in bytes."""
    pid = os.fork()
    if pid == 0:
        solve(words)
        size = resource.getrusage(resource.RUSAGE_CHILDREN).ru_maxrss
        with open(os.environ['PEAK'], 'w') as f:
            f.write(str(1024 * size))
        os._exit(0)
    os.waitpid(pid, 0)
    with open(os.environ['PEAK']) as f:
        return int(f.read())


def row(name, path, words):
    own, _ = best_time(lambda: solve(words))
    other, _ = best_time(lambda: read(path))
    size, most = os.path.getsize(path), peak(words)
    return '| %s | %d | %.1f | %.1f | %.2f | %d | %.1f |' % (name, size, own, other, own / other, most, most / size)


def measured(folder):
    os.environ['PEAK'] = os.path.join(folder, 'peak')
    return [row(*case) for case in cases(folder)]


def main():
    keep = options(__doc__).parse_args().keep
    lines = ['Milliseconds, the least of %d: the whole process of solve, and csv.reader over the same file in a running Python.' % REPEATS, '', machine(), '',
             '| table | bytes | solve | csv.reader | solve / csv.reader | peak memory | bytes of memory per byte |', '|---|---|---|---|---|---|---|']
    report('Reading and judging tables', lines + in_folder(measured), ['tables'], keep)


if __name__ == '__main__':
    main()
