#!/usr/bin/env python3
"""Measures `check` of the greatest certificates that it reads, made here and removed afterwards: memory at its peak, bytes a
second beside `wc -c` and `cksum` of the same file, and that a certificate one byte longer is refused. See README.md."""
import argparse
import datetime
import os
import platform
import subprocess
import sys
import tempfile
import time

TOP = os.path.dirname(os.path.dirname(os.path.abspath(__file__)))
PROGRAM = os.path.join(TOP, 'crates', 'assort', 'out', 'assort')
# The most bytes of a certificate that `check` reads.
MOST = 268_435_456
# As many products as there are, each a category of its own that may not be offered. No product is drawn to, so nothing
# brings anything, the empty assortment is the first of equals, and every leaf `m` closes its node.
PRODUCTS = 256


def inputs(folder):
    """The products and the limits file."""
    with open(os.path.join(folder, 'p.csv'), 'w') as f:
        f.write('name,margin,attraction,category\n')
        f.writelines(f'P{i},0,0,c{i}\n' for i in range(PRODUCTS))
    with open(os.path.join(folder, 'm.csv'), 'w') as f:
        f.write('kind,first,second,number\n')
        f.writelines(f'category,c{i},,0\n' for i in range(PRODUCTS))


def leaf(length):
    """A leaf of this many bytes, from 2 * PRODUCTS + 2 to 32 * PRODUCTS + 2: `m` with a number for each limit."""
    digits, longer = divmod(length - 2 - PRODUCTS, PRODUCTS)
    numbers = ['1' + '0' * (digits - 1 + (k < longer)) for k in range(PRODUCTS)]
    return 'm ' + ' '.join(numbers) + '\n'


def certificate(path, size):
    """An accepted certificate of exactly this many bytes: a whole tree over the first products."""
    head = f'assort-proof 1\nmodel logit\nset {"0" * PRODUCTS}\nvalue 0/1\n'
    depth = 15
    branches = sum((2 ** d) * len(f'b {d}\n') for d in range(depth))
    room, leaves = size - len(head) - branches - len('end\n'), 2 ** depth
    least = room // leaves
    long, short = leaf(least + 1), leaf(least)
    longer = room - least * leaves
    written = 0
    with open(path, 'w', buffering=1 << 20) as f:
        f.write(head)
        stack = [0]
        while stack:
            at = stack.pop()
            if at == depth:
                f.write(long if written < longer else short)
                written += 1
                continue
            f.write(f'b {at}\n')
            stack += [at + 1, at + 1]
        f.write('end\n')
    assert os.path.getsize(path) == size


def run(words, folder):
    """Status, output, seconds and the greatest memory in bytes of a process."""
    begun = time.monotonic()
    child = subprocess.Popen(words, cwd=folder, stdout=subprocess.PIPE, stderr=subprocess.STDOUT)
    out = child.stdout.read()
    _, status, used = os.wait4(child.pid, 0)
    return os.waitstatus_to_exitcode(status), out, time.monotonic() - begun, used.ru_maxrss * 1024


def best(words, folder, repeats):
    """The run of the fewest seconds, with the greatest memory of all."""
    runs = [run(words, folder) for _ in range(repeats)]
    status, out, seconds, _ = min(runs, key=lambda r: r[2])
    return status, out, seconds, max(r[3] for r in runs)


def main():
    a = argparse.ArgumentParser()
    a.add_argument('--repeats', type=int, default=3)
    a.add_argument('--keep', action='store_true')
    o = a.parse_args()
    check = [PROGRAM, 'check', '--model', 'logit', '--products', 'p.csv', '--limits', 'm.csv', '--none', '1', '--proof', 'q.txt']
    lines = ['| bytes | answer | seconds | MB a second | memory at the peak, MB | times `wc -c` | times `cksum` |', '|---|---|---|---|---|---|---|']
    right = True
    with tempfile.TemporaryDirectory() as folder:
        inputs(folder)
        path = os.path.join(folder, 'q.txt')
        for size, wanted in ((MOST // 8, (0, b'accepted\n')), (MOST, (0, b'accepted\n')), (MOST + 1, (3, b'assort: proof: file too large\n'))):
            certificate(path, size)
            status, out, seconds, memory = best(check, folder, o.repeats)
            right &= (status, out) == wanted
            beside = [best(words, folder, o.repeats)[2] for words in (['sh', '-c', 'cat q.txt | wc -c'], ['cksum', 'q.txt'])]
            said = out.decode().strip() or f'status {status}'
            lines.append(f'| {size:,} | {said} | {seconds:.3f} | {size / seconds / 1e6:.0f} | {memory / 1e6:.1f} | {seconds / beside[0]:.1f} | {seconds / beside[1]:.1f} |')
    kit = subprocess.run(['rt', 'version'], capture_output=True, text=True).stdout.strip()
    text = f'# Certificates in pieces, {datetime.date.today()}\n\n{platform.machine()}, {os.cpu_count()} processors, load before {os.getloadavg()[0]:.1f}; `{kit}`. The fewest seconds of {o.repeats} runs, the greatest memory of them.\n\n' + '\n'.join(lines) + '\n'
    print(text)
    if o.keep:
        with open(os.path.join(TOP, 'bench', 'runs', f'{datetime.date.today()}-pieces-{platform.machine()}.md'), 'w') as f:
            f.write(text)
    return 0 if right else 1


if __name__ == '__main__':
    sys.exit(main())
