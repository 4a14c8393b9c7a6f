"""Inputs for tools/fuzz that are made and not changed: mostly valid ones of up to 13 products, of every model and kind of limits."""

GREATEST = 10**9


def number(draw):
    """Mostly small, so that much is equal; some as great as may be."""
    return draw.below(draw.of([2, 5, 20, 1_000])) if draw.below(12) else GREATEST - draw.below(3)


def table(columns, rows, draw):
    """A table as text, its columns in any order."""
    order = list(range(len(columns)))
    if draw.below(3) == 0:
        order.reverse()
    end = draw.of(['\n', '\n', '\r\n', '\r'])
    lines = [[str(line[i]) for i in order] for line in [columns] + rows]
    return (end.join(','.join(line) for line in lines) + end).encode()


def products(draw, n):
    rows = []
    for i in range(n):
        attraction = number(draw)
        rows.append([f'p{i}', number(draw), attraction, draw.below(attraction + 1), draw.of(['', 'c', 'd']), draw.below(6), number(draw),
                     draw.of(['', '', 'k', 'l']), draw.below(4), 1 + number(draw) % 50])
    columns = ['name', 'margin', 'attraction', 'shadow', 'category', 'space', 'price', 'ladder', 'grade', 'arrival']
    return table(columns, rows, draw)


def limits(draw, n):
    """Some limits; a category or a ladder may be one that no product has, which is refused."""
    choices = [['total', '', '', draw.below(n + 2)], ['category', 'c', '', draw.below(3)], ['category', 'd', '', draw.below(3)],
               ['shelf', '', '', draw.below(3 * n + 2)], ['ladder', 'k', '', ''], ['ladder', 'l', '', '']]
    if n > 1:
        choices += [['requires', f'p{i}', f'p{(i + 1 + draw.below(n - 1)) % n}', ''] for i in range(min(n, 4))]
    kinds = draw.of([None, 'total', 'requires', 'shelf', 'ladder'])
    kept = [row for row in choices if (draw.below(3) == 0 if kinds is None else row[0] == kinds)]
    return table(['kind', 'first', 'second', 'number'], kept, draw)


def segments(draw, n):
    rows = []
    for g in range(1 + draw.below(4)):
        rows.append([f'g{g}', '', 1 + draw.below(10), 1 + number(draw) % GREATEST])
        rows += [[f'g{g}', f'p{i}', '', number(draw)] for i in range(n) if draw.below(3)]
    return table(['segment', 'product', 'size', 'attraction'], rows, draw)


def arcs(draw, n, scale):
    rows = []
    for i in range(n):
        left = scale - 1
        for j in range(n):
            parts = draw.below(left + 1) if draw.below(2) else 0
            left -= parts
            rows += [[f'p{i}', f'p{j}', parts]] if parts else []
    return table(['from', 'to', 'parts'], rows, draw)


def drawn(draw):
    """A run: its words as bytes, and its files."""
    n = draw.below(draw.of([4, 8, 14]))
    model = draw.of(['logit', 'attract', 'mixed', 'chain', 'trial'])
    if model == 'trial':
        words = ['trial', '--seed', draw.below(1 << 64), '--count', n, '--workers', 1 + draw.below(4), '--save', 'saved.csv']
        return [str(word).encode() for word in words], {}
    files = {'products.csv': products(draw, n)}
    words = ['--model', model, '--products', 'products.csv']
    if model == 'chain':
        scale = draw.of([1, 3, 10, 10_000])
        files['arcs.csv'] = arcs(draw, n, scale)
        words += ['--arcs', 'arcs.csv', '--scale', scale, '--away', number(draw)]
    elif model == 'mixed':
        files['segments.csv'] = segments(draw, n)
        words += ['--segments', 'segments.csv', '--unit', 1 + draw.below(200)]
    else:
        words += ['--none', 1 + number(draw) % GREATEST]
    if model != 'chain' and draw.below(4):
        files['limits.csv'] = limits(draw, n)
        words += ['--limits', 'limits.csv']
    if model != 'chain' and draw.below(4) == 0:
        offer = ''.join(draw.of('01') for _ in range(n)) or '-'
        return [str(word).encode() for word in ['eval'] + words + ['--offer', offer]], files
    words += ['--workers', 1 + draw.below(4)] if model == 'mixed' else []
    return [str(word).encode() for word in ['solve'] + words + ['--proof', 'proof.txt']], files
