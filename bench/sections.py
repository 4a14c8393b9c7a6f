"""The sections of bench/REPORT.md, each its lines and its plots by name, made from the newest kept runs. Part of bench/report."""
from statistics import median

import kept
import plots

# The mark, dash and colour of each program and of each piece of work, the same in all plots.
STYLES = {'solve': 0, 'HiGHS': 1, 'GLPK': 2, 'CBC': 3, 'solve with a certificate': 4, 'check': 5, 'enumeration in Python': 6}
MILLISECONDS = 'milliseconds'

# What the scripts that start a process from Python can tell of its memory.
CHILD = 'Memory is that of a process which Python starts, and never less than what Python has itself when it starts one.'


def source(run):
    return 'From the run [`%s`](runs/%s.md) of %s: %s.' % (run.name, run.name, run.date, run.machine)


def picture(name, title):
    return '![%s](plots/%s.svg)' % (title, name)


def table(heads, rows):
    return ['| %s |' % ' | '.join(heads), '|%s' % ('---|' * len(heads))] + ['| %s |' % ' | '.join(cells) for cells in rows]


def middle(figures):
    """The median of figures, cut where one of them is; None where one isn't there."""
    if not figures or None in figures:
        return None
    return kept.Figure(median(figure.value for figure in figures), any(figure.cut for figure in figures))


def told(figure, places=1):
    """The text of a figure in a table."""
    if figure is None:
        return ''
    return '%s%s' % ('more than ' if figure.cut else '', '{:,.{}f}'.format(figure.value, places))


def grouped(pairs):
    """Lists of rows by key, in the order of the first of each."""
    found = {}
    for key, row in pairs:
        found.setdefault(key, []).append(row)
    return found


def series(run, groups, columns):
    """A curve for each column over the groups, which are rows by number of products: the median of each."""
    found = []
    for column in columns:
        points = [(n, middle([run.figure(row, column) for row in rows])) for n, rows in sorted(groups.items())]
        points = [(n, figure) for n, figure in points if figure]
        if points:
            found.append(plots.Series(column, STYLES[column], points, True))
    return found


def values(panels):
    return [figure.value for _, found in panels for one in found for _, figure in one.points]


def products(panels):
    return [x for _, found in panels for one in found for x, _ in one.points]


def time_curves(title, words, panels):
    """Times over numbers of products, in panels."""
    across, up = plots.doublings('products', products(panels)), plots.decades(MILLISECONDS, values(panels))
    return plots.curves(title, words, panels, across, up)


def time_dots(title, words, run, rows, columns):
    """Times by rows; each row is named by its first column."""
    shown = [(row['input'] if 'input' in row else row['chain'], {column: run.figure(row, column) for column in columns}) for row in rows]
    shown = [(label, {name: figure for name, figure in figures.items() if figure}) for label, figures in shown]
    across = plots.decades(MILLISECONDS, [figure.value for _, figures in shown for figure in figures.values()])
    return plots.dots(title, words, shown, {column: STYLES[column] for column in columns}, across)


def sooner(run, rows, peers):
    """On how many rows solve takes less time than every peer with a figure there, of the rows that have one or where solve was ended."""
    wins = count = 0
    for row in rows:
        own, others = run.figure(row, 'solve'), [run.figure(row, peer) for peer in peers]
        others = [other.value for other in others if other]
        if own and (others or own.cut):
            count += 1
            wins += not own.cut and own.value < min(others)
    best = peers[0] if len(peers) == 1 else 'the better of %s and %s' % tuple(peers) if len(peers) == 2 else 'the best of %s and %s' % (', '.join(peers[:-1]), peers[-1])
    return 'On %d of %d inputs `solve` takes less time than %s.' % (wins, count, best)


def logit():
    run = kept.newest('logit')
    columns = ['solve', 'solve with a certificate', 'check', 'HiGHS', 'GLPK', 'enumeration in Python']
    rows = run.table('input', 'its bytes', *columns)
    groups = grouped((n, row) for (n,), row in run.matched(rows, 'input', r'random, (\d+) products'))
    title = 'Multinomial logit without limits: time against products'
    plot = time_curves(title, 'Random inputs; times of solve, with a certificate, of check, and of the peers.', [('', series(run, groups, columns))])
    lines = ['## Multinomial logit without limits', '', picture('logit', title), '', sooner(run, rows, ['HiGHS', 'GLPK', 'enumeration in Python']), '']
    lines += table(['input'] + columns + ['bytes of the certificate'], [[row['input']] + [told(run.figure(row, column)) for column in columns] + [told(run.figure(row, 'its bytes'), 0)] for row in rows])
    return run, lines, {'logit': plot}


def limits():
    run = kept.newest('limits')
    columns = ['solve', 'HiGHS', 'GLPK', 'CBC']
    rows = run.table('input', 'its bytes', 'solve with a certificate', 'check', *columns)
    title = 'Multinomial logit under limits of one kind: time by input'
    plot = time_dots(title, 'Caps, requirements, a shelf and ladders; times of solve and of the peers.', run, rows, columns)
    heads = columns[:1] + ['solve with a certificate', 'check'] + columns[1:]
    lines = ['## Limits of one kind', '', picture('limits', title), '', sooner(run, rows, columns[1:]) + ' Under a shelf and under ladders there is no linear model, so HiGHS, which is asked for linear programs alone, has no figure there.', '']
    lines += table(['input'] + heads + ['bytes of the certificate'], [[row['input']] + [told(run.figure(row, column)) for column in heads] + [told(run.figure(row, 'its bytes'), 0)] for row in rows])
    return run, lines, {'limits': plot}


def families():
    run = kept.newest('families')
    columns = ['solve', 'GLPK', 'CBC']
    rows = run.table('input', 'ratio', *columns)
    found = run.matched(rows, 'input', r'(.+), (\d+), (\d+)', len(rows))
    panels = [(family, series(run, grouped((key[1], row) for key, row in found if key[0] == family), columns)) for family in dict.fromkeys(key[0] for key, _ in found)]
    title = 'Limits of several kinds, by families: time against products'
    plot = time_curves(title, 'A panel for each family of inputs; medians over the seeds of the times of solve, GLPK and CBC.', panels)
    body = []
    for (family, n), group in grouped(((key[0], key[1]), row) for key, row in found).items():
        ratios = [run.figure(row, 'ratio') for row in group]
        least = told(min(ratios)) if None not in ratios else ''
        body.append([family, str(n)] + [told(middle([run.figure(row, column) for row in group])) for column in columns] + [told(middle(ratios)), least])
    lines = ['## Limits of several kinds', '', picture('several', title), '', sooner(run, rows, columns[1:]) + ' Times are medians over the seeds. The ratio of an input is the time of the better peer as a multiple of that of `solve`, so that below 1 the peer is the faster one; the table has the median and the least of these ratios over the seeds. A peer that was ended, or that found another value, counts with the time it took.', '']
    return run, lines + table(['family', 'products'] + columns + ['ratio, median', 'ratio, least'], body), {'several': plot}


def turns(run, found):
    """The plot of the nodes that the mixed search meets, a curve for each family."""
    shown = []
    for style, family in enumerate(dict.fromkeys(key[0] for key, _ in found)):
        groups = grouped((key[1], row) for key, row in found if key[0] == family)
        points = [(n, middle([run.figure(row, 'nodes') for row in rows])) for n, rows in sorted(groups.items())]
        points = [(n, figure) for n, figure in points if figure]
        if points:
            shown.append(plots.Series(family, style % len(plots.MARKS), points, True))
    if not shown:
        raise kept.Unexpected('%s: no input has a number of nodes' % run.name)
    panels = [('', shown)]
    return plots.curves('Mixed logit: nodes of the search against products', 'A curve for each family of inputs; medians over the seeds.', panels,
                        plots.doublings('products', products(panels)), plots.decades('nodes', values(panels)))


def mixed():
    run = kept.newest('mixed')
    columns, peers = ['solve', 'HiGHS', 'GLPK', 'CBC'], ['HiGHS', 'GLPK', 'CBC']
    more = [('nodes', 0), ('solve with a certificate', 1), ('check', 1), ('its bytes', 0)]
    rows = run.table('input', *columns, *[column for column, _ in more])
    found = run.matched(rows, 'input', r'(.+), (\d+) products, seed (\d+)', len(rows))
    panels = [(family, series(run, grouped((key[1], row) for key, row in found if key[0] == family), columns)) for family in dict.fromkeys(key[0] for key, _ in found)]
    title = 'Mixed logit, by families: time against products'
    plot = time_curves(title, 'A panel for each family of inputs; medians over the seeds of the times of solve, HiGHS, GLPK and CBC.', panels)
    body = []
    for (family, n), group in grouped(((key[0], key[1]), row) for key, row in found).items():
        cells = [told(middle([run.figure(row, column) for row in group])) for column in columns]
        body.append([family, str(n)] + cells + [told(middle([run.figure(row, column) for row in group]), places) for column, places in more])
    lines = ['## Mixed logit', '', picture('mixed', title), '', sooner(run, rows, peers), '', picture('turns', 'Mixed logit: nodes of the search against products'), '', 'Medians over the seeds; the nodes are those of one solve without a certificate.', '']
    heads = ['family', 'products'] + columns + ['nodes', 'solve with a certificate', 'check', 'bytes of the certificate']
    return run, lines + table(heads, body), {'mixed': plot, 'turns': turns(run, found)}


def chains():
    run = kept.newest('chains')
    columns = ['solve', 'solve with a certificate', 'check', 'HiGHS']
    rows = run.table('chain', 'arcs', 'apart', 'differs', *columns)
    title = 'Markov chains of 256 products: time by chain'
    plot = time_dots(title, 'Times of solve, with a certificate, of check, and of HiGHS.', run, rows, columns)
    lines = ['## Markov chains', '', picture('chains', title), '', sooner(run, rows, ['HiGHS']) + ' Apart are the two bounds of `solve`, in millionths; the value that HiGHS finds differs from the upper bound by the part of it that the last column says.', '']
    body = [[row['chain'], told(run.figure(row, 'arcs'), 0)] + [told(run.figure(row, column)) for column in columns] + [row['apart'], row['differs']] for row in rows]
    return run, lines + table(['chain', 'arcs'] + columns + ['apart', 'differs'], body), {'chains': plot}


def tables():
    run = kept.newest('tables')
    rows = run.table('table', 'bytes', 'solve', 'csv.reader', 'peak memory', 'bytes of memory per byte')
    lines = ['## Reading tables', '', 'Time of the whole process of `solve` beside that of Python\'s `csv.reader` over the same file, and memory at its peak. ' + CHILD + ' The figure of a small table is Python\'s then, and no figure of the program.', '']
    body = [[row['table'], told(run.figure(row, 'bytes'), 0), told(run.figure(row, 'solve')), told(run.figure(row, 'csv.reader')), told(run.figure(row, 'peak memory'), 0), row['bytes of memory per byte']] for row in rows]
    lines += table(['table', 'bytes', 'solve', 'csv.reader', 'bytes of memory', 'of these for each byte'], body)
    more = kept.newest('devices')
    heads = ['input', 'bytes', 'status', 'memory at the peak, MB']
    lines += ['', 'The greatest files on a real device, and files of a byte more, which are refused. The tables are small ones, filled up with blank lines; memory is that which GNU time tells, the program\'s own:', '']
    lines += table(heads, [[row[head] for head in heads] for row in more.table(*heads)])
    return [run, more], lines, {}


def gate():
    run = kept.newest('gate')
    rows = [row for row in run.table('crate', 'processor minutes', 'of these proof and tests', 'edits') if row['crate'] != 'together']
    shown, names = [], {'proof and tests': 0, 'must-fail edits': 1}
    for row in rows:
        pair = (run.figure(row, 'of these proof and tests'), run.figure(row, 'edits'))
        if None in pair:
            raise kept.Unexpected('%s: the crate %s has no minutes' % (run.name, row['crate']))
        shown.append((row['crate'], dict(zip(names, pair))))
    across = plots.plain('processor minutes', [figure.value for _, figures in shown for figure in figures.values()])
    title = 'What the gate takes, by crate'
    plot = plots.dots(title, 'Processor minutes of proof and tests, and of the edits that must fail.', shown, names, across)
    whole = sum(figure.value for _, figures in shown for figure in figures.values())
    lines = ['## The gate', '', picture('gate', title), '', '%d crates, %s processor minutes together.' % (len(shown), told(kept.Figure(whole, False), 0))]
    return run, lines, {'gate': plot}
