"""The sections of bench/REPORT.md on certificates, and on peers that found other values. Part of bench/report."""
import re

import kept
import plots
from sections import CHILD, picture, source, table, told

# The kinds of runs with certificates' bytes and times of check, and what the plot calls them.
KINDS = (('logit', 'logit without limits'), ('limits', 'limits of one kind'), ('several', 'limits of several kinds'), ('mixed', 'mixed logit'))


def certificates():
    """The time of check against the bytes of the certificate, of all inputs whose certificate is accepted."""
    runs, shown = [], []
    for style, (kind, name) in enumerate(KINDS):
        run = kept.newest(kind)
        runs.append(run)
        pairs = [(run.figure(row, 'its bytes'), run.figure(row, 'check')) for row in run.table('input', 'check', 'its bytes')]
        points = sorted((size.value, checked) for size, checked in pairs if size and checked)
        shown.append(plots.Series(name, style, points, False))
    sizes, times = [x for one in shown for x, _ in one.points], [figure.value for one in shown for _, figure in one.points]
    if not sizes:
        raise kept.Unexpected('no run has an accepted certificate')
    title = 'Time of check against bytes of the certificate'
    plot = plots.curves(title, 'A mark for each input, by what is solved.', [('', shown)], plots.decades('bytes', sizes), plots.decades('milliseconds', times))
    largest = '{:,.0f}'.format(max(sizes))
    lines = ['## Certificates', '', picture('certificates', title), '', 'A mark is one input. The longest certificate among these has %s bytes.' % largest]
    lines += ['', 'Where limits of several kinds stand together or where most customers buy nothing a certificate can be long; these were longer than `check` reads, or weren\'t whole in time:', '']
    left = [(run.name, row['input']) for run in runs for row in run.table('input', 'check', 'its bytes') if not run.figure(row, 'check')]
    lines += ['- %s (`%s`)' % (name, run) for run, name in left] or ['- none in these runs']
    return runs, lines, {'certificates': plot}


def pieces():
    run = kept.newest('pieces')
    rows = run.table('bytes', 'answer', 'seconds', 'memory at the peak, MB')
    lines = ['## Certificates in pieces', '', '`check` reads a certificate piece by piece, so that its memory doesn\'t go with the certificate\'s bytes. All have as many branches, by which time goes more than by bytes. ' + CHILD + ' The program\'s own stands below, with the greatest files.', '']
    body = [[row['bytes'], row['answer'], row['seconds'], row['memory at the peak, MB']] for row in rows]
    return run, lines + table(['bytes', 'answer', 'seconds', 'memory at the peak, MB'], body), {}


def other_values(run):
    """What peers found that isn't the best value, and how often one was ended, as the cells of a run say it."""
    wrong, ended = [], {}
    for heads, rows in run.tables:
        for row in rows:
            for column in (head for head in heads if head in ('HiGHS', 'GLPK', 'CBC')):
                match = re.search(r'\((\S+), not (\S+)\)', row[column])
                if match:
                    wrong.append('- %s on `%s` of `%s`: %s, not %s' % (column, row[heads[0]], run.name, *match.groups()))
                elif row[column].startswith('more than') or '(no end)' in row[column]:
                    ended[column] = ended.get(column, 0) + 1
    return wrong, ended


def peers(runs):
    """The section on peers, from the runs that the others are made of."""
    wrong, ended = [], {}
    for run in runs:
        more, counts = other_values(run)
        wrong += more
        for name, count in counts.items():
            ended[name] = ended.get(name, 0) + count
    lines = ['## Values that peers found', '']
    lines += ['The peers count in floating point with tolerances of their own; `solve` counts exactly. The runs of families compare what GLPK and CBC find: a value is taken as the same there within a hundred-thousandth part. The runs without limits compare the enumeration, and those of chains say how far HiGHS\'s value is from the upper bound.', '']
    if wrong:
        lines += ['In these runs peers found other values:', ''] + wrong
    else:
        lines += ['In none of the runs of this page a peer is stated to have found another value.']
    cut = ', '.join('%s on %d inputs' % pair for pair in sorted(ended.items()))
    lines += ['', 'Peers that were ended before they were through: %s.' % (cut or 'none was seen')]
    return lines
