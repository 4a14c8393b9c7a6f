"""Writes plots as SVG: curves in panels, and dots by rows. Part of bench/report.

A plot has no script and no font of its own, a ground of its own that is light or dark as the reader asks, and series that
differ by mark and dash as well as by colour.
"""
import math
from collections import namedtuple
from xml.sax.saxutils import escape

WIDTH = 760
LIGHT = ('#1f2328', '#ffffff', '#d8dee4', ('#0072b2', '#c44e00', '#00805d', '#a8478a', '#3d3d3d', '#8a6100', '#5b4fc4'))
DARK = ('#e6edf3', '#0d1117', '#343b44', ('#56b4e9', '#ff8f4d', '#35d0a0', '#eea6d2', '#d0d0d0', '#f0c04a', '#a79dff'))
DASHES = ('', '7 3', '2 3', '9 3 2 3', '5 6', '12 4', '5 2 1 2 1 2')
MARKS = ('M-4 0a4 4 0 1 0 8 0a4 4 0 1 0 -8 0z', 'M-3.5 -3.5h7v7h-7z', 'M0 -5L4.6 3.5H-4.6z', 'M0 -5.5L4 0L0 5.5L-4 0z', 'M-4.5 0H4.5M0 -4.5V4.5', 'M-4 -4L4 4M-4 4L4 -4', 'M0 5L4.6 -3.5H-4.6z')

# points are (x, figure); where joined holds they are joined by a line.
Series = namedtuple('Series', 'name style points joined')
Axis = namedtuple('Axis', 'label low high ticks log')
Box = namedtuple('Box', 'left top right bottom')


def rules(ink, ground, grid, colours):
    """The style of a ground."""
    parts = ['text{fill:%s}.ground{fill:%s}.grid{stroke:%s}.frame{stroke:%s;fill:none}' % (ink, ground, grid, ink)]
    parts += ['.c%d{stroke:%s;fill:%s}' % (i, colour, colour) for i, colour in enumerate(colours)]
    return ''.join(parts + ['.line{fill:none}.hollow{fill:%s}' % ground])


STYLE = '<style>text{font:12px sans-serif}.title{font-size:15px;font-weight:bold}.head{font-weight:bold}.line,.mark{stroke-width:1.6}%s@media (prefers-color-scheme:dark){%s}</style>' % (rules(*LIGHT), rules(*DARK))


def drawing(title, told, height, parts):
    """The whole picture: told is what a reader hears who doesn't see it."""
    head = '<svg xmlns="http://www.w3.org/2000/svg" role="img" aria-labelledby="t d" width="%d" height="%d" viewBox="0 0 %d %d">' % (WIDTH, height, WIDTH, height)
    lines = [head, '<title id="t">%s</title><desc id="d">%s</desc>' % (escape(title), escape(told)), STYLE,
             '<rect class="ground" width="100%" height="100%"/>', text(16, 26, title, 'start', 'title')]
    return '\n'.join(lines + parts + ['</svg>', ''])


def text(x, y, words, anchor='middle', kind='', turned=False):
    more = ' class="%s"' % kind if kind else ''
    more += ' transform="rotate(-90 %.1f %.1f)"' % (x, y) if turned else ''
    return '<text x="%.1f" y="%.1f" text-anchor="%s"%s>%s</text>' % (x, y, anchor, more, escape(words))


def mark(style, x, y, hollow=False):
    return '<path class="mark c%d%s" transform="translate(%.1f %.1f)" d="%s"/>' % (style, ' hollow' if hollow else '', x, y, MARKS[style])


def stroke(style, points):
    dash = ' stroke-dasharray="%s"' % DASHES[style] if DASHES[style] else ''
    return '<polyline class="line c%d"%s points="%s"/>' % (style, dash, ' '.join('%.1f,%.1f' % point for point in points))


def number(value):
    if value >= 1e6:
        return '%g million' % (value / 1e6)
    return '{:,}'.format(int(value)) if value >= 1 and value == int(value) else '%g' % value


def decades(label, values):
    """A logarithmic axis over values, from a power of ten to one; of a long one every second power has its number."""
    low, high = math.floor(math.log10(min(values)) + 1e-9), math.ceil(math.log10(max(values)) - 1e-9)
    high = max(high, low + 1)
    step = 1 if high - low <= 6 else 2
    return Axis(label, 10.0 ** low, 10.0 ** high, [10.0 ** k for k in range(low, high + 1, step)], True)


def doublings(label, values):
    """A logarithmic axis whose ticks are the values themselves."""
    ticks = sorted(set(values))
    return Axis(label, ticks[0] / 1.25, ticks[-1] * 1.25, ticks, True)


def plain(label, values):
    """An axis from 0."""
    step = 10.0 ** math.floor(math.log10(max(values)))
    step = step / 5 if max(values) < 2 * step else step / 2 if max(values) < 5 * step else step
    count = math.ceil(max(values) / step)
    return Axis(label, 0.0, step * count, [step * k for k in range(count + 1)], False)


def place(axis, value, start, end):
    """Where a value stands between two coordinates."""
    low, high, value = (math.log(each) for each in (axis.low, axis.high, value)) if axis.log else (axis.low, axis.high, value)
    return start + (end - start) * (value - low) / (high - low)


def legend(names, joined, cut, top):
    """Lines of marks with their names, and where they end; names are pairs of name and style, joined tells whether lines join marks."""
    parts, x, y = [], 16.0, top
    for name, style in names:
        width = 52 + 6.5 * len(name)
        if x + width > WIDTH - 10:
            x, y = 16.0, y + 20
        parts += [stroke(style, [(x, y), (x + 28, y)])] if joined else []
        parts += [mark(style, x + 14, y), text(x + 34, y + 4, name, 'start')]
        x += width
    if cut:
        y += 20
        parts.append(text(16, y + 4, 'An unfilled mark: a run behind it was ended before it was through.', 'start'))
    return parts, y + 14


def grid(box, across, up, numbered):
    """The frame of a panel with its lines and numbers. up is None where rows stand in the place of an axis; numbered tells whether that
    axis has its numbers here. A number that would touch the one before it is left out."""
    parts, free = [], 0.0
    for tick in across.ticks:
        x, half = place(across, tick, box.left, box.right), 3.6 * len(number(tick))
        parts.append('<path class="grid" d="M%.1f %.1fV%.1f"/>' % (x, box.top, box.bottom))
        if x - half >= free:
            parts.append(text(x, box.bottom + 16, number(tick)))
            free = x + half + 2
    for tick in up.ticks if up else []:
        y = place(up, tick, box.bottom, box.top)
        parts.append('<path class="grid" d="M%.1f %.1fH%.1f"/>' % (box.left, y, box.right))
        parts += [text(box.left - 6, y + 4, number(tick), 'end')] if numbered else []
    parts.append('<rect class="frame" x="%.1f" y="%.1f" width="%.1f" height="%.1f"/>' % (box.left, box.top, box.right - box.left, box.bottom - box.top))
    return parts


def panel(box, head, series, across, up, numbered):
    """One panel of curves."""
    parts = grid(box, across, up, numbered) + ([text((box.left + box.right) / 2, box.top - 7, head, 'middle', 'head')] if head else [])
    for one in series:
        at = [(place(across, x, box.left, box.right), place(up, figure.value, box.bottom, box.top), figure.cut) for x, figure in one.points]
        if one.joined and len(at) > 1:
            parts.append(stroke(one.style, [(x, y) for x, y, _ in at]))
        parts += [mark(one.style, x, y, cut) for x, y, cut in at]
    return parts


def curves(title, told, panels, across, up):
    """A picture of panels, each a head and its series, over the same two axes."""
    names = sorted({(one.name, one.style) for _, series in panels for one in series}, key=lambda pair: pair[1])
    cut = any(figure.cut for _, series in panels for one in series for _, figure in one.points)
    parts, top = legend(names, any(one.joined for _, series in panels for one in series), cut, 48)
    columns = min(3, len(panels))
    wide, high = (WIDTH - 112) / columns, 330 if columns == 1 else 230
    for k, (head, series) in enumerate(panels):
        left, above = 72 + k % columns * wide, top + 22 + k // columns * (high + 34)
        box = Box(left, above, left + wide - (16 if columns > 1 else 0), above + high - 20)
        parts += panel(box, head, series, across, up, k % columns == 0)
    rows = (len(panels) + columns - 1) // columns
    bottom = top + 22 + rows * (high + 34)
    parts += [text((WIDTH + 32) / 2, bottom - 12, across.label), text(18, (top + bottom - 32) / 2, up.label, turned=True)]
    return drawing(title, told, bottom + 4, parts)


def dots(title, told, rows, styles, across):
    """A picture of rows, each a label and its figures by name; styles gives the style of each name. In a row the marks stand a little below
    one another, so that equal figures don't cover each other."""
    cut = any(figure.cut for _, figures in rows for figure in figures.values())
    parts, top = legend(list(styles.items()), False, cut, 48)
    left = 24 + 6.6 * max(len(label) for label, _ in rows)
    step = 28 if len(rows) < 16 else 18
    box = Box(left, top + 8, WIDTH - 30, top + 8 + step * len(rows))
    parts += grid(box, across, None, False)
    for k, (label, figures) in enumerate(rows):
        y = box.top + step * (k + 0.5)
        parts += ['<path class="grid" d="M%.1f %.1fH%.1f"/>' % (box.left, y, box.right), text(left - 8, y + 4, label, 'end')]
        for at, name in enumerate(styles):
            if name in figures:
                x, lower = place(across, figures[name].value, box.left, box.right), (at - (len(styles) - 1) / 2) * 4
                parts.append(mark(styles[name], x, y + lower, figures[name].cut))
    parts.append(text((box.left + box.right) / 2, box.bottom + 36, across.label))
    return drawing(title, told, box.bottom + 48, parts)
