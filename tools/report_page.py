"""The page of tools/report: one HTML text that needs no network, no script and no colours, for a screen, a telephone and paper."""
from decimal import Context, Decimal
from fractions import Fraction
from html import escape

STYLE = '''
body { font: 1rem/1.45 system-ui, sans-serif; color: #000; background: #fff; max-width: 58rem; margin: 0 auto; padding: 1rem; }
h1 { font-size: 1.5rem; margin: 0 0 .5rem; }
h2 { font-size: 1.15rem; margin: 2rem 0 .5rem; break-after: avoid; }
h3 { font-size: 1rem; margin: 1.2rem 0 .3rem; break-after: avoid; }
h2 + p { break-after: avoid; }
.answer { border: 2px solid #000; padding: .6rem .9rem; }
.answer p { margin: .3rem 0; }
table { border-collapse: collapse; width: 100%; margin: .4rem 0; }
th, td { text-align: left; vertical-align: top; padding: .25rem .6rem .25rem 0; border-bottom: 1px solid #999; }
th { border-bottom: 2px solid #000; }
bdi, .exact { overflow-wrap: anywhere; }
td.n, th.n { text-align: right; padding-right: 1rem; }
.exact { display: block; font-size: .8rem; color: #333; }
.name { min-width: 7rem; }
.bar { display: block; }
rect { fill: #777; stroke: #000; }
pre, code { font: .85rem/1.4 ui-monospace, monospace; white-space: pre-wrap; overflow-wrap: anywhere; }
pre { border-left: 3px solid #999; padding-left: .7rem; }
.segments { display: grid; grid-template-columns: repeat(auto-fit, minmax(17rem, 1fr)); gap: 0 2rem; }
.segments section { break-inside: avoid; }
@media (max-width: 34rem) { body { padding: .6rem; } th, td { padding-right: .35rem; font-size: .9rem; } .name { min-width: 5.2rem; } td.n, th.n { padding-right: .6rem; } }
@media print { body { max-width: none; padding: 0; font-size: 10pt; } tr, .answer { break-inside: avoid; } @page { margin: 15mm; } }
'''


def near(value):
    """A fraction as a decimal, exact where four places are enough, else rounded to four, or to four digits below 1."""
    exact = value * 10 ** 4
    if exact.denominator == 1:
        return format(Decimal(exact.numerator).scaleb(-4).normalize(), ',f')
    if abs(value) >= 1:
        return format(Decimal(round(exact)).scaleb(-4), ',f')
    return format(Context(prec=4).divide(Decimal(value.numerator), Decimal(value.denominator)), 'f')


def is_exact(value):
    return (value * 10 ** 4).denominator == 1


def percent(part):
    return f'{float(100 * part):.2f}\u00a0%'


def named(text):
    return f'<bdi>{escape(text)}</bdi>'


def exactly(text):
    """An exact fraction, small, below its decimal; it may be broken behind the stroke."""
    return f'<span class="exact">{escape(str(text)).replace("/", "/<wbr>")}</span>'


def both(value, text=None, sign=''):
    """A decimal, and below it the exact fraction, in the program's words where they are given, unless the decimal is exact."""
    return (sign if value > 0 else '') + near(value) + ('' if is_exact(value) else exactly(text or value))


def bar(part, what):
    """A bar of a part of the full width."""
    width = f'{float(98 * part):.2f}%'
    return f'<svg class="bar" width="100%" height="12" role="img" aria-label="{what}: {percent(part)}"><rect x="1" y="1" width="{width}" height="9"/></svg>'


def table(caption, heads, rows, numbers=()):
    """A table; the columns that have numbers are aligned to the right."""
    right = lambda k: ' class="n"' if k in numbers else ' class="name"' if k == 0 else ''
    line = lambda tag, cells: '<tr>' + ''.join(f'<{tag}{right(k)}>{cell}</{tag}>' for k, cell in enumerate(cells)) + '</tr>'
    body = '\n'.join(line('td', row) for row in rows) or f'<tr><td colspan="{len(heads)}">none</td></tr>'
    return f'<table aria-label="{escape(caption)}">\n<thead>{line("th", heads)}</thead>\n<tbody>\n{body}\n</tbody>\n</table>'


def section(title, *parts):
    return '\n'.join([f'<h2>{escape(title)}</h2>', *parts])


def paragraph(text):
    return f'<p>{text}</p>'


def offered_of(found):
    return [i for i, digit in enumerate(found.set) if digit == '1']


def answer(found):
    """What is best, what it brings, and whether somebody else has seen that it is so."""
    offered = offered_of(found)
    names = ', '.join(named(found.products[i]['name']) for i in offered) or 'nothing'
    lines = [f'Offer {len(offered)} of {len(found.products)} products: <strong>{names}</strong>.', brings(found)]
    if found.verdict == 'accepted' and found.model == 'chain':
        lines.append('<strong>The certificate is accepted</strong> by <code>assort check</code>: both bounds hold for these files.')
    elif found.verdict == 'accepted':
        lines.append('<strong>The certificate is accepted</strong> by <code>assort check</code>: of all assortments that keep to the limits none brings more.')
    elif found.verdict == 'rejected':
        lines.append('<strong>The certificate is rejected</strong> by <code>assort check</code>: nothing here is certified.')
    else:
        lines.append('<strong>No certificate was made</strong>: that this is the best rests on <code>assort solve</code> alone.')
    return '<div class="answer">\n' + '\n'.join(map(paragraph, lines)) + '\n</div>'


def brings(found):
    if found.model == 'chain':
        low, high = (format(Decimal(bound).scaleb(-6), ',f') for bound in found.bounds)
        return f'A customer brings at least <strong>{low}</strong> margin units on average, and with no assortment more than {high}.'
    value = f'<strong>{near(found.best.value)}</strong> margin units'
    if found.model == 'mixed':
        every = sum(part.size for part in found.best.parts)
        return f'All {every:,} customers together bring {value}, each segment rounded down to {Fraction(1, found.best.unit)} of a unit.'
    return f'A customer brings {value} on average, exactly {escape(found.best.said)}.'


def plain_table(found):
    """What is offered to customers of one kind: chances, and what each product brings of the whole."""
    part, rows = found.best.parts[0], []
    shares = {i: found.products[i]['margin'] * Fraction(part.chances[found.products[i]['name']]) for i in offered_of(found)}
    most = max(shares.values(), default=0) or 1
    for i, share in shares.items():
        chance = part.chances[found.products[i]['name']]
        rows.append([named(found.products[i]['name']), f'{found.products[i]["margin"]:,}', percent(Fraction(chance)) + exactly(chance),
                     near(share), bar(share / most, 'of the greatest')])
    rows.append(['no product', '', percent(Fraction(part.leave)) + exactly(part.leave), '', ''])
    return table('What is offered', ['Product', 'Margin', 'Chosen by', 'Brings', 'Revenue by product'], rows, (1, 2, 3))


def mixed_tables(found):
    """What is offered to segments: how many customers choose it in all, and what each segment brings."""
    parts = found.best.parts
    every, rows = sum(part.size for part in parts), []
    buyers = lambda chance_of: sum((part.size * Fraction(chance_of(part)) for part in parts), Fraction(0))
    for i in offered_of(found):
        name = found.products[i]['name']
        count = buyers(lambda part: part.chances[name])
        rows.append([named(name), f'{found.products[i]["margin"]:,}', near(count), percent(count / every) if every else ''])
    gone = buyers(lambda part: part.leave)
    rows.append(['no product', '', near(gone), percent(gone / every) if every else ''])
    return table('What is offered', ['Product', 'Margin', f'Customers of {every:,}', 'Part'], rows, (1, 2, 3)) + by_segment(parts) + chances(found, parts)


def by_segment(parts):
    revenues = [part.size * Fraction(part.gain) for part in parts]
    most = max(revenues, default=0) or 1
    rows = [[named(part.name), f'{part.size:,}', both(Fraction(part.gain), part.gain), near(revenue), bar(revenue / most, 'of the greatest')]
            for part, revenue in zip(parts, revenues)]
    return '<h3>Revenue by segment</h3>' + table('Revenue by segment', ['Segment', 'Customers', 'One brings', 'All bring', 'Revenue'], rows, (1, 2, 3))


def chances(found, parts):
    """The chances in each segment, a small table each."""
    boxes = []
    for part in parts:
        rows = [[named(name), percent(Fraction(chance)) + exactly(chance)] for name, chance in part.chances.items()]
        rows.append(['no product', percent(Fraction(part.leave)) + exactly(part.leave)])
        boxes.append(f'<section><h3>{named(part.name)}</h3>' + table('Chances', ['Product', 'Chosen by'], rows, (1,)) + '</section>')
    return '<div class="segments">' + '\n'.join(boxes) + '</div>'


def chain_table(found):
    rows = [[named(product['name']), f'{product["margin"]:,}', f'{product["arrival"]:,}', 'yes' if digit == '1' else 'no']
            for product, digit in zip(found.products, found.set)]
    return table('Products', ['Product', 'Margin', 'Arrivals', 'Offered'], rows, (1, 2))


def limit_text(limit):
    return {'total': f'at most {limit.number} products', 'category': f'at most {limit.number} of category {named(limit.first)}',
            'requires': f'{named(limit.first)} only with {named(limit.second)}', 'shelf': f'a shelf of {limit.number}',
            'ladder': f'ladder {named(limit.first)}: no grade twice, no higher grade at a lower price'}[limit.kind]


def limit_row(problem, limit, offered):
    """What of a limit is taken and left."""
    if limit.number is not None:
        weights, most = problem.rows_of(limit)[0]
        taken = sum(weights.get(i, 0) for i in offered)
        return [str(taken), str(most - taken) if taken < most else 'nothing' if taken == most else f'{taken - most} too many']
    names = [problem.names[i] for i in offered]
    if limit.kind == 'requires':
        both_there = 'both are offered' if limit.second in names else 'broken'
        return [f'{named(limit.first)} is not offered' if limit.first not in names else both_there, '']
    held = sorted((i for i in problem.held('ladder', limit.first) if i in offered), key=lambda i: problem.products[i]['grade'])
    return ['; '.join(f'{named(problem.names[i])}, grade {problem.products[i]["grade"]}, price {problem.products[i]["price"]:,}' for i in held) or 'none is offered', '']


def limits_section(found):
    offered = offered_of(found)
    rows = [[f'row {limit.row}', limit_text(limit)] + limit_row(found.problem, limit, offered) for limit in found.problem.limits]
    words = 'All limits are met.' if found.best.broken is None else f'The limit of row {found.best.broken} is broken.'
    return section('What the limits leave', paragraph(words), table('Limits', ['Limit', 'Says', 'Taken', 'Left'], rows)) if rows else ''


def what_if(found, title, changes, words):
    """A table of assortments that differ in one product."""
    limits = {limit.row: limit_text(limit) for limit in found.problem.limits}
    rows = []
    for i, changed in changes:
        change = changed.value - found.best.value
        kept = 'met' if changed.broken is None else f'breaks row {changed.broken}: {limits[changed.broken]}'
        rows.append([named(found.problem.names[i]), both(changed.value, changed.said), both(change, sign='+'), kept])
    return section(title, paragraph(words), table(title, ['Product', 'Brings then', 'Change', 'Limits'], rows, (1, 2)))


def records(found, kit):
    """The program's own words, and the files they speak of."""
    files = [[what, f'<code>{escape(name)}</code>', f'{size:,}', f'<code>{digest}</code>'] for what, name, size, digest in found.files]
    if found.certificate:
        kept, size, digest = found.certificate
        files.append(['certificate', f'<code>{escape(kept)}</code>' if kept else 'not kept', f'{size:,}', f'<code>{digest}</code>'])
    said = [f'<pre>$ {escape(words)}\n{escape(report)}</pre>' for words, report in found.program.runs]
    asked = len(found.without) + len(found.added)
    more = [paragraph(f'The changes above are {asked} more runs of <code>assort eval</code>, each with one digit of the set turned.')] if asked else []
    proved = [paragraph(f'README says of the program: {escape(kit)}.')] if kit else []
    return section("The program's words", *said, *more) + section('Files', table('Files', ['File', 'Name', 'Bytes', 'SHA-256'], files, (2,)), *proved)


def body(found, kit):
    yield '<h1>Assortment report</h1>'
    yield answer(found)
    if found.model == 'chain':
        yield section('What is offered', chain_table(found))
    else:
        note = paragraph('A decimal above a small fraction is rounded; the fraction is exact.')
        yield section('What is offered', note, (mixed_tables if found.model == 'mixed' else plain_table)(found))
        yield limits_section(found)
        yield what_if(found, 'Without a product', found.without, 'What is brought where one offered product is left out, the least loss first. Of limits that are broken then, the first is named.')
        yield what_if(found, 'With one more product', found.added, 'What is brought where one more product is offered, the greatest first. Where a limit is broken, the figures are right all the same.')
    yield records(found, kit)


def page_of(found, kit):
    return ('<!DOCTYPE html>\n<html lang="en">\n<head>\n<meta charset="utf-8">\n<meta name="viewport" content="width=device-width, initial-scale=1">\n'
            f'<title>Assortment report</title>\n<style>{STYLE}</style>\n</head>\n<body>\n' + '\n'.join(body(found, kit)) + '\n</body>\n</html>\n')
