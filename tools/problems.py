"""Reads products, limits and segments files, as docs/FORMATS.md has them, into one problem.

Which fault of a file comes first is the program's to say. A file that can't be understood ends here with a line of its own.
"""
import csv

MODELS = ('logit', 'attract', 'mixed')
NUMBERS = ('margin', 'attraction', 'shadow', 'space', 'price', 'grade', 'arrival')
PRODUCT_COLUMNS = ('name', 'margin', 'attraction', 'shadow', 'category', 'space', 'price', 'ladder', 'grade', 'arrival')
CAPS = ('total', 'category')


class Refused(Exception):
    """What is wrong with a file, as a line."""


class Segment:
    """Customers of one kind: how many, the weight of buying nothing, the attraction of each product."""

    def __init__(self, name, size, none, attractions):
        self.name, self.size, self.none, self.attractions = name, size, none, attractions


class Limit:
    """A row of the limits file: its number, the kind, what it names, and its number where it has one."""

    def __init__(self, row, kind, first, second, number):
        self.row, self.kind, self.first, self.second, self.number = row, kind, first, second, number


class Problem:
    """Products as rows by column; segments, all customers being one but under mixed logit; shadows; limits."""

    def __init__(self, model, products, segments, limits):
        self.model, self.products, self.segments, self.limits = model, products, segments, limits
        self.names = [product['name'] for product in products]
        self.margins = [product['margin'] for product in products]
        self.shadows = [product['shadow'] if model == 'attract' else 0 for product in products]

    def limit_rows(self):
        """All limits as rows, those that say nothing left out."""
        return [row for limit in self.limits for row in self.rows_of(limit) if row[0]]

    def rows_of(self, limit):
        """The limit as rows: the sum of weights over what is offered is at most a number."""
        if limit.kind == 'requires':
            first, second = self.names.index(limit.first), self.names.index(limit.second)
            return [({first: 1, second: -1} if first != second else {}, 0)]
        if limit.kind == 'ladder':
            return [({i: 1, j: 1}, 1) for i, j in self.clashes(limit.first)]
        held = range(len(self.products)) if limit.kind != 'category' else self.held('category', limit.first)
        return [({i: self.products[i]['space'] if limit.kind == 'shelf' else 1 for i in held}, limit.number)]

    def held(self, column, name):
        """The products of a category or a ladder."""
        return [i for i, product in enumerate(self.products) if product[column] == name]

    def clashes(self, ladder):
        """The pairs on a ladder that can't be offered together."""
        held = self.held('ladder', ladder)
        return [(i, j) for k, i in enumerate(held) for j in held[k + 1:] if not self.may_stand(i, j)]

    def may_stand(self, i, j):
        low, high = sorted((self.products[i], self.products[j]), key=lambda product: product['grade'])
        return low['grade'] != high['grade'] and high['price'] >= low['price']

    def one_kind(self):
        """Whether all limits are caps, or all are requirements: the linear model has whole solutions then."""
        kinds = {limit.kind for limit in self.limits}
        return kinds <= set(CAPS) or kinds == {'requires'}


def records_of(path, what, needed, known):
    """The rows of a table, each by column and with its number."""
    csv.field_size_limit(1 << 24)
    try:
        with open(path, newline='', encoding='utf-8-sig') as file:
            records = [record for record in csv.reader(file) if record]
    except OSError:
        raise Refused(f'cannot read {what}')
    except UnicodeDecodeError:
        raise Refused(f'{what}: not UTF-8')
    header = records[0] if records else []
    for name in header:
        if name not in known or header.count(name) > 1:
            raise Refused(f'{what} row 1: column {name!r} is unknown or stands twice')
    for name in needed:
        if name not in header:
            raise Refused(f'{what} row 1: missing column {name}')
    for number, record in enumerate(records[1:], 2):
        if len(record) != len(header):
            raise Refused(f'{what} row {number}: wrong number of fields')
        yield number, dict(zip(header, record))


def number_in(text, what, row):
    if not (text.isascii() and text.isdigit() and len(text) <= 20):
        raise Refused(f'{what} row {row}: bad number')
    return int(text)


def read_products(path, needed=('name', 'margin')):
    products, names = [], set()
    for row, record in records_of(path, 'products', needed, PRODUCT_COLUMNS):
        product = {column: record.get(column, '') for column in PRODUCT_COLUMNS}
        for column in NUMBERS:
            needs = column in needed
            product[column] = number_in(product[column], 'products', row) if product[column] or needs else 0
        if not product['name'] or product['name'] in names:
            raise Refused(f'products row {row}: bad or repeated name')
        names.add(product['name'])
        products.append(product)
    return products


def read_limits(path, products):
    """The limits, each naming what the products have."""
    has = {column: {product[column] for product in products} - {''} for column in ('name', 'category', 'ladder')}
    named = {'total': (), 'shelf': (), 'category': ('category',), 'ladder': ('ladder',), 'requires': ('name', 'name')}
    columns, limits = ('kind', 'first', 'second', 'number'), []
    for row, record in records_of(path, 'limits', columns, columns):
        kind = record['kind']
        if kind not in named:
            raise Refused(f'limits row {row}: unknown kind')
        for column, text in zip(named[kind], (record['first'], record['second'])):
            if text not in has[column]:
                raise Refused(f'limits row {row}: unknown name')
        counted = kind in CAPS + ('shelf',)
        limits.append(Limit(row, kind, record['first'], record['second'], number_in(record['number'], 'limits', row) if counted else None))
    return limits


def read_segments(path, products):
    index, found, seen = {product['name']: i for i, product in enumerate(products)}, {}, set()
    columns = ('segment', 'product', 'size', 'attraction')
    for row, record in records_of(path, 'segments', columns, columns):
        name, product, attraction = record['segment'], record['product'], number_in(record['attraction'], 'segments', row)
        if (name, product) in seen:
            raise Refused(f'segments row {row}: repeated name')
        seen.add((name, product))
        if not product:
            found[name] = Segment(name, number_in(record['size'], 'segments', row), attraction, [0] * len(products))
        elif name not in found or product not in index:
            raise Refused(f'segments row {row}: unknown name')
        else:
            found[name].attractions[index[product]] = attraction
    return list(found.values())


def read_problem(words):
    """The problem of the words of `solve`, by key."""
    model = words['--model']
    if model not in MODELS:
        raise Refused(f'{model} is not one of {", ".join(MODELS)}')
    products = read_products(words['--products'], ('name', 'margin') if model == 'mixed' else ('name', 'margin', 'attraction'))
    limits = read_limits(words['--limits'], products) if '--limits' in words else []
    if model == 'mixed':
        return Problem(model, products, read_segments(words['--segments'], products), limits)
    everybody = Segment('', 1, int(words['--none']), [product['attraction'] for product in products])
    return Problem(model, products, [everybody], limits)
