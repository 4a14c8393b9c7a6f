"""The words and the input files of tools/proofcheck, read as docs/FORMATS.md says.

The files are ones that `assort` accepts: not every fault is looked for.
"""
import csv
import io

LARGEST = 10 ** 9  # of words and most columns
MODELS = ('logit', 'attract', 'mixed', 'chain')


class Stop(Exception):
    """Why there is no verdict: a status from 2 to 4, and a line."""

    def __init__(self, status, text):
        super().__init__(text)
        self.status = status


FILES = ('--products', '--limits', '--segments', '--arcs', '--proof')
RANGES = {'--none': (1, LARGEST), '--away': (0, LARGEST), '--unit': (1, LARGEST), '--scale': (1, 10_000)}
NEEDED = {'logit': {'--none'}, 'attract': {'--none'}, 'mixed': {'--segments'}, 'chain': {'--arcs', '--scale'}}
MAY = {'logit': {'--limits'}, 'attract': {'--limits'}, 'mixed': {'--limits', '--unit'}, 'chain': {'--away'}}


def read_words(words):
    """The value of each key that is given."""
    given = {}
    for key, value in zip(words[::2], words[1::2]):
        if key in given or key not in ('--model',) + FILES + tuple(RANGES):
            raise Stop(2, f'words: {key} is no option here, or stands twice')
        given[key] = number_in(value, *RANGES[key], f'words: {key}', 2) if key in RANGES else value
    model = given.get('--model')
    if len(words) % 2 or model not in MODELS:
        raise Stop(2, 'words: a value is missing, or the model')
    needed = {'--model', '--products', '--proof'} | NEEDED[model]
    if not needed <= set(given) <= needed | MAY[model]:
        raise Stop(2, f'words: {model} needs {" ".join(sorted(needed))} and may have {" ".join(sorted(MAY[model]))}')
    return given


def number_in(text, least, greatest, where, status=3):
    """The number of a word or a cell."""
    if not (text.isascii() and text.isdigit() and len(text) <= 20 and least <= int(text) <= greatest):
        raise Stop(status, f'{where}: no number from {least} to {greatest}')
    return int(text)


def read_table(path, columns, needed):
    """The rows of a file, each as its fields by column; a character stands for each byte."""
    with open(path, 'rb') as file:
        text = file.read().removeprefix(b'\xef\xbb\xbf').decode('latin-1')
    csv.field_size_limit(len(text) + 1)
    records = [record for record in csv.reader(io.StringIO(text, newline='')) if record]
    header = records[0] if records else []
    if not set(needed) <= set(header) <= set(columns) or len(set(header)) < len(header):
        raise Stop(3, f'{path}: other columns')
    if any(len(record) != len(header) for record in records):
        raise Stop(3, f'{path}: a record of another length than the header')
    return [dict(zip(header, record)) for record in records[1:]]


class Product:
    """One row of the products file; an attraction or shadow that doesn't count is 0."""

    def __init__(self, model, row):
        def number(column, greatest=LARGEST):
            return number_in(row.get(column) or '0', 0, greatest, f'products: {column}')
        self.name, self.margin, self.price = row['name'], number('margin'), number('price')
        self.attraction, self.shadow, self.arrival = number('attraction'), number('shadow'), number('arrival')
        self.space, self.grade = number('space', 1000), number('grade', 1000)
        self.category, self.ladder = row.get('category'), row.get('ladder')
        if model != 'attract':
            self.shadow = 0


def read_products(model, path):
    columns = ('name', 'margin', 'attraction', 'shadow', 'category', 'space', 'price', 'ladder', 'grade', 'arrival')
    further = {'logit': ('attraction',), 'attract': ('attraction',), 'mixed': (), 'chain': ('arrival',)}
    products = [Product(model, row) for row in read_table(path, columns, ('name', 'margin') + further[model])]
    if len({product.name for product in products}) < len(products):
        raise Stop(3, 'products: two of one name')
    return products


class Limit:
    """One row of the limits file.

    A cap (`total`, `category`, `shelf`) has a number and, product by product, what the product takes of it; `requires` has a
    pair of products; `ladder` has the products that stand on it.
    """

    def __init__(self, products, row):
        index = {product.name: i for i, product in enumerate(products)}
        self.kind, self.takes, self.pair, self.members = row['kind'], {}, None, []
        first = row['first']
        if self.kind == 'requires':
            self.pair = index[first], index[row['second']]
        elif self.kind == 'ladder':
            self.members = [i for i, product in enumerate(products) if product.ladder == first]
        else:
            amount = {'total': lambda product: 1, 'category': lambda product: int(product.category == first),
                      'shelf': lambda product: product.space}[self.kind]
            self.takes = {i: amount(product) for i, product in enumerate(products) if amount(product)}
            self.number = number_in(row['number'], 0, 1000, 'limits: number')

    def is_cap(self):
        return self.kind in ('total', 'category', 'shelf')


def read_limits(products, path):
    try:
        return [Limit(products, row) for row in read_table(path, *[('kind', 'first', 'second', 'number')] * 2)]
    except KeyError as key:
        raise Stop(3, f'limits: {key} is no kind and no product')


class Segment:
    """The attractions of the products that have one, the weight of buying nothing, and the size times the unit."""

    def __init__(self, row, unit):
        self.scale = number_in(row['size'], 1, LARGEST, 'segments: size') * unit
        self.none, self.attractions = number_in(row['attraction'], 1, LARGEST, 'segments: attraction'), {}


def read_segments(products, path, unit):
    index, segments = {product.name: i for i, product in enumerate(products)}, {}
    for row in read_table(path, *[('segment', 'product', 'size', 'attraction')] * 2):
        name, product = row['segment'], row['product']
        if product == '':
            segments[name] = Segment(row, unit)
        elif name not in segments or product not in index:
            raise Stop(3, f'segments: {name}, {product}: an unknown name')
        else:
            attraction = number_in(row['attraction'], 0, LARGEST, 'segments: attraction')
            segments[name].attractions[index[product]] = attraction
    return list(segments.values())


def read_arcs(products, path, scale):
    """For each product the parts of its arcs, by the product where they lead."""
    index, arcs = {product.name: i for i, product in enumerate(products)}, [{} for _ in products]
    for row in read_table(path, *[('from', 'to', 'parts')] * 2):
        if row['from'] not in index or row['to'] not in index:
            raise Stop(3, 'arcs: an unknown name')
        arcs[index[row['from']]][index[row['to']]] = number_in(row['parts'], 0, scale, 'arcs: parts')
    if any(sum(parts.values()) >= scale for parts in arcs):
        raise Stop(3, 'arcs: no chance of leaving')
    return arcs
