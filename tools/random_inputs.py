"""Random inputs of all models and kinds of limits, for tools/check-checkers: words of `solve`, and the texts of the files."""

MODELS = ['logit', 'attract', 'mixed', 'chain']
KINDS = ['none', 'caps', 'requires', 'shelf', 'ladders', 'several']
PRODUCT_COLUMNS = ['name', 'margin', 'attraction', 'shadow', 'category', 'space', 'price', 'ladder', 'grade', 'arrival']
LIMIT_COLUMNS = ['kind', 'first', 'second', 'number']
SEGMENT_COLUMNS = ['segment', 'product', 'size', 'attraction']
# The greatest margin and attraction: few values make ties, great ones need long numbers.
SCALES = [3, 10, 100, 1000, 10 ** 6, 10 ** 9]


def random_input(draw, number):
    """The words and the files of an input; the number decides the model and the kind of limits, and `draw` the rest."""
    model, kind = MODELS[number % 4], KINDS[number // 4 % 6]
    hard = model == 'mixed' or kind == 'several'
    count = draw.randint(0, 8) if draw.random() < 0.6 else draw.randint(9, 14 if hard and model != 'chain' else 40)
    count = max(count, 1) if model == 'chain' else count
    products = random_products(draw, count)
    words = ['--model', model, '--products', 'products.csv']
    files = {'products.csv': table([product.values() for product in products], PRODUCT_COLUMNS)}
    if model == 'chain':
        return chain(draw, products, words, files)
    if model == 'mixed':
        unit = draw.choice([1, 10, 100, 1000])
        words += ['--segments', 'segments.csv'] + (['--unit', str(unit)] if unit != 100 or draw.random() < 0.5 else [])
        files['segments.csv'] = segments(draw, products)
    else:
        words += ['--none', str(draw.randint(1, draw.choice(SCALES)))]
    if kind != 'none':
        words += ['--limits', 'limits.csv']
        files['limits.csv'] = limits(draw, products, kind)
    return words, files


def table(rows, columns):
    """The text of a file; each row has its cells in the order of the columns."""
    return ''.join(','.join(str(cell) for cell in row) + '\n' for row in [columns] + [list(row) for row in rows])


def random_products(draw, count):
    margin, attraction, grade = draw.choice(SCALES), draw.choice(SCALES), draw.choice([2, 5, 40])

    def product(i):
        drawn = draw.randint(0, attraction)
        shadow = draw.choice([0, draw.randint(0, drawn)])
        shelved = draw.choice('abc'), draw.randint(0, 6)
        placed = draw.randint(0, grade * 3), draw.choice('klm'), draw.randint(0, grade)
        cells = (f'p{i}', draw.randint(0, margin), drawn, shadow, *shelved, *placed, draw.randint(0, 9) + (i == 0))
        return dict(zip(PRODUCT_COLUMNS, cells))
    return [product(i) for i in range(count)]


def limits(draw, products, kind):
    kinds = draw.sample(KINDS[1:5], draw.randint(2, 4)) if kind == 'several' else [kind]
    rows = [row for each in kinds for row in limits_of(draw, products, each)]
    draw.shuffle(rows)
    return table(rows, LIMIT_COLUMNS)


def limits_of(draw, products, kind):
    """Rows of one kind; each names what the catalogue has, and none stands twice."""
    count = len(products)
    if kind == 'caps':
        categories = sorted({product['category'] for product in products})
        named = [('category', name, '', draw.randint(0, count // 2)) for name in categories if draw.random() < 0.7]
        return named + [('total', '', '', draw.randint(0, count))] * draw.randint(0, 1)
    if kind == 'requires':
        names = [product['name'] for product in products]
        pairs = {(draw.choice(names), draw.choice(names)) for _ in range(draw.randint(0, count))} if names else set()
        return [('requires', first, second, '') for first, second in sorted(pairs)]
    if kind == 'shelf':
        return [('shelf', '', '', draw.randint(0, 1 + 3 * count))]
    return [('ladder', name, '', '') for name in sorted({product['ladder'] for product in products}) if draw.random() < 0.8]


def segments(draw, products):
    """At most four heads, each with attractions of most products."""
    size, attraction = draw.choice([3, 10, 1000]), draw.choice(SCALES)
    rows = []
    for name in 'stuv'[:draw.randint(0, 4)]:
        none = draw.randint(1, draw.choice([attraction, 10 * min(attraction, 10 ** 8)]))
        rows.append((name, '', draw.randint(1, size), none))
        rows += [(name, product['name'], '', draw.randint(0, attraction)) for product in products if draw.random() < 0.8]
    return table(rows, SEGMENT_COLUMNS)


def chain(draw, products, words, files):
    """The words and files of a Markov chain: up to five arcs from each product, in a part of which nearly nobody leaves."""
    scale = draw.choice([1, 2, 10, 100, 10_000])
    rows = []
    for product in products:
        left = scale - draw.choice([1, draw.randint(1, scale)])
        for target in draw.sample(products, draw.randint(0, min(len(products), 5))):
            parts = draw.randint(0, left)
            left -= parts
            rows.append((product['name'], target['name'], parts))
    files['arcs.csv'] = table(rows, ['from', 'to', 'parts'])
    away = ['--away', str(draw.randint(0, 50))] if draw.random() < 0.5 else []
    return words + ['--arcs', 'arcs.csv', '--scale', str(scale)] + away, files
