"""The models of bench/README.md for linear and mixed-integer solvers, and their text in CPLEX LP format.

A model has its greatest objective, under its rows, over columns that are 0 or more. Limits are rows over products: the
sum of weights over what is offered is at most a number. Coefficients are floating numbers, as the solvers take them.
"""


class Model:
    """Columns by name, the binary ones among them; the objective and each row's terms as coefficients by column."""

    def __init__(self, columns, binary):
        self.columns, self.binary, self.objective, self.rows = columns, binary, {}, []

    def row(self, terms, sense, right, name=None):
        self.rows.append((name or 'r%d' % len(self.rows), terms, sense, right))

    def write(self, file, comments=()):
        file.write(''.join('\\ %s\n' % comment for comment in comments))
        file.write('Maximize\n obj: %s\nSubject To\n' % text_of(self.objective or {self.columns[0]: 0}))
        for name, terms, sense, right in self.rows:
            file.write(' %s: %s %s %.17g\n' % (name, text_of(terms), sense, right))
        if self.binary:
            file.write('Binary\n%s\n' % broken([' ' + column for column in self.binary]))
        file.write('End\n')


def text_of(terms):
    return broken(['%+.17g %s' % (value, column) for column, value in terms.items()], ' ')


def broken(words, between=''):
    """The words, ten a line: some readers have no room for long lines."""
    return '\n  '.join(between.join(words[k:k + 10]) for k in range(0, len(words), 10))


def ratio_model(none, margins, attractions, shadows, limits, binary):
    """Logit and generalised attraction. y is the chance of buying nothing, of generalised attraction the part of it that doesn't
    depend on what is offered; y_i is the chance of product i, and y_i times v_0 / v_i is y where i is offered, else 0. A product
    without attraction has that last number itself as its y_i. A binary x_i, where asked for, says whether i is offered."""
    n = len(margins)
    y, x = ['y%d' % i for i in range(n)], ['x%d' % i for i in range(n)]
    offered = lambda i, weight=1: weight * none / attractions[i] if attractions[i] else weight
    model = Model(['y'] + y + (x if binary else []), x if binary else [])
    model.objective = {y[i]: margins[i] if attractions[i] else 0 for i in range(n)}
    bought = {y[i]: 1 - shadows[i] / attractions[i] if attractions[i] else 0 for i in range(n)}
    model.row({'y': 1 + sum(shadows) / none, **bought}, '=', 1, 'one')
    for i in range(n):
        model.row({y[i]: offered(i), 'y': -1}, '<=', 0, 'o%d' % i)
        if binary:
            model.row({y[i]: offered(i), x[i]: -1}, '<=', 0, 'z%d' % i)
            model.row({y[i]: offered(i), 'y': -1, x[i]: -1}, '>=', -1, 'w%d' % i)
    for k, (weights, most) in enumerate(limits):
        model.row({**{y[i]: offered(i, weight) for i, weight in weights.items()}, 'y': -most}, '<=', 0, 'l%d' % k)
    return model


def mixed_model(margins, segments, limits):
    """Mixed logit. x_i says whether product i is offered; in each segment (size, weight of buying nothing, attractions) y is the
    chance of buying nothing, and z_i is y where i is offered, else 0: i is bought with the chance v_i / v_0 times z_i."""
    n = len(margins)
    x = ['x%d' % i for i in range(n)]
    model = Model(list(x), x)
    for s, (size, none, attractions) in enumerate(segments):
        y, z = 's%d_y' % s, ['s%d_z%d' % (s, i) for i in range(n)]
        model.columns += [y] + z
        model.row({y: 1, **{z[i]: v / none for i, v in enumerate(attractions)}}, '=', 1)
        for i, v in enumerate(attractions):
            model.objective[z[i]] = size * margins[i] * v / none
            model.row({z[i]: 1, y: -1}, '<=', 0)
            model.row({z[i]: 1, x[i]: -none / (none + v)}, '<=', 0)
            model.row({y: 1, z[i]: -1, x[i]: 1}, '<=', 1)
        for weights, most in limits:
            model.row({y: -most, **{z[i]: weight for i, weight in weights.items()}}, '<=', 0)
    for weights, most in limits:
        model.row({x[i]: weight for i, weight in weights.items()}, '<=', most)
    return model


def model_of(problem):
    """The model of a problem of files; without binary columns where the linear model has whole solutions."""
    limits = problem.limit_rows()
    if problem.model == 'mixed':
        segments = [(segment.size, segment.none, segment.attractions) for segment in problem.segments]
        return mixed_model(problem.margins, segments, limits)
    everybody = problem.segments[0]
    return ratio_model(everybody.none, problem.margins, everybody.attractions, problem.shadows, limits, not problem.one_kind())


def highs(model, seconds):
    """The work of HiGHS on a model, which gives what `milp` of scipy gives; None where scipy isn't there."""
    try:
        import numpy
        from scipy.optimize import Bounds, LinearConstraint, milp
        from scipy.sparse import lil_matrix
    except ImportError:
        return None
    at = {column: k for k, column in enumerate(model.columns)}
    matrix, low, high = lil_matrix((len(model.rows), len(at))), [], []
    for k, (_, terms, sense, right) in enumerate(model.rows):
        for column, value in terms.items():
            matrix[k, at[column]] = value
        low.append(-numpy.inf if sense == '<=' else right)
        high.append(numpy.inf if sense == '>=' else right)
    cost = numpy.zeros(len(at))
    for column, value in model.objective.items():
        cost[at[column]] = -value
    binary = set(model.binary)
    whole = numpy.array([int(column in binary) for column in model.columns])
    limits = LinearConstraint(matrix.tocsr(), low, high)
    return lambda: milp(cost, constraints=limits, integrality=whole, bounds=Bounds(0, 1), options={'time_limit': seconds, 'mip_rel_gap': 0})
