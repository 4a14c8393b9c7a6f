"""Reads the runs that bench/runs keeps: the newest of a kind, with its date, its machine and its tables. Part of bench/report."""
import os
import re
from collections import namedtuple

RUNS = os.path.join(os.path.dirname(os.path.abspath(__file__)), 'runs')

# What a cell says where there is no figure.
NOTHING = ('', '?', 'not installed', 'no linear model', 'too large', 'not each ended')

# value is a figure of a table; cut tells that the work was ended there, so that it is more than that.
Figure = namedtuple('Figure', 'value cut')


class Unexpected(Exception):
    """A run that isn't laid out as its script writes it."""


class Run:
    """A kept run."""

    def __init__(self, name):
        self.name, self.date = name, name[:10]
        with open(os.path.join(RUNS, name + '.md'), encoding='utf-8') as f:
            lines = f.read().split('\n')
        found = [line for line in lines if re.search(r'\d+ processors\b', line) and not line.startswith(('|', '#'))]
        if not found:
            raise Unexpected('%s: no line on the machine' % name)
        self.machine = re.split(r';|\. |\.$', found[0])[0]
        self.tables = list(tables_of(name, lines))

    def table(self, *columns):
        """The rows of the first table that has these columns, each from column to cell."""
        for heads, rows in self.tables:
            if all(column in heads for column in columns):
                if not rows:
                    raise Unexpected('%s: the table with "%s" has no rows' % (self.name, columns[0]))
                return rows
        raise Unexpected('%s: no table with the columns %s' % (self.name, ', '.join('"%s"' % column for column in columns)))

    def figure(self, row, column):
        """The figure of a cell, None where it says that there is none."""
        text = row[column]
        found = re.fullmatch(r'(more than )?(\d[\d,]*(?:\.\d+)?)( s)?( \(no end\)| \(.*\))?', text)
        if not found and text not in NOTHING:
            raise Unexpected('%s: "%s" under "%s" is not a figure' % (self.name, text, column))
        if not found:
            return None
        more, number, seconds, note = found.groups()
        return Figure(float(number.replace(',', '')) * (1000 if seconds else 1), bool(more) or note == ' (no end)')

    def matched(self, rows, column, pattern, least=1):
        """The rows whose cell of a column is of a form, each behind the groups of the form, which are numbers where they are digits."""
        found = []
        for row in rows:
            match = re.fullmatch(pattern, row[column])
            if match:
                found.append((tuple(int(part) if part.isdigit() else part for part in match.groups()), row))
        if len(found) < least:
            raise Unexpected('%s: %d rows of "%s" are like %s' % (self.name, len(found), column, pattern))
        return found


def tables_of(name, lines):
    """The tables of a page: their heads and their rows."""
    at = 0
    while at < len(lines):
        if not lines[at].startswith('|'):
            at += 1
            continue
        block = []
        while at < len(lines) and lines[at].startswith('|'):
            block.append([cell.strip() for cell in lines[at].strip()[1:-1].split('|')])
            at += 1
        if len(block) < 2 or not all(re.fullmatch(r'-+', cell) for cell in block[1]):
            raise Unexpected('%s: a table without a line below its heads' % name)
        for cells in block[2:]:
            if len(cells) != len(block[0]):
                raise Unexpected('%s: the row "%s" has %d cells of %d' % (name, cells[0], len(cells), len(block[0])))
        yield block[0], [dict(zip(block[0], cells)) for cells in block[2:]]


def newest(kind):
    """The newest run of a kind by the date in its name; the kind of DATE-MACHINE.md is logit."""
    found = []
    for file in os.listdir(RUNS):
        match = re.fullmatch(r'(\d{4}-\d\d-\d\d-(?:(.+)-)?[^-]+)\.md', file)
        if match and (match.group(2) or 'logit') == kind:
            found.append(match.group(1))
    if not found:
        raise Unexpected('bench/runs has no run of the kind %s' % kind)
    return Run(max(found))
