"""Changes of runs for tools/fuzz: of the words, and of the files that they name, each drawn from one number."""
import re

MASK = (1 << 64) - 1
# Numbers at the edges of what the formats allow, and what is no number.
NUMBERS = [str(n).encode() for n in (
    0, 1, 2, 3, 5, 10, 64, 65, 100, 255, 256, 257, 1_000, 1_001, 9_999, 10_000, 10_001, 999_999_999, 10**9, 10**9 + 1, 2**63, 2**64 - 1, 2**64,
    10**15, 10**15 + 1, 10**18, 10**18 + 1, 2**100, 2**100 + 1, 2**108, 2**108 + 1, 10**40)] + [
    b'', b'00000000000000000001', b'000000000000000000001', b'007', b'-1', b'+1', b'1.5', b'1e3', b' 1', b'1 ', b'0x1', '٣'.encode()]
# Bytes that tables, names and certificates treat apart.
PIECES = [b'"', b'""', b'"a,""b"', b',', b',,', b'\n', b'\r', b'\r\n', b'\n\n', b' ', b'\t', b'\0', b'\x1f', b'\x7f', b'\xff', b'\xc3', b'\xc3\xa9',
          b'\xef\xbb\xbf', b'\xed\xa0\x80', b'\xf4\x90\x80\x80', b'a' * 64, b'a' * 65, b'9' * 40_000, b'm ' + b'0 ' * 600, b'b 0\n', b'm\n', b'x\n', b't\n',
          b'p\n', b's\n', b'u\n', b'h\n', b'end\n', b'end', b'assort-proof 1\n', b'set -\n', b'value 0/1\n']
COLUMNS = [b'name', b'margin', b'attraction', b'shadow', b'category', b'space', b'price', b'ladder', b'grade', b'arrival', b'kind', b'first', b'second',
           b'number', b'segment', b'product', b'size', b'from', b'to', b'parts', b'total', b'requires', b'shelf']
COMMANDS = [b'solve', b'check', b'eval', b'trial', b'help', b'']
MODELS = [b'logit', b'attract', b'mixed', b'chain', b'nested', b'Logit']
KEYS = [b'--model', b'--products', b'--limits', b'--segments', b'--arcs', b'--none', b'--away', b'--unit', b'--scale', b'--proof', b'--workers',
        b'--offer', b'--seed', b'--count', b'--save', b'--help']
FILE_KEYS = [b'--products', b'--limits', b'--segments', b'--arcs', b'--proof', b'--save']
OFFERS = [b'-', b'0', b'1', b'10', b'11', b'0' * 256, b'1' * 512, b'1' * 513, b'12', b'1-']
# Names of files that a changed word may have beside those of its run. Any other slash is taken out, so that nothing else is written.
NAMES = [b'absent.csv', b'absent/file', b'.', b'./products.csv', b'/dev/null', b'/dev/full', b'new.txt', b'n' * 256, b'', b'\xff.csv']


class Draw:
    """Numbers that anybody can draw again: SplitMix64."""

    def __init__(self, state):
        self.state = state & MASK

    def below(self, end):
        self.state = (self.state + 0x9E3779B97F4A7C15) & MASK
        z = ((self.state ^ (self.state >> 30)) * 0xBF58476D1CE4E5B9) & MASK
        z = ((z ^ (z >> 27)) * 0x94D049BB133111EB) & MASK
        return (z ^ (z >> 31)) % end

    def of(self, choices):
        return choices[self.below(len(choices))]

    def range(self, length):
        """The two ends of a short range, often at least one long."""
        begin = self.below(length + 1)
        return begin, min(length, begin + self.below(self.of([2, 5, 20, length + 1])))


# Of texts. Each takes the text, the draw and the texts of other files.

def byte_changed(text, draw, _):
    at = draw.below(len(text) + 1)
    return text[:at] + bytes([draw.below(256)]) + text[at + 1:]


def piece_put(text, draw, _):
    begin, end = draw.range(len(text))
    return text[:begin] + draw.of(draw.of([PIECES, PIECES, NUMBERS, COLUMNS])) + text[draw.of([begin, end]):]


def range_dropped(text, draw, _):
    begin, end = draw.range(len(text))
    return text[:begin] + text[end:]


def range_repeated(text, draw, _):
    begin, end = draw.range(len(text))
    return text[:end] + text[begin:end] * (1 + draw.below(3)) + text[end:]


def text_cut(text, draw, _):
    return text[:draw.below(len(text) + 1)]


def token_changed(text, draw, others):
    """One cell or field becomes a number at an edge, one that is close, or a cell of some file."""
    tokens = list(re.finditer(rb'[^,\n\r "]+', text))
    if not tokens:
        return draw.of(PIECES)
    token, way = draw.of(tokens), draw.below(4)
    new = draw.of(NUMBERS)
    if way == 0 and token[0].isdigit():
        new = str(max(0, int(token[0][:60]) + draw.of([-1, 1]))).encode()
    elif way == 1:
        new = draw.of(tokens)[0]
    elif way == 2:
        new = draw.of(re.findall(rb'[^,\n\r "]+', draw.of(others)) or [b''])
    return text[:token.start()] + new + text[token.end():]


def lines_changed(text, draw, _):
    """A line dropped, put elsewhere, doubled, or repeated beyond what a file may have."""
    rows = text.splitlines(keepends=True)
    if not rows:
        return text
    at, way = draw.below(len(rows)), draw.below(5)
    row = rows[at]
    if way == 0:
        rows[at:at + 1] = []
    elif way == 1:
        rows.insert(draw.below(len(rows)), rows.pop(at))
    elif way == 2:
        rows.insert(at, row)
    elif way == 3:
        rows.insert(draw.below(len(rows) + 1), draw.of(rows))
    else:
        rows[at:at + 1] = numbered(row, draw.of([3, 10, 33, 257, 513, 1_025]))
    return b''.join(rows)


def numbered(row, count):
    """The row as often, each with a first cell of its own."""
    first, comma, rest = row.partition(b',')
    return [first + str(k).encode() + comma + rest for k in range(count)] if comma else [row] * count


def columns_changed(text, draw, _):
    """In each line two cells exchanged, one dropped or one doubled."""
    way, i, j = draw.below(3), draw.below(10), draw.below(10)

    def changed(line):
        cells = line.split(b',')
        a, b = i % len(cells), j % len(cells)
        if way == 0:
            cells[a], cells[b] = cells[b], cells[a]
        elif way == 1:
            del cells[a]
        else:
            cells.insert(b, cells[a])
        return b','.join(cells)
    return b'\n'.join(changed(line) for line in text.split(b'\n'))


def joined(text, draw, others):
    """The front of the text, and the rest of another."""
    other = draw.of(others)
    return text[:draw.below(len(text) + 1)] + other[draw.below(len(other) + 1):]


TEXTS = [byte_changed, piece_put, range_dropped, range_repeated, text_cut, token_changed, token_changed, token_changed, token_changed, lines_changed,
         lines_changed, columns_changed, joined]


# Of words. Each changes the list in place.

def value_changed(words, draw):
    """The value of one key becomes one of the same or of any kind."""
    if len(words) < 3:
        return
    at = 2 + 2 * draw.below((len(words) - 1) // 2)
    key = words[at - 1]
    choices = {b'--model': MODELS, b'--offer': OFFERS}.get(key, NAMES if key in FILE_KEYS else NUMBERS)
    words[at] = draw.of(choices if draw.below(8) else draw.of([NUMBERS, NAMES, MODELS, KEYS, PIECES]))


def pair_added(words, draw):
    key = draw.of(KEYS)
    choices = {b'--model': MODELS, b'--offer': OFFERS}.get(key, NAMES if key in FILE_KEYS else NUMBERS)
    at = draw.of([len(words), draw.below(len(words) + 1)])
    words[at:at] = [key, draw.of(choices)]


def word_dropped(words, draw):
    if words:
        del words[draw.below(len(words))]


def pair_dropped(words, draw):
    at = 1 + 2 * draw.below(max(1, len(words) // 2))
    del words[at:at + 2]


def words_swapped(words, draw):
    if words:
        i, j = draw.below(len(words)), draw.below(len(words))
        words[i], words[j] = words[j], words[i]


def command_changed(words, draw):
    words[:1] = [draw.of(COMMANDS)]


def word_changed(words, draw):
    if words:
        at = draw.below(len(words))
        words[at] = draw.of([byte_changed, piece_put, range_dropped, range_repeated])(words[at], draw, None)


WORDS = [value_changed, value_changed, value_changed, pair_added, word_dropped, pair_dropped, words_swapped, command_changed, word_changed]


def tame(word, names):
    """The word without what no word can hold, and naming no file outside of the folder but those that are known."""
    word = word.replace(b'\0', b'')[:100_000]
    return word if word in names or word in NAMES else word.replace(b'/', b'_')


def changed(words, files, draw, others):
    """A changed run: its words as bytes, and its files."""
    words, files = list(words), dict(files)
    for _ in range(1 + draw.below(draw.of([1, 2, 5]))):
        if files and draw.below(4):
            name = draw.of(sorted(files))
            files[name] = draw.of(TEXTS)(files[name], draw, others)[:2_000_000]
        else:
            draw.of(WORDS)(words, draw)
    return [tame(word, [name.encode() for name in files]) for word in words], files
