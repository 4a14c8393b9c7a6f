"""The man pages: whether they are clean, agree with docs/FORMATS.md, and their examples run."""
import glob
import os
import re
import shlex
import subprocess

from words import TOP, read

MAN = os.path.join(TOP, 'packaging', 'man')


def names():
    return sorted(os.path.basename(path) for path in glob.glob(os.path.join(MAN, '*')))


def groff(name, *words):
    command = ['groff', '-man', '-t', '-ww', *words, os.path.join(MAN, name)]
    return subprocess.run(command, capture_output=True, text=True, env={**os.environ, 'LC_ALL': 'C'})


def warnings(name):
    """What groff warns of, for wide and for narrow paper."""
    return ''.join(groff(name, '-z', '-Tutf8', f'-rLL={width}n').stderr for width in (64, 80, 120))


def rendered(name):
    """The page as text, in lines wide enough that no entry is broken."""
    return groff(name, '-Tascii', '-P-cbu', '-rLL=200n', '-rHY=0').stdout


def plain(text):
    """A source's text without its escapes."""
    return re.sub(r'\\f[RBIP]', '', text.replace('\\-', '-').replace('\\e', '\\'))


def section(name, title):
    """The lines of a section's source."""
    with open(os.path.join(MAN, name), encoding='utf-8') as file:
        parts = re.split(r'^\.SH "?(.*?)"?$', file.read(), flags=re.M)
    return plain(parts[parts.index(title) + 1])


def tags(name, title):
    """The tags of the entries of a section, each as one text; an entry may have several."""
    found = []
    for line in re.findall(r'^\.T[PQ]\n\.(?:B|BI|BR) (.*)$', section(name, title), re.M):
        text = ''.join(shlex.split(line)) if '"' in line else line
        found += text.split(', ')
    return found


def table(title):
    """The table of a section of docs/FORMATS.md: a list of cells for each row."""
    part = re.search(rf'^## {title}\n(.*?)(?=^## |\Z)', read('docs/FORMATS.md'), re.M | re.S).group(1)
    rows = [row.strip('|').split(' | ') for row in re.findall(r'^\|.*\|$', part, re.M)]
    return [[cell.strip() for cell in row] for row in rows[2:]]


def codes(cell):
    return re.findall(r'`([^`]+)`', cell)


def differences():
    """Where a page and docs/FORMATS.md disagree: a name, what the page has, what the formats have."""
    formats = read('docs/FORMATS.md')
    lines = {codes(row[1])[0].replace(': proof: ', ': FILE: ') for row in table('Lines on standard error')}
    yield 'lines on standard error', set(tags('assort.1', 'DIAGNOSTICS')), lines
    statuses = {row[0] for row in table('Statuses')[:6]}
    yield 'statuses', set(tags('assort.1', 'EXIT STATUS')), statuses
    texts = re.search(r'TEXT is one of: (.*?)\.\n', formats).group(1)
    yield 'faults of files', set(tags('assort-files.5', 'FAULTS')), set(codes(texts))
    for title, name in (('Products file', 'PRODUCTS FILE'), ('Limits file', 'LIMITS FILE')):
        yield title, tags('assort-files.5', name), [codes(row[0])[0] for row in table(title)]
    for title in ('Segments file', 'Arcs file'):
        columns = re.search(rf'^## {title}\n\nThe columns are (.*?), all needed', formats, re.M).group(1)
        of_page = re.search(r'The columns\n(.*?)\nare all needed', section('assort-files.5', title.upper()), re.S).group(1)
        yield title, re.findall(r'\b[a-z]{2,}\b', of_page.replace('and', '')), codes(columns)
    yield 'great numbers', unknown_numbers(formats), []


def numbers(text):
    """The numbers of four digits and more."""
    return {int(number.replace(',', '')) for number in re.findall(r'(?<![\d,])\d{1,3}(?:,\d{3})+(?![\d,]*\d)', text)}


def unknown_numbers(formats):
    """The great numbers of the pages that the formats don't have, nor one more, as where a row is one too many."""
    known = numbers(formats)
    of_pages = numbers(' '.join(plain(read(f'packaging/man/{name}')) for name in names()))
    return sorted(number for number in of_pages if not {number, number + 1} & known)


def transcripts(name):
    """The commands of a page's examples with what stands below each."""
    for block in re.findall(r'^\.EX\n(.*?)^\.EE$', section(name, 'EXAMPLES'), re.M | re.S):
        for command, output in re.findall(r'^\$ (.*)\n((?:(?!\$ ).*\n)*)', block.replace('\\\n', ' '), re.M):
            yield command, output


def run_examples(name, program, folder):
    """Runs the examples of a page in a folder. `cat` of a file that isn't there makes it. Returns what differs."""
    wrong = []
    for command, output in transcripts(name):
        words = shlex.split(command)
        path = os.path.join(folder, words[1])
        if words[0] == 'cat' and not os.path.exists(path):
            with open(path, 'w', encoding='utf-8') as file:
                file.write(output)
            continue
        run = [program, *words[1:]] if words[0] == 'assort' else words
        found = subprocess.run(run, cwd=folder, stdin=subprocess.DEVNULL, capture_output=True, text=True)
        if found.stdout != output:
            wrong.append(f'{command}: {found.stdout + found.stderr}')
    return wrong
