"""What the scripts over the built program share: the runs of examples/, and the lines that docs/FORMATS.md states."""
import hashlib
import importlib.machinery
import importlib.util
import os
import re
import subprocess
import sys
import tempfile

sys.dont_write_bytecode = True
TOP = os.path.dirname(os.path.dirname(os.path.abspath(__file__)))
sys.path.append(os.path.join(TOP, 'bench'))
PROGRAM = os.path.join(TOP, 'crates', 'assort', 'out', 'assort')
EXAMPLES = os.path.join(TOP, 'examples')
FORMATS = os.path.join(TOP, 'docs', 'FORMATS.md')
# Words as check-examples splits a line, each behind a byte 0.
SPLIT = 'eval "set -- $1"; for word in "$@"; do printf "\\0%s" "$word"; done'


class Run:
    """A run of the program: its words, the files that lie there, and what it gives."""

    def __init__(self, name, words, files, status, out, made):
        self.name, self.words, self.files, self.status, self.out, self.made = name, words, files, status, out, made


def need_program(script):
    if not os.access(PROGRAM, os.X_OK):
        sys.exit(f'{script}: no program: tools/assort builds it')


def program_line():
    """Which program was run."""
    text = content(PROGRAM)
    return f'The program: {len(text):,} bytes, SHA-256 {hashlib.sha256(text).hexdigest()}.'


def content(path, default=b''):
    if not os.path.exists(path):
        return default
    with open(path, 'rb') as file:
        return file.read()


def contents(folder):
    """The files of a folder, by their names, links left out."""
    return {it.name: content(it.path) for it in os.scandir(folder) if it.is_file(follow_symlinks=False)}


def write(folder, files):
    for name, text in files.items():
        with open(os.path.join(folder, name), 'wb') as file:
            file.write(text)


def made(name, files):
    """The input files of an example, with those that its `make` makes."""
    if 'make' not in files:
        return files
    with tempfile.TemporaryDirectory() as folder:
        write(folder, files)
        subprocess.run(['bash', './make'], cwd=folder, check=True)
        return contents(folder)


def runs_of_example(name):
    """Each line of an example's run.txt. What a line makes lies there for the next one."""
    folder = os.path.join(EXAMPLES, name)
    files, k = made(name, contents(folder)), 0
    for line in content(os.path.join(folder, 'run.txt')).decode().split('\n'):
        if not line or line.startswith('#'):
            continue
        k += 1
        words = subprocess.run(['bash', '-c', SPLIT, '', line], capture_output=True, check=True).stdout.split(b'\0')[1:]
        expected = os.path.join(folder, 'expected', str(k))
        status = int(content(expected + '.status', b'0'))
        new = contents(expected + '.files') if os.path.isdir(expected + '.files') else {}
        yield Run(f'{name} line {k}', [word.decode() for word in words], files, status, content(expected + '.out'), new)
        files = {**files, **new}


def cases_tool():
    """tools/check-cases, which reads the tables of cases."""
    loader = importlib.machinery.SourceFileLoader('check_cases', os.path.join(TOP, 'tools', 'check-cases'))
    module = importlib.util.module_from_spec(importlib.util.spec_from_loader('check_cases', loader))
    loader.exec_module(module)
    return module


def runs():
    """Every run of examples/: the lines of the examples, then the cases."""
    for name in sorted(os.listdir(EXAMPLES)):
        if os.path.exists(os.path.join(EXAMPLES, name, 'run.txt')):
            yield from runs_of_example(name)
    tool = cases_tool()
    for table in sorted(os.listdir(tool.CASES)):
        for case in tool.cases_of(os.path.join(tool.CASES, table)):
            yield Run(f'{table}: {case.name}', case.words, case.files, case.status, case.texts['out'], case.made)


def status_of(text):
    """The status beside which a line stands."""
    if text.startswith('assort: usage: '):
        return 2
    if text.startswith('assort: cannot '):
        return 4
    return 5 if text == 'assort: out of memory' else 3


def lines():
    """Each line on standard error that the page states, TEXT replaced: its text, and a pattern of its bytes."""
    page = content(FORMATS).decode()
    section = page.split('\n## Lines on standard error\n')[1].split('\n## ')[0]
    files = re.findall(r'`(\w+)`', re.search(r'^FILE is (.*?)\.', section, re.M).group(1))
    texts = re.findall(r'`([^`]*)`', re.search(r'TEXT is one of: (.*)', section).group(1))
    stands_for = {'FILE': '(' + '|'.join(files) + ')', 'KEY': '--[a-z]+', 'NAME': '[a-z]+', 'P': '[0-9]+', 'R': '[0-9]+'}
    for line in re.findall(r'^\|[^|]*\| `(assort: [^`]*)`', section, re.M):
        for text in [line.replace('TEXT', text) for text in texts] if 'TEXT' in line else [line]:
            words = [stands_for.get(word, re.escape(word)) for word in re.findall(r'\w+|\W', text)]
            yield text, re.compile((''.join(words) + '\n').encode())


def line_of(err, known):
    """Which of the known lines standard error is, None where it is none."""
    exact = [text for text, _ in known if err == (text + '\n').encode()]
    return next(iter(exact + [text for text, pattern in known if pattern.fullmatch(err)]), None)
