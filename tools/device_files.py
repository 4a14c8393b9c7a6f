"""Devices in place of files, for tools/try-devices: folders, pipes, missing permission, full disks; and the runs of the examples that meet them."""
import contextlib
import os
import shutil
import subprocess
import tempfile
import time

from device_runs import aside, box, differences, feed, pipe_of, run, valued
from example_runs import PROGRAM, content, contents, runs_of_example
from limits import words_of
from several import several

# The first column that each table needs.
FIRST = {'products': 'name', 'limits': 'kind', 'segments': 'segment', 'arcs': 'from'}
THROUGH_A_PIPE = ('bash', '-c', '"$@" | cat; exit "${PIPESTATUS[0]}"', '')
NOBODY = ('setpriv', '--reuid=65534', '--regid=65534', '--clear-groups')
TRIAL = ['trial', '--seed', '1234567', '--count', '1', '--save', 't.csv']
# What docs/FORMATS.md says of this seed.
TRIAL_OUT = b'trial 1234567 1\nmodel mixed\nproducts 1\noffer p0\nset 1\nvalue 28924\nunit 100\n'
CATALOGUE = b'name,margin,attraction,shadow,category,space,price,ladder,grade,arrival\np0,318,0,0,,0,0,,0,0\n'
EVAL = ['eval', '--model', 'logit', '--products', 'products.csv', '--none', '5', '--offer', '11']
EVAL_OUT = b'model logit\nset 11\nlimits met\nchance A 2/10\nchance B 3/10\nleave 5/10\nvalue 32/10\n'


def example(name, line):
    return list(runs_of_example(name))[line - 1]


class Bases:
    """Runs of the examples: by the key of each input one that reads it, one that certifies, and one whose certificate is very long."""

    def __init__(self):
        self.inputs = {'products': example('first', 1), 'limits': example('caps', 5), 'segments': example('mixed', 1),
                       'arcs': example('chain', 1), 'proof': example('first', 3)}
        self.rejects, self.solve = example('first', 4), example('first', 2)
        self.outputs = {'proof': (self.solve.words, self.solve.files, self.solve.out, self.solve.made),
                        'save': (TRIAL, {}, TRIAL_OUT, {'t.csv': CATALOGUE})}
        case = several(64, True)
        with tempfile.TemporaryDirectory() as folder:
            case.write(folder)
            made = contents(folder)
        self.long_files = {'long.csv': made['products.csv'], 'long-limits.csv': made['limits.csv']}
        words = words_of(case, '', 'solve', 'proof.txt')[1:]
        self.long = valued(valued(words, 'products', 'long.csv'), 'limits', 'long-limits.csv')


def cannot_write(key):
    return 'assort: cannot write ' + {'proof': 'proof', 'save': 'catalogue'}[key]


# In place of an input.

def unreadable(tally, key, base):
    """What can't be opened or read."""
    devices = {
        'a folder': lambda path: os.mkdir(path),
        'nothing': lambda path: None,
        'a link to itself': lambda path: os.symlink('device', path),
        'a file whose reading fails': lambda path: os.symlink('/proc/self/mem', path)}
    for name, make in devices.items():
        tally.expect(f'{name} as {key}', valued(base.words, key, 'device'), base.files, 4, line=f'assort: cannot read {key}',
                     prepare=lambda folder: make(os.path.join(folder, 'device')))
    tally.expect(f'a name of 300 bytes as {key}', valued(base.words, key, 'n' * 300), base.files, 4, line=f'assort: cannot read {key}')


def pipes_in(tally, key, base):
    """A pipe is as good as a file."""
    text = base.files[base.words[base.words.index('--' + key) + 1]]
    with pipe_of(text) as reading:
        tally.expect(f'/dev/stdin as {key}', valued(base.words, key, '/dev/stdin'), base.files, base.status, base.out, stdin=reading)

    def slowly(folder):
        path = os.path.join(folder, 'pipe')
        os.mkfifo(path)
        aside(feed, path, text)
    tally.expect(f'a slow pipe with a name as {key}', valued(base.words, key, 'pipe'), base.files, base.status, base.out, prepare=slowly)


def endless(tally, key, base):
    tally.expect(f'/dev/zero as {key}', valued(base.words, key, '/dev/zero'), base.files, 3, line=f'assort: {key}: file too large')
    empty = (1, b'rejected\n', '') if key == 'proof' else (3, b'', f'assort: {key} row 1: missing column {FIRST[key]}')
    tally.expect(f'/dev/null as {key}', valued(base.words, key, '/dev/null'), base.files, *empty)


def in_place_of_inputs(tally, bases):
    for key, base in bases.inputs.items():
        unreadable(tally, key, base)
        pipes_in(tally, key, base)
        endless(tally, key, base)


# In place of an output file.

def unwritable(tally, key, words, files):
    devices = {
        'a folder': ('device', lambda folder: os.mkdir(os.path.join(folder, 'device'))),
        'a full device': ('/dev/full', None),
        'a file in no folder': ('absent/device', None),
        'a file below a file': ('beside.txt/device', None),
        'a link into no folder': ('device', lambda folder: os.symlink('absent/file', os.path.join(folder, 'device')))}
    for name, (value, make) in devices.items():
        tally.expect(f'{name} behind --{key}', valued(words, key, value), {**files, 'beside.txt': b'beside\n'}, 4, line=cannot_write(key), prepare=make)


def read_aside(path, into):
    with open(path, 'rb') as pipe:
        into.append(pipe.read())


def pipes_out(tally, key, words, files, out, text):
    tally.expect(f'/dev/stdout, which is a pipe, behind --{key}', valued(words, key, '/dev/stdout'), files, 0, text + out, before=THROUGH_A_PIPE)
    tally.expect(f'/dev/null behind --{key}', valued(words, key, '/dev/null'), files, 0, out)
    into = []

    def reader(folder):
        os.mkfifo(os.path.join(folder, 'pipe'))
        aside(read_aside, os.path.join(folder, 'pipe'), into)

    def whole(folder, ran):
        time.sleep(0.2)
        return [] if into == [text] else [f'the pipe had {into}, stated {text}']
    tally.expect(f'a pipe with a name behind --{key}', valued(words, key, 'pipe'), files, 0, out, prepare=reader, beside=whole)


def in_place_of_outputs(tally, bases):
    for key, (words, files, out, made) in bases.outputs.items():
        unwritable(tally, key, words, files)
        pipes_out(tally, key, words, files, out, *made.values())
        name = words[words.index('--' + key) + 1]
        link = lambda folder: os.symlink('behind.txt', os.path.join(folder, name))
        tally.expect(f'a link behind --{key}', words, {**files, 'behind.txt': b'older\n'}, 0, out, prepare=link, made={'behind.txt': made[name]})

    def reader_ends(folder):
        os.mkfifo(os.path.join(folder, 'proof.txt'))
        aside(lambda: open(os.path.join(folder, 'proof.txt'), 'rb').close())
    tally.expect('a pipe whose reader ends behind --proof', bases.long, bases.long_files, 4, line=cannot_write('proof'), prepare=reader_ends)


# Without permission.

def permissions(tally, bases):
    if os.getuid() != 0 or not shutil.which('setpriv') or subprocess.run([*NOBODY, 'test', '-x', PROGRAM]).returncode:
        return tally.skip('no permission', 'needs root, setpriv, and a program that others may run')
    for key, base in bases.inputs.items():
        name = base.words[base.words.index('--' + key) + 1]
        tally.expect(f'no permission to read {key}', base.words, base.files, 4, line=f'assort: cannot read {key}', before=NOBODY,
                     prepare=lambda folder: os.chmod(os.path.join(folder, name), 0))
    for key, (words, files, out, made) in bases.outputs.items():
        name = words[words.index('--' + key) + 1]
        tally.expect(f'no permission to make what is behind --{key}', words, files, 4, line=cannot_write(key), before=NOBODY)
        tally.expect(f'no permission to write what is behind --{key}', words, {**files, name: b'older\n'}, 4, line=cannot_write(key), before=NOBODY,
                     prepare=lambda folder: os.chmod(os.path.join(folder, name), 0o444))


# Full disks.

@contextlib.contextmanager
def disk(folder):
    """A file system of its own at folder/disk, nothing where none can be mounted."""
    place, image = os.path.join(folder, 'disk'), os.path.join(folder, 'image')
    os.mkdir(place)
    quiet = {'stdout': subprocess.DEVNULL, 'stderr': subprocess.DEVNULL}
    with open(image, 'wb') as file:
        file.truncate(512 * 1024)
    ways = (['sh', '-c', f'mkfs.ext4 -q {image} && mount -o loop {image} {place}'], ['mount', '-t', 'tmpfs', '-o', 'size=256k', 'none', place])
    mounted = next((way for way in ways if subprocess.run(way, **quiet).returncode == 0), None)
    try:
        yield place if mounted else None
    finally:
        if mounted:
            subprocess.run(['umount', place], check=True)


def fill(place):
    """Fills a disk to its last byte."""
    with contextlib.suppress(OSError), open(os.path.join(place, 'filling'), 'wb', buffering=0) as file:
        for size in (65_536, 512, 1):
            with contextlib.suppress(OSError):
                while file.write(b'f' * size):
                    pass


def on_a_disk(tally, bases, folder, place, front):
    ran = run(valued(bases.long, 'proof', 'disk/proof.txt'), folder)
    part = content(os.path.join(place, 'proof.txt'))
    faults = list(differences(ran, 4, b'', cannot_write('proof')))
    tally.judge('a disk that becomes full behind --proof', faults + ([] if part and front.startswith(part) else ['no part of the certificate']))
    with contextlib.suppress(FileNotFoundError):
        os.remove(os.path.join(place, 'proof.txt'))
    run(valued(bases.solve.words, 'proof', 'disk/proof.txt'), folder)
    fill(place)
    older = content(os.path.join(place, 'proof.txt'))
    tally.judge('a certificate fits before', [] if older == bases.solve.made['proof.txt'] else ['it is another'])
    for key, (words, _, _, _) in bases.outputs.items():
        tally.judge(f'a full disk behind --{key}', differences(run(valued(words, key, 'disk/new.txt'), folder), 4, b'', cannot_write(key)))
    with open(os.path.join(place, 'report'), 'wb') as out:
        tally.judge('a full disk behind standard output', differences(run(bases.inputs['products'].words, folder, stdout=out), 4, b'', 'assort: cannot write output'))
    if subprocess.run(['mount', '-o', 'remount,ro', place], stderr=subprocess.DEVNULL).returncode:
        return tally.skip('a disk that is only read', 'it cannot be mounted again')
    for key, (words, _, _, _) in bases.outputs.items():
        faults = list(differences(run(valued(words, key, 'disk/proof.txt'), folder), 4, b'', cannot_write(key)))
        tally.judge(f'a disk that is only read behind --{key}', faults + ([] if content(os.path.join(place, 'proof.txt')) == older else ['it is changed']))


def disks(tally, bases, front):
    with box({**bases.long_files, **bases.solve.files}) as folder, disk(folder) as place:
        if place is None:
            return tally.skip('full disks', 'no file system can be mounted')
        on_a_disk(tally, bases, folder, place, front)
