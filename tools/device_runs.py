"""Runs of the built program on real devices for tools/try-devices: in a folder of their own, compared with what is stated, and counted."""
import contextlib
import os
import resource
import shutil
import subprocess
import tempfile
import threading
import time

from example_runs import PROGRAM, contents, write

# A run that takes so many seconds is ended, and has failed.
CLOCK = 900


class Ran:
    def __init__(self, status, out, err):
        self.status, self.out, self.err = status, out, err


@contextlib.contextmanager
def box(files):
    """A folder with these files, which others may read."""
    with tempfile.TemporaryDirectory(prefix='assort-devices-') as folder:
        os.chmod(folder, 0o755)
        write(folder, files)
        yield folder


def start(words, folder, before=(), closed=(), most=None, **streams):
    """Starts a run behind other words, with closed streams, with files of at most so many bytes."""
    def prepare():
        for stream in closed:
            os.close(stream)
        if most is not None:
            resource.setrlimit(resource.RLIMIT_FSIZE, (most, most))
    how = {'stdin': subprocess.DEVNULL, **streams}
    # Python leaves SIGXFSZ ignored, so that a write beyond the most bytes fails; SIGPIPE is as in a shell but there.
    return subprocess.Popen([*before, PROGRAM, *words], cwd=folder, preexec_fn=prepare, restore_signals=most is None, **how)


def run(words, folder, **how):
    """A run to its end. Streams that aren't given are kept."""
    with tempfile.TemporaryFile() as out, tempfile.TemporaryFile() as err:
        child = start(words, folder, **{'stdout': out, 'stderr': err, **how})
        with contextlib.suppress(subprocess.TimeoutExpired):
            child.wait(CLOCK)
        child.kill()
        child.wait()
        out.seek(0)
        err.seek(0)
        return Ran(child.returncode, out.read(), err.read())


def valued(words, key, name):
    """The words with another value of a key."""
    words = list(words)
    words[words.index('--' + key) + 1] = name
    return words


class Peak:
    """The greatest memory of a run, by GNU time. A run that Python itself starts counts what Python has."""
    tool = shutil.which('time')

    def __init__(self, log):
        self.log = log
        self.before = [self.tool, '-q', '-f', '%M', '-o', log.name] if self.tool else []

    def megabytes(self):
        """As text, a question mark where the tool is missing."""
        return f'{int(self.log.read()) * 1024 / 1e6:.1f}' if self.tool else '?'


@contextlib.contextmanager
def peak():
    with tempfile.NamedTemporaryFile() as log:
        yield Peak(log)


@contextlib.contextmanager
def pipe_of(text):
    """The reading end of a pipe that holds a short text."""
    reading, writing = os.pipe()
    os.write(writing, text)
    os.close(writing)
    yield reading
    os.close(reading)


@contextlib.contextmanager
def unread_pipe():
    """The writing end of a pipe whose reader has ended."""
    reading, writing = os.pipe()
    os.close(reading)
    yield writing
    os.close(writing)


def aside(work, *arguments):
    threading.Thread(target=work, args=arguments, daemon=True).start()


def feed(path, text):
    """Writes a text into a pipe with a name, a few bytes at a time."""
    with contextlib.suppress(BrokenPipeError), open(path, 'wb', buffering=0) as pipe:
        for at in range(0, len(text), 7):
            pipe.write(text[at:at + 7])
            time.sleep(0.001)


def position(pid, path):
    """Where a process reads in a file, nothing where it hasn't opened it."""
    folder = f'/proc/{pid}'
    with contextlib.suppress(OSError):
        for name in os.listdir(f'{folder}/fd'):
            if os.readlink(f'{folder}/fd/{name}') == path:
                with open(f'{folder}/fdinfo/{name}') as file:
                    return int(file.readline().split()[1])
    return None


class Tally:
    def __init__(self):
        self.passed, self.failed, self.skipped = 0, 0, []

    def judge(self, name, faults):
        faults = list(faults)
        for fault in faults:
            print(f'FAIL {name}: {fault}'[:1000], flush=True)
        self.failed += bool(faults)
        self.passed += not faults

    def skip(self, name, why):
        print(f'skipped: {name}: {why}', flush=True)
        self.skipped.append(f'{name}: {why}')

    def expect(self, name, words, files, status, out=b'', line='', prepare=None, made=None, parts=(), beside=None, **how):
        """A run in a folder of its own that ends as stated: no file but those made may be another, of the parts a front may stand."""
        with box(files) as folder:
            if prepare:
                prepare(folder)
            before = {**contents(folder), **(made or {})}
            ran = run(words, folder, **how)
            after = contents(folder)
            faults = list(differences(ran, status, out, line))
            for part in parts:
                before.pop(part, None)
                after.pop(part, None)
            if before != after:
                faults.append(f'other files: {sorted(n for n in {*before, *after} if before.get(n) != after.get(n))}')
            if beside:
                faults += beside(folder, ran)
            self.judge(name, faults)
            return ran


def differences(ran, status, out, line):
    """What a run gave that isn't stated. A stream that wasn't kept is empty, so it is to be stated as such."""
    if ran.status != status:
        yield f'status {ran.status}, stated {status}'
    if ran.out != out:
        yield f'standard output {ran.out[:300]!r}, stated {out[:300]!r}'
    if ran.err != (line + '\n' if line else '').encode():
        yield f'standard error {ran.err[:300]!r}, stated {line!r}'
