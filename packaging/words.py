"""The table of keys, as five sources have it: the definitions, the code, the built program, the completion, the man page.

A table says of a command and a model (None: none given) which keys are needed and which may be given beside them.
"""
import os
import re
import subprocess

TOP = os.path.dirname(os.path.dirname(os.path.abspath(__file__)))
COMMANDS = ['solve', 'check', 'eval', 'trial']
MODELS = ['logit', 'attract', 'mixed', 'chain']
DEFINED = 'crates/assort_words/specs/Keys.antt'
CODED = 'crates/assort_words/src/keys.rt'
# A value that each key takes.
VALUES = dict.fromkeys(['--none', '--away', '--unit', '--scale', '--workers', '--offer', '--seed', '--count'], '1')


def read(name):
    with open(os.path.join(TOP, name), encoding='utf-8') as file:
        return file.read()


def groups():
    """The models of each group, by the definitions."""
    text = read(DEFINED)
    rows = re.findall(r'^is_among G\.(\w+) (\w+) = true$', text, re.M)
    found = {}
    for group, model in rows:
        found.setdefault(group, set()).update(MODELS if model == 'm' else [model.lower()])
    return found


def defined_uses():
    """By the definitions: for each key what each command makes of it, as words."""
    rows = re.findall(r'^row_of (?!NoKey)\w+ = record \{ text = codes "(--\w+)".* use_by = by_each (.*) \}$', read(DEFINED), re.M)
    return {key: [use.strip('()').replace('G.', '') for use in re.findall(r'\([^)]*\)|\w+', uses)] for key, uses in rows}


def coded_uses():
    """The same by the code, in the words of the definitions."""
    text = read(CODED)
    names = {'no': 'Never', 'may': 'May', 'must': 'Must'}
    for name, use, group in re.findall(r'let (\w+) = Use::(\w+)\(Group::(\w+)\);', text):
        names[name] = f'{use} {group}'
    rows = re.findall(r'Key::\w+ => \("(--\w+)", (\w+), (\w+), (\w+), (\w+)\)', text)
    return {key: [names[use] for use in uses] for key, *uses in rows}


def models_known(command):
    """The models that a command takes, by the definitions."""
    uses = defined_uses()
    group = re.search(rf'^models_of {command.capitalize()} = G\.(\w+)$', read(DEFINED), re.M).group(1)
    known = [model for model in MODELS if model in groups()[group]]
    return known if uses['--model'][COMMANDS.index(command)] != 'Never' else [None]


def defined(command, model):
    """The keys that are needed and that may be given, by the definitions. Without a model: all that the command has."""
    of_group, needed, free = groups(), set(), set()
    for key, uses in defined_uses().items():
        use, _, group = uses[COMMANDS.index(command)].partition(' ')
        if use == 'Never' or group and model and model not in of_group[group]:
            continue
        (needed if use == 'Must' or use == 'MustWith' and model else free).add(key)
    return needed, free


def run(program, words, folder):
    """The line that the program says of these words."""
    ran = subprocess.run([program, *words], cwd=folder, stdin=subprocess.DEVNULL, capture_output=True, text=True, timeout=60)
    return ran.stderr.strip()


def value_of(key):
    return VALUES.get(key, f'absent{key}.csv')


def words_of(command, model, keys):
    words = [command] + (['--model', model] if model else [])
    for key in keys:
        words += [] if key == '--model' else [key, value_of(key)]
    return words


def told(program, command, model, keys, folder):
    """The same as the program answers: each of the keys is tried without the others, with the needed ones, and left out."""
    known = [key for key in keys if 'unknown option' not in run(program, [command, key, value_of(key)], folder)]
    if not model and '--model' in known:
        return set(), set(known)
    needed = {'--model'} & set(known)
    while True:
        line = run(program, words_of(command, model, sorted(needed)), folder)
        missing = re.fullmatch(r'assort: usage: missing option (--\w+)', line)
        if not missing or missing.group(1) in needed:
            break
        needed.add(missing.group(1))
    free = {key for key in known if key not in needed
            and 'is not for this model' not in run(program, words_of(command, model, [*sorted(needed), key]), folder)}
    return needed, free


def completed(words, file=os.path.join(TOP, 'packaging', 'completion', 'assort'), folder=None):
    """What bash completes the last of these words to."""
    script = 'source "$0"; COMP_WORDS=("$@"); COMP_CWORD=$(($# - 1)); _assort; printf "%s\\n" "${COMPREPLY[@]}"'
    ran = subprocess.run(['bash', '-u', '-c', script, file, 'assort', *words], cwd=folder, capture_output=True, text=True)
    return ran.stdout.split() + ran.stderr.split('\n')[:-1]


def completed_keys(command, model):
    """The keys that are completed at the start of a command, or behind its model."""
    words = [command, '--model', model] if model else [command]
    return set(completed([*words, '']))


def synopsis(text):
    """The tables of a man page's synopsis, as it is rendered: needed and free keys by command and model."""
    section = re.search(r'^SYNOPSIS\n(.*?)^\S', text, re.M | re.S).group(1)
    tables = {}
    for line in re.split(r'\bassort (?=solve|check|eval|trial)', re.sub(r'\s+', ' ', section))[1:]:
        command, models = line.split()[0], re.search(r'--model ([\w|]+)', line)
        free = set(re.findall(r'\[(--\w+) \w+\]', line))
        needed = set(re.findall(r'--\w+', line)) - free
        for model in models.group(1).split('|') if models else [None]:
            tables[command, model] = needed, free
    return tables


def bounds(text):
    """The bounds of each number that a man page's options name, as it is rendered."""
    section = re.search(r'^OPTIONS\n(.*?)^\S', text, re.M | re.S).group(1)
    found = {}
    for entry in re.split(r'^ {7}(?=--\w)', section, flags=re.M)[1:]:
        numbers = re.search(r'\b(\d[\d,]*) to (\d[\d,]*)', re.sub(r'\s+', ' ', entry))
        if numbers:
            found[entry.split()[0]] = [int(number.replace(',', '')) for number in numbers.groups()]
    return found


def is_bad(program, command, key, value, folder):
    return run(program, [command, key, str(value)], folder) == 'assort: usage: bad value at word 3'


def has_bounds(program, command, key, low, high, folder):
    """Whether the program takes the numbers from low to high, by their neighbours."""
    inside = not is_bad(program, command, key, low, folder) and not is_bad(program, command, key, high, folder)
    below = low == 0 or is_bad(program, command, key, low - 1, folder)
    return inside and below and is_bad(program, command, key, high + 1, folder)
