"""Counts the calls of functions in one run of a program that was built without inlining, by valgrind's callgrind. See README.md."""
import os
import re
import shutil
import subprocess

# One call for each trial revenue, and one for each node of a search.
TRIALS, NODES = 'linear_step::pricing::weights_at', 'limit_rules::clash::clashes'


def calls(words, folder):
    """How often each function was called, by its name, or None where valgrind isn't installed."""
    if not shutil.which('valgrind'):
        return None
    path, counted = os.path.join(folder, 'calls.txt'), words[0] + '.counted'
    words = [counted if os.path.exists(counted) else words[0]] + words[1:]
    subprocess.run(['valgrind', '--tool=callgrind', '--callgrind-out-file=' + path] + words, stdout=subprocess.DEVNULL, stderr=subprocess.DEVNULL, check=True)
    names, found, callee = {}, {}, None
    with open(path) as f:
        for line in f:
            named = re.match(r'c?fn=\((\d+)\)(?: (.*))?$', line.rstrip('\n'))
            if named:
                if named.group(2):
                    names[named.group(1)] = named.group(2)
                callee = names[named.group(1)] if line.startswith('cfn') else callee
            elif line.startswith('calls='):
                found[callee] = found.get(callee, 0) + int(line[6:].split()[0])
    return found


def count(found, name):
    """The count for a table's cell. A function that the compiler took into another one has none."""
    if found is None:
        return 'not installed'
    return str(found[name]) if name in found else '?'
