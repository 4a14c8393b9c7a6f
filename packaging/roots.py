"""A clean root to try the package in: a system that debootstrap makes, or a bare folder with what the program needs."""
import os
import re
import shutil
import subprocess

NOBODY = 65534


def quiet(*words):
    """Runs a command and returns its output, or None where it failed or isn't there."""
    try:
        ran = subprocess.run(words, stdin=subprocess.DEVNULL, capture_output=True, text=True, timeout=1800)
    except (OSError, subprocess.TimeoutExpired):
        return None
    return ran.stdout if ran.returncode == 0 else None


def codename():
    """The release of Debian that this system is, or the latest stable one."""
    try:
        with open('/etc/os-release', encoding='utf-8') as file:
            found = re.search(r'^VERSION_CODENAME=(\w+)$', file.read(), re.M)
    except OSError:
        found = None
    return found.group(1) if found else 'stable'


def new_system(folder):
    """Makes a minimal Debian in the folder. Whether that was possible."""
    if os.geteuid() != 0 or not shutil.which('debootstrap'):
        return False
    return quiet('debootstrap', '--variant=minbase', codename(), folder) is not None


def bare(folder, deb):
    """Unpacks the package into an empty folder, with the libraries that its program needs. Whether that was possible."""
    if os.geteuid() != 0 or quiet('dpkg-deb', '-x', deb, folder) is None:
        return False
    for library in re.findall(r'(/\S+)', quiet('ldd', os.path.join(folder, 'usr/bin/assort')) or ''):
        to = folder + library
        os.makedirs(os.path.dirname(to), exist_ok=True)
        shutil.copy(library, to)
    return True


def inside(root, words, place='/', user=0):
    """Runs a command in the root, as the user, at the place."""
    def enter():
        os.chroot(root)
        os.chdir(place)
        os.setgroups([])
        os.setgid(user)
        os.setuid(user)
    environment = {'PATH': '/usr/sbin:/usr/bin:/sbin:/bin', 'LC_ALL': 'C', 'DEBIAN_FRONTEND': 'noninteractive'}
    return subprocess.run(words, preexec_fn=enter, env=environment, stdin=subprocess.DEVNULL, capture_output=True)


def copy_example(example, root, name):
    """Copies an example into the root, where nobody may write; returns its place there."""
    place = f'/tmp/{name}'
    shutil.copytree(example, root + place, ignore=shutil.ignore_patterns('expected'))
    for folder, _, _ in os.walk(root + place):
        os.chmod(folder, 0o777)
    return place
