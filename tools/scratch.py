"""Scratch repositories: copies of some crates, each with the library that `rt` built of it, so that nothing is proved again."""
import os, re, shutil

ROOT = os.path.dirname(os.path.dirname(os.path.abspath(__file__)))
CRATES = os.path.join(ROOT, 'crates')


def lines():
    """What crates.txt says of each crate: the crates that it uses."""
    with open(os.path.join(ROOT, 'crates.txt'), encoding='utf-8') as f:
        return {name: used.split() for name, used in re.findall(r'^(\w+)(?: staticlib)?:(.*)$', f.read(), re.M)}


def linked(one, other):
    """A link of a file, or a copy where there can be none."""
    try:
        os.link(one, other)
    except OSError:
        shutil.copy2(one, other)


def write(top, names, more):
    """The repository with copies of these crates, and with more lines of crates.txt."""
    os.makedirs(os.path.join(top, 'crates'))
    used = lines()
    with open(os.path.join(top, 'crates.txt'), 'w', encoding='utf-8') as out:
        out.write(''.join('%s: %s\n' % (name, ' '.join(used[name])) for name in names) + more)
    for name in names:
        for part in ('src', 'specs', 'proofs'):
            if os.path.isdir(os.path.join(CRATES, name, part)):
                shutil.copytree(os.path.join(CRATES, name, part), os.path.join(top, 'crates', name, part))
        built = os.path.join('out', 'rlib')
        if os.path.isdir(os.path.join(CRATES, name, built)):
            shutil.copytree(os.path.join(CRATES, name, built), os.path.join(top, 'crates', name, built), copy_function=linked)
