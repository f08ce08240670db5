#!/usr/bin/env python3
"""map.py - is README's map what crates.txt says?

  python3 tests/map.py [--write]

Compares README's picture with the one that crates.txt makes, an arrow to each crate that is used
directly and not through another, and the crates of README's table with those of crates.txt, and
lists entries of crates.txt that no file of their crate names.  Ends with 1 where anything differs.
With --write it puts the picture into README.
"""
import glob
import re
import sys

from stored import Comparison, content, path

KIT = ('io', 'os', 'libc')                                   # the toolchain's libraries
PICTURE = re.compile(r'(?<=```mermaid\n).*?(?=```)', re.S)


def crates():
    """name: the crates that it uses, in the order of crates.txt."""
    lines = content('crates.txt').decode().splitlines()
    pairs = [line.split(':') for line in lines if line and not line.startswith('#')]
    return {name.split()[0]: listed.split() for name, listed in pairs}


def reached(uses, crate):
    found = set()
    for used in uses.get(crate, []):
        found |= {used} | reached(uses, used)
    return found


def picture(uses):
    lines = ['graph BT']
    for crate, listed in uses.items():
        own = [used for used in listed if used not in KIT]
        lines += ['    %s --> %s' % (crate, used) for used in own
                  if not any(used in reached(uses, other) for other in own if other != used)]
    return '\n'.join(lines) + '\n'


def idle(uses):
    """The entries that no source, definition or proof of their crate names."""
    found = []
    for crate, listed in uses.items():
        text = ''
        for kind in ('src/**/*.rt', 'specs/**/*.antt', 'proofs/**/*.antt'):
            for name in glob.glob(path('crates', crate, kind), recursive=True):
                with open(name, encoding='utf-8') as f:
                    text += f.read()
        found += ['%s: %s' % (crate, used) for used in listed if used not in KIT
                  and not re.search(r'\bRattle\.%s\.|\b%s::' % (used, used), text)]
    return found


def main(write):
    uses, readme = crates(), content('README.md').decode()
    if write:
        with open(path('README.md'), 'w') as f:
            f.write(PICTURE.sub(lambda _: picture(uses), readme))
        return 0
    comparison = Comparison()
    comparison.compare("README's picture", PICTURE.findall(readme), [picture(uses)])
    table = readme.split('| crate | holds |')[1].split('\n\n')[0]
    comparison.compare("README's table", sorted(re.findall(r'^\| `(\w+)` \|', table, re.M)),
                       sorted(uses))
    comparison.compare('entries that nothing names', [idle(uses)], [[]])
    return comparison.status()


if __name__ == '__main__':
    sys.exit(main('--write' in sys.argv[1:]))
