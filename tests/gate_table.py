#!/usr/bin/env python3
"""gate_table.py - what the gate did with each crate, by its log, as docs/GATE.md's table.

  python3 tests/gate_table.py LOG.. [--write]

Prints the table: a row a crate of crates.txt, how many functions were proved and how many must-fail
edits were refused.  A run that kept a crate from an earlier one says nothing of it, so more logs
than one may be needed.  With --write it puts the table into docs/GATE.md.  Ends with 1 where the
logs lack the proof of a crate, or an edit was not refused.
"""
import re
import sys

from map import crates
from stored import content, path

PROOF = re.compile(r'^== (\w+)\n(?:(?!^== ).*\n)*?logic=proved functions=(\d+)', re.M)
EDIT = re.compile(r'^rt: must-fail (\w+)/(\w+)\.edit: (\w+)', re.M)
TABLE = re.compile(r'(?<=\|---\|---\|---\|\n)(\|.*\n)+')


def table(log):
    proofs = dict(PROOF.findall(log))
    edits = {crate: set() for crate in crates()}
    for crate, edit, outcome in EDIT.findall(log):
        assert outcome == 'refused', '%s/%s was not refused' % (crate, edit)
        edits[crate].add(edit)
    return ''.join('| `%s` | %s | %s |\n' % (crate, proofs[crate], len(edits[crate]) or '')
                   for crate in crates())


def main(arguments):
    logs = [open(name, encoding='utf-8').read() for name in arguments if name != '--write']
    try:
        rows = table(''.join(logs))
    except KeyError as crate:
        print('the logs have no proof of %s' % crate)
        return 1
    print(rows, end='')
    if '--write' in arguments:
        text = content('docs/GATE.md').decode()
        with open(path('docs/GATE.md'), 'w', encoding='utf-8') as page:
            page.write(TABLE.sub(lambda _: rows, text))
    return 0


if __name__ == '__main__':
    sys.exit(main(sys.argv[1:]))
