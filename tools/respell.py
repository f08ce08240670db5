#!/usr/bin/env python3
"""Brings the repository's own names in specs/, proofs/, clauses and edits to today's spelling: words in snake case.

usage: tools/respell.py        once, at the top, right after the kit's port/port.py

A name that a file of specs/ or proofs/ declares or binds goes from camelCase and dashes to snake case: sumBelow, minus-zero -> sum_below, minus_zero.
Types, modules, names of the library and the names that the toolchain makes stay. The code's names, strings and comments' prose stay.
It prints what falls together, and then changes nothing.
"""
import collections
import os
import re
import sys

TOP = os.path.dirname(os.path.dirname(os.path.abspath(__file__)))
CRATES = os.path.join(TOP, "crates")
WORD = re.compile(r"[^\s(){}\[\].,;:\"«»|`]+")
# What a proof file cites of what the toolchain makes for its function.
MADE = r"\b(?:tie|goal)\.[^\s(){}.,;]+"
SPECIAL = {"getD-small": "get_or_small", "getD-zeros": "get_or_zeros"}


def snake(word):
    """The word in snake case; a word that begins with a capital keeps its capitals."""
    if word in SPECIAL:
        return SPECIAL[word]
    it = re.sub(r"(?<=\w)-(?=\w)", "_", word)
    if not it[0].islower() or "-" in word:
        return it
    return re.sub(r"(?<=[a-z0-9])([A-Z])", lambda m: "_" + m[1].lower(), it)


def is_old(word):
    return bool(re.search(r"[A-Za-z]", word)) and snake(word) != word


def texts(endings):
    for folder, folders, files in os.walk(CRATES):
        folders[:] = sorted(it for it in folders if it != "out")
        for name in sorted(files):
            if name.endswith(endings):
                yield os.path.join(folder, name)


def read(path):
    with open(path, encoding="utf-8", newline="") as it:
        return it.read()


def foreign(text):
    """The names that a file takes from other than the repository's crates."""
    own = "|".join(sorted(os.listdir(CRATES)))
    found = set()
    for m in re.finditer(r"(?m)^\s*(?:pub )?(?:ghost )?use ([^\s{};]+?)(?:\.\{([^}]*)\})?(?:\s+as\s+(\S+))?;?$", text):
        if not re.match(rf"Rattle\.(?:{own})\.", m[1]):
            found.update(word.strip() for it in (m[2] or "").split(",") for word in it.split(" as "))
    return found


def declared():
    """The words that files of specs/ and proofs/ declare, and all those that they declare or bind."""
    own, bound = set(), set()
    for path in texts((".antt",)):
        text = re.sub(r"--[^\n]*", "", read(path))
        heads = rf"(?m)^[ \t]*(?:(?:pub|abbrev|unfoldable|private|data|record|ruleset)\s+)*({WORD.pattern})(?: [^=\n]*?)?:(?=\s|$)"
        own.update(m[1] for m in re.finditer(heads, text))
        bound.update(m[1] for m in re.finditer(rf"\blet ({WORD.pattern})\s*(?::|=)", text))
        for m in re.finditer(rf"[({{]((?:{WORD.pattern} )+):", text):
            bound.update(m[1].split())
        for m in re.finditer(rf"λ ((?:{WORD.pattern} )*{WORD.pattern})\.", text):
            bound.update(m[1].split())
        for m in re.finditer(r"\blet \(([^()]*)\) =", text):
            bound.update(it.strip() for it in m[1].split(","))
    return own, own | bound


def table():
    """Each old word with its new one. A lemma that would have its function's name gets _lem."""
    own, names = declared()
    functions = {snake(it) for it in names if is_old(it) and "-" not in it}
    plain = {it for it in own if not is_old(it)}
    new = {}
    for it in sorted(names):
        if is_old(it):
            meets = "-" in it and (snake(it) in functions or snake(it) in plain)
            new[it] = snake(it) + ("_lem" if meets else "")
        elif it in own and it in functions:
            new[it] = it + "_lem"
    return new


def turned(path, text, new):
    """The text with each old word as its new one, outside strings and what the toolchain makes."""
    kept = foreign(text)
    by_hand = os.path.basename(path) == "Proof.antt"
    pieces, at = [], 0
    for m in re.finditer(rf"{MADE}|\"(?:[^\"\\\n]|\\.)*\"|(?P<word>{WORD.pattern})", text):
        it = m["word"]
        if it is None or it in kept:
            continue
        after_dot = m.start() > 0 and text[m.start() - 1] == "."
        to = it
        if it in new and (is_old(it) or path.endswith(".antt") and not (by_hand and after_dot)):
            to = new[it]
        elif by_hand and after_dot and is_old(it):
            to = snake(it)
        if to != it:
            pieces += [text[at : m.start()], to]
            at = m.end()
    return "".join(pieces) + text[at:]


def main():
    new = table()
    if sys.argv[1:] == ["--list"]:
        print("\n".join(f"{a} {b}" for a, b in sorted(new.items())))
        return 0
    seen = collections.defaultdict(set)
    for a, b in new.items():
        seen[b].add(a)
    bad = {b: sorted(a) for b, a in seen.items() if len(a) > 1}
    if bad:
        print("\n".join(f"falls together: {b} of {', '.join(a)}" for b, a in sorted(bad.items())))
        return 1
    for path in texts((".antt", ".rt", ".edit")):
        old = read(path)
        text = turned(path, old, new)
        if text != old:
            with open(path, "w", encoding="utf-8", newline="") as it:
                it.write(text)
    return 0


if __name__ == "__main__":
    sys.exit(main())
