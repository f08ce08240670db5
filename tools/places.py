#!/usr/bin/env python3
"""Lists the places of each point of docs/DESIGN-PASS.md in crates/*/src: python3 tools/places.py [POINT] [--list]."""
import collections
import difflib
import pathlib
import re
import sys

TOP = pathlib.Path(__file__).resolve().parent.parent / "crates"
# Enums that are no Option and no Result: a table of numbers, and what a proof claims.
PLAIN_ENUMS = {"Refusal", "Claim"}
# Words that travel with a value and say whether it counts.
FLAGS = r"^\s+(?:pub )?(fault|good|different|answer|reply|outcome|verdict): \w+,$"


def sources():
    for path in sorted(TOP.glob("*/src/**/*.rt")):
        yield path, path.read_text()


def functions():
    """Each function: path, line, name, parameters, clauses, body."""
    head = re.compile(r"^([ \t]*)(?:pub )?(?:#\[[^\n]*\] )?(?:extern \"C\" )?(?:const )?fn (\w+)", re.M)
    for path, text in sources():
        for found in head.finditer(text):
            start = found.start()
            opening = text.find("\n" + found.group(1) + "{\n", start)
            inline = text.find(" {\n", start)
            newline = text.find("\n" + found.group(1) + "}", start)
            if opening < 0 or opening > newline:
                opening = inline
            closing = text.find("\n" + found.group(1) + "}", opening + 1)
            signature = text[start:opening]
            depth, end = 0, signature.find("(")
            for end in range(signature.find("("), len(signature)):
                depth += {"(": 1, ")": -1}.get(signature[end], 0)
                if depth == 0:
                    break
            inside = signature[signature.find("(") + 1:end]
            parameters = [p.strip() for p in re.split(r",(?![^<\[(]*[>\])])", inside) if p.strip()]
            line = text.count("\n", 0, found.start(2)) + 1
            yield path, line, found.group(2), parameters, signature[end + 1:], text[opening:closing]


def where(path, line):
    return f"{path.relative_to(TOP)}:{line}"


def lines_with(pattern, skip=r"^\s*//"):
    for path, text in sources():
        for number, line in enumerate(text.split("\n"), 1):
            if re.search(pattern, line) and not re.search(skip, line):
                yield where(path, number), line.strip()


def point1():
    for path, text in sources():
        for found in re.finditer(r"^(?:pub )?enum (\w+)", text, re.M):
            if found.group(1) not in PLAIN_ENUMS:
                yield where(path, text.count("\n", 0, found.start()) + 1), f"enum {found.group(1)}"
    yield from lines_with(FLAGS)
    for path, line, name, parameters, _, _ in functions():
        for p in parameters:
            if re.match(r"kind: (usize|u8)$", p):
                yield where(path, line), f"{name}({p})"
    yield from lines_with(r"const (COUNTED|AUDITED): usize")
    yield from lines_with(r"^\s*// .*(0 where (there is )?none|with 0 for none|; 0 where )")


def tokens(body):
    body = re.sub(r"//.*", "", body)
    return re.findall(r"\w+|[^\w\s]", body)


def point2():
    all_functions = [(where(p, l), n, tokens(s.split("requires")[0].split("ensures")[0] + b)) for p, l, n, _, s, b in functions()]
    for i, (a, name_a, x) in enumerate(all_functions):
        for b, name_b, y in all_functions[i + 1:]:
            if min(len(x), len(y)) < 25 or min(len(x), len(y)) * 10 < max(len(x), len(y)) * 8:
                continue
            m = difflib.SequenceMatcher(None, x, y, autojunk=False)
            if m.real_quick_ratio() >= 0.8 and m.quick_ratio() >= 0.8 and m.ratio() >= 0.8:
                yield a, f"{name_a} and {name_b} ({b}): {m.ratio():.2f}"


def point3():
    for path, text in sources():
        rows = text.split("\n")
        for number, row in enumerate(rows):
            counted = re.match(r"(\s*)(?:'\w+: )?for (\w+) in [^{]*\.\.[^{]*\{", row)
            whiled = re.match(r"(\s*)while (.*)\{", row)
            if not counted and not whiled:
                continue
            indent = (counted or whiled).group(1)
            end = next(i for i in range(number + 1, len(rows)) if rows[i].startswith(indent + "}"))
            body = "\n".join(rows[number + 1:end])
            if counted and re.search(r"\[[^\]]*\b" + counted.group(2) + r"\b[^\]]*\]", body):
                yield where(path, number + 1), row.strip()
            if whiled and re.search(r"\b\w+ \+= 1;", body):
                yield where(path, number + 1), row.strip()


def point4():
    yield from lines_with(r"\.0 [!=]= |/ 16777216 % 256|/ 256 % 256|% 256\) as u8|\* 16777216|numbers::(wide|low|half|byte32)|num::wrapping_")
    for path, text in sources():
        for found in re.finditer(r"for (\w+) in [^{]*\{\n\s*\w+\[\1\] = \w+\[[^\]]*\](?: as \w+)?;\n\s*\}", text):
            yield where(path, text.count("\n", 0, found.start()) + 1), "copied by hand"
    for path, line, name, parameters, _, _ in functions():
        if name in ("same", "not_above", "has_mark", "is_letter", "refusal_number", "low", "wide"):
            yield where(path, line), f"fn {name}"


def facts(signature):
    for clause in re.findall(r"requires(?: \w+)? \{ (.*) \}", signature):
        depth, start = 0, 0
        for i, c in enumerate(clause):
            depth += {"(": 1, ")": -1, "{": 1, "}": -1}.get(c, 0)
            if c == "×" and depth == 0:
                yield clause[start:i].strip()
                start = i + 1
        yield clause[start:].strip()


def point5():
    repeated, together = collections.defaultdict(list), collections.defaultdict(list)
    for path, line, name, parameters, signature, _ in functions():
        crate = path.relative_to(TOP).parts[0]
        for fact in set(facts(signature)):
            repeated[crate, fact.strip("()")].append(name)
        typed = [p for p in parameters if ":" in p and not p.startswith("rt:")]
        for i in range(len(typed)):
            for j in range(i + 2, len(typed)):
                together[crate, ", ".join(typed[i:j + 1])].append(name)
    for (crate, fact), names in sorted(repeated.items()):
        if len(names) >= 3:
            yield crate, f"{len(names)} contracts: {fact}"
    wide = [(c, g, n) for (c, g), n in together.items() if len(n) >= 3]
    for crate, group, names in sorted(wide):
        if not any(c == crate and group != g and group in g and len(n) >= len(names) for c, g, n in wide):
            yield crate, f"{len(names)} functions take {group}"


def point6():
    for path, text in sources():
        for found in re.finditer(r"^(?:pub )?struct (\w+)[^{;]*\{(.*?)^\}", text, re.M | re.S):
            if re.search(r": \[.*; \d+\]", found.group(2)) and re.search(r": usize", found.group(2)):
                yield where(path, text.count("\n", 0, found.start()) + 1), f"struct {found.group(1)}"
    for path, line, name, parameters, _, body in functions():
        if "low + (high - low) / 2" in body or (any(re.match(r"\w+: \[.*; \d+\]$", p) for p in parameters) and any(re.match(r"(size|outs|count|n): usize$", p) for p in parameters)):
            yield where(path, line), f"fn {name}"


def point7():
    for path, line, name, parameters, _, _ in functions():
        for p in parameters:
            if re.match(r"(least|known|first|last|model|claim): (bool|Model|Claim)$", p):
                yield where(path, line), f"{name}({p})"


def point8():
    for crate in sorted(TOP.iterdir()):
        rows = sum(len(p.read_text().split("\n")) - 1 for p in crate.glob("proofs/**/*.antt"))
        answers = len(list(crate.glob("proofs/**/Answers.antt")))
        if rows:
            yield crate.name, f"{answers} files of answers, {rows} lines of proofs"


def main():
    wanted = [a for a in sys.argv[1:] if a.isdigit()] or [str(n) for n in range(1, 9)]
    for point in wanted:
        found = list(globals()["point" + point]())
        print(f"point {point}: {len(found)} places")
        if "--list" in sys.argv:
            for place, what in found:
                print(f"  {place}  {what}")


main()
