#!/usr/bin/env python3
"""interface.py - is what a host is told of the library what its source says?

  python3 tests/interface.py

Compares, for each function that crates/gooseoften/src/lib.rt exports, its arguments and result in
number, order and type with

  - include/gooseoften.h,
  - the extern block of hosts/boardhost.rs, for the functions that it declares,

the symbols with those that libgooseoften.a defines, what the archive needs from outside with what
README says that it needs, the refusals' names and numbers in
crates/rules/src/lib.rt with those of the header and of bench/plain/plain.h, and the length that is
enough for every text in the header and in the Rust host with the one that is proved.  Ends with 1
where anything differs.
`signatures` gives the same types to the scripts that call the library.
"""
import ctypes
import re
import subprocess
import sys

from stored import Comparison, content, path

ARCHIVE = path('crates', 'gooseoften', 'out', 'libgooseoften.a')
OTHERS = (13, 14, 15, 16, 20, 21, 23)                        # not of gooseoften_check
NUMBERS = {'u8': ('uint8_t', ctypes.c_uint8), 'u16': ('uint16_t', ctypes.c_uint16),
           'u32': ('uint32_t', ctypes.c_uint32), 'usize': ('size_t', ctypes.c_size_t)}


def source(name):
    return content(*name.split('/')).decode()


def split(arguments):
    return [a.strip() for a in arguments.split(',') if a.strip()]


# ------------------------------------------------------------------ the source

def exported():
    """name: (arguments as (name, type), result) of each exported function."""
    found = {}
    for name, arguments, result in re.findall(
            r'#\[unsafe\(no_mangle\)\]\s*pub extern "C" fn (\w+)\((.*?)\) -> (\w+)',
            source('crates/gooseoften/src/lib.rt'), re.S):
        found[name] = ([tuple(a.split(': ')) for a in split(arguments)], result)
    assert found, 'no exported function found'
    return found


def passed(kind):
    """What an argument of a type is passed as: (C's text, Rust's text, ctypes' type), one or two."""
    slice_of = re.fullmatch(r'&(mut )?\[(\w+)\]', kind)
    array_of = re.fullmatch(r'&mut \[(\w+); (\d+)\]', kind)
    if slice_of:
        mutable, number = slice_of.groups()
        c, ct = NUMBERS[number]
        return [('%s%s *' % ('' if mutable else 'const ', c),
                 '*%s %s' % ('mut' if mutable else 'const', number), ctypes.POINTER(ct)),
                ('size_t', 'usize', ctypes.c_size_t)]
    if array_of:
        number, count = array_of.groups()
        c, ct = NUMBERS[number]
        return [('%s [%s]' % (c, count), '*mut [%s; %s]' % (number, count),
                 ctypes.POINTER(ct * int(count)))]
    return [(NUMBERS[kind][0], kind, NUMBERS[kind][1])]


def due(column):
    """name: ([types of the arguments], type of the result), as C, Rust or ctypes writes them."""
    return {name: ([one[column] for _, kind in arguments for one in passed(kind)],
                   passed(result)[0][column])
            for name, (arguments, result) in exported().items()}


def signatures(library):
    """Declares the exported functions of a loaded library."""
    for name, (arguments, result) in due(2).items():
        function = getattr(library, name)
        function.argtypes, function.restype = arguments, result
    return library


# ------------------------------------------------------------------ what hosts are told

def in_header():
    text = re.sub(r'/\*.*?\*/', '', source('include/gooseoften.h'), flags=re.S)
    places = dict(re.findall(r'(GOOSEOFTEN_\w+) = (\d+)', text))
    found = {}
    for result, name, arguments in re.findall(r'^(\w+) (gooseoften_\w+)\(([^)]*)\);', text, re.M):
        kinds = []
        for argument in split(arguments):
            kind, _, count = re.fullmatch(r'(.*?)(\w+)(?:\[(\w+)\])?', argument).groups()
            kinds.append('%s [%s]' % (kind.strip(), places.get(count, count)) if count
                         else kind.strip())
        found[name] = (kinds, result)
    return found


def in_rust():
    text = source('hosts/boardhost.rs')
    constants = dict(re.findall(r'const (\w+): usize = (\d+);', text))
    block = re.search(r'extern "C" \{(.*?)\n\}', text, re.S).group(1)
    found = {}
    for name, arguments, result in re.findall(r'fn (\w+)\((.*?)\) -> (\w+);', block, re.S):
        kinds = [a.split(': ')[1] for a in split(arguments)]
        found[name] = ([re.sub(r'; (\w+)\]', lambda m: '; %s]' % constants.get(m[1], m[1]), kind)
                        for kind in kinds], result)
    return found


def listed(which):
    """The lines of nm on the archive."""
    return subprocess.run(['nm', '--extern-only', which, ARCHIVE], check=True,
                          capture_output=True, text=True).stdout.splitlines()


def symbols():
    return sorted(line.split()[2] for line in listed('--defined-only') if ' T ' in line)


def needed():
    """The names that the archive takes from outside."""
    return sorted({line.split()[-1] for line in listed('--undefined-only') if ' U ' in line})


def said_needed():
    """Those that README says it takes."""
    sentence = re.search(r'need only (`\w+`(?:(?:, | and )`\w+`)*) of the host', source('README.md'))
    return sorted(re.findall(r'`(\w+)`', sentence.group(1)))


# ------------------------------------------------------------------ refusals

def in_order(text, prefix):
    """The names of an enum in C, with the numbers that they get."""
    names, number = [], -1
    for name, given in re.findall(r'%s_(\w+)(?: = (\d+))?,?' % prefix, text):
        number = int(given) if given else number + 1
        names.append((name, number))
    return names


def in_capitals(name):
    """NoneCounted as NONE_COUNTED"""
    return re.sub(r'(?<=[a-z])(?=[A-Z])', '_', name).upper()


def refusals():
    """The names and numbers of all refusals in the source, of those in the header, and of those of a
    check in bench/plain."""
    numbers = [(in_capitals(name), int(number)) for name, number in re.findall(
        r'^    (\w+) = (\d+),$', source('crates/rules/src/lib.rt'), re.M)]
    header = re.search(r'enum gooseoften_refusal \{(.*?)\}', source('include/gooseoften.h'), re.S)
    plain = re.search(r'refusals\. \*/\nenum \{(.*?)\}', source('bench/plain/plain.h'), re.S)
    return (numbers, in_order(header.group(1), 'GOOSEOFTEN'),
            [r for r in in_order(plain.group(1), 'PLAIN') if r[1]])


def enough(name, words):
    """The length that a source says is enough for every text."""
    return [int(number) for number in re.findall(words + r' (\d+)', source(name), re.S)]


def main():
    comparison = Comparison()
    rust, declared = in_rust(), due(1)
    comparison.compare('functions in the header', sorted(in_header().items()),
                       sorted(due(0).items()))
    comparison.compare('functions in the Rust host', sorted(rust.items()),
                       sorted((name, declared.get(name)) for name in rust))
    comparison.compare('symbols of the archive', symbols(), sorted(declared))
    comparison.compare('what the archive needs of the host', needed(), said_needed())
    numbers, header, plain = refusals()
    comparison.compare('refusals in the header', header, numbers)
    comparison.compare('refusals in bench/plain', plain,
                       [(name, number) for name, number in numbers if number not in OTHERS])
    proved = enough('crates/whole/specs/Sentences.antt', r'pub enough : .*?\) ≤')
    comparison.compare('length of a text in the header',
                       enough('include/gooseoften.h', 'TEXT_MOST ='), proved)
    comparison.compare('length of a text in the Rust host',
                       enough('hosts/boardhost.rs', 'TEXT_MOST: usize ='), proved)
    return comparison.status()


if __name__ == '__main__':
    sys.exit(main())
