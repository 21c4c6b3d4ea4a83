#!/usr/bin/env python3
"""design_places.py [POINT...]: the places of docs/DESIGN-PASS.md in crates/*/src/, a line each with its file and line, and their count.

It runs at the top of any checkout of this repository, so it counts an older commit from a checkout of that one. The patterns find more
than what has to change: docs/DESIGN-PASS.md says of each place what became of it.
"""
import collections
import glob
import re
import sys

BY_HAND = (r'^ *(?:pub )?fn (number|numbered|number_of|code_of|one_if\w*|least|lesser|greater|magnitude|age_at|copy|keep|load|store|'
                     r'wide\w*|low\w*|size|stamp_of)\(')


def files():
    return sorted(glob.glob('crates/*/src/*.rt'))


def matches(pattern):
    for path in files():
        text = open(path, encoding='utf-8').read()
        for found in re.finditer(pattern, text, re.M):
            yield path, text.count('\n', 0, found.start()) + 1, found.group(0).strip().split('\n')[0]


def enums():
    """1: enums; flags beside a value; constants that number kinds or refusals; matches that give numbers."""
    yield from matches(r'^(pub )?enum \w+')
    yield from matches(r'^    (pub )?\w+: bool,')
    yield from matches(r'^(pub )?const [A-Z0-9_]*(NOT|TOO|WIDE|UNKNOWN|WRONG|INVALID|ABSENT|ERROR|RESERVED|UNMARKED)[A-Z0-9_]*: u(8|32) = \d+;')
    yield from matches(r'^ *(pub )?fn \w*(number|code)\w*\([^)]*\) -> u(8|32)$')


def functions():
    """Each function: path, line, name, header, body."""
    for path in files():
        lines = open(path, encoding='utf-8').read().split('\n')
        for start, line in enumerate(lines):
            opened = re.match(r'( *)(?:pub )?(?:extern "C" )?fn (\w+)', line)
            if opened:
                head = next(i for i in range(start, len(lines)) if lines[i] == opened[1] + '{' or lines[i].endswith(' {') and ' ensures' not in lines[i] or lines[i].endswith(';'))
                end = next((i for i in range(head, len(lines)) if lines[i] == opened[1] + '}'), head)
                yield path, start + 1, opened[2], '\n'.join(lines[start:head + 1]), '\n'.join(lines[head + 1:end])


def twins():
    """2: functions whose bodies are the same but for names and numbers."""
    shapes = collections.defaultdict(list)
    words = 'let if else return match while for in mut as true false loop'.split()
    for path, line, name, _, body in functions():
        shape = re.sub(r'//.*', '', body)
        shape = re.sub(r"b?\"[^\"]*\"|b'.'|\b0x\w+\b|\b\d+(?:u8|u32|u64|usize)?\b", '0', shape)
        shape = re.sub(r'[A-Za-z_]\w*(?:::[A-Za-z_]\w*)*', lambda w: w[0] if w[0] in words else 'x', shape)
        if len(shape.split()) > 4 and not path.endswith(('columns.rt', 'shapes.rt')):
            shapes[' '.join(shape.split())].append((path, line, name))
    for same in shapes.values():
        if len(same) > 1:
            for path, line, name in same:
                yield path, line, f'{name}, one of {len(same)}: ' + ', '.join(sorted(p[2] for p in same))


def loops():
    """3: loops by `while`, and `for` loops over a range that index with it."""
    yield from matches(r'^ *while .*$')
    yield from matches(r'^ *for \w+ in [^.\n]*\.\..*$')


def conversions():
    """4: conversions, orders, copies written by hand."""
    yield from matches(BY_HAND)


def together():
    """5: facts in the `requires` of three or more functions; parameters that three or more functions take side by side."""
    facts, groups = collections.defaultdict(list), collections.defaultdict(list)
    for path, line, name, header, _ in functions():
        for clause in re.findall(r'requires(?: \w+)? \{ (.*) \}', header):
            for fact in clause.split(' × '):
                facts[fact.strip('() ')].append((path, line, name))
        names = re.findall(r'(\w+): (&[^,)]*)', header.split('requires')[0])
        for one, two in zip(names, names[1:]):
            if re.fullmatch(r'&(mut )?\[[ui]\d+\]', one[1].strip()) and re.fullmatch(r'&(mut )?\[[ui]\d+\]', two[1].strip()):
                groups[f'{one[0]}, {two[0]}'].append((path, line, name))
    for kind in (facts, groups):
        for fact, where in sorted(kind.items(), key=lambda item: -len(item[1])):
            if len(where) > 2:
                for place in where:
                    yield place[0], place[1], f'{place[2]}: {fact}'


def buffers():
    """6: a slice with a place or a length beside it; columns side by side."""
    yield from matches(r'^ *(pub )?fn \w+(<[^(]*>)?\([^)]*(out|room|buffer|text|input): &(mut )?\[u\d+\][^)]*(at|size|count|length|held): u(size|32)[^)]*\)')
    yield from matches(r'^ *(pub )?fn \w+(<[^(]*>)?\([^)]*(numbers|froms|firsts): &(mut )?\[u32\],\s*(starts|tos|seconds): &(mut )?\[u32\][^)]*\)')


def switches():
    """7: parameters that choose a step."""
    yield from matches(r'^ *(pub )?fn \w+(<[^(]*>)?\([^)]*\w+: (bool|Figures)\b[^)]*\)')


POINTS = {'1': enums, '2': twins, '3': loops, '4': conversions, '5': together, '6': buffers, '7': switches}

for point in sys.argv[1:] or POINTS:
    found = sorted(set(POINTS[point]()))
    for path, line, what in found:
        print(f'{path}:{line}: {what}')
    print(f'point {POINTS[point].__doc__} {len(found)} places')
