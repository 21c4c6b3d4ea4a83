#!/usr/bin/env python3
"""Brings the names of definitions and lemmas to today's Rattle's spelling: words in snake case, types and modules in camel case.

usage: tools/port_names.py [--list]     at the top of a checkout over which port.py ran

Run once, after port.py. It respells what specs/ and the files of proofs/ define (not what stands in a function's folder of
proofs/, whose names Rattle makes), in .antt files, in clauses, in must-fail edits, and in comments where they stand between
backticks. Functions of src/, strings, inputs and outputs keep theirs. --list prints the names that get an ending.
"""

import os
import re
import sys

# Names that would fall together with another, or that a clause would read as a parameter: what they are called instead.
CHOSEN = {"count-after": "count_after", "tables-taken": "tables_taken", "well-placed": "well_placed"}

WORD = r"[A-Za-zα-ωΑ-Ω_][A-Za-z0-9_'′α-ωΑ-Ω₀-₉-]*"
TOKEN = re.compile(r"(?<![A-Za-z0-9_'′₀-₉α-ωΑ-Ω-])" + WORD)
SIGNATURE = re.compile(r"^\s*(?:(?:pub|abbrev|unfoldable)\s+)*(?:pub\s+)?(?:data\s+|record\s+)?((?:" + WORD + r"\s+)*?" + WORD + r")\s*(?:\{[^}]*\}\s*|\([^)]*\)\s*)*:\s")
FIELD = re.compile(r"(?:record|where|;)\s*\{?\s*(" + WORD + r")\s*=")


def files(root, endings):
    for folder, dirs, names in os.walk(os.path.join(root, "crates")):
        dirs[:] = sorted(d for d in dirs if d != "out")
        for n in sorted(names):
            if n.endswith(endings):
                yield os.path.join(folder, n)


def read(path):
    with open(path, encoding="utf-8") as f:
        return f.read()


def by_hand(path):
    """Whether Rattle makes no names of this file: specs/ and the lemma files of proofs/."""
    parts = path.split(os.sep)
    i = len(parts) - 1 - parts[::-1].index("crates")
    return parts[i + 2] == "specs" or (parts[i + 2] == "proofs" and len(parts) == i + 4)


def defined(root):
    found = {}
    for path in files(root, ".antt"):
        if not by_hand(path):
            continue
        for line in read(path).splitlines():
            if line.lstrip().startswith("--"):
                continue
            m = SIGNATURE.match(line)
            if m:
                for n in m[1].split():
                    if n not in ("pub", "abbrev", "unfoldable", "data", "record", "module", "use"):
                        found.setdefault(n, path)
    return found


def imported(root):
    """Names that come from the kit."""
    names = set()
    for path in files(root, (".antt", ".rt")):
        for m in re.finditer(r"\buse\s+([\w.']+)\.\{([^}]*)\}", read(path)):
            own = re.match(r"Rattle\.(\w+)\.", m[1])
            if own and own[1] in CRATES:
                continue
            for it in m[2].split(","):
                it = it.strip().split(" as ")
                names.add(it[-1].strip())
    return names


def snake(name):
    if name in CHOSEN:
        return CHOSEN[name]
    if name[0].isupper():
        head, *rest = name.split("-")
        return name if not rest else head + "".join(r[:1].upper() + r[1:] for r in rest)
    words = name.replace("-", "_")
    words = re.sub(r"(?<=[a-z0-9'])(?=[A-Z])|(?<=[A-Z])(?=[A-Z][a-z])", "_", words)
    return words.lower()


def words_of(path):
    mark = "--" if path.endswith(".antt") else "//"
    return set(TOKEN.findall(re.sub(re.escape(mark) + r"[^\n]*", "", read(path))))


def settle(root, table, kit):
    """Where two names would fall together, or a name with another word of a file that uses it: a lemma gets _law after its name, a definition _spec."""
    taken = {n for n in defined(root) if n not in table} | kit
    files_with = {}
    for path in files(root, (".antt", ".rt")):
        words = words_of(path)
        for n in words & table.keys():
            files_with.setdefault(n, []).append(words)
    plain = {}
    for n in sorted(table, key=lambda n: ("-" in n, n)):
        new = table[n]
        clash = new in taken or new in plain or any(new in words for words in files_with.get(n, []))
        if clash and n not in CHOSEN:
            new += "_law" if "-" in n else "_spec"
            assert new not in taken and new not in plain, (n, new)
            table[n] = new
        plain[new] = n


def turn_code(text, table, comment, generated):
    """Names respelled: everywhere but in comments and strings, and in comments between backticks."""
    out, i = [], 0
    piece = re.compile(re.escape(comment) + r"[^\n]*|\"(?:\\.|[^\"\\\n])*\"")
    for m in piece.finditer(text):
        out.append(turn_words(text[i : m.start()], table, generated))
        it = m[0]
        out.append(in_ticks(it, table) if it.startswith(comment) else it)
        i = m.end()
    out.append(turn_words(text[i:], table, generated))
    return "".join(out)


def turn_words(text, table, generated=False):
    def turned(m):
        new = table.get(m[0], m[0])
        if generated and m.start() and text[m.start() - 1] == "." and new != m[0] and new.endswith(("_law", "_spec")):
            return snake(m[0])  # a step of the function's proof, which has the name of what is called
        return new

    return TOKEN.sub(turned, text)


def in_ticks(text, table):
    return re.sub(r"`[^`\n]*`", lambda m: turn_words(m[0], table), text)


def turn_edit(text, table):
    lines = []
    for line in text.split("\n"):
        m = re.match(r"(old|new):", line)
        lines.append(turn_words(line, table) if m else in_ticks(line, table) if line.startswith("#") else line)
    return "\n".join(lines)


def main(argv):
    root = "."
    global CRATES
    CRATES = set(os.listdir(os.path.join(root, "crates")))
    kit = imported(root)
    table = {}
    for n in defined(root):
        if n in kit or n == snake(n):
            continue
        table[n] = snake(n)
    settle(root, table, kit)
    if "--list" in argv:
        for a, b in sorted(table.items()):
            if b != snake(a):
                print(a, b)
        return 0
    changed = 0
    for path in files(root, (".antt", ".rt", ".edit")):
        old = read(path)
        new = turn_edit(old, table) if path.endswith(".edit") else turn_code(old, table, "--" if path.endswith(".antt") else "//", path.endswith(".antt") and not by_hand(path))
        if new != old:
            changed += 1
            with open(path, "w", encoding="utf-8") as f:
                f.write(new)
    print(f"{len(table)} names respelled, {changed} files")
    return 0


if __name__ == "__main__":
    raise SystemExit(main(sys.argv[1:]))
