#!/usr/bin/env python3
"""Brings the names in the papers to those that definitions and lemmas have since the port: between backquotes, and nothing else.

usage: tools/port_papers.py OLD NEW [--list]     OLD and NEW are commits whose crates/ differ in spelling alone

Which name became which it takes from the two commits: a file of specs/ and a lemma file of proofs/ declares the same things in the same
order in both. A reference `crate: File name, name` is looked up in that file; a word by itself is respelled where it became the same name
wherever it stood. docs/landings/ is history and stays. Run once; tools/papers_check.py says what it could not know. --list prints the
words by themselves that became several names, where the papers have them."""

import re
import subprocess
import sys
from pathlib import Path

from port_names import SIGNATURE, WORD

ROOT = Path(__file__).resolve().parent.parent
PAPERS = [ROOT / "README.md", ROOT / "CHANGELOG.md", ROOT / "tools/README.md", *sorted((ROOT / "docs").glob("*.md"))]
KEPT = {"docs/PORT.md"}
# Words that are also something else: a subject of tools/, a target, a word of a text.
TOKEN = re.compile(r"(?<![A-Za-z0-9_'′₀-₉α-ωΑ-Ω/.<-])" + WORD + r"(?![\w(/.-])")
NOT_NAMES = ("pub", "abbrev", "unfoldable", "data", "record", "module", "use", "fn")


def shown(commit, path):
    return subprocess.run(["git", "show", f"{commit}:{path}"], cwd=ROOT, check=True, capture_output=True, text=True).stdout


def declared(text):
    """What a file declares, in order."""
    names = []
    for line in text.splitlines():
        if not line.lstrip().startswith("--") and (found := SIGNATURE.match(line)):
            names += [name for name in found[1].split() if name not in NOT_NAMES]
    return names


def tables(old, new):
    """{(crate, file): {name: name}}, of files of specs/ and of proofs/."""
    listed = subprocess.run(["git", "ls-tree", "-r", "--name-only", old, "crates"], cwd=ROOT, check=True, capture_output=True, text=True).stdout.split()
    found = {}
    for path in listed:
        if not (match := re.fullmatch(r"crates/(\w+)/(?:specs|proofs)/(\w+)\.antt", path)) or match[2] == "Lib":
            continue
        before, after = declared(shown(old, path)), declared(shown(new, path))
        if len(before) != len(after):
            print(f"{path}: {len(before)} names became {len(after)}: left out", file=sys.stderr)
            continue
        found.setdefault((match[1], match[2]), {}).update(zip(before, after))
    return found


def everywhere(found):
    """({name: name} where it became one, {name: names} where it became several)."""
    became = {}
    for table in found.values():
        for name, now in table.items():
            became.setdefault(name, set()).add(now)
    return {name: min(now) for name, now in became.items() if len(now) == 1}, {name: now for name, now in became.items() if len(now) > 1}


def respelled(span, found, one, several, told):
    """The text between two backquotes."""
    crate, file = None, None
    if match := re.match(r"(\w+): (\w+) ", span):
        crate, file = match[1], match[2]

    def turned(match):
        name, table = match[0], found.get((crate, file), {})
        if name in table:
            return table[name]
        own = {table[name] for (other, _), table in found.items() if other == crate and name in table}
        if len(own) == 1:
            return own.pop()
        if name in several and several[name] != {name}:
            told.add(name)
        return one.get(name, name)

    return TOKEN.sub(turned, span)


def main(words):
    if len(words) < 2:
        sys.exit(__doc__)
    found, told = tables(*words[:2]), set()
    one, several = everywhere(found)
    for paper in PAPERS:
        if str(paper.relative_to(ROOT)) not in KEPT:
            text = paper.read_text(encoding="utf-8")
            paper.write_text(re.sub(r"`([^`\n]+)`", lambda match: f"`{respelled(match[1], found, one, several, told)}`", text), encoding="utf-8")
    if "--list" in words:
        print("\n".join(f"{name}: {', '.join(sorted(several[name]))}" for name in sorted(told)))


if __name__ == "__main__":
    main(sys.argv[1:])
