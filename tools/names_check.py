#!/usr/bin/env python3
"""Holds the tree against itself: a file uses every name that it brings in; every definition and law is cited: by another one of its
file, by a file that brings it in, or by a line of docs/PROMISES.md that names its crate too (what is `pub` in the folder of a function is
part of its proof, which Rattle asks for); and
a definition of specs/, or a type of src/, has a name that nothing else has, no case of an enum either, but where it holds that very thing."""

import re
import sys
from functools import lru_cache
from sources import ROOT, sources

FILES = sources("antt", "rt")
WORD = r"[^\s(){}\[\].,;·⌜⌝&*!←]"
RUN = re.compile(rf"{WORD}+")
USE = re.compile(r"^(?:ghost )?use\s+[^\s;{]+\.\{([^}]*)\};?[ \t]*\n", re.M)
SAME = {"Line::Message", "Line::Route"}  # what the line says
DECLARED = re.compile(rf"( *)(?:abbrev |unfoldable |pub )*(?:(?:record|data) ({WORD}+)|({WORD}+)(?: {{.*}})? :)")


def bare(path):
    """The text without its comments."""
    mark = "//" if path.suffix == ".rt" else "--"
    return re.sub(rf"(?m)(^|\s){mark}(\s.*|-.*)?$", "", path.read_text())


@lru_cache(maxsize=None)
def words(text):
    """The names that a text has, other than as fields that are asked for; what stands behind the name of a type is none."""
    found, before, end = set(), "", 0
    for run in RUN.finditer(text):
        is_behind = run.start() == end + 1 and text[end] == "."
        if not is_behind or before[:1].isupper():
            found.add(run[0])
        if "::proofs::" in run[0] or "::specs::" in run[0]:  # cited by a `#[tactic(..)]`
            found.add(run[0].rsplit("::", 1)[1])
        before, end = run[0], run.end()
    return found


def has(text, name):
    """Whether the text has the name, or of an operator all its parts."""
    if not RUN.fullmatch(name) or "◌" in name:
        return all(part in text for part in name.split("◌") if part)
    return name in words(text)


def unused(text):
    body = USE.sub("", text)
    names = [name.strip().split(" as ")[-1] for found in USE.finditer(text) for name in found[1].split(",")]
    return [name for name in names if not has(body, name)]


def uncited_at_home(text):
    """What a file declares, but the fields of records, and cites nowhere but in the declaration itself."""
    lines, record = text.split("\n"), None
    for first, line in enumerate(lines):
        indent = len(line) - len(line.lstrip())
        if line.strip() and (record is None or indent <= record):
            record = indent if re.match(r" *(pub )?record ", line) else None
            is_field = False
        else:
            is_field = True
        if not (found := DECLARED.match(line)) or is_field:
            continue
        name, end = found[2] or found[3], first + 1
        while end < len(lines) and re.match(rf"\s*$|{found[1]}(\s|unfolding |{re.escape(name)}(?!{WORD}))", lines[end]):
            end += 1
        if "◌" in name and not has("\n".join(lines[:first] + lines[end:]), name):
            yield name
        elif "◌" not in name and not any(name in words(line) for line in lines[:first] + lines[end:] if name in line):
            yield name


def of_function(path, text, name):
    """Whether Rattle asks for this name: it is `pub` in the folder of a function."""
    return path.parts[2] == "proofs" and len(path.parts) > 4 and re.search(rf"(?m)^ *(?:abbrev |unfoldable )*pub {re.escape(name)} ?[:{{]", text)


def cites(texts, promises, crate, module):
    """What may cite a module's names: the files that bring it in, and what the promises' lines on its crate have in backquotes."""
    dots, colons = f"Rattle.{crate}.{module}", f"{module.replace('.', '::')}::"
    bringing = re.compile(rf"{re.escape(dots)}[.\s]|\b(crate|{crate})::{colons}")
    quoted = (re.findall(r"`([^`]+)`", line) for line in promises)
    of_crate = [" ".join(spans) for spans in quoted if any(re.match(rf"{crate}(:|$)", span) for span in spans)]
    return [text for text in texts if (dots in text or colons in text) and bringing.search(text)] + of_crate


def defined(path, text):
    """What a file of specs/ defines for others, but the fields of records and the constructors of data; of src/, its types."""
    if path.suffix == ".rt":
        return re.findall(r"(?m)^\s*pub (?:struct|enum) (\w+)", text)
    names, inside = [], None
    for line in text.split("\n"):
        indent = len(line) - len(line.lstrip())
        if not line.strip() or (inside is not None and indent > inside):
            continue
        inside = None
        if found := re.match(rf" *(?:abbrev |unfoldable )?pub (?:(record|data) )?({WORD}+)", line):
            if found[2] not in ("mod", "use"):
                names.append(found[2])
            if found[1]:
                inside = indent
    return names


def cases(path, text):
    """The cases of a file's enums that other code may name."""
    for enum, body in re.findall(r"(?ms)^pub enum (\w+) \{\n(.*?)^\}", text) if path.suffix == ".rt" else []:
        yield from ((f"{enum}::{case}", case) for case in re.findall(r"(?m)^    (\w+)", body))


def twice(texts):
    """The names that stand for several things."""
    homes = {}
    for path, text in texts.items():
        if path.parts[2] in ("specs", "src"):
            for name in defined(path, text):
                homes.setdefault(name, []).append(str(path))
    for path, text in texts.items():
        for case, name in cases(path, text):
            if name in homes and case not in SAME:
                homes[name].append(f"{path} ({case})")
    return [f"{name} has several meanings: {', '.join(where)}" for name, where in sorted(homes.items()) if len(where) > 1]


def main():
    texts = {path.relative_to(ROOT): bare(path) for path in FILES}
    promises = (ROOT / "docs/PROMISES.md").read_text().split("\n")
    faults = []
    for path, text in texts.items():
        faults += [f"{path}: {name} is brought in and not used" for name in unused(text)]
        names = [name for name in uncited_at_home(text) if not of_function(path, text, name)] if path.suffix == ".antt" else []
        if names:
            citing = cites(texts.values(), promises, path.parts[1], ".".join(path.with_suffix("").parts[2:]))
            faults += [f"{path}: nothing cites {name}" for name in names if not any(has(text, name) for text in citing)]
    faults += twice(texts)
    print("\n".join(faults) if faults else "names: all are used, and each has one meaning")
    sys.exit(bool(faults))


main()
