#!/usr/bin/env python3
"""Holds the papers against the tree: every definition, theorem, function and must-fail edit that they name is there, every link
leads somewhere, and docs/PROMISES.md names every must-fail edit. What it lists as the working side is just what no promise rests on:
the files of specs/ that no definition named there uses, however far down. And each public function has its law of one outcome, but
for the parts of programs that it names; no entry point has a `requires`, and every call of C is one. Of each product the header, CHANGELOG.md
and its paper name one version, and CMake is asked for it. The text that an edit changes is there. A rule as it was before a change
request is used by no file but those that define and compare it.

A reference is in backquotes: `crate: File name, name` (specs/ or proofs/), `crate: function()` (src/), `crate/edit` (must-fail/)."""

import re
import sys
from pathlib import Path

from port_names import snake
from sources import sources

ROOT = Path(__file__).parent.parent
PAPERS = [ROOT / "README.md", ROOT / "CHANGELOG.md", ROOT / "tools/README.md", *sorted((ROOT / "docs").rglob("*.md"))]
HISTORY = ROOT / "docs/landings"  # which stays as it was written, in the names of an older Rattle
CRATES = {folder.name for folder in (ROOT / "crates").iterdir()}


def source(crate):
    return "".join(path.read_text() for path in (ROOT / "crates" / crate / "src").glob("*.rt"))


def declares(text, name):
    """Whether a line begins with the declaration of this name, in specs/ and proofs/ or in src/."""
    name = re.escape(name)
    kind = r"(?:record|data|fn|struct|enum|const)"
    return re.search(rf"(?m)^ *(?:abbrev |unfoldable |pub )*(?:{kind} {name}(?![\w-])|{name}(?: {{.*}})? :)", text)


def now(name):
    """What such an older name may be today: tools/port_names.py gave it in small letters, some with an ending."""
    plain = snake(name.removesuffix("()")) if name[:1].islower() and "::" not in name else name
    return name, plain, plain + "_law", plain + "_spec"


def missing(reference, history=False):
    """What a reference in backquotes names and the tree does not have."""
    if edit := re.fullmatch(r"([a-z_]+)/(\w+)", reference):
        crate, name = edit.groups()
        if crate in CRATES and not (ROOT / f"crates/{crate}/must-fail/{name}.edit").exists() and not (ROOT / reference).exists():
            yield name
    if not (found := re.fullmatch(r"([a-z_]+): (.+)", reference)) or found[1] not in CRATES:
        return
    crate, items = found[1], [item.strip() for item in found[2].split(",")]
    file, _, first = items[0].partition(" ")
    files = [path for path in (ROOT / f"crates/{crate}/{part}/{file}.antt" for part in ("specs", "proofs")) if path.exists()]
    text = "".join(path.read_text() for path in files) or source(crate)
    for name in ([first] if first else []) + items[1:] if files else items:
        other_file = (ROOT / f"crates/{crate}/specs/{name}.antt").exists()
        if not other_file and not any(declares(text, one.removesuffix("()").split("::")[-1]) for one in (now(name) if history else [name])):
            yield name


def files_named(text):
    """The files of specs/ that references in backquotes name."""
    for crate, items in re.findall(r"`([a-z_]+): ([^`]+)`", text):
        for item in items.split(","):
            yield crate, item.split()[0]


def rested_on(named, specs):
    """Those files, with all that they use."""
    seen, left = set(), [file for file in named if file in specs]
    while left:
        file = left.pop()
        if file not in seen:
            seen.add(file)
            left += [other for other in re.findall(r"(?m)^(?:pub )?use Rattle\.(\w+)\.specs\.(\w+)", specs[file]) if other in specs]
    return seen


def working_side(promises):
    """What docs/PROMISES.md says of the working side, and should not."""
    specs = {(path.parts[-3], path.stem): path.read_text() for path in ROOT.glob("crates/*/specs/*.antt") if path.stem != "Lib"}
    said, _, rest = promises.partition("### Wrong programs")
    listed = rest.partition("### Definitions of the working side")[2].partition("Not of the working side")[0]
    under, working = rested_on(files_named(said), specs), set(files_named(listed))
    for crate, file in sorted(working & under):
        yield f"docs/PROMISES.md: {crate}: {file} is listed as the working side, and a promise rests on it"
    for crate, file in sorted(set(specs) - working - under):
        yield f"docs/PROMISES.md: {crate}: {file} is neither rested on nor listed as the working side"


def exported(crate):
    """What the root of a library lets others name, with the module that each name is of: none where it is the root's own."""
    root = (crate / "src/lib.rt").read_text()
    own = {name: "" for name in re.findall(r"(?m)^pub (?:fn|struct|enum|trait|type|const) (\w+)", root)}
    return own | {name: module for module, names in re.findall(r"(?m)^pub use (\w+)::([^;]+);", root) for name in re.findall(r"\w+", names)}


def called(head):
    """How the papers call a function of an impl with this head, and where its contract stands: `From<A> for B` has `B::from(A)`."""
    trait, _, owner = re.sub(r"<'\w+(?:, '\w+)*>", "", head).rpartition(" for ")
    words = re.findall(r"\w+", f"{owner} {trait}")
    return owner, f"({', '.join(words[2:])})" if trait else "", "".join(word[0].upper() + word[1:] for word in words)


def public_functions(crate):
    """What other crates, or C, call of a library: how the papers name the function, its contract as the prover has it, and its head."""
    names = exported(crate)
    hidden = set(re.findall(r"(?m)^(?:pub(?:\(crate\))? )?(?:struct|enum|trait) (\w+)", source(crate.name))) - set(names)
    for path in sorted((crate / "src").glob("*.rt")):
        text, module = path.read_text(), path.stem.removesuffix("lib")
        before = module and module + "."
        for face, name, head in re.findall(r'(?ms)^pub (extern "C" )?fn (\w+)(.*?\{)$', text):
            if face or names.get(name) == module:
                yield name, before + name, head
        for impl, body in re.findall(r"(?ms)^impl(?:<[^\n]*?>)? ([^\n{]+) \{$(.*?)^\}", text):
            owner, of, contract = called(impl)
            for name, head in re.findall(rf"(?ms)^    {'' if of else 'pub '}fn (\w+)(.*?\{{)$", body):
                if not hidden & set(re.findall(r"\w+", impl)):
                    yield f"{owner}::{name}{of}", f"{before}{contract}.{name}", head


def laws_of(crate):
    """The laws of one outcome of a crate, each with the contract that it is over."""
    text = "".join(path.read_text() for path in crate.glob("proofs/OneOutcome.antt"))
    contracts = {known: contract for contract, known in re.findall(rf"(?m)^use Rattle\.{crate.name}\.specs\.contracts\.(\S+) as (\S+)$", text)}
    for law, says in re.findall(r"(?ms)^ *pub (one_\w+) :(.*?)^ *\1\b", text):
        if re.search(r"\b(?:Only|One(?:Result|Content|Outcome))\b", says):
            yield from ((law, contracts.get(known)) for known in re.findall(r"([\w-]+)\.clauses\b", says))


def without_law(promises):
    """The public functions that have no law of one outcome over their contract, and are not named as parts of programs. That of a plain
    function, or of a call of C, goes by its name."""
    for crate in sorted(path.parent.parent for path in ROOT.glob("crates/*/src/lib.rt")):
        laws = list(laws_of(crate))
        for name, contract, _ in public_functions(crate):
            plain = "::" not in name
            law = "one_" + (re.sub("^pct?_", "", name) if plain else "..")
            found = (law, contract) in laws if plain else any(over == contract for _, over in laws)
            if not found and not (plain and f"`{crate.name}::{name}`" in promises):
                yield f"{crate.name}: {name}: no law {law} over its contract, {contract}, in proofs/OneOutcome.antt" + ", and docs/PROMISES.md does not name it as part of a program" * plain


def is_of(call, name):
    """Whether a call, as docs/PROMISES.md writes it, is of the function of that name. Of a conversion it may leave out what is converted."""
    call = re.sub(r"^From<(\w+)> for (\w+)$", r"\2::from(\1)", re.sub(r"^TryFrom<(\w+)> for (\w+)$", r"\2::try_from(\1)", call))
    begins, _, given = call.partition("(")
    return name == begins or name.startswith(begins + "(") and (name == call or not given[:1].isupper())


def asking(promises):
    """The entry points, by the table of docs/PROMISES.md, and the calls of C that have a `requires`, or are not there; and the methods and
    conversions that stand beside wrong programs, and no crate has."""
    table, _, wrong = promises.partition("### Entry points")[2].partition("### Definitions of the working side")[0].partition("### Wrong programs")
    functions = {path.parts[-3]: list(public_functions(path.parent.parent)) for path in sorted(ROOT.glob("crates/*/src/lib.rt"))}
    named = [(crate, call) for crate, calls in re.findall(r"(?m)^\| `(\w+)` \| ([^|]+) \|", table) for call in re.findall(r"`([^`]+)`", calls)]
    for crate, call in named:
        heads = [head for name, _, head in functions.get(crate, []) if is_of(call, name)]
        if len(heads) != 1 or re.search(r"(?m)^ *requires ", heads[0]):
            yield f"docs/PROMISES.md: the entry point {crate}: {call} has a `requires`, or there is not just one of that name"
    for call in re.findall(r"`(\w+::\w+\([^`]*)`", wrong):
        if not any(is_of(call, name) for crate in functions for name, _, _ in functions[crate]):
            yield f"docs/PROMISES.md: no crate has {call}"
    for crate in functions:
        for name, _, _ in functions[crate]:
            if re.match("pct?_", name) and not any(where == crate and is_of(call, name) for where, call in named):
                yield f"docs/PROMISES.md: {crate}: {name}() is not among the entry points"


def lost_edits():
    """The must-fail edits whose first text does not stand just once in the file that they change, so that they would attack nothing."""
    for edit in sorted(ROOT.glob("crates/*/must-fail/*.edit")):
        file, old = (re.search(rf"(?m)^{word}: (.*)$", edit.read_text())[1] for word in ("file", "old"))
        if (edit.parent.parent / file).read_text().count(old) != 1:
            yield f"{edit.relative_to(ROOT)}: its first old: does not stand just once in {file}"


# The files that define a rule as it was before a change request, and those that compare with it.
BEFORE = {"power/specs/Before.antt", "power/proofs/AsBefore.antt", "punnetcrest/specs/PoweringBefore.antt", "punnetcrest/proofs/PowerBefore.antt"}
MODULES = "|".join(sorted(Path(file).stem for file in BEFORE))


def resting_on_before():
    """The other files that use such a rule, by its name (.._before_p and the request's number), or one of those modules."""
    for path in sources("antt", "rt"):
        found = re.search(rf"\w+_before_p\d+|\.(?:{MODULES})\b", path.read_text())
        if found and str(path.relative_to(ROOT / "crates")) not in BEFORE:
            yield f"{path.relative_to(ROOT)}: it rests on {found[0]}, which stands for a comparison alone"


VERSIONS = {
    "library": {"include/punnetcrest.h": r'#define PC_VERSION "(.+)"', "CHANGELOG.md": r"(?m)^## (\d\S*)", "README.md": r"This is version (\S+)"},
    "tester": {"include/punnetcrest_tester.h": r'#define PCT_VERSION "(.+)"', "CHANGELOG.md": r"(?m)^### The tester (\d\S*)", "docs/TESTER.md": r"This is version (\S+)"},
}


def versions():
    """The versions that a product's header, the top of CHANGELOG.md and its paper name, where they are not one."""
    for product, named in VERSIONS.items():
        found = {file: match[1] if (match := re.search(pattern, (ROOT / file).read_text())) else "none" for file, pattern in named.items()}
        if len(set(found.values())) > 1:
            yield f"versions of the {product}: {found}"
    asked = re.search(r"find_package\(punnetcrest (\S+) REQUIRED", (ROOT / "docs/EMBEDDING.md").read_text())
    if not asked or f'#define PC_VERSION "{asked[1]}.' not in (ROOT / "include/punnetcrest.h").read_text():
        yield f"docs/EMBEDDING.md: find_package asks for {asked[1] if asked else 'no version'}, not for the version's first two numbers"


def main():
    faults = []
    for paper in PAPERS:
        for number, line in enumerate(paper.read_text().split("\n"), 1):
            where = f"{paper.relative_to(ROOT)}:{number}"
            faults += [f"{where}: `{reference}`: no {name}" for reference in re.findall(r"`([^`]+)`", line) for name in missing(reference, paper.is_relative_to(HISTORY))]
            faults += [f"{where}: no {link}" for link in re.findall(r"\]\(([^)]+)\)", line) if not (paper.parent / link).exists()]
    promises = (ROOT / "docs/PROMISES.md").read_text()
    for edit in sorted(ROOT.glob("crates/*/must-fail/*.edit")):
        if f"`{edit.parts[-3]}/{edit.stem}`" not in promises:
            faults.append(f"docs/PROMISES.md: {edit.parts[-3]}/{edit.stem} is not named")
    faults += [*working_side(promises), *without_law(promises), *asking(promises), *lost_edits(), *resting_on_before(), *versions()]
    print("\n".join(faults) if faults else "papers: all that they name is there")
    sys.exit(bool(faults))


main()
