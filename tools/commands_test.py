#!/usr/bin/env python3
"""Tries what ./run, host/build, host/install and tools/prove say: their help, the programs for users apart from those for tests, every
processor, what is wrong with a word that they don't know; what book_write says where a read or a write fails; when tools/fresh wants a
new proof; that no archive of other sources is left; and on a copy of the tree, crate by crate, what is proved, and what is not.

    python3 tools/commands_test.py [PART...]     helps, lost_bytes, freshness, leftovers, progress; without a word all
"""

import os
import re
import shutil
import subprocess
import sys
import tempfile
from concurrent.futures import ThreadPoolExecutor
from pathlib import Path

ROOT = Path(__file__).resolve().parent.parent
SMALL, BELOW = "zeros", "only"  # a small crate, and the one that it stands on


def call(command, *words, folder=ROOT):
    done = subprocess.run([folder / command, *words], cwd=folder, stdin=subprocess.DEVNULL, capture_output=True, text=True)
    return done.returncode, done.stdout, done.stderr


def listed(text):
    """The names listed for users and those for tests."""
    users, tests = text.partition("For users:")[2].split("For tests")
    return [re.findall(r"(?m)^  (\w+)", part) for part in (users, tests)]


def helps():
    programs = sorted(path.parts[-3] for path in ROOT.glob("crates/*/src/main.rt"))
    status, printed, said = call("run", "--help")
    users, tests = listed(printed)
    yield status == 0 and not said and users == ["book_check", "book_write", "frame_list", "dash_list"] and sorted(users + tests) == programs, printed + said
    yield call("run") == (2, "", printed), "run"
    for words in (["nothing"], ["../run"], ["only"]):
        status, empty, said = call("run", *words)
        yield status == 2 and not empty and said.startswith(f"run: there is no program '{words[0]}'") and printed in said, said
    for program in users:
        status, empty, said = call("run", program, "examples/first.book")
        yield status == 2 and not empty and said.startswith(f"run: {program} takes no words") and f"./run {program} < FILE" in said, said
    status, printed, said = call("host/run", "--help")
    yield status == 0 and printed.startswith("usage: host/run") and not said and call("host/run") == (2, "", printed), printed + said
    status, printed, said = call("host/build", "--help")
    yield status == 0 and printed.startswith("usage: host/build") and not said, printed + said
    for word in ("nothing", ""):
        status, empty, said = call("host/build", word)
        yield status == 2 and not empty and said.startswith(f"build: there is no '{word}'\n") and printed in said, said
    status, empty, said = call("host/build", "wasm32", "O4")
    yield status == 2 and not empty and "there is no level 'O4'" in said and printed in said, said
    status, empty, said = call("host/build", "x86_64-linux", "Os")
    yield status == 2 and not empty and said.startswith("build: x86_64-linux is built at O3 alone, as rt does\n") and printed in said, said
    yield call("host/build", "wasm32", "Os", "O3") == (2, "", printed), "host/build with a word too many"
    for words in (["aarch64-none wasm32"], ["wasm32", "O3 O2"]):
        status, empty, said = call("host/build", *words)
        yield status == 2 and not empty and f"'{words[-1]}'" in said and printed in said, said
    targets, levels = (re.search(rf"(?m)^firmware_{name}='(.*)'$", (ROOT / "host/firmware/targets").read_text())[1].split() for name in ("targets", "levels"))
    papers = [(ROOT / name).read_text() for name in ("README.md", "docs/EMBEDDING.md")]
    for target in targets:
        yield re.search(rf"(?m)^  {target} +\S", printed) and all(f"`host/build {target}`" in paper for paper in papers), f"{target}: not in the help, README.md and docs/EMBEDDING.md"
    yield all(re.search(rf"\b{level}\b", printed) for level in levels), printed
    status, printed, said = call("host/install", "--help")
    yield status == 0 and printed.startswith("usage: host/install PREFIX") and not said and call("host/install") == (2, "", printed), printed + said
    status, empty, said = call("host/install", "wasm32")
    yield status == 2 and not empty and "'wasm32' is a TARGET" in said and printed in said and not (ROOT / "wasm32").exists(), said
    for words in (["nothing"], ["wasm32", "O4"], [""]):
        status, empty, said = call("host/install", "prefix", *words)
        yield status == 2 and not empty and f"'{words[-1]}'" in said and printed in said and not (ROOT / "prefix").exists(), said


def freshness():
    """What was built is fresh as long as it and the sources are what they were, whatever time they bear and wherever they are copied."""
    with tempfile.TemporaryDirectory() as made:
        tree, copied = Path(made) / "tree", Path(made) / "copied"
        for name in ("tools", f"crates/{BELOW}"):
            shutil.copytree(ROOT / name, tree / name, ignore=shutil.ignore_patterns("out", "__pycache__"))
        shutil.copy(ROOT / "crates.txt", tree)
        source, built, made_by_rt = (f"crates/{BELOW}/src/lib.rt", f"target/bin/{BELOW}", f"crates/{BELOW}/out/rlib")
        (tree / built).parent.mkdir(parents=True)

        def fresh(folder=tree):
            return call("tools/fresh", "program", BELOW, folder=folder)[0] == 0

        def keep():
            return call("tools/fresh", "--keep", "program", BELOW, call("tools/fresh", "--sources", folder=tree)[1].strip(), folder=tree)[0] == 0

        def change(name):
            old = (tree / name).stat()
            (tree / name).write_bytes((tree / name).read_bytes() + b"\n")
            os.utime(tree / name, ns=(old.st_atime_ns, old.st_mtime_ns))

        def put_back(name):
            (tree / name).write_bytes((tree / name).read_bytes()[:-1])

        yield not fresh() and not keep() and not fresh(), "fresh, and nothing is built"
        (tree / built).write_text("built")
        yield not fresh(), "fresh, and nobody knows of which sources"
        yield keep() and fresh(), "not fresh, as it was built"
        for name in (source, "crates.txt", built):
            change(name)
            shutil.copytree(tree, copied, copy_function=shutil.copyfile)  # which copies no time
            shutil.copy(tree / "tools/fresh", copied / "tools/fresh")
            yield not fresh() and not fresh(copied), f"fresh, and {name} is another, here or in a copy"
            shutil.rmtree(copied)
            put_back(name)
            yield fresh(), f"not fresh, and {name} is as it was"
        (tree / made_by_rt).mkdir(parents=True)
        yield fresh(), "not fresh, and rt has made something in a crate's out/"
        (tree / made_by_rt / "stamp").write_text("another")
        yield fresh(), "not fresh, and what rt made is another"
        outside = Path(made) / "outside.rt"
        (tree / source).rename(outside)
        (tree / source).symlink_to(outside)
        yield fresh(), "not fresh, and a source is a link to what it was"
        outside.write_bytes(outside.read_bytes() + b"\n")
        yield not fresh(), "fresh, and a link leads to another source"
        (tree / source).unlink()
        outside.rename(tree / source)
        put_back(source)
        shutil.copytree(tree, copied)
        yield fresh(copied), "not fresh, and the tree is copied"
        (tree / "crates/more").write_text("")
        (copied / source).unlink()
        yield not fresh() and not fresh(copied), "fresh, and a source is new or gone"


def leftovers():
    """Where the library can't be proved, host/build leaves no archive of other sources, for any processor."""
    with tempfile.TemporaryDirectory() as made:
        copy = Path(made)
        for name in ("tools", "host", "include"):
            shutil.copytree(ROOT / name, copy / name)
        (copy / "tools/prove").write_text("#!/bin/sh\nexit 1\n")
        for target in ("x86_64-linux", "thumbv7em-none", "wasm32"):
            folder = copy / "target/firmware" / target
            folder.mkdir(parents=True)
            for name in ("libpunnetcrest.a", "punnetcrest.wasm"):
                (folder / name).write_text("of other sources")
            status, printed, _ = call("host/build", target, folder=copy)
            yield status == 1 and not printed and not list(folder.iterdir()), f"{target}: status {status}, {printed}, left: {list(folder.iterdir())}"


def progress():
    """Of a copy in which nothing is proved, twice at once: one run tells each crate with its number, the other waits and has nothing left
    to prove; then of one that is not proved any more, what rt says of it and nothing else. The copy's crates are others than those here,
    by a line in each, since rt takes what another checkout on the machine has built of the same text."""
    with tempfile.TemporaryDirectory() as made, ThreadPoolExecutor(2) as pool:
        copy = Path(made) / "copy"
        shutil.copytree(ROOT, copy, ignore=shutil.ignore_patterns("target", "out", ".git", "__pycache__"))
        for name in (SMALL, BELOW):
            code = copy / f"crates/{name}/src/lib.rt"
            code.write_text(f"// The copy in {made}.\n" + code.read_text())
        runs = list(pool.map(lambda _: call("tools/prove", "program", SMALL, folder=copy), range(2)))
        runs.sort(key=lambda run: "waiting for another run" in run[2])
        first = f"proving {SMALL} and what it stands on, 2 crates"
        for (status, printed, said), wanted in zip(runs, ([("1", "2", BELOW), ("2", "2", SMALL)], [])):
            told = re.findall(r"(?m)^ +(\d+) of (\d+)  (\w+) \(\d+ s\)$", said)
            yield status == 0 and not printed and first in said and told == wanted and len(said.splitlines()) < 4, said
        yield runs[1][2].startswith("waiting for another run"), runs[1][2]
        code = copy / f"crates/{SMALL}/src/lib.rt"
        code.write_text(code.read_text().replace("all == 0", "all == 1"))
        status, printed, said = call("tools/prove", "program", SMALL, folder=copy)
        yield status == 1 and f"fn {SMALL}::" in said and "logic=not-proved" in said and f"fn {BELOW}::" not in said, said


def lost_bytes():
    """What book_write prints and says where a read fails at once or after a whole book, and where a write does."""
    first = (ROOT / "examples/first.book").read_bytes()
    unread, unwritten = "book_write: standard input could not be read: ", "book_write: not all of the output was written: "

    def write_book(taken, given=subprocess.PIPE):
        done = subprocess.run([ROOT / "run", "book_write"], stdin=taken, stdout=given, stderr=subprocess.PIPE)
        return done.stdout, done.stderr.decode()

    write_book(subprocess.DEVNULL)  # which builds it where it is not built yet
    reading, writing = os.pipe()
    os.set_blocking(reading, False)
    os.write(writing, first)
    printed, said = write_book(reading)  # the pipe has not ended when the book has, so that the next read fails
    yield not printed and said.startswith(unread), f"a read after a whole book: {printed}, {said}"
    os.close(writing)
    os.close(reading)
    folder = os.open(ROOT, os.O_RDONLY)
    printed, said = write_book(folder)
    yield not printed and said.startswith(unread), f"a folder: {printed}, {said}"
    os.close(folder)
    with open(ROOT / "examples/first.book") as book, open("/dev/full", "wb") as full:
        yield write_book(book, full)[1].startswith(unwritten), "a full disk, nothing said"
    with open(ROOT / "examples/loop.book") as book, open("/dev/full", "wb") as full:
        yield write_book(book, full)[1].startswith(unwritten), "a full disk for the checker's line, nothing said"
    with open(ROOT / "examples/first.book") as book:
        yield write_book(book) == (first, ""), "something said of nothing"


def main():
    failed = False
    parts = {part.__name__: part for part in (helps, lost_bytes, freshness, leftovers, progress)}
    for part in [parts[name] for name in sys.argv[1:]] or parts.values():
        answers = list(part())
        faults = [said for right, said in answers if not right]
        print(f"commands, {part.__name__}: {len(answers)} cases, {len(faults)} wrong")
        print("".join(f"  {fault}\n" for fault in faults), end="")
        failed = failed or bool(faults)
    sys.exit(failed)


main()
