"""What host/firmware/figures and tester/figures are made of: the archives of a product, their bytes, the stack of their calls, instructions by
the emulator, and where a table stands in a paper."""

import os, re, shutil, subprocess, sys, tempfile
from concurrent.futures import ThreadPoolExecutor
from pathlib import Path

FIRMWARE = Path(__file__).resolve().parent
HOST, ROOT = FIRMWARE.parent, FIRMWARE.parent.parent


def said(*command, **more):
    done = subprocess.run([str(word) for word in command], capture_output=True, text=True, **more)
    if done.returncode:
        sys.exit(f"figures: {' '.join(map(str, command))}: {done.stderr or done.stdout}")
    return done.stdout


def listed(name):
    """A list of host/firmware/targets."""
    return said("bash", "-c", f'. "$0/targets"; echo ${name}', FIRMWARE).split()


LEVELS = listed("firmware_levels")
TARGETS = [target for target in listed("firmware_targets") if target != "x86_64-linux"]


def compiled(product, crate, folder, levels):
    """The archives of a product, in folders TARGET-LEVEL."""
    said(ROOT / "tools/prove", "archive", crate)
    module = ROOT / f"target/staticlib/lib{crate}.bc"
    with ThreadPoolExecutor(2) as pool:
        list(pool.map(lambda one: said(FIRMWARE / "archive", product, module, *one, folder / "-".join(one)), [(t, l) for t in TARGETS for l in levels]))


def number(text):
    return f"{int(text):,}"


def table(heads, rows):
    return "\n".join("| " + " | ".join(row) + " |" for row in [heads, ["---"] * len(heads), *rows]) + "\n"


def bytes_of(product, target, folder):
    return sum(map(int, said(FIRMWARE / "object", "--size", product, target, folder).split()))


def stack_of(product, folder):
    """The stack of each call."""
    return dict(line.split("\t")[:2] for line in said(FIRMWARE / "stack", product, folder).splitlines())


def cases(bench):
    """The names of the cases in a bench."""
    return re.findall(r'(?m)^    \{ "([\w-]+)", (?:\w+, )?call_\w+ \},$', bench.read_text())


def of_a_call(runner, times, program, implementation, case):
    """The instructions of one call: a run of many calls less one of few, less the same of a function that returns at once. A program is run by
    the runner with the words that it is asked with, which gives the emulator's count."""
    few, many = times

    def more(*words):
        return runner(program, *words, many) - runner(program, *words, few)

    return round((more(implementation, case) - more("nothing", case)) / (many - few))


def instructions(runner, times, names, plain, libraries, heads):
    """The rows of one machine: plain C, then of each library its count and its share of plain C's."""
    def row(case):
        by_plain = of_a_call(runner, times, plain, "plain", case)
        by_library = [of_a_call(runner, times, program, "library", case) for program in libraries]
        return [case.replace("-", " "), number(by_plain), *(f"{number(n)} ({n / by_plain:.2f})" for n in by_library)]

    with ThreadPoolExecutor(2) as pool:
        return table(["call", "plain C", *heads], list(pool.map(row, names)))


def counted(command, environment):
    done = subprocess.run(list(map(str, command)), env=environment, capture_output=True, text=True, check=True)
    return int(re.search(r"instructions: (\d+)", done.stderr)[1])


def plugin(work):
    """The emulator's counter; stops where a command is missing by which it is asked."""
    for command in ("arm-none-eabi-gcc", "qemu-system-arm", "aarch64-linux-gnu-gcc", "qemu-aarch64", "gcc"):
        if not shutil.which(command):
            sys.exit(f"figures: {command} is missing (host/firmware/packages)")
    made = work / "insns.so"
    said("gcc", "-O2", "-shared", "-fPIC", ROOT / "tools/insns.c", "-o", made)
    return made


def on_m7(programs, archives, work, counter):
    """A runner on the bare Cortex-M7, the image of plain C, and one for each archive."""
    images = []
    for name, archive in [("bench_plain", "-"), *(("bench", archive) for archive in archives)]:
        images.append(work / f"m7-{len(images)}.elf")
        said(HOST / "bare/build", f"{programs}/{name}", archive, images[-1])
    environment = {**os.environ, "PLUGIN": str(counter)}
    return lambda image, *words: counted([HOST / "bare/run", image, *words], environment), images[0], images[1:]


def on_aarch64(programs, archives, work, counter):
    """The same on AArch64; plain C is in every program."""
    sources = said("bash", "-c", 'host=$0; . "$0/../$1/sources"; printf "%s\\n" "${bench_sources[@]}" "${plain_sources[@]}"', HOST, programs).splitlines()
    made = []
    for archive in archives:
        made.append(work / f"a64-{archive.parent.name.rpartition('-')[2]}")  # the length of the name moves the stack, as host/measuring says
        said("aarch64-linux-gnu-gcc", "-std=c99", "-O2", "-static", f"-I{ROOT}/include", *sources, archive, "-o", made[-1])
    emulator = shutil.which("qemu-aarch64")
    return lambda program, *words: counted([emulator, "-plugin", counter, program, *words], {}), made[0], made


def in_paper(name):
    """Where a table stands in a paper: between two comments."""
    return re.compile(rf"(?s)(<!-- figures: {name} -->\n).*?(<!-- end -->\n)")


def check(paper, figures, tables, right):
    """Holds the tables of a paper against those that were made, and ends the run."""
    text, wrong = paper.read_text(), []
    for name, made in tables.items():
        found = in_paper(name).search(text)
        if not found or found[0] != found[1] + made + found[2]:
            wrong.append(f"docs/{paper.name}: the table of {name} is not what {figures} computes:\n{made}")
    print("\n".join(wrong) if wrong else f"figures: {right}")
    sys.exit(bool(wrong))


def write(paper, tables):
    text = paper.read_text()
    for name, made in tables.items():
        text, times = in_paper(name).subn(lambda found: found[1] + made + found[2], text)
        if times != 1:
            sys.exit(f"figures: docs/{paper.name} has {times} places for {name}")
    paper.write_text(text)


def main(figures, words):
    """The command [print | write | hold | check] [ARCHIVES]. The module that it is has PAPER, its paper, and NAME, its own name; make_archives(),
    into a folder; by_kit(), the tables for which nothing has to run, and RIGHT, what to say of them where they are as in the paper; and
    every_table()."""
    what = words[0] if words else "print"
    if what not in ("print", "write", "hold", "check") or len(words) > 2:
        sys.exit(figures.__doc__)
    with tempfile.TemporaryDirectory() as made:
        work = Path(made)
        folder = Path(words[1]) if len(words) == 2 else work / "archives"
        if len(words) < 2:
            figures.make_archives(folder)
        if what == "check":
            check(figures.PAPER, figures.NAME, figures.by_kit(folder), figures.RIGHT)
        tables = figures.by_kit(folder) if what == "hold" else figures.every_table(folder, work)
        if what == "print":
            print("\n".join(f"{name}\n\n{made}" for name, made in tables.items()))
        else:
            write(figures.PAPER, tables)
