#!/usr/bin/env python3
"""Makes the table of docs/GATE.md from the log of one run of the gate and from the tree.

usage: tools/gate_table.py [LOG]

Run it at the top of the repository. LOG is what tools/gate_times.py wrote. Without it, or for a crate or a part
that it does not name, the minutes are left out. The table is put between the two markers of docs/GATE.md.

Lines of code are those of src/ without blank lines, comments, imports of definitions (`ghost use`) and tests;
contracts count as code. Lines of definitions are those of specs/, and lines of proofs those of proofs/, without
blank lines, comments and imports; proofs of tests are left out. Functions are those of the code, trait members
included. Tests are functions under `#[test]`.
"""

import os
import re
import sys

PAGE = "docs/GATE.md"
BEGIN, END = "<!-- tools/gate_table.py: begin -->", "<!-- tools/gate_table.py: end -->"
PARTS = ("crate", "tests", "edits")
HEAD = ("Crate", "Code", "Definitions", "Proofs", "Functions", "Edits", "Tests", *(f"Minutes, {it}" for it in PARTS), "Minutes")


def text_of(path):
    with open(path, encoding="utf-8") as file:
        return file.read()


def files_below(folder, ending):
    """Returns the paths of the files below a folder with an ending, in order."""
    found = (f"{at}/{name}" for at, _, names in os.walk(folder) for name in names if name.endswith(ending))
    return sorted(found)


def lines_of(text, mark, imports):
    """Returns the lines that are not blank, no comment and no import."""
    lines = (line.strip() for line in text.split("\n"))
    return [line for line in lines if line and not line.startswith((mark, *imports))]


def test_modules(folder):
    """Returns the paths, without an ending, of the modules that are compiled for tests alone."""
    tops = [it for it in (f"{folder}/src/lib.rt", f"{folder}/src/main.rt") if os.path.isfile(it)]
    return [f"{folder}/src/{name}" for top in tops for name in re.findall(r"#\[cfg\(test\)\]\s*mod (\w+);", text_of(top))]


def split_code(folder):
    """Returns the text of a crate's code and the text of its tests."""
    modules, code, tests = test_modules(folder), [], []
    for path in files_below(f"{folder}/src", ".rt"):
        is_test = any(path == f"{it}.rt" or path.startswith(f"{it}/") for it in modules)
        (tests if is_test else code).append(re.sub(r"#\[cfg\(test\)\]\s*mod \w+;", "", text_of(path)))
    return "\n".join(code), "\n".join(tests)


def counts_of(crate):
    """Returns the counts of a crate, in the order of the head."""
    folder = f"crates/{crate}"
    code, tests = split_code(folder)
    code = lines_of(code, "//", ("ghost use ", "pub ghost use "))
    antt = {part: files_below(f"{folder}/{part}", ".antt") for part in ("specs", "proofs")}
    antt["proofs"] = [it for it in antt["proofs"] if not it.startswith(f"{folder}/proofs/tests/")]
    written = [sum(len(lines_of(text_of(it), "--", ("use ", "pub use ", "pub mod ", "mod "))) for it in antt[part]) for part in antt]
    functions = sum(len(re.findall(r"^(?:pub(?:\([a-z]+\))? )?(?:const )?(?:unsafe )?fn \w", line)) for line in code)
    edits = len(files_below(f"{folder}/must-fail", ".edit"))
    return [len(code), *written, functions, edits, tests.count("#[test]")]


def crates_of():
    """Returns the crates in the order of crates.txt."""
    lines = (line.partition("#")[0] for line in text_of("crates.txt").split("\n"))
    return [line.partition(":")[0].split()[0] for line in lines if ":" in line]


def times_in(log):
    """Returns the seconds of each crate and part that a log names."""
    return {(crate, part): float(used) for crate, part, used in re.findall(r"^gate_times (\w+) (\w+) ([\d.]+)$", log, re.M)}


def minutes(seconds):
    return f"{seconds / 60:.1f}"


def row(cells):
    return f"| {' | '.join(map(str, cells))} |"


def minutes_of(crate, times):
    """Returns the minutes of each part of a crate, and of all of them."""
    parts = [times.get((crate, part)) for part in PARTS]
    known = [it for it in parts if it is not None]
    return ["" if it is None else minutes(it) for it in parts] + [minutes(sum(known)) if known else ""]


def table(times):
    crates = crates_of()
    counts = {crate: counts_of(crate) for crate in crates}
    lines = [row(HEAD), row(["---", *["---:"] * (len(HEAD) - 1)])]
    lines += [row([crate, *counts[crate], *minutes_of(crate, times)]) for crate in crates]
    sums = [sum(column) for column in zip(*counts.values())]
    parts = [sum(times.get((crate, part), 0) for crate in crates) for part in PARTS]
    lines.append(row(["all", *sums, *(map(minutes, [*parts, sum(parts)]) if times else [""] * 4)]))
    if ("all", "total") in times:
        whole = "That run took {} processor minutes in all, those of `rt` itself among them, and {} minutes on the clock."
        lines += ["", whole.format(*(f"{times['all', part] / 60:.0f}" for part in ("total", "elapsed")))]
    return "\n".join(lines)


def main(words):
    if len(words) > 1 or words[:1] in (["-h"], ["--help"]):
        print(__doc__, end="", file=sys.stderr)
        return 2
    page = text_of(PAGE)
    if page.count(BEGIN) != 1 or page.count(END) != 1:
        print(f"gate_table: {PAGE} has not each of the two markers once: {BEGIN} {END}", file=sys.stderr)
        return 1
    before, _, rest = page.partition(BEGIN)
    made = table(times_in(text_of(words[0])) if words else {})
    with open(PAGE, "w", encoding="utf-8") as file:
        file.write(f"{before}{BEGIN}\n{made}\n{END}{rest.partition(END)[2]}")
    return 0


if __name__ == "__main__":
    sys.exit(main(sys.argv[1:]))
