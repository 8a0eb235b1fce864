#!/usr/bin/env python3
"""Counts the tree, and writes the counts where the papers show them, so that no number there is typed in by hand.

A paper has a count between two comments, <!-- NAME --> and <!-- end -->, where NAME is a function below, under "blocks"; what stands between is
written by it. What the gate's programs print as they run is no count of the tree: docs/NUMBERS.md has those phrases in its block of code under
"Counted by the gate", and with logs named here each of them must stand in one.

usage: tools/make/counts.py                    writes the counts
       tools/make/counts.py --check [LOG..]    the papers have them, and the logs have the phrases; writes nothing
"""
import re
import sys
import textwrap
from functools import cache
from pathlib import Path

ROOT = Path(__file__).resolve().parents[2]
sys.path.insert(0, str(ROOT / "tools/try"))
from edits import named

PAPERS = ["README.md", "docs/NUMBERS.md", "docs/TRUST.md"]
BLOCK = re.compile(r"(<!-- (\w+) -->\n).*?(<!-- end -->)", re.S)
FUNCTION = re.compile(r"^[ ]*(pub )?(extern \"C\" )?fn (\w+)", re.M)
# definitions that show what the definition says of some bytes, and the list of its files
POINTS = re.compile(r"(Points|Vectors|Decided|Lib)\.antt$")

# ---- what is counted


@cache
def text(path):
    return path.read_text()


def found(*patterns):
    return sorted(path for pattern in patterns for path in (ROOT / "crates").glob(pattern) if path.is_file())


def lines(paths, left_out=r"\s*$"):
    """The lines of these files but for those that match."""
    return sum(not re.match(left_out, line) for path in paths for line in text(path).splitlines())


def said(paths):
    """The lines that a reader reads: without blank ones, imports and lists of modules."""
    return lines(paths, r"\s*$|\s*(?:pub )?(?:use|mod) ")


def crates():
    """By name, whether it is a static library."""
    return {name: bool(static) for name, static in re.findall(r"^(\w+)( staticlib)?:", text(ROOT / "crates.txt"), re.M)}


def is_library(path):
    """Whether another crate can name this one."""
    return (path.parents[1] / "src/lib.rt").exists() and not crates().get(path.parts[-3])


def is_private(path):
    """Whether a file is a module that its crate does not hand on."""
    return path.stem != "lib" and f"pub mod {path.stem};" not in text(path.parent / "lib.rt")


def is_method(path, start):
    """Whether a function stands in an `impl`: whoever has the type has its methods, in whatever file they are."""
    return text(path)[start] == " "


@cache
def functions():
    """Each with its file, where it begins there, and whether it is public and exported to C."""
    return [(path, m.start(), m[1], m[2]) for path in found("*/src/*.rt") for m in FUNCTION.finditer(text(path))]


def public():
    """Those that another crate can call."""
    return [f for f in functions() if f[2] and is_library(f[0]) and (is_method(*f[:2]) or not is_private(f[0]))]


def exported():
    return [f for f in functions() if f[3]]


def promises():
    """The lines of `ensures` of the public functions of libraries."""
    heads = [re.split(r"\n *\{\n", text(path)[start:], maxsplit=1)[0] for path, start, *_ in public()]
    return [line for head in heads if "ensures" in head for line in head[head.index("ensures") :].splitlines()]


def edits():
    """The wrong edits: of a file of several the names in it, else the file's."""
    return [name for path in found("*/must-fail/*.edit") for name in named(text(path)) or [path.stem]]


def replayed(kind):
    """The lines of the list that begin so."""
    return len(re.findall(rf"^{kind} ", text(ROOT / "crates/vectors/stdin"), re.M))


def documents():
    return replayed("document") + replayed("limited")


def questions():
    """What is asked in front of the list."""
    return lines([ROOT / "crates/vectors/stdin"], r"\s*$|document |limited ")


def variants():
    return [*(ROOT / "diff/wrong").glob("*.edit")]


def definition():
    return [path for path in found("bson/specs/*.antt") if not POINTS.search(path.name)]


def points():
    return [path for path in found("bson/specs/*.antt") if POINTS.search(path.name) and path.stem != "Lib"]


def specs_of(crates):
    return [path for path in found("*/specs/*.antt") if path.parts[-3] in crates and path.stem != "Lib"]


# ---- blocks


def row(*cells):
    return f"| {' | '.join(str(cell) if isinstance(cell, str) else f'{cell:,}' for cell in cells)} |"


def proved():
    """What is proved, for the README."""
    words = (
        f"{len(crates())} crates with {len(functions())} functions, {len(public())} of them public in libraries and {len(exported())} "
        f"exported to C; {len(edits())} wrong edits are refused; {documents():,} documents with their answers, and {questions():,} questions, are replayed; "
        f"{len(variants())} wrong variants of the library are at hand, each to be caught."
    )
    return textwrap.fill(words, 100)


def counts():
    """All counts of the tree, for docs/NUMBERS.md."""
    return "\n".join(
        [
            row("Counted", ""),
            row("---", "---"),
            row("crates", len(crates())),
            row("functions", len(functions())),
            row("of these public in libraries", len(public())),
            row("others, exported to C", len(exported())),
            row("lines of code that are not blank", lines(found("*/src/*.rt"))),
            row("lines of definitions that are not blank", lines(found("*/specs/*.antt"))),
            row("lines of proof that are not blank", lines(found("*/proofs/**/*.antt"))),
            row("wrong edits, each refused", len(edits())),
            row("checks in which they are tried", len(found("*/must-fail/*.edit"))),
            row("questions that are replayed", questions()),
            row("of these sessions of the writer", replayed("write")),
            row("documents of the list", documents()),
            row("of these under a limit", replayed("limited")),
            row("wrong variants of the library", len(variants())),
        ]
    )


def signed():
    """What a signer reads, for docs/TRUST.md."""
    statements, boundary = {"theorems", "promises"}, {"c_answers", "fringewell"}
    besides = {path.parts[-3] for path in found("*/specs/*.antt")} - statements - boundary - {"bson"}
    rows = [
        ("the definition", "`crates/bson/specs`, without its lists of points", definition()),
        ("its points, each with the answer that is proved of it", "`crates/bson/specs`: `Vectors`, `Decided`, `*Points`", points()),
        ("the statements", "`crates/theorems/specs`, `crates/promises/specs`", specs_of(statements)),
        ("what each answer of the code says on paper", "every `Said.antt` of `crates/*/specs`", found("*/specs/Said.antt")),
        ("the numbers of the boundary", "`crates/c_answers/specs`, `crates/fringewell/specs`", specs_of(boundary)),
        ("what else a promise may cite", "the other files of `crates/*/specs`", [path for path in specs_of(besides) if path.stem != "Said"]),
    ]
    table = [row("What", "Where", "Files", "Lines"), row("---", "---", "---:", "---:")]
    table += [row(what, where, len(paths), said(paths)) for what, where, paths in rows]
    sources = {path for path, *_ in public()}
    table.append(row("the promises of the public functions", "the `ensures` clauses in `crates/*/src`", len(sources), len(promises())))
    table.append(row("what C is told", "`include/fringewell.h`", 1, lines([ROOT / "include/fringewell.h"])))
    return "\n".join(table)


BLOCKS = {block.__name__: block for block in (proved, counts, signed)}

# ---- the papers


def written(paper):
    return BLOCK.sub(lambda m: f"{m[1]}{BLOCKS[m[2]]()}\n{m[3]}", text(ROOT / paper))


def phrases():
    """The lines of the block of code under "Counted by the gate"."""
    return re.search(r"## Counted by the gate\n.*?```\n(.*?)\n```", text(ROOT / "docs/NUMBERS.md"), re.S)[1].splitlines()


def main():
    check, *logs = sys.argv[1:] or [""]
    if check not in ("", "--check"):
        sys.exit(__doc__)
    if not check:
        for paper in PAPERS:
            (ROOT / paper).write_text(written(paper))
        return
    shown = [m[2] for paper in PAPERS for m in BLOCK.finditer(text(ROOT / paper))]
    ran = "".join(Path(log).read_text() for log in logs)
    asked = phrases() if logs else []
    wrong = [paper for paper in PAPERS if written(paper) != text(ROOT / paper)]
    wrong += [f"block {name}" for name in BLOCKS if shown.count(name) != 1]
    wrong += [phrase for phrase in asked if not re.search(rf"(?<!\d){re.escape(phrase)}", ran)]
    print(f"{len(BLOCKS)} blocks of counts, {len(asked)} phrases" + "".join(f"; {what!r} differs" for what in wrong))
    sys.exit(1 if wrong else 0)


if __name__ == "__main__":
    main()
