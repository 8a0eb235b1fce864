#!/usr/bin/env python3
"""Holds the names of docs/CLAIMS.md to the tree: each is there, and where the line says.

A path must exist, written from the root, from crates/, or by its end alone. Names right before a path (`a`, `b`, laws/proofs/X.antt), and the
first name of a cell with a path, must be declared in that file; of names in brackets, and of those beside no path, it is asked only that something
is called so. In a table the column says more: under "Function" stand `crate::function` and further functions of that crate, under "Determined by"
theorems of the row's crate, one for each function of the row, and under "Refused edits" edits of the crate in front (`bson: ..`), else of the row's.

usage: tools/try/claims.py
"""
import os
import re
import sys
from collections import Counter, namedtuple
from functools import cache
from pathlib import Path

from edits import named

ROOT = Path(__file__).resolve().parents[2]
# names that are not the repository's: of the language, its tools and its library, of C, and of the Rust; and a line that a program prints
OUTSIDE = {"&[u8]", "ensures", "requires", "rt ci", "leb", "get_or", "memset", "snprintf", "read", "write", "TooLongCStr", "max_cstr_parse_len", "unread", "Some", "None"}
KIT = re.compile(r"rattle-kit-\S+ logic [0-9a-f]+")
FOLDERS = r"\.ci|bench|c|crates|diff|docs|include|samples|tools"
ITEM = re.compile(rf"`([^`]+)`|\b((?:[\w+]+/)+[\w+]+\.\w+|[A-Z]\w+\.antt|(?:{FOLDERS})/[\w/]+\w)")
# what may stand between a name and the path that it is said of
JOINT = re.compile(r"[\s,()]*(?:and|of|each from)?[\s,()]*")
DECLARED = re.compile(r"^[ ]*(?:(?:pub|abbrev|unfoldable) )*(?!let |--|use )((?:[^\s(){}:=]+ )+)(?:[({][^:\n]*:.*)?: ", re.M)

# folders of what is built
MADE = {".git", "target", "out", "build", "__pycache__"}

Claim = namedtuple("Claim", "kind name where")  # where: a path, a crate, or None for anywhere


@cache
def files():
    """The files and folders, without those of what is built."""
    found = []
    for folder, folders, names in os.walk(ROOT):
        folders[:] = [name for name in folders if name not in MADE]
        found += [Path(folder, name).relative_to(ROOT).as_posix() for name in folders + names]
    return found


@cache
def paths(name):
    """What a path stands for; NAME and FUNCTION in it are any."""
    end = re.compile(r"(?:.*/)?" + re.escape(name).replace("NAME", "[^/]+").replace("FUNCTION", ".+") + "$")
    return [path for path in files() if end.match(path)]


@cache
def declared(path):
    """The names that a file declares."""
    text = (ROOT / path).read_text()
    if path.endswith(".antt"):
        several = {name for names in DECLARED.findall(text) for name in names.split()}
        return several | set(re.findall(r"^[ ]*(?:pub )?(?:record|data) (\S+)", text, re.M))
    return set(re.findall(r"\b(?:fn|struct|enum|const|static|type) (\w+)", text))


@cache
def declared_in(pattern):
    return {name for path in files() if re.match(pattern, path) for name in declared(path)}


def antt_of(crate):
    return declared_in(rf"crates/{crate}/(?:proofs|specs)/.*\.antt$")


@cache
def code_of(crate, module=""):
    return declared_in(rf"crates/{crate}/src/{module or '.*'}\.rt$")


@cache
def edits(crate):
    found = set()
    for path in ROOT.glob(f"crates/{crate}/must-fail/*.edit"):
        found |= {*named(path.read_text())} or {path.stem}
    return found


@cache
def crates():
    """The crates, and their modules as CRATE::MODULE."""
    found = {path.name for path in (ROOT / "crates").iterdir()}
    return found | {f"{path.parts[-3]}::{path.stem}" for path in ROOT.glob("crates/*/src/*.rt")}


@cache
def exported():
    return set(re.findall(r"\b(\w+)\(", "".join(path.read_text() for path in ROOT.glob("include/*.h"))))


def is_function(name, crate):
    """Whether FUNCTION, CRATE::FUNCTION or CRATE::MODULE::FUNCTION is one; a method has its type in front."""
    *front, function = re.sub(r"\b[A-Z]\w*::", "", name).split("::")
    return function in code_of(front[0] if front else crate, "/".join(front[1:]))


def anywhere(name):
    return name in crates() | antt_of("[^/]+") | code_of("[^/]+") | edits("*") | exported()


def expression(text):
    """The words of an expression that must be names: the first, and those with a capital; of `name : type` the name, and those of the type."""
    name, _, of = text.partition(" : ")
    words = re.findall(r"[^\s().,]+", name)
    return words[:1] + [word for word in words[1:] + re.findall(r"[^\s().,]+", of) if word[:1].isupper() and len(word) > 1]


def missing(claim):
    """Whether what is claimed is not there."""
    kind, name, where = claim
    if kind == "path":
        return not paths(name)
    if kind == "edit":
        return name not in edits(where or "*")
    if kind == "function":
        return not is_function(name, where)
    if kind == "theorem":
        return name not in antt_of(where)
    if kind == "ending":
        return not any(function.endswith(name) for function in exported())
    if kind == "declared":
        return not any(name in declared(path) for path in paths(where))
    return name not in OUTSIDE and not anywhere(name)


def of_text(text, cell=False):
    """The claims of a text in which no column says what a name is."""
    items = [(m, m[1] or m[2], text.count("(", 0, m.start()) - text.count(")", 0, m.start())) for m in ITEM.finditer(text)]
    bound = {}
    for i, (m, path, depth) in enumerate(items):
        if not re.search(r"\.(antt|rt)$", path):
            continue
        if cell and depth == 0 and not bound and ";" not in text[: m.start()]:
            bound[0] = path
        at = i
        while at and JOINT.fullmatch(text[items[at - 1][0].end() : items[at][0].start()]) and items[at - 1][0][1] and items[at - 1][2] >= depth:
            at -= 1
            if items[at][2] == depth:
                bound[at] = path
    crate = None
    for i, (m, name, _) in enumerate(items):
        gap = text[items[i - 1][0].end() if i else 0 : m.start()]
        named = [word for word in re.findall(r"\((\w+): ", gap) if word in crates()]
        crate = named[-1] if named else None if re.search(r"[.;)]", gap) else crate
        yield from of_item(name, m[1] is None, bound.get(i), crate)


def of_item(name, bare, path, crate):
    if bare or re.match(rf"(?:{FOLDERS})/|\w+\.(?:edit|antt)$", name):
        yield Claim("path", name.split()[0], None)
    elif name.startswith("…"):
        yield Claim("ending", name[1:], None)
    elif "::" in name and name not in crates():
        yield Claim("function", name, None)
    elif crate:
        yield Claim("edit", name, crate)
    elif name in OUTSIDE:
        yield Claim("any", name, None)
    elif not KIT.fullmatch(name) and not name.startswith(("-", "_")):
        first, *others = expression(name)
        yield Claim("declared", first, path) if path else Claim("any", first, None)
        yield from (Claim("any", word, None) for word in others)


def of_functions(cell):
    """The claims of a cell of functions: CRATE::FUNCTION, then further ones of that crate; or a crate or a module, of which each is meant."""
    crate = None
    for name in re.findall(r"`([^`]+)`", cell):
        if name in crates():
            yield Claim("any", name, None)
            continue
        *front, function = name.split("::")
        crate = front or crate
        yield Claim("function", "::".join([*crate, function]), None)


def of_edits(cell, crate):
    """The claims of a cell of edits; a function may stand there too, whose edits are meant."""
    for gap, name in re.findall(r"([^`]*)`([^`]+)`", cell):
        named = [word for word in re.findall(r"\b(\w+): ", gap) if word in crates()]
        crate = named[-1] if named else crate
        yield Claim("function", name, crate) if "those of " in gap else Claim("edit", name, crate)


def of_row(columns, cells):
    functions = []
    for column, cell in zip(columns, cells):
        crate = functions[0].name.split("::")[0] if functions else None
        if column == "Function":
            claims = [*of_functions(cell)]
            functions = [claim for claim in claims if claim.kind == "function"]
        elif column == "Determined by" and functions:
            claims = [Claim("theorem", name, crate) for name in re.findall(r"`([^`_][^`]*)`", cell)]
            claims += [Claim("theorem", f.name.split("::")[-1] + "_determined", f.name.split("::")[0]) for f in functions]
        elif column == "Refused edits":
            claims = [*of_edits(cell, crate)]
        else:
            claims = [*of_text(cell, cell=True)]
        yield from claims


def claims(text):
    """Each name of the document, with what is said of it."""
    columns = None
    for block in re.split(r"\n\n|\n(?=\|)", text):
        if not block.startswith("|"):
            yield from of_text(block)
            columns = None
            continue
        cells = [cell.strip() for cell in block.strip().strip("|").split("|")]
        if columns is None:
            columns = cells
        elif set(block) - set("|-\n"):
            yield from of_row(columns, cells)


def main():
    found = list(dict.fromkeys(claims((ROOT / "docs/CLAIMS.md").read_text())))
    wrong = [f"{claim.kind} {claim.name}" + (f", {claim.where}" if claim.where else "") for claim in found if missing(claim)]
    wrong += [f"{name} is not named, and stands in the list of this program" for name in sorted(OUTSIDE - {claim.name for claim in found})]
    if wrong:
        sys.exit("docs/CLAIMS.md names what is not there:\n" + "\n".join(wrong))
    for claim in found:  # a wrong name, and one in the wrong place, would be seen
        assert missing(claim._replace(name=claim.name + "no")), claim
        if claim.where:
            assert missing(claim._replace(where="no/No.antt" if claim.kind == "declared" else "no")), claim
    number = Counter(claim.kind for claim in found)
    others = number["declared"] + number["theorem"] + number["any"] + number["ending"]
    print(f"{number['path']} paths, {number['function']} functions, {number['edit']} edits and {others} other names in docs/CLAIMS.md, each there")


if __name__ == "__main__":
    main()
