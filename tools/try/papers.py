#!/usr/bin/env python3
"""Holds the papers to the tree and to each other.

Every citation of RULES.md names a section, a request or a module that is there, and the words that a definition or a statement quotes are the
rules' own; the numbers of the header have their rows in RULES.md, and fringewell_describe tells each by the words of the enum. What is exported
to C promises what the function of its name in fringewell does. Links lead somewhere. The README shows crates/example as it is; the map has a
row for each group of crates.txt, and each theorem of its index is in its file. Prose, and of the README the code too, has lines of at most 100
characters. And no contract cites a proof, so that what a signer reads is all in src and specs.

usage: tools/try/papers.py
"""
import re
import sys
from functools import cache
from pathlib import Path

import claims

ROOT = Path(__file__).resolve().parents[2]
WIDTH = 100
NAMED = r'"[^"]+"|requests? \d+(?: and \d+)*|modules? \d+(?: and \d+)*'
CITED = re.compile(rf"RULES\.md\)?, ((?:(?:, |; | and |, and )?(?:{NAMED}))+)")
ELSEWHERE = re.compile(r"\bdocument[ ]0[12]\b", re.I)
# what is no text to read
NO_TEXT = {"samples", "stdin", "stdout", "Cargo.lock"}
# the grammar quotes BSON 1.1 rule by rule
QUOTES_BSON = re.compile(r"Grammar(Points)?\.antt$")


@cache
def text(path):
    return (ROOT / path).read_text(errors="replace")


@cache
def files():
    """What is written by hand, or by a script and read by hand."""
    return sorted(path for path in claims.files() if (ROOT / path).is_file() and not NO_TEXT & {*Path(path).parts})


def papers():
    return [path for path in files() if path.endswith(".md")]


def one_line(words):
    return re.sub(r"\s+", " ", words)


@cache
def headings(path):
    return re.findall(r"^#+ (.*)", text(path), re.M)


def joined(words):
    """The words of a comment that goes on from line to line."""
    return one_line(re.sub(r"\n *(?:--|//!?|#|\*)", " ", words))


def comments(path):
    for block in re.findall(r"(?:^ *(?:--|//|#|/?\*).*\n)+|(?:--|//) .*", text(path), re.M):
        yield joined(block)


# ---- what is asked


def is_rule(name):
    if name.startswith('"'):
        return name.strip('"') in headings("docs/RULES.md")
    if name.startswith("request"):
        there = "".join(f"{heading}\n" for heading in headings("docs/RULES.md"))
        return all(f"Request {n}:" in there for n in re.findall(r"\d+", name))
    modules = text("docs/RULES.md").split("\n## Modules\n")[1].split("\n## ")[0]
    return all(re.search(rf"^{n}\. ", modules, re.M) for n in re.findall(r"\d+", name))


@cache
def citations():
    return [(path, name) for path in files() for cited in CITED.findall(joined(text(path))) for name in re.findall(NAMED, cited)]


def wrong_citations():
    """Those of a rule that is not there, and those of a paper that no reader has."""
    yield from (f"{path} cites {name}, which RULES.md has not" for path, name in citations() if not is_rule(name))
    yield from (f"{path} cites a numbered document" for path in files() if ELSEWHERE.search(joined(text(path))))


def quotations():
    """What definitions and statements quote, and the demands at the head of the claims."""
    for path in files():
        if re.match(r"crates/\w+/specs/", path) and not QUOTES_BSON.search(path):
            for comment in comments(path):
                yield from ((path, quote) for quote in re.findall(r'"([^"]+)"', re.sub(r'BSON 1\.1, "[^"]*"', "", comment)))
    for block in re.findall(r"(?:^> .*\n)+", text("docs/CLAIMS.md"), re.M):
        yield "docs/CLAIMS.md", re.search(r'"(.*)"', one_line(block.replace("\n> ", " ")))[1]


def wrong_quotes():
    rules = one_line(text("docs/RULES.md")).lower()
    for path, quote in quotations():
        if any(part.strip(" ,;").lower() not in rules for part in quote.split("[..]")):
            yield f"{path} quotes {quote!r}, which RULES.md does not say"


def header_numbers():
    """The numbers of the header's enum: name, number, and the words behind it."""
    return re.findall(r"FRINGEWELL_(\w+) = (\d+)\b,?(?: +/\* (.*) \*/)?", text("include/fringewell.h"))


def wrong_numbers():
    header = {(name, number) for name, number, _ in header_numbers()}
    rows = {(name, number) for number, name in re.findall(r"^\| (\d+) \| `(\w+)` \|", text("docs/RULES.md"), re.M)}
    return [f"{name} = {number}: not in the header and in RULES.md both" for name, number in header ^ rows ^ {("OK", "0")}]


def wrong_words():
    listed = {(name, words) for name, _, words in header_numbers()}
    told = {*re.findall(r'case FRINGEWELL_(?!TAG_)(\w+):\n *return "(.*)";', text("include/fringewell.h"))}
    return [f"{name}: not in the header's enum and in fringewell_describe both: {words!r}" for name, words in listed ^ told]


def anchor(heading):
    return re.sub(r"[^\w\- ]", "", heading.lower()).replace(" ", "-")


def wrong_links():
    for path in papers():
        for target in re.findall(r"\]\(([^)\s]+)\)", text(path)):
            name, _, section = target.partition("#")
            if "://" in target:
                continue
            to = (ROOT / path).parent / name if name else ROOT / path
            if not to.exists():
                yield f"{path}: no {target}"
            elif section and section not in map(anchor, headings(to.resolve().relative_to(ROOT).as_posix())):
                yield f"{path}: no section {target}"


def wrong_lines():
    for path in papers() + ["NOTICE"]:
        passed_over = () if path == "README.md" else ("|", "    ")
        prose = re.sub(r"^```.*?^```", "", text(path), flags=re.M | re.S)
        yield from (f"{path}: longer than {WIDTH}: {line}" for line in prose.split("\n") if len(line) > WIDTH and not line.startswith(passed_over))


def wrong_readme():
    """What the README shows of the tree, as it is there; and its rows of measurements, which docs/NUMBERS.md has too."""
    shown = text("crates/example/src/main.rt").replace("\n", "\n    ").replace("\n    \n", "\n\n").strip()
    line = re.search(r"^example:[^#\n]*", text("crates.txt"), re.M)[0].strip()
    printed = (ROOT / "samples/beacon.txt").read_text() + (ROOT / "crates/example/stdout").read_text()
    lines = re.findall(r"^    (offset tag size|\d.*|accepted.*|battery low.*|joined.*)$", text("README.md"), re.M)
    rows = [row for row in re.findall(r"^\|.*", text("README.md"), re.M) if re.search(r"\d\.\d\d", row)]
    yield from (f"README.md does not show {what.splitlines()[0]!r}" for what in (shown, line) if f"    {what}" not in text("README.md"))
    yield from (f"README.md: not printed: {line}" for line in lines if f"{line}\n" not in printed)
    yield from (f"README.md: not in docs/NUMBERS.md: {row}" for row in rows if row not in text("docs/NUMBERS.md"))
    if not (lines and rows):
        yield "README.md shows no lines that are printed, or no measurements"


def wrong_architecture():
    """Each group of crates.txt has its row, and each theorem of the index is declared in a file of its row."""
    page = text("docs/ARCHITECTURE.md")
    rows = re.findall(r"^\| (.+?) \|", page.split("\n## The map\n")[1].split("\n### ")[0], re.M)
    groups = re.findall(r"^# ---- (.*)", text("crates.txt"), re.M)
    yield from (f"docs/ARCHITECTURE.md has no row for {group!r}" for group in groups if not group.startswith(tuple(rows)))
    for _, theorems, where in (line.split(" | ") for line in page.split("\n## Theorems by claim\n")[1].split("\n") if ".antt" in line):
        there = {name for path in re.findall(r"[\w/]+\.antt", where) for name in claims.declared(f"crates/{path}")}
        yield from (f"docs/ARCHITECTURE.md: {name} is not in {where.strip(' |')}" for name in re.findall(r"`([^`]+)`", theorems) if name not in there)


def wrong_contracts():
    """Sources and definitions that cite a proof; what the toolchain writes of a promise, `Reads`, is none, nor is its library of mathematics."""
    sources = [path for path in files() if re.match(r"crates/\w+/(?:src|specs)/", path)]
    return [f"{path} cites a proof" for path in sources if re.search(r"^(?:ghost )?use (?!Rattle\.std\.).*\.proofs\.(?!.*\.Reads\b)", text(path), re.M)]


def heads(path):
    """The functions of a source, each with what stands before its body: parameters, answer and clauses."""
    found = re.findall(r"^pub (?:extern \"C\" )?fn (\w+)\((.*?)\n\{\n(.*?)\n\}$", text(path), re.M | re.S)
    return {name: (re.sub(r"\s+|,(?=\s*\))", "", head), body) for name, head, body in found}


def wrong_exports():
    """What is exported to C is one call of the function of its name in fringewell, and says what that says."""
    inner, outer = heads("crates/fringewell/src/lib.rt"), heads("crates/fringewell_c/src/lib.rt")
    yield from (f"{name}: not in both fringewell and fringewell_c" for name in sorted(inner.keys() ^ outer.keys()))
    for name in sorted(inner.keys() & outer.keys()):
        (head, _), (said, body) = inner[name], outer[name]
        lent = ", ".join(re.findall(r"(?:^|,)(\w+):", head.split(")->")[0]))
        if (head, f"fringewell::{name}({lent})") != (said, re.sub(r"\s+", " ", body.strip())):
            yield f"fringewell_c::{name} is not what fringewell::{name} is"


def main():
    assert not any(map(is_rule, ('"No section"', "request 99", "modules 1 and 99"))) and citations()
    asked = [wrong_citations, wrong_quotes, wrong_numbers, wrong_words, wrong_links, wrong_lines, wrong_readme]
    asked += [wrong_architecture, wrong_contracts, wrong_exports]
    wrong = [what for ask in asked for what in ask()]
    if wrong:
        sys.exit("\n".join(wrong))
    print(f"{len(papers())} papers, whose links lead somewhere; {len(citations())} citations of RULES.md, each of what is there")


if __name__ == "__main__":
    main()
