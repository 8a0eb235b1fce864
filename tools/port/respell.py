#!/usr/bin/env python3
"""Spells the definitions, lemmas and local names of specs/ and proofs/ in snake case, once, behind port.py.

usage: tools/port/respell.py     at the top, in a tree that port.py turned and that is not yet proved
Types and modules keep their camel case, and what other libraries or Rattle itself name keeps its spelling. A lemma that would fall together with the
definition that it is of gets `_law` behind its name.
"""
import collections
import os
import re
import sys
from pathlib import Path

ROOT = Path(__file__).resolve().parents[2]
CRATES = ROOT / "crates"
TOKEN = r"[^\s(){}\[\],.;:«»|]+"
SPLIT = re.compile(r"(--[^\n]*|«[^»]*»|" + TOKEN + r")")
USE = re.compile(r"^[ \t]*use (\S+?)(?:\.\{([^}]*)\})?(?: as (\S+))?[ \t]*$", re.M)
# what Rattle makes of the code, by paths of its own
MADE = re.compile(r"\.(?:proofs\.\S*\.(?:Statement|Tie|Kinds|Reads|Goals|Given)|specs\.(?:contracts|declared)\.\S*|TheVariants)$")
# names made by a library that the port's scripts could not see as such, and names of the code
KEPT = {"at", "zero-add"}


def odd(name):
    """Whether a name is not in snake case, and is no type or module."""
    return not name[0].isupper() and bool(re.search(r"\w-\w|[a-z0-9][A-Z]", name)) and bool(re.fullmatch(r"[\w'′₀-₉-]+", name))


def snake(name):
    name = re.sub(r"(?<=\w)-(?=\w)", "_", name)
    return re.sub(r"(?<=[a-z0-9])([A-Z])", lambda m: "_" + m.group(1).lower(), name)


def without_comments(text):
    return re.sub(r"--[^\n]*", "", text)


class File:
    def __init__(self, path):
        self.path = path
        self.text = path.read_text()
        bare = without_comments(self.text)
        self.others, self.ours, self.aliases = set(), set(), set()
        for where, items, alias in USE.findall(bare):
            words = where.split(".")
            ours = words[0] == "Rattle" and len(words) > 1 and (CRATES / words[1]).is_dir() and not MADE.search(where)
            ours = ours or words[0] != "Rattle" and words[0] in self.aliases
            for item in (i.strip() for i in items.split(",") if i.strip()):
                name, *other = item.split(" as ")
                (self.ours if ours else self.others).add(name)
                self.aliases.update(other)
            if alias:
                self.aliases.add(alias)
            if not items:
                self.aliases.add(words[-1])
        self.body = USE.sub("", bare)
        proof = path.name in ("Proof.antt", "Answers.antt", "Invariants.antt")
        heads = re.findall(r"^[ \t]*(?:(?:pub|abbrev|unfoldable|opaque|data|record) )*(" + TOKEN + r"(?: " + TOKEN + r")*) :(?=\s)", self.body, re.M)
        self.defined = {name for head in heads for name in head.split()}
        if proof:
            self.lemmas, self.defined = self.defined, set()
        self.local = self.bound()

    def bound(self):
        found = set()
        for pattern in (r"[({]((?:" + TOKEN + r" )+):\s", r"λ ([^.]*?)\. ", r"\blet \(?(" + TOKEN + r"(?:, " + TOKEN + r")*)\)? (?:=|:)"):
            for names in re.findall(pattern, self.body):
                found.update(re.findall(TOKEN, names))
        for head in re.findall(r"^[ \t]*(" + TOKEN + r" [^\n=:]*?) =(?=\s)", self.body, re.M):
            found.update(re.findall(TOKEN, head)[1:])
        return found


def new_names(files):
    """By the old name of each definition the new one, where these differ."""
    defined = collections.defaultdict(set)
    for f in files:
        for name in f.defined | f.aliases:
            defined[name].add(f.path)
    groups = collections.defaultdict(set)
    for name in defined:
        if not name[0].isupper():
            groups[snake(name)].add(name)
    renamed = {}
    for to, names in groups.items():
        camel = {n for n in names if re.search(r"[a-z0-9][A-Z]", n)}
        first = (camel or {to} & names or names)
        for name in names:
            if len(names) > 1 and name not in first:
                renamed[name] = to + "_law"
            elif odd(name):
                renamed[name] = to
    return renamed


def respelled(text, renamed, local, kept, dotted):
    out, last = [], 0
    for m in SPLIT.finditer(text):
        word = m.group()
        out.append(text[last : m.start()])
        last = m.end()
        if word.startswith(("--", "«")):
            out.append(re.sub(r"`([\w'-]+)`", lambda q: "`" + renamed.get(q.group(1), q.group(1)) + "`", word))
            continue
        projected = text[m.start() - 1 : m.start()] == "."
        if projected:
            word = renamed.get(word, word) if dotted(word) else word
        elif word not in kept:
            word = renamed.get(word) or (snake(word) if word in local and odd(word) else word)
        out.append(word)
    return "".join(out + [text[last:]])


CLAUSE = re.compile(r'//[^\n]*|"(?:[^"\\]|\\.)*"|\'[^\'\\]\'|' + r"[A-Za-z_][\w'-]*")


def respelled_code(text, renamed):
    def turn(m):
        word = m.group()
        if word.startswith(("//", '"', "'")):
            return word
        return renamed[word] if word in renamed and (odd(word) or text[: m.start()].rsplit("\n", 1)[-1].strip().startswith(("ghost", "ensures", "requires"))) else word

    return CLAUSE.sub(turn, text)


def main():
    files = [File(p) for p in sorted(CRATES.glob("*/*/**/*.antt")) if "out" not in p.relative_to(CRATES).parts]
    renamed = new_names(files)
    for f in files:
        kept = f.others | KEPT
        text = respelled(f.text, renamed, f.local, kept - f.defined, lambda word: word not in f.others)
        # two names of one file that fall together are said
        seen = collections.defaultdict(set)
        for word in set(re.findall(TOKEN, without_comments(f.text))) - kept:
            to = renamed.get(word) or (snake(word) if word in f.local and odd(word) else word)
            seen[to].add(word)
        for to, words in seen.items():
            if len(words) > 1:
                print(f"look: {f.path.relative_to(ROOT)}: {' '.join(sorted(words))} become {to}")
        f.path.write_text(text)
    for path in sorted(CRATES.glob("*/src/**/*.rt")):
        path.write_text(respelled_code(path.read_text(), renamed))
    print(f"{len(renamed)} definitions have another spelling")


if __name__ == "__main__":
    sys.exit(main())
