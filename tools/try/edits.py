#!/usr/bin/env python3
"""Holds each wrong edit to its own refusal; `rt` asks of a whole file of edits only that it is refused, and keeps no log of it.

A file crates/CRATE/must-fail/FILE.edit with lines `fn:` holds edits of different functions, tried together: a line `# NAME`, then `fn: FUNCTION`
with the function's folder in proofs/, then what `rt` replaces. Each such function must be refused by a fact of its own, and nothing beside
them may be, but what a line `also: FUNCTION` names, since it leans on the same constants. A file without a line `fn:` is one edit, of a
definition or a promise, by the name of the file: a proof must be refused by a fact of its own, and no definition. docs/CLAIMS.md names every
edit.

Each file is tried as `rt` does: a check of the crate with these edits, over what a check without them has proved.

usage: tools/try/edits.py [CRATE..]     behind `rt ci`, over the libraries that it has left; of CRATE only that one's edits
"""
import os
import re
import shutil
import sys
from collections import defaultdict
from concurrent.futures import ThreadPoolExecutor
from functools import cache
from pathlib import Path
from tempfile import TemporaryDirectory

ROOT = Path(__file__).resolve().parents[2]
sys.path.insert(0, str(ROOT / "tools"))
import kit

ERROR = re.compile(r"^(?:note: )?(?:\./)?(proofs|specs)/([^:\s]+):\d+:\d+: error: (.*)")
UNPROVED = re.compile(r"^note: src/\S+:\d+:\d+: it is not proved that .*")
FUNCTION = re.compile(r"^fn \w+::(\S+): (.*)")
CYCLE = re.compile(r"#\[cycle\((\w+)\)\]\s+(?:#.*\s+)*(?:pub )?fn (\w+)")
# a function's own proof files; the rest of proofs/ are lemmas
OWN = re.compile(r"(.*)/(?:Answers|Invariants|Proof)\.antt$")
# errors that refute no fact: of whoever needs what was refused, of a name that is not there, of code that was not looked at
NO_FACT = ("was not admitted", "was rejected, w", "is not in scope", "that can be named from here", "has no field", "this file exports no")
# of a goal that has no answer: its values are known at which it is false; or the search, which proved it before, does not prove it
FALSE = "the facts known there allow values at which this goal is false"
NOT_FOUND = "`search` did not prove"


def named(text):
    """Of a file of several edits, by the name of each the function that it is of."""
    return dict(re.findall(r"^# (\w+)\nfn: (\S+)$", text, re.M))


class File:
    """A file of edits: by name the function that each is of, None where the file is one edit of something else; and once it is tried its log."""

    def __init__(self, path):
        self.crate = path.parent.parent.name
        self.name = f"{self.crate}/{path.stem}"
        self.text = path.read_text()
        self.functions = named(self.text) or {path.stem: None}
        self.also = {plain(folder) for folder in re.findall(r"^also: (\S+)$", self.text, re.M)}
        if self.text.count("fn: ") != len({*self.functions.values()} - {None}):
            sys.exit(f"{self.name}: an edit without a name of its own, or two edits of one function")

    def apply(self, folder):
        """Writes what is edited; returns what is wrong with that."""
        for line in self.text.split("\n"):
            word, _, rest = line.partition(": ")
            if word == "file":
                path = folder / rest.strip()
            elif word == "old":
                old = rest
            elif line.startswith("new:"):
                was = path.read_text()
                if was.count(old) != 1:
                    return [f"its old text stands {was.count(old)} times in {path.relative_to(folder)}: {old}"]
                path.write_text(was.replace(old, rest))
        return []


# ---- what a log says


@cache
def folders(crate):
    """Of functions that call each other, by their names, the folder in proofs/ that they have in common."""
    sources = "".join(path.read_text() for path in (ROOT / "crates" / crate / "src").glob("*.rt"))
    return {name: f"+{cycle}" for cycle, name in CYCLE.findall(sources)}


def folder_of(crate, path):
    """The folder in proofs/ of a function, without the plus of one that calls itself."""
    *module, name = path.split("::")
    return folders(crate).get(name, "/".join([*module, name]))


def plain(folder):
    return re.sub(r"\+(?=\w+$)", "", folder)


def refused(crate, log):
    """The functions, by their folders, and the files beside these that are refused by a fact of their own; definitions with `specs/` in front."""
    found, notes = set(), ""
    for line in log.split("\n"):
        if error := ERROR.match(line):
            part, path, what = error.groups()
            if not any(words in what for words in NO_FACT):
                own = OWN.match(path)
                found.add(f"specs/{path}" if part == "specs" else plain(own[1]) if own else path)
        elif UNPROVED.match(line):
            notes += line
        elif function := FUNCTION.match(line):
            path, what = function.groups()
            if NOT_FOUND in what or FALSE in notes:
                found.add(plain(folder_of(crate, path)))
            notes = ""
    return found


def complaints(crate, functions, log, also=frozenset()):
    """What is wrong with edits of these functions, tried together, that left this log."""
    found = refused(crate, log) - also
    if None in functions.values():
        return [f"{name} has an error" for name in found if name.startswith("specs/")] or ([] if found else ["no fact is refused"])
    missed = [f"{name}: {function} is not refused by itself" for name, function in functions.items() if plain(function) not in found]
    return missed + [f"{other} is refused, and no edit of it is named" for other in sorted(found - {*map(plain, functions.values())})]


def without_errors_of(crate, folder, log):
    """The log of a check in which that function is proved."""
    kept, notes = [], []
    for line in log.split("\n"):
        function = FUNCTION.match(line)
        if UNPROVED.match(line):
            notes.append(line)
            continue
        if function and plain(folder_of(crate, function[1])) == plain(folder):
            notes = []
            continue
        error = ERROR.match(line)
        if not (error and (own := OWN.match(error[2])) and own[1] == folder):
            kept += [*notes, line] if function else [line]
            notes = [] if function else notes
    return "\n".join(kept)


def try_complaints(file):
    """An edit that is not refused, and one that is not named, would be seen."""
    for name, function in file.functions.items():
        if function is None:
            assert complaints(file.crate, file.functions, ""), file.name
        else:
            others = {other: f for other, f in file.functions.items() if other != name}
            assert complaints(file.crate, file.functions, without_errors_of(file.crate, function, file.log), file.also), f"{file.name}: {name}"
            assert complaints(file.crate, others, file.log, file.also), f"{file.name}: {name}"


# ---- the checks


def copied(folder, to):
    """What a check has proved, for one that goes on from there: it replaces a module's file and never writes into it, so that a second name will do."""

    def copy(one, other):
        if one.endswith(".oantt"):
            try:
                return os.link(one, other)
            except OSError:
                pass
        return shutil.copy2(one, other)

    shutil.copytree(folder, to, copy_function=copy)


def text_of(crate, to):
    """A copy of what a check of the crate reads."""
    for part in ("src", "specs", "proofs"):
        if (ROOT / "crates" / crate / part).is_dir():
            shutil.copytree(ROOT / "crates" / crate / part, to / part)


def begin(crate, room):
    """Checks the crate as it stands; what is wrong with it."""
    seed, begun = room / crate / "seed", ROOT / "crates" / crate / "out/incremental"
    (room / crate).mkdir()
    if begun.is_dir():
        copied(begun, seed)
    seed.mkdir(exist_ok=True)
    status, said = kit.rattle("check", crate, "--incremental", str(seed))
    return [] if status == 0 else [f"{crate} is not proved as it stands: {said.strip().splitlines()[-1]}"]


def try_one(file, room):
    """Checks the crate with the edits; what is wrong with them."""
    with TemporaryDirectory(dir=room / file.crate) as made:
        folder = Path(made)
        text_of(file.crate, folder)
        if wrong := file.apply(folder):
            return [f"{file.name}: {what}" for what in wrong]
        copied(room / file.crate / "seed", folder / "proved")
        status, file.log = kit.rattle("check", file.crate, "--incremental", str(folder / "proved"), folder=folder)
    if status != 1 or not file.log.rstrip().split("\n")[-1].startswith("logic=not-proved"):
        return [f"{file.name}: its check ended with status {status}: {file.log.strip()[-300:]}"]
    return [f"{file.name}: {what}" for what in complaints(file.crate, file.functions, file.log, file.also)]


def lanes():
    """How many checks may run side by side: as RT_JOBS says, or one a processor, where each takes up to three GB."""
    if number := os.environ.get("RT_JOBS"):
        return int(number)
    free = int(re.search(r"MemAvailable:\s+(\d+)", Path("/proc/meminfo").read_text())[1]) // 1_000_000
    return max(1, min(len(os.sched_getaffinity(0)), free // 3))


def tried(files):
    """What is wrong with any of the edits."""
    of = defaultdict(list)
    for file in files:
        kit.crate(file.crate)
        of[file.crate].append(file)
    with TemporaryDirectory() as made, ThreadPoolExecutor(lanes()) as pool:
        room = Path(made)
        # the crates with most edits first; all of these begin before the first edit is tried
        begun = {crate: pool.submit(begin, crate, room) for crate in sorted(of, key=lambda crate: -len(of[crate]))}
        tries = [(crate, pool.submit(lambda file=file, crate=crate: begun[crate].result() or try_one(file, room))) for crate in begun for file in of[crate]]
        return list(dict.fromkeys(what for _, it in tries for what in it.result()))


def unnamed(names):
    claims = (ROOT / "docs/CLAIMS.md").read_text()
    return [f"docs/CLAIMS.md does not name {name}" for name in names if f"`{name}`" not in claims]


def main():
    files = [File(path) for path in sorted(ROOT.glob("crates/*/must-fail/*.edit")) if path.parts[-3] in sys.argv[1:] or not sys.argv[1:]]
    names = [name for file in files for name in file.functions]
    wrong = tried(files) + unnamed(names)
    if wrong:
        sys.exit("\n".join(wrong))
    for file in files:
        try_complaints(file)
    print(f"{len(names)} wrong edits in {len(files)} checks, each refused by a fact of its own, and nothing beside them")


if __name__ == "__main__":
    main()
