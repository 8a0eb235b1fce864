#!/usr/bin/env python3
"""Makes what the vectors program replays.

crates/vectors/stdin holds questions, sessions of the writer among them, then the list: a document a line with every answer about it, those under a
limit last (diff/README.md says the form). The answers come from the rules (tools/rules) and, for the list, are held against the Rust's.

usage: tools/make/cases.py --check           the files are what the rules say; needs no Rust
       tools/make/cases.py ORACLE            asks the oracle program too, and writes the files where it agrees with the rules
       tools/make/cases.py --check ORACLE    the same, and writes nothing
"""
import re
import subprocess
import sys
from functools import cache
from pathlib import Path

ROOT = Path(__file__).resolve().parents[2]
sys.path.insert(0, str(ROOT / "tools"))
from rules import documents as making
from rules import rules, writing
from rules.documents import ARRAY, NULL, SCOPE, bytes_to_try, doc, element, in_a_scope, in_an_array, keyed, limited, nested, nulls, positions
from rules.documents import scope_below, settled, settled_paths
from rules.questions import all_questions
from rules.rules import Refused

# ---- a line of the list, by the rules


@cache
def documents():
    """The documents of the list: those made as such, then those that sessions of the writer close."""
    listed = dict(making.documents())
    for d, asks in writing.written():
        listed.setdefault(d, asks)
    return list(listed.items())


@cache
def listed():
    """Each document of the list with its asks and its limit: first those without one."""
    return [(d, asks, None) for d, asks in documents()] + [(d, asks, limit) for limit, d, asks in limited()]


def words(*fields):
    return " ".join(map(str, fields))


def answer(rule, *args):
    """The rule's answer in words, or its refusal."""
    try:
        return words(*rule(*args))
    except Refused as r:
        return words("refused", r.kind(), r.place, r.number)


def steps(s, limit):
    """One part for each step from offset 4 on."""
    offset = 4
    try:
        while e := rules.step(s, offset, limit):
            yield words("at", offset, f"{e.tag:02x}", len(e.key), e.size, answer(rules.value_of, s, e))
            offset = e.offset + e.size
        yield words("at", offset, "end")
    except Refused as r:
        yield words("at", offset, "refused", r.kind(), r.place, r.number)


LOOKUPS = {"get": rules.get, "typed": rules.get_with, "path": rules.path, "path-typed": rules.path_with}


def found(s, limit, word, *ask):
    e, value = LOOKUPS[word](s, *ask, limit)
    return e.place, *value


def asked(word, key, *tag):
    return words(word, key.hex(), *(f"{t:02x}" for t in tag))


def head(d, limit):
    return words(*(() if limit is None else ("limited", limit)), "document", d.hex())


def question(d, asks, limit):
    return "; ".join([head(d, limit)] + [asked(*ask) for ask in asks])


def line(d, asks, limit):
    admitted = answer(lambda: (rules.admit(d),))
    parts = [head(d, limit), words("admission", admitted)]
    if not admitted.startswith("refused"):
        parts += steps(d, limit)
    parts.append(words("check", answer(lambda: (rules.check(d, False, limit),))))
    parts.append(words("strict", answer(lambda: (rules.check(d, True, limit),))))
    parts.append(words("empty", answer(lambda: ("yes" if rules.is_empty(d) else "no",))))
    parts += [words(asked(*ask), answer(found, d, limit, *ask)) for ask in asks]
    return "; ".join(parts)


# ---- the oracle beside it


def without_marks(text):
    """Without the stars behind what is not the Rust's own answer."""
    return re.sub(r" \*(?=;|$)", "", text)


# how many fields the parts have that the oracle may leave without an answer, since the Rust may have no such call
UNASKED = {"strict": 1, "get": 2, "typed": 3, "path": 2, "path-typed": 3}


def part_said(ours, theirs):
    """The part of the list: the rules' answer, with the oracle's star; None where the two can't both be right."""
    star = " *" if theirs.endswith(" *") else ""
    theirs = theirs.removesuffix(" *")
    fields = ours.split(" ")
    unasked = star and theirs == words(*fields[: UNASKED.get(fields[0], 0)])
    by_kind = re.sub(r"(refused \S+ \d+) \d+$", r"\1", ours)
    return ours + star if theirs == by_kind or unasked else None


def confirm(lines, oracle):
    """The lines with the oracle's stars; ends the program where an answer differs."""
    asks = "".join(question(*entry) + "\n" for entry in listed())
    said = subprocess.run([oracle], input=asks, capture_output=True, text=True, check=True).stdout.splitlines()
    confirmed, differ = [], 0
    for ours, theirs in zip(lines, said, strict=True):
        pairs = list(zip(ours.split("; "), theirs.split("; ")))
        parts = [part_said(*pair) for pair in pairs]
        if None in parts or ours.count("; ") != theirs.count("; "):
            differ += 1
            print(f"differs\n  rules:  {ours}\n  oracle: {theirs}")
        confirmed.append("; ".join(p or "" for p in parts))
    if differ:
        sys.exit(f"{differ} of {len(lines)} documents differ")
    print(f"the oracle answers {len(lines)} documents as the rules say")
    return confirmed


# ---- what the vectors program prints


def is_element(fields):
    return fields[0] == "at" and fields[2] not in ("end", "refused")


def parts_of(lines):
    return [part.split(" ") for text in lines for part in text.split("; ")[1:]]


def totals(lines):
    """Its last line: every step is an answer, every value one, every other part one."""
    alike = sum(2 if is_element(fields) else 1 for fields in parts_of(lines))
    return f"{len(lines)} documents, {alike} answers alike, 0 differ"


# the numbers by which each call can be refused
NUMBERS = {
    "admission": {1, 2, 3},
    "at": {4, 5, 6, 7, 8, 9, 10},
    "value": {1, 2, 3, 6, 8, 9, 10, 11, 12},
    "check": {*range(1, 14)},
    "strict": {*range(1, 14), 19},
    "empty": {1, 2, 3},
    "get": {*range(1, 13), 16},
    "typed": {*range(1, 13), 16, 17},
    "path": {*range(1, 13), 16, 17, 21},
    "path-typed": {*range(1, 13), 16, 17, 21},
}


def under_limit(numbers):
    """22 takes the place of 5."""
    return {22 if n == 5 else n for n in numbers}


def try_documents(lines, possible):
    """Some document has each call answered, and refused by each number that it can be; some element has each tag of the table."""
    said = {call: set() for call in possible}
    tags = set()
    for fields in parts_of(lines):
        call = fields[0]
        if is_element(fields):
            call = "value"
            tags.add(int(fields[2], 16))
        said[call].add(int(fields[-1]) if "refused" in fields else 0)
    assert said == {call: numbers | {0} for call, numbers in possible.items()}, said
    assert tags == {*rules.FIXED, *rules.FRAMED}, tags


# the keys of an array, and the place of the first that is not its position: its first element lies at 11, and each has two bytes besides its key
ARRAY_KEYS = [
    ([], None), (["0"], None), (["0", "1"], None), (positions(11), None), (positions(101), None),
    ([""], 11), (["a"], 11), (["1a"], 11), (["00"], 11), (["01"], 11), (["+0"], 11), (["1"], 11), (["7"], 11),
    (["0", "0"], 14), (["0", "01"], 14), (["0", "0", "7"], 14), (["0", "1", "3"], 17),
    ([*positions(9), "09", "10"], 38), ([*positions(9), "10", "10"], 38), ([*positions(10), "1"], 41), ([*positions(10), ":"], 41),
    ([*positions(99), "100", "100"], 397), ([*positions(99), "9", "100"], 397),
    ([*positions(100), "10"], 401), ([*positions(100), "1000"], 401),
]


def stated_keys():
    """Of arrays: a document, and what its plain and its strict check must say. Under keys of one byte the element of depth k lies at 4 + 7 k."""
    for keys, bad in ARRAY_KEYS:
        count = str(1 + len(keys))
        yield keyed(*keys), count, f"19 at {bad}" if bad else count
    for key, strict in (("0", "13 at 1411"), ("1", "19 at 1411")):
        yield nested(201, ARRAY, "0", doc(element(NULL, key))), "13 at 1411", strict
    for key, strict in (("0", "11 at 11"), ("1", "19 at 11")):
        yield in_an_array(element(0x08, key, b"\2")), "11 at 11", strict
    yield in_an_array(element(0x14, "1")), "7 at 11", "7 at 11"
    for keys, strict in ((["0", "1"], "6"), (["1", "2"], "19 at 21")):
        yield in_an_array(element(NULL, "0"), element(ARRAY, "1", nulls(*keys)), element(NULL, "2")), "6", strict
    for key, strict in (("0", "4"), ("1", "19 at 34")):
        yield in_a_scope(nulls(key)), "4", strict


def stated():
    """By name a document and its limit, and what its plain and its strict check must say by the rules' text, worked out by hand.

    Under empty keys the element of depth k lies at 4 + 6 k. A scope's values lie two deeper, the first 15 behind the scope's tag.
    """
    for d, result in bytes_to_try():
        yield d.hex(), d, None, result, result
    for depth, empty, holding in ((198, "199", "200"), (199, "200", "13 at 1213"), (200, "201", "13 at 1219"), (201, "13 at 1210", "13 at 1210")):
        yield f"empty scope at {depth}", scope_below(depth, doc()), None, empty, empty
        yield f"scope at {depth}", scope_below(depth, doc(element(NULL, ""))), None, holding, holding
    for d, plain, strict in stated_keys():
        yield d.hex(), d, None, plain, strict
    for limit, d, plain, strict in settled():
        yield f"{d.hex()} under {limit}", d, limit, plain, strict


def result(d, strict, limit):
    said = answer(lambda: (rules.check(d, strict, limit),)).split(" ")
    return f"{said[3]} at {said[2]}" if said[0] == "refused" else said[0]


def try_checks():
    """The rules say what is stated, and each such document is in the list or asked by itself."""
    heads, asked = {head(d, limit) for d, _, limit in listed()}, all_questions()
    for name, d, limit, plain, strict in stated():
        assert (result(d, False, limit), result(d, True, limit)) == (plain, strict), name
        assert head(d, limit) in heads or {f"check {d.hex()}", f"strict {d.hex()}"} <= asked.keys(), name


def refusal(rule, *args):
    """The refusal; of number 0, at place 0, where the rule answers."""
    try:
        rule(*args)
        return Refused(0)
    except Refused as r:
        return r


def is_behind_damage(d, key, limit):
    """Whether a refused step ends the lookup, and the key stands behind it."""
    r, step = refusal(rules.get, d, key, limit), refusal(lambda: list(rules.elements(d, limit)))
    return r.number > 3 and (r.number, r.place) == (step.number, step.place) and key + b"\0" in d[r.place + 1 :]


def is_before_damage(d, key, limit):
    """Whether the lookup finds a value, and the whole check refuses behind it."""
    if refusal(rules.get, d, key, limit).number:
        return False
    e, _ = rules.get(d, key, limit)
    return refusal(rules.check, d, False, limit).place >= e.offset + e.size


def is_damaged_by(d, limit):
    """Whether the whole check refuses because of the limit alone."""
    return limit is not None and refusal(rules.check, d, False, limit).number and not refusal(rules.check, d).number


def try_lookups():
    """The bytes to try are in the list with their lookups; a dozen lookups lie behind damage, a dozen before it, with no limit and where one alone
    makes the damage."""
    asks_of = dict(documents())
    for d, _ in bytes_to_try():
        assert {("get", b""), ("get", b"a")} <= set(asks_of[d]), d.hex()
    plain = [entry for entry in listed() if entry[2] is None]
    damaged = [entry for entry in listed() if is_damaged_by(entry[0], entry[2])]
    for entries in (plain, damaged):
        gets = [(d, ask[1], limit) for d, asks, limit in entries for ask in asks if ask[0] == "get" and ask[1]]
        for is_so in (is_behind_damage, is_before_damage):
            assert sum(is_so(*get) for get in gets) >= 12, is_so.__name__


def try_paths():
    """The rules say what is settled of paths, and each such path is asked in the list."""
    asks_of = {(d, limit): asks for d, asks, limit in listed()}
    for d, limit, path, said in settled_paths():
        r = refusal(rules.path, d, path, limit)
        result = f"{r.number} at {r.place}" if r.number else answer(found, d, limit, "path", path)
        assert result == said, (d.hex(), limit, path.hex(), result)
        assert ("path", path) in asks_of[d, limit], (d.hex(), limit, path.hex())


# the numbers that each call of the writer can return
RETURNED = {call: {0, 13, 14, 15, 18} for call in (*writing.VALUES, *writing.NESTS)} | {"open": {0, 14, 18}, "close": {0, 18}}


def try_sessions():
    """Some session has each call return each number that it can; those worked out by hand are asked, and answered so."""
    asked = all_questions()
    for line, said in writing.WORKED.items():
        assert asked[line] == said, line
    returned = {call: set() for call in RETURNED}
    for line in writing.sessions():
        calls = [part.split(" ")[0] for part in line.split("; ")[1:] if not part.startswith("word ")]
        for call, number in zip(calls, writing.replayed(line)[0], strict=True):
            returned[call].add(number)
    assert returned == RETURNED, returned
    for line, numbers in writing.stated():
        assert line in asked and writing.replayed(line)[0] == numbers, line


def closed(*calls):
    return writing.replayed(writing.session(2048, *calls))[1].closed()


def read_back(d, e):
    """A value's word, and the fields of the call that writes it."""
    word, *content = rules.value_of(d, e)
    if e.tag in rules.NUMBERS or word == "timestamp":
        return word, *map(str, content)
    subtype = [f"{content.pop(0):02x}"] if word == "binary" else []
    return word, *subtype, *(writing.hexed(d[offset : offset + size]) for offset, size in zip(content[::2], content[1::2]))


def try_written():
    """Every type but code with scope has a call; each is read back as it was written; what 202 open leave is what RULES.md says; and what calls alone
    close passes the strict check."""
    tags = {tag for tag, _ in (writing.VALUES | writing.NESTS).values()}
    assert tags == {*rules.FIXED, *rules.FRAMED} - {SCOPE}, tags
    d = closed(*writing.every_type())
    for e, (word, fields) in zip(rules.elements(d), writing.FIELDS.items()):
        assert (e.key, *read_back(d, e)) == (word.encode(), word, *fields), word
    assert closed(*writing.DEEPEST, *["close"] * 202) == nested(201)
    for line in writing.sessions():
        d = writing.replayed(line)[1].closed()
        assert "; word " in line or not d or rules.check(d, True) == rules.check(d), line


def files(lines):
    asked = all_questions()
    return {
        "crates/vectors/stdin": "".join(f"{t}\n" for t in [*asked, *lines]).encode(),
        "crates/vectors/stdout": "".join(f"{t}\n" for t in [*(f"{q} {a}" for q, a in asked.items()), totals(lines)]).encode(),
    }


def on_disk(name, marked):
    if not (ROOT / name).exists():
        return None
    data = (ROOT / name).read_bytes()
    # only the oracle knows where the stars stand
    return data if marked else "".join(f"{without_marks(t)}\n" for t in data.decode().splitlines()).encode()


def main():
    oracle = next((a for a in sys.argv[1:] if a != "--check"), None)
    checking = "--check" in sys.argv[1:]
    if not oracle and not checking:
        sys.exit(__doc__)
    try_checks()
    lines = [line(*entry) for entry in listed()]
    plain = len(documents())
    try_documents(lines[:plain], NUMBERS)
    try_documents(lines[plain:], {call: under_limit(numbers) for call, numbers in NUMBERS.items()})
    try_lookups()
    try_paths()
    try_sessions()
    try_written()
    made = files(confirm(lines, oracle) if oracle else lines)
    if not checking:
        for name, data in made.items():
            (ROOT / name).write_bytes(data)
    marked = {name: bool(oracle) or not name.endswith("stdin") for name in made}
    differ = [name for name, data in made.items() if on_disk(name, marked[name]) != data]
    print(f"{len(all_questions())} questions, {len(lines)} documents" + "".join(f"; {name} differs" for name in differ))
    sys.exit(1 if differ else 0)


if __name__ == "__main__":
    main()
