#!/usr/bin/env python3
"""Holds the C library against the rules of docs/RULES.md: every boundary function is called as C calls it, and every field that it returns
and every byte that it was lent for writing must be what these say (tools/rules). Padding in what is returned is not looked at.

Asked whole: the documents of the list, and those that are listed under a limit under each of theirs; the sessions of the writer, call by
call; all pairs of RULES.md's own bytes to join; slices of each size up to 71 bytes, the check of them under limits too; texts of two
characters; texts of zeros but for one byte; calls of the writer at the greatest room; the version, which the header says. Sampled: every
third document under one of its limits, in turn; paths to some of what lies in a document, and bent ones; by seeds 3,000 damaged copies of
the documents, and of the pairs of documents 1,000 of each kind, good or damaged before good or damaged.

Of each document and each damaged copy, without a limit and under one, the steps from offset 4 are followed by the library's own answers,
apart from the rules: the elements must lie one behind the other, and their sizes add up, as the header says of a step; and the next element
must have the key, the framed bytes and the cursor of the step from the same offset.

Then the tool is tried itself, on some of the questions: each byte of an answer that is no padding is changed behind the call, which must be
reported, and the rules are made wrong, each of which must show as a difference.

usage: tools/try/library.py ARCHIVE                the static library; needs cc
       tools/try/library.py --smallest ARCHIVE     of a library that may be wrong: prints the smallest question that differs, if one does
"""
import re
import struct
import subprocess
import sys
from array import array
from contextlib import suppress
from itertools import accumulate, chain, count, islice, product, repeat
from pathlib import Path
from tempfile import TemporaryDirectory
from unittest.mock import patch

ROOT = Path(__file__).resolve().parents[2]
sys.path.insert(0, str(ROOT / "tools"))
from make.cases import NUMBERS, RETURNED, documents, under_limit
from rules import boundary, joining, rules, writing
from rules.boundary import Element, Joined, State, Stepped, Value, Verdict, Version, Written, packed, unpacked, verdict
from rules.documents import ARRAYS, FIELDS, ID, PATH_LIMITS, PATHS, ROWS, TOO_MANY, Dice, along, around, array_limits, bytes_to_try, doc
from rules.documents import element, gets, keyed, le, limited, resized, row_texts, short_beacon, text
from rules.rules import Refused
from rules.writing import hexed, replayed, session

# ---- the boundary

# kinds of arguments: bytes and their size, bytes of a known size, a state and a buffer to write in; numbers of 64 bits, of 32 or one, and of 8
SLICE, ARRAY, STATE, OUT, WHOLE, HALF, BYTE = "slice", "array", "state", "out", "whole", "half", "byte"
LENT = (SLICE, ARRAY, STATE, OUT)
CALL = (Written, STATE, OUT)
FUNCTIONS = {
    "check": (Verdict, SLICE),
    "check_strict": (Verdict, SLICE),
    "is_empty": (Verdict, SLICE),
    "lookup": (Value, SLICE, SLICE),
    "lookup_typed": (Value, SLICE, SLICE, BYTE),
    "path": (Value, SLICE, SLICE),
    "path_typed": (Value, SLICE, SLICE, BYTE),
    "next": (Element, SLICE, WHOLE, HALF),
    "step": (Stepped, SLICE, WHOLE, HALF),
    "read": (Value, SLICE, WHOLE),
    "check_under": (Verdict, SLICE, WHOLE),
    "check_strict_under": (Verdict, SLICE, WHOLE),
    "lookup_under": (Value, SLICE, SLICE, WHOLE),
    "lookup_typed_under": (Value, SLICE, SLICE, BYTE, WHOLE),
    "path_under": (Value, SLICE, SLICE, WHOLE),
    "path_typed_under": (Value, SLICE, SLICE, BYTE, WHOLE),
    "next_under": (Element, SLICE, WHOLE, HALF, WHOLE),
    "step_under": (Stepped, SLICE, WHOLE, HALF, WHOLE),
    "read_under": (Value, SLICE, WHOLE, WHOLE),
    "join": (Joined, SLICE, SLICE, OUT),
    "version": (Version,),
    "state_new": (State,),
    "state_open": CALL,
    "state_open_document": (*CALL, SLICE),
    "state_open_array": (*CALL, SLICE),
    "state_close": CALL,
    "state_append_double": (*CALL, SLICE, WHOLE),
    "state_append_bool": (*CALL, SLICE, HALF),
    "state_append_int32": (*CALL, SLICE, HALF),
    "state_append_int64": (*CALL, SLICE, WHOLE),
    "state_append_datetime": (*CALL, SLICE, WHOLE),
    "state_append_timestamp": (*CALL, SLICE, HALF, HALF),
    "state_append_null": (*CALL, SLICE),
    "state_append_undefined": (*CALL, SLICE),
    "state_append_min_key": (*CALL, SLICE),
    "state_append_max_key": (*CALL, SLICE),
    "state_append_string": (*CALL, SLICE, SLICE),
    "state_append_code": (*CALL, SLICE, SLICE),
    "state_append_symbol": (*CALL, SLICE, SLICE),
    "state_append_binary": (*CALL, SLICE, BYTE, SLICE),
    "state_append_regex": (*CALL, SLICE, SLICE, SLICE),
    "state_append_dbpointer": (*CALL, SLICE, SLICE, ARRAY),
    "state_append_object_id": (*CALL, SLICE, ARRAY),
    "state_append_decimal128": (*CALL, SLICE, ARRAY),
}
NUMBERED = {name: i for i, name in enumerate(FUNCTIONS)}
# the words of a session whose function is not named `append_` and the word, behind `state_`
NAMED = {"document": "open_document", "array": "open_array", "boolean": "append_bool", "objectid": "append_object_id"}
NAMED |= {"open": "open", "close": "close", "minkey": "append_min_key", "maxkey": "append_max_key"}
GUARD = b"\xa5" * 8  # before and behind a buffer
UPPER = 0xEEEEEEEE << 32  # what a caller in C may leave in the upper half of the register of a narrow number


def function_of(word):
    """The function that a word of a session calls."""
    return f"state_{NAMED.get(word, f'append_{word}')}"


class End(bytes):
    """The bytes of a long buffer from START on; those before are not lent, since no call may touch them."""

    START = 2147483647 - 64


# ---- calls, made by tools/try/library.c, a program that is linked with the library

ON_X86_64 = ROOT / "tools/on_x86_64"
ASKED = struct.Struct("<22Q")  # that program's `asked`
ENDS = [area << 32 for area in range(1, 6)]  # where its areas end
WORDS = 9
UNSPOILED = 2**64 - 1  # the number of no byte
BATCH = 5000  # questions to one run of it


def ways(name):
    """Whether the bytes of a call lie near each other: a call that copies is made both ways."""
    return (False, True) if OUT in FUNCTIONS[name] else (False,)


def lend(kinds, held, near):
    """What each area holds and how many of its last bytes may be written, and where each argument's bytes lie, NULL where there are none. Near, the
    buffer lies right behind what may be copied into it."""
    beside = sorted((i for i in held if near and kinds[i] != STATE), key=lambda i: kinds[i] == OUT)
    groups = [*([i] for i in held if i not in beside), *([beside] if near else [])]
    areas, at = [], {}
    for group, end in zip(groups, ENDS):
        data = b"".join(held[i] for i in group)
        areas.append((data, len(held[group[-1]]) if kinds[group[-1]] in (STATE, OUT) else 0))
        address = end - len(data)
        for i in group:
            at[i] = address if data else 0
            address += len(held[i])
    return areas, at


def packed_call(name, args, near, spoiled):
    """A call as the program reads it, and the size of its answer: what is returned, the state, and the buffer with its guards."""
    answer, *kinds = FUNCTIONS[name]
    held = {i: GUARD + arg + GUARD if kinds[i] == OUT else arg for i, arg in enumerate(args) if kinds[i] in LENT}
    areas, at = lend(kinds, held, near)
    words = []
    for i, (kind, arg) in enumerate(zip(kinds, args)):
        if kind == OUT:
            start = getattr(arg, "START", 0)
            words += at[i] + len(GUARD) - start, start + len(arg)
        elif kind in LENT:
            words += (at[i], len(arg)) if kind == SLICE else (at[i],)
        else:
            words.append(arg if kind == WHOLE else arg | UPPER)
    words += [0] * (WORDS - len(words))
    sizes = [n for data, written in areas for n in (len(data), written)] + [0, 0] * (len(ENDS) - len(areas))
    asked = ASKED.pack(NUMBERED[name], answer.layout.size, spoiled, *words, *sizes)
    return b"".join([asked, *(data for data, _ in areas)]), answer.layout.size + sum(sizes[1::2])


def parted(name, memory):
    """What is returned, by its fields; and the state and the buffer that are left behind it."""
    answer = FUNCTIONS[name][0]
    return unpacked(answer, memory[: answer.layout.size]), memory[answer.layout.size :]


def without_padding(name, memory):
    """An answer whose bytes of padding are 0."""
    returned, left = parted(name, memory)
    return packed(returned) + left


class Library:
    def __init__(self, archive, folder):
        self.program = f"{folder}/library"
        each = "".join(f"F({name})" for name in FUNCTIONS)
        source = Path(__file__).with_suffix(".c")
        subprocess.run([ON_X86_64, "cc", "-O2", "-Wall", "-Wextra", "-Werror", f"-DEACH(F)={each}", source, archive, "-o", self.program], check=True)

    def answers(self, calls):
        """What each call returned and left behind. One that ends the program ends this tool too."""
        asked, sizes = zip(*(packed_call(*c) for c in calls))
        ran = subprocess.run([ON_X86_64, self.program], input=b"".join(asked), stdout=subprocess.PIPE)
        ends = [*accumulate(sizes)]
        if ran.returncode:
            name, args, *_ = next(c for c, end in zip(calls, ends) if end > len(ran.stdout))
            sys.exit(f"differs: {in_c(name, args)}\n  library: ends the program, with status {ran.returncode}")
        return [without_padding(name, ran.stdout[end - size : end]) for (name, *_), end, size in zip(calls, ends, sizes)]


# ---- questions: a function, its arguments, and the bytes that the rules make of its answer


def question(name, rule, *args, asked, limit=None):
    """With a limit, that to the function which takes one behind all else, as its rule does."""
    if limit is not None:
        return question(f"{name}_under", rule, *args, limit, asked=(*asked, limit))
    return name, asked, packed(rule(*args))


def yielded(s):
    """The elements that steps yield before the end or a refusal."""
    elements = []
    try:
        for e in rules.elements(s):
            elements.append(e)
    except Refused:
        pass
    return elements


STRANGE = (0, 1, 2, 3, 2**31, 2**63, 2**64 - 1)  # offsets where no step begins


def reached(elements):
    """Where steps begin, the one that ends or is refused among them."""
    return [4, *(e.offset + e.size for e in elements)]


def at_cursor(*cursor, limit):
    yield question("step", boundary.stepped, *cursor, asked=cursor, limit=limit)
    yield question("next", boundary.next_element, *cursor, asked=cursor, limit=limit)


def at_places(s, elements, limit):
    """From each offset that steps reach, and from others: the step and the next element with the mark and without, and the value."""
    inside = [e.place + 1 for e in elements]
    for offset in dict.fromkeys([*reached(elements), *inside, max(len(s) - 1, 0), len(s), len(s) + 1, *STRANGE]):
        for ended in (False, True):
            yield from at_cursor(s, offset, ended, limit=limit)
        yield question("read", boundary.found, rules.read_at, s, offset, asked=(s, offset), limit=limit)


def lookups(s, elements, asks, limit):
    """Keys that are there, absent, empty, with a zero, and not UTF-8; each with the element's tag, others, and tags outside the table."""
    tags = {e.key: e.tag for e in reversed(elements)}
    asked = [key for word, key, *_ in asks if word in ("get", "typed")]
    keys = [*tags, *(key + b"\0" for key in [*tags][:1]), b"", b"absent", b"\0", b"\xff", *asked]
    pairs = [(key, tag) for key in keys for tag in (tags.get(key, 0x10), 0x02 if tags.get(key) == 0x10 else 0x10, 0x00, 0x14)]
    for key in dict.fromkeys(keys):
        yield question("lookup", boundary.found, rules.get, s, key, asked=(s, key), limit=limit)
    for key, tag in dict.fromkeys([*pairs, *(ask[1:] for ask in asks if ask[0] == "typed")]):
        yield question("lookup_typed", boundary.found, rules.get_with, s, key, tag, asked=(s, key, tag), limit=limit)


def inside(s, e):
    """The bytes that a value opens, a scope's among them; none where it is refused or opens nothing."""
    with suppress(Refused):
        word, *numbers = rules.value_of(s, e)
        if word in rules.OPENS:
            offset, size = numbers[-2:]
            return s[offset : offset + size]
    return b""


def nested_keys(s, before=()):
    """The keys to the first and to the last element of each level, with their tags, down through the last that opens something."""
    elements = yielded(s)
    for e in elements[:1] + elements[-1:]:
        yield (*before, e.key), e.tag
    for e in reversed(elements):
        if inner := inside(s, e):
            yield from nested_keys(inner, (*before, e.key))
            return


def paths(s, asks, limit):
    """Paths to elements at the top and far inside; with another key, with one more, with empty ones; and one of too many keys."""
    drawn = [*nested_keys(s)]
    some = dict.fromkeys(drawn[:2] + drawn[-3:])
    keys = drawn[-1][0] if drawn else ("a",)
    bent = [(*keys[:-1], "absent"), (*keys, "absent"), (*keys, ""), ("", *keys), (*keys[:1], "", *keys[1:]), ("", "")]
    own = [along(*way) for way, _ in some]
    for path in dict.fromkeys([*own, *(along(*way) for way in bent), TOO_MANY, *(ask[1] for ask in asks if ask[0] == "path")]):
        yield question("path", boundary.found, rules.path, s, path, asked=(s, path), limit=limit)
    pairs = [(path, tag) for path, (_, tag) in zip(own, some)] + [(path, 0x10) for path in [*own[-1:], TOO_MANY]]
    for path, tag in dict.fromkeys([*pairs, *(ask[1:] for ask in asks if ask[0] == "path-typed")]):
        yield question("path_typed", boundary.found, rules.path_with, s, path, tag, asked=(s, path, tag), limit=limit)


def reading(s, asks=(), limit=None):
    """The questions about one document that may be asked under a limit; also about what lies behind a key that is too long."""
    elements = yielded(s)
    yield question("check", verdict, rules.check, s, False, asked=(s,), limit=limit)
    yield question("check_strict", verdict, rules.check, s, True, asked=(s,), limit=limit)
    yield from at_places(s, elements, limit)
    yield from lookups(s, elements, asks, limit)
    yield from paths(s, asks, limit)


def about(s, asks=()):
    """All questions about one document without a limit."""
    yield from reading(s, asks)
    yield question("is_empty", verdict, rules.is_empty, s, asked=(s,))


# ---- under a limit


def sizes_met(s):
    """The sizes of the keys, patterns and options in a document and below it, as far as steps and values are not refused."""
    for e in yielded(s):
        yield len(e.key)
        with suppress(Refused):
            word, *numbers = rules.value_of(s, e)
            if word == "regex":
                yield from numbers[1::2]
        yield from sizes_met(inside(s, e))


def limits_of(s):
    return [*dict.fromkeys([0, 1, 2, *around(*sizes_met(s))])]


def under_limits():
    """The documents that are listed under a limit, under each of theirs; every third of the others under one of its own, in turn."""
    for d, asks in {d: asks for _, d, asks in limited()}.items():
        for limit in limits_of(d):
            yield from reading(d, asks, limit)
    for i, (d, asks) in enumerate(documents()[::3]):
        limits = limits_of(d)
        yield from reading(d, asks, limits[i % len(limits)])
    for d, _ in sized_documents():
        for limit in limits_of(d):
            yield question("check", verdict, rules.check, d, False, asked=(d,), limit=limit)


def along_under_limits():
    """Every document, and every damaged copy, under one of its own limits, in turn: the steps and the next elements."""
    for i, d in enumerate(chain((d for d, _ in documents()), damaged(DAMAGED))):
        limits = limits_of(d)
        for offset in reached(yielded(d)):
            yield from at_cursor(d, offset, False, limit=limits[i % len(limits)])


# ---- slices of each size up to two blocks of 32 bytes and more, since bytes are scanned and copied in blocks; and of one that needs three bytes

SIZES = (*range(72), 70000)


def letters(n):
    return bytes(0x61 + i % 26 for i in range(n))


def sized_documents():
    """Keys and texts, with a bad byte or a longer character at their end; and keys that differ in the first byte, in the last, and in size."""
    for n in SIZES:
        key = letters(n)
        asks = gets(b"?" + key[1:], key[:-1] + b"?", letters(n + 1))
        for end in (b"", "é".encode(), b"\xff", b"\xc3"):
            t = key + end
            yield doc(element(0x02, key, text(t)), element(0x0B, t, t + b"\0" + key + b"\0")), asks


def sized_pairs():
    for n in SIZES:
        yield tuple(doc(element(0x02, "", text(letters(size)))) for size in (n, 71 - n))


def sized_sessions():
    """Every slice that a call takes, in the room that the call needs and in one byte less."""
    for n in SIZES:
        t = hexed(letters(n))
        texts = [f"{word} {t} {t}" for word in ("string", "code", "symbol")]
        others = [f"binary - 00 {t}", f"binary - 02 {t}", f"regex - {t} {t}", f"dbpointer - {t} {ID.hex()}"]
        for call in [f"null {t}", f"document {t}", *texts, *others]:
            _, writer = replayed(session(2**18, "open", call))
            yield session(writer.used + writer.depth, "open", call)
            yield session(writer.used + writer.depth - 1, "open", call)


# ---- texts of two characters: what lies behind a character of each size is looked at


def texts_of_two():
    for row, end, second in product(ROWS, (0, 1), row_texts()):
        t = bytes(byte[end] for byte in row) + bytes(second)
        s = doc(element(0x02, "a", text(t)))
        yield question("check", verdict, rules.check, s, asked=(s,))


def lone_bytes():
    """Each byte among zeros, in a text of one block of 32 bytes: no other byte there hides its bits."""
    for byte, before in product(range(256), (0, 31)):
        s = doc(element(0x02, "a", text(bytes(before) + bytes([byte]) + bytes(31 - before))))
        yield question("check", verdict, rules.check, s, asked=(s,))


# ---- damaged copies


def with_byte(dice, d):
    i = dice.below(len(d))
    return d[:i] + bytes([dice.below(256)]) + d[i + 1 :]


def cut(dice, d):
    return d[: dice.below(len(d))]


def cut_and_closed(dice, d):
    """Cut, with the length that is left and a zero at the end."""
    return resized(d[:4] + d[4 : 4 + dice.below(len(d))] + b"\0")


def with_length(dice, d):
    """A length field one off, negative, huge or small; its own or a value's."""
    fields = [e.offset + field for e in yielded(d) for field in FIELDS.get(e.tag, ()) if field < e.size]
    where = dice.pick([0, *fields, *fields])
    true = int.from_bytes(d[where : where + 4], "little")
    n = dice.pick((true - 1, true + 1, -true, -1, 0, 1, 4, 5, len(d) - where, 2**31 - 1, 2**31 - 5, -(2**31), true << 8))
    return d[:where] + le(n) + d[where + 4 :]


DAMAGED = 3000


def damaged(count):
    dice = Dice(20261117)
    listed = [d for d, _ in documents() if len(d) > 4]
    for _ in range(count):
        yield dice.pick((with_byte, cut, cut_and_closed, with_length, with_length))(dice, dice.pick(listed))


# ---- joining


def joined(first, second):
    """Into the room that both need, one byte less, none, and more."""
    exact = max(len(first) + len(second) - 5, 0)
    for room in dict.fromkeys((exact, max(exact - 1, 0), 0, exact + 9)):
        buffer = b"\xee" * room
        (number, place, which, length), left = joining.join(first, second, buffer)
        yield "join", (first, second, buffer), packed(Joined(number, which, place, length)) + GUARD + left + GUARD


def telling_pairs():
    """All pairs of the bytes to try; a document that only the strict check refuses, and a beacon frame beside them."""
    return product([*(d for d, _ in bytes_to_try()), keyed("a"), short_beacon()], repeat=2)


def pairs_at_random(count):
    """Of each kind, good or damaged before good or damaged, so many."""
    dice = Dice(20261118)
    numbers_of = {d: verdict(rules.check, d).number for d, _ in documents()}
    good, bad = ([d for d, n in numbers_of.items() if (n > 0) == refused] for refused in (False, True))
    for first, second in product((good, bad), repeat=2):
        for _ in range(count):
            yield dice.pick(first), dice.pick(second)


# ---- sessions of the writer


class Long:
    """A writer's buffer about as long as the greatest room, by its end."""

    def __init__(self, size):
        self.size, self.end = size, bytearray(b"\xee" * (size - End.START))

    def __len__(self):
        return self.size

    def __setitem__(self, where, new):
        self.end[where.start - End.START : where.stop - End.START] = new

    def __bytes__(self):
        return End(self.end)


def long_sessions():
    """In a document that begins near the greatest room, in buffers that are shorter, as long and longer: calls that just fit, and that don't."""
    for size, used in product(range(2147483646, 2147483650), range(2147483610, 2147483648)):
        words = (used, 2, 0, writing.IN_DOCUMENT, End.START, writing.IN_DOCUMENT)
        for call in ("null -", "int32 61 7", "string 61 6263", "document -", "array -", "close", "open"):
            yield session(size, *(f"word {i} {n}" for i, n in enumerate(words)), call)


def fresh(room):
    writer = writing.Writer(0)
    writer.buffer = Long(room) if room > End.START else bytearray(b"\xee" * room)
    return writer


def lent(writer):
    return array("I", writer.words).tobytes(), bytes(writer.buffer)


def argument(kind, field):
    """What C passes for a field of a session's call."""
    if kind in (SLICE, ARRAY):
        return writing.unhex(field)
    if kind == BYTE:
        return int(field, 16)
    return int(field) % (2**32 if kind == HALF else 2**64)


def of_session(line):
    """A session's calls, each with the state and the buffer that the rules leave before it."""
    head, *calls = line.split("; ")
    writer = fresh(int(head.split(" ")[1]))
    yield "state_new", (), packed(State(lent(writer)[0]))
    for word, *fields in (call.split(" ") for call in calls):
        if word == "word":
            writer.words[int(fields[0])] = int(fields[1])
            continue
        name = function_of(word)
        before = after = lent(writer)
        try:
            writer.call(word, *fields)
            answer, after = Written(used=writer.used), lent(writer)
        except Refused as r:
            answer = Written(number=r.number)
        args = map(argument, FUNCTIONS[name][3:], fields)
        yield name, (*before, *args), packed(answer) + after[0] + GUARD + after[1] + GUARD


def all_sessions():
    return chain.from_iterable(of_session(line) for line in chain(writing.sessions(), sized_sessions(), long_sessions()))


# ---- the version


def version():
    """What the header says."""
    header = (ROOT / "include/fringewell.h").read_text()
    major, minor, patch = (int(re.search(rf"VERSION_{part} (\d+)$", header, re.M)[1]) for part in ("MAJOR", "MINOR", "PATCH"))
    return "version", (), packed(Version(1000000 * major + 1000 * minor + patch))


# ---- the comparison


def shown(arg):
    """Bytes in hexadecimal, a state without the zeros at its end."""
    if not isinstance(arg, bytes):
        return str(arg)
    return (arg.rstrip(b"\0") if len(arg) == State.layout.size else arg).hex() or "-"


def in_words(name, memory):
    """An answer's fields by their names, then the state and the buffer."""
    returned, left = parted(name, memory)
    fields = [f"{field} {shown(n)}" for field, n in returned._asdict().items()]
    state = State.layout.size if STATE in FUNCTIONS[name] else 0
    return ", ".join([*fields, *(shown(part) for part in (left[:state], left[state:]) if part)])


def in_c(name, args):
    return f"fringewell_{name}({', '.join(map(shown, args))})"


def report(name, args, answer, expected):
    return f"differs: {in_c(name, args)}\n  library: {in_words(name, answer)}\n  rules:   {in_words(name, expected)}"


def answered(library, questions, spoils=repeat(UNSPOILED)):
    """Each question with the library's answer, of two the one that differs."""
    asked = zip(questions, spoils)
    while batch := [*islice(asked, BATCH)]:
        answers = iter(library.answers([(name, args, near, n) for (name, args, _), n in batch for near in ways(name)]))
        for (name, args, expected), _ in batch:
            given = [next(answers) for _ in ways(name)]
            yield name, args, next((answer for answer in given if answer != expected), expected), expected


def differing(library, questions):
    return (q for q in answered(library, questions) if q[2] != q[3])


def kinds_of_questions():
    yield all_sessions()
    yield chain.from_iterable(about(d, asks) for d, asks in chain(documents(), sized_documents()))
    yield under_limits()
    yield along_under_limits()
    yield chain(texts_of_two(), lone_bytes())
    yield chain.from_iterable(joined(*pair) for pair in chain(telling_pairs(), sized_pairs(), pairs_at_random(1000)))
    yield chain.from_iterable(about(d) for d in damaged(DAMAGED))
    yield [version()]


# ---- sums: where the steps of a document lead


def is_admitted(s):
    return verdict(rules.is_empty, s).number == 0


def misled(s, steps):
    """What is wrong with the steps of an admitted document from offset 4 on, by the header's words on fringewell_step."""
    told = 0
    while 4 + told in steps:
        step = steps[4 + told]
        if step.number:
            right = step.number > 3 and step.ended and step.place == step.next == 4 + told and (step.number == 4) == (4 + told >= len(s))
            return None if right else f"refused by {step.number} at {step.place}, behind {told} bytes of elements"
        if step.ended:
            return None if step.next == 4 + told == len(s) - 1 else f"ended at {step.next}, behind {told} bytes of elements"
        key, framed, behind = step.place + 1, step.key_offset + step.key_size + 1, step.framed_offset + step.framed_size
        if (step.place, step.key_offset, step.framed_offset, step.next) != (4 + told, key, framed, behind):
            return f"{step}, behind {told} bytes of elements"
        told += 1 + step.key_size + 1 + step.framed_size
    return f"no step asked at {4 + told}"


def beside(steps, elements):
    """What is wrong with the next element from an offset, held against the step from there, by the header's words on fringewell_next."""
    for offset, step in steps.items():
        shared = Stepped(**{field: getattr(elements[offset], field) for field in Stepped._fields})
        if step != (shared if step.ended else shared._replace(number=0)):
            return f"at {offset} {step}, but {elements[offset]}"


class Sums:
    """Takes the steps and the next elements with an open cursor, one document after the other, each under one limit or none; and follows
    them, document by document."""

    def __init__(self):
        self.asked, self.steps, self.elements, self.followed, self.wrong = None, {}, {}, 0, []

    def take(self, name, args, answer):
        kind = FUNCTIONS[name][0]
        if kind not in (Stepped, Element) or args[2]:
            return
        s, offset, _, *limit = args
        if (s, limit) != self.asked:
            self.follow()
            self.asked, self.steps, self.elements = (s, limit), {}, {}
        taken = self.steps if kind is Stepped else self.elements
        taken[offset] = unpacked(kind, answer)

    def follow(self):
        """The document that was asked last, where it is admitted."""
        if not self.asked or not is_admitted(self.asked[0]):
            return
        self.followed += 1
        if wrong := misled(self.asked[0], self.steps) or beside(self.steps, self.elements):
            self.wrong.append(f"{shown(self.asked[0])} under {self.asked[1]}: {wrong}")


def spoiled_steps(step):
    """A step with another number: each of an element's, of an end's and of a refusal's that a caller goes by."""
    going = {"place", "key_offset", "key_size", "framed_offset", "framed_size", "next"}
    fields = going if not step.ended else {"next", "place"} if step.number else {"next"}
    changes = [{field: getattr(step, field) + 1} for field in fields]
    return [step._replace(**change) for change in [*changes, {"number": 7 if step.number == 4 else 4}, {"number": 1}]]


def spoiled_elements(e):
    """A next element with another number in each field that a step has too; of one that is given the refusal's is the value's own."""
    fields = {*Stepped._fields} - (set() if e.ended else {"number"})
    return [e._replace(**{field: getattr(e, field) + 1}) for field in fields]


def try_sums():
    """A step that leads elsewhere, and a next element that differs from its step, is reported. In the list are codes with scope of length
    0 to 3, behind which the next step begins on their own length."""
    assert {0, 1, 2, 3} <= {e.size for d, _ in documents() for e in yielded(d) if e.tag == 0x0F}
    tried = 0
    for s in (short_beacon(), *(d for d, _ in bytes_to_try() if is_admitted(d))):
        steps = {offset: boundary.stepped(s, offset, False) for offset in reached(yielded(s))}
        elements = {offset: boundary.next_element(s, offset, False) for offset in steps}
        assert not misled(s, steps) and not beside(steps, elements), s.hex()
        for offset, step in steps.items():
            wrong = [misled(s, steps | {offset: spoiled}) for spoiled in spoiled_steps(step)]
            wrong += [beside(steps, elements | {offset: spoiled}) for spoiled in spoiled_elements(elements[offset])]
            assert all(wrong), (s.hex(), offset)
            tried += len(wrong)
    return tried


def number_in(name, answer):
    """The number that an answer begins with; 0 of one that has none."""
    return answer[0] if FUNCTIONS[name][0]._fields[0] == "number" else 0


def compare(library):
    """Whether all answers are alike, and lead where they say; and of each function and number the first question."""
    asked = differ = 0
    firsts, sums = {}, Sums()
    for name, args, answer, expected in answered(library, chain.from_iterable(kinds_of_questions())):
        asked += 1
        firsts.setdefault((name, number_in(name, expected)), (name, args, expected))
        sums.take(name, args, answer)
        if answer != expected:
            differ += 1
            if differ <= 5:
                print(report(name, args, answer, expected))
    sums.follow()
    print(f"{asked - differ} answers of the library as the rules say, {differ} differ")
    apart = len(sums.wrong)
    print(*sums.wrong[:5], f"{sums.followed - apart} times a document's elements lie one behind the other, {apart} times not", sep="\n")
    return differ == 0 == apart, firsts


def smallest(library):
    """The smallest question that differs, of the first kind that has one."""

    def size(difference):
        return sum(len(shown(arg)) for arg in difference[1])

    for questions in kinds_of_questions():
        difference = min(differing(library, questions), key=size, default=None)
        if difference:
            sys.exit(report(*difference))
    print("no answer differs")


# ---- the tool itself

# the numbers by which each function can refuse
REFUSALS = {
    "check": NUMBERS["check"],
    "check_strict": NUMBERS["strict"],
    "is_empty": NUMBERS["empty"],
    "lookup": NUMBERS["get"],
    "lookup_typed": NUMBERS["typed"],
    "path": NUMBERS["path"],
    "path_typed": NUMBERS["path-typed"],
    "next": NUMBERS["admission"] | NUMBERS["at"] | NUMBERS["value"],
    "step": NUMBERS["admission"] | NUMBERS["at"],
    "read": NUMBERS["admission"] | NUMBERS["at"] | NUMBERS["value"] | {16},
    "join": NUMBERS["check"] | {14},
    "version": set(),
    "state_new": set(),
} | {function_of(word): returned for word, returned in RETURNED.items()}
REFUSALS |= {name: under_limit(REFUSALS[name.removesuffix("_under")]) for name in FUNCTIONS if name.endswith("_under")}


def is_padding(layout, n):
    return n < layout.size and not any(layout.unpack(bytes(n) + b"\1" + bytes(layout.size - n - 1)))


def try_bytes(library, firsts):
    """Each byte of an answer that is no padding is compared, whichever number it has."""
    assert firsts.keys() == {(name, n) for name, refusals in REFUSALS.items() for n in {0, *refusals}}, firsts.keys()
    spoiled = [(q, n) for q in firsts.values() for n in range(len(q[2])) if not is_padding(FUNCTIONS[q[0]][0].layout, n)]
    for (_, n), (*q, answer, expected) in zip(spoiled, answered(library, *zip(*spoiled))):
        if answer == expected:
            sys.exit(f"not reported: byte {n} of the answer changed in {report(*q, answer, expected)}")
    return len(spoiled)


def zero_tag_ends(s, offset, limit, right=rules.step):
    rules.admit(s)
    return None if s[offset : offset + 1] == b"\0" and offset >= 4 else right(s, offset, limit)


def swallowing_ends(s, offset, limit, right=rules.step):
    rules.admit(s)
    return None if offset == len(s) else right(s, offset, limit)


def tag_first(s, place, limit, right=rules.element):
    rules.unless(s[place] in rules.FIXED or s[place] in rules.FRAMED, 7)
    return right(s, place, limit)


def scope_of_14(v, right=rules.scope):
    rules.unless(right(v) >= 14, 12)
    return right(v)


def last_match(s, key, limit=None, right=rules.get):
    matches = [e for e in yielded(s) if e.key == key]
    return (matches[-1], rules.value_of(s, matches[-1])) if matches else right(s, key, limit)


def answered_by(rule, change):
    """A rule of the boundary that answers with a change."""
    right = getattr(boundary, rule)
    return patch.object(boundary, rule, lambda *args: change(right(*args)))


def where_refused(**fields):
    """Other fields of a value that is refused."""
    return answered_by("read", lambda told: told | fields if told["number"] else told)


def next_at(cursor, right=boundary.next_element):
    """The next element from another cursor, or under another limit."""
    return patch.object(boundary, "next_element", lambda *given: right(*cursor(*given)))


def other_limit(changed, right=rules.cstring):
    """Zero-ended texts under another limit."""
    return patch.object(rules, "cstring", lambda v, limit=None: right(v, None if limit is None else changed(limit)))


def slice_end_is_5(v, limit=None, right=rules.cstring):
    return right(v, None if limit is not None and len(v) <= limit else limit)


def utf8_first(v, limit=None, right=rules.cstring):
    if 0 in v:
        right(v)
    return right(v, limit)


def key_limited(s, key, limit=None, right=rules.get):
    rules.unless(limit is None or len(key) <= limit, 22)
    return right(s, key, limit)


def below_unlimited(*level, right=rules.inside):
    return right(*level[:-1], None)


def other_path(changed, right=rules.path):
    """The path with other keys."""
    return patch.object(rules, "path", lambda s, keys, limit=None: right(s, changed(keys), limit))


def other_way(wrong):
    """Another rule for what is entered."""
    return patch.object(rules, "entered", wrong)


def entered_by(e, value, *tags):
    rules.unless(e.tag in tags, 17, e.place)
    return value[-2:]


def admitted_first(s, keys, limit=None, right=rules.path):
    rules.admit(s)
    return right(s, keys, limit)


def type_first(s, keys, limit=None, right=rules.path):
    """17 in the place of the refusal of a value on the way; 11 and 12 are of no step."""
    way, zero, _ = keys.rpartition(b"\0")
    refused = boundary.found(right, s, way, limit)
    rules.unless(not zero or refused.number not in (11, 12), 17, refused.place)
    return right(s, keys, limit)


def read_after_type(s, keys, tag, limit=None, right=rules.path_with):
    """17 in the place of the refusal of a boolean, which is 11."""
    refused = boundary.found(rules.path, s, keys, limit)
    rules.unless(refused.number != 11 or tag == 0x08, 17, refused.place)
    return right(s, keys, tag, limit)


def last_at_the_top(s, keys, limit=None, right=rules.path):
    way, zero, last = keys.rpartition(b"\0")
    if not zero:
        return right(s, keys, limit)
    rules.entered(*right(s, way, limit))
    return rules.get(s, last, limit)


def bytes_counted(s, keys, limit=None, right=rules.path):
    rules.unless(len(keys) <= 201, 21)
    return right(s, keys, limit)


def keys_limited(s, keys, limit=None, right=rules.path):
    rules.unless(limit is None or all(len(key) <= limit for key in keys.split(b"\0")), 22)
    return right(s, keys, limit)


def in_the_part(rule, s, offset, size, *args):
    """What is answered about a part, with places in the part."""
    return rule(s[offset : offset + size], *args)


def found_in_the_part(s, offset, size, key, limit):
    return rules.inside(rules.get, s, offset, size, key, limit)


def path_below_unlimited(s, offset, size, key, limit, right=rules.get_inside):
    return right(s, offset, size, key, limit if offset == 0 else None)


def other_key(wrong, right=rules.is_array_key):
    """Another rule for a key of an array, by the key, its position and the rule."""
    return patch.object(rules, "is_array_key", lambda key, position: wrong(key, position, right))


def never_anew(s, strict=False, limit=None, right=rules.check):
    """One count for the keys of all arrays."""
    positions = count()
    with other_key(lambda key, _, right: right(key, next(positions))):
        return right(s, strict, limit)


def from_outer(s, e, depth, position, held={}, right=rules.visit):
    """Positions that begin with that of the array around."""
    held[depth] = position
    return right(s, e, depth, None if position is None else position + (held.get(depth - 1) or 0))


def keys_asked(least, right=rules.walk):
    """Keys asked for in every document whose values have this depth or more."""
    return patch.object(rules, "walk", lambda s, depth, array, *rest: right(s, depth, depth >= least, *rest))


def key_after_value(s, e, depth, position, right=rules.visit):
    rules.value_of(s, e)
    return right(s, e, depth, position)


def key_after_depth(s, e, depth, position, right=rules.visit):
    return right(s, e, depth, position if depth <= 200 else None)


def key_before_limit(s, strict=False, limit=None, right=rules.check):
    """No limit where there is a bad key."""
    return right(s, strict, None if verdict(right, s, strict).number == 19 else limit)


def second_first(first, second, buffer, right=joining.join):
    return right(second, first, buffer)


# RULES.md, "Errors a quick port would make", and some more
WRONG_READING = {
    "a zero met as a tag ends": patch.object(rules, "step", zero_tag_ends),
    "a value that swallows the terminator ends": patch.object(rules, "step", swallowing_ends),
    "a short code with scope is not framed": patch.dict(rules.FRAMED, {0x0F: scope_of_14}),
    "the tag is tested before the key": patch.object(rules, "element", tag_first),
    "the last match is found": patch.object(rules, "get", last_match),
    "a scope lies one deeper": patch.dict(rules.OPENS, codewithscope=1),
    "every text is UTF-8": patch.object(rules, "is_utf8", lambda v: True),
}
WRONG_ANSWERS = {
    "a value has no place": answered_by("valued", lambda v: v._replace(place=0)),
    "framed bytes stand for the part": answered_by("valued", lambda v: v._replace(offset=v.framed_offset, size=v.framed_size)),
    "the part stands for the framed bytes": answered_by("valued", lambda v: v._replace(framed_offset=v.offset, framed_size=v.size)),
    "an int32 has 32 bits": answered_by("valued", lambda v: v._replace(bits=v.bits % 2**32) if v.tag == 0x10 else v),
    "a refused value has no tag": where_refused(tag=0),
    "a refused value has no place": where_refused(place=0),
    "a refused value has no framed bytes": where_refused(framed_offset=0, framed_size=0),
    "a refused value ends the iteration": answered_by("next_element", lambda e: e._replace(ended=1) if e.number else e),
    "a refused value is not passed": answered_by("next_element", lambda e: e if e.ended or not e.number else e._replace(next=e.place)),
    "an element has no key": answered_by("next_element", lambda e: e._replace(key_offset=0, key_size=0)),
    "a key has its zero": answered_by("next_element", lambda e: e if e.ended else e._replace(key_size=e.key_size + 1)),
    "an end has a place": answered_by("next_element", lambda e: e._replace(place=e.next) if e.ended and not e.number else e),
    "an ended cursor goes on": next_at(lambda s, offset, _: (s, offset, False)),
    "the next element is one further": next_at(lambda s, offset, ended: (s, boundary.stepped(s, offset, ended).next, ended)),
}
WRONG_LIMITS = {
    "a text of the limit's size is too long": other_limit(lambda limit: limit - 1),
    "a text may have one byte more": other_limit(lambda limit: limit + 1),
    "the largest number is no limit": other_limit(lambda limit: None if limit == 2**64 - 1 else limit),
    "a text that the slice ends is 5": patch.object(rules, "cstring", slice_end_is_5),
    "6 comes before 22": patch.object(rules, "cstring", utf8_first),
    "a regex has no limit": patch.dict(rules.FRAMED, {0x0B: lambda v, limit: rules.regex(v)}),
    "the key that is looked up is limited": patch.object(rules, "get", key_limited),
    "what is nested has no limit": patch.object(rules, "inside", below_unlimited),
    "the next element has no limit": next_at(lambda s, offset, ended, limit: (s, offset, ended)),
}
WRONG_KEYS = {
    "any digits are a key of an array": other_key(lambda key, position, right: key.isdigit()),
    "positions are not counted": other_key(lambda key, position, right: right(key, 0)),
    "positions begin at 1": other_key(lambda key, position, right: right(key, position + 1)),
    "zeros may lead": other_key(lambda key, position, right: key.isdigit() and int(key) == position),
    "a sign may lead": other_key(lambda key, position, right: right(key.removeprefix(b"+"), position)),
    "the last digit is enough": other_key(lambda key, position, right: right(key[-1:], position % 10)),
    "the first digits are enough": other_key(lambda key, position, right: key and (b"%d" % position).startswith(key)),
    "a digit more is taken": other_key(lambda key, position, right: right(key, position) or key[-1:].isdigit() and right(key[:-1], position)),
    "positions never begin anew": patch.object(rules, "check", never_anew),
    "positions begin with that of the array around": patch.object(rules, "visit", from_outer),
    "all keys are asked for": keys_asked(0),
    "all keys but those of the slice are asked for": keys_asked(1),
    "the key comes behind the reading": patch.object(rules, "visit", key_after_value),
    "the key comes behind the depth": patch.object(rules, "visit", key_after_depth),
    "the key comes before the limit": patch.object(rules, "check", key_before_limit),
}
WRONG_PATHS = {
    "a path has 200 keys at most": patch.object(rules, "MOST_KEYS", 200),
    "a path has 202 keys at most": patch.object(rules, "MOST_KEYS", 202),
    "a path has 201 bytes at most": patch.object(rules, "path", bytes_counted),
    "21 comes behind admission": patch.object(rules, "path", admitted_first),
    "17 comes before the refusal of a value on the way": patch.object(rules, "path", type_first),
    "17 comes before the refusal of the last value": patch.object(rules, "path_with", read_after_type),
    "the last key is looked up at the top": patch.object(rules, "path", last_at_the_top),
    "the last key is dropped": other_path(lambda keys: keys.rpartition(b"\0")[0]),
    "the first key is dropped": other_path(lambda keys: keys.partition(b"\0")[2]),
    "a zero at the end is no key": other_path(lambda keys: keys.removesuffix(b"\0")),
    "a zero in front is no key": other_path(lambda keys: keys.removeprefix(b"\0")),
    "zeros side by side are one": other_path(lambda keys: re.sub(b"\0+", b"\0", keys)),
    "a scope is entered": other_way(lambda e, value: entered_by(e, value, 0x03, 0x04, 0x0F)),
    "an array is not entered": other_way(lambda e, value: entered_by(e, value, 0x03)),
    "17 on the way has the place of the value": other_way(lambda e, value: entered_by(e._replace(place=e.offset), value, 0x03, 0x04)),
    "the place of a refusal is that in the part": patch.object(rules, "inside", in_the_part),
    "what is found lies in the part": patch.object(rules, "get_inside", found_in_the_part),
    "the typed path forgets the tag": patch.object(rules, "path_with", lambda s, keys, tag, limit=None: rules.path(s, keys, limit)),
    "below the top a path has no limit": patch.object(rules, "get_inside", path_below_unlimited),
    "the keys of a path are limited": patch.object(rules, "path", keys_limited),
    "the last match is found on the way": patch.object(rules, "get", last_match),
}
WRONG_JOINING = {
    "the second is first": patch.object(joining, "join", second_first),
    "the strict check is made": patch.object(joining, "check", lambda s: rules.check(s, True)),
    "the room is the greater of the two": patch.object(joining, "min", max, create=True),
}
WRONG_WRITING = {
    "the room is one more": patch.object(writing.Writer, "room", property(lambda writer: len(writer.buffer) + 1)),
    "the greatest room is one more": patch.object(writing.Writer, "room", property(lambda writer: min(len(writer.buffer), 2147483648))),
    "old binary has no inner length": patch.dict(writing.VALUES, binary=(0x05, lambda subtype, data: writing.binary("00", data))),
    "an array's first key is 1": patch.dict(writing.NESTS, array=(0x04, 1)),
}


def some_reading():
    return chain.from_iterable(about(d) for d, _ in documents()[::5])


def strict_checks():
    """The strict check of the documents with array keys to ask for, without a limit and under theirs."""
    for d, _ in chain.from_iterable(group() for group in ARRAYS):
        yield question("check_strict", verdict, rules.check, d, True, asked=(d,))
    for limit, d, _ in array_limits():
        yield question("check_strict", verdict, rules.check, d, True, asked=(d,), limit=limit)


def path_questions():
    """The paths that are asked of the documents made for them, without a limit and under theirs."""
    for d, asks in chain.from_iterable(group() for group in PATHS):
        yield from paths(d, asks, None)
    for limit, d, asks in chain.from_iterable(group() for group in PATH_LIMITS):
        yield from paths(d, asks, limit)


def all_telling():
    return chain.from_iterable(joined(*pair) for pair in telling_pairs())


def try_rules(library):
    """A wrong rule shows as a difference."""
    tried = [(some_reading, WRONG_READING | WRONG_ANSWERS), (under_limits, WRONG_LIMITS), (strict_checks, WRONG_KEYS)]
    tried += [(path_questions, WRONG_PATHS), (all_telling, WRONG_JOINING), (all_sessions, WRONG_WRITING)]
    for questions, rules_of in tried:
        for what, wrong in rules_of.items():
            with wrong:
                if not any(differing(library, questions())):
                    sys.exit(f"not reported: {what}")
    return sum(len(rules_of) for _, rules_of in tried)


def main():
    if len(sys.argv) not in (2, 3) or sys.argv[1:-1] not in ([], ["--smallest"]):
        sys.exit(__doc__)
    with TemporaryDirectory() as folder:
        library = Library(sys.argv[-1], folder)
        if len(sys.argv) == 3:
            smallest(library)
            return
        alike, firsts = compare(library)
        if not alike:
            sys.exit(1)
        print(f"each of {try_bytes(library, firsts)} changed bytes of an answer is reported, each of {try_rules(library)} wrong rules,")
        print(f"and each of {try_sums()} steps that lead elsewhere")


if __name__ == "__main__":
    main()
