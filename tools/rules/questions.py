"""Questions that no document of the list asks. To single leaves: short slices, texts and keys by themselves, every class behind every
tag. At any place of a document: a step from any cursor, a value, a part by its name. The whole check of a few more documents. Sessions of
the writer.

Each is a line for the vectors program and the answer that the rules give, as the program prints it.
"""
from itertools import product

from . import rules
from .documents import BATTERY, NULL, SAMPLED, TRY, around, bytes_to_try, doc, element, keyed, le, row_texts, scope_below, text
from .rules import FIXED, FRAMED, PARTS, Refused, admit, boolean, cstring, is_utf8, signed, unsigned, value_size
from .writing import replayed, sessions

questions = {}


def ask(word, answer, *parts):
    questions.setdefault(" ".join([word] + [bytes(p).hex() for p in parts]), answer)


def ask_at(word, answer, s, *fields):
    questions.setdefault(" ".join([word, s.hex(), *map(str, fields)]), answer)


def yes(b):
    return "yes" if b else "no"


def said(rule, *args):
    try:
        return f"gives {rule(*args)}"
    except Refused as refused:
        return f"refuses {refused.number}"


def ask_value(tag, v):
    ask("value", said(value_size, tag, bytes(v)), [tag], v)


def ask_cstring(v):
    ask("cstring", said(cstring, bytes(v)), v)


# ---- UTF-8, zero-ended texts and keys


def utf8_questions():
    for t in [[]] + list(row_texts()) + [[b] for b in range(0x7E, 0x100)]:
        ask("utf8", yes(is_utf8(t)), t)
    # blocks of 32 ASCII bytes: a character across their border, a bad byte before, at and behind it
    for n in (30, 31, 32, 33, 63, 64, 65, 96):
        for tail in ([], [0xC3, 0xA9], [0xF0, 0x9F, 0x9B, 0xB0], [0xFF], [0xC3]):
            for t in ([0x61] * n + tail, [0x61] * n + tail + [0x62] * 40):
                ask("utf8", yes(is_utf8(t)), t)


def cstring_questions():
    plain = [0x61 + i for i in range(9)]
    for n in range(10):
        for rest in ([], [0], [0, 0xFF], [0, 0x62, 0]):
            ask_cstring(plain[:n] + rest)
        for bad in ([0xFF], [0xC3, 0xA9], [0xC3], [0x80], [0x7F], [0xED, 0xA0, 0x80]):
            ask_cstring(plain[:n] + bad + [0])
            ask_cstring(plain[:n] + bad)
    for t in row_texts():
        ask_cstring(t + [0])
    for t in list(row_texts()) + [[], [0], [0x61], [0x61, 0], [0, 0x61], [0x61, 0, 0x62]]:
        ask("valid", yes(is_utf8(t) and 0 not in t), t)
    for a in (b"", b"a", b"b", b"ab", b"abc", b"abd", b"bbc", b"\0", b"a\0", b"\xff"):
        for b in (b"", b"a", b"ab", b"abc", b"a\0", b"\xff"):
            if a or not b:
                ask("equal", yes(a == b), a, b)


def limit_questions():
    """Texts under limits around their size, with a zero behind them, with one further on, and with none; one kind is not UTF-8."""
    for n in (0, 1, 3, 4, 5, 9):
        for t, rest in product((b"abcdefghi"[:n], b"\xff" * n), (b"", b"\0", b"b\0")):
            for limit in around(n):
                ask_at("cstring-under", said(cstring, t + rest, limit), t + rest, limit)


# ---- numbers


def timestamp(v):
    _, increment, seconds = rules.content(v, 0x11, 0)
    return f"{increment} {seconds}"


def number_questions():
    for size, words in ((4, ("u32", "i32")), (8, ("f64", "i64"))):
        top = 2 ** (8 * size)
        values = (0, 1, 7, 255, 256, 65536, 16777216, top // 2 - 1, top // 2, top // 2 + 1, top - 2, top - 1, 0x0807060504030201)
        for word in words:
            for v in [le(x, size) for x in values] + [b"\x11" * n for n in range(size)] + [le(1, size) + b"\xff\xff"]:
                ask(word, said(signed if word[0] == "i" else unsigned, v, size), v)
    for v in [le(x, 8)[:n] for n in range(9) for x in (0x0807060504030201, 2**64 - 1, 2**31)] + [le(2**32, 9)]:
        ask("timestamp", said(timestamp, v), v)
    for v in ([], [0], [1], [2], [255], [1, 2], [0, 255]):
        answer = said(boolean, v)
        ask("bool", {"gives 0": "no", "gives 1": "yes"}.get(answer, answer), v)


# ---- framing and admission


def length_questions():
    for tag in (0x02, 0x0C, 0x03, 0x05, 0x0F):
        for body in range(0, 24):
            ask_value(tag, b"\xff" * body)
        for body in (0, 1, 2, 5, 10, 12, 13, 17):
            for end in (0, 1):
                rest = b"\0" * max(body - 1, 0) + (bytes([end]) if body else b"")
                for n in sorted({-(2**31), -1, 0, 1, 3, 4, 5, 6, body - 1, body, body + 1, body + 3, body + 4, body + 5, 2**31 - 5, 2**31 - 1}):
                    ask_value(tag, le(n) + rest)
    whole = [b"\0\0", b"a\0i\0", b"a\0i\0x", b"\0i\0", b"\xc3\xa9\0\xc3\xa9\0"]
    for v in whole + [b"", b"\0", b"a", b"a\0", b"a\0i", b"a\0\xff\0", b"\xff\0i\0", b"\xff\0\xff"]:
        ask_value(0x0B, v)


def tag_questions():
    for tag in range(256):
        if tag in FIXED:
            n = FIXED[tag]
            for m in sorted({0, max(n - 1, 0), n, n + 1}):
                ask_value(tag, b"\0" * m)
        elif tag in FRAMED:
            for n in (1, 5, 14, -1, 99):
                ask_value(tag, le(n) + b"\0" * 20)
            for v in (le(14) + b"\1" * 20, b"\0\0\0"):
                ask_value(tag, v)
        else:
            ask_value(tag, b"\0" * 20)


def admission_questions():
    for row in TRY.split("\n"):
        s = bytes.fromhex(row.split(" = ")[0])
        ask("admit", said(admit, s), s)


# ---- at any place


def refused(r):
    return f"refuses {r.number} at {r.place}"


def said_step(s, offset, ended):
    """The step's answer, and the cursor that it leaves."""
    try:
        e = rules.step_from(s, offset, ended)
    except Refused as r:
        return f"{refused(r)}, next {offset} ended"
    if not e:
        return f"ends, next {offset} ended"
    return f"yields {e.place} tag {e.tag:02x} key {e.place + 1} {len(e.key)} value {e.offset} {e.size}, next {e.offset + e.size} open"


def said_value(s, place):
    try:
        _, value = rules.read_at(s, place)
        return " ".join(["gives", *map(str, value)])
    except Refused as r:
        return refused(r)


def said_part(s, place, name):
    part = rules.part_at(s, place, name)
    return f"gives {part.hex()}" if part else "is empty"


HUGE = (2**31, 2**63 - 1, 2**63, 2**64 - 1)


def place_questions():
    """From each offset of a document and past it, and from huge ones: a step from a cursor with the mark and without, and a value."""
    tried = [d for d, _ in bytes_to_try()]
    papers = [tried[p - 1] for p in (5, 6, 9, 10, 11, 12)]
    damaged = doc(element(NULL, "z"), element(0x08, "a", b"\2"), element(0x02, "b", le(0)), BATTERY)
    unadmitted = [b"", *(tried[p - 1] for p in (2, 3, 4)), le(11) + papers[0][4:]]
    for s in [*papers, damaged, *unadmitted]:
        for offset in (*range(len(s) + 3), *HUGE):
            ask_at("step", said_step(s, offset, False), s, offset, "open")
            ask_at("step", said_step(s, offset, True), s, offset, "ended")
            ask_at("read", said_value(s, offset), s, offset)


def part_questions():
    """Each part by its name of values of each type, of values that are refused, and at places where no such value is."""
    bad_text = text(b"\xff")
    refused_values = [(0x02, bad_text), (0x0D, bad_text), (0x0E, bad_text), (0x0C, bad_text + bytes(12)), (0x05, le(1) + b"\2x"), (0x0F, le(3))]
    for tag, value in [*SAMPLED, *refused_values]:
        s = doc(element(tag, "a", value))
        for name in PARTS:
            ask_at("part", said_part(s, 4, name), s, 4, name)
            if PARTS[name][0] == tag:
                for place in (0, 3, 5, len(s) - 1, len(s), *HUGE):
                    ask_at("part", said_part(s, place, name), s, place, name)


# ---- the whole check


def said_check(s, strict):
    try:
        return f"accepts {rules.check(s, strict)}"
    except Refused as r:
        return refused(r)


def check_questions():
    """A scope too deep, and array keys of digits that begin with 0 or are one other digit."""
    for s in (scope_below(201, doc()), scope_below(201, doc(element(NULL, ""))), keyed("01"), keyed("7")):
        ask("check", said_check(s, False), s)
        ask("strict", said_check(s, True), s)


# ---- sessions of the writer


def said_session(line):
    """What the calls return, the used bytes, the whole buffer, and where the top is closed the whole check of it."""
    numbers, writer = replayed(line)
    said = f"gives{''.join(f' {n}' for n in numbers)}, used {writer.used} of {writer.buffer.hex()}"
    d = writer.closed()
    return f"{said}, {said_check(d, False)}" if d else said


def session_questions():
    for line in sessions():
        questions.setdefault(line, said_session(line))


GROUPS = (
    utf8_questions, cstring_questions, limit_questions, number_questions, length_questions, tag_questions, admission_questions, place_questions,
    part_questions, check_questions, session_questions,
)


def all_questions():
    for group in GROUPS:
        group()
    return questions
