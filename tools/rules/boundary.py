"""The answers of the C library by their fields: how include/fringewell.h lays them, and what it says of each over the rules for reading."""
import struct
from collections import namedtuple

from . import rules
from .rules import Refused

# ---- the structs


def laid(name, layout, fields):
    """A struct, whose fields are 0 where they are not given. Each x of its layout is a byte of padding, of which nothing is said."""
    kind = namedtuple(name, fields, defaults=[0] * len(fields.split(" ")))
    kind.layout = struct.Struct(f"<{layout}")
    return kind


VALUE = "number tag place framed_offset framed_size bits offset size offset2 size2"
Verdict = laid("Verdict", "I4xQQ", "number place count")
Value = laid("Value", "IB3x8Q", VALUE)
Stepped = laid("Stepped", "IBB2x6Q", "number tag ended place next key_offset key_size framed_offset framed_size")
Element = laid("Element", "IB3x11QB7x", f"{VALUE} key_offset key_size next ended")
Joined = laid("Joined", "IIQQ", "number which place length")
Written = laid("Written", "I4xQ", "number used")
State = laid("State", "1624s", "words")
Version = laid("Version", "I", "version")


def packed(answer):
    return answer.layout.pack(*answer)


def unpacked(kind, memory):
    return kind._make(kind.layout.unpack(memory))


# ---- what they say


def verdict(rule, *args):
    try:
        return Verdict(count=rule(*args))
    except Refused as r:
        return Verdict(number=r.number, place=r.place)


def valued(e, value):
    """An element's value that was read: with what it has as a number, then with its parts."""
    word, *content = value
    bits = 0
    if e.tag in rules.NUMBERS or word == "binary":
        bits = content.pop(0) % 2**64
    elif word == "timestamp":
        bits, content = content[0] + 2**32 * content[1], ()
    return Value(0, e.tag, e.place, e.offset, e.size, bits, *content)


def found(rule, *args):
    """By a rule that gives an element and its value: a lookup, or a reading at a place."""
    try:
        return valued(*rule(*args))
    except Refused as r:
        return Value(number=r.number, place=r.place)


def framed(_, e):
    """What a step tells of its element besides the key."""
    return {"tag": e.tag, "place": e.place, "framed_offset": e.offset, "framed_size": e.size}


def read(s, e):
    """An element's value, or why it is refused and what the step tells."""
    try:
        return valued(e, rules.value_of(s, e))._asdict()
    except Refused as r:
        return {"number": r.number, **framed(s, e)}


def at_cursor(kind, told, s, offset, ended, limit):
    """A step's element by what is told of it, or its end or its refusal; and the cursor behind it."""
    try:
        e = rules.step_from(s, offset, ended, limit)
    except Refused as r:
        return kind(number=r.number, place=r.place, next=offset, ended=1)
    if not e:
        return kind(next=offset, ended=1)
    return kind(**told(s, e), key_offset=e.place + 1, key_size=len(e.key), next=e.offset + e.size)


def stepped(s, offset, ended, limit=None):
    return at_cursor(Stepped, framed, s, offset, ended, limit)


def next_element(s, offset, ended, limit=None):
    return at_cursor(Element, read, s, offset, ended, limit)
