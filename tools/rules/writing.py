"""The writer: its rules, written from the text of RULES.md, "Writer and joining", and sessions of calls.

A session is a line `write ROOM; CALL; CALL; ..` for the vectors program: a buffer of ROOM bytes that are all EE, a fresh state, and calls in order.
A call is a word and its fields; bytes are hexadecimal, no bytes a `-`, a subtype two hexadecimal digits, all other numbers decimal.

    open, close
    document, array, null, undefined, minkey, maxkey KEY
    boolean, int32, int64, datetime KEY N; double KEY BITS; timestamp KEY INCREMENT SECONDS
    string, code, symbol KEY TEXT; binary KEY SUBTYPE DATA; regex KEY PATTERN OPTIONS
    objectid KEY ID; dbpointer KEY NAMESPACE ID; decimal128 KEY BYTES
    word I N        no call: stores a word of the state

A state is 406 words: the bytes used, how many documents are open, and for each its start and its mark: all ones for a document, the count of an
array's elements, which is below 2^31, or none of the kinds.
"""
from functools import cache

from .documents import GETTERS, ID, Dice, gets, le, raw, typed
from .rules import Refused, is_utf8, unless

# ---- values: a tag, and the bytes by the fields of a call; 15 where they may not be written


def unhex(field):
    return bytes.fromhex(field.removeprefix("-"))


def text(t):
    unless(is_utf8(t), 15)
    return t


def cstring(t):
    unless(0 not in text(t), 15)
    return t


def string(field):
    t = text(unhex(field))
    return le(len(t) + 1) + t + b"\0"


def binary(subtype, field):
    data = unhex(field)
    if subtype == "02":
        data = le(len(data)) + data
    return le(len(data)) + bytes.fromhex(subtype) + data


def regex(pattern, options):
    return cstring(unhex(pattern)) + b"\0" + cstring(unhex(options)) + b"\0"


def nothing():
    return b""


def number(size):
    return lambda n: le(int(n), size)


VALUES = {
    "null": (0x0A, nothing),
    "undefined": (0x06, nothing),
    "minkey": (0xFF, nothing),
    "maxkey": (0x7F, nothing),
    "boolean": (0x08, number(1)),
    "int32": (0x10, number(4)),
    "int64": (0x12, number(8)),
    "datetime": (0x09, number(8)),
    "double": (0x01, number(8)),
    "timestamp": (0x11, lambda increment, seconds: le(int(increment)) + le(int(seconds))),
    "string": (0x02, string),
    "code": (0x0D, string),
    "symbol": (0x0E, string),
    "binary": (0x05, binary),
    "regex": (0x0B, regex),
    "dbpointer": (0x0C, lambda namespace, oid: string(namespace) + unhex(oid)),
    "objectid": (0x07, unhex),
    "decimal128": (0x13, unhex),
}
IN_DOCUMENT, IN_ARRAY = 2**32 - 1, 0  # the mark of a document, and of an array without elements
NESTS = {"document": (0x03, IN_DOCUMENT), "array": (0x04, IN_ARRAY)}


# ---- the writer


class Writer:
    """A buffer and a state. A call that is refused raises Refused, and has changed nothing."""

    def __init__(self, room):
        self.buffer = bytearray(b"\xee" * room)
        self.words = [0] * 406

    used = property(lambda self: self.words[0])
    depth = property(lambda self: self.words[1])
    room = property(lambda self: min(len(self.buffer), 2147483647))

    def test_state(self):
        """18 by each clause of "an impossible state"."""
        unless(self.used + self.depth <= self.room, 18)
        unless(self.depth > 0 or self.used == 0, 18)
        unless(self.depth <= 202, 18)
        starts, marks = (self.words[first : first + 2 * self.depth : 2] for first in (2, 3))
        unless(not any(starts[:1]), 18)
        unless(all(start + 4 <= end for start, end in zip(starts, [*starts[1:], self.used])), 18)
        unless(all(mark == IN_DOCUMENT or mark < 2**31 and mark <= self.used for mark in marks), 18)

    def test_open(self):
        self.test_state()
        unless(self.depth > 0, 18)

    def put(self, offset, new):
        self.buffer[offset : offset + len(new)] = new

    def append(self, tag, key, value, *fields, more=0):
        """An element behind the used bytes; `more` documents are then open besides."""
        self.test_open()
        unless(self.depth - 1 <= 200, 13)
        mark = 1 + 2 * self.depth
        in_array = self.words[mark] != IN_DOCUMENT
        name = b"%d" % self.words[mark] if in_array else cstring(unhex(key))
        new = bytes([tag]) + name + b"\0" + value(*fields)
        unless(self.used + len(new) + self.depth + more <= self.room, 14)
        self.put(self.used, new)
        self.words[0] += len(new)
        self.words[mark] += in_array

    def push(self, mark):
        self.words[2 + 2 * self.depth : 4 + 2 * self.depth] = self.used - 4, mark
        self.words[1] += 1

    def open(self):
        self.test_state()
        unless(self.depth == 0, 18)
        unless(5 <= self.room, 14)
        self.put(0, le(5))
        self.words[0] = 4
        self.push(IN_DOCUMENT)

    def close(self):
        self.test_open()
        start = self.words[2 * self.depth]
        self.put(self.used, b"\0")
        self.words[0] += 1
        self.words[1] -= 1
        self.put(start, le(self.used - start))

    def call(self, word, *fields):
        if word in VALUES:
            tag, value = VALUES[word]
            key, *rest = fields
            self.append(tag, key, value, *rest)
        elif word in NESTS:
            tag, mark = NESTS[word]
            self.append(tag, *fields, lambda: le(5), more=1)
            self.push(mark)
        else:
            {"open": self.open, "close": self.close}[word](*fields)

    def closed(self):
        """The used bytes where nothing is open; none where something is."""
        return bytes(self.buffer[: self.used]) if self.depth == 0 and self.used <= self.room else b""


def replayed(line):
    """What the calls of a session return, and the writer that they leave."""
    head, *calls = line.split("; ")
    writer = Writer(int(head.split(" ")[1]))
    numbers = []
    for word, *fields in (call.split(" ") for call in calls):
        if word == "word":
            writer.words[int(fields[0])] = int(fields[1])
            continue
        try:
            writer.call(word, *fields)
            numbers.append(0)
        except Refused as r:
            numbers.append(r.number)
    return numbers, writer


# ---- how sessions are made


def hexed(t):
    return raw(t).hex() or "-"


def call(word, key, *fields):
    return " ".join([word, hexed(key), *fields])


def session(room, *calls):
    return "; ".join([f"write {room}", *calls])


def needed(*calls):
    """The least room in which all the calls are accepted."""
    writers = [replayed(session(2048, *calls[: n + 1]))[1] for n in range(len(calls))]
    return max(writer.used + writer.depth for writer in writers)


# each type with fields of it
FIELDS = {
    "null": (),
    "undefined": (),
    "minkey": (),
    "maxkey": (),
    "boolean": ("1",),
    "int32": ("-2",),
    "int64": ("1099511627776",),
    "datetime": ("-1",),
    "double": ("4614256656552045848",),
    "timestamp": ("3", "1794715680"),
    "string": (hexed("Grüße"),),
    "code": (hexed("f()"),),
    "symbol": (hexed("s"),),
    "binary": ("80", hexed("xyz")),
    "regex": (hexed("^a.*$"), hexed("im")),
    "dbpointer": (hexed("db.c"), ID.hex()),
    "objectid": (ID.hex(),),
    "decimal128": (bytes(range(16)).hex(),),
}
# the same with fields that may not be written, where there are such
BAD_FIELDS = {
    "string": ("ff",),
    "code": ("61c3",),
    "symbol": ("eda080",),
    "regex": ("ff", "-"),
    "dbpointer": ("f4908080", ID.hex()),
}


def each_call(key):
    """A call for each type, and the two that open."""
    return [call(word, key, *fields) for word, fields in FIELDS.items()] + [call(word, key) for word in NESTS]


def every_type():
    """All types in one document, each under its own name; a document and an array behind them."""
    values = [call(word, word, *fields) for word, fields in FIELDS.items()]
    inner = [call("document", "document"), call("boolean", "b", "0"), "close", call("array", "array"), call("int32", "", "7"), call("null", ""), "close"]
    return ["open", *values, *inner, "close"]


DEEPEST = ["open", *[call("document", "")] * 201]  # 202 open: 1,210 bytes are used, and 202 zeros will be


# ---- sessions worked out by hand: the whole answer, or what the calls return

WORKED = {
    "write 7; open; null -; close": "gives 0 0 0, used 7 of 070000000a0000, accepts 1",
    "write 6; open; null -; close": "gives 0 14 0, used 5 of 0500000000ee, accepts 0",
    "write 4; open; null -; close": "gives 14 18 18, used 0 of eeeeeeee",
    "write 9; open": "gives 0, used 4 of 05000000eeeeeeeeee",
    "write 20; open; array 61; null -; null -": "gives 0 0 0 0, used 17 of 05000000" "046100" "05000000" "0a3000" "0a3100" "eeeeee",
    "write 20; open; array 61; null -; null -; close; close": "gives 0 0 0 0 0 0, used 19 of 13000000" "046100" "0b000000" "0a3000" "0a3100" "0000ee, accepts 3",
    "write 20; open; binary 61 02 78797a; close": "gives 0 0 0, used 20 of 14000000" "056100" "07000000" "02" "03000000" "78797a" "00, accepts 1",
    "write 19; open; binary 61 02 78797a; close": "gives 0 14 0, used 5 of 0500000000" "eeeeeeeeeeeeeeeeeeeeeeeeeeee, accepts 0",
    "write 16; open; int32 61 -2; close": "gives 0 0 0, used 12 of 0c000000" "106100" "feffffff" "00" "eeeeeeee, accepts 1",
    "write 10; open; regex - 61 -; close; null -": "gives 0 0 0 18, used 10 of 0a000000" "0b00" "6100" "00" "00, accepts 1",
}


def numbers_of(*runs):
    """A number, or how often and a number."""
    return [n for run in runs for n in ([run] if isinstance(run, int) else [run[1]] * run[0])]


def small_rooms():
    calls = ("open", "null -", "close")
    yield session(7, *calls), [0, 0, 0]
    yield session(6, *calls), [0, 14, 0]
    yield session(5, *calls), [0, 14, 0]
    for room in range(5):
        yield session(room, *calls), [14, 18, 18]
    yield session(8, "open", "null -", "document -", "boolean - 1", "null -", "close"), [0, 0, 14, 14, 14, 0]
    # an opening takes its own zero too
    yield session(12, "open", "document -", "close", "close"), [0, 0, 0, 0]
    yield session(11, "open", "document -", "array -", "close"), [0, 14, 14, 0]
    yield session(12, "open", "array 61", "close"), [0, 14, 0]
    yield session(13, "open", "array 61", "close", "close"), [0, 0, 0, 0]


def turns():
    """Calls out of turn."""
    yield session(64, "close", *each_call("a"), "open", "close"), numbers_of(18, (20, 18), 0, 0)
    yield session(64, "open", "open", "null 61", "open", "close", "open", "close", "null 61"), [0, 18, 0, 18, 0, 18, 18, 18]
    yield session(64, "open", "document 61", "open", "close", "close", "close"), [0, 0, 18, 0, 0, 18]
    yield session(64, "word 0 0", "word 1 0", "open", "close"), [0, 0]


def deep():
    """202 open, the next value too deep; room for them all, and one byte less."""
    yield session(1412, *DEEPEST, *each_call(""), *["close"] * 203), numbers_of((202, 0), (20, 13), (202, 0), 18)
    yield session(1500, *DEEPEST, *each_call(""), "close", "null -", *["close"] * 201), numbers_of((202, 0), (20, 13), 0, 0, (201, 0))
    yield session(1411, *DEEPEST, "null -", *["close"] * 202), numbers_of((201, 0), 14, 0, (201, 0), 18)
    arrays = ["open", *["array -"] * 201]
    yield session(1700, *arrays, "null -", "document -", *["close"] * 202), numbers_of((202, 0), 13, 13, (202, 0))


STATE = ("open", "document 61", "array 62")  # 18 used, 3 open: starts 0, 7, 14, and an array that has no element
ASKED = ("null 61", "document 61", "array 61", "string 61 62", "close", "open")
POSSIBLE_STATES = (
    ("word 0 37",),
    ("word 4 4",),
    ("word 4 10",),
    ("word 4 10", "word 6 18", "word 0 22"),
    ("word 7 18",),
    ("word 5 18",),
    ("word 3 0",),
    ("word 8 4294967295", "word 405 7"),
)
IMPOSSIBLE_STATES = (
    # used bytes and a zero for each past the room
    ("word 0 38",),
    ("word 0 41",),
    ("word 0 4294967295",),
    # more open than have starts, or words
    ("word 1 4",),
    ("word 1 203",),
    ("word 1 4294967295",),
    # none open, so that bytes are used before the top
    ("word 1 0",),
    # the first start
    ("word 2 1",),
    ("word 2 3",),
    ("word 2 4294967295",),
    # a start without four bytes before the next
    ("word 4 3",),
    ("word 4 0",),
    ("word 4 11",),
    ("word 4 14",),
    ("word 4 15",),
    ("word 4 4294967292",),
    # the last without four before the used bytes
    ("word 6 15",),
    ("word 6 19",),
    ("word 6 4294967295",),
    ("word 0 17",),
    ("word 0 0",),
    # a count above the used bytes, of the innermost, one around it, and the top
    ("word 7 19",),
    ("word 7 2147483647",),
    ("word 5 19",),
    ("word 3 19",),
    # a mark of no kind
    ("word 7 2147483648",),
    ("word 7 4294967294",),
    ("word 5 2147483648",),
    ("word 3 4294967294",),
)


def states():
    """Each impossible state by itself, and states next to them that can be."""
    for words in IMPOSSIBLE_STATES:
        yield session(40, *STATE, *words, *ASKED), numbers_of((3, 0), (len(ASKED), 18))
    for words in POSSIBLE_STATES:
        yield session(40, *STATE, *words, "close", "open"), [0, 0, 0, 0, 18]
    # bytes used before the top
    for used in (1, 4, 5, 40):
        yield session(40, f"word 0 {used}", *ASKED), [18] * len(ASKED)
    yield session(4, "word 0 5", "open"), [18]
    # 203 open with all else in order, and 202
    yield session(1500, *DEEPEST, "word 1 203", "null -", "document -", "close", "open"), numbers_of((202, 0), (4, 18))
    yield session(1500, *DEEPEST, "word 1 202", "close", "word 1 202", "close"), numbers_of((202, 0), 0, 0)
    # the damage undone: nothing was changed
    yield session(40, *STATE, "word 2 1", *ASKED, "word 2 0", "null -", "close", "close", "close"), numbers_of((3, 0), (6, 18), (4, 0))


def texts():
    """15: keys, texts, patterns and options."""
    for key in ("ff", "00", "6100", "610062", "c3", "eda080", "61ff62"):
        calls = [c.replace("61", key, 1) for c in each_call("a")]
        yield session(64, "open", *calls, "null 61", "close"), numbers_of(0, (20, 15), 0, 0)
    bad = [call(word, "a", *fields) for word, fields in BAD_FIELDS.items()]
    yield session(128, "open", *bad, "close"), numbers_of(0, (5, 15), 0)
    regexes = ("- 00", "00 -", "610062 -", "- 6900", "61 ff", "ff 61", "c3a9 c3a9", "- -")
    yield session(128, "open", *(f"regex 61 {r}" for r in regexes), "close"), numbers_of(0, (6, 15), 0, 0, 0)
    # zeros inside a text
    yield session(128, "open", *(f"{word} 61 610062" for word in ("string", "code", "symbol")), f"dbpointer 61 00 {ID.hex()}", "close"), numbers_of((6, 0))
    # data is no text
    yield session(128, "open", "binary 61 00 ff00", "binary 61 02 c3", "close"), [0, 0, 0, 0]


def orders():
    """Two refusals at once, for each two of 18, 13, 15, 14."""
    yield session(1412, *DEEPEST, "word 2 1", "null -", "document -", "null ff"), numbers_of((202, 0), 18, 18, 18)
    yield session(64, "null ff", "string 61 ff", "document 00"), [18, 18, 18]
    yield session(0, "null 61", "document 61", "close"), [18, 18, 18]
    yield session(20, "open", "word 0 20", "string 61 ff", "string 61 61", "document ff"), [0, 18, 18, 18]
    yield session(4, "word 0 4", "open"), [18]
    yield session(1500, *DEEPEST, "null ff", "string - ff", "document 00", "regex - 00 00"), numbers_of((202, 0), (4, 13))
    yield session(1412, *DEEPEST, "null -", "document -"), numbers_of((202, 0), 13, 13)
    yield session(8, "open", "int32 ff 1", "string 61 ff", "document 00", "regex 61 616161 00", "int32 61 1"), [0, 15, 15, 15, 15, 14]


def arrays():
    """The writer's own keys, as they grow, and given keys that are not looked at."""
    nulls = ["open", "array 61", *["null -"] * 101, "close", "null 62", "close"]
    yield session(600, *nulls), numbers_of((106, 0))
    for n in (10, 11, 100, 101):
        calls = ["open", "array 61", *["null -"] * n, "close", "close"]
        room = needed(*calls)
        yield session(room, *calls), numbers_of((n + 4, 0))
        yield session(room - 1, *calls), numbers_of((n + 1, 0), 14, 0, 0)
    yield session(200, "open", "array 61", *each_call(b"\xff")[:4], *(c.replace(" 61", " 00", 1) for c in each_call("a")[4:8]), "close", "close"), [0] * 12
    yield session(64, "open", "array 61", "document ff", "null ff", "null 61", "close", "array 6100", "null 00", "close", "close", "close"), [0, 0, 0, 15, 0, 0, 0, 0, 0, 0, 0]
    yield session(64, "open", "array 61", "string ff ff", "string ff 61", "close", "close"), [0, 0, 15, 0, 0, 0]
    # counts that few elements have
    calls = ["open", call("string", "a", "78" * 1000), "array 62", "word 5 999", "null -", "document -", "close", "int32 - 5", "close", "close"]
    yield session(2048, *calls), [0] * 9
    yield session(40, *STATE, "word 7 9", "null -", "null -", "close", "close", "close"), [0] * 8


STATED = (small_rooms, turns, deep, states, texts, orders, arrays)


def stated():
    for group in STATED:
        yield from group()


# ---- further sessions


def types():
    """Each type under keys of several sizes, and all in one document: in the room that they need, in more, and where a call lacks one byte."""
    for word, fields in FIELDS.items():
        for key in ("", "a", "Grüße"):
            calls = ["open", call(word, key, *fields), "close"]
            yield session(needed(*calls), *calls)
            yield session(needed(*calls) - 1, *calls)
    yield session(256, "open", call("null", "k" * 200), call("string", "k" * 20, *FIELDS["string"]), "close")
    calls = every_type()
    yield session(needed(*calls), *calls)
    yield session(needed(*calls) + 3, *calls)
    for n in range(1, len(calls)):
        yield session(needed(*calls[:n]) - 1, *calls)


def numbers():
    """Integers and doubles at their ends."""
    for size, words in ((32, ("int32",)), (64, ("int64", "datetime"))):
        ends = (0, 1, -1, 255, 256, -256, 2 ** (size - 1) - 1, -(2 ** (size - 1)), 1 - 2 ** (size - 1), 0x0807060504030201 % 2 ** (size - 1))
        for word in words:
            yield session(256, "open", *(call(word, "a", str(n)) for n in ends), "close")
    bits = (0, 1, 2**63, 0x7FF0 << 48, 0xFFF0 << 48, 0x7FF8 << 48, 0x7FF0_0000_0000_0001, 2**64 - 1)
    yield session(256, "open", *(call("double", "a", str(n)) for n in bits), "close")
    pairs = ((0, 0), (1, 2), (2**32 - 1, 0), (0, 2**32 - 1), (2**31, 2**31 - 1))
    yield session(256, "open", *(call("timestamp", "a", str(i), str(s)) for i, s in pairs), "close")
    yield session(64, "open", "boolean 61 0", "boolean 61 1", "close")


def data():
    """Binary data of several subtypes and sizes, and texts."""
    for subtype in (0x00, 0x01, 0x02, 0x03, 0x7F, 0x80, 0xFF):
        for n in (0, 3) if subtype & 1 else (0, 1, 4, 255, 300):
            calls = ["open", call("binary", "a", f"{subtype:02x}", hexed(b"\xc3" * n)), "close"]
            yield session(needed(*calls), *calls)
            yield session(needed(*calls) - 1, *calls)
    for t in ("", "\0", "a\0b", "\U0001f6f0", "\x7f", "é" * 40, "x" * 254, "x" * 255, "x" * 1000):
        yield session(len(raw(t)) + 20, "open", *(call(word, "a", hexed(t)) for word in ("string", "code")), "close")


def nests():
    """Documents and arrays in each other, whose lengths are patched, of one byte and of two."""
    inner = ["array 62", "int32 - 1", "document -", "array 63", "close", "close", "array -", "null -", "null -", "close", "close"]
    yield session(128, "open", "document 61", *inner, "null 62", "close", "null 64", "close")
    yield session(128, "open", *inner, *inner, "close")
    for n in (230, 240, 250, 300):
        yield session(512, "open", "document 61", "array 62", call("string", "", "78" * n), "document -", "close", "close", "close", "null 63", "close")
    for n in range(1, 12):
        yield session(7 * n + 8, "open", *["document 61"] * n, *["close"] * n, "null -", "close")
        yield session(8 * n + 8, "open", *["array 61"] * n, *["close"] * n, "null -", "close")
    yield session(64, "open", "document 61", "null 61")
    yield session(64, "open", "document 61", "close")
    yield session(64)


# ---- sessions at random

KEYS = (b"", b"a", b"b", "Grüße".encode(), b"battery", b"k" * 20, b"\xff", b"a\0")
TEXTS = (b"", b"a", "Grüße".encode(), b"a\0b", b"x" * 33, b"\xff", b"\xc3")
SIZES = (0, 5, 6, 7, 12, 20, 30, 40, 60, 80, 100, 150, 200)


def fields_at_random(dice, word):
    some = lambda *options: dice.pick(options)
    texts = {"string": 1, "code": 1, "symbol": 1, "regex": 2, "dbpointer": 1}
    if word in texts:
        return (*(hexed(dice.pick(TEXTS)) for _ in range(texts[word])), *FIELDS[word][texts[word] :])
    if word == "binary":
        return some("00", "02", "80"), hexed(dice.pick(TEXTS))
    if word == "int32":
        return (some("0", "-1", "2147483647", "-2147483648"),)
    if word in ("int64", "datetime"):
        return (some("0", "-1", "9223372036854775807", "-9223372036854775808"),)
    return FIELDS[word]


def call_at_random(dice, room):
    turn = dice.below(100)
    key = dice.pick(KEYS)
    if turn < 14:
        return "close"
    if turn < 30:
        return call(dice.pick(("document", "array")), key)
    if turn < 32:
        return "open"
    if turn < 35:
        return f"word {dice.below(10)} {dice.pick((0, 1, 4, 7, room, 2**31, 2**32 - 1))}"
    word = dice.pick(list(FIELDS))
    return call(word, key, *fields_at_random(dice, word))


def at_random():
    dice = Dice(20261116)
    for _ in range(300):
        room = dice.pick(SIZES) + dice.below(8)
        calls = [call_at_random(dice, room) for _ in range(dice.below(20))]
        yield session(room, "open", *calls, *["close"] * dice.below(6))


FURTHER = (types, numbers, data, nests, at_random)


@cache
def sessions():
    """All sessions, each once."""
    return tuple(dict.fromkeys([*WORKED, *(line for line, _ in stated()), *(line for group in FURTHER for line in group())]))


# ---- the documents that they close


def asks_of(d):
    if d == replayed(session(2048, *every_type()))[1].closed():
        return [ask for word, (tag, _) in (VALUES | NESTS).items() for ask in gets(word) + typed(word, *{tag} & {*GETTERS})]
    return gets("", "a")


def written():
    """Each document that a session closes, with keys to look up."""
    for line in sessions():
        if d := replayed(line)[1].closed():
            yield d, asks_of(d)
