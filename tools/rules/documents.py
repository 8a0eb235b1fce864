"""The documents of the list: bytes for every class, boundary and kind of damage, with the keys and paths that are looked up in them.

Each group is a generator of (document, asks); an ask is ("get", key), ("typed", key, tag), ("path", path) or ("path-typed", path, tag).
The groups under a limit have it in front. Nothing here says an answer, but for RULES.md, "Bytes to try", whose results stand beside them as
that page has them, and for the settled points of paths and of a limit.
"""
import re

INT32, NULL, DOCUMENT, ARRAY, SCOPE = 0x10, 0x0A, 0x03, 0x04, 0x0F
GETTERS = (0x01, 0x02, 0x03, 0x04, 0x05, 0x07, 0x08, 0x09, 0x0B, 0x10, 0x11, 0x12)  # the tags of the Rust's twelve typed getters

# ---- how documents are made


def le(n, size=4):
    return (n % 2 ** (8 * size)).to_bytes(size, "little")


def raw(key):
    return key.encode() if isinstance(key, str) else bytes(key)


def element(tag, key, value=b""):
    return bytes([tag]) + raw(key) + b"\0" + value


def doc(*elements):
    body = b"".join(elements)
    return le(len(body) + 5) + body + b"\0"


def text(t):
    return le(len(raw(t)) + 1) + raw(t) + b"\0"


def with_scope(code, scope):
    inner = text(code) + scope
    return le(len(inner) + 4) + inner


def resized(s):
    """The same bytes with the length that they have."""
    return le(len(s)) + s[4:]


def gets(*keys):
    return [("get", raw(key)) for key in keys]


def typed(key, *tags):
    return [("typed", raw(key), tag) for tag in tags]


def along(*keys):
    """A path: the keys with a zero byte between them."""
    return b"\0".join(map(raw, keys))


def paths(*paths):
    return [("path", path) for path in paths]


def typed_paths(path, *tags):
    return [("path-typed", path, tag) for tag in tags]


BATTERY = element(INT32, "battery", le(87))
ID = bytes.fromhex("0123456789abcdef00ff7f80")
SAMPLES = {
    0x01: bytes.fromhex("182d4454fb210940"),
    0x02: text("Grüße"),
    0x03: doc(element(0x08, "b", b"\1")),
    0x04: doc(element(INT32, "0", le(7)), element(NULL, "1")),
    0x05: le(3) + b"\x80xyz",
    0x06: b"",
    0x07: ID,
    0x08: b"\1",
    0x09: le(-1, 8),
    0x0A: b"",
    0x0B: b"^a.*$\0im\0",
    0x0C: text("db.c") + ID,
    0x0D: text("f()"),
    0x0E: text("s"),
    0x0F: with_scope("x", doc(element(0x08, "y", b"\0"))),
    0x10: le(-2),
    0x11: le(3) + le(1794715680),
    0x12: le(2**40, 8),
    0x13: bytes(range(16)),
    0x7F: b"",
    0xFF: b"",
}
OLD_BINARY = le(7) + b"\2" + le(3) + b"xyz"
# where the length fields of a sample lie
FIELDS = {tag: (0,) for tag in (0x02, 0x03, 0x04, 0x05, 0x0C, 0x0D, 0x0E)} | {0x0F: (0, 4, 10)}


def framed(tag, value):
    """A value between two others, of which the panel reads the last."""
    return doc(element(NULL, "z"), element(tag, "a", value), BATTERY)


VALUE_AT = 4 + 3 + 3  # where the value of a framed sample begins
SAMPLED = [(tag, SAMPLES[tag]) for tag in sorted(SAMPLES)] + [(0x05, OLD_BINARY)]


# ---- RULES.md, "Bytes to try", with its results of the whole check

TRY = """05 00 00 00 00 = 0
05 00 00 00 = 1 at 0
06 00 00 00 00 = 2 at 0
05 00 00 00 01 = 3 at 0
0A 00 00 00 10 00 07 00 00 00 = 4 at 10
0A 00 00 00 0F 00 03 00 00 00 = 12 at 4
0C 00 00 00 02 00 01 00 00 00 00 00 = 1
0B 00 00 00 02 00 00 00 00 00 00 = 8 at 4
08 00 00 00 14 FF 00 00 = 6 at 4
07 00 00 00 0B 00 00 = 5 at 4
06 00 00 00 0A 00 = 4 at 6
0D 00 00 00 08 61 00 00 08 61 00 01 00 = 2
07 00 00 00 14 00 00 = 7 at 4
0A 00 00 00 12 00 07 00 00 00 = 9 at 4
0C 00 00 00 02 00 01 00 00 00 61 00 = 10 at 4
08 00 00 00 08 00 02 00 = 11 at 4
15 00 00 00 0F 00 0E 00 00 00 01 00 00 00 00 05 00 00 00 00 00 = 1"""


def nested(k, tag=DOCUMENT, key="", innermost=doc()):
    """A document with k more inside it, each the only value of the one around it."""
    d = innermost
    for _ in range(k):
        d = doc(element(tag, key, with_scope("", d) if tag == SCOPE else d))
    return d


def scope_below(depth, scope):
    """A code with scope at a depth, under empty keys."""
    return nested(depth, innermost=doc(element(SCOPE, "", with_scope("", scope))))


def bytes_to_try():
    """The table of "Bytes to try": each document, and the result of the whole check."""
    for row in TRY.split("\n"):
        hexes, result = row.split(" = ")
        yield bytes.fromhex(hexes), result
    yield nested(201), "201"
    yield nested(202), "13 at 1210"


MOST_KEYS = along(*[""] * 201)
TOO_MANY = along(*[""] * 202)
# in bytes of every sort: one key, two, three, the most and one more
ANYWHERE = paths(b"", b"a", along("", ""), along("", "", "a"), MOST_KEYS, TOO_MANY)
ANYWHERE += typed_paths(b"", 0x08, INT32) + typed_paths(b"a", 0x08) + typed_paths(TOO_MANY, NULL)


def tried():
    for d, _ in bytes_to_try():
        yield d, gets("", "a") + ANYWHERE


# ---- good documents


def good_values():
    numbers = (0, 1, -1, 2**31 - 1, -(2**31), 2**63 - 1, -(2**63), 0x0807060504030201)
    for tag, value in SAMPLED:
        for key in ("", "a", "Grüße"):
            yield doc(element(tag, key, value)), gets(key)
        yield framed(tag, value), gets("a", "battery") + typed("a", *GETTERS)
    for tag, size in ((0x10, 4), (0x12, 8), (0x09, 8), (0x11, 8), (0x01, 8)):
        for n in numbers:
            yield doc(element(tag, "a", le(n, size))), typed("a", tag)
    for bits in (0x7FF0 << 48, 0xFFF0 << 48, 0x7FF8 << 48, 0x7FF0_0000_0000_0001, 2**64 - 1, 0x8000 << 48, 1):
        yield doc(element(0x01, "a", le(bits, 8))), typed("a", 0x01)
    for t in ("", "a", "\0", "a\0b", "\U0001f6f0", "\x7f", "é" * 40, "x" * 33):
        for tag in (0x02, 0x0D, 0x0E):
            yield doc(element(tag, "a", text(t))), typed("a", tag)
        yield doc(element(0x0C, "a", text(t) + ID)), gets("a")
        yield doc(element(SCOPE, "a", with_scope(t, doc()))), gets("a")
    for subtype in (*range(12), 0x7F, 0x80, 0xFF):
        yield doc(element(0x05, "a", le(4) + bytes([subtype]) + le(0))), typed("a", 0x05)
    for p in ("", "a", "é"):
        for o in ("", "i", "imsx"):
            yield doc(element(0x0B, "a", raw(p) + b"\0" + raw(o) + b"\0")), typed("a", 0x0B)
    for k in range(8):
        yield doc(*(element(NULL, str(i)) for i in range(k))), gets("0", "7")


def booleans():
    for b in range(256):
        yield doc(element(0x08, "a", bytes([b])), BATTERY), typed("a", 0x08) + gets("battery")


# ---- admission


def admissions():
    for n in range(0, 9):
        for declared in (n - 1, n, n + 1, -1, n - 2**31, 0, 5, n << 8, n << 24):
            for last in (0, 1):
                s = (le(declared) + b"\0" * 8)[:n]
                yield (s[:-1] + bytes([last]) if n > 4 else s), gets("")
    d = framed(0x02, SAMPLES[0x02])
    for wrong in (len(d) - 1, len(d) + 1, -len(d), 0, 4, 5, 2**31 - 1, -(2**31), len(d) << 8, len(d) + 2**31):
        yield le(wrong) + d[4:], typed("battery", INT32)
    for last in (1, 0x0A, 0x80, 0xFF):
        yield d[:-1] + bytes([last]), typed("battery", INT32)
    for n in range(len(d)):
        yield d[:n], typed("battery", INT32)
    yield d + b"\0", gets("battery")


# ---- damage to a framed value of each type


def lengths():
    """Each length field one off, negative, huge, and such that the value ends at, in or behind the terminator."""
    for tag, value in SAMPLED:
        for field in (0, 5) if value is OLD_BINARY else FIELDS.get(tag, ()):
            d = framed(tag, value)
            where = VALUE_AT + field
            true = int.from_bytes(d[where : where + 4], "little")
            rest = len(d) - where
            values = {true + i for i in range(-6, 7)} | set(range(0, 10)) | {rest + i for i in range(-18, 2)}
            for n in sorted(values | {-1, -true, -(2**31), 2**31 - 1, 2**31 - 5, 2**31 - 12, 2**30, true << 8, true << 24, true - 2**31}):
                yield d[:where] + le(n) + d[where + 4 :], gets("a", "battery")


def cuts():
    """Cut behind each byte, with the length that is left and the last byte made zero."""
    for tag, value in SAMPLED:
        d = framed(tag, value)
        for n in range(VALUE_AT - 2, VALUE_AT + len(value) + 2):
            yield le(n) + d[4 : n - 1] + b"\0", typed("a", tag)
    for tag, value in SAMPLED:
        for short in range(1, min(len(value), 5) + 1):
            yield doc(element(tag, "a", value[:-short])), gets("a")


def changed():
    """Each byte of a framed value and its tag and key changed."""
    for tag, value in SAMPLED:
        d = framed(tag, value)
        for i in range(VALUE_AT - 3, VALUE_AT + len(value)):
            for b in sorted({0, 0xFF, d[i] ^ 1} - {d[i]}):
                yield d[:i] + bytes([b]) + d[i + 1 :], gets("a", "battery")


def zeros():
    """Each zero dropped, doubled, and moved one byte on."""
    for tag, value in SAMPLED:
        d = framed(tag, value)
        for i in range(4, len(d) - 1):
            if d[i] == 0:
                yield resized(d[:i] + d[i + 1 :]), gets("battery")
                yield resized(d[:i] + b"\0" + d[i:]), gets("battery")
                if d[i + 1] != 0 and i + 2 < len(d):
                    yield d[:i] + d[i + 1 : i + 2] + b"\0" + d[i + 2 :], gets("battery")


def tags():
    """Each tag before values of every class, and each sample under every other tag."""
    for tag in range(256):
        for value in (le(5) + b"\0" * 21, le(14) + text("") + doc()):
            yield doc(element(tag, "a", value), BATTERY), gets("battery")
    for tag, value in SAMPLED:
        for other in sorted(SAMPLES):
            if other != tag:
                yield framed(other, value), gets("a")


def fixed_ends():
    """A last value that is just there, runs into the terminator, or past it."""
    for tag, value in SAMPLES.items():
        if tag in FIELDS or tag == 0x0B:
            continue
        size = len(value)
        for n in range(max(size - 2, 0), size + 3):
            for b in (0, 1):
                yield doc(element(tag, "", bytes([b]) * n)), gets("")


# ---- UTF-8: the rows of RFC 3629, section 4, at their ends

TAIL = (0x80, 0xBF)
ROWS = [
    [(0x00, 0x7F)],
    [(0xC2, 0xDF), TAIL],
    [(0xE0, 0xE0), (0xA0, 0xBF), TAIL],
    [(0xE1, 0xEC), TAIL, TAIL],
    [(0xED, 0xED), (0x80, 0x9F), TAIL],
    [(0xEE, 0xEF), TAIL, TAIL],
    [(0xF0, 0xF0), (0x90, 0xBF), TAIL, TAIL],
    [(0xF1, 0xF3), TAIL, TAIL, TAIL],
    [(0xF4, 0xF4), (0x80, 0x8F), TAIL, TAIL],
]


def row_texts():
    """Each row's first and last character, the first with a byte behind it that begins none, each byte one below and one above its range,
    and each cut short."""
    for row in ROWS:
        low, high = [r[0] for r in row], [r[1] for r in row]
        yield low
        yield high
        yield low + [0x80]
        for i, (a, z) in enumerate(row):
            for base in (low, high):
                if a > 0:
                    yield base[:i] + [a - 1] + base[i + 1 :]
                if z < 255:
                    yield base[:i] + [z + 1] + base[i + 1 :]
        for n in range(1, len(row)):
            yield low[:n]
            yield high[:n] + [0x61]


def texts():
    """Every such text as key, string, pattern, options, code, symbol, namespace and code of a code with scope."""
    for t in map(bytes, row_texts()):
        yield doc(element(NULL, t), BATTERY), gets(t, "battery")
        yield doc(element(0x02, "a", text(t)), BATTERY), typed("a", 0x02) + gets("battery")
        yield doc(element(0x0B, "a", t + b"\0i\0")), gets("a")
        yield doc(element(0x0B, "a", b"p\0" + t + b"\0")), gets("a")
        yield doc(element(0x0D, "a", text(t))), gets("a")
        yield doc(element(0x0E, "a", text(t))), gets("a")
        yield doc(element(0x0C, "a", text(t) + ID)), gets("a")
        yield doc(element(SCOPE, "a", with_scope(t, doc()))), gets("a")


# ---- code with scope


CODES = (text("x"), text(b"\xff"), le(2) + b"xx", le(0) + b"\0", le(-1) + b"\0", le(99) + b"\0", le(7) + b"\0" * 7)
SCOPES = (
    doc(), doc(BATTERY), doc(element(0x08, "y", b"\2")), doc(element(0x14, "y")),
    b"", b"\0", le(5), le(6) + b"\0", le(5) + b"\1", le(4) + b"\0", le(-5) + b"\0",
)


def coded(code, scope):
    return doc(element(SCOPE, "a", le(4 + len(code + scope)) + code + scope), BATTERY)


def codes_with_scope():
    """Sizes 0 to 20, each with code and scope of every fit; and code and scope bad at once, in each pairing."""
    for n in range(21):
        for code in sorted({0, 1, 2, n - 13, n - 9, n - 8, n - 4} & set(range(-1, 14))):
            body = le(code) + b"\0" * max(code, 0) + le(n - 8 - code) + b"\0" * 16
            yield doc(element(SCOPE, "a", le(n) + body[: max(n - 4, 0)])), gets("a")
            yield doc(element(SCOPE, "a", le(n) + body), BATTERY), gets("battery")
    for code in CODES:
        for scope in SCOPES:
            yield coded(code, scope), gets("a", "battery")


# ---- nesting


def nesting():
    """Around depth 200, through documents, arrays and scopes, with what lies innermost good or bad."""
    inner = (doc(), doc(element(NULL, "")), doc(element(0x08, "", b"\2")), doc(element(0x14, "")))
    for k in range(199, 204):
        yield nested(k), []
        yield nested(k, ARRAY, "0"), []
    for k in (200, 201):
        for d in inner[1:]:
            yield nested(k, innermost=d), []
    for k in range(99, 103):
        for d in inner:
            yield nested(k, SCOPE, innermost=d), []
    for k in (198, 199, 200):
        yield scope_below(k, inner[1]), []
        yield scope_below(k, inner[0]), []
        yield nested(k, innermost=doc(element(SCOPE, "", le(3)))), []
    yield doc(element(DOCUMENT, "", nested(200)), element(DOCUMENT, "", nested(201)), element(0x14, "")), []


def inner_damage():
    """Damage one and two levels down, whose place counts from the outermost byte."""
    for tag, value in SAMPLED:
        for bad in (value[:-1] + b"\7" if value else b"\7", value + b"\1"):
            d = doc(element(NULL, "n"), element(tag, "a", bad))
            yield doc(element(DOCUMENT, "d", d), BATTERY), gets("d", "battery")
            yield doc(element(ARRAY, "d", doc(element(DOCUMENT, "0", d)))), gets("d")
            yield doc(element(SCOPE, "d", with_scope("x", d)), BATTERY), gets("d")


# ---- keys


def lookups():
    """First, middle, last, absent, repeated, empty and similar keys; damage before, at and behind the match; keys that no element can have."""
    keys = ("battery", "batter", "batteryy", "", "b", "Battery")
    parts = [element(INT32, key, le(i)) for i, key in enumerate(keys)]
    asks = gets(*keys, "absent", "batterz", b"battery\0", b"\xff", b"\0")
    asks += typed("battery", *GETTERS, 0x00, 0x06, 0x14, 0xFF) + typed("absent", INT32, 0x14)
    for i in range(len(parts)):
        yield doc(*parts[i:], *parts[:i]), asks
        yield doc(*parts[i:], *(element(INT32, k, le(99)) for k in keys)), asks
    unframed = [element(0x14, "x"), element(0x02, "x", le(0)), element(INT32, b"\xff", le(0))]
    unread = [element(0x08, "x", b"\2"), element(0x02, "battery", text(b"\xff")), element(SCOPE, "battery", le(3))]
    for bad in unframed + unread:
        for i in range(3):
            yield doc(*parts[:i], bad, *parts[i:]), gets("battery", "", "x", "absent", b"\xff") + typed("battery", INT32, 0x02) + typed("x", 0x08)
    # the night's frame: a text whose damaged length ends before bytes that are shaped like a battery element
    full = element(INT32, "battery", le(100))
    for n in range(1, 32):
        yield doc(element(0x02, "note", le(n) + b"ok\0" + full + b"\0"), BATTERY), gets("battery") + typed("battery", INT32)


# ---- array keys for the strict check


def nulls(*keys):
    return doc(*(element(NULL, key) for key in keys))


def in_an_array(*elements):
    return doc(element(ARRAY, "a", doc(*elements)))


def keyed(*keys):
    """An array of nulls under these keys."""
    return doc(element(ARRAY, "a", nulls(*keys)))


def in_a_scope(array):
    """An array in a scope in an array."""
    return doc(element(ARRAY, "x", doc(element(SCOPE, "0", with_scope("", doc(element(ARRAY, "s", array)))))))


def positions(n):
    """The keys of a good array of n elements."""
    return [str(i) for i in range(n)]


def nearly(i):
    """Not quite i: the numbers beside it, one digit more or less at either end, a zero in front, the byte behind 9 for the last digit and for all."""
    right = str(i)
    return [str(i + 1), str(i - 1), "0" + right, "1" + right, right + "0", right[1:], right[:-1], right[:-1] + ":", ":"]


def long_arrays():
    """Keys of up to three digits, all good, and one of them nearly so."""
    for n, places in ((11, (9, 10)), (101, (9, 10, 99, 100))):
        keys = positions(n)
        yield keyed(*keys), gets("", "a")
        for i in places:
            for key in nearly(i):
                yield keyed(*keys[:i], key, *keys[i + 1 :]), []


def array_keys():
    """At the top of an array and below."""
    good = [["0"], ["0", "1"], positions(11)]
    digits = [["1"], ["9", "7"], ["00"], ["0", "0"], ["0", "01"], ["0", "2"], ["0", "0", "7"], ["0", "1", "3"], ["4294967296"], [str(2**64)]]
    others = [[""], ["/"], [":"], ["a"], ["1a"], ["-1"], ["+0"], ["+1"], [" 1"], ["0 "], ["٠"], ["٣"], ["0", "x"], ["xxx", "0"]]
    for keys in good + digits + others:
        array = nulls(*keys)
        yield keyed(*keys), gets("a")
        yield doc(element(DOCUMENT, "a", array), element(ARRAY, "x", doc(element(DOCUMENT, "0", array)))), gets("a")
        yield doc(element(ARRAY, "x", doc(element(ARRAY, "0", array), element(0x08, "y", b"\2")))), gets("a")
        yield in_a_scope(array), gets("a")
        yield array, gets(*keys)


def array_levels():
    """Positions begin anew in each array and go on behind what lies in it, whatever its type; in documents and scopes any keys are good."""
    for keys in ([], ["0", "1"], ["1", "2"], ["2"], ["x", ""]):
        inner = nulls(*keys)
        for tag, value in ((ARRAY, inner), (DOCUMENT, inner), (SCOPE, with_scope("", inner))):
            for behind in ("2", "1", "4"):
                yield in_an_array(element(NULL, "0"), element(tag, "1", value), element(NULL, behind)), []
        yield doc(element(ARRAY, "a", nulls("0")), element(ARRAY, "b", inner)), []
    for tag, value in SAMPLED:
        for behind in ("1", "0"):
            yield in_an_array(element(tag, "0", value), element(NULL, behind)), []


# damage of each kind: four that the step refuses, and three that the reading does
DAMAGES = [(0x14, b""), (0x02, le(0)), (0x02, le(99)), (0x02, le(1) + b"x"), (0x08, b"\2"), (0x02, text(b"\xff")), (SCOPE, le(3))]


def array_orders():
    """A key that is good or bad, of a damaged element: at the top of an array, behind another and, of some, around depth 200."""
    for tag, value in [*DAMAGES, (0x0B, b"p"), (0x05, le(1) + b"\2x")]:
        for key in ("0", "1", "x", b"\xff"):
            bad = element(tag, key, value)
            yield in_an_array(bad), gets("a")
            yield in_an_array(element(NULL, "0"), bad), gets("a")
    for tag, value in ((NULL, b""), (0x08, b"\2"), (0x14, b"")):
        for key in ("0", "1"):
            for k in (200, 201):
                yield nested(k, ARRAY, "0", doc(element(tag, key, value))), []


ARRAYS = (long_arrays, array_keys, array_levels, array_orders)


# ---- paths into nested documents

# the settled points: a limit or none, a path, a document, and the result: the element's place and its value, or the number and the place
SETTLED_PATHS = """70 in 10 00 00 00 04 70 00 08 00 00 00 0A 30 00 00 00 = 4 array 7 8
70 00 30 in 10 00 00 00 04 70 00 08 00 00 00 0A 30 00 00 00 = 11 null
70 00 31 in 10 00 00 00 04 70 00 08 00 00 00 0A 30 00 00 00 = 16 at 14
70 00 in 10 00 00 00 04 70 00 08 00 00 00 0A 30 00 00 00 = 16 at 14
70 00 30 00 in 10 00 00 00 04 70 00 08 00 00 00 0A 30 00 00 00 = 17 at 11
00 70 00 30 in 10 00 00 00 04 70 00 08 00 00 00 0A 30 00 00 00 = 16 at 15
 in 0E 00 00 00 03 00 07 00 00 00 0A 00 00 00 = 4 document 6 7
00 in 0E 00 00 00 03 00 07 00 00 00 0A 00 00 00 = 10 null
00 00 in 0E 00 00 00 03 00 07 00 00 00 0A 00 00 00 = 17 at 10
61 00 62 in 11 00 00 00 03 61 00 09 00 00 00 08 62 00 02 00 00 = 11 at 11
61 00 62 00 63 in 11 00 00 00 03 61 00 09 00 00 00 08 62 00 02 00 00 = 11 at 11
61 in 19 00 00 00 0F 61 00 11 00 00 00 01 00 00 00 00 08 00 00 00 0A 62 00 00 00 = 4 codewithscope 15 0 16 8
61 00 62 in 19 00 00 00 0F 61 00 11 00 00 00 01 00 00 00 00 08 00 00 00 0A 62 00 00 00 = 17 at 4
2: 61 00 62 62 in 11 00 00 00 03 61 00 09 00 00 00 0A 62 62 00 00 00 = 11 null
2: 61 00 62 62 62 in 11 00 00 00 03 61 00 09 00 00 00 0A 62 62 00 00 00 = 16 at 15
1: 61 00 62 62 in 11 00 00 00 03 61 00 09 00 00 00 0A 62 62 00 00 00 = 22 at 11
0: 61 00 62 62 in 11 00 00 00 03 61 00 09 00 00 00 0A 62 62 00 00 00 = 22 at 4"""


def settled_paths():
    """The table: each document, its limit, the path and the result. Under empty keys the element of depth k lies at 4 + 6 k."""
    for row in SETTLED_PATHS.split("\n"):
        limit, path, hexes, result = re.fullmatch("(?:(.*): )?(.*) ?in (.*) = (.*)", row).groups()
        yield bytes.fromhex(hexes), limit and int(limit), bytes.fromhex(path), result
    yield nested(201), None, MOST_KEYS, "1204 document 1206 5"
    yield nested(202), None, TOO_MANY, "21 at 0"
    yield b"\5\0\0\0", None, MOST_KEYS, "1 at 0"
    yield b"\5\0\0\0", None, TOO_MANY, "21 at 0"


def asks_settled():
    """Each limit or none and document of the table, with all their paths."""
    asks = {}
    for d, limit, path, _ in settled_paths():
        asks.setdefault((limit, d), []).extend(paths(path))
    return asks.items()


def path_points():
    return ((d, asks) for (limit, d), asks in asks_settled() if limit is None)


def way(*keys, innermost=BATTERY):
    """Documents and arrays by turns, each between other values under the next of the keys; an element in the innermost."""
    d = doc(element(NULL, "z"), innermost)
    for i, key in reversed([*enumerate(keys)]):
        d = doc(element(NULL, "z"), element((DOCUMENT, ARRAY)[i % 2], key, d), element(NULL, "y"))
    return d


def path_levels():
    """The path to each level, a key that is missing there, one more key behind it, and empty keys before, between and behind."""
    for keys in (("a",), ("power", "cells", "0", "b"), ("", "a", "", ""), ("a", "a", "a", "a"), ("0", "10", "00", "1")):
        steps = [keys[:i] for i in range(1, len(keys) + 1)] + [(*keys, "battery")]
        missing = [(*step[:-1], "absent", *keys) for step in steps] + [(*keys, b"\xff"), (b"\xff", *keys[1:])]
        behind = [(*step, "y") for step in steps]
        empty = [("", *keys), (*keys, ""), (*keys, "", ""), (*keys[:1], "", *keys[1:], "battery"), ("", ""), ("",)]
        asks = paths(*dict.fromkeys(along(*path) for path in [*steps, *missing, *behind, *empty]))
        yield way(*keys), asks + typed_paths(along(*keys, "battery"), INT32, 0x12)


def path_lengths():
    """As many keys as a path may have, and one more, in documents and arrays of so many levels; and one key of more bytes than that."""
    for tag, key in ((DOCUMENT, ""), (ARRAY, "0")):
        for k in (200, 201):
            keys = [key] * k
            most = [along(*keys[:200], "battery"), along(*keys[:200], "absent"), along(*keys[:199], "absent", key), along(*keys[:201])]
            asks = paths(*most, along(*keys, "battery")) + typed_paths(along(*keys[:200], "battery"), INT32, NULL)
            yield nested(k, tag, key, doc(element(NULL, "z"), BATTERY)), asks
    long = along("k" * 202), along("k" * 203), along("k", *[""] * 199, "k"), along("k", *[""] * 200, "k")
    yield doc(element(NULL, "k" * 202), BATTERY), paths(*long)
    yield BATTERY, paths(*long, MOST_KEYS, TOO_MANY)


def path_types():
    """Each type as the last value, and on the way, where its own refusals come first and a scope is not entered."""
    for tag, value in [*SAMPLED, *DAMAGES]:
        d = doc(element(NULL, "n"), element(DOCUMENT, "d", framed(tag, value)), BATTERY)
        asks = paths(along("d", "a"), along("d", "a", "y"), along("d", "a", "battery"), along("d", "battery"), along("d", "absent"))
        yield d, asks + typed_paths(along("d", "a"), tag, INT32) + typed_paths(along("d", "a", "b"), 0x08)
    for code, scope in [(code, SCOPES[0]) for code in CODES] + [(CODES[0], scope) for scope in SCOPES[1:]]:
        d = doc(element(ARRAY, "d", coded(code, scope)))
        yield d, paths(along("d", "a"), along("d", "a", "battery"), along("d", "a", "y"), along("d", "battery"))


def beside(e, other, side):
    """A document of an element, with the other before it or behind it, or without the other."""
    return doc(*{"before": [other, e], "behind": [e, other], "": [e]}[side])


def path_damage():
    """Damage before and behind the way, at each of three levels."""
    asks = paths(along("a"), along("a", "absent"), along("a", "0"), *(along("a", "0", key) for key in ("battery", "absent", "x")))
    for tag, value in DAMAGES:
        bad = element(tag, "x", value)
        for side in ("before", "behind"):
            for top, middle, inner in ((side, "", ""), ("", side, ""), ("", "", side)):
                array = beside(element(DOCUMENT, "0", beside(BATTERY, bad, inner)), bad, middle)
                yield beside(element(ARRAY, "a", array), bad, top), asks


def path_arrays():
    """An array of eleven documents, by its keys; and repeated keys, where the other can't be entered or is damaged."""
    cells = [element(DOCUMENT, str(i), doc(element(INT32, "mv", le(4100 + i)))) for i in range(11)]
    keys = ("0", "1", "9", "10", "11", "00", "01", "-1", "")
    asks = paths(*(along("cells", key, "mv") for key in keys), along("cells", "10"), along("0", "mv"))
    yield doc(element(ARRAY, "cells", doc(*cells))), asks
    first, second = element(DOCUMENT, "a", doc(BATTERY)), element(ARRAY, "a", doc(element(NULL, "y")))
    null, bad = element(NULL, "a"), element(0x08, "a", b"\2")
    for parts in ([first, second], [second, first], [null, first], [first, null], [first, bad], [bad, first]):
        yield doc(*parts), paths(along("a"), along("a", "battery"), along("a", "y"))


PATHS = (path_points, path_levels, path_lengths, path_types, path_damage, path_arrays)


# ---- a beacon frame, battery first


def short_beacon():
    cells = doc(*(element(INT32, str(i), le(mv)) for i, mv in enumerate((4112, 4109, 4115, 4098))))
    power = doc(element(INT32, "battery", le(16434)), element(INT32, "load", le(2310)), element(ARRAY, "cells", cells))
    return doc(
        BATTERY,
        element(0x02, "call", text("DP0FWL")),
        element(0x09, "time", le(1794715680000, 8)),
        element(0x11, "pass", le(3) + le(1794715680)),
        element(0x12, "uptime", le(8640017, 8)),
        element(0x08, "safe", b"\0"),
        element(0x01, "tilt", bytes.fromhex("000000000000e03f")),
        element(DOCUMENT, "power", power),
        element(0x05, "star", le(6) + b"\0" + bytes.fromhex("0123456789ab")),
        element(0x02, "note", text("Grüße aus 520 km")),
        element(NULL, "fault"),
    )


IN_BEACON = [along("power", *keys) for keys in (["battery"], ["cells", "3"], ["cells", "4"], ["absent"])] + [along("call", "x")]


def beacons():
    d = short_beacon()
    asks = gets("battery", "note", "power", "load", "fault") + typed("battery", *GETTERS) + typed("power", DOCUMENT)
    yield d, asks + paths(*IN_BEACON) + typed_paths(IN_BEACON[0], *GETTERS)
    for i in range(4, len(d), 3):
        yield d[:i] + bytes([d[i] ^ 0x20]) + d[i + 1 :], gets("battery", "note")


# ---- documents at random, and damaged copies of them


class Dice:
    """Knuth's 64-bit congruential generator: the same documents on every machine."""

    def __init__(self, seed):
        self.state = seed

    def below(self, n):
        self.state = (self.state * 6364136223846793005 + 1442695040888963407) % 2**64
        return (self.state >> 33) % n

    def pick(self, options):
        return options[self.below(len(options))]


def at_random(dice, depth):
    parts = []
    for i in range(dice.below(5)):
        tag, value = dice.pick(SAMPLED)
        if tag in (DOCUMENT, ARRAY, SCOPE) and depth:
            inner = at_random(dice, depth - 1)
            value = with_scope("x", inner) if tag == SCOPE else inner
        parts.append(element(tag, dice.pick(("a", "b", "battery", str(i))), value))
    return doc(*parts)


def randoms():
    dice = Dice(20261115)
    for _ in range(150):
        d = at_random(dice, 2)
        yield d, gets("battery")
        i = dice.below(len(d))
        yield d[:i] + bytes([dice.below(256)]) + d[i + 1 :], gets("battery")
        i = 4 + dice.below(len(d) - 4)
        yield resized(d[:i] + bytes([dice.pick((0, 1, 5, 0x10, 0xFF))]) + d[i:]), gets("battery")


GROUPS = (
    tried, good_values, booleans, admissions, lengths, cuts, changed, zeros, tags, fixed_ends,
    texts, codes_with_scope, nesting, inner_damage, lookups, *ARRAYS, *PATHS, beacons, randoms,
)


def documents():
    """All documents, each once with the asks that came with it first."""
    seen = {}
    for group in GROUPS:
        for d, asks in group():
            seen.setdefault(bytes(d), asks)
    return list(seen.items())


# ---- under a limit on the size of keys, patterns and options

# the settled points: a limit, a document, and the results of the whole check, plain and then, where it differs, strict
SETTLED = """3: 0A 00 00 00 0A 61 62 63 00 00 = 1
2: 0A 00 00 00 0A 61 62 63 00 00 = 22 at 4
0: 0A 00 00 00 0A 61 62 63 00 00 = 22 at 4
18446744073709551614: 0A 00 00 00 0A 61 62 63 00 00 = 1
18446744073709551615: 0A 00 00 00 0A 61 62 63 00 00 = 1
0: 07 00 00 00 0A 00 00 = 1
2: 0A 00 00 00 0A FF FF FF 00 00 = 22 at 4
3: 0A 00 00 00 0A FF FF FF 00 00 = 6 at 4
1: 0A 00 00 00 0A 61 C3 A9 00 00 = 22 at 4
2: 0A 00 00 00 0A 61 C3 A9 00 00 = 22 at 4
3: 0A 00 00 00 0A 61 C3 A9 00 00 = 1
1: 09 00 00 00 14 61 62 00 00 = 22 at 4
2: 09 00 00 00 14 61 62 00 00 = 7 at 4
1: 08 00 00 00 0A 61 62 00 = 22 at 4
2: 08 00 00 00 0A 61 62 00 = 4 at 8
2: 0C 00 00 00 0B 00 61 62 00 69 00 00 = 1
1: 0C 00 00 00 0B 00 61 62 00 69 00 00 = 22 at 4
2: 0C 00 00 00 0B 00 61 00 69 6D 00 00 = 1
1: 0C 00 00 00 0B 00 61 00 69 6D 00 00 = 22 at 4
1: 0C 00 00 00 0B 00 FF FF 00 69 00 00 = 22 at 4
2: 0C 00 00 00 0B 00 FF FF 00 69 00 00 = 6 at 4
1: 0C 00 00 00 0B 00 61 00 FF FF 00 00 = 22 at 4
2: 0C 00 00 00 0B 00 61 00 FF FF 00 00 = 6 at 4
1: 0C 00 00 00 0B 00 FF 00 69 6D 00 00 = 6 at 4
0: 07 00 00 00 0B 00 00 = 22 at 4
100: 07 00 00 00 0B 00 00 = 22 at 4
18446744073709551614: 07 00 00 00 0B 00 00 = 22 at 4
18446744073709551615: 07 00 00 00 0B 00 00 = 22 at 4
2: 12 00 00 00 0A 00 03 00 09 00 00 00 0A 61 62 00 00 00 = 3
1: 12 00 00 00 0A 00 03 00 09 00 00 00 0A 61 62 00 00 00 = 22 at 12
2: 12 00 00 00 0A 00 04 00 09 00 00 00 0A 61 62 00 00 00 = 3, strict 19 at 12
1: 12 00 00 00 0A 00 04 00 09 00 00 00 0A 61 62 00 00 00 = 22 at 12
2: 19 00 00 00 0F 00 12 00 00 00 01 00 00 00 00 09 00 00 00 0A 61 62 00 00 00 = 2
1: 19 00 00 00 0F 00 12 00 00 00 01 00 00 00 00 09 00 00 00 0A 61 62 00 00 00 = 22 at 19
1: 10 00 00 00 04 00 09 00 00 00 08 61 00 02 00 00 = 11 at 10, strict 19 at 10
0: 10 00 00 00 04 00 09 00 00 00 08 61 00 02 00 00 = 22 at 10
1: 10 00 00 00 08 00 02 0A 61 62 63 00 0A 61 00 00 = 11 at 4
1: 10 00 00 00 0A 61 62 63 00 08 61 00 02 0A 00 00 = 22 at 4"""


def settled():
    """The table: each limit and document, and the results of the plain and of the strict check."""
    for row in SETTLED.split("\n"):
        limit, hexes, plain, strict = re.fullmatch("(.*): (.*) = ([^,]*)(?:, strict (.*))?", row).groups()
        yield int(limit), bytes.fromhex(hexes), plain, strict or plain


LARGE = (2**31, 2**64 - 2, 2**64 - 1)  # more than any slice has


def around(*sizes):
    """Limits: each size, one less and one more, and large ones."""
    return sorted({n + i for n in sizes for i in (-1, 0, 1) if n + i >= 0}) + [*LARGE]


def settled_limits():
    for limit, d, _, _ in settled():
        yield limit, d, gets("", "a", "abc", b"\xff\xff\xff") + typed("abc", NULL) + typed("", 0x0B)


def any_limits():
    """The bytes to try, some of which are not admitted, under limits that say nothing of most."""
    for d, _ in bytes_to_try():
        for limit in (0, 1, 2**64 - 1):
            yield limit, d, gets("", "a") + typed("a", 0x08) + ANYWHERE


def key_limits():
    """A key of each size between two others, each of which is looked up, and one that is not there and may be longer than the limit."""
    for n in (0, 1, 2, 3, 4, 5, 9, 33):
        key = "abcdefghi"[:n] if n < 33 else "k" * n
        d = doc(element(NULL, "z"), element(INT32, key, le(7)), BATTERY)
        for limit in around(n, 7):
            yield limit, d, gets("z", key, "battery", "longer than the limit") + typed(key, INT32, 0x02) + typed("battery", INT32)


def text_limits():
    """A fifth of the texts of RFC 3629's rows, each as a key and before it as pattern and as options, under its size and one less."""
    for t in map(bytes, [*row_texts()][::5]):
        for limit in (len(t) - 1, len(t)):
            yield limit, doc(element(0x0B, "", t + b"\0" + t + b"\0"), element(NULL, t), BATTERY), gets("", t, "battery")


def regex_limits():
    """Pattern and options of every fit, whole, cut behind each byte, and damaged at once."""
    good = [(b"", b""), (b"ab", b""), (b"", b"im"), (b"ab", b"i"), (b"a", b"im")]
    for p, o in [*good, (b"\xff", b"im"), (b"ab", b"\xff"), (b"\xff\xff", b"\xff\xff")]:
        value = p + b"\0" + o + b"\0"
        for limit in around(len(p), len(o)):
            yield limit, doc(element(0x0B, "", value), BATTERY), gets("", "battery") + typed("", 0x0B)
        for short in range(1, len(value) + 1):
            yield 2, doc(element(0x0B, "", value[:-short])), gets("")


def type_limits():
    """Each type beside a key that is too long, or just not."""
    for tag, value in SAMPLED:
        for limit in (1, 6, 7):
            yield limit, framed(tag, value), gets("a", "battery") + typed("a", tag)


def scope_limits():
    """A code and a scope, one of them bad: what they hold is no zero-ended text but for the keys in the scope."""
    for d in [coded(code, SCOPES[0]) for code in CODES] + [coded(CODES[0], scope) for scope in SCOPES]:
        for limit in (6, 7):
            yield limit, d, gets("a", "battery") + typed("a", INT32)


def nested_limits():
    """A key too long in a document, an array and a scope, and in what these hold, with damage before and behind it."""
    bad = element(0x08, "1", b"\2")
    for parts in ([BATTERY], [bad, BATTERY], [BATTERY, bad], [element(NULL, "0"), BATTERY, element(NULL, "1")]):
        inner = doc(*parts)
        for tag in (DOCUMENT, ARRAY, SCOPE):
            value = with_scope("code", inner) if tag == SCOPE else inner
            twice = doc(element(tag, "0", value))
            for d in (doc(element(tag, "d", value)), doc(element(ARRAY, "d", twice), BATTERY), doc(element(SCOPE, "d", with_scope("", twice)))):
                for limit in (6, 7):
                    yield limit, d, gets("d", "battery")


def array_limits():
    """Array keys to the strict check: too long, not their position, and both, before values that are not read."""
    short = [["0", "1"], ["0", "10"], ["0", "01"], ["0", "ab"], ["x", "ab"], ["ab", "x"], ["10", "x"], ["", "0"]]
    for keys in [*short, positions(11), [*positions(9), "10", "9"], [*positions(10), "11"]]:
        array = doc(*(element(0x08, key, bytes([2 * (key == "x")])) for key in keys))
        for limit in (0, 1, 2):
            yield limit, doc(element(ARRAY, "", array), element(NULL, "")), gets("")


def damage_limits():
    """A key too long before and behind damage of each kind, and of the damaged element itself."""
    for tag, value in DAMAGES:
        for parts in ([element(tag, "x", value), BATTERY], [BATTERY, element(tag, "x", value)], [element(tag, "battery", value)]):
            for limit in (6, 7):
                yield limit, doc(*parts), gets("battery", "x", "absent") + typed("battery", INT32, 0x02)


def path_point_limits():
    return ((limit, d, asks) for (limit, d), asks in asks_settled() if limit is not None)


def path_limits():
    """A way through keys of several sizes, under limits around each: the keys of the path may be longer, those of the documents may not."""
    keys = ("to", "the", "last")
    first, longer = element(DOCUMENT, "to", way("the")), element(NULL, "longer key")
    ways = [way(*keys), way(*keys, innermost=longer), way(*keys[:2], innermost=element(0x0B, "last", b"pattern\0im\0"))]
    ways += [beside(first, longer, "before"), beside(first, longer, "behind")]
    ends = [keys[:1], keys[:2], keys, (*keys, "battery"), (*keys, "longer key"), ("longer key", "a"), (*keys[:2], "longer key", "a")]
    asks = paths(*(along(*path) for path in [*ends, (*keys[:2], "battery")])) + typed_paths(along(*keys), DOCUMENT, 0x0B)
    for d in ways:
        for limit in around(1, 3, 4, 7, 10):
            yield limit, d, asks


def path_type_limits():
    """Each type on the way and behind it, beside a key that is too long, or just not."""
    asks = paths(along("d", "a"), along("d", "a", "y"), along("d", "battery"))
    for tag, value in [*SAMPLED, *DAMAGES]:
        for limit in (6, 7):
            yield limit, doc(element(DOCUMENT, "d", framed(tag, value))), asks


PATH_LIMITS = (path_point_limits, path_limits, path_type_limits)


def beacon_limits():
    for limit in (0, *around(4, 7)):
        asks = gets("battery", "note", "power", "uptime", "fault") + typed("battery", INT32) + typed("power", DOCUMENT)
        yield limit, short_beacon(), asks + paths(*IN_BEACON) + typed_paths(IN_BEACON[0], INT32)


LIMITED = (
    settled_limits, any_limits, key_limits, text_limits, regex_limits, type_limits, scope_limits, nested_limits, array_limits, damage_limits,
    *PATH_LIMITS, beacon_limits,
)


def limited():
    """All documents under a limit, each pair once with the asks that came with it first."""
    seen = {}
    for group in LIMITED:
        for limit, d, asks in group():
            seen.setdefault((limit, d), asks)
    return [(limit, d, asks) for (limit, d), asks in seen.items()]
