"""The rules for reading, with paths (request 1) and the limit on zero-ended texts (request 2), written from the text of docs/RULES.md:
what every call must answer, with number and place.

A function gives its answer or raises Refused. Where no limit is named there is none. UTF-8 is judged by Python's own decoder, which follows RFC 3629.
"""
from collections import namedtuple

Element = namedtuple("Element", "place tag key offset size")  # offset and size are those of the framed value

KINDS = {6: "utf8", 13: "recursion", 16: "not-present", 17: "unexpected-type", 19: "added", 21: "added", 22: "too-long"}


class Refused(Exception):
    def __init__(self, number, place=0):
        super().__init__(number, place)
        self.number, self.place = number, place

    def kind(self):
        """The table's column 'Rust kind'."""
        return KINDS.get(self.number, "malformed")


def unless(test, number, place=0):
    if not test:
        raise Refused(number, place)


def at(place, rule, *args):
    """The rule's answer; its refusal, with this place."""
    try:
        return rule(*args)
    except Refused as refused:
        raise Refused(refused.number, place) from None


def inside(rule, s, offset, size, *args):
    """The rule's answer about a part of s; its refusal, with a place that counts from the first byte of s."""
    try:
        return rule(s[offset : offset + size], *args)
    except Refused as refused:
        raise Refused(refused.number, offset + refused.place) from None


# ---- numbers, UTF-8 and zero-ended texts


def unsigned(v, size):
    unless(len(v) >= size, 9)
    return int.from_bytes(v[:size], "little")


def signed(v, size):
    unless(len(v) >= size, 9)
    return int.from_bytes(v[:size], "little", signed=True)


def boolean(v):
    b = unsigned(v, 1)
    unless(b <= 1, 11)
    return b


def is_utf8(v):
    try:
        bytes(v).decode("utf-8")
        return True
    except UnicodeDecodeError:
        return False


def cstring(v, limit=None):
    """The size of the text before the first zero. With a limit it may be that at most, and one byte more than that is looked at."""
    seen = bytes(v) if limit is None else bytes(v[: limit + 1])
    n = seen.find(0)
    unless(n >= 0, 5 if limit is None else 22)
    unless(is_utf8(seen[:n]), 6)
    return n


# ---- framing: how many bytes a value has


def length_field(v, present, least):
    unless(len(v) >= present, 8)
    n = signed(v, 4)
    unless(n >= least, 8)
    return n


def fits(size, v):
    unless(size <= len(v), 9)
    return size


def zero_ended(size, v):
    fits(size, v)
    unless(v[size - 1] == 0, 10)
    return size


def string(v):
    return zero_ended(4 + length_field(v, 4, 1), v)


def pointer(v):
    return fits(string(v) + 12, v)


def document(v):
    return zero_ended(length_field(v, 5, 5), v)


def binary(v):
    return fits(5 + length_field(v, 4, 0), v)


def scope(v):
    return fits(length_field(v, 4, 0), v)


def regex(v, limit=None):
    pattern = cstring(v, limit) + 1
    return pattern + cstring(v[pattern:], limit) + 1


FIXED = {0x08: 1, 0x10: 4, 0x01: 8, 0x12: 8, 0x09: 8, 0x11: 8, 0x07: 12, 0x13: 16, 0x0A: 0, 0x06: 0, 0xFF: 0, 0x7F: 0}
FRAMED = {0x02: string, 0x0D: string, 0x0E: string, 0x0C: pointer, 0x03: document, 0x04: document, 0x05: binary, 0x0B: regex, 0x0F: scope}


def value_size(tag, v, limit=None):
    unless(tag in FIXED or tag in FRAMED, 7)
    if tag in FIXED:
        return fits(FIXED[tag], v)
    return FRAMED[tag](v, limit) if tag == 0x0B else FRAMED[tag](v)


# ---- admission and one step


def admit(s):
    unless(len(s) >= 5, 1)
    unless(signed(s, 4) == len(s), 2)
    unless(s[-1] == 0, 3)
    return len(s)


def element(s, place, limit=None):
    k = cstring(s[place + 1 :], limit)
    offset = place + 1 + k + 1
    return Element(place, s[place], s[place + 1 : place + 1 + k], offset, value_size(s[place], s[offset:], limit))


def step(s, offset, limit=None):
    """The element at an offset, or None at the terminator."""
    admit(s)
    unless(4 <= offset < len(s), 4, offset)
    return None if offset == len(s) - 1 else at(offset, element, s, offset, limit)


def step_from(s, offset, ended, limit=None):
    """The same from any cursor: an ended one answers the end, once the slice is admitted."""
    admit(s)
    return None if ended else step(s, offset, limit)


def elements(s, limit=None):
    """The elements that steps yield from offset 4 on; a refused step ends them by its refusal."""
    e = step(s, 4, limit)
    while e:
        yield e
        e = step(s, e.offset + e.size, limit)


# ---- values: a word and numbers; a part of the slice is its offset and its size

NUMBERS = {
    0x08: ("boolean", boolean),
    0x10: ("int32", lambda v: signed(v, 4)),
    0x12: ("int64", lambda v: signed(v, 8)),
    0x09: ("datetime", lambda v: signed(v, 8)),
    0x01: ("double", lambda v: unsigned(v, 8)),
}
TEXTS = {0x02: "string", 0x0D: "code", 0x0E: "symbol"}
WHOLE = {0x03: "document", 0x04: "array", 0x07: "objectid", 0x13: "decimal128"}
EMPTY = {0x0A: "null", 0x06: "undefined", 0xFF: "minkey", 0x7F: "maxkey"}


def trimmed(v, base, front):
    """A part without its first bytes."""
    return base + front, len(v) - front


def text(v, base, back=1):
    """A text within its framed bytes, without the length in front and what lies behind it: its final zero, and a DBPointer's ObjectId."""
    size = len(v) - 4 - back
    unless(is_utf8(v[4 : 4 + size]), 6)
    return base + 4, size


def binary_value(v, base):
    if v[4] != 2:
        return "binary", v[4], *trimmed(v, base, 5)
    unless(len(v) >= 9 and signed(v[5:], 4) == len(v) - 9, 12)
    return "binary", 2, *trimmed(v, base, 9)


def regex_value(v, base):
    pattern = cstring(v)
    return "regex", base, pattern, base + pattern + 1, cstring(v[pattern + 1 :])


def scope_value(v, base):
    unless(len(v) >= 14, 12)
    start = 4 + string(v[4:])
    code = text(v[4:start], base + 4)
    unless(start < len(v), 12)
    admit(v[start:])
    return "codewithscope", *code, *trimmed(v, base, start)


def content(v, tag, base):
    if tag in NUMBERS:
        return NUMBERS[tag][0], NUMBERS[tag][1](v)
    if tag in TEXTS:
        return TEXTS[tag], *text(v, base)
    if tag in WHOLE:
        return WHOLE[tag], base, len(v)
    if tag in EMPTY:
        return (EMPTY[tag],)
    if tag == 0x11:
        return "timestamp", unsigned(v, 4), unsigned(v[4:], 4)
    if tag == 0x0C:
        return "dbpointer", *text(v, base, 13), *trimmed(v, base, len(v) - 12)
    return {0x05: binary_value, 0x0B: regex_value, 0x0F: scope_value}[tag](v, base)


def value_of(s, e):
    """The value of an element that a step gave."""
    return at(e.place, content, s[e.offset : e.offset + e.size], e.tag, e.offset)


# ---- values at a place


def read_at(s, place, limit=None):
    """The element at a place, and its value."""
    e = step(s, place, limit)
    unless(e, 16, place)
    return e, value_of(s, e)


def with_tag(e, value, tag):
    unless(e.tag == tag, 17, e.place)
    return e, value


# the tag of each part that is handed back by its name, and whether it is the first or the second
PARTS = {
    "string": (0x02, 0), "code": (0x0D, 0), "symbol": (0x0E, 0), "document": (0x03, 0), "array": (0x04, 0), "binary": (0x05, 0),
    "pattern": (0x0B, 0), "options": (0x0B, 1), "namespace": (0x0C, 0), "scope_code": (0x0F, 0), "scope": (0x0F, 1),
}


def part_at(s, place, name):
    """The bytes of a part of the value at a place; none where the value is refused or has another type."""
    tag, which = PARTS[name]
    try:
        _, (word, *numbers) = with_tag(*read_at(s, place), tag)
    except Refused:
        return b""
    offset, size = (numbers[1:] if word == "binary" else numbers)[2 * which :][:2]
    return s[offset : offset + size]


# ---- lookup


def get(s, key, limit=None):
    """The first element of the key, and its value. No limit is on the key that is looked up."""
    for e in elements(s, limit):
        if e.key == key:
            return e, value_of(s, e)
    raise Refused(16, len(s) - 1)


def get_with(s, key, tag, limit=None):
    return with_tag(*get(s, key, limit), tag)


def is_empty(s):
    return admit(s) == 5


# ---- lookup by a path

MOST_KEYS = 201


def get_inside(s, offset, size, key, limit):
    """The lookup in a document within s: the element as it lies in s, and its value."""
    e, _ = inside(get, s, offset, size, key, limit)
    e = e._replace(place=offset + e.place, offset=offset + e.offset)
    return e, value_of(s, e)


def entered(e, value):
    """Offset and size of the document or the array that a value on the way is."""
    word, *part = value
    unless(word in ("document", "array"), 17, e.place)
    return part


def path(s, keys, limit=None):
    """One lookup after another, by keys with a zero byte between them: all but the last find what is entered. No limit is on these keys."""
    *way, last = keys.split(b"\0")
    unless(len(way) < MOST_KEYS, 21)
    offset, size = 0, len(s)
    for key in way:
        offset, size = entered(*get_inside(s, offset, size, key, limit))
    return get_inside(s, offset, size, last, limit)


def path_with(s, keys, tag, limit=None):
    return with_tag(*path(s, keys, limit), tag)


# ---- the whole check

# what opens, and how much deeper its values lie
OPENS = {"document": 1, "array": 1, "codewithscope": 2}


def is_array_key(key, position):
    """Whether it is the position in decimal, without leading zeros."""
    return key == b"%d" % position


def visit(s, e, depth, position):
    """An element's value, where its key, its value and its depth pass; a key that is not asked for has no position."""
    unless(position is None or is_array_key(e.key, position), 19, e.place)
    value = value_of(s, e)
    unless(depth <= 200, 13, e.place)
    return value


def walk(s, depth, array, strict, limit):
    """How many values there are in a document and below it. The strict check asks for the keys of arrays."""
    count = 0
    for position, e in enumerate(elements(s, limit)):
        word, *numbers = visit(s, e, depth, position if strict and array else None)
        count += 1
        if word in OPENS:
            offset, size = numbers[-2:]
            count += inside(walk, s, offset, size, depth + OPENS[word], word == "array", strict, limit)
    return count


def check(s, strict=False, limit=None):
    return walk(s, 0, False, strict, limit)
