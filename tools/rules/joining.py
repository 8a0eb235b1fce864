"""Joining: its rule, written from the text of RULES.md, "Writer and joining"."""
from .documents import resized
from .rules import Refused, check


def join(first, second, buffer):
    """Number, place, which one (0 where neither is meant) and length; and the buffer that is left."""
    for which, s in enumerate((first, second), 1):
        try:
            check(s)
        except Refused as r:
            return (r.number, r.place, which, 0), buffer
    length = len(first) + len(second) - 5
    if length > min(len(buffer), 2147483647):
        return (14, 0, 0, 0), buffer
    return (0, 0, 0, length), resized(first[:-1] + second[4:]) + buffer[length:]
