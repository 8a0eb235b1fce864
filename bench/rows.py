#!/usr/bin/env python3
"""The rows of bench/beside and bench/count, said once for both: what is asked of which document.

usage: bench/rows.py FOLDER     writes the documents there, the lists `rows` and `growth`, and `notes`: what the names stand for

A line of a list is a row: its task, its document, its key, which is empty where nothing is looked up, or the two keys of a path with a dot
between them, and its name, with tabs between them.
"""
import os
import struct
import sys
from collections import namedtuple

ROOT = os.path.join(os.path.dirname(os.path.abspath(__file__)), "..")
sys.dont_write_bytecode = True
sys.path.insert(0, os.path.join(ROOT, "tools"))
from rules import rules
from rules.documents import INT32, SCOPE, doc, element, le, nested, text

Row = namedtuple("Row", "task document key name")

TEXT_SIZE = 60_000
TEXTS = {
    "ASCII": "The battery is at 7412 mV, and all panels are in sunlight. ",
    "mixed text": "Grüße aus 520 km Höhe, heard at Tromsø and Hōfu: 7412 mV, 4.5 °C. ",
    "Cyrillic": "Спутник на орбите, батарея заряжена, все системы в норме. ",
}
SHORT_TEXTS = {
    "15 bytes of ASCII": "nominal, mode 2",
    "40 bytes of ASCII": "The battery is at 7412 mV, and charging.",
    "29 bytes of Cyrillic": "Спутник: в норме",
}
PATH = "power.battery"  # what the panel shows
NUMBERS = 200  # in the array
GROWING = [2**power // 20 for power in range(10, 21, 2)]  # elements of about 20 bytes: 1 KB to 1 MB

# ---- the documents


def beacon():
    with open(os.path.join(ROOT, "samples/beacon.bson"), "rb") as sample:
        return sample.read()


def writable(document):
    """The document without its codes with scope, which the writer does not write."""
    kept = (e for e in rules.elements(document) if e.tag != SCOPE)
    return doc(*(document[e.place : e.offset + e.size] for e in kept))


def small(i):
    """A small element; four in a row have 80 bytes."""
    key = f"t{i:07}"
    if i % 4 == 0:
        return element(INT32, key, le(7919 * i))
    if i % 4 == 1:
        return element(0x01, key, struct.pack("<d", i / 8))
    if i % 4 == 2:
        return element(0x02, key, text("nominal, mode 2"))
    return element(0x12, key, le(7919 * i, 8))


def elements(count):
    return doc(*map(small, range(count)))


def numbers(count):
    """A document with an array of so many int32."""
    return doc(element(0x04, "cells", doc(*(element(INT32, str(i), le(7919 * i)) for i in range(count)))))


def one_text(words):
    return doc(element(0x02, "note", text(words)))


def long_text(words):
    """A document of one text, these words again and again up to the size."""
    return one_text(words * (TEXT_SIZE // len(words.encode())))


def documents():
    """The documents by their names."""
    made = {"beacon": beacon(), "writable": writable(beacon()), "many": elements(3000), "deep": nested(200, key="d")}
    made["numbers"] = numbers(NUMBERS)
    made |= {name: one_text(words) for name, words in SHORT_TEXTS.items()}
    made |= {name: long_text(words) for name, words in TEXTS.items()}
    return made | {f"{count} elements": elements(count) for count in GROWING}


# ---- what is asked of them


def rows():
    keys = [e.key.decode() for e in rules.elements(beacon())]
    middle = keys[(len(keys) - 1) // 2]
    return [
        Row("iterate", "beacon", "", "beacon: iterate and read"),
        Row("read_at_place", "beacon", "", "beacon: read at each place"),
        Row("check", "beacon", "", "beacon: whole check"),
        Row("check_strict", "beacon", "", "beacon: strict check"),
        Row("lookup", "beacon", keys[0], "beacon: lookup, first key"),
        Row("lookup", "beacon", middle, "beacon: lookup, middle key"),
        Row("lookup", "beacon", keys[-1], "beacon: lookup, last key"),
        Row("path", "beacon", PATH, "beacon: path of two keys"),
        Row("path_by_lookups", "beacon", PATH, "beacon: the same by two lookups"),
        Row("build", "writable", "", "beacon: build, from bytes"),
        Row("build_tested", "writable", "", "beacon: build, Rust's texts tested"),
        Row("build", "numbers", "", f"array of {NUMBERS} numbers: build"),
        Row("check", "numbers", "", f"array of {NUMBERS} numbers: whole check"),
        Row("check_strict", "numbers", "", f"array of {NUMBERS} numbers: strict check"),
        Row("iterate", "many", "", "3,000 elements: iterate and read"),
        Row("read_at_place", "many", "", "3,000 elements: read at each place"),
        Row("check", "many", "", "3,000 elements: whole check"),
        Row("lookup", "many", "t0002999", "3,000 elements: lookup, last key"),
        Row("check", "deep", "", "200 levels: whole check"),
        *(Row("check", name, "", f"{name}: whole check") for name in SHORT_TEXTS),
        *(Row("check", name, "", f"60 KB of {name}: whole check") for name in TEXTS),
    ]


def growth():
    """The whole check of documents of small elements, from 1 KB to 1 MB."""
    return [Row("check", f"{count} elements", "", f"{len(elements(count))} bytes") for count in GROWING]


def notes():
    keys = sum(1 for _ in rules.elements(beacon()))
    return f"""beacon: samples/beacon.bson, {len(beacon())} bytes, {keys} keys at the top.
3,000 elements: {len(elements(3000))} bytes of int32, double, string and int64. 200 levels: one document in the other.
iterate and read: every step and every value of the top, by Fringewell with one call for both, fringewell_next;
in it and in lookups libbson tests no UTF-8.
read at each place: the same, but Fringewell steps by fringewell_step, and reads by fringewell_read, which steps
to the element a second time.
path of two keys: {PATH.replace(".", ", then ")}; by Fringewell with one call, fringewell_path, by the Rust with
get_document and get, by libbson with bson_iter_find_descendant.
the same by two lookups: Fringewell looks up the first key, and the second in the part that the first gave; the
others do as in the row before.
strict check: only Fringewell asks for the keys of arrays; the others check as in the row before.
build: without the beacon's code with scope, which the writer does not write. Fringewell tests each key and
text, and makes the keys of arrays; the Rust tests those that come as bytes, and has none to test where they
were tested before; libbson tests none.
"""


def write(folder):
    lists = {"rows": rows(), "growth": growth()}
    texts = {name: "".join("\t".join(row) + "\n" for row in listed) for name, listed in lists.items()}
    texts["notes"] = notes()
    files = documents() | {name: words.encode() for name, words in texts.items()}
    for name, contents in files.items():
        with open(os.path.join(folder, name), "wb") as file:
            file.write(contents)


if __name__ == "__main__":
    if len(sys.argv) != 2:
        sys.exit("usage: bench/rows.py FOLDER")
    write(sys.argv[1])
