#!/usr/bin/env python3
"""Makes the check program's inputs and, by the rules (tools/rules), what it must print of each: samples/NAME.bson and samples/NAME.txt. And what the
check program and the README's are run on when they are proved: stdin and stdout of their crates.

usage: tools/make/samples.py                  writes the files
       tools/make/samples.py --check          the files are what the rules say
       tools/make/samples.py --many FOLDER    writes an input of as many elements as there can be and what is printed of it, too long to keep
"""
import sys
from pathlib import Path

ROOT = Path(__file__).resolve().parents[2]
sys.path.insert(0, str(ROOT / "tools"))
from rules import rules
from rules.beacon import beacon
from rules.documents import BATTERY, INT32, NULL, SAMPLED, TRY, doc, element, le, nested, text
from rules.joining import join
from rules.rules import Refused

LIMIT = 65_535


def yielded(s):
    """The lines of the elements that steps yield, whatever ends them."""
    try:
        for e in rules.elements(s):
            yield f"{e.place} {e.tag:02x} {e.size}"
    except Refused:
        return


def verdict(s):
    try:
        return f"accepted {rules.check(s)}"
    except Refused as r:
        return f"refused {r.number} {r.place}"


def report(s):
    lines = [*yielded(s), verdict(s)] if len(s) <= LIMIT else ["refused 20 0"]
    return "".join(f"{line}\n" for line in ["offset tag size", *lines])


def to_try(row):
    """Row P of RULES.md, "Bytes to try"."""
    return bytes.fromhex(TRY.split("\n")[row - 1].split(" = ")[0])


def one_value(size):
    """A document of so many bytes with one binary in it."""
    return doc(element(0x05, "", le(size - 12) + b"\0" + b"\xff" * (size - 12)))


def samples():
    note = element(0x02, "note", text("ok"))
    return {
        "beacon": beacon(),
        "empty": b"",
        "p5": to_try(5),
        "p6": to_try(6),
        "p12": to_try(12),
        # two elements of every tag
        "tags": doc(*(element(tag, key, value) for key in "ab" for tag, value in SAMPLED)),
        # damage behind two elements, and in the second of three, which is yielded all the same
        "unframed": doc(BATTERY, note, element(0x14, "x"), BATTERY),
        "unreadable": doc(BATTERY, element(0x08, "x", b"\2"), note),
        "deep": nested(202),
        # as long as is taken, and one byte longer
        "most": one_value(LIMIT),
        "over": one_value(LIMIT + 1),
    }


def many():
    """As many elements as a document can have."""
    return {"many": doc(*[element(NULL, "")] * ((LIMIT - 5) // 2))}


def example(frame):
    """What the README's program prints of a frame with a battery in it."""
    _, (_, millivolts) = rules.get_with(frame, b"battery", INT32)
    (*_, length), _ = join(frame, doc(element(INT32, "rssi", le(-97))), bytes(65_600))
    return f"accepted, values: {rules.check(frame)}\nbattery low: {int(millivolts < 6600)}\njoined, bytes: {length}\n"


def programs():
    for crate, data, printed in ("bson_check", to_try(12), report), ("example", beacon(), example):
        yield ROOT / "crates" / crate / "stdin", data
        yield ROOT / "crates" / crate / "stdout", printed(data).encode()


def files(folder, inputs):
    for name, data in inputs.items():
        yield folder / f"{name}.bson", data
        yield folder / f"{name}.txt", report(data).encode()


def main():
    if sys.argv[1:2] == ["--many"]:
        for path, data in files(Path(sys.argv[2]), many()):
            path.write_bytes(data)
        return
    made = dict([*files(ROOT / "samples", samples()), *programs()])
    if "--check" not in sys.argv[1:]:
        for path, data in made.items():
            path.write_bytes(data)
    differ = [path.relative_to(ROOT).as_posix() for path, data in made.items() if not path.exists() or path.read_bytes() != data]
    print(f"{len(samples())} samples" + "".join(f"; {name} differs" for name in differ))
    sys.exit(1 if differ else 0)


if __name__ == "__main__":
    main()
