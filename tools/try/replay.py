#!/usr/bin/env python3
"""Tries the replay itself: in copies of the list's lines one field of one part is made wrong, and the vectors program must report just that part.
In copies of a session of the writer one field is made another, and the program must print the answer that the rules then give, which is another too.

usage: tools/try/replay.py VECTORS     the built program
"""
import subprocess
import sys
from pathlib import Path

ROOT = Path(__file__).resolve().parents[2]
sys.path.insert(0, str(ROOT / "tools"))
from make.cases import documents, head, line, listed
from rules.questions import said_session
from rules.writing import every_type, needed, session

EVERY = 40  # one document of the list in so many
EVERY_LIMITED = 8  # of those under a limit
# how many fields of a part say what is asked: another key or tag might have the same answer, so these are made unreadable
ASKED = {"get": 2, "typed": 3, "path": 2, "path-typed": 3}


def compared(fields):
    """The fields of a part that the program compares: all but a refusal's kind, and a step's word, without which the next steps differ too."""
    first = 1 if fields[0] == "at" else 0
    return [j for j in range(first, len(fields)) if "refused" not in fields[j - 1 : j]]


def wrong(fields, j):
    number = fields[j].isdigit() and j >= ASKED.get(fields[0], 0)
    return str(int(fields[j]) + 1) if number else fields[j] + "x"


def wrong_lines(text):
    """Copies with one field made wrong, each with the part that is now wrong."""
    parts = text.split("; ")
    for i, part in enumerate(parts[1:], 1):
        fields = part.split(" ")
        for j in compared(fields):
            bad = " ".join(fields[:j] + [wrong(fields, j)] + fields[j + 1 :])
            yield "; ".join(parts[:i] + [bad] + parts[i + 1 :]), bad


def replay(lines):
    program = [ROOT / "tools/on_x86_64", sys.argv[1]]
    return subprocess.run(program, input="".join(f"{t}\n" for t in lines), capture_output=True, text=True, check=True).stdout.splitlines()


def try_documents():
    lines, reports = [], []
    plain = len(documents())
    for d, asks, limit in listed()[:plain:EVERY] + listed()[plain::EVERY_LIMITED]:
        for text, bad in wrong_lines(line(d, asks, limit)):
            lines.append(text)
            reports.append(f"differs: {bad} of {head(d, limit)}")
    said = replay(lines)
    missed = [r for r in reports if r not in set(said)]
    if said[:-1] != reports or not said[-1].endswith(f", {len(reports)} differ"):
        sys.exit("\n".join(["the replay did not report just the wrong parts", *missed[:5]]))
    print(f"the replay reports each of {len(reports)} wrong fields")


def other(field):
    """A field of a call with its last digit made another."""
    return field[:-1] + f"{int(field[-1], 16) ^ 1:x}"


def other_sessions(text):
    """Copies with one less room, with one call left out, and with one field made another; keys inside the array, which are not looked at, are empty."""
    room, *calls = text.split("; ")
    yield "; ".join([f"write {int(room.split(' ')[1]) - 1}", *calls])
    for i, call in enumerate(calls):
        yield "; ".join([room, *calls[:i], *calls[i + 1 :]])
        fields = call.split(" ")
        for j in range(1, len(fields)):
            if fields[j] != "-":
                yield "; ".join([room, *calls[:i], " ".join(fields[:j] + [other(fields[j])] + fields[j + 1 :]), *calls[i + 1 :]])


def try_sessions():
    calls = every_type()
    right = session(needed(*calls), *calls)
    lines = list(other_sessions(right))
    said = replay(lines)
    for text, answered in zip(lines, said, strict=True):
        answer = said_session(text)
        if answered != f"{text} {answer}" or answer == said_session(right):
            sys.exit(f"the replay of a changed session: {answered}")
    print(f"the replay answers each of {len(lines)} changed sessions otherwise, as the rules do")


try_documents()
try_sessions()
