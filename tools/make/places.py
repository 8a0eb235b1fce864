#!/usr/bin/env python3
"""Counts the places of crates/*/src that may stand in a newer form of the language, by patterns in their text: a row is a place to look at, no verdict.

The points: 1 own enums like Option and Result, numbers for refusals, kinds and none, but tags, which are counted for themselves; 2 twins, of a group
all but the first; 3 loops that count an index; 4 comparing, copying, converting and printing by hand; 5 parameters and facts that travel together,
each once; 6 buffers with lengths beside them; 7 switches on what to run. A place counts once for a point, with all that was found there.

usage: tools/make/places.py    prints the places, then how many each point has
"""
import re
from collections import defaultdict
from itertools import combinations
from pathlib import Path
from types import SimpleNamespace

CRATES = Path(__file__).resolve().parents[2] / "crates"
POINTS = ["1", "tags", "2", "3", "4", "5", "6", "7"]
ITEM = re.compile(r'^( *)(?:pub(?:\(\w+\))? )?(?:extern "C" )?(?:const )?(fn|enum|struct|const|type) (\w+)', re.M)
TOKEN = re.compile(r"b?\"(?:[^\"\\]|\\.)*\"|b?'(?:[^'\\]|\\.)'|\w+|[^\w\s]")

# the point and what it is; in which items, and in which part of them; what stands there
PATTERNS = [
    ("1", "own Result", "enum", "body", r"^ +Refused\b"),
    ("1", "own Option", "enum", "body", r"^ +(?:End|Closed|Unread|Nothing|Unknown|None|Missing),|\{\n    \w+,\n    \w+[( ][^,]*,\n\}"),
    ("1", "flag beside a value", "struct fn", "given", r"^ +(?:pub )?\w+: bool|\bbelow: bool|offset: usize, ended: bool"),
    ("1", "number of a refusal", "struct fn", "code", r"\bnumber: u(?:8|32)\b|→ u8 .*(?:writer\.written result|refuses result|number_of|missing)"),
    ("1", "refusal by its number", "fn", "body", r"Refused\(\d+\)|\bnumber: [1-9]|REFUSAL \+|\brefused\(\w+, \d+"),
    ("1", "refusal handed on", "fn", "body", r"::Refused\b\s*(?:\([^()]*\)|\{[^{}]*\})\s*=>\s*\{?\s*(?:return )?[\w:]+::Refused\b"),
    ("1", "number for none", "const", "name", r"^NO_|REFUSAL|^TOO_|_MARK$"),
    ("1", "limit or none", "fn", "code", r"\blimit: usize|NO_LIMIT|\bmost_of\("),
    ("1", "value for none", "fn", "code", r"&\w+\[\.\.0\]|→ &\[u8\] .*result\.now ≡ (?:get_(?:path_)?(?:part|bytes)|part_at|key_at)|or the same"
     r"|on, or the end|[;,] (?:or )?the length where|// .*\b(?:0|255)[^.:]* (?:where|for)\b|one more than can|none where|empty where"),
    ("1", "number for a kind", "fn struct enum", "given", r"\b(?:which|name|mark): u\w+"),
    ("tags", "tag", "fn struct enum const", "given", r"\btag: u8|: u8 = 0x"),
    ("3", "index counted", "fn", "body", r"\b(?:while|loop)\b(?s:.*)\b(?:\w+ [+-]= |(?:i|k|n|at|offset|place|valid|rest) = )"),
    ("3", "index of a range", "fn", "body", r"\bfor (\w+) in [^{]*\.\.[^{]*\{(?s:.*)(?:\[[^\]]*\b\1\b|, \1\))"),
    ("4", "comparing", "fn", "body", r"cstr::equal\(|\w+\[i\] != \w+\[i\]|\.ended & \(|\bis_refusal\(|(?s:is_(?:field|byte|number_of|signed)\(.*){2}"),
    ("4", "ordering", "fn", "body", r"if (\w+) <= ([\w:.]+) \{\s+return \1;\s+\}\s+\2|if (?:\w+) < ([\w.]+) \{\s+\w+ = \3 - "
     r"|return \w+\[\w+\];\s+\}\s+0|return \w+ \+ 1;|n \+ 1 \} else|return rest;|return TOO_LONG"),
    ("4", "copying", "fn", "body", r"\w\[[^\]]*\] = (?:[a-d];|\w+\[)|copy_\w+\(|\[\s*(?:\w+\[\d\], ?){3}"),
    ("4", "converting numbers", "fn", "body", r"256 \*|/ 256|429496729[56]|\b(?:double_)?word\(|bytes32\(n\)|\bbits64\(n as|18446744073709551615 -|-\(n as"
     r"|MAX - b|\A\n\s+(?:\w+ as \w+|\w+\.unsigned_abs\(\)|\w+::from\(\w+\))\n"),
    ("4", "converting", "fn", "body", r"\A(?:\n    let .*)*\n    match (?:\w+|num::\w+\(\w+\)) \{\s*[A-Z][\w:]+(?:\([a-z]\w*\)|\s*\{[^{}]*\}) =>"
     r"\s*\{?\s*[A-Z]\w+(?:::| ?\{|\()"),
    ("4", "converting", "fn", "name", r"^(?:of|no)_\w+$|^(?:bits|kind|words)_of$|^unread$"),
    ("4", "digits", "fn", "body", r"b'[0a-]'|\b48 \+|\b(?:with_)?digit\(|\bhex_digit\(|\bpair\(|powers\[k\]|put_digits\(|rest -= power|say_byte\(rt, \*"),
    ("4", "printing", "fn", "body", r"(?:\b(?:say(?:_\w+)?|put_text|put_decimal)\((?:rt, b\"|\w+, \w+, b\"|\w+, \w+(?:\.\w+)?(?: as u64)?\))(?s:.*)){2}"
     r"|say_signed\(rt, words"),
    ("6", "state in an array", "fn type struct", "code", r"&(?:mut )?(?:\[usize; 3\]|Words\b)|^(?:pub )?type Words|\bwords: Words|\bwords\[\w+\]"),
    ("6", "length beside a buffer", "fn", "given", r": &mut \[u8\].*\b(?:at|used|held): usize|: &mut \[u8\].* → (?:usize|Input)"),
    ("6", "array filled in front", "fn", "body", r"= \[\w+; (?:\d+|\w+)\]|\A\n    \[0; \d+\]|room_for_report\(\)"),
    ("6", "part by numbers", "fn struct enum", "given", r"\b(?:Two)?Parts?\b|\boffset: usize,\s+(?:pub )?(?:size|ended)\b|offset2|_offset\b"
     r"|(?:key|pattern): usize, (?:val|opt)|: &\[u8\], (?:from|offset|start|n|space): usize|\bvalid: usize|\blen: usize, at"),
    ("6", "side by side", "fn struct", "given", r"(?:: &\[u8\], ?\w+){3}: &\[u8\]|(?:: usize, \w+){3}: usize →|\bfourth: u64"),
    ("6", "list searched by hand", "fn const", "body", r"rows\[i\]|powers\[k\]|\[Row; \d+\]|POWERS: |\[u8; \d+\] =\s+\*b\"|\bword_number\(\s*b\"\w+ "),
    ("7", "selector", "fn", "given", r"\b(?:which|more|strict|alike): \w+|: Which\b|\bkind: Kind\b|\bmark: u32, key"),
    ("7", "switch on a number", "fn", "body", r"match (?:\w+ \{\s+(?:0x)?\d+ =>|word_number\()|\bif which <="),
    ("7", "switch on a tag", "fn", "body", r"match tag \{|match tags::kind_of|if tag == tags::|tag == tags::DOCUMENT\)|element\.tag == tag"),
    ("7", "switch on a flag", "fn", "body", r"\A\n +if (?:strict|cursor\.ended|is_there|alike)\b"),
]


def items_of(path):
    text = path.read_text()
    for m in ITEM.finditer(text):
        head = re.compile(r"(?s:.*?)(?:;|\{\}?)$", re.M).match(text, m.start()).end()
        end = re.compile(rf"^{m[1]}\}}", re.M).search(text, head).end() if text[head - 1] == "{" else head
        signature, *contract = re.split(r"\n +(?=requires|ensures|where)", re.sub(r"'\w+ ", "", text[m.start() : head]))
        given = re.search(r"\(\s*(.*?),?\s*\)(?: -> ([^{]*))?(?: \{)?$", signature, re.S) if m[2] == "fn" else None
        params = [p.split(": ", 1) for p in re.split(r",\s+(?=(?:mut )?\w+: )", given[1]) if ": " in p] if given else []
        owner = re.findall(r"^impl.*?(\w+) \{", text[: m.start()], re.M)[-1:] if m[1] and given else []
        comment = re.search(r"((?:^ *//.*\n)*)(?:^ *#\[.*\n)*\Z", text[: m.start()], re.M)[1].replace("\n", " ")
        body = re.sub(r"//.*", "", text[head:end] if given else text[m.start() : end])
        line = f"{', '.join(': '.join(p) for p in params)} → {(given[2] or '').strip()}" if given else body
        place = f"{path.relative_to(CRATES).as_posix()}:{'.'.join([*owner, m[3]])}"
        yield SimpleNamespace(place=place, name=m[3], kind=m[2], params=params, given=line, body=body, contract=" ".join(contract),
            code=f"{comment}{line} {' '.join(contract)} {body}", public="pub " in m[0], line=text.count("\n", 0, m.start()) + 1)


def by_pattern(items, found):
    for item in items:
        for point, what, kinds, part, pattern in PATTERNS:
            if item.kind in kinds.split() and re.search(pattern, vars(item)[part], re.M):
                found[point][item.place].append(what)


def shapes(item):
    """What twins share: the text but for types, sizes and constants; of a long one the text but for all names and plain arguments too."""
    bare = item.body if item.kind == "fn" else re.sub(r"(?m)^(    \w+)(?:\([^()]*\)| \{[^{}]*\})", r"\1(T)", item.body.split("{", 1)[-1])
    tokens = TOKEN.findall(re.sub(r",(?=\s*[)}])", "", bare))
    same = " ".join(re.sub(r"^(?:[A-Z]\w*|[iuf]\d+|usize|bool|\d\w*|b?[\"'].*)$", "T", t) for t in tokens)
    if len(tokens) > 3:
        yield item.kind, re.sub(r"\b[a-z]\w* : : T", "T", same)
    if len(tokens) > 22 and item.kind == "fn":
        yield "shape", re.sub(r"\( [#N&.,:+ ]*\)", "( )", " ".join("N" if t.isdigit() else re.sub(r"^[a-zA-Z_]\w*$", "#", t) for t in tokens))
    if item.kind == "fn" and not item.public and item.name != "main":
        yield item.name, re.sub(r"\w+: ", "", item.given)


def twins(items, found):
    groups, places = defaultdict(list), {item.place for item in items}
    for item in (item for item in items if item.kind in ("fn", "enum", "struct")):
        for shape in shapes(item):
            groups[shape].append(item.place)
        for other in (f"{item.place}_under", f"{item.place}_with_max_len", item.place.replace("_strict", "")):
            groups[item.place, other] += [other, item.place] if other in places - {item.place} else [item.place]
        if item.kind == "fn" and re.search(rf"\b\w+::{item.name}\(", item.body):
            found["2"][item.place].append("hands on to its name elsewhere")
    for first, *others in groups.values():
        for place in others:
            found["2"][place].append(f"like {first}")


def together(items, found):
    """Two parameters of which the rarer stands beside the other in seven of ten signatures, and that one in one of seven; facts and models."""
    having = defaultdict(list)
    for item in (item for item in items if item.kind == "fn"):
        params = sorted({f"{name.removeprefix('mut ').replace('document', 's')}: {kind}" for name, kind in item.params})
        groups = {(param,) for param in params} | {*combinations(params, 2)}
        for word, clause in re.findall(r"(requires|ensures) (?:\w+ )?\{ (.*?) \}", item.contract, re.S):
            for fact in re.split(r"\)?\s+×\s+\(?", re.sub(r"\.(?:now|old|new)\b", "", clause.strip("()")).replace("2 ^ 63", str(2**63))):
                said = fact if word == "requires" else re.split(r"\s+≡", fact)[0]
                if not re.fullmatch(r"(?:said\w* )?\(?result[.\w]*|\w+", said):
                    groups.add((word, re.sub("|".join(rf"\b{name}\b" for name, _ in item.params) or r"\Z", "_", said)))
        for alias, said in re.findall(r"(?:\b(\w+)\.)?\b(said\w*|limit_of|most) (?=\w)", item.contract):
            groups.add(("model", f"{said} of {alias or item.place.split('/')[0]}" if said == "said" else said))
        for group in groups:
            having[group].append(item.place)
    for group, places in having.items():
        alone = [len(having.get((part,), places)) for part in group]
        if len(group) > 1 and len(places) >= 3 and 10 * len(places) >= 7 * min(alone) and 7 * len(places) >= max(alone):
            found["5"][f"{min(places)} ({', '.join(group)})"].append(f"in {len(places)} functions")


def main():
    items = [item for path in sorted(CRATES.glob("*/src/*.rt")) for item in items_of(path)]
    found = {point: defaultdict(list) for point in POINTS}
    for search in (by_pattern, twins, together):
        search(items, found)
    for point in POINTS:
        for place, whats in sorted(found[point].items()):
            print(f"{point} {place}  {'; '.join(dict.fromkeys(whats))}")
    for point in POINTS:
        print(f"point {point}: {len(found[point])} places")


if __name__ == "__main__":
    main()
