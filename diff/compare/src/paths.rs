//! Paths into nested documents, by RULES.md, request 1, against one `get` of the Rust's after another.

use std::iter::once;

use bson::{RawBsonRef as Value, RawDocument};
use oracle::lookup::{along, find, keys_of, MOST_KEYS};
use oracle::step::Steps;

use crate::answer::{Answer, Numbers, Part, Said};
use crate::ledger::Ledger;
use crate::library::Lent;
use crate::lookups::{located, some, turn, GETTERS, NOWHERE};

/// As many keys as a path may have, all but the last empty, and one more.
const LONGEST: [u8; MOST_KEYS] = {
    let mut path = [0; MOST_KEYS];
    path[MOST_KEYS - 1] = b'a';
    path
};
const TOO_LONG: [u8; MOST_KEYS] = [0; MOST_KEYS];

/// Keys that hardly a document has. The second is not UTF-8.
const ABSENT: [&[u8]; 3] = [b"zzz", b"\xFF", b""];

/// In one slice of so many the long paths are asked.
const LONG_ONCE_IN: usize = 8;

/// Of a great slice so much is drawn from: the first elements of each document, unless their keys are long, and what lies so deep.
const MOST_MET: usize = 256;
const MOST_BYTES: usize = 1 << 17;
const DEEPEST: usize = MOST_KEYS + 1;

pub fn compare(doc: &RawDocument, lent: Lent, ledger: &mut Ledger) {
    for path in asked(doc, lent, ledger.thorough) {
        hold(doc, lent, &path, ledger);
    }
}

/// Every path there is to ask; or the deepest and one in turn, each as it is and bent, and in some slices the long ones.
fn asked(doc: &RawDocument, lent: Lent, all: bool) -> Vec<Vec<u8>> {
    let turn = turn(lent.bytes);
    let mut drawn = Drawn {
        outer: lent.bytes,
        turn,
        all,
        paths: Vec::new(),
    };
    drawn.gather(doc, b"", 0);
    let mut paths = match (all, &drawn.paths[..]) {
        // What is drawn last lies deepest.
        (false, [.., deepest]) => vec![deepest.clone(), some(&drawn.paths, all, turn)[0].clone()],
        _ => drawn.paths,
    };
    let bent = paths.iter().map(|path| bent(path));
    let bent: Vec<_> = bent
        .flat_map(|each| some(&each, all, turn).to_vec())
        .collect();
    paths.extend(bent);
    if all || turn % LONG_ONCE_IN == 0 {
        paths.extend([LONGEST.to_vec(), TOO_LONG.to_vec()]);
    }
    paths
}

/// Without admission the Rust's refusal is the answer to every path but one that is too long.
pub fn compare_refused(rust: Answer, lent: Lent, ledger: &mut Ledger) {
    let numbers = Numbers::admission().or_long_path();
    for (path, rust) in [
        (&b"a\0b"[..], rust),
        (&LONGEST, rust),
        (&TOO_LONG, TOO_MANY_KEYS),
    ] {
        for tag in [None, Some(0x10)] {
            let said = Said::value(lent.path(path, tag), numbers);
            ledger.hold(part(path, tag), rust, said);
        }
    }
}

/// With an empty key or an absent one behind it, or an empty one before it, or in the place of its last zero two.
fn bent(path: &[u8]) -> [Vec<u8>; 4] {
    let zero = path.iter().rposition(|byte| *byte == 0).unwrap_or(0);
    let doubled = [&path[..zero], b"\0", &path[zero..]].concat();
    [
        [path, b"\0"].concat(),
        [path, b"\0zzz"].concat(),
        [b"\0", path].concat(),
        doubled,
    ]
}

/// Paths by the keys that a document has and those inside it have, as far as the Rust's steps go without a limit.
struct Drawn<'a> {
    outer: &'a [u8],
    turn: usize,
    all: bool,
    paths: Vec<Vec<u8>>,
}

impl<'a> Drawn<'a> {
    /// Takes a path to a key that is absent, to all elements or to one, and to what is inside all that open, or inside one.
    fn gather(&mut self, doc: &'a RawDocument, way: &[u8], depth: usize) {
        let absent = ABSENT[(self.turn + way.len()) % ABSENT.len()];
        self.paths.push([way, absent].concat());
        let (mut keys, mut open) = (Vec::new(), Vec::new());
        let steps = Steps::new(self.outer, doc, None).flatten();
        for element in steps.take(MOST_MET) {
            let key = element.raw.key().as_str().as_bytes();
            if key.len() > MOST_BYTES {
                continue;
            }
            keys.push(key);
            let inner = inside(element.raw.value().ok());
            open.extend(inner.filter(|_| depth < DEEPEST).map(|inner| (key, inner)));
        }
        for key in some(&keys, self.all, self.turn) {
            self.paths.push([way, *key].concat());
        }
        for (key, inner) in some(&open, self.all, self.turn) {
            self.gather(inner, &[way, *key, b"\0"].concat(), depth + 1);
        }
    }
}

/// The document in a value. A scope is one that no path leads into, so those through it must be refused.
fn inside(value: Option<Value<'_>>) -> Option<&RawDocument> {
    match value? {
        Value::Document(inner) => Some(inner),
        Value::Array(inner) => Some(inner.as_doc()),
        Value::JavaScriptCodeWithScope(code) => Some(code.scope),
        _ => None,
    }
}

const TOO_MANY_KEYS: Answer = Answer::Refused {
    kind: "added",
    place: 0,
};

fn part(path: &[u8], tag: Option<u8>) -> Part<'_> {
    match tag {
        Some(tag) => Part::TypedPath(path, tag),
        None => Part::Path(path),
    }
}

/// Holds a path, then with the tag of what it leads to, and with another.
fn hold(doc: &RawDocument, lent: Lent, path: &[u8], ledger: &mut Ledger) {
    let numbers = Numbers::reading(lent.limit).or_long_path();
    let mut hold = |tag, rust| {
        let said = Said::value(lent.path(path, tag), numbers);
        ledger.hold(part(path, tag), rust, said);
    };
    if keys_of(path).count() > MOST_KEYS {
        return [None, Some(0x10)]
            .into_iter()
            .for_each(|tag| hold(tag, TOO_MANY_KEYS));
    }
    let texts = keys_of(path).map(|key| std::str::from_utf8(key).unwrap_or(NOWHERE));
    let keys: Vec<_> = texts.collect();
    let way = along(doc, &keys, lent.limit);
    let (place, found) = find(lent.bytes, way.doc, way.key.as_bytes(), lent.limit);
    let right = found
        .as_ref()
        .map(|element| element.raw.element_type() as u8);
    let other = Some(GETTERS[turn(lent.bytes) % GETTERS.len()]);
    let other = other.filter(|_| right != other);
    for tag in once(None).chain(right.map(Some)).chain(other.map(Some)) {
        // There is no getter for some tags.
        if let Some(answer) = way.answer(tag, lent.limit) {
            hold(tag, located(answer, place, &found));
        }
    }
}
