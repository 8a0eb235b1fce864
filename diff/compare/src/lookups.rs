//! Lookup and typed lookup, by RULES.md, "Values", against `get` and the twelve typed getters, or `get` under a limit.

use bson::{RawBsonRef as Value, RawDocument};
use oracle::lookup::{call, find};
use oracle::step::{Element, Kind};
use oracle::value::Content;

use crate::answer::{Answer, Numbers, Part, Said};
use crate::keys::Asked;
use crate::ledger::Ledger;
use crate::library::Lent;
use crate::slice::framed;

/// The tags that have a getter.
pub const GETTERS: [u8; 12] = [
    0x01, 0x02, 0x03, 0x04, 0x05, 0x07, 0x08, 0x09, 0x0B, 0x10, 0x11, 0x12,
];

/// No document has this key, so its answer is that of every key that matches nothing.
pub const NOWHERE: &str = "\0";

/// Without a limit every key of the document's own is asked, under one the key whose turn it is.
pub fn compare(doc: &RawDocument, lent: Lent, asked: &Asked, ledger: &mut Ledger) {
    let turn = turn(lent.bytes);
    let own: Vec<_> = asked.own().collect();
    let absent = asked.absent();
    let own = some(&own, ledger.thorough || lent.limit.is_none(), turn);
    let absent = some(&absent, ledger.thorough, turn);
    for key in own.iter().chain(absent) {
        by_key(doc, lent, key, ledger);
    }
}

/// Takes questions in turn, in the same way for the same document.
pub fn turn(bytes: &[u8]) -> usize {
    let sum = |sum: usize, byte: &u8| sum.wrapping_mul(31).wrapping_add(usize::from(*byte));
    bytes.iter().take(64).fold(bytes.len(), sum)
}

/// All of these, or the one whose turn it is.
pub fn some<T>(each: &[T], all: bool, turn: usize) -> &[T] {
    if all || each.is_empty() {
        return each;
    }
    let one = turn % each.len();
    &each[one..=one]
}

/// `get`, then the getter of the right tag and one of another, or all twelve.
fn by_key(doc: &RawDocument, lent: Lent, key: &[u8], ledger: &mut Ledger) {
    let (place, found) = find(lent.bytes, doc, key, lent.limit);
    let lookup = Lookup {
        doc,
        lent,
        key,
        place,
        found,
    };
    lookup.ask(None, ledger);
    if ledger.thorough {
        return GETTERS
            .iter()
            .for_each(|tag| lookup.ask(Some(*tag), ledger));
    }
    let right = lookup.found.as_ref();
    let right = right.map(|element| element.raw.element_type() as u8);
    let other = GETTERS[turn(lent.bytes) % GETTERS.len()];
    if right != Some(other) {
        lookup.ask(Some(other), ledger);
    }
    if let Some(tag) = right {
        lookup.ask(Some(tag), ledger);
    }
}

/// A key, and where the Rust's iteration has its first element, or is refused, or ends.
struct Lookup<'a> {
    doc: &'a RawDocument,
    lent: Lent<'a>,
    key: &'a [u8],
    place: usize,
    found: Option<Element<'a>>,
}

impl Lookup<'_> {
    /// Asks nothing where there is no getter for the tag.
    fn ask(&self, tag: Option<u8>, ledger: &mut Ledger) {
        let text = std::str::from_utf8(self.key).unwrap_or(NOWHERE);
        let lent = self.lent;
        let Some(answer) = call(self.doc, text, tag, lent.limit) else {
            return;
        };
        let said = lent.lookup(self.key, tag);
        let said = Said::value(said, Numbers::reading(lent.limit));
        let part = match tag {
            Some(tag) => Part::Typed(self.key, tag),
            None => Part::Get(self.key),
        };
        ledger.hold(part, located(answer, self.place, &self.found), said);
    }
}

/// The Rust's answer to a lookup, with the element.
pub fn located(answer: Result<Value, Kind>, place: usize, found: &Option<Element>) -> Answer {
    match (answer, found) {
        (Err(kind), _) => Answer::Refused { kind, place },
        (Ok(value), Some(element)) => Answer::Value(framed(element), Content::of(element, value)),
        (Ok(_), None) => Answer::Torn("found what its iteration does not yield"),
    }
}
