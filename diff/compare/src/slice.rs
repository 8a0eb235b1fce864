//! One slice with all its questions: RULES.md, "Admission and one step", "Values" and "The whole check".

use bson::RawDocument;
use oracle::check::{walk, Walk};
use oracle::step::{kind, Element, Kind, Limit, Refusal, Steps};
use oracle::value::{Content, Reading};

use crate::answer::{Answer, Framed, Numbers, Part, Said, Yielded};
use crate::keys::Asked;
use crate::ledger::Ledger;
use crate::library::{is_empty, Lent};
use crate::lookups;
use crate::panics::caught;
use crate::paths;

/// Zeros behind the slice, where a reading past its end would find what it looks for.
const BEHIND: [u8; 16] = [0; 16];

/// The Rust's own walk keeps all that it reads, so it is not asked about more values than these.
const MOST_KEPT: usize = 20_000_000;

const LOSSY_DIFFERS: Answer = Answer::Torn("another value by its lossy reading");

/// Compares all answers about a slice under a limit, or without one; a panic of the Rust is a disagreement.
pub fn compare(bytes: &[u8], limit: Limit, ledger: &mut Ledger) {
    let longer = [bytes, &BEHIND].concat();
    compare_within(&longer, limit, ledger);
}

/// The slice with zeros behind it, in its own memory where it can be.
pub fn lengthened(mut bytes: Vec<u8>) -> Vec<u8> {
    bytes.reserve_exact(BEHIND.len());
    bytes.extend(BEHIND);
    bytes
}

/// The same about a slice that has been lengthened, of which no copy is made.
pub fn compare_within(longer: &[u8], limit: Limit, ledger: &mut Ledger) {
    let bytes = &longer[..longer.len() - BEHIND.len()];
    let lent = Lent { bytes, limit };
    let compared = caught(|| match RawDocument::from_bytes(bytes) {
        Ok(doc) => admitted(doc, lent, ledger),
        Err(error) => refused(lent, kind(&error), ledger),
    });
    if compared.is_none() {
        ledger.panicked();
    }
}

/// Without admission the Rust has no document to ask, so its refusal is every answer.
fn refused(lent: Lent, kind: Kind, ledger: &mut Ledger) {
    let rust = Answer::Refused { kind, place: 0 };
    let numbers = Numbers::admission();
    let verdict = |verdict| Said::verdict(verdict, numbers);
    if lent.limit.is_none() {
        ledger.hold(Part::Empty, rust, verdict(is_empty(lent.bytes)));
    }
    ledger.hold(Part::Check, rust, verdict(lent.check()));
    ledger.hold(Part::StrictCheck, rust, verdict(lent.check_strict()));
    let (place, next) = (0, 4);
    let stopped = Answer::Stopped { kind, place, next };
    for ended in [false, true] {
        hold_steps(lent, (next, ended), numbers, [stopped; 2], ledger);
    }
    ledger.hold(Part::Read(4), rust, Said::value(lent.read(4), numbers));
    let found = |tag| Said::value(lent.lookup(b"a", tag), numbers);
    ledger.hold(Part::Get(b"a"), rust, found(None));
    ledger.hold(Part::Typed(b"a", 0x10), rust, found(Some(0x10)));
    paths::compare_refused(rust, lent, ledger);
}

fn admitted(doc: &RawDocument, lent: Lent, ledger: &mut Ledger) {
    if lent.limit.is_none() {
        let empty = Answer::Count(usize::from(doc.is_empty()));
        let said = Said::verdict(is_empty(lent.bytes), Numbers::admission());
        ledger.hold(Part::Empty, empty, said);
    }
    let asked = steps(doc, lent, ledger);
    checks(doc, lent, ledger);
    lookups::compare(doc, lent, &asked, ledger);
    paths::compare(doc, lent, ledger);
}

/// Holds both calls that step from a cursor to the Rust's step: the one, and the one that reads what the step yields.
fn hold_steps(
    lent: Lent,
    (at, ended): (usize, bool),
    numbers: Numbers,
    [step, next]: [Answer; 2],
    ledger: &mut Ledger,
) {
    let [one, other] = match ended {
        false => [Part::Step(at), Part::Next(at)],
        true => [Part::EndedStep(at), Part::EndedNext(at)],
    };
    ledger.hold(one, step, Said::step(lent.step(at, ended), numbers));
    ledger.hold(other, next, Said::next(lent.next(at, ended), numbers));
}

/// Every step until it ends or is refused, with every value; gives the keys to look up.
fn steps<'a>(doc: &'a RawDocument, lent: Lent<'a>, ledger: &mut Ledger) -> Asked<'a> {
    let Lent { bytes, limit } = lent;
    let mut asked = Asked::new(bytes);
    let mut steps = Steps::new(bytes, doc, limit);
    let (last, reading) = loop {
        let at = steps.at;
        match steps.next() {
            Some(Ok(element)) => {
                let read = hold_element(&element, lent, ledger);
                asked.meet(&element, read);
            }
            Some(Err(Refusal(kind, place))) => {
                let next = at;
                let stopped = Answer::Stopped { kind, place, next };
                break (stopped, Answer::Refused { kind, place });
            }
            None => {
                let (kind, place) = ("not-present", at);
                break (ended(bytes, at), Answer::Refused { kind, place });
            }
        }
    };
    stopped(lent, &mut steps, last, reading, ledger);
    asked.stopped_at(steps.at);
    asked
}

/// Holds an element that the Rust yields, by its step and by its reading; true where this gave a value.
fn hold_element(element: &Element, lent: Lent, ledger: &mut Ledger) -> bool {
    let place = element.place;
    let yielded = yielded(element);
    let reading = Reading::of(element);
    let (next, value) = match reading.value {
        _ if reading.differs => (LOSSY_DIFFERS, LOSSY_DIFFERS),
        Ok(value) => {
            let content = Content::of(element, value);
            let next = Answer::Next(yielded, Ok(content));
            (next, Answer::Value(yielded.framed, content))
        }
        Err(kind) => {
            let next = Answer::Next(yielded, Err(kind));
            (next, Answer::Refused { kind, place })
        }
    };
    let numbers = Numbers::step(lent.limit);
    let rust = [Answer::Step(yielded), next];
    hold_steps(lent, (place, false), numbers, rust, ledger);
    let said = Said::value(lent.read(place), Numbers::reading(lent.limit));
    ledger.hold(Part::Read(place), value, said);
    reading.value.is_ok()
}

fn yielded(element: &Element) -> Yielded {
    Yielded {
        framed: framed(element),
        key: (element.place + 1, element.raw.key().len()),
        next: element.offset + element.raw.size(),
    }
}

/// Where the Rust has an element.
pub fn framed(element: &Element) -> Framed {
    Framed {
        place: element.place,
        tag: element.raw.element_type() as u8,
        value: (element.offset, element.raw.size()),
    }
}

/// The end, which is at the terminator only.
fn ended(bytes: &[u8], at: usize) -> Answer {
    match at + 1 == bytes.len() {
        true => Answer::End { next: at },
        false => Answer::Torn("ended before the terminator"),
    }
}

/// The last step. Reading there is refused likewise, and the cursor stays ended.
fn stopped(lent: Lent, steps: &mut Steps, last: Answer, reading: Answer, ledger: &mut Ledger) {
    let at = steps.at;
    let numbers = Numbers::step(lent.limit);
    hold_steps(lent, (at, false), numbers, [last; 2], ledger);
    let said = Said::value(lent.read(at), Numbers::reading(lent.limit));
    ledger.hold(Part::Read(at), reading, said);
    let again = match steps.next() {
        None => Answer::End { next: at },
        Some(_) => Answer::Torn("went on behind its end"),
    };
    hold_steps(lent, (at, true), numbers, [again; 2], ledger);
}

fn checks(doc: &RawDocument, lent: Lent, ledger: &mut Ledger) {
    let walk = walk(doc, lent.limit);
    let plain = verdict(&walk);
    let said = Said::verdict(lent.check(), Numbers::reading(lent.limit));
    ledger.hold(Part::Check, plain, said);

    // The Rust's own walk has no limit.
    if lent.limit.is_none() && walk.count <= MOST_KEPT {
        let deep = walk.deep_differs(doc).unwrap_or(word(plain));
        let said = Said::plain(Answer::Verdict(word(said.answer)));
        ledger.hold(Part::DeepCheck, Answer::Verdict(deep), said);
    }

    let strict = walk.bad_key.map_or(plain, |place| Answer::Refused {
        kind: "added",
        place,
    });
    let numbers = Numbers::reading(lent.limit).or_bad_key();
    let said = Said::verdict(lent.check_strict(), numbers);
    ledger.hold(Part::StrictCheck, strict, said);
}

fn verdict(walk: &Walk) -> Answer {
    match &walk.verdict {
        _ if walk.differs => LOSSY_DIFFERS,
        Ok(()) => Answer::Count(walk.count),
        Err(refusal) => Answer::Refused {
            kind: refusal.0,
            place: refusal.1,
        },
    }
}

fn word(verdict: Answer) -> Kind {
    match verdict {
        Answer::Refused { kind, .. } => kind,
        Answer::Count(_) => "accepted",
        _ => "neither",
    }
}
