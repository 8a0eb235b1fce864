//! Which cases there are: the case of a number is the same for every run with this seed.

use crate::damage::damage;
use crate::draft::Draft;
use crate::grammar::Garden;
use crate::limits;
use crate::long;
use crate::nest::{code_with_scope, nest};
use crate::rng::Rng;
use crate::short::{Family, NARROW, RAW, TELLING, WIDE};
use crate::texts::Texts;
use crate::tree::{Element, Value};

#[derive(Clone, Copy, PartialEq)]
pub enum Sort {
    Wide,
    Telling,
    Narrow,
    Raw,
    Grammar,
    Damaged,
    Long,
    Session,
}

pub const SORTS: [Sort; 8] = [
    Sort::Wide,
    Sort::Telling,
    Sort::Narrow,
    Sort::Raw,
    Sort::Grammar,
    Sort::Damaged,
    Sort::Long,
    Sort::Session,
];

/// Half of a round's turns are short bodies.
const ROUND: [Sort; 16] = [
    Sort::Damaged,
    Sort::Wide,
    Sort::Session,
    Sort::Telling,
    Sort::Damaged,
    Sort::Narrow,
    Sort::Grammar,
    Sort::Telling,
    Sort::Damaged,
    Sort::Wide,
    Sort::Session,
    Sort::Raw,
    Sort::Damaged,
    Sort::Narrow,
    Sort::Grammar,
    Sort::Telling,
];

/// The sorts take turns, so that a run of any length meets all. Long texts cost the most: one stands in the place of a damaged document in
/// every sixteenth round.
const TURNS: [Sort; 256] = {
    let mut turns = [Sort::Long; 256];
    let mut turn = 1;
    while turn < turns.len() {
        turns[turn] = ROUND[turn % ROUND.len()];
        turn += 1;
    }
    turns
};

pub enum Case {
    Slice(Vec<u8>),
    /// The elements to write, and the room behind them.
    Session(Vec<Element>, usize),
}

impl Sort {
    pub fn family(self) -> Option<Family> {
        match self {
            Self::Wide => Some(WIDE),
            Self::Telling => Some(TELLING),
            Self::Narrow => Some(NARROW),
            Self::Raw => Some(RAW),
            _ => None,
        }
    }

    pub fn name(self) -> &'static str {
        match self.family() {
            Some(family) => family.name,
            None if self == Self::Grammar => "documents by the grammar",
            None if self == Self::Damaged => "damaged documents",
            None if self == Self::Long => "long mixed texts",
            None => "sessions of the writer",
        }
    }

    /// How many of the first `cases` cases are of this sort.
    pub fn count(self, cases: u64) -> u64 {
        let turns = TURNS.len() as u64;
        let among = |turns: &[Sort]| turns.iter().filter(|sort| **sort == self).count() as u64;
        cases / turns * among(&TURNS) + among(&TURNS[..(cases % turns) as usize])
    }
}

pub fn sort(number: u64) -> Sort {
    TURNS[(number % TURNS.len() as u64) as usize]
}

pub fn case(seed: u64, number: u64) -> Case {
    let sort = sort(number);
    let rank = sort.count(number);
    if let Some(family) = sort.family() {
        return Case::Slice(family.slice(rank));
    }
    let mut rng = Rng::new(seed, sort as u64, rank);
    match sort {
        Sort::Session => session(&mut rng),
        Sort::Grammar => Case::Slice(grammar(&mut rng, Texts::Good).bytes),
        Sort::Long => long(&mut rng),
        _ => Case::Slice(damaged(&mut rng)),
    }
}

/// The limits under which the slice of this case is asked, besides none.
pub fn limits(seed: u64, number: u64, bytes: &[u8]) -> [usize; 2] {
    // A sequence beside those of the sorts, which a limit does not touch.
    let mut rng = Rng::new(seed, SORTS.len() as u64, number);
    limits::two(bytes, &mut rng)
}

fn grammar(rng: &mut Rng, texts: Texts) -> Draft {
    let scopes = true;
    Draft::of(&Garden { rng, texts, scopes }.elements(0))
}

fn damaged(rng: &mut Rng) -> Vec<u8> {
    let (mut draft, times) = match rng.below(64) {
        0..=1 => (nest(rng), rng.below(8) / 6),
        2..=8 => (code_with_scope(rng), rng.below(8) / 6),
        9..=24 => (grammar(rng, Texts::Mixed), rng.below(2)),
        25..=32 => (grammar(rng, Texts::Good), 2),
        _ => (grammar(rng, Texts::Good), 1),
    };
    (0..times).for_each(|_| damage(&mut draft, rng));
    draft.bytes
}

/// A document with a long text, or a session of the writer that writes one.
fn long(rng: &mut Rng) -> Case {
    if rng.once_in(8) {
        let spare = rng.pick(&SPARE);
        return Case::Session(long::elements(rng, Texts::Good, false), spare);
    }
    let mut draft = Draft::of(&long::elements(rng, Texts::Mixed, true));
    if rng.once_in(8) {
        damage(&mut draft, rng);
    }
    Case::Slice(draft.bytes)
}

/// The room behind what a session writes.
const SPARE: [usize; 4] = [0, 0, 1, 40];

fn session(rng: &mut Rng) -> Case {
    let (texts, scopes) = (Texts::Good, false);
    let deep = rng.once_in(128);
    let spare = rng.pick(&SPARE);
    let elements = Garden { rng, texts, scopes }.elements(0);
    let elements = match deep {
        true => inside(elements, rng),
        false => elements,
    };
    Case::Session(elements, spare)
}

/// Inside so many documents and arrays that the deepest values lie around depth 200, and not beyond.
fn inside(elements: Vec<Element>, rng: &mut Rng) -> Vec<Element> {
    const MOST: usize = 201;
    let depth = MOST - levels(&elements) - rng.below(4);
    (0..depth).fold(elements, |inner, _| {
        let value = match rng.below(2) {
            0 => Value::Document(inner),
            _ => Value::Array(inner),
        };
        let key = rng.pick(&[b"" as &[u8], b"a"]).to_vec();
        vec![Element { key, value }]
    })
}

/// How many levels of values there are.
fn levels(elements: &[Element]) -> usize {
    let each = elements.iter().map(|element| match &element.value {
        Value::Document(inner) | Value::Array(inner) => 1 + levels(inner),
        _ => 1,
    });
    each.max().unwrap_or(0)
}
