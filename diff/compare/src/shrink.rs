//! Makes a case that disagrees smaller, greedily, as long as the same part of it still disagrees.

use std::iter::once;

use oracle::step::Limit;

use crate::damage::mend;
use crate::ledger::{Disagreement, Ledger};
use crate::session;
use crate::short::{NARROW, RAW, TELLING};
use crate::slice;
use crate::tree::{Element, Value};

/// What is spent on one case, so that long ones end soon too.
const MOST_BYTES: usize = 8_000_000;
const MOST_SESSIONS: usize = 20_000;

/// So many short bodies of each family are looked at first.
const MOST_SHORT: u64 = 20_000;

/// Runs of every size up to this are dropped, so that an element can go as a whole.
const MOST_EXACT: usize = 48;

/// A slice and the limit under which it is asked.
#[derive(Clone, PartialEq)]
pub struct Limited {
    pub bytes: Vec<u8>,
    pub limit: Limit,
}

/// What disagrees about a slice under a limit, or without one, asked for all there is to ask.
pub fn about_slice(bytes: &[u8], limit: Limit) -> Option<Disagreement> {
    let mut ledger = Ledger {
        thorough: true,
        ..Ledger::default()
    };
    slice::compare(bytes, limit, &mut ledger);
    ledger.first
}

/// What disagrees about a session.
pub fn about_session(elements: &[Element], spare: usize) -> Option<Disagreement> {
    let mut ledger = Ledger::default();
    session::compare(elements, spare, &mut ledger);
    ledger.first
}

/// The smallest slice found: the first short body that disagrees, in whatever part, else the slice made smaller.
/// A short body is asked under the least limits, where the slice is under one.
pub fn smallest_slice(slice: Limited, word: &'static str) -> Limited {
    let limits = match slice.limit {
        None => vec![None],
        limit => vec![Some(0), Some(1), limit],
    };
    let ranks = 0..MOST_SHORT;
    let short = ranks.flat_map(|rank| [TELLING, NARROW, RAW].map(|family| family.slice(rank)));
    let short = short.filter(|bytes| bytes.len() < slice.bytes.len());
    let mut each = short.flat_map(|bytes| at_limits(&bytes, &limits));
    let found = each.find(|short| about_slice(&short.bytes, short.limit).is_some());
    found.unwrap_or_else(|| smaller_slice(slice, word))
}

/// The same bytes under each limit.
fn at_limits(bytes: &[u8], limits: &[Limit]) -> Vec<Limited> {
    let at = |limit: &Limit| Limited {
        bytes: bytes.to_vec(),
        limit: *limit,
    };
    limits.iter().map(at).collect()
}

/// A slice of fewer bytes, or of smaller ones, or under a smaller limit.
fn smaller_slice(slice: Limited, word: &'static str) -> Limited {
    let mut search = Search {
        best: slice,
        word,
        left: MOST_BYTES,
    };
    loop {
        let before = search.best.clone();
        let long = (6..16).rev().map(|bit| 1 << bit);
        let runs = long.chain((1..=MOST_EXACT).rev());
        runs.for_each(|run| search.drop_runs(run));
        search.lower_bytes();
        search.lower_limit();
        if search.best == before {
            return before;
        }
    }
}

struct Search {
    best: Limited,
    word: &'static str,
    /// How many more bytes of candidates are tried.
    left: usize,
}

impl Search {
    fn disagrees(&mut self, slice: &Limited) -> bool {
        let size = slice.bytes.len();
        if self.left < size {
            return false;
        }
        self.left -= size;
        let found = about_slice(&slice.bytes, slice.limit);
        found.is_some_and(|found| found.word == self.word)
    }

    /// Whether nothing as long as the best is tried any more: to make candidates would cost without end.
    fn spent(&self) -> bool {
        self.left < self.best.bytes.len()
    }

    /// Takes the first that disagrees in the same part; true where there is one.
    fn take(&mut self, candidates: Vec<Limited>) -> bool {
        let mut candidates = candidates.into_iter();
        match candidates.find(|slice| self.disagrees(slice)) {
            Some(found) => {
                self.best = found;
                true
            }
            None => false,
        }
    }

    fn drop_runs(&mut self, run: usize) {
        let mut at = 0;
        while at + run <= self.best.bytes.len() && !self.spent() {
            if !self.take(without(&self.best, at, run)) {
                at += if run > MOST_EXACT { run / 2 } else { 1 };
            }
        }
    }

    fn lower_bytes(&mut self) {
        for at in 0..self.best.bytes.len() {
            if !self.spent() {
                self.take(lower(&self.best, at));
            }
        }
    }

    fn lower_limit(&mut self) {
        let less = self.best.limit.into_iter().flat_map(smaller);
        let limits: Vec<_> = less.map(Some).collect();
        self.take(at_limits(&self.best.bytes, &limits));
    }
}

/// A slice without a run, nothing mended, the header mended, and the lengths around the run too.
/// The run may be of a text whose size the limit is near, so each is tried under a limit smaller by as much too.
fn without(slice: &Limited, at: usize, run: usize) -> Vec<Limited> {
    let bytes = &slice.bytes;
    let mut bare = bytes.clone();
    bare.drain(at..at + run);
    let mut headed = bare.clone();
    mend(&mut headed);
    let mut mended = bytes.clone();
    for field in 4..at.saturating_sub(3) {
        shorten(&mut mended, field, at, run);
    }
    mended.drain(at..at + run);
    mend(&mut mended);
    let near = slice.limit.filter(|limit| *limit < bytes.len());
    let less = near.and_then(|limit| limit.checked_sub(run));
    let limits: Vec<_> = once(slice.limit).chain(less.map(Some)).collect();
    let each = [bare, headed, mended];
    each.iter()
        .flat_map(|bytes| at_limits(bytes, &limits))
        .collect()
}

/// Takes a run out of what seems to be the length of something around it.
fn shorten(bytes: &mut [u8], field: usize, at: usize, run: usize) {
    let here = bytes[field..field + 4].try_into().expect("four bytes");
    let length = i32::from_le_bytes(here);
    let Ok(size) = usize::try_from(length) else {
        return;
    };
    // A text's length does not count its own four bytes.
    if size > run && size <= bytes.len() - field && field + 4 + size >= at + run {
        bytes[field..field + 4].copy_from_slice(&(length - run as i32).to_le_bytes());
    }
}

/// The slice with a smaller byte at this place.
fn lower(slice: &Limited, at: usize) -> Vec<Limited> {
    let Limited { bytes, limit } = slice;
    let each = smaller(usize::from(bytes[at])).map(|new| Limited {
        bytes: [&bytes[..at], &[new as u8], &bytes[at + 1..]].concat(),
        limit: *limit,
    });
    each.collect()
}

fn smaller(number: usize) -> impl Iterator<Item = usize> {
    let smaller = [0, 1, number / 2, number.wrapping_sub(1)];
    smaller.into_iter().filter(move |new| *new < number)
}

/// The smallest session found: fewer elements, then shorter keys and simpler values.
pub fn smaller_session(elements: Vec<Element>, spare: usize, word: &'static str) -> Vec<Element> {
    let mut left = MOST_SESSIONS;
    let mut disagrees = |elements: &Vec<Element>| {
        left = left.saturating_sub(1);
        left > 0 && about_session(elements, spare).is_some_and(|found| found.word == word)
    };
    let mut best = elements;
    while let Some(next) = simpler(&best).into_iter().find(&mut disagrees) {
        best = next;
    }
    best
}

/// The elements without one of them, with what is inside it in its place, or with one made simpler.
fn simpler(elements: &[Element]) -> Vec<Vec<Element>> {
    let replaced = |index: usize, by: Vec<Element>| {
        let mut all = elements[..index].to_vec();
        all.extend(by);
        all.extend_from_slice(&elements[index + 1..]);
        all
    };
    let each = elements.iter().enumerate();
    each.flat_map(|(index, element)| {
        let one = |element| replaced(index, vec![element]);
        let mut all = vec![replaced(index, Vec::new())];
        if let Value::Document(inner) | Value::Array(inner) = &element.value {
            all.push(replaced(index, inner.clone()));
        }
        all.extend(simpler_element(element).into_iter().map(one));
        all
    })
    .collect()
}

fn simpler_element(element: &Element) -> Vec<Element> {
    let Element { key, value } = element;
    let keys = shorter(key).map(|key| Element {
        key,
        value: value.clone(),
    });
    let values = simpler_values(value).into_iter().map(|value| Element {
        key: key.clone(),
        value,
    });
    keys.into_iter().chain(values).collect()
}

fn simpler_values(value: &Value) -> Vec<Value> {
    match value {
        Value::String(t) => shorter(t).map(Value::String).into_iter().collect(),
        Value::Code(t) => shorter(t).map(Value::Code).into_iter().collect(),
        Value::Symbol(t) => shorter(t).map(Value::Symbol).into_iter().collect(),
        Value::Binary(subtype, data) => {
            let data = shorter(data);
            data.map(|data| Value::Binary(*subtype, data))
                .into_iter()
                .collect()
        }
        Value::Document(inner) => simpler(inner).into_iter().map(Value::Document).collect(),
        Value::Array(inner) => simpler(inner).into_iter().map(Value::Array).collect(),
        _ => Vec::new(),
    }
}

/// Without the last character.
fn shorter(text: &[u8]) -> Option<Vec<u8>> {
    let (_, rest) = text.split_last()?;
    let end = (0..=rest.len()).rev();
    let mut ends = end.filter(|end| std::str::from_utf8(&rest[..*end]).is_ok());
    ends.next().map(|end| rest[..end].to_vec())
}
