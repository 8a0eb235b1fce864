//! The Rust's iteration with the places of what it yields, and its refusals in the list's words.

use std::fmt;

use bson::error::{Error, ErrorKind, ValueAccessErrorKind as Access};
use bson::raw::{RawDocument, RawElement, RawIter};

pub type Kind = &'static str;

/// How many bytes a key, a pattern or options may have (`max_cstr_parse_len`), where there is a limit.
pub type Limit = Option<usize>;

pub fn kind(error: &Error) -> Kind {
    match &error.kind {
        ErrorKind::MalformedBytes { .. } => "malformed",
        ErrorKind::Utf8Encoding { .. } => "utf8",
        ErrorKind::TooLongCStr { .. } => "too-long",
        ErrorKind::RecursionLimit { .. } => "recursion",
        ErrorKind::ValueAccess { kind, .. } => match kind {
            Access::NotPresent => "not-present",
            Access::UnexpectedType => "unexpected-type",
            Access::InvalidBson => inner_kind(error.message.as_deref().unwrap_or("")),
        },
        _ => "unknown",
    }
}

/// Of a damaged document's error a typed getter keeps the Debug text, which begins with the kind.
fn inner_kind(text: &str) -> Kind {
    match text.split(',').next() {
        Some("Error { kind: MalformedBytes") => "malformed",
        Some("Error { kind: Utf8Encoding") => "utf8",
        _ => "unknown",
    }
}

/// The kind and the place in the outermost document.
pub struct Refusal(pub Kind, pub usize);

impl fmt::Display for Refusal {
    fn fmt(&self, f: &mut fmt::Formatter) -> fmt::Result {
        write!(f, "refused {} {}", self.0, self.1)
    }
}

/// An element that the Rust yielded: its tag is at `place` and its value at `offset` of the outermost document.
pub struct Element<'a> {
    pub outer: &'a [u8],
    pub raw: RawElement<'a>,
    pub place: usize,
    pub offset: usize,
}

/// The steps through a document inside the outermost one, under a limit or none; the next begins at `at`.
pub struct Steps<'a> {
    outer: &'a [u8],
    elements: RawIter<'a>,
    pub at: usize,
}

impl<'a> Steps<'a> {
    pub fn new(outer: &'a [u8], doc: &'a RawDocument, limit: Limit) -> Self {
        Self {
            outer,
            elements: doc.iter_elements().max_cstr_parse_len(limit),
            at: offset_in(outer, doc.as_bytes()) + 4,
        }
    }
}

impl<'a> Iterator for Steps<'a> {
    type Item = Result<Element<'a>, Refusal>;

    fn next(&mut self) -> Option<Self::Item> {
        let raw = match self.elements.next()? {
            Ok(raw) => raw,
            Err(error) => return Some(Err(Refusal(kind(&error), self.at))),
        };
        let key = offset_in(self.outer, raw.key().as_str().as_bytes());
        assert_eq!(key, self.at + 1, "an element begins where the last ended");
        let element = Element {
            outer: self.outer,
            place: key - 1,
            offset: key + raw.key().len() + 1,
            raw,
        };
        self.at = element.offset + element.raw.size();
        Some(Ok(element))
    }
}

/// Where a part that the Rust handed back lies in the outermost document.
pub fn offset_in(outer: &[u8], part: &[u8]) -> usize {
    let offset = part.as_ptr() as usize - outer.as_ptr() as usize;
    assert!(offset + part.len() <= outer.len(), "a part lies inside");
    offset
}
