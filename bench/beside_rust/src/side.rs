//! What each of the three does in a row, and what the rows hand to it.

use std::ffi::CString;

use bson::raw::CStr;
use bson::{RawBsonRef as Value, RawDocument};

/// One of the three. What a call returns is compared between them, so that each has read the same.
pub trait Side {
    /// Every step and every value of the top: the sum of tags, sizes of keys, and what the values hold.
    fn iterate(&mut self, document: &[u8]) -> u64;

    /// The same by a call that reads at an element's place and knows nothing of the step; only this library has one.
    fn read_at_place(&mut self, document: &[u8]) -> u64 {
        self.iterate(document)
    }

    /// The whole check: the number of values, or 1 from libbson, which does not count.
    fn check(&mut self, document: &[u8]) -> u64;

    /// The strict check, which asks for the keys of arrays besides; only this library has one.
    fn check_strict(&mut self, document: &[u8]) -> u64 {
        self.check(document)
    }

    /// The first element of the key: its tag and what its value holds.
    fn lookup(&mut self, document: &[u8], key: &str) -> u64;

    /// The value that two keys lead to, the second in the document under the first: its tag and what it holds.
    fn path(&mut self, document: &[u8], path: &Path) -> u64;

    /// The same by two lookups; only this library has a call for each, the others do as for a path.
    fn path_by_lookups(&mut self, document: &[u8], path: &Path) -> u64 {
        self.path(document, path)
    }

    /// The document of these pieces, into the side's own buffer: its size.
    fn build(&mut self, pieces: &[Piece], given: Given) -> u64;

    /// What the last build left in the buffer.
    fn built(&self) -> &[u8];
}

/// Two keys, and the path of them as this library and as libbson take it, made before it is timed.
pub struct Path<'a> {
    pub keys: [&'a str; 2],
    pub zeroed: Vec<u8>,
    #[cfg_attr(not(feature = "libbson"), allow(dead_code))]
    pub dotted: CString,
}

impl<'a> Path<'a> {
    pub fn new(dotted: &'a str) -> Self {
        let (first, second) = dotted.split_once('.').expect("a path of two keys");
        Self {
            keys: [first, second],
            zeroed: [first, second].join("\0").into_bytes(),
            dotted: CString::new(dotted).expect("keys without a zero byte"),
        }
    }
}

/// How keys and texts come to the Rust, which tests them when they become its types; this library tests them always, libbson never.
#[derive(Clone, Copy)]
pub enum Given {
    Bytes,
    Tested,
}

/// An element to be written, with the elements inside it.
pub struct Piece<'a> {
    pub key: &'a CStr,
    pub value: Value<'a>,
    pub inside: Vec<Piece<'a>>,
}

/// The elements of a document.
pub fn pieces(document: &RawDocument) -> Vec<Piece<'_>> {
    let elements = document.iter().map(|step| step.expect("a whole document"));
    elements
        .map(|(key, value)| Piece {
            key,
            value,
            inside: inside(value),
        })
        .collect()
}

fn inside(value: Value<'_>) -> Vec<Piece<'_>> {
    match value {
        Value::Document(inner) => pieces(inner),
        Value::Array(inner) => pieces(inner.as_doc()),
        _ => Vec::new(),
    }
}
