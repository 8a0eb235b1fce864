//! The Rust: its iteration, values and lookup; the whole check is the walk of docs/RULES.md over them.

use std::hint::black_box;

use bson::{RawBsonRef as Value, RawDocument};

use crate::rust_writer::write;
use crate::side::{Given, Path, Piece, Side};

const MAX_DEPTH: u32 = 200;

pub struct Rust {
    buffer: Vec<u8>,
}

impl Rust {
    pub fn new(room: usize) -> Self {
        Self {
            buffer: Vec::with_capacity(room),
        }
    }
}

impl Side for Rust {
    fn iterate(&mut self, document: &[u8]) -> u64 {
        top(document).expect("a whole document")
    }

    fn check(&mut self, document: &[u8]) -> u64 {
        let admitted = RawDocument::from_bytes(document).ok();
        admitted
            .and_then(|document| values(document, 0))
            .expect("a whole document")
    }

    fn lookup(&mut self, document: &[u8], key: &str) -> u64 {
        let admitted = RawDocument::from_bytes(document).expect("a whole document");
        let value = admitted
            .get(key)
            .expect("a whole document")
            .expect("a key of it");
        held(value).wrapping_add(value.element_type() as u64)
    }

    fn path(&mut self, document: &[u8], path: &Path) -> u64 {
        let [first, second] = path.keys;
        let admitted = RawDocument::from_bytes(document).expect("a whole document");
        let inner = admitted.get_document(first).expect("a document in it");
        let value = inner
            .get(second)
            .expect("a whole document")
            .expect("a key of it");
        held(value).wrapping_add(value.element_type() as u64)
    }

    fn build(&mut self, pieces: &[Piece], given: Given) -> u64 {
        self.buffer.clear();
        write(&mut self.buffer, pieces, given);
        self.buffer.len() as u64
    }

    fn built(&self) -> &[u8] {
        &self.buffer
    }
}

fn top(document: &[u8]) -> bson::error::Result<u64> {
    let mut sum = 0u64;
    for element in RawDocument::from_bytes(document)?.iter_elements() {
        let element = element?;
        let framed = element.element_type() as usize + element.key().len();
        sum = sum
            .wrapping_add(framed as u64)
            .wrapping_add(held(element.value()?));
    }
    Ok(sum)
}

/// The values of a document, which have this depth, and those inside them; none where one is refused.
fn values(document: &RawDocument, depth: u32) -> Option<u64> {
    let mut count = 0;
    for element in document.iter_elements() {
        let value = element.ok()?.value().ok()?;
        if depth > MAX_DEPTH {
            return None;
        }
        count += 1 + match value {
            Value::Document(inner) => values(inner, depth + 1)?,
            Value::Array(inner) => values(inner.as_doc(), depth + 1)?,
            Value::JavaScriptCodeWithScope(code) => values(code.scope, depth + 2)?,
            _ => 0,
        };
    }
    Some(count)
}

/// What a value holds: a number, or the sizes of its parts.
fn held(value: Value) -> u64 {
    match value {
        Value::Boolean(b) => u64::from(b),
        Value::Int32(n) => n as u64,
        Value::Int64(n) => n as u64,
        Value::DateTime(d) => d.timestamp_millis() as u64,
        Value::Double(d) => d.to_bits(),
        Value::Timestamp(t) => u64::from(t.increment) + (u64::from(t.time) << 32),
        Value::ObjectId(id) => black_box(id.bytes()).len() as u64,
        Value::Decimal128(d) => black_box(d.bytes()).len() as u64,
        Value::String(text) | Value::JavaScriptCode(text) | Value::Symbol(text) => {
            text.len() as u64
        }
        Value::Null | Value::Undefined | Value::MinKey | Value::MaxKey => 0,
        Value::DbPointer(p) => (p.namespace.len() + black_box(p.id.bytes()).len()) as u64,
        Value::Binary(b) => u64::from(u8::from(b.subtype)) + b.bytes.len() as u64,
        Value::RegularExpression(r) => (r.pattern.len() + r.options.len()) as u64,
        Value::Document(inner) => inner.as_bytes().len() as u64,
        Value::Array(inner) => inner.as_doc().as_bytes().len() as u64,
        Value::JavaScriptCodeWithScope(c) => (c.code.len() + c.scope.as_bytes().len()) as u64,
    }
}
