//! Values: how they are read and written down, and which answers are not the Rust's own.

use std::fmt::{self, Display};

use bson::{spec::ElementType as Type, RawBson as Lossy, RawBsonRef as Value};

use crate::step::{kind, offset_in, Element, Kind};

const OLD_BINARY: u8 = 2;

/// A value as the Rust reads it, with the stand-ins' part in that.
pub struct Reading<'a> {
    pub value: Result<Value<'a>, Kind>,
    /// Only a stand-in chose between a value and a refusal.
    pub judged: bool,
    /// A stand-in gave the contents, or judged them.
    pub starred: bool,
    /// A stand-in's strict reading disagrees with the Rust's own lossy one.
    pub differs: bool,
}

impl<'a> Reading<'a> {
    pub fn of(element: &Element<'a>) -> Self {
        let value = element.raw.value().map_err(|error| kind(&error));
        let (mut judged, mut held, mut differs) = (false, false, false);
        match element.raw.element_type() {
            Type::DateTime | Type::Timestamp | Type::Decimal128 => held = true,
            Type::Binary => {
                held = true;
                judged = element.outer[element.offset + 4] == OLD_BINARY;
            }
            Type::RegularExpression | Type::DbPointer | Type::JavaScriptCodeWithScope => {
                // The lossy reading refuses no text, so it cannot confirm this refusal.
                judged = value.is_err_and(|kind| kind == "utf8");
                differs = !judged && !agrees(element, &value);
            }
            _ => {}
        }
        Self {
            value,
            judged,
            starred: judged || held,
            differs,
        }
    }
}

fn agrees(element: &Element, strict: &Result<Value, Kind>) -> bool {
    match (strict, element.raw.value_utf8_lossy()) {
        (Ok(Value::RegularExpression(s)), Ok(Lossy::RegularExpression(l))) => {
            *s.pattern == l.pattern && *s.options == l.options
        }
        (Ok(Value::DbPointer(s)), Ok(Lossy::DbPointer(l))) => {
            s.namespace == l.namespace && s.id == l.id
        }
        (Ok(Value::JavaScriptCodeWithScope(s)), Ok(Lossy::JavaScriptCodeWithScope(l))) => {
            s.code == l.code && *s.scope == *l.scope
        }
        (Err(strict), Err(lossy)) => *strict == "malformed" && kind(&lossy) == "malformed",
        _ => false,
    }
}

/// What was read, in numbers: the content, and up to two parts by offset and size in the outermost document.
/// What a type does not have is 0.
#[derive(Clone, Copy, Debug, PartialEq)]
pub struct Content {
    pub kind: Type,
    /// A double's bits; integers sign-extended; a timestamp's increment below its seconds; a binary's subtype.
    pub bits: u64,
    pub parts: [(usize, usize); 2],
}

impl Content {
    /// The value that was read from this element.
    pub fn of(element: &Element, value: Value) -> Self {
        let [first, second] = parts(element, &value).map(|part| match part {
            Some(part) => (offset_in(element.outer, part), part.len()),
            None => (0, 0),
        });
        Self {
            kind: value.element_type(),
            bits: bits(&value),
            parts: [first, second],
        }
    }
}

fn bits(value: &Value) -> u64 {
    match value {
        Value::Boolean(b) => u64::from(*b),
        Value::Int32(n) => i64::from(*n) as u64,
        Value::Int64(n) => *n as u64,
        Value::DateTime(d) => d.timestamp_millis() as u64,
        Value::Double(d) => d.to_bits(),
        Value::Timestamp(t) => u64::from(t.time) << 32 | u64::from(t.increment),
        Value::Binary(b) => u64::from(u8::from(b.subtype)),
        _ => 0,
    }
}

fn parts<'a>(element: &Element<'a>, value: &Value<'a>) -> [Option<&'a [u8]>; 2] {
    let (outer, offset) = (element.outer, element.offset);
    let (first, second): (&[u8], Option<&[u8]>) = match value {
        Value::ObjectId(id) => (source(outer, offset, &id.bytes()), None),
        Value::Decimal128(d) => (source(outer, offset, &d.bytes()), None),
        Value::String(text) | Value::JavaScriptCode(text) | Value::Symbol(text) => {
            (text.as_bytes(), None)
        }
        Value::DbPointer(p) => {
            let id = source(outer, offset + element.raw.size() - 12, &p.id.bytes());
            (p.namespace.as_bytes(), Some(id))
        }
        Value::Binary(b) => (b.bytes, None),
        Value::RegularExpression(r) => {
            let [pattern, options] = [r.pattern, r.options].map(|text| text.as_str().as_bytes());
            (pattern, Some(options))
        }
        Value::Document(d) => (d.as_bytes(), None),
        Value::Array(a) => (a.as_doc().as_bytes(), None),
        Value::JavaScriptCodeWithScope(c) => (c.code.as_bytes(), Some(c.scope.as_bytes())),
        _ => return [None, None],
    };
    [Some(first), second]
}

/// In the list's words.
impl fmt::Display for Content {
    fn fmt(&self, f: &mut fmt::Formatter) -> fmt::Result {
        let signed = self.bits as i64;
        let [(at, size), (at2, size2)] = self.parts;
        match self.kind {
            Type::Boolean => write!(f, "boolean {signed}"),
            Type::Int32 => write!(f, "int32 {signed}"),
            Type::Int64 => write!(f, "int64 {signed}"),
            Type::DateTime => write!(f, "datetime {signed}"),
            Type::Double => write!(f, "double {}", self.bits),
            Type::Timestamp => write!(f, "timestamp {} {}", self.bits as u32, self.bits >> 32),
            Type::Null => write!(f, "null"),
            Type::Undefined => write!(f, "undefined"),
            Type::MinKey => write!(f, "minkey"),
            Type::MaxKey => write!(f, "maxkey"),
            Type::ObjectId => write!(f, "objectid {at} {size}"),
            Type::Decimal128 => write!(f, "decimal128 {at} {size}"),
            Type::String => write!(f, "string {at} {size}"),
            Type::JavaScriptCode => write!(f, "code {at} {size}"),
            Type::Symbol => write!(f, "symbol {at} {size}"),
            Type::EmbeddedDocument => write!(f, "document {at} {size}"),
            Type::Array => write!(f, "array {at} {size}"),
            Type::Binary => write!(f, "binary {} {at} {size}", self.bits),
            Type::RegularExpression => write!(f, "regex {at} {size} {at2} {size2}"),
            Type::DbPointer => write!(f, "dbpointer {at} {size} {at2} {size2}"),
            Type::JavaScriptCodeWithScope => {
                write!(f, "codewithscope {at} {size} {at2} {size2}")
            }
        }
    }
}

/// The bytes of which the Rust handed back a copy.
fn source<'a>(outer: &'a [u8], at: usize, copy: &[u8]) -> &'a [u8] {
    let source = &outer[at..at + copy.len()];
    assert_eq!(source, copy);
    source
}

/// An answer, with the star of one that is not the Rust's own.
pub fn starred(answer: impl Display, star: bool) -> String {
    let star = if star { " *" } else { "" };
    format!("{answer}{star}")
}
