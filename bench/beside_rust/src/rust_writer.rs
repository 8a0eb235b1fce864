//! The Rust's DocWriter, and the values that it leaves to its callers.

use std::hint::black_box;
use std::str::from_utf8;

use bson::document::writer::{append_cstr, append_string, Writer};
use bson::raw::{CStr, RawBinaryRef};
use bson::spec::BinarySubtype;
use bson::RawBsonRef as Value;

use crate::side::{Given, Piece};

/// Writes a document of these pieces behind the data; it closes when its writer is dropped.
pub fn write(data: &mut Vec<u8>, pieces: &[Piece], given: Given) {
    let mut writer = Writer::open(data);
    for piece in pieces {
        writer.append_key(piece.value.element_type(), key(piece.key, given));
        match piece.value {
            Value::Document(_) | Value::Array(_) => write(writer.buffer(), &piece.inside, given),
            value => append(writer.buffer(), value, given),
        }
    }
}

/// A key or text that comes as bytes is tested before the Rust's types take it.
fn text(t: &str, given: Given) -> &str {
    match given {
        Given::Tested => t,
        Given::Bytes => from_utf8(black_box(t.as_bytes())).expect("the beacon is whole"),
    }
}

fn key(k: &CStr, given: Given) -> &CStr {
    match given {
        Given::Tested => k,
        Given::Bytes => text(k.as_str(), given)
            .try_into()
            .expect("the beacon is whole"),
    }
}

fn append(data: &mut Vec<u8>, value: Value, given: Given) {
    match value {
        Value::Boolean(b) => data.push(b.into()),
        Value::Int32(n) => data.extend(n.to_le_bytes()),
        Value::Int64(n) => data.extend(n.to_le_bytes()),
        Value::DateTime(d) => data.extend(d.timestamp_millis().to_le_bytes()),
        Value::Double(d) => data.extend(d.to_le_bytes()),
        Value::Timestamp(t) => {
            data.extend(t.increment.to_le_bytes());
            data.extend(t.time.to_le_bytes());
        }
        Value::ObjectId(id) => data.extend(id.bytes()),
        Value::Decimal128(d) => data.extend(d.bytes()),
        Value::String(t) | Value::JavaScriptCode(t) | Value::Symbol(t) => {
            append_string(data, text(t, given))
        }
        Value::Binary(b) => append_binary(data, b),
        Value::RegularExpression(r) => {
            append_cstr(data, key(r.pattern, given));
            append_cstr(data, key(r.options, given));
        }
        Value::DbPointer(p) => {
            append_string(data, text(p.namespace, given));
            data.extend(p.id.bytes());
        }
        Value::Null | Value::Undefined | Value::MinKey | Value::MaxKey => {}
        Value::Document(_) | Value::Array(_) | Value::JavaScriptCodeWithScope(_) => {
            unreachable!("opened, or not written")
        }
    }
}

fn append_binary(data: &mut Vec<u8>, binary: RawBinaryRef) {
    let size = binary.bytes.len() as i32;
    let old = binary.subtype == BinarySubtype::BinaryOld;
    data.extend((size + if old { 4 } else { 0 }).to_le_bytes());
    data.push(binary.subtype.into());
    if old {
        data.extend(size.to_le_bytes());
    }
    data.extend(binary.bytes);
}
