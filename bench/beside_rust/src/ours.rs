//! This library, called as include/fringewell.h says.

use boundary::{State, Verdict, Written};
use bson::RawBsonRef as Value;

use crate::side::{Given, Path, Piece, Side};

/// Where an iteration starts.
const START: usize = 4;

pub struct Ours {
    buffer: Vec<u8>,
    used: usize,
}

impl Ours {
    pub fn new(room: usize) -> Self {
        Self {
            buffer: vec![0; room],
            used: 0,
        }
    }
}

impl Side for Ours {
    fn iterate(&mut self, document: &[u8]) -> u64 {
        let (bytes, length) = (document.as_ptr(), document.len());
        let (mut offset, mut sum) = (START, 0u64);
        loop {
            let at = unsafe { boundary::fringewell_next(bytes, length, offset, false) };
            assert_eq!(at.value.number, 0);
            if at.ended {
                return sum;
            }
            sum = sum.wrapping_add(told(&at.value, at.key_size));
            offset = at.next;
        }
    }

    fn read_at_place(&mut self, document: &[u8]) -> u64 {
        let (bytes, length) = (document.as_ptr(), document.len());
        let (mut offset, mut sum) = (START, 0u64);
        loop {
            let at = unsafe { boundary::fringewell_step(bytes, length, offset, false) };
            assert_eq!(at.number, 0);
            if at.ended {
                return sum;
            }
            let value = unsafe { boundary::fringewell_read(bytes, length, at.place) };
            sum = sum.wrapping_add(told(&value, at.key_size));
            offset = at.next;
        }
    }

    fn check(&mut self, document: &[u8]) -> u64 {
        let (bytes, length) = (document.as_ptr(), document.len());
        passed(unsafe { boundary::fringewell_check(bytes, length) })
    }

    fn check_strict(&mut self, document: &[u8]) -> u64 {
        let (bytes, length) = (document.as_ptr(), document.len());
        passed(unsafe { boundary::fringewell_check_strict(bytes, length) })
    }

    fn lookup(&mut self, document: &[u8], key: &str) -> u64 {
        let (bytes, length) = (document.as_ptr(), document.len());
        let (key, n) = (key.as_ptr(), key.len());
        let found = unsafe { boundary::fringewell_lookup(bytes, length, key, n) };
        told(&found, 0)
    }

    fn path(&mut self, document: &[u8], path: &Path) -> u64 {
        let (bytes, length) = (document.as_ptr(), document.len());
        let (keys, n) = (path.zeroed.as_ptr(), path.zeroed.len());
        told(&unsafe { boundary::fringewell_path(bytes, length, keys, n) }, 0)
    }

    fn path_by_lookups(&mut self, document: &[u8], path: &Path) -> u64 {
        let [first, second] = path.keys;
        let (bytes, length) = (document.as_ptr(), document.len());
        let outer =
            unsafe { boundary::fringewell_lookup(bytes, length, first.as_ptr(), first.len()) };
        assert!(outer.number == 0 && outer.tag == 0x03);
        let inner = &document[outer.offset..outer.offset + outer.size];
        self.lookup(inner, second)
    }

    fn build(&mut self, pieces: &[Piece], _: Given) -> u64 {
        let mut state = unsafe { boundary::fringewell_state_new() };
        let (out, room) = (self.buffer.as_mut_ptr(), self.buffer.len());
        did(unsafe { boundary::fringewell_state_open(&mut state, out, room) });
        write(&mut state, &mut self.buffer, pieces);
        self.used = close(&mut state, &mut self.buffer);
        self.used as u64
    }

    fn built(&self) -> &[u8] {
        &self.buffer[..self.used]
    }
}

/// The values counted, of a document that must pass.
fn passed(verdict: Verdict) -> u64 {
    assert_eq!(verdict.number, 0);
    verdict.count as u64
}

/// What a value, which must not be refused, and the size of its key add to a sum.
fn told(value: &boundary::Value, key: usize) -> u64 {
    assert_eq!(value.number, 0);
    let framed = usize::from(value.tag) + key;
    held(value).wrapping_add(framed as u64)
}

/// What a value holds: a number, or the sizes of its parts. As the Rust's caller matches, so this one looks at the tag.
fn held(value: &boundary::Value) -> u64 {
    match value.tag {
        0x01 | 0x08 | 0x09 | 0x10 | 0x11 | 0x12 => value.bits,
        0x02 | 0x03 | 0x04 | 0x07 | 0x0D | 0x0E | 0x13 => value.size as u64,
        0x05 => value.bits + value.size as u64,
        0x0B | 0x0C | 0x0F => (value.size + value.size2) as u64,
        _ => 0,
    }
}

/// The bytes used, of a call that must not be refused.
fn did(written: Written) -> usize {
    assert_eq!(written.number, 0);
    written.used
}

fn close(state: &mut State, buffer: &mut [u8]) -> usize {
    let (out, room) = (buffer.as_mut_ptr(), buffer.len());
    did(unsafe { boundary::fringewell_state_close(state, out, room) })
}

fn write(state: &mut State, buffer: &mut [u8], pieces: &[Piece]) {
    for piece in pieces {
        append(state, buffer, piece);
        if matches!(piece.value, Value::Document(_) | Value::Array(_)) {
            write(state, buffer, &piece.inside);
            close(state, buffer);
        }
    }
}

/// Appends a value; of a document or an array, only its opening.
fn append(state: &mut State, buffer: &mut [u8], piece: &Piece) {
    let (out, room) = (buffer.as_mut_ptr(), buffer.len());
    let (key, n) = (piece.key.as_str().as_ptr(), piece.key.len());
    macro_rules! call {
        ($name:ident $(, $given:expr)*) => {
            boundary::$name(state, out, room, key, n $(, $given)*)
        };
    }
    macro_rules! slices {
        ($name:ident $(, $slice:expr)*) => {
            call!($name $(, $slice.as_ptr(), $slice.len())*)
        };
    }
    did(unsafe {
        match piece.value {
            Value::Document(_) => call!(fringewell_state_open_document),
            Value::Array(_) => call!(fringewell_state_open_array),
            Value::Double(d) => call!(fringewell_state_append_double, d.to_bits()),
            Value::Boolean(b) => call!(fringewell_state_append_bool, b),
            Value::Int32(i) => call!(fringewell_state_append_int32, i),
            Value::Int64(i) => call!(fringewell_state_append_int64, i),
            Value::DateTime(d) => call!(fringewell_state_append_datetime, d.timestamp_millis()),
            Value::Timestamp(t) => call!(fringewell_state_append_timestamp, t.increment, t.time),
            Value::Null => call!(fringewell_state_append_null),
            Value::String(t) => slices!(fringewell_state_append_string, t),
            Value::Symbol(t) => slices!(fringewell_state_append_symbol, t),
            Value::Binary(b) => {
                let (subtype, at, n) = (b.subtype.into(), b.bytes.as_ptr(), b.bytes.len());
                call!(fringewell_state_append_binary, subtype, at, n)
            }
            Value::RegularExpression(r) => {
                let (pattern, options) = (r.pattern.as_str(), r.options.as_str());
                slices!(fringewell_state_append_regex, pattern, options)
            }
            Value::ObjectId(id) => call!(fringewell_state_append_object_id, id.bytes().as_ptr()),
            Value::Decimal128(d) => call!(fringewell_state_append_decimal128, d.bytes().as_ptr()),
            _ => unreachable!("the beacon holds no such value to write"),
        }
    });
}
