//! libbson: in the rows that read by libbson.c; it writes by its own functions, for which a bson_t is a place of 128 bytes.

use std::ffi::{c_char, c_int};
use std::mem::MaybeUninit;

use bson::RawBsonRef as Value;

use crate::side::{Given, Path, Piece, Side};

/// A bson_t; libbson.c holds its size and alignment to this.
#[repr(C, align(128))]
struct Bson([u8; 128]);

extern "C" {
    fn beside_iterate(document: *const u8, length: usize) -> u64;
    fn beside_check(document: *const u8, length: usize) -> u64;
    fn beside_lookup(document: *const u8, length: usize, key: *const u8, n: c_int) -> u64;
    fn beside_path(document: *const u8, length: usize, dotted: *const c_char) -> u64;
    fn bson_sized_new(room: usize) -> *mut Bson;
    fn bson_reinit(document: *mut Bson);
    fn bson_get_data(document: *const Bson) -> *const u8;
    fn bson_append_document_end(document: *mut Bson, child: *mut Bson) -> bool;
    fn bson_append_array_end(document: *mut Bson, child: *mut Bson) -> bool;
}

/// The calls that take a key: document, key, and then what each is named for.
macro_rules! keyed {
    ($($name:ident($($given:ident: $kind:ty),*);)*) => {
        extern "C" {
            $(fn $name(document: *mut Bson, key: *const u8, n: c_int, $($given: $kind),*) -> bool;)*
        }
    };
}

keyed! {
    bson_append_document_begin(child: *mut Bson);
    bson_append_array_begin(child: *mut Bson);
    bson_append_double(d: f64);
    bson_append_bool(b: bool);
    bson_append_int32(i: i32);
    bson_append_int64(i: i64);
    bson_append_date_time(millis: i64);
    bson_append_timestamp(seconds: u32, increment: u32);
    bson_append_null();
    bson_append_utf8(text: *const u8, size: c_int);
    bson_append_symbol(text: *const u8, size: c_int);
    bson_append_binary(subtype: c_int, data: *const u8, size: u32);
    bson_append_regex_w_len(pattern: *const u8, size: c_int, options: *const u8);
    bson_append_oid(id: *const [u8; 12]);
    bson_append_decimal128(halves: *const [u64; 2]);
}

/// Keeps one bson_t for the whole run.
pub struct Libbson {
    document: *mut Bson,
}

impl Libbson {
    pub fn new(room: usize) -> Self {
        Self {
            document: unsafe { bson_sized_new(room) },
        }
    }
}

impl Side for Libbson {
    fn iterate(&mut self, document: &[u8]) -> u64 {
        unsafe { beside_iterate(document.as_ptr(), document.len()) }
    }

    fn check(&mut self, document: &[u8]) -> u64 {
        unsafe { beside_check(document.as_ptr(), document.len()) }
    }

    fn lookup(&mut self, document: &[u8], key: &str) -> u64 {
        unsafe {
            beside_lookup(
                document.as_ptr(),
                document.len(),
                key.as_ptr(),
                key.len() as c_int,
            )
        }
    }

    fn path(&mut self, document: &[u8], path: &Path) -> u64 {
        unsafe { beside_path(document.as_ptr(), document.len(), path.dotted.as_ptr()) }
    }

    fn build(&mut self, pieces: &[Piece], _: Given) -> u64 {
        unsafe { bson_reinit(self.document) };
        write(self.document, pieces);
        self.built().len() as u64
    }

    fn built(&self) -> &[u8] {
        unsafe {
            let data = bson_get_data(self.document);
            let length = data.cast::<u32>().read_unaligned();
            std::slice::from_raw_parts(data, length as usize)
        }
    }
}

fn write(to: *mut Bson, pieces: &[Piece]) {
    for piece in pieces {
        let mut child = MaybeUninit::<Bson>::uninit();
        let child = child.as_mut_ptr();
        assert!(append(to, child, piece));
        let end = match piece.value {
            Value::Document(_) => bson_append_document_end,
            Value::Array(_) => bson_append_array_end,
            _ => continue,
        };
        write(child, &piece.inside);
        assert!(unsafe { end(to, child) });
    }
}

/// Appends a value; of a document or an array, only its opening.
fn append(to: *mut Bson, child: *mut Bson, piece: &Piece) -> bool {
    let (key, n) = (piece.key.as_str().as_ptr(), piece.key.len() as c_int);
    unsafe {
        match piece.value {
            Value::Document(_) => bson_append_document_begin(to, key, n, child),
            Value::Array(_) => bson_append_array_begin(to, key, n, child),
            Value::Double(d) => bson_append_double(to, key, n, d),
            Value::Boolean(b) => bson_append_bool(to, key, n, b),
            Value::Int32(i) => bson_append_int32(to, key, n, i),
            Value::Int64(i) => bson_append_int64(to, key, n, i),
            Value::DateTime(d) => bson_append_date_time(to, key, n, d.timestamp_millis()),
            Value::Timestamp(t) => bson_append_timestamp(to, key, n, t.time, t.increment),
            Value::Null => bson_append_null(to, key, n),
            Value::String(t) => bson_append_utf8(to, key, n, t.as_ptr(), t.len() as c_int),
            Value::Symbol(t) => bson_append_symbol(to, key, n, t.as_ptr(), t.len() as c_int),
            Value::Binary(b) => {
                let subtype = c_int::from(u8::from(b.subtype));
                bson_append_binary(to, key, n, subtype, b.bytes.as_ptr(), b.bytes.len() as u32)
            }
            Value::RegularExpression(r) => {
                // The options end with their zero in the document that they were read from.
                let (pattern, options) = (r.pattern.as_str(), r.options.as_str());
                bson_append_regex_w_len(
                    to,
                    key,
                    n,
                    pattern.as_ptr(),
                    pattern.len() as c_int,
                    options.as_ptr(),
                )
            }
            Value::ObjectId(id) => bson_append_oid(to, key, n, &id.bytes()),
            Value::Decimal128(d) => {
                let bits = u128::from_le_bytes(d.bytes());
                bson_append_decimal128(to, key, n, &[bits as u64, (bits >> 64) as u64])
            }
            _ => unreachable!("the beacon holds no such value to write"),
        }
    }
}
