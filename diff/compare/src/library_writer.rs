//! The library's writer, lent Rust's slices.

use boundary::{State, Written};

use crate::tree::{Element, Value};

macro_rules! call {
    ($writer:ident, $key:ident, $name:ident $(, $given:expr)*) => {
        unsafe {
            boundary::$name(
                &mut $writer.state,
                $writer.out.as_mut_ptr(),
                $writer.out.len(),
                $key.as_ptr(),
                $key.len()
                $(, $given)*
            )
        }
    };
}

pub struct Writer<'a> {
    state: State,
    out: &'a mut [u8],
}

// Safety of each call: the header asks for a state, a buffer and slices that overlap nowhere.
impl<'a> Writer<'a> {
    pub fn new(out: &'a mut [u8]) -> Self {
        let state = unsafe { boundary::fringewell_state_new() };
        Self { state, out }
    }

    pub fn open(&mut self) -> Written {
        let (out, room) = (self.out.as_mut_ptr(), self.out.len());
        unsafe { boundary::fringewell_state_open(&mut self.state, out, room) }
    }

    pub fn close(&mut self) -> Written {
        let (out, room) = (self.out.as_mut_ptr(), self.out.len());
        unsafe { boundary::fringewell_state_close(&mut self.state, out, room) }
    }

    /// Appends a value, or opens a document or array.
    pub fn append(&mut self, element: &Element) -> Written {
        let Element { key, value } = element;
        let appended = self.append_number(key, value);
        let appended = appended.or_else(|| self.append_text(key, value));
        let appended = appended.or_else(|| self.append_other(key, value));
        appended.expect("the writer has no code with scope")
    }

    fn append_number(&mut self, key: &[u8], value: &Value) -> Option<Written> {
        Some(match value {
            Value::Double(bits) => call!(self, key, fringewell_state_append_double, *bits),
            Value::ObjectId(id) => call!(self, key, fringewell_state_append_object_id, id.as_ptr()),
            Value::Bool(b) => call!(self, key, fringewell_state_append_bool, *b),
            Value::Datetime(n) => call!(self, key, fringewell_state_append_datetime, *n),
            Value::Int32(n) => call!(self, key, fringewell_state_append_int32, *n),
            Value::Timestamp(i, s) => call!(self, key, fringewell_state_append_timestamp, *i, *s),
            Value::Int64(n) => call!(self, key, fringewell_state_append_int64, *n),
            Value::Decimal128(d) => {
                call!(self, key, fringewell_state_append_decimal128, d.as_ptr())
            }
            _ => return None,
        })
    }

    fn append_text(&mut self, key: &[u8], value: &Value) -> Option<Written> {
        macro_rules! slices {
            ($name:ident $(, $slice:expr)*) => {
                call!(self, key, $name $(, $slice.as_ptr(), $slice.len())*)
            };
        }
        Some(match value {
            Value::String(text) => slices!(fringewell_state_append_string, text),
            Value::Code(text) => slices!(fringewell_state_append_code, text),
            Value::Symbol(text) => slices!(fringewell_state_append_symbol, text),
            Value::Regex(pattern, options) => {
                slices!(fringewell_state_append_regex, pattern, options)
            }
            Value::Binary(subtype, data) => {
                let (at, n) = (data.as_ptr(), data.len());
                call!(self, key, fringewell_state_append_binary, *subtype, at, n)
            }
            Value::DbPointer(name, id) => {
                let (at, n, id) = (name.as_ptr(), name.len(), id.as_ptr());
                call!(self, key, fringewell_state_append_dbpointer, at, n, id)
            }
            _ => return None,
        })
    }

    fn append_other(&mut self, key: &[u8], value: &Value) -> Option<Written> {
        Some(match value {
            Value::Document(_) => call!(self, key, fringewell_state_open_document),
            Value::Array(_) => call!(self, key, fringewell_state_open_array),
            Value::Undefined => call!(self, key, fringewell_state_append_undefined),
            Value::Null => call!(self, key, fringewell_state_append_null),
            Value::MinKey => call!(self, key, fringewell_state_append_min_key),
            Value::MaxKey => call!(self, key, fringewell_state_append_max_key),
            _ => return None,
        })
    }
}
