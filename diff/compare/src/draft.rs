//! A tree's bytes, by BSON 1.1, with the places where damage tells: length fields, tags and zeros.

use crate::tree::{Element, Value, OLD_BINARY};

#[derive(Default)]
pub struct Draft {
    pub bytes: Vec<u8>,
    pub lengths: Vec<usize>,
    pub tags: Vec<usize>,
    pub zeros: Vec<usize>,
}

impl Draft {
    pub fn of(elements: &[Element]) -> Self {
        let mut draft = Self::default();
        draft.document(elements);
        draft
    }

    pub fn document(&mut self, elements: &[Element]) {
        let start = self.begin();
        for element in elements {
            self.head(element.value.tag(), &element.key);
            self.value(&element.value);
        }
        self.zero();
        self.end(start);
    }

    /// A length field, to be filled by `end`.
    pub fn begin(&mut self) -> usize {
        let start = self.bytes.len();
        self.lengths.push(start);
        self.bytes.extend([0; 4]);
        start
    }

    /// Writes the number of bytes from this length field on to it.
    pub fn end(&mut self, start: usize) {
        let length = (self.bytes.len() - start) as i32;
        self.bytes[start..start + 4].copy_from_slice(&length.to_le_bytes());
    }

    pub fn head(&mut self, tag: u8, key: &[u8]) {
        self.tags.push(self.bytes.len());
        self.bytes.push(tag);
        self.cstring(key);
    }

    pub fn zero(&mut self) {
        self.zeros.push(self.bytes.len());
        self.bytes.push(0);
    }

    fn cstring(&mut self, text: &[u8]) {
        self.bytes.extend(text);
        self.zero();
    }

    pub fn string(&mut self, text: &[u8]) {
        self.length(text.len() + 1);
        self.cstring(text);
    }

    fn length(&mut self, length: usize) {
        self.lengths.push(self.bytes.len());
        self.bytes.extend((length as i32).to_le_bytes());
    }

    fn binary(&mut self, subtype: u8, data: &[u8]) {
        let old = subtype == OLD_BINARY;
        self.length(data.len() + if old { 4 } else { 0 });
        self.bytes.push(subtype);
        if old {
            self.length(data.len());
        }
        self.bytes.extend(data);
    }

    fn value(&mut self, value: &Value) {
        match value {
            Value::Double(bits) => self.bytes.extend(bits.to_le_bytes()),
            Value::String(text) | Value::Code(text) | Value::Symbol(text) => self.string(text),
            Value::Document(inner) | Value::Array(inner) => self.document(inner),
            Value::Binary(subtype, data) => self.binary(*subtype, data),
            Value::ObjectId(id) => self.bytes.extend(id),
            Value::Bool(b) => self.bytes.push(u8::from(*b)),
            Value::Datetime(n) | Value::Int64(n) => self.bytes.extend(n.to_le_bytes()),
            Value::Regex(pattern, options) => {
                self.cstring(pattern);
                self.cstring(options);
            }
            Value::DbPointer(name, id) => {
                self.string(name);
                self.bytes.extend(id);
            }
            Value::CodeWithScope(code, scope) => {
                let start = self.begin();
                self.string(code);
                self.document(scope);
                self.end(start);
            }
            Value::Int32(n) => self.bytes.extend(n.to_le_bytes()),
            Value::Timestamp(increment, seconds) => {
                self.bytes.extend(increment.to_le_bytes());
                self.bytes.extend(seconds.to_le_bytes());
            }
            Value::Decimal128(bits) => self.bytes.extend(bits),
            Value::Undefined | Value::Null | Value::MinKey | Value::MaxKey => {}
        }
    }
}
