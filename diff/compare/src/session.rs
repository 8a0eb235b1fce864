//! A writer's session through the Rust's DocWriter and through the library's writer: RULES.md, "Writer and joining".

use boundary::Written;
use bson::document::writer::{append_cstr, append_string, Writer};
use bson::raw::CStr;
use bson::spec::ElementType;

use crate::answer::{Answer, Part, Said};
use crate::ledger::Ledger;
use crate::library_writer::Writer as Library;
use crate::panics::caught;
use crate::tree::{Element, Value, OLD_BINARY};

/// What the buffer holds before: a byte behind the document must stay so.
const FILL: u8 = 0xA5;

/// Compares each call and the bytes; `spare` is the room behind the document.
pub fn compare(elements: &[Element], spare: usize, ledger: &mut Ledger) {
    let Some(rust) = caught(|| Rust::write(elements)) else {
        return ledger.panicked();
    };
    let mut out = vec![FILL; rust.data.len() + spare];
    let mut calls = Calls {
        writer: Library::new(&mut out),
        used: &rust.used,
        ledger,
    };
    calls.session(elements);

    let (document, behind) = out.split_at(rust.data.len());
    let pairs = document.iter().zip(&rust.data);
    let same = pairs.take_while(|(one, other)| one == other).count();
    let said = Said::plain(Answer::Wrote(same));
    ledger.hold(Part::Bytes, Answer::Wrote(rust.data.len()), said);
    let kept = behind.iter().take_while(|byte| **byte == FILL).count();
    let said = Said::plain(Answer::Wrote(kept));
    ledger.hold(Part::Behind, Answer::Wrote(spare), said);
}

/// The Rust's document.
pub fn written(elements: &[Element]) -> Vec<u8> {
    Rust::write(elements).data
}

struct Rust {
    data: Vec<u8>,
    /// The bytes used behind each call.
    used: Vec<usize>,
}

impl Rust {
    fn write(elements: &[Element]) -> Self {
        let mut data = Vec::new();
        let mut used = Vec::new();
        document(&mut data, elements, false, &mut used);
        Self { data, used }
    }
}

/// Opens a document, writes its elements, and closes it; inside an array the keys are 0, 1, 2 on.
fn document(data: &mut Vec<u8>, elements: &[Element], array: bool, used: &mut Vec<usize>) {
    let mut writer = Writer::open(data);
    used.push(writer.buffer().len());
    for (index, element) in elements.iter().enumerate() {
        let made = index.to_string();
        let key = if array { made.as_bytes() } else { &element.key };
        let kind = ElementType::from(element.value.tag()).expect("a tag of the table");
        writer.append_key(kind, cstr(key));
        match &element.value {
            Value::Document(inner) => document(writer.buffer(), inner, false, used),
            Value::Array(inner) => document(writer.buffer(), inner, true, used),
            leaf => {
                value(writer.buffer(), leaf);
                used.push(writer.buffer().len());
            }
        }
    }
    drop(writer);
    used.push(data.len());
}

fn text(bytes: &[u8]) -> &str {
    std::str::from_utf8(bytes).expect("a session's texts are UTF-8")
}

fn cstr(bytes: &[u8]) -> &CStr {
    let text = text(bytes);
    text.try_into()
        .expect("no zero in a key, pattern or options")
}

/// What DocWriter leaves to its callers: numbers little-endian, texts by the Rust's own functions.
fn value(data: &mut Vec<u8>, value: &Value) {
    match value {
        Value::Double(bits) => data.extend(bits.to_le_bytes()),
        Value::String(t) | Value::Code(t) | Value::Symbol(t) => append_string(data, text(t)),
        Value::Binary(subtype, contents) => binary(data, *subtype, contents),
        Value::ObjectId(id) => data.extend(id),
        Value::Bool(b) => data.push(u8::from(*b)),
        Value::Datetime(n) | Value::Int64(n) => data.extend(n.to_le_bytes()),
        Value::Regex(pattern, options) => {
            append_cstr(data, cstr(pattern));
            append_cstr(data, cstr(options));
        }
        Value::DbPointer(name, id) => {
            append_string(data, text(name));
            data.extend(id);
        }
        Value::Int32(n) => data.extend(n.to_le_bytes()),
        Value::Timestamp(increment, seconds) => {
            data.extend(increment.to_le_bytes());
            data.extend(seconds.to_le_bytes());
        }
        Value::Decimal128(bits) => data.extend(bits),
        Value::Undefined | Value::Null | Value::MinKey | Value::MaxKey => {}
        Value::Document(_) | Value::Array(_) | Value::CodeWithScope(..) => {
            unreachable!("opened, or not written")
        }
    }
}

fn binary(data: &mut Vec<u8>, subtype: u8, contents: &[u8]) {
    let inner = (contents.len() as i32).to_le_bytes();
    let old = subtype == OLD_BINARY;
    let length = contents.len() as i32 + if old { 4 } else { 0 };
    data.extend(length.to_le_bytes());
    data.push(subtype);
    if old {
        data.extend(inner);
    }
    data.extend(contents);
}

/// The library's side: each call is held to the bytes that the Rust has used behind it.
struct Calls<'a, 'l> {
    writer: Library<'a>,
    used: &'a [usize],
    ledger: &'l mut Ledger,
}

impl Calls<'_, '_> {
    fn session(&mut self, elements: &[Element]) {
        let mut number = 0;
        let opened = self.writer.open();
        self.hold(&mut number, opened);
        self.elements(elements, &mut number);
    }

    /// The elements of what is open, and its closing.
    fn elements(&mut self, elements: &[Element], number: &mut usize) {
        for element in elements {
            let appended = self.writer.append(element);
            self.hold(number, appended);
            if let Value::Document(inner) | Value::Array(inner) = &element.value {
                self.elements(inner, number);
            }
        }
        let closed = self.writer.close();
        self.hold(number, closed);
    }

    fn hold(&mut self, number: &mut usize, written: Written) {
        let rust = Answer::Used(self.used[*number]);
        let said = Said::written(written);
        self.ledger.hold(Part::Call(*number), rust, said);
        *number += 1;
    }
}
