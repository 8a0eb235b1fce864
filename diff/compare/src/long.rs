//! Long texts of several stretches, of ASCII and of characters of each size, whole or with one bad place, in every sort of text.

use crate::rng::Rng;
use crate::texts::{Text, Texts, SIZES};
use crate::tree::{Element, Value};

/// A text has so many bytes or more, and fewer than one of `MORE` more: 64 to 70,000 with what may be put in or left out at its end.
const LEAST: usize = 68;
const MORE: [usize; 16] = [
    200, 200, 200, 200, 200, 200, 200, 200, 1_000, 1_000, 1_000, 1_000, 5_000, 5_000, 5_000, 69_929,
];

/// Bytes at the edges of RFC 3629's ranges.
const EDGES: [u8; 14] = [
    0x7F, 0x80, 0x8F, 0x90, 0x9F, 0xA0, 0xBF, 0xC1, 0xC2, 0xE0, 0xED, 0xF0, 0xF4, 0xFF,
];

/// The elements of a document that holds a long text: numbers may stand before and behind it, and all of it inside another.
pub fn elements(rng: &mut Rng, texts: Texts, scopes: bool) -> Vec<Element> {
    let text = Long { rng, texts }.text();
    let mut elements = vec![holder(text, rng, scopes)];
    if rng.once_in(2) {
        elements.insert(0, number(b"a".to_vec()));
    }
    if rng.once_in(2) {
        elements.push(number(b"b".to_vec()));
    }
    let value = match rng.below(12) {
        0 => Value::Document(elements),
        1 => Value::Array(elements),
        2 if scopes => Value::CodeWithScope(Vec::new(), elements),
        _ => return elements,
    };
    let key = b"0".to_vec();
    vec![Element { key, value }]
}

fn number(key: Vec<u8>) -> Element {
    let value = Value::Int32(7);
    Element { key, value }
}

/// The text as a key, or in a value.
fn holder(text: Vec<u8>, rng: &mut Rng, scopes: bool) -> Element {
    let value = match rng.below(if scopes { 8 } else { 7 }) {
        0 => return number(text),
        1 => Value::String(text),
        2 => Value::Code(text),
        3 => Value::Symbol(text),
        4 => Value::Regex(text, b"i".to_vec()),
        5 => Value::Regex(b"^".to_vec(), text),
        6 => Value::DbPointer(text, rng.bytes()),
        _ => Value::CodeWithScope(text, vec![number(b"s".to_vec())]),
    };
    let key = b"t".to_vec();
    Element { key, value }
}

struct Long<'r> {
    rng: &'r mut Rng,
    texts: Texts,
}

impl Long<'_> {
    /// Where bad ones are asked for, one in three is left whole.
    fn text(&mut self) -> Vec<u8> {
        let more = self.rng.pick(&MORE);
        let size = LEAST + self.rng.below(more);
        let most = self.rng.pick(&[12, 40, 200, size / 2]);
        let mut text = Vec::new();
        let mut begins = Vec::new();
        while text.len() + 4 <= size {
            begins.push(text.len());
            let end = size.min(text.len() + 4 + self.rng.below(most));
            self.stretch(&mut text, end);
        }
        if self.texts == Texts::Mixed && !self.rng.once_in(3) {
            self.spoil(&mut text, &begins);
        }
        text
    }

    /// ASCII, or characters of one size, or all mixed, as long as there is room for four bytes.
    fn stretch(&mut self, text: &mut Vec<u8>, end: usize) {
        let kind = self.rng.below(6);
        while text.len() + 4 <= end {
            match kind {
                0..=3 => self.characters().any(SIZES[kind], text),
                _ => text.push(1 + self.rng.below(127) as u8),
            }
        }
    }

    fn characters(&mut self) -> Text<'_> {
        let texts = self.texts;
        let rng = &mut *self.rng;
        Text { rng, texts }
    }

    /// Mostly makes one bad place: something is put in, a byte is lost, or is another.
    fn spoil(&mut self, text: &mut Vec<u8>, begins: &[usize]) {
        let at = self.place(text.len(), begins);
        match self.rng.below(6) {
            0 if at < text.len() => text[at] = self.rng.pick(&EDGES),
            1 if at < text.len() => {
                text.remove(at);
            }
            _ => {
                let at = begin(text, at);
                let mut bad = Vec::new();
                self.characters().bad(&mut bad);
                text.splice(at..at, bad);
            }
        }
    }

    /// The beginning, the end, where a stretch begins, the edge of a block, each or up to three bytes before it; or anywhere.
    fn place(&mut self, length: usize, begins: &[usize]) -> usize {
        let block = self.rng.pick(&[8, 16, 32, 64]);
        let at = match self.rng.below(8) {
            0 => 0,
            1 => length,
            2..=3 => self.rng.pick(begins),
            4..=6 => block * self.rng.below(length / block + 1),
            _ => self.rng.below(length),
        };
        at.saturating_sub(self.rng.below(4))
    }
}

/// Where the character begins in which this place lies.
fn begin(text: &[u8], mut at: usize) -> usize {
    while at > 0 && matches!(text.get(at), Some(0x80..=0xBF)) {
        at -= 1;
    }
    at
}
