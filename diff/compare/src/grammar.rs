//! Trees at random: every type, nested, with repeated and empty keys, boundary numbers, and good and bad array keys.

use crate::rng::Rng;
use crate::texts::{Text, Texts};
use crate::tree::{Element, Value, OLD_BINARY};

const DEEPEST: usize = 4;
const LEAVES: usize = 18;
const KINDS: usize = 21;

const KEYS: [&[u8]; 6] = [b"", b"a", b"b", b"ab", b"0", b"1"];
const BAD_ARRAY_KEYS: [&str; 10] = ["", "a", "00", "1a", "a1", "-1", "+1", " 1", "/", ":"];
const LONGS: [i64; 11] = [
    0,
    1,
    -1,
    i64::MIN,
    i64::MAX,
    127,
    256,
    65_535,
    i32::MIN as i64,
    i32::MAX as i64,
    1 << 32,
];
const DOUBLES: [u64; 9] = [
    0,
    0x8000_0000_0000_0000,
    0x3FF0_0000_0000_0000,
    0x7FF0_0000_0000_0000,
    0xFFF0_0000_0000_0000,
    0x7FF8_0000_0000_0000,
    0x7FF0_0000_0000_0001,
    0x0000_0000_0000_0001,
    0xFFFF_FFFF_FFFF_FFFF,
];

pub struct Garden<'r> {
    pub rng: &'r mut Rng,
    pub texts: Texts,
    /// The writer has no code with scope.
    pub scopes: bool,
}

impl Garden<'_> {
    /// The elements of a document of this depth.
    pub fn elements(&mut self, depth: usize) -> Vec<Element> {
        let count = self.rng.below(if depth == 0 { 7 } else { 4 });
        (0..count).map(|_| self.element(depth)).collect()
    }

    pub fn element(&mut self, depth: usize) -> Element {
        let key = self.key();
        let value = self.value(depth);
        Element { key, value }
    }

    fn key(&mut self) -> Vec<u8> {
        match self.rng.below(2) {
            0 => self.rng.pick(&KEYS).to_vec(),
            _ => self.text().cstring(),
        }
    }

    /// The elements of an array, whose keys are 0, 1, 2 on; in one array of three a key is not.
    fn items(&mut self, depth: usize) -> Vec<Element> {
        let mut items = self.elements(depth);
        if self.rng.once_in(10) {
            // So many that keys have two digits, or three.
            let more = self.rng.pick(&[8, 8, 98]) + self.rng.below(6);
            items.extend((0..more).map(|_| self.element(DEEPEST)));
        }
        for (index, item) in items.iter_mut().enumerate() {
            item.key = index.to_string().into();
        }
        if !items.is_empty() && self.rng.once_in(3) {
            let any = self.rng.below(items.len());
            // Before and behind a new digit, in arrays that have such.
            let index = self.rng.pick(&[any, 9, 10, 99, 100]).min(items.len() - 1);
            items[index].key = self.bad_array_key(index).into();
        }
        items
    }

    /// Mostly one that is nearly the position in decimal.
    fn bad_array_key(&mut self, index: usize) -> String {
        let right = index.to_string();
        match self.rng.below(9) {
            0 => (index + 1).to_string(),
            1 => (index + self.rng.pick(&[2, 10, 100])).to_string(),
            2 => format!("0{right}"),
            3 => format!("1{right}"),
            4 => format!("{right}0"),
            5 => right[1..].into(),
            6 => right[..right.len() - 1].into(),
            // The same number in 32 or in 64 bits.
            7 => (index as u128 + self.rng.pick(&[1 << 32, 1 << 64])).to_string(),
            _ => self.rng.pick(&BAD_ARRAY_KEYS).into(),
        }
    }

    fn value(&mut self, depth: usize) -> Value {
        let kinds = match depth < DEEPEST {
            true => KINDS - usize::from(!self.scopes),
            false => LEAVES,
        };
        match self.rng.below(kinds) {
            LEAVES => Value::Document(self.elements(depth + 1)),
            19 => Value::Array(self.items(depth + 1)),
            20 => Value::CodeWithScope(self.text().string(), self.elements(depth + 1)),
            leaf => self.leaf(leaf),
        }
    }

    fn leaf(&mut self, leaf: usize) -> Value {
        match leaf {
            0 => Value::Double(self.double()),
            1 => Value::String(self.text().string()),
            2 => self.binary(),
            3 => Value::Undefined,
            4 => Value::ObjectId(self.rng.bytes()),
            5 => Value::Bool(self.rng.once_in(2)),
            6 => Value::Datetime(self.long()),
            7 => Value::Null,
            8 => Value::Regex(self.text().cstring(), self.text().cstring()),
            9 => Value::DbPointer(self.text().string(), self.rng.bytes()),
            10 => Value::Code(self.text().string()),
            11 => Value::Symbol(self.text().string()),
            12 => Value::Int32(self.long() as i32),
            13 => Value::Timestamp(self.long() as u32, self.long() as u32),
            14 => Value::Int64(self.long()),
            15 => Value::Decimal128(self.rng.bytes()),
            16 => Value::MinKey,
            _ => Value::MaxKey,
        }
    }

    fn text(&mut self) -> Text<'_> {
        Text {
            rng: self.rng,
            texts: self.texts,
        }
    }

    fn binary(&mut self) -> Value {
        let any = self.rng.byte();
        let subtype = self
            .rng
            .pick(&[0, OLD_BINARY, 3, 4, 9, 0x7F, 0x80, 0xFF, any]);
        let most = self.rng.pick(&[1, 5, 9, 9, 9, 150]);
        let length = self.rng.below(most);
        Value::Binary(subtype, (0..length).map(|_| self.rng.byte()).collect())
    }

    fn long(&mut self) -> i64 {
        match self.rng.below(2) {
            0 => self.rng.pick(&LONGS),
            _ => self.rng.next() as i64,
        }
    }

    fn double(&mut self) -> u64 {
        match self.rng.below(2) {
            0 => self.rng.pick(&DOUBLES),
            _ => self.rng.next(),
        }
    }
}
