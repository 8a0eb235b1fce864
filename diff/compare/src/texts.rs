//! Texts at random, in several scripts and with the edges of RFC 3629's table; bad ones where they are asked for.

use crate::rng::Rng;

const WORDS: [&str; 8] = ["é", "Ω", "Жук", "漢字", "مرحبا", "नमस्ते", "😀", "\u{7F}"];

/// A row of RFC 3629's table with more than one byte: the first byte, the second, and how many follow these.
struct Row {
    first: [u8; 2],
    second: [u8; 2],
    tails: usize,
}

const fn row(first: [u8; 2], second: [u8; 2], tails: usize) -> Row {
    Row {
        first,
        second,
        tails,
    }
}

const TAIL: [u8; 2] = [0x80, 0xBF];
const ROWS: [Row; 8] = [
    row([0xC2, 0xDF], TAIL, 0),
    row([0xE0, 0xE0], [0xA0, 0xBF], 1),
    row([0xE1, 0xEC], TAIL, 1),
    row([0xED, 0xED], [0x80, 0x9F], 1),
    row([0xEE, 0xEF], TAIL, 1),
    row([0xF0, 0xF0], [0x90, 0xBF], 2),
    row([0xF1, 0xF3], TAIL, 2),
    row([0xF4, 0xF4], [0x80, 0x8F], 2),
];

/// The rows of characters of two bytes, of three, of four, and all: the first, and how many they are.
pub const SIZES: [[usize; 2]; 4] = [[0, 1], [1, 4], [5, 3], [0, 8]];

/// First bytes that no row has.
const NO_FIRST: [u8; 6] = [0x80, 0xBF, 0xC0, 0xC1, 0xF5, 0xFF];

/// What texts may hold.
#[derive(Clone, Copy, PartialEq)]
pub enum Texts {
    Good,
    /// Now and then one that is not UTF-8.
    Mixed,
}

pub struct Text<'r> {
    pub rng: &'r mut Rng,
    pub texts: Texts,
}

impl Text<'_> {
    /// Without zero bytes: a key, pattern or options.
    pub fn cstring(&mut self) -> Vec<u8> {
        if self.rng.once_in(4) {
            return Vec::new();
        }
        let mut text = Vec::new();
        self.run(&mut text);
        self.telling(&mut text);
        self.run(&mut text);
        text
    }

    /// Of the types that have a length: zero bytes are allowed.
    pub fn string(&mut self) -> Vec<u8> {
        let mut text = self.cstring();
        if self.rng.once_in(8) {
            let at = self.rng.pick(&[0, text.len()]);
            text.insert(at, 0);
        }
        if self.rng.once_in(2048) {
            let length = self.rng.below(6000);
            text.splice(0..0, (0..length).map(|index| b'a' + (index % 26) as u8));
        }
        text
    }

    /// ASCII, of many lengths, so that what follows it lies anywhere in a block of eight.
    fn run(&mut self, text: &mut Vec<u8>) {
        let most = self.rng.pick(&[1, 1, 1, 2, 4, 4, 20, 90]);
        let length = self.rng.below(most);
        text.extend((0..length).map(|_| self.rng.pick(b"abcxyz019 ~")));
    }

    fn telling(&mut self, text: &mut Vec<u8>) {
        if self.texts == Texts::Mixed && self.rng.once_in(6) {
            self.bad(text);
        } else if self.rng.once_in(4) {
            text.extend(self.rng.pick(&WORDS).as_bytes());
        } else if self.rng.once_in(3) {
            self.character(text);
        }
    }

    /// A character at the edges of a row; gives the row.
    fn character(&mut self, text: &mut Vec<u8>) -> &'static Row {
        let row = &ROWS[self.rng.below(ROWS.len())];
        text.extend([self.rng.pick(&row.first), self.rng.pick(&row.second)]);
        text.extend((0..row.tails).map(|_| self.rng.pick(&TAIL)));
        row
    }

    /// Any character of these rows, as SIZES has them.
    pub fn any(&mut self, rows: [usize; 2], text: &mut Vec<u8>) {
        let row = &ROWS[rows[0] + self.rng.below(rows[1])];
        text.extend([row.first, row.second].map(|range| self.within(range)));
        text.extend((0..row.tails).map(|_| self.within(TAIL)));
    }

    fn within(&mut self, [least, most]: [u8; 2]) -> u8 {
        match self.rng.below(4) {
            0 => least,
            1 => most,
            _ => least + self.rng.below(usize::from(most - least) + 1) as u8,
        }
    }

    /// A character with a byte just outside its row, or cut short, or a byte that begins none.
    pub fn bad(&mut self, text: &mut Vec<u8>) {
        let start = text.len();
        let row = self.character(text);
        let at = 1 + self.rng.below(1 + row.tails);
        let [least, most] = if at == 1 { row.second } else { TAIL };
        match self.rng.below(4) {
            0 => text[start + at] = least - 1,
            1 => text[start + at] = most + 1,
            2 => text.truncate(start + at),
            _ => text[start] = self.rng.pick(&NO_FIRST),
        }
    }
}
