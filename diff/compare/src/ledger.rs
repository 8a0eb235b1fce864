//! What was compared: the number of answers, the numbers of refusals met, and the first disagreement of a case.

use crate::answer::{Answer, Part, Said};

/// One place for each number up to the largest that reading gives, and for 0.
pub const NUMBERS: usize = 23;

pub struct Disagreement {
    /// The same for every place and key.
    pub word: &'static str,
    pub part: String,
    pub rust: String,
    pub library: String,
}

#[derive(Default)]
pub struct Ledger {
    pub answers: u64,
    pub numbers: [u64; NUMBERS],
    /// Those of paths among them.
    pub of_paths: [u64; NUMBERS],
    /// The first of the case at hand.
    pub first: Option<Disagreement>,
    /// Ask all there is to ask, as for a single case: every wrong tag, every absent key.
    pub thorough: bool,
    /// How many more parts are printed with both answers.
    pub show: usize,
}

impl Ledger {
    pub fn hold(&mut self, part: Part, rust: Answer, library: Said) {
        self.answers += 1;
        let number = library.number as usize;
        if number < NUMBERS {
            self.numbers[number] += 1;
            self.of_paths[number] += u64::from(part.is_path());
        }
        if self.show > 0 {
            self.show -= 1;
            println!("{part}\n  Rust     {rust}\n  library  {library}");
        }
        if rust != library.answer {
            self.disagree(
                part.word(),
                part.to_string(),
                rust.to_string(),
                library.to_string(),
            );
        }
    }

    pub fn panicked(&mut self) {
        let word = "a panic of the Rust";
        self.disagree(word, word.into(), "panicked".into(), "answered".into());
    }

    fn disagree(&mut self, word: &'static str, part: String, rust: String, library: String) {
        if self.first.is_none() {
            self.first = Some(Disagreement {
                word,
                part,
                rust,
                library,
            });
        }
    }

    pub fn add(&mut self, other: &Ledger) {
        self.answers += other.answers;
        for number in 0..NUMBERS {
            self.numbers[number] += other.numbers[number];
            self.of_paths[number] += other.of_paths[number];
        }
    }
}
