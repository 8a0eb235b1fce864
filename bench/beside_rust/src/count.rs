//! Turns between yields, at which bench/instructions.c writes its count.

use std::thread::yield_now;

use crate::rounds::{Row, Runner};

/// No turns and then so many of every side in every row, each time between two yields. Prints what this library answers in a row; the others
/// answer the same, or the row is refused.
pub fn run<'a>(rows: impl Iterator<Item = Row<'a>>, sides: &mut [Box<dyn Runner>], most: u64) {
    for mut row in rows {
        row.prepare(sides);
        for side in sides.iter_mut() {
            for turns in [0, most] {
                yield_now();
                side.take(&row.task, turns);
                yield_now();
            }
        }
        println!("{}", row.answer());
    }
}
