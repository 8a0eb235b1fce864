//! Times the Rust, this library and libbson on the same bytes in one process; asserts that they agree, and nothing about time.
//! usage: beside FOLDER ROUNDS [SVG]        by bench/beside; FOLDER is what bench/rows.py writes
//!        beside FOLDER --count TURNS       by bench/count; no times, but turns to be counted

mod count;
#[cfg(feature = "libbson")]
mod libbson;
mod ours;
mod rounds;
mod rows;
mod rust;
mod rust_writer;
mod side;
mod svg;
mod table;

use std::error::Error;

use rounds::{run, Runner};
use rows::{points, Folder};

/// The room of the buffers that the sides build in.
const ROOM: usize = 4096;

/// The Rust first, this library second, libbson last where it is at hand.
fn sides() -> Vec<Box<dyn Runner>> {
    vec![
        Box::new(rust::Rust::new(ROOM)),
        Box::new(ours::Ours::new(ROOM)),
        #[cfg(feature = "libbson")]
        Box::new(libbson::Libbson::new(ROOM)),
    ]
}

fn time(folder: &Folder, rounds: usize, drawing: Option<&String>) -> Result<(), Box<dyn Error>> {
    let (mut rows, mut sides) = (folder.rows("rows"), sides());
    let split = rows.len();
    rows.extend(folder.rows("growth"));
    run(&mut rows, &mut sides, rounds);
    let (rows, growth) = rows.split_at(split);
    let points = points(growth);

    println!("the best of {rounds} rounds");
    table::print(rows);
    table::print_growth(&points);
    print!("\n{}", folder.notes());
    if let Some(file) = drawing {
        std::fs::write(file, svg::draw(rows, &points))?;
    }
    Ok(())
}

fn main() -> Result<(), Box<dyn Error>> {
    let arguments: Vec<String> = std::env::args().skip(1).collect();
    match &arguments[..] {
        [folder, flag, turns] if flag == "--count" => {
            let folder = Folder::read(folder)?;
            let rows = ["rows", "growth"].map(|list| folder.rows(list));
            count::run(rows.into_iter().flatten(), &mut sides(), turns.parse()?);
            Ok(())
        }
        [folder, rounds, drawing @ ..] => {
            time(&Folder::read(folder)?, rounds.parse()?, drawing.first())
        }
        _ => Err("usage: beside FOLDER ROUNDS [SVG], or beside FOLDER --count TURNS".into()),
    }
}
