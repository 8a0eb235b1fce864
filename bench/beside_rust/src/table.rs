//! The tables in plain text. A ratio is the other's time over this library's: above 1, this library is faster.

use crate::rounds::Row;
use crate::rows::Point;

const RUST: usize = 0;
const OURS: usize = 1;
const LIBBSON: usize = 2;

pub fn print(rows: &[Row]) {
    line("", ["Rust", "Fringewell", "libbson", "Rust /", "libbson /"]);
    line("", ["ns", "ns", "ns", "Fringewell", "Fringewell"]);
    for row in rows {
        let [rust, ours, libbson] = [RUST, OURS, LIBBSON].map(|side| cell(row.ns(side), 1));
        let [by_rust, by_libbson] = [RUST, LIBBSON].map(|side| cell(row.ratio(side), 2));
        line(row.name, [&rust, &ours, &libbson, &by_rust, &by_libbson]);
    }
    if rows.iter().all(|row| row.ns(LIBBSON).is_none()) {
        println!("libbson is left out: pkg-config finds no libbson-1.0.");
    }
}

pub fn print_growth(points: &[Point]) {
    println!("\nthe whole check of small elements, ns a byte");
    line("bytes", ["Rust", "Fringewell", "", "ratio", ""]);
    for Point { size, rust, ours } in points {
        let [rust_ns, ours_ns] = [rust, ours].map(|ns| cell(Some(*ns), 3));
        line(
            &size.to_string(),
            [&rust_ns, &ours_ns, "", &cell(Some(rust / ours), 2), ""],
        );
    }
}

fn cell(value: Option<f64>, digits: usize) -> String {
    value.map_or("-".into(), |number| format!("{number:.digits$}"))
}

fn line(name: &str, cells: [&str; 5]) {
    let cells = cells.map(|cell| format!("{cell:>12}")).concat();
    println!("{}", format!("{name:34}{cells}").trim_end());
}
