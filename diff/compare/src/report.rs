//! What a run prints: what was compared, or the smallest case found that disagrees.

use oracle::step::Limit;

use crate::cases::{case, Case, Sort, SORTS};
use crate::ledger::{Disagreement, Ledger, NUMBERS};
use crate::limits;
use crate::run::{Outcome, Plan};
use crate::session::written;
use crate::shrink::{self, Limited};
use crate::slice;

/// The numbers by which reading refuses, and paths among it: a run that meets fewer shows too little.
const READING: [usize; 18] = [
    1, 2, 3, 4, 5, 6, 7, 8, 9, 10, 11, 12, 13, 16, 17, 19, 21, 22,
];
const PATHS: [usize; 16] = [1, 2, 3, 4, 5, 6, 7, 8, 9, 10, 11, 12, 16, 17, 21, 22];

/// Prints the outcome; true where nothing disagrees and every number was met.
pub fn outcome(plan: &Plan, outcome: &Outcome) -> bool {
    let (seed, cases) = (plan.seed, plan.cases);
    println!("seed {seed}");
    if let Some(number) = outcome.disagrees {
        println!("case {number} disagrees");
        disagreement(case(seed, number));
        return false;
    }
    for sort in SORTS {
        println!("{}", sort_line(sort, sort.count(cases)));
    }
    println!("{} answers compared", outcome.ledger.answers);
    println!("{}", refusals(&outcome.ledger));
    println!("{cases} cases, 0 disagree");
    let all = is_met("refusals", &READING, &outcome.ledger.numbers);
    all & is_met("refusals of paths", &PATHS, &outcome.ledger.of_paths)
}

/// Whether every one of these numbers was met; prints those that were not.
fn is_met(name: &str, numbers: &[usize], met: &[u64; NUMBERS]) -> bool {
    let missing: Vec<_> = numbers.iter().filter(|number| met[**number] == 0).collect();
    if !missing.is_empty() {
        println!("too few cases: {name} that were not met: {missing:?}");
    }
    missing.is_empty()
}

/// How often each number was met, by all calls and by those of a path.
fn refusals(ledger: &Ledger) -> String {
    let all = READING.map(|number| format!("{number}: {}", ledger.numbers[number]));
    let paths = PATHS.map(|number| format!("{number}: {}", ledger.of_paths[number]));
    let (all, paths) = (all.join(", "), paths.join(", "));
    format!("refusals, number by number: {all}\nthose of paths: {paths}")
}

fn sort_line(sort: Sort, count: u64) -> String {
    let name = sort.name();
    match sort.family() {
        Some(family) => format!("{count} {name}: {}", family.covered(count)),
        None => format!("{count} {name}"),
    }
}

/// Prints the smallest case found in which the same part disagrees.
fn disagreement(case: Case) {
    let found = match case {
        Case::Slice(bytes) => smallest_slice(bytes),
        Case::Session(elements, spare) => {
            shrink::about_session(&elements, spare).and_then(|found| {
                let least = shrink::smaller_session(elements, spare, found.word);
                println!("session {least:?}, {spare} bytes spare");
                println!("the Rust's bytes {}", hex::encode(written(&least)));
                shrink::about_session(&least, spare)
            })
        }
    };
    match found {
        Some(found) => print_found(&found),
        None => println!("it does not when asked again"),
    }
}

fn smallest_slice(bytes: Vec<u8>) -> Option<Disagreement> {
    let about = |limit| Some((limit, shrink::about_slice(&bytes, limit)?));
    let (limit, found) = limits::all(&bytes).find_map(about)?;
    let least = shrink::smallest_slice(Limited { bytes, limit }, found.word);
    println!("slice {}{}", hex::encode(&least.bytes), under(least.limit));
    shrink::about_slice(&least.bytes, least.limit)
}

fn under(limit: Limit) -> String {
    limit.map_or("".into(), |limit| format!(" under limit {limit}"))
}

fn print_found(found: &Disagreement) {
    println!("{}", found.part);
    println!("  Rust     {}", found.rust);
    println!("  library  {}", found.library);
}

/// Asks all there is to ask about one slice, and prints every answer; true where nothing disagrees.
pub fn only(bytes: Vec<u8>) -> bool {
    about(bytes, true, usize::MAX)
}

/// Asks about one slice, of any size, as about that of a case, and prints the first answers; true where nothing disagrees.
pub fn file(bytes: Vec<u8>) -> bool {
    about(bytes, false, SHOWN)
}

/// So many answers of a file are printed, without a limit and under each.
const SHOWN: usize = 8;

/// Compares without a limit, and under each that may tell something.
fn about(bytes: Vec<u8>, thorough: bool, show: usize) -> bool {
    let limits: Vec<_> = limits::all(&bytes).collect();
    let longer = slice::lengthened(bytes);
    let ask = |limit: &Limit| {
        println!("answers{}:", under(*limit));
        let mut ledger = Ledger {
            thorough,
            show,
            ..Ledger::default()
        };
        slice::compare_within(&longer, *limit, &mut ledger);
        println!("{} answers compared{}", ledger.answers, under(*limit));
        println!("{}", refusals(&ledger));
        Some((*limit, ledger.first?))
    };
    let disagree: Vec<_> = limits.iter().filter_map(ask).collect();
    if let Some((limit, found)) = disagree.first() {
        println!("the first that disagrees{}:", under(*limit));
        print_found(found);
    }
    disagree.is_empty()
}
