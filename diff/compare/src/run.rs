//! A run: the cases in portions, one thread or more, until all agree or one does not.

use std::sync::atomic::{AtomicU64, Ordering};
use std::sync::Mutex;
use std::thread;

use crate::cases::{case, limits, Case};
use crate::ledger::Ledger;
use crate::{session, slice};

const PORTION: u64 = 1024;

pub struct Plan {
    pub seed: u64,
    pub cases: u64,
    pub threads: usize,
}

pub struct Outcome {
    pub ledger: Ledger,
    /// The least number of a case that was seen to disagree.
    pub disagrees: Option<u64>,
}

pub fn run(plan: &Plan) -> Outcome {
    let next = AtomicU64::new(0);
    let outcome = Mutex::new(Outcome {
        ledger: Ledger::default(),
        disagrees: None,
    });
    thread::scope(|scope| {
        for _ in 0..plan.threads {
            scope.spawn(|| work(plan, &next, &outcome));
        }
    });
    outcome.into_inner().expect("no thread died")
}

fn work(plan: &Plan, next: &AtomicU64, outcome: &Mutex<Outcome>) {
    let mut ledger = Ledger::default();
    let mut disagrees = None;
    loop {
        let first = next.fetch_add(PORTION, Ordering::Relaxed);
        if first >= plan.cases {
            break;
        }
        let mut portion = first..plan.cases.min(first + PORTION);
        disagrees = portion.find(|number| !agrees(plan.seed, *number, &mut ledger));
        if disagrees.is_some() {
            // No thread begins another portion.
            next.store(plan.cases, Ordering::Relaxed);
            break;
        }
    }
    let mut outcome = outcome.lock().expect("no thread died");
    outcome.ledger.add(&ledger);
    outcome.disagrees = outcome.disagrees.into_iter().chain(disagrees).min();
}

fn agrees(seed: u64, number: u64, ledger: &mut Ledger) -> bool {
    match case(seed, number) {
        Case::Slice(bytes) => {
            slice::compare(&bytes, None, ledger);
            for limit in limits(seed, number, &bytes) {
                slice::compare(&bytes, Some(limit), ledger);
            }
        }
        Case::Session(elements, spare) => session::compare(&elements, spare, ledger),
    }
    ledger.first.is_none()
}
