//! The rounds: the sides take turns, and the best round of each is kept.

use std::hint::black_box;
use std::time::Instant;

use crate::side::{Given, Path, Piece, Side};

/// A batch takes about this long: the clock costs little of it, and a pause of the machine spoils few batches.
const BATCH_NS: f64 = 100_000.0;

/// The rounds of a row are spread over so many passes: a time when the machine is busy falls on all rows alike.
const PASSES: usize = 20;

/// What is timed.
pub enum Task<'a> {
    Iterate(&'a [u8]),
    ReadAtPlace(&'a [u8]),
    Check(&'a [u8]),
    CheckStrict(&'a [u8]),
    Lookup(&'a [u8], &'a str),
    Path(&'a [u8], Path<'a>),
    PathByLookups(&'a [u8], Path<'a>),
    Build(Vec<Piece<'a>>, Given),
}

/// A side as the rounds see it.
pub trait Runner {
    /// So many turns: the sum of the answers.
    fn take(&mut self, task: &Task, turns: u64) -> u64;

    fn built(&self) -> &[u8];
}

impl<S: Side> Runner for S {
    fn take(&mut self, task: &Task, turns: u64) -> u64 {
        match *task {
            Task::Iterate(document) => repeated(turns, || self.iterate(black_box(document))),
            Task::ReadAtPlace(document) => {
                repeated(turns, || self.read_at_place(black_box(document)))
            }
            Task::Check(document) => repeated(turns, || self.check(black_box(document))),
            Task::CheckStrict(document) => {
                repeated(turns, || self.check_strict(black_box(document)))
            }
            Task::Lookup(document, key) => {
                repeated(turns, || self.lookup(black_box(document), black_box(key)))
            }
            Task::Path(document, ref path) => {
                repeated(turns, || self.path(black_box(document), black_box(path)))
            }
            Task::PathByLookups(document, ref path) => repeated(turns, || {
                self.path_by_lookups(black_box(document), black_box(path))
            }),
            Task::Build(ref pieces, given) => {
                repeated(turns, || self.build(black_box(pieces), given))
            }
        }
    }

    fn built(&self) -> &[u8] {
        Side::built(self)
    }
}

fn repeated(turns: u64, mut turn: impl FnMut() -> u64) -> u64 {
    let mut sum = 0u64;
    for _ in 0..turns {
        sum = sum.wrapping_add(black_box(turn()));
    }
    sum
}

/// So many turns: nanoseconds a turn, and the sum of the answers.
fn timed(side: &mut dyn Runner, task: &Task, turns: u64) -> (f64, u64) {
    let start = Instant::now();
    let sum = side.take(task, turns);
    (start.elapsed().as_nanos() as f64 / turns as f64, sum)
}

/// A task with what each side answers and its best time so far.
pub struct Row<'a> {
    pub name: &'a str,
    /// The bytes of its document.
    pub size: usize,
    pub task: Task<'a>,
    lanes: Vec<Lane>,
}

struct Lane {
    answer: u64,
    turns: u64,
    best: f64,
}

impl<'a> Row<'a> {
    pub fn new(name: &'a str, size: usize, task: Task<'a>) -> Self {
        Self {
            name,
            size,
            task,
            lanes: Vec::new(),
        }
    }

    /// The best time of a side in nanoseconds a turn, where it took part.
    pub fn ns(&self, side: usize) -> Option<f64> {
        self.lanes.get(side).map(|lane| lane.best)
    }

    /// How often the time of this library, the second side, goes into that of a side.
    pub fn ratio(&self, side: usize) -> Option<f64> {
        Some(self.ns(side)? / self.ns(1)?)
    }

    /// What this library, the second side, answers in a turn.
    pub fn answer(&self) -> u64 {
        self.lanes[1].answer
    }

    /// Asks each side a few times, to see what it answers and how many turns make a batch.
    pub fn prepare(&mut self, sides: &mut [Box<dyn Runner>]) {
        for side in sides.iter_mut() {
            let tries = [(); 5].map(|()| timed(side.as_mut(), &self.task, 1));
            let least = tries.map(|(ns, _)| ns).into_iter().fold(BATCH_NS, f64::min);
            self.lanes.push(Lane {
                answer: tries[0].1,
                turns: (BATCH_NS / least).ceil() as u64,
                best: f64::INFINITY,
            });
        }
        self.agree(sides);
    }

    /// All sides read the same, or wrote the same bytes; libbson's check says only whether it accepts.
    fn agree(&self, sides: &[Box<dyn Runner>]) {
        let answers: Vec<u64> = self.lanes.iter().map(|lane| lane.answer).collect();
        let same = match (&self.task, &answers[..]) {
            (Task::Check(_) | Task::CheckStrict(_), [rust, ours, libbson]) => {
                rust == ours && *libbson == 1
            }
            (Task::Build(..), _) => sides.iter().all(|side| side.built() == sides[0].built()),
            _ => answers.iter().all(|answer| *answer == answers[0]),
        };
        assert!(same, "{}: the sides answer {answers:?}", self.name);
    }

    fn round(&mut self, sides: &mut [Box<dyn Runner>]) {
        for (lane, side) in self.lanes.iter_mut().zip(sides) {
            let (ns, sum) = timed(side.as_mut(), &self.task, lane.turns);
            assert_eq!(sum, lane.answer.wrapping_mul(lane.turns), "{}", self.name);
            lane.best = lane.best.min(ns);
        }
    }
}

/// Runs so many rounds of every row.
pub fn run(rows: &mut [Row], sides: &mut [Box<dyn Runner>], rounds: usize) {
    rows.iter_mut().for_each(|row| row.prepare(sides));
    for pass in 0..PASSES {
        let share = rounds * (pass + 1) / PASSES - rounds * pass / PASSES;
        run_pass(rows, sides, share);
    }
}

fn run_pass(rows: &mut [Row], sides: &mut [Box<dyn Runner>], rounds: usize) {
    for row in rows {
        (0..rounds).for_each(|_| row.round(sides));
    }
}
