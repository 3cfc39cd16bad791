//! Times, instruction counts and bytes moved of each way to do a row's work.

use std::hint::black_box;
use std::sync::atomic::{AtomicUsize, Ordering::Relaxed};
use std::time::Instant;

/// So many turns of a row's work, done in one way. Every run starts from the same state.
pub type Turns = Box<dyn FnMut(u32)>;

/// Plain Rust, the library across the C boundary, and a loop of the library.
pub const WAYS: [&str; COUNT] = ["Rust", "C", "inside"];
const COUNT: usize = 3;

/// The same work in each way. `None` where the library has no such function.
pub struct Row {
    pub name: String,
    pub ways: [Option<Turns>; COUNT],
    /// Turns of the shorter of a way's two counted runs: mostly `COUNTED`; fewer where a turn takes long.
    pub counted: u32,
}

/// What was measured of one turn, way by way.
pub struct Measured {
    pub name: String,
    pub times: [Option<f64>; COUNT],
    pub counts: [Option<f64>; COUNT],
}

/// Turns come in such lots: each of the inputs has come equally often after them.
pub const LOT: u32 = 128;
/// Turns of the shorter of a way's two counted runs.
pub const COUNTED: u32 = 2 * LOT;
/// Every row is measured in each pass, so that a time in which the machine is busy does not hit one row alone.
const PASSES: u32 = 24;
/// The number of this pass; 0 where instructions are counted, which must not depend on where something lies.
static PASS: AtomicUsize = AtomicUsize::new(0);
const ROUNDS: u32 = 10;
const ROUND_NANOSECONDS: f64 = 5e5;

pub fn pass() -> usize {
    PASS.load(Relaxed)
}

/// What callgrind counts: it dumps its count, and starts again, after each call.
#[no_mangle]
#[inline(never)]
fn counted(way: &mut Turns, turns: u32) {
    way(turns);
    black_box(());
}

/// Two runs of every way, one with twice the turns of the other.
pub fn count(rows: impl Iterator<Item = Row>) {
    for row in rows {
        for mut way in row.ways.into_iter().flatten() {
            counted(&mut way, row.counted);
            counted(&mut way, 2 * row.counted);
        }
    }
}

/// What callgrind counted of each run, in the order of `count`.
pub struct Counts(std::vec::IntoIter<f64>);

impl Counts {
    /// Those of the file; none without one.
    pub fn new(file: Option<&str>) -> Counts {
        let text = file.map(|file| std::fs::read_to_string(file).expect("callgrind's file")).unwrap_or_default();
        let totals = text.lines().filter_map(|line| line.strip_prefix("totals: "));
        Counts(totals.map(|total| total.parse().expect("a count")).collect::<Vec<f64>>().into_iter())
    }

    /// Instructions of one turn of each way of the next row: what the longer run has more.
    pub fn next(&mut self, row: &Row) -> [Option<f64>; COUNT] {
        let mut one = || Some((-self.0.next()? + self.0.next()?) / f64::from(row.counted));
        row.ways.each_ref().map(|way| way.as_ref().and_then(|_| one()))
    }
}

/// Nanoseconds of one turn.
fn time(way: &mut Turns, turns: u32) -> f64 {
    let begin = Instant::now();
    way(turns);
    begin.elapsed().as_nanos() as f64 / f64::from(turns)
}

/// The best of many short rounds of each way, the ways in turn: the machine does other work too.
fn improve(row: &mut Row, best: &mut [f64; COUNT]) {
    let lot = LOT.min(row.counted);
    let turns = row.ways.each_mut().map(|way| {
        let lots = way.as_mut().map_or(0.0, |way| ROUND_NANOSECONDS / (time(way, lot) * f64::from(lot)));
        (lots as u32 + 1) * lot
    });
    for _ in 0..ROUNDS {
        for (place, way) in row.ways.iter_mut().enumerate() {
            if let Some(way) = way {
                best[place] = best[place].min(time(way, turns[place]));
            }
        }
    }
}

/// Does the work so much deeper in the stack: a copy takes twice as long where its two ends lie unluckily, a multiple of
/// 4,096 bytes apart, so each pass has them elsewhere.
fn deeper(steps: u32, work: &mut dyn FnMut()) {
    if steps == 0 {
        return work();
    }
    black_box([0u8; 240]);
    deeper(steps - 1, work);
    black_box(());
}

/// Times of all rows, and their instructions.
pub fn measured(mut rows: Vec<Row>, counts: &mut Counts) -> Vec<Measured> {
    let mut times = vec![[f64::MAX; COUNT]; rows.len()];
    for pass in 0..PASSES {
        PASS.store(pass as usize, Relaxed);
        deeper(pass, &mut || rows.iter_mut().zip(&mut times).for_each(|(row, best)| improve(row, best)));
    }
    let measured = |(row, times): (Row, [f64; COUNT])| Measured {
        times: times.map(|time| (time < f64::MAX).then_some(time)),
        counts: counts.next(&row),
        name: row.name,
    };
    rows.into_iter().zip(times).map(measured).collect()
}

/// Bytes that memcpy and memmove move in one turn of each way.
#[cfg(moves)]
pub fn moved(rows: Vec<Row>) -> Vec<(String, [Option<f64>; COUNT])> {
    unsafe extern "C" {
        safe fn bench_moved() -> u64;
    }
    let moved = |way: &mut Turns, turns: u32| {
        let before = bench_moved();
        way(turns);
        (bench_moved() - before) as f64
    };
    let one = |mut way: Turns, turns| (moved(&mut way, 2 * turns) - moved(&mut way, turns)) / f64::from(turns);
    rows.into_iter().map(|row| (row.name, row.ways.map(|way| way.map(|way| one(way, row.counted))))).collect()
}
