//! A log behind a mutex of std: `pin`, `insert` and `meet` by one thread, and 20,000 insertions into one log, by one
//! thread and by 4 that each insert 5,000. Its set is a tree as the proved one: a version is a list of shared branches,
//! and an insertion copies one leaf and two lists of pointers.

use crate::tree::Tree;
use plain::short::Short;
use plain::sums::{self, Sum};
use std::hint::black_box;
use std::sync::Mutex;
use std::thread;
use std::time::Instant;

/// How many items are inserted in all, by one thread or by 4.
const ALL: u32 = 20_000;

/// Who brought which item, in order, and the set of the items.
struct Log {
    cap: usize,
    history: Vec<(u32, Short)>,
    set: Tree,
}

/// A version of the log, which stays as it is.
struct Pin {
    version: usize,
    set: Tree,
}

impl Log {
    /// The log of these items, which rise.
    fn of(cap: usize, items: &[Short]) -> Log {
        let entries: Vec<(Short, Sum)> = items.iter().map(|item| (*item, sums::of_item(item))).collect();
        let mut history = Vec::new();
        items.iter().for_each(|item| history.push((0, *item)));
        Log { cap, history, set: Tree::of(&entries) }
    }

    fn pin(&self) -> Pin {
        Pin { version: self.history.len(), set: self.set.clone() }
    }

    /// The number of the version that has the item, unless it was there or there is no room.
    fn add(&mut self, writer: u32, item: Short) -> Option<usize> {
        let gap = self.set.gap_for(&item)?;
        if self.set.len() >= self.cap {
            return None;
        }
        let set = self.set.with(&gap, (item, sums::of_item(&item)));
        self.history.push((writer, item));
        self.set = set;
        Some(self.history.len())
    }
}

/// The items of so many numbers, each a step above the one before.
fn items(first: u32, step: u32, count: u32) -> Vec<Short> {
    (0..count).map(|place| Short::of_number(place * step + first)).collect()
}

// ---- calls by one thread

/// How many items the log has, how many calls are timed together, and how far the inserted numbers are apart.
struct Case {
    items: u32,
    pins: u32,
    inserts: u32,
    step: u32,
}

fn nanoseconds(calls: impl FnOnce()) -> u128 {
    let before = Instant::now();
    calls();
    before.elapsed().as_nanos()
}

/// The nanoseconds of all calls together: `pin`, `meet` and `insert`.
fn round(case: &Case) -> [u128; 3] {
    let log = Mutex::new(Log::of(65_536, &items(0, 2, case.items)));
    let held = || log.lock().expect("no thread has failed");
    let pins = || {
        (0..case.pins).for_each(|_| {
            let pin = black_box(held().pin());
            assert_eq!(pin.version, pin.set.len());
        })
    };
    let meets = || (0..case.pins).for_each(|_| drop(black_box(held())));
    let new = items(1, case.step, case.inserts);
    let inserts = || new.iter().for_each(|item| assert!(held().add(1, *item).is_some()));
    let times = [nanoseconds(pins), nanoseconds(meets), nanoseconds(inserts)];
    assert_ne!(held().set.total(), sums::ZERO);
    times
}

fn timed(case: &Case, rounds: u32) {
    let mut best = round(case);
    for _ in 0..rounds {
        let times = round(case);
        (0..3).for_each(|call| best[call] = best[call].min(times[call]));
    }
    println!("pin {} {} {}", case.items, case.pins, best[0]);
    println!("meet {} {} {}", case.items, case.pins, best[1]);
    println!("insert {} {} {}", case.items, case.inserts, best[2]);
}

// ---- one thread, and 4

/// Inserts every so many-th number from the writer's own on.
fn insert_share(log: &Mutex<Log>, writer: u32, writers: u32) {
    for place in 0..ALL / writers {
        let item = Short::of_number(writers * place + writer);
        let version = log.lock().expect("no thread has failed").add(writer, item);
        assert!(version.is_some(), "the item is new, and there is room");
    }
}

/// The microseconds that so many threads take.
fn by_threads(writers: u32) -> u128 {
    let log = Mutex::new(Log::of(ALL as usize, &[]));
    let before = Instant::now();
    thread::scope(|scope| {
        for writer in 0..writers {
            let log = &log;
            scope.spawn(move || insert_share(log, writer, writers));
        }
    });
    let took = before.elapsed().as_micros();
    assert_eq!(log.into_inner().expect("no thread has failed").history.len(), ALL as usize);
    took
}

/// Times all calls, each the least of several rounds. Prints a line `NAME ITEMS CALLS NANOSECONDS` for each call, and a
/// line `NAME MICROSECONDS` for each number of threads.
pub fn run() {
    timed(&Case { items: 100, pins: 1_000, inserts: 64, step: 2 }, 100);
    timed(&Case { items: 65_472, pins: 1_000, inserts: 64, step: 2_046 }, 15);
    for (name, writers) in [("one_thread", 1), ("four_threads", 4)] {
        let best = (0..3).map(|_| by_threads(writers)).min();
        println!("{name} {}", best.expect("three rounds"));
    }
}
