//! What embedded.c times, in plain Rust over std alone: embedded STRATEGY LEFT RIGHT FULL. Prints the same lines, but
//! for the call that reads a number. Of the strategy the rows and the bounds are read; nothing is checked.

mod memory;
mod session;
mod set;
mod strategy;
mod wire;

use session::Session;
use set::Set;
use std::hint::black_box;
use std::sync::Arc;
use std::time::Instant;
use std::{env, fs, mem};
use strategy::Strategy;

const ROUNDS: usize = 21;
const OPENED: usize = 1000;

/// Prints a step whose rounds took so many microseconds, each for so many calls.
fn print_step(name: &str, mut took: Vec<f64>, calls: usize) {
    took.sort_unstable_by(f64::total_cmp);
    println!("{name} {:.4} {:.4}", took[0] / calls as f64, took[took.len() / 2] / calls as f64);
}

fn microseconds(start: Instant) -> f64 {
    start.elapsed().as_secs_f64() * 1e6
}

fn time_set(text: &[u8]) {
    let mut took = Vec::with_capacity(ROUNDS);
    let (before, mut its) = (memory::held(), 0);
    for _ in 0..ROUNDS {
        let start = Instant::now();
        let set = black_box(Set::of(text));
        took.push(microseconds(start));
        its = memory::held() - before;
        drop(set);
    }
    print_step("set", took, 1);
    println!("memory-set {its}");
}

fn time_opening(name: &str, strategy: &Arc<Strategy>, set: &Arc<Set>, is_first: bool) {
    let mut took = Vec::with_capacity(ROUNDS);
    let mut opened = Vec::with_capacity(OPENED);
    let (before, mut its) = (memory::held(), 0);
    for _ in 0..ROUNDS {
        let start = Instant::now();
        opened.extend((0..OPENED).map(|_| Session::open(strategy, set, is_first)));
        took.push(microseconds(start));
        its = memory::held() - before + OPENED * size_of::<Session>();
        opened.clear();
    }
    print_step(name, took, OPENED);
    println!("memory-{name} {}", its / OPENED);
}

/// Moves all that is due of one side to the other, and returns how many bytes these were.
fn pass(from: &mut Session, to: &mut Session) -> usize {
    let due = mem::take(&mut from.due);
    to.push(&due).expect("no refusal");
    due.len()
}

/// Runs a session to its end, and returns how many bytes both sides moved.
fn run_session(first: &mut Session, second: &mut Session) -> usize {
    let mut bytes = 0;
    loop {
        let moved = pass(first, second) + pass(second, first);
        if moved == 0 {
            return bytes;
        }
        bytes += moved;
    }
}

fn time_session(strategy: &Arc<Strategy>, left: &Arc<Set>, right: &Arc<Set>) {
    let mut took = Vec::with_capacity(ROUNDS);
    let before = memory::held();
    let (mut bytes, mut messages, mut ours, mut theirs) = (0, 0, 0, 0);
    memory::forget_most();
    for _ in 0..ROUNDS {
        let start = Instant::now();
        let (mut first, mut second) = (Session::open(strategy, left, true), Session::open(strategy, right, false));
        bytes = run_session(&mut first, &mut second);
        took.push(microseconds(start));
        assert!(first.has_ended && second.has_ended);
        messages = first.sent + second.sent;
        (ours, theirs) = (first.ours.len(), first.theirs.len());
    }
    print_step("session", took, 1);
    println!("memory-both-ends-at-most {}", memory::most() - before);
    println!("bytes-both-ways {bytes}\nmessages {messages}\nours {ours}\ntheirs {theirs}");
}

fn main() {
    let words: Vec<String> = env::args().collect();
    assert_eq!(words.len(), 5, "usage: embedded STRATEGY LEFT RIGHT FULL");
    let read = |place: usize| fs::read(&words[place]).expect("a file");
    let strategy = Arc::new(Strategy::of(&String::from_utf8(read(1)).expect("a text")));
    let (left, right) = (Arc::new(Set::of(&read(2))), Arc::new(Set::of(&read(3))));
    time_set(&read(4));
    time_opening("first", &strategy, &left, true);
    time_opening("second", &strategy, &left, false);
    time_session(&strategy, &left, &right);
}
