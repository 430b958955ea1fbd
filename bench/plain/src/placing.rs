//! Placing, over messages of as many parts as a message may have.

use plain::placed::{Part, place};
use plain::ranges::Range;
use plain::short::Short;
use plain::sums;
use std::hint::black_box;
use std::time::Instant;

fn range(lower: u32, upper: u32) -> Range {
    Range {
        lower: if lower == 0 { Short::new(&[]) } else { Short::of_number(lower) },
        upper: Some(Short::of_number(upper)),
    }
}

fn sums(count: u32, step: u32) -> Vec<Part> {
    (0..count).map(|index| Part::Sum(range(index * step, (index + 1) * step), sums::ZERO)).collect()
}

fn lists(numbers: std::ops::Range<u32>) -> Vec<Part> {
    numbers.map(|index| Part::List(range(index, index + 1), Vec::new())).collect()
}

fn timed(name: &str, sent: &[Part], message: &[Part]) {
    let mut best = u128::MAX;
    for _ in 0..9 {
        let start = Instant::now();
        assert_eq!(black_box(place(black_box(sent), black_box(message))), Ok(()));
        best = best.min(start.elapsed().as_micros());
    }
    println!("{name} {best}");
}

/// Times each case, and prints a line `NAME MICROSECONDS` for it.
pub fn run() {
    let sent = sums(131_072, 1);
    timed("lists", &sent, &lists(0..131_072));
    timed("last", &sent, &lists(131_071..131_072));
    timed("cut", &sums(65_536, 2), &sent);
    let listed = (0..65_536).map(|index| Short::of_number(2 * index)).collect();
    let others = (0..65_536).map(|index| Short::of_number(2 * index + 1)).collect();
    let list = [Part::List(Range::whole(), listed)];
    let answer = [Part::Answer(Range::whole(), vec![false; 65_536], others)];
    timed("answer", &list, &answer);
}
