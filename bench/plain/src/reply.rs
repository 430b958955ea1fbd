//! The responder's end of a session. Its set is a sorted vector with running sums, so the fingerprint of a range is one
//! difference; it takes no item in.

use plain::placed::{Part, items_of_lists, place};
use plain::ranges::Range;
use plain::refusal::Refusal;
use plain::short::Short;
use plain::sums::{self, Sum};
use std::hint::black_box;
use std::time::Instant;

/// The items in rising order, and the fingerprint of those before each place.
#[derive(Clone)]
struct Store {
    items: Vec<Short>,
    before: Vec<Sum>,
}

impl Store {
    /// The store of these items, which rise, with their fingerprints.
    fn of(entries: impl Iterator<Item = (Short, Sum)>) -> Store {
        let (mut items, mut before, mut all): (Vec<Short>, Vec<Sum>, Sum) = (Vec::new(), vec![sums::ZERO], sums::ZERO);
        for (item, sum) in entries {
            all = sums::join(all, sum);
            items.push(item);
            before.push(all);
        }
        Store { items, before }
    }

    /// The places of the items in the range.
    fn places(&self, range: &Range) -> (usize, usize) {
        let from = self.items.partition_point(|item| *item < range.lower);
        let to = range.upper.map_or(self.items.len(), |upper| self.items.partition_point(|item| *item < upper));
        (from, to)
    }

    fn within(&self, range: &Range) -> &[Short] {
        let (from, to) = self.places(range);
        &self.items[from..to]
    }

    fn has(&self, wanted: &Short) -> bool {
        self.items.binary_search(wanted).is_ok()
    }

    fn sum(&self, range: &Range) -> Sum {
        let (from, to) = self.places(range);
        sums::less(self.before[to], self.before[from])
    }

    fn items(&self, range: &Range) -> Vec<Short> {
        self.within(range).to_vec()
    }
}

/// An end that lists one item and halves what is more.
struct End {
    store: Store,
    own: Vec<Part>,
    ours: Vec<Short>,
    theirs: Vec<Short>,
}

impl End {
    fn learn(&self, message: &[Part]) -> (Vec<Short>, Vec<Short>) {
        let (mut ours, mut theirs) = (Vec::new(), Vec::new());
        let mut lists = items_of_lists(&self.own);
        for part in message {
            match part {
                Part::Sum(..) => {}
                Part::List(range, listed) => {
                    let own = self.store.items(range);
                    ours.extend(own.into_iter().filter(|item| listed.binary_search(item).is_err()));
                    theirs.extend(listed.iter().filter(|item| !self.store.has(item)));
                }
                Part::Answer(_, marks, items) => {
                    let listed = lists.next().map_or(&[][..], |items| items);
                    ours.extend(listed.iter().zip(marks).filter(|(_, marked)| **marked).map(|(item, _)| *item));
                    theirs.extend(items);
                }
            }
        }
        (ours, theirs)
    }

    fn differing(&self, range: &Range, parts: &mut Vec<Part>) {
        let own = self.store.within(range);
        if own.len() < 2 {
            parts.push(Part::List(*range, self.store.items(range)));
            return;
        }
        let middle = own[own.len() / 2];
        let front = Range { lower: range.lower, upper: Some(middle) };
        let back = Range { lower: middle, upper: range.upper };
        parts.push(Part::Sum(front, self.store.sum(&front)));
        parts.push(Part::Sum(back, self.store.sum(&back)));
    }

    fn reply(&self, message: &[Part]) -> Result<Vec<Part>, Refusal> {
        let mut parts = Vec::new();
        for part in message {
            match part {
                Part::Sum(range, sum) if self.store.sum(range) == *sum => {}
                Part::Sum(range, _) => self.differing(range, &mut parts),
                Part::List(range, listed) => {
                    let marks = listed.iter().map(|item| !self.store.has(item)).collect();
                    let mut own = self.store.items(range);
                    own.retain(|item| listed.binary_search(item).is_err());
                    parts.push(Part::Answer(*range, marks, own));
                }
                Part::Answer(..) => {}
            }
            if parts.len() > 131_072 {
                return Err(Refusal(12));
            }
        }
        Ok(parts)
    }

    /// The reply; none where the session is over.
    fn receive(&mut self, message: &[Part]) -> Result<Option<Vec<Part>>, Refusal> {
        if !self.own.is_empty() {
            place(&self.own, message)?;
        }
        let (ours, theirs) = self.learn(message);
        self.ours.extend(ours);
        self.theirs.extend(theirs);
        if !message.iter().any(Part::is_open) {
            self.own = Vec::new();
            return Ok(None);
        }
        let reply = self.reply(message)?;
        self.own = reply.clone();
        Ok(Some(reply))
    }
}

/// The own items are every fourth number below this one.
const LAST: u32 = 262_144;

fn range(lower: u32, upper: u32) -> Range {
    Range {
        lower: if lower == 0 { Short::new(&[]) } else { Short::of_number(lower) },
        upper: (upper < LAST).then(|| Short::of_number(upper)),
    }
}

/// Sums over so many numbers each, up to an end.
fn sums(step: u32, end: u32) -> Vec<Part> {
    (0..end / step).map(|index| Part::Sum(range(index * step, (index + 1) * step), [0, 1])).collect()
}

/// Sums over two own items each, up to an end, and one of the very items of the rest of the first half.
fn pairs(store: &Store, end: u32) -> Vec<Part> {
    let mut parts = sums(8, end);
    if end < LAST / 2 {
        let rest = range(end, LAST / 2);
        parts.push(Part::Sum(rest, store.sum(&rest)));
    }
    parts
}

/// A List for each own item, of another one.
fn lists(end: u32) -> Vec<Part> {
    (0..end / 4)
        .map(|index| Part::List(range(4 * index, 4 * index + 4), vec![Short::of_number(4 * index + 3)]))
        .collect()
}

/// Answers to Lists of one own item and of none in turn: the first is lacked, to the other an item is added.
fn answers(end: u32) -> Vec<Part> {
    (0..end / 2)
        .map(|index| {
            let range = range(2 * index, 2 * index + 2);
            if index % 2 == 0 {
                Part::Answer(range, vec![true], Vec::new())
            } else {
                Part::Answer(range, Vec::new(), vec![Short::of_number(2 * index + 1)])
            }
        })
        .collect()
}

/// An end that has sent a Sum for each of its items up to an end.
fn waiting(store: &Store, pairs: &[Part], end: u32) -> End {
    let mut waiting = End { store: store.clone(), own: Vec::new(), ours: Vec::new(), theirs: Vec::new() };
    waiting.receive(&sums(LAST, LAST)).expect("placed");
    waiting.receive(pairs).expect("placed");
    assert_eq!(waiting.own.len() as u32, end / 4);
    waiting
}

/// The microseconds that the end takes.
fn took(end: &mut End, message: &[Part]) -> u128 {
    let start = Instant::now();
    let turn = black_box(end.receive(black_box(message)));
    let time = start.elapsed().as_micros();
    turn.expect("placed");
    time
}

/// Times messages of so many parts.
fn timed(store: &Store, parts: u32) {
    let end = 2 * parts;
    let pairs = pairs(store, end);
    let (sums, answers, lists) = (sums(2, end), answers(end), lists(end));
    let mut best = [u128::MAX; 3];
    for _ in 0..9 {
        let mut first = waiting(store, &pairs, end);
        best[0] = best[0].min(took(&mut first, &sums));
        best[1] = best[1].min(took(&mut first, &answers));
        assert_eq!((first.ours.len() as u32, first.theirs.len() as u32), (end / 4, end / 4));
        let mut second = waiting(store, &pairs, end);
        best[2] = best[2].min(took(&mut second, &lists));
    }
    println!("sums {parts} {}", best[0]);
    println!("answers {parts} {}", best[1]);
    println!("lists {} {}", parts / 2, best[2]);
}

/// Times messages of two numbers of parts, and prints a line `NAME PARTS MICROSECONDS` for each.
pub fn run() {
    let store = Store::of(
        (0..LAST / 4).map(|index| (Short::of_number(4 * index), [u128::from(index) << 64, u128::from(index) << 96])),
    );
    timed(&store, 8_192);
    timed(&store, 131_072);
}
