//! A set as a sorted vector with running sums, to which nothing can be added.

use plain::ranges::Range;
use plain::short::Short;
use plain::sums::{self, Sum};

/// The items in rising order, and the sum of all in front of each place.
pub struct Set {
    pub items: Vec<Short>,
    before: Vec<Sum>,
}

fn value_of(digit: u8) -> u8 {
    (digit as char).to_digit(16).expect("a digit") as u8
}

fn item_of(line: &[u8]) -> Short {
    let mut bytes = [0; 64];
    for (byte, pair) in bytes.iter_mut().zip(line.chunks_exact(2)) {
        *byte = value_of(pair[0]) << 4 | value_of(pair[1]);
    }
    Short::new(&bytes[..line.len() / 2])
}

impl Set {
    pub fn of(text: &[u8]) -> Set {
        let lines = text.split(|byte| *byte == b'\n').filter(|line| !line.is_empty());
        let mut items: Vec<Short> = lines.map(item_of).collect();
        items.sort_unstable();
        items.dedup();
        let mut before = vec![sums::ZERO];
        for item in &items {
            before.push(sums::join(before[before.len() - 1], sums::of_item(item)));
        }
        Set { items, before }
    }

    pub fn places(&self, range: &Range) -> std::ops::Range<usize> {
        let start = self.items.partition_point(|item| *item < range.lower);
        let end = match range.upper {
            None => self.items.len(),
            Some(upper) => self.items.partition_point(|item| *item < upper),
        };
        start..end
    }

    pub fn sum_of(&self, places: std::ops::Range<usize>) -> Sum {
        sums::less(self.before[places.end], self.before[places.start])
    }

    pub fn has(&self, item: &Short) -> bool {
        self.items.binary_search(item).is_ok()
    }
}
