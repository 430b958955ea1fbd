//! What `rangesync answer` does: an item file read, a message read, its reply made and written.

use crate::messages::{Part, decode_message, encode_message};
use crate::times::Times;
use plain::ranges::Range;
use plain::refusal::Refusal;
use plain::short::{MAX_ITEM, Short};
use plain::sums::{self, Sum};
use std::error::Error;
use std::fs;
use std::path::Path;
use std::time::Instant;

const MAX_ITEMS: usize = 65_536;
const MAX_INPUT: usize = 16_777_216;

// ---- the store

/// The items in rising order, each with its fingerprint beside it.
struct Store {
    items: Vec<Short>,
    prints: Vec<Sum>,
}

impl Store {
    fn places(&self, range: &Range) -> std::ops::Range<usize> {
        let start = self.items.partition_point(|item| *item < range.lower);
        let end = match range.upper {
            None => self.items.len(),
            Some(upper) => self.items.partition_point(|item| *item < upper),
        };
        start..end
    }

    fn sum(&self, range: &Range) -> Sum {
        let places = self.places(range);
        sums::less(self.before(places.end), self.before(places.start))
    }

    fn before(&self, place: usize) -> Sum {
        match place.checked_sub(1) {
            None => sums::ZERO,
            Some(last) => self.prints[last],
        }
    }

    fn items(&self, range: &Range) -> &[Short] {
        &self.items[self.places(range)]
    }
}

// ---- the item file

/// The values of hex digits of both cases, and 0xFF for every other byte.
const HEX_VALUES: [u8; 256] = hex_values();

const fn hex_values() -> [u8; 256] {
    let mut values = [0xFF; 256];
    let mut value = 0;
    while value < 16 {
        values[b"0123456789abcdef"[value] as usize] = value as u8;
        values[b"0123456789ABCDEF"[value] as usize] = value as u8;
        value += 1;
    }
    values
}

fn trimmed(mut line: &[u8]) -> &[u8] {
    if let [rest @ .., b'\r'] = line {
        line = rest;
    }
    while let [b' ' | b'\t', rest @ ..] = line {
        line = rest;
    }
    while let [rest @ .., b' ' | b'\t'] = line {
        line = rest;
    }
    line
}

fn item_of_line(line: &[u8]) -> Result<Short, Refusal> {
    if line.len() % 2 != 0 || line.len() > 2 * MAX_ITEM {
        return Err(Refusal(81));
    }
    let mut bytes = [0; MAX_ITEM];
    let mut seen = 0;
    for (byte, digits) in bytes.iter_mut().zip(line.chunks_exact(2)) {
        let high = HEX_VALUES[digits[0] as usize];
        let low = HEX_VALUES[digits[1] as usize];
        seen |= high | low;
        *byte = high << 4 | low & 0x0F;
    }
    if seen > 0x0F {
        return Err(Refusal(81));
    }
    Ok(Short { bytes, length: (line.len() / 2) as u8 })
}

fn read_items(text: &[u8]) -> Result<Vec<Short>, Refusal> {
    if text.len() > MAX_INPUT {
        return Err(Refusal(80));
    }
    let mut items = Vec::new();
    for line in text.split(|byte| *byte == b'\n') {
        let line = trimmed(line);
        if !line.is_empty() {
            items.push(item_of_line(line)?);
        }
    }
    Ok(items)
}

// ---- the steps

/// The reply where each range that differs is listed.
fn list_reply(store: &Store, message: &[Part]) -> Result<Vec<Part>, Refusal> {
    let mut reply = Vec::new();
    for part in message {
        match part {
            Part::Sum(range, sum) => {
                if store.sum(range) != *sum {
                    reply.push(Part::List(*range, store.items(range).to_vec()));
                }
            }
            Part::List(..) => return Err(Refusal(20)),
        }
    }
    Ok(reply)
}

fn load(file: &Path, times: &mut Times) -> Result<Store, Box<dyn Error>> {
    let text = times.time("read", || fs::read(file))?;
    let mut items = times.time("parse", || read_items(&text))?;
    times.time("sort", || {
        items.sort_unstable();
        items.dedup();
    });
    if items.len() > MAX_ITEMS {
        return Err(Refusal(82).into());
    }
    let prints = times.time("hash", || {
        let mut total = sums::ZERO;
        items
            .iter()
            .map(|item| {
                total = sums::join(total, sums::of_item(item));
                total
            })
            .collect()
    });
    Ok(Store { items, prints })
}

/// One round over the files of the folder: the reply to `message`.
fn round(folder: &Path, message: &[u8], equal: &[Part], times: &mut Times) -> Result<Vec<u8>, Box<dyn Error>> {
    let start = Instant::now();
    let store = load(&folder.join("items"), times)?;
    times.note("load", start.elapsed());
    let parts = times.time("decode", || decode_message(message))?;
    let reply = times.time("reply", || list_reply(&store, &parts))?;
    let text = times.time("encode", || encode_message(&reply))?;
    let none = times.time("reply_equal", || list_reply(&store, equal))?;
    if !none.is_empty() {
        return Err("a Sum of the own items is replied to".into());
    }
    Ok(text)
}

/// Times the steps over the files of the folder, and writes `reply`.
pub fn run(folder: &Path, rounds: usize) -> Result<(), Box<dyn Error>> {
    let message = fs::read(folder.join("message"))?;
    let equal = decode_message(&fs::read(folder.join("equal"))?)?;
    let (mut times, mut text) = (Times::new(), Vec::new());
    for _ in 0..rounds {
        text = round(folder, &message, &equal, &mut times)?;
    }
    times.print();
    Ok(fs::write(folder.join("reply"), text)?)
}
