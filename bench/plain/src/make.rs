//! The files that the plain and the proved programs read.

use crate::messages::{MAX_PARTS, Part, encode_message};
use plain::ranges::Range;
use plain::refusal::Refusal;
use plain::short::Short;
use plain::sums::{self, Sum};
use std::error::Error;
use std::fs;
use std::iter::once;
use std::path::Path;

/// How many items the item file has.
const ITEMS: usize = 65_536;

/// Numbers that look random, the same in each run.
struct Numbers(u64);

impl Numbers {
    fn next(&mut self) -> u64 {
        self.0 = self.0.wrapping_add(0x9E37_79B9_7F4A_7C15);
        let mut z = self.0;
        z = (z ^ (z >> 30)).wrapping_mul(0xBF58_476D_1CE4_E5B9);
        z = (z ^ (z >> 27)).wrapping_mul(0x94D0_49BB_1331_11EB);
        z ^ (z >> 31)
    }
}

fn opening(sum: Sum) -> Result<Vec<u8>, Refusal> {
    encode_message(&[Part::Sum(Range::whole(), sum)])
}

/// So many items of 32 bytes, in no order.
fn random_items(numbers: &mut Numbers, count: usize) -> Vec<Short> {
    let item = |_| {
        let mut bytes = [0u8; 32];
        for chunk in bytes.chunks_exact_mut(8) {
            chunk.copy_from_slice(&numbers.next().to_be_bytes());
        }
        Short::new(&bytes)
    };
    (0..count).map(item).collect()
}

/// As many Sums as a message may have, each from where the one before it ends.
fn many_sums(numbers: &mut Numbers) -> Vec<Part> {
    let mut bounds = random_items(numbers, MAX_PARTS - 1);
    bounds.sort_unstable();
    let lowers = once(Short::new(&[])).chain(bounds.iter().copied());
    let uppers = bounds.iter().copied().map(Some).chain(once(None));
    lowers.zip(uppers).map(|(lower, upper)| Part::Sum(Range { lower, upper }, sums::of_item(&lower))).collect()
}

/// A message of Sums in wire profile 2: each counts one item.
fn counted(message: &[u8]) -> Vec<u8> {
    let (mut rest, mut text) = (message, Vec::new());
    while let Some((length, after)) = rest.split_first_chunk::<4>() {
        let (body, next) = after.split_at(u32::from_be_bytes(*length) as usize);
        if body[0] == 1 {
            let (front, lanes) = body.split_at(body.len() - 32);
            text.extend_from_slice(&(body.len() as u32 + 4).to_be_bytes());
            text.extend_from_slice(front);
            text.extend_from_slice(&1u32.to_be_bytes());
            text.extend_from_slice(lanes);
        } else {
            text.extend_from_slice(length);
            text.extend_from_slice(body);
        }
        rest = next;
    }
    text
}

/// The item file of these items, in hex.
fn item_file(items: &[Short]) -> String {
    let hex = |item: &Short| item.bytes().iter().map(|byte| format!("{byte:02x}")).collect::<String>();
    items.iter().map(|item| hex(item) + "\n").collect()
}

/// Writes into the folder `items`, an item file of 65,536 items of 32 bytes in no order; `message`, one Sum over
/// everything with a fingerprint of 32 zero bytes, and `equal`, the same with the fingerprint of the items; `sums`, a
/// message of 131,072 Sums whose ranges follow one another and have bounds of 32 bytes, and `counted`, the same in wire
/// profile 2; and `list`, one List of the items.
pub fn run(folder: &Path) -> Result<(), Box<dyn Error>> {
    let mut numbers = Numbers(1);
    let mut items = random_items(&mut numbers, ITEMS);
    let sum = items.iter().map(sums::of_item).fold(sums::ZERO, sums::join);
    fs::write(folder.join("items"), item_file(&items))?;
    fs::write(folder.join("message"), opening(sums::ZERO)?)?;
    fs::write(folder.join("equal"), opening(sum)?)?;
    let in_order = encode_message(&many_sums(&mut numbers))?;
    fs::write(folder.join("counted"), counted(&in_order))?;
    fs::write(folder.join("sums"), in_order)?;
    items.sort_unstable();
    Ok(fs::write(folder.join("list"), encode_message(&[Part::List(Range::whole(), items)])?)?)
}
