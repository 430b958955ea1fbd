//! Fingerprints of sets: the sums of the halves of the digests of their items.

use crate::sha256::sha256;
use crate::short::Short;

/// Two numbers, each modulo 2^128.
pub type Sum = [u128; 2];

/// The sum of no items.
pub const ZERO: Sum = [0; 2];

pub fn join(one: Sum, other: Sum) -> Sum {
    [one[0].wrapping_add(other[0]), one[1].wrapping_add(other[1])]
}

/// What is left of a sum without a part of it.
pub fn less(all: Sum, part: Sum) -> Sum {
    [all[0].wrapping_sub(part[0]), all[1].wrapping_sub(part[1])]
}

pub fn of_item(item: &Short) -> Sum {
    from_bytes(&sha256(item.bytes()))
}

pub fn from_bytes(bytes: &[u8; 32]) -> Sum {
    let (first, second) = bytes.split_at(16);
    [first, second].map(|half| u128::from_be_bytes(half.try_into().expect("16 bytes")))
}

pub fn write(sum: Sum, out: &mut Vec<u8>) {
    out.extend_from_slice(&sum[0].to_be_bytes());
    out.extend_from_slice(&sum[1].to_be_bytes());
}
