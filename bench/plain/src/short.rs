//! Items and bounds of the plain programs: up to 64 bytes, kept inline.

use std::cmp::Ordering;

/// The most bytes of an item.
pub const MAX_ITEM: usize = 64;

#[derive(Clone, Copy)]
pub struct Short {
    pub bytes: [u8; MAX_ITEM],
    pub length: u8,
}

impl Short {
    pub fn new(bytes: &[u8]) -> Short {
        let mut held = [0; MAX_ITEM];
        held[..bytes.len()].copy_from_slice(bytes);
        Short { bytes: held, length: bytes.len() as u8 }
    }

    /// The item of 32 bytes that begins with the number.
    pub fn of_number(number: u32) -> Short {
        let mut bytes = [0; 32];
        bytes[..4].copy_from_slice(&number.to_be_bytes());
        Short::new(&bytes)
    }

    pub fn bytes(&self) -> &[u8] {
        &self.bytes[..self.length as usize]
    }

    /// Writes the length in a byte, and the bytes.
    pub fn write(&self, out: &mut Vec<u8>) {
        out.push(self.length);
        out.extend_from_slice(self.bytes());
    }
}

impl PartialEq for Short {
    fn eq(&self, other: &Short) -> bool {
        self.bytes() == other.bytes()
    }
}

impl Eq for Short {}

impl PartialOrd for Short {
    fn partial_cmp(&self, other: &Short) -> Option<Ordering> {
        Some(self.cmp(other))
    }
}

impl Ord for Short {
    fn cmp(&self, other: &Short) -> Ordering {
        self.bytes().cmp(other.bytes())
    }
}
