//! What is read of the body of a frame, and written.

use crate::ranges::Range;
use crate::refusal::Refusal;
use crate::short::{MAX_ITEM, Short};
use crate::sums::{self, Sum};

/// The bytes of one body that are still to be read.
pub struct Body<'a> {
    rest: &'a [u8],
}

impl<'a> Body<'a> {
    pub fn new(bytes: &'a [u8]) -> Body<'a> {
        Body { rest: bytes }
    }

    fn take(&mut self, count: usize) -> Result<&'a [u8], Refusal> {
        let (taken, rest) = self.rest.split_at_checked(count).ok_or(Refusal(2))?;
        self.rest = rest;
        Ok(taken)
    }

    pub fn byte(&mut self) -> Result<u8, Refusal> {
        Ok(self.take(1)?[0])
    }

    fn number(&mut self) -> Result<u32, Refusal> {
        Ok(u32::from_be_bytes(self.take(4)?.try_into().expect("4 bytes")))
    }

    pub fn range(&mut self) -> Result<Range, Refusal> {
        let length = self.byte()? as usize;
        if length > MAX_ITEM {
            return Err(Refusal(5));
        }
        let lower = Short::new(self.take(length)?);
        let upper = match self.byte()? as usize {
            0xFF => None,
            length @ 1..=MAX_ITEM => Some(Short::new(self.take(length)?)),
            _ => return Err(Refusal(5)),
        };
        let range = Range { lower, upper };
        if range.is_empty() { Err(Refusal(6)) } else { Ok(range) }
    }

    pub fn sum(&mut self) -> Result<Sum, Refusal> {
        Ok(sums::from_bytes(self.take(32)?.try_into().expect("32 bytes")))
    }

    pub fn marks(&mut self) -> Result<Vec<bool>, Refusal> {
        let count = self.number()? as usize;
        let bytes = self.take(count.div_ceil(8))?;
        if count % 8 != 0 && bytes[count / 8] >> (count % 8) != 0 {
            return Err(Refusal(10));
        }
        Ok((0..count).map(|place| bytes[place / 8] >> (place % 8) & 1 == 1).collect())
    }

    pub fn items(&mut self, range: &Range) -> Result<Vec<Short>, Refusal> {
        let count = self.number()? as usize;
        let mut items: Vec<Short> = Vec::with_capacity(count.min(self.rest.len() / 2));
        for _ in 0..count {
            let length = self.byte()? as usize;
            if length == 0 || length > MAX_ITEM {
                return Err(Refusal(7));
            }
            let item = Short::new(self.take(length)?);
            if items.last().is_some_and(|last| item <= *last) {
                return Err(Refusal(8));
            }
            if !range.contains(&item) {
                return Err(Refusal(9));
            }
            items.push(item);
        }
        Ok(items)
    }

    /// What was read, unless bytes are left.
    pub fn end<T>(self, value: T) -> Result<T, Refusal> {
        if self.rest.is_empty() { Ok(value) } else { Err(Refusal(11)) }
    }
}

/// Writes how many items these are, and each of them.
pub fn write_items(items: &[Short], out: &mut Vec<u8>) {
    out.extend_from_slice(&(items.len() as u32).to_be_bytes());
    items.iter().for_each(|item| item.write(out));
}

/// Writes the body of a Sum.
pub fn write_sum(range: &Range, sum: Sum, out: &mut Vec<u8>) {
    out.push(1);
    range.write(out);
    sums::write(sum, out);
}

/// Writes the body of a List.
pub fn write_list(range: &Range, items: &[Short], out: &mut Vec<u8>) {
    out.push(2);
    range.write(out);
    write_items(items, out);
}
