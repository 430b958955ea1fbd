//! Messages of Sums and Lists, read and written.

use plain::body::{Body, write_list, write_sum};
use plain::ranges::Range;
use plain::refusal::Refusal;
use plain::short::Short;
use plain::sums::Sum;

pub const MAX_BODY: usize = 8_388_608;
pub const MAX_PARTS: usize = 131_072;

pub enum Part {
    Sum(Range, Sum),
    List(Range, Vec<Short>),
}

/// The part of a body, or none where it is the end of the message.
pub fn decode_body(bytes: &[u8]) -> Result<Option<Part>, Refusal> {
    let mut body = Body::new(bytes);
    match body.byte()? {
        1 => {
            let range = body.range()?;
            let sum = body.sum()?;
            body.end(Some(Part::Sum(range, sum)))
        }
        2 => {
            let range = body.range()?;
            let items = body.items(&range)?;
            body.end(Some(Part::List(range, items)))
        }
        4 => body.end(None),
        _ => Err(Refusal(4)),
    }
}

pub fn decode_message(bytes: &[u8]) -> Result<Vec<Part>, Refusal> {
    let mut parts = Vec::new();
    let mut rest = bytes;
    loop {
        let Some((length, after)) = rest.split_first_chunk::<4>() else { return Err(Refusal(3)) };
        let length = u32::from_be_bytes(*length) as usize;
        if length == 0 || length > MAX_BODY {
            return Err(Refusal(2));
        }
        let Some((body, after)) = after.split_at_checked(length) else { return Err(Refusal(3)) };
        match decode_body(body)? {
            None if after.is_empty() => return Ok(parts),
            None => return Err(Refusal(11)),
            Some(_) if parts.len() == MAX_PARTS => return Err(Refusal(12)),
            Some(part) => parts.push(part),
        }
        rest = after;
    }
}

fn range_length(range: &Range) -> usize {
    2 + range.lower.length as usize + range.upper.map_or(0, |upper| upper.length as usize)
}

fn body_length(part: &Part) -> usize {
    match part {
        Part::Sum(range, _) => 1 + range_length(range) + 32,
        Part::List(range, items) => {
            5 + range_length(range) + items.iter().map(|item| 1 + item.length as usize).sum::<usize>()
        }
    }
}

fn encode_part(part: &Part, out: &mut Vec<u8>) -> Result<(), Refusal> {
    let length = body_length(part);
    if length > MAX_BODY {
        return Err(Refusal(2));
    }
    out.reserve(4 + length);
    out.extend_from_slice(&(length as u32).to_be_bytes());
    match part {
        Part::Sum(range, sum) => write_sum(range, *sum, out),
        Part::List(range, items) => write_list(range, items, out),
    }
    Ok(())
}

pub fn encode_message(parts: &[Part]) -> Result<Vec<u8>, Refusal> {
    let mut out = Vec::new();
    for part in parts {
        encode_part(part, &mut out)?;
    }
    out.extend_from_slice(&[0, 0, 0, 1, 4]);
    Ok(out)
}
