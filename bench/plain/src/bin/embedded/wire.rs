//! Parts, read and written.

use plain::body::{Body, write_items, write_list, write_sum};
use plain::placed::Part;
use plain::refusal::Refusal;

pub fn write_part(part: &Part, out: &mut Vec<u8>) {
    let start = out.len();
    out.extend_from_slice(&[0; 4]);
    match part {
        Part::Sum(range, sum) => write_sum(range, *sum, out),
        Part::List(range, items) => write_list(range, items, out),
        Part::Answer(range, marks, items) => {
            out.push(3);
            range.write(out);
            out.extend_from_slice(&(marks.len() as u32).to_be_bytes());
            out.extend(marks.chunks(8).map(|eight| eight.iter().rev().fold(0, |byte, mark| byte << 1 | *mark as u8)));
            write_items(items, out);
        }
    }
    let length = (out.len() - start - 4) as u32;
    out[start..start + 4].copy_from_slice(&length.to_be_bytes());
}

/// The part of a body, or none where it is the end of the message.
pub fn read_body(bytes: &[u8]) -> Result<Option<Part>, Refusal> {
    let mut body = Body::new(bytes);
    let kind = body.byte()?;
    let part = match kind {
        1..=3 => {
            let range = body.range()?;
            Some(match kind {
                1 => Part::Sum(range, body.sum()?),
                2 => Part::List(range, body.items(&range)?),
                _ => Part::Answer(range, body.marks()?, body.items(&range)?),
            })
        }
        4 => None,
        _ => return Err(Refusal(4)),
    };
    body.end(part)
}
