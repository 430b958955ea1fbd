//! A stream of messages that comes in pieces.

use crate::messages::{MAX_BODY, MAX_PARTS, Part, decode_body};
use crate::times::Times;
use plain::refusal::Refusal;
use std::error::Error;
use std::fs;
use std::hint::black_box;
use std::path::Path;

const HELLO: [u8; 4] = *b"RRS1";
const STREAM_LENGTH: usize = 1 << 26;
const PIECE_LENGTHS: [usize; 3] = [1, 1_400, 65_536];

/// Each message that is streamed, and what its steps are called, a step for each length of pieces.
const STREAMS: [(&str, [&str; 3]); 2] =
    [("sums", ["sums_1", "sums_1400", "sums_65536"]), ("list", ["list_1", "list_1400", "list_65536"])];

/// What a frame of a stream says.
#[allow(dead_code)]
enum Event {
    Part(Part),
    End,
}

/// A stream that comes in pieces: whether its hello came, the parts of the message so far, and the bytes of an
/// unfinished hello or frame.
struct Feed {
    begun: bool,
    parts: usize,
    kept: Vec<u8>,
}

impl Feed {
    fn new() -> Feed {
        Feed { begun: false, parts: 0, kept: Vec::new() }
    }

    /// How many bytes the unfinished hello or frame wants beside those that have come.
    fn wanted(&self) -> usize {
        match self.kept.first_chunk::<4>() {
            None => 4 - self.kept.len(),
            Some(length) => 4 + u32::from_be_bytes(*length) as usize - self.kept.len(),
        }
    }

    /// Reads on, and gives what is no whole frame yet.
    fn read_on<'a>(&mut self, bytes: &'a [u8], out: &mut Vec<Event>) -> Result<&'a [u8], Refusal> {
        let mut rest = bytes;
        if !self.begun {
            let Some((hello, after)) = rest.split_first_chunk::<4>() else { return Ok(rest) };
            if *hello != HELLO {
                return Err(Refusal(1));
            }
            self.begun = true;
            rest = after;
        }
        loop {
            let Some((length, after)) = rest.split_first_chunk::<4>() else { return Ok(rest) };
            let length = u32::from_be_bytes(*length) as usize;
            if length == 0 || length > MAX_BODY {
                return Err(Refusal(2));
            }
            let Some((body, after)) = after.split_at_checked(length) else { return Ok(rest) };
            match decode_body(body)? {
                None => {
                    out.push(Event::End);
                    self.parts = 0;
                }
                Some(_) if self.parts == MAX_PARTS => return Err(Refusal(12)),
                Some(part) => {
                    out.push(Event::Part(part));
                    self.parts += 1;
                }
            }
            rest = after;
        }
    }

    fn feed(&mut self, piece: &[u8], out: &mut Vec<Event>) -> Result<(), Refusal> {
        if !self.kept.is_empty() && piece.len() < self.wanted() {
            keep(&mut self.kept, piece);
            return Ok(());
        }
        let mut rest = piece;
        while !self.kept.is_empty() && !rest.is_empty() {
            let (front, back) = rest.split_at(self.wanted().min(rest.len()));
            let mut kept = std::mem::take(&mut self.kept);
            kept.extend_from_slice(front);
            let taken = kept.len() - self.read_on(&kept, out)?.len();
            kept.drain(..taken);
            self.kept = kept;
            rest = back;
        }
        if self.kept.is_empty() {
            let left = self.read_on(rest, out)?;
            self.kept.extend_from_slice(left);
        }
        Ok(())
    }
}

/// Appends a piece. A byte alone is pushed.
fn keep(kept: &mut Vec<u8>, piece: &[u8]) {
    match piece {
        [byte] => kept.push(*byte),
        _ => kept.extend_from_slice(piece),
    }
}

/// The message of a file again and again, 64 MB or a little more.
fn stream_of(file: &Path) -> Result<Vec<u8>, Box<dyn Error>> {
    let message = fs::read(file)?;
    let mut stream = HELLO.to_vec();
    while stream.len() < STREAM_LENGTH {
        stream.extend_from_slice(&message);
    }
    Ok(stream)
}

/// Reads a stream in pieces of this length: how many events it has.
fn read_in_pieces(stream: &[u8], length: usize) -> Result<usize, Refusal> {
    let (mut feed, mut events, mut count) = (Feed::new(), Vec::new(), 0);
    for piece in stream.chunks(length) {
        feed.feed(piece, &mut events)?;
        count += black_box(&events).len();
        events.clear();
    }
    Ok(count)
}

/// Keeps the bytes in pieces of this length, at most 100 bytes at a time, and reads none of them. No feed can take
/// less.
fn only_kept(bytes: &[u8], length: usize) -> usize {
    let (mut kept, mut count) = (Vec::new(), 0);
    for piece in bytes.chunks(length) {
        if kept.len() + piece.len() > 100 {
            count += black_box(&kept).len();
            kept.clear();
        }
        keep(&mut kept, piece);
    }
    count
}

/// Times the reading of a stream in pieces of one length, and prints how many events it has.
fn time_pieces(
    times: &mut Times,
    step: &'static str,
    stream: &[u8],
    length: usize,
    rounds: usize,
) -> Result<(), Refusal> {
    let mut count = 0;
    for _ in 0..rounds {
        count = times.time(step, || read_in_pieces(stream, length))?;
    }
    println!("{step}_events {count}");
    Ok(())
}

/// Times streams of the messages `sums` and `list` of the folder, in pieces of three lengths, and 64 MB that are only
/// kept.
pub fn run(folder: &Path, rounds: usize) -> Result<(), Box<dyn Error>> {
    let mut times = Times::new();
    for (name, steps) in STREAMS {
        let stream = stream_of(&folder.join(name))?;
        for (step, length) in steps.into_iter().zip(PIECE_LENGTHS) {
            time_pieces(&mut times, step, &stream, length, rounds)?;
        }
    }
    let bytes = vec![7; STREAM_LENGTH];
    for _ in 0..rounds {
        times.time("kept_1", || only_kept(&bytes, black_box(1)));
    }
    times.print();
    Ok(())
}
