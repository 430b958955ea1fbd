//! A session in profile 1, which hears no fault frame.

use crate::set::Set;
use crate::strategy::{Act, Strategy};
use crate::wire::{read_body, write_part};
use plain::placed::{Part, items_of_lists, place};
use plain::ranges::Range;
use plain::refusal::Refusal;
use plain::short::Short;
use std::mem;
use std::sync::Arc;

const HELLO: &[u8; 4] = b"RRS1";

/// One side: its set, the message that it said last, what has come of the next one, and what it learned.
pub struct Session {
    strategy: Arc<Strategy>,
    set: Arc<Set>,
    said: Vec<Part>,
    pub sent: usize,
    has_hello: bool,
    pub has_ended: bool,
    kept: Vec<u8>,
    heard: Vec<Part>,
    pub due: Vec<u8>,
    pub ours: Vec<Short>,
    pub theirs: Vec<Short>,
}

impl Session {
    pub fn open(strategy: &Arc<Strategy>, set: &Arc<Set>, is_first: bool) -> Session {
        let mut session = Session {
            strategy: strategy.clone(),
            set: set.clone(),
            said: Vec::new(),
            sent: 0,
            has_hello: false,
            has_ended: false,
            kept: Vec::new(),
            heard: Vec::new(),
            due: HELLO.to_vec(),
            ours: Vec::new(),
            theirs: Vec::new(),
        };
        if is_first {
            session.say(vec![Part::Sum(Range::whole(), set.sum_of(0..set.items.len()))]);
        }
        session
    }

    fn say(&mut self, message: Vec<Part>) {
        message.iter().for_each(|part| write_part(part, &mut self.due));
        self.due.extend_from_slice(b"\0\0\0\x01\x04");
        self.has_ended = !message.iter().any(Part::is_open);
        self.said = message;
        self.sent += 1;
    }

    /// Takes bytes that came, and answers the messages that they complete.
    pub fn push(&mut self, bytes: &[u8]) -> Result<(), Refusal> {
        let mut kept = mem::take(&mut self.kept);
        kept.extend_from_slice(bytes);
        let mut rest = &kept[..];
        if !self.has_hello && rest.len() >= 4 {
            rest = rest.strip_prefix(HELLO).ok_or(Refusal(1))?;
            self.has_hello = true;
        }
        while let (true, Some((length, after))) = (self.has_hello, rest.split_first_chunk::<4>()) {
            let Some((body, after)) = after.split_at_checked(u32::from_be_bytes(*length) as usize) else { break };
            rest = after;
            match read_body(body)? {
                Some(part) => self.heard.push(part),
                None => self.answer()?,
            }
        }
        self.kept = rest.to_vec();
        Ok(())
    }

    fn answer(&mut self) -> Result<(), Refusal> {
        let message = mem::take(&mut self.heard);
        if !self.said.is_empty() {
            place(&self.said, &message)?;
        }
        self.learn(&message);
        if message.iter().any(Part::is_open) {
            let reply = self.reply(&message);
            self.say(reply);
        } else {
            self.has_ended = true;
        }
        Ok(())
    }

    fn learn(&mut self, message: &[Part]) {
        let mut lists = items_of_lists(&self.said);
        for part in message {
            match part {
                Part::Sum(..) => {}
                Part::List(range, listed) => {
                    let own = &self.set.items[self.set.places(range)];
                    self.ours.extend(own.iter().filter(|item| listed.binary_search(item).is_err()));
                    self.theirs.extend(listed.iter().filter(|item| !self.set.has(item)));
                }
                Part::Answer(_, marks, items) => {
                    let listed = lists.next().expect("a List for each Answer");
                    self.ours.extend(listed.iter().zip(marks).filter(|(_, marked)| **marked).map(|(item, _)| *item));
                    self.theirs.extend(items);
                }
            }
        }
    }

    fn reply(&self, message: &[Part]) -> Vec<Part> {
        let mut parts = Vec::new();
        for part in message {
            match part {
                Part::Sum(range, sum) if self.set.sum_of(self.set.places(range)) == *sum => {}
                Part::Sum(range, _) => self.cut(range, &mut parts),
                Part::List(range, listed) => {
                    let marks = listed.iter().map(|item| !self.set.has(item)).collect();
                    let mut own = self.set.items[self.set.places(range)].to_vec();
                    own.retain(|item| listed.binary_search(item).is_err());
                    parts.push(Part::Answer(*range, marks, own));
                }
                Part::Answer(..) => {}
            }
        }
        parts
    }

    /// Lists a range that differs, or splits it.
    fn cut(&self, range: &Range, parts: &mut Vec<Part>) {
        let places = self.set.places(range);
        let count = places.len();
        let own = &self.set.items[places.clone()];
        let Act::Split(weights) = self.strategy.act(count) else {
            parts.push(Part::List(*range, own.to_vec()));
            return;
        };
        let all: usize = weights.iter().sum();
        let (mut so_far, mut from, mut lower) = (0, 0, range.lower);
        for weight in weights {
            so_far += weight;
            let to = count * so_far / all;
            if to > from {
                let bound = || self.strategy.bound(&own[to - 1], &own[to]);
                let upper = if to == count { range.upper } else { Some(bound()) };
                let sum = self.set.sum_of(places.start + from..places.start + to);
                parts.push(Part::Sum(Range { lower, upper }, sum));
                (from, lower) = (to, upper.unwrap_or(lower));
            }
        }
    }
}
