//! Ranges of items.

use crate::short::Short;

/// The items at or after `lower` and before `upper`; no `upper` is the end.
#[derive(Clone, Copy, PartialEq, Eq)]
pub struct Range {
    pub lower: Short,
    pub upper: Option<Short>,
}

impl Range {
    pub fn whole() -> Range {
        Range { lower: Short::new(&[]), upper: None }
    }

    pub fn is_empty(&self) -> bool {
        self.upper.is_some_and(|upper| upper <= self.lower)
    }

    pub fn contains(&self, item: &Short) -> bool {
        *item >= self.lower && self.upper.is_none_or(|upper| *item < upper)
    }

    /// Writes both bounds.
    pub fn write(&self, out: &mut Vec<u8>) {
        self.lower.write(out);
        match &self.upper {
            None => out.push(0xFF),
            Some(upper) => upper.write(out),
        }
    }
}
