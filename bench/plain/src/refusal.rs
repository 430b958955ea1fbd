//! Refusals, by their numbers.

use std::error::Error;
use std::fmt::{self, Display, Formatter};

/// The number of a refusal.
#[derive(Debug, Clone, Copy, PartialEq, Eq)]
pub struct Refusal(pub u8);

impl Display for Refusal {
    fn fmt(&self, out: &mut Formatter<'_>) -> fmt::Result {
        write!(out, "refused {}", self.0)
    }
}

impl Error for Refusal {}
