//! What the plain programs share: items, ranges, sums, the bytes of parts, and placing.

pub mod body;
pub mod placed;
pub mod ranges;
pub mod refusal;
pub mod sha256;
pub mod short;
pub mod sums;
