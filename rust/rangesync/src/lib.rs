#![doc = include_str!("../README.md")]
#![warn(missing_docs)]

mod library;
mod refused;
mod sessions;
mod sets;
mod shards;

pub use refused::{Error, Refused};
pub use sessions::{Learned, Session, State};
pub use sets::{Form, Profile, Set, Strategy, Version};
pub use shards::Shards;
