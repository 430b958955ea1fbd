//! The reading and the writing of large messages.

use crate::messages::{decode_message, encode_message};
use crate::times::Times;
use std::error::Error;
use std::fs;
use std::path::Path;

/// What the steps are called in which a message of this name is read and written.
fn steps(message: &str) -> Result<(&'static str, &'static str), Box<dyn Error>> {
    match message {
        "sums" => Ok(("sums_decode", "sums_encode")),
        "list" => Ok(("list_decode", "list_encode")),
        _ => Err("the messages are sums and list".into()),
    }
}

/// Times the message of this name in the folder.
pub fn run(folder: &Path, message: &str, rounds: usize) -> Result<(), Box<dyn Error>> {
    let (decode, encode) = steps(message)?;
    let text = fs::read(folder.join(message))?;
    let mut times = Times::new();
    for _ in 0..rounds {
        let parts = times.time(decode, || decode_message(&text))?;
        let again = times.time(encode, || encode_message(&parts))?;
        if again != text {
            return Err("other bytes are written than were read".into());
        }
    }
    times.print();
    Ok(())
}
