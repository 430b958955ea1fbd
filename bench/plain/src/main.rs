//! What the scripts of `bench` time beside the program, in plain Rust over std alone.

mod answer;
mod check;
mod codec;
mod cold;
mod feed;
mod lock;
mod make;
mod messages;
mod placing;
mod relay;
mod reply;
mod times;
mod tree;

use std::env;
use std::error::Error;
use std::path::Path;
use std::process::ExitCode;

const USAGE: &str = "\
usage: plain make FOLDER                 the files that the scripts read
       plain answer FOLDER ROUNDS
       plain codec FOLDER MESSAGE ROUNDS
       plain feed FOLDER ROUNDS
       plain placing
       plain reply
       plain lock
       plain check make FOLDER           the tables whose ranks are found
       plain check run FOLDER ROUNDS
       plain cold ROUNDS TABLE LEFT RIGHT THERE PROGRAM ..
       plain serve --table TABLE --addr ADDRESS --workers N --sessions N ITEMS
       plain sync --table TABLE --addr ADDRESS ITEMS
       plain relay count SERVER FILE
       plain relay replay SERVER FILE COUNT THREADS";

/// Runs the subcommand that the words ask for; whether there is one.
fn run(words: &[&str]) -> Result<bool, Box<dyn Error>> {
    match *words {
        ["make", folder] => make::run(Path::new(folder))?,
        ["answer", folder, rounds] => answer::run(Path::new(folder), rounds.parse()?)?,
        ["codec", folder, message, rounds] => {
            codec::run(Path::new(folder), message, rounds.parse()?)?;
        }
        ["feed", folder, rounds] => feed::run(Path::new(folder), rounds.parse()?)?,
        ["placing"] => placing::run(),
        ["reply"] => reply::run(),
        ["lock"] => lock::run(),
        ["check", "make", folder] => check::make(Path::new(folder))?,
        ["check", "run", folder, rounds] => check::run(Path::new(folder), rounds.parse()?)?,
        ["cold", rounds, table, left, right, there, ref programs @ ..] => {
            cold::time(rounds.parse()?, &cold::Files { table, left, right, there }, programs)?;
        }
        ["serve", "--table", table, "--addr", address, "--workers", _, "--sessions", _, items] => {
            cold::serve(table, address, items)?;
        }
        ["sync", "--table", table, "--addr", address, items] => cold::sync(table, address, items)?,
        ["relay", "count", server, file] => relay::count(server, file)?,
        ["relay", "replay", server, file, count, threads] => {
            relay::replay(server, file, count.parse()?, threads.parse()?)?;
        }
        _ => return Ok(false),
    }
    Ok(true)
}

fn main() -> ExitCode {
    let words: Vec<String> = env::args().skip(1).collect();
    let words: Vec<&str> = words.iter().map(String::as_str).collect();
    match run(&words) {
        Ok(true) => ExitCode::SUCCESS,
        Ok(false) => {
            eprintln!("{USAGE}");
            ExitCode::from(2)
        }
        Err(fault) => {
            eprintln!("plain: {fault}");
            ExitCode::FAILURE
        }
    }
}
