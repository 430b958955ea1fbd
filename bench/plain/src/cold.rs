//! How long a program takes from its start to its first byte, and what `serve` and `sync` do before it. Of a table only
//! the cap is read, and nothing is checked.

use plain::short::Short;
use plain::sums::{self, Sum};
use std::io::{self, ErrorKind, Read, Write};
use std::net::{TcpListener, TcpStream};
use std::process::{Command, Stdio};
use std::sync::Arc;
use std::time::{Duration, Instant};
use std::{fs, thread};

fn bad(why: &str) -> io::Error {
    io::Error::new(ErrorKind::InvalidData, why)
}

// ---- the tree

#[allow(dead_code)]
struct Leaf {
    entries: Vec<(Short, Sum)>,
    total: Sum,
}

#[allow(dead_code)]
struct Branch {
    leaves: Vec<Arc<Leaf>>,
    count: usize,
    total: Sum,
}

/// The first 32 of the parts and the others, or all where there are fewer than 64.
fn group<P>(parts: &[P]) -> (&[P], &[P]) {
    parts.split_at(if parts.len() < 64 { parts.len() } else { 32 })
}

fn leaves_of(entries: &[(Short, Sum)]) -> Vec<Arc<Leaf>> {
    let mut leaves = Vec::new();
    let mut rest = entries;
    while !rest.is_empty() {
        let (front, back) = group(rest);
        let total = front.iter().fold(sums::ZERO, |sum, (_, print)| sums::join(sum, *print));
        leaves.push(Arc::new(Leaf { entries: front.to_vec(), total }));
        rest = back;
    }
    leaves
}

fn branches_of(leaves: &[Arc<Leaf>]) -> Vec<Arc<Branch>> {
    let mut branches = Vec::new();
    let mut rest = leaves;
    while !rest.is_empty() {
        let (front, back) = group(rest);
        let count = front.iter().map(|leaf| leaf.entries.len()).sum();
        let total = front.iter().fold(sums::ZERO, |sum, leaf| sums::join(sum, leaf.total));
        branches.push(Arc::new(Branch { leaves: front.to_vec(), count, total }));
        rest = back;
    }
    branches
}

// ---- the files

fn value_of(digit: u8) -> io::Result<u8> {
    match digit {
        b'0'..=b'9' => Ok(digit - b'0'),
        b'a'..=b'f' => Ok(digit - b'a' + 10),
        b'A'..=b'F' => Ok(digit - b'A' + 10),
        _ => Err(bad("a digit")),
    }
}

fn item_of(digits: &[u8]) -> io::Result<Short> {
    if digits.len() % 2 != 0 || digits.len() > 128 {
        return Err(bad("a line"));
    }
    let mut bytes = [0; 64];
    for (byte, pair) in bytes.iter_mut().zip(digits.chunks_exact(2)) {
        *byte = value_of(pair[0])? << 4 | value_of(pair[1])?;
    }
    Ok(Short::new(&bytes[..digits.len() / 2]))
}

fn trimmed(line: &[u8]) -> &[u8] {
    let mut rest = line.strip_suffix(b"\r").unwrap_or(line);
    while let [b' ' | b'\t', others @ ..] | [others @ .., b' ' | b'\t'] = rest {
        rest = others;
    }
    rest
}

/// The different items of the file, in rising order.
fn read_items(path: &str, cap: usize) -> io::Result<Vec<Short>> {
    let text = fs::read(path)?;
    let mut items = Vec::new();
    for line in text.split(|byte| *byte == b'\n') {
        let digits = trimmed(line);
        if !digits.is_empty() {
            items.push(item_of(digits)?);
        }
    }
    items.sort_unstable();
    items.dedup();
    if items.len() > cap { Err(bad("the number of items")) } else { Ok(items) }
}

fn read_cap(path: &str) -> io::Result<usize> {
    let text = fs::read_to_string(path)?;
    let cap = text.lines().find_map(|line| line.strip_prefix("cap = "));
    cap.and_then(|digits| digits.trim().parse().ok()).ok_or_else(|| bad("a cap"))
}

/// What a side of sessions begins with: who brought which item, and the tree of the items.
#[allow(dead_code)]
struct Opening {
    history: Vec<(u32, Short)>,
    branches: Vec<Arc<Branch>>,
    total: Sum,
}

fn load(table: &str, path: &str) -> io::Result<Opening> {
    let items = read_items(path, read_cap(table)?)?;
    let entries: Vec<_> = items.iter().map(|item| (*item, sums::of_item(item))).collect();
    let branches = branches_of(&leaves_of(&entries));
    let total = branches.iter().fold(sums::ZERO, |sum, branch| sums::join(sum, branch.total));
    let history = items.iter().map(|item| (0, *item)).collect();
    Ok(Opening { history, branches, total })
}

// ---- the plain sides

/// Loads the files, listens, says so, and ends.
pub fn serve(table: &str, address: &str, items: &str) -> io::Result<()> {
    let _opening = load(table, items)?;
    let _listener = TcpListener::bind(address)?;
    println!("listening {address}");
    Ok(())
}

/// Loads the files, connects, and says its hello and its first message: a Sum over everything.
pub fn sync(table: &str, address: &str, items: &str) -> io::Result<()> {
    let opening = load(table, items)?;
    let mut stream = TcpStream::connect(address)?;
    let mut bytes = b"RRS1\0\0\0\x23\x01\0\xFF".to_vec();
    sums::write(opening.total, &mut bytes);
    bytes.extend_from_slice(b"\0\0\0\x01\x04");
    stream.write_all(&bytes)
}

// ---- the times

/// The files that all programs load.
pub struct Files<'a> {
    pub table: &'a str,
    pub left: &'a str,
    pub right: &'a str,
    /// Where a copy of the file on the right goes.
    pub there: &'a str,
}

/// From the start of `serve` to the first byte of its standard output. It is stopped then.
fn time_serve(program: &str, files: &Files) -> io::Result<Duration> {
    let start = Instant::now();
    let mut child = Command::new(program)
        .args(["serve", "--table", files.table, "--addr", "127.0.0.1:0"])
        .args(["--workers", "1", "--sessions", "1", files.left])
        .stdout(Stdio::piped())
        .stderr(Stdio::null())
        .spawn()?;
    let came = child.stdout.as_mut().expect("a pipe").read_exact(&mut [0]);
    let taken = start.elapsed();
    child.kill()?;
    child.wait()?;
    came.map(|()| taken)
}

/// From the start of `sync` to the first byte at the socket. The connection is closed then, so that `sync` ends.
fn time_sync(program: &str, files: &Files) -> io::Result<Duration> {
    let listener = TcpListener::bind("127.0.0.1:0")?;
    let address = listener.local_addr()?;
    let start = Instant::now();
    let mut child = Command::new(program)
        .args(["sync", "--table", files.table, "--addr", &address.to_string(), files.right])
        .stdout(Stdio::null())
        .stderr(Stdio::null())
        .spawn()?;
    // A program that ends before it connects would leave `accept` waiting.
    let ended = thread::spawn(move || {
        let status = child.wait();
        let _ = TcpStream::connect(address);
        status
    });
    let (mut stream, _) = listener.accept()?;
    let came = stream.read_exact(&mut [0]);
    let taken = start.elapsed();
    drop((stream, listener));
    ended.join().expect("a thread")?;
    came.map(|()| taken)
}

/// A whole run of `rsync`, or none where it is not there.
fn time_rsync(files: &Files) -> io::Result<Option<Duration>> {
    fs::copy(files.right, files.there)?;
    let start = Instant::now();
    let status = Command::new("rsync").args(["--no-whole-file", "--ignore-times", files.left, files.there]).status();
    let taken = start.elapsed();
    match status {
        Ok(status) if status.success() => Ok(Some(taken)),
        Ok(_) => Err(bad("a run of rsync")),
        Err(error) if error.kind() == ErrorKind::NotFound => Ok(None),
        Err(error) => Err(error),
    }
}

fn print_times(what: &str, program: &str, mut times: Vec<Duration>) {
    times.sort_unstable();
    let (least, middle) = match times.first() {
        None => ("-".to_owned(), "-".to_owned()),
        Some(least) => {
            let shown = |time: Duration| format!("{:.1}", time.as_secs_f64() * 1000.0);
            (shown(*least), shown(times[times.len() / 2]))
        }
    };
    println!("{what:<6} {least:>10} {middle:>10}  {program}");
}

/// The times of each program and of `rsync`, one of each round.
struct Measured {
    served: Vec<Vec<Duration>>,
    synced: Vec<Vec<Duration>>,
    copied: Vec<Duration>,
}

impl Measured {
    fn add_round(&mut self, files: &Files, programs: &[&str]) -> io::Result<()> {
        for (index, program) in programs.iter().enumerate() {
            self.served[index].push(time_serve(program, files)?);
            self.synced[index].push(time_sync(program, files)?);
        }
        self.copied.extend(time_rsync(files)?);
        Ok(())
    }
}

fn print_all(what: &str, programs: &[&str], times: Vec<Vec<Duration>>) {
    for (program, times) in programs.iter().zip(times) {
        print_times(what, program, times);
    }
}

/// Starts `serve` over the file on the left and `sync` over that on the right, so many times, each program in turn.
/// Prints the least and the middle milliseconds: of `serve` to the first byte of its standard output, of `sync` to the
/// first byte at a socket, and of a whole run of `rsync` of the same files; dashes where `rsync` is not there.
pub fn time(rounds: usize, files: &Files, programs: &[&str]) -> io::Result<()> {
    let none = vec![Vec::new(); programs.len()];
    let mut measured = Measured { served: none.clone(), synced: none, copied: Vec::new() };
    for _ in 0..rounds {
        measured.add_round(files, programs)?;
    }
    println!("{:<6} {:>10} {:>10}  program", "", "least(ms)", "middle(ms)");
    print_all("serve", programs, measured.served);
    print_all("sync", programs, measured.synced);
    print_times("rsync", "a whole run", measured.copied);
    Ok(())
}
