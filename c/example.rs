//! A session with `rangesync serve`: example-rust STRATEGY ITEMS ADDRESS, by the paths of a strategy file and of an
//! item file in hex. Prints the items that `sync` prints, in the order learned. It calls the library itself, and
//! no more of it than it needs; the crate in the folder rust/rangesync has all of it, with safe types.

use std::io::{Read, Write};
use std::net::TcpStream;
use std::{env, fs, io, process};

#[repr(C)]
#[derive(Clone, Copy)]
struct Handle {
    at: *mut u8,
}

type Item = unsafe extern "C" fn(*mut Handle, usize, *mut u8, usize, *mut usize) -> u32;

extern "C" {
    fn rs_strategy_read(text: *const u8, length: usize, out: *mut Handle) -> u32;
    fn rs_set_read(strategy: *mut Handle, form: u32, text: *const u8, length: usize, out: *mut Handle) -> u32;
    fn rs_set_share(set: *mut Handle, out: *mut Handle) -> u32;
    fn rs_session_open(version: *mut Handle, role: u32, profile: u32, out: *mut Handle) -> u32;
    fn rs_session_push(session: *mut Handle, bytes: *const u8, length: usize, taken: *mut usize) -> u32;
    fn rs_session_finish(session: *mut Handle) -> u32;
    fn rs_session_pull(session: *mut Handle, room: *mut u8, length: usize, used: *mut usize) -> u32;
    fn rs_session_state(session: *mut Handle, state: *mut u32, code: *mut u32) -> u32;
    fn rs_session_learned(session: *mut Handle, ours: *mut usize, theirs: *mut usize) -> u32;
    fn rs_session_ours(session: *mut Handle, place: usize, room: *mut u8, length: usize, used: *mut usize) -> u32;
    fn rs_session_theirs(session: *mut Handle, place: usize, room: *mut u8, length: usize, used: *mut usize) -> u32;
    fn rs_free(handle: Handle);
}

fn must(number: u32, what: &str) {
    if number != 0 {
        eprintln!("{what}: refused {number}");
        process::exit(1);
    }
}

fn none() -> Handle {
    Handle { at: std::ptr::null_mut() }
}

fn open(strategy_path: &str, items_path: &str) -> io::Result<Handle> {
    let (text, lines) = (fs::read(strategy_path)?, fs::read(items_path)?);
    let (mut strategy, mut set, mut version, mut session) = (none(), none(), none(), none());
    unsafe {
        must(rs_strategy_read(text.as_ptr(), text.len(), &mut strategy), strategy_path);
        must(rs_set_read(&mut strategy, 0, lines.as_ptr(), lines.len(), &mut set), items_path);
        must(rs_set_share(&mut set, &mut version), "share");
        must(rs_session_open(&mut version, 0, 1, &mut session), "open");
        rs_free(strategy);
        rs_free(set);
        rs_free(version);
    }
    Ok(session)
}

/// Speaks until the session has stopped: how it stands, and the number of its refusal.
fn talk(session: &mut Handle, connection: &mut TcpStream) -> io::Result<(u32, u32)> {
    let mut room = vec![0u8; 65_536];
    let (mut used, mut taken, mut state, mut code) = (0, 0, 0, 0);
    loop {
        loop {
            unsafe { must(rs_session_pull(session, room.as_mut_ptr(), room.len(), &mut used), "pull") };
            if used == 0 {
                break;
            }
            connection.write_all(&room[..used])?;
        }
        unsafe { must(rs_session_state(session, &mut state, &mut code), "state") };
        if state != 0 {
            return Ok((state, code));
        }
        let count = connection.read(&mut room)?;
        if count == 0 {
            unsafe { must(rs_session_finish(session), "finish") };
        }
        let mut came = &room[..count];
        while !came.is_empty() {
            unsafe { must(rs_session_push(session, came.as_ptr(), came.len(), &mut taken), "push") };
            came = &came[taken..];
        }
    }
}

fn print(session: &mut Handle, word: &str, count: usize, item: Item) {
    let (mut room, mut used) = ([0u8; 64], 0);
    for place in 0..count {
        unsafe { must(item(session, place, room.as_mut_ptr(), room.len(), &mut used), word) };
        let hex: String = room[..used].iter().map(|byte| format!("{byte:02x}")).collect();
        println!("{word} {hex}");
    }
}

fn main() -> io::Result<()> {
    let words: Vec<String> = env::args().collect();
    if words.len() != 4 {
        eprintln!("usage: example-rust STRATEGY ITEMS ADDRESS");
        process::exit(2);
    }
    let (strategy, items, address) = (&words[1], &words[2], &words[3]);
    let mut connection = TcpStream::connect(address)?;
    let mut session = open(strategy, items)?;
    let (state, code) = talk(&mut session, &mut connection)?;
    if state != 1 {
        println!("state {state} code {code}");
        process::exit(1);
    }
    let (mut ours, mut theirs) = (0, 0);
    unsafe { must(rs_session_learned(&mut session, &mut ours, &mut theirs), "learned") };
    print(&mut session, "ours", ours, rs_session_ours);
    print(&mut session, "theirs", theirs, rs_session_theirs);
    unsafe { rs_free(session) };
    Ok(())
}
