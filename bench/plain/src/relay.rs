//! What stands between a peer that speaks first and a server, or in the place of the first, over TCP.

use std::fs;
use std::io::{self, Read, Write};
use std::net::{Shutdown, TcpListener, TcpStream};
use std::thread;
use std::time::Instant;

/// Copies to the end of the reader, and gives the bytes.
fn copy(from: &mut TcpStream, to: &mut TcpStream) -> io::Result<Vec<u8>> {
    let mut all = Vec::new();
    let mut buffer = [0u8; 65_536];
    loop {
        let count = from.read(&mut buffer)?;
        if count == 0 {
            let _ = to.shutdown(Shutdown::Write);
            return Ok(all);
        }
        to.write_all(&buffer[..count])?;
        all.extend_from_slice(&buffer[..count]);
    }
}

/// Passes one connection on, keeps in the file what its peer says, and prints the bytes of the peer and of the server.
/// The address to connect to is the first line.
pub fn count(server: &str, file: &str) -> io::Result<()> {
    let listener = TcpListener::bind("127.0.0.1:0")?;
    println!("{}", listener.local_addr()?);
    let (mut near, _) = listener.accept()?;
    let mut far = TcpStream::connect(server)?;
    near.set_nodelay(true)?;
    far.set_nodelay(true)?;
    let (mut from_far, mut to_near) = (far.try_clone()?, near.try_clone()?);
    let back = thread::spawn(move || copy(&mut from_far, &mut to_near));
    let said = copy(&mut near, &mut far)?;
    let answered = back.join().expect("a thread")?;
    fs::write(file, &said)?;
    println!("{} {}", said.len(), answered.len());
    Ok(())
}

/// One session: all of the bytes are said, and all that the server says is read. How many bytes that is.
fn session(server: &str, said: &[u8]) -> io::Result<usize> {
    let mut stream = TcpStream::connect(server)?;
    stream.set_nodelay(true)?;
    let mut writer = stream.try_clone()?;
    thread::scope(|scope| {
        scope.spawn(move || writer.write_all(said));
        let mut answered = Vec::new();
        stream.read_to_end(&mut answered)?;
        Ok(answered.len())
    })
}

/// Says the bytes of the file to the server, so many times by so many threads, each to the end of the connection.
/// Prints the seconds, and the bytes of each side.
pub fn replay(server: &str, file: &str, count: usize, threads: usize) -> io::Result<()> {
    let said = fs::read(file)?;
    let start = Instant::now();
    let answered = thread::scope(|scope| {
        let said = &said;
        let shares: Vec<_> = (0..threads)
            .map(|index| {
                let share = count / threads + usize::from(index < count % threads);
                scope.spawn(move || (0..share).map(|_| session(server, said)).sum::<io::Result<usize>>())
            })
            .collect();
        shares.into_iter().map(|share| share.join().expect("a thread")).sum::<io::Result<usize>>()
    })?;
    let seconds = start.elapsed().as_secs_f64();
    println!("{seconds:.3} {} {answered}", said.len() * count);
    Ok(())
}
