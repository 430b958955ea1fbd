use std::io::{self, ErrorKind, Read, Write};

use crate::library::{kind, Handle};
use crate::{Error, Profile, Refused};

/// How a session stands.
#[derive(Clone, Copy, Debug, PartialEq, Eq)]
pub enum State {
    /// It goes on.
    Open,
    /// It told all that it found.
    Ended,
    /// One of the sides refused it.
    Refused(Refused),
}

/// What a session found. Both rise.
#[derive(Clone, Debug, Default, PartialEq, Eq)]
pub struct Learned {
    /// The items that only this side has.
    pub ours: Vec<Vec<u8>>,
    /// The items that only the other side has.
    pub theirs: Vec<Vec<u8>>,
}

/// One side of a session over a version. It keeps what it needs of the version.
pub struct Session(Handle<kind::Session>);

impl Session {
    pub(crate) fn open(version: &Handle<kind::Version>, role: u32, profile: Profile) -> Result<Session, Refused> {
        Handle::session(version, role, profile as u32).map(Session)
    }

    /// Takes bytes of the peer, cut in any way, and says how many it took: all, unless memory ran out on the way.
    ///
    /// Refused 90 if it took none; push them again later. Bytes after the end of a session, or after a refusal, count
    /// no more.
    pub fn push(&mut self, bytes: &[u8]) -> Result<usize, Refused> {
        self.0.push(bytes)
    }

    /// Says that the peer's bytes end here: a session that is still open is refused 3.
    pub fn finish(&mut self) {
        self.0.finish();
    }

    /// Moves bytes that are due to the peer to `room`, all of them or as many as fit, and says how many: none if none
    /// are due. Send them all, also if the session has ended or is refused.
    ///
    /// Refused 90 if it moved none.
    pub fn pull(&mut self, room: &mut [u8]) -> Result<usize, Refused> {
        self.0.pull(room)
    }

    /// How it stands.
    pub fn state(&self) -> State {
        match self.0.state() {
            (0, _) => State::Open,
            (1, _) => State::Ended,
            (2, number) => State::Refused(Refused::here(number)),
            (_, number) => State::Refused(Refused::by_the_peer(number)),
        }
    }

    /// How many messages it said.
    pub fn sent(&self) -> u32 {
        self.0.messages().0
    }

    /// How many messages it says at most, whatever comes.
    pub fn bound(&self) -> u32 {
        self.0.messages().1
    }

    /// What it found, once it has ended. It gives the refusal of a session that was refused, and 98 while it goes on.
    pub fn learned(&self) -> Result<Learned, Refused> {
        if let State::Refused(refused) = self.state() {
            return Err(refused);
        }
        let (ours, theirs) = self.0.learned()?;
        let mut learned = Learned {
            ours: (0..ours).map(|place| self.0.ours(place)).collect::<Result<_, _>>()?,
            theirs: (0..theirs).map(|place| self.0.theirs(place)).collect::<Result<_, _>>()?,
        };
        learned.ours.sort();
        learned.theirs.sort();
        Ok(learned)
    }

    /// What it says of each of 2 to the power of `bits` shards, once it has ended over two directories.
    pub(crate) fn differing(&self, bits: u8) -> Result<Vec<u8>, Refused> {
        self.0.differing(u32::from(bits))
    }

    /// Speaks with the peer over a connection until the session is over, and gives what it found.
    ///
    /// It waits as long as the peer does: a timeout of the connection sets a limit. Bytes that the peer sends after the
    /// end of the session may be lost. The session is refused 3 if the peer's bytes end before it does. After an error
    /// it is of no more use: bytes may be lost.
    pub fn run<C: Read + Write>(&mut self, mut connection: C) -> Result<Learned, Error> {
        let mut room = vec![0; 65_536];
        loop {
            let sent = self.send(&mut connection, &mut room);
            // A refusal stands, whether the peer can be told of it or not.
            if let State::Refused(refused) = self.state() {
                return Err(refused.into());
            }
            sent?;
            if self.state() == State::Ended {
                return Ok(self.learned()?);
            }
            self.hear(&mut connection, &mut room)?;
        }
    }

    /// Writes all that is due to the peer.
    fn send(&mut self, connection: &mut impl Write, room: &mut [u8]) -> Result<(), Error> {
        loop {
            let used = self.pull(room)?;
            if used == 0 {
                return Ok(connection.flush()?);
            }
            connection.write_all(&room[..used])?;
        }
    }

    /// Reads once, and takes what came.
    fn hear(&mut self, connection: &mut impl Read, room: &mut [u8]) -> Result<(), Error> {
        let count = read(connection, room)?;
        if count == 0 {
            self.finish();
        }
        let mut came = &room[..count];
        while !came.is_empty() {
            let taken = self.push(came)?;
            came = &came[taken..];
        }
        Ok(())
    }
}

/// One read that no signal interrupted.
pub(crate) fn read(connection: &mut impl Read, room: &mut [u8]) -> io::Result<usize> {
    loop {
        match connection.read(room) {
            Err(fault) if fault.kind() == ErrorKind::Interrupted => {}
            other => return other,
        }
    }
}
