use std::io::{self, Cursor, Read, Write};

use crate::library::{kind, Handle};
use crate::{Error, Form, Learned, Profile, Refused, Session, Strategy, Version};

/// The number that stands for the directory.
const DIRECTORY: u32 = 0xFFFF;

/// The greatest number of bits.
const MOST_BITS: u8 = 12;

/// What is said of a shard of which the peer has another entry, or none.
const DIFFERS: u8 = 1;
const LACKED: u8 = 2;

/// A set of any size: 2 to the power of `bits` sets, of which each has at most as many items as its strategy's cap. An
/// item is in the shard that the first bits of its SHA-256 digest number.
pub struct Shards {
    handle: Handle<kind::Shards>,
    bits: u8,
}

impl Shards {
    /// A set without items. The other side needs the same name and the same bits.
    ///
    /// Refused 98 for a name of more than 64 bytes or more than 12 bits, and 82 if there are more shards than the cap.
    pub fn new(strategy: &Strategy, name: &[u8], bits: u8) -> Result<Shards, Refused> {
        Shards::read(strategy, name, bits, Form::Hex, &[])
    }

    /// The set of an item file, at once. Refused as by [`Shards::new`], 81 if a line is no item, and 82 if a shard has
    /// more different items than the cap.
    pub fn read(strategy: &Strategy, name: &[u8], bits: u8, form: Form, lines: &[u8]) -> Result<Shards, Refused> {
        let handle = Handle::shards(&strategy.0, (name, u32::from(bits)), form as u32, lines)?;
        Ok(Shards { handle, bits })
    }

    /// Puts an item in, and says whether it is new.
    ///
    /// Refused 71 and 72 if the item has no byte or more than 64, and 40 if it is new and its shard is full.
    pub fn insert(&mut self, item: &[u8]) -> Result<bool, Refused> {
        self.handle.insert_dealt(item)
    }

    /// Puts the items in, one after the other, and says how many are new.
    ///
    /// Refused as by [`Shards::insert`]. The items before that one are then in the set, and none after it.
    pub fn insert_all<I>(&mut self, items: I) -> Result<usize, Refused>
    where
        I: IntoIterator,
        I::Item: AsRef<[u8]>,
    {
        let mut new = 0;
        for item in items {
            new += usize::from(self.insert(item.as_ref())?);
        }
        Ok(new)
    }

    /// How many items all shards have.
    pub fn len(&self) -> usize {
        self.handle.shards_count()
    }

    /// Whether it has no items.
    pub fn is_empty(&self) -> bool {
        self.len() == 0
    }

    /// A shard as it is now, by its number. Refused 98 if there is none.
    pub fn version(&self, number: u16) -> Result<Version, Refused> {
        if number >> self.bits.min(MOST_BITS) != 0 {
            return Err(Refused::here(98));
        }
        self.handle.share(u32::from(number)).map(Version)
    }

    /// Finds how this set and that of the other side, as `rangesync serve --shards`, differ. This side speaks first.
    ///
    /// `connect` opens a connection for the directory, and one for each shard that differs. Nothing is put in. Refused
    /// 57 if the peer's directory is none, 56 if the peer lacks a shard, and else as [`Session::run`] says.
    pub fn reconcile<C: Read + Write>(&self, mut connect: impl FnMut() -> io::Result<C>) -> Result<Learned, Error> {
        if self.bits == 0 {
            return self.ask(0, &mut connect, Session::learned);
        }
        let told = self.ask(DIRECTORY, &mut connect, |session| session.differing(self.bits))?;
        if told.contains(&LACKED) {
            return Err(Refused::here(56).into());
        }
        let mut found = Learned::default();
        for (number, _) in (0..).zip(told).filter(|(_, said)| *said == DIFFERS) {
            let learned = self.ask(number, &mut connect, Session::learned)?;
            found.ours.extend(learned.ours);
            found.theirs.extend(learned.theirs);
        }
        found.ours.sort();
        found.theirs.sort();
        Ok(found)
    }

    /// What is told of a session over a shard, or over the directory, on a connection of its own.
    fn ask<C: Read + Write, T>(
        &self,
        number: u32,
        connect: &mut impl FnMut() -> io::Result<C>,
        told: impl FnOnce(&Session) -> Result<T, Refused>,
    ) -> Result<T, Error> {
        let mut session = Version(self.handle.share(number)?).initiate(Profile::One)?;
        let selector = self.handle.selector(number)?;
        session.run(Selecting { connection: connect()?, selector })?;
        Ok(told(&session)?)
    }

    /// Runs the session of one connection, whose peer speaks first, as `rangesync sync --shards` does: for a shard as
    /// it is now, or the directory, or a part of these. It gives what was found in a shard; of the directory, which has
    /// no item, nothing. Nothing is put in.
    ///
    /// Refused 1 if the peer does not say which set it asks for, 55 if that is another one, and else as
    /// [`Session::run`] says.
    pub fn answer<C: Read + Write>(&self, mut connection: C) -> Result<Learned, Error> {
        let (mut came, mut ended, mut profile) = (Vec::new(), false, 1);
        loop {
            match self.handle.asked(&came, ended, &mut profile) {
                Ok((version, number, used)) => {
                    let profile = if profile == 2 { Profile::Two } else { Profile::One };
                    let mut session = Version(version).respond(profile)?;
                    let learned = session.run(After { came: Cursor::new(&came[used..]), connection })?;
                    return Ok(if number == DIRECTORY { Learned::default() } else { learned });
                }
                Err(refused) if refused.number() == 98 => ended = read_more(&mut connection, &mut came)?,
                Err(refused) => {
                    if let Some(number) = u8::try_from(refused.number()).ok().filter(|number| *number < 90) {
                        let fault = [b'R', b'R', b'S', b'0' + profile as u8, 0, 0, 0, 2, 5, number];
                        // The refusal stands, whether the peer can be told of it or not.
                        let _ = connection.write_all(&fault).and_then(|()| connection.flush());
                    }
                    return Err(refused.into());
                }
            }
        }
    }
}

/// Reads once, and says whether nothing more comes.
fn read_more(connection: &mut impl Read, came: &mut Vec<u8>) -> io::Result<bool> {
    let mut room = [0; 4096];
    let count = crate::sessions::read(connection, &mut room)?;
    came.extend_from_slice(&room[..count]);
    Ok(count == 0)
}

/// A connection that sends a selector first, in one piece with what follows it.
struct Selecting<C> {
    connection: C,
    selector: Vec<u8>,
}

impl<C: Read> Read for Selecting<C> {
    fn read(&mut self, room: &mut [u8]) -> io::Result<usize> {
        self.connection.read(room)
    }
}

impl<C: Write> Write for Selecting<C> {
    fn write(&mut self, bytes: &[u8]) -> io::Result<usize> {
        if self.selector.is_empty() {
            return self.connection.write(bytes);
        }
        self.selector.extend_from_slice(bytes);
        self.connection.write_all(&std::mem::take(&mut self.selector))?;
        Ok(bytes.len())
    }

    fn flush(&mut self) -> io::Result<()> {
        self.connection.flush()
    }
}

/// A connection of which some bytes were read before.
struct After<'a, C> {
    came: Cursor<&'a [u8]>,
    connection: C,
}

impl<C: Read> Read for After<'_, C> {
    fn read(&mut self, room: &mut [u8]) -> io::Result<usize> {
        match self.came.read(room)? {
            0 => self.connection.read(room),
            count => Ok(count),
        }
    }
}

impl<C: Write> Write for After<'_, C> {
    fn write(&mut self, bytes: &[u8]) -> io::Result<usize> {
        self.connection.write(bytes)
    }

    fn flush(&mut self) -> io::Result<()> {
        self.connection.flush()
    }
}
