use std::io::{Read, Write};

use crate::library::{kind, Handle};
use crate::{Error, Learned, Refused, Session};

/// What a session does with a range, by how many items of this side are in it.
pub struct Strategy(pub(crate) Handle<kind::Strategy>);

impl Strategy {
    /// Reads a strategy, a text in TOML, and checks that sessions under it end. Refused 28 to 38 if not.
    pub fn read(text: &[u8]) -> Result<Strategy, Refused> {
        Handle::strategy(text).map(Strategy)
    }
}

/// How an item file has its items: one on each line.
#[derive(Clone, Copy, Debug, PartialEq, Eq)]
pub enum Form {
    /// In hex.
    Hex = 0,
    /// As they stand; but a line that begins with `0x` is an item in hex.
    Text = 1,
}

/// A form of the wire format. Both sides of a session need the same one; `rangesync serve` speaks each.
#[derive(Clone, Copy, Debug, Default, PartialEq, Eq)]
pub enum Profile {
    /// Profile 1.
    #[default]
    One = 1,
    /// Profile 2, with the count of items beside each fingerprint.
    Two = 2,
}

/// A set of items of 1 to 64 bytes each, at most as many as its strategy's cap.
pub struct Set(Handle<kind::Set>);

impl Set {
    /// A set without items.
    pub fn new(strategy: &Strategy) -> Result<Set, Refused> {
        Set::read(strategy, Form::Hex, &[])
    }

    /// The set of an item file. Refused 81 if a line is no item, and 82 if there are more different items than the cap.
    pub fn read(strategy: &Strategy, form: Form, lines: &[u8]) -> Result<Set, Refused> {
        Handle::set(&strategy.0, form as u32, lines).map(Set)
    }

    /// Puts an item in, and says whether it is new. Versions that were taken before stay as they are.
    ///
    /// Refused 71 and 72 if the item has no byte or more than 64, and 40 if it is new and the set is full.
    pub fn insert(&mut self, item: &[u8]) -> Result<bool, Refused> {
        self.0.insert(item)
    }

    /// Puts the items in, one after the other, and says how many are new.
    ///
    /// Refused as by [`Set::insert`]. The items before that one are then in the set, and none after it.
    pub fn insert_all<I>(&mut self, items: I) -> Result<usize, Refused>
    where
        I: IntoIterator,
        I::Item: AsRef<[u8]>,
    {
        let mut new = 0;
        for item in items {
            new += usize::from(self.insert(item.as_ref())?);
        }
        Ok(new)
    }

    /// How many items it has.
    pub fn len(&self) -> usize {
        self.0.set_count()
    }

    /// Whether it has no items.
    pub fn is_empty(&self) -> bool {
        self.len() == 0
    }

    /// The set as it is now.
    pub fn version(&self) -> Result<Version, Refused> {
        Handle::version(&self.0).map(Version)
    }

    /// [`Version::reconcile`], over the set as it is now.
    pub fn reconcile<C: Read + Write>(&self, connection: C) -> Result<Learned, Error> {
        self.version()?.reconcile(connection)
    }

    /// [`Version::answer`], over the set as it is now.
    pub fn answer<C: Read + Write>(&self, connection: C) -> Result<Learned, Error> {
        self.version()?.answer(connection)
    }
}

/// A set as it was when the version was taken.
pub struct Version(pub(crate) Handle<kind::Version>);

impl Version {
    /// How many items it has.
    pub fn len(&self) -> usize {
        self.0.version_count()
    }

    /// Whether it has no items.
    pub fn is_empty(&self) -> bool {
        self.len() == 0
    }

    /// Whether it has an item. Refused 71 and 72 if this is none.
    pub fn contains(&self, item: &[u8]) -> Result<bool, Refused> {
        self.0.has(item)
    }

    /// How many items it has from the lower bound on and before the upper one. Items are in the order of their bytes,
    /// and an empty bound is the start, or the end.
    ///
    /// Refused 72 if a bound has more than 64 bytes, and 73 if the lower one is not below the upper one.
    pub fn count(&self, lower: &[u8], upper: &[u8]) -> Result<usize, Refused> {
        self.0.count_in(lower, upper)
    }

    /// These items, rising. Refused as by [`Version::count`].
    pub fn items(&self, lower: &[u8], upper: &[u8]) -> Result<Vec<Vec<u8>>, Refused> {
        (0..self.count(lower, upper)?).map(|place| self.0.item_in(lower, upper, place)).collect()
    }

    /// The version that has these items alone; this one stays as it is. Refused as by [`Version::count`].
    ///
    /// A session between two parts with the same bounds finds how the items there differ.
    pub fn part(&self, lower: &[u8], upper: &[u8]) -> Result<Version, Refused> {
        Handle::part(&self.0, lower, upper).map(Version)
    }

    /// A session that speaks first.
    pub fn initiate(&self, profile: Profile) -> Result<Session, Refused> {
        Session::open(&self.0, 0, profile)
    }

    /// A session whose peer speaks first.
    pub fn respond(&self, profile: Profile) -> Result<Session, Refused> {
        Session::open(&self.0, 1, profile)
    }

    /// Runs a session with a peer that answers, as `rangesync serve` does, in profile 1. See [`Session::run`].
    pub fn reconcile<C: Read + Write>(&self, connection: C) -> Result<Learned, Error> {
        self.initiate(Profile::One)?.run(connection)
    }

    /// Runs a session with a peer that speaks first, as `rangesync sync` does, in profile 1. See [`Session::run`].
    pub fn answer<C: Read + Write>(&self, connection: C) -> Result<Learned, Error> {
        self.respond(Profile::One)?.run(connection)
    }
}
