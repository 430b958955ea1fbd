//! The library that is called. All that is unsafe is here: its functions, and a handle that is given back once.

use std::cell::UnsafeCell;
use std::marker::PhantomData;
use std::ptr;

use crate::Refused;

/// How many bytes an item has at most.
const MOST_BYTES: usize = 64;

/// How many bytes a selector has at most.
const MOST_SELECTOR: usize = 202;

/// The bound that is the start, or the end.
const NOTHING: &[u8] = &[];

/// What handles are of.
pub(crate) mod kind {
    pub(crate) enum Strategy {}
    pub(crate) enum Set {}
    pub(crate) enum Version {}
    pub(crate) enum Session {}
    pub(crate) enum Shards {}
}

use kind::{Session, Set, Shards, Strategy, Version};

/// A handle as the library has it: those of all kinds are alike in memory.
#[repr(C)]
pub(crate) struct Raw<K> {
    at: *mut u8,
    kind: PhantomData<K>,
}

extern "C" {
    fn rs_strategy_read(text: *const u8, length: usize, out: *mut Raw<Strategy>) -> u32;
    fn rs_set_read(strategy: *mut Raw<Strategy>, form: u32, text: *const u8, length: usize, out: *mut Raw<Set>) -> u32;
    fn rs_set_insert(set: *mut Raw<Set>, item: *const u8, length: usize, is_new: *mut bool) -> u32;
    fn rs_set_count(set: *mut Raw<Set>, count: *mut usize) -> u32;
    fn rs_set_share(set: *mut Raw<Set>, out: *mut Raw<Version>) -> u32;
    fn rs_version_count(version: *mut Raw<Version>, count: *mut usize) -> u32;
    fn rs_version_has(version: *mut Raw<Version>, item: *const u8, length: usize, found: *mut bool) -> u32;
    fn rs_version_count_in(
        version: *mut Raw<Version>,
        lower: *const u8,
        lower_length: usize,
        upper: *const u8,
        upper_length: usize,
        count: *mut usize,
    ) -> u32;
    fn rs_version_item_in(
        version: *mut Raw<Version>,
        lower: *const u8,
        lower_length: usize,
        upper: *const u8,
        upper_length: usize,
        place: usize,
        room: *mut u8,
        length: usize,
        used: *mut usize,
    ) -> u32;
    fn rs_version_part(
        version: *mut Raw<Version>,
        lower: *const u8,
        lower_length: usize,
        upper: *const u8,
        upper_length: usize,
        out: *mut Raw<Version>,
    ) -> u32;
    fn rs_session_open(version: *mut Raw<Version>, role: u32, profile: u32, out: *mut Raw<Session>) -> u32;
    fn rs_session_push(session: *mut Raw<Session>, bytes: *const u8, length: usize, taken: *mut usize) -> u32;
    fn rs_session_finish(session: *mut Raw<Session>) -> u32;
    fn rs_session_pull(session: *mut Raw<Session>, room: *mut u8, length: usize, used: *mut usize) -> u32;
    fn rs_session_state(session: *mut Raw<Session>, state: *mut u32, code: *mut u32) -> u32;
    fn rs_session_messages(session: *mut Raw<Session>, sent: *mut u32, bound: *mut u32) -> u32;
    fn rs_session_learned(session: *mut Raw<Session>, ours: *mut usize, theirs: *mut usize) -> u32;
    fn rs_session_ours(session: *mut Raw<Session>, place: usize, room: *mut u8, length: usize, used: *mut usize)
        -> u32;
    fn rs_session_theirs(
        session: *mut Raw<Session>,
        place: usize,
        room: *mut u8,
        length: usize,
        used: *mut usize,
    ) -> u32;
    fn rs_session_differing(session: *mut Raw<Session>, bits: u32, room: *mut u8, length: usize) -> u32;
    fn rs_shards_read(
        strategy: *mut Raw<Strategy>,
        name: *const u8,
        name_length: usize,
        bits: u32,
        form: u32,
        text: *const u8,
        length: usize,
        out: *mut Raw<Shards>,
    ) -> u32;
    fn rs_shards_insert(shards: *mut Raw<Shards>, item: *const u8, length: usize, is_new: *mut bool) -> u32;
    fn rs_shards_count(shards: *mut Raw<Shards>, count: *mut usize) -> u32;
    fn rs_shards_share(
        shards: *mut Raw<Shards>,
        number: u32,
        lower: *const u8,
        lower_length: usize,
        upper: *const u8,
        upper_length: usize,
        out: *mut Raw<Version>,
    ) -> u32;
    fn rs_shards_selector(
        shards: *mut Raw<Shards>,
        number: u32,
        lower: *const u8,
        lower_length: usize,
        upper: *const u8,
        upper_length: usize,
        room: *mut u8,
        length: usize,
        used: *mut usize,
    ) -> u32;
    fn rs_shards_asked(
        shards: *mut Raw<Shards>,
        bytes: *const u8,
        length: usize,
        ended: bool,
        number: *mut u32,
        used: *mut usize,
        profile: *mut u32,
        out: *mut Raw<Version>,
    ) -> u32;
    fn rs_free(handle: Raw<()>);
}

/// What a call that returned this number comes to.
fn refused(number: u32) -> Result<(), Refused> {
    if number == 0 {
        Ok(())
    } else {
        Err(Refused::here(number))
    }
}

/// A handle that was made, and is given back when it is dropped.
///
/// The library takes one call at a time for it. So it may go to another thread, but threads share none: the cell sees
/// to that. It has the type of its kind, so no call is refused 99.
pub(crate) struct Handle<K>(UnsafeCell<Raw<K>>);

// SAFETY: between calls a handle may move to another thread; the header says so.
unsafe impl<K> Send for Handle<K> {}

impl<K> Drop for Handle<K> {
    fn drop(&mut self) {
        // SAFETY: it was made, and is given back only here.
        unsafe { rs_free(Raw { at: (*self.0.get()).at, kind: PhantomData }) }
    }
}

// SAFETY, of each call below: the pointers are those of references and slices, so they are valid for the lengths beside
// them and never null; what a call writes to is a local variable or a `&mut`, and overlaps nothing; and the handles
// were made and not given back, and no other thread uses them.
impl<K> Handle<K> {
    fn made(make: impl FnOnce(*mut Raw<K>) -> u32) -> Result<Handle<K>, Refused> {
        let mut raw = Raw { at: ptr::null_mut(), kind: PhantomData };
        refused(make(&mut raw))?;
        Ok(Handle(UnsafeCell::new(raw)))
    }

    fn raw(&self) -> *mut Raw<K> {
        self.0.get()
    }

    fn count(&self, call: unsafe extern "C" fn(*mut Raw<K>, *mut usize) -> u32) -> usize {
        let mut count = 0;
        let number = unsafe { call(self.raw(), &mut count) };
        assert_eq!(number, 0, "a handle of this kind has a count");
        count
    }
}

impl Handle<Strategy> {
    pub(crate) fn strategy(text: &[u8]) -> Result<Self, Refused> {
        Handle::made(|out| unsafe { rs_strategy_read(text.as_ptr(), text.len(), out) })
    }
}

impl Handle<Set> {
    pub(crate) fn set(strategy: &Handle<Strategy>, form: u32, lines: &[u8]) -> Result<Self, Refused> {
        Handle::made(|out| unsafe { rs_set_read(strategy.raw(), form, lines.as_ptr(), lines.len(), out) })
    }

    pub(crate) fn insert(&self, item: &[u8]) -> Result<bool, Refused> {
        let mut is_new = false;
        refused(unsafe { rs_set_insert(self.raw(), item.as_ptr(), item.len(), &mut is_new) })?;
        Ok(is_new)
    }

    pub(crate) fn set_count(&self) -> usize {
        self.count(rs_set_count)
    }
}

impl Handle<Version> {
    pub(crate) fn version(set: &Handle<Set>) -> Result<Self, Refused> {
        Handle::made(|out| unsafe { rs_set_share(set.raw(), out) })
    }

    pub(crate) fn version_count(&self) -> usize {
        self.count(rs_version_count)
    }

    pub(crate) fn has(&self, item: &[u8]) -> Result<bool, Refused> {
        let mut found = false;
        refused(unsafe { rs_version_has(self.raw(), item.as_ptr(), item.len(), &mut found) })?;
        Ok(found)
    }

    pub(crate) fn count_in(&self, lower: &[u8], upper: &[u8]) -> Result<usize, Refused> {
        let mut count = 0;
        refused(unsafe {
            rs_version_count_in(self.raw(), lower.as_ptr(), lower.len(), upper.as_ptr(), upper.len(), &mut count)
        })?;
        Ok(count)
    }

    pub(crate) fn item_in(&self, lower: &[u8], upper: &[u8], place: usize) -> Result<Vec<u8>, Refused> {
        let (low, low_length, up, up_length) = (lower.as_ptr(), lower.len(), upper.as_ptr(), upper.len());
        item(|room, length, used| unsafe {
            rs_version_item_in(self.raw(), low, low_length, up, up_length, place, room, length, used)
        })
    }

    pub(crate) fn part(version: &Self, lower: &[u8], upper: &[u8]) -> Result<Self, Refused> {
        let (low, low_length, up, up_length) = (lower.as_ptr(), lower.len(), upper.as_ptr(), upper.len());
        Handle::made(|out| unsafe { rs_version_part(version.raw(), low, low_length, up, up_length, out) })
    }
}

impl Handle<Session> {
    pub(crate) fn session(version: &Handle<Version>, role: u32, profile: u32) -> Result<Self, Refused> {
        Handle::made(|out| unsafe { rs_session_open(version.raw(), role, profile, out) })
    }

    pub(crate) fn push(&mut self, bytes: &[u8]) -> Result<usize, Refused> {
        let mut taken = 0;
        refused(unsafe { rs_session_push(self.raw(), bytes.as_ptr(), bytes.len(), &mut taken) })?;
        Ok(taken)
    }

    pub(crate) fn finish(&mut self) {
        let number = unsafe { rs_session_finish(self.raw()) };
        assert_eq!(number, 0, "a session can be finished");
    }

    pub(crate) fn pull(&mut self, room: &mut [u8]) -> Result<usize, Refused> {
        let mut used = 0;
        refused(unsafe { rs_session_pull(self.raw(), room.as_mut_ptr(), room.len(), &mut used) })?;
        Ok(used)
    }

    /// How a session stands, and the number by which it is refused.
    pub(crate) fn state(&self) -> (u32, u32) {
        let (mut state, mut code) = (0, 0);
        let number = unsafe { rs_session_state(self.raw(), &mut state, &mut code) };
        assert_eq!(number, 0, "a session has a state");
        (state, code)
    }

    pub(crate) fn messages(&self) -> (u32, u32) {
        let (mut sent, mut bound) = (0, 0);
        let number = unsafe { rs_session_messages(self.raw(), &mut sent, &mut bound) };
        assert_eq!(number, 0, "a session counts its messages");
        (sent, bound)
    }

    pub(crate) fn learned(&self) -> Result<(usize, usize), Refused> {
        let (mut ours, mut theirs) = (0, 0);
        refused(unsafe { rs_session_learned(self.raw(), &mut ours, &mut theirs) })?;
        Ok((ours, theirs))
    }

    /// What is said of each shard; `bits` is at most 12.
    pub(crate) fn differing(&self, bits: u32) -> Result<Vec<u8>, Refused> {
        let mut room = vec![0; 1 << bits];
        refused(unsafe { rs_session_differing(self.raw(), bits, room.as_mut_ptr(), room.len()) })?;
        Ok(room)
    }

    pub(crate) fn ours(&self, place: usize) -> Result<Vec<u8>, Refused> {
        item(|room, length, used| unsafe { rs_session_ours(self.raw(), place, room, length, used) })
    }

    pub(crate) fn theirs(&self, place: usize) -> Result<Vec<u8>, Refused> {
        item(|room, length, used| unsafe { rs_session_theirs(self.raw(), place, room, length, used) })
    }
}

impl Handle<Shards> {
    pub(crate) fn shards(
        strategy: &Handle<Strategy>,
        (name, bits): (&[u8], u32),
        form: u32,
        lines: &[u8],
    ) -> Result<Self, Refused> {
        let (name, name_length, lines, length) = (name.as_ptr(), name.len(), lines.as_ptr(), lines.len());
        Handle::made(|out| unsafe { rs_shards_read(strategy.raw(), name, name_length, bits, form, lines, length, out) })
    }

    pub(crate) fn insert_dealt(&self, item: &[u8]) -> Result<bool, Refused> {
        let mut is_new = false;
        refused(unsafe { rs_shards_insert(self.raw(), item.as_ptr(), item.len(), &mut is_new) })?;
        Ok(is_new)
    }

    pub(crate) fn shards_count(&self) -> usize {
        self.count(rs_shards_count)
    }

    pub(crate) fn share(&self, number: u32) -> Result<Handle<Version>, Refused> {
        let none = NOTHING.as_ptr();
        Handle::made(|out| unsafe { rs_shards_share(self.raw(), number, none, 0, none, 0, out) })
    }

    pub(crate) fn selector(&self, number: u32) -> Result<Vec<u8>, Refused> {
        let (none, mut room, mut used) = (NOTHING.as_ptr(), [0; MOST_SELECTOR], 0);
        refused(unsafe {
            rs_shards_selector(self.raw(), number, none, 0, none, 0, room.as_mut_ptr(), room.len(), &mut used)
        })?;
        Ok(room[..used].to_vec())
    }

    /// The version that these bytes ask for, its number and the length of the selector.
    pub(crate) fn asked(
        &self,
        bytes: &[u8],
        ended: bool,
        profile: &mut u32,
    ) -> Result<(Handle<Version>, u32, usize), Refused> {
        let (mut number, mut used) = (0, 0);
        let version = Handle::made(|out| unsafe {
            rs_shards_asked(self.raw(), bytes.as_ptr(), bytes.len(), ended, &mut number, &mut used, profile, out)
        })?;
        Ok((version, number, used))
    }
}

/// The item that a call writes.
fn item(call: impl FnOnce(*mut u8, usize, *mut usize) -> u32) -> Result<Vec<u8>, Refused> {
    let (mut room, mut used) = ([0; MOST_BYTES], 0);
    refused(call(room.as_mut_ptr(), room.len(), &mut used))?;
    Ok(room[..used].to_vec())
}
