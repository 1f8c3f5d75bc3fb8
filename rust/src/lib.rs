//! A watcher for event patterns: safe calls over the proved library.
//!
//! A pattern's text is read into a body, a body opens a state in words that the caller lends, and each tick with its events
//! tells the window that ends there. No call allocates or keeps what it was lent, and a refused call changes nothing.
//!
//! ```
//! use mws::{text_read, watch_open, watch_room, watch_tick, Refusal, Tally, BODY_BYTES};
//!
//! const STEP: u32 = mws::event(b'S');
//! const SETTLED: u32 = mws::event(b'P');
//! const YAW: u32 = mws::event(b'Y');
//!
//! fn main() -> Result<(), Refusal> {
//!     let mut body = [0; BODY_BYTES];
//!     let bytes = text_read(b"(((S;P)@600)-Y)", &mut body)?;
//!     let body = &body[..bytes];
//!
//!     let mut state = [0; 64];
//!     assert_eq!(watch_room(body)?, 11);
//!     watch_open(body, &mut state)?;
//!
//!     let mut tally = Tally::default();
//!     assert_eq!(watch_tick(&mut state, 10, STEP)?, None);
//!     assert_eq!(watch_tick(&mut state, 120, SETTLED)?, Some(10));
//!     tally.add(10, 120)?;
//!     assert_eq!(watch_tick(&mut state, 340, STEP | YAW)?, None);
//!     assert_eq!(watch_tick(&mut state, 420, SETTLED)?, None);
//!     assert_eq!(watch_tick(&mut state, 420, YAW), Err(Refusal::Late { index: 0 }));
//!     assert_eq!(tally, Tally { windows: 1, ticks: 111 });
//!     Ok(())
//! }
//! ```
#![no_std]

mod calls;
mod refusal;

use core::ops::Range;
pub use refusal::Refusal;

/// The bytes of the longest body.
pub const BODY_BYTES: usize = 315;
/// The bytes of the longest text that a body prints as.
pub const TEXT_BYTES: usize = 807;
/// The rows of the plain evaluation for each entry of a body.
pub const ROWS: usize = 64;
/// The last tick that a state takes.
pub const LAST_TICK: u64 = u32::MAX as u64;

/// The word with the event of a letter, `A` to `Z` or `a` to `f`; no event for any other byte.
pub const fn event(letter: u8) -> u32 {
    match letter {
        b'A'..=b'Z' => 1 << (letter - b'A'),
        b'a'..=b'f' => 1 << (letter - b'a' + 26),
        _ => 0,
    }
}

/// Checks a body: 5 bytes an entry, 1 to 63 entries, one tree.
pub fn body_check(body: &[u8]) -> Result<(), Refusal> {
    // SAFETY: the pointer and the length are those of one slice.
    accepted(unsafe { calls::mws_body_check(body.as_ptr(), body.len()) })
}

/// Reads a pattern's text into a body; gives the bytes written, at most [`BODY_BYTES`].
pub fn text_read(text: &[u8], body: &mut [u8]) -> Result<usize, Refusal> {
    // SAFETY: each pointer and length are those of one slice, and the slices are apart.
    told(|written| unsafe { calls::mws_text_read(text.as_ptr(), text.len(), body.as_mut_ptr(), body.len(), written) })
}

/// Prints a body as its pattern's text; gives the bytes written, at most [`TEXT_BYTES`].
pub fn text_print(body: &[u8], text: &mut [u8]) -> Result<usize, Refusal> {
    // SAFETY: each pointer and length are those of one slice, and the slices are apart.
    told(|written| unsafe { calls::mws_text_print(body.as_ptr(), body.len(), text.as_mut_ptr(), text.len(), written) })
}

/// Checks a pattern file.
pub fn file_check(file: &[u8]) -> Result<(), Refusal> {
    // SAFETY: the pointer and the length are those of one slice.
    accepted(unsafe { calls::mws_file_check(file.as_ptr(), file.len()) })
}

/// Writes a pattern file of names (8 bytes each, padded with spaces, rising), numbers of entries (one a pattern) and bodies
/// end to end; gives the bytes written.
pub fn file_write(names: &[u8], counts: &[u8], bodies: &[u8], file: &mut [u8]) -> Result<usize, Refusal> {
    // SAFETY: each pointer and length are those of one slice, and the slices are apart.
    told(|written| unsafe {
        calls::mws_file_write(
            names.as_ptr(),
            names.len(),
            counts.as_ptr(),
            counts.len(),
            bodies.as_ptr(),
            bodies.len(),
            file.as_mut_ptr(),
            file.len(),
            written,
        )
    })
}

/// One of the two files of a lookup.
#[derive(Clone, Copy, Debug, PartialEq, Eq, Hash)]
pub enum Whose {
    /// The site file, examined first.
    Site,
    /// The fleet file.
    Fleet,
}

/// Where a lookup found the body of a name.
#[derive(Clone, Debug, PartialEq, Eq, Hash)]
pub struct Found {
    /// The file that holds the body.
    pub whose: Whose,
    /// The bytes of that file which are the body.
    pub body: Range<usize>,
}

impl Found {
    /// The bytes of the body, out of the two files of the lookup. They are empty if the file has become too short for it.
    pub fn part<'a>(&self, site: &'a [u8], fleet: &'a [u8]) -> &'a [u8] {
        let file = match self.whose {
            Whose::Site => site,
            Whose::Fleet => fleet,
        };
        file.get(self.body.clone()).unwrap_or_default()
    }
}

/// Why a lookup found nothing.
#[derive(Clone, Copy, Debug, PartialEq, Eq, Hash)]
pub struct Missed {
    /// The file that was refused; none if the name is in neither.
    pub whose: Option<Whose>,
    /// What was refused.
    pub refusal: Refusal,
}

/// Looks a padded name up, in the site file first: which file holds the body, and where. [`Found::part`] gives its bytes.
pub fn file_lookup(site: &[u8], fleet: &[u8], name: &[u8]) -> Result<Found, Missed> {
    let (mut from, mut length) = (0, 0);
    // SAFETY: each pointer and length are those of one slice, and the two words are apart.
    let status = unsafe {
        calls::mws_file_lookup(
            site.as_ptr(),
            site.len(),
            fleet.as_ptr(),
            fleet.len(),
            name.as_ptr(),
            name.len(),
            &mut from,
            &mut length,
        )
    };
    let whose = if status >> 48 & 0xf == 0 { Whose::Site } else { Whose::Fleet };
    match Refusal::of(status) {
        None => Ok(Found { whose, body: from as usize..(from + length) as usize }),
        Some(Refusal::Absent) => Err(Missed { whose: None, refusal: Refusal::Absent }),
        Some(refusal) => Err(Missed { whose: Some(whose), refusal }),
    }
}

/// Evaluates a body on at most 64 event words: [`ROWS`] rows for each entry, bit s of row e for the instance from s to e.
pub fn plain(body: &[u8], events: &[u32], rows: &mut [u64]) -> Result<(), Refusal> {
    // SAFETY: each pointer and length are those of one slice, and the slices are apart.
    accepted(unsafe {
        calls::mws_plain(body.as_ptr(), body.len(), events.as_ptr(), events.len(), rows.as_mut_ptr(), rows.len())
    })
}

/// The latest start of a row.
pub fn row_latest(row: u64) -> Option<u32> {
    // SAFETY: the call takes a word and touches nothing else.
    start(unsafe { calls::mws_row_latest(row) }).map(|start| start as u32)
}

/// How many instances a row shows.
pub fn row_count(row: u64) -> u32 {
    // SAFETY: the call takes a word and touches nothing else.
    unsafe { calls::mws_row_count(row) as u32 }
}

/// The words that a body's state takes.
pub fn watch_room(body: &[u8]) -> Result<usize, Refusal> {
    // SAFETY: the pointer and the length are those of one slice.
    told(|words| unsafe { calls::mws_watch_room(body.as_ptr(), body.len(), words) })
}

/// Opens a state for a body; words beyond its room are never touched.
pub fn watch_open(body: &[u8], state: &mut [u64]) -> Result<(), Refusal> {
    // SAFETY: each pointer and length are those of one slice, and the slices are apart.
    accepted(unsafe { calls::mws_watch_open(body.as_ptr(), body.len(), state.as_mut_ptr(), state.len()) })
}

/// Takes a tick with its word of events: the latest start of a window that ends there.
pub fn watch_tick(state: &mut [u64], tick: u64, events: u32) -> Result<Option<u64>, Refusal> {
    let mut answer = 0;
    // SAFETY: the pointer and the length are those of one slice, and the answer is apart from it.
    accepted(unsafe { calls::mws_watch_tick(state.as_mut_ptr(), state.len(), tick, events, &mut answer) })?;
    Ok(start(answer))
}

/// Takes many ticks, all or none, with one answer a tick: start + 1 or 0, which [`start`] reads.
pub fn watch_feed(state: &mut [u64], ticks: &[u64], events: &[u32], answers: &mut [u64]) -> Result<(), Refusal> {
    // SAFETY: each pointer and length are those of one slice, and the slices are apart.
    accepted(unsafe {
        calls::mws_watch_feed(
            state.as_mut_ptr(),
            state.len(),
            ticks.as_ptr(),
            ticks.len(),
            events.as_ptr(),
            events.len(),
            answers.as_mut_ptr(),
            answers.len(),
        )
    })
}

/// The words that the states of a file's patterns take.
pub fn set_room(file: &[u8]) -> Result<usize, Refusal> {
    // SAFETY: the pointer and the length are those of one slice.
    told(|words| unsafe { calls::mws_set_room(file.as_ptr(), file.len(), words) })
}

/// Opens a state for each pattern of a file, one after the other in the slice.
pub fn set_open(file: &[u8], states: &mut [u64]) -> Result<(), Refusal> {
    // SAFETY: each pointer and length are those of one slice, and the slices are apart.
    accepted(unsafe { calls::mws_set_open(file.as_ptr(), file.len(), states.as_mut_ptr(), states.len()) })
}

/// Takes a tick in each of `count` states, all or none, with one answer a pattern: start + 1 or 0, which [`start`] reads.
pub fn set_tick(states: &mut [u64], count: u64, tick: u64, events: u32, answers: &mut [u64]) -> Result<(), Refusal> {
    // SAFETY: each pointer and length are those of one slice, and the slices are apart.
    accepted(unsafe {
        calls::mws_set_tick(states.as_mut_ptr(), states.len(), count, tick, events, answers.as_mut_ptr(), answers.len())
    })
}

/// The start that an answer of a feed or a set tells.
pub const fn start(answer: u64) -> Option<u64> {
    answer.checked_sub(1)
}

/// A tally of windows.
#[repr(C)]
#[derive(Clone, Copy, Debug, Default, PartialEq, Eq, Hash)]
pub struct Tally {
    /// How many windows were added.
    pub windows: u64,
    /// The sum of end - start + 1 over them.
    pub ticks: u64,
}

impl Tally {
    /// Adds the window from start to end.
    pub fn add(&mut self, start: u64, end: u64) -> Result<(), Refusal> {
        // SAFETY: the record has the two words that the call takes.
        accepted(unsafe { calls::mws_tally_add(self, start, end) })
    }
}

/// What a status word says.
fn accepted(status: u64) -> Result<(), Refusal> {
    Refusal::of(status).map_or(Ok(()), Err)
}

/// What a call tells in the word lent to it.
fn told(call: impl FnOnce(&mut u64) -> u64) -> Result<usize, Refusal> {
    let mut word = 0;
    accepted(call(&mut word))?;
    Ok(word as usize)
}
