//! A second version of the kitchen duty planner, in plain Rust, written apart
//! from the proved one. The tests hold the two against each other and the
//! benchmark measures one by the other.

pub mod arrays;
pub mod both;
pub mod calls;
pub mod clean;
pub mod command;
pub mod definition;
pub mod draft;
pub mod expected;
pub mod faults;
pub mod graph;
pub mod groups;
pub mod header;
pub mod inputs;
pub mod join;
pub mod library;
pub mod pictures;
pub mod plain;
pub mod plan;
pub mod random;
pub mod records;
pub mod samples;
pub mod sent;
pub mod shape;
pub mod sheet;
pub mod state;
pub mod version;
pub mod walk;

use std::io::Write;

/// Why a call is turned down: the number of the cause and the place of it.
#[derive(Clone, Copy, Debug, PartialEq, Eq)]
pub struct Refusal {
    pub number: u32,
    pub place: u32,
}

pub type Reply<T> = Result<T, Refusal>;

/// The place of 13 and 14 where the length is wrong.
pub const LENGTH: usize = 255;

/// A refused reply.
pub fn refuse<T>(number: u32, place: usize) -> Reply<T> {
    let place = place as u32;
    Err(Refusal { number, place })
}

/// The front of a lent buffer, for an output of this length: 12 if the buffer is
/// shorter.
pub fn front(out: &mut [u8], length: usize) -> Reply<&mut [u8]> {
    out.get_mut(..length).map_or_else(|| refuse(12, 0), Ok)
}

/// The members of a bit set, lowest first.
pub fn bits(mut set: u64) -> impl Iterator<Item = usize> {
    std::iter::from_fn(move || {
        let lowest = (set != 0).then(|| set.trailing_zeros() as usize)?;
        set &= set - 1;
        Some(lowest)
    })
}

/// The highest member of a bit set, if it has one.
pub fn highest(set: u32) -> Option<usize> {
    set.checked_ilog2().map(|bit| bit as usize)
}

/// Writes a line that the test harness does not hold back.
pub fn say(line: String) {
    let line = line + "\n";
    std::io::stderr()
        .write_all(line.as_bytes())
        .expect("standard error");
}
