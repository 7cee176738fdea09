//! The state: two bytes for each machine, its mode and then its tag.

use crate::sheet::Sheet;
use crate::{refuse, Reply, LENGTH};

/// A state that fits its sheet.
#[derive(Clone, Copy)]
pub struct State<'a> {
    /// Each machine's mode and tag.
    cells: &'a [[u8; 2]],
}

impl<'a> State<'a> {
    /// Judges a state (13): its length, then each machine's mode and tag.
    pub fn read(sheet: &Sheet, bytes: &'a [u8]) -> Reply<Self> {
        let (cells, odd) = bytes.as_chunks::<2>();
        if cells.len() != sheet.machines() || !odd.is_empty() {
            return refuse(13, LENGTH);
        }
        let mut machines = cells.iter().enumerate();
        match machines.find(|(machine, [mode, tag])| *mode >= sheet.count(*machine) || *tag > 1) {
            Some((machine, _)) => refuse(13, machine),
            None => Ok(State { cells }),
        }
    }

    /// The mode that a machine is in.
    #[inline]
    pub fn mode(self, machine: usize) -> u8 {
        self.cells[machine][0]
    }

    /// Whether a tag hangs on a machine, so that nobody may move it.
    #[inline]
    pub fn is_tagged(self, machine: usize) -> bool {
        self.cells[machine][1] != 0
    }
}

/// Puts a machine in a mode; tags stay.
pub fn set_mode(bytes: &mut [u8], machine: usize, mode: u8) {
    let (cells, _) = bytes.as_chunks_mut::<2>();
    cells[machine][0] = mode;
}

/// The state of machines in these modes, with no tags.
pub fn untagged(modes: &[u8]) -> Vec<u8> {
    modes.iter().flat_map(|&mode| [mode, 0]).collect()
}

/// Writes a machine's tag, which no call of the planner does.
pub fn set_tag(bytes: &mut [u8], machine: usize, tag: u8) {
    let (cells, _) = bytes.as_chunks_mut::<2>();
    cells[machine][1] = tag;
}

/// A state with a tag hung on one machine more.
pub fn tagged(bytes: &[u8], machine: usize) -> Vec<u8> {
    let mut tagged = bytes.to_vec();
    set_tag(&mut tagged, machine, 1);
    tagged
}

/// Bytes lent as a state, with all tags lifted.
pub fn lifted(bytes: &[u8]) -> Vec<u8> {
    let mut lifted = bytes.to_vec();
    for machine in 0..lifted.len() / 2 {
        set_tag(&mut lifted, machine, 0);
    }
    lifted
}
