//! The moves that a sheet sends, by their keys: machine, from mode and command.

use crate::sheet::{MAX_MACHINES, MAX_MODES};

/// Slots of the table, so that it is at most half full.
const SLOTS: usize = 512;

/// The key of each move and the move's number: an open hash table. No key is 0,
/// since no command is.
pub struct Sent {
    keys: [u16; SLOTS],
    /// For each slot that has a key, the number of its move.
    owners: [u8; SLOTS],
}

/// The slot where a key is looked for first.
pub fn own_slot(key: u16) -> usize {
    ((key as u32).wrapping_mul(0x9E37_79B1) >> 23) as usize
}

/// The bits of a key, which are its own for machines below 32 and modes below 8.
#[inline]
fn packed([machine, from, command]: [u8; 3]) -> u16 {
    (machine as u16) << 11 | (from as u16) << 8 | command as u16
}

impl Sent {
    pub fn empty() -> Self {
        Sent {
            keys: [0; SLOTS],
            owners: [0; SLOTS],
        }
    }

    /// The slot that has a key, or else the free one where it belongs.
    #[inline(always)]
    fn slot(&self, key: u16) -> Result<usize, usize> {
        let mut slot = own_slot(key);
        while self.keys[slot] != 0 {
            if self.keys[slot] == key {
                return Ok(slot);
            }
            slot = (slot + 1) % SLOTS;
        }
        Err(slot)
    }

    /// Adds a move of this number; false if one with its key was there.
    #[inline]
    pub fn insert(&mut self, key: [u8; 3], number: usize) -> bool {
        let key = packed(key);
        let Err(free) = self.slot(key) else {
            return false;
        };
        self.keys[free] = key;
        self.owners[free] = number as u8;
        true
    }

    /// The number of the move with this key, which may be any bytes.
    pub fn find(&self, key: [u8; 3]) -> Option<usize> {
        if key[0] as usize >= MAX_MACHINES || key[1] >= MAX_MODES {
            return None;
        }
        let slot = self.slot(packed(key)).ok()?;
        Some(self.owners[slot] as usize)
    }
}
