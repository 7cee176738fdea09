//! Joining: the goals of several cooks become one.

use crate::command::check_goal;
use crate::sheet::{Sheet, MAX_MACHINES};
use crate::{front, refuse, Reply, LENGTH};

/// So many goals are joined at most.
pub const MAX_GOALS: usize = 8;

/// Writes the goal that allows what all the lent ones (the paper's wishes) do;
/// answers its length.
pub fn join(sheet: &[u8], goals: &[u8], out: &mut [u8]) -> Reply<usize> {
    let sheet = Sheet::read(sheet)?;
    let goals = Goals::read(goals)?;
    for goal in goals.each() {
        check_goal(&sheet, goal)?;
    }
    let (masks, longest) = goals.joined();
    let joined = &masks[..longest];
    if let Some(machine) = joined.iter().position(|&mask| mask == 0) {
        return refuse(19, machine);
    }
    front(out, longest)?.copy_from_slice(joined);
    Ok(longest)
}

/// Goals as they are lent in one slice: each after a byte with its length.
pub fn in_one_slice<G: AsRef<[u8]>>(goals: &[G]) -> Vec<u8> {
    let lent = |goal: &[u8]| [&[goal.len() as u8], goal].concat();
    goals.iter().flat_map(|goal| lent(goal.as_ref())).collect()
}

/// The goals of such a slice.
struct Goals<'a> {
    slots: [&'a [u8]; MAX_GOALS],
    count: usize,
}

impl<'a> Goals<'a> {
    /// Splits the slice: 14 for a goal that is cut short, or one too many.
    fn read(mut lent: &'a [u8]) -> Reply<Self> {
        let (mut slots, mut count) = ([[].as_slice(); MAX_GOALS], 0);
        while let Some((&length, rest)) = lent.split_first() {
            let split = rest.split_at_checked(length as usize);
            let (Some(slot), Some((goal, later))) = (slots.get_mut(count), split) else {
                return refuse(14, LENGTH);
            };
            *slot = goal;
            count += 1;
            lent = later;
        }
        Ok(Goals { slots, count })
    }

    fn each(&self) -> &[&'a [u8]] {
        &self.slots[..self.count]
    }

    /// What all of them allow each machine, and the length of the longest.
    fn joined(&self) -> ([u8; MAX_MACHINES], usize) {
        let (mut masks, mut longest) = ([u8::MAX; MAX_MACHINES], 0);
        for goal in self.each() {
            for (mask, allowed) in masks.iter_mut().zip(*goal) {
                *mask &= allowed;
            }
            longest = longest.max(goal.len());
        }
        (masks, longest)
    }
}
