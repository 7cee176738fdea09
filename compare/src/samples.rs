//! Sheets made to measure: a builder, the stove, and the extreme ones.

use crate::sent::own_slot;
use crate::sheet::{MAX_AMENDMENTS, MAX_MACHINES, MAX_MOVES};

/// Makes a sheet record by record and checks nothing.
#[derive(Clone, Default)]
pub struct Builder {
    bytes: Vec<u8>,
}

impl Builder {
    pub fn new() -> Self {
        Self::default()
    }

    /// The records of a whole sheet but for its end.
    pub fn reopened(sheet: &[u8]) -> Self {
        let bytes = sheet[..sheet.len() - 4].to_vec();
        Builder { bytes }
    }

    pub fn record(mut self, kind: u16, body: &[u8]) -> Self {
        self.bytes.extend((body.len() as u16).to_le_bytes());
        self.bytes.extend(kind.to_le_bytes());
        self.bytes.extend(body);
        self
    }

    pub fn machine(self, modes: u8, live: u8) -> Self {
        self.record(1, &[modes, live])
    }

    /// Machines with all their modes live.
    pub fn machines(self, number: usize, modes: u8) -> Self {
        (0..number).fold(self, |sheet, _| {
            sheet.machine(modes, u8::MAX >> (8 - modes))
        })
    }

    /// A move: machine, from, to and command, then its guards.
    pub fn step(self, fields: [u8; 4], guards: &[[u8; 2]]) -> Self {
        self.record(2, &[&fields, guards.as_flattened()].concat())
    }

    /// Puts a move in the place of the one with its machine, from and command.
    pub fn replace(self, fields: [u8; 4], guards: &[[u8; 2]]) -> Self {
        self.record(4, &[&fields, guards.as_flattened()].concat())
    }

    /// Withdraws the move with this machine, from and command.
    pub fn withdraw(self, key: [u8; 3]) -> Self {
        self.record(5, &key)
    }

    pub fn end(self) -> Vec<u8> {
        self.record(3, &[]).bytes
    }

    /// What is there so far, with no end.
    pub fn unfinished(self) -> Vec<u8> {
        self.bytes
    }

    /// One way round through all modes, always with command 1.
    fn ring(self, machine: u8, modes: u8, guards: impl Fn(u8) -> Vec<[u8; 2]>) -> Self {
        (0..modes).fold(self, |sheet, mode| {
            sheet.step([machine, mode, (mode + 1) % modes, 1], &guards(mode))
        })
    }
}

/// Board, fan and burner.
pub fn stove() -> Vec<u8> {
    stove_records().end()
}

/// The stove with no end record yet.
pub fn stove_records() -> Builder {
    Builder::new()
        .machines(2, 2)
        .machines(1, 3)
        .step([0, 0, 1, 1], &[])
        .step([0, 1, 0, 2], &[])
        .step([1, 0, 1, 1], &[[0, 2], [2, 1]])
        .step([1, 1, 0, 2], &[[0, 2], [2, 1]])
        .step([2, 0, 1, 1], &[[0, 2], [1, 2]])
        .step([2, 1, 0, 2], &[[0, 2]])
        .step([2, 2, 0, 3], &[[0, 2]])
}

/// A filter that is used once, and a pan that needs it used.
pub fn filter() -> Vec<u8> {
    Builder::new()
        .machines(2, 2)
        .step([0, 0, 1, 1], &[])
        .step([1, 0, 1, 1], &[[0, 2]])
        .end()
}

/// Eight-mode dials that turn one way round, each needing the one before at 0.
pub fn dials(number: u8) -> Vec<u8> {
    let sheet = Builder::new().machines(number as usize, 8);
    let chained = |sheet: Builder, dial: u8| {
        sheet.ring(dial, 8, |_| {
            dial.checked_sub(1)
                .map(|before| [before, 1])
                .into_iter()
                .collect()
        })
    };
    (0..number).fold(sheet, chained).end()
}

/// Machines that are off, on or out of order, each turned on once the one
/// before it is on.
pub fn chain(number: u8) -> Vec<u8> {
    let sheet = (0..number).fold(Builder::new(), |sheet, _| sheet.machine(3, 3));
    let linked = |sheet: Builder, machine: u8| match machine.checked_sub(1) {
        None => sheet.step([machine, 0, 1, 1], &[]),
        Some(before) => sheet.step([machine, 0, 1, 1], &[[before, 2]]),
    };
    (0..number).fold(sheet, linked).end()
}

/// Machines of two modes in four rows of eight. Those of the first row go on and off
/// by themselves; each of the others needs all of the row before on, in every one
/// of its moves.
pub fn eight_names() -> Vec<u8> {
    let sheet = Builder::new().machines(MAX_MACHINES, 2);
    let first = (0..8).fold(sheet, |sheet, machine| sheet.ring(machine, 2, |_| vec![]));
    let later = (0..MAX_MOVES as u8 - 16).map(|number| (8 + number % 24, number / 24));
    later
        .fold(first, |sheet, (machine, turn)| {
            let before = machine / 8 * 8 - 8;
            let guards: Vec<_> = (before..before + 8).map(|other| [other, 2]).collect();
            sheet.step([machine, turn % 2, (turn + 1) % 2, 1 + turn], &guards)
        })
        .end()
}

/// Pairs of eight-mode machines, 64 modes to a group, then one-mode machines.
/// With `rings`, every mode of a group leads to every other.
pub fn blocks(pairs: u8, singles: usize, rings: bool) -> Vec<u8> {
    let sheet = Builder::new()
        .machines(2 * pairs as usize, 8)
        .machines(singles, 1);
    let paired = |sheet: Builder, pair: u8| {
        let (left, right) = (2 * pair, 2 * pair + 1);
        if rings {
            // Leaving mode 0 needs the twin not at 7.
            let twin = |other: u8| move |mode: u8| vec![[other, 0x7F]; (mode == 0) as usize];
            sheet.ring(left, 8, twin(right)).ring(right, 8, twin(left))
        } else {
            let both = sheet.step([left, 0, 1, 1], &[[right, 1]]);
            both.step([right, 0, 1, 1], &[[left, 1]])
        }
    };
    (0..pairs).fold(sheet, paired).end()
}

/// Machines of eight modes that all need one another in a circle.
pub fn circle(number: u8) -> Vec<u8> {
    let sheet = Builder::new().machines(number as usize, 8);
    let tied = |sheet: Builder, machine: u8| {
        sheet.step([machine, 0, 1, 1], &circle_guard(machine, number))
    };
    (0..number).fold(sheet, tied).end()
}

fn circle_guard(machine: u8, number: u8) -> [[u8; 2]; 1] {
    [[(machine + 1) % number, 1]]
}

/// The fullest sheet: 32 machines and 250 moves with eight guards each.
pub fn fullest() -> Vec<u8> {
    let sheet = Builder::new().machines(MAX_MACHINES, 8);
    let sent = |sheet: Builder, number| {
        let (fields, guards) = crowded_move(number, 1);
        sheet.step(fields, &guards)
    };
    (0..MAX_MOVES).fold(sheet, sent).end()
}

/// A move of the fullest sheet, which leads so many modes further.
fn crowded_move(number: usize, further: u8) -> ([u8; 4], Vec<[u8; 2]>) {
    let (machine, from) = ((number % 32) as u8, (number / 32) as u8);
    let others = (0..9).map(|other| [other * 3 + machine % 3 + 1, 0xF0 | machine]);
    let guards = others.filter(|guard| guard[0] != machine).take(8);
    let command = 1 + number as u8 % 200;
    let fields = [machine, from, (from + further) % 8, command];
    (fields, guards.collect())
}

/// The moves of the fullest sheet that are amended where as many are as there may
/// be: every third one, the last first.
fn crowded_amended() -> impl Iterator<Item = usize> {
    let numbers = (0..MAX_MOVES).rev().step_by(3);
    numbers.take(MAX_AMENDMENTS)
}

/// The longest file that is accepted: the fullest sheet, and 64 moves of eight
/// guards each in the places of others.
pub fn fullest_replaced() -> Vec<u8> {
    let replaced = |sheet: Builder, number| {
        let (fields, guards) = crowded_move(number, 2);
        sheet.replace(fields, &guards)
    };
    let sheet = Builder::reopened(&fullest());
    crowded_amended().fold(sheet, replaced).end()
}

/// The fullest sheet with 64 moves withdrawn.
pub fn fullest_withdrawn() -> Vec<u8> {
    let withdrawn = |sheet: Builder, number| {
        let ([machine, from, _, command], _) = crowded_move(number, 1);
        sheet.withdraw([machine, from, command])
    };
    let sheet = Builder::reopened(&fullest());
    crowded_amended().fold(sheet, withdrawn).end()
}

/// Rings of the given mode counts, each naming all before it, then two-mode
/// machines that stand alone. One more than the bound of the first part is the
/// product of their mode counts; each machine after them adds 1.
pub fn product(modes: &[u8], alone: u8) -> Vec<u8> {
    let declared = |sheet: Builder, &count: &u8| sheet.machines(1, count);
    let sheet = modes
        .iter()
        .fold(Builder::new(), declared)
        .machines(alone as usize, 2);
    let sheet = modes
        .iter()
        .zip(0u8..)
        .fold(sheet, |sheet, (&count, machine)| {
            sheet.ring(machine, count, |mode| eight_of(machine, mode))
        });
    (modes.len() as u8..modes.len() as u8 + alone)
        .fold(sheet, |sheet, machine| sheet.ring(machine, 2, |_| vec![]))
        .end()
}

/// Guards on the eight machines before a machine that are this move's share.
fn eight_of(machine: u8, share: u8) -> Vec<[u8; 2]> {
    (0..machine)
        .skip(8 * share as usize)
        .take(8)
        .map(|before| [before, 1])
        .collect()
}

/// The longest plan: groups of 64, 64, 64 and 56 modes and 24 of one machine,
/// whose squares sum to 16,384.
pub fn longest_plan() -> Vec<u8> {
    let singles = [[8; 14].as_slice(), &[4; 3], &[2; 3], &[1; 4]].concat();
    let sheet = Builder::new().machines(7, 8).machines(1, 7);
    let sheet = singles
        .iter()
        .fold(sheet, |sheet, &modes| sheet.machines(1, modes));
    (0..4)
        .fold(sheet, |sheet, pair| {
            let (left, right) = (2 * pair, 2 * pair + 1);
            let one = sheet.step([left, 0, 1, 1], &[[right, 1]]);
            one.step([right, 0, 1, 1], &[[left, 1]])
        })
        .end()
}

/// One group of 64 modes in which some mode is 63 moves away from another:
/// two eight-mode machines that walk the square in one long line.
pub fn snake() -> Vec<u8> {
    let sheet = Builder::new().machines(2, 8);
    let rows = (0..8u8).fold(sheet, |sheet, row| {
        let (mask, back) = (1 << row, row % 2 == 1);
        (0..7u8).fold(sheet, |sheet, at| {
            let (from, to) = if back { (7 - at, 6 - at) } else { (at, at + 1) };
            sheet.step([0, from, to, 1 + row], &[[1, mask]])
        })
    });
    (0..7u8)
        .fold(rows, |sheet, row| {
            let side = if row % 2 == 0 { 0x80 } else { 0x01 };
            sheet.step([1, row, row + 1, 1], &[[0, side]])
        })
        .end()
}

/// A machine of two modes whose moves all lead from one to the other, with these
/// commands and so many guards each.
pub fn one_way(commands: &[u8], guards: u8) -> Vec<u8> {
    let sheet = Builder::new().machines(1 + guards as usize, 2);
    let guards: Vec<_> = (1..=guards).map(|machine| [machine, 1]).collect();
    let again = |sheet: Builder, &command: &u8| sheet.step([0, 0, 1, command], &guards);
    commands.iter().fold(sheet, again).end()
}

/// As many moves as there can be, all looked for first in one of two slots that
/// stand side by side: the most that finding a repeated one can take.
pub fn two_slots() -> Vec<u8> {
    let sheet = Builder::new().machines(MAX_MACHINES, 8);
    let keys = (0..=u16::MAX).filter(|&key| key % 256 > 0 && own_slot(key) / 2 == 100);
    let keyed = |sheet: Builder, key: u16| {
        let from = (key >> 8 & 7) as u8;
        sheet.step([(key >> 11) as u8, from, (from + 1) % 8, key as u8], &[])
    };
    keys.take(MAX_MOVES).fold(sheet, keyed).end()
}
