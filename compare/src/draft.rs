//! Random sheets in the making, with amendments or without.

use crate::random::{damage, Random};
use crate::samples::Builder;
use crate::sheet::{MACHINE, MAX_AMENDMENTS, MOVE, REPLACEMENT, WITHDRAWAL};
use std::collections::{BTreeMap, BTreeSet};

/// The character of one random sheet.
struct Shape {
    machines: usize,
    most_modes: usize,
    moves: usize,
    most_guards: usize,
    /// One guard in so many may look at a later machine, so that groups arise.
    cyclic: usize,
    /// How far off the machines are that a guard looks at.
    span: usize,
    /// One machine in so many has failed modes.
    failed: usize,
    /// Machines of eight modes of which each two need each other.
    paired: bool,
}

impl Shape {
    fn new(random: &mut Random) -> Self {
        let small = !random.once_in(3);
        let most = if small { 6 } else { 32 };
        let machines = 1 + random.below(most);
        let moves = match random.below(8) {
            0 => 250,
            1 => random.below(251),
            _ => random.below(machines * 8).min(250),
        };
        Shape {
            machines,
            most_modes: 1 + random.below(8),
            moves,
            most_guards: [1, 2, 3, 8][random.below(4)],
            cyclic: [2, 4, 12, 60, 10_000][random.below(5)],
            span: 1 + random.below(machines),
            failed: [3, 10, 10_000][random.below(3)],
            paired: random.once_in(20),
        }
    }
}

/// A random sheet in the making: its records so far.
pub struct Draft {
    shape: Shape,
    records: Builder,
    /// Each machine's modes and its live ones, as masks.
    machines: Vec<(u8, u8)>,
    /// Machine, from mode and command of the moves that were sent, and of those that
    /// stand.
    sent: BTreeSet<[u8; 3]>,
    standing: Vec<[u8; 3]>,
}

impl Draft {
    /// Machines and moves.
    pub fn new(random: &mut Random) -> Self {
        let mut draft = Draft {
            shape: Shape::new(random),
            records: Builder::new(),
            machines: Vec::new(),
            sent: BTreeSet::new(),
            standing: Vec::new(),
        };
        for _ in 0..draft.shape.machines {
            draft.add_machine(random);
        }
        // Some tries end in a move that was there, so there are more of them.
        for _ in 0..4 * draft.shape.moves {
            draft.try_move(random);
        }
        draft
    }

    /// How many bytes there are so far.
    pub fn length(&self) -> usize {
        self.records.clone().unfinished().len()
    }

    pub fn end(self) -> Vec<u8> {
        self.records.end()
    }

    fn add(&mut self, kind: u16, body: &[u8]) {
        self.records = std::mem::take(&mut self.records).record(kind, body);
    }

    fn add_machine(&mut self, random: &mut Random) {
        let modes = if self.shape.paired {
            8
        } else {
            1 + random.below(self.shape.most_modes) as u8
        };
        let all = u8::MAX >> (8 - modes);
        let live = if random.once_in(self.shape.failed) {
            random.some_of(all)
        } else {
            all
        };
        self.add(MACHINE, &[modes, live]);
        self.machines.push((all, live));
    }

    fn try_move(&mut self, random: &mut Random) {
        let machine = random.below(self.shape.machines);
        let live = self.machines[machine].1;
        if live.count_ones() < 2 || self.sent.len() == self.shape.moves {
            return;
        }
        let from = random.one_of(live);
        let to = random.one_of(live & !(1 << from));
        let command = if random.once_in(4) {
            random.byte()
        } else {
            1 + to
        };
        let key = [machine as u8, from, command];
        if command != 0 && self.sent.insert(key) {
            self.standing.push(key);
            let body = self.body(random, key, to);
            self.add(MOVE, &body);
        }
    }

    /// The body of a move with any guards.
    fn body(&self, random: &mut Random, [machine, from, command]: [u8; 3], to: u8) -> Vec<u8> {
        let guards = guards(random, &self.shape, &self.machines, machine as usize);
        [&[machine, from, to, command], guards.as_flattened()].concat()
    }
}

/// The tail, which ends the moves.
impl Draft {
    /// Adds amendments that act, as long as a move stands.
    pub fn amend(&mut self, random: &mut Random) {
        let number = [1, 2, 5, 20, MAX_AMENDMENTS][random.below(5)];
        for _ in 0..number {
            self.add_amendment(random);
        }
    }

    /// Adds amendments, perhaps too many, and one in so many has no place there.
    pub fn amend_oddly(&mut self, random: &mut Random) {
        let odd = [2, 4, 20, 200][random.below(4)];
        let number = [1, 3, 8, MAX_AMENDMENTS, MAX_AMENDMENTS + 2][random.below(5)];
        for _ in 0..number {
            if random.once_in(odd) {
                self.add_odd(random);
            } else {
                self.add_amendment(random);
            }
        }
    }

    /// Replaces or withdraws a standing move, if there is one.
    fn add_amendment(&mut self, random: &mut Random) {
        let all = self.standing.len();
        if all == 0 {
            return;
        }
        // Half of the time one of three, so that many are amended twice.
        let among = [all, all.min(3)][random.below(2)];
        let number = random.below(among);
        let key = self.standing[number];
        if random.once_in(4) {
            self.standing.remove(number);
            self.add(WITHDRAWAL, &key);
        } else {
            let body = self.other_body(random, key);
            self.add(REPLACEMENT, &body);
        }
    }

    /// The body of another move with the key of one that was sent.
    fn other_body(&self, random: &mut Random, key: [u8; 3]) -> Vec<u8> {
        let live = self.machines[key[0] as usize].1;
        let to = random.one_of(live & !(1 << key[1]));
        self.body(random, key, to)
    }

    /// Adds a record that is hardly accepted there.
    fn add_odd(&mut self, random: &mut Random) {
        let at = random.below(self.sent.len().max(1));
        let (kind, body) = match self.sent.iter().nth(at) {
            Some(&key) => self.odd_record(random, key),
            None => (WITHDRAWAL, random.bytes(3)),
        };
        self.add(kind, &body);
    }

    /// A record made from the key of a move that was sent, whether or not it stands.
    fn odd_record(&self, random: &mut Random, key: [u8; 3]) -> (u16, Vec<u8>) {
        let other = [key[0], key[1], random.byte()];
        let amendment = [REPLACEMENT, WITHDRAWAL][random.below(2)];
        let step = [REPLACEMENT, MOVE][random.below(2)];
        match random.below(10) {
            0 => (WITHDRAWAL, key.to_vec()),
            1 => (WITHDRAWAL, other.to_vec()),
            2 => (WITHDRAWAL, vec![key[0], key[1], 0]),
            3 => (WITHDRAWAL, wrapped(random, key).to_vec()),
            4 => (step, self.other_body(random, key)),
            5 => (step, self.other_body(random, other)),
            6 => (MACHINE, vec![2, 3]),
            7 => (amendment, random.byte_run(24)),
            8 => (random.below(12) as u16, key.to_vec()),
            _ => {
                let mut body = self.other_body(random, key);
                damage(random, &mut body);
                (step, body)
            }
        }
    }
}

/// Another machine or mode, which looks like the key's own in too few bits.
fn wrapped(random: &mut Random, [machine, from, command]: [u8; 3]) -> [u8; 3] {
    let times = 1 + random.below(7) as u8;
    if random.once_in(2) {
        [machine + 32 * times, from, command]
    } else {
        [machine.wrapping_sub(times), from + 8 * times, command]
    }
}

/// The guards of a move of a machine.
fn guards(
    random: &mut Random,
    shape: &Shape,
    machines: &[(u8, u8)],
    machine: usize,
) -> Vec<[u8; 2]> {
    let mut chosen = BTreeMap::new();
    for _ in 0..random.below(shape.most_guards + 1) {
        let other = neighbour(random, shape, machine);
        if let Some(&(all, live)) = machines.get(other) {
            let among = if random.once_in(16) { all } else { live };
            // Wide masks are easy to meet; most are.
            let some = random.some_of(among) | (random.some_of(among) & random.byte());
            chosen.insert(other as u8, some);
        }
    }
    chosen
        .into_iter()
        .map(|(other, allowed)| [other, allowed])
        .collect()
}

/// The machine that a guard looks at; there may be no such machine.
fn neighbour(random: &mut Random, shape: &Shape, machine: usize) -> usize {
    let off = 1 + random.below(shape.span);
    if shape.paired {
        machine ^ 1
    } else if random.once_in(shape.cyclic) {
        machine + off
    } else {
        machine.wrapping_sub(off)
    }
}
