//! The sheet: machines with their modes, the moves between modes, and what
//! amendments make of these.

use crate::records::Records;
use crate::sent::Sent;
use crate::{refuse, Reply};

pub const MAX_MACHINES: usize = 32;
pub const MAX_MOVES: usize = 250;
pub const MAX_MODES: u8 = 8;
pub const MAX_AMENDMENTS: usize = 64;

pub const MACHINE: u16 = 1;
pub const MOVE: u16 = 2;
pub const END: u16 = 3;
pub const REPLACEMENT: u16 = 4;
pub const WITHDRAWAL: u16 = 5;

/// The bytes of a machine's record.
const MACHINE_RECORD: usize = 6;

/// Stands where the body of a withdrawn move began; no body begins at byte 0.
const WITHDRAWN: u16 = 0;

/// A sheet that passed refusals 1 to 8 and 21. Its moves are those that stand at
/// the end. They stay in the lent file; the index knows where each one's body
/// begins.
pub struct Sheet<'a> {
    file: &'a [u8],
    machines: usize,
    moves: usize,
    counts: [u8; MAX_MACHINES],
    /// None for absent machines, whatever byte names them.
    all: [u8; 256],
    live: [u8; MAX_MACHINES],
    bodies: [u16; MAX_MOVES],
}

/// One move; a guard (the paper's need) is a machine and its allowed modes.
#[derive(Clone, Copy)]
pub struct Move<'a> {
    pub machine: usize,
    pub from: u8,
    pub to: u8,
    pub command: u8,
    pub guards: &'a [[u8; 2]],
}

impl<'a> Move<'a> {
    #[inline]
    fn of_body(body: &'a [u8]) -> Self {
        let (guards, _) = body[4..].as_chunks();
        Move {
            machine: body[0] as usize,
            from: body[1],
            to: body[2],
            command: body[3],
            guards,
        }
    }

    /// What no two moves that are sent have in common: machine, from mode and
    /// command.
    #[inline]
    fn key(&self) -> [u8; 3] {
        [self.machine as u8, self.from, self.command]
    }
}

/// Whether a body is as long as that of a move, with up to eight guards.
#[inline]
fn fits_move(length: usize) -> bool {
    matches!(length, 4 | 6 | 8 | 10 | 12 | 14 | 16 | 18 | 20)
}

/// Checks a sheet; the value is 256 × moves + machines.
pub fn check_sheet(file: &[u8]) -> Reply<u32> {
    let sheet = Sheet::read(file)?;
    Ok((256 * sheet.moves + sheet.machines) as u32)
}

impl<'a> Sheet<'a> {
    /// Reads and checks a sheet front to back.
    pub fn read(file: &'a [u8]) -> Reply<Self> {
        let mut sheet = Sheet {
            file,
            machines: 0,
            moves: 0,
            counts: [0; MAX_MACHINES],
            all: [0; 256],
            live: [0; MAX_MACHINES],
            bodies: [0; MAX_MOVES],
        };
        let mut records = Records::new(file);
        let mut sent = Sent::empty();
        loop {
            let start = records.position();
            let Some(record) = records.take() else {
                return refuse(1, start);
            };
            let fault = match (record.kind, record.body.len()) {
                (MACHINE, 2) => sheet.add_machine(record.body[0], record.body[1]),
                (MOVE, length) if fits_move(length) => {
                    sheet.add_move(start + 4, Move::of_body(record.body), &mut sent)
                }
                (END, 0) if sheet.machines == 0 => Some(4),
                (END, 0) if records.at_end() => return Ok(sheet),
                (END, 0) => return refuse(3, records.position()),
                // An amendment, or else refused there at once.
                _ => {
                    Tail::new(&mut sheet, &mut sent).read(start)?;
                    return Ok(sheet);
                }
            };
            if let Some(number) = fault {
                return refuse(number, start);
            }
        }
    }

    fn add_machine(&mut self, count: u8, live: u8) -> Option<u32> {
        if self.moves > 0 || self.machines == MAX_MACHINES {
            return Some(4);
        }
        if count == 0 || count > MAX_MODES {
            return Some(5);
        }
        let all = u8::MAX >> (MAX_MODES - count);
        if live == 0 || live & !all != 0 {
            return Some(5);
        }
        self.counts[self.machines] = count;
        self.all[self.machines] = all;
        self.live[self.machines] = live;
        self.machines += 1;
        None
    }

    #[inline(always)]
    fn add_move(&mut self, body: usize, step: Move, sent: &mut Sent) -> Option<u32> {
        if self.machines == 0 || self.moves == MAX_MOVES {
            return Some(4);
        }
        if let Some(number) = self.unfit(&step) {
            return Some(number);
        }
        if !sent.insert(step.key(), self.moves) {
            return Some(8);
        }
        self.bodies[self.moves] = body as u16;
        self.moves += 1;
        None
    }

    /// What is wrong with a move by itself, be it sent or put in another's place.
    #[inline(always)]
    fn unfit(&self, step: &Move) -> Option<u32> {
        if !self.ends_live(step) {
            return Some(6);
        }
        if !self.guards_fit(step) {
            return Some(7);
        }
        (step.command == 0).then_some(8)
    }

    /// Two different live modes of a machine that is there. Live modes are
    /// present ones, so this covers absent modes too.
    #[inline]
    fn ends_live(&self, step: &Move) -> bool {
        if step.machine >= self.machines || step.from == step.to || (step.from | step.to) >= 8 {
            return false;
        }
        let ends = 1 << step.from | 1 << step.to;
        self.live[step.machine] & ends == ends
    }

    /// Guards on other machines in rising order, each allowing some present
    /// modes. A machine that is absent has no mode to allow.
    #[inline]
    fn guards_fit(&self, step: &Move) -> bool {
        let mut least = 0;
        for &[machine, allowed] in step.guards {
            let beyond = allowed & !self.all[machine as usize];
            let machine = machine as usize;
            if machine < least || machine == step.machine || allowed == 0 || beyond != 0 {
                return false;
            }
            least = machine + 1;
        }
        true
    }

    /// Leaves out the moves that are withdrawn.
    fn close_up(&mut self) {
        let mut standing = 0;
        for number in 0..self.moves {
            let body = self.bodies[number];
            self.bodies[standing] = body;
            standing += (body != WITHDRAWN) as usize;
        }
        self.moves = standing;
    }

    pub fn machines(&self) -> usize {
        self.machines
    }

    pub fn moves(&self) -> usize {
        self.moves
    }

    /// How many modes a machine has.
    pub fn count(&self, machine: usize) -> u8 {
        self.counts[machine]
    }

    /// The modes a machine has, as a mask.
    pub fn all(&self, machine: usize) -> u8 {
        self.all[machine]
    }

    /// The modes that have not failed (the paper's live ones), as a mask.
    pub fn live(&self, machine: usize) -> u8 {
        self.live[machine]
    }

    /// The records of all machines.
    pub fn machine_records(&self) -> &'a [u8] {
        &self.file[..MACHINE_RECORD * self.machines]
    }

    /// The body of a move.
    #[inline]
    fn body(&self, number: usize) -> &'a [u8] {
        let body = self.bodies[number] as usize;
        let length = u16::from_le_bytes([self.file[body - 4], self.file[body - 3]]);
        &self.file[body..body + length as usize]
    }

    pub fn bodies(&self) -> impl Iterator<Item = &'a [u8]> + '_ {
        (0..self.moves).map(|number| self.body(number))
    }

    #[inline]
    pub fn step(&self, number: usize) -> Move<'a> {
        Move::of_body(self.body(number))
    }

    pub fn steps(&self) -> impl Iterator<Item = Move<'a>> + '_ {
        (0..self.moves).map(|number| self.step(number))
    }
}

/// The tail of a sheet, from the first amendment to the end. Whatever stands behind
/// that one comes after machines and moves, since it has found a move.
struct Tail<'s, 'a> {
    sheet: &'s mut Sheet<'a>,
    sent: &'s mut Sent,
    amendments: usize,
}

impl<'s, 'a> Tail<'s, 'a> {
    fn new(sheet: &'s mut Sheet<'a>, sent: &'s mut Sent) -> Self {
        let amendments = 0;
        Tail {
            sheet,
            sent,
            amendments,
        }
    }

    /// Reads and checks a tail that begins here, and lets its amendments act.
    fn read(mut self, start: usize) -> Reply<()> {
        let mut records = Records::at(self.sheet.file, start);
        loop {
            let start = records.position();
            let Some(record) = records.take() else {
                return refuse(1, start);
            };
            let fault = match (record.kind, record.body) {
                (REPLACEMENT, body) if fits_move(body.len()) => {
                    self.replace(start + 4, Move::of_body(body))
                }
                (WITHDRAWAL, &[machine, from, command]) => {
                    self.amend([machine, from, command], WITHDRAWN)
                }
                (MOVE, body) if fits_move(body.len()) => {
                    let step = Move::of_body(body);
                    let fault = self.sheet.add_move(start + 4, step, self.sent);
                    fault.or(Some(21))
                }
                (MACHINE, [_, _]) => Some(4),
                (END, []) if records.at_end() => break,
                (END, []) => return refuse(3, records.position()),
                _ => Some(2),
            };
            if let Some(number) = fault {
                return refuse(number, start);
            }
        }
        self.sheet.close_up();
        Ok(())
    }

    fn replace(&mut self, body: usize, step: Move) -> Option<u32> {
        let fault = self.sheet.unfit(&step);
        fault.or_else(|| self.amend(step.key(), body as u16))
    }

    /// Gives a standing move another body, or none: 21 if there is no such move, or
    /// enough was amended.
    fn amend(&mut self, key: [u8; 3], body: u16) -> Option<u32> {
        let number = self.sent.find(key);
        let standing = number.filter(|&number| self.sheet.bodies[number] != WITHDRAWN);
        match standing {
            Some(number) if self.amendments < MAX_AMENDMENTS => {
                self.sheet.bodies[number] = body;
                self.amendments += 1;
                None
            }
            _ => Some(21),
        }
    }
}
