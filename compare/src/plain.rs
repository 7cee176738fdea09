//! A sheet read as the papers say it, over lists and without cleverness: the causes
//! of a refusal in their order, what each record does, and the clean sheet. It
//! shares no more with the versions than the reader of records; the tests hold the
//! versions against it.

use crate::records::{Record, Records};
use crate::samples::Builder;
use crate::{refuse, Reply};

/// What the records of a sheet say, from the front to some place.
#[derive(Default)]
pub struct Plain {
    /// The body of each machine: its number of modes, its live ones.
    pub machines: Vec<Vec<u8>>,
    /// The body of each move that was sent: machine, from, to, command, guards.
    sent: Vec<Vec<u8>>,
    /// The same of those that stand, by their numbers.
    pub moves: Vec<Vec<u8>>,
    amendments: usize,
}

/// Whether a record is refused for some cause, behind what was read.
type Test = fn(&Plain, &Record) -> bool;

/// The causes that a record may be refused for, in their order.
const CAUSES: [(u32, Test); 7] = [
    (2, Plain::is_odd),
    (4, Plain::is_misplaced),
    (5, Plain::has_odd_modes),
    (6, Plain::has_odd_ends),
    (7, Plain::has_odd_guards),
    (8, Plain::has_odd_command),
    (21, Plain::is_unamendable),
];

/// Whether a record has the body of a move.
fn has_move(record: &Record) -> bool {
    [2, 4].contains(&record.kind)
}

/// Machine, from mode and command of a move.
fn key(body: &[u8]) -> [u8; 3] {
    [body[0], body[1], body[3]]
}

/// Machine, from mode and command of the move that a record amends.
fn amended_key(record: &Record) -> [u8; 3] {
    match *record.body {
        [machine, from, command] => [machine, from, command],
        _ => key(record.body),
    }
}

impl Plain {
    pub fn read(file: &[u8]) -> Reply<Self> {
        let (mut plain, mut records) = (Plain::default(), Records::new(file));
        loop {
            let place = records.position();
            let Some(record) = records.take() else {
                return refuse(1, place);
            };
            let mut causes = CAUSES.iter();
            if let Some(&(number, _)) = causes.find(|(_, applies)| applies(&plain, &record)) {
                return refuse(number, place);
            }
            match record.kind {
                3 if records.at_end() => return Ok(plain),
                3 => return refuse(3, records.position()),
                _ => plain.act(&record),
            }
        }
    }

    /// The value of the check: 256 × moves + machines.
    pub fn value(&self) -> u32 {
        (256 * self.moves.len() + self.machines.len()) as u32
    }

    /// The machines, the standing moves and the end.
    pub fn clean(&self) -> Vec<u8> {
        let machines = self.machines.iter().map(|body| (1, body));
        let moves = self.moves.iter().map(|body| (2, body));
        machines
            .chain(moves)
            .fold(Builder::new(), |sheet, (kind, body)| {
                sheet.record(kind, body)
            })
            .end()
    }

    /// What a record without a fault does.
    fn act(&mut self, record: &Record) {
        let body = record.body.to_vec();
        match record.kind {
            1 => self.machines.push(body),
            2 => {
                self.sent.push(body.clone());
                self.moves.push(body);
            }
            _ => self.amend(record),
        }
    }

    fn amend(&mut self, record: &Record) {
        let number = self.standing(record).expect("a standing move");
        match record.kind {
            4 => self.moves[number] = record.body.to_vec(),
            _ => drop(self.moves.remove(number)),
        }
        self.amendments += 1;
    }

    /// The number of the standing move that a record amends.
    fn standing(&self, record: &Record) -> Option<usize> {
        let amended = amended_key(record);
        self.moves.iter().position(|body| key(body) == amended)
    }

    /// 2: the kind is not known, or has another length.
    fn is_odd(&self, record: &Record) -> bool {
        let length = record.body.len();
        match record.kind {
            1 => length != 2,
            2 | 4 => length % 2 == 1 || !(4..=20).contains(&length),
            3 => length != 0,
            5 => length != 3,
            _ => true,
        }
    }

    /// 4: a machine behind a move or too many of either; no machine yet.
    fn is_misplaced(&self, record: &Record) -> bool {
        match record.kind {
            1 => !self.sent.is_empty() || self.machines.len() == 32,
            2 => self.machines.is_empty() || self.sent.len() == 250,
            3 => self.machines.is_empty(),
            _ => false,
        }
    }

    /// 5: not one to eight modes, none live, or one live that is not there.
    fn has_odd_modes(&self, record: &Record) -> bool {
        let &[count, live] = record.body else {
            return false;
        };
        !(1..=8).contains(&count) || !some_of(live, count)
    }

    /// 6: from a mode to itself, or from or to one that is not there and live.
    fn has_odd_ends(&self, record: &Record) -> bool {
        let live = |machine: u8, mode: u8| {
            let body = self.machines.get(machine as usize);
            body.is_some_and(|body| mode < body[0] && body[1] >> mode & 1 == 1)
        };
        has_move(record) && {
            let [machine, from, to] = [record.body[0], record.body[1], record.body[2]];
            from == to || !live(machine, from) || !live(machine, to)
        }
    }

    /// 7: guards that do not rise; one of the move's own machine or of one that is
    /// not there; with no mode or one that is not there.
    fn has_odd_guards(&self, record: &Record) -> bool {
        let fits = |guard: &[u8]| {
            let body = self.machines.get(guard[0] as usize);
            guard[0] != record.body[0] && body.is_some_and(|body| some_of(guard[1], body[0]))
        };
        has_move(record) && {
            let guards: Vec<_> = record.body[4..].chunks(2).collect();
            let machines = guards.iter().map(|guard| guard[0]);
            !machines.is_sorted_by(|one, next| one < next) || !guards.into_iter().all(fits)
        }
    }

    /// 8: command 0, or a move that was sent.
    fn has_odd_command(&self, record: &Record) -> bool {
        let sent = |key_of: [u8; 3]| self.sent.iter().any(|body| key(body) == key_of);
        has_move(record) && (record.body[3] == 0 || record.kind == 2 && sent(key(record.body)))
    }

    /// 21: no standing move to amend, enough amendments, or a move behind one.
    fn is_unamendable(&self, record: &Record) -> bool {
        match record.kind {
            2 => self.amendments > 0,
            4 | 5 => self.amendments == 64 || self.standing(record).is_none(),
            _ => false,
        }
    }
}

/// Whether a byte holds some of so many modes, and no other.
fn some_of(modes: u8, count: u8) -> bool {
    modes != 0 && (modes as u32) < 1 << count
}
