//! Random sheets and all that goes with them, from a seed.

use crate::bits;
use crate::calls::{Lent, Slot};
use crate::clean::own_clean;
use crate::command::Command;
use crate::definition::Reading;
use crate::draft::Draft;
use crate::groups::{Groups, MAX_GROUP_MODES};
use crate::join::in_one_slice;
use crate::pictures;
use crate::plan::{BOUND, GROUP_NUMBERS, MIN_SCRATCH, NO_ROUTE, TABLE};
use crate::records::Records;
use crate::samples::Builder;
use crate::shape::Plan;
use crate::sheet::{Sheet, MAX_MACHINES, MOVE};
use crate::state::{set_mode, set_tag, untagged};
use crate::version::Rust;
use crate::walk::own_plan;

/// A xorshift generator.
pub struct Random {
    state: u64,
}

impl Random {
    pub fn new(seed: u64) -> Self {
        let state = (seed ^ 0x9E37_79B9_7F4A_7C15).wrapping_mul(0xD129_0DDB_53C4_3E49) | 1;
        Random { state }
    }

    pub fn word(&mut self) -> u64 {
        self.state ^= self.state << 13;
        self.state ^= self.state >> 7;
        self.state ^= self.state << 17;
        self.state.wrapping_mul(0x2545_F491_4F6C_DD1D) >> 16
    }

    /// A number below a limit.
    pub fn below(&mut self, limit: usize) -> usize {
        (self.word() % limit as u64) as usize
    }

    pub fn byte(&mut self) -> u8 {
        self.word() as u8
    }

    /// True once in so many times.
    pub fn once_in(&mut self, times: usize) -> bool {
        self.below(times) == 0
    }

    /// So many bytes.
    pub fn bytes(&mut self, length: usize) -> Vec<u8> {
        (0..length).map(|_| self.byte()).collect()
    }

    /// Puts bytes in another order.
    pub fn shuffle(&mut self, bytes: &mut [u8]) {
        for last in (1..bytes.len()).rev() {
            bytes.swap(last, self.below(last + 1));
        }
    }

    /// Some of the set bits of a mask, at least one.
    pub fn some_of(&mut self, mask: u8) -> u8 {
        loop {
            let some = self.byte() & mask;
            if some != 0 {
                return some;
            }
        }
    }

    /// One set bit's number.
    pub fn one_of(&mut self, mask: u8) -> u8 {
        loop {
            let bit = self.below(8) as u8;
            if mask >> bit & 1 == 1 {
                return bit;
            }
        }
    }
}

/// A sheet that passes, without amendments.
pub fn sheet(random: &mut Random) -> Vec<u8> {
    Draft::new(random).end()
}

/// A sheet that passes; if it has moves, with amendments.
pub fn amended_sheet(random: &mut Random) -> Vec<u8> {
    let mut draft = Draft::new(random);
    draft.amend(random);
    draft.end()
}

/// Bytes lent as a sheet with amendments, many of which have no place there; at
/// times the tail is damaged, cut or extended.
pub fn oddly_amended(random: &mut Random) -> Vec<u8> {
    let mut draft = Draft::new(random);
    let front = draft.length();
    draft.amend_oddly(random);
    let mut bytes = draft.end();
    if random.once_in(3) {
        maul(random, &mut bytes, front);
    }
    bytes
}

/// A sheet that passes, in which some machines have no moves: a move that needs such
/// a machine in another mode is never usable.
pub fn idle_sheet(random: &mut Random) -> Vec<u8> {
    let sheet = sheet(random);
    let idle = random.word() & random.word();
    let mut records = Records::new(&sheet);
    let mut kept = Builder::new();
    while let Some(record) = records.take() {
        if record.kind != MOVE || idle >> record.body[0] & 1 == 0 {
            kept = kept.record(record.kind, record.body);
        }
    }
    kept.unfinished()
}

/// Bytes lent as a sheet, at times with amendments, without the moves of some
/// machines, or noise; half of them are damaged, cut or extended.
pub fn sheet_bytes(random: &mut Random) -> Vec<u8> {
    let mut bytes = match random.below(8) {
        0 => amended_sheet(random),
        1 => oddly_amended(random),
        2 => idle_sheet(random),
        3 => noise(random),
        _ => sheet(random),
    };
    if random.once_in(2) {
        maul(random, &mut bytes, 0);
    }
    bytes
}

impl Random {
    /// Some bytes, one at least and fewer than a limit.
    pub fn byte_run(&mut self, limit: usize) -> Vec<u8> {
        let length = 1 + self.below(limit - 1);
        self.bytes(length)
    }
}

/// Damages, cuts or extends bytes, all behind a place.
fn maul(random: &mut Random, bytes: &mut Vec<u8>, from: usize) {
    match random.below(4) {
        0 | 1 => damage(random, &mut bytes[from..]),
        2 => bytes.truncate(from + random.below(bytes.len() - from + 1)),
        _ => bytes.extend(random.byte_run(9)),
    }
}

/// Changes one byte.
pub fn damage(random: &mut Random, bytes: &mut [u8]) {
    if !bytes.is_empty() {
        let at = random.below(bytes.len());
        let small = random.below(12) as u8;
        let flipped = bytes[at] ^ 1 << random.below(8);
        bytes[at] = if random.once_in(2) { small } else { flipped };
    }
}

/// Noise, half of it in records whose heads make sense.
fn noise(random: &mut Random) -> Vec<u8> {
    if random.once_in(2) {
        return random.byte_run(80);
    }
    let mut bytes = Builder::new();
    for _ in 0..random.below(12) {
        let kind = [1, 1, 2, 2, 3, 4, 5, 9][random.below(8)];
        let length = if kind == 1 { 2 } else { random.below(12) };
        let body: Vec<u8> = (0..length).map(|_| random.byte() % 5).collect();
        bytes = bytes.record(kind, &body);
    }
    if random.once_in(2) {
        bytes.end()
    } else {
        bytes.unfinished()
    }
}

/// A state for a sheet, in nearly all cases one that fits it.
pub fn state(random: &mut Random, sheet: &Sheet) -> Vec<u8> {
    let failed = random.once_in(3);
    let mode = |machine| {
        let among = if failed {
            sheet.all(machine)
        } else {
            sheet.live(machine)
        };
        random.one_of(among)
    };
    let modes: Vec<u8> = (0..sheet.machines()).map(mode).collect();
    let mut state = untagged(&modes);
    // One machine in so many has a tag.
    let tags = [3, 8, 10_000][random.below(3)];
    for machine in 0..sheet.machines() {
        set_tag(&mut state, machine, random.once_in(tags) as u8);
    }
    let machine = random.below(sheet.machines());
    match random.below(80) {
        // All tags left out, or one byte that is no tag.
        0 => state = modes,
        1 => set_tag(&mut state, machine, 2 + random.byte() % 254),
        _ => spoil(random, &mut state),
    }
    state
}

/// A goal for a sheet, in nearly all cases one that fits it.
pub fn goal(random: &mut Random, sheet: &Sheet) -> Vec<u8> {
    let mut goal = wanted(random, sheet);
    spoil(random, &mut goal);
    goal
}

/// A goal that fits a sheet.
fn wanted(random: &mut Random, sheet: &Sheet) -> Vec<u8> {
    if sheet.moves() > 0 && random.once_in(2) {
        end_wanted(random, sheet)
    } else {
        many_wanted(random, sheet)
    }
}

/// One move's end is wanted and, of other machines, at times some modes of those
/// that it needs.
fn end_wanted(random: &mut Random, sheet: &Sheet) -> Vec<u8> {
    let step = sheet.step(random.below(sheet.moves()));
    let mut goal: Vec<u8> = (0..sheet.machines())
        .map(|machine| sheet.all(machine))
        .collect();
    goal[step.machine] = 1 << step.to;
    for guard in step.guards {
        let machine = guard[0] as usize;
        if random.once_in(4) {
            goal[machine] = random.some_of(sheet.all(machine));
        }
    }
    goal
}

/// Any modes are wanted of any machines.
fn many_wanted(random: &mut Random, sheet: &Sheet) -> Vec<u8> {
    let length = if random.once_in(2) {
        sheet.machines()
    } else {
        random.below(sheet.machines() + 1)
    };
    let free = 1 + random.below(6);
    let wanted = |machine| {
        if random.below(6) < free {
            sheet.all(machine)
        } else {
            random.some_of(sheet.all(machine))
        }
    };
    (0..length).map(wanted).collect()
}

/// Up to nine goals for a sheet, of which nearly all fit it. In most cases all of
/// them allow some state.
pub fn goals(random: &mut Random, sheet: &Sheet) -> Vec<Vec<u8>> {
    let agreed = !random.once_in(3);
    let shared: Vec<u8> = (0..sheet.machines())
        .map(|machine| (agreed as u8) << random.one_of(sheet.all(machine)))
        .collect();
    let number = [0, 1, 2, 2, 3, 4, 8, 9][random.below(8)];
    (0..number)
        .map(|_| goal_with(random, sheet, &shared))
        .collect()
}

/// A goal that also allows each machine the given modes, in nearly all cases one
/// that fits the sheet.
fn goal_with(random: &mut Random, sheet: &Sheet, modes: &[u8]) -> Vec<u8> {
    let mut goal = wanted(random, sheet);
    for (allowed, more) in goal.iter_mut().zip(modes) {
        *allowed |= more;
    }
    spoil(random, &mut goal);
    goal
}

/// Goals in one slice, at times cut short, extended or damaged.
fn wishes(random: &mut Random, sheet: &Sheet) -> Vec<u8> {
    let mut lent = in_one_slice(&goals(random, sheet));
    match random.below(12) {
        0 => lent.truncate(random.below(lent.len() + 1)),
        1 => lent.extend(random.byte_run(3)),
        2 => damage(random, &mut lent),
        _ => {}
    }
    lent
}

/// A buffer of other bytes for a joined goal: a byte for each machine, or fewer
/// or more.
fn room(random: &mut Random, sheet: &Sheet) -> Vec<u8> {
    let machines = sheet.machines();
    let length = match random.below(4) {
        0 => random.below(machines),
        1 => random.below(MAX_MACHINES + 8),
        _ => machines,
    };
    random.bytes(length)
}

/// A buffer of other bytes for an output: as long, longer, or too short.
pub fn room_for(random: &mut Random, output: usize) -> Vec<u8> {
    let length = match random.below(8) {
        0 => 0,
        1 => output.saturating_sub(1),
        2 => random.below(output + 1),
        3 => output + 1 + random.below(20),
        _ => output,
    };
    random.bytes(length)
}

/// Once in a while changes a byte or the length.
fn spoil(random: &mut Random, bytes: &mut Vec<u8>) {
    match random.below(60) {
        0 => damage(random, bytes),
        1 => bytes.extend(random.byte_run(3)),
        2 => bytes.truncate(bytes.len().saturating_sub(1)),
        _ => {}
    }
}

/// A command, mostly of a move of the sheet.
fn command(random: &mut Random, sheet: &Sheet) -> Command {
    if sheet.moves() == 0 || random.once_in(8) {
        let machine = random.below(40) as u8;
        let command = random.below(10) as u8;
        return Command { machine, command };
    }
    let step = sheet.step(random.below(sheet.moves()));
    Command {
        machine: step.machine as u8,
        command: step.command,
    }
}

/// The plan lent with a sheet: mostly its own, else one like it or any other in
/// shape, at times damaged.
fn plan(random: &mut Random, bytes: &[u8], sheet: &Sheet) -> Vec<u8> {
    let mut plan = match (own_plan::<Rust>(bytes), random.below(8)) {
        (Ok(own), 0..4) => own,
        (Ok(own), 4..6) => edited(random, sheet, &own),
        _ => foreign(random, sheet),
    };
    match random.below(12) {
        0 => damage(random, &mut plan),
        1 => spoil(random, &mut plan),
        _ => {}
    }
    plan
}

/// The sheet's own plan with some entries changed.
fn edited(random: &mut Random, sheet: &Sheet, own: &[u8]) -> Vec<u8> {
    let own = Plan::read(sheet, own).expect("its own plan");
    let odd = [2, 8, 64][random.below(3)];
    written(sheet, &own.groups, |group, from, wanted| {
        if random.once_in(odd) {
            odd_entry(random)
        } else {
            own.entries(group, from)[wanted]
        }
    })
}

/// A plan of the sheet's groups or others, whose entries are mostly moves that
/// may start; noise where a group has too many modes for a plan.
fn foreign(random: &mut Random, sheet: &Sheet) -> Vec<u8> {
    let groups = regrouped(random, sheet);
    if !tabled(&groups) {
        return random.byte_run(200);
    }
    let starts: Vec<_> = (0..groups.count)
        .map(|group| starts(sheet, &groups, group))
        .collect();
    let odd = [2, 8, 64][random.below(3)];
    written(sheet, &groups, |group, from, _| {
        match &starts[group][from][..] {
            _ if random.once_in(odd) => odd_entry(random),
            [] => NO_ROUTE,
            moves => [random.below(8) as u8, moves[random.below(moves.len())]],
        }
    })
}

/// The sheet's own groups, at times some of them swapped or joined.
fn regrouped(random: &mut Random, sheet: &Sheet) -> Groups {
    let mut groups = Groups::of_sheet(sheet);
    for _ in 0..[0, 1, 4][random.below(3)] {
        let at = random.below(groups.count) as u8;
        let swap = random.once_in(2);
        let renumbered = |&number: &u8| match number.checked_sub(at) {
            Some(0) if swap => at + 1,
            Some(1) if swap => at,
            Some(1..) if !swap => number - 1,
            _ => number,
        };
        let numbers: Vec<u8> = groups.of[..sheet.machines()]
            .iter()
            .map(renumbered)
            .collect();
        let changed = Groups::from_numbers(sheet, &numbers);
        groups = changed.filter(tabled).unwrap_or(groups);
    }
    groups
}

/// Whether every group is small enough for a table.
fn tabled(groups: &Groups) -> bool {
    (0..groups.count).all(|group| groups.size(group) <= MAX_GROUP_MODES)
}

/// For each mode of a group, the group's moves that may start in it.
fn starts(sheet: &Sheet, groups: &Groups, group: usize) -> Vec<Vec<u8>> {
    let mut starts = vec![Vec::new(); groups.size(group) as usize];
    for (step, number) in sheet.steps().zip(0..) {
        if groups.of[step.machine] as usize == group {
            let from = groups.modes_with(sheet, step.machine, 1 << step.from);
            for mode in bits(from & groups.guarded(sheet, &step, group)) {
                starts[mode].push(number);
            }
        }
    }
    starts
}

/// An entry that hardly fits.
fn odd_entry(random: &mut Random) -> [u8; 2] {
    let distance = [0, 1, 254, 255][random.below(4)];
    let number = [random.below(12) as u8, random.byte()][random.below(2)];
    [distance, number]
}

/// A question that leads to a move which is not usable, if a random sheet has such
/// a move: in its own plan, all entries from where that move may start name it, its
/// end is wanted, and one of the machines that it waits for has a tag.
pub fn forged(random: &mut Random) -> Option<Lent> {
    let bytes = idle_sheet(random);
    let own = own_plan::<Rust>(&bytes).ok()?;
    let unusable = Reading::new(&bytes, &own).unusable();
    let number = *unusable.get(random.below(unusable.len().max(1)))?;
    let sheet = Sheet::read(&bytes).expect("a sheet that passes");
    let own = Plan::read(&sheet, &own).expect("its own plan");
    let (step, of) = (sheet.step(number), &own.groups.of);
    let starts = starts(&sheet, &own.groups, of[step.machine] as usize);
    let plan = written(&sheet, &own.groups, |group, from, wanted| {
        let starting = group == of[step.machine] as usize && starts[from].contains(&(number as u8));
        if starting {
            [1, number as u8]
        } else {
            own.entries(group, from)[wanted]
        }
    });
    let live = (0..sheet.machines()).map(|machine| random.one_of(sheet.live(machine)));
    let mut state = untagged(&live.collect::<Vec<_>>());
    set_mode(&mut state, step.machine, step.from);
    for &[machine, allowed] in step.guards {
        if of[machine as usize] == of[step.machine] {
            set_mode(&mut state, machine as usize, random.one_of(allowed));
        }
    }
    let outside = step.guards.iter().map(|guard| guard[0] as usize);
    let outside: Vec<_> = outside
        .filter(|&machine| of[machine] != of[step.machine])
        .collect();
    set_tag(&mut state, outside[random.below(outside.len())], 1);
    let mut goal: Vec<u8> = (0..sheet.machines())
        .map(|machine| sheet.all(machine))
        .collect();
    goal[step.machine] = 1 << step.to;
    Some(Lent {
        plan: Slot::new(&plan),
        state: Slot::new(&state),
        goal: Slot::new(&goal),
        ..Lent::sheet(&bytes)
    })
}

/// Writes a plan, given the entry for a group, its mode and the wanted one.
fn written(
    sheet: &Sheet,
    groups: &Groups,
    mut entry: impl FnMut(usize, usize, usize) -> [u8; 2],
) -> Vec<u8> {
    let numbers = &groups.of[..sheet.machines()];
    let mut plan = Builder::new().record(GROUP_NUMBERS, numbers);
    for group in 0..groups.count {
        let size = groups.size(group) as usize;
        let entries = (0..size * size).flat_map(|at| entry(group, at / size, at % size));
        plan = plan.record(TABLE, &entries.collect::<Vec<u8>>());
    }
    plan.record(BOUND, &[0; 4]).end()
}

/// Everything lent for one round of calls. The scratch and the buffers for outputs
/// are full of other bytes.
pub fn lent(random: &mut Random) -> Lent {
    let bytes = sheet_bytes(random);
    lent_with(random, &bytes)
}

/// Everything lent with a sheet that has amendments.
pub fn amended_lent(random: &mut Random) -> Lent {
    let bytes = amended_sheet(random);
    lent_with(random, &bytes)
}

/// Everything lent with a sheet in which some machines have no moves.
pub fn idle_lent(random: &mut Random) -> Lent {
    let bytes = idle_sheet(random);
    lent_with(random, &bytes)
}

fn lent_with(random: &mut Random, bytes: &[u8]) -> Lent {
    let mut lent = Lent::sheet(bytes);
    match Sheet::read(bytes) {
        Ok(sheet) => lend(random, &sheet, &mut lent),
        Err(_) => {
            lent.wishes = Slot::new(&random.byte_run(20));
            lent.out = Slot::new(&random.byte_run(MAX_MACHINES));
        }
    }
    pictures::lend(random, &mut lent);
    let clean = own_clean::<Rust>(bytes).unwrap_or_default();
    lent.cleaned = Slot::new(&room_for(random, clean.len()));
    lent
}

/// A scratch that is mostly just long enough, else longer or too short.
fn scratch(random: &mut Random) -> Vec<u8> {
    let length = match random.below(40) {
        0 => random.below(MIN_SCRATCH),
        1 => MIN_SCRATCH - 1,
        2 => MIN_SCRATCH + 1,
        3 => 65_536 + random.below(8 * MIN_SCRATCH),
        4..=9 => MIN_SCRATCH + random.below(8 * MIN_SCRATCH),
        _ => MIN_SCRATCH,
    };
    vec![random.byte(); length]
}

/// Lends all that belongs to a sheet.
fn lend(random: &mut Random, sheet: &Sheet, lent: &mut Lent) {
    let plan = plan(random, lent.sheet.get(), sheet);
    lent.plan = Slot::new(&plan);
    lent.scratch = Slot::new(&scratch(random));
    lent.state = Slot::new(&state(random, sheet));
    lent.goal = Slot::new(&goal(random, sheet));
    lent.command = command(random, sheet);
    lent.wishes = Slot::new(&wishes(random, sheet));
    lent.out = Slot::new(&room(random, sheet));
}
