//! Inputs of the calls that are dear in time or memory, and the stove and the
//! kitchen.

use crate::calls::{Call, Lent, Slot};
use crate::clean::own_clean;
use crate::command::Command;
use crate::graph::MAX_READ;
use crate::join::{in_one_slice, MAX_GOALS};
use crate::pictures::{own_text, Drawing};
use crate::plan::MIN_SCRATCH;
use crate::random::{self, Random};
use crate::records::Records;
use crate::samples::{
    blocks, chain, dials, eight_names, fullest, fullest_replaced, fullest_withdrawn, one_way,
    stove, two_slots, Builder,
};
use crate::sheet::{Sheet, MAX_AMENDMENTS, MAX_MACHINES, MAX_MOVES, MOVE, REPLACEMENT};
use crate::state::{set_mode, tagged, untagged};
use crate::version::{Rust, Version};
use crate::walk::own_plan;

/// The seed of the random sheet, and of the order of shuffled commands.
const RANDOM: u64 = 2611;

const KITCHEN: &[u8] = include_bytes!("../../examples/kitchen/sheet.bin");

/// An oven, and a dead mixer that only a move which is never usable names.
const MIXER: &[u8] = include_bytes!("../../examples/walks/dead_mixer/sheet.bin");
const MIXER_BROKEN: &[u8] = include_bytes!("../../examples/walks/dead_mixer/state.bin");
const OVEN_HOT: &[u8] = include_bytes!("../../examples/walks/dead_mixer/wish.bin");

pub struct Input {
    pub name: &'static str,
    /// The calls that it is for; none means all of them.
    only: &'static [&'static str],
    pub lent: Lent,
}

impl Input {
    fn new(name: &'static str, sheet: &[u8]) -> Self {
        let (only, lent) = ([].as_slice(), prepared(sheet));
        Input { name, only, lent }
    }

    fn only(self, only: &'static [&'static str]) -> Self {
        Input { only, ..self }
    }

    /// For drawing and for reading the picture alone.
    fn drawn(name: &'static str, sheet: &[u8]) -> Self {
        Input::new(name, sheet).only(&["graph", "graph_read"])
    }

    /// For the next command alone, from a state toward a goal.
    fn asked(name: &'static str, sheet: &[u8], state: &[u8], goal: &[u8]) -> Self {
        let mut input = Input::new(name, sheet).only(&["next"]);
        input.lent.state = Slot::new(state);
        input.lent.goal = Slot::new(goal);
        input
    }

    /// For joining alone, of these goals.
    fn joined<G: AsRef<[u8]>>(name: &'static str, sheet: &[u8], goals: &[G]) -> Self {
        let mut input = Input::new(name, sheet).only(&["join"]);
        input.lent.wishes = Slot::new(&in_one_slice(goals));
        input
    }

    pub fn serves(&self, call: &Call) -> bool {
        self.only.is_empty() || self.only.contains(&call.name)
    }
}

pub fn inputs() -> Vec<Input> {
    let mut inputs = vec![
        Input::new("fullest", &fullest()),
        Input::new("stove", &stove()),
        Input::new("kitchen", KITCHEN),
        Input::new("four-of-64", &blocks(4, 0, true)),
        Input::new("five-dials", &dials(5)),
        Input::new("six-dials", &dials(6)).only(&["plan"]),
        Input::asked("kitchen-done", KITCHEN, &untagged(&[0; 20]), &[]),
    ];
    inputs.extend(chains());
    inputs.extend(unusable());
    inputs.extend(eight_wishes());
    inputs.extend(crowded().map(|(name, sheet)| Input::new(name, &sheet).only(&["sheet"])));
    inputs.extend(pictures());
    inputs.extend(amended());
    inputs
}

/// The last machine of the longest chain is to be on: attainable, then refused
/// as 16 (the first is out of order, or tagged), 17 (the last is to be out of
/// order) and 18 (the first is to stay off).
fn chains() -> [Input; 5] {
    let sheet = chain(MAX_MACHINES as u8);
    let last = MAX_MACHINES - 1;
    let off = untagged(&[0; MAX_MACHINES]);
    let mut broken = off.clone();
    set_mode(&mut broken, 0, 2);
    let mut last_on = [3; MAX_MACHINES];
    last_on[last] = 2;
    let (mut last_broken, mut first_off) = (last_on, last_on);
    last_broken[last] = 4;
    first_off[0] = 1;
    [
        Input::asked("chain", &sheet, &off, &last_on),
        Input::asked("chain-16", &sheet, &broken, &last_on),
        Input::asked("chain-tagged", &sheet, &tagged(&off, 0), &last_on),
        Input::asked("chain-17", &sheet, &off, &last_broken),
        Input::asked("chain-18", &sheet, &off, &first_off),
    ]
}

/// Sheets with a mixer that is out of order, which only a move that is never usable
/// names: the example, and the kitchen with such a mixer. Then 32 groups of which
/// all but eight name eight others, attainable, and refused as 16, by a tag on the
/// first machine.
fn unusable() -> [Input; 4] {
    let eight = eight_names();
    let off = untagged(&[0; MAX_MACHINES]);
    let broken = untagged(&[[0; 20].as_slice(), &[2]].concat());
    let goal = [[2; 20].as_slice(), &[7]].concat();
    let planned = ["plan", "next"].as_slice();
    [
        Input::asked("dead-mixer", MIXER, MIXER_BROKEN, OVEN_HOT).only(planned),
        Input::asked("kitchen-mixer", &kitchen_mixer(), &broken, &goal).only(planned),
        Input::new("eight-names", &eight).only(&["next"]),
        Input::asked(
            "eight-names-16",
            &eight,
            &tagged(&off, 0),
            &[2; MAX_MACHINES],
        ),
    ]
}

/// The kitchen, behind its machines a mixer without moves, and behind its moves one
/// that needs the mixer running.
fn kitchen_mixer() -> Vec<u8> {
    let (machines, rest) = KITCHEN.split_at(20 * 6);
    let moves = &rest[..rest.len() - 4];
    let mixer = Builder::new().machine(3, 3).unfinished();
    let waiting = Builder::new().step([19, 0, 1, 255], &[[20, 2]]).end();
    [machines, &mixer, moves, &waiting].concat()
}

/// As many goals as are joined, each for all machines of the longest chain; then
/// with the last machine left without a mode, refused as 19.
fn eight_wishes() -> [Input; 2] {
    let sheet = chain(MAX_MACHINES as u8);
    let last = MAX_MACHINES - 1;
    let agreed = [[3; MAX_MACHINES]; MAX_GOALS];
    let mut apart = agreed;
    (apart[0][last], apart[MAX_GOALS - 1][last]) = (1, 2);
    [
        Input::joined("eight-wishes", &sheet, &agreed),
        Input::joined("eight-wishes-19", &sheet, &apart),
    ]
}

/// Sheets of 250 moves in which a repeated command may be hard to rule out, with
/// their names: all moves have one machine and from mode, or two slots.
pub fn crowded() -> [(&'static str, Vec<u8>); 5] {
    let rising: Vec<u8> = (1..=MAX_MOVES as u8).collect();
    let falling: Vec<u8> = rising.iter().rev().copied().collect();
    let mut shuffled = rising.clone();
    Random::new(RANDOM).shuffle(&mut shuffled);
    [
        ("rising", one_way(&rising, 0)),
        ("falling", one_way(&falling, 0)),
        ("shuffled", one_way(&shuffled, 0)),
        ("shuffled-8", one_way(&shuffled, 8)),
        ("two-slots", two_slots()),
    ]
}

/// A random sheet of 28 machines and 250 moves, in 20 groups with 70 edges; the
/// longest text, of 32 groups and all 496 edges; and that text with its last edge
/// twice, refused as 20.
fn pictures() -> [Input; 3] {
    let longest = Drawing::all_edges(MAX_MACHINES as u8);
    let mut twice = Input::new("edge-twice", &longest.sheet()).only(&["graph_read"]);
    let mut edges = longest.edges.clone();
    edges.extend(longest.edges.last());
    let groups = longest.groups.clone();
    twice.lent.text = Slot::new(Drawing { groups, edges }.text().as_bytes());
    [
        Input::drawn("random", &random::sheet(&mut Random::new(RANDOM))),
        Input::drawn("all-edges", &longest.sheet()),
        twice,
    ]
}

/// As many amendments as there may be: the fullest sheet with moves replaced, so
/// that no file is longer, or withdrawn, and the kitchen with moves replaced.
fn amended() -> [Input; 3] {
    let calls = ["sheet", "plan", "next", "apply", "clean"].as_slice();
    [
        Input::new("fullest-replaced", &fullest_replaced()).only(calls),
        Input::new("fullest-withdrawn", &fullest_withdrawn()).only(calls),
        Input::new("kitchen-replaced", &kitchen_replaced()).only(calls),
    ]
}

/// The kitchen with the first moves replaced by themselves.
fn kitchen_replaced() -> Vec<u8> {
    let mut records = Records::new(KITCHEN);
    let records = std::iter::from_fn(|| records.take());
    let moves = records.filter(|record| record.kind == MOVE);
    let again = |sheet: Builder, body| sheet.record(REPLACEMENT, body);
    let bodies = moves.map(|record| record.body).take(MAX_AMENDMENTS);
    bodies.fold(Builder::reopened(KITCHEN), again).end()
}

/// A sheet with its own plan, or zeros as long where there is none, every
/// machine in mode 0, untagged and wanted in mode 1, the command of the first
/// move, a second goal to be joined: mode 0 or 1 for the first half of the
/// machines; and the text of its picture, with buffers for this, for what it says
/// and for the clean sheet.
pub fn prepared(bytes: &[u8]) -> Lent {
    let sheet = Sheet::read(bytes).expect("a sheet");
    let length = Rust::plan_length(bytes).unwrap_or(0);
    let goal = vec![2; sheet.machines()];
    let other = vec![3; sheet.machines() / 2];
    let first = sheet.step(0);
    let text = own_text::<Rust>(bytes).expect("a text");
    let clean = own_clean::<Rust>(bytes).expect("a clean sheet");
    Lent {
        plan: Slot::new(&own_plan::<Rust>(bytes).unwrap_or(vec![0; length as usize])),
        scratch: Slot::new(&[0; MIN_SCRATCH]),
        state: Slot::new(&untagged(&vec![0; sheet.machines()])),
        goal: Slot::new(&goal),
        command: Command {
            machine: first.machine as u8,
            command: first.command,
        },
        wishes: Slot::new(&in_one_slice(&[goal, other])),
        out: Slot::new(&vec![0; sheet.machines()]),
        drawn: Slot::new(&vec![0; text.len()]),
        text: Slot::new(&text),
        shown: Slot::new(&[0; MAX_READ]),
        cleaned: Slot::new(&vec![0; clean.len()]),
        ..Lent::sheet(bytes)
    }
}
