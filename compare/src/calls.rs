//! Every call in both versions, side by side, for the comparison and the
//! benchmark.

use crate::command::Command;
use crate::library::Library;
use crate::state::lifted;
use crate::version::{Rust, Version};
use crate::Reply;

/// A lent slice amid bytes that no call may touch.
#[derive(Clone, Debug, PartialEq, Eq)]
pub struct Slot {
    padded: Vec<u8>,
}

impl Slot {
    const PAD: [u8; 16] = [0xA5; 16];

    pub fn new(bytes: &[u8]) -> Self {
        let padded = [&Self::PAD, bytes, &Self::PAD].concat();
        Slot { padded }
    }

    pub fn get(&self) -> &[u8] {
        &self.padded[16..self.padded.len() - 16]
    }

    pub fn get_mut(&mut self) -> &mut [u8] {
        let end = self.padded.len() - 16;
        &mut self.padded[16..end]
    }
}

/// All that the calls may be lent.
#[derive(Clone, Debug, PartialEq, Eq)]
pub struct Lent {
    pub sheet: Slot,
    pub plan: Slot,
    pub scratch: Slot,
    pub state: Slot,
    pub goal: Slot,
    pub command: Command,
    /// The goals to be joined, each after its length, and room for what they
    /// become.
    pub wishes: Slot,
    pub out: Slot,
    /// Room for the text of the sheet's picture, a text to be read as one, and
    /// room for what it says.
    pub drawn: Slot,
    pub text: Slot,
    pub shown: Slot,
    /// Room for the clean sheet.
    pub cleaned: Slot,
}

impl Lent {
    /// A sheet alone, nothing else lent.
    pub fn sheet(bytes: &[u8]) -> Self {
        let none = Slot::new(&[]);
        Lent {
            sheet: Slot::new(bytes),
            plan: none.clone(),
            scratch: none.clone(),
            state: none.clone(),
            goal: none.clone(),
            command: Command {
                machine: 0,
                command: 0,
            },
            wishes: none.clone(),
            out: none.clone(),
            drawn: none.clone(),
            text: none.clone(),
            shown: none.clone(),
            cleaned: none,
        }
    }

    /// The same with all tags of the state lifted.
    pub fn lifted(&self) -> Self {
        Lent {
            state: Slot::new(&lifted(self.state.get())),
            ..self.clone()
        }
    }
}

/// One version of a call.
pub type Side = fn(&mut Lent) -> Reply<u32>;

pub struct Call {
    pub name: &'static str,
    pub rust: Side,
    pub library: Side,
}

pub const CALLS: [Call; 9] = [
    Call {
        name: "sheet",
        rust: sheet::<Rust>,
        library: sheet::<Library>,
    },
    Call {
        name: "plan_length",
        rust: plan_length::<Rust>,
        library: plan_length::<Library>,
    },
    Call {
        name: "plan",
        rust: plan::<Rust>,
        library: plan::<Library>,
    },
    Call {
        name: "next",
        rust: next::<Rust>,
        library: next::<Library>,
    },
    Call {
        name: "apply",
        rust: apply::<Rust>,
        library: apply::<Library>,
    },
    Call {
        name: "join",
        rust: join::<Rust>,
        library: join::<Library>,
    },
    Call {
        name: "graph",
        rust: graph::<Rust>,
        library: graph::<Library>,
    },
    Call {
        name: "graph_read",
        rust: graph_read::<Rust>,
        library: graph_read::<Library>,
    },
    Call {
        name: "clean",
        rust: clean::<Rust>,
        library: clean::<Library>,
    },
];

impl Call {
    pub fn named(name: &str) -> Option<&'static Self> {
        CALLS.iter().find(|call| call.name == name)
    }
}

fn sheet<V: Version>(lent: &mut Lent) -> Reply<u32> {
    V::sheet(lent.sheet.get())
}

fn plan_length<V: Version>(lent: &mut Lent) -> Reply<u32> {
    V::plan_length(lent.sheet.get())
}

fn plan<V: Version>(lent: &mut Lent) -> Reply<u32> {
    V::plan(
        lent.sheet.get(),
        lent.plan.get_mut(),
        lent.scratch.get_mut(),
    )
}

fn next<V: Version>(lent: &mut Lent) -> Reply<u32> {
    V::next(
        lent.sheet.get(),
        lent.plan.get(),
        lent.state.get(),
        lent.goal.get(),
    )
}

fn apply<V: Version>(lent: &mut Lent) -> Reply<u32> {
    V::apply(lent.sheet.get(), lent.state.get_mut(), lent.command)
}

fn join<V: Version>(lent: &mut Lent) -> Reply<u32> {
    V::join(lent.sheet.get(), lent.wishes.get(), lent.out.get_mut())
}

fn graph<V: Version>(lent: &mut Lent) -> Reply<u32> {
    V::graph(lent.sheet.get(), lent.drawn.get_mut())
}

fn graph_read<V: Version>(lent: &mut Lent) -> Reply<u32> {
    V::graph_read(lent.text.get(), lent.shown.get_mut())
}

fn clean<V: Version>(lent: &mut Lent) -> Reply<u32> {
    V::clean(lent.sheet.get(), lent.cleaned.get_mut())
}
