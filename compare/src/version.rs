//! The versions of the planner, with the calls that each of them has. The
//! values are those of the C interface.

use crate::clean::clean;
use crate::command::{apply, next_command, Command, Effect, Next};
use crate::graph;
use crate::join::join;
use crate::plan::{plan, plan_length};
use crate::sheet::check_sheet;
use crate::Reply;

pub trait Version {
    const NAME: &'static str;

    /// Checks a sheet; the value is 256 × moves + machines.
    fn sheet(sheet: &[u8]) -> Reply<u32>;

    /// The length of a sheet's plan; the value is its bytes.
    fn plan_length(sheet: &[u8]) -> Reply<u32>;

    /// Writes a sheet's plan and clears the scratch; the value is 0.
    fn plan(sheet: &[u8], plan: &mut [u8], scratch: &mut [u8]) -> Reply<u32>;

    /// The next command toward a goal; the value is that of `Next`.
    fn next(sheet: &[u8], plan: &[u8], state: &[u8], goal: &[u8]) -> Reply<u32>;

    /// Applies a command to a state; the value is that of `Effect`.
    fn apply(sheet: &[u8], state: &mut [u8], command: Command) -> Reply<u32>;

    /// Joins goals, each lent after its length, and writes the joined one; the
    /// value is its length.
    fn join(sheet: &[u8], wishes: &[u8], out: &mut [u8]) -> Reply<u32>;

    /// Writes the text of a sheet's picture; the value is its length.
    fn graph(sheet: &[u8], out: &mut [u8]) -> Reply<u32>;

    /// Reads such a text and writes its groups and edges; the value is how many
    /// bytes these are.
    fn graph_read(text: &[u8], out: &mut [u8]) -> Reply<u32>;

    /// Writes the clean sheet of one that may have amendments; the value is its
    /// length.
    fn clean(sheet: &[u8], out: &mut [u8]) -> Reply<u32>;
}

/// The version of this package.
pub struct Rust;

impl Version for Rust {
    const NAME: &'static str = "the Rust version";

    fn sheet(sheet: &[u8]) -> Reply<u32> {
        check_sheet(sheet)
    }

    fn plan_length(sheet: &[u8]) -> Reply<u32> {
        plan_length(sheet).map(|length| length as u32)
    }

    fn plan(sheet: &[u8], buffer: &mut [u8], scratch: &mut [u8]) -> Reply<u32> {
        plan(sheet, buffer, scratch).map(|()| 0)
    }

    fn next(sheet: &[u8], plan: &[u8], state: &[u8], goal: &[u8]) -> Reply<u32> {
        next_command(sheet, plan, state, goal).map(Next::value)
    }

    fn apply(sheet: &[u8], state: &mut [u8], command: Command) -> Reply<u32> {
        apply(sheet, state, command).map(Effect::value)
    }

    fn join(sheet: &[u8], wishes: &[u8], out: &mut [u8]) -> Reply<u32> {
        join(sheet, wishes, out).map(|length| length as u32)
    }

    fn graph(sheet: &[u8], out: &mut [u8]) -> Reply<u32> {
        graph::draw(sheet, out).map(|length| length as u32)
    }

    fn graph_read(text: &[u8], out: &mut [u8]) -> Reply<u32> {
        graph::read(text, out).map(|length| length as u32)
    }

    fn clean(sheet: &[u8], out: &mut [u8]) -> Reply<u32> {
        clean(sheet, out).map(|length| length as u32)
    }
}
