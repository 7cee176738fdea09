//! The walk: plans a sheet, then obeys its own commands until the goal is met.

use crate::command::{Effect, Next};
use crate::plan::MIN_SCRATCH;
use crate::version::Version;
use crate::{Refusal, Reply};
use std::fmt::Write;

/// All that the walk of a version prints for a sheet, a state and a goal.
pub fn walk<V: Version>(sheet: &[u8], state: &[u8], goal: &[u8]) -> String {
    let mut text = String::new();
    let refused = obey::<V>(sheet, &mut state.to_vec(), goal, &mut text);
    if let Err(Refusal { number, place }) = refused {
        text += &format!("refused {number} {place}\n");
    }
    text
}

/// A sheet's own plan in a buffer of its own.
pub fn own_plan<V: Version>(sheet: &[u8]) -> Reply<Vec<u8>> {
    let mut buffer = vec![0; V::plan_length(sheet)? as usize];
    V::plan(sheet, &mut buffer, &mut [0; MIN_SCRATCH])?;
    Ok(buffer)
}

/// The bound that a plan ends with, before its end record.
pub fn bound_of(plan: &[u8]) -> u32 {
    let at = plan.len() - 8;
    u32::from_le_bytes([plan[at], plan[at + 1], plan[at + 2], plan[at + 3]])
}

fn obey<V: Version>(sheet: &[u8], state: &mut [u8], goal: &[u8], text: &mut String) -> Reply<()> {
    let plan = own_plan::<V>(sheet)?;
    let bound = bound_of(&plan);
    let mut count = 0;
    while let Next::Send(command) = Next::of_value(V::next(sheet, &plan, state, goal)?) {
        let Effect::Move(number) = Effect::of_value(V::apply(sheet, state, command)?) else {
            panic!("{}: a command that does not act", V::NAME);
        };
        count += 1;
        assert!(count <= bound, "{}: past the bound", V::NAME);
        let _ = writeln!(text, "{} {} {number}", command.machine, command.command);
    }
    let _ = writeln!(text, "done {count} bound {bound}");
    Ok(())
}
