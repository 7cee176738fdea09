//! What is expected of commands, goals, tags, edges and clean sheets, straight from
//! the lent bytes. The tests hold the versions against it.

use crate::both::{apply, next_command};
use crate::command::{Command, Effect, Next};
use crate::plain::Plain;
use crate::walk::bound_of;
use crate::{refuse, Reply};
use std::collections::BTreeSet;

/// Whether a state meets a goal.
pub fn meets(state: &[u8], goal: &[u8]) -> bool {
    goal.iter()
        .zip(state.chunks(2))
        .all(|(mask, cell)| mask >> cell[0] & 1 == 1)
}

/// The bodies of the standing moves of a sheet that passes, by their numbers.
fn moves(sheet: &[u8]) -> Vec<Vec<u8>> {
    Plain::read(sheet).expect("a sheet that passes").moves
}

/// For each group that a move of another names, the two numbers, needed group
/// first; in order, each pair once.
pub fn named_outside(sheet: &[u8], groups: &[u8]) -> Vec<u8> {
    let group = |machine: u8| groups[machine as usize];
    let named = |body: Vec<u8>| {
        let target = group(body[0]);
        let pairs = body[4..].chunks(2).map(|guard| [group(guard[0]), target]);
        pairs.collect::<Vec<_>>()
    };
    let pairs: BTreeSet<_> = moves(sheet).into_iter().flat_map(named).collect();
    let outside = pairs
        .into_iter()
        .filter(|[source, target]| source != target);
    outside.flatten().collect()
}

/// What cleaning a sheet into a buffer replies, and the buffer after it.
pub fn cleaned(sheet: &[u8], room: &[u8]) -> (Reply<usize>, Vec<u8>) {
    match Plain::read(sheet).map(|plain| plain.clean()) {
        Err(refusal) => (Err(refusal), room.to_vec()),
        Ok(clean) if clean.len() > room.len() => (refuse(12, 0), room.to_vec()),
        Ok(clean) => (Ok(clean.len()), over(&clean, room)),
    }
}

/// Bytes with others in the place of their front.
fn over(front: &[u8], bytes: &[u8]) -> Vec<u8> {
    [front, &bytes[front.len()..]].concat()
}

/// How tags change a reply, given the one with all tags lifted: 13 for a tag byte,
/// 16 where a command would be sent, 16 in place of another refusal, nothing
/// done where a machine would move. They never change it otherwise.
pub fn tags_change(reply: Reply<u32>, lifted: Reply<u32>) -> Option<usize> {
    let number = reply.err().map(|refusal| refusal.number);
    match (number, lifted) {
        _ if reply == lifted => None,
        (Some(13), _) => Some(0),
        (Some(16), Ok(value)) if value != Next::Done.value() => Some(1),
        (Some(16), Err(_)) => Some(2),
        (None, Ok(_)) if reply == Ok(Effect::Nothing.value()) => Some(3),
        _ => panic!("tags make {reply:?} of {lifted:?}"),
    }
}

/// Whether a move is of a command's machine and byte, from the mode that the
/// machine is in, with no tag on it, and the state meets all of its guards.
fn acts(body: &[u8], state: &[u8], command: Command) -> bool {
    let mode = |machine: u8| state[2 * machine as usize];
    let tag = |machine: u8| state[2 * machine as usize + 1];
    [body[0], body[3]] == [command.machine, command.command]
        && [body[1], 0] == [mode(body[0]), tag(body[0])]
        && body[4..]
            .chunks(2)
            .all(|guard| guard[1] >> mode(guard[0]) & 1 == 1)
}

/// What a command does to a state that fits its sheet, by the one move that
/// acts, if there is one; and the state after it.
pub fn effect(sheet: &[u8], state: &[u8], command: Command) -> (Effect, Vec<u8>) {
    let numbered = (0..).zip(moves(sheet));
    let acting: Vec<_> = numbered
        .filter(|(_, body)| acts(body, state, command))
        .collect();
    let mut after = state.to_vec();
    match &acting[..] {
        [] => (Effect::Nothing, after),
        [(number, body)] => {
            after[2 * body[0] as usize] = body[2];
            (Effect::Move(*number), after)
        }
        _ => panic!("{} moves act at once", acting.len()),
    }
}

/// Obeys a plan in both versions until it is done, where each command must be
/// the move that acts; how many commands that took, or none where the first
/// reply is a refusal.
pub fn obeyed(sheet: &[u8], plan: &[u8], state: &mut [u8], goal: &[u8]) -> Option<u32> {
    let mut next = next_command(sheet, plan, state, goal).ok()?;
    let mut count = 0;
    while let Next::Send(command) = next {
        let (effect, after) = effect(sheet, state, command);
        assert_ne!(effect, Effect::Nothing, "a command that does not act");
        assert_eq!(apply(sheet, state, command), Ok(effect));
        assert_eq!(*state, after, "after {command:?}");
        count += 1;
        assert!(count <= bound_of(plan), "past the bound");
        next = next_command(sheet, plan, state, goal).expect("attainable goals stay so");
    }
    Some(count)
}
