//! Tags, in both versions: what they hinder and what they leave alone, by hand
//! and on random rounds under plans of every kind. `refusals.rs` has the
//! refusals that they cause.

use duty_compare::both::{apply, next_command, own_plan, walk};
use duty_compare::command::{Command, Effect, Next};
use duty_compare::definition::Reading;
use duty_compare::expected::obeyed;
use duty_compare::random::{goal, lent, sheet, state, Random};
use duty_compare::samples::stove;
use duty_compare::sheet::Sheet;
use duty_compare::state::{lifted, tagged};
use duty_compare::{refuse, Reply};

/// The stove's next command.
fn next(state: [u8; 6], goal: &[u8]) -> Reply<Next> {
    let plan = own_plan(&stove()).expect("a plan");
    next_command(&stove(), &plan, &state, goal)
}

fn send(machine: u8, command: u8) -> Reply<Next> {
    Ok(Next::Send(Command { machine, command }))
}

#[test]
fn a_tag_where_nobody_waits_hinders_nothing() {
    // The board is to go on, and needs neither fan nor burner.
    assert_eq!(next([0, 0, 0, 0, 0, 1], &[2]), send(0, 1));
    assert_eq!(next([0, 0, 0, 1, 0, 0], &[2, 1, 7]), send(0, 1));
    assert_eq!(next([0, 0, 0, 1, 0, 1], &[2, 1, 1]), send(0, 1));
    let printed = walk(&stove(), &[0, 0, 0, 1, 1, 1], &[2]);
    assert_eq!(printed, "0 1 0\ndone 1 bound 7\n");
}

#[test]
fn tags_on_every_machine_leave_a_met_goal_met() {
    assert_eq!(next([1, 1, 1, 1, 1, 1], &[2, 2, 2]), Ok(Next::Done));
    assert_eq!(next([1, 1, 1, 1, 2, 1], &[]), Ok(Next::Done));
}

#[test]
fn a_tag_hinders_until_it_is_lifted() {
    // The fan is to go on, and needs the board on, which it is.
    let (hung, goal) = ([1, 1, 0, 0, 0, 0], [3, 2]);
    assert_eq!(walk(&stove(), &hung, &goal), "refused 16 0\n");
    let printed = walk(&stove(), &lifted(&hung), &goal);
    assert_eq!(printed, "1 1 2\ndone 1 bound 7\n");
}

/// Sends the stove a command; what it was, and the state after it.
fn applied(machine: u8, command: u8, mut state: [u8; 6]) -> (Reply<Effect>, [u8; 6]) {
    let reply = apply(&stove(), &mut state, Command { machine, command });
    (reply, state)
}

#[test]
fn a_tagged_machine_does_not_move() {
    let stays = |machine, command, state| {
        let nothing = (Ok(Effect::Nothing), state);
        assert_eq!(applied(machine, command, state), nothing, "{state:?}");
    };
    stays(0, 1, [0, 1, 0, 0, 0, 0]);
    stays(0, 2, [1, 1, 1, 0, 1, 0]);
    stays(1, 1, [1, 0, 0, 1, 0, 0]);
    stays(1, 2, [1, 0, 1, 1, 0, 0]);
    stays(2, 1, [1, 0, 1, 0, 0, 1]);
    stays(2, 2, [1, 0, 0, 0, 1, 1]);
    stays(2, 3, [1, 1, 1, 1, 2, 1]);
}

#[test]
fn a_machine_moves_beside_tagged_ones_whose_tags_stay() {
    let moved = |number, after| (Ok(Effect::Move(number)), after);
    // Those that it needs have a tag, then those that it does not need.
    let fan = applied(1, 1, [1, 1, 0, 0, 0, 1]);
    assert_eq!(fan, moved(2, [1, 1, 1, 0, 0, 1]));
    let burner = applied(2, 1, [1, 1, 1, 1, 0, 0]);
    assert_eq!(burner, moved(4, [1, 1, 1, 1, 1, 0]));
    let board = applied(0, 1, [0, 0, 0, 1, 2, 1]);
    assert_eq!(board, moved(0, [1, 0, 0, 1, 2, 1]));
}

/// The machines' groups as a plan in shape numbers them.
fn groups(plan: &[u8], state: &[u8]) -> Vec<u8> {
    plan[4..4 + state.len() / 2].to_vec()
}

/// Hangs one tag on each machine in turn. Where 16 looks at its group, it is
/// refused with the group's smallest machine, unless another refusal comes first;
/// anywhere else the reply stays.
#[test]
fn a_tag_hinders_where_16_looks_and_nowhere_else() {
    let (mut refused, mut aside) = (0, [0; 2]);
    for seed in 0..20_000 {
        let input = lent(&mut Random::new(seed));
        let (sheet, plan, goal) = (input.sheet.get(), input.plan.get(), input.goal.get());
        let state = lifted(input.state.get());
        let reply = next_command(sheet, plan, &state, goal);
        if reply.is_err_and(|refusal| !(16..=18).contains(&refusal.number)) {
            continue;
        }
        let groups = groups(plan, &state);
        let judged = Reading::new(sheet, plan).judged(&state, goal);
        for (machine, group) in groups.iter().enumerate() {
            let hung = next_command(sheet, plan, &tagged(&state, machine), goal);
            let smallest = groups.iter().position(|other| other == group);
            let by_tag = refuse(16, smallest.expect("its own at least"));
            if !judged.contains(&(*group as usize)) {
                assert_eq!(hung, reply, "seed {seed}: machine {machine}");
                aside[reply.is_ok_and(|next| next != Next::Done) as usize] += 1;
            } else if reply.is_ok() {
                assert_eq!(hung, by_tag, "seed {seed}: machine {machine}");
                refused += 1;
            } else {
                assert!(
                    hung == by_tag || hung == reply,
                    "seed {seed}: machine {machine}: {hung:?}"
                );
            }
        }
    }
    assert!(
        refused > 1000 && aside.iter().all(|&times| times > 1000),
        "{refused} {aside:?}"
    );
}

/// Also shows that the rounds send commands beside tags, under the sheet's own
/// plan and others.
#[test]
fn no_command_goes_to_a_tagged_machine() {
    let (mut own, mut others) = (0, 0);
    for seed in 0..20_000 {
        let input = lent(&mut Random::new(seed));
        let (sheet, plan, state) = (input.sheet.get(), input.plan.get(), input.state.get());
        let Ok(Next::Send(command)) = next_command(sheet, plan, state, input.goal.get()) else {
            continue;
        };
        let tag = state[2 * command.machine as usize + 1];
        assert_eq!(tag, 0, "seed {seed}: {command:?}");
        if lifted(state) != state {
            match own_plan(sheet) {
                Ok(own_plan) if own_plan == plan => own += 1,
                _ => others += 1,
            }
        }
    }
    assert!(own > 50 && others > 50, "{own} own, {others} others");
}

/// A goal that can be attained beside tags is reached by the same commands as
/// without them, and every tag still hangs.
#[test]
fn walks_beside_tags_are_those_without() {
    let mut walked = 0;
    for seed in 0..4_000 {
        let random = &mut Random::new(seed);
        let bytes = sheet(random);
        let read = Sheet::read(&bytes).expect("a sheet that passes");
        let Ok(plan) = own_plan(&bytes) else { continue };
        let (before, goal) = (state(random, &read), goal(random, &read));
        let (mut after, without) = (before.clone(), lifted(&before));
        let Some(count) = obeyed(&bytes, &plan, &mut after, &goal) else {
            continue;
        };
        let printed = walk(&bytes, &before, &goal);
        assert_eq!(printed, walk(&bytes, &without, &goal), "seed {seed}");
        let tags = |state: &[u8]| state.iter().skip(1).step_by(2).copied().collect::<Vec<_>>();
        assert_eq!(tags(&after), tags(&before), "seed {seed}");
        walked += (count > 0 && before != without) as u32;
    }
    assert!(walked > 30, "only {walked} walks beside tags had a command");
}
