//! The worked cases, in both versions: the stove, the filter, the dials and the
//! groups of 64; then two cooks and one stove.

use duty_compare::both::{apply, join, next_command, own_plan, plan_length, walk};
use duty_compare::command::{Command, Effect, Next};
use duty_compare::join::in_one_slice;
use duty_compare::plan::{HERE, NO_ROUTE};
use duty_compare::samples::{blocks, dials, filter, stove, Builder};
use duty_compare::shape::Plan;
use duty_compare::sheet::Sheet;
use duty_compare::state::untagged;
use duty_compare::walk::bound_of;
use duty_compare::{refuse, Reply};

fn bound(sheet: &[u8]) -> Reply<u32> {
    own_plan(sheet).map(|plan| bound_of(&plan))
}

/// The next command from these modes, with no tags.
fn next(sheet: &[u8], modes: &[u8], goal: &[u8]) -> Reply<Next> {
    next_command(sheet, &own_plan(sheet)?, &untagged(modes), goal)
}

fn send(machine: u8, command: u8) -> Reply<Next> {
    Ok(Next::Send(Command { machine, command }))
}

/// An entry of the sheet's own plan.
fn entry(sheet: &[u8], group: usize, from: usize, wanted: usize) -> [u8; 2] {
    let plan = own_plan(sheet).expect("a plan");
    let read = Sheet::read(sheet).expect("a sheet");
    Plan::read(&read, &plan)
        .expect("its own plan")
        .entries(group, from)[wanted]
}

#[test]
fn case_1_stove_has_two_groups_bound_7_and_107_bytes() {
    let plan = own_plan(&stove()).expect("a plan");
    assert_eq!(plan[..7], [3, 0, 16, 0, 0, 1, 1]);
    assert_eq!(bound_of(&plan), 7);
    assert_eq!(plan_length(&stove()), Ok(107));
}

#[test]
fn case_2_distance_from_lit_without_fan_is_3() {
    // Fan off, burner lit is 2; fan on, burner lit is 3. First the burner goes off.
    assert_eq!(entry(&stove(), 1, 2, 3), [3, 5]);
}

/// What the walk of case 3 prints.
const CASE_3: &str = "0 1 0\n1 1 2\n2 1 4\n0 2 1\ndone 4 bound 7\n";

#[test]
fn case_3_walk_turns_the_board_off_last() {
    assert_eq!(walk(&stove(), &[0; 6], &[1, 2, 2]), CASE_3);
}

#[test]
fn case_4_tripped_burner_is_reset() {
    assert_eq!(next(&stove(), &[1, 1, 2], &[2, 2, 2]), send(2, 3));
}

#[test]
fn case_5_burner_cannot_be_tripped_on_purpose() {
    assert_eq!(next(&stove(), &[1, 1, 1], &[3, 3, 4]), refuse(17, 1));
}

#[test]
fn case_6_fan_stays_on_while_the_burner_is_lit() {
    let mut state = untagged(&[1, 1, 1]);
    let reply = apply(
        &stove(),
        &mut state,
        Command {
            machine: 1,
            command: 2,
        },
    );
    assert_eq!(reply, Ok(Effect::Nothing));
    assert_eq!(state, untagged(&[1, 1, 1]));
}

#[test]
fn case_7_one_machine_of_one_mode_is_done() {
    let sheet = Builder::new().machines(1, 1).end();
    assert_eq!(walk(&sheet, &[0, 0], &[1]), "done 0 bound 0\n");
}

#[test]
fn case_8_filter_could_be_used_up() {
    assert_eq!(next(&filter(), &[0, 0], &[1, 2]), refuse(18, 0));
}

#[test]
fn case_9_five_dials_are_planned_and_a_sixth_is_too_many() {
    assert_eq!(bound(&dials(5)), Ok(22_869));
    assert_eq!(bound(&dials(6)), refuse(11, 0));
}

#[test]
fn case_10_four_groups_of_64_fit_and_one_mode_more_does_not() {
    assert_eq!(
        plan_length(&blocks(4, 0, true)),
        Ok(4 + 8 + 4 * (4 + 8192) + 8 + 4)
    );
    assert!(own_plan(&blocks(4, 0, true)).is_ok());
    assert_eq!(plan_length(&blocks(4, 1, true)), refuse(10, 0));
}

#[test]
fn of_the_nearest_modes_the_smallest_is_the_target() {
    // From 0 one move leads to 3 and one to 2, two lead to 1. The second machine
    // needs the first anywhere but at 0.
    let sheet = Builder::new()
        .machines(1, 4)
        .machines(1, 2)
        .step([0, 0, 3, 1], &[])
        .step([0, 0, 2, 2], &[])
        .step([0, 2, 1, 3], &[])
        .step([1, 0, 1, 1], &[[0, 0b1110]])
        .end();
    let sent = |goal: &[u8]| next(&sheet, &[0, 0], goal);
    assert_eq!(sent(&[0b1100]), send(0, 2));
    assert_eq!(sent(&[0b1110]), send(0, 2));
    assert_eq!(sent(&[0b1010]), send(0, 1));
    assert_eq!(sent(&[0b1111, 2]), send(0, 2));
}

#[test]
fn no_move_leads_from_a_group_mode_that_is_out_of_order() {
    // A group of six modes: 4 and 5 have the second machine out of order. The
    // last move would lead from there alone.
    let sheet = Builder::new()
        .machines(1, 2)
        .machine(3, 3)
        .step([0, 0, 1, 1], &[[1, 7]])
        .step([1, 0, 1, 1], &[[0, 3]])
        .step([0, 1, 0, 2], &[[1, 4]])
        .end();
    assert_eq!(entry(&sheet, 0, 0, 1), [1, 0]);
    assert_eq!(entry(&sheet, 0, 0, 3), [2, 0]);
    for from in [4, 5] {
        for wanted in 0..6 {
            let expected = if wanted == from { HERE } else { NO_ROUTE };
            assert_eq!(entry(&sheet, 0, from, wanted), expected, "{from} {wanted}");
        }
    }
    assert_eq!(bound(&sheet), Ok(2));
}

#[test]
fn a_command_of_an_absent_machine_changes_nothing() {
    let mut state = untagged(&[1, 1, 1]);
    for command in [
        Command {
            machine: 3,
            command: 1,
        },
        Command {
            machine: 0,
            command: 0,
        },
    ] {
        assert_eq!(apply(&stove(), &mut state, command), Ok(Effect::Nothing));
    }
    assert_eq!(state, untagged(&[1, 1, 1]));
}

#[test]
fn every_move_of_the_stove_tells_its_number() {
    // Each machine's command, the modes that it acts in, and those after it.
    let moves = [
        ((0, 1), [0, 0, 0], [1, 0, 0]),
        ((0, 2), [1, 1, 1], [0, 1, 1]),
        ((1, 1), [1, 0, 0], [1, 1, 0]),
        ((1, 2), [1, 1, 0], [1, 0, 0]),
        ((2, 1), [1, 1, 0], [1, 1, 1]),
        ((2, 2), [1, 0, 1], [1, 0, 0]),
        ((2, 3), [1, 1, 2], [1, 1, 0]),
    ];
    for (number, ((machine, command), modes, after)) in (0..).zip(moves) {
        let mut state = untagged(&modes);
        let reply = apply(&stove(), &mut state, Command { machine, command });
        assert_eq!(reply, Ok(Effect::Move(number)));
        assert_eq!(state, untagged(&after));
    }
}

/// Joins goals of the stove into a longer buffer, which keeps what it has behind
/// the joined one.
fn joined(goals: &[&[u8]]) -> Reply<Vec<u8>> {
    let mut out = [21, 22, 23, 24, 25];
    let length = join(&stove(), &in_one_slice(goals), &mut out)?;
    assert_eq!(out[length..], [21, 22, 23, 24, 25][length..], "{goals:?}");
    Ok(out[..length].to_vec())
}

#[test]
fn two_cooks_may_agree_on_the_stove() {
    // The burner is to be lit, and the fan is to be on with the board off.
    let both = joined(&[&[3, 3, 2], &[1, 2]]).expect("a goal");
    assert_eq!(both, [1, 2, 2]);
    assert_eq!(walk(&stove(), &[0; 6], &both), CASE_3);
}

#[test]
fn two_cooks_may_contradict_each_other() {
    assert_eq!(joined(&[&[3, 3, 2], &[3, 2, 1]]), refuse(19, 2));
}

#[test]
fn eight_cooks_leave_what_all_of_them_allow() {
    let goals: [&[u8]; 8] = [
        &[3, 3, 7],
        &[],
        &[3],
        &[3, 3, 6],
        &[],
        &[2],
        &[3, 3],
        &[3, 3, 3],
    ];
    assert_eq!(joined(&goals), Ok(vec![2, 3, 2]));
}

#[test]
fn one_goal_is_joined_to_itself() {
    for goal in [&[][..], &[1], &[3, 2], &[1, 2, 4]] {
        assert_eq!(joined(&[goal]), Ok(goal.to_vec()));
    }
}

#[test]
fn no_goals_or_empty_ones_are_joined_to_the_empty_one() {
    for number in 0..9 {
        assert_eq!(joined(&vec![&[][..]; number]), Ok(vec![]), "{number}");
        assert_eq!(join(&stove(), &vec![0; number], &mut []), Ok(0), "{number}");
    }
}

#[test]
fn a_buffer_may_be_as_long_as_the_joined_goal() {
    let mut out = [9; 3];
    let wishes = in_one_slice(&[&[3, 3, 2], &[1, 2, 7]]);
    assert_eq!(join(&stove(), &wishes, &mut out), Ok(3));
    assert_eq!(out, [1, 2, 2]);
}
