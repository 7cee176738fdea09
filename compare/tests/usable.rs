//! Moves that are never usable: what they alone name is not upstream and adds
//! nothing to the bound, and no entry with such a move is followed. By hand in both
//! versions, then the Rust version against the definition on random rounds.

use duty_compare::both::{next_command, own_plan, walk};
use duty_compare::calls::Lent;
use duty_compare::command::{Command, Next};
use duty_compare::definition::Reading;
use duty_compare::random::{forged, idle_lent, idle_sheet, lent, Random};
use duty_compare::samples::Builder;
use duty_compare::shape::Plan;
use duty_compare::sheet::Sheet;
use duty_compare::state::{tagged, untagged};
use duty_compare::version::{Rust, Version};
use duty_compare::walk::{self, bound_of};
use duty_compare::{refuse, Refusal, Reply};
use std::collections::BTreeMap;

/// Mixer, steam, hood and oven. The oven's move to proving needs the mixer running,
/// which nothing makes it.
const MIXER: &[u8] = include_bytes!("../../examples/walks/dead_mixer/sheet.bin");

fn bound(sheet: &[u8]) -> Reply<u32> {
    own_plan(sheet).map(|plan| bound_of(&plan))
}

/// The next command under the sheet's own plan.
fn next(sheet: &[u8], state: &[u8], goal: &[u8]) -> Reply<Next> {
    next_command(sheet, &own_plan(sheet)?, state, goal)
}

fn send(machine: u8, command: u8) -> Reply<Next> {
    Ok(Next::Send(Command { machine, command }))
}

#[test]
fn a_dead_mixer_does_not_hinder_the_oven() {
    let (broken, off) = (untagged(&[2, 0, 0, 0]), untagged(&[0; 4]));
    let hot = [7, 3, 3, 2];
    let printed = "2 1 2\n3 1 4\ndone 2 bound 6\n";
    for state in [
        &broken,
        &tagged(&broken, 0),
        &tagged(&off, 0),
        &tagged(&off, 1),
    ] {
        assert_eq!(walk(MIXER, state, &hot), printed, "{state:?}");
    }
    // The hood is needed.
    assert_eq!(next(MIXER, &tagged(&off, 2), &hot), refuse(16, 2));
    // Nor does it hinder what only the unusable move would do.
    assert_eq!(next(MIXER, &broken, &[7, 3, 3, 4]), refuse(17, 3));
    // It is still out of order where it is to move itself.
    assert_eq!(next(MIXER, &broken, &[2]), refuse(16, 0));
    assert_eq!(next(MIXER, &off, &[2]), refuse(17, 0));
}

#[test]
fn nobody_is_stranded_where_no_usable_move_needs_it() {
    // A filter that is used once, a switch without moves, and a pan, which may go
    // on at once, or when the filter is used and the switch on.
    let sheet = |second: &[[u8; 2]]| {
        let sheet = Builder::new().machines(3, 2);
        let sheet = sheet.step([0, 0, 1, 1], &[]).step([2, 0, 1, 1], &[]);
        sheet.step([2, 0, 1, 2], second).end()
    };
    let goal = [1, 3, 2];
    assert_eq!(next(&sheet(&[[0, 2], [1, 2]]), &[0; 6], &goal), send(2, 1));
    assert_eq!(next(&sheet(&[[0, 2]]), &[0; 6], &goal), refuse(18, 0));
    // Through a usable move of a group that only an unusable one names.
    let through = Builder::new()
        .machines(4, 2)
        .step([0, 0, 1, 1], &[])
        .step([2, 0, 1, 1], &[[0, 2]])
        .step([3, 0, 1, 1], &[])
        .step([3, 0, 1, 2], &[[1, 2], [2, 2]])
        .end();
    assert_eq!(next(&through, &[0; 8], &[1, 3, 3, 2]), send(3, 1));
    // That group is to go on itself.
    assert_eq!(next(&through, &[0; 8], &[1, 3, 2, 2]), refuse(18, 0));
}

#[test]
fn the_bound_leaves_out_what_unusable_moves_name() {
    assert_eq!(bound(MIXER), Ok(6));
    // Five dials, each of which needs the one before; a sixth that turns by itself,
    // and a key without moves. One more move of the sixth needs the fifth, and the
    // key where it may not be.
    let six = |key: u8| {
        let sheet = Builder::new().machines(6, 8).machines(1, 2);
        let turns = (0..48u8).map(|turn| (turn / 8, turn % 8));
        let sheet = turns.fold(sheet, |sheet, (dial, from)| {
            let needed = [[dial.wrapping_sub(1), 1]];
            let needs = (1..5).contains(&dial) as usize;
            sheet.step([dial, from, (from + 1) % 8, 1], &needed[..needs])
        });
        sheet.step([5, 0, 1, 2], &[[4, 1], [6, key]]).end()
    };
    assert_eq!(bound(&six(2)), Ok(22_869 + 7));
    assert_eq!(bound(&six(3)), refuse(11, 0));
}

#[test]
fn a_move_that_is_held_up_inside_its_group_is_usable() {
    // The second machine's move back needs the third in a failed mode, so it can
    // never start; it also needs the first, as that always is when live.
    let sheet = Builder::new()
        .machine(2, 1)
        .machine(2, 3)
        .machine(3, 3)
        .step([1, 0, 1, 1], &[[2, 1]])
        .step([2, 0, 1, 1], &[[1, 1]])
        .step([1, 1, 0, 9], &[[0, 1], [2, 4]])
        .end();
    assert_eq!(next(&sheet, &untagged(&[0, 0, 0]), &[3, 2]), send(1, 1));
    assert_eq!(next(&sheet, &untagged(&[1, 0, 0]), &[3, 2]), refuse(16, 0));
    assert_eq!(next(&sheet, &tagged(&[0; 6], 0), &[3, 2]), refuse(16, 0));
}

/// A machine of three modes that goes from 0 to 1, and one of two that needs it
/// there; which modes of the first are live.
fn two(live: u8) -> Vec<u8> {
    let sheet = Builder::new().machine(3, live).machines(1, 2);
    sheet
        .step([0, 0, 1, 1], &[])
        .step([1, 0, 1, 1], &[[0, 2]])
        .end()
}

/// A plan of `two` with these further entries: a group, its present mode, the
/// wanted one, distance and move.
fn with_entries(sheet: &[u8], entries: &[[u8; 5]]) -> Vec<u8> {
    let mut plan = own_plan(sheet).expect("a plan");
    for &[group, from, wanted, distance, number] in entries {
        let (table, size) = [(10, 3), (32, 2)][group as usize];
        let at = table + 2 * (from as usize * size + wanted as usize);
        plan[at..at + 2].copy_from_slice(&[distance, number]);
    }
    plan
}

/// The second machine's entry forged to its own move, which is not usable, as the
/// first has no route from mode 2.
const FORGED: [u8; 5] = [1, 0, 1, 1, 1];

#[test]
fn an_entry_with_an_unusable_move_is_not_followed() {
    let (sheet, goal) = (two(7), [7, 2]);
    let forged = with_entries(&sheet, &[FORGED]);
    for first in 0..3 {
        let state = untagged(&[first, 0]);
        assert_eq!(next(&sheet, &state, &goal), refuse(17, 1), "{first}");
        for state in [tagged(&state, 0), state] {
            let reply = next_command(&sheet, &forged, &state, &goal);
            assert_eq!(reply, refuse(15, 0), "{state:?}");
        }
    }
    // Where mode 2 is out of order the same move is usable.
    let sheet = two(3);
    assert_eq!(next(&sheet, &[0; 4], &goal), send(0, 1));
    assert_eq!(next(&sheet, &tagged(&[0; 4], 0), &goal), refuse(16, 0));
}

#[test]
fn usable_is_judged_by_the_entries_of_the_plan_that_is_lent() {
    let (sheet, goal) = (two(7), [7, 2]);
    // With a route from mode 2 as well, be it one that could not be followed.
    for number in [0, 1, 254] {
        let plan = with_entries(&sheet, &[FORGED, [0, 2, 1, 9, number]]);
        let asked = |state: &[u8]| next_command(&sheet, &plan, state, &goal);
        assert_eq!(asked(&untagged(&[0, 0])), send(0, 1));
        assert_eq!(asked(&untagged(&[1, 0])), send(1, 1));
        assert_eq!(asked(&tagged(&[0; 4], 0)), refuse(16, 0));
    }
    // With a route from there, but none from mode 1 to itself.
    let plan = with_entries(&sheet, &[FORGED, [0, 2, 1, 9, 0], [0, 1, 1, 255, 254]]);
    assert_eq!(next_command(&sheet, &plan, &[0; 4], &goal), refuse(15, 0));
    // Without the route from mode 0 nothing is usable where it was.
    let sheet = two(3);
    let plan = with_entries(&sheet, &[[0, 0, 1, 255, 255]]);
    let asked = |state: &[u8]| next_command(&sheet, &plan, state, &goal);
    assert_eq!(asked(&untagged(&[1, 0])), refuse(15, 0));
    assert_eq!(asked(&tagged(&[0; 4], 0)), refuse(15, 0));
}

#[test]
fn usable_is_judged_by_the_groups_of_the_plan_that_is_lent() {
    // Both machines in one group of six modes: no move names another group.
    let entries = [1, 1].repeat(36);
    let plan = Builder::new().record(16, &[0, 0]).record(17, &entries);
    let plan = plan.record(18, &[0; 4]).end();
    let asked = |modes: [u8; 2]| next_command(&two(7), &plan, &untagged(&modes), &[7, 2]);
    assert_eq!(asked([1, 0]), send(1, 1));
    assert_eq!(asked([0, 0]), refuse(15, 0));
}

/// Questions that lead to a move which is not usable, with a tag on a machine that
/// it waits for: refused, whether or not 16 looks at that machine.
#[test]
fn no_question_is_answered_with_an_unusable_move() {
    let mut seen = BTreeMap::new();
    for seed in 0..4_000 {
        let Some(input) = forged(&mut Random::new(seed)) else {
            continue;
        };
        let [plan, state, goal] = [&input.plan, &input.state, &input.goal].map(|slot| slot.get());
        let reply = next_command(input.sheet.get(), plan, state, goal);
        let Err(Refusal { number, .. }) = reply else {
            panic!("seed {seed}: {reply:?}");
        };
        *seen.entry(number).or_insert(0) += 1;
    }
    assert_eq!(seen.keys().collect::<Vec<_>>(), [&15, &16], "{seen:?}");
    assert!(seen.values().all(|&times| times > 100), "{seen:?}");
}

/// The reply of the Rust version, and of the definition as it is and as it was
/// before usable moves alone counted; none where 16 is not come to.
fn replies(input: &Lent) -> Option<[Reply<Next>; 3]> {
    let [sheet, plan, state, goal] =
        [&input.sheet, &input.plan, &input.state, &input.goal].map(|slot| slot.get());
    let read = Sheet::read(sheet).ok()?;
    Plan::read(&read, plan).ok()?;
    let reply = Rust::next(sheet, plan, state, goal).map(Next::of_value);
    if reply.is_err_and(|refusal| refusal.number < 15) {
        return None;
    }
    let reading = Reading::new(sheet, plan);
    let by_definition = reading.next(state, goal);
    Some([reply, by_definition, reading.before().next(state, goal)])
}

fn kind(reply: Reply<Next>) -> &'static str {
    match reply {
        Ok(Next::Done) => "done",
        Ok(Next::Send(_)) => "command",
        Err(Refusal { number: 15, .. }) => "15",
        Err(Refusal { number: 16, .. }) => "16",
        Err(Refusal { number: 17, .. }) => "17",
        Err(Refusal { number: 18, .. }) => "18",
        Err(refusal) => panic!("{refusal:?}"),
    }
}

/// Under plans of every kind. Also shows that the rounds try every change that
/// there may be: 16 and 18 give way to whatever comes behind them, and a command
/// gives way to 15.
#[test]
fn next_commands_are_those_of_the_definition() {
    let mut changed = BTreeMap::new();
    for seed in 0..20_000 {
        for input in [lent, idle_lent].map(|lent| lent(&mut Random::new(seed))) {
            let Some([reply, expected, before]) = replies(&input) else {
                continue;
            };
            assert_eq!(reply, expected, "seed {seed}");
            if reply != before {
                *changed.entry((kind(before), kind(reply))).or_insert(0) += 1;
            }
        }
    }
    let often = [
        ("16", "15"),
        ("16", "16"),
        ("16", "17"),
        ("16", "command"),
        ("18", "15"),
        ("18", "17"),
        ("18", "command"),
        ("command", "15"),
    ];
    let seldom = [("16", "18"), ("18", "16"), ("18", "18")];
    for change in changed.keys() {
        assert!(
            often.contains(change) || seldom.contains(change),
            "{change:?}"
        );
    }
    for change in often {
        let times = changed.get(&change).copied().unwrap_or(0);
        assert!(times > 20, "{change:?} {times} times: {changed:?}");
    }
}

/// Also shows that the bound is never larger than with all moves, and often less.
#[test]
fn bounds_are_those_of_the_definition() {
    let (mut unusable, mut less) = (0, 0);
    for seed in 0..4_000 {
        let sheet = idle_sheet(&mut Random::new(seed));
        let Ok(plan) = walk::own_plan::<Rust>(&sheet) else {
            continue;
        };
        let reading = Reading::new(&sheet, &plan);
        let bound = bound_of(&plan) as u64;
        assert_eq!(bound, reading.bound(), "seed {seed}");
        unusable += !reading.unusable().is_empty() as u32;
        let before = reading.before().bound();
        assert!(bound <= before, "seed {seed}: {bound} {before}");
        less += (bound < before) as u32;
    }
    assert!(unusable > 1000 && less > 400, "{unusable} {less}");
}
