//! The refusal table, in both versions: an example or more of each number, with
//! its place.

use duty_compare::both::{
    apply, check_sheet, clean, graph, graph_read, join, next_command, own_plan, plan, plan_length,
    walk,
};
use duty_compare::command::Command;
use duty_compare::faults::faulty_sheets;
use duty_compare::join::in_one_slice;
use duty_compare::plan::MIN_SCRATCH;
use duty_compare::refuse;
use duty_compare::samples::{blocks, dials, filter, stove, stove_records, Builder};
use duty_compare::state::untagged;

#[test]
fn faulty_sheets_are_refused_at_their_record() {
    for (name, sheet, number, place) in faulty_sheets() {
        assert_eq!(check_sheet(&sheet), refuse(number, place), "{name}");
    }
}

#[test]
fn every_call_refuses_a_faulty_sheet_alike() {
    for (name, sheet, number, place) in faulty_sheets() {
        let command = Command {
            machine: 0,
            command: 0,
        };
        assert_eq!(plan_length(&sheet), refuse(number, place), "{name}");
        assert_eq!(
            plan(&sheet, &mut [], &mut []),
            refuse(number, place),
            "{name}"
        );
        assert_eq!(
            next_command(&sheet, &[], &[], &[]),
            refuse(number, place),
            "{name}"
        );
        assert_eq!(
            apply(&sheet, &mut [], command),
            refuse(number, place),
            "{name}"
        );
        assert_eq!(join(&sheet, &[1], &mut []), refuse(number, place), "{name}");
        assert_eq!(graph(&sheet, &mut []), refuse(number, place), "{name}");
        assert_eq!(clean(&sheet, &mut []), refuse(number, place), "{name}");
        assert_eq!(
            walk(&sheet, &[], &[]),
            format!("refused {number} {place}\n"),
            "{name}"
        );
    }
}

#[test]
fn refusal_9_names_the_smallest_machine_of_the_lowest_group() {
    let needing = |sheet: Builder, first: u8| {
        sheet
            .step([first, 0, 1, 1], &[[first + 1, 1]])
            .step([first + 1, 0, 1, 1], &[[first + 2, 1]])
            .step([first + 2, 0, 1, 1], &[[first, 1]])
    };
    let of_72 = |sheet: Builder| sheet.machines(1, 8).machines(2, 3);
    assert_eq!(
        plan_length(&needing(of_72(Builder::new()), 0).end()),
        refuse(9, 0)
    );
    let later = of_72(Builder::new().machines(1, 2));
    assert_eq!(plan_length(&needing(later, 1).end()), refuse(9, 1));
    // The first of two such groups needs the second, which is so numbered first.
    let two = of_72(of_72(Builder::new())).step([0, 0, 2, 2], &[[4, 1]]);
    assert_eq!(
        plan_length(&needing(needing(two, 0), 3).end()),
        refuse(9, 3)
    );
}

#[test]
fn refusal_10_for_five_groups_of_64() {
    assert_eq!(plan_length(&blocks(5, 0, false)), refuse(10, 0));
}

/// Plans into buffers of other bytes and asserts that a refusal leaves them.
fn plan_refused(sheet: &[u8], length: usize, scratch: usize, number: u32) {
    let (mut buffer, mut work) = (vec![7; length], vec![9; scratch]);
    assert_eq!(
        plan(sheet, &mut buffer, &mut work),
        refuse(number, 0),
        "{length} {scratch}"
    );
    assert!(buffer.iter().all(|&byte| byte == 7) && work.iter().all(|&byte| byte == 9));
}

#[test]
fn refusal_11_comes_before_12() {
    let length = plan_length(&dials(6)).expect("a length");
    plan_refused(&dials(6), length, MIN_SCRATCH, 11);
    plan_refused(&dials(6), 0, 0, 11);
}

#[test]
fn refusal_12_for_a_wrong_buffer_or_scratch() {
    for (length, scratch) in [
        (0, MIN_SCRATCH),
        (106, MIN_SCRATCH),
        (108, MIN_SCRATCH),
        (107, 0),
        (107, MIN_SCRATCH - 1),
    ] {
        plan_refused(&stove(), length, scratch, 12);
    }
}

/// Asks the stove's next command.
fn refused(state: &[u8], goal: &[u8], number: u32, place: usize) {
    let plan = own_plan(&stove()).expect("a plan");
    let reply = next_command(&stove(), &plan, state, goal);
    assert_eq!(reply, refuse(number, place), "{state:?} {goal:?}");
}

#[test]
fn refusal_13_for_a_mode() {
    refused(&[2, 0, 0, 0, 0, 0], &[1, 1, 1], 13, 0);
    refused(&[0, 0, 0, 0, 3, 0], &[1, 1, 1], 13, 2);
    refused(&[0, 0, 2, 0, 3, 0], &[0, 1, 1], 13, 1);
}

#[test]
fn refusal_13_for_a_tag_names_the_machine() {
    refused(&[0, 2, 0, 0, 0, 0], &[1, 1, 1], 13, 0);
    refused(&[0, 0, 0, 3, 0, 0], &[1, 1, 1], 13, 1);
    refused(&[0, 0, 0, 0, 0, 255], &[1, 1, 1], 13, 2);
    refused(&[0, 0, 0, 2, 0, 2], &[1, 1, 1], 13, 1);
    // Before 14, and before 16 of another tag.
    refused(&[0, 0, 0, 0, 0, 2], &[0], 13, 2);
    refused(&[0, 1, 0, 0, 0, 2], &[2], 13, 2);
}

#[test]
fn refusal_13_names_the_first_machine_of_mode_and_tag() {
    refused(&[0, 0, 0, 2, 3, 0], &[1, 1, 1], 13, 1);
    refused(&[0, 2, 2, 0, 3, 0], &[1, 1, 1], 13, 0);
    refused(&[0, 0, 2, 0, 0, 2], &[1, 1, 1], 13, 1);
    refused(&[0, 0, 0, 0, 3, 2], &[1, 1, 1], 13, 2);
}

#[test]
fn refusal_13_for_a_length() {
    for length in [0, 1, 2, 4, 5, 7, 8, 12, 70_000] {
        refused(&vec![0; length], &[1], 13, 255);
    }
    // A byte for each machine: of three, and of two.
    refused(&[0, 0, 0], &[1, 2, 2], 13, 255);
    let plan = own_plan(&filter()).expect("a plan");
    let reply = next_command(&filter(), &plan, &[0, 0], &[2]);
    assert_eq!(reply, refuse(13, 255));
    // Before the bytes, and before 14.
    refused(&[9, 9], &[1, 1, 1], 13, 255);
    refused(&[0, 2, 0, 0, 0, 0, 0], &[1, 1, 1], 13, 255);
    refused(&[0; 8], &[0], 13, 255);
}

#[test]
fn refusal_13_where_a_command_is_applied() {
    let unfit: [(&[u8], usize); 6] = [
        (&[0, 0, 2, 0, 0, 0], 1),
        (&[0, 0, 0, 0, 0, 2], 2),
        (&[0, 0, 0, 2, 3, 0], 1),
        (&[0, 0, 0], 255),
        (&[0, 0, 0, 0, 0], 255),
        (&[0; 8], 255),
    ];
    for (state, place) in unfit {
        let mut after = state.to_vec();
        let command = Command {
            machine: 0,
            command: 1,
        };
        let reply = apply(&stove(), &mut after, command);
        assert_eq!((reply, &after[..]), (refuse(13, place), state));
    }
}

#[test]
fn refusal_14_for_goals() {
    refused(&[0; 6], &[0], 14, 0);
    refused(&[0; 6], &[1, 4, 1], 14, 1);
    refused(&[0; 6], &[1, 1, 8], 14, 2);
    refused(&[0; 6], &[0, 1, 1, 1], 14, 255);
    // Before 16 of a tag.
    refused(&[0, 1, 0, 0, 0, 0], &[2, 4], 14, 1);
}

/// Joins goals of the stove, lent as bytes, into a buffer of other bytes and
/// asserts that a refusal leaves it.
fn not_joined(wishes: &[u8], room: usize, number: u32, place: usize) {
    let mut out = vec![7; room];
    let reply = join(&stove(), wishes, &mut out);
    assert_eq!(reply, refuse(number, place), "{wishes:?} {room}");
    assert!(out.iter().all(|&byte| byte == 7), "{wishes:?} {room}");
}

#[test]
fn refusal_14_for_goals_that_are_cut_short() {
    not_joined(&[1], 3, 14, 255);
    not_joined(&[3, 1, 2], 3, 14, 255);
    not_joined(&[3, 1, 2, 2, 1], 3, 14, 255);
    not_joined(&[255], 3, 14, 255);
    // Before 14 of those that are whole.
    not_joined(&[1, 0, 2, 1], 3, 14, 255);
}

#[test]
fn refusal_14_for_a_ninth_goal() {
    let goals = [[1, 2]; 8].concat();
    let ninth = |last: &[u8]| [&goals, last].concat();
    assert_eq!(join(&stove(), &goals, &mut [7]), Ok(1));
    not_joined(&ninth(&[1, 2]), 3, 14, 255);
    // Of no machine, and not whole.
    not_joined(&ninth(&[0]), 3, 14, 255);
    not_joined(&ninth(&[3]), 3, 14, 255);
    not_joined(&[0; 9], 3, 14, 255);
    // Before 14 of the others, and before 19.
    not_joined(&[[1, 0]; 9].concat(), 3, 14, 255);
    not_joined(&[[1, 1], [1, 2]].concat().repeat(5), 3, 14, 255);
}

#[test]
fn refusal_14_for_goals_to_be_joined() {
    let unfit = |goals: &[&[u8]], place| not_joined(&in_one_slice(goals), 3, 14, place);
    unfit(&[&[1, 2, 2, 1]], 255);
    unfit(&[&[0]], 0);
    unfit(&[&[1, 4]], 1);
    unfit(&[&[1, 2, 2], &[3, 3, 8]], 2);
    // The first that does not fit counts, its length before its bytes.
    unfit(&[&[1, 4], &[0]], 1);
    unfit(&[&[1, 4], &[0, 1, 1, 1]], 1);
    unfit(&[&[0, 1, 1, 1], &[1, 4]], 255);
    // A later one's comes before 19 of those before it.
    unfit(&[&[1], &[2], &[3, 4]], 1);
    unfit(&[&[1], &[2], &[3, 3, 3, 3]], 255);
    // Before 12.
    not_joined(&[1, 0], 0, 14, 0);
    // A failed mode may be wished for.
    assert_eq!(join(&oven(), &[2, 4, 4], &mut [0; 2]), Ok(2));
}

#[test]
fn refusal_19_names_the_first_machine_without_a_mode() {
    let apart = |goals: &[&[u8]], place| not_joined(&in_one_slice(goals), 3, 19, place);
    apart(&[&[1], &[2]], 0);
    apart(&[&[3, 1, 1], &[3, 2, 2]], 1);
    apart(&[&[3, 2, 3], &[1], &[1, 3, 4]], 2);
    // Each two of them agree.
    apart(&[&[3, 3, 3], &[3, 3, 5], &[3, 3, 6]], 2);
    // Before 12.
    not_joined(&[1, 1, 1, 2], 0, 19, 0);
}

#[test]
fn refusal_12_for_a_buffer_shorter_than_the_joined_goal() {
    let wishes = in_one_slice(&[&[1][..], &[3, 2, 2]]);
    for room in 0..3 {
        not_joined(&wishes, room, 12, 0);
    }
    not_joined(&[1, 1], 0, 12, 0);
}

#[test]
fn refusal_15_for_an_empty_plan() {
    assert_eq!(next_command(&stove(), &[], &[9], &[]), refuse(15, 0));
}

#[test]
fn refusal_20_for_an_empty_text() {
    assert_eq!(graph_read(&[], &mut []), refuse(20, 0));
}

/// Power with a failed mode, an oven with one, and a tray; each needs the one
/// before it in mode 0.
fn oven() -> Vec<u8> {
    Builder::new()
        .machine(3, 3)
        .machine(3, 3)
        .machines(1, 2)
        .step([0, 0, 1, 1], &[])
        .step([0, 1, 0, 2], &[])
        .step([1, 0, 1, 1], &[[0, 1]])
        .step([1, 1, 0, 2], &[])
        .step([2, 0, 1, 1], &[[1, 1]])
        .end()
}

#[test]
fn refusal_16_names_the_highest_group_out_of_order() {
    let plan = own_plan(&oven()).expect("a plan");
    let next = |modes: [u8; 3], goal: &[u8]| next_command(&oven(), &plan, &untagged(&modes), goal);
    assert_eq!(next([2, 0, 0], &[7, 2]), refuse(16, 0));
    assert_eq!(next([2, 2, 0], &[7, 7, 2]), refuse(16, 1));
    // Through the oven, although the tray itself names only that.
    assert_eq!(next([2, 0, 0], &[7, 7, 2]), refuse(16, 0));
    // A met group is not judged by itself.
    assert!(next([0, 2, 0], &[2, 4]).is_ok());
    assert!(next([2, 2, 0], &[4, 4]).is_ok());
}

#[test]
fn refusal_16_names_the_highest_group_with_a_tag() {
    // The board is on, as the fan needs it.
    refused(&[1, 1, 0, 0, 0, 0], &[3, 2], 16, 0);
    // The smallest machine of fan and burner, whichever has the tag.
    refused(&[1, 0, 0, 1, 0, 0], &[3, 2], 16, 1);
    refused(&[1, 0, 0, 0, 0, 1], &[3, 2], 16, 1);
    refused(&[1, 1, 0, 0, 0, 1], &[3, 2], 16, 1);
    // The board itself is to go off.
    refused(&[1, 1, 0, 0, 0, 0], &[1], 16, 0);
}

#[test]
fn refusal_16_for_a_tag_or_a_failed_mode_whichever_is_higher() {
    let plan = own_plan(&oven()).expect("a plan");
    let next = |state: [u8; 6], goal: &[u8]| next_command(&oven(), &plan, &state, goal);
    // Through the oven, although the tray itself names only that.
    assert_eq!(next([0, 1, 0, 0, 0, 0], &[7, 7, 2]), refuse(16, 0));
    assert_eq!(next([2, 0, 0, 1, 0, 0], &[7, 7, 2]), refuse(16, 1));
    assert_eq!(next([0, 1, 2, 0, 0, 0], &[7, 7, 2]), refuse(16, 1));
    assert_eq!(next([2, 1, 2, 1, 0, 1], &[7, 7, 2]), refuse(16, 2));
}

#[test]
fn refusal_16_for_a_tag_comes_before_17_and_18_of_its_group() {
    let plan = own_plan(&oven()).expect("a plan");
    let next = |state: [u8; 6]| next_command(&oven(), &plan, &state, &[7, 4]);
    assert_eq!(next([0, 1, 0, 0, 0, 0]), refuse(16, 0));
    assert_eq!(next([0, 0, 0, 1, 0, 0]), refuse(16, 1));
    // The tray waits for nothing.
    assert_eq!(next([0, 0, 0, 0, 0, 1]), refuse(17, 1));
    let plan = own_plan(&filter()).expect("a plan");
    let next = |state: [u8; 4]| next_command(&filter(), &plan, &state, &[1, 2]);
    assert_eq!(next([1, 1, 0, 0]), refuse(16, 0));
    assert_eq!(next([1, 0, 0, 1]), refuse(16, 1));
}

#[test]
fn refusal_17_comes_before_16_for_a_tag_in_a_lower_group() {
    // The second machine has no moves.
    let sheet = Builder::new().machines(2, 2).step([0, 0, 1, 1], &[]).end();
    let plan = own_plan(&sheet).expect("a plan");
    let next = |state: [u8; 4]| next_command(&sheet, &plan, &state, &[2, 2]);
    assert_eq!(next([0, 1, 0, 0]), refuse(17, 1));
    assert_eq!(next([0, 0, 0, 1]), refuse(16, 1));
    assert_eq!(next([0, 1, 1, 0]), refuse(16, 0));
}

#[test]
fn refusal_17_for_a_failed_mode_wished_for() {
    let plan = own_plan(&oven()).expect("a plan");
    assert_eq!(
        next_command(&oven(), &plan, &[0; 6], &[7, 4]),
        refuse(17, 1)
    );
    refused(&[1, 0, 1, 0, 1, 0], &[3, 3, 4], 17, 1);
}

#[test]
fn refusal_18_comes_before_17_of_a_lower_group() {
    // The filter is to be fresh again (17 for itself) and the pan on.
    let plan = own_plan(&filter()).expect("a plan");
    let next = |goal: &[u8]| next_command(&filter(), &plan, &[1, 0, 0, 0], goal);
    assert_eq!(next(&[1, 2]), refuse(18, 0));
    assert_eq!(next(&[1]), refuse(17, 0));
}

#[test]
fn refusal_18_looks_at_groups_that_are_needed_through_others() {
    // Each machine goes on once and needs the one before, in any mode.
    let sheet = Builder::new()
        .machines(4, 2)
        .step([0, 0, 1, 1], &[])
        .step([1, 0, 1, 1], &[[0, 3]])
        .step([2, 0, 1, 1], &[[1, 3]])
        .step([3, 0, 1, 1], &[[2, 3]])
        .end();
    let plan = own_plan(&sheet).expect("a plan");
    let next = |goal: &[u8]| next_command(&sheet, &plan, &[0; 8], goal);
    // The first is to stay off, and one, two or three groups behind it are to go on.
    assert_eq!(next(&[1, 2]), refuse(18, 0));
    assert_eq!(next(&[1, 3, 2]), refuse(18, 0));
    assert_eq!(next(&[1, 3, 3, 2]), refuse(18, 0));
    // The highest of those that are to stay off.
    assert_eq!(next(&[1, 1, 3, 2]), refuse(18, 1));
    assert_eq!(next(&[1, 3, 1, 2]), refuse(18, 2));
    // What needs the group that is to go on is not looked at.
    assert!(next(&[2, 1, 1, 1]).is_ok());
    assert!(next(&[3, 3, 3, 2]).is_ok());
}

#[test]
fn a_file_of_60_000_bytes_is_read_whole() {
    let long = [0; 60_000];
    let unknown = Builder::new().record(9, &long).unfinished();
    assert_eq!(check_sheet(&unknown), refuse(2, 0));
    let after = stove_records().record(3, &[]).record(1, &long).unfinished();
    assert_eq!(check_sheet(&after), refuse(3, 94));
}
