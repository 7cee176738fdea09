//! Sheets at the edges, in both versions: the fullest, the longest plan, and
//! numbers that pass 32 and 64 bits.

use duty_compare::both::{apply, check_sheet, next_command, own_plan, plan_length, walk};
use duty_compare::command::{Command, Effect, Next};
use duty_compare::inputs::crowded;
use duty_compare::samples::{
    blocks, circle, dials, eight_names, fullest, fullest_replaced, fullest_withdrawn, longest_plan,
    product, snake, Builder,
};
use duty_compare::state::untagged;
use duty_compare::walk::bound_of;
use duty_compare::{refuse, Reply};

fn bound(sheet: &[u8]) -> Reply<u32> {
    own_plan(sheet).map(|plan| bound_of(&plan))
}

#[test]
fn the_fullest_sheet_has_6196_bytes() {
    let sheet = fullest();
    assert_eq!(sheet.len(), 6196);
    assert_eq!(check_sheet(&sheet), Ok(256 * 250 + 32));
    assert_eq!(check_sheet(&[&sheet[..], &[0]].concat()), refuse(3, 6196));
    assert_eq!(check_sheet(&sheet[..6195]), refuse(1, 6192));
}

#[test]
fn the_longest_file_has_7732_bytes() {
    let sheet = fullest_replaced();
    assert_eq!(sheet.len(), 7732);
    assert_eq!(check_sheet(&sheet), Ok(256 * 250 + 32));
    assert_eq!(check_sheet(&[&sheet[..], &[0]].concat()), refuse(3, 7732));
    assert_eq!(check_sheet(&sheet[..7731]), refuse(1, 7728));
    let short = fullest_withdrawn();
    assert_eq!(short.len(), 6196 + 64 * 7);
    assert_eq!(check_sheet(&short), Ok(256 * (250 - 64) + 32));
}

#[test]
fn the_last_move_of_the_fullest_sheet_is_249() {
    let mut state = untagged(&[7; 32]);
    let command = Command {
        machine: 25,
        command: 50,
    };
    let reply = apply(&fullest(), &mut state, command);
    assert_eq!((reply, state[2 * 25]), (Ok(Effect::Move(249)), 0));
}

#[test]
fn the_last_of_32_machines_may_be_tagged() {
    let sheet = Builder::new()
        .machines(32, 2)
        .step([31, 0, 1, 1], &[])
        .end();
    let plan = own_plan(&sheet).expect("a plan");
    let mut goal = [3; 32];
    goal[31] = 2;
    let tag = |byte| {
        let mut state = [0; 64];
        state[63] = byte;
        state
    };
    let sent = Command {
        machine: 31,
        command: 1,
    };
    let next = |byte| next_command(&sheet, &plan, &tag(byte), &goal);
    assert_eq!(next(0), Ok(Next::Send(sent)));
    assert_eq!(next(1), refuse(16, 31));
    assert_eq!(next(2), refuse(13, 31));
    let mut state = tag(1);
    assert_eq!(apply(&sheet, &mut state, sent), Ok(Effect::Nothing));
    assert_eq!(state, tag(1));
}

#[test]
fn a_repeated_move_is_found_across_the_fullest_sheet() {
    let mut sheet = fullest();
    let (first, last) = (32 * 6, 6196 - 4 - 24);
    for field in [0, 1, 2, 3] {
        sheet[last + 4 + field] = sheet[first + 4 + field];
    }
    let guards = first + 8..first + 24;
    sheet.copy_within(guards, last + 8);
    assert_eq!(check_sheet(&sheet), refuse(8, last));
}

/// The last move of a crowded sheet made the same as each one before it.
#[test]
fn a_repeated_move_is_found_wherever_the_first_stands() {
    for (name, sheet) in crowded() {
        let value = check_sheet(&sheet).expect("a sheet that passes") as usize;
        let (moves, first, end) = (value / 256, 6 * (value % 256), sheet.len() - 4);
        assert_eq!(moves, 250, "{name}");
        let record = (end - first) / moves;
        let last = end - record;
        for earlier in (first..last).step_by(record) {
            let mut again = sheet.clone();
            again.copy_within(earlier..earlier + record, last);
            assert_eq!(check_sheet(&again), refuse(8, last), "{name} {earlier}");
        }
    }
}

#[test]
fn the_bound_may_be_65535_and_no_more() {
    assert_eq!(bound(&product(&[2; 16], 0)), Ok(65_535));
    assert_eq!(bound(&product(&[2; 16], 1)), refuse(11, 0));
    assert_eq!(bound(&product(&[4; 8], 0)), Ok(65_535));
}

#[test]
fn bounds_past_32_and_64_bits_are_refused() {
    // 2^32 and 2^64 exactly, then a chain that goes on far beyond.
    assert_eq!(bound(&product(&[4; 16], 1)), refuse(11, 0));
    let seventh = [[8; 21].as_slice(), &[2]].concat();
    assert_eq!(bound(&product(&seventh, 1)), refuse(11, 0));
    assert_eq!(bound(&dials(31)), refuse(11, 0));
}

#[test]
fn group_sizes_past_32_and_64_bits_are_refused() {
    // 8^11 passes 32 bits, 8^22 passes 64 bits, 8^32 is 2^96.
    for machines in [3, 11, 22, 32] {
        assert_eq!(plan_length(&circle(machines)), refuse(9, 0), "{machines}");
    }
    assert_eq!(plan_length(&circle(2)), Ok(4 + 2 + 4 + 8192 + 8 + 4));
}

#[test]
fn the_longest_plan_has_32928_bytes() {
    let plan = own_plan(&longest_plan()).expect("a plan");
    assert_eq!(plan.len(), 32_928);
    assert_eq!(bound_of(&plan), 4);
}

#[test]
fn eight_groups_named_by_each_move_are_eight_costs() {
    let sheet = eight_names();
    assert_eq!(check_sheet(&sheet), Ok(256 * 250 + 32));
    assert_eq!(sheet.len(), 32 * 6 + 16 * 8 + 234 * 24 + 4);
    // By rows: 1, then 1 + 8 times the cost of one of the row before.
    assert_eq!(bound(&sheet), Ok(8 * (1 + 9 + 73 + 585)));
}

#[test]
fn a_route_may_take_63_moves() {
    let printed = walk(&snake(), &[0; 4], &[1, 0x80]);
    assert!(printed.ends_with("done 63 bound 63\n"), "{printed}");
}

#[test]
fn thirty_two_single_machines_are_thirty_two_groups() {
    let plan = own_plan(&Builder::new().machines(32, 8).end()).expect("a plan");
    assert_eq!(
        plan[4..36],
        std::array::from_fn::<u8, 32, _>(|machine| machine as u8)
    );
    assert_eq!(plan.len(), 36 + 32 * (4 + 128) + 8 + 4);
}

#[test]
fn group_numbers_follow_needs_before_machine_numbers() {
    // Machine 0 needs 2, and 2 needs 1; 3 stands alone.
    let sheet = Builder::new()
        .machines(4, 2)
        .step([0, 0, 1, 1], &[[2, 1]])
        .step([2, 0, 1, 1], &[[1, 1]])
        .end();
    let plan = own_plan(&sheet).expect("a plan");
    assert_eq!(plan[4..8], [2, 0, 1, 3]);
}

#[test]
fn groups_of_64_in_rings_reach_every_mode() {
    let plan = own_plan(&blocks(4, 0, true)).expect("a plan");
    let table = &plan[4 + 8 + 4..][..8192];
    assert!(table.chunks(2).all(|entry| entry[0] < 64));
}
