//! The example kitchens, in both versions: their bytes, and what is claimed of
//! them.

use duty_compare::both::{check_sheet, join, own_plan, own_text, shown, walk};
use duty_compare::expected::{meets, obeyed};
use duty_compare::join::in_one_slice;
use duty_compare::random::Random;
use duty_compare::refuse;
use duty_compare::samples::stove;
use duty_compare::shape::Plan;
use duty_compare::sheet::Sheet;
use duty_compare::state::untagged;

const KITCHEN: &[u8] = include_bytes!("../../examples/kitchen/sheet.bin");

#[test]
fn the_stove_is_the_stove() {
    let sheet = include_bytes!("../../examples/stove/sheet.bin");
    let state = include_bytes!("../../examples/stove/state.bin");
    let goal = include_bytes!("../../examples/stove/wish.bin");
    assert_eq!(sheet[..], stove());
    assert_eq!((state, goal), (&[0; 6], &[1, 2, 2]));
}

#[test]
fn two_cooks_wish_together_what_the_stove_is_wished_alone() {
    let sheet = include_bytes!("../../examples/two_cooks/sheet.bin");
    let state = include_bytes!("../../examples/two_cooks/state.bin");
    let first = include_bytes!("../../examples/two_cooks/wish.bin");
    let second = include_bytes!("../../examples/two_cooks/wish2.bin");
    let wishes = in_one_slice(&[first.as_slice(), second]);
    let mut out = [0; 3];
    assert_eq!((&sheet[..], state), (&stove()[..], &[0; 6]));
    assert_eq!(join(sheet, &wishes, &mut out), Ok(3));
    assert_eq!(&out, include_bytes!("../../examples/stove/wish.bin"));
}

#[test]
fn the_faulty_stove_is_refused() {
    let sheet = include_bytes!("../../examples/refused/sheet.bin");
    assert_eq!(check_sheet(sheet), refuse(7, 58));
}

#[test]
fn the_kitchen_has_twenty_machines_of_three_live_modes() {
    let sheet = Sheet::read(KITCHEN).expect("a sheet");
    assert_eq!(sheet.machines(), 20);
    assert!((0..20).all(|machine| sheet.count(machine) == 3 && sheet.live(machine) == 7));
}

/// With every mode live and every entry a route, 16, 17 and 18 apply to no
/// state without tags and no goal.
#[test]
fn every_state_of_the_kitchen_can_meet_every_goal() {
    let plan = own_plan(KITCHEN).expect("a plan");
    let sheet = Sheet::read(KITCHEN).expect("a sheet");
    let read = Plan::read(&sheet, &plan).expect("its own plan");
    let mut states = 1;
    for group in 0..read.groups.count {
        let size = read.groups.size(group);
        states *= size;
        for mode in 0..size as usize {
            assert_eq!(
                read.reach(group, mode),
                u64::MAX >> (64 - size),
                "group {group} mode {mode}"
            );
        }
    }
    assert_eq!(states, 3_486_784_401);
}

#[test]
fn the_kitchen_has_layers_and_groups() {
    let plan = own_plan(KITCHEN).expect("a plan");
    let sheet = Sheet::read(KITCHEN).expect("a sheet");
    let groups = Plan::read(&sheet, &plan).expect("its own plan").groups;
    let mut sizes: Vec<_> = (0..groups.count).map(|group| groups.size(group)).collect();
    sizes.sort_unstable();
    assert_eq!(sizes[13..], [9, 9, 27]);
    let mut depth = vec![0; groups.count];
    for group in 0..groups.count {
        let below = (0..group).filter(|&lower| groups.named[group] >> lower & 1 == 1);
        depth[group] = below.map(|lower| depth[lower] + 1).max().unwrap_or(0);
    }
    assert_eq!(
        depth.iter().max(),
        Some(&3),
        "layers of need above the supplies"
    );
}

#[test]
fn the_stove_and_the_kitchen_are_drawn_as_stored() {
    let drawn = |sheet: &[u8]| own_text(sheet).expect("a text");
    let stored = include_bytes!("../../examples/stove/graph.dot");
    assert_eq!(drawn(&stove()), stored);
    let stored = include_bytes!("../../examples/kitchen/graph.dot");
    assert_eq!(drawn(KITCHEN), stored);
    // Of twenty machines and 29 edges.
    assert_eq!(shown(stored).map(|bytes| bytes.len()), Ok(1 + 20 + 2 * 29));
}

#[test]
fn random_walks_of_the_kitchen_arrive_within_the_bound() {
    let plan = own_plan(KITCHEN).expect("a plan");
    let random = &mut Random::new(20);
    for _ in 0..3000 {
        let modes: Vec<u8> = (0..20).map(|_| random.below(3) as u8).collect();
        let mut state = untagged(&modes);
        let goal: Vec<u8> = (0..20).map(|_| 1 + random.below(7) as u8).collect();
        let count = obeyed(KITCHEN, &plan, &mut state, &goal);
        assert!(count.is_some(), "not attainable: {state:?} {goal:?}");
        assert!(meets(&state, &goal), "done too early: {state:?} {goal:?}");
    }
}

#[test]
fn the_kitchen_comes_from_night_to_lunch() {
    let state = include_bytes!("../../examples/kitchen/state.bin");
    let goal = include_bytes!("../../examples/kitchen/wish.bin");
    let printed = walk(KITCHEN, state, goal);
    assert!(printed.ends_with("done 29 bound 1343\n"), "{printed}");
}
