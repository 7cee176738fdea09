//! Random sheets walked in both versions, also those with moves that are never
//! usable: an attainable goal is reached within the bound, and each command is the
//! move that acts. Then the walks of
//! `examples/walks`, in the Rust version: the program's own are compared by
//! `run.sh`.

use duty_compare::both::own_plan;
use duty_compare::expected::{meets, obeyed};
use duty_compare::random::{goal, idle_sheet, sheet, state, Random};
use duty_compare::sheet::Sheet;
use duty_compare::version::Rust;
use duty_compare::walk::walk;
use std::fs;
use std::path::Path;

/// Walks random sheets of a kind; how many walks had a command.
fn walks(sheet: fn(&mut Random) -> Vec<u8>) -> u32 {
    let mut walked = 0;
    for seed in 0..4000 {
        let random = &mut Random::new(seed);
        let bytes = sheet(random);
        let read = Sheet::read(&bytes).unwrap_or_else(|refusal| panic!("seed {seed}: {refusal:?}"));
        let Ok(plan) = own_plan(&bytes) else { continue };
        for _ in 0..4 {
            let (mut state, goal) = (state(random, &read), goal(random, &read));
            let Some(count) = obeyed(&bytes, &plan, &mut state, &goal) else {
                continue;
            };
            assert!(meets(&state, &goal), "seed {seed}: done too early");
            walked += (count > 0) as u32;
        }
    }
    walked
}

#[test]
fn attainable_goals_are_reached_within_the_bound() {
    for walked in [walks(sheet), walks(idle_sheet)] {
        assert!(walked > 1000, "only {walked} walks had a command");
    }
}

/// Walks every folder of `examples/walks`; a missing file counts as empty.
#[test]
fn example_walks_print_what_is_expected() {
    let folder = Path::new(env!("CARGO_MANIFEST_DIR")).join("../examples/walks");
    let mut count = 0;
    for entry in fs::read_dir(folder).expect("examples/walks") {
        let path = entry.expect("an entry").path();
        if path.is_dir() {
            let read = |name| fs::read(path.join(name)).unwrap_or_default();
            let expected = fs::read_to_string(path.join("expect.txt")).expect("expect.txt");
            let printed = walk::<Rust>(&read("sheet.bin"), &read("state.bin"), &read("wish.bin"));
            assert_eq!(printed, expected, "{}", path.display());
            count += 1;
        }
    }
    assert_eq!(count, 12, "example walks");
}
