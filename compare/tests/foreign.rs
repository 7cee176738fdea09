//! Plans that are not the sheet's own, in both versions: the reply follows from
//! their entries.

use duty_compare::both::{apply, next_command, own_plan};
use duty_compare::command::{Command, Effect, Next};
use duty_compare::plan::{HERE, NO_ROUTE};
use duty_compare::random::{lent, Random};
use duty_compare::samples::{dials, stove, Builder};
use duty_compare::shape::Plan;
use duty_compare::sheet::Sheet;
use duty_compare::state::{untagged, State};
use duty_compare::{refuse, Reply};

/// The stove's tables: the board's entries, then fan and burner's.
const BOARD: usize = 4 + 3 + 4;
const FAN_BURNER: usize = BOARD + 8 + 4;

const LIT: [u8; 3] = [1, 2, 2];

fn entry_at(table: usize, size: usize, from: usize, wanted: usize) -> usize {
    table + 2 * (from * size + wanted)
}

/// The stove's plan after an edit, asked for its next command from these modes.
fn edited(edit: impl FnOnce(&mut Vec<u8>), modes: [u8; 3], goal: &[u8]) -> Reply<Next> {
    let mut plan = own_plan(&stove()).expect("a plan");
    edit(&mut plan);
    next_command(&stove(), &plan, &untagged(&modes), goal)
}

fn send(machine: u8, command: u8) -> Reply<Next> {
    Ok(Next::Send(Command { machine, command }))
}

#[test]
fn another_bound_changes_nothing() {
    let bound = |plan: &mut Vec<u8>| {
        let at = plan.len() - 8;
        plan[at..at + 4].fill(255);
    };
    assert_eq!(edited(bound, [0, 0, 0], &LIT), send(0, 1));
}

#[test]
fn a_plan_of_another_shape_is_refused() {
    let misshapen: [fn(&mut Vec<u8>); 9] = [
        |plan| plan.push(0),
        |plan| plan.extend([0, 0, 3, 0]),
        |plan| plan.truncate(106),
        |plan| plan[2] = 17,
        |plan| plan[4] = 2,
        |plan| plan[4..7].copy_from_slice(&[1, 0, 0]),
        |plan| plan[4..7].copy_from_slice(&[0, 2, 2]),
        |plan| plan[4] = 255,
        |plan| plan[BOARD - 4] += 1,
    ];
    for (number, edit) in misshapen.into_iter().enumerate() {
        assert_eq!(
            edited(edit, [0, 0, 0], &LIT),
            refuse(15, 0),
            "edit {number}"
        );
    }
}

/// Machines of these modes, the second of which needs some others in its second
/// move, under a plan with these group numbers whose entries all name its first
/// move; asked for that move.
fn numbered(modes: &[u8], needed: &[u8], numbers: &[u8]) -> Reply<Next> {
    let guards: Vec<_> = needed.iter().map(|&machine| [machine, 1]).collect();
    let sheet = modes
        .iter()
        .fold(Builder::new(), |sheet, &count| sheet.machines(1, count))
        .step([1, 0, 1, 1], &[])
        .step([1, 1, 0, 1], &guards)
        .end();
    let last = *numbers.iter().max().expect("a machine");
    let plan = (0..=last).fold(Builder::new().record(16, numbers), |plan, group| {
        let members = modes.iter().zip(numbers).filter(|(_, &of)| of == group);
        let size: u128 = members.map(|(&count, _)| count as u128).product();
        // A record's length has two bytes.
        let length = 2 * size * size % 65536;
        plan.record(17, &[1, 0].repeat(length as usize / 2))
    });
    let plan = plan.record(18, &[0; 4]).end();
    let state = untagged(&vec![0; modes.len()]);
    next_command(&sheet, &plan, &state, &[1, 2])
}

#[test]
fn no_need_is_above_its_moves_group() {
    let numbered = |numbers: [u8; 3]| numbered(&[2; 3], &[0, 2], &numbers);
    let fitting = [
        [0, 0, 0],
        [0, 1, 0],
        [0, 1, 1],
        [1, 1, 0],
        [0, 2, 1],
        [1, 2, 0],
    ];
    for numbers in fitting {
        assert_eq!(numbered(numbers), send(1, 1), "{numbers:?}");
    }
    let above = [
        [1, 0, 0],
        [0, 0, 1],
        [1, 0, 1],
        [0, 1, 2],
        [2, 1, 0],
        [1, 0, 2],
        [2, 0, 1],
    ];
    for numbers in above {
        assert_eq!(numbered(numbers), refuse(15, 0), "{numbers:?}");
    }
}

#[test]
fn a_group_of_a_plan_has_64_modes_and_no_more() {
    let joined = |modes: &[u8]| numbered(modes, &[], &vec![0; modes.len()]);
    let fitting: [&[u8]; 4] = [&[8, 8], &[4, 4, 4], &[2; 6], &[7, 3, 3]];
    for modes in fitting {
        assert_eq!(joined(modes), send(1, 1), "{modes:?}");
    }
    // The fewest that are too many, 128, the most whose table a record can hold,
    // and those whose table passes two bytes, whose number 32 bits, and 64.
    let larger: [&[u8]; 9] = [
        &[7, 5, 2],
        &[8, 3, 3],
        &[8, 8, 2],
        &[6, 6, 5],
        &[8, 8, 3],
        &[8, 8, 4],
        &[8; 11],
        &[8; 22],
        &[8; 32],
    ];
    for modes in larger {
        assert_eq!(joined(modes), refuse(15, 0), "{modes:?}");
    }
    // The second group of two.
    let behind = |modes: &[u8]| numbered(modes, &[], &[0, 1, 1, 1]);
    assert_eq!(behind(&[2, 8, 4, 2]), send(1, 1));
    assert_eq!(behind(&[2, 8, 8, 2]), refuse(15, 0));
}

/// Replaces the entry from all off to fan on, burner lit.
fn with_entry(entry: [u8; 2], modes: [u8; 3]) -> Reply<Next> {
    let at = entry_at(FAN_BURNER, 6, 0, 3);
    edited(|plan| plan[at..at + 2].copy_from_slice(&entry), modes, &LIT)
}

#[test]
fn an_entry_followed_must_name_a_fitting_move() {
    // The fan's own move; its distance does not matter unless it is 255.
    assert_eq!(with_entry([2, 2], [1, 0, 0]), send(1, 1));
    assert_eq!(with_entry([0, 2], [1, 0, 0]), send(1, 1));
    assert_eq!(with_entry([254, 2], [1, 0, 0]), send(1, 1));
    // Of another group, from another mode, with a guard inside not met, absent.
    for number in [0, 3, 4, 7, 249, 254, 255] {
        assert_eq!(
            with_entry([2, number], [1, 0, 0]),
            refuse(15, 0),
            "move {number}"
        );
    }
    assert_eq!(with_entry([255, 2], [1, 0, 0]), refuse(17, 1));
}

#[test]
fn no_route_for_a_guard_is_an_unfit_entry() {
    // The fan's move needs the board, whose table has no way on. So that move is
    // not usable, also where the board is on.
    let at = entry_at(BOARD, 2, 0, 1);
    let stuck = |modes, goal: &[u8]| edited(|plan| plan[at] = 255, modes, goal);
    assert_eq!(stuck([0, 0, 0], &[3, 2, 2]), refuse(15, 0));
    assert_eq!(stuck([1, 0, 0], &[3, 2, 2]), refuse(15, 0));
    // Where the board is to be on itself, it has no route, and nobody needs it.
    assert_eq!(stuck([0, 0, 0], &[2, 2, 2]), refuse(17, 0));
}

#[test]
fn a_mode_without_a_route_to_itself_is_taken_at_its_word() {
    // The board is to go off in the end, where it has no route to itself.
    let off = entry_at(BOARD, 2, 0, 0);
    let without = |at: usize, goal: &[u8]| {
        let blank = |plan: &mut Vec<u8>| {
            assert_eq!(plan[at..at + 2], HERE);
            plan[at..at + 2].fill(255);
        };
        edited(blank, [1, 0, 0], goal)
    };
    assert_eq!(edited(|_| (), [1, 0, 0], &[1, 2, 1]), send(1, 1));
    assert_eq!(without(off, &[1, 2, 1]), refuse(18, 0));
    assert_eq!(without(off, &[3, 2, 1]), send(1, 1));
    // What needs it on is not usable, if it has no route to itself there.
    assert_eq!(without(off + 6, &[3, 2, 1]), refuse(15, 0));
}

#[test]
fn machines_may_be_joined_or_numbered_otherwise() {
    let sheet = Builder::new()
        .machines(2, 2)
        .step([0, 0, 1, 7], &[])
        .step([1, 0, 1, 9], &[])
        .end();
    let finish = |tables: &[u8], numbers: &[u8]| {
        let head = Builder::new().record(16, numbers).unfinished();
        [&head, tables, &Builder::new().record(18, &[0; 4]).end()].concat()
    };
    let single = |number: u8| {
        Builder::new()
            .record(17, &[0, 254, 1, number, 255, 255, 0, 254])
            .unfinished()
    };
    let ask = |plan: &[u8]| next_command(&sheet, plan, &[0; 4], &[2, 2]);
    let own = finish(&[single(0), single(1)].concat(), &[0, 1]);
    assert_eq!(
        Ok(&own[..own.len() - 8]),
        own_plan(&sheet)
            .as_ref()
            .map(|plan| &plan[..plan.len() - 8])
    );
    assert_eq!(ask(&own), send(1, 9));
    assert_eq!(
        ask(&finish(&[single(1), single(0)].concat(), &[1, 0])),
        send(0, 7)
    );
    let joined = Builder::new().record(17, &[1, 0].repeat(16)).unfinished();
    assert_eq!(ask(&finish(&joined, &[0, 0])), send(0, 7));
}

#[test]
fn a_plan_may_serve_a_sheet_that_planning_refuses() {
    // Six dials: tables of one dial each, all entries one move away.
    let sheet = dials(6);
    let mut plan = Builder::new().record(16, &[0, 1, 2, 3, 4, 5]);
    for dial in 0..6u8 {
        let row = |from: u8| [1, 8 * dial + from].repeat(8);
        let table: Vec<u8> = (0..8).flat_map(row).collect();
        plan = plan.record(17, &table);
    }
    let plan = plan.record(18, &[0; 4]).end();
    assert_eq!(own_plan(&sheet), refuse(11, 0));
    // The last dial is to turn; the highest of those before it that is in the way goes first.
    let goal = [255, 255, 255, 255, 255, 2];
    let turned = |modes: [u8; 6]| next_command(&sheet, &plan, &untagged(&modes), &goal);
    assert_eq!(turned([3, 0, 0, 2, 0, 0]), send(5, 1));
    assert_eq!(turned([3, 0, 0, 2, 1, 0]), send(3, 1));
    assert_eq!(turned([3, 1, 1, 2, 1, 0]), send(0, 1));
}

/// The moves that a plan's entries name for a machine's group as it stands.
fn named(sheet: &[u8], plan: &[u8], state: &[u8], machine: u8) -> Vec<u8> {
    let sheet = Sheet::read(sheet).expect("a sheet that passes");
    let plan = Plan::read(&sheet, plan).expect("a plan in shape");
    let group = plan.groups.of[machine as usize] as usize;
    let state = State::read(&sheet, state).expect("a state that fits");
    let entries = plan.entries(group, plan.groups.present(group, state));
    let routes = entries.iter().filter(|entry| entry[0] != NO_ROUTE[0]);
    routes.map(|entry| entry[1]).collect()
}

/// Under plans of every kind, the sheet's own among them: a command that is
/// replied acts, by a move that an entry of the plan names there.
#[test]
fn a_command_is_a_move_that_an_entry_names() {
    let (mut own, mut others) = (0, 0);
    for seed in 0..20_000 {
        let input = lent(&mut Random::new(seed));
        let (sheet, plan) = (input.sheet.get(), input.plan.get());
        let mut state = input.state.get().to_vec();
        let Ok(Next::Send(command)) = next_command(sheet, plan, &state, input.goal.get()) else {
            continue;
        };
        let named = named(sheet, plan, &state, command.machine);
        let Ok(Effect::Move(number)) = apply(sheet, &mut state, command) else {
            panic!("seed {seed}: {command:?} does not act");
        };
        assert!(named.contains(&number), "seed {seed}: {number} {named:?}");
        match own_plan(sheet) {
            Ok(own_plan) if own_plan == plan => own += 1,
            _ => others += 1,
        }
    }
    assert!(own > 100 && others > 100, "{own} own, {others} others");
}
