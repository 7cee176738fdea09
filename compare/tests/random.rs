//! The Rust version by itself on random rounds of every call.

use duty_compare::calls::{Call, Lent, Slot, CALLS};
use duty_compare::command::{apply, Effect};
use duty_compare::expected::{effect, meets, named_outside, tags_change};
use duty_compare::join::{in_one_slice, join};
use duty_compare::pictures::{own_text, shown};
use duty_compare::random::{goals, lent, sheet, state, Random};
use duty_compare::sheet::{Sheet, MAX_MACHINES, MAX_MOVES};
use duty_compare::state::untagged;
use duty_compare::version::Rust;
use duty_compare::walk::own_plan;
use duty_compare::Reply;

/// Also shows that the rounds try every refusal there is.
#[test]
fn refused_calls_change_no_lent_byte() {
    let mut seen = [0; 22];
    for seed in 0..20_000 {
        let input = lent(&mut Random::new(seed));
        for call in &CALLS {
            let mut after = input.clone();
            let number = (call.rust)(&mut after)
                .err()
                .map_or(0, |refusal| refusal.number);
            assert!(
                number == 0 || after == input,
                "seed {seed}: {} {number}",
                call.name
            );
            seen[number as usize] += 1;
        }
    }
    let missed: Vec<_> = (1..22).filter(|&number| seen[number] < 20).collect();
    assert_eq!(missed, [], "seldom or never refused so: {seen:?}");
}

/// The bytes of a buffer behind an output of a call of this name.
fn behind<'a>(buffer: &'a Slot, name: &str, call: &Call, reply: Reply<u32>) -> &'a [u8] {
    let written = if call.name == name { reply } else { Ok(0) };
    &buffer.get()[written.unwrap_or(0) as usize..]
}

/// What of a call may be written: nothing but plan, scratch, state and the fronts
/// of the buffers for outputs.
#[test]
fn accepted_calls_write_where_they_should() {
    for seed in 0..5_000 {
        let input = lent(&mut Random::new(seed));
        for call in &CALLS {
            let mut after = input.clone();
            let reply = (call.rust)(&mut after);
            let planned = call.name == "plan" && reply.is_ok();
            assert_eq!(after.sheet, input.sheet, "seed {seed}: {}", call.name);
            assert_eq!(after.goal, input.goal, "seed {seed}: {}", call.name);
            assert_eq!(after.wishes, input.wishes, "seed {seed}: {}", call.name);
            assert!(
                planned || after.plan == input.plan,
                "seed {seed}: {}",
                call.name
            );
            assert!(
                call.name == "apply" || after.state == input.state,
                "seed {seed}"
            );
            let cleared = after.scratch.get().iter().all(|&byte| byte == 0);
            assert!(
                if planned {
                    cleared
                } else {
                    after.scratch == input.scratch
                },
                "seed {seed}"
            );
            assert_eq!(after.text, input.text, "seed {seed}: {}", call.name);
            let outputs = |lent: &Lent| {
                let behind = |buffer, name| behind(buffer, name, call, reply).to_vec();
                let joined = behind(&lent.out, "join");
                let drawn = behind(&lent.drawn, "graph");
                let shown = behind(&lent.shown, "graph_read");
                [joined, drawn, shown, behind(&lent.cleaned, "clean")]
            };
            let (left, lent) = (outputs(&after), outputs(&input));
            assert_eq!(left, lent, "seed {seed}: {}", call.name);
        }
    }
}

/// Also shows that the rounds try every change that tags make.
#[test]
fn tags_only_refuse_and_hold_back() {
    let mut seen = [0; 4];
    for seed in 0..20_000 {
        let input = lent(&mut Random::new(seed));
        for name in ["next", "apply"] {
            let call = Call::named(name).expect("a call");
            let reply = (call.rust)(&mut input.clone());
            let lifted = (call.rust)(&mut input.lifted());
            if let Some(change) = tags_change(reply, lifted) {
                seen[change] += 1;
            }
        }
    }
    assert!(seen.iter().all(|&times| times > 20), "{seen:?}");
}

/// Also shows that the rounds make moves of many numbers, and none.
#[test]
fn applied_commands_are_the_move_that_acts() {
    let (mut nothing, mut moves) = (0, [0; MAX_MOVES]);
    for seed in 0..20_000 {
        let input = lent(&mut Random::new(seed));
        let mut state = input.state.get().to_vec();
        let Ok(applied) = apply(input.sheet.get(), &mut state, input.command) else {
            continue;
        };
        let expected = effect(input.sheet.get(), input.state.get(), input.command);
        assert_eq!((applied, state), expected, "seed {seed}");
        match applied {
            Effect::Nothing => nothing += 1,
            Effect::Move(number) => moves[number as usize] += 1,
        }
    }
    let seldom: Vec<_> = (0..8).filter(|&number| moves[number] < 20).collect();
    assert_eq!(seldom, [], "moves seldom or never made: {moves:?}");
    let different = moves.iter().filter(|&&times| times > 0).count();
    assert!(different > 100 && nothing > 1000, "{different} {nothing}");
}

#[test]
fn a_state_meets_the_joined_goal_exactly_if_it_meets_each() {
    let mut seen = [0; 2];
    for seed in 0..5_000 {
        let random = &mut Random::new(seed);
        let bytes = sheet(random);
        let read = Sheet::read(&bytes).unwrap_or_else(|refusal| panic!("seed {seed}: {refusal:?}"));
        let goals = goals(random, &read);
        let mut out = [0; MAX_MACHINES];
        let Ok(length) = join(&bytes, &in_one_slice(&goals), &mut out) else {
            continue;
        };
        for _ in 0..4 {
            let mode = |machine| random.below(read.count(machine) as usize) as u8;
            let modes: Vec<u8> = (0..read.machines()).map(mode).collect();
            let state = untagged(&modes);
            let each = goals.iter().all(|goal| meets(&state, goal));
            assert_eq!(meets(&state, &out[..length]), each, "seed {seed}");
            seen[each as usize] += (goals.len() > 1) as u32;
        }
    }
    assert!(seen.iter().all(|&times| times > 1000), "{seen:?}");
}

/// Also shows that the rounds draw groups of several machines and many edges.
#[test]
fn pictures_show_the_groups_of_the_plan_and_the_needs_of_the_moves() {
    let (mut several, mut edges) = (0, 0);
    for seed in 0..5_000 {
        let bytes = sheet(&mut Random::new(seed));
        let text = own_text::<Rust>(&bytes).expect("a text");
        let picture = shown::<Rust>(&text).expect("a picture");
        let machines = picture[0] as usize;
        let (groups, named) = picture[1..].split_at(machines);
        assert_eq!(named, named_outside(&bytes, groups), "seed {seed}");
        edges += named.len() / 2;
        if let Ok(plan) = own_plan::<Rust>(&bytes) {
            assert_eq!(groups, &plan[4..4 + machines], "seed {seed}");
            let all_apart = groups.contains(&(machines as u8 - 1));
            several += !all_apart as u32;
        }
    }
    assert!(several > 500 && edges > 10_000, "{several} {edges}");
}

#[test]
fn random_states_come_in_every_kind() {
    let (mut free, mut some_tagged, mut bad_tag, mut odd, mut one_byte) = (0, 0, 0, 0, 0);
    for seed in 0..5_000 {
        let random = &mut Random::new(seed);
        let bytes = sheet(random);
        let read = Sheet::read(&bytes).unwrap_or_else(|refusal| panic!("seed {seed}: {refusal:?}"));
        let state = state(random, &read);
        odd += (state.len() % 2) as u32;
        one_byte += (state.len() == read.machines()) as u32;
        if state.len() == 2 * read.machines() {
            match state.chunks(2).map(|cell| cell[1]).max() {
                Some(0) => free += 1,
                Some(1) => some_tagged += 1,
                _ => bad_tag += 1,
            }
        }
    }
    let kinds = [free, some_tagged, bad_tag, odd, one_byte];
    assert!(kinds.iter().all(|&times| times > 20), "{kinds:?}");
}

#[test]
fn random_sheets_are_accepted_and_of_all_shapes() {
    let mut machines = [0; 33];
    let (mut fullest, mut failed, mut eight_guards) = (0, 0, 0);
    for seed in 0..5_000 {
        let bytes = sheet(&mut Random::new(seed));
        let read = Sheet::read(&bytes).unwrap_or_else(|refusal| panic!("seed {seed}: {refusal:?}"));
        machines[read.machines()] += 1;
        fullest = fullest.max(read.moves());
        failed +=
            (0..read.machines()).any(|machine| read.live(machine) != read.all(machine)) as u32;
        eight_guards += read.steps().any(|step| step.guards.len() == 8) as u32;
    }
    assert!(
        machines[1..].iter().all(|&number| number > 0),
        "{machines:?}"
    );
    assert_eq!(fullest, 250);
    assert!(failed > 100 && eight_guards > 10, "{failed} {eight_guards}");
}
