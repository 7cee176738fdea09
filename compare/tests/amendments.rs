//! Amendments and clean sheets: by hand in both versions, then on random rounds
//! against the plain reading, and of an amended sheet against its clean one.
//! `faults.rs` has further tails that are refused.

use duty_compare::both::{apply, check_sheet, clean, own_clean, own_plan, own_text, walk};
use duty_compare::calls::{Call, Lent, Side, Slot, CALLS};
use duty_compare::command::{Command, Effect};
use duty_compare::expected::cleaned;
use duty_compare::inputs::crowded;
use duty_compare::plain::Plain;
use duty_compare::random::{
    amended_lent, amended_sheet, oddly_amended, room_for, sheet_bytes, Random,
};
use duty_compare::records::Records;
use duty_compare::samples::{filter, fullest, fullest_replaced, stove, stove_records, Builder};
use duty_compare::sheet::{MAX_AMENDMENTS, REPLACEMENT, WITHDRAWAL};
use duty_compare::state::untagged;
use duty_compare::{refuse, Reply};
use std::collections::{BTreeMap, BTreeSet};

/// What a command does to the stove in these modes.
fn applied(sheet: &[u8], modes: [u8; 3], machine: u8, command: u8) -> Effect {
    let command = Command { machine, command };
    apply(sheet, &mut untagged(&modes), command).expect("an effect")
}

#[test]
fn a_replaced_move_keeps_its_number() {
    // The fan goes on without the board.
    let sheet = stove_records().replace([1, 0, 1, 1], &[[2, 1]]).end();
    assert_eq!(check_sheet(&sheet), check_sheet(&stove()));
    assert_eq!(applied(&stove(), [0, 0, 0], 1, 1), Effect::Nothing);
    assert_eq!(applied(&sheet, [0, 0, 0], 1, 1), Effect::Move(2));
    assert_eq!(applied(&sheet, [1, 1, 0], 2, 1), Effect::Move(4));
    let printed = walk(&sheet, &[0; 6], &[1, 2, 1]);
    assert_eq!(printed, "1 1 2\ndone 1 bound 7\n");
}

#[test]
fn later_numbers_close_up_behind_a_withdrawn_move() {
    // The fan does not go off again.
    let sheet = stove_records().withdraw([1, 1, 2]).end();
    assert_eq!(check_sheet(&sheet), Ok(256 * 6 + 3));
    assert_eq!(applied(&sheet, [1, 0, 0], 1, 1), Effect::Move(2));
    assert_eq!(applied(&sheet, [1, 1, 0], 1, 2), Effect::Nothing);
    assert_eq!(applied(&sheet, [1, 1, 0], 2, 1), Effect::Move(3));
    let printed = walk(&sheet, &[0; 6], &[1, 2, 2]);
    assert_eq!(printed, "0 1 0\n1 1 2\n2 1 3\n0 2 1\ndone 4 bound 7\n");
}

#[test]
fn groups_are_those_of_the_standing_moves() {
    // The fan no longer needs the burner, so that each is a group of its own.
    let sheet = stove_records()
        .replace([1, 0, 1, 1], &[[0, 2]])
        .withdraw([1, 1, 2])
        .end();
    let groups = |sheet: &[u8]| own_plan(sheet).expect("a plan")[4..7].to_vec();
    assert_eq!(groups(&stove()), [0, 1, 1]);
    assert_eq!(groups(&sheet), [0, 1, 2]);
    let text = String::from_utf8(own_text(&sheet).expect("a text")).expect("letters");
    assert!(
        text.ends_with("  g0 -> g1;\n  g0 -> g2;\n  g1 -> g2;\n}\n"),
        "{text}"
    );
}

#[test]
fn all_moves_may_be_withdrawn() {
    let filter = Builder::reopened(&filter());
    let still = || filter.clone().withdraw([1, 0, 1]).withdraw([0, 0, 1]);
    assert_eq!(check_sheet(&still().end()), Ok(2));
    assert_eq!(walk(&still().end(), &[0; 4], &[2]), "refused 17 0\n");
    let machines = Builder::new().machines(2, 2).end();
    assert_eq!(own_clean(&still().end()), Ok(machines));
    // Moves were sent, so a machine is late; and none stands any more.
    let place = still().unfinished().len();
    let late = still().machines(1, 2).end();
    assert_eq!(check_sheet(&late), refuse(4, place));
    let again = still().withdraw([0, 0, 1]).end();
    assert_eq!(check_sheet(&again), refuse(21, place));
}

#[test]
fn a_move_may_be_amended_more_than_once() {
    let first = stove_records().replace([1, 0, 1, 1], &[[2, 1]]);
    let second = first.replace([1, 0, 1, 1], &[[0, 1]]);
    // The last replacement counts: the fan goes on while the board is off.
    let sheet = second.clone().end();
    assert_eq!(applied(&sheet, [0, 0, 2], 1, 1), Effect::Move(2));
    assert_eq!(applied(&sheet, [1, 0, 0], 1, 1), Effect::Nothing);
    let gone = second.withdraw([1, 0, 1]);
    assert_eq!(check_sheet(&gone.clone().end()), Ok(256 * 6 + 3));
    assert_eq!(applied(&gone.end(), [0, 0, 0], 1, 1), Effect::Nothing);
}

#[test]
fn a_withdrawn_move_is_not_amended() {
    let gone = || stove_records().withdraw([1, 0, 1]);
    let place = gone().unfinished().len();
    let refused = |sheet: Builder, number| {
        assert_eq!(check_sheet(&sheet.end()), refuse(number, place));
    };
    refused(gone().withdraw([1, 0, 1]), 21);
    refused(gone().replace([1, 0, 1, 1], &[]), 21);
    // It was sent all the same, so it cannot be sent again; nor can another.
    refused(gone().step([1, 0, 1, 1], &[]), 8);
    refused(gone().step([1, 0, 1, 9], &[]), 21);
    // Its numbers go on counting from the front.
    let others = gone().withdraw([0, 1, 2]).replace([2, 2, 1, 3], &[]);
    assert_eq!(applied(&others.end(), [0, 0, 2], 2, 3), Effect::Move(4));
}

/// Two machines of eight modes with one move each, and these three bytes withdrawn.
fn withdrawn(key: [u8; 3]) -> Reply<u32> {
    let sheet = Builder::new().machines(2, 8);
    let sheet = sheet.step([0, 0, 1, 5], &[]).step([1, 0, 1, 5], &[]);
    check_sheet(&sheet.withdraw(key).end())
}

#[test]
fn no_other_machine_and_mode_look_like_those_of_a_move() {
    let (one_left, none) = (Ok(256 + 2), refuse(21, 28));
    for machine in 0..=255 {
        for from in 0..=255 {
            let sent = [[0, 0], [1, 0]].contains(&[machine, from]);
            let expected = if sent { one_left } else { none };
            let reply = withdrawn([machine, from, 5]);
            assert_eq!(reply, expected, "machine {machine} mode {from}");
        }
    }
}

#[test]
fn no_other_command_looks_like_that_of_a_move() {
    for command in (0..=255).filter(|&command| command != 5) {
        let reply = withdrawn([1, 0, command]);
        assert_eq!(reply, refuse(21, 28), "command {command}");
    }
}

#[test]
fn command_0_is_8_of_a_replacement_and_21_of_a_withdrawal() {
    let place = stove_records().unfinished().len();
    let replaced = stove_records().replace([0, 0, 1, 0], &[]).end();
    assert_eq!(check_sheet(&replaced), refuse(8, place));
    let withdrawn = stove_records().withdraw([0, 0, 0]).end();
    assert_eq!(check_sheet(&withdrawn), refuse(21, place));
}

/// One machine with as many moves as there may be, and so many amendments, by
/// turns replaced and withdrawn.
fn by_turns(amendments: u8) -> Builder {
    let sheet = Builder::new().machines(1, 3).machines(1, 2);
    let sent = (1..=250).fold(sheet, |sheet, command| sheet.step([0, 0, 1, command], &[]));
    (1..=amendments).fold(sent, |sheet, command| match command % 2 {
        0 => sheet.replace([0, 0, 2, command], &[]),
        _ => sheet.withdraw([0, 0, command]),
    })
}

#[test]
fn sixty_four_amendments_are_accepted_and_a_65th_is_21() {
    assert_eq!(check_sheet(&by_turns(64).end()), Ok(256 * (250 - 32) + 2));
    let place = by_turns(64).unfinished().len();
    let refused = |sheet: Builder, number| {
        assert_eq!(check_sheet(&sheet.end()), refuse(number, place));
    };
    refused(by_turns(64).withdraw([0, 0, 100]), 21);
    refused(by_turns(64).replace([0, 0, 2, 100], &[]), 21);
    // What comes before 21 in a record comes before it here as well.
    refused(by_turns(64).record(WITHDRAWAL, &[0, 0]), 2);
    refused(by_turns(64).record(REPLACEMENT, &[0, 0, 2]), 2);
    refused(by_turns(64).replace([0, 0, 3, 100], &[]), 6);
    refused(by_turns(64).replace([0, 0, 2, 100], &[[1, 0]]), 7);
    refused(by_turns(64).replace([0, 0, 2, 0], &[]), 8);
    // The end is still to come.
    assert_eq!(check_sheet(&by_turns(64).unfinished()), refuse(1, place));
}

#[test]
fn a_move_behind_an_amendment_counts_those_that_are_withdrawn() {
    let late = |sheet: Builder, fields, guards: &[[u8; 2]]| {
        let place = sheet.clone().unfinished().len();
        let reply = check_sheet(&sheet.step(fields, guards).end());
        let refusal = reply.expect_err("a late move");
        assert_eq!(refusal.place as usize, place);
        refusal.number
    };
    // The 251st, although one of 250 is withdrawn: before what else is wrong.
    assert_eq!(late(by_turns(1), [0, 0, 1, 251], &[]), 4);
    assert_eq!(late(by_turns(1), [0, 1, 1, 1], &[[0, 0]]), 4);
    // One that was withdrawn sent again: behind what else is wrong.
    let gone = || stove_records().withdraw([0, 0, 1]);
    assert_eq!(late(gone(), [0, 0, 0, 1], &[]), 6);
    assert_eq!(late(gone(), [0, 0, 1, 1], &[[0, 1]]), 7);
    assert_eq!(late(gone(), [0, 0, 1, 0], &[]), 8);
    assert_eq!(late(gone(), [0, 0, 1, 1], &[]), 8);
    // Any other.
    assert_eq!(late(gone(), [0, 0, 1, 9], &[]), 21);
}

#[test]
fn a_machine_behind_an_amendment_is_late() {
    let amended = || stove_records().withdraw([0, 0, 1]);
    let place = amended().unfinished().len();
    for body in [[2, 3], [9, 0]] {
        let sheet = amended().record(1, &body).end();
        assert_eq!(check_sheet(&sheet), refuse(4, place));
    }
    let short = amended().record(1, &[2]).end();
    assert_eq!(check_sheet(&short), refuse(2, place));
}

#[test]
fn an_amendment_may_be_the_first_record() {
    let first = |kind, body: &[u8]| check_sheet(&Builder::new().record(kind, body).end());
    assert_eq!(first(REPLACEMENT, &[0, 0, 1, 1]), refuse(6, 0));
    assert_eq!(first(REPLACEMENT, &[0, 0, 1]), refuse(2, 0));
    assert_eq!(first(WITHDRAWAL, &[0, 0, 1]), refuse(21, 0));
    assert_eq!(first(WITHDRAWAL, &[0, 0]), refuse(2, 0));
}

#[test]
fn an_amendment_has_its_length_and_no_other() {
    let place = stove_records().unfinished().len();
    for length in (0..40).chain([255, 256, 259, 65_535]) {
        // The first move, guarded by the burner and machines behind it.
        let mut body = vec![0, 0, 1, 1];
        body.extend((1..).flat_map(|machine| [machine as u8, 1]).take(length));
        body.truncate(length);
        let judged = |kind| check_sheet(&stove_records().record(kind, &body).end());
        let replaced = match length {
            4 | 6 | 8 => Ok(256 * 7 + 3),
            10 | 12 | 14 | 16 | 18 | 20 => refuse(7, place),
            _ => refuse(2, place),
        };
        assert_eq!(judged(REPLACEMENT), replaced, "{length}");
        // Its command is 1 as well.
        let withdrawn = if length == 3 {
            Ok(256 * 6 + 3)
        } else {
            refuse(2, place)
        };
        assert_eq!(judged(WITHDRAWAL), withdrawn, "{length}");
    }
}

/// The places of the records of a sheet.
fn places(sheet: &[u8]) -> Vec<usize> {
    let mut records = Records::new(sheet);
    let place = || {
        let place = records.position();
        records.take().map(|_| place)
    };
    std::iter::from_fn(place).collect()
}

#[test]
fn places_of_a_tail_go_on_behind_the_longest_clean_sheet() {
    let sheet = fullest_replaced();
    let tail = &places(&sheet)[32 + 250..][..MAX_AMENDMENTS];
    assert_eq!(tail[0], 6192);
    assert_eq!(tail[63], 7704);
    for &place in tail {
        // From the to mode; a guard of no mode; no such command; one byte more.
        let changes = [(4 + 1, 6), (4 + 5, 7), (4 + 3, 21), (2, 2)];
        for (at, number) in changes {
            let mut faulty = sheet.clone();
            faulty[place + at] = match number {
                6 => faulty[place + 4 + 2],
                7 => 0,
                21 => 255,
                _ => 9,
            };
            assert_eq!(check_sheet(&faulty), refuse(number, place), "{place}");
        }
    }
    // One more at the end of them.
    let more = Builder::reopened(&sheet).withdraw([0, 0, 1]).end();
    assert_eq!(check_sheet(&more), refuse(21, 7728));
}

#[test]
fn a_tail_may_be_cut_anywhere_and_ends_with_its_end() {
    let sheet = stove_records()
        .replace([1, 0, 1, 1], &[[2, 1]])
        .withdraw([2, 2, 3])
        .end();
    assert_eq!(check_sheet(&sheet), Ok(256 * 6 + 3));
    let places = places(&sheet);
    for length in 0..sheet.len() {
        let begun = places.iter().rev().find(|&&place| place <= length);
        let cut = refuse(1, *begun.expect("a record"));
        assert_eq!(check_sheet(&sheet[..length]), cut, "{length}");
    }
    for more in [&[0][..], &[0, 0, 3, 0], &[3, 0, 5, 0, 0, 0, 1]] {
        let reply = check_sheet(&[&sheet, more].concat());
        assert_eq!(reply, refuse(3, sheet.len()));
    }
}

/// Each move of a crowded sheet withdrawn: its record alone is gone.
#[test]
fn a_move_is_found_wherever_it_stands() {
    for (name, sheet) in crowded() {
        let places = places(&sheet);
        let moves = places.windows(2).filter(|ends| sheet[ends[0] + 2] == 2);
        for ends in moves {
            let record = &sheet[ends[0]..ends[1]];
            let key = [record[4], record[5], record[7]];
            let left = [&sheet[..ends[0]], &sheet[ends[1]..]].concat();
            let amended = Builder::reopened(&sheet).withdraw(key).end();
            assert_eq!(own_clean(&amended), Ok(left), "{name} {key:?}");
        }
    }
}

/// The stove with its fan free of the board, the second move withdrawn and the last
/// replaced twice; then the same written out clean.
fn amended_stove() -> [Vec<u8>; 2] {
    let amended = stove_records()
        .replace([2, 2, 1, 3], &[])
        .replace([1, 0, 1, 1], &[[2, 1]])
        .withdraw([0, 1, 2])
        .replace([2, 2, 0, 3], &[[0, 3], [1, 1]])
        .replace([1, 1, 0, 2], &[]);
    let clean = Builder::new()
        .machines(2, 2)
        .machines(1, 3)
        .step([0, 0, 1, 1], &[])
        .step([1, 0, 1, 1], &[[2, 1]])
        .step([1, 1, 0, 2], &[])
        .step([2, 0, 1, 1], &[[0, 2], [1, 2]])
        .step([2, 1, 0, 2], &[[0, 2]])
        .step([2, 2, 0, 3], &[[0, 3], [1, 1]]);
    [amended.end(), clean.end()]
}

#[test]
fn a_clean_sheet_has_the_machines_the_standing_moves_and_the_end() {
    let [amended, clean] = amended_stove();
    assert_eq!(own_clean(&amended), Ok(clean.clone()));
    assert_eq!(own_clean(&clean), Ok(clean.clone()));
    assert_eq!(own_clean(&stove()), Ok(stove()));
    assert_eq!(own_clean(&fullest()), Ok(fullest()));
    let single = Builder::new().machine(8, 0x81).end();
    assert_eq!(own_clean(&single), Ok(single));
}

#[test]
fn a_clean_sheet_stands_at_the_front_of_its_room() {
    let [amended, expected] = amended_stove();
    for sheet in [&amended, &expected] {
        for more in [0, 1, 3000] {
            let mut out = vec![7; expected.len() + more];
            assert_eq!(clean(sheet, &mut out), Ok(expected.len()), "{more}");
            assert_eq!(out[..expected.len()], expected, "{more}");
            assert_eq!(out[expected.len()..], vec![7; more], "{more}");
        }
    }
}

#[test]
fn refusal_12_for_a_room_shorter_than_the_clean_sheet() {
    let [amended, expected] = amended_stove();
    for sheet in [&amended, &expected] {
        for room in 0..expected.len() {
            let mut out = vec![7; room];
            assert_eq!(clean(sheet, &mut out), refuse(12, 0), "{room}");
            assert_eq!(out, vec![7; room], "{room}");
        }
    }
    // Behind all that is wrong with the sheet.
    let late = Builder::reopened(&amended).withdraw([0, 1, 2]).end();
    let refused = refuse(21, amended.len() - 4);
    for room in [0, 6196] {
        let mut out = vec![7; room];
        assert_eq!(clean(&late, &mut out), refused);
        assert_eq!(out, vec![7; room]);
    }
}

/// Judges random sheets of a kind in both versions and by the plain reading; the
/// numbers that they are often refused by, 0 for none.
fn judged(sheet: fn(&mut Random) -> Vec<u8>) -> Vec<u32> {
    let mut seen = BTreeMap::new();
    for seed in 0..20_000 {
        let sheet = sheet(&mut Random::new(seed));
        let plain = Plain::read(&sheet).map(|plain| plain.value());
        assert_eq!(check_sheet(&sheet), plain, "seed {seed}: {sheet:?}");
        let number = plain.err().map_or(0, |refusal| refusal.number);
        *seen.entry(number).or_insert(0) += 1;
    }
    seen.retain(|_, &mut times| times > 50);
    seen.into_keys().collect()
}

#[test]
fn sheets_are_judged_as_the_plain_reading_does() {
    let numbers = judged(sheet_bytes);
    assert_eq!(numbers, [0, 1, 2, 3, 4, 5, 6, 7, 8, 21]);
}

#[test]
fn tails_are_judged_as_the_plain_reading_does() {
    let numbers = judged(oddly_amended);
    assert_eq!(numbers, [0, 1, 2, 3, 4, 6, 7, 8, 21]);
}

#[test]
fn sheets_are_cleaned_as_the_plain_reading_does() {
    let (mut accepted, mut short, mut refused) = (0, 0, 0);
    for seed in 0..10_000 {
        let random = &mut Random::new(seed);
        let sheet = [amended_sheet, oddly_amended][random.below(2)](random);
        let length = Plain::read(&sheet).map_or(0, |plain| plain.clean().len());
        let room = room_for(random, length);
        let mut out = room.clone();
        let reply = clean(&sheet, &mut out);
        assert_eq!((reply, out), cleaned(&sheet, &room), "seed {seed}");
        match reply.map_err(|refusal| refusal.number) {
            Ok(_) => accepted += 1,
            Err(12) => short += 1,
            Err(_) => refused += 1,
        }
    }
    let seen = [accepted, short, refused];
    assert!(seen.iter().all(|&times| times > 1000), "{seen:?}");
}

/// The reply of one version and all bytes that are left, but for the sheet's.
fn left(side: Side, lent: &Lent) -> (Reply<u32>, Lent) {
    let mut lent = lent.clone();
    let reply = side(&mut lent);
    lent.sheet = Slot::new(&[]);
    (reply, lent)
}

/// In both versions, of every call; the clean sheet is that of the plain reading.
/// Also shows that most calls are often accepted.
#[test]
fn every_call_replies_the_same_of_an_amended_sheet_and_its_clean_one() {
    let mut accepted = [0; CALLS.len()];
    for seed in 0..10_000 {
        let amended = amended_lent(&mut Random::new(seed));
        let plain = Plain::read(amended.sheet.get()).expect("a sheet that passes");
        let mut clean = amended.clone();
        clean.sheet = Slot::new(&plain.clean());
        if clean.sheet == amended.sheet {
            continue;
        }
        for (
            Call {
                name,
                rust,
                library,
            },
            accepted,
        ) in CALLS.iter().zip(&mut accepted)
        {
            for side in [*rust, *library] {
                let of_both = [&amended, &clean].map(|lent| left(side, lent));
                assert!(of_both[0] == of_both[1], "seed {seed}: {name}");
                *accepted += of_both[0].0.is_ok() as u32;
            }
        }
    }
    assert!(accepted.iter().all(|&times| times > 1000), "{accepted:?}");
}

/// The kind and key of each amendment of a sheet that passes.
fn amendments(sheet: &[u8]) -> Vec<(u16, [u8; 3])> {
    let mut records = Records::new(sheet);
    let records = std::iter::from_fn(|| records.take());
    let amended = records.filter_map(|record| match (record.kind, record.body) {
        (WITHDRAWAL, &[machine, from, command]) => Some((5, [machine, from, command])),
        (REPLACEMENT, &[machine, from, _, command, ..]) => Some((4, [machine, from, command])),
        _ => None,
    });
    amended.collect()
}

#[test]
fn random_amendments_come_in_every_kind() {
    let (mut none, mut most, mut twice, mut bare) = (0, 0, 0, 0);
    let mut kinds = [0; 2];
    for seed in 0..5_000 {
        let sheet = amended_sheet(&mut Random::new(seed));
        let value =
            check_sheet(&sheet).unwrap_or_else(|refusal| panic!("seed {seed}: {refusal:?}"));
        let amendments = amendments(&sheet);
        none += amendments.is_empty() as u32;
        most += (amendments.len() == MAX_AMENDMENTS) as u32;
        bare += (value < 256 && !amendments.is_empty()) as u32;
        let keys: BTreeSet<_> = amendments.iter().map(|(_, key)| key).collect();
        twice += (keys.len() < amendments.len()) as u32;
        for (kind, _) in amendments {
            kinds[(kind == WITHDRAWAL) as usize] += 1;
        }
    }
    let seen = [none, most, twice, bare, kinds[0], kinds[1]];
    assert!(seen.iter().all(|&times| times > 100), "{seen:?}");
}
