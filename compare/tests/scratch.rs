//! Planning with scratches of all lengths, in both versions: from 512 bytes up
//! the plan is the same and all of the scratch is cleared, below it is 12.

use duty_compare::both::{own_plan, plan, plan_length};
use duty_compare::plan::MIN_SCRATCH;
use duty_compare::random::{sheet, Random};
use duty_compare::samples::{blocks, circle, dials, filter, fullest, longest_plan, stove, Builder};
use duty_compare::{refuse, Reply};

const TOO_SHORT: [usize; 3] = [0, 1, 511];
const LONG_ENOUGH: [usize; 5] = [512, 513, 4096, 65_536, 70_000];

/// What planning replies, and the buffer and the scratch that it leaves, where
/// they were full of other bytes.
fn planned(sheet: &[u8], length: usize, scratch: usize) -> (Reply<()>, Vec<u8>, Vec<u8>) {
    let (mut buffer, mut work) = (vec![0x5A; length], vec![0xC3; scratch]);
    let reply = plan(sheet, &mut buffer, &mut work);
    (reply, buffer, work)
}

/// Asserts that planning refuses, and leaves all bytes.
fn refused(sheet: &[u8], length: usize, scratch: usize, number: u32, place: usize) {
    let left = (vec![0x5A; length], vec![0xC3; scratch]);
    let (reply, buffer, work) = planned(sheet, length, scratch);
    assert_eq!(reply, refuse(number, place), "{length} {scratch}");
    assert!((buffer, work) == left, "{length} {scratch}");
}

/// Asserts that planning writes this plan, and zeros into all of the scratch.
fn written(sheet: &[u8], own: &[u8], scratch: usize) {
    let (reply, buffer, work) = planned(sheet, own.len(), scratch);
    assert_eq!(reply, Ok(()), "{scratch}");
    assert!(buffer == own, "another plan: {scratch}");
    assert!(work == vec![0; scratch], "not all zero: {scratch}");
}

/// Sheets with a plan, some of them long.
fn accepted() -> Vec<Vec<u8>> {
    let samples = [
        stove(),
        filter(),
        dials(5),
        blocks(4, 0, true),
        fullest(),
        longest_plan(),
        Builder::new().machines(1, 1).end(),
    ];
    let random = (0..200).map(|seed| sheet(&mut Random::new(seed)));
    let all = samples.into_iter().chain(random);
    let planned: Vec<_> = all.filter(|sheet| own_plan(sheet).is_ok()).collect();
    assert!(planned.len() > 100, "few have a plan: {}", planned.len());
    planned
}

#[test]
fn from_512_bytes_up_the_plan_is_the_same_and_the_scratch_all_zero() {
    for sheet in accepted() {
        let own = own_plan(&sheet).expect("a plan");
        for scratch in LONG_ENOUGH {
            written(&sheet, &own, scratch);
        }
    }
}

#[test]
fn every_length_is_judged_by_512_alone() {
    let own = own_plan(&stove()).expect("a plan");
    for scratch in (0..=1100).chain(4000..=4200) {
        if scratch < MIN_SCRATCH {
            refused(&stove(), own.len(), scratch, 12, 0);
        } else {
            written(&stove(), &own, scratch);
        }
    }
}

#[test]
fn below_512_bytes_it_is_12() {
    for sheet in accepted() {
        let length = plan_length(&sheet).expect("a length");
        for scratch in TOO_SHORT {
            refused(&sheet, length, scratch, 12, 0);
        }
    }
}

#[test]
fn a_wrong_buffer_is_12_with_every_scratch() {
    let length = plan_length(&stove()).expect("a length");
    for scratch in TOO_SHORT.into_iter().chain(LONG_ENOUGH) {
        for buffer in [0, length - 1, length + 1, 4096] {
            refused(&stove(), buffer, scratch, 12, 0);
        }
    }
}

#[test]
fn what_comes_before_12_is_refused_alike_with_every_scratch() {
    for scratch in TOO_SHORT.into_iter().chain(LONG_ENOUGH) {
        refused(&[], 7, scratch, 1, 0);
        refused(&circle(32), 7, scratch, 9, 0);
        refused(&blocks(5, 0, false), 7, scratch, 10, 0);
        refused(&dials(6), 7, scratch, 11, 0);
        let length = plan_length(&dials(6)).expect("a length");
        refused(&dials(6), length, scratch, 11, 0);
    }
}
