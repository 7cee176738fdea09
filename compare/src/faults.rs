//! Faulty sheets: for each cause from 1 to 8 one or more, with its place; then the
//! same of their tails, and 21.

use crate::samples::{stove, stove_records, Builder};

/// A name, the bytes, the refusal's number and its place.
pub type Faulty = (&'static str, Vec<u8>, u32, usize);

pub fn faulty_sheets() -> Vec<Faulty> {
    [
        files(),
        records(),
        machines(),
        moves(),
        guards(),
        commands(),
        tails(),
        amendments(),
    ]
    .concat()
}

fn files() -> Vec<Faulty> {
    let short = |length: usize| stove()[..length].to_vec();
    let more = |bytes: &[u8]| [&stove(), bytes].concat();
    vec![
        ("empty file", vec![], 1, 0),
        ("no end", short(90), 1, 90),
        ("head cut", short(93), 1, 90),
        ("body cut", short(5), 1, 0),
        ("unknown kind cut short", vec![1, 0, 9, 0], 1, 0),
        ("one byte more", more(&[0]), 3, 94),
        ("one record more", more(&[0, 0, 3, 0]), 3, 94),
    ]
}

fn records() -> Vec<Faulty> {
    let one = || Builder::new().machines(1, 2);
    let moved = || one().step([0, 0, 1, 1], &[]);
    let many = (1..=250).fold(one(), |sheet, command| sheet.step([0, 0, 1, command], &[]));
    vec![
        ("unknown kind", vec![0, 0, 9, 0], 2, 0),
        ("kind 0", vec![0, 0, 0, 0], 2, 0),
        (
            "high byte of the kind",
            one().record(0x0103, &[]).unfinished(),
            2,
            6,
        ),
        (
            "machine of 3 bytes",
            one().record(1, &[2, 3, 0]).end(),
            2,
            6,
        ),
        ("move of 3 bytes", one().record(2, &[0, 0, 1]).end(), 2, 6),
        (
            "half a guard",
            one().record(2, &[0, 0, 1, 1, 0]).end(),
            2,
            6,
        ),
        ("nine guards", one().record(2, &[0; 22]).end(), 2, 6),
        ("end with a body", one().record(3, &[0]).unfinished(), 2, 6),
        (
            "short machine after a move",
            moved().record(1, &[2]).end(),
            2,
            14,
        ),
        ("only an end", Builder::new().end(), 4, 0),
        ("only an end, and a byte", vec![0, 0, 3, 0, 0], 4, 0),
        (
            "move first",
            Builder::new().step([0, 0, 1, 1], &[]).end(),
            4,
            0,
        ),
        ("machine after a move", moved().machines(1, 2).end(), 4, 14),
        (
            "bad machine after a move",
            moved().machine(9, 0).end(),
            4,
            14,
        ),
        ("33rd machine", Builder::new().machines(33, 2).end(), 4, 192),
        ("251st move", many.step([0, 0, 1, 251], &[]).end(), 4, 2006),
    ]
}

fn machines() -> Vec<Faulty> {
    let one = || Builder::new().machines(1, 2);
    vec![
        ("nine modes", Builder::new().machine(9, 1).end(), 5, 0),
        ("no modes", one().machine(0, 0).end(), 5, 6),
        ("no live mode", one().machine(2, 0).end(), 5, 6),
        ("live beyond the modes", one().machine(2, 4).end(), 5, 6),
    ]
}

fn moves() -> Vec<Faulty> {
    let two = || Builder::new().machines(1, 2).machine(3, 3);
    let step = |fields| two().step(fields, &[]).end();
    let late = two().step([2, 0, 1, 1], &[]).machines(1, 2);
    vec![
        ("from 1 to 1", step([0, 1, 1, 1]), 6, 12),
        ("machine absent", step([2, 0, 1, 1]), 6, 12),
        ("machine 255", step([255, 0, 1, 1]), 6, 12),
        ("from absent", step([0, 2, 1, 1]), 6, 12),
        ("to absent", step([0, 0, 200, 1]), 6, 12),
        ("from out of order", step([1, 2, 0, 1]), 6, 12),
        ("to out of order", step([1, 0, 2, 1]), 6, 12),
        (
            "6 before 7 and 8",
            two().step([0, 1, 1, 0], &[[0, 0]]).end(),
            6,
            12,
        ),
        ("machine still to come", late.end(), 6, 12),
    ]
}

fn guards() -> Vec<Faulty> {
    let step = |guards: &[[u8; 2]], command| {
        let three = Builder::new().machines(3, 2);
        three.step([1, 0, 1, command], guards).end()
    };
    vec![
        ("mode byte 0", step(&[[0, 0]], 1), 7, 18),
        ("mode byte beyond", step(&[[0, 4]], 1), 7, 18),
        ("guard's machine absent", step(&[[3, 1]], 1), 7, 18),
        ("guard's machine 200", step(&[[0, 1], [200, 1]], 1), 7, 18),
        ("guard on its own machine", step(&[[1, 1]], 1), 7, 18),
        ("guards falling", step(&[[2, 1], [0, 1]], 1), 7, 18),
        ("guards twice the same", step(&[[2, 1], [2, 2]], 1), 7, 18),
        ("7 before 8", step(&[[2, 0]], 0), 7, 18),
        (
            "stove's lighting with mode byte 0",
            stove_without_fan(),
            7,
            58,
        ),
    ]
}

/// The stove, but lighting the burner asks for no mode of the fan.
fn stove_without_fan() -> Vec<u8> {
    let mut bytes = stove();
    bytes[58 + 4 + 7] = 0;
    bytes
}

fn commands() -> Vec<Faulty> {
    let sheet = || Builder::new().machines(1, 3).machines(1, 2);
    let again = |to, guards: &[[u8; 2]]| {
        let first = sheet().step([0, 0, 1, 5], &[]).step([0, 1, 0, 5], &[]);
        first.step([0, 0, to, 5], guards).end()
    };
    vec![
        ("command 0", sheet().step([0, 0, 1, 0], &[]).end(), 8, 12),
        ("move sent twice", again(1, &[]), 8, 28),
        (
            "again with another end and guard",
            again(2, &[[1, 1]]),
            8,
            28,
        ),
        (
            "stove's last move twice",
            stove_records().step([2, 2, 0, 3], &[]).end(),
            8,
            90,
        ),
    ]
}

/// Two machines and three moves, of which the first is replaced: 46 bytes, the last
/// ten of them the amendment.
fn amended() -> Builder {
    Builder::new()
        .machine(3, 3)
        .machines(1, 2)
        .step([0, 0, 1, 5], &[])
        .step([0, 1, 0, 5], &[])
        .step([1, 0, 1, 5], &[])
        .replace([0, 0, 1, 5], &[[1, 1]])
}

/// Records that are refused behind it: a name, kind, body and number.
const LATE: [(&str, u16, &[u8], u32); 29] = [
    ("tail: kind 6", 6, &[0, 0, 5], 2),
    ("tail: high byte of kind 4", 0x0104, &[0, 0, 1, 5], 2),
    ("tail: high byte of kind 5", 0x0105, &[0, 0, 5], 2),
    ("tail: short machine", 1, &[2], 2),
    ("tail: short move", 2, &[0, 0, 5], 2),
    ("tail: end with a body", 3, &[0], 2),
    ("replaced by 3 bytes", 4, &[0, 0, 5], 2),
    ("replaced with half a guard", 4, &[0, 0, 1, 5, 1], 2),
    ("replaced with nine guards", 4, &[0; 22], 2),
    ("withdrawn by no byte", 5, &[], 2),
    ("withdrawn by 2 bytes", 5, &[0, 0], 2),
    ("withdrawn by 4 bytes", 5, &[0, 0, 1, 5], 2),
    ("tail: machine", 1, &[2, 3], 4),
    ("tail: bad machine", 1, &[9, 0], 4),
    ("replaced from 1 to 1", 4, &[0, 1, 1, 5], 6),
    ("replaced to out of order", 4, &[0, 1, 2, 5], 6),
    ("replaced from absent", 4, &[1, 2, 0, 5], 6),
    ("replaced of machine 32", 4, &[32, 0, 1, 5], 6),
    ("replaced with its own guard", 4, &[0, 1, 0, 5, 0, 1], 7),
    ("replaced with command 0", 4, &[0, 1, 0, 0], 8),
    ("no move to replace", 4, &[0, 1, 0, 6], 21),
    ("no move to withdraw", 5, &[0, 1, 6], 21),
    ("machine 32 withdrawn", 5, &[32, 0, 5], 21),
    ("mode 8 withdrawn", 5, &[0, 8, 5], 21),
    ("tail: bad move", 2, &[1, 1, 1, 5], 6),
    ("tail: bad guard", 2, &[1, 1, 0, 5, 1, 1], 7),
    ("tail: command 0", 2, &[1, 1, 0, 0], 8),
    ("tail: move sent again", 2, &[1, 0, 1, 5], 8),
    ("tail: move", 2, &[1, 1, 0, 5], 21),
];

fn tails() -> Vec<Faulty> {
    let late = |&(name, kind, body, number)| {
        let sheet: Builder = amended().record(kind, body);
        (name, sheet.end(), number, 46)
    };
    let whole = amended().end();
    let more = [&whole[..], &[0]].concat();
    let others = [
        ("tail: no end", whole[..46].to_vec(), 1, 46),
        ("tail: head cut", whole[..38].to_vec(), 1, 36),
        ("tail: body cut", whole[..45].to_vec(), 1, 36),
        ("tail: one byte more", more, 3, 50),
    ];
    LATE.iter().map(late).chain(others).collect()
}

/// Tails of which more than the last record matters.
fn amendments() -> Vec<Faulty> {
    let gone = || amended().withdraw([0, 1, 5]);
    let twice = gone().withdraw([0, 1, 5]);
    let replaced = gone().replace([0, 1, 0, 5], &[]);
    let sent = gone().step([0, 1, 0, 5], &[]);
    let first = Builder::new;
    let second = || Builder::new().machines(1, 2);
    vec![
        ("withdrawn twice", twice.end(), 21, 53),
        ("replaced when withdrawn", replaced.end(), 21, 53),
        ("sent when withdrawn", sent.end(), 8, 53),
        (
            "first: replaced",
            first().replace([0, 0, 1, 1], &[]).end(),
            6,
            0,
        ),
        ("first: withdrawn", first().withdraw([0, 0, 1]).end(), 21, 0),
        (
            "no moves: replaced",
            second().replace([0, 0, 1, 1], &[]).end(),
            21,
            6,
        ),
        (
            "no moves: withdrawn",
            second().withdraw([0, 0, 1]).end(),
            21,
            6,
        ),
    ]
}
