//! The proved library against the Rust version, call by call. DUTY_ROUNDS asks
//! for more random rounds than usual, DUTY_SEED for others.

use duty_compare::calls::{Call, Lent, Slot, CALLS};
use duty_compare::clean::MAX_CLEAN;
use duty_compare::command::{Command, Effect};
use duty_compare::expected::tags_change;
use duty_compare::faults::faulty_sheets;
use duty_compare::graph::MAX_TEXT;
use duty_compare::pictures::own_text;
use duty_compare::random::{amended_lent, idle_lent, lent, sheet_bytes, Random};
use duty_compare::samples::{
    blocks, circle, dials, filter, fullest, fullest_replaced, fullest_withdrawn, longest_plan,
    product, snake, stove, stove_records, Builder,
};
use duty_compare::shape::Plan;
use duty_compare::sheet::Sheet;
use duty_compare::version::Rust;
use duty_compare::walk::own_plan;
use duty_compare::{refuse, say, Reply};
use std::collections::BTreeMap;
use std::fmt::{Display, Formatter};
use std::hint::black_box;

fn setting(name: &str, usual: u64) -> u64 {
    let text = std::env::var(name).ok();
    text.map_or(usual, |text| {
        text.parse()
            .unwrap_or_else(|_| panic!("{name} is not a number"))
    })
}

/// Makes one call in both versions on the same bytes: the replies and every
/// lent byte must agree, and a refused call changes none.
fn agree(call: &Call, input: &Lent, what: &str) -> Reply<u32> {
    let name = call.name;
    let (mut by_rust, mut by_library) = (input.clone(), input.clone());
    let expected = (call.rust)(&mut by_rust);
    let reply = (call.library)(black_box(&mut by_library));
    assert_eq!(
        reply,
        expected,
        "{name}: another reply, {what}, sheet {:?}",
        input.sheet.get()
    );
    assert_eq!(
        black_box(&by_library),
        &by_rust,
        "{name}: other bytes left, {what}"
    );
    if reply.is_err() {
        assert_eq!(
            &by_library, input,
            "{name}: refused, yet bytes changed, {what}"
        );
    }
    reply
}

/// The replies to all calls, in their order, in which both versions agree.
fn replies(input: &Lent, what: &str) -> [Reply<u32>; CALLS.len()] {
    CALLS.each_ref().map(|call| agree(call, input, what))
}

fn all_agree(input: &Lent, what: &str) {
    let _ = replies(input, what);
}

#[test]
fn on_the_refusal_table() {
    for (name, sheet, _, _) in faulty_sheets() {
        all_agree(&Lent::sheet(&sheet), name);
    }
}

#[test]
fn on_the_cases_and_extreme_sheets() {
    let sheets = [
        ("stove", stove()),
        ("filter", filter()),
        ("one mode", Builder::new().machines(1, 1).end()),
        ("five dials", dials(5)),
        ("six dials", dials(6)),
        ("31 dials", dials(31)),
        ("four of 64", blocks(4, 0, true)),
        ("four of 64 and one", blocks(4, 1, true)),
        ("five of 64", blocks(5, 0, false)),
        ("2^96 modes", circle(32)),
        ("fullest", fullest()),
        ("fullest, replaced", fullest_replaced()),
        ("fullest, withdrawn", fullest_withdrawn()),
        ("longest plan", longest_plan()),
        ("snake", snake()),
        ("bound 65535", product(&[2; 16], 0)),
        ("bound 2^32", product(&[4; 16], 1)),
    ];
    for (name, sheet) in &sheets {
        let mut input = Lent::sheet(sheet);
        all_agree(&input, name);
        input.drawn = Slot::new(&[0x69; MAX_TEXT]);
        input.cleaned = Slot::new(&[0x69; MAX_CLEAN]);
        all_agree(&input, name);
    }
}

#[test]
fn on_every_cut_of_the_longest_file() {
    let sheet = fullest_replaced();
    for length in 0..sheet.len() {
        all_agree(&Lent::sheet(&sheet[..length]), "cut");
    }
}

/// The stove's sheet, and one in which the fan goes on and off with no board and the
/// burner is not reset.
#[test]
fn on_every_byte_of_the_stove_changed_to_every_value() {
    let amended = stove_records()
        .replace([1, 0, 1, 1], &[[2, 1]])
        .withdraw([2, 2, 3])
        .replace([1, 1, 0, 2], &[[2, 1]])
        .end();
    for sheet in [stove(), amended] {
        let mut input = Lent::sheet(&sheet);
        input.cleaned = Slot::new(&[0x69; 90]);
        for at in 0..sheet.len() {
            for value in 0..=255 {
                let mut changed = sheet.clone();
                changed[at] = value;
                input.sheet = Slot::new(&changed);
                all_agree(&input, "one byte changed");
            }
        }
    }
}

/// How often each reply came up, over all calls.
#[derive(Default)]
struct Tally {
    refused: [u64; 22],
    unfit: u64,
    written: u64,
    done: u64,
    commands: u64,
    unchanged: u64,
    /// Applied commands by the number of their move.
    moves: BTreeMap<u8, u64>,
    /// Replies that tags change, by what they change.
    tags: [u64; 4],
    joined: [u64; 6],
    /// Texts drawn and not, texts read and not.
    drawn: [u64; 2],
    read: [u64; 3],
    /// Sheets cleaned, amended ones and others, and not.
    cleaned: [u64; 3],
}

impl Tally {
    fn add(&mut self, input: &Lent, replies: [Reply<u32>; CALLS.len()]) {
        let [.., plan, next, apply, join, graph, graph_read, clean] = replies;
        for refusal in replies.into_iter().filter_map(Reply::err) {
            self.refused[refusal.number as usize] += 1;
        }
        self.unfit += (next == refuse(15, 0) && in_shape(input)) as u64;
        self.written += plan.is_ok() as u64;
        self.done += (next == Ok(0)) as u64;
        self.commands += next.is_ok_and(|value| value > 0) as u64;
        match apply.map(Effect::of_value) {
            Ok(Effect::Nothing) => self.unchanged += 1,
            Ok(Effect::Move(number)) => *self.moves.entry(number).or_default() += 1,
            Err(_) => {}
        }
        for (name, reply) in [("next", next), ("apply", apply)] {
            let call = Call::named(name).expect("a call");
            let lifted = (call.rust)(&mut input.lifted());
            if let Some(change) = tags_change(reply, lifted) {
                self.tags[change] += 1;
            }
        }
        if let Some(reply) = joined(join) {
            self.joined[reply] += 1;
        }
        if let Some(reply) = pictured(graph) {
            self.drawn[reply] += 1;
        }
        if let Some(reply) = pictured(graph_read) {
            self.read[reply] += 1;
        }
        if let Some(reply) = cleaned(input, clean) {
            self.cleaned[reply] += 1;
        }
    }

    /// How often the least frequent came up; of the moves, the first eight count.
    fn least(&self) -> Option<u64> {
        let others = [self.unfit, self.written, self.done, self.commands];
        let times = |number| self.moves.get(&number).copied().unwrap_or(0);
        let applied: Vec<u64> = (0..8).map(times).chain([self.unchanged]).collect();
        let outputs = [&self.drawn[..], &self.read, &self.cleaned].concat();
        let all = [
            &self.refused[1..],
            &others,
            &applied,
            &self.tags,
            &self.joined,
            &outputs,
        ];
        all.concat().into_iter().min()
    }
}

impl Display for Tally {
    fn fmt(&self, out: &mut Formatter) -> std::fmt::Result {
        write!(
            out,
            "refused 1 to 21: {:?}, 15 for an entry: {}, plans written: {}, done: {}, \
             commands: {}, changed: {} by {} moves, unchanged: {}, by tags (13, 16, 16 \
             for another refusal, unchanged): {:?}, joining (empty, other, 14 for a length, \
             14 at a machine, 19, 12): {:?}, drawing (a text, 12): {:?}, reading (a picture, \
             12, 20): {:?}, cleaning (amended, other, 12): {:?}",
            &self.refused[1..],
            self.unfit,
            self.written,
            self.done,
            self.commands,
            self.moves.values().sum::<u64>(),
            self.moves.len(),
            self.unchanged,
            self.tags,
            self.joined,
            self.drawn,
            self.read,
            self.cleaned
        )
    }
}

/// Whether the lent plan has the shape that the sheet asks for.
fn in_shape(input: &Lent) -> bool {
    Sheet::read(input.sheet.get())
        .and_then(|sheet| Plan::read(&sheet, input.plan.get()).map(|_| ()))
        .is_ok()
}

/// Which reply of joining one is: an empty goal, another, 14 for a length, 14 at a
/// machine, 19, 12; none for a refused sheet.
fn joined(reply: Reply<u32>) -> Option<usize> {
    match reply.map_err(|refusal| (refusal.number, refusal.place)) {
        Ok(0) => Some(0),
        Ok(_) => Some(1),
        Err((14, 255)) => Some(2),
        Err((14, _)) => Some(3),
        Err((19, _)) => Some(4),
        Err((12, _)) => Some(5),
        Err(_) => None,
    }
}

/// Which reply of drawing or of reading a picture one is: accepted, 12, 20; none
/// for a refused sheet.
fn pictured(reply: Reply<u32>) -> Option<usize> {
    match reply.map_err(|refusal| refusal.number) {
        Ok(_) => Some(0),
        Err(12) => Some(1),
        Err(20) => Some(2),
        Err(_) => None,
    }
}

/// Which reply of cleaning one is: of an amended sheet, of another, 12; none for a
/// refused sheet.
fn cleaned(input: &Lent, reply: Reply<u32>) -> Option<usize> {
    match reply.map_err(|refusal| refusal.number) {
        Ok(length) => Some((length as usize == input.sheet.get().len()) as usize),
        Err(12) => Some(2),
        Err(_) => None,
    }
}

#[test]
fn on_random_rounds() {
    let (rounds, first) = (setting("DUTY_ROUNDS", 20_000), setting("DUTY_SEED", 1));
    let mut tally = Tally::default();
    for seed in first..first + rounds {
        let input = lent(&mut Random::new(seed));
        let what = format!("DUTY_ROUNDS=1 DUTY_SEED={seed}");
        tally.add(&input, replies(&input, &what));
    }
    say(format!("{rounds} random rounds agree: {tally}"));
    assert!(
        rounds < 20_000 || tally.least() >= Some(10),
        "a reply hardly tried"
    );
}

/// Makes random rounds of a kind.
fn agree_on_rounds(lent: fn(&mut Random) -> Lent, kind: &str) {
    let (rounds, first) = (setting("DUTY_ROUNDS", 20_000), setting("DUTY_SEED", 1));
    for seed in first..first + rounds {
        let input = lent(&mut Random::new(seed));
        all_agree(&input, &format!("DUTY_ROUNDS=1 DUTY_SEED={seed}"));
    }
    say(format!("{rounds} random rounds with {kind} agree"));
}

/// On sheets in which some machines have no moves, so that moves of others are
/// often not usable.
#[test]
fn on_random_rounds_with_idle_machines() {
    agree_on_rounds(idle_lent, "idle machines");
}

#[test]
fn on_random_rounds_with_amendments() {
    agree_on_rounds(amended_lent, "amendments");
}

/// Every slice of up to so many bytes from 0 to 3.
fn short_slices(longest: usize) -> impl Iterator<Item = Vec<u8>> {
    let of_length = |length: usize| {
        let slice = move |number: usize| {
            let byte = |at| (number >> (2 * at) & 3) as u8;
            (0..length).map(byte).collect()
        };
        (0..1usize << (2 * length)).map(slice)
    };
    (0..=longest).flat_map(of_length)
}

/// Of the slices lent as the stove's state, those fit that have each machine in
/// one of its modes, twelve ways, with or without a tag, eight ways.
#[test]
fn on_every_short_state() {
    let [next, apply] = ["next", "apply"].map(|name| Call::named(name).expect("a call"));
    let mut input = Lent::sheet(&stove());
    input.plan = Slot::new(&own_plan::<Rust>(&stove()).expect("a plan"));
    input.goal = Slot::new(&[3, 2]);
    let mut fitting = 0;
    for state in short_slices(7) {
        input.state = Slot::new(&state);
        let fits = agree(next, &input, "a short state")
            .err()
            .is_none_or(|refusal| refusal.number != 13);
        for (machine, command) in [(0, 1), (0, 2), (1, 1), (1, 2), (2, 1), (2, 2), (2, 3)] {
            input.command = Command { machine, command };
            let reply = agree(apply, &input, "a short state");
            assert_eq!(reply.is_ok(), fits, "{state:?}");
        }
        fitting += fits as u32;
    }
    assert_eq!(fitting, 12 * 8);
}

/// Machines of two modes and of one, and every slice of up to nine bytes from 0
/// to 3; what is joined may have one byte.
#[test]
fn on_every_short_slice_of_wishes() {
    let sheet = Builder::new().machines(1, 2).machines(1, 1).end();
    let join = Call::named("join").expect("a call");
    let mut input = Lent::sheet(&sheet);
    input.out = Slot::new(&[9]);
    let mut seen = [0; 6];
    for bytes in short_slices(9) {
        input.wishes = Slot::new(&bytes);
        let reply = joined(agree(join, &input, "a short slice"));
        seen[reply.expect("a sheet that passes")] += 1;
    }
    assert!(seen.iter().all(|&times| times > 0), "{seen:?}");
}

/// The stove's text with any bytes taken out between two places, or put in from
/// there once more.
#[test]
fn on_every_passage_of_a_text_left_out_or_doubled() {
    let text = own_text::<Rust>(&stove()).expect("a text");
    let read = Call::named("graph_read").expect("a call");
    let mut input = Lent::sheet(&[]);
    input.shown = Slot::new(&[9; 8]);
    let mut seen = [0; 3];
    for end in 0..=text.len() {
        for start in 0..=end {
            let less = [&text[..start], &text[end..]].concat();
            let more = [&text[..end], &text[start..]].concat();
            for bytes in [less, more] {
                input.text = Slot::new(&bytes);
                let reply = pictured(agree(read, &input, "a passage"));
                seen[reply.expect("no sheet is judged")] += 1;
            }
        }
    }
    assert!(seen[0] > 0 && seen[2] > 0, "{seen:?}");
}

#[test]
fn random_sheets_come_in_every_kind() {
    let random = &mut Random::new(7);
    let lengths: Vec<usize> = (0..2000).map(|_| sheet_bytes(random).len()).collect();
    assert!(lengths.iter().any(|&length| length < 10));
    assert!(lengths.iter().any(|&length| length > 2000));
}
