//! The benchmark: the proved library and the Rust version on the same inputs.
//!
//! bench                               a table of median times
//! bench list                          the calls and their inputs
//! bench repeat SIDE CALL INPUT TIMES  one call so many times, for callgrind

use duty_compare::calls::{Call, Lent, Side, CALLS};
use duty_compare::inputs::{inputs, Input};
use duty_compare::Reply;
use std::hint::black_box;
use std::time::{Duration, Instant};

/// Samples taken of each side, and how long one lasts at least.
const SAMPLES: usize = 301;
const SAMPLE: Duration = Duration::from_micros(100);

/// Calls so many times, from the same state each time.
fn repeat(side: Side, lent: &mut Lent, times: u32) {
    let state = lent.state.get().to_vec();
    for _ in 0..times {
        lent.state.get_mut().copy_from_slice(&state);
        let _ = black_box(side(black_box(lent)));
    }
}

fn timed(side: Side, lent: &mut Lent, times: u32) -> Duration {
    let start = Instant::now();
    repeat(side, lent, times);
    start.elapsed()
}

/// How many calls last as long as one sample.
fn sample_times(side: Side, lent: &mut Lent) -> u32 {
    let mut times = 1;
    while timed(side, lent, times) < SAMPLE {
        times *= 2;
    }
    times
}

/// Median nanoseconds a call for each side, their samples taken in turn.
fn medians(sides: &[Side], lent: &Lent) -> Vec<f64> {
    let mut lent = lent.clone();
    let times: Vec<u32> = sides
        .iter()
        .map(|&side| sample_times(side, &mut lent))
        .collect();
    let mut samples = vec![Vec::new(); sides.len()];
    for _ in 0..SAMPLES {
        for (index, &side) in sides.iter().enumerate() {
            let lasted = timed(side, &mut lent, times[index]);
            samples[index].push(lasted.as_nanos() as f64 / times[index] as f64);
        }
    }
    samples.into_iter().map(median).collect()
}

fn median(mut samples: Vec<f64>) -> f64 {
    samples.sort_by(f64::total_cmp);
    samples[samples.len() / 2]
}

fn said(reply: Reply<u32>) -> String {
    reply.map_or_else(
        |refusal| format!("refused {}", refusal.number),
        |_| "accepted".to_string(),
    )
}

fn row(call: &Call, input: &Input) -> String {
    let reply = said((call.rust)(&mut input.lent.clone()));
    let both = medians(&[call.library, call.rust], &input.lent);
    let ratio = both[0] / both[1];
    format!(
        "| {} | {} | {reply} | {:.0} | {:.0} | {ratio:.2} |",
        call.name, input.name, both[0], both[1]
    )
}

/// Does something with each call and each input that serves it.
fn for_each(act: impl Fn(&Call, &Input)) {
    for call in &CALLS {
        for input in inputs().iter().filter(|input| input.serves(call)) {
            act(call, input);
        }
    }
}

fn table() {
    println!("| call | input | reply | library ns | Rust ns | library / Rust |");
    println!("|---|---|---|---:|---:|---:|");
    for_each(|call, input| println!("{}", row(call, input)));
}

fn list() {
    for_each(|call, input| println!("{} {}", call.name, input.name));
}

fn repeat_one(side: &str, call: &str, input: &str, times: &str) {
    let call = Call::named(call).expect("a call");
    let inputs = inputs();
    let input = inputs
        .iter()
        .find(|known| known.name == input)
        .expect("an input");
    let side = match side {
        "library" => call.library,
        _ => call.rust,
    };
    repeat(
        side,
        &mut input.lent.clone(),
        times.parse().expect("a number"),
    );
}

fn main() {
    let arguments: Vec<String> = std::env::args().skip(1).collect();
    let words: Vec<&str> = arguments.iter().map(String::as_str).collect();
    match words[..] {
        [] => table(),
        ["list"] => list(),
        ["repeat", side, call, input, times] => repeat_one(side, call, input, times),
        _ => panic!("usage: bench [list | repeat SIDE CALL INPUT TIMES]"),
    }
}
