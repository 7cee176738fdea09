//! The picture of who needs whom, in both versions: its text, and which texts
//! are read.

use duty_compare::both::{graph, graph_read, own_text, plan_length, shown};
use duty_compare::graph::{MAX_READ, MAX_TEXT};
use duty_compare::pictures::{any_drawing, Drawing};
use duty_compare::random::{sheet, Random};
use duty_compare::samples::{blocks, circle, fullest, stove, Builder};
use duty_compare::sheet::Sheet;
use duty_compare::{refuse, Reply};
use std::collections::BTreeSet;

/// The stove's text.
const STOVE: &str = r#"digraph groups {
  g0 [label="0"];
  g1 [label="1 2"];
  g0 -> g1;
}
"#;

/// Reading the text gives these bytes.
#[track_caller]
fn says(text: &str, bytes: &[u8]) {
    assert_eq!(shown(text.as_bytes()), Ok(bytes.to_vec()), "{text}");
}

/// The text is that of no picture: 20.
#[track_caller]
fn is_none(text: &str) {
    assert_eq!(shown(text.as_bytes()), refuse(20, 0), "{text}");
}

/// A text with one passage changed, which must be there.
fn edited(text: &str, old: &str, new: &str) -> String {
    assert!(text.contains(old), "no `{old}` in: {text}");
    text.replacen(old, new, 1)
}

fn text_of(sheet: &[u8]) -> String {
    let text = own_text(sheet).expect("a text");
    String::from_utf8(text).expect("letters")
}

#[test]
fn the_stove_is_drawn_and_read_back() {
    assert_eq!(text_of(&stove()), STOVE);
    says(STOVE, &[3, 0, 1, 1, 0, 1]);
}

#[test]
fn one_machine_is_one_node() {
    let text = "digraph groups {\n  g0 [label=\"0\"];\n}\n";
    assert_eq!(text_of(&Builder::new().machines(1, 1).end()), text);
    says(text, &[1, 0]);
}

#[test]
fn numbers_may_have_two_digits() {
    // Machine 1 needs 11, and 10 needs 1: so 11 comes before 1 and 1 before 10.
    let sheet = Builder::new()
        .machines(12, 2)
        .step([1, 0, 1, 1], &[[11, 1]])
        .step([10, 0, 1, 1], &[[1, 1]])
        .end();
    let labels = [0, 2, 3, 4, 5, 6, 7, 8, 9, 11, 1, 10];
    let nodes: String = labels
        .iter()
        .enumerate()
        .map(|(group, machine)| format!("  g{group} [label=\"{machine}\"];\n"))
        .collect();
    let text = format!("digraph groups {{\n{nodes}  g9 -> g10;\n  g10 -> g11;\n}}\n");
    assert_eq!(text_of(&sheet), text);
    says(
        &text,
        &[12, 0, 10, 1, 2, 3, 4, 5, 6, 7, 8, 11, 9, 9, 10, 10, 11],
    );
}

#[test]
fn all_machines_of_a_group_are_in_its_label() {
    let numbers: Vec<_> = (0..32).map(|machine: u8| machine.to_string()).collect();
    let label = numbers.join(" ");
    let text = format!("digraph groups {{\n  g0 [label=\"{label}\"];\n}}\n");
    assert_eq!(text_of(&circle(32)), text);
    says(&text, &[&[32][..], &[0; 32]].concat());
}

/// 9 and 10 are for planning alone.
#[test]
fn a_sheet_that_cannot_be_planned_is_drawn() {
    for (sheet, number) in [(fullest(), 9), (circle(3), 9), (blocks(5, 0, false), 10)] {
        let refused = plan_length(&sheet).map_err(|refusal| refusal.number);
        assert_eq!(refused, Err(number));
        let drawing = Drawing::of_sheet(&Sheet::read(&sheet).expect("a sheet"));
        says(&text_of(&sheet), &drawing.bytes());
    }
}

#[test]
fn the_longest_text_has_7273_bytes() {
    let drawing = Drawing::all_edges(32);
    let text = text_of(&drawing.sheet());
    assert_eq!(text, drawing.text());
    assert_eq!((text.len(), MAX_TEXT), (7273, 7273));
    let bytes = drawing.bytes();
    says(&text, &bytes);
    assert_eq!((bytes.len(), MAX_READ), (1025, 1025));
}

/// Buffers of other bytes, shorter than an output, as long and longer: 12 leaves
/// them, and behind the output nothing changes.
fn fits(output: &[u8], call: impl Fn(&mut [u8]) -> Reply<usize>) {
    let length = output.len();
    for room in [0, 1, length / 2, length - 1] {
        let mut out = vec![7; room];
        assert_eq!(call(&mut out), refuse(12, 0), "{room}");
        assert_eq!(out, vec![7; room], "{room}");
    }
    for room in [length, length + 1, length + 300] {
        let mut out = vec![7; room];
        assert_eq!(call(&mut out), Ok(length), "{room}");
        assert_eq!(out[..length], *output, "{room}");
        assert!(out[length..].iter().all(|&byte| byte == 7), "{room}");
    }
}

#[test]
fn refusal_12_for_a_buffer_shorter_than_the_output() {
    fits(STOVE.as_bytes(), |out| graph(&stove(), out));
    fits(&[3, 0, 1, 1, 0, 1], |out| graph_read(STOVE.as_bytes(), out));
}

#[test]
fn refusal_20_comes_before_12() {
    let none = &STOVE.as_bytes()[1..];
    for room in [0, 1, 6, MAX_READ] {
        let mut out = vec![7; room];
        assert_eq!(graph_read(none, &mut out), refuse(20, 0), "{room}");
        assert_eq!(out, vec![7; room], "{room}");
    }
}

#[test]
fn a_text_that_is_cut_or_goes_on_is_none() {
    for length in 0..STOVE.len() {
        is_none(&STOVE[..length]);
        is_none(&STOVE[length + 1..]);
    }
    for more in ["\n", " ", "}\n", "\0", "  g0 -> g1;\n", STOVE] {
        is_none(&[STOVE, more].concat());
    }
}

#[test]
fn every_byte_of_a_text_counts() {
    for at in 0..STOVE.len() {
        for byte in 0..=255 {
            let mut text = STOVE.as_bytes().to_vec();
            text[at] = byte;
            let accepted = shown(&text).is_ok();
            assert_eq!(accepted, byte == STOVE.as_bytes()[at], "{at} {byte}");
        }
    }
}

#[test]
fn a_byte_more_or_less_is_none() {
    for at in 0..STOVE.len() {
        let (before, after) = STOVE.as_bytes().split_at(at);
        assert_eq!(
            shown(&[before, &after[1..]].concat()),
            refuse(20, 0),
            "{at}"
        );
        for byte in 0..=255 {
            let longer = [before, &[byte], after].concat();
            assert_eq!(shown(&longer), refuse(20, 0), "{at} {byte}");
        }
    }
}

#[test]
fn numbers_have_no_leading_zero() {
    for (old, new) in [
        ("g0 [", "g00 ["),
        ("g1 [", "g01 ["),
        ("\"0\"", "\"00\""),
        ("1 2", "01 2"),
        ("1 2", "1 02"),
        ("g0 ->", "g00 ->"),
        ("-> g1", "-> g01"),
    ] {
        is_none(&edited(STOVE, old, new));
    }
}

#[test]
fn numbers_that_would_wrap_are_none() {
    for number in ["32", "100", "256", "4294967296", "18446744073709551616"] {
        is_none(&edited(STOVE, "\"0\"", &format!("\"{number}\"")));
        is_none(&edited(STOVE, "1 2", &format!("1 2 {number}")));
        is_none(&edited(STOVE, "g0 ->", &format!("g{number} ->")));
        is_none(&edited(STOVE, "-> g1", &format!("-> g{number}")));
        is_none(&edited(STOVE, "g1 [", &format!("g{number} [")));
    }
    // One more than 2^8, 2^16, 2^32 and 2^64, in place of 1.
    for number in ["257", "65537", "4294967297", "18446744073709551617"] {
        is_none(&edited(STOVE, "1 2", &format!("{number} 2")));
        is_none(&edited(STOVE, "-> g1", &format!("-> g{number}")));
        is_none(&edited(STOVE, "g1 [", &format!("g{number} [")));
    }
}

/// Also with as many numbers more as let a count of 8 or 16 bits begin again.
#[test]
fn long_texts_are_none() {
    for times in [256, 65_536, 100_000] {
        is_none(&edited(STOVE, "1 2", &format!("1 2{}", " 2".repeat(times))));
        is_none(&edited(
            STOVE,
            "-> g1",
            &format!("-> g{}", "1".repeat(times)),
        ));
        let edge = "  g0 -> g1;\n";
        is_none(&edited(STOVE, edge, &edge.repeat(times + 1)));
        let node = "  g1 [label=\"1 2\"];\n";
        is_none(&edited(STOVE, node, &node.repeat(times + 1)));
        is_none(&[STOVE, &"\n".repeat(times)].concat());
        is_none(&"  g0 [label=\"0".repeat(times));
    }
}

#[test]
fn spaces_and_line_ends_are_fixed() {
    is_none(&STOVE.replace('\n', "\r\n"));
    is_none(&STOVE.replace("  g", "\tg"));
    is_none(&STOVE.replace("  g", "g"));
    for (old, new) in [
        ("groups {\n", "groups {\n\n"),
        ("1 2", "1  2"),
        ("1 2", "1,2"),
        ("1 2", " 1 2"),
        ("1 2", "1 2 "),
        ("g0 -> g1", "g0->g1"),
        ("}\n", "}"),
        ("}\n", "\n}\n"),
        ("digraph", "graph"),
        ("digraph groups", "digraph kitchen"),
    ] {
        is_none(&edited(STOVE, old, new));
    }
}

/// A picture of groups and edges as they are given.
fn drawn(groups: &[&[u8]], edges: &[[u8; 2]]) -> String {
    let groups = groups.iter().map(|members| members.to_vec()).collect();
    let edges = edges.to_vec();
    Drawing { groups, edges }.text()
}

#[test]
fn machines_rise_in_a_label_and_come_once_each() {
    is_none(&drawn(&[&[0], &[2, 1]], &[[0, 1]]));
    is_none(&drawn(&[&[0], &[1, 1]], &[[0, 1]]));
    is_none(&drawn(&[&[0], &[0, 1]], &[[0, 1]]));
    is_none(&drawn(&[&[0], &[1], &[1]], &[]));
    // One is left out.
    is_none(&drawn(&[&[0], &[2]], &[[0, 1]]));
    is_none(&drawn(&[&[1], &[2]], &[[0, 1]]));
    is_none(&drawn(&[&[1]], &[]));
}

#[test]
fn a_label_names_a_machine() {
    is_none(&drawn(&[&[]], &[]));
    is_none(&drawn(&[&[0], &[]], &[]));
    is_none(&drawn(&[&[], &[0]], &[]));
    is_none(&drawn(&[], &[]));
}

#[test]
fn thirty_two_machines_are_the_most() {
    let singles = |count: u8| Drawing {
        groups: (0..count).map(|machine| vec![machine]).collect(),
        edges: vec![],
    };
    assert!(shown(singles(32).text().as_bytes()).is_ok());
    is_none(&singles(33).text());
    let together = |count: u8| drawn(&[&(0..count).collect::<Vec<_>>()], &[]);
    assert!(shown(together(32).as_bytes()).is_ok());
    is_none(&together(33));
    let last = |edge| drawn(&[&[0], &[1]], &[edge]);
    assert!(shown(last([0, 1]).as_bytes()).is_ok());
    is_none(&last([0, 2]));
    is_none(&last([0, 33]));
}

#[test]
fn nodes_are_numbered_in_their_order() {
    is_none(&edited(STOVE, "g0 [", "g1 ["));
    is_none(&edited(STOVE, "g1 [", "g2 ["));
    let swapped = edited(&edited(STOVE, "g0 [", "gx ["), "g1 [", "g0 [");
    is_none(&edited(&swapped, "gx [", "g1 ["));
    // A node behind an edge.
    let late = "  g0 -> g1;\n  g2 [label=\"3\"];\n}";
    is_none(&edited(STOVE, "  g0 -> g1;\n}", late));
}

#[test]
fn edges_are_sorted_and_come_once_each() {
    let edges = |edges: &[[u8; 2]]| drawn(&[&[0], &[1], &[2], &[3]], edges);
    says(
        &edges(&[[0, 1], [0, 2], [1, 2], [2, 3]]),
        &[4, 0, 1, 2, 3, 0, 1, 0, 2, 1, 2, 2, 3],
    );
    is_none(&edges(&[[0, 1], [0, 1]]));
    is_none(&edges(&[[0, 2], [0, 1]]));
    is_none(&edges(&[[1, 2], [0, 3]]));
    is_none(&edges(&[[0, 1], [1, 2], [0, 1]]));
}

#[test]
fn edges_lead_to_higher_numbers() {
    is_none(&drawn(&[&[0], &[1, 2]], &[[1, 0]]));
    is_none(&drawn(&[&[0], &[1, 2]], &[[0, 1], [1, 0]]));
    is_none(&drawn(&[&[0], &[1, 2]], &[[1, 1]]));
    is_none(&drawn(&[&[0]], &[[0, 0]]));
    is_none(&drawn(&[&[0], &[1, 2]], &[[0, 2]]));
}

#[test]
fn next_comes_the_smallest_machine_that_is_ready() {
    let both = |first: &[u8], second: &[u8], edges: &[[u8; 2]]| drawn(&[first, second], edges);
    assert!(shown(both(&[1], &[0], &[[0, 1]]).as_bytes()).is_ok());
    is_none(&both(&[1], &[0], &[]));
    is_none(&both(&[1, 2], &[0], &[]));
    // 0 waits for 3 and may come right behind it, before 1 and 2.
    says(
        &drawn(&[&[1], &[2], &[3], &[0]], &[[2, 3]]),
        &[4, 3, 0, 1, 2, 2, 3],
    );
    is_none(&drawn(&[&[1], &[3], &[2], &[0]], &[[1, 3]]));
    is_none(&drawn(&[&[1], &[2], &[3], &[0]], &[[1, 3]]));
    is_none(&drawn(&[&[2], &[1], &[3], &[0]], &[[2, 3]]));
    // Machines that are not the smallest of their group do not count.
    says(&drawn(&[&[0, 3], &[1, 2]], &[]), &[4, 0, 1, 1, 0]);
    is_none(&drawn(&[&[1, 2], &[0, 3]], &[]));
}

#[test]
fn what_is_drawn_is_read_back() {
    for seed in 0..3_000 {
        let sheet = sheet(&mut Random::new(seed));
        let drawing = Drawing::of_sheet(&Sheet::read(&sheet).expect("a sheet"));
        let text = text_of(&sheet);
        assert_eq!(text, drawing.text(), "seed {seed}");
        says(&text, &drawing.bytes());
    }
}

/// Each number from 0 to a limit as so many digits to a base, the lowest first.
fn all_numbers(digits: usize, base: usize) -> impl Iterator<Item = Vec<usize>> {
    (0..base.pow(digits as u32)).map(move |mut number| {
        let digit = |_| {
            let digit = number % base;
            number /= base;
            digit
        };
        (0..digits).map(digit).collect()
    })
}

/// All pairs of numbers below a limit, in order.
fn pairs(limit: usize) -> Vec<[u8; 2]> {
    let numbers = 0..limit as u8;
    numbers
        .clone()
        .flat_map(|one| numbers.clone().map(move |other| [one, other]))
        .collect()
}

/// Some of a list, as a number's bits say.
fn chosen<T: Copy>(all: &[T], which: &[usize]) -> Vec<T> {
    let taken = all.iter().zip(which).filter(|(_, &taken)| taken == 1);
    taken.map(|(&one, _)| one).collect()
}

/// The texts of all sheets of so many machines, one for each way in which these
/// may need one another.
fn texts_of_all_needs(machines: usize) -> BTreeSet<String> {
    let mut needs = pairs(machines);
    needs.retain(|[one, other]| one != other);
    let sheet = |needs: Vec<[u8; 2]>| {
        let start = Builder::new().machines(machines, 2);
        let steps = needs.iter().zip(1..);
        steps
            .fold(start, |sheet, (&[machine, other], command)| {
                sheet.step([machine, 0, 1, command], &[[other, 1]])
            })
            .end()
    };
    all_numbers(needs.len(), 2)
        .map(|which| text_of(&sheet(chosen(&needs, &which))))
        .collect()
}

/// All pictures of so many machines, in any groups, also in such as have none,
/// with some of the edges that there may be between so many groups.
fn all_drawings(machines: usize, edges: fn(usize) -> Vec<[u8; 2]>) -> Vec<Drawing> {
    let mut drawings = Vec::new();
    for numbers in all_numbers(machines, machines) {
        let count = numbers.iter().max().map_or(0, |highest| highest + 1);
        let mut groups = vec![Vec::new(); count];
        for (machine, &group) in numbers.iter().enumerate() {
            groups[group].push(machine as u8);
        }
        let all = edges(count);
        drawings.extend(all_numbers(all.len(), 2).map(|which| Drawing {
            groups: groups.clone(),
            edges: chosen(&all, &which),
        }));
    }
    drawings
}

/// Of all pictures of so many machines those are read that a sheet has; how many
/// these are.
fn read_exactly(machines: usize, edges: fn(usize) -> Vec<[u8; 2]>) -> usize {
    let texts = texts_of_all_needs(machines);
    let mut read = 0;
    for drawing in all_drawings(machines, edges) {
        let text = drawing.text();
        if texts.contains(&text) {
            says(&text, &drawing.bytes());
            read += 1;
        } else {
            is_none(&text);
        }
    }
    assert_eq!(read, texts.len(), "texts that are among the pictures");
    read
}

#[test]
fn of_up_to_three_machines_exactly_the_pictures_of_sheets_are_read() {
    assert_eq!(
        [1, 2, 3].map(|machines| read_exactly(machines, pairs)),
        [1, 4, 35]
    );
}

#[test]
fn of_four_machines_exactly_the_pictures_of_sheets_are_read() {
    let rising = |count| {
        let mut edges = pairs(count);
        edges.retain(|[source, target]| source < target);
        edges
    };
    assert_eq!(read_exactly(4, rising), 715);
}

/// Random groups and edges are read exactly if the sheet made for them has them
/// in this order.
#[test]
fn random_pictures_are_read_exactly_if_their_sheet_has_them() {
    let (mut read, mut refused) = (0, 0);
    for seed in 0..20_000 {
        let drawing = any_drawing(&mut Random::new(seed));
        let text = drawing.text();
        if text_of(&drawing.sheet()) == text {
            says(&text, &drawing.bytes());
            read += 1;
        } else {
            is_none(&text);
            refused += 1;
        }
    }
    assert!(read > 2_000 && refused > 2_000, "{read} {refused}");
}
