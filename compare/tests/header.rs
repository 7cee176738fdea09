//! The C header, the declarations of this package and the exports of the proved
//! source must name the same functions with the same parameters in the same
//! order; the header's largest sizes must be the largest, and its sign for no
//! move must be that of applying.

use duty_compare::both::{
    check_sheet, clean, graph, graph_read, join, next_command, own_plan, plan_length,
};
use duty_compare::clean::MAX_CLEAN;
use duty_compare::command::{Effect, Next};
use duty_compare::header::{constant, HEADER};
use duty_compare::join::in_one_slice;
use duty_compare::pictures::Drawing;
use duty_compare::plan::MIN_SCRATCH;
use duty_compare::refuse;
use duty_compare::samples::{fullest, fullest_replaced, longest_plan, Builder};
use duty_compare::sheet::MAX_MOVES;
use std::collections::BTreeMap;

const SOURCE: &str = include_str!("../../crates/panel/src/lib.rt");
const DECLARED: &str = include_str!("../src/library.rs");

/// The words of the source that the header has others for.
const WORDS: [(&str, &str); 4] = [
    ("file", "sheet"),
    ("buffer", "plan"),
    ("goal", "wish"),
    ("byte", "command"),
];

/// What a function is lent and answers, in Rust's words, by its name.
type Functions = BTreeMap<String, String>;

/// Adds a function; no name may come twice.
fn add(functions: &mut Functions, name: &str, parameters: &[String], result: &str) {
    let signature = format!("({}) -> {result}", parameters.join(", "));
    let before = functions.insert(name.to_string(), signature);
    assert_eq!(before, None, "{name} comes twice");
}

/// The text on one line, with one space for any run of them.
fn flat(text: &str) -> String {
    text.split_whitespace().collect::<Vec<_>>().join(" ")
}

fn split<'a>(text: &'a str, at: &str) -> (&'a str, &'a str) {
    text.split_once(at)
        .unwrap_or_else(|| panic!("no `{at}` in: {text}"))
}

/// A list's parts, where a comma may stand behind the last.
fn parts(list: &str) -> impl Iterator<Item = &str> {
    list.split(',')
        .map(str::trim)
        .filter(|part| !part.is_empty())
}

/// The parameters that a slice or a number of the source is passed as.
fn passed(parameter: &str) -> Vec<String> {
    let (word, kind) = split(parameter, ": ");
    let other = WORDS.iter().find(|(source, _)| *source == word);
    let name = other.map_or(word, |(_, header)| header);
    let length = match name {
        "sheet" | "text" => "n".to_string(),
        _ => format!("{name}_n"),
    };
    let slice = |pointer| vec![format!("{name}: {pointer} u8"), format!("{length}: usize")];
    match kind {
        "&[u8]" => slice("*const"),
        "&mut [u8]" => slice("*mut"),
        "u8" => vec![format!("{name}: u8")],
        _ => panic!("no C type is known for: {parameter}"),
    }
}

/// The functions that the proved source exports.
fn exported(source: &str) -> Functions {
    let code: Vec<_> = source
        .lines()
        .filter(|line| !line.trim_start().starts_with("//"))
        .collect();
    let code = flat(&code.join("\n"));
    let mut functions = Functions::new();
    for export in code.split("pub extern \"C\" fn ").skip(1) {
        let (name, rest) = split(export, "(");
        let (list, rest) = split(rest, ") -> ");
        let result = rest.split(' ').next().unwrap_or_default();
        let parameters: Vec<_> = parts(list).flat_map(passed).collect();
        add(&mut functions, name, &parameters, result);
    }
    functions
}

/// A type and a name of C in Rust's words.
fn of_c(declaration: &str) -> (String, &'static str) {
    let types = [
        ("const uint8_t *", "*const u8"),
        ("uint8_t *", "*mut u8"),
        ("uint8_t ", "u8"),
        ("size_t ", "usize"),
        ("uint64_t ", "u64"),
    ];
    for (c, rust) in types {
        if let Some(name) = declaration.strip_prefix(c) {
            return (name.to_string(), rust);
        }
    }
    panic!("no type is known for: {declaration}")
}

fn without_comments(header: &str) -> String {
    let mut pieces = header.split("/*");
    let first = pieces.next().unwrap_or_default().to_string();
    pieces.fold(first, |text, piece| text + split(piece, "*/").1)
}

/// The functions that the header declares. Those with a body stand on one line
/// each and are the header's own.
fn declared_in_c(header: &str) -> Functions {
    let text = without_comments(header);
    let others = ["#", "static inline ", "extern \"C\" {", "}"];
    let lines = text
        .lines()
        .filter(|line| !others.iter().any(|other| line.starts_with(other)));
    let text = flat(&lines.collect::<Vec<_>>().join("\n"));
    let mut functions = Functions::new();
    for declaration in text.split(';').map(str::trim).filter(|d| !d.is_empty()) {
        let (start, rest) = split(declaration, "(");
        let (name, result) = of_c(start);
        let list = rest.strip_suffix(')').expect("a closing bracket");
        let parameters = parts(list).map(of_c);
        let parameters: Vec<_> = parameters.map(|(n, kind)| format!("{n}: {kind}")).collect();
        add(&mut functions, &name, &parameters, result);
    }
    functions
}

/// The functions that the Rust side declares.
fn declared_in_rust(source: &str) -> Functions {
    let (_, rest) = split(source, "extern \"C\" {");
    let (block, _) = split(rest, "\n}");
    let block = flat(block);
    let mut functions = Functions::new();
    for declaration in block.split("fn ").skip(1) {
        let (name, rest) = split(declaration, "(");
        let (list, rest) = split(rest, ") -> ");
        let parameters: Vec<_> = parts(list).map(str::to_string).collect();
        add(&mut functions, name, &parameters, split(rest, ";").0);
    }
    functions
}

#[test]
fn the_header_declares_what_the_source_exports() {
    assert_eq!(exported(SOURCE).len(), 9);
    assert_eq!(declared_in_c(HEADER), exported(SOURCE));
}

#[test]
fn this_package_declares_what_the_source_exports() {
    assert_eq!(declared_in_rust(DECLARED), exported(SOURCE));
}

/// A text with one passage changed.
fn edited(text: &str, old: &str, new: &str) -> String {
    let (before, after) = split(text, old);
    [before, new, after].concat()
}

#[test]
fn a_difference_in_the_header_is_seen() {
    let edits = [
        // Parameters swapped, left out, of another kind.
        ("machine, uint8_t command", "command, uint8_t machine"),
        (
            "*state, size_t state_n, const uint8_t *wish, size_t wish_n",
            "*wish, size_t wish_n, const uint8_t *state, size_t state_n",
        ),
        (", size_t scratch_n", ""),
        ("uint8_t *scratch", "const uint8_t *scratch"),
        ("uint8_t *out", "const uint8_t *out"),
        (
            "const uint8_t *wishes, size_t wishes_n",
            "size_t wishes_n, const uint8_t *wishes",
        ),
        ("const uint8_t *text", "uint8_t *text"),
        // A function left out, with another result, one more.
        ("uint64_t duty_sheet(const uint8_t *sheet, size_t n);", ""),
        ("uint64_t duty_next", "uint8_t duty_next"),
        (
            "uint64_t duty_apply",
            "uint64_t duty_more(uint8_t machine); uint64_t duty_apply",
        ),
    ];
    for (old, new) in edits {
        let header = edited(HEADER, old, new);
        assert_ne!(declared_in_c(&header), exported(SOURCE), "{old}");
    }
}

#[test]
fn a_difference_in_the_source_or_in_this_package_is_seen() {
    let edits = [
        ("machine: u8, byte: u8", "byte: u8, machine: u8"),
        ("state: &mut [u8]", "state: &[u8]"),
        ("fn duty_sheet(", "fn duty_sheets("),
        ("pub extern \"C\" fn duty_next", "pub fn duty_next"),
        (
            "wishes: &[u8], out: &mut [u8]",
            "out: &mut [u8], wishes: &[u8]",
        ),
        ("text: &[u8], out: &mut [u8]", "out: &mut [u8], text: &[u8]"),
    ];
    for (old, new) in edits {
        let source = edited(SOURCE, old, new);
        assert_ne!(exported(&source), exported(SOURCE), "{old}");
    }
    let edits = [
        ("plan: *mut u8", "plan: *const u8"),
        ("out_n: usize", "out_n: u8"),
        ("fn duty_sheet(sheet: *const u8, n: usize) -> u64;", ""),
    ];
    for (old, new) in edits {
        let declared = edited(DECLARED, old, new);
        assert_ne!(declared_in_rust(&declared), exported(SOURCE), "{old}");
    }
}

#[test]
fn the_largest_sizes_are_the_largest() {
    let sheet = fullest_replaced();
    assert_eq!(sheet.len(), constant("DUTY_SHEET_MAX"));
    assert!(check_sheet(&sheet).is_ok());
    assert_eq!(MAX_CLEAN, constant("DUTY_CLEAN_MAX"));
    let mut out = vec![0; MAX_CLEAN];
    let longest = out.len();
    assert_eq!(clean(&sheet, &mut out), Ok(longest));
    assert_eq!(clean(&fullest(), &mut out), Ok(longest));
    assert_eq!(clean(&sheet, &mut out[1..]), refuse(12, 0));
    let longest = constant("DUTY_PLAN_MAX");
    assert_eq!(plan_length(&longest_plan()), Ok(longest));
    assert_eq!(MIN_SCRATCH, constant("DUTY_SCRATCH"));
}

#[test]
fn a_command_that_changes_nothing_has_the_sign_for_no_move() {
    let sign = constant("DUTY_NO_MOVE");
    assert_eq!(Effect::Nothing.value() as usize, sign);
    assert!(sign >= MAX_MOVES, "{sign} may be a move");
}

/// 32 machines of eight modes in pairs, each pair a group of 64.
#[test]
fn the_longest_plan_in_shape_is_accepted() {
    let sheet = Builder::new().machines(32, 8).end();
    let groups: Vec<u8> = (0..32).map(|machine| machine / 2).collect();
    let start = Builder::new().record(16, &groups);
    let tables = (0..16).fold(start, |plan, _| plan.record(17, &[0; 2 * 64 * 64]));
    let plan = tables.record(18, &[0; 4]).end();
    assert_eq!(plan.len(), constant("DUTY_FOREIGN_PLAN_MAX"));
    let ask = |plan: &[u8]| next_command(&sheet, plan, &[0; 64], &[]);
    assert_eq!(ask(&plan), Ok(Next::Done));
    assert_eq!(ask(&[&plan[..], &[0]].concat()), refuse(15, 0));
}

/// 32 machines, of which no two need each other.
#[test]
fn the_longest_state_is_accepted() {
    let sheet = Builder::new().machines(32, 1).end();
    let plan = own_plan(&sheet).expect("a plan");
    let longest = vec![0; constant("DUTY_STATE_MAX")];
    let ask = |state: &[u8]| next_command(&sheet, &plan, state, &[]);
    assert_eq!(ask(&longest), Ok(Next::Done));
    let longer = [&longest[..], &[0, 0]].concat();
    assert_eq!(ask(&longer), refuse(13, 255));
}

/// 32 groups of one machine, each named by all behind it.
#[test]
fn the_longest_text_is_drawn_and_read() {
    let sheet = Drawing::all_edges(32).sheet();
    let mut text = vec![0; constant("DUTY_GRAPH_MAX")];
    let length = text.len();
    assert_eq!(graph(&sheet, &mut text), Ok(length));
    assert_eq!(graph(&sheet, &mut text[1..]), refuse(12, 0));
    let mut out = vec![0; constant("DUTY_GRAPH_READ_MAX")];
    let most = out.len();
    assert_eq!(graph_read(&text, &mut out), Ok(most));
}

/// 32 machines of one mode, each named by the most goals that are joined.
#[test]
fn the_most_and_the_longest_goals_are_joined() {
    let sheet = Builder::new().machines(32, 1).end();
    let longest = vec![1; constant("DUTY_WISH_MAX")];
    let most = vec![&longest; constant("DUTY_WISHES_MAX")];
    let mut out = longest.clone();
    assert_eq!(
        join(&sheet, &in_one_slice(&most), &mut out),
        Ok(longest.len())
    );
    let longer = [&longest[..], &[1]].concat();
    let more = [&most[..], &[&longest]].concat();
    let refused = refuse(14, 255);
    assert_eq!(join(&sheet, &in_one_slice(&[longer]), &mut out), refused);
    assert_eq!(join(&sheet, &in_one_slice(&more), &mut out), refused);
}
