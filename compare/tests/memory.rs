//! The memory that the proved library takes: no array of its source is above 512
//! bytes, and no call takes more stack than the header says, by measure.

use duty_compare::arrays::{arrays, constants, Array};
use duty_compare::calls::{Call, Lent, Side, CALLS};
use duty_compare::header::constant;
use duty_compare::inputs::{inputs, prepared};
use duty_compare::random::{self, Random};
use duty_compare::samples::{circle, longest_plan, product, snake};
use duty_compare::{say, Reply};
use std::fs;
use std::hint::black_box;
use std::path::{Path, PathBuf};
use std::ptr::from_ref;
use std::thread;

const CRATES: &str = include_str!("../../crates.txt");

/// The bytes that an array may have at most.
const MOST: usize = 512;

/// The crates of the library: panel and all that it is made of.
fn crates() -> Vec<&'static str> {
    let mut crates = vec!["panel"];
    let mut at = 0;
    while at < crates.len() {
        for name in named_by(crates[at]) {
            if !crates.contains(&name) {
                crates.push(name);
            }
        }
        at += 1;
    }
    crates
}

/// The crates that the line of a crate names.
fn named_by(name: &str) -> impl Iterator<Item = &'static str> {
    let mut lines = CRATES.lines().filter_map(|line| line.split_once(':'));
    let line = lines.find(|(first, _)| first.split(' ').next() == Some(name));
    let (_, named) = line.unwrap_or_else(|| panic!("no line for {name}"));
    named.split_whitespace()
}

/// The files of a folder, and of the folders in it, that have source.
fn files(folder: &Path) -> Vec<PathBuf> {
    let entries = fs::read_dir(folder);
    let entries = entries.unwrap_or_else(|error| panic!("{}: {error}", folder.display()));
    let mut found = Vec::new();
    for entry in entries {
        let path = entry.expect("an entry").path();
        if path.is_dir() {
            found.extend(files(&path));
        } else if path.extension().is_some_and(|kind| kind == "rt") {
            found.push(path);
        }
    }
    found
}

/// A file of the library's source.
struct Source {
    path: PathBuf,
    text: String,
}

/// The source of a crate.
fn sources(name: &str) -> Vec<Source> {
    let crates = Path::new(env!("CARGO_MANIFEST_DIR")).join("../crates");
    let files = files(&crates.join(name).join("src"));
    assert!(!files.is_empty(), "{name} has no source");
    let read = |path: PathBuf| Source {
        text: fs::read_to_string(&path).expect("a text"),
        path,
    };
    files.into_iter().map(read).collect()
}

#[test]
fn no_array_of_the_library_is_above_512_bytes() {
    let sources: Vec<_> = crates().into_iter().flat_map(sources).collect();
    let constants = sources.iter().flat_map(|file| constants(&file.text));
    let constants = constants.collect();
    let (mut read, mut refused) = (Vec::new(), Vec::new());
    for file in &sources {
        for Array { line, text, bytes } in arrays(&file.text, &constants) {
            let said = match bytes {
                Some(bytes) if bytes <= MOST => {
                    read.push(bytes);
                    continue;
                }
                Some(bytes) => format!("{bytes} bytes"),
                None => "not read".to_string(),
            };
            refused.push(format!("{}:{line}: {said}: {text}", file.path.display()));
        }
    }
    assert!(refused.is_empty(), "\n{}", refused.join("\n"));
    let largest = read.iter().max().expect("an array");
    say(format!(
        "{} arrays and strings of the library's source read, the largest of {largest} bytes",
        read.len()
    ));
}

/// The bytes of each array that is seen in a text.
fn seen(text: &str) -> Vec<Option<usize>> {
    let constants = constants(
        "pub const LENGTH: usize = 65;
        impl Sheet {
            pub const MOVES: usize = 2_50;
            pub const MORE: usize = Sheet::MOVES + 1;
        }
        impl Group { const MOVES: usize = 8usize; }
        const TWICE: usize = 1;
        const TWICE: usize = 2;",
    );
    arrays(text, &constants)
        .iter()
        .map(|array| array.bytes)
        .collect()
}

#[test]
fn an_array_that_can_be_read_is_seen() {
    let texts: [(&str, &[usize]); 20] = [
        ("let a = [0u8; 513];", &[513]),
        ("fn f(a: &[u64; 65]) -> [u32; 33]", &[520, 132]),
        ("f([0u16; 257])", &[514]),
        ("[bool; 3] [true; 4] [0usize; 5]", &[3, 4, 40]),
        ("[255u8; 1_000]", &[1000]),
        ("[u64; LENGTH]", &[520]),
        ("[u16; Sheet::MOVES]", &[500]),
        ("[u16; sheet::index::Sheet::MOVES]", &[500]),
        ("[u16; crate::state::LENGTH]", &[130]),
        ("[u16; Group::MOVES]", &[16]),
        ("[u8; 2 * Sheet::MOVES + 13] [u8; 2 + 3 * 4]", &[513, 14]),
        ("[[u8; 64]; 9]", &[576, 64]),
        (
            "let a = [\n    [0u8; 64],\n    [0u8; 64],\n];",
            &[128, 64, 64],
        ),
        ("[\n    0u64; // 1\n    65\n]", &[520]),
        ("[0u8, 255u8, 2u16,]", &[4]),
        ("u16::from_le_bytes([low, high])", &[2]),
        ("// [0u64; 65]\n[u8; 1]", &[1]),
        (
            "ensures a { [u64; 65] {\n[0; n]} } [u8; 1] // requires\n[u8; 2]",
            &[1, 2],
        ),
        (
            r#"b"[0u64; 65] \" " b'"' [u8; 1] '\'' &'a [u8; 2]"#,
            &[14, 1, 2],
        ),
        (
            "#[derive(A, B)] a[i] s[..f(n, 2)] &'a [u8] &mut [u8] {[], _}",
            &[],
        ),
    ];
    for (text, expected) in texts {
        let expected: Vec<_> = expected.iter().copied().map(Some).collect();
        assert_eq!(seen(text), expected, "{text}");
    }
    let list = |number| format!("[{}]", "0u64, ".repeat(number));
    assert_eq!(seen(&list(65)), [Some(520)]);
    let string = |number| format!("put(b\"{}\")", "a".repeat(number));
    assert_eq!(seen(&string(513)), [Some(513)]);
}

#[test]
fn what_cannot_be_read_is_seen() {
    let texts = [
        // No element, or one of unknown type.
        "[0; 33]",
        "[Sheet; 2]",
        "[i; 2]",
        "[0i8; 2]",
        "[&[u8]; 2]",
        "[(u8); 2]",
        "[u8 + u8; 2]",
        "[; 2]",
        "[0u8, 1]",
        "[a, b]",
        "[f(b, c), 0u8]",
        // No length, or an unknown one.
        "[u8; ]",
        "[u8; n]",
        "[u8; NONE]",
        "[u8; Move::MOVES]",
        "[u8; MOVES]",
        "[u8; Sheet::LENGTH]",
        "[u8; Sheet::MORE]",
        "[u8; TWICE]",
        "[u8; 2 - 1]",
        "[u8; 2 * n]",
        "[u8; 2 +]",
        "[u8; 2; 3]",
        // Nothing closes them.
        "[u8; 2",
        "requires { a",
        "ghost use a",
        "\"a\n",
    ];
    for text in texts {
        assert_eq!(seen(text), [None], "{text}");
    }
}

/// How much of the stack is painted, and how far below a mark that begins. The
/// frames of the functions that paint and look lie between.
const ZONE: usize = 256 * 1024;
const GAP: usize = 1024;

/// A word that a call writes differs from one of them.
const PATTERNS: [u64; 2] = [0x5A5A_5A5A_5A5A_5A5A, 0xC3C3_C3C3_C3C3_C3C3];

/// The words that are painted below a mark, the lowest first.
fn zone(mark: usize) -> impl Iterator<Item = *mut u64> {
    let top = (mark - GAP) / 8 * 8;
    (top - ZONE..top).step_by(8).map(|at| at as *mut u64)
}

/// # Safety
///
/// The zone must be stack of this thread, below every frame.
#[inline(never)]
unsafe fn paint(mark: usize, pattern: u64) {
    for word in zone(mark) {
        // SAFETY: as the caller says.
        unsafe { word.write_volatile(pattern) };
    }
}

/// The place of the lowest word that is not as it was painted.
///
/// # Safety
///
/// The zone must be stack of this thread.
#[inline(never)]
unsafe fn lowest(mark: usize, pattern: u64) -> usize {
    // SAFETY: as the caller says.
    let written = |word: &*mut u64| unsafe { word.read_volatile() } != pattern;
    zone(mark).find(written).expect("a word written") as usize
}

/// Makes a call from a frame that fills the gap: all that it writes on the stack is
/// in the zone.
#[inline(never)]
fn call_below(side: Side, lent: &mut Lent) {
    let gap = black_box([0u8; GAP]);
    let _ = black_box(side(lent));
    black_box(&gap);
}

/// How far below a mark in this frame a call writes.
#[inline(never)]
fn depth(side: Side, lent: &mut Lent, pattern: u64) -> usize {
    let local = 0u8;
    let mark = from_ref(black_box(&local)).addr();
    // SAFETY: `on_a_large_stack` has room for the zone; what is left of this frame
    // below the mark, and the frame of painting, are smaller than the gap.
    unsafe { paint(mark, pattern) };
    call_below(side, lent);
    // SAFETY: the zone is the same.
    mark - unsafe { lowest(mark, pattern) }
}

/// Runs on a stack with room for the zone.
fn on_a_large_stack<T: Send + 'static>(act: fn() -> T) -> T {
    let thread = thread::Builder::new().stack_size(4 * ZONE).spawn(act);
    thread.expect("a thread").join().expect("a measure")
}

/// Does nothing, as a call.
fn nothing(_: &mut Lent) -> Reply<u32> {
    Ok(0)
}

/// The bytes of stack that a call takes: how much further down it writes than one
/// that does nothing. The small function of `calls` that hands the slices over is
/// counted with it.
fn taken(side: Side, lent: &Lent) -> usize {
    let deepest = |side: Side| {
        let depths = PATTERNS.map(|pattern| depth(black_box(side), &mut lent.clone(), pattern));
        depths[0].max(depths[1])
    };
    deepest(side) - deepest(nothing)
}

/// Fills 5,000 bytes of the stack, as a call.
fn fills<const BYTE: u8>(_: &mut Lent) -> Reply<u32> {
    black_box([BYTE; 5_000]);
    Ok(0)
}

#[test]
fn what_a_call_writes_on_the_stack_is_measured() {
    let measured = on_a_large_stack(|| {
        let sides: [Side; 3] = [fills::<0>, fills::<0x5A>, fills::<0xC3>];
        sides.map(|side| taken(side, &Lent::sheet(&[])))
    });
    for bytes in measured {
        assert!((5_000..5_100).contains(&bytes), "{bytes} bytes");
    }
}

/// Inputs with their names: those of the benchmark, further samples, and random
/// rounds, of which many are refused.
fn named_inputs() -> Vec<(String, Lent)> {
    let dear = inputs().into_iter().map(|input| (input.name, input.lent));
    let samples = [
        ("longest-plan", longest_plan()),
        ("snake", snake()),
        ("circle", circle(32)),
        ("product", product(&[8; 5], 27)),
    ];
    let samples = samples.map(|(name, sheet)| (name, prepared(&sheet)));
    let named = dear.chain(samples);
    let named = named.map(|(name, lent)| (name.to_string(), lent));
    let round = |seed| random::lent(&mut Random::new(seed));
    let rounds = (0..400).map(|seed| (format!("random round {seed}"), round(seed)));
    named.chain(rounds).collect()
}

/// The most stack that one version of a call takes, and the first input where it
/// does.
fn most_taken(side: Side, inputs: &[(String, Lent)]) -> (usize, String) {
    let mut most = (0, String::new());
    for (input, lent) in inputs {
        let bytes = taken(side, lent);
        assert!(bytes > 0, "{input}: nothing was seen");
        if bytes > most.0 {
            most = (bytes, input.clone());
        }
    }
    most
}

/// The most stack that a call takes, which it says beside that of the Rust version.
fn measured(call: &Call, inputs: &[(String, Lent)]) -> usize {
    let [(bytes, input), (rust, on)] =
        [call.library, call.rust].map(|side| most_taken(side, inputs));
    let name = call.name;
    say(format!(
        "stack of {name}: {bytes} bytes on {input} (the Rust version: {rust} on {on})"
    ));
    bytes
}

/// The header's number must be near the truth, so it may not be twice as large.
#[test]
fn says_how_much_stack_the_deepest_call_takes() {
    let (bytes, call) = on_a_large_stack(|| {
        let inputs = named_inputs();
        let measured = CALLS
            .iter()
            .map(|call| (measured(call, &inputs), call.name));
        measured.max().expect("a call")
    });
    let most = constant("DUTY_STACK");
    assert!(bytes <= most, "{call} takes {bytes}, above {most}");
    assert!(bytes > most / 2, "{call} takes {bytes}, far below {most}");
    say(format!(
        "the deepest call is {call}: {bytes} bytes of stack"
    ));
}
