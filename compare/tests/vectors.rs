//! Both versions against recorded replies, where they are at hand: in
//! `shared/vectors` and `shared/ticket-vectors` beside the repository, or where
//! DUTY_VECTORS and DUTY_TICKET_VECTORS say. `changed.txt` has what requests made
//! of the older ones.

use duty_compare::calls::{Call, Lent, Side, Slot};
use duty_compare::command::{Command, Effect, Next};
use duty_compare::definition::Reading;
use duty_compare::library::Library;
use duty_compare::pictures::{own_text, shown, Drawing};
use duty_compare::plain::Plain;
use duty_compare::plan::MIN_SCRATCH;
use duty_compare::shape::Plan;
use duty_compare::sheet::Sheet;
use duty_compare::state::untagged;
use duty_compare::version::{Rust, Version};
use duty_compare::walk::{bound_of, own_plan, walk};
use duty_compare::{refuse, say, Reply};
use std::collections::{BTreeSet, HashMap};
use std::fs;
use std::hint::black_box;
use std::io::ErrorKind;
use std::panic::catch_unwind;
use std::path::{Path, PathBuf};

/// A file of recorded calls, the shared folder that has it, and the setting that
/// names another.
struct Recording {
    setting: &'static str,
    folder: &'static str,
    file: &'static str,
    /// The last request of document 02 whose replies it has, 0 for none.
    request: u32,
}

/// The recorded calls of document 01 that requests have changed, with their replies
/// since.
const CHANGED: &str = include_str!("changed.txt");

/// What a recorded call or walk of document 01 gets since it was changed, if it was.
fn changed(item: &str) -> Option<&'static str> {
    let items = CHANGED.lines().filter_map(|line| line.split_once(" = "));
    let mut named = items.filter(|(name, _)| *name == item);
    named.next().map(|(_, reply)| reply)
}

/// How many of the recorded ones were compared with what they get since, in words.
fn as_changed(number: u32) -> String {
    match number {
        0 => String::new(),
        _ => format!(", {number} of them as changed since"),
    }
}

/// The calls of document 01.
const FIRST: Recording = Recording {
    setting: "DUTY_VECTORS",
    folder: "vectors",
    file: "calls.txt",
    request: 0,
};

/// All calls, as the requests of document 02 up to this one leave them.
const LATEST: Recording = Recording {
    setting: "DUTY_TICKET_VECTORS",
    folder: "ticket-vectors",
    file: "L8.txt",
    request: 8,
};

impl Recording {
    /// The folder that the setting names, which must be there, else the one
    /// beside the repository. None where nothing is shared with it.
    fn folder(&self) -> Option<PathBuf> {
        let setting = self.setting;
        let shared = Path::new(env!("CARGO_MANIFEST_DIR")).join("../../shared");
        let named = std::env::var_os(setting).map(PathBuf::from);
        if named.is_none() && !shared.exists() {
            say(format!(
                "skipped: no {setting}, and no shared folder beside the repository"
            ));
            return None;
        }
        let folder = named.unwrap_or_else(|| shared.join(self.folder));
        assert!(
            folder.is_dir(),
            "no vectors: `{}` is not a folder ({setting} says where they are)",
            folder.display()
        );
        Some(folder)
    }

    /// What the file holds, if its folder is at hand.
    fn text(&self) -> Option<String> {
        let path = self.folder()?.join(self.file);
        let read = fs::read_to_string(&path);
        Some(read.unwrap_or_else(|error| panic!("{}: {error}", path.display())))
    }

    /// Whether the replies of applying have the move.
    fn moves(&self) -> bool {
        self.request >= 2
    }

    /// Whether the states have tags.
    fn tags(&self) -> bool {
        self.request >= 5
    }

    /// Whether any scratch from 512 bytes up is taken, or 4,096 bytes alone.
    fn any_scratch(&self) -> bool {
        self.request >= 6
    }

    /// A recorded length of the scratch. Where 4,096 bytes alone are taken, any
    /// other length is read as one that is too short.
    fn scratch(&self, recorded: usize) -> usize {
        if self.any_scratch() || recorded == 4096 {
            recorded
        } else {
            recorded.min(MIN_SCRATCH - 1)
        }
    }

    /// A recorded state. One without tags is read as tagless, with a zero behind
    /// each byte: n bytes become 2n, so a wrong length stays wrong and a right one
    /// right, and a wrong mode stays that of the same machine.
    fn state(&self, recorded: &[u8]) -> Vec<u8> {
        if self.tags() {
            recorded.to_vec()
        } else {
            untagged(recorded)
        }
    }

    /// What a recorded item gets since it was changed, if it was.
    fn changed(&self, item: &str) -> Option<&'static str> {
        changed(item).filter(|_| self.request == 0)
    }

    /// As much of a reply as the file tells: all of it, but of applying without
    /// the move only 1 if a machine changed, else 0.
    fn told(&self, call: &str, reply: Reply<u32>) -> Reply<u32> {
        let changed = |value| (Effect::of_value(value) != Effect::Nothing) as u32;
        match call {
            "apply" if !self.moves() => reply.map(changed),
            _ => reply,
        }
    }
}

fn hex(text: &str) -> Vec<u8> {
    if text == "-" {
        return Vec::new();
    }
    let pair = |at| u8::from_str_radix(&text[at..at + 2], 16).expect("hex digits");
    (0..text.len()).step_by(2).map(pair).collect()
}

fn number<T: std::str::FromStr>(text: &str) -> T {
    text.parse()
        .unwrap_or_else(|_| panic!("not a number: {text}"))
}

fn fields(line: &str) -> Vec<&str> {
    line.split(' ').collect()
}

/// The named sheets and plans of a recording.
struct Blobs<'a> {
    recording: &'a Recording,
    by_name: HashMap<String, Vec<u8>>,
}

impl<'a> Blobs<'a> {
    fn read(recording: &'a Recording, text: &str) -> Self {
        let lines = text.lines().filter(|line| line.starts_with("blob "));
        let by_name = lines.map(|line| {
            let fields = fields(line);
            (fields[1].to_string(), hex(fields[2]))
        });
        Blobs {
            recording,
            by_name: by_name.collect(),
        }
    }

    fn slot(&self, name: &str) -> Slot {
        Slot::new(&self.by_name[name])
    }

    fn state(&self, text: &str) -> Slot {
        Slot::new(&self.recording.state(&hex(text)))
    }

    /// The name of a recorded call and all that is lent for it. Slips, and a
    /// count of finished groups, are none yet.
    fn lent(&self, call: &str) -> (&'static str, Lent) {
        let fields = fields(call);
        let mut lent = Lent::sheet(&self.by_name[fields[1]]);
        let name = match fields[..] {
            ["len", _] | ["len", _, "0"] => "plan_length",
            ["plan", _, length, scratch] | ["plan", _, length, scratch, "0"] => {
                lent.plan = Slot::new(&vec![0x5A; number(length)]);
                lent.scratch = Slot::new(&vec![0xC3; self.recording.scratch(number(scratch))]);
                "plan"
            }
            ["next", _, plan, state, goal] | ["next", _, plan, state, goal, "-", "0", "0"] => {
                lent.plan = self.slot(plan);
                lent.state = self.state(state);
                lent.goal = Slot::new(&hex(goal));
                "next"
            }
            ["apply", _, state, machine, command] => {
                lent.state = self.state(state);
                lent.command = to(machine, command);
                "apply"
            }
            ["join", _, wishes, length] => {
                lent.wishes = Slot::new(&hex(wishes));
                lent.out = Slot::new(&vec![0x69; number(length)]);
                "join"
            }
            ["clean", _, length] => {
                lent.cleaned = Slot::new(&vec![0x69; number(length)]);
                "clean"
            }
            _ => panic!("unknown call {call}"),
        };
        (name, lent)
    }

    /// A recorded reply to a call of this name; writes what it says was written.
    fn reply(&self, name: &str, reply: &str, lent: &mut Lent) -> Reply<u32> {
        match fields(reply)[..] {
            ["refused", cause, place] => refuse(number(cause), number(place)),
            ["blob", plan] => {
                lent.plan = self.slot(plan);
                lent.scratch.get_mut().fill(0);
                Ok(0)
            }
            ["bound", bound] => {
                set_bound(lent.plan.get_mut(), number(bound));
                Ok(0)
            }
            ["done"] => Ok(Next::Done.value()),
            ["command", machine, command] => Ok(Next::Send(to(machine, command)).value()),
            [word @ ("changed" | "same"), state, ref step @ ..] => {
                lent.state = self.state(state);
                Ok(applied(word, step))
            }
            ["bytes", written] => {
                let (written, out) = (hex(written), output(name, lent));
                out.get_mut()[..written.len()].copy_from_slice(&written);
                Ok(written.len() as u32)
            }
            [length] => Ok(number(length)),
            _ => panic!("unknown reply {reply}"),
        }
    }
}

/// The buffer that a call of this name writes bytes to.
fn output<'a>(name: &str, lent: &'a mut Lent) -> &'a mut Slot {
    match name {
        "join" => &mut lent.out,
        "clean" => &mut lent.cleaned,
        _ => panic!("{name} writes no such bytes"),
    }
}

/// Writes another bound into a plan.
fn set_bound(plan: &mut [u8], bound: u32) {
    let at = plan.len() - 8;
    plan[at..at + 4].copy_from_slice(&bound.to_le_bytes());
}

/// What a file tells of a command that was applied, with the move or without.
fn applied(word: &str, step: &[&str]) -> u32 {
    match (word, step) {
        ("changed", []) => 1,
        ("same", []) => 0,
        ("changed", [step]) => Effect::Move(number(step)).value(),
        ("same", ["255"]) => Effect::Nothing.value(),
        _ => panic!("unknown move {step:?} of {word}"),
    }
}

fn to(machine: &str, command: &str) -> Command {
    Command {
        machine: number(machine),
        command: number(command),
    }
}

/// The calls of a file with their replies.
fn calls(text: &str) -> Vec<(&str, &str)> {
    recorded(text, |item| !is_walk(item) && !is_graph(item))
}

/// The pictures of a file with what they show.
fn graphs(text: &str) -> Vec<(&str, &str)> {
    recorded(text, is_graph)
}

fn is_graph(item: &str) -> bool {
    item.starts_with("graph ")
}

/// The walks of a file with what they print.
fn walks(text: &str) -> Vec<(&str, &str)> {
    recorded(text, is_walk)
}

fn is_walk(item: &str) -> bool {
    item.starts_with("walk ")
}

/// The items of a kind with what is recorded of them.
fn recorded(text: &str, of_kind: fn(&str) -> bool) -> Vec<(&str, &str)> {
    let items = text.lines().filter_map(|line| line.split_once(" = "));
    let items: Vec<_> = items.filter(|(item, _)| of_kind(item)).collect();
    assert!(!items.is_empty(), "none are recorded");
    items
}

/// Makes every recorded call in one version.
fn calls_agree(recording: Recording, version: &str, side: fn(&Call) -> Side) {
    let Some(text) = recording.text() else { return };
    let (blobs, calls) = (Blobs::read(&recording, &text), calls(&text));
    let mut others = 0;
    for (call, reply) in &calls {
        let (name, mut lent) = blobs.lent(call);
        let mut left = lent.clone();
        let mut expected = blobs.reply(name, reply, &mut left);
        if let Some(reply) = recording.changed(call) {
            expected = blobs.reply(name, reply, &mut left);
            others += 1;
        }
        let version = side(Call::named(name).expect("a call"));
        let reply = version(black_box(&mut lent));
        assert_eq!(recording.told(name, reply), expected, "{call}");
        assert!(black_box(lent) == left, "{call}: other bytes left");
    }
    say(format!(
        "{} recorded calls of {} agree with {version}{}",
        calls.len(),
        recording.file,
        as_changed(others)
    ));
}

#[test]
fn first_calls_agree_with_the_rust_version() {
    calls_agree(FIRST, Rust::NAME, |call| call.rust);
}

#[test]
fn first_calls_agree_with_the_library() {
    calls_agree(FIRST, Library::NAME, |call| call.library);
}

#[test]
fn latest_calls_agree_with_the_rust_version() {
    calls_agree(LATEST, Rust::NAME, |call| call.rust);
}

#[test]
fn latest_calls_agree_with_the_library() {
    calls_agree(LATEST, Library::NAME, |call| call.library);
}

/// Every call tests its sheet first, by 1 to 8 and 21, so a check of the sheet must
/// refuse exactly where the call was refused by such a number.
fn sheets_agree(recording: Recording, version: &str, check: fn(&[u8]) -> Reply<u32>) {
    let Some(text) = recording.text() else { return };
    let (blobs, calls) = (Blobs::read(&recording, &text), calls(&text));
    let mut refused = 0;
    for (call, reply) in &calls {
        let (name, mut lent) = blobs.lent(call);
        let cause = check(lent.sheet.get()).err();
        let recorded = blobs.reply(name, reply, &mut lent);
        let of_the_sheet = recorded
            .err()
            .filter(|refusal| matches!(refusal.number, 1..=8 | 21));
        assert_eq!(cause, of_the_sheet, "{call}");
        refused += cause.is_some() as u32;
    }
    assert!(refused > 0, "no refused sheet is recorded");
    say(format!(
        "{} recorded sheets of {} agree with {version}, {refused} of them refused",
        calls.len(),
        recording.file
    ));
}

#[test]
fn the_library_refuses_the_first_sheets_as_recorded() {
    sheets_agree(FIRST, Library::NAME, Library::sheet);
}

#[test]
fn the_library_refuses_the_latest_sheets_as_recorded() {
    sheets_agree(LATEST, Library::NAME, Library::sheet);
}

/// Judges a sheet by the plain reading.
fn plainly(sheet: &[u8]) -> Reply<u32> {
    Plain::read(sheet).map(|plain| plain.value())
}

#[test]
fn the_plain_reading_refuses_all_sheets_as_recorded() {
    sheets_agree(FIRST, "the plain reading", plainly);
    sheets_agree(LATEST, "the plain reading", plainly);
}

/// Whether a folder has one of the names that the vectors' README gives them.
fn is_case(path: &Path) -> bool {
    let name = path.file_name().unwrap_or_default().to_string_lossy();
    let numbered = |number: &str| !number.is_empty() && number.bytes().all(|b| b.is_ascii_digit());
    let named = name.starts_with("fixed-") || name.strip_prefix("case-").is_some_and(numbered);
    named && path.is_dir()
}

/// A file's bytes; one that is missing counts as empty.
fn bytes(path: PathBuf) -> Vec<u8> {
    match fs::read(&path) {
        Err(error) if error.kind() == ErrorKind::NotFound => Vec::new(),
        read => read.unwrap_or_else(|error| panic!("{}: {error}", path.display())),
    }
}

/// What a case is called where it was changed.
fn walk_name(path: &Path) -> String {
    let name = path.file_name().unwrap_or_default().to_string_lossy();
    format!("walk {name}")
}

/// The lines that a walk prints, as a file has them: a comma for each space.
fn printed_lines(lines: &str) -> String {
    let line = |line: &str| line.replace(',', " ") + "\n";
    lines.split(' ').map(line).collect()
}

/// Makes every recorded walk of the latest file in one version.
fn latest_walks_agree<V: Version>() {
    let Some(text) = LATEST.text() else { return };
    let (blobs, walks) = (Blobs::read(&LATEST, &text), walks(&text));
    for (item, lines) in &walks {
        let [_, sheet, state, goal] = fields(item)[..] else {
            panic!("unknown walk {item}");
        };
        let state = blobs.state(state);
        let printed = walk::<V>(&blobs.by_name[sheet], state.get(), &hex(goal));
        assert_eq!(printed, printed_lines(lines), "{item}");
    }
    say(format!(
        "{} recorded walks of {} agree with {}",
        walks.len(),
        LATEST.file,
        V::NAME
    ));
}

#[test]
fn latest_walks_agree_with_the_rust_version() {
    latest_walks_agree::<Rust>();
}

#[test]
fn latest_walks_agree_with_the_library() {
    latest_walks_agree::<Library>();
}

/// What a recorded picture shows: `graph SHEET = GROUPS EDGES`, groups in order as
/// `0,2;1`, edges in order as `0>1,0>2`, or `-` for none.
fn drawing(picture: &str) -> Drawing {
    let [groups, edges] = fields(picture)[..] else {
        panic!("unknown picture {picture}");
    };
    let machines = |group: &str| group.split(',').map(number).collect();
    let edge = |edge: &str| {
        let ends = edge.split_once('>').expect("an edge");
        [number(ends.0), number(ends.1)]
    };
    Drawing {
        groups: groups.split(';').map(machines).collect(),
        edges: match edges {
            "-" => vec![],
            _ => edges.split(',').map(edge).collect(),
        },
    }
}

/// Draws every recorded picture in one version and reads it back.
fn graphs_agree<V: Version>() {
    let Some(text) = LATEST.text() else { return };
    let (blobs, graphs) = (Blobs::read(&LATEST, &text), graphs(&text));
    for (item, picture) in &graphs {
        let sheet = &blobs.by_name[fields(item)[1]];
        let drawing = drawing(picture);
        let text = own_text::<V>(sheet);
        assert_eq!(text, Ok(drawing.text().into_bytes()), "{item}");
        assert_eq!(
            text.and_then(|text| shown::<V>(&text)),
            Ok(drawing.bytes()),
            "{item}"
        );
    }
    say(format!(
        "{} recorded pictures of {} agree with {}",
        graphs.len(),
        LATEST.file,
        V::NAME
    ));
}

#[test]
fn recorded_pictures_agree_with_the_rust_version() {
    graphs_agree::<Rust>();
}

#[test]
fn recorded_pictures_agree_with_the_library() {
    graphs_agree::<Library>();
}

/// What a walk prints without its moves, as the case folders have it: each
/// command line must end with the number of a move, which is left out; any other
/// line stays to the letter.
fn without_moves(printed: &str) -> String {
    let without = |line: &str| match fields(line)[..] {
        ["done" | "refused", ..] => line.to_string(),
        [machine, command, step] => {
            let step = step.strip_suffix('\n').expect("a whole line");
            assert_eq!(number::<u8>(step).to_string(), step, "{line}");
            format!("{machine} {command}\n")
        }
        _ => panic!("no move: {line}"),
    };
    printed.split_inclusive('\n').map(without).collect()
}

#[test]
fn a_walk_is_compared_without_its_moves() {
    let done = "0 1 0\n2 255 249\ndone 2 bound 7\n";
    assert_eq!(without_moves(done), "0 1\n2 255\ndone 2 bound 7\n");
    assert_eq!(without_moves("refused 17 1\n"), "refused 17 1\n");
}

#[test]
fn a_command_line_without_its_move_is_seen() {
    for line in [
        "0 1",
        "0 1\n",
        "0 1 \n",
        "0 1 x\n",
        "0 1 256\n",
        "0 1 2 3\n",
    ] {
        assert!(catch_unwind(|| without_moves(line)).is_err(), "{line}");
    }
}

/// Walks every recorded case in one version.
fn walks_agree<V: Version>() {
    let Some(folder) = FIRST.folder() else { return };
    let (mut count, mut others) = (0, 0);
    for entry in fs::read_dir(folder).expect("the vectors") {
        let path = entry.expect("an entry").path();
        if is_case(&path) {
            let read = |name| bytes(path.join(name));
            let mut expected = fs::read_to_string(path.join("expect.txt")).expect("expect.txt");
            if let Some(lines) = changed(&walk_name(&path)) {
                expected = printed_lines(lines);
                others += 1;
            }
            let state = FIRST.state(&read("state.bin"));
            let printed = walk::<V>(&read("sheet.bin"), &state, &read("wish.bin"));
            assert_eq!(without_moves(&printed), expected, "{}", path.display());
            count += 1;
        }
    }
    assert!(count > 0, "no case folders");
    say(format!(
        "{count} recorded walks without moves agree with {}{}",
        V::NAME,
        as_changed(others)
    ));
}

#[test]
fn recorded_walks_agree_with_the_rust_version() {
    walks_agree::<Rust>();
}

#[test]
fn recorded_walks_agree_with_the_library() {
    walks_agree::<Library>();
}

/// The definition against the latest calls: the next commands that come to 16, and
/// the bounds.
#[test]
fn latest_calls_agree_with_the_definition() {
    let Some(text) = LATEST.text() else { return };
    let blobs = Blobs::read(&LATEST, &text);
    let mut count = 0;
    for (call, reply) in calls(&text) {
        let (name, mut lent) = blobs.lent(call);
        let mut recorded = blobs.reply(name, reply, &mut lent);
        match name {
            "next" if in_shape(&lent) && !recorded.is_err_and(|refusal| refusal.number < 15) => {}
            "plan" if recorded.is_ok() => recorded = Ok(bound_of(lent.plan.get())),
            _ => continue,
        }
        assert_eq!(by_definition(name, &lent)[1], recorded, "{call}");
        count += 1;
    }
    assert!(count > 0, "no such call is recorded");
    say(format!(
        "{count} recorded calls of {} agree with the definition",
        LATEST.file
    ));
}

fn in_shape(lent: &Lent) -> bool {
    let sheet = Sheet::read(lent.sheet.get());
    sheet.is_ok_and(|sheet| Plan::read(&sheet, lent.plan.get()).is_ok())
}

/// What the definition gives with all moves, as before L7, and what with usable
/// moves alone.
fn by_definition(name: &str, lent: &Lent) -> [Reply<u32>; 2] {
    let (sheet, plan) = (lent.sheet.get(), lent.plan.get());
    let reading = Reading::new(sheet, plan);
    let reply = |reading: &Reading| match name {
        "next" => {
            let next = reading.next(lent.state.get(), lent.goal.get());
            next.map(Next::value)
        }
        _ => Ok(reading.bound() as u32),
    };
    let since = reply(&reading);
    [reply(&reading.before()), since]
}

/// Every change that is listed is met once at least, and is one that L7 makes.
#[test]
fn changed_calls_are_those_of_usable_moves() {
    let Some(text) = FIRST.text() else { return };
    let (blobs, mut names) = (Blobs::read(&FIRST, &text), BTreeSet::new());
    for (call, reply) in calls(&text) {
        let Some(since) = changed(call) else { continue };
        let (name, mut lent) = blobs.lent(call);
        let mut recorded = blobs.reply(name, reply, &mut lent);
        let mut now = blobs.reply(name, since, &mut lent.clone());
        if name == "plan" {
            recorded = Ok(bound_of(lent.plan.get()));
            now = Ok(number(since.strip_prefix("bound ").expect("a bound")));
        }
        assert_eq!(by_definition(name, &lent), [recorded, now], "{call}");
        names.insert(call.to_string());
    }
    let folder = FIRST.folder().expect("the vectors");
    for entry in fs::read_dir(folder).expect("the vectors") {
        let path = entry.expect("an entry").path();
        let name = walk_name(&path);
        if changed(&name).is_some() {
            walk_is_changed(&path, &name);
            names.insert(name);
        }
    }
    let listed = CHANGED.lines().filter_map(|line| line.split_once(" = "));
    let listed: Vec<_> = listed.map(|(item, _)| item.to_string()).collect();
    assert_eq!(listed.iter().cloned().collect::<BTreeSet<_>>(), names);
    assert_eq!(listed.len(), names.len(), "a change is listed twice");
}

/// The walk of a case was refused for moves that are not usable, or has another
/// bound, by the definition.
fn walk_is_changed(path: &Path, name: &str) {
    let recorded = fs::read_to_string(path.join("expect.txt")).expect("expect.txt");
    let since = printed_lines(changed(name).expect("a change"));
    let sheet = bytes(path.join("sheet.bin"));
    let plan = own_plan::<Rust>(&sheet).expect("a plan");
    let mut lent = Lent::sheet(&sheet);
    lent.plan = Slot::new(&plan);
    lent.state = Slot::new(&FIRST.state(&bytes(path.join("state.bin"))));
    lent.goal = Slot::new(&bytes(path.join("wish.bin")));
    let [before, now] = by_definition("plan", &lent).map(|bound| bound.expect("a bound"));
    let end = |bound: u32| format!(" bound {bound}\n");
    assert!(since.ends_with(&end(now)), "{name}: {now}");
    match recorded.strip_suffix(&end(before)) {
        Some(front) => assert_eq!(since, front.to_string() + &end(now), "{name}"),
        None => {
            let refusal = by_definition("next", &lent)[0].expect_err("a refusal");
            let told = format!("refused {} {}\n", refusal.number, refusal.place);
            assert_eq!(recorded, told, "{name}");
        }
    }
}
