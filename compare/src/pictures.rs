//! Pictures made to measure: the plain text of any groups and edges, a sheet
//! that has them, and random texts, whole and damaged.

use crate::calls::{Lent, Slot};
use crate::graph::{MAX_READ, MAX_TEXT};
use crate::groups::Groups;
use crate::random::{room_for, Random};
use crate::samples::Builder;
use crate::sheet::{Sheet, MAX_MACHINES};
use crate::version::{Rust, Version};
use crate::{bits, Reply};

/// The text of a sheet's picture in a buffer of its own.
pub fn own_text<V: Version>(sheet: &[u8]) -> Reply<Vec<u8>> {
    let mut text = vec![0; MAX_TEXT];
    let length = V::graph(sheet, &mut text)?;
    text.truncate(length as usize);
    Ok(text)
}

/// What the text of a picture says, in a buffer of its own.
pub fn shown<V: Version>(text: &[u8]) -> Reply<Vec<u8>> {
    let mut bytes = vec![0; MAX_READ];
    let length = V::graph_read(text, &mut bytes)?;
    bytes.truncate(length as usize);
    Ok(bytes)
}

/// Groups, each with its machines, and edges, each with source and target, in
/// any order whatever.
#[derive(Clone, Debug, Default, PartialEq, Eq)]
pub struct Drawing {
    pub groups: Vec<Vec<u8>>,
    pub edges: Vec<[u8; 2]>,
}

impl Drawing {
    pub fn of_sheet(sheet: &Sheet) -> Self {
        let groups = Groups::of_sheet(sheet);
        let members = |group| groups.members(group).map(|machine| machine as u8);
        let sources = |target: usize| {
            let named = bits(groups.named[target] as u64);
            named.map(move |source| [source as u8, target as u8])
        };
        Drawing {
            groups: (0..groups.count).map(|k| members(k).collect()).collect(),
            edges: (0..groups.count).flat_map(sources).collect(),
        }
        .sorted()
    }

    /// Groups of one machine each and all edges that lead to a higher number.
    pub fn all_edges(machines: u8) -> Self {
        let edges = |source| (source + 1..machines).map(move |target| [source, target]);
        Drawing {
            groups: (0..machines).map(|machine| vec![machine]).collect(),
            edges: (0..machines).flat_map(edges).collect(),
        }
    }

    /// With the edges in order, each once.
    pub fn sorted(mut self) -> Self {
        self.edges.sort_unstable();
        self.edges.dedup();
        self
    }

    /// Swaps the numbers of two groups, in the edges too.
    fn renumber(&mut self, one: usize, other: usize) {
        self.groups.swap(one, other);
        let (one, other) = (one as u8, other as u8);
        for end in self.edges.as_flattened_mut() {
            *end = match *end {
                end if end == one => other,
                end if end == other => one,
                end => end,
            };
        }
    }

    pub fn text(&self) -> String {
        let label = |machines: &Vec<u8>| {
            let numbers: Vec<_> = machines.iter().map(u8::to_string).collect();
            numbers.join(" ")
        };
        let node = |(number, machines)| format!("  g{number} [label=\"{}\"];\n", label(machines));
        let edge = |[source, target]: &[u8; 2]| format!("  g{source} -> g{target};\n");
        let nodes: String = self.groups.iter().enumerate().map(node).collect();
        let edges: String = self.edges.iter().map(edge).collect();
        format!("digraph groups {{\n{nodes}{edges}}}\n")
    }

    /// What reading the text gives: the machine count, each machine's group, the
    /// edges.
    pub fn bytes(&self) -> Vec<u8> {
        let machines = self.groups.concat().len();
        let group = |machine: usize| {
            let has = |members: &Vec<u8>| members.contains(&(machine as u8));
            self.groups.iter().position(has).expect("a group") as u8
        };
        let groups: Vec<u8> = (0..machines).map(group).collect();
        [&[machines as u8], &groups[..], self.edges.as_flattened()].concat()
    }

    /// A sheet with these groups and edges, but for edges from a group to itself:
    /// machines of two modes; in a group of several a ring of needs; the needs of
    /// other groups on its first machine, at most eight in a move.
    pub fn sheet(&self) -> Vec<u8> {
        let sheet = Builder::new().machines(self.groups.concat().len(), 2);
        let groups = 0..self.groups.len();
        groups
            .fold(sheet, |sheet, group| {
                self.outside(self.ring(sheet, group), group)
            })
            .end()
    }

    fn ring(&self, sheet: Builder, group: usize) -> Builder {
        let machines = &self.groups[group];
        let next = machines.iter().cycle().skip(1);
        let needs = machines
            .iter()
            .zip(next)
            .filter(|(machine, next)| machine != next);
        needs.fold(sheet, |sheet, (&machine, &next)| {
            sheet.step([machine, 0, 1, 1], &[[next, 1]])
        })
    }

    fn outside(&self, sheet: Builder, group: usize) -> Builder {
        let leads_here =
            |[source, target]: &&[u8; 2]| source != target && *target as usize == group;
        let sources = self.edges.iter().filter(leads_here);
        let mut needed: Vec<_> = sources
            .map(|edge| [self.groups[edge[0] as usize][0], 1])
            .collect();
        needed.sort_unstable();
        needed.dedup();
        let moves = needed.chunks(8).zip(2..);
        moves.fold(sheet, |sheet, (needs, command)| {
            sheet.step([self.groups[group][0], 0, 1, command], needs)
        })
    }
}

/// Any groups and edges; in most cases a sheet has them, numbered so.
fn drawing(random: &mut Random) -> Drawing {
    let drawing = any_drawing(random);
    if random.once_in(3) {
        return drawing;
    }
    let sheet = drawing.sheet();
    Drawing::of_sheet(&Sheet::read(&sheet).expect("a sheet"))
}

/// Any groups in any order, in nearly all cases with edges to higher numbers.
pub fn any_drawing(random: &mut Random) -> Drawing {
    let most = [3, 6, 12, MAX_MACHINES][random.below(4)];
    let machines = 1 + random.below(most);
    let count = 1 + random.below(machines);
    let mut groups = vec![Vec::new(); count];
    for machine in 0..machines as u8 {
        groups[random.below(count)].push(machine);
    }
    groups.retain(|members| !members.is_empty());
    let any_way = random.once_in(8);
    let one_in = [1, 2, 3, 8][random.below(4)];
    let count = groups.len() as u8;
    let pairs = (0..count).flat_map(|source| (0..count).map(move |target| [source, target]));
    let edges = pairs
        .filter(|[source, target]| any_way || source < target)
        .filter(|_| random.once_in(one_in))
        .collect();
    Drawing { groups, edges }
}

/// A text to be read: of a sheet's own picture or of another, at times with a
/// group or an edge changed, at times damaged.
fn text(random: &mut Random, sheet: Option<&Sheet>) -> Vec<u8> {
    let mut drawing = match sheet {
        Some(sheet) if random.once_in(2) => Drawing::of_sheet(sheet),
        _ => drawing(random),
    };
    if random.once_in(3) {
        change(random, &mut drawing);
    }
    let mut text = drawing.text().into_bytes();
    if random.once_in(3) {
        damage(random, &mut text);
    }
    text
}

/// Changes a group or an edge. In half of the cases the edges are in order then.
fn change(random: &mut Random, drawing: &mut Drawing) {
    let groups = drawing.groups.len();
    let (group, other) = (random.below(groups), random.below(groups));
    match random.below(9) {
        0 => drawing.groups.swap(group, other),
        1 => drawing.renumber(group, other),
        2 => drawing.groups[group].reverse(),
        3 => drawing.groups[group].push(random.below(MAX_MACHINES + 2) as u8),
        4 => drawing.groups[group].clear(),
        5 => drawing.edges.push([group as u8, other as u8]),
        _ => change_edge(random, &mut drawing.edges),
    }
    if random.once_in(2) {
        *drawing = std::mem::take(drawing).sorted();
    }
}

/// Turns an edge round, takes it away, or puts it at the end as well.
fn change_edge(random: &mut Random, edges: &mut Vec<[u8; 2]>) {
    if edges.is_empty() {
        return;
    }
    let at = random.below(edges.len());
    match random.below(3) {
        0 => edges[at].reverse(),
        1 => drop(edges.remove(at)),
        _ => edges.push(edges[at]),
    }
}

/// Cuts a text, changes, doubles or removes a byte, puts a 0 before a number or
/// a carriage return at the end of a line, swaps two lines, or adds bytes.
fn damage(random: &mut Random, text: &mut Vec<u8>) {
    let at = random.below(text.len());
    match random.below(8) {
        0 => text.truncate(at),
        1 => text[at] = other_byte(random),
        2 => text.insert(at, text[at]),
        3 => drop(text.remove(at)),
        4 => insert_before(text, at, u8::is_ascii_digit, b'0'),
        5 => insert_before(text, at, |&byte| byte == b'\n', b'\r'),
        6 => swap_lines(random, text),
        _ => text.extend(random.byte_run(3)),
    }
}

/// In most cases a byte that a text may have.
fn other_byte(random: &mut Random) -> u8 {
    let some = b"0123456789 g\"=[];->{}\n";
    let byte = random.byte();
    some.get(random.below(some.len() + 4))
        .copied()
        .unwrap_or(byte)
}

/// Puts a byte before the first of a kind from a place on.
fn insert_before(text: &mut Vec<u8>, at: usize, kind: fn(&u8) -> bool, byte: u8) {
    if let Some(further) = text[at..].iter().position(kind) {
        text.insert(at + further, byte);
    }
}

fn swap_lines(random: &mut Random, text: &mut Vec<u8>) {
    let mut lines: Vec<_> = text.split_inclusive(|&byte| byte == b'\n').collect();
    let (one, other) = (random.below(lines.len()), random.below(lines.len()));
    lines.swap(one, other);
    *text = lines.concat();
}

/// Lends what the calls of the picture take beside the sheet.
pub fn lend(random: &mut Random, lent: &mut Lent) {
    let bytes = lent.sheet.get().to_vec();
    let own = own_text::<Rust>(&bytes).unwrap_or_default();
    let text = text(random, Sheet::read(&bytes).ok().as_ref());
    let says = shown::<Rust>(&text).unwrap_or_default();
    lent.drawn = Slot::new(&room_for(random, own.len()));
    lent.text = Slot::new(&text);
    lent.shown = Slot::new(&room_for(random, says.len()));
}
