//! The picture of who needs whom, as a text for Graphviz: a node for each group
//! with its machines, and an edge to each group from each other group that its
//! moves name.

use crate::groups::Groups;
use crate::sheet::{Sheet, MAX_MACHINES};
use crate::{bits, front, refuse, Reply};

/// Most edges: 32 groups of one machine, each naming all before it.
const MAX_EDGES: usize = MAX_MACHINES * (MAX_MACHINES - 1) / 2;

/// The longest text, that of the most edges.
pub const MAX_TEXT: usize = 7273;

/// Most bytes that a text is read as: the machine count, each machine's group,
/// two bytes for each edge.
pub const MAX_READ: usize = 1 + MAX_MACHINES + 2 * MAX_EDGES;

const FIRST_LINE: &[u8; 17] = b"digraph groups {\n";
const LAST_LINE: &[u8; 2] = b"}\n";
/// What a group's number stands behind, at the start of a line.
const GROUP: &[u8; 3] = b"  g";
const LABEL: &[u8; 9] = b" [label=\"";
const LABEL_END: &[u8; 4] = b"\"];\n";
const ARROW: &[u8; 5] = b" -> g";
const EDGE_END: &[u8; 2] = b";\n";

/// Bytes of a text, a node and an edge, all without numbers; and without the
/// spaces in a label.
const FRAME: usize = FIRST_LINE.len() + LAST_LINE.len();
const NODE: usize = GROUP.len() + LABEL.len() + LABEL_END.len();
const EDGE: usize = GROUP.len() + ARROW.len() + EDGE_END.len();

/// Writes the text of a sheet's picture; answers its length.
pub fn draw(sheet: &[u8], out: &mut [u8]) -> Reply<usize> {
    let sheet = Sheet::read(sheet)?;
    let picture = Picture::of_groups(&Groups::of_sheet(&sheet));
    let length = picture.text_length();
    picture.write_text(front(out, length)?);
    Ok(length)
}

/// Reads a text that is exactly that of some sheet's picture and writes what it
/// says: how many machines, each one's group, source and target of each edge.
/// Answers how many bytes these are.
pub fn read(text: &[u8], out: &mut [u8]) -> Reply<usize> {
    let Some(picture) = Picture::parse(text).filter(Picture::in_turn) else {
        return refuse(20, 0);
    };
    let length = picture.byte_length();
    picture.write_bytes(front(out, length)?);
    Ok(length)
}

struct Picture {
    /// Number of groups.
    count: usize,
    /// Each group's machines, as a mask.
    members: [u32; MAX_MACHINES],
    /// The groups that the edges from each group lead to, as a mask.
    targets: [u32; MAX_MACHINES],
}

impl Picture {
    fn empty() -> Self {
        Picture {
            count: 0,
            members: [0; MAX_MACHINES],
            targets: [0; MAX_MACHINES],
        }
    }

    fn of_groups(groups: &Groups) -> Self {
        let mut picture = Picture::empty();
        picture.count = groups.count;
        for group in 0..groups.count {
            picture.members[group] = groups.member_mask(group);
            for source in bits(groups.named[group] as u64) {
                picture.targets[source] |= 1 << group;
            }
        }
        picture
    }

    /// All machines, as a mask.
    fn machines(&self) -> u32 {
        self.members.iter().fold(0, |all, members| all | members)
    }

    /// The edges by source and then by target.
    fn edges(&self) -> impl Iterator<Item = [usize; 2]> + '_ {
        (0..self.count).flat_map(|source| {
            bits(self.targets[source] as u64).map(move |target| [source, target])
        })
    }

    fn text_length(&self) -> usize {
        let machines = self.machines();
        let groups = u32::MAX >> (MAX_MACHINES - self.count);
        let spaces = machines.count_ones() as usize - self.count;
        let nodes = NODE * self.count + digits(groups) + digits(machines) + spaces;
        let edges = (0..self.count).map(|source| {
            let targets = self.targets[source];
            let head = EDGE + digits(1 << source);
            head * targets.count_ones() as usize + digits(targets)
        });
        FRAME + nodes + edges.sum::<usize>()
    }

    /// Writes the text into a buffer of its length.
    fn write_text(&self, out: &mut [u8]) {
        let mut pen = Pen { out, at: 0 };
        pen.put(FIRST_LINE);
        for (group, &members) in self.members[..self.count].iter().enumerate() {
            pen.put(GROUP);
            pen.number(group);
            pen.put(LABEL);
            pen.numbers(members);
            pen.put(LABEL_END);
        }
        for (source, &targets) in self.targets[..self.count].iter().enumerate() {
            for target in bits(targets as u64) {
                pen.put(GROUP);
                pen.number(source);
                pen.put(ARROW);
                pen.number(target);
                pen.put(EDGE_END);
            }
        }
        pen.put(LAST_LINE);
    }

    fn byte_length(&self) -> usize {
        let edges: u32 = self
            .targets
            .iter()
            .map(|targets| targets.count_ones())
            .sum();
        1 + (self.machines().count_ones() + 2 * edges) as usize
    }

    /// Writes what the picture shows into a buffer of its length.
    fn write_bytes(&self, out: &mut [u8]) {
        let machines = self.machines().count_ones() as usize;
        let (count, rest) = out.split_at_mut(1);
        let (groups, edges) = rest.split_at_mut(machines);
        count[0] = machines as u8;
        for (group, &members) in self.members[..self.count].iter().enumerate() {
            for machine in bits(members as u64) {
                groups[machine] = group as u8;
            }
        }
        let (pairs, _) = edges.as_chunks_mut();
        for (pair, edge) in pairs.iter_mut().zip(self.edges()) {
            *pair = edge.map(|group| group as u8);
        }
    }

    /// The picture of a text in which every byte is in its place: machines from 0
    /// without a gap, each once; edges in order, each once and to a higher number.
    fn parse(text: &[u8]) -> Option<Self> {
        let mut text = Text { rest: text };
        let mut picture = Picture::empty();
        text.skip(FIRST_LINE)?;
        while text.opens_node(picture.count) {
            picture.add_node(text.label()?)?;
        }
        let mut last = None;
        while text.takes(GROUP) {
            let edge = (text.number()?, text.arrow()?);
            (last < Some(edge)).then_some(())?;
            picture.add_edge(edge)?;
            last = Some(edge);
        }
        text.skip(LAST_LINE)?;
        (text.rest.is_empty() && gapless(picture.machines())).then_some(picture)
    }

    /// A node more, none if it has a machine that was there.
    fn add_node(&mut self, members: u32) -> Option<()> {
        (self.machines() & members == 0).then_some(())?;
        self.members[self.count] = members;
        self.count += 1;
        Some(())
    }

    /// An edge more, none if it does not lead to a higher node.
    fn add_edge(&mut self, (source, target): (usize, usize)) -> Option<()> {
        (source < target && target < self.count).then_some(())?;
        self.targets[source] |= 1 << target;
        Some(())
    }

    /// Whether the groups are numbered as a sheet's are: next comes the one with
    /// the smallest machine among those whose sources all have numbers. A group
    /// might have come right behind its highest source, so those that came between
    /// have smaller machines.
    fn in_turn(&self) -> bool {
        let mut ready = [0; MAX_MACHINES];
        self.edges()
            .for_each(|[source, target]| ready[target] = source + 1);
        let first = self.members.map(u32::trailing_zeros);
        (0..self.count).all(|group| {
            let between = &first[ready[group]..group];
            between.iter().all(|&machine| machine < first[group])
        })
    }
}

/// How many digits the numbers of a set have together; none is above 31.
fn digits(set: u32) -> usize {
    (set.count_ones() + (set >> 10).count_ones()) as usize
}

/// Whether a set has the numbers from 0 up to some number, at least 0 itself.
fn gapless(set: u32) -> bool {
    set != 0 && set & set.wrapping_add(1) == 0
}

/// The digits of each number; the second one of a single digit does not count.
const NUMBERS: [[u8; 2]; MAX_MACHINES] = {
    let mut numbers = [[0; 2]; MAX_MACHINES];
    let mut number = 0;
    while number < MAX_MACHINES {
        let ones = b'0' + number as u8 % 10;
        numbers[number] = match number as u8 / 10 {
            0 => [ones, 0],
            tens => [b'0' + tens, ones],
        };
        number += 1;
    }
    numbers
};

/// Writes a text front to back into a buffer that is long enough.
struct Pen<'a> {
    out: &'a mut [u8],
    at: usize,
}

impl Pen<'_> {
    #[inline]
    fn put<const N: usize>(&mut self, words: &[u8; N]) {
        self.put_front(words, N);
    }

    /// Puts words of which so many bytes count. There is room for the others, as
    /// something comes behind them that is put in their place.
    #[inline]
    fn put_front<const N: usize>(&mut self, words: &[u8; N], count: usize) {
        let rest = &mut self.out[self.at..];
        *rest.first_chunk_mut().expect("room") = *words;
        self.at += count;
    }

    #[inline]
    fn number(&mut self, number: usize) {
        self.put_front(&NUMBERS[number], digits(1 << number));
    }

    /// The numbers of a set, with a space between two.
    fn numbers(&mut self, set: u32) {
        for (place, number) in bits(set as u64).enumerate() {
            if place > 0 {
                self.put(b" ");
            }
            self.number(number);
        }
    }
}

/// Reads a text front to back.
struct Text<'a> {
    rest: &'a [u8],
}

impl Text<'_> {
    /// Passes over these words, if they come next.
    #[inline]
    fn takes<const N: usize>(&mut self, words: &[u8; N]) -> bool {
        match self.rest.split_first_chunk() {
            Some((next, rest)) if next == words => {
                self.rest = rest;
                true
            }
            _ => false,
        }
    }

    /// Passes over these words, which must come next.
    #[inline]
    fn skip<const N: usize>(&mut self, words: &[u8; N]) -> Option<()> {
        self.takes(words).then_some(())
    }

    /// A number below 32, with no more digits than it needs: a third digit, or one
    /// behind a 0, is left, and nothing that may follow a number is a digit. Some
    /// byte does follow.
    #[inline]
    fn number(&mut self) -> Option<usize> {
        let [first, second] = self
            .rest
            .first_chunk()?
            .map(|byte: u8| byte.wrapping_sub(b'0'));
        let (number, length) = match (first, second) {
            (1..=9, 0..=9) => (10 * first + second, 2),
            (0..=9, _) => (first, 1),
            _ => return None,
        };
        self.rest = &self.rest[length..];
        ((number as usize) < MAX_MACHINES).then_some(number as usize)
    }

    /// Passes over the beginning of the node of this number, if that comes next.
    fn opens_node(&mut self, number: usize) -> bool {
        let mut ahead = Text { rest: self.rest };
        let opens = ahead.takes(GROUP) && ahead.number() == Some(number) && ahead.takes(LABEL);
        if opens {
            self.rest = ahead.rest;
        }
        opens
    }

    /// The rest of a node: its machines, rising, as a mask.
    fn label(&mut self) -> Option<u32> {
        let mut machines = 0u32;
        loop {
            let machine = self.number()?;
            (machines >> machine == 0).then_some(())?;
            machines |= 1 << machine;
            if self.takes(LABEL_END) {
                return Some(machines);
            }
            self.skip(b" ")?;
        }
    }

    /// The rest of an edge: its target.
    fn arrow(&mut self) -> Option<usize> {
        self.skip(ARROW)?;
        let target = self.number()?;
        self.skip(EDGE_END)?;
        Some(target)
    }
}
