//! Groups: maximal sets of machines that need one another, and their modes.
//!
//! A group mode is a mixed-radix number of its machines' modes, the smallest
//! machine first. Sets of modes of a group of up to 64 are 64-bit masks.

use crate::sheet::{Move, Sheet, MAX_MACHINES};
use crate::state::State;
use crate::{bits, highest};

/// Most modes of a group.
pub const MAX_GROUP_MODES: u64 = 64;

/// For each group some others, as a mask.
pub type GroupSets = [u32; MAX_MACHINES];

pub struct Groups {
    /// Number of groups.
    pub count: usize,
    /// Each machine's group.
    pub of: [u8; MAX_MACHINES],
    /// Each group's machines, as a mask.
    members: [u32; MAX_MACHINES],
    /// Each group's number of modes; stops at the type's end.
    sizes: [u64; MAX_MACHINES],
    /// Each machine's weight in its group's mode number.
    weights: [u64; MAX_MACHINES],
    /// The other groups that each group's moves name, usable or not.
    pub named: GroupSets,
}

impl Groups {
    /// The sheet's own groups in their own order.
    pub fn of_sheet(sheet: &Sheet) -> Self {
        let needs = closure(sheet);
        let mut of = [0; MAX_MACHINES];
        let mut numbered = 0u32;
        let mut count = 0;
        let everyone = (u32::MAX) >> (MAX_MACHINES - sheet.machines());
        while numbered != everyone {
            let (group, _) = bits((everyone & !numbered) as u64)
                .map(|machine| (mutual(&needs, machine), needs[machine]))
                .find(|&(group, needed)| needed & !group & !numbered == 0)
                .expect("some group needs only numbered ones");
            for machine in bits(group as u64) {
                of[machine] = count as u8;
            }
            numbered |= group;
            count += 1;
        }
        Self::numbered(sheet, of, count)
    }

    /// Groups as a plan numbers them: no gap from 0, and no guard on a group
    /// above its move's own.
    pub fn from_numbers(sheet: &Sheet, numbers: &[u8]) -> Option<Self> {
        let mut of = [0; MAX_MACHINES];
        of[..numbers.len()].copy_from_slice(numbers);
        let mut used = 0u32;
        for &number in numbers {
            used |= 1u32.checked_shl(number as u32)?;
        }
        let ordered = sheet.steps().all(|step| {
            let group = of[step.machine];
            step.guards
                .iter()
                .all(|guard| of[guard[0] as usize] <= group)
        });
        let gapless = used & used.wrapping_add(1) == 0;
        (gapless && ordered).then(|| Self::numbered(sheet, of, used.count_ones() as usize))
    }

    fn numbered(sheet: &Sheet, of: [u8; MAX_MACHINES], count: usize) -> Self {
        let mut groups = Groups {
            count,
            of,
            members: [0; MAX_MACHINES],
            sizes: [1; MAX_MACHINES],
            weights: [0; MAX_MACHINES],
            named: [0; MAX_MACHINES],
        };
        for (machine, &group) in of[..sheet.machines()].iter().enumerate() {
            let group = group as usize;
            groups.members[group] |= 1 << machine;
            groups.weights[machine] = groups.sizes[group];
            groups.sizes[group] = groups.sizes[group].saturating_mul(sheet.count(machine) as u64);
        }
        for step in sheet.steps() {
            groups.named[of[step.machine] as usize] |= groups.outside(&step);
        }
        groups
    }

    pub fn size(&self, group: usize) -> u64 {
        self.sizes[group]
    }

    pub fn members(&self, group: usize) -> impl Iterator<Item = usize> {
        bits(self.member_mask(group) as u64)
    }

    /// A group's machines, as a mask.
    pub fn member_mask(&self, group: usize) -> u32 {
        self.members[group]
    }

    pub fn smallest_machine(&self, group: usize) -> usize {
        self.members[group].trailing_zeros() as usize
    }

    /// The groups that a move names, but for its own, as a mask.
    #[inline]
    pub fn outside(&self, step: &Move) -> u32 {
        let mut named = 0;
        for guard in step.guards {
            named |= 1 << self.of[guard[0] as usize];
        }
        named & !(1 << self.of[step.machine])
    }

    /// The group mode that the state puts a group in.
    pub fn present(&self, group: usize, state: State) -> usize {
        let mut mode = 0;
        for machine in self.members(group) {
            mode += self.weights[machine] as usize * state.mode(machine) as usize;
        }
        mode
    }

    /// How far a move shifts the group's mode number.
    pub fn shift(&self, step: &Move) -> i32 {
        self.weights[step.machine] as i32 * (step.to as i32 - step.from as i32)
    }

    /// The modes of the machine's group in which it stands in an allowed mode.
    pub fn modes_with(&self, sheet: &Sheet, machine: usize, allowed: u8) -> u64 {
        let weight = self.weights[machine] as usize;
        let size = self.sizes[self.of[machine] as usize] as usize;
        let block = u64::MAX >> (64 - weight);
        let mut modes = 0;
        for mode in bits(allowed as u64) {
            modes |= block << (mode * weight);
        }
        let mut period = weight * sheet.count(machine) as usize;
        while period < size {
            modes |= modes << period;
            period *= 2;
        }
        modes & u64::MAX >> (64 - size)
    }

    /// The modes of a group whose machines all stand in modes that the mask
    /// for each machine allows.
    pub fn modes_where(&self, sheet: &Sheet, group: usize, mask: impl Fn(usize) -> u8) -> u64 {
        self.members(group).fold(u64::MAX, |modes, machine| {
            modes & self.modes_with(sheet, machine, mask(machine))
        })
    }

    /// The modes of a group that meet all of a move's guards on it together.
    pub fn guarded(&self, sheet: &Sheet, step: &Move, group: usize) -> u64 {
        let mut modes = u64::MAX >> (64 - self.sizes[group]);
        for &[machine, allowed] in step.guards {
            let machine = machine as usize;
            if self.of[machine] as usize == group {
                modes &= self.modes_with(sheet, machine, allowed);
            }
        }
        modes
    }
}

/// Each group's ancestors (the paper's upstream groups), by the groups that each
/// names, all of which have lower numbers.
pub fn ancestors(named: &GroupSets) -> GroupSets {
    let mut ancestors = *named;
    for group in 0..named.len() {
        for parent in bits(named[group] as u64) {
            ancestors[group] |= ancestors[parent];
        }
    }
    ancestors
}

/// The ancestors of all of some groups together.
pub fn ancestors_of(some: u32, named: &GroupSets) -> u32 {
    let (mut ancestors, mut left) = (0, some);
    while let Some(group) = highest(left) {
        left = left & !(1 << group) | named[group];
        ancestors |= named[group];
    }
    ancestors
}

/// For each machine, the machines it needs, directly or through others.
fn closure(sheet: &Sheet) -> [u32; MAX_MACHINES] {
    let mut needs = [0u32; MAX_MACHINES];
    for step in sheet.steps() {
        for guard in step.guards {
            needs[step.machine] |= 1 << guard[0];
        }
    }
    for through in 0..sheet.machines() {
        let further = needs[through];
        for row in &mut needs[..sheet.machines()] {
            *row |= further & (*row >> through & 1).wrapping_neg();
        }
    }
    needs
}

/// The machines that a machine needs and that need it, with itself.
fn mutual(needs: &[u32; MAX_MACHINES], machine: usize) -> u32 {
    bits(needs[machine] as u64)
        .filter(|&other| needs[other] >> machine & 1 == 1)
        .fold(1 << machine, |group, other| group | 1 << other)
}
