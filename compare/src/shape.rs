//! Reading a plan: its shape, its groups and its tables.

use crate::groups::{Groups, MAX_GROUP_MODES};
use crate::plan::{BOUND, GROUP_NUMBERS, NO_ROUTE, TABLE};
use crate::records::Records;
use crate::sheet::{Sheet, END, MAX_MACHINES};
use crate::{bits, refuse, Reply};

/// A plan whose shape fits a sheet, the sheet's own or not.
pub struct Plan<'a> {
    pub groups: Groups,
    tables: [&'a [[u8; 2]]; MAX_MACHINES],
}

impl<'a> Plan<'a> {
    /// Judges the shape of a plan (15).
    pub fn read(sheet: &Sheet, file: &'a [u8]) -> Reply<Self> {
        Self::parse(sheet, file).map_or_else(|| refuse(15, 0), Ok)
    }

    fn parse(sheet: &Sheet, file: &'a [u8]) -> Option<Self> {
        let mut records = Records::new(file);
        let numbers = records.expect(GROUP_NUMBERS, sheet.machines())?;
        let groups = Groups::from_numbers(sheet, numbers)?;
        let mut tables: [&[[u8; 2]]; MAX_MACHINES] = [&[]; MAX_MACHINES];
        for (group, table) in tables[..groups.count].iter_mut().enumerate() {
            let size = groups.size(group);
            if size > MAX_GROUP_MODES {
                return None;
            }
            (*table, _) = records
                .expect(TABLE, 2 * (size * size) as usize)?
                .as_chunks();
        }
        records.expect(BOUND, 4)?;
        records.expect(END, 0)?;
        records.at_end().then_some(Plan { groups, tables })
    }

    /// A group's entries from one mode, by wanted mode.
    pub fn entries(&self, group: usize, from: usize) -> &'a [[u8; 2]] {
        let size = self.groups.size(group) as usize;
        &self.tables[group][from * size..][..size]
    }

    /// Whether a group's mode has a route into a set.
    pub fn attains(&self, group: usize, from: usize, wanted: u64) -> bool {
        let entries = self.entries(group, from);
        bits(wanted).any(|mode| entries[mode][0] != NO_ROUTE[0])
    }

    /// The modes that a group's mode has a route to.
    pub fn reach(&self, group: usize, from: usize) -> u64 {
        let mut reach = 0;
        for (mode, entry) in self.entries(group, from).iter().enumerate() {
            reach |= ((entry[0] != NO_ROUTE[0]) as u64) << mode;
        }
        reach
    }
}
