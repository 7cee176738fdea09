//! Cleaning: an amended sheet is written out with no amendments.

use crate::records::Writer;
use crate::sheet::{Sheet, END, MOVE};
use crate::version::Version;
use crate::{front, Reply};

/// The longest clean sheet.
pub const MAX_CLEAN: usize = 6196;

/// Writes the clean sheet: the machines, the standing moves and the end; answers
/// its length.
pub fn clean(file: &[u8], out: &mut [u8]) -> Reply<usize> {
    let sheet = Sheet::read(file)?;
    let machines = sheet.machine_records();
    let moves: usize = sheet.bodies().map(|body| 4 + body.len()).sum();
    let length = machines.len() + moves + 4;
    let (head, rest) = front(out, length)?.split_at_mut(machines.len());
    head.copy_from_slice(machines);
    let mut writer = Writer::new(rest);
    for body in sheet.bodies() {
        writer.record(MOVE, body.len()).copy_from_slice(body);
    }
    writer.record(END, 0);
    Ok(length)
}

/// The clean sheet in a buffer of its own.
pub fn own_clean<V: Version>(sheet: &[u8]) -> Reply<Vec<u8>> {
    let mut bytes = vec![0; MAX_CLEAN];
    let length = V::clean(sheet, &mut bytes)?;
    bytes.truncate(length as usize);
    Ok(bytes)
}
