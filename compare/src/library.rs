//! The proved library, behind its C interface.

use crate::command::Command;
use crate::version::Version;
use crate::{refuse, Reply};

extern "C" {
    fn duty_sheet(sheet: *const u8, n: usize) -> u64;
    fn duty_plan_length(sheet: *const u8, n: usize) -> u64;
    fn duty_plan(
        sheet: *const u8,
        n: usize,
        plan: *mut u8,
        plan_n: usize,
        scratch: *mut u8,
        scratch_n: usize,
    ) -> u64;
    fn duty_next(
        sheet: *const u8,
        n: usize,
        plan: *const u8,
        plan_n: usize,
        state: *const u8,
        state_n: usize,
        wish: *const u8,
        wish_n: usize,
    ) -> u64;
    fn duty_apply(
        sheet: *const u8,
        n: usize,
        state: *mut u8,
        state_n: usize,
        machine: u8,
        command: u8,
    ) -> u64;
    fn duty_join(
        sheet: *const u8,
        n: usize,
        wishes: *const u8,
        wishes_n: usize,
        out: *mut u8,
        out_n: usize,
    ) -> u64;
    fn duty_graph(sheet: *const u8, n: usize, out: *mut u8, out_n: usize) -> u64;
    fn duty_graph_read(text: *const u8, n: usize, out: *mut u8, out_n: usize) -> u64;
    fn duty_clean(sheet: *const u8, n: usize, out: *mut u8, out_n: usize) -> u64;
}

/// Splits a reply word: the refusal's number above, its place or the value below.
fn split(word: u64) -> Reply<u32> {
    match word >> 32 {
        0 => Ok(word as u32),
        number => refuse(number as u32, word as u32 as usize),
    }
}

pub struct Library;

impl Version for Library {
    const NAME: &'static str = "the library";

    fn sheet(sheet: &[u8]) -> Reply<u32> {
        split(unsafe { duty_sheet(sheet.as_ptr(), sheet.len()) })
    }

    fn plan_length(sheet: &[u8]) -> Reply<u32> {
        split(unsafe { duty_plan_length(sheet.as_ptr(), sheet.len()) })
    }

    fn plan(sheet: &[u8], plan: &mut [u8], scratch: &mut [u8]) -> Reply<u32> {
        split(unsafe {
            duty_plan(
                sheet.as_ptr(),
                sheet.len(),
                plan.as_mut_ptr(),
                plan.len(),
                scratch.as_mut_ptr(),
                scratch.len(),
            )
        })
    }

    fn next(sheet: &[u8], plan: &[u8], state: &[u8], goal: &[u8]) -> Reply<u32> {
        split(unsafe {
            duty_next(
                sheet.as_ptr(),
                sheet.len(),
                plan.as_ptr(),
                plan.len(),
                state.as_ptr(),
                state.len(),
                goal.as_ptr(),
                goal.len(),
            )
        })
    }

    fn apply(sheet: &[u8], state: &mut [u8], command: Command) -> Reply<u32> {
        split(unsafe {
            duty_apply(
                sheet.as_ptr(),
                sheet.len(),
                state.as_mut_ptr(),
                state.len(),
                command.machine,
                command.command,
            )
        })
    }

    fn join(sheet: &[u8], wishes: &[u8], out: &mut [u8]) -> Reply<u32> {
        split(unsafe {
            duty_join(
                sheet.as_ptr(),
                sheet.len(),
                wishes.as_ptr(),
                wishes.len(),
                out.as_mut_ptr(),
                out.len(),
            )
        })
    }

    fn graph(sheet: &[u8], out: &mut [u8]) -> Reply<u32> {
        split(unsafe { duty_graph(sheet.as_ptr(), sheet.len(), out.as_mut_ptr(), out.len()) })
    }

    fn graph_read(text: &[u8], out: &mut [u8]) -> Reply<u32> {
        split(unsafe { duty_graph_read(text.as_ptr(), text.len(), out.as_mut_ptr(), out.len()) })
    }

    fn clean(sheet: &[u8], out: &mut [u8]) -> Reply<u32> {
        split(unsafe { duty_clean(sheet.as_ptr(), sheet.len(), out.as_mut_ptr(), out.len()) })
    }
}
