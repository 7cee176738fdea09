//! The calls asked of both versions, which must reply and write alike.

use crate::command::{Command, Effect, Next};
use crate::library::Library;
use crate::version::{Rust, Version};
use crate::{clean as cleaning, pictures, walk as walks, Reply};
use std::fmt::Debug;

/// What both versions gave.
#[track_caller]
fn same<T: PartialEq + Debug>(by_rust: T, by_library: T) -> T {
    assert_eq!(by_library, by_rust, "the library differs (left)");
    by_rust
}

#[track_caller]
pub fn check_sheet(sheet: &[u8]) -> Reply<u32> {
    same(Rust::sheet(sheet), Library::sheet(sheet))
}

#[track_caller]
pub fn plan_length(sheet: &[u8]) -> Reply<usize> {
    let length = same(Rust::plan_length(sheet), Library::plan_length(sheet));
    length.map(|length| length as usize)
}

#[track_caller]
pub fn plan(sheet: &[u8], plan: &mut [u8], scratch: &mut [u8]) -> Reply<()> {
    let (mut other, mut other_scratch) = (plan.to_vec(), scratch.to_vec());
    let by_library = Library::plan(sheet, &mut other, &mut other_scratch);
    let reply = same(Rust::plan(sheet, plan, scratch), by_library);
    same((&*plan, &*scratch), (&other, &other_scratch));
    reply.map(|_| ())
}

#[track_caller]
pub fn next_command(sheet: &[u8], plan: &[u8], state: &[u8], goal: &[u8]) -> Reply<Next> {
    let by_library = Library::next(sheet, plan, state, goal);
    same(Rust::next(sheet, plan, state, goal), by_library).map(Next::of_value)
}

#[track_caller]
pub fn apply(sheet: &[u8], state: &mut [u8], command: Command) -> Reply<Effect> {
    let mut other = state.to_vec();
    let by_library = Library::apply(sheet, &mut other, command);
    let reply = same(Rust::apply(sheet, state, command), by_library);
    same(&*state, &other);
    reply.map(Effect::of_value)
}

/// What both versions write into a buffer; answers how many bytes these are.
#[track_caller]
fn written(
    out: &mut [u8],
    by_rust: impl FnOnce(&mut [u8]) -> Reply<u32>,
    by_library: impl FnOnce(&mut [u8]) -> Reply<u32>,
) -> Reply<usize> {
    let mut other = out.to_vec();
    let length = by_library(&mut other);
    let length = same(by_rust(out), length);
    same(&*out, &other);
    length.map(|length| length as usize)
}

#[track_caller]
pub fn join(sheet: &[u8], wishes: &[u8], out: &mut [u8]) -> Reply<usize> {
    let by_library = |out: &mut [u8]| Library::join(sheet, wishes, out);
    written(out, |out| Rust::join(sheet, wishes, out), by_library)
}

#[track_caller]
pub fn graph(sheet: &[u8], out: &mut [u8]) -> Reply<usize> {
    let by_library = |out: &mut [u8]| Library::graph(sheet, out);
    written(out, |out| Rust::graph(sheet, out), by_library)
}

#[track_caller]
pub fn graph_read(text: &[u8], out: &mut [u8]) -> Reply<usize> {
    let by_library = |out: &mut [u8]| Library::graph_read(text, out);
    written(out, |out| Rust::graph_read(text, out), by_library)
}

#[track_caller]
pub fn clean(sheet: &[u8], out: &mut [u8]) -> Reply<usize> {
    let by_library = |out: &mut [u8]| Library::clean(sheet, out);
    written(out, |out| Rust::clean(sheet, out), by_library)
}

#[track_caller]
pub fn own_clean(sheet: &[u8]) -> Reply<Vec<u8>> {
    let by_library = cleaning::own_clean::<Library>(sheet);
    same(cleaning::own_clean::<Rust>(sheet), by_library)
}

#[track_caller]
pub fn own_text(sheet: &[u8]) -> Reply<Vec<u8>> {
    let by_library = pictures::own_text::<Library>(sheet);
    same(pictures::own_text::<Rust>(sheet), by_library)
}

#[track_caller]
pub fn shown(text: &[u8]) -> Reply<Vec<u8>> {
    let by_library = pictures::shown::<Library>(text);
    same(pictures::shown::<Rust>(text), by_library)
}

#[track_caller]
pub fn own_plan(sheet: &[u8]) -> Reply<Vec<u8>> {
    let by_library = walks::own_plan::<Library>(sheet);
    same(walks::own_plan::<Rust>(sheet), by_library)
}

#[track_caller]
pub fn walk(sheet: &[u8], state: &[u8], goal: &[u8]) -> String {
    let by_library = walks::walk::<Library>(sheet, state, goal);
    same(walks::walk::<Rust>(sheet, state, goal), by_library)
}
