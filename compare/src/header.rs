//! The C header and the numbers that it gives names.

pub const HEADER: &str = include_str!("../../include/duty.h");

/// The number that the header gives a name.
pub fn constant(name: &str) -> usize {
    let definition = HEADER.split_once(&format!("#define {name} "));
    let (_, rest) = definition.unwrap_or_else(|| panic!("no {name} in the header"));
    let number = rest.lines().next().expect("a line");
    number.parse().expect("a number")
}
