// choices CONSTANTS ENUM: holds the service choices' names in two files, the port's constants and the Rust crate's enum, to the given Rust's enum; each has all of its names up to number 33, with its numbers, and no other.
use embedded_bacnet::application_protocol::confirmed::ConfirmedServiceChoice;
use std::collections::BTreeSet;

type Names = BTreeSet<(String, u8)>;

fn main() {
    let usage = "usage: choices CONSTANTS ENUM";
    let mut paths = std::env::args().skip(1);
    let mut text = || std::fs::read_to_string(paths.next().expect(usage)).expect(usage);
    let constants = text().lines().filter_map(constant).collect();
    let variants = text().lines().filter_map(variant).collect();
    let given = given();
    let capitals = given.iter().map(|(name, number)| (in_capitals(name), *number)).collect();
    let mut found = differences("the port's constants", &constants, &capitals);
    found.extend(differences("the Rust crate's enum", &variants, &given));
    for difference in &found {
        println!("oracle: {difference}");
    }
    if !found.is_empty() {
        std::process::exit(1);
    }
    println!("oracle: {} names of service choices are the given Rust's", given.len());
}

/// The given Rust's names and numbers; its last, 34, is a marker for the list's end.
fn given() -> Names {
    (0..=33)
        .map(|number| ConfirmedServiceChoice::try_from(number).expect("a choice"))
        .map(|choice| (format!("{choice:?}"), choice as u8))
        .collect()
}

/// A name as Rattle writes constants: ReadRange is READ_RANGE.
fn in_capitals(name: &str) -> String {
    let mut capitals = String::new();
    for letter in name.chars() {
        if letter.is_uppercase() && !capitals.is_empty() {
            capitals.push('_');
        }
        capitals.extend(letter.to_uppercase());
    }
    capitals
}

/// The name and number of a line `pub const NAME: u8 = NUMBER;`.
fn constant(line: &str) -> Option<(String, u8)> {
    let (name, number) =
        line.strip_prefix("pub const ")?.strip_suffix(';')?.split_once(": u8 = ")?;
    Some((name.to_string(), number.parse().ok()?))
}

/// The name and number of a line `Name = NUMBER,`.
fn variant(line: &str) -> Option<(String, u8)> {
    let (name, number) = line.trim().strip_suffix(',')?.split_once(" = ")?;
    Some((name.to_string(), number.parse().ok()?))
}

/// What stands in one of the two sets alone.
fn differences(whose: &str, names: &Names, given: &Names) -> Vec<String> {
    let here = names.difference(given).map(|(name, number)| format!("{whose}: {name} = {number}"));
    let there =
        given.difference(names).map(|(name, number)| format!("{whose}: no {name} = {number}"));
    here.chain(there).collect()
}
