//! The tests' table of document 01, as Rust has it: read from the text files beside this one, whose first lines say what they hold.

use std::ops::RangeInclusive;

/// A family's letter, the numbers of its forms, and the units that they fit.
pub struct Family {
    pub letter: u8,
    pub numbers: RangeInclusive<u64>,
    pub units: Vec<u8>,
}

/// A row with its forms, each a family's letter and a number.
pub struct Row {
    pub forms: Vec<(u8, u64)>,
    pub parts: Vec<Part>,
    pub signed: bool,
    pub meaning: Meaning,
}

/// What a row's number stands for: times it and plus, or the one of some values that it chooses.
pub enum Meaning {
    Counted { times: i64, plus: u64 },
    Chosen(Vec<i64>),
}

/// Bits `place..place + width` of the slot, or of the L slot, stand for the value bits from `to` on.
pub struct Part {
    pub in_l: bool,
    pub place: u32,
    pub width: u32,
    pub to: u32,
}

/// The fields of each line of a file.
fn lines(file: &str) -> impl Iterator<Item = Vec<&str>> {
    file.lines().filter(|line| !line.starts_with('#')).map(|line| line.split('|').map(str::trim).collect())
}

/// The numbers of `36`, or of `13..19` with both ends.
fn span(text: &str) -> RangeInclusive<u64> {
    let (low, high) = text.split_once("..").unwrap_or((text, text));
    low.parse().unwrap()..=high.parse().unwrap()
}

fn part(text: &str) -> Part {
    let (bits, to) = text.split_once('→').unwrap();
    let place = span(bits.trim_start_matches("L "));
    Part { in_l: bits.starts_with('L'), place: *place.start() as u32, width: place.count() as u32, to: to.parse().unwrap() }
}

fn form(name: &str) -> (u8, u64) {
    (name.as_bytes()[0], name[1..].parse().unwrap())
}

fn signed(kind: &str) -> bool {
    assert!(["signed", "unsigned"].contains(&kind), "{kind}");
    kind == "signed"
}

fn meaning(fields: &[&str]) -> Meaning {
    match fields {
        [values] => Meaning::Chosen(values.split(", ").map(|value| value.parse().unwrap()).collect()),
        [times, plus] => Meaning::Counted { times: times.parse().unwrap(), plus: plus.parse().unwrap() },
        _ => panic!("{fields:?}"),
    }
}

pub fn families() -> Vec<Family> {
    let family = |field: Vec<&str>| Family {
        letter: field[0].as_bytes()[0],
        numbers: span(field[1]),
        units: field[2].split(", ").map(|unit| unit.as_bytes()[0]).collect(),
    };
    lines(include_str!("forms.txt")).map(family).collect()
}

/// The units of each tag; a reserved one has none.
pub fn units() -> [Option<[u8; 3]>; 32] {
    let mut all = [None; 32];
    for field in lines(include_str!("units.txt")) {
        all[field[0].parse::<usize>().unwrap()] = Some(field[1].as_bytes().try_into().unwrap());
    }
    all
}

/// By tag and slot, whether a stop follows.
pub fn stops() -> [[bool; 3]; 32] {
    let mut all = [[false; 3]; 32];
    for field in lines(include_str!("units.txt")) {
        for slot in field[2].split(", ").filter(|slot| *slot != "-") {
            all[field[0].parse::<usize>().unwrap()][slot.parse::<usize>().unwrap()] = true;
        }
    }
    all
}

pub fn rows() -> Vec<Row> {
    let row = |field: Vec<&str>| Row {
        forms: field[0].split(", ").map(form).collect(),
        parts: field[1].split(", ").map(part).collect(),
        signed: signed(field[2]),
        meaning: meaning(&field[3..]),
    };
    lines(include_str!("rows.txt")).map(row).collect()
}

/// The forms of which no new edit is taken.
pub fn retired() -> Vec<(u8, u64)> {
    lines(include_str!("retired.txt")).flat_map(|field| field[0].split(", ").map(form).collect::<Vec<_>>()).collect()
}
