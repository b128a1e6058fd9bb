//! Sheets of a party's records, written as a whole or line by line, and loaded.

use super::journal::{part, part_mut, Counts, Halves, Record, NONE, PLACES};
use super::text::Text;
use super::Model;

pub const LONGEST: usize = 118797;

impl Model {
    /// The answer and the sheet's length.
    pub fn write_sheet(&self, counts: Counts, records: &[Record], party: u64, out: &mut [u8]) -> (u8, usize) {
        self.written(counts, records, party, out, LONGEST, |text, standing| {
            put_header(text, standing.len());
            standing.iter().for_each(|one| put(text, one));
        })
    }

    /// The answer and the length of a line of the sheet: the first is the header, and past the last all are empty.
    pub fn write_line(&self, counts: Counts, records: &[Record], party: u64, line: u64, out: &mut [u8]) -> (u8, usize) {
        self.written(counts, records, party, out, LONGEST_LINE, |text, standing| match line {
            0 => put_header(text, standing.len()),
            _ if line <= standing.len() as u64 => put(text, &standing[line as usize - 1]),
            _ => (),
        })
    }

    /// The answer and the length of a text of the party's records, which is written where it has room; it is at most so long.
    fn written(
        &self,
        counts: Counts,
        records: &[Record],
        party: u64,
        out: &mut [u8],
        longest: usize,
        put: impl Fn(&mut Text, &[Record]),
    ) -> (u8, usize) {
        if !self.valid(counts, records, party) {
            return (11, 0);
        }
        let standing = &part(counts, party, records)[..counts.of(party) as usize];
        if out.len() < longest {
            let mut lost = Text { out: &mut [], length: 0 };
            put(&mut lost, standing);
            if out.len() < lost.length {
                return (12, 0);
            }
        }
        let mut text = Text { out, length: 0 };
        put(&mut text, standing);
        (0, text.length)
    }

    /// The answer and the counts: the sheet's records take the place of the party's.
    pub fn load_sheet(&self, counts: Counts, records: &mut [Record], party: u64, text: &[u8]) -> (u8, Counts) {
        if !self.valid(counts, records, party) {
            return (11, counts);
        }
        let Some((said, lines)) = header(text) else { return (13, counts) };
        let places = part_mut(counts, party, records);
        match self.loaded(places, party, said, lines, full).or_else(|| self.loaded(places, party, said, lines, old)) {
            None => (13, counts),
            Some(false) => (7, counts),
            Some(true) => (0, counts.with(party, said)),
        }
    }

    /// Loads so many lines of one kind, with no copy of the records: the lines are looked at first, and no record is written where they aren't
    /// such. Whether there are places for all of them, or nothing where they aren't such.
    fn loaded(&self, places: &mut [Record], party: u64, count: u64, lines: &[u8], line: impl Fn(&mut &[u8]) -> Option<Record>) -> Option<bool> {
        let mut text = lines;
        let good = (0..count).all(|_| line(&mut text).is_some_and(|one| self.may_stand(&one))) && text.is_empty();
        let room = count <= places.len() as u64;
        if good && room {
            text = lines;
            places[..count as usize].fill_with(|| Record { party, ..line(&mut text).unwrap() });
            places[count as usize..].fill(NONE);
        }
        good.then_some(room)
    }
}

const LONGEST_LINE: usize = 116;

fn put_header(text: &mut Text, count: usize) {
    text.put(b"patches\t");
    text.field(count as u64, b'\n');
}

fn put(text: &mut Text, one: &Record) {
    text.field(one.bundle, b'\t');
    text.field(one.slot, b'\t');
    if one.family == 0 {
        text.put(b"-\t");
    } else {
        text.put(&[one.family as u8]);
        text.field(one.number, b'\t');
    }
    text.field(one.value, b'\t');
    for (halves, end) in [(one.old, b'\t'), (one.new, b'\n')] {
        text.field(halves[0], b'\t');
        text.field(halves[1], end);
    }
}

/// How many lines a header promises, and the text after it.
fn header(text: &[u8]) -> Option<(u64, &[u8])> {
    let mut text = text.strip_prefix(b"patches\t")?;
    let count = number(&mut text, b'\n').filter(|count| *count <= PLACES as u64)?;
    Some((count, text))
}

fn number(text: &mut &[u8], end: u8) -> Option<u64> {
    let digits = text.iter().take_while(|byte| byte.is_ascii_digit()).count();
    if digits == 0 || (digits > 1 && text[0] == b'0') {
        return None;
    }
    let mut n: u64 = 0;
    for digit in &text[..digits] {
        n = n.checked_mul(10)?.checked_add((digit - b'0') as u64)?;
    }
    if *text.get(digits)? != end {
        return None;
    }
    *text = &text[digits + 1..];
    Some(n)
}

fn halves(text: &mut &[u8], end: u8) -> Option<Halves> {
    Some([number(text, b'\t')?, number(text, end)?])
}

/// A form's family and number; zeros for `-`.
fn form(text: &mut &[u8]) -> Option<(u64, u64)> {
    if let Some(rest) = text.strip_prefix(b"-\t") {
        *text = rest;
        return Some((0, 0));
    }
    let family = text.first().filter(|byte| byte.is_ascii_uppercase())?;
    *text = &text[1..];
    Some((*family as u64, number(text, b'\t')?))
}

/// A line of eight fields, which doesn't say the party.
fn full(text: &mut &[u8]) -> Option<Record> {
    let (bundle, slot) = (number(text, b'\t')?, number(text, b'\t')?);
    let (family, number_of) = form(text)?;
    let value = number(text, b'\t')?;
    Some(Record { party: 0, bundle, slot, family, number: number_of, value, old: halves(text, b'\t')?, new: halves(text, b'\n')? })
}

/// A line of five fields, as sheets had them before records told of edits.
fn old(text: &mut &[u8]) -> Option<Record> {
    Some(Record::whole(0, number(text, b'\t')?, halves(text, b'\t')?, halves(text, b'\n')?))
}
