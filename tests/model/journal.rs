//! Records of one party or two in a slice that is lent, edit, undo and fold.

use super::immediate::Value;
use super::{load, Model, MOST};

/// How many records a slice has.
pub const PLACES: usize = 1024;

/// A bundle's halves, low and high.
pub type Halves = [u64; 2];

/// What was done, and by whom: an edit, its value as a pattern; family and number are 0 where a whole bundle was changed. Laid out as in the
/// library.
#[repr(C)]
#[derive(Clone, Copy, PartialEq)]
pub struct Record {
    pub party: u64,
    pub bundle: u64,
    pub slot: u64,
    pub family: u64,
    pub number: u64,
    pub value: u64,
    pub old: Halves,
    pub new: Halves,
}

/// What a free place holds.
pub const NONE: Record = Record::whole(0, 0, [0; 2], [0; 2]);

/// How many parties a journal is for, and how many records stand of the first and of the second.
#[derive(Clone, Copy, PartialEq)]
pub struct Counts {
    pub parties: u64,
    pub lower: u64,
    pub upper: u64,
}

impl Counts {
    pub const fn opened(parties: u64) -> Counts {
        Counts { parties, lower: 0, upper: 0 }
    }

    /// How many places the first party has; the others are the second's.
    fn half(&self) -> usize {
        if self.parties == 2 { PLACES / 2 } else { PLACES }
    }

    pub fn of(&self, party: u64) -> u64 {
        if party == 0 { self.lower } else { self.upper }
    }

    pub fn with(self, party: u64, count: u64) -> Counts {
        if party == 0 { Counts { lower: count, ..self } } else { Counts { upper: count, ..self } }
    }
}

/// A party's places.
pub fn part(counts: Counts, party: u64, records: &[Record]) -> &[Record] {
    let (lower, upper) = records.split_at(counts.half());
    if party == 0 { lower } else { upper }
}

pub fn part_mut(counts: Counts, party: u64, records: &mut [Record]) -> &mut [Record] {
    let (lower, upper) = records.split_at_mut(counts.half());
    if party == 0 { lower } else { upper }
}

pub fn halves(whole: u128) -> Halves {
    [whole as u64, (whole >> 64) as u64]
}

fn whole(halves: Halves) -> u128 {
    halves[0] as u128 | (halves[1] as u128) << 64
}

impl Record {
    pub const fn whole(party: u64, bundle: u64, old: Halves, new: Halves) -> Record {
        Record { party, bundle, slot: 0, family: 0, number: 0, value: 0, old, new }
    }

    pub fn is_whole(&self) -> bool {
        *self == Record::whole(self.party, self.bundle, self.old, self.new)
    }
}

pub fn write(code: &mut [u8], bundle: u64, whole: u128) {
    let at = 16 * bundle as usize;
    code[at..at + 16].copy_from_slice(&whole.to_le_bytes());
}

impl Model {
    /// Whether a record can stand in a journal or a sheet; its form may be retired since.
    pub fn may_stand(&self, one: &Record) -> bool {
        let made = || self.changed(whole(one.old), one.slot, one.family, one.number, one.value);
        one.bundle <= 4095 && (one.is_whole() || made() == Ok(whole(one.new)))
    }

    /// Whether the journal is valid, both parties' parts of it, and the party known.
    pub fn valid(&self, counts: Counts, records: &[Record], party: u64) -> bool {
        records.len() == PLACES
            && (counts.parties == 1 || counts.parties == 2)
            && party < counts.parties
            && [0, 1].into_iter().all(|party| self.valid_part(party, counts.of(party), part(counts, party, records)))
    }

    fn valid_part(&self, party: u64, count: u64, places: &[Record]) -> bool {
        count <= places.len() as u64
            && places[..count as usize].iter().all(|one| one.party == party && self.may_stand(one))
            && places[count as usize..].iter().all(|place| *place == NONE)
    }

    /// The answer and the counts.
    pub fn edit(
        &self,
        code: &mut [u8],
        counts: Counts,
        records: &mut [Record],
        party: u64,
        bundle: u64,
        slot: u64,
        family: u64,
        number: u64,
        value: Value,
    ) -> (u8, Counts) {
        let (old, new) = match self.planned(code, bundle, slot, family, number, value) {
            Ok(_) | Err(5 | 6) if self.is_retired(family, number) => return (15, counts),
            Ok(plan) => plan,
            Err(answer) => return (answer, counts),
        };
        if !self.valid(counts, records, party) {
            return (11, counts);
        }
        let (count, places) = (counts.of(party), part_mut(counts, party, records));
        if count == places.len() as u64 {
            return (7, counts);
        }
        write(code, bundle, new);
        let (old, new) = (halves(old), halves(new));
        places[count as usize] = Record { party, bundle, slot, family, number, value: value.pattern(), old, new };
        (0, counts.with(party, count + 1))
    }

    /// The answer and the counts.
    pub fn undo(&self, code: &mut [u8], counts: Counts, records: &mut [Record], party: u64) -> (u8, Counts) {
        if code.len() > MOST {
            return (10, counts);
        }
        if !self.valid(counts, records, party) {
            return (11, counts);
        }
        let count = counts.of(party);
        if count == 0 {
            return (8, counts);
        }
        let last = &mut part_mut(counts, party, records)[count as usize - 1];
        if last.bundle >= code.len() as u64 / 16 {
            return (1, counts);
        }
        if load(code, last.bundle as usize) != whole(last.new) {
            return (9, counts);
        }
        write(code, last.bundle, whole(last.old));
        *last = NONE;
        (0, counts.with(party, count - 1))
    }

    /// The answer and the counts.
    pub fn fold(&self, counts: Counts, records: &mut [Record], party: u64) -> (u8, Counts) {
        if !self.valid(counts, records, party) {
            return (11, counts);
        }
        let (count, places) = (counts.of(party) as usize, part_mut(counts, party, records));
        // by bundle: the place of the record that is left of it, and past all places while there is none
        let mut left_at = [PLACES as u16; MOST / 16];
        let mut left = 0;
        for i in 0..count {
            let one = places[i];
            let at = &mut left_at[one.bundle as usize];
            if *at == PLACES as u16 {
                *at = left as u16;
                places[left] = Record::whole(party, one.bundle, one.old, one.new);
                left += 1;
            } else {
                places[*at as usize].new = one.new;
            }
        }
        places[left..count].fill(NONE);
        (0, counts.with(party, left as u64))
    }
}
