//! Document 01 in plain Rust: cut, immediates, targets, the journal, sheets, the listing, and the report, with all refusals. Bundles are
//! numbers of 128 bits, and a journal is its parties' counts and a slice of records that is lent. Written from the paper, with its forms,
//! units, stops and rows from ../table, and not from the Rattle. The replayer's stand-in compares with it, and the benchmark times it beside
//! the library.

pub mod immediate;
pub mod journal;
mod listing;
pub mod random;
mod report;
pub mod sheet;
#[path = "../table/table.rs"]
pub mod table;
mod text;

use table::Row;

const MOST: usize = 65536;

/// The table, as the calls look things up in it.
pub struct Model {
    units: [Option<[u8; 3]>; 32],
    stops: [[bool; 3]; 32],
    /// By a family's letter: the units of the slots that it fits.
    fitting: [Vec<u8>; 256],
    /// By a family's letter and a form's number.
    rows: [Vec<Option<Row>>; 256],
    retired: Vec<(u8, u64)>,
}

/// The answer, a bundle's tag, its units, its slots and after which of them a stop stands.
pub type Cut = (u8, u8, [u8; 3], [u64; 3], [bool; 3]);

fn mask(width: u32) -> u64 {
    u64::MAX >> (64 - width)
}

pub fn load(code: &[u8], bundle: usize) -> u128 {
    u128::from_le_bytes(code[16 * bundle..16 * bundle + 16].try_into().unwrap())
}

/// The bundle as one number, or the refusal.
fn find(code: &[u8], bundle: u64) -> Result<u128, u8> {
    if code.len() > MOST {
        return Err(10);
    }
    if bundle >= code.len() as u64 / 16 {
        return Err(1);
    }
    Ok(load(code, bundle as usize))
}

fn tag(whole: u128) -> u8 {
    whole as u8 % 32
}

fn slots(whole: u128) -> [u64; 3] {
    [5, 46, 87].map(|place| (whole >> place) as u64 & mask(41))
}

impl Model {
    pub fn new() -> Model {
        let (fitting, rows) = ([const { Vec::new() }; 256], [const { Vec::new() }; 256]);
        let mut model = Model { units: table::units(), stops: table::stops(), fitting, rows, retired: table::retired() };
        for family in table::families() {
            let row = |number| table::rows().into_iter().find(|row| row.forms.contains(&(family.letter, number)));
            model.rows[family.letter as usize] = (0..=*family.numbers.end()).map(row).collect();
            model.fitting[family.letter as usize] = family.units;
        }
        model
    }

    fn units(&self, whole: u128) -> Option<[u8; 3]> {
        self.units[tag(whole) as usize]
    }

    fn stops(&self, whole: u128) -> [bool; 3] {
        self.stops[tag(whole) as usize]
    }

    fn row(&self, family: u64, number: u64) -> Option<&Row> {
        self.rows.get(family as usize)?.get(number as usize)?.as_ref()
    }

    /// Whether no new edit of the form is taken.
    fn is_retired(&self, family: u64, number: u64) -> bool {
        self.retired.iter().any(|form| (form.0 as u64, form.1) == (family, number))
    }

    pub fn cut(&self, code: &[u8], bundle: u64) -> Cut {
        match find(code, bundle) {
            Err(answer) => (answer, 0, [0; 3], [0; 3], [false; 3]),
            Ok(whole) => match self.units(whole) {
                None => (2, tag(whole), [0; 3], [0; 3], [false; 3]),
                Some(units) => (0, tag(whole), units, slots(whole), self.stops(whole)),
            },
        }
    }
}
