//! Times the library's calls, through crates/bench, beside 000's and plain Rust's on the same inputs, and prints a table. Both
//! sides' answers are compared: a difference ends the run.

#[allow(dead_code)] // the model has all of 01's calls, and what 000 has too isn't timed
#[path = "../model/mod.rs"]
mod model;

use model::immediate::Value;
use model::journal::{self, halves, Counts, Record, NONE, PLACES};
use model::random::Random;
use model::table::{self, Family};
use model::{load, sheet, Model};
use of000::bench as old;
use std::collections::HashMap;
use std::hint::black_box;
use std::time::Instant;

#[link(name = "bench", kind = "static")]
extern "C" {
    fn bench_cut(code: *const u8, length: usize) -> u64;
    fn bench_operands(family: u64, numbers: *const u64, n: usize, words: *const u64, w: usize, ls: *const u64, l: usize) -> u64;
    fn bench_choose(unit: u64, words: *const u64, w: usize, opcodes: *mut u64, o: usize) -> u64;
    fn bench_immediate(code: *const u8, length: usize, slot: u64, family: u64, number: u64) -> u64;
    fn bench_record(
        code: *const u8,
        length: usize,
        other: *const u8,
        size: usize,
        slot: u64,
        family: u64,
        number: u64,
        values: *const u64,
        count: usize,
    ) -> u64;
    fn bench_listing(text: *const u8, length: usize, out: *mut u8, room: usize) -> u64;
    fn bench_report(image: *const u8, length: usize, times: u64) -> u64;
    fn bench_write(code: *mut u8, length: usize, slot: u64, family: u64, number: u64, signed: u64, values: *const u64, count: usize) -> u64;
    fn bench_edit(
        code: *mut u8,
        length: usize,
        parties: u64,
        lower: u64,
        upper: u64,
        records: *mut Record,
        places: usize,
        party: u64,
        times: u64,
    ) -> u64;
    fn bench_fold(parties: u64, lower: u64, upper: u64, records: *mut Record, places: usize, party: u64) -> u64;
    fn bench_sheet(
        parties: u64,
        lower: u64,
        upper: u64,
        records: *mut Record,
        places: usize,
        party: u64,
        out: *mut u8,
        room: usize,
        times: u64,
    ) -> u64;
    fn bench_load(
        parties: u64,
        lower: u64,
        upper: u64,
        records: *mut Record,
        places: usize,
        party: u64,
        text: *const u8,
        length: usize,
        times: u64,
    ) -> u64;
}

const RUNS: usize = 25;
const BUNDLES: usize = 4096;

/// The best time of each side, by turns, a call in nanoseconds; what both answer is compared.
fn line<T: PartialEq>(what: &str, calls: usize, side: &str, mut ours: impl FnMut() -> T, mut theirs: impl FnMut() -> T) {
    let mut best = [f64::MAX; 2];
    for _ in 0..RUNS {
        let begun = Instant::now();
        let mine = black_box(ours());
        let between = Instant::now();
        let other = black_box(theirs());
        let ended = Instant::now();
        if mine != other {
            eprintln!("bench: {what}: the two sides differ");
            std::process::exit(1);
        }
        best[0] = best[0].min((between - begun).as_secs_f64());
        best[1] = best[1].min((ended - between).as_secs_f64());
    }
    let [mine, other] = best.map(|seconds| seconds * 1e9 / calls as f64);
    println!("| {what} | {mine:.1} | {other:.1} | {side} | {:.2} |", other / mine);
}

/// A code whose bundles all have one tag.
fn code_of(random: &mut Random, tag: u64) -> Vec<u8> {
    (0..BUNDLES).flat_map(|_| [random.next() & !31 | tag, random.next()]).flat_map(u64::to_le_bytes).collect()
}

fn cut(random: &mut Random) {
    let units = table::units();
    let tags: Vec<u64> = (0..32).filter(|tag| units[*tag as usize].is_some()).collect();
    let mut code = Vec::new();
    for n in 0..BUNDLES {
        code.extend((random.next() & !31 | tags[n % tags.len()]).to_le_bytes());
        code.extend(random.next().to_le_bytes());
    }
    line("cut, a bundle of 65,536 bytes", BUNDLES, "000", || unsafe { bench_cut(code.as_ptr(), code.len()) }, || old::cut(&code));
}

fn operands(random: &mut Random) {
    const COUNT: usize = 48 * 256;
    for Family { letter, numbers, .. } in table::families() {
        let numbers: Vec<u64> = numbers.cycle().take(COUNT).collect();
        let words: Vec<u64> = (0..COUNT).map(|_| random.next() >> 23).collect();
        let ls: Vec<u64> = (0..COUNT).map(|_| random.next() >> 23).collect();
        let bits: Vec<old::Bits> = words.iter().zip(&ls).map(|(word, l)| old::bits(*word, *l)).collect();
        let what = format!("operands, {} forms", letter as char);
        let ours = || unsafe {
            bench_operands(letter as u64, numbers.as_ptr(), numbers.len(), words.as_ptr(), words.len(), ls.as_ptr(), ls.len())
        };
        line(&what, COUNT, "000", ours, || old::operands(letter, &numbers, &bits));
    }
}

/// Words of every major opcode that a table has. An opcode of ours is one of 000's, on each word the same.
fn choices(random: &mut Random) {
    const COUNT: usize = 48 * 256;
    for (what, unit, top) in [("A", b'M', 1 << 40), ("B", b'B', 0)] {
        let words: Vec<u64> = (0..COUNT).map(|_| random.next() >> 24 | top).collect();
        let bits: Vec<old::Bits> = words.iter().map(|word| old::bits(*word, 0)).collect();
        let (mut mine, mut other) = (vec![0; COUNT], vec![None; COUNT]);
        let ours = || unsafe { bench_choose(unit as u64, words.as_ptr(), words.len(), mine.as_mut_ptr(), mine.len()) };
        line(&format!("choice of opcode and form, {what} words"), COUNT, "000", ours, || old::choose(unit, &bits, &mut other));
        let (mut theirs_of, mut ours_of) = (HashMap::new(), HashMap::new());
        let same = |(our, their)| *theirs_of.entry(our).or_insert(their) == their && *ours_of.entry(format!("{their:?}")).or_insert(our) == our;
        assert!(mine.iter().zip(&other).all(same), "the opcodes differ");
    }
}

/// A tag and a slot that a family fits: slot 1, which stands in both halves of the bundle, before the others.
fn fitting(letter: u8) -> (u64, u64) {
    let family = table::families().into_iter().find(|family| family.letter == letter).unwrap();
    let units = table::units();
    let fits = |tag: u64, slot: u64| units[tag as usize].is_some_and(|units| family.units.contains(&units[slot as usize]));
    (0..32).flat_map(|tag| [1, 2, 0].map(|slot| (tag, slot))).find(|(tag, slot)| fits(*tag, *slot)).unwrap()
}

/// A form of each row of the table, read and written, and the records of what was written, tested.
fn immediates(random: &mut Random, model: &Model) {
    for row in table::rows() {
        let signed = row.signed;
        let (letter, number) = *row.forms.iter().min().unwrap();
        let family = letter as u64;
        let form = format!("{}{number}", letter as char);
        let (tag, slot) = fitting(letter);
        let code = code_of(random, tag);
        // plain Rust looks the form's row up at each call, too, and not once before the loop
        let asked = || black_box(family);
        let read = |n| model.immediate(&code, n, slot, asked(), number).1.pattern();
        let reads = || (0..BUNDLES as u64).fold(0u64, |sum, n| sum.wrapping_add(read(n)));
        let ours = || unsafe { bench_immediate(code.as_ptr(), code.len(), slot, family, number) };
        line(&format!("immediate read, {form}"), BUNDLES, "plain Rust", ours, reads);

        // of numbers so small that M17 and A2 have them too
        let numbers = (0..BUNDLES as i64).map(|n| if signed { n % 8 - 4 } else { n % 4 });
        let values: Vec<u64> = numbers.map(|n| row.value(n as u64 & row.highest()).pattern()).collect();
        let (mut mine, mut other) = (code.clone(), code.clone());
        let (mut first, mut second) = (Vec::new(), Vec::new());
        let ours = || {
            let refused = unsafe {
                bench_write(mine.as_mut_ptr(), mine.len(), slot, family, number, signed as u64, values.as_ptr(), values.len())
            };
            first.clone_from(&mine);
            refused
        };
        let writes = || {
            for (n, value) in values.iter().enumerate() {
                let value = if signed { Value::Signed(*value as i64) } else { Value::Unsigned(*value) };
                if let Ok((_, new)) = model.planned(&other, n as u64, slot, asked(), number, value) {
                    journal::write(&mut other, n as u64, new);
                }
            }
            second.clone_from(&other);
            0
        };
        line(&format!("immediate written, {form}"), BUNDLES, "plain Rust", ours, writes);
        assert!(first == second, "{form}: the codes differ");

        let ours = || unsafe {
            let (old, new) = (code.as_ptr(), first.as_ptr());
            bench_record(old, code.len(), new, first.len(), slot, family, number, values.as_ptr(), values.len())
        };
        let record = |n: usize| {
            let (old, new) = (halves(load(&code, n)), halves(load(&first, n)));
            Record { party: 0, bundle: n as u64, slot, family: asked(), number, value: values[n], old, new }
        };
        let tests = || (0..BUNDLES).filter(|n| model.may_stand(&record(*n))).count() as u64;
        line(&format!("record tested, {form}"), BUNDLES, "plain Rust", ours, tests);
    }
}

fn one_party(count: u64) -> Counts {
    Counts { lower: count, ..Counts::opened(1) }
}

/// So many records of each party, in a slice of them: slot 2, B1, of the first bundles set to 16.
fn filled(model: &Model, code: &mut [u8], counts: Counts) -> Vec<Record> {
    let mut records = vec![NONE; PLACES];
    let mut made = Counts::opened(counts.parties);
    for party in 0..counts.parties {
        for n in 0..counts.of(party) {
            let edited = model.edit(code, made, &mut records, party, n, 2, b'B' as u64, 1, Value::Signed(16));
            made = made.with(party, n + 1);
            assert!(edited == (0, made));
        }
    }
    records
}

/// An edit of the last party, and its undo, with so many standing then.
fn edits(random: &mut Random, model: &Model) {
    let two = Counts { parties: 2, lower: 512, upper: 512 };
    let standing = [(one_party(1), "1", 2000), (one_party(64), "64", 2000), (one_party(1024), "1,024", 200), (two, "512 and 512", 200)];
    for (standing, what, times) in standing {
        let party = standing.parties - 1;
        let counts = standing.with(party, standing.of(party) - 1);
        let mut code = code_of(random, 16);
        let mut records = filled(model, &mut code, counts);
        let (mut mine, mut lent) = (code.clone(), records.clone());
        let Counts { parties, lower, upper } = counts;
        let ours = || unsafe {
            bench_edit(mine.as_mut_ptr(), mine.len(), parties, lower, upper, lent.as_mut_ptr(), lent.len(), party, times)
        };
        let theirs = || {
            let mut last = (0, counts);
            let mut sum = 0;
            for _ in 0..times {
                last = model.edit(&mut code, last.1, &mut records, party, 63, 2, b'B' as u64, 1, Value::Signed(32));
                sum += last.0 as u64;
                last = model.undo(&mut code, last.1, &mut records, party);
                sum += last.0 as u64;
            }
            sum
        };
        line(&format!("edit and its undo, {what} standing"), times as usize, "plain Rust", ours, theirs);
        assert!(mine == code && lent == records, "the codes or the records differ");
    }
}

/// A full journal of so many bundles, each touched in turn, folded; both sides copy the records first.
fn folds(random: &mut Random, model: &Model) {
    let times = 200;
    for (bundles, what) in [(1, "1 bundle"), (32, "32 bundles"), (1024, "1,024 bundles")] {
        let mut code = code_of(random, 16);
        let mut given = vec![NONE; PLACES];
        let mut counts = Counts::opened(1);
        for n in 0..PLACES as u64 {
            let edited = model.edit(&mut code, counts, &mut given, 0, n % bundles, 2, b'B' as u64, 1, Value::Signed(16 * n as i64));
            counts = counts.with(0, n + 1);
            assert!(edited == (0, counts));
        }
        let (mut lent, mut records) = (given.clone(), given.clone());
        let Counts { parties, lower, upper } = counts;
        let ours = || {
            let mut sum = 0;
            for _ in 0..times {
                lent.copy_from_slice(&given);
                sum += unsafe { bench_fold(parties, lower, upper, lent.as_mut_ptr(), lent.len(), 0) };
            }
            sum
        };
        let theirs = || {
            let mut sum = 0;
            for _ in 0..times {
                records.copy_from_slice(&given);
                let (answer, left) = model.fold(counts, &mut records, 0);
                sum += answer as u64 + left.lower;
            }
            sum
        };
        line(&format!("1,024 records of {what} folded"), times, "plain Rust", ours, theirs);
        assert!(lent == records && records[bundles as usize - 1] != NONE, "the records differ, or too few are left");
    }
}

/// With five fields a line, as sheets were before a record told of its edit.
fn old_sheet(records: &[Record]) -> String {
    let halves = |[low, high]: [u64; 2]| format!("{low}\t{high}");
    let line = |one: &Record| format!("{}\t{}\t{}\n", one.bundle, halves(one.old), halves(one.new));
    format!("patches\t{}\n", records.len()) + &records.iter().map(line).collect::<String>()
}

fn sheets(random: &mut Random, model: &Model) {
    for (count, what, times) in [(64, "64", 200), (1024, "1,024", 20)] {
        let records = filled(model, &mut code_of(random, 16), one_party(count));
        let mut lent = records.clone();
        let (mut first, mut second) = (vec![0; sheet::LONGEST], vec![0; sheet::LONGEST]);
        let ours = || unsafe { bench_sheet(1, count, 0, lent.as_mut_ptr(), lent.len(), 0, first.as_mut_ptr(), first.len(), times) };
        let mut length = 0;
        let theirs = || {
            let mut sum = 0;
            for _ in 0..times {
                length = model.write_sheet(one_party(count), &records, 0, &mut second).1;
                sum += length as u64;
            }
            sum
        };
        line(&format!("sheet of {what} records written"), times as usize, "plain Rust", ours, theirs);
        assert!(first == second && lent == records, "the sheets or the records differ");
        let old = old_sheet(&records[..count as usize]);
        loads(model, &format!("{what} records"), times, &first[..length]);
        loads(model, &format!("{what} old lines"), times, old.as_bytes());
    }
}

/// Each time from a fresh journal, since loading tests the one that it changes.
fn loads(model: &Model, what: &str, times: u64, text: &[u8]) {
    let (mut lent, mut records) = (vec![NONE; PLACES], vec![NONE; PLACES]);
    let ours = || {
        lent.fill(NONE);
        unsafe { bench_load(1, 0, 0, lent.as_mut_ptr(), lent.len(), 0, text.as_ptr(), text.len(), times) }
    };
    let theirs = || {
        records.fill(NONE);
        let mut last = (0, Counts::opened(1));
        let mut sum = 0;
        for _ in 0..times {
            last = model.load_sheet(last.1, &mut records, 0, text);
            sum += last.0 as u64;
        }
        sum
    };
    line(&format!("sheet of {what} loaded"), times as usize, "plain Rust", ours, theirs);
    assert!(lent == records && lent[0] != NONE, "the records differ, or none was loaded");
}

fn listing(random: &mut Random, model: &Model) {
    let text: Vec<u8> = (0..16 * BUNDLES).flat_map(|_| format!("{:02x} ", random.next() as u8).into_bytes()).collect();
    let (mut first, mut second) = (vec![0; 229419], vec![0; 229419]);
    let ours = || unsafe { bench_listing(text.as_ptr(), text.len(), first.as_mut_ptr(), first.len()) as usize };
    line("listing, a bundle of 65,536 bytes", BUNDLES, "plain Rust", ours, || model.listing(&text, &mut second).1);
    assert!(first == second, "the listings differ");
}

fn report(random: &mut Random, model: &Model) {
    const TIMES: u64 = 100;
    let image: Vec<u8> = (0..2 * BUNDLES).flat_map(|_| random.next().to_le_bytes()).collect();
    let theirs = || {
        let (mut answer, mut report) = (0, [0; 36]);
        for _ in 0..TIMES {
            (answer, report) = model.report(black_box(&report), black_box(&image));
        }
        report.iter().fold(answer as u64, |sum, n| sum.wrapping_add(*n))
    };
    line("report, 65,536 bytes", TIMES as usize, "plain Rust", || unsafe { bench_report(image.as_ptr(), image.len(), TIMES) }, theirs);
}

fn main() {
    let mut random = Random(0x9e37_79b9_7f4a_7c15);
    let model = Model::new();
    println!("| What | ns | other side's ns | other side | ratio |\n|---|---|---|---|---|");
    cut(&mut random);
    operands(&mut random);
    choices(&mut random);
    immediates(&mut random, &model);
    edits(&mut random, &model);
    folds(&mut random, &model);
    sheets(&mut random, &model);
    listing(&mut random, &model);
    report(&mut random, &model);
}
