//! A stand-in for the replayer: calls cut, immediate and target of the archive through the Rust module, on boundary and random
//! inputs, and compares what comes back with the model of document 01.

#[path = "../../rust/glindorsc.rs"]
mod glindorsc;
#[allow(dead_code)] // the model has all of 01's calls, and the replayer makes three
#[path = "../model/mod.rs"]
mod model;

use glindorsc::{Answered, Bundle, Place};
use model::random::Random;
use model::{table, Model};

const WORD: u64 = (1 << 41) - 1;

/// Numbers at and around where a call could go wrong.
const EDGES: [u64; 14] = [0, 1, 2, 3, 4, 255, 256, 257, 1 << 32, (1 << 32) + 2, 1 << 60, (1 << 60) + 1, 1 << 63, u64::MAX];

const ADDRESSES: [u64; 10] = [0, 1, 8, 15, 16, 17, 0x4000_0000_0000_0000, 1 << 63, u64::MAX - 15, u64::MAX];

struct Run {
    model: Model,
    random: Random,
    calls: u64,
    differences: u64,
}

impl Run {
    fn same<T: PartialEq + std::fmt::Debug>(&mut self, what: &str, input: &dyn std::fmt::Debug, got: T, want: T) {
        self.calls += 1;
        if got != want {
            self.differences += 1;
            if self.differences <= 10 {
                println!("{what} {input:x?}: the archive gives {got:x?}, document 01 {want:x?}");
            }
        }
    }

    /// The bundle's sixteen bytes, to show where a difference is.
    fn shown(code: &[u8], bundle: u64) -> &[u8] {
        let at = bundle.min(1 << 32) as usize * 16;
        code.get(at..at + 16).unwrap_or(&[])
    }

    fn cut(&mut self, code: &[u8], bundle: u64) {
        let (answer, tag, units, slots, stops) = self.model.cut(code, bundle);
        let want = Bundle { answer, tag, units, slots, stops };
        self.same("cut", &(code.len(), bundle, Run::shown(code, bundle)), glindorsc::cut(code, bundle), want);
    }

    /// The ten numbers themselves, and that what stands before and after them is kept.
    fn cut_into(&mut self, code: &[u8], bundle: u64) {
        let mut out = [0xeeee_eeee_eeee_eeee; 12];
        let mut want = out;
        let answer = glindorsc::cut_into(code, bundle, (&mut out[1..11]).try_into().unwrap());
        let (wanted, tag, units, slots, stops) = self.model.cut(code, bundle);
        want[1] = tag as u64;
        for i in 0..3 {
            want[2 + i] = units[i] as u64;
            want[5 + i] = slots[i];
            want[8 + i] = stops[i] as u64;
        }
        self.same("cut into", &(code.len(), bundle, Run::shown(code, bundle)), (answer, out), (wanted, want));
    }

    fn form(&mut self, code: &[u8], at: Place, address: u64) {
        let Place { bundle, slot, family, number } = at;
        let (answer, value) = self.model.immediate(code, bundle, slot, family, number);
        let want = Answered { answer, number: value.pattern() };
        self.same("immediate", &(at, Run::shown(code, bundle)), glindorsc::immediate(code, at), want);
        let (answer, number) = self.model.target(code, bundle, slot, family, number, address);
        let want = Answered { answer, number };
        self.same("target", &(at, address, Run::shown(code, bundle)), glindorsc::target(code, at, address), want);
    }
}

fn bundle_of(tag: u64, slots: [u64; 3]) -> [u8; 16] {
    let number = tag as u128 | (slots[0] as u128) << 5 | (slots[1] as u128) << 46 | (slots[2] as u128) << 87;
    number.to_le_bytes()
}

/// Every tag, cut: zeros, ones and random slots.
fn every_tag(run: &mut Run) {
    for tag in 0..32 {
        for i in 0..200 {
            let slots = if i < 2 { [i * WORD; 3] } else { [0; 3].map(|_| run.random.next() & WORD) };
            let code = bundle_of(tag, slots);
            run.cut(&code, 0);
            run.cut_into(&code, 0);
        }
    }
}

/// Every form of the table in every slot of every tag: zeros, ones, each bit alone, each bit missing, random words.
fn every_form(run: &mut Run) {
    let forms: Vec<(u8, u64)> = table::rows().into_iter().flat_map(|row| row.forms).collect();
    let mut words = vec![0, WORD];
    for bit in 0..41 {
        words.push(1 << bit);
        words.push(WORD - (1 << bit));
    }
    for tag in 0..32 {
        for slot in 0..4 {
            for &(family, number) in &forms {
                let at = Place { bundle: 0, slot, family: family as u64, number };
                for i in 0..words.len() + 200 {
                    let mut slots = [0; 3].map(|_| run.random.next() & WORD);
                    if i < words.len() {
                        slots[slot.min(2) as usize] = words[i];
                        // the L word too, where it is read
                        slots[1] = words[run.random.below(words.len() as u64) as usize];
                    }
                    let address = if i % 2 == 0 { run.random.pick(&ADDRESSES) } else { run.random.next() & !15 };
                    run.form(&bundle_of(tag, slots), at, address);
                }
            }
        }
    }
}

/// Codes of every kind of length, and numbers of every size.
fn every_refusal(run: &mut Run) {
    let mut bytes = vec![0; 65600];
    for byte in &mut bytes {
        *byte = run.random.next() as u8;
    }
    let families = [65, 66, 70, 73, 76, 77, 88, 97, 109, 0, 256 + 77, (1 << 32) + 66, u64::MAX];
    for length in [0, 1, 15, 16, 17, 31, 32, 47, 48, 1600, 65519, 65520, 65535, 65536, 65537, 65552, 65600] {
        let code = &bytes[..length];
        let last = (length / 16) as u64;
        for bundle in [last.saturating_sub(1), last, last + 1, 4095, 4096].into_iter().chain(EDGES) {
            run.cut(code, bundle);
            run.cut_into(code, bundle);
        }
        for _ in 0..20000 {
            let bundle = if run.random.below(4) == 0 { run.random.pick(&EDGES) } else { run.random.below(last + 2) };
            let slot = if run.random.below(4) == 0 { run.random.pick(&EDGES) } else { run.random.below(3) };
            let number = if run.random.below(4) == 0 { run.random.pick(&EDGES) } else { run.random.below(60) };
            let family = run.random.pick(&families);
            let address = if run.random.below(2) == 0 { run.random.pick(&ADDRESSES) } else { run.random.next() };
            run.cut(code, bundle);
            run.form(code, Place { bundle, slot, family, number }, address);
        }
    }
}

fn main() {
    let seed = std::env::args().nth(1).map_or(1, |text| text.parse().expect("a seed is a number"));
    let mut run = Run { model: Model::new(), random: Random(seed | 1 << 63), calls: 0, differences: 0 };
    every_tag(&mut run);
    every_form(&mut run);
    every_refusal(&mut run);
    println!("replayer: {} calls compared, {} differences", run.calls, run.differences);
    std::process::exit((run.differences > 0) as i32);
}
