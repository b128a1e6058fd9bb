//! Glindorsc's calls for Rust: cutting an Itanium bundle, reading an immediate, finding a target.
//!
//! Each answers 0, or the number of the refusal that applies first (`include/glindorsc.h` lists them); where refused, the rest is
//! zeros, but for the tag of a bundle that is refused by 2. A form is the family letter's byte and its number: `b'M'`, 48.
//!
//! Link with `-L crates/glindorsc/out`, where `rt lib` in crates/glindorsc writes the archive.

#[link(name = "glindorsc", kind = "static")]
extern "C" {
    fn glindorsc_cut(code: *const u8, length: usize, bundle: u64, out: *mut [u64; 10]) -> u8;
    fn glindorsc_immediate(code: *const u8, length: usize, bundle: u64, slot: u64, family: u64, number: u64, value: *mut u64) -> u8;
    fn glindorsc_target(code: *const u8, length: usize, bundle: u64, slot: u64, family: u64, number: u64, address: u64, target: *mut u64) -> u8;
}

/// A bundle's tag, the letters of its units, its three slots, and after which of them a stop stands.
#[derive(Clone, Copy, Debug, Default, PartialEq, Eq)]
pub struct Bundle {
    pub answer: u8,
    pub tag: u8,
    pub units: [u8; 3],
    pub slots: [u64; 3],
    pub stops: [bool; 3],
}

/// An answer, and an immediate's 64-bit pattern or a target.
#[derive(Clone, Copy, Debug, Default, PartialEq, Eq)]
pub struct Answered {
    pub answer: u8,
    pub number: u64,
}

/// A form in a slot of a bundle.
#[derive(Clone, Copy, Debug, PartialEq, Eq)]
pub struct Place {
    pub bundle: u64,
    pub slot: u64,
    pub family: u64,
    pub number: u64,
}

/// Bundle `bundle` of the code, cut.
pub fn cut(code: &[u8], bundle: u64) -> Bundle {
    let mut out = [0; 10];
    let answer = cut_into(code, bundle, &mut out);
    Bundle {
        answer,
        tag: out[0] as u8,
        units: [out[1] as u8, out[2] as u8, out[3] as u8],
        slots: [out[4], out[5], out[6]],
        stops: [out[7] == 1, out[8] == 1, out[9] == 1],
    }
}

/// The call itself, which fills the ten numbers.
pub fn cut_into(code: &[u8], bundle: u64, out: &mut [u64; 10]) -> u8 {
    // SAFETY: the slice is whole, and it and the numbers are lent for the call alone.
    unsafe { glindorsc_cut(code.as_ptr(), code.len(), bundle, out) }
}

/// The immediate of a form, as its 64-bit pattern.
pub fn immediate(code: &[u8], at: Place) -> Answered {
    let mut number = 0;
    // SAFETY: as above.
    let answer = unsafe { glindorsc_immediate(code.as_ptr(), code.len(), at.bundle, at.slot, at.family, at.number, &mut number) };
    Answered { answer, number }
}

/// The target of a form, where the bundle stands at `address`.
pub fn target(code: &[u8], at: Place, address: u64) -> Answered {
    let mut number = 0;
    // SAFETY: as above.
    let answer = unsafe { glindorsc_target(code.as_ptr(), code.len(), at.bundle, at.slot, at.family, at.number, address, &mut number) };
    Answered { answer, number }
}
