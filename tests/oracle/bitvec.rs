//! Stands in for what 000 uses of the crate `bitvec`: an array of 128 bits, a part of it, the
//! number that a part is, and one bit.
//!
//! As in `bitvec` itself, a reference to a part holds where its bits are: its address is that of
//! the array's first byte, and its length, of a slice of nothing, is `start * 256 + count`.
//! Reading a part is one load of eight bytes, one shift and one mask; places are tested where
//! debug assertions are on, as they are in the oracle and in the tests below.
use core::marker::PhantomData;
use core::ops::{Index, IndexMut, Range};

pub mod prelude {
    pub use crate::{bitarr, BitArray, BitSlice, Lsb0};
}

/// Bit 0 of a byte is its lowest.
pub struct Lsb0;

#[macro_export]
macro_rules! bitarr {
    ($order:ident, $store:ident; $fill:expr; 128) => {
        $crate::BitArray::<$order, $store>::of_bytes([$fill; 16])
    };
}

/// 128 bits, and eight bytes after them so that eight bytes can be read at each of the sixteen.
pub struct BitArray<O, T> {
    bytes: [u8; 24],
    kind: PhantomData<(O, T)>,
}

pub struct BitSlice<O, T> {
    kind: PhantomData<(O, T)>,
    place: [()],
}

/// What a part is read as.
pub trait Number {
    const BITS: usize;
    fn of(bits: u64) -> Self;
}

macro_rules! number {
    ($($kind:ident)*) => { $(
        impl Number for $kind {
            const BITS: usize = $kind::BITS as usize;
            #[inline(always)]
            fn of(bits: u64) -> Self {
                bits as $kind
            }
        }
    )* };
}
number!(u8 u16 u32 u64);

impl<O, T> BitArray<O, T> {
    #[inline(always)]
    pub fn of_bytes(given: [u8; 16]) -> Self {
        let mut bytes = [0; 24];
        bytes[..16].copy_from_slice(&given);
        BitArray { bytes, kind: PhantomData }
    }

    /// Two words, at bits 0 and 64.
    #[inline(always)]
    pub fn of_words(low: u64, high: u64) -> Self {
        let mut given = [0; 16];
        given[..8].copy_from_slice(&low.to_le_bytes());
        given[8..].copy_from_slice(&high.to_le_bytes());
        Self::of_bytes(given)
    }

    #[inline(always)]
    pub fn whole(&self) -> &BitSlice<O, T> {
        unsafe { &*BitSlice::at(self.bytes.as_ptr(), 0, 128) }
    }
}

impl<O, T> BitSlice<O, T> {
    #[inline(always)]
    fn at(base: *const u8, start: usize, count: usize) -> *const Self {
        core::ptr::slice_from_raw_parts(base as *const (), start * 256 + count) as *const Self
    }

    #[inline(always)]
    fn start(&self) -> usize {
        self.place.len() / 256
    }

    #[inline(always)]
    fn count(&self) -> usize {
        self.place.len() % 256
    }

    #[inline(always)]
    fn base(&self) -> *const u8 {
        self.place.as_ptr() as *const u8
    }

    #[inline(always)]
    fn part(&self, range: Range<usize>) -> *const Self {
        debug_assert!(range.start <= range.end && range.end <= self.count());
        Self::at(self.base(), self.start() + range.start, range.end - range.start)
    }

    /// The eight bytes from the part's first on, shifted so that its first bit is bit 0.
    #[inline(always)]
    fn bits(&self) -> u64 {
        let first = unsafe { self.base().add(self.start() / 8) as *const [u8; 8] };
        u64::from_le_bytes(unsafe { first.read_unaligned() }) >> (self.start() % 8)
    }

    #[inline(always)]
    pub fn load<N: Number>(&self) -> N {
        debug_assert!(0 < self.count() && self.count() <= N::BITS && self.count() <= 57);
        N::of(self.bits() & (u64::MAX >> (64 - self.count())))
    }

    /// A whole byte of the array is all that 000 stores.
    #[inline(always)]
    pub fn store(&mut self, byte: u8) {
        assert!(self.start() % 8 == 0 && self.count() == 8);
        unsafe { *(self.base() as *mut u8).add(self.start() / 8) = byte };
    }
}

impl<O, T> Index<Range<usize>> for BitSlice<O, T> {
    type Output = BitSlice<O, T>;
    #[inline(always)]
    fn index(&self, range: Range<usize>) -> &Self {
        trace::note(self.start(), &range);
        unsafe { &*self.part(range) }
    }
}

impl<O, T> Index<usize> for BitSlice<O, T> {
    type Output = bool;
    #[inline(always)]
    fn index(&self, at: usize) -> &bool {
        if self[at..at + 1].bits() % 2 == 1 { &true } else { &false }
    }
}

impl<O, T> Index<Range<usize>> for BitArray<O, T> {
    type Output = BitSlice<O, T>;
    #[inline(always)]
    fn index(&self, range: Range<usize>) -> &BitSlice<O, T> {
        &self.whole()[range]
    }
}

impl<O, T> IndexMut<Range<usize>> for BitArray<O, T> {
    #[inline(always)]
    fn index_mut(&mut self, range: Range<usize>) -> &mut BitSlice<O, T> {
        debug_assert!(range.start <= range.end && range.end <= 128);
        let base = self.bytes.as_mut_ptr();
        unsafe { &mut *(BitSlice::<O, T>::at(base, range.start, range.end - range.start) as *mut BitSlice<O, T>) }
    }
}

/// Which parts are taken, as places in the whole array: how the oracle sees what a reader looks at
/// and where 000 cuts a bundle. Built in by `--cfg traced` alone.
#[cfg(traced)]
pub mod trace {
    use core::cell::{Cell, RefCell};
    use core::ops::Range;

    thread_local! {
        static ON: Cell<bool> = const { Cell::new(false) };
        static PARTS: RefCell<Vec<Range<usize>>> = const { RefCell::new(Vec::new()) };
    }

    pub fn begin() {
        PARTS.with(|parts| parts.borrow_mut().clear());
        ON.with(|on| on.set(true));
    }

    pub fn end() -> Vec<Range<usize>> {
        ON.with(|on| on.set(false));
        PARTS.with(|parts| parts.borrow().clone())
    }

    pub fn note(start: usize, range: &Range<usize>) {
        if ON.with(|on| on.get()) {
            PARTS.with(|parts| parts.borrow_mut().push(start + range.start..start + range.end));
        }
    }
}

#[cfg(not(traced))]
mod trace {
    #[inline(always)]
    pub fn note(_: usize, _: &core::ops::Range<usize>) {}
}

#[cfg(test)]
mod tests {
    use super::prelude::*;

    type Bits = BitArray<Lsb0, u8>;

    /// An independent extraction: the bits one by one, from a number of 128 bits.
    fn part(bytes: [u8; 16], start: usize, end: usize) -> u64 {
        let mut number = 0;
        for place in (start..end).rev() {
            number = number * 2 + u64::from(bytes[place / 8] / (1 << (place % 8)) % 2);
        }
        number
    }

    /// Some arrays: single bits, all zeros, all ones, and numbers of a simple generator.
    fn arrays() -> Vec<[u8; 16]> {
        let mut all = vec![[0; 16], [255; 16]];
        all.extend((0..128).map(|bit| (1u128 << bit).to_le_bytes()));
        let mut seed: u128 = 1;
        for _ in 0..200 {
            seed = seed.wrapping_mul(0x2360ED051FC65DA44385DF649FCCF645).wrapping_add(0x5851F42D4C957F2D);
            all.push((seed ^ (seed >> 64)).to_le_bytes());
        }
        all
    }

    #[test]
    fn parts_of_the_array() {
        for bytes in arrays() {
            let bits = Bits::of_bytes(bytes);
            for start in 0..128 {
                for end in start + 1..=128.min(start + 57) {
                    assert_eq!(bits[start..end].load::<u64>(), part(bytes, start, end));
                }
            }
        }
    }

    #[test]
    fn parts_of_parts_at_each_kind() {
        for bytes in arrays() {
            let bits = Bits::of_bytes(bytes);
            for slot in [0..41, 5..46, 46..87, 87..128] {
                let word = &bits[slot.clone()];
                for start in 0..41 {
                    assert_eq!(word[start], part(bytes, slot.start + start, slot.start + start + 1) == 1);
                    for end in start + 1..=41 {
                        let want = part(bytes, slot.start + start, slot.start + end);
                        assert_eq!(word[start..end].load::<u64>(), want);
                        if end - start <= 32 {
                            assert_eq!(u64::from(word[start..end].load::<u32>()), want);
                        }
                        if end - start <= 16 {
                            assert_eq!(u64::from(word[start..end].load::<u16>()), want);
                        }
                        if end - start <= 8 {
                            assert_eq!(u64::from(word[start..end].load::<u8>()), want);
                        }
                    }
                }
            }
        }
    }

    #[test]
    fn stores_of_bytes() {
        for bytes in arrays() {
            let mut bits = bitarr![Lsb0, u8; 0u8; 128];
            for i in 0..16 {
                bits[i * 8..i * 8 + 8].store(bytes[i]);
            }
            for start in 0..71 {
                assert_eq!(bits[start..start + 57].load::<u64>(), part(bytes, start, start + 57));
            }
        }
    }

    #[test]
    fn words_at_0_and_64() {
        let bits = Bits::of_words(0x0123456789ABCDEF, 0xFEDCBA9876543210);
        assert_eq!(bits[0..32].load::<u32>(), 0x89ABCDEF);
        assert_eq!(bits[64..96].load::<u32>(), 0x76543210);
        assert_eq!(bits[96..128].load::<u32>(), 0xFEDCBA98);
    }

    fn refuses(call: fn(&Bits) -> u64) {
        std::panic::catch_unwind(|| call(&Bits::of_words(0, 0))).unwrap_err();
    }

    #[test]
    fn places_outside_are_refused() {
        refuses(|bits| bits[100..129].load::<u64>());
        refuses(|bits| bits[0..41][38..42].load::<u64>());
        refuses(|bits| u64::from(bits[0..41][41]));
        refuses(|bits| u64::from(bits[0..9].load::<u8>()));
        refuses(|bits| bits[0..58].load::<u64>());
        refuses(|bits| bits[5..5].load::<u64>());
    }
}
