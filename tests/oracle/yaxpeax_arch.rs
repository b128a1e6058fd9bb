//! Stands in for what 000 uses of the crate `yaxpeax_arch`: the traits that it implements, and
//! the few calls that its decoder makes.
use core::fmt::Debug;

pub trait Arch {
    type Word: Debug;
    type Address;
    type Instruction: Instruction + LengthedInstruction + Default;
    type DecodeError: DecodeError + From<ReadError>;
    type Decoder: Decoder<Self> + Default;
    type Operand;
}

pub trait Decoder<A: Arch + ?Sized> {
    fn decode_into<T: Reader<A::Address, A::Word>>(&self, inst: &mut A::Instruction, words: &mut T) -> Result<(), A::DecodeError>;
}

pub trait Instruction {
    fn well_defined(&self) -> bool;
}

pub trait LengthedInstruction {
    type Unit;
    fn len(&self) -> Self::Unit;
    fn min_size() -> Self::Unit;
}

pub trait DecodeError {
    fn data_exhausted(&self) -> bool;
    fn bad_opcode(&self) -> bool;
    fn bad_operand(&self) -> bool;
    fn description(&self) -> &'static str;
}

/// A number of addresses.
#[derive(Copy, Clone, Debug, PartialEq, Eq)]
pub struct AddressDiff<T>(T);

impl AddressDiff<u64> {
    pub const fn from_const(count: u64) -> Self {
        AddressDiff(count)
    }
}

pub trait AddressBase {
    fn wrapping_offset(&self, by: AddressDiff<u64>) -> Self;
    fn to_linear(&self) -> usize;
}

impl AddressBase for u64 {
    fn wrapping_offset(&self, by: AddressDiff<u64>) -> u64 {
        self.wrapping_add(by.0)
    }

    fn to_linear(&self) -> usize {
        *self as usize
    }
}

#[derive(Copy, Clone, Debug, PartialEq, Eq)]
pub enum ReadError {
    ExhaustedInput,
    IOError(&'static str),
}

pub trait Reader<Address, Word> {
    fn next_n(&mut self, buffer: &mut [Word]) -> Result<(), ReadError>;
}

/// A reader of bytes: all that are asked for, or `ExhaustedInput` and none.
pub struct Bytes<'a>(pub &'a [u8]);

impl Reader<u64, u8> for Bytes<'_> {
    fn next_n(&mut self, buffer: &mut [u8]) -> Result<(), ReadError> {
        if self.0.len() < buffer.len() {
            return Err(ReadError::ExhaustedInput);
        }
        let (first, rest) = self.0.split_at(buffer.len());
        buffer.copy_from_slice(first);
        self.0 = rest;
        Ok(())
    }
}

#[cfg(test)]
mod tests {
    use super::*;

    #[test]
    fn bytes_are_read_in_order_or_not_at_all() {
        let mut reader = Bytes(&[1, 2, 3, 4, 5]);
        let mut three = [0; 3];
        assert_eq!(reader.next_n(&mut three), Ok(()));
        assert_eq!(three, [1, 2, 3]);
        assert_eq!(reader.next_n(&mut three), Err(ReadError::ExhaustedInput));
        assert_eq!(three, [1, 2, 3]);
        let mut two = [0; 2];
        assert_eq!(reader.next_n(&mut two), Ok(()));
        assert_eq!(two, [4, 5]);
    }

    #[test]
    fn addresses() {
        assert_eq!(0u64.wrapping_offset(AddressDiff::from_const(16)).to_linear(), 16);
        assert_eq!(u64::MAX.wrapping_offset(AddressDiff::from_const(2)), 1);
    }
}
