//! Immediates, read and written, and targets.

use super::table::{Meaning, Part, Row};
use super::{find, mask, Model};

#[derive(Clone, Copy, PartialEq)]
pub enum Value {
    None,
    Signed(i64),
    Unsigned(u64),
}

impl Value {
    pub fn pattern(self) -> u64 {
        match self {
            Value::None => 0,
            Value::Signed(n) => n as u64,
            Value::Unsigned(n) => n,
        }
    }
}

impl Part {
    /// Its place in the bundle.
    fn at(&self, slot: u32) -> u32 {
        if self.in_l { 46 + self.place } else { 5 + 41 * slot + self.place }
    }
}

impl Row {
    fn width(&self) -> u32 {
        self.parts.iter().map(|part| part.width).sum()
    }

    /// The highest raw number.
    pub fn highest(&self) -> u64 {
        mask(self.width())
    }

    fn gather(&self, whole: u128, slot: u32) -> u64 {
        let mut raw = 0;
        for part in &self.parts {
            raw |= ((whole >> part.at(slot)) as u64 & mask(part.width)) << part.to;
        }
        raw
    }

    fn scatter(&self, mut whole: u128, slot: u32, raw: u64) -> u128 {
        for part in &self.parts {
            let at = part.at(slot);
            whole &= !((mask(part.width) as u128) << at);
            whole |= ((raw >> part.to & mask(part.width)) as u128) << at;
        }
        whole
    }

    /// The value of the row's kind with that pattern.
    fn of_pattern(&self, pattern: u64) -> Value {
        if self.signed { Value::Signed(pattern as i64) } else { Value::Unsigned(pattern) }
    }

    /// A number as a value of the row's kind.
    fn of_kind(&self, n: i64) -> Value {
        if self.signed { Value::Signed(n) } else { Value::Unsigned(n as u64) }
    }

    /// The value of a raw number.
    pub fn value(&self, raw: u64) -> Value {
        match &self.meaning {
            Meaning::Chosen(values) => self.of_kind(values[raw as usize]),
            Meaning::Counted { times, .. } if self.signed => {
                let unused = 64 - self.width();
                Value::Signed(((raw << unused) as i64 >> unused) * times)
            }
            Meaning::Counted { times, plus } => Value::Unsigned(raw.wrapping_mul(*times as u64).wrapping_add(*plus)),
        }
    }

    /// The raw number of a value.
    fn raw(&self, value: Value) -> Option<u64> {
        let width = self.width();
        match (&self.meaning, value) {
            (Meaning::Chosen(values), _) => values.iter().position(|n| self.of_kind(*n) == value).map(|raw| raw as u64),
            // times is 1 or -1 where there is no sign
            (Meaning::Counted { times, plus }, Value::Unsigned(n)) if !self.signed => {
                Some(n.wrapping_sub(*plus).wrapping_mul(*times as u64)).filter(|raw| raw & !mask(width) == 0)
            }
            (Meaning::Counted { times, .. }, Value::Signed(n)) if self.signed => {
                let (count, most) = (n / times, 1 << (width - 1));
                (n % times == 0 && -most <= count && count < most).then_some(count as u64 & mask(width))
            }
            _ => None,
        }
    }
}

impl Model {
    /// The row and the slot in a bundle, or the refusal.
    fn within<'a>(&self, whole: u128, slot: u64, family: u64, row: Option<&'a Row>) -> Result<(&'a Row, u32), u8> {
        let units = self.units(whole).ok_or(2)?;
        let row = row.ok_or(3)?;
        let unit = units.get(slot as usize).ok_or(5)?;
        if !self.fitting[family as usize].contains(unit) {
            return Err(5);
        }
        Ok((row, slot as u32))
    }

    /// The bundle, the row and the slot, or the refusal.
    fn open<'a>(&self, code: &[u8], bundle: u64, slot: u64, family: u64, row: Option<&'a Row>) -> Result<(u128, &'a Row, u32), u8> {
        let whole = find(code, bundle)?;
        let (row, slot) = self.within(whole, slot, family, row)?;
        Ok((whole, row, slot))
    }

    pub fn immediate(&self, code: &[u8], bundle: u64, slot: u64, family: u64, number: u64) -> (u8, Value) {
        match self.open(code, bundle, slot, family, self.row(family, number)) {
            Err(answer) => (answer, Value::None),
            Ok((whole, row, slot)) => (0, row.value(row.gather(whole, slot))),
        }
    }

    pub fn target(&self, code: &[u8], bundle: u64, slot: u64, family: u64, number: u64, address: u64) -> (u8, u64) {
        let row = self.row(family, number).filter(|row| matches!(row.meaning, Meaning::Counted { times: 16, .. }));
        match self.open(code, bundle, slot, family, row) {
            Err(answer) => (answer, 0),
            Ok(_) if address % 16 != 0 => (6, 0),
            Ok((whole, row, slot)) => (0, address.wrapping_add(row.value(row.gather(whole, slot)).pattern())),
        }
    }

    /// The bundle before and after, or the refusal.
    pub fn planned(&self, code: &[u8], bundle: u64, slot: u64, family: u64, number: u64, value: Value) -> Result<(u128, u128), u8> {
        let (old, row, slot) = self.open(code, bundle, slot, family, self.row(family, number))?;
        let raw = row.raw(value).ok_or(6)?;
        Ok((old, row.scatter(old, slot, raw)))
    }

    /// A bundle with the value of that pattern in it, or the refusal.
    pub fn changed(&self, old: u128, slot: u64, family: u64, number: u64, pattern: u64) -> Result<u128, u8> {
        let (row, slot) = self.within(old, slot, family, self.row(family, number))?;
        let raw = row.raw(row.of_pattern(pattern)).ok_or(6)?;
        Ok(row.scatter(old, slot, raw))
    }
}
