//! The listing.

use super::text::Text;
use super::{slots, tag, Model, MOST};

const LONGEST: usize = 229419;

fn digit(c: u8) -> Option<u8> {
    match c {
        b'0'..=b'9' => Some(c - b'0'),
        b'a'..=b'f' => Some(c - b'a' + 10),
        b'A'..=b'F' => Some(c - b'A' + 10),
        _ => None,
    }
}

fn decode(text: &[u8], code: &mut [u8]) -> Result<usize, &'static [u8]> {
    let mut count = 0;
    for group in text.chunks(3) {
        let (high, low) = match *group {
            [high, low, ..] => digit(high).zip(digit(low)).ok_or(&b"badhex\n"[..])?,
            _ => return Err(b"badhex\n"),
        };
        if count == MOST {
            return Err(b"toolong\n");
        }
        if !matches!(group.get(2), None | Some(b' ' | b'\n')) {
            return Err(b"badhex\n");
        }
        code[count] = high * 16 + low;
        count += 1;
    }
    Ok(count)
}

impl Model {
    fn list(&self, code: &[u8], out: &mut [u8]) -> usize {
        let mut text = Text { out, length: 0 };
        text.put(b"bundle\ttag\tunits\tslot0\tslot1\tslot2\n");
        for (n, bundle) in code.chunks_exact(16).enumerate() {
            let whole = u128::from_le_bytes(bundle.try_into().unwrap());
            text.field(n as u64, b'\t');
            text.field(tag(whole) as u64, b'\t');
            match self.units(whole) {
                None => text.put(b"reserved\n"),
                Some(units) => {
                    let [first, second, third] = slots(whole);
                    for (unit, stop) in units.into_iter().zip(self.stops(whole)) {
                        text.put(&[unit, b';'][..1 + stop as usize]);
                    }
                    text.put(b"\t");
                    text.field(first, b'\t');
                    text.field(second, b'\t');
                    text.field(third, b'\n');
                }
            }
        }
        if code.len() % 16 != 0 {
            text.put(b"rest\t");
            text.field(code.len() as u64 % 16, b'\n');
        }
        text.length
    }

    pub fn listing(&self, text: &[u8], out: &mut [u8]) -> (u8, usize) {
        let mut code = [0; MOST];
        let count = match decode(text, &mut code) {
            Ok(count) => count,
            Err(said) if out.len() < said.len() => return (12, 0),
            Err(said) => {
                out[..said.len()].copy_from_slice(said);
                return (0, said.len());
            }
        };
        let code = &code[..count];
        if out.len() < LONGEST && out.len() < self.list(code, &mut []) {
            return (12, 0);
        }
        (0, self.list(code, out))
    }
}
