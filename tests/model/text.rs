//! Text as sheets and listings write it.

/// A text in a slice: what has no room is lost, and counted.
pub struct Text<'a> {
    pub out: &'a mut [u8],
    pub length: usize,
}

impl Text<'_> {
    pub fn put(&mut self, bytes: &[u8]) {
        if let Some(out) = self.out.get_mut(self.length..self.length + bytes.len()) {
            out.copy_from_slice(bytes);
        }
        self.length += bytes.len();
    }

    pub fn field(&mut self, mut n: u64, end: u8) {
        let mut digits = [end; 21];
        let mut first = 20;
        loop {
            first -= 1;
            digits[first] = b'0' + (n % 10) as u8;
            n /= 10;
            if n == 0 {
                break;
            }
        }
        self.put(&digits[first..]);
    }
}
