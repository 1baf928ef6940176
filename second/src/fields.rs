//! The fields of a line: read from left to right, and written.

use crate::entry::Entry;

const NOT_HEX: u8 = 0xff;

/// The value of each lowercase hex digit.
const HEX_VALUE: [u8; 256] = {
    let mut values = [NOT_HEX; 256];
    let mut digit = 0;
    while digit < 16 {
        values[HEX_DIGITS[digit] as usize] = digit as u8;
        digit += 1;
    }
    values
};

const HEX_DIGITS: [u8; 16] = *b"0123456789abcdef";

/// What is left of a line. A reader takes its field and `None` means that the line has not the form wanted.
pub struct Fields<'a> {
    rest: &'a [u8],
}

impl<'a> Fields<'a> {
    pub fn new(line: &'a [u8]) -> Fields<'a> {
        Fields { rest: line }
    }

    pub fn byte(&mut self) -> Option<u8> {
        let (&first, rest) = self.rest.split_first()?;
        self.rest = rest;
        Some(first)
    }

    pub fn tab(&mut self) -> Option<()> {
        (self.byte()? == b'\t').then_some(())
    }

    /// The line ends here, with one LF and nothing after it.
    pub fn end(&self) -> Option<()> {
        (self.rest == b"\n").then_some(())
    }

    /// Whether what is left is exactly this.
    pub fn rest_is(&self, bytes: &[u8]) -> bool {
        self.rest == bytes
    }

    /// Takes a dash, if one comes next.
    pub fn take_dash(&mut self) -> bool {
        match self.rest.strip_prefix(b"-") {
            Some(rest) => {
                self.rest = rest;
                true
            }
            None => false,
        }
    }

    /// A decimal up to `largest`: no sign, no leading zero.
    pub fn decimal(&mut self, largest: u32) -> Option<u32> {
        let (mut value, mut digits) = (0u64, 0);
        while let Some(digit) = self.rest.get(digits).map(|byte| byte.wrapping_sub(b'0')).filter(|&digit| digit < 10) {
            value = value * 10 + u64::from(digit);
            digits += 1;
            if value > u64::from(largest) {
                return None;
            }
        }
        if digits == 0 || digits > 1 && self.rest[0] == b'0' {
            return None;
        }
        self.rest = &self.rest[digits..];
        Some(value as u32)
    }

    pub fn mark(&mut self) -> Option<bool> {
        match self.byte()? {
            b'+' => Some(true),
            b'-' => Some(false),
            _ => None,
        }
    }

    pub fn entry(&mut self) -> Option<Entry> {
        self.hex()
    }

    /// "the mask's highest bit first"
    pub fn mask(&mut self) -> Option<u64> {
        self.hex().map(u64::from_be_bytes)
    }

    fn hex<const BYTES: usize>(&mut self) -> Option<[u8; BYTES]> {
        let (field, rest) = self.rest.split_at_checked(2 * BYTES)?;
        let mut bytes = [0; BYTES];
        let mut seen = 0;
        for (byte, digits) in bytes.iter_mut().zip(field.chunks_exact(2)) {
            let (high, low) = (HEX_VALUE[usize::from(digits[0])], HEX_VALUE[usize::from(digits[1])]);
            seen |= high | low;
            *byte = high << 4 | low & 0xf;
        }
        self.rest = rest;
        (seen != NOT_HEX).then_some(bytes)
    }
}

pub fn put_decimal(out: &mut Vec<u8>, mut value: u64) {
    if value < 10 {
        out.push(b'0' + value as u8);
        return;
    }
    let mut digits = [0; 20];
    let mut start = digits.len();
    loop {
        start -= 1;
        digits[start] = b'0' + (value % 10) as u8;
        value /= 10;
        if value == 0 {
            break;
        }
    }
    out.extend_from_slice(&digits[start..]);
}

pub fn put_mark(out: &mut Vec<u8>, verified: bool) {
    out.push(if verified { b'+' } else { b'-' });
}

pub fn put_entry(out: &mut Vec<u8>, entry: &Entry) {
    put_hex::<16, 32>(out, entry);
}

pub fn put_mask(out: &mut Vec<u8>, mask: u64) {
    put_hex::<8, 16>(out, &mask.to_be_bytes());
}

fn put_hex<const BYTES: usize, const DIGITS: usize>(out: &mut Vec<u8>, bytes: &[u8; BYTES]) {
    let mut digits = [0; DIGITS];
    for (pair, byte) in digits.chunks_exact_mut(2).zip(bytes) {
        pair[0] = HEX_DIGITS[usize::from(byte >> 4)];
        pair[1] = HEX_DIGITS[usize::from(byte & 0xf)];
    }
    out.extend_from_slice(&digits);
}
