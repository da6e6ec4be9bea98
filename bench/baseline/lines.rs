//! Lines and words of a text.

use std::io::BufRead;
use std::process::exit;

/// Ends the program at a text that isn't well formed: which rule it breaks is no work of the benchmark.
pub fn refuse(line: usize) -> ! {
    eprintln!("line {line} isn't understood");
    exit(1)
}

pub struct Lines<'a> {
    rest: &'a [u8],
    pub number: usize,
}

impl<'a> Lines<'a> {
    pub fn new(text: &'a [u8]) -> Self {
        Lines {
            rest: text,
            number: 0,
        }
    }
}

impl<'a> Iterator for Lines<'a> {
    type Item = &'a [u8];

    fn next(&mut self) -> Option<&'a [u8]> {
        let whole = self.rest;
        let taken = self
            .rest
            .skip_until(b'\n')
            .ok()
            .filter(|taken| *taken > 0)?;
        self.number += 1;
        let line = &whole[..taken];
        Some(line.strip_suffix(b"\n").unwrap_or(line))
    }
}

/// The words of a line, with one space between two of them.
pub struct Words<'a> {
    rest: Option<&'a [u8]>,
}

impl<'a> Words<'a> {
    pub fn new(line: &'a [u8]) -> Self {
        Words { rest: Some(line) }
    }
}

impl<'a> Iterator for Words<'a> {
    type Item = &'a [u8];

    fn next(&mut self) -> Option<&'a [u8]> {
        let rest = self.rest?;
        let end = rest.iter().position(|byte| *byte == b' ');
        self.rest = end.map(|end| &rest[end + 1..]);
        Some(&rest[..end.unwrap_or(rest.len())]).filter(|word| !word.is_empty())
    }
}

/// A decimal number without leading zeros.
pub fn decimal(word: &[u8]) -> Option<u32> {
    if word.is_empty() || word.len() > 10 || (word[0] == b'0' && word.len() > 1) {
        return None;
    }
    let mut value = 0u64;
    for byte in word {
        let digit = byte.wrapping_sub(b'0');
        if digit > 9 {
            return None;
        }
        value = value * 10 + u64::from(digit);
    }
    u32::try_from(value).ok()
}

/// A decimal number, or `0x` and one to eight hex digits.
pub fn number(word: &[u8]) -> Option<u32> {
    match word.strip_prefix(b"0x") {
        None => decimal(word),
        Some(digits) if digits.is_empty() || digits.len() > 8 => None,
        Some(digits) => digits.iter().try_fold(0, |value, byte| {
            let digit = HEX[usize::from(*byte)];
            (digit < 16).then(|| value << 4 | u32::from(digit))
        }),
    }
}

/// The value of a hex digit, and 255 for any other byte.
pub static HEX: [u8; 256] = {
    let mut table = [255; 256];
    let mut digit = 0;
    while digit < 16 {
        table[b"0123456789abcdef"[digit] as usize] = digit as u8;
        table[b"0123456789ABCDEF"[digit] as usize] = digit as u8;
        digit += 1;
    }
    table
};

/// Appends the bytes that pairs of hex digits spell. Says whether they are pairs of hex digits.
pub fn append_hex(bytes: &mut Vec<u8>, digits: &[u8]) -> bool {
    let (pairs, odd) = digits.as_chunks::<2>();
    let mut all = 0;
    bytes.extend(pairs.iter().map(|[high, low]| {
        let (high, low) = (HEX[usize::from(*high)], HEX[usize::from(*low)]);
        all |= high | low;
        high << 4 | low & 15
    }));
    odd.is_empty() && all < 16
}
