//! The lines of a report. They go out when there are many.

use crate::text::{hex_digits, push_decimal, push_name};
use std::io::{self, Write};

const MANY: usize = 1 << 16;
/// Of a longer name `inspect` prints the beginning. No input of the benchmark has one.
pub const LONGEST_NAME: usize = 1024;
const ONES: u64 = 0x0101_0101_0101_0101;

pub struct Lines {
    pub text: Vec<u8>,
    pub notes: u32,
    output: io::StdoutLock<'static>,
}

impl Lines {
    pub fn new() -> Self {
        Lines {
            text: Vec::with_capacity(2 * MANY),
            notes: 0,
            output: io::stdout().lock(),
        }
    }

    #[inline]
    pub fn push(&mut self, words: &[u8]) {
        self.text.extend_from_slice(words);
    }

    #[inline]
    pub fn hex(&mut self, number: u32) {
        self.push(&hex_digits(number));
    }

    /// Begins the line of a row by its offset in the file.
    #[inline]
    pub fn begin(&mut self, at: u32, words: &[u8]) {
        self.hex(at);
        self.push(words);
    }

    pub fn numbers(&mut self, numbers: &[(&[u8], u32)]) {
        for (words, number) in numbers {
            self.push(words);
            push_number(&mut self.text, *number);
        }
    }

    pub fn versions(&mut self, numbers: &[u32]) {
        self.push(b" versions");
        for number in numbers {
            self.push(b" ");
            push_version(&mut self.text, *number);
        }
    }

    pub fn end(&mut self) -> Option<()> {
        self.push(b"\n");
        if self.text.len() < MANY {
            return Some(());
        }
        self.send()
    }

    pub fn send(&mut self) -> Option<()> {
        self.output.write_all(&self.text).ok()?;
        self.text.clear();
        Some(())
    }
}

/// A version as people write it, such as 1.2b3, if it is a `NumVersion`.
fn push_version(text: &mut Vec<u8>, number: u32) {
    let [major, minor, stage, release] = number.to_be_bytes();
    let letter = match stage {
        0x20 => b'd',
        0x40 => b'a',
        0x60 => b'b',
        0x80 => b'f',
        _ => return text.push(b'-'),
    };
    push_number(text, u32::from(major / 16 * 10 + major % 16));
    text.push(b'.');
    push_number(text, u32::from(minor / 16));
    if minor % 16 != 0 {
        text.push(b'.');
        push_number(text, u32::from(minor % 16));
    }
    if (stage, release) != (0x80, 0) {
        text.push(letter);
        push_number(text, u32::from(release));
    }
}

/// A date in seconds since 1904. There is a leap year every four years from then to 2040.
pub fn push_date(text: &mut Vec<u8>, seconds: u32) {
    let day = seconds / 86400;
    let (mut year, mut rest) = (1904 + day / 1461 * 4, day % 1461);
    if rest >= 366 {
        (year, rest) = (year + 1 + (rest - 366) / 365, (rest - 366) % 365);
    }
    let february = if year % 4 == 0 { 29 } else { 28 };
    let mut month = 1;
    for length in [31, february, 31, 30, 31, 30, 31, 31, 30, 31, 30] {
        if rest < length {
            break;
        }
        (month, rest) = (month + 1, rest - length);
    }
    push_number(text, year);
    let [hours, minutes] = [seconds / 3600 % 24, seconds / 60 % 60];
    let numbers = [month, rest + 1, hours, minutes, seconds % 60];
    for (mark, number) in b"--T::".iter().zip(numbers) {
        text.extend([
            *mark,
            b'0' + (number / 10) as u8,
            b'0' + (number % 10) as u8,
        ]);
    }
}

/// Appends the zero-ended name at the front of some bytes, and returns its length.
pub fn push_ended(text: &mut Vec<u8>, bytes: &[u8]) -> Option<usize> {
    let bytes = &bytes[..bytes.len().min(LONGEST_NAME + 1)];
    let plain = push_plain(text, bytes, LONGEST_NAME);
    let rest = &bytes[plain..];
    let end = rest.iter().position(|byte| *byte == 0)?;
    if end > 0 {
        push_name(text, &rest[..end]);
    }
    Some(plain + end)
}

/// Appends the name of a length at the front of some bytes.
pub fn push_label(text: &mut Vec<u8>, bytes: &[u8], length: usize) -> Option<()> {
    let plain = push_plain(text, bytes, length);
    if plain < length {
        push_name(text, bytes.get(plain..length)?);
    }
    (length <= LONGEST_NAME).then_some(())
}

/// Appends bytes from the front, eight at a time, as long as they need no escape, and returns how many. The last ones may be left.
fn push_plain(text: &mut Vec<u8>, bytes: &[u8], most: usize) -> usize {
    let (mut rest, mut left) = (bytes, most);
    while let Some(chunk) = rest.first_chunk::<8>() {
        let plain = plain_front(u64::from_le_bytes(*chunk)).min(left);
        text.extend_from_slice(chunk);
        text.truncate(text.len() - 8 + plain);
        (rest, left) = (&rest[plain..], left - plain);
        if plain < 8 {
            break;
        }
    }
    most - left
}

/// How many of the first bytes, the lowest ones, are in 21 to 7E (hex) and aren't `%`.
fn plain_front(bytes: u64) -> usize {
    let below = bytes.wrapping_sub(0x21 * ONES) & !bytes;
    let percent = bytes ^ ONES * u64::from(b'%');
    let percent = percent.wrapping_sub(ONES) & !percent;
    let above = bytes.wrapping_add(ONES) | bytes;
    ((below | percent | above) & ONES << 7).trailing_zeros() as usize / 8
}

/// Appends a number in decimal. Most have one digit, or up to eight, which are made at once in parts of a word.
pub fn push_number(text: &mut Vec<u8>, number: u32) {
    if number < 10 {
        return text.push(b'0' + number as u8);
    }
    if number >= 100_000_000 {
        return push_decimal(text, number);
    }
    let number = u64::from(number);
    let fours = number / 10_000 | number % 10_000 << 32;
    let hundreds = (fours * 10_486 >> 20) & 0x7F_0000_007F;
    let twos = hundreds | (fours - 100 * hundreds) << 16;
    let tens = (twos * 103 >> 10) & 0x0F_000F_000F_000F;
    let digits = tens | (twos - 10 * tens) << 8;
    let zeros = digits.trailing_zeros() as usize / 8;
    let digits = (digits | 0x30 * ONES) >> (8 * zeros);
    text.extend_from_slice(&digits.to_le_bytes());
    text.truncate(text.len() - zeros);
}
