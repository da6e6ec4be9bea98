//! Reads a container, and tests the packed bytes of its pattern-initialized sections, as `pef inspect` does beside all else.
use std::process::exit;

const HEADER: usize = 40;
const SECTION: usize = 28;
const PATTERN: u8 = 2;

fn number(bytes: &[u8], at: usize) -> usize {
    u32::from_be_bytes(bytes[at..at + 4].try_into().unwrap()) as usize
}

/// An argument of seven bits a byte, the highest first.
fn argument(packed: &[u8], at: &mut usize) -> Option<u64> {
    let mut value = 0;
    for _ in 0..5 {
        let byte = *packed.get(*at)?;
        *at += 1;
        value = value * 128 + u64::from(byte % 128);
        if byte < 128 {
            return (value <= u64::from(u32::MAX)).then_some(value);
        }
    }
    None
}

/// How many bytes the instruction spells, and how many it copies.
fn lengths(opcode: u8, count: u64, packed: &[u8], at: &mut usize) -> Option<(u128, u64)> {
    if opcode < 2 {
        return Some((u128::from(count), if opcode == 1 { count } else { 0 }));
    }
    let second = argument(packed, at)?;
    if opcode == 2 {
        return Some((u128::from(count) * u128::from(second + 1), count));
    }
    let parts = argument(packed, at)?;
    let custom = second * parts;
    let spelled = u128::from(count) * u128::from(parts + 1) + u128::from(custom);
    Some((spelled, if opcode == 3 { count + custom } else { custom }))
}

/// Whether packed bytes spell `length` bytes.
fn spells(packed: &[u8], length: usize) -> Option<()> {
    let (mut at, mut written) = (0, 0);
    while written < length {
        let first = *packed.get(at)?;
        at += 1;
        let opcode = first / 32;
        let mut count = u64::from(first % 32);
        if opcode > 4 {
            return None;
        }
        if count == 0 {
            count = argument(packed, &mut at)?;
        }
        let (spelled, copied) = lengths(opcode, count, packed, &mut at)?;
        if spelled > (length - written) as u128 || copied > (packed.len() - at) as u64 {
            return None;
        }
        at += copied as usize;
        written += spelled as usize;
    }
    Some(())
}

fn main() {
    let bytes = std::fs::read(std::env::args().nth(1).unwrap()).unwrap();
    let sections = usize::from(u16::from_be_bytes(bytes[32..34].try_into().unwrap()));
    for at in (0..sections).map(|k| HEADER + k * SECTION) {
        let (unpacked, packed, start) = (number(&bytes, at + 12), number(&bytes, at + 16), number(&bytes, at + 20));
        if bytes[at + 24] == PATTERN && spells(&bytes[start..start + packed], unpacked).is_none() {
            exit(1);
        }
    }
}
