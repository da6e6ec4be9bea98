//! Tests packed bytes, and keeps nothing of what they spell.

/// Whether packed bytes spell so many bytes.
pub fn spells(packed: &[u8], length: u32) -> Option<()> {
    let (mut rest, mut left) = (packed, u64::from(length));
    while left > 0 {
        let (first, after) = rest.split_first()?;
        let (opcode, mut count) = (first >> 5, u64::from(first & 31));
        rest = after;
        // Most instructions are short, and spell zeros or the bytes that follow.
        if opcode < 2 && count > 0 {
            rest = rest.get(usize::from(opcode) * count as usize..)?;
            left = left.checked_sub(count)?;
            continue;
        }
        if count == 0 {
            count = argument(&mut rest)?;
        }
        let (spelled, copied) = lengths(opcode, count, &mut rest)?;
        rest = rest.get(usize::try_from(copied).ok()?..)?;
        left = left.checked_sub(spelled)?;
    }
    Some(())
}

/// How many bytes an instruction spells, and how many it copies.
fn lengths(opcode: u8, count: u64, rest: &mut &[u8]) -> Option<(u64, u64)> {
    match opcode {
        0 => Some((count, 0)),
        1 => Some((count, count)),
        2 => Some((count.checked_mul(argument(rest)? + 1)?, count)),
        3 | 4 => {
            let (custom, parts) = (argument(rest)?, argument(rest)?);
            let customs = custom * parts;
            let spelled = count.checked_mul(parts + 1)?.checked_add(customs)?;
            let common = if opcode == 3 { count } else { 0 };
            Some((spelled, customs.checked_add(common)?))
        }
        _ => None,
    }
}

/// An argument has seven bits a byte, the highest first, and five bytes at most.
fn argument(rest: &mut &[u8]) -> Option<u64> {
    let mut value = 0;
    for place in 0..5 {
        let byte = *rest.get(place)?;
        value = value << 7 | u64::from(byte & 0x7F);
        if byte < 0x80 {
            *rest = &rest[place + 1..];
            return Some(value).filter(|value| *value <= u64::from(u32::MAX));
        }
    }
    None
}
