//! What a section's memory holds before it is relocated.

use crate::container::Section;

pub fn memory(section: &Section) -> Option<Vec<u8>> {
    let (total, unpacked) = (section.total as usize, section.unpacked as usize);
    let mut memory = if section.kind == 2 {
        expand(section.raw, unpacked, total)?
    } else if unpacked == 0 {
        return Some(vec![0; total]);
    } else {
        let mut memory = Vec::with_capacity(total);
        memory.extend_from_slice(section.raw.get(..unpacked)?);
        memory
    };
    memory.resize(total, 0);
    Some(memory)
}

/// The image that packed bytes spell.
fn expand(packed: &[u8], length: usize, total: usize) -> Option<Vec<u8>> {
    let mut image = Vec::with_capacity(total);
    let mut rest = packed;
    while image.len() < length {
        let first = take(&mut rest, 1)?[0];
        let count = match usize::from(first & 31) {
            0 => argument(&mut rest)?,
            count => count,
        };
        match first >> 5 {
            0 => image.resize(grown(&image, count, length)?, 0),
            1 => {
                grown(&image, count, length)?;
                image.extend_from_slice(take(&mut rest, count)?);
            }
            2 => {
                let times = argument(&mut rest)? + 1;
                grown(&image, count.checked_mul(times)?, length)?;
                let block = take(&mut rest, count)?;
                (0..times).for_each(|_| image.extend_from_slice(block));
            }
            opcode @ 3..=4 => {
                let (custom, parts) = (argument(&mut rest)?, argument(&mut rest)?);
                let spelled = custom
                    .checked_add(count)?
                    .checked_mul(parts)?
                    .checked_add(count)?;
                grown(&image, spelled, length)?;
                let zeros = vec![0; if opcode == 4 { count } else { 0 }];
                let common = if opcode == 4 {
                    &zeros
                } else {
                    take(&mut rest, count)?
                };
                for _ in 0..parts {
                    image.extend_from_slice(common);
                    image.extend_from_slice(take(&mut rest, custom)?);
                }
                image.extend_from_slice(common);
            }
            _ => return None,
        }
    }
    Some(image)
}

/// The image's length with so many bytes more, if they aren't too many.
fn grown(image: &[u8], count: usize, length: usize) -> Option<usize> {
    image
        .len()
        .checked_add(count)
        .filter(|grown| *grown <= length)
}

fn take<'a>(rest: &mut &'a [u8], count: usize) -> Option<&'a [u8]> {
    let (taken, after) = rest.split_at_checked(count)?;
    *rest = after;
    Some(taken)
}

fn argument(rest: &mut &[u8]) -> Option<usize> {
    let mut value = 0;
    for _ in 0..5 {
        let byte = take(rest, 1)?[0];
        value = value << 7 | usize::from(byte & 0x7F);
        if byte < 0x80 {
            return Some(value).filter(|value| *value <= u32::MAX as usize);
        }
    }
    None
}
