//! Numbers and names as text.
#![allow(dead_code)] // each program uses a part

/// Appends a number in decimal.
pub fn push_decimal(text: &mut Vec<u8>, mut value: u32) {
    let mut digits = [0; 10];
    let mut from = digits.len();
    loop {
        from -= 1;
        digits[from] = b'0' + (value % 10) as u8;
        value /= 10;
        if value == 0 {
            break;
        }
    }
    text.extend_from_slice(&digits[from..]);
}

/// The eight upper-case hex digits of a number.
pub fn hex_digits(value: u32) -> [u8; 8] {
    let mut nibbles = u64::from(value);
    nibbles = (nibbles | nibbles << 16) & 0x0000_FFFF_0000_FFFF;
    nibbles = (nibbles | nibbles << 8) & 0x00FF_00FF_00FF_00FF;
    nibbles = (nibbles | nibbles << 4) & 0x0F0F_0F0F_0F0F_0F0F;
    let letters = (nibbles + 0x0606_0606_0606_0606) >> 4 & 0x0101_0101_0101_0101;
    (nibbles + 0x3030_3030_3030_3030 + letters * 7).to_be_bytes()
}

/// Appends numbers of one, two and four bytes in hex.
pub fn push_byte(text: &mut Vec<u8>, value: u8) {
    text.extend_from_slice(&hex_digits(u32::from(value))[6..]);
}

pub fn push_half(text: &mut Vec<u8>, value: u16) {
    text.extend_from_slice(&hex_digits(u32::from(value))[4..]);
}

pub fn push_word(text: &mut Vec<u8>, value: u32) {
    text.extend_from_slice(&hex_digits(value));
}

/// Appends a name: bytes outside 21 to 7E (hex), and `%`, in hex.
pub fn push_name(text: &mut Vec<u8>, name: &[u8]) {
    let is_plain = |byte: &u8| (0x21..=0x7E).contains(byte) && *byte != b'%';
    if name.iter().all(is_plain) {
        text.extend_from_slice(name);
        return;
    }
    for byte in name {
        if is_plain(byte) {
            text.push(*byte);
        } else {
            text.push(b'%');
            push_byte(text, *byte);
        }
    }
}
