//! The hash table of a container's exports.

pub struct Table {
    pub power: u32,
    pub slots: Vec<u32>,
    /// Hash words in the order of slots, and which name each is of.
    pub keys: Vec<u32>,
    pub order: Vec<u32>,
}

fn hash_word(name: &[u8]) -> u32 {
    let hash = name.iter().fold(0i32, |hash, byte| {
        (hash << 1).wrapping_sub(hash >> 16) ^ i32::from(*byte)
    });
    (name.len() as u32) << 16 | (hash ^ hash >> 16) as u32 & 0xFFFF
}

pub fn build<'a>(names: impl ExactSizeIterator<Item = &'a [u8]>) -> Table {
    let count = names.len();
    let power = (0..16).find(|power| count >> power < 10).unwrap_or(16);
    let words: Vec<u32> = names.map(hash_word).collect();
    let slot_of = |word: u32| ((word ^ word >> power) & ((1 << power) - 1)) as usize;
    let mut counts = vec![0u32; 1 << power];
    for word in &words {
        counts[slot_of(*word)] += 1;
    }
    let mut next = 0;
    let mut slots = Vec::with_capacity(counts.len());
    for count in &mut counts {
        slots.push(*count << 18 | next);
        next += std::mem::replace(count, next);
    }
    let (mut keys, mut order) = (vec![0; count], vec![0; count]);
    for (place, word) in words.iter().enumerate() {
        let slot = &mut counts[slot_of(*word)];
        keys[*slot as usize] = *word;
        order[*slot as usize] = place as u32;
        *slot += 1;
    }
    Table {
        power,
        slots,
        keys,
        order,
    }
}
