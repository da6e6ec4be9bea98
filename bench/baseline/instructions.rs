//! Relocation instructions, read from their halfwords.

#[derive(Clone, Copy, PartialEq, Eq)]
pub enum Kind {
    BySectDWithSkip,
    BySectC,
    BySectD,
    TVector12,
    TVector8,
    VTable8,
    ImportRun,
    SmByImport,
    SmSetSectC,
    SmSetSectD,
    SmBySection,
    IncrPosition,
    SmRepeat,
    SetPosition,
    LgByImport,
    LgRepeat,
    LgBySection,
    LgSetSectC,
    LgSetSectD,
}

/// An instruction: its numbers are those of a listing, the second one 0 where it has one alone.
#[derive(Clone, Copy)]
pub struct Instruction {
    pub kind: Kind,
    pub first: u32,
    pub second: u32,
    pub halfwords: usize,
}

/// The instruction that begins a program's rest, or none where there is none.
pub fn read(rest: &[u16]) -> Option<Instruction> {
    use Kind::*;
    let word = u32::from(*rest.first()?);
    let (low, units) = (word & 511, (word & 511) + 1);
    let small = |kind, first| {
        Some(Instruction {
            kind,
            first,
            second: 0,
            halfwords: 1,
        })
    };
    let large = |kind, mask: u32| {
        let first = (word & mask) << 16 | u32::from(*rest.get(1)?);
        Some(Instruction {
            kind,
            first,
            second: 0,
            halfwords: 2,
        })
    };
    match word >> 9 {
        0x00..=0x1F => Some(Instruction {
            kind: BySectDWithSkip,
            first: word >> 6,
            second: word & 63,
            halfwords: 1,
        }),
        0x20 => small(BySectC, units),
        0x21 => small(BySectD, units),
        0x22 => small(TVector12, units),
        0x23 => small(TVector8, units),
        0x24 => small(VTable8, units),
        0x25 => small(ImportRun, units),
        0x30 => small(SmByImport, low),
        0x31 => small(SmSetSectC, low),
        0x32 => small(SmSetSectD, low),
        0x33 => small(SmBySection, low),
        0x40..=0x47 => small(IncrPosition, (word & 4095) + 1),
        0x48..=0x4F => Some(Instruction {
            kind: SmRepeat,
            first: (word >> 8 & 15) + 1,
            second: (word & 255) + 1,
            halfwords: 1,
        }),
        0x50 | 0x51 => large(SetPosition, 0x3FF),
        0x52 | 0x53 => large(LgByImport, 0x3FF),
        0x58 | 0x59 => large(LgRepeat, 63).map(|repeat| Instruction {
            first: (word >> 6 & 15) + 1,
            second: repeat.first,
            ..repeat
        }),
        0x5A => match word >> 6 & 7 {
            0 => large(LgBySection, 63),
            1 => large(LgSetSectC, 63),
            2 => large(LgSetSectD, 63),
            _ => None,
        },
        _ => None,
    }
}
