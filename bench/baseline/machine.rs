//! Applies relocation programs to memory.

use crate::instructions::{self, Instruction, Kind};

/// The addresses of a fragment's sections, and of what its imports stand for.
pub trait Addresses {
    fn section(&self, number: u32) -> Option<u32>;
    fn import(&self, number: u32) -> Option<u32>;
}

pub struct Machine<'a, A> {
    memory: &'a mut [u8],
    addresses: &'a A,
    position: usize,
    import: u32,
    c: u32,
    d: u32,
}

impl<'a, A: Addresses> Machine<'a, A> {
    pub fn new(memory: &'a mut [u8], addresses: &'a A) -> Self {
        let [c, d] = [0, 1].map(|section| addresses.section(section).unwrap_or(0));
        Machine {
            memory,
            addresses,
            position: 0,
            import: 0,
            c,
            d,
        }
    }

    /// Does a program, if it is a good one.
    pub fn run(&mut self, program: &[u16]) -> Option<()> {
        let mut read: Vec<Instruction> = Vec::new();
        let mut rest = program;
        while !rest.is_empty() {
            let instruction = instructions::read(rest)?;
            rest = &rest[instruction.halfwords..];
            read.push(instruction);
        }
        for (place, instruction) in read.iter().enumerate() {
            if matches!(instruction.kind, Kind::SmRepeat | Kind::LgRepeat) {
                let block = reach(&read[..place], instruction.first as usize)?;
                for _ in 0..instruction.second {
                    block
                        .iter()
                        .try_for_each(|instruction| self.step(*instruction))?;
                }
            } else {
                self.step(*instruction)?;
            }
        }
        Some(())
    }

    fn step(&mut self, instruction: Instruction) -> Option<()> {
        let number = instruction.first;
        let (c, d) = (self.c, self.d);
        match instruction.kind {
            Kind::BySectDWithSkip => {
                self.position += 4 * number as usize;
                self.units(instruction.second, &[d], 0)
            }
            Kind::BySectC => self.units(number, &[c], 0),
            Kind::BySectD => self.units(number, &[d], 0),
            Kind::TVector12 => self.units(number, &[c, d], 4),
            Kind::TVector8 => self.units(number, &[c, d], 0),
            Kind::VTable8 => self.units(number, &[d], 4),
            Kind::ImportRun => (0..number).try_for_each(|_| self.import(self.import)),
            Kind::SmByImport | Kind::LgByImport => self.import(number),
            Kind::SmBySection | Kind::LgBySection => self.add(self.addresses.section(number)?),
            Kind::SmSetSectC | Kind::LgSetSectC => self
                .addresses
                .section(number)
                .map(|address| self.c = address),
            Kind::SmSetSectD | Kind::LgSetSectD => self
                .addresses
                .section(number)
                .map(|address| self.d = address),
            Kind::IncrPosition => {
                self.position += number as usize;
                Some(())
            }
            Kind::SetPosition => {
                self.position = number as usize;
                Some(())
            }
            Kind::SmRepeat | Kind::LgRepeat => None,
        }
    }

    fn units(&mut self, count: u32, addresses: &[u32], gap: usize) -> Option<()> {
        for _ in 0..count {
            addresses
                .iter()
                .try_for_each(|address| self.add(*address))?;
            self.position += gap;
        }
        Some(())
    }

    fn import(&mut self, import: u32) -> Option<()> {
        self.import = import + 1;
        self.add(self.addresses.import(import)?)
    }

    fn add(&mut self, address: u32) -> Option<()> {
        let word: &mut [u8; 4] = self.memory.get_mut(self.position..)?.first_chunk_mut()?;
        *word = u32::from_be_bytes(*word)
            .wrapping_add(address)
            .to_be_bytes();
        self.position += 4;
        Some(())
    }
}

/// The instructions of so many halfwords at the end. None of them is a repeat.
fn reach(before: &[Instruction], mut halfwords: usize) -> Option<&[Instruction]> {
    let mut from = before.len();
    while halfwords > 0 {
        from = from.checked_sub(1)?;
        halfwords = halfwords.checked_sub(before[from].halfwords)?;
    }
    Some(&before[from..])
}
