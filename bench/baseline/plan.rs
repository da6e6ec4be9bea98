//! Finds the shortest relocation program without repeats: labels from the last fixup back, and a program read off them.
#![allow(dead_code)] // each program uses a part

use crate::labels::{registers_of, start_classes, ways, Square, Sweep, MOST_SKIPPED};
use crate::script::{Base, Fixup};
use crate::with_classes;

pub struct Plan {
    pub program: Vec<u16>,
    pub registers: Vec<u32>,
    /// A square of labels for each fixup and for the end, flat. Only if they are asked for.
    pub labels: Vec<u32>,
}

pub fn plan(fixups: &[Fixup], keeps_labels: bool) -> Plan {
    let registers = registers_of(fixups);
    with_classes!(
        registers.len() + 1,
        plan_classes(fixups, registers, keeps_labels)
    )
}

fn plan_classes<const R: usize>(fixups: &[Fixup], registers: Vec<u32>, keeps_labels: bool) -> Plan {
    let mut sweep = Sweep::<R>::new(fixups, &registers, vec![[[0; R]; R]; fixups.len() + 1]);
    for place in (0..fixups.len()).rev() {
        let direct = sweep.direct(place);
        sweep.labels[place] = with_sets(direct);
        sweep.keep_skips(place);
    }
    let program = Reading::new(&sweep, &registers).program();
    let labels = if keeps_labels {
        sweep.labels.into_flattened().into_flattened()
    } else {
        Vec::new()
    };
    Plan {
        program,
        registers,
        labels,
    }
}

/// The least with registers set before: each costs one halfword.
fn with_sets<const R: usize>(mut square: Square<R>) -> Square<R> {
    let mut column = [u32::MAX; R];
    for line in &square {
        for (least, value) in column.iter_mut().zip(line) {
            *least = (*least).min(*value);
        }
    }
    let least = column.into_iter().min().unwrap_or(0);
    let column = column.map(|value| value.min(least + 1) + 1);
    for line in &mut square {
        let inner = line.iter().fold(u32::MAX, |least, value| least.min(*value)) + 1;
        for (value, outer) in line.iter_mut().zip(column) {
            *value = (*value).min(inner).min(outer);
        }
    }
    square
}

/// A program that is read off labels: how far it is, and what it holds so far.
struct Reading<'a, const R: usize> {
    sweep: &'a Sweep<'a, R>,
    registers: &'a [u32],
    place: usize,
    position: u32,
    c: usize,
    d: usize,
    program: Vec<u16>,
}

impl<'a, const R: usize> Reading<'a, R> {
    fn new(sweep: &'a Sweep<'a, R>, registers: &'a [u32]) -> Self {
        let [c, d] = start_classes(registers);
        Reading {
            sweep,
            registers,
            place: 0,
            position: 0,
            c,
            d,
            program: Vec::new(),
        }
    }

    fn program(mut self) -> Vec<u16> {
        while let Some(fixup) = self.sweep.fixups.get(self.place) {
            if self.position != fixup.offset {
                self.move_on(fixup.offset);
            } else if !self.add(fixup.base) {
                self.set();
            }
        }
        self.program
    }

    /// Adds so many fixups by one instruction if that loses nothing.
    fn adds(&mut self, opcode: u16, units: usize, width: usize, gap: u32) -> bool {
        let label = self.sweep.labels[self.place][self.c][self.d];
        for count in (1..=units).rev() {
            let place = self.place + count * width;
            let position = self.sweep.fixups[place - 1].offset + gap;
            if 1 + self.sweep.extension(place, position, self.c, self.d) == label {
                self.program.push(opcode + count as u16 - 1);
                (self.place, self.position) = (place, position);
                return true;
            }
        }
        false
    }

    fn add(&mut self, base: Base) -> bool {
        let runs = self.sweep.runs[self.place];
        let class = usize::from(self.sweep.classes[self.place]);
        let units = |holds: bool, run: u16| if holds { usize::from(run) } else { 0 };
        match base {
            Base::Import(import) => {
                self.adds(0x4A00, usize::from(runs.imports), 1, 4)
                    || (import < 512 && self.adds(0x6000 + import as u16, 1, 1, 4))
                    || self.adds_large(import)
            }
            Base::Section(section) => {
                let [c, d] = [self.c == class, self.d == class];
                let pair = c
                    && self
                        .sweep
                        .classes
                        .get(self.place + 1)
                        .is_some_and(|next| usize::from(*next) == self.d);
                self.adds(0x4200, units(d, runs.words), 1, 4)
                    || self.adds(0x4000, units(c, runs.words), 1, 4)
                    || self.adds(0x4600, units(pair, runs.pairs[0]), 2, 4)
                    || self.adds(0x4400, units(pair, runs.pairs[1]), 2, 8)
                    || self.adds(0x4800, units(d, runs.spaced), 1, 8)
                    || self.adds(0x6600 + section as u16, 1, 1, 4)
            }
        }
    }

    fn adds_large(&mut self, import: u32) -> bool {
        let position = self.position + 4;
        let rest = self
            .sweep
            .extension(self.place + 1, position, self.c, self.d);
        let holds = 2 + rest == self.sweep.labels[self.place][self.c][self.d];
        if holds {
            self.program
                .extend([0xA400 + (import >> 16) as u16, import as u16]);
            (self.place, self.position) = (self.place + 1, position);
        }
        holds
    }

    /// Sets the register that brings the program nearer.
    fn set(&mut self) {
        let square = &self.sweep.labels[self.place];
        let next = square[self.c][self.d] - 1;
        let used = self.registers.len();
        if let Some(c) = (0..used).find(|c| square[*c][self.d] == next) {
            self.set_c(c);
        } else {
            let d = (0..used).find(|d| square[self.c][*d] == next);
            self.set_d(d.expect("a label has an instruction"));
        }
    }

    fn set_c(&mut self, class: usize) {
        self.program.push(0x6200 + self.registers[class] as u16);
        self.c = class;
    }

    fn set_d(&mut self, class: usize) {
        self.program.push(0x6400 + self.registers[class] as u16);
        self.d = class;
    }

    fn move_on(&mut self, offset: u32) {
        let (plain, skip) = ways(self.position, offset);
        let value = self
            .sweep
            .extension(self.place, self.position, self.c, self.d);
        if value == plain + self.sweep.labels[self.place][self.c][self.d] {
            if plain == 1 {
                self.program
                    .push(0x8000 + (offset - self.position - 1) as u16);
            } else {
                self.program
                    .extend([0xA000 + (offset >> 16) as u16, offset as u16]);
            }
            self.position = offset;
        } else if skip == Some(1) {
            self.program
                .push(0x8000 + (offset - 1020 - self.position - 1) as u16);
            self.position = offset - 1020;
        } else {
            self.skip(offset);
        }
    }

    fn skip(&mut self, offset: u32) {
        let class = usize::from(self.sweep.classes[self.place]);
        if self.d != class {
            self.set_d(class);
        }
        let most = MOST_SKIPPED.min(usize::from(self.sweep.runs[self.place].words));
        let words = (offset - self.position) as u16 / 4;
        for count in (1..=most).rev() {
            let place = self.place + count;
            let position = self.sweep.fixups[place - 1].offset + 4;
            if 1 + self.sweep.extension(place, position, self.c, self.d)
                == self.sweep.skips[self.place][self.c]
            {
                self.program.push(words << 6 | count as u16);
                (self.place, self.position) = (place, position);
                return;
            }
        }
    }
}
