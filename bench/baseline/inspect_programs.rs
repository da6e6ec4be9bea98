//! Relocation programs: reads them, tests what they would do to their sections, and prints them.

use crate::inspect_lines::{push_number, Lines};
use crate::inspect_loader::{words, Loader};
use crate::instructions::{self, Instruction, Kind};
use crate::text::push_half;
use crate::{take, Limits, Part};

/// A program that takes more steps is refused, and when programs have more bytes, others aren't printed.
const MOST_STEPS: u64 = 1 << 24;
const MOST_BYTES: usize = 1 << 26;

/// The relocation headers, each with its program. Returns where the programs are.
pub fn print_relocations(
    loader: &Loader,
    lines: &mut Lines,
    limits: &mut Limits,
) -> Option<Vec<Part>> {
    let (mut parts, mut searched, mut is_full) = (Vec::new(), Vec::new(), false);
    // Programs that share bytes aren't all printed.
    let mut left = loader.bytes.len().min(MOST_BYTES);
    for (row, number) in loader.relocations.iter().zip(0..) {
        let [section, count, first] = words(row);
        let (section, reserved) = (section >> 16, section & 0xFFFF);
        let from = loader.header[9] as usize + first as usize;
        let to = from + 2 * count as usize;
        let bytes = loader.bytes.get(from..to).filter(|_| reserved == 0)?;
        parts.push((from, to));
        left = left.checked_sub(bytes.len())?;
        take(&mut limits.program_bytes, bytes.len() as u64)?;
        let program = Program::read(loader, section, bytes)?;
        take(&mut limits.steps, program.steps)?;
        let run = program.run(false, |_, _| ())?;
        let at = loader.relocations_at() + 12 * number;
        lines.begin(at, b" reloc");
        lines.numbers(&[(b" section ", section), (b" halfwords ", count)]);
        lines.numbers(&[(b" first ", first)]);
        lines.end()?;
        if !is_full && take(&mut limits.words, run.words).is_none() {
            (is_full, limits.words) = (true, 0);
            print_unverified(lines, number, at)?;
        }
        program.print(lines, [number, loader.at + from as u32], run.outside)?;
        if !is_full {
            searched.push((program, run.goes_back));
        }
    }
    (!add_twice(&searched)?).then_some(parts)
}

fn print_unverified(lines: &mut Lines, number: u32, at: u32) -> Option<()> {
    lines.notes += 1;
    lines.push(b"note 110 ProgramsUnverified");
    lines.numbers(&[(b" reloc ", number)]);
    lines.push(b" sectionIndex at ");
    lines.hex(at);
    lines.end()
}

/// Whether an address is added to a word twice. A program that never goes back does so only after another one for the section.
fn add_twice(programs: &[(Program, bool)]) -> Option<bool> {
    let sections = programs.iter().map(|(program, _)| program.section);
    let mut sections: Vec<u32> = sections.collect();
    sections.sort_unstable();
    let has_two = sections.windows(2).any(|two| two[0] == two[1]);
    if !has_two && !programs.iter().any(|(_, goes_back)| *goes_back) {
        return Some(false);
    }
    let mut words = Vec::new();
    for (program, _) in programs {
        program.run(true, |from, moves| {
            words.extend(moves.words(from).map(|word| (program.section, word)));
        })?;
    }
    words.sort_unstable();
    Some(words.windows(2).any(|two| two[0] == two[1]))
}

struct Program {
    section: u32,
    /// The sizes of the section's memory and image, and how many imports there are.
    limits: [u64; 3],
    halfwords: Vec<u16>,
    instructions: Vec<Instruction>,
    moves: Vec<Moves>,
    steps: u64,
}

impl Program {
    fn read(loader: &Loader, section: u32, bytes: &[u8]) -> Option<Self> {
        let (memory, image) = *loader.sections.get(section as usize)?;
        let halves = bytes.as_chunks::<2>().0.iter();
        let mut program = Program {
            section,
            limits: [memory.into(), image.into(), loader.imports.len() as u64],
            halfwords: halves.map(|half| u16::from_be_bytes(*half)).collect(),
            instructions: Vec::new(),
            moves: Vec::new(),
            steps: 0,
        };
        let mut at = 0;
        while at < program.halfwords.len() {
            let instruction = instructions::read(&program.halfwords[at..])?;
            program.steps += 1;
            if is_repeat(instruction) {
                let block = program.reach(program.instructions.len(), instruction.first)?;
                program.steps += u64::from(instruction.second) * block as u64;
            }
            if program.steps > MOST_STEPS {
                return None;
            }
            program.instructions.push(instruction);
            let moves = Moves::of(at, instruction, loader.sections.len() as u32)?;
            program.moves.push(moves);
            at += instruction.halfwords;
        }
        Some(program)
    }

    /// How many instructions the halfwords before one are, if none of them is a repeat.
    fn reach(&self, place: usize, halfwords: u32) -> Option<usize> {
        let (mut count, mut left) = (0, halfwords as usize);
        while left > 0 {
            count += 1;
            let instruction = self.instructions[place.checked_sub(count)?];
            left = left.checked_sub(instruction.halfwords)?;
            if is_repeat(instruction) {
                return None;
            }
        }
        Some(count)
    }

    /// Does the program without a section's memory, unless a word or an import isn't there. Unless every pass of a repeat is to be
    /// done, those between the first and the last one are left out.
    fn run(&self, every_pass: bool, mut keep: impl FnMut(u64, &Moves)) -> Option<Run> {
        let mut run = Run::default();
        [run.memory, run.image, run.imports] = self.limits;
        for (place, instruction) in self.instructions.iter().enumerate() {
            let (mut block, mut passes) = (&self.moves[place..=place], 1);
            if is_repeat(*instruction) {
                let reach = self.reach(place, instruction.first)?;
                (block, passes) = (&self.moves[place - reach..place], instruction.second);
            }
            for pass in 0..passes {
                run.pass_block(block, &mut keep)?;
                if pass == 0 && passes > 2 && !every_pass {
                    if let Some(after) = run.after(block, u64::from(passes) - 1) {
                        run = after;
                        break;
                    }
                }
            }
            let words = block.iter().map(|moves| moves.count * moves.width / 4);
            run.words += u64::from(passes) * words.sum::<u64>();
        }
        Some(run)
    }

    /// A line for each instruction, and the note on the first word outside the image.
    fn print(&self, lines: &mut Lines, place: [u32; 2], outside: Option<Outside>) -> Option<()> {
        let [number, start] = place;
        for (instruction, moves) in self.instructions.iter().zip(&self.moves) {
            let at = start + 2 * moves.at as u32;
            lines.begin(at, b" ");
            for halfword in &self.halfwords[moves.at..moves.at + instruction.halfwords] {
                push_half(&mut lines.text, *halfword);
                lines.push(b" ");
            }
            push_instruction(&mut lines.text, *instruction);
            lines.end()?;
            if let Some((halfword, word)) = outside.filter(|(place, _)| *place == moves.at) {
                lines.notes += 1;
                lines.push(b"note 107 WordOutsideImage");
                lines.numbers(&[(b" reloc ", number), (b" halfword ", halfword as u32)]);
                lines.push(b" at ");
                lines.begin(at, b" word ");
                lines.hex(word as u32);
                lines.end()?;
            }
        }
        Some(())
    }
}

fn is_repeat(instruction: Instruction) -> bool {
    matches!(instruction.kind, Kind::SmRepeat | Kind::LgRepeat)
}

/// What an instruction does: it sets the position or moves it on, then adds imports, then passes places a stride apart, each with
/// one word or two.
struct Moves {
    /// The number of its first halfword.
    at: usize,
    position: Option<u64>,
    skip: u64,
    import: Option<u64>,
    imports: u64,
    count: u64,
    width: u64,
    stride: u64,
}

impl Moves {
    fn of(at: usize, instruction: Instruction, sections: u32) -> Option<Self> {
        let (kind, number) = (instruction.kind, u64::from(instruction.first));
        let (skip, imports, [count, width, stride]) = match kind {
            Kind::BySectDWithSkip => (4 * number, 0, [instruction.second.into(), 4, 4]),
            Kind::BySectC | Kind::BySectD => (0, 0, [number, 4, 4]),
            Kind::TVector12 => (0, 0, [number, 8, 12]),
            Kind::TVector8 => (0, 0, [number, 8, 8]),
            Kind::VTable8 => (0, 0, [number, 4, 8]),
            Kind::ImportRun => (0, number, [number, 4, 4]),
            Kind::SmByImport | Kind::LgByImport => (0, 1, [1, 4, 4]),
            Kind::IncrPosition => (number, 0, [0; 3]),
            Kind::SetPosition | Kind::SmRepeat | Kind::LgRepeat => (0, 0, [0; 3]),
            _ if instruction.first >= sections => return None,
            Kind::SmBySection | Kind::LgBySection => (0, 0, [1, 4, 4]),
            _ => (0, 0, [0; 3]),
        };
        let has_import = matches!(kind, Kind::SmByImport | Kind::LgByImport);
        Some(Moves {
            at,
            position: (kind == Kind::SetPosition).then_some(number),
            skip,
            import: has_import.then_some(number),
            imports,
            count,
            width,
            stride,
        })
    }

    fn words(&self, from: u64) -> impl Iterator<Item = u64> + '_ {
        let places = (0..self.count).map(move |place| from + self.stride * place);
        places.flat_map(|place| (place..place + self.width).step_by(4))
    }
}

/// The halfword of an instruction, and a word that it adds to.
type Outside = (usize, u64);

/// What a program does: how many words it adds to, whether it goes back, and the first word outside the image.
#[derive(Clone, Copy, Default)]
struct Run {
    position: u64,
    import: u64,
    memory: u64,
    image: u64,
    imports: u64,
    words: u64,
    goes_back: bool,
    outside: Option<Outside>,
}

impl Run {
    #[inline]
    fn pass_block(&mut self, block: &[Moves], keep: &mut impl FnMut(u64, &Moves)) -> Option<()> {
        block.iter().try_for_each(|moves| self.pass(moves, keep))
    }

    /// After this many passes more of a block that was passed once. All of them move the registers by as much as the first of them,
    /// so that only the last one is tested, unless it is the first with a word outside the image.
    fn after(&self, block: &[Moves], passes: u64) -> Option<Run> {
        let mut next = *self;
        next.pass_block(block, &mut |_, _| ())?;
        let position = next.position.checked_sub(self.position)?;
        let import = next.import.checked_sub(self.import)?;
        let mut last = next;
        last.position += position * (passes - 2);
        last.import += import * (passes - 2);
        last.pass_block(block, &mut |_, _| ())?;
        (last.outside == self.outside).then_some(last)
    }

    /// If the last word of an instruction is inside, all are.
    #[inline]
    fn pass(&mut self, moves: &Moves, keep: &mut impl FnMut(u64, &Moves)) -> Option<()> {
        if let Some(position) = moves.position {
            self.goes_back |= position < self.position;
            self.position = position;
        }
        let from = self.position + moves.skip;
        self.position = from + moves.stride * moves.count;
        if moves.imports > 0 {
            self.import = moves.import.unwrap_or(self.import) + moves.imports;
        }
        if moves.count == 0 {
            return Some(());
        }
        let end = self.position - moves.stride + moves.width;
        if end > self.memory || self.import > self.imports {
            return None;
        }
        if end > self.image {
            let outside = moves.words(from).find(|word| word + 4 > self.image);
            self.outside = outside.map(|word| (moves.at, word));
            // No other one is looked for.
            self.image = u64::MAX;
        }
        keep(from, moves);
        Some(())
    }
}

fn push_instruction(text: &mut Vec<u8>, instruction: Instruction) {
    let (word, has_two) = match instruction.kind {
        Kind::BySectDWithSkip => ("BySectDWithSkip ", true),
        Kind::BySectC => ("BySectC ", false),
        Kind::BySectD => ("BySectD ", false),
        Kind::TVector12 => ("TVector12 ", false),
        Kind::TVector8 => ("TVector8 ", false),
        Kind::VTable8 => ("VTable8 ", false),
        Kind::ImportRun => ("ImportRun ", false),
        Kind::SmByImport => ("SmByImport ", false),
        Kind::SmSetSectC => ("SmSetSectC ", false),
        Kind::SmSetSectD => ("SmSetSectD ", false),
        Kind::SmBySection => ("SmBySection ", false),
        Kind::IncrPosition => ("IncrPosition ", false),
        Kind::SmRepeat => ("SmRepeat ", true),
        Kind::SetPosition => ("SetPosition ", false),
        Kind::LgByImport => ("LgByImport ", false),
        Kind::LgRepeat => ("LgRepeat ", true),
        Kind::LgBySection => ("LgBySection ", false),
        Kind::LgSetSectC => ("LgSetSectC ", false),
        Kind::LgSetSectD => ("LgSetSectD ", false),
    };
    text.extend_from_slice(word.as_bytes());
    push_number(text, instruction.first);
    if has_two {
        text.push(b' ');
        push_number(text, instruction.second);
    }
}
