//! `pef check SCRIPT CERT` in plain Rust: the same lines and status. Certificates are of versions 1 and 2.

mod instructions;
mod labels;
mod lines;
mod names;
mod script;

use instructions::{Instruction, Kind};
use labels::{registers_of, start_classes, Square, Sweep};
use lines::{decimal, refuse, Lines, Words, HEX};
use script::{Base, Fixup};
use std::fs;
use std::io::{self, Write};
use std::process::ExitCode;

fn main() -> io::Result<ExitCode> {
    let paths: Vec<String> = std::env::args().skip(1).collect();
    let (text, certificates) = (fs::read(&paths[0])?, fs::read(&paths[1])?);
    let script = script::read(&text);
    let mut reader = Reader {
        lines: Lines::new(&certificates),
        version: 1,
    };
    let (mut answer, mut count, mut all) = (String::new(), 0, true);
    let verdicts = reader.verdicts(|section| {
        script
            .sections
            .get(section)
            .map_or(&[], |section| &section.fixups)
    });
    for (number, verdict) in verdicts.unwrap_or_else(|| refuse(reader.lines.number)) {
        all &= verdict.is_some();
        count += usize::from(number == count);
        answer += &match verdict {
            Some(length) => format!("section {number} yes {length}\n"),
            None => format!("section {number} no\n"),
        };
    }
    if answer.lines().count() != count || count != script.sections.len() {
        (answer, all) = ("refused 52 SectionsDiffer\n".to_string(), false);
    }
    io::stdout().write_all(answer.as_bytes())?;
    Ok(if all {
        ExitCode::SUCCESS
    } else {
        ExitCode::FAILURE
    })
}

/// The certificates of a text. Each is judged when its rows were read.
struct Reader<'a> {
    lines: Lines<'a>,
    version: u32,
}

/// What a certificate says of its program.
struct Claim {
    fixups: usize,
    program: Vec<u16>,
    registers: Vec<u32>,
}

impl<'a> Reader<'a> {
    /// The words behind the first one, of a line that begins with it.
    fn words(&mut self, first: &[u8]) -> Option<Words<'a>> {
        let mut words = Words::new(self.lines.next()?);
        (words.next()? == first).then_some(words)
    }

    fn number(&mut self, first: &[u8]) -> Option<u32> {
        decimal(self.words(first)?.next()?)
    }

    /// The number of each certificate's section, and its program's length where the certificate is valid.
    fn verdicts<'s>(
        &mut self,
        fixups: impl Fn(usize) -> &'s [Fixup],
    ) -> Option<Vec<(usize, Option<usize>)>> {
        self.version = self
            .number(b"pefcert")
            .filter(|version| [1, 2].contains(version))?;
        let mut verdicts = Vec::new();
        loop {
            let mut words = Words::new(self.lines.next()?);
            match words.next()? {
                b"end" => return self.lines.next().is_none().then_some(verdicts),
                b"section" => {
                    let section = decimal(words.next()?)? as usize;
                    let claim = self.claim()?;
                    let classes = claim.registers.len() + 1;
                    let is_valid = with_classes!(classes, judge(self, &claim, fixups(section)))?;
                    verdicts.push((section, is_valid.then_some(claim.program.len())));
                }
                _ => return None,
            }
        }
    }

    fn claim(&mut self) -> Option<Claim> {
        let fixups = self.number(b"fixups")? as usize;
        let length = self.number(b"length")? as usize;
        let words = self.words(b"program")?;
        let program: Option<Vec<u16>> = words.filter(|word| *word != b"-").map(halfword).collect();
        let program = program.filter(|program| program.len() == length)?;
        let words = self.words(b"registers")?;
        let registers: Option<Vec<u32>> = words.filter(|word| *word != b"*").map(decimal).collect();
        Some(Claim {
            fixups,
            program,
            registers: registers?,
        })
    }

    fn rows<const R: usize>(&mut self, fixups: usize) -> Option<Vec<Square<R>>> {
        let mut rows: Vec<Square<R>> = Vec::with_capacity(fixups + 1);
        while rows.len() <= fixups {
            let mut rest = self.lines.next()?.strip_prefix(b"at")?;
            let from = take_number(&mut rest)? as usize;
            let to = if self.version == 2 {
                take_number(&mut rest)? as usize
            } else {
                from
            };
            let mut row = [[0; R]; R];
            for label in row.as_flattened_mut() {
                *label = take_number(&mut rest)?;
            }
            let repeats = self.version == 2 && rows.last() == Some(&row);
            if from != rows.len() || to < from || to > fixups || repeats || !rest.is_empty() {
                return None;
            }
            rows.resize(to + 1, row);
        }
        Some(rows)
    }
}

/// Four upper-case hex digits.
fn halfword(word: &[u8]) -> Option<u16> {
    let value = |value: u16, byte: &u8| value << 4 | u16::from(HEX[usize::from(*byte)]);
    let holds = word.len() == 4 && word.iter().all(|byte| HEX[usize::from(*byte)] < 16);
    holds.then(|| word.iter().fold(0, value))
}

/// A space and a decimal number without leading zeros, from the front of a line.
fn take_number(rest: &mut &[u8]) -> Option<u32> {
    let digits = rest.strip_prefix(b" ")?;
    let mut value = 0u64;
    let mut count = 0;
    while let Some(digit) = digits
        .get(count)
        .map(|byte| byte.wrapping_sub(b'0'))
        .filter(|digit| *digit < 10)
    {
        value = value * 10 + u64::from(digit);
        count += 1;
        if count > 10 {
            return None;
        }
    }
    *rest = &digits[count..];
    let holds = count == 1 || (count > 1 && digits[0] != b'0');
    u32::try_from(value).ok().filter(|_| holds)
}

/// Whether the certificate whose rows follow is valid for the fixups.
fn judge<const R: usize>(reader: &mut Reader, claim: &Claim, fixups: &[Fixup]) -> Option<bool> {
    let labels = reader.rows::<R>(claim.fixups)?;
    if claim.fixups != fixups.len()
        || claim.registers != registers_of(fixups)
        || !makes(fixups, &claim.program)
    {
        return Some(false);
    }
    let mut sweep = Sweep::new(fixups, &claim.registers, labels);
    let [c, d] = start_classes(&claim.registers);
    Some(is_feasible(&mut sweep) && claim.program.len() == sweep.extension(0, 0, c, d) as usize)
}

fn is_feasible<const R: usize>(sweep: &mut Sweep<R>) -> bool {
    let end = sweep.fixups.len();
    sweep.labels[end] == [[0; R]; R]
        && (0..end).rev().all(|place| {
            let direct = sweep.direct(place);
            let labels = &sweep.labels[place];
            let falls = labels
                .as_flattened()
                .iter()
                .zip(direct.as_flattened())
                .all(|(label, end)| label <= end);
            let holds = falls && sets_hold(labels);
            if holds {
                sweep.keep_skips(place);
            }
            holds
        })
}

/// Whether two labels with one register different differ by at most 1.
fn sets_hold<const R: usize>(labels: &Square<R>) -> bool {
    let (mut least, mut greatest) = ([u32::MAX; R], [0; R]);
    let mut holds = true;
    for line in labels {
        let (mut low, mut high) = (u32::MAX, 0);
        for (d, label) in line.iter().enumerate() {
            (low, high) = (low.min(*label), high.max(*label));
            (least[d], greatest[d]) = (least[d].min(*label), greatest[d].max(*label));
        }
        holds &= high - low <= 1;
    }
    holds
        && least
            .iter()
            .zip(greatest)
            .all(|(least, greatest)| greatest - least <= 1)
}

/// Whether a program has no repeats and makes the fixups, each once and in order.
fn makes(fixups: &[Fixup], program: &[u16]) -> bool {
    let mut machine = Machine {
        rest: fixups,
        position: 0,
        import: 0,
        c: 0,
        d: 1,
    };
    let mut rest = program;
    while let Some(instruction) = instructions::read(rest) {
        if !machine.step(instruction) {
            return false;
        }
        rest = &rest[instruction.halfwords..];
    }
    rest.is_empty() && machine.rest.is_empty()
}

/// A program under way, with the fixups that are left.
struct Machine<'a> {
    rest: &'a [Fixup],
    position: u32,
    import: u32,
    c: u32,
    d: u32,
}

impl Machine<'_> {
    /// Does an instruction, if it makes the next fixups.
    fn step(&mut self, instruction: Instruction) -> bool {
        let number = instruction.first;
        let [c, d] = [Base::Section(self.c), Base::Section(self.d)];
        match instruction.kind {
            Kind::BySectDWithSkip => {
                self.position += 4 * number;
                self.units(instruction.second, &[d], 0)
            }
            Kind::BySectC => self.units(number, &[c], 0),
            Kind::BySectD => self.units(number, &[d], 0),
            Kind::TVector12 => self.units(number, &[c, d], 4),
            Kind::TVector8 => self.units(number, &[c, d], 0),
            Kind::VTable8 => self.units(number, &[d], 4),
            Kind::ImportRun => (0..number).all(|_| self.import(self.import)),
            Kind::SmByImport | Kind::LgByImport => self.import(number),
            Kind::SmBySection | Kind::LgBySection => self.add(Base::Section(number)),
            Kind::SmRepeat | Kind::LgRepeat => false,
            kind => {
                match kind {
                    Kind::SmSetSectC | Kind::LgSetSectC => self.c = number,
                    Kind::SmSetSectD | Kind::LgSetSectD => self.d = number,
                    Kind::IncrPosition => self.position += number,
                    _ => self.position = number,
                }
                true
            }
        }
    }

    fn units(&mut self, count: u32, bases: &[Base], gap: u32) -> bool {
        (0..count).all(|_| {
            let holds = bases.iter().all(|base| self.add(*base));
            self.position += gap;
            holds
        })
    }

    fn import(&mut self, import: u32) -> bool {
        self.import = import + 1;
        self.add(Base::Import(import))
    }

    fn add(&mut self, base: Base) -> bool {
        let Some((fixup, rest)) = self.rest.split_first() else {
            return false;
        };
        let holds = fixup.offset == self.position && fixup.base == base;
        self.rest = rest;
        self.position += 4;
        holds
    }
}
