//! Labels of the states of a relocation program, from the last fixup back. `docs/CERTIFICATES.md` says what they mean.
//! The planner makes them by it, and the check compares those that it is given.

use crate::script::{Base, Fixup};

/// A number for each class of register C, and in it for each of register D.
pub type Square<const R: usize> = [[u32; R]; R];

/// The most units that one instruction adds, and the most words that a skip adds.
pub const MOST_UNITS: usize = 512;
pub const MOST_SKIPPED: usize = 63;

/// Runs `$function::<R>` with R as the number of classes.
#[macro_export]
macro_rules! with_classes {
    ($count:expr, $function:ident($($argument:expr),*)) => {
        with_classes!(@ $count, $function($($argument),*), 1 2 3 4 5 6 7 8 9 10 11 12 13 14 15 16 17)
    };
    (@ $count:expr, $function:ident $arguments:tt, $($classes:literal)*) => {
        match $count {
            $($classes => with_classes!(@@ $function, $classes, $arguments),)*
            _ => panic!("more than 16 sections"),
        }
    };
    (@@ $function:ident, $classes:literal, ($($argument:expr),*)) => { $function::<$classes>($($argument),*) };
}

/// Numbers of which the least are taken one by one.
pub trait Least: Copy {
    const GREATEST: Self;
    fn least(self, other: Self) -> Self;
}

impl Least for u32 {
    const GREATEST: u32 = u32::MAX;

    fn least(self, other: u32) -> u32 {
        self.min(other)
    }
}

impl<T: Least, const N: usize> Least for [T; N] {
    const GREATEST: Self = [T::GREATEST; N];

    fn least(mut self, other: Self) -> Self {
        for (mine, other) in self.iter_mut().zip(other) {
            *mine = mine.least(other);
        }
        self
    }
}

/// The least of the newest `MOST_UNITS` values. The newer ones are kept as they came, with their least; in place of
/// each older one the least from there to the newer ones is kept, and the oldest of these is last.
struct Window<T> {
    newer: Vec<T>,
    newer_least: T,
    older: Vec<T>,
}

impl<T: Least> Window<T> {
    fn new() -> Self {
        Window {
            newer: Vec::new(),
            newer_least: T::GREATEST,
            older: Vec::new(),
        }
    }

    fn clear(&mut self) {
        self.newer.clear();
        self.older.clear();
        self.newer_least = T::GREATEST;
    }

    fn push(&mut self, value: T) {
        if self.newer.len() + self.older.len() == MOST_UNITS {
            if self.older.is_empty() {
                let mut least = T::GREATEST;
                self.older.extend(self.newer.drain(..).rev().map(|value| {
                    least = least.least(value);
                    least
                }));
                self.newer_least = T::GREATEST;
            }
            self.older.pop();
        }
        self.newer.push(value);
        self.newer_least = self.newer_least.least(value);
    }

    fn least(&self) -> T {
        self.older
            .last()
            .map_or(self.newer_least, |older| self.newer_least.least(*older))
    }
}

/// How many units of a kind begin at a fixup, at most `MOST_UNITS`.
#[derive(Clone, Copy, Default)]
pub struct Runs {
    /// Words of one section, 4 apart, and 8 apart.
    pub words: u16,
    pub spaced: u16,
    /// Pairs of words, of which the next begins 8 or 12 behind the last.
    pub pairs: [u16; 2],
    /// The next imports by number, 4 apart.
    pub imports: u16,
}

/// The runs at each fixup, and none at the end.
fn runs_of(fixups: &[Fixup]) -> Vec<Runs> {
    let mut runs = vec![Runs::default(); fixups.len() + 2];
    let mut expected = 0;
    for (run, fixup) in runs.iter_mut().zip(fixups) {
        if let Base::Import(import) = fixup.base {
            run.imports = u16::from(import == expected);
            expected = import + 1;
        }
    }
    for place in (0..fixups.len()).rev() {
        let [next, second] = [runs[place + 1], runs[place + 2]];
        let more = |goes_on: bool, rest: u16| {
            if goes_on {
                (rest + 1).min(MOST_UNITS as u16)
            } else {
                1
            }
        };
        let gap = |from: usize| {
            fixups
                .get(from + 1)
                .map_or(0, |fixup| fixup.offset - fixups[from].offset)
        };
        let base = |place: usize| fixups.get(place).map(|fixup| fixup.base);
        let after = gap(place);
        let run = &mut runs[place];
        match fixups[place].base {
            Base::Import(import) => {
                let goes_on = after == 4 && base(place + 1) == Some(Base::Import(import + 1));
                run.imports *= more(goes_on, next.imports);
            }
            Base::Section(_) => {
                let same = base(place + 1) == base(place);
                run.words = more(same && after == 4, next.words);
                run.spaced = more(same && after == 8, next.spaced);
                if after == 4 && matches!(base(place + 1), Some(Base::Section(_))) {
                    let again =
                        base(place + 2) == base(place) && base(place + 3) == base(place + 1);
                    let again = again && gap(place + 2) == 4;
                    run.pairs = [4, 8]
                        .map(|apart| again && gap(place + 1) == apart)
                        .map(u16::from);
                    run.pairs = [0, 1].map(|kind| more(run.pairs[kind] == 1, second.pairs[kind]));
                }
            }
        }
    }
    runs
}

/// What a position adds to the label of a fixup, and to a skip where one can count. The distance from a position past
/// it wraps, and is above all others.
pub fn ways(position: u32, offset: u32) -> (u32, Option<u32>) {
    match offset.wrapping_sub(position) {
        0 => (0, None),
        distance @ 4..=1020 if distance % 4 == 0 => (1, Some(0)),
        1..=4096 => (1, None),
        4097..=5116 => (2, Some(1)),
        _ => (2, None),
    }
}

pub struct Sweep<'a, const R: usize> {
    pub fixups: &'a [Fixup],
    pub runs: Vec<Runs>,
    /// The class of each fixup's section; R for an import.
    pub classes: Vec<u8>,
    /// A square for each fixup, and one for the end.
    pub labels: Vec<Square<R>>,
    /// For each class of C what a skip to the fixup leads to, with its section in D. Kept where a skip can lead.
    pub skips: Vec<[u32; R]>,
    words: Window<[[u32; R]; 2]>,
    spaced: Window<[u32; R]>,
    /// By the gap, and by the parity of the place.
    pairs: [[Window<u32>; 2]; 2],
    imports: Window<Square<R>>,
}

impl<'a, const R: usize> Sweep<'a, R> {
    pub fn new(fixups: &'a [Fixup], registers: &[u32], labels: Vec<Square<R>>) -> Self {
        let class = |fixup: &Fixup| match fixup.base {
            Base::Section(section) => registers
                .iter()
                .position(|register| *register == section)
                .unwrap_or(R) as u8,
            Base::Import(_) => R as u8,
        };
        Sweep {
            fixups,
            runs: runs_of(fixups),
            classes: fixups.iter().map(class).collect(),
            labels,
            skips: vec![[0; R]; fixups.len()],
            words: Window::new(),
            spaced: Window::new(),
            pairs: [
                [Window::new(), Window::new()],
                [Window::new(), Window::new()],
            ],
            imports: Window::new(),
        }
    }

    /// What a position adds to the labels of the fixup `place`, and what it adds to skips, with the class of their
    /// section. None behind the last fixup, where all is 0.
    fn ways(&self, place: usize, position: u32) -> Option<(u32, Option<(u32, usize)>)> {
        let (plain, skip) = ways(position, self.fixups.get(place)?.offset);
        let class = usize::from(self.classes[place]);
        Some((plain, skip.filter(|_| class < R).map(|more| (more, class))))
    }

    /// The extension at a position near the fixup `place`.
    pub fn extension(&self, place: usize, position: u32, c: usize, d: usize) -> u32 {
        let Some((plain, skip)) = self.ways(place, position) else {
            return 0;
        };
        let label = plain + self.labels[place][c][d];
        skip.map_or(label, |(more, class)| {
            label.min(more + self.skips[place][c] + u32::from(d != class))
        })
    }

    /// The same for all classes of C.
    fn column(&self, place: usize, position: u32, d: usize) -> [u32; R] {
        let Some((plain, skip)) = self.ways(place, position) else {
            return [0; R];
        };
        let mut column = [0; R];
        for (value, line) in column.iter_mut().zip(&self.labels[place]) {
            *value = line[d] + plain;
        }
        if let Some((more, class)) = skip {
            let more = more + u32::from(d != class);
            column = column.least(self.skips[place].map(|skip| skip + more));
        }
        column
    }

    /// The same for all classes of C and D.
    fn square(&self, place: usize, position: u32) -> Square<R> {
        let Some((plain, skip)) = self.ways(place, position) else {
            return [[0; R]; R];
        };
        let mut square = self.labels[place];
        square
            .as_flattened_mut()
            .iter_mut()
            .for_each(|label| *label += plain);
        if let Some((more, class)) = skip {
            for (line, skip) in square.iter_mut().zip(self.skips[place]) {
                let set = more + skip + 1;
                line[class] = line[class].min(set - 1);
                line.iter_mut().for_each(|value| *value = set.min(*value));
            }
        }
        square
    }

    /// The least that one adding instruction at the fixup leads to, for all classes. Asks labels after it alone.
    pub fn direct(&mut self, place: usize) -> Square<R> {
        let fixup = self.fixups[place];
        let four = self.square(place + 1, fixup.offset + 4);
        match fixup.base {
            Base::Import(import) => self.direct_import(place, import, four),
            Base::Section(_) => self.direct_section(place, four),
        }
    }

    fn direct_import(&mut self, place: usize, import: u32, four: Square<R>) -> Square<R> {
        let single = if import < 512 { 1 } else { 2 };
        let direct = four.map(|line| line.map(|value| value + single));
        let run = self.runs[place].imports;
        if run == 0 {
            return direct;
        }
        if run == 1 {
            self.imports.clear();
        }
        self.imports.push(four);
        direct.least(self.imports.least().map(|line| line.map(|value| value + 1)))
    }

    fn direct_section(&mut self, place: usize, four: Square<R>) -> Square<R> {
        let mut direct = four.map(|line| line.map(|value| value + 1));
        let class = usize::from(self.classes[place]);
        let runs = self.runs[place];
        if runs.words == 1 {
            self.words.clear();
        }
        self.words.push([four[class], four.map(|line| line[class])]);
        let mut column = [u32::MAX; R];
        if runs.words > 1 {
            let [inner, outer] = self.words.least();
            direct[class] = direct[class].least(inner.map(|value| value + 1));
            column = outer;
        }
        if runs.spaced == 1 {
            self.spaced.clear();
        }
        let eight = self.fixups[place].offset + 8;
        self.spaced.push(self.column(place + 1, eight, class));
        column = column.least(self.spaced.least());
        for (line, value) in direct.iter_mut().zip(column) {
            line[class] = line[class].min(value.saturating_add(1));
        }
        for kind in 0..2 {
            self.direct_pairs(place, kind, &mut direct);
        }
        direct
    }

    fn direct_pairs(&mut self, place: usize, kind: usize, direct: &mut Square<R>) {
        let run = self.runs[place].pairs[kind];
        if run == 0 {
            return;
        }
        let [c, d] = [place, place + 1].map(|place| usize::from(self.classes[place]));
        let end = self.fixups[place + 1].offset + 4 * (kind as u32 + 1);
        let value = self.extension(place + 2, end, c, d);
        let window = &mut self.pairs[kind][place % 2];
        if run == 1 {
            window.clear();
        }
        window.push(value);
        direct[c][d] = direct[c][d].min(window.least() + 1);
    }

    /// Keeps what skips to the fixup lead to, where the fixup before doesn't end there. Its labels are in place.
    pub fn keep_skips(&mut self, place: usize) {
        let ends_before =
            place > 0 && self.fixups[place - 1].offset + 4 == self.fixups[place].offset;
        let class = usize::from(self.classes[place]);
        if ends_before || class == R {
            return;
        }
        let mut least = [u32::MAX; R];
        for count in 1..=MOST_SKIPPED.min(usize::from(self.runs[place].words)) {
            let end = self.fixups[place + count - 1].offset + 4;
            least = least.least(self.column(place + count, end, class));
        }
        self.skips[place] = least.map(|value| value + 1);
    }
}

/// The sections that fixups name, rising.
pub fn registers_of(fixups: &[Fixup]) -> Vec<u32> {
    let mut used = [false; 256];
    for fixup in fixups {
        if let Base::Section(section) = fixup.base {
            used[section as usize] = true;
        }
    }
    (0..256).filter(|section| used[*section as usize]).collect()
}

/// The classes of the registers at the start: of sections 0 and 1.
pub fn start_classes(registers: &[u32]) -> [usize; 2] {
    [0, 1].map(|section| {
        registers
            .iter()
            .position(|register| *register == section)
            .unwrap_or(registers.len())
    })
}
