//! Containers and certificates of scripts.

use alloc::string::String;
use alloc::vec::Vec;
use core::fmt;
use core::ops::Range;

use crate::code::{calls_of_code, Code};
use crate::error::{Error, Part, Place};
use crate::raw::{self, Made};

/// The container of a script (`docs/SCRIPTS.md` of the project).
///
/// The container has a shortest relocation program without repeats for each section.
///
/// # Errors
///
/// 41 to 49 with the line and the word, or 99.
///
/// ```
/// let bytes = pef::link("section data data process 4 4\nbytes data 0000002A\n")?;
/// assert!(bytes.starts_with(b"Joy!peffpwpc"));
/// # Ok::<(), pef::ScriptError>(())
/// ```
pub fn link<S: AsRef<[u8]> + ?Sized>(script: &S) -> Result<Vec<u8>, ScriptError> {
    made(raw::link, script.as_ref(), 4096)
}

/// The certificates of a script, as `pef distances` prints them (`docs/CERTIFICATES.md` of the project).
///
/// Each has the relocation program that [`link`] writes for a section, and proves that no program without repeats is shorter.
///
/// # Errors
///
/// 41 to 49 with the line and the word, or 99.
///
/// ```
/// let lines = pef::distances("section data data process 4 4\nbytes data 0000002A\n")?;
/// assert!(lines.starts_with("pefcert 2\nsection 0\n") && lines.ends_with("end\n"));
/// # Ok::<(), pef::ScriptError>(())
/// ```
pub fn distances<S: AsRef<[u8]> + ?Sized>(script: &S) -> Result<String, ScriptError> {
    let lines = made(raw::distances, script.as_ref(), 65536)?;
    // They are in ASCII.
    Ok(String::from_utf8(lines).unwrap_or_default())
}

fn made(call: fn(&[u8], usize) -> Made, script: &[u8], mut length: usize) -> Result<Vec<u8>, ScriptError> {
    loop {
        match call(script, length) {
            Made::Bytes(made) => return Ok(made),
            Made::Needs(needed) => length = needed,
            Made::Refused(number, line) => return Err(ScriptError::new(number, line, script)),
        }
    }
}

/// The first error of a script, and where it is.
///
/// ```
/// let error = pef::link("section data data shared 4 4\n").unwrap_err();
/// assert_eq!((error.code(), error.line(), error.word()), (pef::Code::ScriptBadKind, 1, Some(3)));
/// assert_eq!(error.mark(), "    section data data shared 4 4\n                      ^^^^^^\n");
/// ```
#[derive(Clone, Debug, PartialEq, Eq)]
pub struct ScriptError {
    code: Code,
    line: usize,
    word: Option<usize>,
    range: Option<Range<usize>>,
    earlier: Option<usize>,
    mark: String,
}

impl ScriptError {
    fn new(number: u32, line: usize, script: &[u8]) -> Self {
        let (place, earlier) = match raw::script_place(script) {
            Some((place, earlier)) if line != 0 => (Place::of(place), earlier),
            _ => (None, 0),
        };
        let range = place.and_then(|it| it.offset).map(|offset| offset..end_of_word(script, offset));
        let mark = range.as_ref().map_or_else(String::new, |range| excerpt(script, range));
        Self { code: number.into(), line, word: place.map(|it| it.field), range, earlier: (earlier != 0).then_some(earlier), mark }
    }

    calls_of_code!();

    /// The number of the line, from 1; or 0 if the error is in no line.
    pub fn line(&self) -> usize {
        self.line
    }

    /// The number of the word in the line, from 0.
    pub fn word(&self) -> Option<usize> {
        self.word
    }

    /// The number of an earlier line that the error is also about: the line that has the name or the word already, that must not come first,
    /// or that declares nearly the name.
    pub fn earlier(&self) -> Option<usize> {
        self.earlier
    }

    /// The bytes of the word in the script. They are none if a word is missing.
    pub fn range(&self) -> Option<Range<usize>> {
        self.range.clone()
    }

    /// The line as `pef` shows it, and a line that marks the word under it; or nothing if the error is in no line. At most 72 bytes of the
    /// line are shown.
    pub fn mark(&self) -> &str {
        &self.mark
    }
}

impl From<ScriptError> for Error {
    fn from(it: ScriptError) -> Self {
        let offset = it.range.map(|range| range.start);
        Self::at(it.code.number(), it.word.map(|field| Place { part: Part::Line, row: it.line, field, offset }))
    }
}

impl fmt::Display for ScriptError {
    /// Writes one line: the number, the name, the line and the word.
    fn fmt(&self, out: &mut fmt::Formatter<'_>) -> fmt::Result {
        write!(out, "{}", self.code)?;
        if self.line != 0 {
            write!(out, " in line {}", self.line)?;
        }
        self.word.map_or(Ok(()), |word| write!(out, " word {word}"))
    }
}

#[cfg(feature = "std")]
impl std::error::Error for ScriptError {}

fn end_of_word(script: &[u8], offset: usize) -> usize {
    let rest = script.get(offset..).unwrap_or(&[]);
    offset + rest.iter().position(|byte| matches!(byte, b' ' | b'\t' | b'\r' | b'\n')).unwrap_or(rest.len())
}

/// The line of a word, at most 72 bytes of it and 32 of them before the word, and its mark.
fn excerpt(script: &[u8], word: &Range<usize>) -> String {
    let before = script.get(..word.start).unwrap_or(script);
    let begin = before.iter().rposition(|byte| *byte == b'\n').map_or(0, |at| at + 1);
    let shown = begin.max(word.start.saturating_sub(32));
    let line = script.get(shown..).unwrap_or(&[]).split(|byte| *byte == b'\n').next().unwrap_or(&[]);
    let column = word.start - shown;
    let marked = word.len().max(1).min(72 - column);
    let mut text = String::from("    ");
    text.extend(line.iter().take(72).map(|byte| if matches!(byte, b' '..=b'~') { char::from(*byte) } else { '?' }));
    text.push('\n');
    text.extend(core::iter::repeat(' ').take(4 + column).chain(core::iter::repeat('^').take(marked)));
    text.push('\n');
    text
}
