//! `pef distances SCRIPT` in plain Rust: the same text, but for lines of programs, of which several may be shortest.

mod labels;
mod lines;
mod names;
mod plan;
mod script;
mod text;

use plan::Plan;
use std::io::{self, Write};
use text::{push_decimal, push_half};

fn main() -> io::Result<()> {
    let path = std::env::args().nth(1).unwrap_or_default();
    let text = std::fs::read(path)?;
    let script = script::read(&text);
    let mut output = io::stdout();
    let mut answer = b"pefcert 2\n".to_vec();
    for (section, place) in script.sections.iter().zip(0..) {
        let plan = plan::plan(&section.fixups, true);
        push_line(&mut answer, b"section", place);
        push_line(&mut answer, b"fixups", section.fixups.len() as u32);
        push_certificate(&mut answer, &plan);
        push_rows(&mut answer, &plan, &mut output)?;
    }
    answer.extend(b"end\n");
    output.write_all(&answer)
}

fn push_line(text: &mut Vec<u8>, word: &[u8], number: u32) {
    text.extend(word);
    push_number(text, number);
    text.push(b'\n');
}

fn push_number(text: &mut Vec<u8>, number: u32) {
    text.push(b' ');
    push_decimal(text, number);
}

fn push_certificate(text: &mut Vec<u8>, plan: &Plan) {
    push_line(text, b"length", plan.program.len() as u32);
    text.extend(b"program");
    for halfword in &plan.program {
        text.push(b' ');
        push_half(text, *halfword);
    }
    text.extend(if plan.program.is_empty() {
        b" -\n".as_slice()
    } else {
        b"\n"
    });
    text.extend(b"registers");
    for register in &plan.registers {
        push_number(text, *register);
    }
    text.extend(b" *\n");
}

/// A line for each range of equal rows. What is long goes out at once.
fn push_rows(text: &mut Vec<u8>, plan: &Plan, output: &mut impl Write) -> io::Result<()> {
    let width = (plan.registers.len() + 1).pow(2);
    let mut from = 0;
    for rows in ranges(&plan.labels, width) {
        let to = from + rows.len() / width;
        text.extend(b"at");
        push_number(text, from as u32);
        push_number(text, to as u32 - 1);
        for label in &rows[..width] {
            push_number(text, *label);
        }
        text.push(b'\n');
        from = to;
        if text.len() > 1 << 16 {
            output.write_all(text)?;
            text.clear();
        }
    }
    Ok(())
}

/// Rows in ranges of equal ones, each as long as it can be.
fn ranges(mut rows: &[u32], width: usize) -> impl Iterator<Item = &[u32]> {
    std::iter::from_fn(move || {
        let first = rows.get(..width)?;
        let count = rows
            .chunks_exact(width)
            .take_while(|row| *row == first)
            .count();
        let (range, rest) = rows.split_at(count * width);
        rows = rest;
        Some(range)
    })
}
