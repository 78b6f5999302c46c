//! The list of small walks that test programs print: one case a line, so that a script can make
//! test programs from the same list.
//!
//! A line is `NAME HEX COLUMN ROW MOVES`: the frame's bytes in hexadecimal, the start pixel, and the
//! moves as digits, `-` for none. Lines that begin with `#` are comments.

use crate::frame::open;
use crate::program::spaced;
use crate::refusal::{check, Refusal};
use crate::walk::{walk, Walk};

/// One case of the list.
#[derive(Clone, Debug, PartialEq, Eq)]
pub struct Case {
    pub name: String,
    pub file: Vec<u8>,
    pub column: usize,
    pub row: usize,
    pub moves: Vec<u8>,
}

/// The bytes that a string of hexadecimal digits stands for.
pub fn bytes_of_hex(hex: &str) -> Option<Vec<u8>> {
    if hex.len() % 2 != 0 || !hex.is_ascii() {
        return None;
    }
    let byte = |index| u8::from_str_radix(&hex[index..index + 2], 16).ok();
    (0..hex.len()).step_by(2).map(byte).collect()
}

fn moves_of_digits(digits: &str) -> Option<Vec<u8>> {
    if digits == "-" {
        return Some(Vec::new());
    }
    digits.chars().map(|digit| digit.to_digit(10).map(|number| number as u8)).collect()
}

impl Case {
    /// Reads one line of the list.
    pub fn of_line(line: &str) -> Option<Case> {
        let words: Vec<&str> = line.split_whitespace().collect();
        let [name, hex, column, row, moves] = words[..] else { return None };
        Some(Case {
            name: name.to_string(),
            file: bytes_of_hex(hex)?,
            column: column.parse().ok()?,
            row: row.parse().ok()?,
            moves: moves_of_digits(moves)?,
        })
    }

    /// The line that a test program prints for this case.
    pub fn expected(&self) -> String {
        match self.walk() {
            Ok(walk) => {
                let Walk { answers, cut, shifts, coarse_shifts, .. } = walk;
                let answers = spaced(&answers);
                format!("{}: {answers} | cut {cut} | shifts {shifts} | coarse {coarse_shifts}", self.name)
            }
            Err(refusal) => format!("{}: {refusal}", self.name),
        }
    }

    fn walk(&self) -> Result<Walk, Refusal> {
        let frame = open(&self.file)?;
        check(9, !frame.has(self.column, self.row))?;
        Ok(walk(&frame, self.column, self.row, &self.moves))
    }
}

/// Reads the whole list; the error names the first line that is no case.
pub fn read(list: &str) -> Result<Vec<Case>, String> {
    let lines = list.lines().filter(|line| !line.starts_with('#') && !line.trim().is_empty());
    lines.map(|line| Case::of_line(line).ok_or_else(|| format!("not a case: {line}"))).collect()
}
