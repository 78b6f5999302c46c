//! The text that the program prints for the bytes on its standard input.

use crate::frame::{open, Frame};
use crate::refusal::{check, Refusal};
use crate::store::Way;
use crate::walk::filter;

/// The longest input.
pub const INPUT_MOST: usize = 16_384;
/// The greatest width, level count and guide count.
pub const SIDE_MOST: u16 = 64;

/// The numbers with one space between.
pub fn spaced(numbers: &[u16]) -> String {
    let words: Vec<String> = numbers.iter().map(u16::to_string).collect();
    words.join(" ")
}

/// Check 12's size, checks 1 to 7, then check 12's limits.
fn open_input(input: &[u8]) -> Result<Frame, Refusal> {
    check(12, input.len() > INPUT_MOST)?;
    let frame = open(input)?;
    let settings = &frame.settings;
    let sides = [settings.width, settings.levels, settings.guides];
    check(12, sides.iter().any(|&side| side > SIDE_MOST))?;
    Ok(frame)
}

/// Size, filtered rows, and each serving way with its shifts.
fn report(frame: &Frame) -> String {
    let settings = &frame.settings;
    let (plane, walk) = filter(frame);
    let mut lines = vec![format!("{} {}", settings.width, settings.height)];
    lines.extend(plane.chunks(usize::from(settings.width)).map(spaced));
    for way in Way::ALL.into_iter().filter(|way| way.serves(settings.kind)) {
        lines.push(format!("{} {}", way.name(), walk.shifts_by(way)));
    }
    lines.join("\n")
}

/// The whole output, a line end after every line.
pub fn printed(input: &[u8]) -> String {
    let text = match open_input(input) {
        Ok(frame) => report(&frame),
        Err(refusal) => refusal.to_string(),
    };
    text + "\n"
}
