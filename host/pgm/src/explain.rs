//! Why a pixel has its value, in words, and a picture of the causes.

use crate::Framed;
use icemedian::{explain, write, Cause, Explanation, Refusal, Settings};

/// A number with a comma before every three digits.
fn grouped(number: i64) -> String {
    let digits = number.unsigned_abs().to_string();
    let mut text = if number < 0 { "-" } else { "" }.to_string();
    for (place, digit) in digits.chars().enumerate() {
        if place > 0 && (digits.len() - place) % 3 == 0 {
            text.push(',');
        }
        text.push(digit);
    }
    text
}

/// What the cause means to who looks at the pictures.
fn meaning(cause: Cause) -> &'static str {
    match cause {
        Cause::Ordinary => "This is an ordinary window: no pixel counts against its own value.",
        Cause::Hollow => "No pixel of the window weighs anything for this one, so each counted as 1.",
        Cause::NegativeAtZero => {
            "This pixel is brighter than its window's average, by so much that a pixel near the dark end of the guide \
             picture counts against its own value there: going up the values, the weight can fall."
        }
        Cause::NegativeAtLast => {
            "This pixel is darker than its window's average, by so much that a pixel near the bright end of the guide \
             picture counts against its own value there: going up the values, the weight can fall."
        }
        Cause::Empty => "No pixel of its window has a reading.",
    }
}

/// The explanation of a pixel, dead itself or not, whose level is the picture's `value`.
pub fn sentences((column, row): (usize, usize), dead: bool, value: u16, why: &Explanation) -> String {
    if why.level.is_none() {
        return format!("Column {column}, row {row} has no reading and stays {value}. {}", meaning(why.cause));
    }
    let becomes = if dead { "has no reading and becomes" } else { "becomes" };
    let (pixels, total) = (grouped(why.pixels as i64), grouped(why.total));
    let plural = if why.pixels == 1 { "" } else { "s" };
    let (below, reached) = (grouped(why.below), grouped(why.reached));
    format!(
        "Column {column}, row {row} {becomes} {value}. Its window has {pixels} pixel{plural} of total weight {total}. \
         The values below {value} weigh {below}, less than half; with {value} it is {reached}, at least half. {}",
        meaning(why.cause)
    )
}

/// Red, green and blue of a cause. Hollow windows, purple, need a table of the file's own, which this program writes
/// for none.
fn colour(cause: Cause) -> [u8; 3] {
    match cause {
        Cause::Ordinary => [208, 212, 216],
        Cause::Hollow => [150, 60, 160],
        Cause::NegativeAtZero => [230, 130, 30],
        Cause::NegativeAtLast => [40, 100, 200],
        Cause::Empty => [0, 0, 0],
    }
}

/// The cause of a pixel. Every call checks its whole frame, so each is made on a frame of the window alone: what
/// explains a pixel is all in there.
fn cause(frame: &Framed, pixel: usize) -> Result<Cause, Refusal> {
    let Framed { settings, levels, guides, .. } = frame;
    let (width, radius) = (usize::from(settings.width), usize::from(settings.radius));
    let reach = |place: usize, size: u16| place.saturating_sub(radius)..usize::from(size).min(place + radius + 1);
    let (column, row) = (pixel % width, pixel / width);
    let (columns, rows) = (reach(column, settings.width), reach(row, settings.height));
    let cut = |plane: &[u16]| -> Vec<u16> {
        rows.clone().flat_map(|line| &plane[line * width..][columns.clone()]).copied().collect()
    };
    let around = Settings { width: columns.len() as u16, height: rows.len() as u16, ..*settings };
    let file = write(&around, &cut(levels), &cut(guides), &[])?;
    Ok(explain(&file, (column - columns.start, row - rows.start))?.cause)
}

/// The bytes of a colour picture (PPM, P6) of every pixel's cause.
pub fn causes(frame: &Framed) -> Result<Vec<u8>, Refusal> {
    let mut bytes = format!("P6\n{} {}\n255\n", frame.settings.width, frame.settings.height).into_bytes();
    for pixel in 0..frame.levels.len() {
        bytes.extend(colour(cause(frame, pixel)?));
    }
    Ok(bytes)
}

#[cfg(test)]
mod tests {
    use super::*;

    #[test]
    fn numbers_are_grouped() {
        let texts = [0, 12, -123, 1234, -815_000, 48_120_007].map(grouped);
        assert_eq!(texts, ["0", "12", "-123", "1,234", "-815,000", "48,120,007"]);
    }

    // The program itself meets no hollow window: what it would say of one.
    #[test]
    fn a_hollow_window_in_words() {
        let why = Explanation { pixels: 1, total: 1, level: Some(4), below: 0, reached: 1, cause: Cause::Hollow };
        let text = "Column 1, row 0 becomes 104. Its window has 1 pixel of total weight 1. The values below 104 weigh 0, \
                    less than half; with 104 it is 1, at least half. No pixel of the window weighs anything for this one, \
                    so each counted as 1.";
        assert_eq!(sentences((1, 0), false, 104, &why), text);
    }

    #[test]
    fn every_cause_has_a_colour_of_its_own() {
        let mut colours = Cause::ALL.map(colour).to_vec();
        colours.sort_unstable();
        colours.dedup();
        assert_eq!(colours.len(), Cause::ALL.len());
    }
}
