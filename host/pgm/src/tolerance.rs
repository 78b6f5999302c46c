//! Values known within a tolerance: the pictures of least and of greatest answers.

use crate::options::Options;
use crate::pgm::Picture;
use crate::{note_without, Framed, Pictures};
use icemedian::{tolerance, Refusal};
use std::time::Instant;

/// The least and the greatest answers. Both pictures allow what either that was read allows: a rounded value may lie
/// above what one of them does.
pub fn filter(pictures: &Pictures, frame: &Framed, upper: &[u16]) -> Result<(Picture, Picture), Refusal> {
    let start = Instant::now();
    let bounds = tolerance(&frame.file, upper)?;
    check_within_steps(pictures, frame, upper)?;
    eprintln!(
        "filtered both ends in {:.0?}, {} shifts for the least, {} for the greatest",
        start.elapsed(),
        bounds.least_shifts,
        bounds.greatest_shifts
    );
    note_without(bounds.readings().filter(Option::is_none).count());
    let (least, greatest) = (frame.values(&bounds.least), frame.values(&bounds.greatest));
    let spans = || least.iter().zip(&greatest).map(|(least, greatest)| greatest - least);
    let (apart, most) = (spans().filter(|&span| span > 0).count(), spans().max().unwrap_or(0));
    eprintln!("least and greatest differ at {apart} pixels, by at most {most}");
    let thermal = &pictures.thermal;
    let most = pictures.upper.iter().map(|upper| upper.most).fold(thermal.most, u16::max);
    Ok((Picture { values: least, most, ..*thermal }, Picture { values: greatest, most, ..*thermal }))
}

/// A value above its upper one by less than a step has the same level, which the library allows; it is as wrong.
fn check_within_steps(pictures: &Pictures, frame: &Framed, upper: &[u16]) -> Result<(), Refusal> {
    let Some(uppers) = &pictures.upper else { return Ok(()) };
    let mut pairs = pictures.thermal.values.iter().zip(&uppers.values);
    match pairs.position(|(low, high)| low > high) {
        Some(pixel) => Err(Refusal::UpperLevel { pixel, reading: frame.levels[pixel], upper: upper[pixel] }),
        None => Ok(()),
    }
}

/// Number 13 in the terms of the command line: the first pixel whose upper value does not go with its own.
pub fn refused(refusal: Refusal, pictures: &Pictures, options: &Options) -> Option<String> {
    let (Refusal::UpperLevel { pixel, .. }, Some(files), Some(upper)) = (refusal, &options.tolerance, &pictures.upper)
    else {
        return None;
    };
    let (thermal, lower_place, upper_place) = (&pictures.thermal, &options.thermal, &files.upper);
    let (low, high) = (thermal.values[pixel], upper.values[pixel]);
    let place = format!("column {}, row {}", pixel % thermal.width, pixel / thermal.width);
    Some(match options.dead {
        Some(dead) if low == dead => format!("{lower_place} has no reading at {place}, but {upper_place} has {high}"),
        Some(dead) if high == dead => format!("{upper_place} has no reading at {place}, but {lower_place} has {low}"),
        _ => format!("{upper_place} has {high} at {place}, below the {low} of {lower_place}"),
    })
}
