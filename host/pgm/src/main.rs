//! Filters a thermal picture with a plain one as its guide.

mod explain;
mod options;
mod pgm;
mod scale;
mod tolerance;

use icemedian::{reading, Refusal, Settings, NO_READING};
use options::{Options, Place};
use pgm::Picture;
use scale::Scale;
use std::io::{self, Read, Write};
use std::process::ExitCode;
use std::time::Instant;

fn bytes_of(place: &Place) -> io::Result<Vec<u8>> {
    match place {
        Place::File(path) => std::fs::read(path),
        Place::Standard(_) => {
            let mut bytes = Vec::new();
            io::stdin().lock().read_to_end(&mut bytes)?;
            Ok(bytes)
        }
    }
}

fn read(place: &Place) -> Result<Picture, String> {
    eprintln!("reading {place}");
    let bytes = bytes_of(place).map_err(|error| format!("{place}: {error}"))?;
    let (picture, left_over) = pgm::read(&bytes).map_err(|error| format!("{place}: {error}"))?;
    if left_over > 0 {
        eprintln!("{left_over} bytes left over behind the pixels of {place}");
    }
    Ok(picture)
}

fn write(place: &Place, bytes: &[u8]) -> Result<(), String> {
    eprintln!("writing {place}");
    let written = match place {
        Place::File(path) => std::fs::write(path, bytes),
        Place::Standard(_) => {
            let mut output = io::stdout().lock();
            output.write_all(bytes).and_then(|()| output.flush())
        }
    };
    written.map_err(|error| format!("{place}: {error}"))
}

/// What was read.
struct Pictures {
    thermal: Picture,
    guide: Picture,
    /// The upper ends of a tolerance.
    upper: Option<Picture>,
}

/// The scale of these values, which are of the picture at `place`.
fn scale_of(place: &Place, values: &[u16], dead: Option<u16>, steps_most: u16) -> Scale {
    let scale = Scale::of(values, dead, steps_most);
    if !scale.exact() {
        eprintln!("{place}: values are rounded to {} steps", scale.steps);
    }
    scale
}

fn steps(picture: &Picture, scale: &Scale) -> Vec<u16> {
    picture.values.iter().map(|&value| scale.step(value)).collect()
}

/// Refuses a value of dead pixels that a picture of levels cannot have, or that others would be rounded to.
fn check_dead(place: &Place, picture: &Picture, scale: &Scale, dead: Option<u16>) -> Result<(), String> {
    let Some(dead) = dead else { return Ok(()) };
    if dead > picture.most {
        return Err(format!(
            "--dead {dead}: no pixel of {place} can have it, whose greatest value is {}",
            picture.most
        ));
    }
    if scale.confuses(&picture.values) {
        return Err(format!(
            "--dead {dead}: other values of {place} would be rounded to it, to {} steps in all; give dead pixels a value \
             outside the others' span",
            scale.steps
        ));
    }
    let pixels = picture.values.iter().filter(|&&value| value == dead).count();
    eprintln!("{place}: {pixels} of {} pixels are dead", picture.values.len());
    Ok(())
}

fn side(size: usize) -> u16 {
    // A side that no frame can have is left to the library to refuse.
    u16::try_from(size).unwrap_or(u16::MAX)
}

/// A refusal in the terms of the command line.
fn refused(refusal: Refusal, pictures: &Pictures, options: &Options) -> String {
    let thermal = &pictures.thermal;
    let (place, width, height) = (&options.thermal, thermal.width, thermal.height);
    if let Some(message) = tolerance::refused(refusal, pictures, options) {
        return message;
    }
    match refusal {
        Refusal::Size => {
            format!("{place} is {width}x{height}: width and height may be 1 to 1024, with at most 262144 pixels in all")
        }
        Refusal::Place => {
            let (column, row) = options.explained.unwrap_or_default();
            format!("{place} is {width}x{height}: counted from 0, it has no column {column}, row {row} to explain")
        }
        other => format!("{place}: {other}"),
    }
}

/// The pictures as a frame, and the levels of the upper ends.
struct Framed {
    settings: Settings,
    levels: Vec<u16>,
    upper: Option<Vec<u16>>,
    guides: Vec<u16>,
    level_scale: Scale,
    file: Vec<u8>,
}

/// Refuses a picture of another size than the thermal one.
fn check_size(pictures: &Pictures, options: &Options, place: &Place, picture: &Picture) -> Result<(), String> {
    let thermal = &pictures.thermal;
    if (thermal.width, thermal.height) == (picture.width, picture.height) {
        return Ok(());
    }
    Err(format!(
        "{} is {}x{} and {place} {}x{}: they must be of one size",
        options.thermal, thermal.width, thermal.height, picture.width, picture.height
    ))
}

fn framed(pictures: &Pictures, options: &Options) -> Result<Framed, String> {
    let Pictures { thermal, guide, upper } = pictures;
    let upper = upper.as_ref().zip(options.tolerance.as_ref());
    check_size(pictures, options, &options.picture, guide)?;
    let mut values = thermal.values.clone();
    if let Some((picture, tolerance)) = upper {
        check_size(pictures, options, &tolerance.upper, picture)?;
        // One scale for both ends.
        values.extend(&picture.values);
    }
    let level_scale = scale_of(&options.thermal, &values, options.dead, 1024);
    check_dead(&options.thermal, thermal, &level_scale, options.dead)?;
    if let Some((picture, tolerance)) = upper {
        check_dead(&tolerance.upper, picture, &level_scale, options.dead)?;
    }
    let guide_scale = scale_of(&options.picture, &guide.values, None, 256);
    let (levels, guides) = (steps(thermal, &level_scale), steps(guide, &guide_scale));
    let settings = Settings {
        width: side(thermal.width),
        height: side(thermal.height),
        levels: level_scale.steps,
        guides: guide_scale.steps,
        weights: options.weights,
        radius: options.radius,
    };
    let file = icemedian::write(&settings, &levels, &guides, &[]);
    let file = file.map_err(|refusal| refused(refusal, pictures, options))?;
    let upper = upper.map(|(picture, _)| steps(picture, &level_scale));
    Ok(Framed { settings, levels, upper, guides, level_scale, file })
}

/// The filtered picture, and where there is a tolerance the picture of greatest answers.
fn filter(pictures: &Pictures, frame: &Framed, options: &Options) -> Result<(Picture, Option<Picture>), Refusal> {
    let thermal = &pictures.thermal;
    eprintln!("filtering {}x{} pixels, radius {}", thermal.width, thermal.height, frame.settings.radius);
    if let Some(upper) = &frame.upper {
        let (least, greatest) = tolerance::filter(pictures, frame, upper)?;
        return Ok((least, Some(greatest)));
    }
    let start = Instant::now();
    let filtered = icemedian::filter(&frame.file, options.way)?;
    eprintln!("filtered in {:.0?}, {} shifts", start.elapsed(), filtered.shifts);
    note_without(filtered.readings().filter(Option::is_none).count());
    Ok((Picture { values: frame.values(&filtered.levels), ..*thermal }, None))
}

fn note_without(pixels: usize) {
    if pixels > 0 {
        eprintln!("{pixels} pixels have no reading in their windows");
    }
}

impl Framed {
    /// The picture's values of levels.
    fn values(&self, levels: &[u16]) -> Vec<u16> {
        levels.iter().map(|&level| self.level_scale.value(level)).collect()
    }
}

/// Why the pixel asked for has its value, in words.
fn explanation(frame: &Framed, pixel: (usize, usize)) -> Result<String, Refusal> {
    let why = icemedian::explain(&frame.file, pixel)?;
    let own = reading(frame.levels[pixel.1 * usize::from(frame.settings.width) + pixel.0]);
    let value = frame.level_scale.value(why.level.unwrap_or(NO_READING));
    Ok(explain::sentences(pixel, own.is_none(), value, &why))
}

fn print(text: &str) -> Result<(), String> {
    io::stdout().write_all(text.as_bytes()).map_err(|error| error.to_string())
}

fn run() -> Result<(), String> {
    let Some(options) = options::read(std::env::args_os().skip(1))? else {
        return print(options::HELP);
    };
    let (thermal, guide) = (read(&options.thermal)?, read(&options.picture)?);
    let upper = options.tolerance.as_ref().map(|tolerance| read(&tolerance.upper)).transpose()?;
    let pictures = Pictures { thermal, guide, upper };
    let frame = framed(&pictures, &options)?;
    let in_our_terms = |refusal| refused(refusal, &pictures, &options);
    // All is made before anything is written.
    let explanation = options.explained.map(|pixel| explanation(&frame, pixel)).transpose().map_err(in_our_terms)?;
    let (filtered, greatest) = filter(&pictures, &frame, &options).map_err(in_our_terms)?;
    let causes = options.causes.as_ref().map(|place| explain::causes(&frame).map(|bytes| (place, bytes)));
    let causes = causes.transpose().map_err(in_our_terms)?;
    write(&options.output, &pgm::write(&filtered))?;
    if let (Some(greatest), Some(tolerance)) = (greatest, &options.tolerance) {
        write(&tolerance.greatest, &pgm::write(&greatest))?;
    }
    if let Some((place, bytes)) = causes {
        write(place, &bytes)?;
    }
    explanation.map_or(Ok(()), |text| print(&(text + "\n")))
}

fn main() -> ExitCode {
    match run() {
        Ok(()) => ExitCode::SUCCESS,
        Err(message) => {
            eprintln!("icemedian-pgm: {message}");
            ExitCode::FAILURE
        }
    }
}
