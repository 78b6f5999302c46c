//! The words of the command line.

use icemedian::{Settings, Way, Weights};
use std::ffi::{OsStr, OsString};
use std::fmt;
use std::ops::RangeInclusive;
use std::path::PathBuf;

pub const HELP: &str = "\
icemedian-pgm THERMAL PICTURE OUTPUT [options]

Filters the thermal picture THERMAL by a weighted median, guided by the plain PICTURE of the same
size, and writes OUTPUT. All are binary PGM files (P5) of 8 or 16 bits, at most 1,024 pixels wide and
high and 262,144 in all. Values that span more than 1,024 steps (PICTURE: 256) are rounded to as many.
Where a file is read - is standard input, where one is written it is standard output.

  --radius N      pixels to each side of the window, 0 to 15 (default 7)
  --smoothing N   how much guide variance counts as flat, 1 to 65025 (default 64)
  --table         weigh by the built-in table of guide differences instead of equation 22
  --way NAME      joint, columns, chain or coarse (default joint; --table needs joint or coarse); the
                  result is the same, coarse may be faster with many levels
  --explain COLUMN ROW
                  says on standard output why OUTPUT has its value there; both count from 0
  --causes FILE   writes a colour picture (PPM, P6) of what sort of window each pixel has: grey for an
                  ordinary one; orange where the pixel is brighter than its window's average, by so much
                  that pixels near PICTURE's dark end count against their own value; blue where it is
                  darker, by so much that those near the bright end do; black where no pixel of the window
                  has a reading
  --dead VALUE    a pixel of THERMAL with this value is dead and has no reading: it counts in no window.
                  OUTPUT has the median of the readings around it there, or VALUE again where there are
                  none. Refused where another value would be rounded to VALUE
  --upper FILE    THERMAL's values are known within a tolerance: they are the lower ends, and FILE, a picture
                  of THERMAL's size, has the upper ends. Whatever the true values are between the two, the
                  filter's answer lies between OUTPUT, which has the least, and --greatest, and both can
                  happen; where values are rounded, this is of the rounded ones. Needs --table, --way joint
                  and --greatest; with --dead, VALUE is no reading in both pictures
  --greatest FILE with --upper: writes the greatest answers, a picture like OUTPUT
  -h, --help      this text
";

const STANDARD_INPUT: &str = "standard input";
const STANDARD_OUTPUT: &str = "standard output";
/// The last column or row of the largest picture.
const SIDE_LAST: usize = 1023;

/// A file of the command line.
#[derive(Clone, Debug, PartialEq, Eq)]
pub enum Place {
    /// Standard input or output, by that name.
    Standard(&'static str),
    File(PathBuf),
}

impl Place {
    fn of(word: OsString, standard: &'static str) -> Place {
        if word == "-" {
            Place::Standard(standard)
        } else {
            Place::File(word.into())
        }
    }
}

impl fmt::Display for Place {
    fn fmt(&self, f: &mut fmt::Formatter<'_>) -> fmt::Result {
        match self {
            Place::Standard(name) => f.write_str(name),
            Place::File(path) => path.display().fmt(f),
        }
    }
}

#[derive(Debug)]
pub struct Options {
    pub thermal: Place,
    pub picture: Place,
    pub output: Place,
    pub weights: Weights,
    pub radius: u8,
    pub way: Way,
    /// The pixel to explain.
    pub explained: Option<(usize, usize)>,
    /// Where the picture of causes goes.
    pub causes: Option<Place>,
    /// The value of dead pixels.
    pub dead: Option<u16>,
    pub tolerance: Option<Tolerance>,
}

/// The files of a tolerance.
#[derive(Debug)]
pub struct Tolerance {
    /// The picture of upper ends.
    pub upper: Place,
    /// Where the greatest answers go.
    pub greatest: Place,
}

/// The number behind an option.
fn number<T>(option: &str, word: Option<OsString>, allowed: RangeInclusive<T>) -> Result<T, String>
where
    T: std::str::FromStr + PartialOrd + fmt::Display,
{
    let needed = format!("{option} needs a number from {} to {}", allowed.start(), allowed.end());
    let word = word.ok_or_else(|| needed.clone())?;
    let number = word.to_str().and_then(|word| word.parse().ok()).filter(|number| allowed.contains(number));
    number.ok_or_else(|| format!("{needed}, not {}", word.to_string_lossy()))
}

fn way(word: Option<OsString>) -> Result<Way, String> {
    match word.as_deref().and_then(OsStr::to_str) {
        Some("joint") => Ok(Way::Joint),
        Some("columns") => Ok(Way::Columns),
        Some("chain") => Ok(Way::Chain),
        Some("coarse") => Ok(Way::Coarse),
        _ => Err("--way needs joint, columns, chain or coarse".to_string()),
    }
}

/// The file behind an option.
fn file(option: &str, word: Option<OsString>, standard: &'static str) -> Result<Place, String> {
    word.map(|word| Place::of(word, standard)).ok_or_else(|| format!("{option} needs a file"))
}

/// Both files of a tolerance or neither, and what else it needs.
fn tolerance(
    upper: Option<Place>,
    greatest: Option<Place>,
    weights: Weights,
    way: Way,
) -> Result<Option<Tolerance>, String> {
    let tolerance = match (upper, greatest) {
        (None, None) => return Ok(None),
        (Some(_), None) => return Err("--upper needs --greatest FILE, where the greatest answers go".to_string()),
        (None, Some(_)) => return Err("--greatest needs --upper FILE, the picture of upper ends".to_string()),
        (Some(upper), Some(greatest)) => Tolerance { upper, greatest },
    };
    if weights != Weights::Table {
        return Err("--upper needs --table".to_string());
    }
    if way != Way::Joint {
        return Err("--upper needs --way joint".to_string());
    }
    Ok(Some(tolerance))
}

impl Options {
    /// Each picture that is read or written must have standard input or output for itself, and so must what is said.
    fn check_standard(&self) -> Result<(), String> {
        let standard = |place: Option<&Place>| usize::from(matches!(place, Some(Place::Standard(_))));
        let tolerance = self.tolerance.as_ref();
        let upper = tolerance.map(|tolerance| &tolerance.upper);
        if standard(Some(&self.thermal)) + standard(Some(&self.picture)) + standard(upper) > 1 {
            return Err("standard input can be one of THERMAL, PICTURE and --upper".to_string());
        }
        let greatest = tolerance.map(|tolerance| &tolerance.greatest);
        let written = standard(Some(&self.output)) + standard(greatest) + standard(self.causes.as_ref());
        if written + usize::from(self.explained.is_some()) > 1 {
            return Err("standard output can take one of OUTPUT, --greatest, --causes and --explain".to_string());
        }
        Ok(())
    }
}

/// The options, or `None` where help is asked for.
pub fn read(mut words: impl Iterator<Item = OsString>) -> Result<Option<Options>, String> {
    let mut files = Vec::new();
    let (mut radius, mut smoothing, mut table, mut chosen) = (Settings::RADIUS, None, false, Way::Joint);
    let (mut explained, mut causes, mut dead, mut upper, mut greatest) = (None, None, None, None, None);
    while let Some(word) = words.next() {
        match word.to_str() {
            Some("-h" | "--help") => return Ok(None),
            Some("--radius") => radius = number("--radius", words.next(), 0..=15)?,
            Some("--smoothing") => smoothing = Some(number("--smoothing", words.next(), 1..=65_025)?),
            Some("--table") => table = true,
            Some("--way") => chosen = way(words.next())?,
            Some("--explain") => {
                let mut place = || number("--explain COLUMN ROW", words.next(), 0..=SIDE_LAST);
                explained = Some((place()?, place()?));
            }
            Some("--causes") => causes = Some(file("--causes", words.next(), STANDARD_OUTPUT)?),
            Some("--dead") => dead = Some(number("--dead", words.next(), 0..=65_535)?),
            Some("--upper") => upper = Some(file("--upper", words.next(), STANDARD_INPUT)?),
            Some("--greatest") => greatest = Some(file("--greatest", words.next(), STANDARD_OUTPUT)?),
            _ if word != "-" && word.as_encoded_bytes().starts_with(b"-") => {
                return Err(format!("unknown option {}; see --help", word.to_string_lossy()));
            }
            _ => files.push(word),
        }
    }
    let found = files.len();
    let Ok([thermal, picture, output]) = <[OsString; 3]>::try_from(files) else {
        return Err(format!("three files are needed, not {found}; see --help"));
    };
    let weights = match (table, smoothing) {
        (true, Some(_)) => return Err("--table has no smoothing: leave out --smoothing or --table".to_string()),
        (true, None) => Weights::Table,
        (false, smoothing) => Weights::Guided { smoothing: smoothing.unwrap_or(Settings::SMOOTHING) },
    };
    if !chosen.serves(weights) {
        return Err("--table needs --way joint or coarse".to_string());
    }
    let options = Options {
        thermal: Place::of(thermal, STANDARD_INPUT),
        picture: Place::of(picture, STANDARD_INPUT),
        output: Place::of(output, STANDARD_OUTPUT),
        weights,
        radius,
        way: chosen,
        explained,
        causes,
        dead,
        tolerance: tolerance(upper, greatest, weights, chosen)?,
    };
    options.check_standard()?;
    Ok(Some(options))
}
