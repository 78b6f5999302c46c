//! Refusals, by document 01's numbers and document 02's 13 to 15.

use crate::cameras::files_of;
use crate::{raw, reading, Settings, Weights, NO_READING};
use std::error::Error;
use std::fmt;

/// A part of a frame that stands before its trailer.
#[derive(Clone, Copy, Debug, PartialEq, Eq)]
pub enum Part {
    Values,
    Guide,
    Table,
}

impl fmt::Display for Part {
    fn fmt(&self, f: &mut fmt::Formatter<'_>) -> fmt::Result {
        f.write_str(match self {
            Part::Values => "value plane",
            Part::Guide => "guide plane",
            Part::Table => "table",
        })
    }
}

/// What number 15 finds wrong with a call over several files.
#[derive(Clone, Copy, Debug, PartialEq, Eq)]
pub enum BatchFault {
    /// There are over 8 files.
    Files { count: usize },
    /// The lengths do not add up to the buffer.
    Lengths { sum: u128, bytes: usize },
    /// The first period whose limit is above 4,096.
    Limit { period: usize, limit: u32 },
}

impl fmt::Display for BatchFault {
    fn fmt(&self, f: &mut fmt::Formatter<'_>) -> fmt::Result {
        match *self {
            BatchFault::Files { count } => write!(f, "there are {count} files, and may be at most 8"),
            BatchFault::Lengths { sum, bytes } => {
                write!(f, "the files' lengths add up to {sum} bytes, and the buffer has {bytes}")
            }
            BatchFault::Limit { period, limit } => {
                write!(f, "the limit of period {period} is {limit}, and must be at most 4096")
            }
        }
    }
}

/// Why a call refuses: the first of the documents' checks that fires.
#[derive(Clone, Copy, Debug, PartialEq, Eq)]
pub enum Refusal {
    /// 1: under 28 bytes, or another mark.
    Trailer,
    /// 2: width, height or their product is outside.
    Size,
    /// 3: the level count or the guide count is outside.
    Counts,
    /// 4: the kind is unknown, or the smoothing is outside.
    Kind,
    /// 5: the radius is above 15.
    Radius,
    /// 6, reading: a plane or table does not lie in the bytes before the trailer, or kind 2 has a table. The
    /// distance back from the trailer must be from `least`, the bytes of the part, to `most`, the bytes
    /// before the trailer; both are 0 for kind 2's table.
    Distance { part: Part, distance: u32, least: usize, most: usize },
    /// 6, writing: a plane or table has the wrong length. A table may be empty beside the length wanted.
    Length { part: Part, length: usize, wanted: usize },
    /// 7: a value or guide is too large; the first one's byte offset in the file. A value of 65,535 is no reading and
    /// passes, a weight may be any number.
    Contents { offset: u64 },
    /// 8: the way does not serve the kind; a tolerance serves kind 1 only.
    Way,
    /// 9: the pixel is outside the picture, or the level outside the levels.
    Place,
    /// 10: over 1,048,576 moves.
    Moves,
    /// 11: a store, answer buffer or output is too short.
    Room,
    /// 13: the plane of upper levels has not a number for each pixel.
    UpperLength { length: usize, wanted: usize },
    /// 13: the first pixel, counted row by row from the top left, whose upper level does not go with its reading: it is
    /// below the reading or no level of the frame, or only one of the two is [`NO_READING`].
    UpperLevel { pixel: usize, reading: u16, upper: u16 },
    /// 14: this part, the guide plane or else the table, has a byte in common with the value plane, which can then not
    /// be split or joined alone.
    Overlap { part: Part },
    /// 15: files, lengths or limits of a call over several files are wrong.
    Batch { fault: BatchFault },
    /// A status that the documents do not have: the archive is not the one that this crate is written for.
    Unknown { status: u32 },
    /// An explanation whose cause document 02 does not have, though no check fired: likewise.
    UnknownCause { cause: u32 },
}

impl Refusal {
    /// What a status of the C interface says; `part` finds the part that number 6 is about.
    pub(crate) fn of_status(status: u32, offset: u64, part: impl FnOnce() -> Refusal) -> Result<(), Refusal> {
        Err(match status {
            0 => return Ok(()),
            1 => Refusal::Trailer,
            2 => Refusal::Size,
            3 => Refusal::Counts,
            4 => Refusal::Kind,
            5 => Refusal::Radius,
            6 => part(),
            7 => Refusal::Contents { offset },
            8 => Refusal::Way,
            9 => Refusal::Place,
            10 => Refusal::Moves,
            11 => Refusal::Room,
            _ => Refusal::Unknown { status },
        })
    }

    /// What a status says of a call that reads a file.
    pub(crate) fn of_reading(status: u32, offset: u64, file: &[u8]) -> Result<(), Refusal> {
        Refusal::of_status(status, offset, || Refusal::distance(file))
    }

    /// What a status says of a call with a plane of upper levels.
    pub(crate) fn of_tolerance(status: u32, offset: u64, file: &[u8], upper: &[u16]) -> Result<(), Refusal> {
        match status {
            13 => Err(Refusal::upper(file, upper)),
            _ => Refusal::of_reading(status, offset, file),
        }
    }

    /// What a status says of a call that splits or joins a value plane.
    pub(crate) fn of_byte_planes(status: u32, offset: u64, file: &[u8]) -> Result<(), Refusal> {
        match status {
            14 => Err(Refusal::overlap(file)),
            _ => Refusal::of_reading(status, offset, file),
        }
    }

    /// What a status says of a call over several files; 1 to 7 are of the first file that [`check`](crate::check) refuses.
    pub(crate) fn of_cameras(
        status: u32,
        offset: u64,
        files: &[u8],
        lengths: &[usize],
        limits: &[u32],
    ) -> Result<(), Refusal> {
        match status {
            15 => Err(Refusal::batch(files, lengths, limits)),
            _ => Refusal::of_status(status, offset, || {
                let mut refused = files_of(files, lengths).filter(|file| raw::check(file, &mut 0) == 6);
                refused.next().map_or(Refusal::Unknown { status }, Refusal::distance)
            }),
        }
    }

    /// What is at fault in a call that number 15 refuses: the number of files, else their lengths, else a limit.
    fn batch(files: &[u8], lengths: &[usize], limits: &[u32]) -> Refusal {
        let (count, bytes) = (lengths.len(), files.len());
        let sum = lengths.iter().map(|&length| length as u128).sum();
        let limit = limits.iter().enumerate().find(|&(_, &limit)| limit > 4_096);
        let fault = match limit {
            _ if count > 8 => BatchFault::Files { count },
            _ if sum != bytes as u128 => BatchFault::Lengths { sum, bytes },
            Some((period, &limit)) => BatchFault::Limit { period, limit },
            None => return Refusal::Unknown { status: 15 },
        };
        Refusal::Batch { fault }
    }

    /// The first part that overlaps the value plane in a file that number 14 refuses, and no check from 1 to 6.
    fn overlap(file: &[u8]) -> Refusal {
        let settings = Settings::of_trailer(file);
        let start = |place: usize| file.len() - 28 - distance_at(file, place) as usize;
        let (plane, table) = (2 * settings.pixels(), 2 * settings.table_weights());
        let values = start(12);
        let overlaps = |start: usize, length: usize| start < values + plane && values < start + length;
        if overlaps(start(16), plane) {
            return Refusal::Overlap { part: Part::Guide };
        }
        if distance_at(file, 20) != 0 && overlaps(start(20), table) {
            return Refusal::Overlap { part: Part::Table };
        }
        Refusal::Unknown { status: 14 }
    }

    /// What is at fault in a plane of upper levels that number 13 refuses, the file being one that no check refuses.
    fn upper(file: &[u8], upper: &[u16]) -> Refusal {
        let settings = Settings::of_trailer(file);
        let (length, wanted) = (upper.len(), settings.pixels());
        if length != wanted {
            return Refusal::UpperLength { length, wanted };
        }
        let before = file.len() - 28;
        let values = &file[before - distance_at(file, 12) as usize..][..2 * wanted];
        let readings = values.chunks_exact(2).map(|bytes| u16::from_be_bytes([bytes[0], bytes[1]]));
        let wrong = |reading: u16, upper: u16| {
            (reading == NO_READING) != (upper == NO_READING)
                || reading > upper
                || (upper != NO_READING && upper >= settings.levels)
        };
        let mut pairs = readings.zip(upper).enumerate();
        match pairs.find(|&(_, (reading, &upper))| wrong(reading, upper)) {
            Some((pixel, (reading, &upper))) => Refusal::UpperLevel { pixel, reading, upper },
            None => Refusal::Unknown { status: 13 },
        }
    }

    /// The first part at fault in a file that number 6 refuses.
    fn distance(file: &[u8]) -> Refusal {
        let settings = Settings::of_trailer(file);
        let before = file.len() - 28;
        let distance = |place: usize| distance_at(file, place);
        let plane = 2 * settings.pixels();
        let outside = |distance: u32| u64::from(distance) < plane as u64 || u64::from(distance) > before as u64;
        for (part, distance) in [(Part::Values, distance(12)), (Part::Guide, distance(16))] {
            if outside(distance) {
                return Refusal::Distance { part, distance, least: plane, most: before };
            }
        }
        let (least, most) = match settings.weights {
            Weights::Table => (2 * settings.table_weights(), before),
            Weights::Guided { .. } => (0, 0),
        };
        Refusal::Distance { part: Part::Table, distance: distance(20), least, most }
    }

    /// The first part at fault in what the writer was given, where number 6 refuses it.
    pub(crate) fn length(settings: &Settings, values: &[u16], guide: &[u16], table: &[u16]) -> Refusal {
        let plane = settings.pixels();
        for (part, length) in [(Part::Values, values.len()), (Part::Guide, guide.len())] {
            if length != plane {
                return Refusal::Length { part, length, wanted: plane };
            }
        }
        let wanted = if settings.weights == Weights::Table { settings.table_weights() } else { 0 };
        Refusal::Length { part: Part::Table, length: table.len(), wanted }
    }

    /// The documents' number; 0 where no check fired.
    pub fn number(self) -> u32 {
        match self {
            Refusal::Trailer => 1,
            Refusal::Size => 2,
            Refusal::Counts => 3,
            Refusal::Kind => 4,
            Refusal::Radius => 5,
            Refusal::Distance { .. } | Refusal::Length { .. } => 6,
            Refusal::Contents { .. } => 7,
            Refusal::Way => 8,
            Refusal::Place => 9,
            Refusal::Moves => 10,
            Refusal::Room => 11,
            Refusal::UpperLength { .. } | Refusal::UpperLevel { .. } => 13,
            Refusal::Overlap { .. } => 14,
            Refusal::Batch { .. } => 15,
            Refusal::Unknown { status } => status,
            Refusal::UnknownCause { .. } => 0,
        }
    }
}

/// The number and the reason.
///
/// ```
/// use icemedian::{write, Settings};
///
/// let settings = Settings { width: 3, height: 2, levels: 8, guides: 4, ..Settings::default() };
/// let refusal = write(&settings, &[0; 6], &[0; 5], &[]).unwrap_err();
/// assert_eq!(refusal.to_string(), "refused 6: the guide plane has 5 numbers, and must have 6");
/// ```
impl fmt::Display for Refusal {
    fn fmt(&self, f: &mut fmt::Formatter<'_>) -> fmt::Result {
        write!(f, "refused {}: ", self.number())?;
        match *self {
            Refusal::Trailer => write!(f, "the file is under 28 bytes or does not end in the frame's mark"),
            Refusal::Size => write!(f, "width and height must be 1 to 1024 and their product at most 262144"),
            Refusal::Counts => write!(f, "the level count must be 2 to 1024 and the guide count 2 to 256"),
            Refusal::Kind => write!(f, "the kind must be 1 with smoothing 0, or 2 with smoothing 1 to 65025"),
            Refusal::Radius => write!(f, "the radius must be at most 15"),
            Refusal::Distance { part, least, most, .. } if least > most => {
                write!(f, "the {part} takes {least} bytes, and before the trailer the file has {most}")
            }
            Refusal::Distance { part, distance, least, most } => {
                write!(f, "the {part}'s distance is {distance}, and must be {least}")?;
                if least < most {
                    write!(f, " to {most}")?;
                }
                f.write_str(or_none(part, least, " or 0"))
            }
            Refusal::Length { part, length, wanted } => {
                write!(f, "the {part} has {length} numbers, and must have {wanted}")?;
                f.write_str(or_none(part, wanted, " or none"))
            }
            Refusal::Contents { offset } => write!(f, "a value or guide is too large (at byte {offset})"),
            Refusal::Way => write!(f, "the way or the call does not serve the frame's kind"),
            Refusal::Place => write!(f, "the pixel is outside the picture or the level outside the levels"),
            Refusal::Moves => write!(f, "there are over 1048576 moves"),
            Refusal::Room => write!(f, "a store, answer buffer or output is too short"),
            Refusal::UpperLength { length, wanted } => {
                write!(f, "the plane of upper levels has {length} numbers, and must have {wanted}")
            }
            Refusal::UpperLevel { pixel, reading: value, upper } => match (reading(value), reading(upper)) {
                (None, _) => write!(f, "pixel {pixel} has no reading, but {upper} as its upper level"),
                (_, None) => write!(f, "pixel {pixel} has a reading, {value}, but no upper level"),
                (Some(value), Some(upper)) if value > upper => {
                    write!(f, "the reading of pixel {pixel} is {value}, above its upper level {upper}")
                }
                _ => write!(f, "the upper level of pixel {pixel} is {upper}, which is none of the frame's levels"),
            },
            Refusal::Overlap { part } => write!(f, "the {part} has a byte in common with the value plane"),
            Refusal::Batch { fault } => write!(f, "{fault}"),
            Refusal::Unknown { .. } => write!(f, "a status that the documents do not have"),
            Refusal::UnknownCause { cause } => write!(f, "a cause, {cause}, that document 02 does not have"),
        }
    }
}

/// The number of four bytes at a place of the trailer.
fn distance_at(file: &[u8], place: usize) -> u32 {
    let start = file.len() - 28 + place;
    u32::from_be_bytes([file[start], file[start + 1], file[start + 2], file[start + 3]])
}

/// What a message adds where there may also be no table.
fn or_none(part: Part, needed: usize, words: &str) -> &str {
    if part == Part::Table && needed > 0 {
        words
    } else {
        ""
    }
}

impl Error for Refusal {}
