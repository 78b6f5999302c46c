//! Byte planes: both calls held against the sorting filter in status and in every byte of the output. Split files are
//! joined and joined ones split, whatever they hold, and a file's parts lie at every distance that tells two verdicts
//! apart.

use crate::buffers::first_difference;
use crate::library::{self, Status};
use crate::refusals::count;
use crate::tally::Tally;
use crate::writing::written;
use crate::{same, Check};
use sorting_filter::byte_planes::{join, split};
use sorting_filter::frame::{locate, open, Settings, KIND_GUIDED, KIND_TABLE, NO_READING, TRAILER};
use sorting_filter::random::{damage, laid_out_file, put_distance, Random};
use sorting_filter::refusal::Refusal;
use std::ops::Range;

#[derive(Clone, Copy, Debug, PartialEq, Eq)]
enum Call {
    Split,
    Join,
}

impl Call {
    const BOTH: [Call; 2] = [Call::Split, Call::Join];

    fn of_library(self, file: &[u8], output: &mut [u8]) -> Status {
        match self {
            Call::Split => library::split(file, output),
            Call::Join => library::join(file, output),
        }
    }

    fn of_sorting(self, file: &[u8], lent: usize) -> Result<Vec<u8>, Refusal> {
        match self {
            Call::Split => split(file, lent),
            Call::Join => join(file, lent),
        }
    }

    fn of_wrapper(self, file: &[u8]) -> Result<Vec<u8>, icemedian::Refusal> {
        match self {
            Call::Split => icemedian::split(file),
            Call::Join => icemedian::join(file),
        }
    }

    /// One call with an output of `lent` arbitrary bytes, compared in status, output and file; what the library gives.
    fn make(self, random: &mut Random, file: &[u8], lent: usize) -> Result<Result<Vec<u8>, Refusal>, String> {
        let (before, untouched) = (random.bytes(lent), file.to_vec());
        let mut after = before.clone();
        let status = self.of_library(file, &mut after);
        let mut expected = self.of_sorting(&untouched, lent);
        same(&format!("{self:?}"), &status, &Status::of(&expected))?;
        first_difference("the file after the call", file, &untouched)?;
        let mut right = before;
        if let Ok(bytes) = &expected {
            right[..bytes.len()].copy_from_slice(bytes);
        }
        first_difference(&format!("{self:?}, output"), &after, &right)?;
        if let Ok(bytes) = &mut expected {
            bytes.copy_from_slice(&after[..file.len()]);
        }
        Ok(expected)
    }
}

/// A call that must be accepted, with an output as long as the file or longer, and the wrapper's; what it gives.
fn accepted(random: &mut Random, call: Call, file: &[u8], tally: &mut Tally) -> Result<Vec<u8>, String> {
    let exact = random.once_in(3);
    let more = if exact { 0 } else { 1 + random.below(9) };
    let given = call.make(random, file, file.len() + more)?.map_err(|refusal| format!("{call:?}: {refusal}"))?;
    tally.byte_planes.exact[call as usize] += u64::from(exact);
    if random.once_in(4) {
        same(&format!("the wrapper's {call:?}"), &call.of_wrapper(file), &Ok(given.clone()))?;
    }
    Ok(given)
}

/// A call that must be refused with this number, by the Rust wrapper too where its own output does not help.
fn refused(random: &mut Random, call: Call, file: &[u8], lent: usize, number: u8, tally: &mut Tally) -> Check {
    let expected = call.make(random, file, lent)?;
    let fired = expected.as_ref().err().map(|refusal| refusal.number);
    same(&format!("{call:?}, the number meant to fire"), &fired, &Some(number))?;
    count(&expected, tally);
    if number == 11 || random.once_in(2) {
        return Ok(());
    }
    let refusal = call.of_wrapper(file).err();
    same("the wrapper's number", &refusal.map(|refusal| refusal.number()), &Some(u32::from(number)))?;
    if number == 14 {
        same("the wrapper's reason", &refusal, &Some(icemedian::Refusal::Overlap { part: overlapping_part(file)? }))?;
    }
    Ok(())
}

/// The bytes of the three parts.
fn parts(file: &[u8]) -> Result<[Range<usize>; 3], String> {
    let (settings, places) = locate(file).map_err(|refusal| refusal.to_string())?;
    Ok(places.bytes(&settings))
}

/// What the wrapper must name: the guide plane if it overlaps the value plane, else the table.
fn overlapping_part(file: &[u8]) -> Result<icemedian::Part, String> {
    let [mut values, guides, _] = parts(file)?;
    let guide = values.any(|byte| guides.contains(&byte));
    Ok(if guide { icemedian::Part::Guide } else { icemedian::Part::Table })
}

/// An output that is too short: by one byte, by the trailer, of no byte, or of any length.
fn short(random: &mut Random, file: &[u8]) -> usize {
    let (length, any) = (file.len(), random.below(file.len()));
    random.pick(&[0, length - 1, length - 1, length - TRAILER, any])
}

/// An accepted file: split and joined again, joined as it is and split again, and refused where the output is too
/// short. Where its value plane shares a byte, both calls refuse it.
pub fn test(random: &mut Random, file: &[u8], tally: &mut Tally) -> Check {
    if split(file, file.len()).is_err() {
        return test_overlapping(random, file, tally);
    }
    let moved = accepted(random, Call::Split, file, tally)?;
    let frame = open(file).map_err(|refusal| refusal.to_string())?;
    tally.byte_planes.count(&frame, &parts(file)?, file.len() - TRAILER);
    first_difference("a split file joined", &accepted(random, Call::Join, &moved, tally)?, file)?;
    let joined = accepted(random, Call::Join, file, tally)?;
    // What was no split plane need hold no levels when it is joined.
    let levels = open(&joined).is_ok();
    tally.byte_planes.resplit[usize::from(levels)] += 1;
    if levels {
        first_difference("a joined file split", &accepted(random, Call::Split, &joined, tally)?, file)?;
    } else {
        refused(random, Call::Split, &joined, file.len(), 7, tally)?;
    }
    for call in Call::BOTH {
        let lent = short(random, file);
        refused(random, call, file, lent, 11, tally)?;
        tally.byte_planes.short[call as usize] += 1;
    }
    test_contents(random, file, tally)
}

/// A number that is too large, from `least` to `most`, at the first pixel of a plane, at its last or at any.
fn spoil(random: &mut Random, file: &mut [u8], plane: &Range<usize>, least: u16, most: u16) {
    let any = plane.start + 2 * random.below(plane.len() / 2);
    let place = random.pick(&[plane.start, plane.end - 2, any]);
    let number = random.pick(&[least, 32_768, 65_534, most]);
    file[place..place + 2].copy_from_slice(&number.to_be_bytes());
}

/// Numbers too large in the value plane, in the guide plane and in both, and planes of any bytes: joined all the same,
/// but refused with 7 where they should be split, though the output may be too short too.
fn test_contents(random: &mut Random, file: &[u8], tally: &mut Tally) -> Check {
    let ((settings, _), [values, guides, _]) = (locate(file).map_err(|refusal| refusal.to_string())?, parts(file)?);
    for wrong in 1..4 {
        let mut spoilt = file.to_vec();
        if wrong & 1 != 0 {
            spoil(random, &mut spoilt, &values, settings.levels, NO_READING - 1);
        }
        if wrong & 2 != 0 {
            spoil(random, &mut spoilt, &guides, settings.guides, NO_READING);
        }
        accepted(random, Call::Join, &spoilt, tally)?;
        refused(random, Call::Split, &spoilt, file.len(), 7, tally)?;
        let lent = short(random, file);
        refused(random, Call::Split, &spoilt, lent, 7, tally)?;
        refused(random, Call::Join, &spoilt, lent, 11, tally)?;
        tally.byte_planes.spoilt[wrong - 1] += 1;
    }
    let mut any = file.to_vec();
    for plane in [values, guides] {
        let bytes = random.bytes(plane.len());
        any[plane].copy_from_slice(&bytes);
    }
    accepted(random, Call::Join, &any, tally)?;
    tally.byte_planes.any_bytes += 1;
    Ok(())
}

/// A file whose value plane shares a byte, which both calls refuse, whatever it holds and however short the output is;
/// but not before checks 1 to 6.
fn test_overlapping(random: &mut Random, file: &[u8], tally: &mut Tally) -> Check {
    let ((settings, _), [values, guides, table]) = (locate(file).map_err(|refusal| refusal.to_string())?, parts(file)?);
    let over_guide = values.clone().any(|byte| guides.contains(&byte));
    let over_table = values.clone().any(|byte| table.contains(&byte));
    let mut spoilt = file.to_vec();
    spoil(random, &mut spoilt, &values, settings.levels, NO_READING - 1);
    for call in Call::BOTH {
        let (lent, more) = (short(random, file), random.below(2));
        refused(random, call, file, file.len() + more, 14, tally)?;
        refused(random, call, file, lent, 14, tally)?;
        refused(random, call, &spoilt, file.len(), 14, tally)?;
        refused(random, call, &spoilt, lent, 14, tally)?;
        tally.byte_planes.overlapping[call as usize] += 1;
        // A distance outside of one part, while the value plane overlaps the other.
        let far = file.len() - TRAILER + 1;
        for (part, still) in [(2, over_guide), (1, over_table)] {
            let bytes = if part == 1 { guides.len() } else { 2 * settings.table_weights() };
            let mut outside = file.to_vec();
            put_distance(&mut outside, part, random.pick(&[bytes - 1, far, u32::MAX as usize]));
            if still {
                refused(random, call, &outside, file.len(), 6, tally)?;
                tally.byte_planes.distance_and_overlap[part - 1] += 1;
            }
        }
        let number = 1 + random.below(5);
        let mut damaged = file.to_vec();
        damage(random, &mut damaged, number as u8);
        refused(random, call, &damaged, lent, number as u8, tally)?;
        tally.byte_planes.damaged_overlapping[number - 1] += 1;
    }
    tally.byte_planes.both_overlap += u64::from(over_guide && over_table);
    Ok(())
}

/// A file damaged for a check from 1 to 6, and an output that may be too short.
pub fn test_damaged(random: &mut Random, file: &[u8], tally: &mut Tally) -> Check {
    for call in Call::BOTH {
        let number = 1 + random.below(6);
        let mut damaged = file.to_vec();
        damage(random, &mut damaged, number as u8);
        let lent = random.below(2) * file.len();
        refused(random, call, &damaged, lent, number as u8, tally)?;
        tally.byte_planes.damaged[number - 1] += u64::from(lent == 0);
    }
    Ok(())
}

/// A file of the list of damaged ones; it may be accepted.
pub fn test_listed(random: &mut Random, damaged: &[u8], tally: &mut Tally) -> Check {
    for call in Call::BOTH {
        count(&call.make(random, damaged, damaged.len() + 3)?, tally);
    }
    Ok(())
}

/// A row of three values whose bytes tell them apart, and outputs whose lengths, cut to 16 bits, would be too short.
pub fn test_row(random: &mut Random, tally: &mut Tally) -> Check {
    let settings = Settings { width: 3, height: 1, levels: 1024, guides: 2, kind: KIND_TABLE, radius: 1, smoothing: 0 };
    let values = [0x0102, 0x0304, 0x0203];
    let file = written(&settings, &values, &[0, 1, 0], &[])?;
    let moved = accepted(random, Call::Split, &file, tally)?;
    first_difference("the split plane", &moved[..6], &[1, 3, 2, 2, 4, 3])?;
    let joined = accepted(random, Call::Join, &file, tally)?;
    first_difference("the joined plane", &joined[..6], &[1, 4, 2, 2, 3, 3])?;
    for lent in [65_535, 65_536, 65_536 + file.len() - 1, 131_072] {
        for call in Call::BOTH {
            call.make(random, &file, lent)?.map_err(|refusal| refusal.to_string())?;
            tally.byte_planes.wide += 1;
        }
    }
    test(random, &file, tally)
}

/// How many places there are in [`beside`].
pub const BESIDE: usize = 11;

/// Where a part of `length` bytes may begin beside a value plane of `plane` bytes, counted from its first byte, and
/// whether the two have a byte in common: a byte apart, touching and one byte in common before and behind; then from
/// one byte before to one byte after the first, about the middle, and up to the last byte.
fn beside(plane: isize, length: isize) -> [(isize, bool); BESIDE] {
    [
        (-length - 1, false),
        (-length, false),
        (1 - length, true),
        (plane - 1, true),
        (plane, false),
        (plane + 1, false),
        (-1, true),
        (0, true),
        (1, true),
        ((plane - length) / 2, true),
        (plane - length, true),
    ]
}

/// Width, height and guide count: planes shorter and longer than the table, and as long.
const SHAPES: [(u16, u16, u16); 9] =
    [(1, 1, 2), (2, 1, 2), (3, 1, 2), (4, 1, 2), (3, 3, 3), (13, 5, 4), (4, 4, 4), (65, 1, 2), (7, 9, 16)];

/// Frames of chosen shapes in both kinds, the guide plane or the table beside the value plane at every such place.
pub fn test_beside(random: &mut Random, tally: &mut Tally) -> Check {
    for (width, height, guides) in SHAPES {
        for (kind, smoothing) in [(KIND_TABLE, 0), (KIND_GUIDED, 9)] {
            let settings = Settings { width, height, levels: 1024, guides, kind, radius: 1, smoothing };
            let (plane, table) = (2 * settings.pixels() as isize, 2 * settings.table_weights() as isize);
            for (place, (start, overlap)) in beside(plane, plane).into_iter().enumerate() {
                let far = random.pick(&[start.min(0) - table - 3, start.min(0) - table, start.max(0) + plane]);
                let tables = if kind == KIND_TABLE { vec![None, Some(far)] } else { vec![None] };
                for table in tables {
                    let file = laid_out_file(random, &settings, start, table);
                    test_laid_out(random, &file, overlap, tally)
                        .map_err(|error| format!("{settings:?}, guides at {start}, table at {table:?}: {error}"))?;
                    tally.byte_planes.beside[0][place] += 1;
                }
            }
            for (place, (start, overlap)) in beside(plane, table).into_iter().enumerate() {
                if kind == KIND_TABLE {
                    let guides = random.pick(&[-plane - 3, -plane, plane, plane + 1]);
                    let file = laid_out_file(random, &settings, guides, Some(start));
                    test_laid_out(random, &file, overlap, tally)
                        .map_err(|error| format!("{settings:?}, guides at {guides}, table at {start}: {error}"))?;
                    tally.byte_planes.beside[1][place] += 1;
                }
            }
        }
    }
    Ok(())
}

fn test_laid_out(random: &mut Random, file: &[u8], overlap: bool, tally: &mut Tally) -> Check {
    same("whether the value plane shares a byte", &join(file, file.len()).is_err(), &overlap)?;
    if overlap {
        test_overlapping(random, file, tally)
    } else {
        test(random, file, tally)
    }
}

/// Rows and columns of as many pixels as lie about the ends of runs that a loop may move at a time.
pub fn test_runs(random: &mut Random, tally: &mut Tally) -> Check {
    let ends = [8, 16, 32, 48, 64, 96, 128, 192, 256, 512, 1023];
    for pixels in (1..8).chain(ends.into_iter().flat_map(|end| end - 1..=end + 1)) {
        for (width, height) in [(pixels, 1), (1, pixels)] {
            let (kind, smoothing) = random.pick(&[(KIND_TABLE, 0), (KIND_GUIDED, 9)]);
            let settings = Settings { width, height, levels: 1024, guides: 3, kind, radius: 1, smoothing };
            let plane = 2 * settings.pixels() as isize;
            let guides = random.pick(&[-plane - 1, -plane, plane, plane + 1]);
            let file = laid_out_file(random, &settings, guides, None);
            test(random, &file, tally).map_err(|error| format!("{pixels} pixels: {error}"))?;
        }
        tally.byte_planes.runs += 1;
    }
    Ok(())
}

/// The largest frame, with gaps between its parts; one byte in common at either end of it; and an output whose length,
/// cut to 16 bits, would be the file's.
pub fn test_largest(random: &mut Random, tally: &mut Tally) -> Check {
    let settings =
        Settings { width: 1024, height: 256, levels: 1024, guides: 256, kind: KIND_TABLE, radius: 1, smoothing: 0 };
    let (plane, table) = (2 * settings.pixels() as isize, 2 * settings.table_weights() as isize);
    for (guides, table) in [(plane, Some(2 * plane)), (-plane - 77, Some(plane + 1_001)), (plane + 5, None)] {
        let file = laid_out_file(random, &settings, guides, table);
        test(random, &file, tally)?;
        for call in Call::BOTH {
            refused(random, call, &file, file.len() - 65_536, 11, tally)?;
        }
    }
    for (guides, table) in [(plane - 1, None), (1 - plane, None), (plane, Some(plane - 1)), (plane, Some(1 - table))] {
        let file = laid_out_file(random, &settings, guides, table);
        test_laid_out(random, &file, true, tally)?;
    }
    Ok(())
}
