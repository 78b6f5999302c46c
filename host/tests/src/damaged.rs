//! The list of damaged files: what document 01 says of each, held against the library and the sorting filter.

use crate::byte_planes;
use crate::cameras;
use crate::library::{self, Status};
use crate::tally::Tally;
use crate::tolerance;
use crate::{same, Check};
use sorting_filter::calls;
use sorting_filter::cases::bytes_of_hex;
use sorting_filter::frame::open;
use sorting_filter::random::Random;
use sorting_filter::refusal::Refusal;

/// One line of the list.
struct Damaged {
    name: String,
    verdict: Result<(), Refusal>,
    file: Vec<u8>,
}

fn verdict_of(words: &str) -> Option<Result<(), Refusal>> {
    let words: Vec<&str> = words.split(' ').collect();
    match words[..] {
        ["accepted"] => Some(Ok(())),
        ["refused", number] => Some(Err(Refusal::of(number.parse().ok()?))),
        ["refused", "7", offset] => Some(Err(Refusal::contents(offset.parse().ok()?))),
        _ => None,
    }
}

impl Damaged {
    /// Reads `VERDICT: NAME [PLACE=BYTE; ..]` and sets these bytes of the whole file.
    fn of_line(line: &str, whole: &[u8]) -> Option<Damaged> {
        let (words, rest) = line.split_once(": ")?;
        let (name, changes) = rest.strip_suffix(']')?.split_once(" [")?;
        let mut file = whole.to_vec();
        for change in changes.split("; ") {
            let (place, byte) = change.split_once('=')?;
            *file.get_mut(place.parse::<usize>().ok()?)? = byte.parse().ok()?;
        }
        Some(Damaged { name: name.to_string(), verdict: verdict_of(words)?, file })
    }
}

pub fn test(random: &mut Random, tally: &mut Tally) -> Check {
    let mut whole = Vec::new();
    for line in include_str!("../../damaged.txt").lines() {
        if line.is_empty() || line.starts_with('#') {
            continue;
        }
        if let Some(hex) = line.strip_prefix("file ") {
            whole = bytes_of_hex(hex).ok_or_else(|| format!("not a file: {line}"))?;
            same("the whole file", &library::check(&whole), &Status::ACCEPTED)?;
            continue;
        }
        let damaged = Damaged::of_line(line, &whole).ok_or_else(|| format!("not a damaged file: {line}"))?;
        same(&damaged.name, &library::check(&damaged.file), &Status::of(&damaged.verdict))?;
        let sorting = open(&damaged.file).err();
        same(&format!("{}, by the sorting filter", damaged.name), &sorting, &damaged.verdict.err())?;
        let what = format!("{}, explained", damaged.name);
        let explained = library::explain(&damaged.file, (0, 0));
        library::compare_explain(&what, explained, &calls::explain(&damaged.file, (0, 0)))?;
        tolerance::test_listed(random, &whole, &damaged.file, tally)
            .and_then(|()| byte_planes::test_listed(random, &damaged.file, tally))
            .and_then(|()| cameras::test_listed(random, &whole, &damaged.file, tally))
            .map_err(|error| format!("{}: {error}", damaged.name))?;
        tally.damaged += 1;
    }
    Ok(())
}
