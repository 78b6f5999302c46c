//! Random frames through the library's C interface, held against the sorting filter.
//!
//! `library_tests [FRAMES] [--seed N] [--program PATH]` makes FRAMES frames (2,000 if not said), walks and filters each
//! in every serving way, explains its pixels, filters it with upper levels, splits and joins it, filters it by turns with
//! others, all once more with its table damaged, damages it, and writes it again. With `--program` it also feeds frames to the program's standard
//! input. The same seed gives the same frames everywhere.

mod buffers;
mod byte_planes;
mod cameras;
mod damaged;
mod dead;
mod every_window;
mod explain;
mod frames;
mod hollow;
mod library;
mod overlap;
mod program;
mod refusals;
mod tally;
mod tolerance;
mod wide;
mod writing;

use sorting_filter::random::Random;
use std::process::ExitCode;
use tally::Tally;

/// What a test says when the library differs from the sorting filter.
pub type Check = Result<(), String>;

const USAGE: &str = "usage: library_tests [FRAMES] [--seed N] [--program PATH]";
/// After so many failures the rest would say nothing new.
const FAILURES_MOST: usize = 10;

struct Options {
    frames: u64,
    seed: u64,
    program: Option<String>,
}

fn options() -> Result<Options, String> {
    let mut options = Options { frames: 2_000, seed: 1, program: None };
    let mut words = std::env::args().skip(1);
    let number = |word: String| word.parse().map_err(|_| format!("not a number: {word}\n{USAGE}"));
    while let Some(word) = words.next() {
        match word.as_str() {
            "--seed" => options.seed = number(words.next().unwrap_or_default())?,
            "--program" => options.program = Some(words.next().ok_or(USAGE)?),
            "--help" => return Err(USAGE.to_string()),
            _ => options.frames = number(word)?,
        }
    }
    Ok(options)
}

/// Compares two things and names them where they differ.
pub fn same<T: PartialEq + std::fmt::Debug>(what: &str, library: &T, expected: &T) -> Check {
    if library == expected {
        return Ok(());
    }
    Err(format!("{what}: library {library:?}, expected {expected:?}"))
}

/// All tests on one random frame.
fn test_frame(random: &mut Random, tally: &mut Tally) -> Check {
    let file = frames::test_random(random, tally)?;
    tally.random_frames += 1;
    frames::test_damaged_table(random, &file, tally)?;
    refusals::test_calls(random, &file, tally)?;
    refusals::test_damaged(random, &file, tally)?;
    tolerance::test_refused(random, &file, tally)?;
    tolerance::test_damaged(random, &file, tally)?;
    byte_planes::test_damaged(random, &file, tally)?;
    cameras::test_refused(random, &file, tally)?;
    writing::test_writer(random, &file, tally)
}

fn run(options: &Options) -> Result<Tally, String> {
    let mut tally = Tally::default();
    let mut failures = Vec::new();
    for number in 0..options.frames {
        let mut random = Random::new(options.seed.wrapping_mul(1 << 32).wrapping_add(number));
        if let Err(message) = test_frame(&mut random, &mut tally) {
            failures.push(format!("seed {} frame {number}: {message}", options.seed));
        }
        if failures.len() == FAILURES_MOST {
            return Err(failures.join("\n"));
        }
    }
    let wide = wide::test(&mut Random::new(options.seed), &mut tally);
    failures.extend(wide.err().map(|message| format!("wide numbers: {message}")));
    let listed = frames::test_listed(&mut Random::new(options.seed), &mut tally);
    failures.extend(listed.err().map(|message| format!("listed: {message}")));
    let damaged = damaged::test(&mut Random::new(options.seed), &mut tally);
    failures.extend(damaged.err().map(|message| format!("damaged: {message}")));
    let overlapping = frames::test_overlapping(&mut Random::new(options.seed), &mut tally);
    failures.extend(overlapping.err().map(|message| format!("overlapping: {message}")));
    let heavy = frames::test_heavy(&mut Random::new(options.seed), &mut tally);
    failures.extend(heavy.err().map(|message| format!("heavy tables: {message}")));
    let heavy = writing::test_heavy(&mut Random::new(options.seed), &mut tally);
    failures.extend(heavy.err().map(|message| format!("heavy tables written: {message}")));
    let hollow = hollow::test(&mut Random::new(options.seed), &mut tally);
    failures.extend(hollow.err().map(|message| format!("hollow windows: {message}")));
    let dead = dead::test(&mut Random::new(options.seed), &mut tally);
    failures.extend(dead.err().map(|message| format!("dead pixels: {message}")));
    let dead = writing::test_dead(&mut Random::new(options.seed), &mut tally);
    failures.extend(dead.err().map(|message| format!("dead pixels written: {message}")));
    let lonely = explain::test_lonely(&mut Random::new(options.seed), &mut tally);
    failures.extend(lonely.err().map(|message| format!("lonely guides: {message}")));
    let row = tolerance::test_row(&mut Random::new(options.seed), &mut tally);
    failures.extend(row.err().map(|message| format!("a row with upper levels: {message}")));
    let choices = tolerance::test_all_choices(&mut Random::new(options.seed), &mut tally);
    failures.extend(choices.err().map(|message| format!("all choices: {message}")));
    let largest = tolerance::test_largest(&mut Random::new(options.seed), &mut tally);
    failures.extend(largest.err().map(|message| format!("the largest frame with upper levels: {message}")));
    let within = tolerance::test_within_file(&mut Random::new(options.seed), &mut tally);
    failures.extend(within.err().map(|message| format!("upper levels within the file: {message}")));
    let row = byte_planes::test_row(&mut Random::new(options.seed), &mut tally);
    failures.extend(row.err().map(|message| format!("a row as byte planes: {message}")));
    let beside = byte_planes::test_beside(&mut Random::new(options.seed), &mut tally);
    failures.extend(beside.err().map(|message| format!("parts beside the value plane: {message}")));
    let runs = byte_planes::test_runs(&mut Random::new(options.seed), &mut tally);
    failures.extend(runs.err().map(|message| format!("runs of bytes: {message}")));
    let largest = byte_planes::test_largest(&mut Random::new(options.seed), &mut tally);
    failures.extend(largest.err().map(|message| format!("the largest frame as byte planes: {message}")));
    let bench = cameras::test_bench(&mut Random::new(options.seed), &mut tally);
    failures.extend(bench.err().map(|message| format!("request 9's hall: {message}")));
    let none = cameras::test_none(&mut Random::new(options.seed), &mut tally);
    failures.extend(none.err().map(|message| format!("no cameras: {message}")));
    let shapes = cameras::test_shapes(&mut Random::new(options.seed), &mut tally);
    failures.extend(shapes.err().map(|message| format!("halls halted at each grant: {message}")));
    let within = cameras::test_within_files(&mut Random::new(options.seed), &mut tally);
    failures.extend(within.err().map(|message| format!("lengths and limits within the file: {message}")));
    let pairs = cameras::test_pairs(&mut Random::new(options.seed), &mut tally);
    failures.extend(pairs.err().map(|message| format!("two things wrong with a hall: {message}")));
    let periods = cameras::test_periods(&mut Random::new(options.seed), &mut tally);
    failures.extend(periods.err().map(|message| format!("long periods and many: {message}")));
    let largest = cameras::test_largest(&mut Random::new(options.seed), &mut tally);
    failures.extend(largest.err().map(|message| format!("the largest frame before others: {message}")));
    let blocks = frames::test_blocks(&mut Random::new(options.seed), &mut tally);
    failures.extend(blocks.err().map(|message| format!("blocks: {message}")));
    let largest = frames::test_largest(&mut Random::new(options.seed), &mut tally);
    failures.extend(largest.err().map(|message| format!("largest: {message}")));
    if let Some(path) = &options.program {
        failures.extend(program::test(path, options.frames / 10 + 50, options.seed, &mut tally).err());
    }
    if failures.is_empty() {
        failures.extend(tally.uncovered());
    }
    if failures.is_empty() {
        Ok(tally)
    } else {
        Err(failures.join("\n"))
    }
}

fn main() -> ExitCode {
    match options().and_then(|options| run(&options)) {
        Ok(tally) => {
            println!("{tally}");
            ExitCode::SUCCESS
        }
        Err(message) => {
            eprintln!("{message}");
            ExitCode::FAILURE
        }
    }
}
