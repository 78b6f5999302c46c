//! The program: what it prints for frames, damaged frames, planes that overlap and endless input.

use crate::tally::Tally;
use crate::{dead, hollow, overlap, same, Check};
use sorting_filter::frame::{open, Settings, KIND_GUIDED, KIND_TABLE};
use sorting_filter::program::{printed, INPUT_MOST};
use sorting_filter::random::{accepted_file_of, damage, settings, Random};
use sorting_filter::walk::filter;
use std::io::Write;
use std::process::{ChildStdin, Command, Stdio};
use std::thread;
use std::time::{Duration, Instant};

/// How long the program may take on one input.
const TIME_MOST: Duration = Duration::from_secs(10);

/// What the program prints when `feed` writes to its standard input.
fn output_of(path: &str, feed: impl FnOnce(ChildStdin) + Send) -> Result<String, String> {
    let spawned = Command::new(path).stdin(Stdio::piped()).stdout(Stdio::piped()).spawn();
    let mut child = spawned.map_err(|error| format!("{path}: {error}"))?;
    let stdin = child.stdin.take().ok_or("no standard input")?;
    let ended = thread::scope(|scope| {
        scope.spawn(|| feed(stdin));
        let start = Instant::now();
        while start.elapsed() < TIME_MOST {
            if matches!(child.try_wait(), Ok(Some(_))) {
                return true;
            }
            thread::sleep(Duration::from_micros(200));
        }
        // Ending the program also ends what feeds it.
        let _ = child.kill();
        false
    });
    let output = child.wait_with_output().map_err(|error| format!("{path}: {error}"))?;
    if !ended || output.status.code().is_none() {
        return Err(format!("{path} did not end by itself"));
    }
    // There is no other status: a refusal is told by the first word printed.
    same("the program's exit status", &output.status.code(), &Some(0))?;
    String::from_utf8(output.stdout).map_err(|_| format!("{path} printed bytes that are no text"))
}

/// Writes once. A program that has read enough may close its input: that is no error.
fn once(input: &[u8]) -> impl FnOnce(ChildStdin) + Send + '_ {
    move |mut stdin| drop(stdin.write_all(input))
}

/// Writes for as long as the program reads or lives, slowly, so that one that keeps it all stays small.
fn without_end(mut stdin: ChildStdin) {
    while stdin.write_all(&[0; 4096]).is_ok() {
        thread::sleep(Duration::from_millis(1));
    }
}

/// An input near the program's limits, damaged now and then.
fn random_input(random: &mut Random) -> Vec<u8> {
    let mut settings = settings(random, 12);
    let limit = random.pick(&[64, 64, 64, 65]);
    settings.width = settings.width.min(limit);
    settings.levels = settings.levels.min(limit);
    settings.guides = settings.guides.min(limit);
    let mut input = accepted_file_of(random, &settings);
    if random.once_in(3) {
        let number = 1 + random.below(7) as u8;
        damage(random, &mut input, number);
    }
    if random.once_in(10) {
        let size = random.pick(&[16_384, 16_385, 40_000]);
        let padding = vec![0; usize::saturating_sub(size, input.len())];
        input.splice(0..0, padding);
    }
    input
}

/// Whether the program's filter of an input meets a hollow window, which only a table of the file's own can leave.
fn has_hollow(input: &[u8], text: &str) -> bool {
    let frame = open(input).ok().filter(|frame| !frame.table.is_empty() && !text.starts_with("refused"));
    frame.is_some_and(|frame| filter(&frame).1.hollow.contains(&true))
}

/// Whether the program prints no reading for a pixel.
fn has_no_reading(text: &str) -> bool {
    !text.starts_with("refused") && text.split_whitespace().any(|word| word == "65535")
}

/// The input of a run: chosen with hollow windows at every fourth, with dead pixels at every fourth, else at random.
fn input_of(random: &mut Random, run: u64) -> Result<Vec<u8>, String> {
    if run % 4 > 1 {
        return Ok(random_input(random));
    }
    let (width, height) = (random.within(1, 12), random.within(1, 12));
    let (levels, guides) = (random.within(2, 64), random.within(2, 64));
    let radius = random.within(0, 3) as u8;
    let settings = Settings { width, height, levels, guides, kind: KIND_TABLE, radius, smoothing: 0 };
    if run % 4 == 0 {
        return Ok(hollow::file(random, &settings)?.0);
    }
    let settings = random.pick(&[settings, Settings { kind: KIND_GUIDED, smoothing: 1, ..settings }]);
    Ok(dead::file(random, &settings)?.0)
}

/// Runs the program on random inputs, on planes that overlap, on no input, and on one that has no end.
pub fn test(path: &str, runs: u64, seed: u64, tally: &mut Tally) -> Check {
    let mut random = Random::new(seed ^ 0x5EED);
    same("the program on no input", &output_of(path, once(&[]))?, &printed(&[]))?;
    for run in 0..runs {
        let input = input_of(&mut random, run)?;
        let (what, expected) = (format!("the program, seed {seed} run {run}"), printed(&input));
        same(&what, &output_of(path, once(&input))?, &expected)?;
        tally.programs += 1;
        tally.hollow.programs += u64::from(has_hollow(&input, &expected));
        tally.dead.programs += u64::from(has_no_reading(&expected));
    }
    for (number, input) in overlap::inputs(&mut random).iter().enumerate() {
        let what = format!("the program, planes that overlap, input {number}");
        let expected = printed(input);
        same(&what, &output_of(path, once(input))?, &expected)?;
        tally.programs += 1;
        tally.overlapping_inputs += 1;
        tally.longest_text = tally.longest_text.max(expected.len());
    }
    same("the program on endless input", &output_of(path, without_end)?, &printed(&[0; INPUT_MOST + 1]))
}
