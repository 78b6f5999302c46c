//! The program between its two streams: the bytes that it moves, files that come back as they were, and clear errors.

use icemedian::{write, Settings, Weights, NO_READING};
use std::ffi::{OsStr, OsString};
use std::fs::File;
use std::io::Write;
use std::os::unix::ffi::OsStringExt;
use std::process::{Command, Output, Stdio};

const PROGRAM: &str = env!("CARGO_BIN_EXE_icemedian-planes");

fn fed(words: &[impl AsRef<OsStr>], input: &[u8]) -> Output {
    let mut child = Command::new(PROGRAM)
        .args(words)
        .stdin(Stdio::piped())
        .stdout(Stdio::piped())
        .stderr(Stdio::piped())
        .spawn()
        .expect("the program runs");
    child.stdin.take().unwrap().write_all(input).unwrap();
    child.wait_with_output().expect("the program ends")
}

/// What goes to standard output, with no word beside it.
fn moved(word: &str, file: &[u8]) -> Vec<u8> {
    let output = fed(&[word], file);
    assert_eq!((output.status.code(), output.stderr), (Some(0), vec![]), "{word}");
    output.stdout
}

/// The one line of an error, with nothing on standard output.
fn message(output: &Output, status: i32) -> String {
    let message = String::from_utf8_lossy(&output.stderr).into_owned();
    assert_eq!((output.status.code(), output.stdout.len()), (Some(status), 0), "{message}");
    assert!(message.starts_with("icemedian-planes: ") && message.ends_with('\n'), "{message}");
    assert_eq!(message.lines().count(), 1, "{message}");
    message
}

const SETTINGS: Settings =
    Settings { width: 3, height: 2, levels: 1024, guides: 4, weights: Weights::Guided { smoothing: 64 }, radius: 7 };
const GUIDE: [u16; 6] = [3, 2, 1, 0, 1, 2];

fn sheet() -> Vec<u8> {
    write(&SETTINGS, &[0x0102, 0x0304, NO_READING, 0x0000, 0x0203, 0x03ff], &GUIDE, &[]).unwrap()
}

#[test]
fn high_bytes_come_first() {
    let file = sheet();
    let apart = moved("split", &file);
    assert_eq!(apart[..12], [1, 3, 0xff, 0, 2, 3, 2, 4, 0xff, 0, 3, 0xff]);
    assert_eq!(apart[12..], file[12..]);
    assert_eq!(moved("join", &apart), file);
}

/// More bytes than a pipe holds, a table, and bytes before the planes that are no part of the frame.
#[test]
fn files_come_back_as_they_were() {
    let large = Settings { width: 1024, height: 256, guides: 256, ..SETTINGS };
    let values: Vec<u16> = (0..large.pixels()).map(|pixel| (pixel * pixel % 1021) as u16).collect();
    let guide: Vec<u16> = (0..large.pixels()).map(|pixel| (pixel * 7 % 256) as u16).collect();
    let table: Vec<u16> = (0..16).map(|place| place * 4001).collect();
    let own = Settings { weights: Weights::Table, ..SETTINGS };
    let files = [
        write(&large, &values, &guide, &[]).unwrap(),
        write(&own, &values[..6], &GUIDE, &table).unwrap(),
        [b"a note".as_slice(), &sheet()].concat(),
    ];
    for file in files {
        let apart = moved("split", &file);
        assert_eq!(apart.len(), file.len());
        assert_ne!(apart, file);
        assert_eq!(moved("join", &apart), file);
    }
}

#[test]
fn refusals_say_their_reason() {
    let refused = |word: &str, file: &[u8], said: &str| {
        let message = message(&fed(&[word], file), 1);
        assert!(message.contains(said), "{message}");
    };
    let (file, mut overlapping, mut wrong) = (sheet(), sheet(), sheet());
    // The guide plane's distance, 12: with 13 the plane begins with the last value's low byte.
    overlapping[file.len() - 9] += 1;
    wrong[4] = 4;
    for word in ["split", "join"] {
        refused(word, b"", "refused 1: the file is under 28 bytes");
        refused(word, b"not a frame, but longer than a trailer", "refused 1: ");
        refused(word, &file[1..], "refused 6: the value plane's distance is 24");
        refused(word, &overlapping, "refused 14: the guide plane has a byte in common with the value plane");
    }
    refused("split", &wrong, "refused 7: a value or guide is too large (at byte 4)");
    // What the plane holds is nothing to a join.
    assert_eq!(moved("join", &wrong).len(), wrong.len());
}

#[test]
fn other_words_are_wrong_usage() {
    let wrong = |words: &[OsString]| assert!(message(&fed(words, b""), 2).contains("split or join; see --help"));
    for words in [[].as_slice(), &["apart"], &["Split"], &[""], &["--wide"], &["split", "sheet.ice"]] {
        wrong(&words.iter().map(OsString::from).collect::<Vec<_>>());
    }
    wrong(&[OsString::from_vec(b"split\xff".to_vec())]);
}

#[test]
fn a_stream_that_fails_is_named() {
    let run = |input: Stdio, output: Stdio| {
        let program = Command::new(PROGRAM).arg("split").stdin(input).stdout(output).stderr(Stdio::piped()).spawn();
        program.expect("the program runs").wait_with_output().expect("the program ends")
    };
    let folder = File::open(env!("CARGO_TARGET_TMPDIR")).unwrap();
    assert!(message(&run(folder.into(), Stdio::piped()), 1).contains("standard input: "));
    let place = std::path::Path::new(env!("CARGO_TARGET_TMPDIR")).join("sheet.ice");
    std::fs::write(&place, sheet()).unwrap();
    let full = File::options().write(true).open("/dev/full").unwrap();
    assert!(message(&run(File::open(place).unwrap().into(), full.into()), 1).contains("standard output: "));
}

#[test]
fn help_goes_to_standard_output() {
    for word in ["-h", "--help"] {
        let help = String::from_utf8(moved(word, b"")).unwrap();
        assert!(help.contains("icemedian-planes split") && help.contains("icemedian-planes join"));
    }
}
