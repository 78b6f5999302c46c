//! Splits the value plane of a frame file into byte planes for an archive, and joins them again.

use icemedian::{join, split, Refusal};
use std::ffi::OsString;
use std::io::{self, Read, Write};
use std::process::ExitCode;

const HELP: &str = "\
icemedian-planes split
icemedian-planes join

Moves the bytes of a frame's value plane for an archive, which stores slowly moving bytes better when they
lie together: split puts the high bytes of all values before their low bytes, and join gives the very file
back. Each reads a frame file from standard input and writes one of the same length to standard output.

  icemedian-planes split < sheet.ice | xz > sheet.ice.xz
  xz -dc sheet.ice.xz | icemedian-planes join > sheet.ice

A split file holds no levels, so join it before anything else reads it. Nothing marks it as split: join moves
the bytes of any other frame file all the same.

The exit status is 1 where the file is refused, with nothing on standard output, or cannot be read or
written, and 2 for other words than these.

  -h, --help      this text
";

fn print(bytes: &[u8]) -> Result<(), String> {
    let mut output = io::stdout().lock();
    output.write_all(bytes).and_then(|()| output.flush()).map_err(|error| format!("standard output: {error}"))
}

fn run(moved: fn(&[u8]) -> Result<Vec<u8>, Refusal>) -> Result<(), String> {
    let mut file = Vec::new();
    io::stdin().lock().read_to_end(&mut file).map_err(|error| format!("standard input: {error}"))?;
    print(&moved(&file).map_err(|refusal| refusal.to_string())?)
}

fn main() -> ExitCode {
    let words: Vec<OsString> = std::env::args_os().skip(1).collect();
    let done = match words.iter().map(|word| word.to_str()).collect::<Vec<_>>()[..] {
        [Some("split")] => run(split),
        [Some("join")] => run(join),
        [Some("-h" | "--help")] => print(HELP.as_bytes()),
        _ => {
            eprintln!("icemedian-planes: one word is needed, split or join; see --help");
            return ExitCode::from(2);
        }
    };
    match done {
        Ok(()) => ExitCode::SUCCESS,
        Err(message) => {
            eprintln!("icemedian-planes: {message}");
            ExitCode::FAILURE
        }
    }
}
