//! The program on files: filtered pictures, and clear errors.

use std::ffi::{OsStr, OsString};
use std::io::Write;
use std::os::unix::ffi::OsStringExt;
use std::path::{Path, PathBuf};
use std::process::{Command, Output, Stdio};

fn place(name: impl AsRef<OsStr>) -> PathBuf {
    Path::new(env!("CARGO_TARGET_TMPDIR")).join(name.as_ref())
}

fn command(words: &[&str]) -> Command {
    let mut command = Command::new(env!("CARGO_BIN_EXE_icemedian-pgm"));
    command.current_dir(env!("CARGO_TARGET_TMPDIR")).args(words);
    command
}

fn filter(words: &[&str]) -> Output {
    command(words).output().expect("the program runs")
}

/// With bytes on standard input.
fn filter_fed(words: &[&str], input: &[u8]) -> Output {
    let mut child = command(words)
        .stdin(Stdio::piped())
        .stdout(Stdio::piped())
        .stderr(Stdio::piped())
        .spawn()
        .expect("the program runs");
    child.stdin.take().unwrap().write_all(input).unwrap();
    child.wait_with_output().expect("the program ends")
}

fn message(output: &Output) -> String {
    assert_eq!(output.status.code(), Some(1));
    String::from_utf8_lossy(&output.stderr).into_owned()
}

fn notes(output: &Output) -> String {
    let notes = String::from_utf8_lossy(&output.stderr).into_owned();
    assert!(output.status.success(), "{notes}");
    notes
}

fn pgm(width: usize, height: usize, pixels: &[u8]) -> Vec<u8> {
    [format!("P5\n{width} {height}\n255\n").as_bytes(), pixels].concat()
}

/// Writes a picture of this size, every pixel 7, and names its file.
fn flat(name: &str, width: usize, height: usize) -> &str {
    std::fs::write(place(name), pgm(width, height, &vec![7; width * height])).unwrap();
    name
}

/// Bench window B, its levels 100 higher: the program takes the values' span as levels.
const B: [u8; 5] = [101, 102, 105, 103, 104];
const B_GUIDE: [u8; 5] = [7, 7, 15, 7, 0];
const B_FILTERED: [u8; 5] = [102, 102, 103, 103, 104];
const B_OPTIONS: [&str; 4] = ["--radius", "2", "--smoothing", "1"];

fn b_files(thermal: impl AsRef<OsStr>, guide: impl AsRef<OsStr>) {
    std::fs::write(place(thermal), pgm(5, 1, &B)).unwrap();
    std::fs::write(place(guide), pgm(5, 1, &B_GUIDE)).unwrap();
}

#[test]
fn document_01s_frame_as_pictures() {
    b_files("b.pgm", "b_guide.pgm");
    for (way, shifts) in [("joint", 6), ("columns", 6), ("chain", 6), ("coarse", 9)] {
        let words = [&["b.pgm", "b_guide.pgm", "b_out.pgm", "--way", way], B_OPTIONS.as_slice()].concat();
        assert!(notes(&filter(&words)).contains(&format!(", {shifts} shifts")), "{way}");
        assert_eq!(std::fs::read(place("b_out.pgm")).unwrap(), pgm(5, 1, &B_FILTERED));
    }
}

/// B filtered with these options more, its files under names that begin so: what is printed.
fn b_printed(name: &str, options: &[&str]) -> Vec<u8> {
    let files = ["", "_guide", "_out"].map(|part| format!("{name}{part}.pgm"));
    b_files(&files[0], &files[1]);
    let output = filter(&[files.each_ref().map(String::as_str).as_slice(), &B_OPTIONS, options].concat());
    notes(&output);
    assert_eq!(std::fs::read(place(&files[2])).unwrap(), pgm(5, 1, &B_FILTERED));
    output.stdout
}

/// Words that tell the causes apart, and the colours beside them.
const ORDINARY: (&str, [u8; 3]) = ("This is an ordinary window", [208, 212, 216]);
const BRIGHTER: (&str, [u8; 3]) = ("This pixel is brighter than its window's average", [230, 130, 30]);
const DARKER: (&str, [u8; 3]) = ("This pixel is darker than its window's average", [40, 100, 200]);

#[test]
fn a_pixel_is_explained_in_words() {
    let printed = |column: &str| {
        let printed = b_printed(&format!("explained_{column}"), &["--explain", column, "0"]);
        String::from_utf8(printed).unwrap()
    };
    let ordinary = "Column 1, row 0 becomes 102. Its window has 4 pixels of total weight 832. The values below 102 \
                    weigh 272, less than half; with 102 it is 544, at least half. This is an ordinary window: no pixel \
                    counts against its own value.\n";
    assert_eq!(printed("1"), ordinary);
    let brighter = "Column 2, row 0 becomes 103. Its window has 5 pixels of total weight 2,945. The values below 103 \
                    weigh 1,100, less than half; with 103 it is 1,650, at least half. This pixel is brighter than its \
                    window's average, by so much that a pixel near the dark end of the guide picture counts against \
                    its own value there: going up the values, the weight can fall.\n";
    assert_eq!(printed("2"), brighter);
    let darker = "Column 4, row 0 becomes 104. Its window has 3 pixels of total weight 1,041. The values below 104 \
                  weigh 369, less than half; with 104 it is 1,200, at least half. This pixel is darker than its \
                  window's average, by so much that a pixel near the bright end of the guide picture counts against \
                  its own value there: going up the values, the weight can fall.\n";
    assert_eq!(printed("4"), darker);
}

#[test]
fn causes_have_colours() {
    let pixels = [ORDINARY, ORDINARY, BRIGHTER, ORDINARY, DARKER].map(|(_, colour)| colour).concat();
    let ppm = [b"P6\n5 1\n255\n".as_slice(), &pixels].concat();
    assert!(b_printed("coloured", &["--causes", "coloured.ppm"]).is_empty());
    assert_eq!(std::fs::read(place("coloured.ppm")).unwrap(), ppm);
    assert_eq!(b_printed("coloured", &["--causes", "-"]), ppm);
}

/// The colour of each pixel goes with what is said of it, on pictures of several rows, clipped windows and whole ones.
#[test]
fn colours_and_words_agree() {
    let (width, height, pixels) = (9, 7, 63);
    let levels: Vec<u8> = (0..pixels).map(|pixel| (pixel * pixel * 31 % 97) as u8).collect();
    let guides: Vec<u8> =
        (0..pixels).map(|pixel| if pixel % 5 == 0 { 255 } else { (pixel * 37 % 101) as u8 }).collect();
    std::fs::write(place("agree.pgm"), pgm(width, height, &levels)).unwrap();
    std::fs::write(place("agree_guide.pgm"), pgm(width, height, &guides)).unwrap();
    let run = |options: &[&str]| {
        let files = ["agree.pgm", "agree_guide.pgm", "agree_out.pgm", "--radius", "2"];
        let output = filter(&[files.as_slice(), options].concat());
        notes(&output);
        output.stdout
    };
    let ppm = run(&["--causes", "-"]);
    let colours = ppm.strip_prefix(b"P6\n9 7\n255\n".as_slice()).unwrap();
    assert_eq!(colours.len(), 3 * pixels);
    let mut met = [0; 3];
    for (pixel, colour) in colours.chunks(3).enumerate() {
        let (column, row) = ((pixel % width).to_string(), (pixel / width).to_string());
        let printed = String::from_utf8(run(&["--explain", &column, &row])).unwrap();
        assert!(printed.starts_with(&format!("Column {column}, row {row} becomes ")), "{printed}");
        for ((words, own), met) in [ORDINARY, BRIGHTER, DARKER].into_iter().zip(&mut met) {
            assert_eq!(printed.contains(words), colour == own, "{printed}");
            *met += u32::from(colour == own);
        }
    }
    assert!(met.iter().all(|&pixels| pixels > 0) && met.iter().sum::<u32>() == pixels as u32, "{met:?}");
}

/// B with two dead pixels, whose value is 200.
const B_DEAD: [u8; 5] = [101, 200, 105, 103, 200];
const EMPTY: [u8; 3] = [0, 0, 0];

/// A picture of one row filtered with `--dead VALUE` and these options: what it becomes, and what is printed.
fn filter_dead(name: &str, pixels: &[u8], guide: &[u8], value: &str, options: &[&str]) -> (Vec<u8>, Output) {
    let files = ["", "_guide", "_out"].map(|part| format!("{name}{part}.pgm"));
    std::fs::write(place(&files[0]), pgm(pixels.len(), 1, pixels)).unwrap();
    std::fs::write(place(&files[1]), pgm(pixels.len(), 1, guide)).unwrap();
    let words = [files.each_ref().map(String::as_str).as_slice(), &["--dead", value], options].concat();
    let output = filter(&words);
    notes(&output);
    let filtered = std::fs::read(place(&files[2])).unwrap();
    let header = pgm(pixels.len(), 1, &[]);
    (filtered.strip_prefix(header.as_slice()).unwrap().to_vec(), output)
}

#[test]
fn dead_pixels_get_the_readings_around_them() {
    for way in ["joint", "columns", "chain", "coarse"] {
        let options = [B_OPTIONS.as_slice(), &["--way", way]].concat();
        let (filtered, output) = filter_dead("dead", &B_DEAD, &B_GUIDE, "200", &options);
        assert_eq!(filtered, [101, 103, 105, 103, 103]);
        // Levels run from 0 to 4: a value of dead pixels is none.
        let notes = notes(&output);
        assert!(notes.contains(", 10 shifts") && notes.contains("2 of 5 pixels are dead"), "{notes}");
        assert!(!notes.contains("no reading in their windows"), "{notes}");
    }
    // Without the option the value is one like any other.
    b_files("alive.pgm", "alive_guide.pgm");
    std::fs::write(place("alive.pgm"), pgm(5, 1, &B_DEAD)).unwrap();
    let words = [["alive.pgm", "alive_guide.pgm", "alive_out.pgm"].as_slice(), &B_OPTIONS].concat();
    notes(&filter(&words));
    assert_ne!(std::fs::read(place("alive_out.pgm")).unwrap(), pgm(5, 1, &[101, 103, 105, 103, 103]));
}

#[test]
fn where_there_is_no_reading_the_value_of_dead_pixels_stays() {
    let pixels = [0, 0, 0, 105];
    for options in [["--table"].as_slice(), &["--way", "chain"]] {
        let options = [&["--radius", "1", "--causes", "-"], options].concat();
        let (filtered, output) = filter_dead("stays", &pixels, &[7; 4], "0", &options);
        assert_eq!(filtered, [0, 0, 105, 105]);
        assert!(notes(&output).contains("2 pixels have no reading in their windows"));
        let ppm = [b"P6\n4 1\n255\n".as_slice(), &[EMPTY, EMPTY, ORDINARY.1, ORDINARY.1].concat()].concat();
        assert_eq!(output.stdout, ppm);
    }
    assert_eq!(filter_dead("none", &[9; 3], &[1, 2, 3], "9", &[]).0, [9; 3]);
    // 16 bits: the largest value, and one between the others, which are not rounded.
    for dead in [65_535u16, 300] {
        let values = [299, dead, dead, dead, 301];
        let plane: Vec<u8> = values.iter().flat_map(|value| value.to_be_bytes()).collect();
        std::fs::write(place("wide.pgm"), [b"P5\n5 1\n65535\n".as_slice(), &plane].concat()).unwrap();
        let guide = flat("wide_guide.pgm", 5, 1);
        notes(&filter(&["wide.pgm", guide, "wide_out.pgm", "--radius", "1", "--dead", &dead.to_string()]));
        let expected: Vec<u8> = [299, 299, dead, 301, 301].iter().flat_map(|value: &u16| value.to_be_bytes()).collect();
        assert_eq!(std::fs::read(place("wide_out.pgm")).unwrap(), [b"P5\n5 1\n65535\n".as_slice(), &expected].concat());
    }
}

#[test]
fn dead_pixels_are_explained_in_words() {
    let said = |name: &str, pixels: &[u8], guide: &[u8], options: &[&str], column: &str| {
        let options = [options, &["--explain", column, "0"]].concat();
        let (_, output) = filter_dead(name, pixels, guide, "200", &options);
        String::from_utf8(output.stdout).unwrap()
    };
    let centre = "Column 1, row 0 has no reading and becomes 103. Its window has 3 pixels of total weight 411. The values \
                  below 103 weigh 201, less than half; with 103 it is 402, at least half. This is an ordinary window: no \
                  pixel counts against its own value.\n";
    assert_eq!(said("said", &B_DEAD, &B_GUIDE, &B_OPTIONS, "1"), centre);
    let beside = said("said", &B_DEAD, &B_GUIDE, &B_OPTIONS, "2");
    assert!(
        beside.starts_with("Column 2, row 0 becomes 105. Its window has 3 pixels of total weight 411."),
        "{beside}"
    );
    let empty = "Column 0, row 0 has no reading and stays 200. No pixel of its window has a reading.\n";
    assert_eq!(said("said_empty", &[200, 200, 5], &[0; 3], &["--radius", "1"], "0"), empty);
}

#[test]
fn a_value_of_dead_pixels_that_could_be_another_is_refused() {
    let one = flat("dead_one.pgm", 1, 1);
    let wrong = |words: &[&str], said: &str| {
        let message = message(&filter(words));
        assert!(message.contains(said), "{message}");
    };
    wrong(&[one, one, "out.pgm", "--dead"], "--dead needs a number from 0 to 65535");
    for word in ["-1", "65536", "x"] {
        wrong(&[one, one, "out.pgm", "--dead", word], &format!("--dead needs a number from 0 to 65535, not {word}"));
    }
    wrong(&[one, one, "out.pgm", "--dead", "256"], "no pixel of dead_one.pgm can have it, whose greatest value is 255");
    // 0 to 65,535 in steps of 64: 64 to 127 become 96.
    let rounded = |value: u16, dead: &str| {
        let plane: Vec<u8> = [0, 65_535, value].iter().flat_map(|value| value.to_be_bytes()).collect();
        std::fs::write(place("rounded.pgm"), [b"P5\n3 1\n65535\n".as_slice(), &plane].concat()).unwrap();
        filter(&["rounded.pgm", flat("rounded_guide.pgm", 3, 1), "rounded_out.pgm", "--dead", dead])
    };
    assert!(message(&rounded(100, "96")).contains("--dead 96: other values of rounded.pgm would be rounded to it"));
    notes(&rounded(200, "96"));
    notes(&rounded(96, "96"));
}

/// Request 7's row, its levels 100 higher.
const SPANNED: [u8; 5] = [105, 101, 103, 102, 107];
const UPPER: [u8; 5] = [106, 101, 105, 104, 107];
const SPANNED_GUIDE: [u8; 5] = [0, 0, 2, 1, 3];
const LEAST: [u8; 5] = [101, 103, 102, 103, 107];
const GREATEST: [u8; 5] = [101, 105, 104, 105, 107];
const SPANNED_OPTIONS: [&str; 3] = ["--table", "--radius", "1"];

/// Writes the files of a row with upper ends, under names that begin so; the words that filter them.
fn spanned_files(name: &str, pixels: &[u8], upper: &[u8], guide: &[u8]) -> Vec<String> {
    let files = ["", "_guide", "_least", "_upper", "_greatest"].map(|part| format!("{name}{part}.pgm"));
    for (file, pixels) in [(&files[0], pixels), (&files[1], guide), (&files[3], upper)] {
        std::fs::write(place(file), pgm(pixels.len(), 1, pixels)).unwrap();
    }
    let [thermal, picture, least, upper, greatest] = files;
    let words = [thermal, picture, least, "--upper".to_string(), upper, "--greatest".to_string(), greatest];
    [words.to_vec(), SPANNED_OPTIONS.map(str::to_string).to_vec()].concat()
}

fn filter_words(words: &[String], options: &[&str]) -> Output {
    filter(&[words.iter().map(String::as_str).collect::<Vec<_>>().as_slice(), options].concat())
}

/// Both pictures that such words write, and the notes.
fn bounds(words: &[String], options: &[&str]) -> (Vec<u8>, Vec<u8>, String) {
    let output = filter_words(words, options);
    let notes = notes(&output);
    (std::fs::read(place(&words[2])).unwrap(), std::fs::read(place(&words[6])).unwrap(), notes)
}

#[test]
fn a_tolerance_has_two_pictures() {
    let words = spanned_files("spanned", &SPANNED, &UPPER, &SPANNED_GUIDE);
    let (least, greatest, notes) = bounds(&words, &[]);
    assert_eq!((least, greatest), (pgm(5, 1, &LEAST), pgm(5, 1, &GREATEST)));
    // Levels run from 0 to 6.
    assert!(notes.contains("8 shifts for the least, 8 for the greatest"), "{notes}");
    assert!(notes.contains("least and greatest differ at 3 pixels, by at most 2"), "{notes}");
    // What explains a pixel is of the lower ends, and OUTPUT is theirs.
    let printed = filter_words(&words, &["--explain", "3", "0"]).stdout;
    assert!(String::from_utf8(printed).unwrap().starts_with("Column 3, row 0 becomes 103. "));
    let plain = filter(&["spanned.pgm", "spanned_guide.pgm", "spanned_plain.pgm", "--table", "--radius", "1"]);
    assert!(plain.status.success());
    assert_eq!(std::fs::read(place("spanned_plain.pgm")).unwrap(), pgm(5, 1, &LEAST));
    let same = spanned_files("same", &SPANNED, &SPANNED, &SPANNED_GUIDE);
    let (least, greatest, notes) = bounds(&same, &[]);
    assert_eq!((least, greatest), (pgm(5, 1, &LEAST), pgm(5, 1, &LEAST)));
    assert!(notes.contains("differ at 0 pixels"), "{notes}");
}

#[test]
fn dead_pixels_are_dead_in_both_ends() {
    let words = spanned_files("ends", &[9, 9, 9, 105, 102], &[9, 9, 9, 106, 107], &[0; 5]);
    let (least, greatest, notes) = bounds(&words, &["--dead", "9"]);
    assert_eq!((least, greatest), (pgm(5, 1, &[9, 9, 105, 102, 102]), pgm(5, 1, &[9, 9, 106, 106, 106])));
    assert!(notes.contains("ends_upper.pgm: 3 of 5 pixels are dead"), "{notes}");
    assert!(notes.contains("2 pixels have no reading in their windows"), "{notes}");
    let refused = |pixels: &[u8], upper: &[u8]| {
        let words = spanned_files("ends_wrong", pixels, upper, &[0; 3]);
        message(&filter_words(&words, &["--dead", "9"]))
    };
    let lower = refused(&[5, 9, 7], &[6, 8, 7]);
    assert!(
        lower.contains("ends_wrong.pgm has no reading at column 1, row 0, but ends_wrong_upper.pgm has 8"),
        "{lower}"
    );
    let upper = refused(&[5, 6, 7], &[6, 8, 9]);
    assert!(
        upper.contains("ends_wrong_upper.pgm has no reading at column 2, row 0, but ends_wrong.pgm has 7"),
        "{upper}"
    );
}

#[test]
fn an_upper_end_below_its_value_is_named() {
    for (name, options) in [("below", [].as_slice()), ("below_dead", &["--dead", "0"])] {
        let words = spanned_files(name, &SPANNED, &[106, 101, 105, 101, 107], &SPANNED_GUIDE);
        let below = message(&filter_words(&words, options));
        assert!(
            below.contains(&format!("{name}_upper.pgm has 101 at column 3, row 0, below the 102 of {name}.pgm")),
            "{below}"
        );
        assert!(!place(format!("{name}_least.pgm")).exists() && !place(format!("{name}_greatest.pgm")).exists());
    }
    // Of several rows.
    std::fs::write(place("rows.pgm"), pgm(2, 2, &[1, 2, 3, 4])).unwrap();
    std::fs::write(place("rows_upper.pgm"), pgm(2, 2, &[2, 2, 3, 3])).unwrap();
    let words = ["rows.pgm", "rows.pgm", "rows_least.pgm", "--table", "--upper", "rows_upper.pgm", "--greatest", "-"];
    assert!(message(&filter(&words)).contains("rows_upper.pgm has 3 at column 1, row 1, below the 4 of rows.pgm"));
}

/// 0 to 65,535 in steps of 64: 90 and 100 are rounded to the same, and 90 is below 100 all the same.
#[test]
fn an_upper_end_below_its_value_by_less_than_a_step_is_named() {
    let write = |name: &str, value: u16| {
        let plane: Vec<u8> = [0, 65_535, value].iter().flat_map(|value| value.to_be_bytes()).collect();
        std::fs::write(place(name), [b"P5\n3 1\n65535\n".as_slice(), &plane].concat()).unwrap();
    };
    let words = ["step.pgm", flat("step_guide.pgm", 3, 1), "step_least.pgm", "--table", "--upper", "step_upper.pgm"];
    let words = [words.as_slice(), &["--greatest", "step_greatest.pgm"]].concat();
    write("step.pgm", 100);
    write("step_upper.pgm", 90);
    let below = message(&filter(&words));
    assert!(below.contains("step_upper.pgm has 90 at column 2, row 0, below the 100 of step.pgm"), "{below}");
    write("step_upper.pgm", 110);
    notes(&filter(&words));
}

/// 8 bits below and 16 above: both pictures have 16, since a rounded value may need them.
#[test]
fn ends_of_8_and_16_bits() {
    let upper: Vec<u8> = [250u16, 65_535, 255].iter().flat_map(|value| value.to_be_bytes()).collect();
    std::fs::write(place("bits.pgm"), pgm(3, 1, &[250, 100, 255])).unwrap();
    std::fs::write(place("bits_upper.pgm"), [b"P5\n3 1\n65535\n".as_slice(), &upper].concat()).unwrap();
    let words = ["bits.pgm", flat("bits_guide.pgm", 3, 1), "bits_least.pgm", "--table", "--radius", "0"];
    let notes =
        notes(&filter(&[&words, ["--upper", "bits_upper.pgm", "--greatest", "bits_greatest.pgm"].as_slice()].concat()));
    assert!(notes.contains("bits.pgm: values are rounded to 1024 steps"), "{notes}");
    let numbers = |name: &str| {
        let file = std::fs::read(place(name)).unwrap();
        let body = file.strip_prefix(b"P5\n3 1\n65535\n".as_slice()).unwrap();
        body.chunks(2).map(|two| u16::from_be_bytes([two[0], two[1]])).collect::<Vec<_>>()
    };
    // From 100 on in steps of about 64 values, each answered by its middle.
    assert_eq!(
        (numbers("bits_least.pgm"), numbers("bits_greatest.pgm")),
        (vec![259, 131, 259], vec![259, 65_504, 259])
    );
}

#[test]
fn what_a_tolerance_needs() {
    let (one, two) = (flat("needs.pgm", 1, 1), flat("needs_two.pgm", 2, 1));
    let wrong = |words: &[&str], said: &str| {
        let message = message(&filter(&[&[one, one, "out.pgm"], words].concat()));
        assert!(message.contains(said), "{message}");
    };
    wrong(&["--upper"], "--upper needs a file");
    wrong(&["--table", "--greatest"], "--greatest needs a file");
    wrong(&["--table", "--upper", one], "--upper needs --greatest FILE");
    wrong(&["--table", "--greatest", "out_2.pgm"], "--greatest needs --upper FILE");
    wrong(&["--upper", one, "--greatest", "out_2.pgm"], "--upper needs --table");
    wrong(&["--upper", one, "--greatest", "-", "--table", "--way", "coarse"], "--upper needs --way joint");
    wrong(&["--upper", one, "--greatest", "-", "--table", "--causes", "-"], "standard output can take one of");
    wrong(&["--upper", one, "--greatest", "-", "--table", "--explain", "0", "0"], "standard output can take one of");
    wrong(&["--upper", "absent.pgm", "--greatest", "-", "--table"], "absent.pgm");
    let sizes = "needs.pgm is 1x1 and needs_two.pgm 2x1: they must be of one size";
    wrong(&["--upper", two, "--greatest", "-", "--table"], sizes);
    std::fs::write(place("needs_9.pgm"), b"P5\n1 1\n9\n\x07").unwrap();
    let dead = "--dead 200: no pixel of needs_9.pgm can have it, whose greatest value is 9";
    wrong(&["--upper", "needs_9.pgm", "--greatest", "-", "--table", "--dead", "200"], dead);
}

#[test]
fn a_dash_is_standard_input_and_output() {
    b_files("dash.pgm", "dash_guide.pgm");
    let words = |files: [&'static str; 3]| [files.as_slice(), &B_OPTIONS].concat();
    let piped = filter_fed(&words(["-", "dash_guide.pgm", "-"]), &pgm(5, 1, &B));
    assert!(notes(&piped).contains("reading standard input"));
    assert_eq!(piped.stdout, pgm(5, 1, &B_FILTERED));
    let guide_piped = filter_fed(&words(["dash.pgm", "-", "dash_out.pgm"]), &pgm(5, 1, &B_GUIDE));
    notes(&guide_piped);
    assert_eq!(std::fs::read(place("dash_out.pgm")).unwrap(), pgm(5, 1, &B_FILTERED));
    assert!(
        message(&filter(&words(["-", "-", "dash_out.pgm"]))).contains("standard input can be one of THERMAL, PICTURE")
    );
    assert!(message(&filter_fed(&words(["-", "dash_guide.pgm", "-"]), b"P5")).contains("standard input: the header"));
    let mut spanned = spanned_files("dash_span", &SPANNED, &UPPER, &SPANNED_GUIDE);
    (spanned[4], spanned[6]) = ("-".to_string(), "-".to_string());
    let spanned: Vec<&str> = spanned.iter().map(String::as_str).collect();
    let upper_piped = filter_fed(&spanned, &pgm(5, 1, &UPPER));
    assert!(notes(&upper_piped).contains("reading standard input"));
    assert_eq!(upper_piped.stdout, pgm(5, 1, &GREATEST));
    let both = message(&filter(&[&["-"], &spanned[1..]].concat()));
    assert!(both.contains("standard input can be one of THERMAL, PICTURE and --upper"), "{both}");
}

#[test]
fn a_file_name_may_be_any_bytes() {
    let name = |last: &[u8]| OsString::from_vec([b"\xff".as_slice(), last].concat());
    b_files(name(b"b.pgm"), name(b"guide.pgm"));
    let files = [name(b"b.pgm"), name(b"guide.pgm"), name(b"out.pgm")];
    notes(&command(&B_OPTIONS).args(&files).output().unwrap());
    assert_eq!(std::fs::read(place(name(b"out.pgm"))).unwrap(), pgm(5, 1, &B_FILTERED));
    let absent = [name(b"absent.pgm"), name(b"guide.pgm"), name(b"out.pgm")];
    assert!(message(&command(&[]).args(&absent).output().unwrap()).contains("absent.pgm"));
    let option = [OsString::from_vec(b"-\xff".to_vec())];
    assert!(message(&command(&[]).args(&option).output().unwrap()).contains("unknown option -"));
}

#[test]
fn errors_name_their_cause() {
    let (one, two) = (flat("one.pgm", 1, 1), flat("two.pgm", 2, 1));
    assert!(message(&filter(&[one])).contains("three files are needed, not 1"));
    assert!(message(&filter(&["absent.pgm", one, "out.pgm"])).contains("absent.pgm"));
    let sizes = message(&filter(&[one, two, "out.pgm"]));
    assert!(sizes.contains("one.pgm is 1x1 and two.pgm 2x1: they must be of one size"), "{sizes}");
}

#[test]
fn a_wrong_size_is_named_with_what_is_allowed() {
    for (width, height) in [(640, 480), (1025, 1), (1, 70_000), (0, 5)] {
        let name = format!("size_{width}_{height}.pgm");
        let wrong = message(&filter(&[flat(&name, width, height), &name, "out.pgm"]));
        let size = format!("{name} is {width}x{height}: width and height may be 1 to 1024, with at most 262144 pixels");
        assert!(wrong.contains(&size), "{wrong}");
    }
}

#[test]
fn wrong_options_are_named() {
    let one = flat("options.pgm", 1, 1);
    let wrong = |words: &[&str], said: &str| {
        let message = message(&filter(&[&[one, one, "out.pgm"], words].concat()));
        assert!(message.contains(said), "{message}");
    };
    wrong(&["--wide"], "unknown option --wide");
    wrong(&["-r", "3"], "unknown option -r");
    wrong(&["--radius"], "--radius needs a number from 0 to 15");
    for word in ["16", "263", "-1", "x", ""] {
        wrong(&["--radius", word], &format!("--radius needs a number from 0 to 15, not {word}"));
    }
    for word in ["0", "65026", "65537", "1.5"] {
        wrong(&["--smoothing", word], &format!("--smoothing needs a number from 1 to 65025, not {word}"));
    }
    wrong(&["--way", "table"], "--way needs joint, columns, chain or coarse");
    wrong(&["--table", "--way", "chain"], "--table needs --way joint or coarse");
    wrong(&["--table", "--smoothing", "64"], "--table has no smoothing");
    wrong(&["--smoothing", "64", "--table"], "--table has no smoothing");
    for words in [["--explain"].as_slice(), &["--explain", "0"], &["--explain", "x", "0"], &["--explain", "0", "1024"]]
    {
        wrong(words, "--explain COLUMN ROW needs a number from 0 to 1023");
    }
    wrong(&["--explain", "1", "0"], "options.pgm is 1x1: counted from 0, it has no column 1, row 0 to explain");
    wrong(&["--explain", "0", "1"], "options.pgm is 1x1: counted from 0, it has no column 0, row 1 to explain");
    wrong(&["--causes"], "--causes needs a file");
    let one_of = "standard output can take one of OUTPUT, --greatest, --causes and --explain";
    wrong(&["--causes", "-", "--explain", "0", "0"], one_of);
    for words in [["--explain", "0", "0"].as_slice(), &["--causes", "-"]] {
        let message = message(&filter(&[&[one, one, "-"], words].concat()));
        assert!(message.contains("standard output can take one of"), "{message}");
    }
    notes(&filter(&[one, one, "options_out.pgm", "--table"]));
    notes(&filter(&[one, one, "options_out.pgm", "--table", "--way", "coarse"]));
}

#[test]
fn wrong_headers_are_named() {
    let wrong = |header: &[u8], said: &str| {
        std::fs::write(place("header.pgm"), [header, &[0; 300]].concat()).unwrap();
        let message = message(&filter(&["header.pgm", "header.pgm", "out.pgm"]));
        assert!(message.contains(said), "{message}");
    };
    wrong(b"P520 10 255\n", "header.pgm: the header has no blank before its width");
    wrong(b"P5 2 1 255x", "header.pgm: the header has no blank behind its greatest value");
    wrong(b"P5 99999999999999999999999 1 255\n", "the width 99999999999999999999999 is too large");
    wrong(b"P5 400 1 255\n", "the file ends early: 400x1 pixels take 400 bytes, it has 300");
}

#[test]
fn what_is_left_over_is_noted() {
    let note = "bytes left over behind the pixels of over.pgm";
    std::fs::write(place("over.pgm"), b"P5\r\n2 1\r\n255\r\n\x01\x02").unwrap();
    let output = filter(&["over.pgm", flat("over_guide.pgm", 2, 1), "over_out.pgm", "--radius", "0"]);
    assert!(notes(&output).contains(&format!("1 {note}")));
    assert!(!notes(&filter(&["over_guide.pgm", "over_guide.pgm", "over_out.pgm"])).contains("left over"));
}

#[test]
fn help_goes_to_standard_output() {
    for word in ["-h", "--help"] {
        let output = filter(&[word]);
        assert!(notes(&output).is_empty());
        let help = String::from_utf8_lossy(&output.stdout);
        let options = ["--smoothing", "--explain", "--causes", "--dead", "--upper", "--greatest"];
        assert!(options.iter().all(|option| help.contains(option)));
    }
}
