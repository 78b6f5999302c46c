//! The header as C and C++ programs use it: it compiles in every standard without a warning, the examples
//! print what the documents say, `interface.c` finds the header's promises kept, and the version is this crate's.

use std::path::{Path, PathBuf};
use std::process::{Command, Output};

const C_STANDARDS: [&str; 5] = ["c89", "c99", "c11", "c17", "c2x"];
const CPP_STANDARDS: [&str; 5] = ["c++98", "c++11", "c++14", "c++17", "c++20"];
const STRICT: [&str; 5] = ["-Wall", "-Wextra", "-Wno-long-long", "-pedantic", "-Werror"];

fn root() -> PathBuf {
    Path::new(env!("CARGO_MANIFEST_DIR")).join("../..")
}

/// The examples: one frame, and a hall with three sheets.
fn examples() -> [PathBuf; 2] {
    ["example.c", "cameras.c"].map(|name| root().join("examples").join(name))
}

fn interface() -> PathBuf {
    Path::new(env!("CARGO_MANIFEST_DIR")).join("tests/interface.c")
}

/// Compiles without a warning, as the standard and the words say.
fn compile(compiler: &str, standard: &str, words: &[&str], source: &Path, linked: &[&str]) {
    let compiled = Command::new(compiler)
        .arg(format!("-std={standard}"))
        .args(STRICT)
        .arg("-I")
        .arg(root().join("include"))
        .args(words)
        .arg(source)
        .args(linked)
        .status()
        .unwrap_or_else(|error| panic!("{compiler}: {error}"));
    assert!(compiled.success(), "{compiler} {standard} {}", source.display());
}

/// What a C program over the archive does.
fn run(name: &str, source: &Path) -> Output {
    let program = Path::new(env!("CARGO_TARGET_TMPDIR")).join(name);
    // The libraries are the stand-in's; the proved archive needs none.
    let libraries = ["-lpthread", "-ldl", "-lm", "-lgcc_s"];
    let linked = [&[env!("ICEMEDIAN_ARCHIVE")], libraries.as_slice(), &["-o", program.to_str().unwrap()]].concat();
    compile("cc", "c99", &[], source, &linked);
    Command::new(&program).output().expect("the program runs")
}

#[test]
fn the_examples_print_the_bench() {
    let texts = [
        "1 3 3, shifts 3\nlevel 3: of 51, the levels below it weigh 21, with it 30\n",
        "4 pixels: 1 3 -, 2 - - - -, 2 -\n4 pixels: 1 3 -, 2 - - - -, 2 -\n7 pixels: 1 3 3, 2 2 - - -, 2 2\n",
    ];
    for (source, text) in examples().iter().zip(texts) {
        let name = source.file_stem().unwrap().to_str().unwrap();
        let output = run(name, source);
        assert!(output.status.success(), "{name}");
        assert_eq!(String::from_utf8_lossy(&output.stdout), text);
    }
}

#[test]
fn the_headers_promises_are_kept() {
    let output = run("interface", &interface());
    assert!(output.status.success(), "{}", String::from_utf8_lossy(&output.stdout));
}

#[test]
fn every_c_standard() {
    for standard in C_STANDARDS {
        for source in examples().into_iter().chain([interface()]) {
            compile("cc", standard, &["-fsyntax-only", "-Wconversion"], &source, &[]);
        }
    }
}

#[test]
fn every_cpp_standard() {
    for standard in CPP_STANDARDS {
        for source in examples() {
            compile("c++", standard, &["-fsyntax-only", "-xc++"], &source, &[]);
        }
        compile("c++", standard, &["-fsyntax-only", "-xc++", "-Wold-style-cast"], &interface(), &[]);
    }
}

#[test]
fn the_version_is_the_headers() {
    let header = include_str!("../../../include/icemedian.h");
    let number = |name: &str| {
        let line = header.lines().find_map(|line| line.strip_prefix(&format!("#define ICEMEDIAN_VERSION_{name} ")));
        line.expect("the header's version").to_string()
    };
    assert_eq!(number("MAJOR"), env!("CARGO_PKG_VERSION_MAJOR"));
    assert_eq!(number("MINOR"), env!("CARGO_PKG_VERSION_MINOR"));
}
