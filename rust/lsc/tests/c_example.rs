//! The C examples and the header: compiled without a warning, linked, run, compared.

use lsc::call::{BREAKS_PLACES, CHART_ROOM, KIND_SIZE, LOG_PLACES};
use lsc::call::{PREVIEW_ROOM, RECORD_PLACES, TEXT_ROOM, VERDICT_PLACES};
use lsc::{LogKind, Stamp, Standing};
use std::path::{Path, PathBuf};
use std::process::Command;

fn package() -> PathBuf {
    PathBuf::from(env!("CARGO_MANIFEST_DIR"))
}

/// Runs a command and gives its standard output; fails with what it says if it fails.
fn run(command: &mut Command) -> String {
    let output = command
        .output()
        .unwrap_or_else(|fault| panic!("{command:?}: {fault}"));
    let said = String::from_utf8_lossy(&output.stderr);
    assert!(output.status.success(), "{command:?}\n{said}");
    String::from_utf8(output.stdout).expect("text")
}

fn gcc(standard: &str) -> Command {
    let mut command = Command::new("gcc");
    command.args([standard, "-Wall", "-Wextra", "-Werror", "-pedantic", "-I"]);
    command.arg(package().join("../include"));
    command
}

/// What the example of this name says.
fn said_by(name: &str) -> String {
    let program = Path::new(env!("CARGO_TARGET_TMPDIR")).join(format!("{name}_c"));
    run(gcc("-std=c99")
        .arg(package().join(format!("examples/{name}.c")))
        .arg(env!("LSC_ARCHIVE"))
        .arg(env!("LSC_LIVE_ARCHIVE"))
        .arg(env!("LSC_LOG_ARCHIVE"))
        .arg(env!("LSC_MORE_ARCHIVE"))
        .arg("-o")
        .arg(&program));
    run(&mut Command::new(program))
}

#[test]
fn the_c_examples_say_what_is_expected() {
    let expected = include_str!("../examples/watch.expected");
    assert_eq!(said_by("watch"), expected);
    let expected = include_str!("../examples/save.expected");
    assert_eq!(said_by("save"), expected);
    let expected = include_str!("../examples/follow.expected");
    assert_eq!(said_by("follow"), expected);
}

#[test]
fn the_header_s_numbers_are_the_crate_s() {
    let header = include_str!("../../include/lsc.h");
    let number = |name: &str| -> usize {
        let line = header.lines().find_map(|line| {
            let words = line.strip_prefix("#define ")?.strip_prefix(name)?;
            words.strip_prefix(' ')
        });
        let word = line.and_then(|line| line.split_whitespace().next());
        let word = word.unwrap_or_else(|| panic!("no {name}"));
        word.parse().expect("a number")
    };
    for (name, standing) in [
        ("OPEN", Standing::Open),
        ("PRECHART", Standing::Prechart),
        ("OWED", Standing::Owed),
        ("BROKEN", Standing::Broken),
        ("RESTING", Standing::Resting),
    ] {
        let said = number(&format!("LSC_STANDS_{name}"));
        assert_eq!(said, usize::from(standing.number()), "{name}");
    }
    for (name, kind) in [
        ("NONE", LogKind::NoRecord),
        ("PLAIN", LogKind::Plain),
        ("RAW", LogKind::Raw { last: Stamp(9) }),
    ] {
        let said = number(&format!("LSC_KIND_{name}"));
        assert_eq!(said, usize::from(kind.to_bytes()[0]), "{name}");
    }
    assert_eq!(number("LSC_VERDICT_PLACES"), VERDICT_PLACES);
    assert_eq!(number("LSC_RECORD_PLACES"), RECORD_PLACES);
    assert_eq!(number("LSC_BREAKS_PLACES"), BREAKS_PLACES);
    assert_eq!(number("LSC_LOG_PLACES"), LOG_PLACES);
    assert_eq!(number("LSC_KIND_SIZE"), KIND_SIZE);
    assert_eq!(number("LSC_TEXT_ROOM"), TEXT_ROOM);
    assert_eq!(number("LSC_PREVIEW_ROOM"), PREVIEW_ROOM);
    assert_eq!(number("LSC_CHART_ROOM"), CHART_ROOM);
}

#[test]
fn the_header_stands_alone_and_twice() {
    let source = Path::new(env!("CARGO_TARGET_TMPDIR")).join("header_alone.c");
    let text = "#include \"lsc.h\"\n#include \"lsc.h\"\nint unused_by_any;\n";
    std::fs::write(&source, text).expect("the folder for tests can be written");
    run(gcc("-std=c99").arg("-fsyntax-only").arg(&source));
}
