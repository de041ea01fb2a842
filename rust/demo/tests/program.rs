//! The program as it is called.

use std::path::Path;
use std::process::{Command, Output};
use std::{fs, str};

fn demo(arguments: &[&str]) -> Output {
    Command::new(env!("CARGO_BIN_EXE_demo")).args(arguments).output().unwrap()
}

#[test]
fn a_wrong_line_is_all_that_is_said() {
    let script = concat!(env!("CARGO_TARGET_TMPDIR"), "/wrong.txt");
    fs::write(script, "up 1\n# so far so good\ntick x\n").unwrap();
    let output = demo(&["--script", script]);
    assert_eq!((output.status.code(), output.stdout.len()), (Some(1), 0));
    let said = str::from_utf8(&output.stderr).unwrap();
    assert!(said.ends_with(": line 3: 'tick' wants a number from 1 to 100000, found 'x'\n"), "{said}");
}

#[test]
fn wrong_arguments_and_help() {
    for arguments in [&["--script"][..], &["--script", "/no/such/file"], &["story.txt"]] {
        let output = demo(arguments);
        assert_eq!((output.status.code(), output.stdout.len()), (Some(1), 0));
    }
    assert!(demo(&["--help"]).stdout.starts_with(b"demo [--script FILE] [--svg PATH]\n"));
}

#[test]
fn directories_of_the_picture_are_made() {
    let directory = Path::new(env!("CARGO_TARGET_TMPDIR")).join("pictures");
    let picture = directory.join("deep/story.svg");
    let script = concat!(env!("CARGO_MANIFEST_DIR"), "/stories/silent-first-link.txt");
    let output = demo(&["--script", script, "--svg", picture.to_str().unwrap()]);
    assert!(output.status.success() && fs::read_to_string(&picture).unwrap().ends_with("</svg>\n"));
    fs::remove_dir_all(directory).unwrap();
}
