//! The program `demo`; `demo --help` explains it.

use std::io::{ErrorKind, Write};
use std::path::{Path, PathBuf};
use std::process::ExitCode;
use std::{env, fs, io};

const HELP: &str = include_str!("../help.txt");

fn main() -> ExitCode {
    match perform(env::args_os().skip(1).map(PathBuf::from)).and_then(|text| print(&text)) {
        Ok(()) => ExitCode::SUCCESS,
        Err(why) => {
            eprintln!("demo: {why}");
            ExitCode::FAILURE
        }
    }
}

/// Does what the arguments ask for; gives what is to be printed.
fn perform(mut arguments: impl Iterator<Item = PathBuf>) -> Result<String, String> {
    let (mut script, mut svg) = (None, PathBuf::from("target/demo.svg"));
    while let Some(argument) = arguments.next() {
        let mut path = || arguments.next().ok_or(format!("'{}' wants a path", argument.display()));
        match argument.to_str() {
            Some("--help" | "-h") => return Ok(HELP.into()),
            Some("--script") => script = Some(path()?),
            Some("--svg") => svg = path()?,
            _ => return Err(format!("expected --script FILE, --svg PATH or --help, found '{}'", argument.display())),
        }
    }
    show(script.as_deref(), &svg)
}

fn show(script: Option<&Path>, svg: &Path) -> Result<String, String> {
    let script = script.map_or_else(|| demo::parse(demo::BUILT_IN), read)?;
    let story = demo::play(&script).map_err(|refusal| format!("the library refused: {refusal}"))?;
    write(svg, &demo::svg(&story)).map_err(|why| format!("cannot write {}: {why}", svg.display()))?;
    Ok(format!("{}\nThe timeline as a picture: {}\n", demo::text(&story), svg.display()))
}

fn read(path: &Path) -> Result<demo::Script, String> {
    let text = fs::read_to_string(path).map_err(|why| format!("cannot read {}: {why}", path.display()))?;
    demo::parse(&text).map_err(|wrong| format!("{}: {wrong}", path.display()))
}

fn write(path: &Path, text: &str) -> io::Result<()> {
    path.parent().map_or(Ok(()), fs::create_dir_all)?;
    fs::write(path, text)
}

/// A reader who has seen enough is no failure.
fn print(text: &str) -> Result<(), String> {
    match io::stdout().write_all(text.as_bytes()) {
        Err(why) if why.kind() != ErrorKind::BrokenPipe => Err(format!("cannot print: {why}")),
        _ => Ok(()),
    }
}
