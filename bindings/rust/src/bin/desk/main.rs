//! Judges manifests that stand in files: `desk --help` says how.
use std::fs::File;
use std::io::{self, ErrorKind, Read, Write};
use std::path::Path;
use std::process::ExitCode;

use lurmashek::{Desk, MOST_BYTES};

mod answer;
mod request;
use answer::Answer;
use request::{parse, Command, Request, HELP, USAGE};

/// Bad usage, or a file that cannot be read or written.
const FAILED: u8 = 2;

fn main() -> ExitCode {
    match run() {
        Ok(status) => ExitCode::from(status),
        Err(message) => {
            // Where standard error is gone the status alone is left to tell.
            let _ = writeln!(io::stderr(), "desk: {message}");
            ExitCode::from(FAILED)
        }
    }
}

/// The exit status, or what is wrong.
fn run() -> Result<u8, String> {
    let request = parse(std::env::args_os().skip(1)).map_err(|e| format!("{e}\n{USAGE}"))?;
    match request {
        Request::Help => print(HELP).map(|()| 0),
        Request::Version => print(concat!("desk ", env!("CARGO_PKG_VERSION"))).map(|()| 0),
        Request::Judge { command, options, json } => {
            let answer = judge(&command, options)?;
            print(&if json { answer.json() } else { answer.text() })?;
            Ok(u8::from(!answer.is_yes()))
        }
    }
}

fn judge(command: &Command, options: lurmashek::Options) -> Result<Answer, String> {
    let mut desk = Desk::new();
    Ok(match command {
        Command::Check(file) => Answer::Starts(desk.decode_manifest(&read(file)?, options)),
        Command::Tail(manifest, tail) => Answer::Starts(desk.decode_tail(&read(manifest)?, &read(tail)?, options)),
        Command::Units(file) => Answer::Units(desk.units(&read(file)?, options)),
        Command::Compare(snapshot, target) => {
            Answer::Verdict(desk.compare_manifests(&read(snapshot)?, options, &read(target)?, options))
        }
    })
}

/// A file's bytes, but no more than it takes for question 1 to refuse them.
fn read(path: &Path) -> Result<Vec<u8>, String> {
    const LIMIT: u64 = MOST_BYTES as u64 + 1;
    let content = || -> io::Result<Vec<u8>> {
        let file = File::open(path)?;
        let mut bytes = Vec::with_capacity(file.metadata()?.len().min(LIMIT) as usize);
        file.take(LIMIT).read_to_end(&mut bytes)?;
        Ok(bytes)
    };
    content().map_err(|e| format!("cannot read {}: {e}", path.display()))
}

/// Prints a line. A reader that has gone away wants no more of it; the exit status still tells the answer.
fn print(line: &str) -> Result<(), String> {
    let mut out = io::stdout();
    match writeln!(out, "{line}").and_then(|()| out.flush()) {
        Err(e) if e.kind() != ErrorKind::BrokenPipe => Err(format!("cannot write to standard output: {e}")),
        _ => Ok(()),
    }
}
