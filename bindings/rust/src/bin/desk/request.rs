//! What the program is asked to do.
use std::ffi::OsString;
use std::path::PathBuf;
use std::str::FromStr;

use lurmashek::Options;

pub const USAGE: &str = "usage: desk [--json] [--base N] [--revision N] check FILE | tail MANIFEST TAIL
            | compare SNAPSHOT TARGET | units FILE        (desk --help says more)";

pub const HELP: &str = "desk judges execution manifests and prints one line.

  desk check FILE                 judge a manifest
  desk tail MANIFEST TAIL         judge a manifest and the tail that follows it in a snapshot
  desk compare SNAPSHOT TARGET    compare a snapshot's manifest with the target's
  desk units FILE                 count a manifest's state words and units

  --json          print the line as JSON
  --base N        the offset of a manifest's first byte (default 0)
  --revision N    the execution revision of a manifest (default 2)
  --              what follows are files, also where they begin with --
  --help, --version

A file above 67108864 bytes is refused by question 1. Base and revision are those of both sides of a comparison.

Keys of the JSON, always in this order:
  answer    \"accepted\", \"refused\", \"compatible\" or \"differs\"
  check, tail, accepted:    starts (the twelve sections' first bytes)
  units, accepted:          words, units
  compare, differs:         section, section_name, part, part_name, entry, inner
  refused:                  side (compare only: \"snapshot\" or \"target\"), question, offset, text
Names and text are strings, starts is an array, all others are whole numbers, of up to 64 bits.

Exit status: 0 accepted or compatible, 1 refused or differs, 2 bad usage or a file that cannot be read.";

/// A call, with its files.
pub enum Command {
    Check(PathBuf),
    Tail(PathBuf, PathBuf),
    Compare(PathBuf, PathBuf),
    Units(PathBuf),
}

pub enum Request {
    Help,
    Version,
    Judge { command: Command, options: Options, json: bool },
}

/// What the arguments after the program's name ask for, or what is wrong with them.
pub fn parse(mut args: impl Iterator<Item = OsString>) -> Result<Request, String> {
    let (mut options, mut json, mut words) = (Options::default(), false, Vec::new());
    while let Some(word) = args.next() {
        match word.to_str() {
            Some("--help") => return Ok(Request::Help),
            Some("--version") => return Ok(Request::Version),
            Some("--json") => json = true,
            Some("--base") => options.base = number("--base", args.next())?,
            Some("--revision") => options.revision = number("--revision", args.next())?,
            Some("--") => words.extend(args.by_ref()),
            Some(option) if option.starts_with("--") => return Err(format!("unknown option {option}")),
            _ => words.push(word),
        }
    }
    command(&words).map(|command| Request::Judge { command, options, json })
}

fn number<N: FromStr>(option: &str, word: Option<OsString>) -> Result<N, String> {
    let parsed = word.as_ref().and_then(|word| word.to_str()?.parse().ok());
    parsed.ok_or_else(|| match word {
        Some(word) => format!("{option} takes a number, not {}", word.display()),
        None => format!("{option} takes a number"),
    })
}

/// The command that the words other than options give.
fn command(words: &[OsString]) -> Result<Command, String> {
    let (name, files) = words.split_first().ok_or("no command")?;
    match (name.to_str(), files) {
        (Some("check"), [file]) => Ok(Command::Check(file.into())),
        (Some("tail"), [manifest, tail]) => Ok(Command::Tail(manifest.into(), tail.into())),
        (Some("compare"), [snapshot, target]) => Ok(Command::Compare(snapshot.into(), target.into())),
        (Some("units"), [file]) => Ok(Command::Units(file.into())),
        (Some("check" | "units"), _) => Err(format!("{} takes one file", name.display())),
        (Some("tail" | "compare"), _) => Err(format!("{} takes two files", name.display())),
        _ => Err(format!("unknown command {}", name.display())),
    }
}
