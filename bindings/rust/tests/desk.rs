//! Runs the program `desk` on files: its line, its exit status, and what it says of errors.
use std::fs;
use std::path::PathBuf;
use std::process::{Command, Output, Stdio};

mod sample;
use sample::{heating, heating_with_state, EMPTY};

/// A folder of its own for each test, with files to judge.
struct Folder(PathBuf);

impl Folder {
    fn new(test: &str) -> Self {
        let path = PathBuf::from(env!("CARGO_TARGET_TMPDIR")).join(test);
        fs::create_dir_all(&path).expect("a folder for files");
        let folder = Folder(path);
        folder.write("heating", &heating());
        folder.write("larger", &heating_with_state(9));
        folder.write("empty", &EMPTY);
        folder.write("cut", &EMPTY[..44]);
        folder.write("tail", &[0; 16]);
        folder
    }

    fn write(&self, name: &str, bytes: &[u8]) {
        fs::write(self.0.join(name), bytes).expect("write a file");
    }

    /// Runs the program in the folder, with the words of `args`.
    fn command(&self, args: &str) -> Command {
        let mut command = Command::new(env!("CARGO_BIN_EXE_desk"));
        command.current_dir(&self.0).args(args.split_whitespace());
        command
    }

    fn run(&self, args: &str) -> Output {
        self.command(args).output().expect("run desk")
    }

    /// Asserts an answer: one line, nothing on standard error, and the status.
    fn answers(&self, args: &str, line: &str, status: i32) {
        let out = self.run(args);
        assert_eq!(String::from_utf8_lossy(&out.stdout), format!("{line}\n"), "desk {args}");
        assert_eq!(String::from_utf8_lossy(&out.stderr), "", "desk {args}");
        assert_eq!(out.status.code(), Some(status), "desk {args}");
    }

    /// Asserts a failure: nothing on standard output, status 2, and a message that begins so.
    fn fails(&self, args: &str, message: &str) {
        let out = self.run(args);
        assert_eq!(String::from_utf8_lossy(&out.stdout), "", "desk {args}");
        let said = String::from_utf8_lossy(&out.stderr);
        assert!(said.starts_with(&format!("desk: {message}")), "desk {args}: {said}");
        assert_eq!(out.status.code(), Some(2), "desk {args}");
    }
}

#[test]
fn check() {
    let folder = Folder::new("check");
    folder.answers("check heating", "accepted; sections start at 0 1 48 371 655 714 745 846 1043 1097 1128 1156", 0);
    folder.answers("check cut", "refused by question 3 at byte 41: bytes missing", 1);
    folder.answers("check cut --base 100", "refused by question 3 at byte 141: bytes missing", 1);
    folder.answers("--json check empty", r#"{"answer":"accepted","starts":[0,1,5,9,13,17,21,25,29,33,37,41]}"#, 0);
    let json = r#"{"answer":"refused","question":3,"offset":18446744073709551615,"text":"bytes missing"}"#;
    folder.answers("check --json --base 18446744073709551615 cut", json, 1);
}

/// A manifest that names a target, though none of its blocks depends on one: question 31, which only revision 2 asks.
#[test]
fn revision() {
    let folder = Folder::new("revision");
    let target = [&[1][..], &[1, 0, 0, 0, b'a', 1, 0, 0, 0, b'o'], &[0; 44]].concat();
    folder.write("bound", &target);
    folder.answers("check --revision 1 bound", "accepted; sections start at 0 11 15 19 23 27 31 35 39 43 47 51", 0);
    let refused = "refused by question 31 at byte 55: the target's tag and the blocks' classes disagree";
    folder.answers("check bound", refused, 1);
}

#[test]
fn tail() {
    let folder = Folder::new("tail");
    folder.answers("tail empty tail", "accepted; sections start at 0 1 5 9 13 17 21 25 29 33 37 41", 0);
    folder.answers("tail heating tail", "refused by question 33 at byte 1220: not as many values as connectors", 1);
    let json = r#"{"answer":"refused","question":10,"offset":61,"text":"bytes left over"}"#;
    folder.answers("tail --json empty empty", json, 1);
}

#[test]
fn units() {
    let folder = Folder::new("units");
    folder.answers("units heating", "12 state words, 55 units", 0);
    folder.answers("units larger --json", r#"{"answer":"accepted","words":13,"units":59}"#, 0);
    folder.answers("units cut", "refused by question 3 at byte 41: bytes missing", 1);
    folder.write("largest", &heating_with_state(1 << 62));
    folder.answers("units largest", "refused by question 39 at byte 0: more than 2^64 - 1 units", 1);
}

#[test]
fn compare() {
    let folder = Folder::new("compare");
    folder.answers("compare heating heating", "compatible", 0);
    folder.answers("compare --json empty empty", r#"{"answer":"compatible"}"#, 0);
    let differs = "differs in section 3 (blocks), part 5 (state length), entry 0, inner place 0";
    folder.answers("compare heating larger", differs, 1);
    let json = concat!(
        r#"{"answer":"differs","section":2,"section_name":"enum classes","#,
        r#""part":13,"part_name":"number of entries","entry":0,"inner":0}"#
    );
    folder.answers("compare --json heating empty", json, 1);
    let target = "the target's manifest is refused by question 3 at byte 41: bytes missing";
    folder.answers("compare heating cut", target, 1);
    let json = r#"{"answer":"refused","side":"snapshot","question":3,"offset":41,"text":"bytes missing"}"#;
    folder.answers("compare cut cut --json", json, 1);
}

/// The file is a hole, so that its length takes no room on the disk; of the longest only a part is read.
#[test]
fn long_files() {
    let folder = Folder::new("long_files");
    let file = fs::File::create(folder.0.join("long")).expect("create a file");
    for (length, line) in [
        (67_108_864, "refused by question 10 at byte 45: bytes left over"),
        (67_108_865, "refused by question 1 at byte 0: more than 67108864 bytes"),
        (1 << 36, "refused by question 1 at byte 0: more than 67108864 bytes"),
    ] {
        file.set_len(length).expect("a longer file");
        folder.answers("check long", line, 1);
    }
    fs::remove_file(folder.0.join("long")).expect("remove the file");
}

#[test]
fn bad_usage_and_unreadable_files() {
    let folder = Folder::new("failures");
    for (args, message) in [
        ("", "no command\nusage: desk"),
        ("judge heating", "unknown command judge\nusage: desk"),
        ("check", "check takes one file"),
        ("units heating empty", "units takes one file"),
        ("compare heating", "compare takes two files"),
        ("tail empty tail heating", "tail takes two files"),
        ("check heating --quick", "unknown option --quick"),
        ("check heating --base", "--base takes a number"),
        ("check heating --base -1", "--base takes a number, not -1"),
        ("check heating --base 18446744073709551616", "--base takes a number, not 18446744073709551616"),
        ("check heating --revision 4294967296", "--revision takes a number, not 4294967296"),
        ("check missing", "cannot read missing: "),
        ("compare heating missing", "cannot read missing: "),
        ("check .", "cannot read .: "),
        ("check -- --json", "cannot read --json: "),
    ] {
        folder.fails(args, message);
    }
}

#[test]
fn help_and_version() {
    let folder = Folder::new("help");
    folder.answers("--version", concat!("desk ", env!("CARGO_PKG_VERSION")), 0);
    let out = folder.run("check --help");
    let help = String::from_utf8(out.stdout).expect("text");
    let words = ["check", "tail", "compare", "units", "--json", "--base", "--revision", "Exit status", "part_name"];
    assert!(words.iter().all(|word| help.contains(word)), "{help}");
    assert_eq!(out.status.code(), Some(0));
}

/// Where nobody reads its output the program still ends with the status of its answer.
#[test]
fn closed_output() {
    let folder = Folder::new("closed_output");
    for (args, status) in [("check heating", 0), ("check cut", 1), ("--help", 0)] {
        let (reader, writer) = std::io::pipe().expect("a pipe");
        drop(reader);
        let mut command = folder.command(args);
        let child = command.stdout(writer).stderr(Stdio::piped()).spawn().expect("run desk");
        let out = child.wait_with_output().expect("desk ends");
        assert_eq!((out.status.code(), &out.stderr[..]), (Some(status), &b""[..]), "desk {args}");
    }
}
