//! Judges large manifests, questions 1 to 32, and some with their tails, 33 to 38, compares pairs of them, and prints how
//! fast: decoding [ORACLE FOLDER]
//! With the oracle built from the published Rust, its decode_manifest, decode_snapshot and compare_manifests are timed on
//! the same bytes in the same run, by way of files in FOLDER. A figure is the best of as many rounds on one thread on
//! either side; bytes and indexes are in memory, and were written before.
use std::process::Command;
use std::time::Instant;

use lurmashek::{index_words, lent, Options, Part, Refusal, Section, Verdict, MOST_BYTES};

mod plants;
use plants::{class, plant, plant_and_tail, Order, Shape};

const PLAIN: Options = Options { base: 0, revision: 2 };

/// An index for so many bytes, written before it is lent.
fn index_for(bytes: &[u8]) -> Vec<u32> {
    vec![7; index_words(bytes.len())]
}

/// What the oracle prints of a manifest, and of its tail where there is one.
fn rust_bench(oracle: &[String], rounds: usize, bytes: &[u8], tail: Option<&[u8]>) -> Option<String> {
    let [program, folder] = oracle else { return None };
    let (file, behind) = (format!("{folder}/manifest"), format!("{folder}/tail"));
    std::fs::write(&file, bytes).expect("write the manifest");
    std::fs::write(&behind, tail.unwrap_or(b"")).expect("write the tail");
    let second = if tail.is_some() { &behind } else { "-" };
    let run = Command::new(program).args(["bench", &file, second, &rounds.to_string()]).output();
    Some(String::from_utf8_lossy(&run.expect("run the oracle").stdout).to_string())
}

/// What that says of one function: seconds of the best round, and its answer.
fn rust_line(out: &str, function: &str) -> (f64, String) {
    let line = out.lines().find(|l| l.starts_with(function)).unwrap_or("");
    let ms = line.split("wall ").nth(1).and_then(|l| l.split(' ').next()).and_then(|n| n.parse::<f64>().ok());
    let answer = line.split(": ").nth(2).unwrap_or("?").split(" | ").next().unwrap_or("?");
    (ms.unwrap_or(0.0) / 1e3, answer.to_string())
}

/// The best of some rounds, in seconds.
fn best(rounds: usize, mut call: impl FnMut()) -> f64 {
    (0..rounds).fold(f64::MAX, |best, _| {
        let start = Instant::now();
        call();
        best.min(start.elapsed().as_secs_f64())
    })
}

/// A manifest judged; `each` also tells the time for a byte.
fn row(name: &str, rounds: usize, bytes: &[u8], each: bool, oracle: &[String]) {
    let mut index = index_for(bytes);
    let time = best(rounds, || assert!(lent::decode_manifest(bytes, PLAIN, &mut index).is_ok()));
    let n = bytes.len() as f64;
    let speed = if each { format!("{:.2}", time * 1e9 / n) } else { format!("{:.0}", n / time / 1e6) };
    print!("| {name} | {:.1} | {:.2} | {speed} |", n / 1e6, time * 1e3);
    if let Some(out) = rust_bench(oracle, rounds, bytes, None) {
        match rust_line(&out, "decode_manifest") {
            (rust, answer) if answer.starts_with("accepted") => print!(" {:.1} | {:.1} |", rust * 1e3, rust / time),
            _ => print!(" refused for its budget | |"),
        }
    }
    println!();
}

/// Two plants read and compared: equal ones, and ones that differ in the last parameter of the last block that has any.
/// The Rust's time is twice its reading and the comparison of equal manifests, which goes through every field.
fn verdict_row(size: usize, rounds: usize, oracle: &[String]) {
    let bytes = plant(size << 20, Shape::default());
    let mut other = bytes.clone();
    let last = bytes.windows(10).rposition(|w| w == b"Types.Mode").expect("a parameter") + 10;
    other[last] = 3 - other[last];
    let (mut i, mut j) = (index_for(&bytes), index_for(&bytes));
    let mut call = |t: &[u8]| lent::compare_manifests(&bytes, PLAIN, &mut i, t, PLAIN, &mut j);
    let same = best(rounds, || assert_eq!(call(&bytes), Ok(Verdict::Compatible)));
    let value = |v| matches!(v, Ok(Verdict::Differs { section: Section::Blocks, part: Part::ParameterValue, .. }));
    let differs = best(rounds, || assert!(value(call(&other))));
    print!("| two plants, {size} MiB each | {:.1} | {:.1} |", same * 1e3, differs * 1e3);
    if let Some(out) = rust_bench(oracle, rounds, &bytes, None) {
        let of = |function| rust_line(&out, function).0;
        let rust = 2.0 * of("decode_manifest") + of("compare_manifests");
        print!(" {:.1} | {:.1} | {:.1} |", rust * 1e3, rust / same, rust / differs);
    }
    println!();
}

/// A plant with its tail. The Rust's decode_snapshot also hashes the whole file and the manifest in it; the time of these
/// two is taken off.
fn tail_row(size: usize, rounds: usize, oracle: &[String]) {
    let (bytes, tail) = plant_and_tail(size << 20);
    let mut index = index_for(&bytes);
    let time = best(rounds, || assert!(lent::decode_tail(&bytes, &tail, PLAIN, &mut index).is_ok()));
    let mb = |n: usize| n as f64 / 1e6;
    print!("| plant, {size} MiB, and its tail | {:.1} | {:.1} | {:.1} |", mb(bytes.len()), mb(tail.len()), time * 1e3);
    if let Some(out) = rust_bench(oracle, rounds, &bytes, Some(&tail)) {
        let (all, _) = rust_line(&out, "decode_snapshot");
        let hashed = 1.0 + bytes.len() as f64 / (bytes.len() + tail.len()) as f64;
        let rust = all - hashed * rust_line(&out, "fnv-128 alone").0;
        print!(" {:.1} | {:.1} |", rust * 1e3, rust / time);
    }
    println!();
}

/// Questions 1 and 2, for which the stored vectors have no bytes: after 1 the index is 0, after 2 as it was.
fn too_much_or_too_little() {
    let refused = |question, offset| Err(Refusal { question, offset });
    for (n, words, question, left) in
        [(MOST_BYTES + 1, index_words(MOST_BYTES + 1), 1, 0), (MOST_BYTES, index_words(MOST_BYTES) - 1, 2, 9)]
    {
        let mut index = vec![9; words];
        assert_eq!(lent::decode_manifest(&vec![0; n], PLAIN, &mut index), refused(question, 0));
        assert!(index.iter().all(|w| *w == left));
    }
    let (zeros, mut index) = (vec![0; MOST_BYTES], vec![9; index_words(MOST_BYTES)]);
    assert_eq!(lent::decode_manifest(&zeros, PLAIN, &mut index), refused(10, 45));
    // of a manifest and its tail both lengths count, and the index is the manifest's
    let mut index = vec![9; index_words(45)];
    assert_eq!(lent::decode_tail(&zeros[..45], &zeros[45..], PLAIN, &mut index), refused(10, 61));
    index.fill(9);
    assert_eq!(lent::decode_tail(&zeros[..45], &zeros[44..], PLAIN, &mut index), refused(1, 0));
    assert!(index.iter().all(|w| *w == 0));
}

/// The head of a table: the columns, and those that the oracle adds.
fn head(columns: &str, rust: &str, oracle: &[String]) {
    let columns = if oracle.is_empty() { columns.to_string() } else { format!("{columns}{rust}") };
    println!("\n{columns}\n|{}", "---|".repeat(columns.matches('|').count() - 1));
}

fn main() {
    let oracle: Vec<String> = std::env::args().skip(1).collect();
    too_much_or_too_little();
    let (plain, ratio) = (Shape::default(), " Rust, ms | ratio |");
    head("| decode_manifest, questions 1 to 32 | MB | ms | MB/s |", ratio, &oracle);
    for (name, size, shape, rounds) in [
        ("plant", 1, plain, 100),
        ("plant", 16, plain, 20),
        ("schedule and order shuffled", 16, Shape { shuffled: true, ..plain }, 20),
        ("names of 140 bytes", 36, Shape { after: 115, ..plain }, 10),
        ("names of 1,000 bytes that differ early", 60, Shape { after: 975, ..plain }, 10),
        ("names of 1,000 bytes that differ late", 60, Shape { before: 975, ..plain }, 10),
    ] {
        row(&format!("{name}, {size} MiB"), rounds, &plant(size << 20, shape), false, &oracle);
    }
    row("a class of 2,000,000 members, sorted", 5, &class(2_000_000, Order::Sorted, ""), false, &oracle);
    row("the same, shuffled", 5, &class(2_000_000, Order::Shuffled, ""), false, &oracle);
    for (name, order) in [
        ("sorted", Order::Sorted),
        ("falling", Order::Falling),
        ("two sorted runs", Order::TwoRuns),
        ("shuffled", Order::Shuffled),
    ] {
        let bytes = class(400_000, order, "the ends");
        row(&format!("400,000 members with the same ends, {name}"), 10, &bytes, false, &oracle);
    }
    head("| decode_tail, questions 1 to 38 | manifest, MB | tail, MB | ms |", ratio, &oracle);
    for (size, rounds) in [(1, 100), (16, 20)] {
        tail_row(size, rounds, &oracle);
    }
    let ratios = " Rust, equal, ms | ratio | ratio |";
    head("| compare_manifests, both read and compared | compatible, ms | differing in section 3, ms |", ratios, &oracle);
    for (size, rounds) in [(1, 50), (16, 10)] {
        verdict_row(size, rounds, &oracle);
    }
    head("| as a plant grows | MB | ms | ns a byte |", ratio, &oracle);
    for (name, shape) in [("plant", plain), ("shuffled", Shape { shuffled: true, ..plain })] {
        for size in [1, 2, 4, 8, 16, 32, 64] {
            row(&format!("{name}, {size} MiB"), 10, &plant(size << 20, shape), true, &oracle);
        }
    }
}
