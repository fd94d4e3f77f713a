//! Text validation and byte-string comparison, the proved library against Rust's std, in one process on one thread.
//! A row is the best of many rounds on each side; the rounds of the two sides alternate. Buffers are in cache.
use std::cmp::Ordering;
use std::hint::black_box;
use std::time::Instant;

extern "C" {
    fn archive_valid_up_to(bytes: *const u8, n: usize) -> usize;
    fn archive_compare(a: *const u8, n: usize, b: *const u8, m: usize, agree: *mut u64) -> u32;
}

fn our_valid(b: &[u8]) -> usize {
    unsafe { archive_valid_up_to(b.as_ptr(), b.len()) }
}

fn std_valid(b: &[u8]) -> usize {
    match std::str::from_utf8(b) {
        Ok(_) => b.len(),
        Err(e) => e.valid_up_to(),
    }
}

/// An order, and how many bytes agree, in one number.
type Compare = fn(&[u8], &[u8]) -> usize;

fn our_compare(a: &[u8], b: &[u8]) -> usize {
    let mut agree = 0;
    let order = unsafe { archive_compare(a.as_ptr(), a.len(), b.as_ptr(), b.len(), &mut agree) };
    4 * agree as usize + order as usize
}

/// The same answer from std: the first bytes that differ decide, or the lengths.
fn std_compare(a: &[u8], b: &[u8]) -> usize {
    let agree = a.iter().zip(b).take_while(|(x, y)| x == y).count();
    4 * agree + number(a.get(agree).cmp(&b.get(agree)))
}

/// The order alone, which std has from memcmp.
fn std_order(a: &[u8], b: &[u8]) -> usize {
    number(a.cmp(b))
}

fn number(o: Ordering) -> usize {
    (o as i8 + 1) as usize
}

fn seconds(f: &mut dyn FnMut() -> usize) -> f64 {
    let start = Instant::now();
    black_box(f());
    start.elapsed().as_secs_f64()
}

/// The best time of each side on `bytes` bytes, as a row of the table: ours, and each other side with its ratio to ours.
fn row(name: &str, bytes: usize, sides: &mut [&mut dyn FnMut() -> usize]) {
    let mut best = vec![f64::MAX; sides.len()];
    for _ in 0..1500 {
        for (side, least) in sides.iter_mut().zip(&mut best) {
            *least = least.min(seconds(*side));
        }
    }
    let rate = |t: f64| bytes as f64 / t / 1e9;
    print!("| {name} | {:.2} |", rate(best[0]));
    for t in &best[1..] {
        print!(" {:.2} | {:.2} |", rate(*t), t / best[0]);
    }
    println!();
}

fn head(title: &str, others: &[&str]) {
    print!("\n| {title} | proved, GB/s |");
    others.iter().for_each(|o| print!(" {o}, GB/s | ratio |"));
    println!("\n|---|---|{}", "---|---|".repeat(others.len()));
}

/// Texts one by one: a row, after a test that both sides answer the same.
fn text_row(name: &str, texts: &[&[u8]]) {
    texts.iter().for_each(|t| assert_eq!(our_valid(t), std_valid(t)));
    let all = |f: fn(&[u8]) -> usize| texts.iter().map(|t| f(black_box(t))).sum();
    row(name, texts.iter().map(|t| t.len()).sum(), &mut [&mut || all(our_valid), &mut || all(std_valid)]);
}

/// Pairs of n bytes each, likewise.
fn order_row(name: &str, n: usize, a: &[u8], b: &[u8]) {
    let pairs = || a.chunks_exact(n).zip(b.chunks_exact(n));
    pairs().for_each(|(x, y)| assert_eq!(our_compare(x, y), std_compare(x, y)));
    pairs().for_each(|(x, y)| assert_eq!(our_compare(x, y) % 4, std_order(x, y)));
    let all = |f: Compare| pairs().map(|(x, y)| f(black_box(x), black_box(y))).sum();
    let sides: &mut [&mut dyn FnMut() -> usize] = &mut [&mut || all(our_compare), &mut || all(std_compare), &mut || all(std_order)];
    row(name, a.len() / n * n, sides);
}

fn repeated(text: &str, n: usize) -> Vec<u8> {
    text.bytes().cycle().take(n / text.len() * text.len()).collect()
}

fn main() {
    const LONG: usize = 256 << 10;
    let ascii = repeated("AHU_1.supplyFan.speedCommand/zone[3].damper; ", LONG);
    let texts = [
        ("ASCII", ascii.clone()),
        ("German", repeated("Zuluftgerät.Lüfter/Größe.Rückführung, Wärme über Kühlung; ", LONG)),
        ("ASCII, Greek, Chinese, emoji", repeated("Hello κόσμε, 世界 and 🌍 fin. Next: naïve café, 東京 42. ", LONG)),
        ("Greek", repeated("Ξεσκεπάζω τὴν ψυχοφθόρα βδελυγμία ", LONG)),
        ("Chinese", repeated("天地玄黄宇宙洪荒日月盈昃辰宿列张", LONG)),
        ("emoji", repeated("😀😃😄😁😆😅🤣😂", LONG)),
    ];
    head("valid text, 256 KiB", &["std"]);
    texts.iter().for_each(|(name, text)| text_row(name, &[text]));
    head("valid text, short strings", &["std"]);
    for (name, text) in &texts[..3] {
        for n in [8, 12, 16, 24, 32, 48, 64] {
            text_row(&format!("{name}, {n} bytes"), &pieces(text, n));
        }
    }
    let others = ["std, the same answer", "std, order alone"];
    head("order and number of agreeing bytes", &others);
    order_row("256 KiB, equal", ascii.len(), &ascii, &ascii.clone());
    for n in [8, 12, 16, 24, 32, 48, 64] {
        order_row(&format!("{n} bytes, equal"), n, &ascii, &ascii.clone());
        let mut last = ascii.clone();
        last.chunks_exact_mut(n).for_each(|c| c[n - 1] ^= 1);
        order_row(&format!("{n} bytes, the last differs"), n, &ascii, &last);
    }
}

/// The text in pieces of at most n bytes, cut between characters.
fn pieces(text: &[u8], n: usize) -> Vec<&[u8]> {
    let mut rest = std::str::from_utf8(text).unwrap();
    let mut out = Vec::new();
    while rest.len() >= n {
        let end = (0..=n).rev().find(|&i| rest.is_char_boundary(i)).unwrap();
        let (piece, more) = rest.split_at(end);
        out.push(piece.as_bytes());
        rest = more;
    }
    out
}
