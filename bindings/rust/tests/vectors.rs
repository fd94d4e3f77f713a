//! Replays the stored vectors of the repository: a line of crates/replay/stdin that begins with a digit is a call, the
//! same line of stdout its answer; crates/replay/src/manifests.rt says what the words of a line mean. Each call is made
//! with indexes as long as the line says, and by a desk, whose answer is that with indexes just long enough.
use std::path::Path;

use lurmashek::{index_words, lent, Desk, Options, Refusal, Side, SideRefusal, Starts, Units, Verdict};

/// What stands in each word of an index before a call.
const FILL: u32 = 0xa5a5_a5a5;

fn stored(name: &str) -> String {
    let folder = Path::new(env!("CARGO_MANIFEST_DIR")).join("../../crates/replay");
    std::fs::read_to_string(folder.join(name)).expect("stored vectors")
}

/// Whether a line is a call: one that begins with a letter is none.
fn is_call(line: &str) -> bool {
    !line.starts_with(|c: char| c.is_ascii_alphabetic())
}

/// Replays the calls of so many words, and says how many there are. `answer` makes a call and gives the line that is
/// to be stored for it.
fn replay(words: usize, mut answer: impl FnMut(&[&str]) -> String) -> usize {
    let (calls, answers) = (stored("stdin"), stored("stdout"));
    assert_eq!(calls.lines().count(), answers.lines().count());
    let mut replayed = 0;
    for (call, stored) in calls.lines().zip(answers.lines()).filter(|(call, _)| is_call(call)) {
        let call: Vec<&str> = call.split(' ').collect();
        if call.len() == words {
            assert_eq!(answer(&call), stored, "{call:?}");
            replayed += 1;
        }
    }
    replayed
}

/// Two digits a byte, and `-` for none.
fn bytes(hex: &str) -> Vec<u8> {
    let digits = if hex == "-" { "" } else { hex };
    let byte = |i| u8::from_str_radix(&digits[i..i + 2], 16).expect("two hexadecimal digits");
    (0..digits.len()).step_by(2).map(byte).collect()
}

/// A manifest, and the words of the index that is lent with it.
struct Manifest {
    bytes: Vec<u8>,
    options: Options,
    words: usize,
}

impl Manifest {
    /// From the words BASE REVISION WORDS HEX.
    fn new(line: &[&str]) -> Self {
        let number = |i: usize| line[i].parse::<u64>().expect("a number");
        let options = Options { base: number(0), revision: number(1) as u32 };
        Manifest { bytes: bytes(line[3]), options, words: number(2) as usize }
    }

    /// The words of an index just long enough.
    fn enough(&self) -> usize {
        index_words(self.bytes.len())
    }

    fn decode(&self, words: usize) -> Result<Starts, Refusal> {
        let mut index = vec![FILL; words];
        let answer = lent::decode_manifest(&self.bytes, self.options, &mut index);
        assert_left(&index, answer);
        answer
    }

    fn decode_tail(&self, tail: &[u8], words: usize) -> Result<Starts, Refusal> {
        let mut index = vec![FILL; words];
        let answer = lent::decode_tail(&self.bytes, tail, self.options, &mut index);
        assert_left(&index, answer);
        answer
    }

    fn units(&self, words: usize) -> Result<Units, Refusal> {
        let mut index = vec![FILL; words];
        let answer = lent::units(&self.bytes, self.options, &mut index);
        assert_left(&index, answer.and(self.decode(words)));
        answer
    }
}

/// Asserts that the index is what an answer leaves.
fn assert_left(index: &[u32], answer: Result<Starts, Refusal>) {
    match answer {
        Ok(starts) => assert_eq!(starts_in(index), starts),
        Err(Refusal { question: 2, .. }) => assert_all(index, FILL),
        Err(_) => assert_all(index, 0),
    }
}

fn assert_all(words: &[u32], word: u32) {
    assert!(words.iter().all(|w| *w == word));
}

/// The starts in an index after acceptance.
fn starts_in(index: &[u32]) -> Starts {
    let (starts, others) = index.split_at(12);
    assert_all(others, 0);
    Starts(starts.try_into().expect("twelve words"))
}

/// A comparison, and its line: the verdict, then the starts of each side that is accepted.
fn compare(s: &Manifest, s_words: usize, t: &Manifest, t_words: usize) -> (Result<Verdict, SideRefusal>, String) {
    let (mut i, mut j) = (vec![FILL; s_words], vec![FILL; t_words]);
    let answer = lent::compare_manifests(&s.bytes, s.options, &mut i, &t.bytes, t.options, &mut j);
    let line = match answer {
        Ok(verdict) => format!("{} starts {} starts {}", verdict_line(verdict), starts_in(&i), starts_in(&j)),
        Err(SideRefusal { side: Side::Snapshot, refusal }) => {
            assert_left(&i, Err(refusal));
            assert_all(&j, FILL);
            refused_line("snapshot", refusal)
        }
        Err(SideRefusal { side: Side::Target, refusal }) => {
            assert_left(&j, Err(refusal));
            format!("{} starts {}", refused_line("target", refusal), starts_in(&i))
        }
    };
    (answer, line)
}

fn verdict_line(verdict: Verdict) -> String {
    match verdict {
        Verdict::Compatible => "compatible".to_string(),
        Verdict::Differs { section, part, entry, inner } => {
            format!("differs {} {} {entry} {inner}", section.number(), part.number())
        }
    }
}

fn refused_line(what: &str, refusal: Refusal) -> String {
    format!("{what} {} {}", refusal.question, refusal.offset)
}

fn decoded_line(answer: Result<Starts, Refusal>) -> String {
    answer.map_or_else(|refusal| refused_line("refused", refusal), |starts| format!("accepted {starts}"))
}

/// Units are refused as the manifest is: none of these has too many.
#[test]
fn manifests_and_units() {
    let mut desk = Desk::new();
    let replayed = replay(4, |line| {
        let m = Manifest::new(line);
        assert_eq!(desk.decode_manifest(&m.bytes, m.options), m.decode(m.enough()));
        assert_eq!(desk.units(&m.bytes, m.options), m.units(m.enough()));
        let answer = m.decode(m.words);
        assert_eq!(m.units(m.words).err(), answer.err());
        decoded_line(answer)
    });
    assert_eq!(replayed, 4077);
}

#[test]
fn tails() {
    let mut desk = Desk::new();
    let replayed = replay(5, |line| {
        let (m, tail) = (Manifest::new(line), bytes(line[4]));
        assert_eq!(desk.decode_tail(&m.bytes, &tail, m.options), m.decode_tail(&tail, m.enough()));
        decoded_line(m.decode_tail(&tail, m.words))
    });
    assert_eq!(replayed, 897);
}

#[test]
fn pairs() {
    let mut desk = Desk::new();
    let replayed = replay(8, |line| {
        let (s, t) = (Manifest::new(line), Manifest::new(&line[4..]));
        let (enough, _) = compare(&s, s.enough(), &t, t.enough());
        assert_eq!(desk.compare_manifests(&s.bytes, s.options, &t.bytes, t.options), enough);
        compare(&s, s.words, &t, t.words).1
    });
    assert_eq!(replayed, 681);
}

/// No call is of another kind than the three above.
#[test]
fn all_calls() {
    assert_eq!(stored("stdin").lines().filter(|line| is_call(line)).count(), 4077 + 897 + 681);
}
