//! What the stored vectors do not have: the longest inputs, the units, an index that is used again, and the words.
use std::collections::HashSet;

use lurmashek::{lent, Desk, Options, Part, Refusal, Section, Side, SideRefusal, Starts, Units, Verdict, MOST_BYTES};

// The generator of the benchmarks. Formatting and linting leave it alone, since it is no part of this crate.
#[rustfmt::skip]
#[allow(clippy::all)]
#[path = "../../../tools/bench/plants.rs"]
mod plants;
mod sample;
use plants::{class, plant, plant_and_tail, Shape};
use sample::{heating, heating_with_state, EMPTY};

const PLAIN: Options = Options { base: 0, revision: 2 };

fn refused<T>(question: u32, offset: u64) -> Result<T, Refusal> {
    Err(Refusal { question, offset })
}

#[test]
fn heating_is_accepted() {
    let mut desk = Desk::new();
    let starts = desk.decode_manifest(&heating(), Options::default());
    assert_eq!(starts, Ok(Starts([0, 1, 48, 371, 655, 714, 745, 846, 1043, 1097, 1128, 1156])));
    assert_eq!(starts.map(|starts| starts.at(Section::Slots)), Ok(1043));
    assert_eq!(desk.units(&heating(), PLAIN), Ok(Units { words: 12, units: 55 }));
}

#[test]
fn units_end_at_64_bits() {
    let (mut desk, words) = (Desk::new(), (1 << 62) - 2);
    assert_eq!(desk.units(&heating_with_state(words - 4), PLAIN), Ok(Units { words, units: u64::MAX }));
    let more = heating_with_state(words - 3);
    assert!(desk.decode_manifest(&more, PLAIN).is_ok());
    assert_eq!(desk.units(&more, Options { base: 7, ..PLAIN }), refused(39, 0));
}

#[test]
fn verdicts_name_section_and_part() {
    let mut desk = Desk::new();
    let mut verdict = |target: &[u8]| desk.compare_manifests(&heating(), PLAIN, target, PLAIN);
    assert_eq!(verdict(&heating()), Ok(Verdict::Compatible));
    let length = Verdict::Differs { section: Section::Blocks, part: Part::StateLength, entry: 0, inner: 0 };
    assert_eq!(verdict(&heating_with_state(9)), Ok(length));
    let classes = Verdict::Differs { section: Section::EnumClasses, part: Part::EntryCount, entry: 0, inner: 0 };
    assert_eq!(verdict(&EMPTY), Ok(classes));
    let refusal = Refusal { question: 3, offset: 41 };
    assert_eq!(verdict(&EMPTY[..44]), Err(SideRefusal { side: Side::Target, refusal }));
}

#[test]
fn no_bytes_are_missing_bytes() {
    let mut desk = Desk::new();
    assert_eq!(desk.decode_manifest(&[], PLAIN), refused(3, 0));
    assert_eq!(desk.units(&[], PLAIN), refused(3, 0));
    assert_eq!(desk.decode_tail(&[], &[], PLAIN), refused(3, 0));
    assert_eq!(desk.decode_tail(&EMPTY, &[], PLAIN), refused(3, 45));
    let refusal = Refusal { question: 3, offset: 0 };
    assert_eq!(desk.compare_manifests(&[], PLAIN, &[], PLAIN), Err(SideRefusal { side: Side::Snapshot, refusal }));
}

#[test]
fn offsets_count_from_the_base_and_stop() {
    let mut desk = Desk::new();
    for (base, offset) in [(1, 42), (u64::MAX - 41, u64::MAX), (u64::MAX - 40, u64::MAX), (u64::MAX, u64::MAX)] {
        assert_eq!(desk.decode_manifest(&EMPTY[..44], Options { base, ..PLAIN }), refused(3, offset));
    }
    let last = Options { base: u64::MAX, ..PLAIN };
    assert_eq!(desk.decode_manifest(&heating(), last), desk.decode_manifest(&heating(), PLAIN));
}

#[test]
fn too_many_bytes_are_question_1() {
    let (mut desk, bytes) = (Desk::new(), vec![0; MOST_BYTES + 1]);
    let based = Options { base: 5, ..PLAIN };
    assert_eq!(desk.decode_manifest(&bytes, based), refused(1, 0));
    assert_eq!(desk.units(&bytes, based), refused(1, 0));
    assert_eq!(desk.decode_tail(&EMPTY, &bytes[44..], based), refused(1, 0));
    for (side, snapshot, target) in [(Side::Snapshot, &bytes[..], &EMPTY[..]), (Side::Target, &EMPTY, &bytes)] {
        let refusal = Refusal { question: 1, offset: 0 };
        assert_eq!(desk.compare_manifests(snapshot, based, target, based), Err(SideRefusal { side, refusal }));
    }
    // one byte fewer is judged
    assert_eq!(desk.decode_tail(&EMPTY, &bytes[45 + 1..], based), refused(10, 5 + 45 + 16));
    assert_eq!(desk.decode_manifest(&bytes[1..], based), refused(10, 5 + 45));
}

#[test]
fn an_index_is_used_again() {
    let (large, (small, tail), names) =
        (plant(1 << 20, Shape::default()), plant_and_tail(1 << 18), class(20_000, true));
    let ask = |desk: &mut Desk, bytes: &[u8]| {
        let verdict = desk.compare_manifests(&small, PLAIN, bytes, PLAIN).expect("two manifests");
        let starts = desk.decode_manifest(bytes, PLAIN).expect("a manifest");
        let units = desk.units(bytes, PLAIN).expect("a manifest");
        (verdict, starts, units, desk.decode_tail(&small, &tail, PLAIN).expect("a manifest and its tail"))
    };
    let mut desk = Desk::new();
    for bytes in [&large, &heating(), &large, &names, &small, &EMPTY.to_vec(), &large] {
        assert_eq!(ask(&mut desk, bytes), ask(&mut Desk::new(), bytes));
    }
}

#[test]
fn a_short_index_is_question_2() {
    for words in [0, 1, 37] {
        let mut index = vec![9; words];
        assert_eq!(lent::decode_manifest(&EMPTY, Options { base: 5, ..PLAIN }, &mut index), refused(2, 0));
        assert_eq!(index, vec![9; words]);
    }
    assert!(lent::decode_manifest(&EMPTY, PLAIN, &mut [9; 38]).is_ok());
}

/// All are different and, as the program's JSON needs it, have nothing to escape.
fn assert_words<const N: usize>(words: [&str; N]) {
    assert_eq!(HashSet::from(words).len(), N);
    let plain = |c: char| c == ' ' || c.is_ascii_graphic() && c != '"' && c != '\\';
    assert!(words.iter().all(|text| !text.is_empty() && text.chars().all(plain)));
}

#[test]
fn questions_sections_and_parts_have_words() {
    let text = |question| Refusal { question, offset: 0 }.text();
    assert_words::<40>(std::array::from_fn(|question| text(question as u32)));
    assert_eq!([text(40), text(u32::MAX)], [text(0); 2]); // no questions
    assert_words(Section::ALL.map(Section::name));
    assert_words(Part::ALL.map(Part::name));
    assert_eq!(Section::ALL.map(Section::number), std::array::from_fn(|i| i as u32 + 1));
    assert_eq!(Part::ALL.map(Part::number), std::array::from_fn(|i| i as u32));
}
