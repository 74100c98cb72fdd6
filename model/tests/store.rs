//! Stored cases: what they reach, and that they are read as they were written.

use std::collections::BTreeSet;

use model::case::Case;
use model::sample;
use model::store::{decode, Store};

#[test]
fn stored_cases_are_read_again() {
    let given = Case::parse("T 16384 41575401000100ffffffff").unwrap();
    let stored = Store::new(3, "TRWLP", 9, vec![given.clone()]);
    let cases = decode(&stored.file).unwrap();
    assert_eq!(cases.len(), stored.count());
    assert!(cases.contains(&given));
    assert_eq!(Store::new(3, "TRWLP", 9, vec![given]).file, stored.file);
    // One kind alone.
    let looks = decode(&Store::new(3, "L", 1, Vec::new()).file).unwrap();
    assert!(looks.iter().all(|case| case.kind() == 'L'));
}

#[test]
fn stored_cases_reach_every_refusal() {
    let stored = Store::new(1, "TRWLP", 9, Vec::new());
    let reached: BTreeSet<(char, u64)> = decode(&stored.file)
        .unwrap()
        .iter()
        .filter_map(|case| Some((case.kind(), case.answer().answer()?.number)))
        .collect();
    let check = [0, 1, 10, 11, 12, 13, 14, 15];
    let expected = check
        .iter()
        .flat_map(|&number| ['T', 'R', 'W'].map(|kind| (kind, number)))
        .chain((20..=32).chain([35]).map(|number| ('R', number)))
        .chain([28, 32, 40, 41, 42, 43].map(|number| ('W', number)))
        .chain([0, 50, 51].map(|number| ('L', number)));
    let missing: Vec<_> = expected.filter(|pair| !reached.contains(pair)).collect();
    assert!(missing.is_empty(), "{missing:?}");
}

#[test]
fn a_changed_answer_is_seen() {
    let stored = Store::new(1, "T", 1, Vec::new());
    let count = stored.count();
    for at in [1, stored.file.len() / 2, stored.file.len() - 1] {
        let mut file = stored.file.clone();
        file[at] ^= 1;
        // Either it cannot be read, or a case is another one.
        let same = decode(&file).is_ok_and(|cases| cases == decode(&stored.file).unwrap());
        assert!(!same, "byte {at} of {count} cases");
    }
}

#[test]
fn the_sample_has_every_wrapping() {
    let (table, message) = (sample::table(), sample::message());
    let case = Case::Read {
        work: model::WORK_WORDS,
        rows: 4 * 8_192,
        table,
        message,
    };
    let reply = case.answer().to_string();
    assert!(reply.starts_with("0 25 10,4,0,0,9,5,0,1,6,"), "{reply}");
    // An absent number, a null note and an empty one.
    for row in [",1,0,0,9,", ",0,0,0,6,", ",0,6,4,"] {
        assert!(reply.contains(row), "{row} in {reply}");
    }
}
