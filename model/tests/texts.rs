//! UTF-8 in reader and writer: the request's bounds, one by one, and 28 in its place.

mod common;

use common::*;
use model::case::Case;
use model::gen::fixed::{table_r, table_s};
use model::gen::texts::{broken, cases, chosen, message, table_bytes, RIGHT, WRONG};
use model::gen::Cases;
use model::store::{decode, Store};

/// One text through reader and writer, with pieces and inline.
fn answers(text: &[u8]) -> [model::Answer; 4] {
    let rows = [[10, 1, 0], [6, 0, text.len() as u64]];
    [
        answer(&table_s(), &message(&[text], 0)),
        answer(&table_s(), &message(&[text], 1)),
        message_of(&table_s(), 0, &rows, text).0,
        message_of(&table_s(), 1, &rows, text).0,
    ]
}

fn taken(text: &[u8]) -> bool {
    let answers = answers(text);
    let refused = [no(28), no(28), no_at(28, 1), no_at(28, 1)];
    if answers == refused {
        return false;
    }
    let size = text.len();
    let good = [ok(2), ok(2), ok(size + 5), ok(size + 3)];
    assert_eq!(answers, good, "{text:x?}");
    true
}

#[test]
fn both_sides_of_each_bound() {
    for (below, above) in [
        (&b"\xc1\xbf"[..], &b"\xc2\x80"[..]),
        (b"\xe0\x9f\xbf", b"\xe0\xa0\x80"),
        (b"\xf0\x8f\xbf\xbf", b"\xf0\x90\x80\x80"),
    ] {
        assert!(!taken(below) && taken(above), "{below:x?} {above:x?}");
    }
    for (below, above) in [
        (&b"\xed\x9f\xbf"[..], &b"\xed\xa0\x80"[..]),
        (b"\xf4\x8f\xbf\xbf", b"\xf4\x90\x80\x80"),
        (b"\xf4\x8f\xbf\xbf", b"\xf5\x80\x80\x80"),
        (b"\x7f", b"\x80"),
        (b"\xdf\xbf", b"\xe0\x80"),
    ] {
        assert!(taken(below) && !taken(above), "{below:x?} {above:x?}");
    }
    for text in [&b"\xee\x80\x80"[..], b"\xef\xbf\xbf", b"\xe1\x80\x80"] {
        assert!(taken(text), "{text:x?}");
    }
    for text in [&b"\xc0\x80"[..], b"\xc0\xaf", b"\xed\xbf\xbf"] {
        assert!(!taken(text), "{text:x?}");
    }
}

#[test]
fn the_lists_are_what_they_say() {
    for text in RIGHT.concat() {
        assert!(std::str::from_utf8(text).is_ok());
        assert!(taken(text));
    }
    let broken = broken();
    for text in WRONG.into_iter().chain(broken.iter().map(|text| &text[..])) {
        assert!(std::str::from_utf8(text).is_err());
        assert!(!taken(text));
        // BYTES may hold anything.
        let size = text.len();
        assert_eq!(answer(&table_bytes(), &message(&[text], 0)), ok(2));
        let rows = [[10, 1, 0], [7, 0, size as u64]];
        assert_eq!(message_of(&table_bytes(), 0, &rows, text).0, ok(size + 5));
    }
}

#[test]
fn only_the_bytes_of_the_text_count() {
    for right in RIGHT[1..].concat() {
        let size = right.len() as u64;
        for at in 1..right.len() {
            let (front, back) = right.split_at(at);
            for modes in [0, 1] {
                assert_eq!(answer(&table_s(), &message(&[front, back], modes)), no(28));
                assert_eq!(answer(&table_s(), &message(&[b"ok", front], modes)), no(28));
            }
            let rows = [[10, 1, 0], [6, 0, at as u64]];
            assert_eq!(message_of(&table_s(), 0, &rows, right).0, no_at(28, 1));
        }
        let pool = [b"\xe1", right, b"\x80"].concat();
        let written = |rows: &[[u64; 3]]| message_of(&table_s(), 0, rows, &pool).0;
        assert!(written(&[[10, 1, 0], [6, 1, size]]).is_success());
        assert_eq!(written(&[[10, 1, 0], [6, 0, size + 1]]), no_at(28, 1));
        assert_eq!(written(&[[10, 1, 0], [6, 1, size + 1]]), no_at(28, 1));
        let two = [[10, 2, 0], [6, 1, size], [6, 2, size - 1]];
        assert_eq!(written(&two), no_at(28, 2));
    }
    // The core's label, 80 01, does not finish the text before it.
    let mut texts = vec![&b""[..]; 63];
    texts[0] = b"\xc3";
    let message = message(&texts, 0);
    assert_eq!(message[2..5], [0xc3, 0x80, 0x01]);
    assert_eq!(answer(&table_s(), &message), no(28));
}

#[test]
fn the_place_of_28() {
    let s = table_s();
    // After 27, before what comes later and before 30.
    assert_eq!(answer(&s, b"\x00\x04\xc0\xaf\x04\x02\x06"), no(27));
    assert_eq!(answer(&s, b"\x00\x04\xc0\xaf\x04\x04\x04"), no(28));
    assert_eq!(answer(&s, b"\x00\x06\xc0\xafx\x04\x02\x04"), no(28));
    // Before 31 and 32.
    assert_eq!(read_lent(&s, b"\x00\x04\xc0\xaf\x04\x02\x04", 4).0, no(28));
    assert_eq!(read_lent(&s, b"\x00\x04\xc2\xaf\x04\x02\x04", 4).0, no(31));
    for (last, wanted) in [(b"\xed\x9f\xbf", no(32)), (b"\xed\xa0\x80", no(28))] {
        let mut texts = vec![&b""[..]; 4_096];
        texts.push(last);
        for modes in [0, 1] {
            let message = message(&texts, modes);
            assert_eq!(read_lent(&s, &message, 4 * 4_097).0, wanted);
        }
    }
    // Under NULLABLE, and the writer's row.
    assert_eq!(
        answer(&table_r(), b"\x00\x04\xc1\xbf\x02\x01\x02\x04"),
        no(28)
    );
    let rows = [[9, 2, 0], [6, 0, 2], [4, 1, 1]];
    assert_eq!(
        message_of(&table_r(), 0, &rows, b"\xc1\xbf").0,
        no_at(28, 1)
    );
    assert_eq!(
        message_of(&table_r(), 0, &rows, b"\xc2\xbf").0,
        no_at(42, 2)
    );
    let outside = [[9, 2, 0], [6, 1, 2], [4, 1, 0]];
    assert_eq!(
        message_of(&table_r(), 0, &outside, b"\xc1\xbf").0,
        no_at(42, 1)
    );
    // 28 before 43.
    let rows = [[10, 2, 0], [6, 2, 0], [6, 0, 2]];
    assert_eq!(write_lent(&s, 0, &rows, b"\xc0\x80", 0).0, no_at(28, 2));
    assert_eq!(write_lent(&s, 0, &rows, b"\xc2\x80", 0).0, no(43));
}

#[test]
fn fixed_cases_have_both_answers() {
    for kind in ['R', 'W'] {
        let numbers: Vec<u64> = cases(kind)
            .iter()
            .filter_map(|case| Some(case.answer().answer()?.number))
            .collect();
        for number in [0, 28] {
            let count = numbers.iter().filter(|&&n| n == number).count();
            assert!(5 * count > numbers.len(), "{kind}: {count} times {number}");
        }
    }
    assert!(cases('T').is_empty());
}

#[test]
fn all_chosen_cases_are_stored() {
    let stored = Store::new(1, "RW", 9, Vec::new());
    assert_eq!(stored.left_out, 0);
    let stored = decode(&stored.file).unwrap();
    for case in chosen() {
        assert!(stored.contains(&case), "{case}");
    }
}

#[test]
fn generated_texts_are_often_near_a_bound() {
    let mut cases = Cases::new(3, "RW");
    let mut refused = [0; 2];
    let mut others = [0; 2];
    for _ in 0..25_000 {
        let case = cases.next_case();
        let kind = usize::from(matches!(case, Case::Write { .. }));
        match case.answer().answer() {
            Some(answer) if answer.number == 28 => refused[kind] += 1,
            Some(answer) if answer.is_success() => others[kind] += 1,
            _ => {}
        }
    }
    for (refused, others) in refused.into_iter().zip(others) {
        assert!(refused > 500 && others > 2_000, "{refused} {others}");
    }
}
