//! Every example of the sheet, and every mistake that looks right.

mod common;

use common::*;
use model::gen::fixed::{table_e, table_omittable_record, table_r, table_s};
use model::small::{text_record, Search};
use model::{label, spell, table};

const PASSED: &[u8] = b"\x00\x18PASSEDKILLED\x08\x06\x0c\x0c\x07";
const PASSED_IN_FULL: &[u8] = b"\x00\x24PASSEDKILLEDPASSED\x08\x06\x0c\x0c\x0c";

#[test]
fn tables_have_the_bytes_of_the_sheet() {
    let s = b"AWT\x01\x00\x03\x00\x08\x00\x00\x00\x09\x02\x00\x00\x01\x00\x00\x00";
    assert_eq!(table::file(&table_s()), s);
    assert_eq!(check(&table_r()), ok(6));
    assert_eq!(check(&table_s()), ok(3));
    assert_eq!(check(&table_e()), ok(2));
}

#[test]
fn a_text_and_minus_one() {
    let message = b"\x00\x04ok\x02\x01\x02\x04";
    let rows = [[9, 2, 0], [6, 2, 2], [4, u64::MAX, 0]];
    assert_eq!(rows_of(&table_r(), message), (ok(3), rows.to_vec()));
    assert_eq!(
        message_of(&table_r(), 0, &rows, message),
        (ok(8), message.to_vec())
    );
}

#[test]
fn a_null_leaves_the_first_block_to_the_other_key() {
    let message = b"\x00\x02\x0a\x02\x01";
    let rows = [[9, 2, 0], [0, 0, 0], [4, 5, 0]];
    assert_eq!(rows_of(&table_r(), message), (ok(3), rows.to_vec()));
    assert_eq!(
        message_of(&table_r(), 0, &rows, b""),
        (ok(5), message.to_vec())
    );
}

#[test]
fn an_empty_text_has_a_number() {
    let message = b"\x00\x02A\x08\x06\x00\x02\x07";
    let rows = [[10, 3, 0], [6, 2, 0], [6, 2, 1], [6, 2, 0]];
    assert_eq!(rows_of(&table_s(), message), (ok(4), rows.to_vec()));
    // The place is the named literal's: after "A" an empty literal would start at 3.
    let literal = b"\x00\x02A\x08\x06\x00\x02\x00";
    assert_eq!(rows_of(&table_s(), literal).1[3], [6, 3, 0]);
}

#[test]
fn passed_killed_passed() {
    let (answer, rows) = rows_of(&table_s(), PASSED);
    assert_eq!(answer, ok(4));
    assert_eq!(rows, [[10, 3, 0], [6, 2, 6], [6, 8, 6], [6, 2, 6]]);
    assert_eq!(PASSED.len(), 19);
    let (answer, in_full) = rows_of(&table_s(), PASSED_IN_FULL);
    assert_eq!(answer, ok(4));
    assert_eq!(in_full[3], [6, 14, 6]);
    assert_eq!(PASSED_IN_FULL.len(), 25);
    // Both are written as the short one, wherever the equal text stands.
    for (rows, pool) in [(&rows, PASSED), (&in_full, PASSED_IN_FULL)] {
        let written = message_of(&table_s(), 0, rows, pool);
        assert_eq!(written, (ok(19), PASSED.to_vec()));
    }
    let written = message_of(&table_s(), 1 << 5, &rows, PASSED);
    assert_eq!(written.0, ok(25));
    assert_eq!(written.1[1..], PASSED_IN_FULL[1..]);
}

#[test]
fn two_refused_cores() {
    assert_eq!(answer(&table_s(), b"\x00\x04\x02\x07"), no(26));
    assert_eq!(answer(&table_s(), b"\x00\x04\x02\x05"), no(24));
}

#[test]
fn empty_records_up_to_the_last_row() {
    let (answer, rows) = rows_of(&table_e(), b"\x00\x04\xfe\x7f");
    assert_eq!(answer, ok(8_192));
    assert_eq!(rows[0], [10, 8_191, 0]);
    assert!(rows[1..].iter().all(|row| *row == [9, 0, 0]));
    let written = message_of(&table_e(), 0, &rows, b"");
    assert_eq!(written, (ok(4), b"\x00\x04\xfe\x7f".to_vec()));
    let (answer, rows) = rows_of(&table_e(), b"\x00\x06\x80\x80\x01");
    assert_eq!((answer, rows.len()), (no(31), 0));
}

#[test]
fn labels_that_are_none() {
    assert_eq!(answer(&table_s(), b"\x00\x04\x80\x00"), no(23));
    let lowest = b"\x00\x14\xff\xff\xff\xff\xff\xff\xff\xff\xff\x01\x02\x01";
    assert_eq!(rows_of(&table_r(), lowest).1[2], [4, 1 << 63, 0]);
    let over = b"\x00\x14\xff\xff\xff\xff\xff\xff\xff\xff\xff\x02\x02\x01";
    assert_eq!(answer(&table_r(), over), no(23));
}

#[test]
fn the_61st_number_is_the_last_of_one_byte() {
    for (number, bytes) in [(61, &b"\x7f"[..]), (62, b"\x81\x01")] {
        // `number` different texts, then the last of them again.
        let pool: Vec<u8> = (0..number as u8).flat_map(|i| [b'a', i]).collect();
        let mut rows = vec![[10, number + 1, 0]];
        rows.extend((0..number).map(|i| [6, 2 * i, 2]));
        rows.push([6, 2 * (number - 1), 2]);
        let (answer, message) = message_of(&table_s(), 0, &rows, &pool);
        assert!(answer.is_success());
        assert!(message.ends_with(bytes));
        assert_eq!(message[message.len() - bytes.len() - 1], 0x04);
        let back = rows_of(&table_s(), &message).1;
        assert_eq!(back[number as usize], back[number as usize + 1]);
    }
}

#[test]
fn each_key_numbers_its_own() {
    // Texts of two keys by turns: a, b under 0 and 1, then number -4 under each.
    let nodes = [
        &[n(7, 0, 4)][..],
        &[n(9, 2, 0), n(1, 0, 0), n(9, 2, 1), n(1, 0, 0)],
        &[n(9, 2, 0), n(1, 0, 0), n(9, 2, 1), n(1, 0, 0)],
    ]
    .concat();
    let (answer, rows) = rows_of(&nodes, b"\x00\x02a\x02b\x08\x02\x02\x07\x07");
    assert_eq!(answer, ok(5));
    assert_eq!(rows[1..], [[6, 2, 1], [6, 4, 1], [6, 2, 1], [6, 4, 1]]);
    let one_numbering = b"\x00\x02a\x02b\x08\x02\x02\x07\x09";
    assert_eq!(common::answer(&nodes, one_numbering), no(26));
    let rows = [[9, 4, 0], [6, 0, 1], [6, 1, 1], [6, 2, 1], [6, 3, 1]];
    let written = message_of(&nodes, 0, &rows, b"abab");
    assert_eq!(written.1, b"\x00\x02a\x02b\x08\x02\x02\x07\x07");
    // Equal texts under different keys are both literals.
    let written = message_of(&nodes, 0, &rows, b"aaaa");
    assert_eq!(written.1, b"\x00\x02a\x02a\x08\x02\x02\x07\x07");
}

#[test]
fn a_backreference_can_be_longer() {
    let mut search = Search::default();
    search.sheet_example();
    assert_eq!(search.failures, 0);
    // One text fewer: the repeat is of the 61st, the premise holds, 128 is least.
    let nodes = text_record(62);
    let mut rows = vec![[9, 62, 0]];
    rows.extend((0..61).map(|i| [6, i, 1]));
    rows.push([6, 60, 1]);
    let pool: Vec<u8> = (1..=61).collect();
    let written = message_of(&nodes, 0, &rows, &pool);
    let types = table::wire_types(&nodes);
    let spellings = spell::all(&types, &under(&nodes, &rows).concat(), &pool, 0);
    let least = spellings.iter().map(Vec::len).min();
    assert_eq!(spellings.len(), 2);
    assert_eq!(Some(written.1.len()), least);
}

#[test]
fn a_record_that_may_be_null_has_one_zero() {
    let nullable = [n(8, 0, 0), n(10, 0, 0), n(7, 0, 1), n(2, 0, 0)];
    let (answer, rows) = rows_of(&nullable, b"\x00\x0a\x04\x00\x02\x01\x00");
    assert_eq!((answer, rows.len()), (no(30), 0));
    let (answer, rows) = rows_of(&nullable, b"\x00\x08\x04\x00\x02\x01");
    assert_eq!(answer, ok(4));
    assert_eq!(rows[1..], [[9, 1, 0], [3, 0, 0], [0, 0, 0]]);
    // Without the 0 the field's own label stands there, and 1 is not allowed.
    assert_eq!(common::answer(&nullable, b"\x00\x04\x02\x02"), no(24));
    let both = table_omittable_record();
    let (answer, rows) = rows_of(&both, b"\x00\x04\x00\x02");
    assert_eq!(answer, ok(3));
    assert_eq!(rows, [[9, 1, 0], [9, 1, 0], [3, 0, 0]]);
    assert_eq!(common::answer(&both, b"\x00\x06\x00\x00\x02"), no(30));
    assert_eq!(rows_of(&both, b"\x00\x02\x03").1[1], [1, 0, 0]);
    assert_eq!(rows_of(&both, b"\x00\x02\x01").1[1], [0, 0, 0]);
    let written = message_of(&both, 0, &rows, b"");
    assert_eq!(written.1, b"\x00\x04\x00\x02");
}

#[test]
fn a_count_is_not_trusted() {
    let mut core = Vec::new();
    label::put(i64::MAX, &mut core);
    let message = [&[0, 2 * core.len() as u8], &core[..]].concat();
    assert_eq!(answer(&table_e(), &message), no(31));
    assert_eq!(answer(&table_s(), &message), no(23));
    assert_eq!(answer(&table_s(), b"\x00\x02A\x04\x7e\x02"), no(23));
    // The writer finds the row missing, however many are said.
    for count in [2, 1 << 63, u64::MAX] {
        let rows = [[10, count, 0], [9, 0, 0]];
        assert_eq!(message_of(&table_e(), 0, &rows, b"").0, no_at(42, 2));
    }
}

#[test]
fn the_lowest_integer_goes_both_ways() {
    let nodes = [n(9, 0, 0), n(3, 0, 0)];
    for word in [1 << 63, (1 << 63) - 1, u64::MAX, 0, 1] {
        let (answer, message) = message_of(&nodes, 0, &[[4, word, 0]], b"");
        assert!(answer.is_success());
        assert_eq!(rows_of(&nodes, &message).1, [[4, word, 0]]);
    }
    let lowest = message_of(&nodes, 1, &[[4, 1 << 63, 0]], b"").1;
    assert_eq!(lowest, b"\x02\xff\xff\xff\xff\xff\xff\xff\xff\xff\x01");
    // As a backreference it names a number not yet given.
    let message = b"\x02\x02\xff\xff\xff\xff\xff\xff\xff\xff\xff\x01";
    assert_eq!(common::answer(&table_s(), message), no(26));
}
