//! The node of each row (No. 7): filled by the reader, required by the writer, bounded by a look, free for a part.

mod common;

use std::collections::BTreeSet;

use common::*;
use model::case::{Case, Reply};
use model::gen::fixed::{table_all, table_e, table_omittable_record, table_r, table_s};
use model::gen::nodes::{cases, chosen, table_wrapped, tree, EDGE_NODES};
use model::gen::Cases;
use model::rows::{self, look, part};
use model::small::tree_of;
use model::store::{decode, Store};
use model::table::{self, Node};

/// Writes rows that have their nodes, with room enough.
fn written(nodes: &[Node], rows: &[[u64; 4]], pool: &[u8]) -> model::Answer {
    write_whole(nodes, 0, rows, pool, 65_536).0
}

#[test]
fn the_sheets_rows_with_their_nodes() {
    // Under R the text stands under its NULLABLE, node 1; the integer's BLOCK is node 4.
    let message = b"\x00\x04ok\x02\x01\x02\x04";
    let rows = [[9, 2, 0, 0], [6, 2, 2, 1], [4, u64::MAX, 0, 4]];
    assert_eq!(whole_rows_of(&table_r(), message), (ok(3), rows.to_vec()));
    assert_eq!(written(&table_r(), &rows, message), ok(8));
    let null = [[9, 2, 0, 0], [0, 0, 0, 1], [4, 5, 0, 4]];
    let message = b"\x00\x02\x0a\x02\x01";
    assert_eq!(whole_rows_of(&table_r(), message), (ok(3), null.to_vec()));
    assert_eq!(written(&table_r(), &null, b""), ok(5));
    // An array's entries have the node of its child, however many there are.
    let message = b"\x00\x18PASSEDKILLED\x08\x06\x0c\x0c\x07";
    let rows = [[10, 3, 0, 0], [6, 2, 6, 1], [6, 8, 6, 1], [6, 2, 6, 1]];
    assert_eq!(whole_rows_of(&table_s(), message), (ok(4), rows.to_vec()));
    let rows = whole_rows_of(&table_e(), b"\x00\x04\xfe\x7f").1;
    assert_eq!(rows[0], [10, 8_191, 0, 0]);
    assert!(rows[1..].iter().all(|row| *row == [9, 0, 0, 1]));
}

#[test]
fn every_wrapping_has_its_top_node() {
    // A record of: text; omittable truth; omittable integer; omittable NULLABLE of float; NULLABLE of bytes; FIXED of
    // three; array of NULLABLE of records of an omittable text; text.
    let nodes = table_all();
    let message = [
        &b"\x00"[..],
        b"\x04ab",   // key 3: the text
        b"\x02\x01", // key 1: -1
        b"\x10\x01\x02\x03\x04\x05\x06\x07\x08",
        b"\x06xyz",
        b"\x06\x11\x22\x33",
        b"\x18",
        b"\x04\x02\x00\x00\x06\x06\x00\x03\x01\x00\x07\x07",
    ]
    .concat();
    let (answer, rows) = whole_rows_of(&nodes, &message);
    assert_eq!(answer, ok(14));
    let seen: Vec<(u64, u64)> = rows.iter().map(|row| (row[0], row[3])).collect();
    assert_eq!(
        seen,
        [
            (rows::RECORD, 0),
            (rows::STRING, 1),
            (rows::TRUE, 3),
            (rows::INTEGER, 4),
            (rows::FLOAT, 6),
            (rows::BYTES, 9),
            (rows::FIXED, 12),
            (rows::ARRAY, 14),
            (rows::RECORD, 15),
            (rows::ABSENT, 17),
            (rows::NULL, 15),
            (rows::RECORD, 15),
            (rows::STRING, 17),
            (rows::STRING, 19),
        ]
    );
    assert!(written(&nodes, &rows, &message).is_success());
    // An omittable NULLABLE of a record: absent, null, an error told elsewhere, or there, it is node 1.
    let both = table_omittable_record();
    for (message, kind) in [
        (&b"\x00\x02\x03"[..], rows::ABSENT),
        (b"\x00\x02\x01", rows::NULL),
        (b"\x08\x02\x05", rows::NULL),
        (b"\x00\x04\x00\x02", rows::RECORD),
    ] {
        let rows = whole_rows_of(&both, message).1;
        assert_eq!((rows[1][0], rows[1][3]), (kind, 1));
    }
    // A NULLABLE or BLOCK at the root is node 0 itself.
    let text = [n(10, 0, 0), n(9, 2, 7), n(1, 0, 0)];
    assert_eq!(whole_rows_of(&text, b"\x02\x02a").1, [[6, 2, 1, 0]]);
    assert_eq!(whole_rows_of(&text, b"\x02\x01").1, [[0, 0, 0, 0]]);
    assert_eq!(whole_rows_of(&text[1..], b"\x02\x02a").1, [[6, 2, 1, 0]]);
    assert_eq!(written(&text, &[[6, 0, 1, 0]], b"a"), ok(5));
    for wrong in [1, 2, 3] {
        assert_eq!(written(&text, &[[6, 0, 1, wrong]], b"a"), no(42));
        assert_eq!(written(&text, &[[0, 0, 0, wrong]], b"a"), no(42));
    }
}

#[test]
fn a_backreference_has_its_own_node() {
    let text = [n(9, 2, 5), n(1, 0, 0)];
    let nodes = [&[n(7, 0, 2)][..], &text, &[n(10, 0, 0)], &text].concat();
    let rows = whole_rows_of(&nodes, b"\x00\x06abc\x04\x06\x07").1;
    assert_eq!(rows, [[9, 2, 0, 0], [6, 2, 3, 1], [6, 2, 3, 3]]);
}

#[test]
fn the_writer_requires_the_node_of_every_row() {
    for (null, absent) in [(false, false), (true, false), (false, true), (true, true)] {
        let nodes = table_wrapped();
        let list = tree(&nodes, null, absent);
        let rows: Vec<[u64; 4]> = list
            .chunks_exact(4)
            .map(|row| [row[0], row[1], row[2], row[3]])
            .collect();
        let three: Vec<[u64; 3]> = rows.iter().map(|&[kind, a, b, _]| [kind, a, b]).collect();
        assert_eq!(rows, under(&nodes, &three));
        assert!(written(&nodes, &rows, b"ok").is_success());
        for at in 0..rows.len() {
            let right = rows[at][3];
            let near = (0..nodes.len() as u64 + 1).chain(EDGE_NODES);
            for node in near.filter(|&node| node != right) {
                let mut rows = rows.clone();
                rows[at][3] = node;
                assert_eq!(written(&nodes, &rows, b"ok"), no_at(42, at), "{node}");
            }
        }
    }
}

#[test]
fn equal_in_the_low_bits_is_not_equal() {
    for bit in 2..64 {
        let rows = [[10, 1, 0, 0], [6, 0, 1, 1 | 1 << bit]];
        assert_eq!(written(&table_s(), &rows, b"a"), no_at(42, 1));
        let rows = [[10, 1, 0, 1 << bit], [6, 0, 1, 1]];
        assert_eq!(written(&table_s(), &rows, b"a"), no(42));
    }
}

#[test]
fn a_wrong_node_among_other_faults() {
    let s = table_s();
    let array = |entries| [10, entries, 0, 0];
    let text = |len, node| [6, 0, len, node];
    // 42 before 28 at one row; the earlier row first.
    assert_eq!(written(&s, &[array(1), text(1, 1)], b"\xff"), no_at(28, 1));
    assert_eq!(written(&s, &[array(1), text(1, 2)], b"\xff"), no_at(42, 1));
    let rows = [array(2), text(1, 1), text(0, 2)];
    assert_eq!(written(&s, &rows, b"\xff"), no_at(28, 1));
    let rows = [array(2), text(0, 2), text(1, 1)];
    assert_eq!(written(&s, &rows, b"\xff"), no_at(42, 1));
    // A row that is missing or left over.
    assert_eq!(written(&s, &[array(2), text(0, 1)], b""), no_at(42, 2));
    assert_eq!(written(&s, &[array(2), text(0, 2)], b""), no_at(42, 1));
    assert_eq!(written(&s, &[array(0), text(0, 7)], b""), no_at(42, 1));
    // Before 43 and 32, after 40 and 41.
    let wrong = [array(1), text(1, 2)];
    assert_eq!(write_whole(&s, 0, &wrong, b"x", 0).0, no_at(42, 1));
    assert_eq!(write_whole(&s, 2, &wrong, b"x", 9).0, no(40));
    let long = vec![b'x'; 65_537];
    assert_eq!(write_whole(&s, 0, &wrong, &long, 9).0, no(41));
    let mut rows = vec![array(4_097)];
    rows.extend((0..4_097).map(|len| text(len, 1)));
    let pool = vec![b'x'; 4_096];
    assert_eq!(written(&s, &rows, &pool), no(32));
    rows[4_097][3] = 2;
    assert_eq!(written(&s, &rows, &pool), no_at(42, 4_097));
}

#[test]
fn nodes_up_to_the_last() {
    let mut nodes = vec![n(7, 0, 1_023)];
    nodes.resize(1_024, n(2, 0, 0));
    let (answer, rows) = whole_rows_of(&nodes, &[&[0x02][..], &[2; 1_023]].concat());
    assert_eq!(answer, ok(1_024));
    assert!((0..).zip(&rows).all(|(node, row)| row[3] == node));
    assert_eq!(written(&nodes, &rows, b""), ok(1_026));
    for node in [1_022, 1_024, 0] {
        let mut rows = rows.clone();
        rows[1_023][3] = node;
        assert_eq!(written(&nodes, &rows, b""), no_at(42, 1_023));
    }
}

#[test]
fn a_look_bounds_the_node_and_a_part_does_not() {
    for kind in 0..=10 {
        let [a, b] = match kind {
            6..=8 => [1, 2],
            4 | 5 | 9 | 10 => [5, 0],
            _ => [0, 0],
        };
        for node in EDGE_NODES {
            let row = [kind, a, b, node];
            let (answer, seen) = look(&row, 3, 0);
            let wanted = if node < 1_024 { ok(0) } else { no(51) };
            assert_eq!(answer, wanted, "{row:?}");
            assert_eq!(seen.map(|seen| seen.row()), (node < 1_024).then_some(row));
            let wanted = if matches!(kind, 6..=8) { "bc" } else { "" };
            assert_eq!(part(&row, b"abc", 0), wanted.as_bytes(), "{row:?}");
        }
    }
}

#[test]
fn trees_with_other_nodes_are_other_trees() {
    let tree = [10, 1, 0, 0, 6, 0, 1, 1];
    let mut other = tree;
    other[7] = 2;
    assert_eq!(tree_of(&tree, b"a"), tree_of(&tree, b"a"));
    assert_ne!(tree_of(&tree, b"a"), tree_of(&other, b"a"));
}

/// Programs that look right, each told by a stored case.
#[test]
fn stored_cases_tell_mistakes_that_look_right() {
    let stored = decode(&Store::new(1, "RWLP", 9, Vec::new()).file).unwrap();
    let answer = |case: &Case| case.answer().answer();
    // The reader has the node of the BLOCK under a NULLABLE, or of what a BLOCK holds.
    for kinds in [&[table::NULLABLE][..], &[table::BLOCK]] {
        let told = stored.iter().any(|case| match (case, case.answer()) {
            (Case::Read { table, .. }, Reply::Rows(answer, rows)) if answer.is_success() => {
                let nodes = table::nodes(table).unwrap();
                let mut tops = rows.iter().skip(3).step_by(4);
                tops.any(|&top| kinds.contains(&nodes[top as usize].kind))
            }
            _ => false,
        });
        assert!(told, "{kinds:?}");
    }
    // It counts the rows lent by threes.
    let lent_by_threes = stored.iter().any(|case| {
        let mut other = case.clone();
        if let Case::Read { rows, .. } = &mut other {
            *rows = 4 * (*rows / 3);
        }
        answer(case) != answer(&other)
    });
    assert!(lent_by_threes);
    // The writer asks only rows with a place for their node, or only those without; or takes what a BLOCK holds.
    let is_place = |row: &[u64]| matches!(row[0], 6..=8);
    let asks_only = |places: bool| {
        stored.iter().any(|case| {
            let Case::Write { table, rows, .. } = case else {
                return false;
            };
            let Ok(nodes) = table::nodes(table) else {
                return false;
            };
            let three: Vec<[u64; 3]> = rows.chunks_exact(4).map(|r| [r[0], r[1], r[2]]).collect();
            let right = under(&nodes, &three);
            let mut other = case.clone();
            if let Case::Write { rows, .. } = &mut other {
                for (row, right) in rows.chunks_exact_mut(4).zip(&right) {
                    if is_place(row) != places {
                        row[3] = right[3];
                    }
                }
            }
            answer(&other).is_some_and(|answer| answer.is_success())
                && answer(case) != answer(&other)
        })
    };
    assert!(asks_only(true) && asks_only(false));
    // Rows are whole by threes; the last word of a row is not looked at, or a part asks for it.
    let whole_by_threes = stored.iter().any(|case| match case {
        Case::Write { rows, .. } => answer(case) == Some(no(41)) && rows.len() % 3 == 0,
        _ => false,
    });
    assert!(whole_by_threes);
    let unlooked = stored.iter().any(|case| match case {
        Case::Look { rows, index, .. } => {
            answer(case) == Some(no(51)) && {
                let mut rows = rows.clone();
                rows[4 * *index as usize + 3] = 0;
                look(&rows, 3, *index).0.is_success()
            }
        }
        _ => false,
    });
    assert!(unlooked);
    let free = stored.iter().any(|case| match (case, case.answer()) {
        (Case::Part { rows, index, .. }, Reply::Part(part)) => {
            !part.is_empty() && rows[4 * *index as usize + 3] >= 1_024
        }
        _ => false,
    });
    assert!(free);
}

#[test]
fn all_chosen_cases_are_stored() {
    let stored = Store::new(1, "TRWLP", 9, Vec::new());
    assert_eq!(stored.left_out, 0);
    let stored = decode(&stored.file).unwrap();
    for case in chosen() {
        assert!(stored.contains(&case), "{case}");
    }
}

#[test]
fn fixed_cases_have_both_answers() {
    for (kind, refusal) in [('R', 31), ('W', 42), ('L', 51)] {
        let numbers: BTreeSet<u64> = cases(kind)
            .iter()
            .filter_map(|case| Some(case.answer().answer()?.number))
            .collect();
        assert!(numbers.contains(&0) && numbers.contains(&refusal), "{kind}");
    }
}

/// Of the generated rows with a fault, many have a wrong node and nothing else.
#[test]
fn generated_rows_often_have_a_wrong_node() {
    let mut cases = Cases::new(8, "W");
    let (mut right, mut wrong) = (0, 0);
    for _ in 0..10_000 {
        let case = cases.next_case();
        let Case::Write { table, rows, .. } = &case else {
            panic!("a writing case");
        };
        let Ok(nodes) = table::nodes(table) else {
            continue;
        };
        match case.answer().answer() {
            Some(answer) if answer.is_success() => right += 1,
            Some(answer) if answer.number == 42 => {
                let three: Vec<[u64; 3]> =
                    rows.chunks_exact(4).map(|r| [r[0], r[1], r[2]]).collect();
                let mut other = case.clone();
                if let Case::Write { rows, .. } = &mut other {
                    *rows = under(&nodes, &three).concat();
                }
                let answer = other.answer().answer();
                wrong += usize::from(answer.is_some_and(|answer| answer.number != 42));
            }
            _ => {}
        }
    }
    assert!(right > 1_000 && wrong > 500, "{right} {wrong}");
}
