//! Going over the rows of a tree.

mod common;

use argo::{Codec, Value};
use common::*;

#[test]
fn all_values_in_order() {
    let rows = night().read(NIGHT).unwrap();
    let mut iter = rows.iter();
    assert_eq!((iter.len(), rows.len()), (25, 25));
    assert_eq!(iter.next(), Some(Value::Array(4)));
    assert_eq!(iter.next(), Some(Value::Record(5)));
    assert_eq!(iter.len(), 23);
    assert_eq!(iter.by_ref().count(), 23);
    assert_eq!((iter.next(), iter.len()), (None, 0));
    let mut count = 0;
    for value in &rows {
        count += usize::from(value == Value::Str("PASSED"));
    }
    assert_eq!(count, 3);
    assert_eq!((rows.get(24).is_some(), rows.get(25)), (true, None));
    assert_eq!(rows.get(usize::MAX), None);
}

#[test]
fn what_is_below_a_row_is_stepped_over() {
    let rows = night().read(NIGHT).unwrap();
    let jobs: Vec<usize> = rows.children(0).collect();
    assert_eq!(jobs, [1, 7, 13, 19]);
    let names: Vec<_> = jobs
        .iter()
        .map(|&job| rows.get(rows.children(job).next().unwrap()).unwrap())
        .collect();
    assert_eq!(
        names,
        ["parser", "linker", "manual", "parser"].map(Value::Str)
    );
    assert_eq!(rows.children(7).collect::<Vec<_>>(), [8, 9, 10, 11, 12]);
    assert_eq!(
        [0, 1, 2, 19, 24].map(|row| rows.after(row)),
        [25, 7, 3, 25, 25]
    );
    assert_eq!(rows.children(0).len(), 4);
    // A leaf, and a row that is not there.
    assert_eq!((rows.children(4).len(), rows.children(25).len()), (0, 0));
    assert_eq!(rows.children(usize::MAX).next(), None);
    assert_eq!(rows.after(25), 25);
}

/// Arrays in arrays, some empty.
#[test]
fn empty_ones_have_nothing_below_them() {
    let table = table(&[ARRAY, ARRAY, BOOLEAN]);
    // In the core: 3 entries, of 0, 2 and 0 entries.
    let rows = table.read(b"\x00\x0c\x06\x00\x04\x00\x02\x00").unwrap();
    assert_eq!(rows.children(0).collect::<Vec<_>>(), [1, 2, 5]);
    assert_eq!([1, 2, 5].map(|row| rows.after(row)), [2, 5, 6]);
    assert_eq!(rows.children(2).collect::<Vec<_>>(), [3, 4]);
}

#[test]
fn the_largest_message_has_8192_rows() {
    let mut codec = Codec::new();
    let (table, message) = (empties(), b"\x00\x04\xfe\x7f");
    let rows = codec.read(&table, message).unwrap();
    assert_eq!(rows.len(), argo::MAX_ROWS);
    assert_eq!(rows.children(0).last(), Some(8_191));
    assert_eq!(rows.message(), message);
}

/// The night: an array, 0; a record, 1; its fields' top nodes, 2, 4, 6, 9 and 11.
#[test]
fn a_row_knows_its_column() {
    let rows = night().read(NIGHT).unwrap();
    assert_eq!(rows.node(0), Some(0));
    for job in rows.children(0) {
        assert_eq!(rows.node(job), Some(1));
        let fields: Vec<_> = rows.children(job).map(|row| rows.node(row)).collect();
        assert_eq!(fields, [2, 4, 6, 9, 11].map(Some));
    }
    // The column of row 16, a null note.
    let column: Vec<_> = (0..rows.len())
        .filter(|&row| rows.node(row) == rows.node(16))
        .collect();
    assert_eq!(column, [4, 10, 16, 22]);
    assert_eq!(
        (rows.get(16), rows.get(11)),
        (Some(Value::Null), Some(Value::Absent))
    );
    assert_eq!([25, usize::MAX].map(|row| rows.node(row)), [None; 2]);
    // Looking shows it too.
    let seen = argo::look(rows.words(), rows.message(), 11).unwrap();
    assert_eq!((seen.value, seen.node), (Value::Absent, 9));
}

/// A tree is given its nodes by the table that it is written under.
#[test]
fn a_tree_has_the_nodes_of_its_table() {
    let values = [Value::Array(1), Value::Str("a")];
    let tree: argo::Tree = values.into_iter().collect();
    assert_eq!(tree.rows(&texts()), [10, 1, 0, 0, 6, 0, 1, 1]);
    let nullable = table(&[NULLABLE, ARRAY, NULLABLE, deduplicating(0), STRING]);
    assert_eq!(tree.rows(&nullable), [10, 1, 0, 0, 6, 0, 1, 2]);
    for table in [texts(), nullable] {
        let message = table.write(argo::Modes::NONE, &tree).unwrap();
        let rows = table.read(&message).unwrap();
        assert_eq!(rows.iter().collect::<Vec<_>>(), values);
        assert_eq!(rows.words()[7], tree.rows(&table)[7]);
    }
}

#[test]
fn the_version_is_that_of_the_header() {
    let header = include_str!("../../../include/argo.h");
    let says = |line: String| header.lines().any(|l| l == line);
    assert!(says(format!("#define ARGO_VERSION \"{}\"", argo::VERSION)));
    let names = ["MAJOR", "MINOR", "PATCH"];
    for (name, number) in names.into_iter().zip(argo::VERSION.split('.')) {
        assert!(
            says(format!("#define ARGO_VERSION_{name} {number}")),
            "{name}"
        );
    }
    assert!(header.contains(&format!("ARGO_ROW_WORDS = {},", argo::ROW_WORDS)));
}
