//! Each refusal that can be reached, with the node or row that it names. Two cannot: 1, since the wrapper always lends
//! enough work; and 28 when writing, since a tree holds `str`s. That one is tried on rows in `src/codec.rs`.

mod common;

use argo::{look, Codec, Modes, Refusal, Seen, Table, Tree, Value};
use common::*;

fn refused_table(bytes: &[u8]) -> Refusal {
    Table::new(bytes).unwrap_err()
}

fn refused_nodes(nodes: &[[u8; 4]]) -> Refusal {
    refused_table(&file(nodes))
}

/// The same from a table and from a codec.
fn refused_message(table: &Table, message: &[u8]) -> Refusal {
    let refusal = table.read(message).unwrap_err();
    assert_eq!(Codec::new().read(table, message).unwrap_err(), refusal);
    refusal
}

fn refused_tree(table: &Table, values: &[Value]) -> Refusal {
    let tree: Tree = values.iter().copied().collect();
    let refusal = table.write(Modes::NONE, &tree).unwrap_err();
    let mut codec = Codec::new();
    assert_eq!(codec.write(table, Modes::NONE, &tree).unwrap_err(), refusal);
    let mut out = [0xa5; 64];
    assert_eq!(
        codec.write_to(table, Modes::NONE, &tree, &mut out),
        Err(refusal)
    );
    assert_eq!(out, [0; 64]);
    refusal
}

#[test]
fn tables_10_to_12() {
    assert_eq!(refused_table(b""), Refusal::TableMark);
    assert_eq!(refused_table(b"AWT\x01\0\x01"), Refusal::TableMark);
    assert_eq!(
        refused_table(b"AWU\x01\0\x01\0\x02\0\0\0"),
        Refusal::TableMark
    );
    assert_eq!(
        refused_table(b"AWT\x02\0\x01\0\x02\0\0\0"),
        Refusal::TableVersion
    );
    assert_eq!(refused_table(b"AWT\x01\0\0\0"), Refusal::TableSize);
    assert_eq!(
        refused_table(b"AWT\x01\0\x01\0\x02\0\0"),
        Refusal::TableSize
    );
    assert_eq!(refused_nodes(&[BOOLEAN; 1_025]), Refusal::TableSize);
    assert_eq!(
        Table::new(*b"AWT\x01\0\x01\0\x02\0\0\0").unwrap().nodes(),
        1
    );
}

#[test]
fn tables_13_to_15_name_the_node() {
    let kind_11 = [11, 0, 0, 0];
    assert_eq!(
        refused_nodes(&[ARRAY, kind_11]),
        Refusal::TableNode { node: 1 }
    );
    // 13 is found before 14, which an earlier node has.
    assert_eq!(
        refused_nodes(&[ARRAY, STRING, block(32)]),
        Refusal::TableNode { node: 2 }
    );
    // Left over, missing, a text outside of a block, a NULLABLE in one.
    assert_eq!(
        refused_nodes(&[BOOLEAN, BOOLEAN]),
        Refusal::TableTree { node: 1 }
    );
    assert_eq!(
        refused_nodes(&[record(3), BOOLEAN]),
        Refusal::TableTree { node: 2 }
    );
    assert_eq!(refused_nodes(&[STRING]), Refusal::TableTree { node: 0 });
    assert_eq!(
        refused_nodes(&[ARRAY, NULLABLE, NULLABLE, BOOLEAN]),
        Refusal::TableTree { node: 2 }
    );
    // A path of 33 nodes.
    let mut deep = vec![ARRAY; 32];
    deep.push(BOOLEAN);
    assert_eq!(refused_nodes(&deep), Refusal::TableTree { node: 32 });
    assert_eq!(
        refused_nodes(&[record(2), block(3), STRING, block(3), BYTES]),
        Refusal::TableKey { node: 3 }
    );
}

#[test]
fn messages_20_to_22() {
    assert_eq!(refused_message(&pair(), b""), Refusal::MessageSize);
    assert_eq!(refused_message(&pair(), &[0; 65_537]), Refusal::MessageSize);
    assert_eq!(refused_message(&pair(), b"\x01\x00"), Refusal::Header);
    assert_eq!(refused_message(&pair(), b"\x04"), Refusal::Header);
    assert_eq!(refused_message(&pair(), b"\x00"), Refusal::Pieces);
    assert_eq!(refused_message(&pair(), b"\x00\x04\x00"), Refusal::Pieces);
    assert_eq!(refused_message(&pair(), b"\x00\x01"), Refusal::Pieces);
}

#[test]
fn messages_23_to_30() {
    assert_eq!(
        refused_message(&texts(), b"\x00\x04\x80\x00"),
        Refusal::Label
    );
    assert_eq!(
        refused_message(&texts(), b"\x00\x04\x02\x05"),
        Refusal::LabelPlace
    );
    assert_eq!(
        refused_message(&texts(), b"\x00\x02\x01"),
        Refusal::LabelPlace
    );
    assert_eq!(
        refused_message(&pair(), b"\x00\x02\x0a\x02\x05"),
        Refusal::Error
    );
    assert_eq!(
        refused_message(&texts(), b"\x00\x04\x02\x07"),
        Refusal::Backreference
    );
    assert_eq!(
        refused_message(&texts(), b"\x00\x02A\x04\x02\x04"),
        Refusal::Cut
    );
    assert_eq!(
        refused_message(&texts(), b"\x00\x02\xff\x04\x02\x02"),
        Refusal::Text { row: None }
    );
    assert_eq!(
        refused_message(&texts(), b"\x00\x04\x02\x02"),
        Refusal::NoBlock
    );
    assert_eq!(
        refused_message(&texts(), b"\x00\x04\x00\x00"),
        Refusal::Unused
    );
    assert_eq!(
        refused_message(&texts(), b"\x00\x00\x02\x00"),
        Refusal::Unused
    );
}

#[test]
fn messages_31_is_of_the_rows_that_there_is_room_for() {
    assert_eq!(
        refused_message(&empties(), b"\x00\x06\x80\x80\x01"),
        Refusal::ManyRows
    );
    // The night has 25 rows.
    assert!(Codec::with_rows(25).read(&night(), NIGHT).is_ok());
    for rows in [24, 0] {
        let mut codec = Codec::with_rows(rows);
        assert_eq!(codec.read(&night(), NIGHT).unwrap_err(), Refusal::ManyRows);
    }
    assert_eq!(
        Codec::with_rows(usize::MAX)
            .read(&empties(), b"\x00\x06\x80\x80\x01")
            .unwrap_err(),
        Refusal::ManyRows
    );
}

/// So many empty texts, each a literal; the count takes two bytes.
fn empty_texts(count: usize) -> Vec<u8> {
    let label = |n: usize| [(2 * n) as u8 | 0x80, (n >> 6) as u8];
    let mut message = vec![0x00, 0x00];
    message.extend(label(count + 2));
    message.extend(label(count));
    message.resize(message.len() + count, 0x00);
    message
}

#[test]
fn messages_32() {
    assert_eq!(texts().read(&empty_texts(4_096)).unwrap().len(), 4_097);
    assert_eq!(
        refused_message(&texts(), &empty_texts(4_097)),
        Refusal::ManyLiterals
    );
}

/// In mode 4 the text and the 00 behind it must be there (27), then it must be 00 (35), then the text is judged (28).
#[test]
fn messages_35() {
    let cases: [(&[u8], Refusal); 5] = [
        (b"\x20\x02A\x04\x02\x02", Refusal::Cut),
        (b"\x20\x02\xff\x04\x02\x02", Refusal::Cut),
        (b"\x20\x04A\x01\x04\x02\x02", Refusal::Terminator),
        (b"\x20\x04\xff\x01\x04\x02\x02", Refusal::Terminator),
        (b"\x20\x04\xff\x00\x04\x02\x02", Refusal::Text { row: None }),
    ];
    for (message, refusal) in cases {
        assert_eq!(refused_message(&texts(), message), refusal);
    }
    let rows = texts();
    let rows = rows.read(b"\x20\x04A\x00\x04\x02\x02").unwrap();
    assert_eq!(rows.get(1), Some(Value::Str("A")));
}

/// Both sides of each bound of RFC 3629.
#[test]
fn messages_28() {
    let bounds: [(&[u8], &[u8]); 9] = [
        // The shortest form, of two, three and four bytes.
        (b"\xc1\xbf", b"\xc2\x80"),
        (b"\xe0\x9f\xbf", b"\xe0\xa0\x80"),
        (b"\xf0\x8f\xbf\xbf", b"\xf0\x90\x80\x80"),
        // The halves of surrogate pairs, D800 to DFFF.
        (b"\xed\xa0\x80", b"\xed\x9f\xbf"),
        (b"\xed\xbf\xbf", b"\xee\x80\x80"),
        // 10FFFF, and leads that would go beyond it.
        (b"\xf4\x90\x80\x80", b"\xf4\x8f\xbf\xbf"),
        (b"\xf5\x80\x80\x80", b"\xf3\xbf\xbf\xbf"),
        // Bytes behind a lead are 80 to BF.
        (b"\xdf\x7f", b"\xdf\x80"),
        (b"\xdf\xc0", b"\xdf\xbf"),
    ];
    for (bad, good) in bounds {
        assert_eq!(
            refused_message(&texts(), &one_text(bad)),
            Refusal::Text { row: None }
        );
        let message = one_text(good);
        let rows = texts().read(&message).unwrap();
        let text = std::str::from_utf8(good).unwrap();
        assert_eq!(rows.get(1), Some(Value::Str(text)));
    }
}

#[test]
fn trees_40_and_41() {
    let one = [Value::Array(0)];
    let tree: Tree = one.into_iter().collect();
    for bits in [2, 8, 64, 1 << 63] {
        let refusal = texts().write(Modes::from_bits(bits), &tree).unwrap_err();
        assert_eq!(refusal, Refusal::Modes);
    }
    assert_eq!(
        refused_tree(&texts(), &[Value::Null; 8_193]),
        Refusal::RowsSize
    );
    let long = [b'a'; 65_537];
    assert_eq!(
        refused_tree(&texts(), &[Value::Bytes(&long)]),
        Refusal::RowsSize
    );
}

#[test]
fn trees_42_names_the_row() {
    let unfit = |row| Refusal::Unfit { row };
    // Missing: the row count. An entry of another kind, one that is left over, a null where there is none.
    assert_eq!(refused_tree(&texts(), &[]), unfit(0));
    assert_eq!(
        refused_tree(&texts(), &[Value::Array(2), Value::Str("")]),
        unfit(2)
    );
    assert_eq!(
        refused_tree(&texts(), &[Value::Array(1), Value::Bytes(b"")]),
        unfit(1)
    );
    assert_eq!(
        refused_tree(&texts(), &[Value::Array(0), Value::Null]),
        unfit(1)
    );
    assert_eq!(refused_tree(&texts(), &[Value::Null]), unfit(0));
    assert_eq!(refused_tree(&pair(), &[Value::Record(1)]), unfit(0));
}

#[test]
fn trees_32_and_43() {
    let names: Vec<String> = (0..4_097).map(|n| n.to_string()).collect();
    let mut values = vec![Value::Array(names.len())];
    values.extend(names.iter().map(|name| Value::Str(name)));
    assert_eq!(refused_tree(&texts(), &values), Refusal::ManyLiterals);
    // In mode 5 nothing is numbered.
    let tree: Tree = values.into_iter().collect();
    assert!(texts().write(Modes::NO_DEDUPLICATION, &tree).is_ok());

    let long = "a".repeat(65_536);
    let values = [Value::Array(1), Value::Str(&long)];
    assert_eq!(refused_tree(&texts(), &values), Refusal::NoRoom);

    let rows = night().read(NIGHT).unwrap();
    let tree: Tree = rows.iter().collect();
    let mut out = [0xa5; 102];
    assert_eq!(out.len(), NIGHT.len());
    let mut codec = Codec::new();
    let mut write = |out: &mut [u8]| codec.write_to(&night(), Modes::NONE, &tree, out);
    assert_eq!(write(&mut out[..101]), Err(Refusal::NoRoom));
    assert_eq!(out[..101], [0; 101]);
    assert_eq!(write(&mut []), Err(Refusal::NoRoom));
    assert_eq!(write(&mut out), Ok(102));
    assert_eq!(out, NIGHT);
}

#[test]
fn rows_50_and_51() {
    let words = [
        [6, 1, 2, 1_023],
        [11, 0, 0, 0],
        [0, 0, 1, 0],
        [6, 2, 2, 0],
        [6, 1, 2, 1_024],
        [0, 0, 0, u64::MAX],
        [0; 4],
    ];
    let words = &words.concat()[..27];
    let look = |row| look(words, b"abc", row);
    let value = Value::Str("bc");
    assert_eq!(look(0), Ok(Seen { value, node: 1_023 }));
    // Another kind, a word that is not used, a place outside, nodes that no table has; words that are no whole row.
    assert_eq!([1, 2, 3, 4, 5].map(look), [Err(Refusal::BadRow); 5]);
    assert_eq!([6, usize::MAX].map(look), [Err(Refusal::NoRow); 2]);
}

/// No read has judged these rows, so that looking tests their texts, and theirs alone.
#[test]
fn looking_28() {
    let words = [[6, 0, 3, 0], [6, 0, 2, 0], [6, 1, 1, 0], [7, 0, 2, 0]].concat();
    let look = |row| look(&words, b"a\xc3\xa4", row).map(|seen| seen.value);
    assert_eq!(look(0), Ok(Value::Str("a\u{e4}")));
    assert_eq!(look(1), Err(Refusal::Text { row: Some(1) }));
    assert_eq!(look(2), Err(Refusal::Text { row: Some(2) }));
    assert_eq!(look(3), Ok(Value::Bytes(b"a\xc3")));
}

/// Rows of one message looked at with the bytes of another, which are no text there.
#[test]
fn rows_with_bytes_of_another_message_are_tested() {
    let message = one_text(b"ab");
    let rows = texts().read(&message).unwrap();
    let value = Value::Str("ab");
    assert_eq!(look(rows.words(), &message, 1), Ok(Seen { value, node: 1 }));
    assert_eq!(
        look(rows.words(), &one_text(b"\xc0\xaf"), 1),
        Err(Refusal::Text { row: Some(1) })
    );
}

#[test]
fn a_codec_is_as_good_as_new_after_a_refusal() {
    let (mut codec, night) = (Codec::new(), night());
    for cut in 0..NIGHT.len() {
        assert!(codec.read(&night, &NIGHT[..cut]).is_err());
        assert_eq!(codec.read(&night, NIGHT).unwrap().len(), 25);
    }
}

#[test]
fn refusals_are_shown_in_words() {
    let shown = |refusal: Refusal| refusal.to_string();
    assert_eq!(
        shown(Refusal::Pieces),
        "refusal 22: the message has no pieces, or a piece's label is not its length"
    );
    assert_eq!(
        shown(refused_nodes(&[BOOLEAN, BOOLEAN])),
        "refusal 14 at node 1: the table's nesting, its depth, a node left over or missing"
    );
    assert_eq!(
        shown(Refusal::Unfit { row: 3 }),
        "refusal 42 at row 3: a row is malformed, does not fit the table, is missing or left over"
    );
    assert_eq!(
        shown(Refusal::Text { row: None }),
        "refusal 28: a string is not UTF-8"
    );
    assert_eq!(
        shown(Refusal::Text { row: Some(0) }),
        "refusal 28 at row 0: a string is not UTF-8"
    );
    let error: Box<dyn std::error::Error> = Refusal::Unused.into();
    assert_eq!(
        error.to_string(),
        "refusal 30: bytes or blocks unused at the end"
    );
}
