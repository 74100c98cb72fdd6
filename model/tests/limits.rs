//! Both sides of each limit, and the order of refusals.

mod common;

use common::*;
use model::gen::fixed::{array_chain, table_e, table_r, table_s, BEYOND};
use model::rows::{look, part};
use model::{label, read, table, write, WORK_WORDS};

/// Texts in an array: their label and bytes, put into pieces or inline, in mode 4 with their 00.
fn texts(texts: &[&[u8]], modes: u8) -> Vec<u8> {
    let (mut core, mut block) = (Vec::new(), Vec::<u8>::new());
    label::put(texts.len() as i64, &mut core);
    for text in texts {
        label::put(text.len() as i64, &mut core);
        let piece = if modes & 1 == 0 {
            &mut block
        } else {
            &mut core
        };
        piece.extend(*text);
        if modes & 16 != 0 {
            piece.push(0);
        }
    }
    let mut message = vec![modes << 1];
    if modes & 1 == 0 {
        label::put(block.len() as i64, &mut message);
        message.extend(block);
        label::put(core.len() as i64, &mut message);
    }
    message.extend(core);
    message
}

#[test]
fn work_of_16384_words() {
    let table = table::file(&table_e());
    assert_eq!(table::check(&table, WORK_WORDS - 1), no(1));
    assert_eq!(table::check(b"", WORK_WORDS - 1), no(1));
    assert_eq!(table::check(&table, WORK_WORDS), ok(2));
    let mut rows = [7; 9];
    assert_eq!(read::read(&table, b"", &mut rows, 16_383), no(1));
    assert_eq!(rows, [0; 9]);
    let mut out = [7; 9];
    assert_eq!(write::write(&table, 99, &[], b"", &mut out, 16_383), no(1));
    assert_eq!(out, [0; 9]);
}

#[test]
fn the_front_of_a_table() {
    let check = |bytes: &[u8]| table::check(bytes, WORK_WORDS);
    assert_eq!(check(b""), no(10));
    assert_eq!(check(b"AWT\x01\x00\x01"), no(10));
    assert_eq!(check(b"AWS\x02\x00\x00\x00"), no(10));
    assert_eq!(check(b"AWT\x00\x00\x01\x00"), no(11));
    assert_eq!(check(b"AWT\x02\x00\x01\x00"), no(11));
    assert_eq!(check(b"AWT\x01\x01\x01\x00"), no(11));
    assert_eq!(check(b"AWT\x01\x00\x00\x00"), no(12));
    assert_eq!(check(b"AWT\x01\x00\x01\x00\x02\x00\x00"), no(12));
    assert_eq!(check(b"AWT\x01\x00\x01\x00\x02\x00\x00\x00"), ok(1));
    assert_eq!(check(b"AWT\x01\x00\x01\x00\x02\x00\x00\x00\x00"), no(12));
    let wide = |count: u16| {
        let mut nodes = vec![n(7, 0, count - 1)];
        nodes.resize(count as usize, n(2, 0, 0));
        nodes
    };
    assert_eq!(common::check(&wide(1_024)), ok(1_024));
    assert_eq!(common::check(&wide(1_025)), no(12));
}

#[test]
fn a_node_by_itself() {
    let fixed = |len| check(&[n(9, 0, 0), n(6, 0, len)]);
    assert_eq!(fixed(0), ok(2));
    assert_eq!(fixed(4_096), ok(2));
    assert_eq!(fixed(4_097), no_at(13, 1));
    let block = |key| check(&[n(9, 0, key), n(3, 0, 0)]);
    assert_eq!(block(31), ok(2));
    assert_eq!(block(32), no(13));
    for (kind, wanted) in [(0, 13), (2, 0), (11, 13), (255, 13)] {
        assert_eq!(check(&[n(kind, 0, 0)]).number, wanted);
    }
    for kind in [1, 2, 3, 4, 5, 8, 10] {
        assert_eq!(check(&[n(kind, 0, 1)]), no(13), "{kind}");
    }
    // Flag 2 off a BLOCK, flag 4 anywhere; flag 1 is judged by its place.
    assert_eq!(check(&[n(2, 2, 0)]), no(13));
    assert_eq!(check(&[n(9, 4, 0), n(1, 0, 0)]), no(13));
    assert_eq!(check(&[n(2, 1, 0)]), no(14));
    // A record may say any number; the nodes are then missing.
    assert_eq!(check(&[n(7, 0, 65_535)]), no_at(14, 1));
}

#[test]
fn nesting() {
    assert_eq!(check(&[n(7, 0, 0)]), ok(1));
    for scalar in [1, 3, 4, 5, 6] {
        assert_eq!(check(&[n(scalar, 0, 0)]), no(14));
        assert_eq!(check(&[n(10, 0, 0), n(scalar, 0, 0)]), no_at(14, 1));
        assert_eq!(check(&[n(9, 0, 0), n(scalar, 0, 0)]), ok(2));
        let deduplicating = check(&[n(9, 2, 0), n(scalar, 0, 0)]);
        let text = matches!(scalar, 1 | 5);
        assert_eq!(deduplicating, if text { ok(2) } else { no_at(14, 1) });
    }
    for inner in [2, 7, 8, 9, 10] {
        assert_eq!(check(&[n(9, 0, 0), n(inner, 0, 0)]), no_at(14, 1));
    }
    assert_eq!(check(&[n(10, 0, 0), n(10, 0, 0), n(2, 0, 0)]), no_at(14, 1));
    assert_eq!(
        check(&[n(10, 0, 0), n(8, 0, 0), n(10, 0, 0), n(2, 0, 0)]),
        ok(4)
    );
    // Omittable: a field's top node and no other.
    assert_eq!(check(&[n(7, 0, 1), n(10, 1, 0), n(2, 0, 0)]), ok(3));
    assert_eq!(check(&[n(7, 0, 1), n(10, 0, 0), n(2, 1, 0)]), no_at(14, 2));
    assert_eq!(check(&[n(8, 0, 0), n(2, 1, 0)]), no_at(14, 1));
    // Missing is n, left over the first node after the tree.
    assert_eq!(check(&[n(8, 0, 0)]), no_at(14, 1));
    assert_eq!(check(&[n(7, 0, 2), n(2, 0, 0)]), no_at(14, 2));
    assert_eq!(check(&[n(2, 0, 0), n(1, 0, 0), n(2, 0, 0)]), no_at(14, 1));
    // The earliest break counts, not the one that dooms the rest.
    assert_eq!(
        check(&[n(7, 0, 9), n(2, 0, 0), n(1, 0, 0), n(2, 0, 0)]),
        no_at(14, 2)
    );
}

#[test]
fn a_path_of_32_nodes() {
    for text in [false, true] {
        assert_eq!(check(&array_chain(32, text)), ok(32));
        assert_eq!(check(&array_chain(33, text)), no_at(14, 32));
        assert_eq!(check(&array_chain(40, text)), no_at(14, 32));
    }
    // An array at the end of the path is not at fault, its child is.
    let mut doomed = vec![n(8, 0, 0); 32];
    assert_eq!(check(&doomed), no_at(14, 32));
    doomed.push(n(2, 0, 0));
    assert_eq!(check(&doomed), no_at(14, 32));
    // The 32nd level again in a later field.
    let mut nodes = vec![n(7, 0, 3), n(2, 0, 0)];
    nodes.extend(array_chain(31, true));
    nodes.extend(array_chain(31, false));
    assert_eq!(check(&nodes).number, 0);
    nodes[0].argument = 4;
    nodes.extend(array_chain(32, false));
    assert_eq!(check(&nodes), no_at(14, nodes.len() - 1));
    // Read and written at full depth.
    let deep = array_chain(32, true);
    let mut rows = vec![[10, 1, 0]; 30];
    rows.push([6, 0, 2]);
    let (answer, message) = message_of(&deep, 0, &rows, b"ok");
    assert!(answer.is_success());
    assert_eq!(rows_of(&deep, &message).0, ok(31));
}

#[test]
fn one_key_has_one_use() {
    let uses = |blocks: &[[table::Node; 2]]| {
        let mut nodes = vec![n(7, 0, blocks.len() as u16)];
        nodes.extend(blocks.iter().flatten());
        nodes
    };
    let text = [n(9, 0, 4), n(1, 0, 0)];
    let numbered = [n(9, 2, 4), n(1, 0, 0)];
    let bytes = [n(9, 0, 4), n(5, 0, 0)];
    let other = [n(9, 0, 5), n(5, 0, 0)];
    let absent = [n(9, 1, 4), n(1, 0, 0)];
    assert_eq!(check(&uses(&[text, text, absent, other])), ok(9));
    assert_eq!(check(&uses(&[text, other, bytes])), no_at(15, 5));
    assert_eq!(check(&uses(&[text, numbered])), no_at(15, 3));
    // Against the first use: the third agrees with it, not with the second.
    assert_eq!(check(&uses(&[text, bytes, text])), no_at(15, 3));
    let len = |len| [n(9, 0, 4), n(6, 0, len)];
    assert_eq!(check(&uses(&[len(3), len(3)])), ok(5));
    assert_eq!(check(&uses(&[len(3), len(4)])), no_at(15, 3));
    // 14 over all nodes comes before 15, and 13 before 14.
    let mut nodes = uses(&[text, bytes]);
    nodes.push(n(2, 0, 0));
    assert_eq!(check(&nodes), no_at(14, 5));
    nodes.push(n(2, 0, 7));
    assert_eq!(check(&nodes), no_at(13, 6));
}

#[test]
fn message_length_and_header() {
    assert_eq!(answer(&table_e(), b""), no(20));
    // The shell of one long text: 9 bytes, or 5 inline, and the 00 of mode 4.
    for (modes, shell) in [(0, 9), (1, 5), (16, 10), (17, 6)] {
        let longest = texts(&[&vec![b'x'; 65_536 - shell]], modes);
        assert_eq!(longest.len(), 65_536);
        let start = if modes & 1 == 0 { 4 } else { 5 };
        let wanted = [6, start, 65_536 - shell as u64];
        assert_eq!(rows_of(&table_s(), &longest).1[1], wanted);
        let longer = texts(&[&vec![b'x'; 65_537 - shell]], modes);
        assert_eq!(answer(&table_s(), &longer), no(20));
    }
    let mut junk = vec![0; 65_537];
    junk[0] = 0xff;
    assert_eq!(answer(&table_e(), &junk), no(20));
    let empty_record = [n(7, 0, 0)];
    for header in 0..=255u8 {
        let wanted = match header {
            0x00 | 0x08 | 0x20 | 0x28 | 0x40 | 0x48 | 0x60 | 0x68 => no(22),
            0x02 | 0x0a | 0x22 | 0x2a | 0x42 | 0x4a | 0x62 | 0x6a => ok(1),
            _ => no(21),
        };
        assert_eq!(answer(&empty_record, &[header]), wanted, "{header:02x}");
    }
}

#[test]
fn pieces() {
    let one = [n(9, 0, 0), n(1, 0, 0)];
    let empty_record = [n(7, 0, 0)];
    assert_eq!(answer(&one, b"\x00\x04ab\x02\x04"), ok(1));
    for (message, why) in [
        (&b"\x00\x80"[..], "cut"),
        (b"\x00\x80\x00", "not shortest"),
        (b"\x00\x01", "below 0"),
        (b"\x00\x02", "more than what is left"),
        (b"\x00\x04ab\x04\x04", "a later piece"),
        (
            b"\x00\xff\xff\xff\xff\xff\xff\xff\xff\xff\x02",
            "over 64 bits",
        ),
        (
            b"\x00\xfe\xff\xff\xff\xff\xff\xff\xff\xff\x01",
            "the highest label",
        ),
    ] {
        assert_eq!(answer(&one, message), no(22), "{why}");
    }
    // The last piece is the core, even an empty one.
    assert_eq!(answer(&empty_record, b"\x00\x00"), ok(1));
    assert_eq!(answer(&empty_record, b"\x00\x00\x00"), no(30));
    assert_eq!(answer(&one, b"\x00\x04ab\x02\x04\x00"), no(23));
    let many = vec![0; 65_536];
    assert_eq!(answer(&empty_record, &many), no(30));
    // A label ends with its piece, though more bytes follow in the message.
    let two = [n(7, 0, 2), n(9, 0, 0), n(3, 0, 0), n(2, 0, 0)];
    assert_eq!(answer(&two, b"\x00\x02\x80\x02\x00"), no(23));
    assert_eq!(answer(&two, b"\x00\x04\x80\x01\x02\x00"), ok(3));
}

#[test]
fn values_end_with_their_piece() {
    let float = [n(9, 0, 0), n(4, 0, 0)];
    assert_eq!(answer(&float, b"\x00\x0e1234567\x00"), no(27));
    let bits = u64::from_le_bytes(*b"12345678");
    assert_eq!(
        rows_of(&float, b"\x00\x1012345678\x00"),
        (ok(1), vec![[5, bits, 0]])
    );
    assert_eq!(answer(&float, b"\x00\x12123456789\x00"), no(30));
    assert_eq!(answer(&float, b"\x0212345678"), ok(1));
    assert_eq!(answer(&float, b"\x021234567"), no(27));
    let fixed = [n(9, 0, 0), n(6, 0, 3)];
    assert_eq!(answer(&fixed, b"\x00\x0412\x00"), no(27));
    assert_eq!(rows_of(&fixed, b"\x00\x06123\x00").1, [[8, 2, 3]]);
    assert_eq!(rows_of(&fixed, b"\x02123").1, [[8, 1, 3]]);
    let nothing = [n(9, 0, 0), n(6, 0, 0)];
    assert_eq!(rows_of(&nothing, b"\x00\x00\x00").1, [[8, 2, 0]]);
    assert_eq!(answer(&nothing, b"\x00\x00"), no(29));
    assert_eq!(rows_of(&nothing, b"\x02").1, [[8, 1, 0]]);
    let text = [n(9, 0, 0), n(1, 0, 0)];
    assert_eq!(answer(&text, b"\x00\x02a\x02\x04"), no(27));
    assert_eq!(rows_of(&text, b"\x00\x00\x02\x00").1, [[6, 2, 0]]);
    assert_eq!(answer(&text, b"\x00\x02\x00"), no(29));
    // Inline, an empty value starts right after its label.
    assert_eq!(rows_of(&text, b"\x02\x00").1, [[6, 2, 0]]);
    assert_eq!(rows_of(&text, b"\x02\x02a").1, [[6, 2, 1]]);
    assert_eq!(answer(&text, b"\x02\x04a"), no(27));
    // UTF-8 may not run on into the next literal.
    assert_eq!(answer(&table_s(), &texts(&[b"\xc3", b"\xa9"], 0)), no(28));
    assert_eq!(answer(&table_s(), &texts(&[b"\xc3\xa9"], 0)), ok(2));
}

#[test]
fn the_order_at_one_value() {
    let text = [n(9, 2, 0), n(1, 0, 0)];
    // 29 before 27, 27 before 28.
    assert_eq!(answer(&text, b"\x00\x02\x7e"), no(29));
    assert_eq!(answer(&text, b"\x00\x02\xff\x02\x04"), no(27));
    assert_eq!(answer(&text, b"\x00\x02\xff\x02\x02"), no(28));
    // A VARINT's own 23 after 29, and cut it is 23 and not 27.
    let integer = [n(9, 0, 0), n(3, 0, 0)];
    assert_eq!(answer(&integer, b"\x00\x00"), no(29));
    assert_eq!(answer(&integer, b"\x00\x00\x00"), no(23));
    assert_eq!(answer(&integer, b"\x00\x02\x80\x00"), no(23));
    assert_eq!(answer(&integer, b"\x02"), no(23));
    // The wrapping label's 23 and 24 come before 29.
    let nullable = [n(10, 0, 0), n(9, 0, 0), n(3, 0, 0)];
    assert_eq!(answer(&nullable, b"\x00\x00"), no(23));
    assert_eq!(answer(&nullable, b"\x00\x02\x02"), no(24));
    assert_eq!(answer(&nullable, b"\x00\x02\x05"), no(25));
    assert_eq!(answer(&nullable, b"\x00\x02\x00"), no(29));
    // Everything before 31, and 31 before the children.
    assert_eq!(read_lent(&text, b"\x00\x02\xff\x02\x02", 0).0, no(28));
    assert_eq!(read_lent(&text, b"\x00\x02a\x02\x02", 3).0, no(31));
    assert_eq!(read_lent(&integer, b"\x00\x02\x80\x00", 0).0, no(23));
    assert_eq!(read_lent(&table_s(), b"\x00\x02\x02", 3).0, no(31));
    assert_eq!(read_lent(&table_s(), b"\x00\x02\x01", 3).0, no(24));
    let record = [n(7, 0, 1), n(2, 0, 0)];
    assert_eq!(read_lent(&record, b"\x00\x00", 0).0, no(31));
    assert_eq!(read_lent(&record, b"\x00\x00", 4).0, no(23));
    // A fault of the walk before 30.
    assert_eq!(answer(&text, b"\x00\x00\x02\x05"), no(24));
}

#[test]
fn rows_lent() {
    let message = b"\x00\x04ok\x02\x01\x02\x04";
    for lent in 0..=16 {
        let (answer, rows) = read_lent(&table_r(), message, lent);
        if lent < 12 {
            assert_eq!(answer, no(31));
            assert!(rows.iter().all(|&word| word == 0));
        } else {
            assert_eq!(answer, ok(3));
            assert_eq!(rows[..12], [9, 2, 0, 0, 6, 2, 2, 1, 4, u64::MAX, 0, 4]);
            assert!(rows[12..].iter().all(|&word| word == 0));
        }
    }
    // No more than 8,192, whatever is lent.
    let (answer, rows) = read_lent(&table_e(), b"\x00\x06\x80\x80\x01", 40_000);
    assert_eq!(answer, no(31));
    assert!(rows.iter().all(|&word| word == 0));
    let (answer, rows) = read_lent(&table_e(), b"\x00\x04\xfe\x7f", 40_000);
    assert_eq!(answer, ok(8_192));
    assert!(rows[32_768..].iter().all(|&word| word == 0));
    for lent in [24_576, 32_764, 32_767] {
        assert_eq!(read_lent(&table_e(), b"\x00\x04\xfe\x7f", lent).0, no(31));
    }
    assert_eq!(
        read_lent(&table_e(), b"\x00\x04\xfe\x7f", 32_768).0,
        ok(8_192)
    );
}

#[test]
fn numbered_literals() {
    let text: &[u8] = b"t";
    for (count, modes, wanted) in [
        (4_096, 0, ok(4_097)),
        (4_097, 0, no(32)),
        (4_097, 1, no(32)),
        (4_097, 1 << 5, ok(4_098)),
        (4_097, 1 << 5 | 1, ok(4_098)),
    ] {
        let message = texts(&vec![text; count], modes);
        assert_eq!(answer(&table_s(), &message), wanted);
    }
    let plain = [n(8, 0, 0), n(9, 0, 0), n(1, 0, 0)];
    let message = texts(&vec![text; 4_097], 0);
    assert_eq!(answer(&plain, &message), ok(4_098));
    // 32 before 31, where the row would not fit either.
    let rows = 4 * 4_097;
    assert_eq!(read_lent(&table_s(), &message, rows).0, no(32));
    assert_eq!(read_lent(&table_s(), &message, rows - 4).0, no(31));
    // All keys together.
    let pair = [&[n(8, 0, 0), n(7, 0, 2)][..], &two_texts()].concat();
    for (pairs, wanted) in [(2_048, ok(6_145)), (2_049, no(32))] {
        let mut core = Vec::new();
        label::put(pairs, &mut core);
        core.extend(vec![0; 2 * pairs as usize]);
        let mut message = vec![0, 0, 0];
        label::put(core.len() as i64, &mut message);
        message.extend(core);
        assert_eq!(answer(&pair, &message), wanted);
    }
}

/// Two deduplicated texts under different keys.
fn two_texts() -> [table::Node; 4] {
    [n(9, 2, 0), n(1, 0, 0), n(9, 2, 1), n(1, 0, 0)]
}

#[test]
fn unread_ends() {
    let e = [n(8, 0, 0), n(2, 0, 0)];
    assert_eq!(answer(&e, b"\x00\x04\x02\x00"), ok(2));
    assert_eq!(answer(&e, b"\x00\x06\x02\x00\x00"), no(30));
    assert_eq!(answer(&e, b"\x00\x00\x04\x02\x00"), no(30));
    assert_eq!(answer(&e, b"\x02\x02\x00\x00"), no(30));
    let s = b"\x00\x04ab\x04\x02\x02";
    assert_eq!(answer(&table_s(), s), no(30));
    // A backreference and a null take no block.
    assert_eq!(answer(&table_r(), b"\x00\x02\x0a\x00\x02\x01"), no(30));
}

#[test]
fn modes_of_the_reader() {
    let nullable = [n(8, 0, 0), n(10, 0, 0), n(9, 2, 0), n(5, 0, 0)];
    assert_eq!(answer(&nullable, b"\x00\x04\x02\x05"), no(25));
    let (answer_, rows) = rows_of(&nullable, b"\x08\x04\x02\x05");
    assert_eq!((answer_, rows[1]), (ok(2), [0, 0, 0]));
    // -3 touches no key: the block is left for the literal after it.
    let after = rows_of(&nullable, b"\x08\x02A\x06\x04\x05\x02");
    assert_eq!(after.1, [[10, 2, 0], [0, 0, 0], [7, 2, 1]]);
    // Mode 5 has no numbers.
    let twice = b"\x00\x02A\x06\x04\x02\x07";
    assert_eq!(answer(&table_s(), twice), ok(3));
    let twice = b"\x40\x02A\x06\x04\x02\x07";
    assert_eq!(answer(&table_s(), twice), no(26));
    // A key that does not deduplicate has none either.
    let plain = [n(8, 0, 0), n(9, 0, 0), n(1, 0, 0)];
    assert_eq!(answer(&plain, b"\x00\x02A\x06\x04\x02\x07"), no(26));
    // Inline there are numbers as usual.
    let inline = rows_of(&table_s(), b"\x02\x06\x02A\x00\x07");
    assert_eq!(inline.1, [[10, 3, 0], [6, 3, 1], [6, 5, 0], [6, 3, 1]]);
    assert_eq!(answer(&table_s(), b"\x02\x04\x02A\x09"), no(26));
    assert_eq!(answer(&table_s(), b"\x42\x04\x02A\x07"), no(26));
}

#[test]
fn modes_of_the_writer() {
    let rows = [[10, 0, 0]];
    for modes in 0..128u128 {
        let allowed = modes & !0b11_0101 == 0;
        let wanted = match (allowed, modes & 1) {
            (true, 0) => ok(3),
            (true, _) => ok(2),
            _ => no(40),
        };
        let (answer, message) = message_of(&table_e(), modes, &rows, b"");
        assert_eq!(answer, wanted);
        if allowed {
            assert_eq!(message[0] as u128, modes << 1);
            assert_eq!(rows_of(&table_e(), &message).0, ok(1));
        }
    }
    for bit in 6..128 {
        assert_eq!(message_of(&table_e(), 1 << bit, &rows, b"").0, no(40));
    }
    // A null is written as -1 in mode 2 too.
    let nullable = [n(10, 0, 0), n(2, 0, 0)];
    assert_eq!(
        message_of(&nullable, 4, &[[0, 0, 0]], b"").1,
        b"\x08\x02\x01"
    );
}

#[test]
fn row_lists_and_pools() {
    let table = table::file(&table_e());
    let mut out = [0; 16];
    let mut write = |rows: &[u64], pool: &[u8], modes| {
        write::write(&table, modes, rows, pool, &mut out, WORK_WORDS)
    };
    assert_eq!(write(&[10, 0, 0], b"", 2), no(40));
    for words in [1, 2, 3, 5, 6, 7, 9] {
        assert_eq!(write(&vec![0; words], b"", 0), no(41));
    }
    assert_eq!(write(&[], b"", 0), no_at(42, 0));
    assert_eq!(write(&[10, 0, 0, 0], &[0; 65_536], 0), ok(3));
    assert_eq!(write(&[10, 0, 0, 0], &[0; 65_537], 0), no(41));
    let many = |count: usize| {
        let entries = [9, 0, 0, 1].repeat(count - 1);
        [&[10, count as u64 - 1, 0, 0], &entries[..]].concat()
    };
    assert_eq!(write(&many(8_192), b"", 0), ok(4));
    assert_eq!(write(&many(8_193), b"", 0), no(41));
    // Missing gives the row count, left over the first row after the tree.
    assert_eq!(write(&[10, 2, 0, 0, 9, 0, 0, 1], b"", 0), no_at(42, 2));
    assert_eq!(write(&[10, 0, 0, 0, 9, 0, 0, 1], b"", 0), no_at(42, 1));
    assert_eq!(write(&[10, 0, 0, 0, 99, 9, 9, 9], b"", 0), no_at(42, 1));
    // A faulty row before the missing one comes first.
    let faulty = [[10, 9, 0, 0], [9, 0, 0, 1], [9, 1, 0, 1]];
    assert_eq!(write(&faulty.concat(), b"", 0), no_at(42, 2));
}

#[test]
fn rows_that_do_not_fit() {
    let r = |rows: &[[u64; 3]], pool: &[u8]| message_of(&table_r(), 0, rows, pool).0;
    let top = [9, 2, 0];
    let five = [4, 5, 0];
    assert_eq!(r(&[top, [6, 0, 2], five], b"ok"), ok(8));
    for row in [
        [1, 0, 0],
        [2, 0, 0],
        [4, 0, 0],
        [5, 0, 0],
        [7, 0, 2],
        [8, 0, 2],
        [9, 0, 0],
        [10, 0, 0],
        [11, 0, 0],
        [u64::MAX, 0, 0],
        [0, 1, 0],
        [0, 0, 1],
        [6, 0, 3],
        [6, 3, 0],
        [6, u64::MAX, 1],
        [6, 1, u64::MAX],
        [6, 1 << 63, 1 << 63],
    ] {
        assert_eq!(r(&[top, row, five], b"ok"), no_at(42, 1), "{row:?}");
    }
    assert_eq!(r(&[top, [6, 2, 0], five], b"ok"), ok(6));
    assert_eq!(r(&[[9, 3, 0], [0, 0, 0], five], b""), no_at(42, 0));
    assert_eq!(r(&[[9, 2, 1], [0, 0, 0], five], b""), no_at(42, 0));
    assert_eq!(r(&[top, [0, 0, 0], [4, 5, 1]], b""), no_at(42, 2));
    assert_eq!(r(&[top, [0, 0, 0]], b""), no_at(42, 2));
    let fixed = [n(9, 0, 0), n(6, 0, 2)];
    for (len, wanted) in [(1, no(42)), (2, ok(5)), (3, no(42))] {
        assert_eq!(message_of(&fixed, 0, &[[8, 0, len]], b"abc").0, wanted);
    }
    // Row by row: an earlier 28 before a later 42, at one row 42 before 28.
    assert_eq!(r(&[top, [6, 0, 1], [9, 9, 9]], b"\xff"), no_at(28, 1));
    assert_eq!(r(&[top, [6, 0, 2], five], b"\xff"), no_at(42, 1));
    assert_eq!(r(&[top, [6, 0, 1], five, five], b"\xff"), no_at(28, 1));
    let bytes = [n(9, 0, 0), n(5, 0, 0)];
    assert_eq!(message_of(&bytes, 0, &[[7, 0, 1]], b"\xff").0, ok(5));
}

#[test]
fn different_values_of_the_writer() {
    let rows = |count: u64, repeats: u64| {
        let mut rows = vec![[10, count + repeats, 0]];
        rows.extend((0..count).map(|i| [6, 4 * i, 4]));
        rows.extend((0..repeats).map(|i| [6, 4 * i, 4]));
        rows
    };
    let pool: Vec<u8> = (0..4_097)
        .flat_map(|i| format!("{i:04}").into_bytes())
        .collect();
    let s = |rows: &[[u64; 3]], modes, lent| write_lent(&table_s(), modes, rows, &pool, lent).0;
    assert!(s(&rows(4_096, 4_000), 0, 65_536).is_success());
    assert_eq!(s(&rows(4_097, 0), 0, 65_536), no(32));
    assert_eq!(s(&rows(4_097, 0), 1, 65_536), no(32));
    assert!(s(&rows(4_097, 0), 1 << 5, 65_536).is_success());
    // 32 before 43, and a row at fault before 32.
    assert_eq!(s(&rows(4_097, 0), 0, 0), no(32));
    assert_eq!(s(&rows(4_096, 0), 0, 0), no(43));
    let mut faulty = rows(4_097, 1);
    faulty[4_098] = [6, 4 * 4_097, 1];
    assert_eq!(s(&faulty, 0, 65_536), no_at(42, 4_098));
    // All keys together; keys that do not deduplicate are not counted.
    let pair = [&[n(8, 0, 0), n(7, 0, 2)][..], &two_texts()].concat();
    let mut plain = pair.clone();
    plain[4].flags = 0;
    for (pairs, wanted) in [(2_048, 0), (2_049, 32)] {
        let mut rows = vec![[10, pairs, 0]];
        for i in 0..pairs {
            rows.extend([[9, 2, 0], [6, 4 * i, 4], [6, 4 * i, 4]]);
        }
        assert_eq!(message_of(&pair, 0, &rows, &pool).0.number, wanted);
        assert_eq!(message_of(&plain, 0, &rows, &pool).0.number, 0);
    }
}

#[test]
fn room_for_the_message() {
    let rows = [[10, 2, 0], [6, 0, 2], [6, 2, 2]];
    for lent in 0..12 {
        let (answer, out) = write_lent(&table_s(), 0, &rows, b"abcd", lent);
        if lent < 10 {
            assert_eq!(answer, no(43));
            assert!(out.iter().all(|&byte| byte == 0));
        } else {
            assert_eq!(answer, ok(10));
            assert_eq!(out[..10], *b"\x00\x08abcd\x06\x04\x04\x04");
        }
    }
    // 65,536 bytes and no more, however many are lent.
    for (modes, shell) in [(0, 9), (1, 5), (16, 10), (17, 6)] {
        let pool = vec![b'x'; 65_536];
        for (size, wanted) in [(65_536, ok(65_536)), (65_537, no(43))] {
            let rows = [[10, 1, 0], [6, 0, size - shell]];
            let (answer, _) = write_lent(&table_s(), modes, &rows, &pool, 70_000);
            assert_eq!(answer, wanted);
        }
    }
    // Far over: the same place thousands of times, without numbers.
    let mut rows = vec![[10, 8_191, 0]];
    rows.extend(vec![[6, 0, 60_000]; 8_191]);
    let pool = vec![b'y'; 60_000];
    assert_eq!(message_of(&table_s(), 1 << 5, &rows, &pool).0, no(43));
}

#[test]
fn sizes_where_a_piece_label_grows() {
    for (len, shell) in [(63, 7), (64, 9), (8_191, 9), (8_192, 11)] {
        let rows = [[10, 1, 0], [6, 0, len]];
        let pool = vec![b'x'; len as usize];
        let (answer, message) = message_of(&table_s(), 0, &rows, &pool);
        // Header, block label, core label, count, text label.
        let grown = 1 + 2 * label::size(len as i64) + 2;
        assert_eq!(answer, ok(grown + len as usize));
        assert_eq!(grown, shell - 2);
        assert_eq!(rows_of(&table_s(), &message).0, ok(2));
    }
}

#[test]
fn looking_at_a_row() {
    let number = |rows: &[u64], bytes, index| {
        let (answer, seen) = look(rows, bytes, index);
        assert_eq!(answer.second, 0);
        assert_eq!(seen.is_some(), answer.is_success());
        answer.number
    };
    let shown = |row: [u64; 4], bytes| look(&row, bytes, 0).1.map(|seen| seen.to_string());
    assert_eq!(number(&[], 0, 0), 50);
    assert_eq!(number(&[0, 0, 0], 0, 0), 50);
    assert_eq!(number(&[0; 7], 0, 1), 50);
    for index in BEYOND.into_iter().chain([1]) {
        assert_eq!(number(&[0; 4], 0, index), 50);
    }
    // 50 before 51: the row beyond is not looked at.
    assert_eq!(number(&[99, 0, 0, 0], 0, 1), 50);
    assert_eq!(number(&[99, 0, 0, 0], 0, 0), 51);
    assert_eq!(number(&[11, 0, 0, 0], 0, 0), 51);
    for kind in 0..=3 {
        assert_eq!(number(&[kind, 0, 0, 0], 0, 0), 0);
        assert_eq!(number(&[kind, 1, 0, 0], 0, 0), 51);
        assert_eq!(number(&[kind, 0, 1, 0], 0, 0), 51);
    }
    for kind in [4, 5, 9, 10] {
        assert_eq!(number(&[kind, u64::MAX, 0, 0], 0, 0), 0);
        assert_eq!(number(&[kind, 0, 1, 0], 0, 0), 51);
    }
    for kind in 6..=8 {
        assert_eq!(number(&[kind, 3, 2, 0], 5, 0), 0);
        assert_eq!(number(&[kind, 5, 0, 0], 5, 0), 0);
        assert_eq!(number(&[kind, 3, 3, 0], 5, 0), 51);
        assert_eq!(number(&[kind, 6, 0, 0], 5, 0), 51);
        assert_eq!(number(&[kind, u64::MAX, 1, 0], 5, 0), 51);
        assert_eq!(number(&[kind, 1 << 63, 1 << 63, 0], 5, 0), 51);
    }
    let lowest = "integer:-9223372036854775808@9";
    assert_eq!(shown([4, 1 << 63, 0, 9], 0).as_deref(), Some(lowest));
    assert_eq!(shown([3, 0, 0, 0], 0).as_deref(), Some("truth:True@0"));
    let nan = [5, 0x7ff0_0000_0000_0001, 0, 1];
    let bits = look(&nan, 0, 0).1.map(|seen| seen.row());
    assert_eq!(bits, Some(nan));
}

#[test]
fn the_part_of_a_row() {
    let bytes = b"hello";
    let rows = [
        [6, 1, 3, 0],
        [7, 5, 0, 1],
        [8, 0, 5, 2],
        [9, 1, 0, 3],
        [6, 1, 5, 4],
        [6, 0, 5, 0],
    ];
    let rows = &rows.concat()[..23];
    assert_eq!(part(rows, bytes, 0), b"ell");
    assert_eq!(part(rows, bytes, 1), b"");
    assert_eq!(part(rows, bytes, 2), b"hello");
    // A count, a place outside, a row not whole, a row not there.
    for index in [3, 4, 5, 6].into_iter().chain(BEYOND) {
        assert_eq!(part(rows, bytes, index), b"");
    }
}
