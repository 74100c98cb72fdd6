//! Trees written and read again, in all modes; what a value keeps.

mod common;

use argo::{Codec, Modes, Rows, Table, Tree, Value};
use common::*;

const ALL_MODES: [Modes; 4] = [
    Modes::INLINE_EVERYTHING,
    Modes::OUT_OF_BAND_ERRORS,
    Modes::NULL_TERMINATED,
    Modes::NO_DEDUPLICATION,
];

/// Every set of the four.
fn sets() -> impl Iterator<Item = Modes> {
    (0..16).map(|set| {
        (0..4)
            .filter(|i| set >> i & 1 == 1)
            .fold(Modes::NONE, |modes, i| modes | ALL_MODES[i])
    })
}

fn values<'m>(rows: &Rows<'_, 'm>) -> Vec<Value<'m>> {
    rows.iter().collect()
}

/// Writes the values in every set of modes, and reads them again.
fn survive(table: &Table, values: &[Value]) {
    let tree: Tree = values.iter().copied().collect();
    assert_eq!(tree.len(), values.len());
    for modes in sets() {
        let message = table.write(modes, &tree).unwrap();
        let rows = table.read(&message).unwrap();
        assert_eq!(rows.modes(), modes);
        assert_eq!(rows.iter().collect::<Vec<_>>(), values);
    }
}

fn job<'m>(
    name: &'m str,
    status: &'m str,
    note: Option<&'m str>,
    seconds: Option<i64>,
    digest: &'m [u8; 8],
) -> [Value<'m>; 6] {
    [
        Value::Record(5),
        Value::Str(name),
        Value::Str(status),
        note.map_or(Value::Null, Value::Str),
        seconds.map_or(Value::Absent, Value::Int),
        Value::Fixed(digest),
    ]
}

fn night_values() -> Vec<Value<'static>> {
    const DIGEST: &[u8; 8] = b"\x1f\x8b\x5e\x02\xa7\x44\x90\x3c";
    let jobs = [
        job("parser", "PASSED", Some(""), Some(41), DIGEST),
        job("linker", "KILLED", Some("out of memory"), None, &[0; 8]),
        job(
            "manual",
            "PASSED",
            None,
            Some(7),
            b"\xd4\x01\x77\xee\x20\x6b\x5a\x98",
        ),
        job("parser", "PASSED", Some(""), Some(43), DIGEST),
    ];
    let mut values = vec![Value::Array(jobs.len())];
    values.extend(jobs.into_iter().flatten());
    values
}

#[test]
fn a_night_with_empty_notes_is_read_and_written_as_it_was() {
    let rows = night().read(NIGHT).unwrap();
    assert_eq!(values(&rows), night_values());
    let tree: Tree = rows.iter().collect();
    assert_eq!(night().write(rows.modes(), &tree).unwrap(), NIGHT);
}

#[test]
fn a_night_survives_every_set_of_modes() {
    survive(&night(), &night_values());
}

#[test]
fn a_codec_answers_as_the_table_does() {
    let (mut codec, night, empties) = (Codec::new(), night(), empties());
    // Larger before smaller, so that what an earlier call left would show.
    for (table, message) in [(&empties, &b"\x00\x04\xfe\x7f"[..]), (&night, NIGHT)] {
        let rows = codec.read(table, message).unwrap();
        assert_eq!(rows.words(), table.read(message).unwrap().words());
        let (modes, tree) = (rows.modes(), rows.iter().collect());
        assert_eq!(codec.write(table, modes, &tree).unwrap(), message);
        assert_eq!(table.write(modes, &tree).unwrap(), message);
        let mut out = vec![0xa5; message.len() + 3];
        let length = codec.write_to(table, modes, &tree, &mut out).unwrap();
        assert_eq!(out, [message, &[0; 3]].concat());
        assert_eq!(length, message.len());
    }
}

#[test]
fn values_outlive_the_rows() {
    let (mut codec, night) = (Codec::new(), night());
    let note = codec.read(&night, NIGHT).unwrap().get(10);
    codec.read(&night, NIGHT).unwrap();
    assert_eq!(note, Some(Value::Str("out of memory")));
}

#[test]
fn a_value_is_a_part_of_the_message_itself() {
    let rows = night().read(NIGHT).unwrap();
    let Some(Value::Fixed(digest)) = rows.get(6) else {
        panic!("row 6 is a digest");
    };
    assert!(std::ptr::eq(digest, &NIGHT[52..60]));
}

/// Of a repeat too, which stands where its first is.
#[test]
fn a_text_is_a_part_of_the_message_itself() {
    let (mut codec, night) = (Codec::new(), night());
    let text = |rows: Rows<'_, 'static>, row| match rows.get(row) {
        Some(Value::Str(text)) => text,
        value => panic!("row {row} is {value:?}"),
    };
    for row in [2, 20] {
        let name = text(night.read(NIGHT).unwrap(), row);
        assert!(std::ptr::eq(name.as_bytes(), &NIGHT[2..8]));
        let name = text(codec.read(&night, NIGHT).unwrap(), row);
        assert!(std::ptr::eq(name.as_bytes(), &NIGHT[2..8]));
    }
}

#[test]
fn values_of_every_kind_survive() {
    let table = table(&[
        record(7),
        BOOLEAN,
        BOOLEAN,
        block(0),
        VARINT,
        block(1),
        FLOAT64,
        block(2),
        BYTES,
        block(3),
        fixed(2),
        ARRAY,
        deduplicating(4),
        STRING,
    ]);
    for n in [0, -1, i64::MIN, i64::MAX] {
        survive(
            &table,
            &[
                Value::Record(7),
                Value::Bool(false),
                Value::Bool(true),
                Value::Int(n),
                Value::Float(-0.0),
                Value::Bytes(b"\xff\0"),
                Value::Fixed(b"\0\xff"),
                Value::Array(4),
                Value::Str(""),
                Value::Str("a"),
                Value::Str(""),
                Value::Str("a"),
            ],
        );
    }
}

#[test]
fn a_nan_keeps_its_bits() {
    let table = table(&[ARRAY, block(0), FLOAT64]);
    // Quiet and signalling, both signs, payloads.
    let bits = [
        0x7ff8_0000_0000_0000,
        0xfff8_0000_0000_0000,
        0x7ff0_0000_0000_0001,
        0xfff0_0000_dead_beef,
        0x7fff_ffff_ffff_ffff,
    ];
    let mut tree = Tree::new();
    tree.push(Value::Array(bits.len()));
    tree.extend(bits.map(|b| Value::Float(f64::from_bits(b))));
    let message = table.write(Modes::NONE, &tree).unwrap();
    let rows = table.read(&message).unwrap();
    let read: Vec<u64> = rows.iter().filter_map(Value::float_bits).collect();
    assert_eq!(read, bits);
    let Some(Value::Float(nan)) = rows.get(1) else {
        panic!("row 1 is a float");
    };
    assert!(nan.is_nan());
    assert_eq!(rows.get(1), Some(Value::Float(nan)));
}

#[test]
fn equality_is_of_what_the_message_says() {
    assert_ne!(Value::Float(0.0), Value::Float(-0.0));
    assert_ne!(Value::Bytes(b"a"), Value::Fixed(b"a"));
    assert_ne!(Value::Record(1), Value::Array(1));
    assert_ne!(Value::Null, Value::Absent);
    assert_ne!(Value::Bool(true), Value::Int(1));
    assert_ne!(Value::Str("a"), Value::Bytes(b"a"));
    assert_eq!(Value::Int(1).float_bits(), None);
}

/// The first and last code points of each length, and around those that are left out.
#[test]
fn a_text_is_any_str() {
    let text = "\0\u{7f}\u{80}\u{7ff}\u{800}\u{d7ff}\u{e000}\u{ffff}\u{10000}\u{10ffff}";
    let mut values = vec![Value::Array(11), Value::Str(text)];
    let parts = text.char_indices();
    values.extend(parts.map(|(at, c)| Value::Str(&text[at..at + c.len_utf8()])));
    survive(&texts(), &values);
}

#[test]
fn modes_are_bits() {
    let modes = Modes::INLINE_EVERYTHING | Modes::NO_DEDUPLICATION;
    assert_eq!(modes.bits(), 33);
    assert_eq!(Modes::from_bits(33), modes);
    assert!(modes.contains(Modes::NO_DEDUPLICATION) && modes.contains(Modes::NONE));
    assert!(!modes.contains(Modes::OUT_OF_BAND_ERRORS));
    assert_eq!(Modes::default(), Modes::NONE);
}

/// Mode 0 has no blocks, mode 5 no numbers, mode 4 a 00 behind each text that is written out, and with mode 2 an error
/// reads as null.
#[test]
fn modes_do_what_they_say() {
    let tree: Tree = [Value::Array(2), Value::Str("ab"), Value::Str("ab")]
        .into_iter()
        .collect();
    let write = |modes| texts().write(modes, &tree).unwrap();
    assert_eq!(write(Modes::NONE), b"\x00\x04ab\x06\x04\x04\x07");
    assert_eq!(write(Modes::INLINE_EVERYTHING), b"\x02\x04\x04ab\x07");
    assert_eq!(
        write(Modes::NO_DEDUPLICATION),
        b"\x40\x08abab\x06\x04\x04\x04"
    );
    assert_eq!(
        write(Modes::NULL_TERMINATED),
        b"\x20\x06ab\x00\x06\x04\x04\x07"
    );
    assert_eq!(
        write(Modes::NULL_TERMINATED | Modes::INLINE_EVERYTHING),
        b"\x22\x04\x04ab\x00\x07"
    );
    let rows = pair();
    let rows = rows.read(b"\x08\x02\x0a\x02\x05").unwrap();
    assert_eq!(rows.modes(), Modes::OUT_OF_BAND_ERRORS);
    assert_eq!(
        values(&rows),
        [Value::Record(2), Value::Null, Value::Int(5)]
    );
}

/// Repeats stand in the pool once, so that many of them do not fill it.
#[test]
fn repeats_take_no_room_in_the_pool() {
    let text = "a status that is long enough to be worth naming by its number";
    let mut tree = Tree::new();
    tree.push(Value::Array(8_000));
    tree.extend((0..8_000).map(|_| Value::Str(text)));
    assert_eq!(tree.pool(), text.as_bytes());
    let message = texts().write(Modes::NONE, &tree).unwrap();
    assert!(message.len() < 8_100);
    assert_eq!(texts().read(&message).unwrap().len(), 8_001);
}

#[test]
fn a_tree_can_be_used_again() {
    let mut tree = Tree::new();
    assert!(tree.is_empty());
    tree.push(Value::Array(1)).push(Value::Str("a"));
    assert_eq!((tree.len(), tree.pool()), (2, &b"a"[..]));
    tree.clear();
    assert!(tree.is_empty() && tree.pool().is_empty() && tree.rows(&texts()).is_empty());
    tree.push(Value::Array(1)).push(Value::Str("ba"));
    let message = texts().write(Modes::NONE, &tree).unwrap();
    assert_eq!(
        texts().read(&message).unwrap().get(1),
        Some(Value::Str("ba"))
    );
}

#[test]
fn threads_share_a_table() {
    let night = night();
    std::thread::scope(|scope| {
        for _ in 0..4 {
            scope.spawn(|| {
                let mut codec = Codec::default();
                for _ in 0..100 {
                    assert_eq!(codec.read(&night, NIGHT).unwrap().len(), 25);
                }
            });
        }
    });
}
