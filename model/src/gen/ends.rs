//! The 00 behind each STRING literal in mode 4 (No. 5): there, missing, another byte, or one too many; read and written.

use super::fixed::{
    all_modes, base_trees, read, table_all, table_r, table_s, two_texts, write, OUT,
};
use super::nodes::both_ways;
use super::texts::{lent, list, message, table_bytes, table_plain, written};
use super::{assemble, shell};
use crate::case::Case;
use crate::rows::{self, WORDS};
use crate::small::{text_field, text_record};
use crate::table::{self, file, Node};
use crate::{
    label, spell, INLINE_EVERYTHING, MAX_BYTES, MAX_NUMBERED, MAX_ROWS, NO_DEDUPLICATION,
    NULL_TERMINATED_STRINGS, OUT_OF_BAND_FIELD_ERRORS, WORK_WORDS,
};

/// With pieces, and inline.
const BOTH: [u64; 2] = [
    NULL_TERMINATED_STRINGS,
    NULL_TERMINATED_STRINGS | INLINE_EVERYTHING,
];

/// Mode 4 alone and with all others.
fn modes() -> impl Iterator<Item = u64> {
    all_modes().filter(|modes| modes & NULL_TERMINATED_STRINGS != 0)
}

/// Texts that are right or not, some with zero bytes.
const TEXTS: [&[u8]; 9] = [
    b"",
    b"a",
    b"\0",
    b"a\0",
    b"\0a",
    b"\xc3\xa9",
    b"\xc3",
    b"\x80",
    b"a\xff",
];

/// What may stand behind a text: its 00, nothing, another byte, or more.
const BEHIND: [&[u8]; 9] = [
    b"\0", b"", b"\x01", b"a", b"\x80", b"\xa9", b"\xff", b"\0\0", b"\0\x01",
];

/// An array of these bytes, each said to be so long.
fn array(entries: &[(usize, &[u8])], modes: u64) -> Vec<u8> {
    let (mut core, mut block) = (Vec::new(), Vec::new());
    label::put(entries.len() as i64, &mut core);
    for (len, bytes) in entries {
        label::put(*len as i64, &mut core);
        match modes & INLINE_EVERYTHING {
            0 => block.extend(*bytes),
            _ => core.extend(*bytes),
        }
    }
    assemble(modes, vec![block], core)
}

fn out_of(out: usize, modes: u64, nodes: &[Node], rows: &[u64], pool: &[u8]) -> Case {
    Case::Write {
        work: WORK_WORDS,
        out,
        modes: modes as u128,
        table: file(nodes),
        rows: rows.to_vec(),
        pool: pool.to_vec(),
    }
}

/// The cases that are always stored.
pub fn chosen() -> Vec<Case> {
    let mut cases = Vec::new();
    allowed(&mut cases);
    behind_one(&mut cases, &BOTH);
    behind_two(&mut cases);
    in_all_modes(&mut cases);
    end_of_the_piece(&mut cases);
    before_32_and_31(&mut cases);
    other_kinds(&mut cases);
    backreferences(&mut cases);
    wrapped(&mut cases);
    from_the_pool(&mut cases);
    no_room(&mut cases);
    growing_labels(&mut cases);
    longest(&mut cases);
    shortest(&mut cases);
    cases
}

/// All fixed cases of this kind.
pub fn cases(kind: char) -> Vec<Case> {
    let mut cases = chosen();
    let all: Vec<u64> = all_modes().collect();
    behind_one(&mut cases, &all);
    cases.retain(|case| case.kind() == kind);
    cases
}

/// 21 and 40: every set of the first seven modes, read and written; then each later mode beside mode 4.
fn allowed(cases: &mut Vec<Case>) {
    let s = table_s();
    let text = list(rows::STRING, &[b"a"]);
    for modes in 0..128 {
        let header = (modes << 1) as u8;
        cases.push(read(&s, &[header, 2, 0, 4, 2, 0]));
        cases.push(read(&s, &[header, 2, 0, 0]));
        cases.push(write(&s, modes, &text, b"a"));
    }
    for mode in 7..64 {
        cases.push(write(&s, NULL_TERMINATED_STRINGS | 1 << mode, &text, b"a"));
    }
    // A header of two bytes, of which the first has mode 4.
    for header in [&b"\x21\x00"[..], b"\x21\x01", b"\x21\x02", b"\x21"] {
        cases.push(read(&s, &[header, b"\x02\x00\x04\x02\x00"].concat()));
    }
}

/// 27, 35 and 28 at one text: every text with everything behind it, and said to be too short or too long.
fn behind_one(cases: &mut Vec<Case>, all: &[u64]) {
    for &modes in all {
        for text in TEXTS {
            for behind in BEHIND {
                let bytes = [text, behind].concat();
                for len in text.len().saturating_sub(1)..=text.len() + 1 {
                    cases.push(read(&table_s(), &array(&[(len, &bytes)], modes)));
                }
            }
        }
        // Lengths that no piece has; one more than the highest is none.
        for len in [3, 63, 64, 65_536, i64::MAX as usize - 1, i64::MAX as usize] {
            cases.push(read(&table_s(), &array(&[(len, b"a\0")], modes)));
        }
    }
}

/// The first fault, of two texts that may each have any.
fn behind_two(cases: &mut Vec<Case>) {
    let mut one: Vec<(usize, Vec<u8>)> = Vec::new();
    for text in [&b""[..], b"a", b"\x80"] {
        for behind in [&b"\0"[..], b"", b"\x01"] {
            one.push((text.len(), [text, behind].concat()));
        }
    }
    for modes in BOTH {
        for (len, first) in &one {
            for (other, second) in &one {
                let entries = [(*len, &first[..]), (*other, second)];
                cases.push(read(&table_s(), &array(&entries, modes)));
            }
        }
    }
}

/// A few texts with mode 4 and each of the others: right, wrong, written.
fn in_all_modes(cases: &mut Vec<Case>) {
    let s = table_s();
    for modes in modes() {
        for texts in [
            &[&b""[..]][..],
            &[b"", b""],
            &[b"a", b"", b"a", b""],
            &[b"\0", b"", b"\0\0", b"\0"],
            &[b"a\0", b"a", b"a\0"],
            &[b"PASSED", b"KILLED", b"PASSED"],
            &[b"ok", b"\xc3", b"\xa9"],
        ] {
            cases.push(read(&s, &message(texts, modes)));
            cases.push(written(modes, texts));
            // As it would be without mode 4.
            let header = (modes << 1) as u8;
            let mut plain = message(texts, modes & !NULL_TERMINATED_STRINGS);
            plain[0] = header;
            cases.push(read(&s, &plain));
            let mut ended = message(texts, modes);
            ended[0] = header & !0x20;
            cases.push(read(&s, &ended));
        }
        for bytes in [&b"a\0"[..], b"a", b"a\x01", b"\x80\0", b"\x80", b"\x80\x01"] {
            cases.push(read(&s, &array(&[(1, bytes)], modes)));
            cases.push(read(&table_plain(), &array(&[(1, bytes)], modes)));
        }
    }
}

/// A 00 that is the label of the next piece, or stands in another one, is none of the text's; nor is there one without a
/// block.
fn end_of_the_piece(cases: &mut Vec<Case>) {
    let nodes = [&[Node::new(table::RECORD, 0, 2)][..], &two_texts()].concat();
    let blocks: [&[u8]; 5] = [b"a\0", b"a", b"\0", b"", b"\0\0"];
    for first in blocks {
        for second in blocks {
            for core in [&[2, 0][..], &[0, 0], &[0, 2], &[2, 2]] {
                let blocks = vec![first.to_vec(), second.to_vec()];
                let message = assemble(NULL_TERMINATED_STRINGS, blocks, core.to_vec());
                cases.push(read(&nodes, &message));
            }
        }
        let message = assemble(NULL_TERMINATED_STRINGS, vec![first.to_vec()], vec![2, 0]);
        cases.push(read(&nodes, &message));
    }
    let s = table_s();
    for core in [&[2, 0][..], &[2, 2], &[2, 0, 0]] {
        cases.push(read(&s, &assemble(BOTH[0], vec![], core.to_vec())));
    }
    // The message cut at each byte, and with each byte in turn another one.
    for modes in BOTH {
        let whole = message(&[b"ab", b"", b"c"], modes);
        for at in 1..whole.len() {
            cases.push(read(&s, &whole[..at]));
            for byte in [0, 1, 2] {
                let mut other = whole.clone();
                other[at] = byte;
                cases.push(read(&s, &other));
            }
        }
    }
}

/// 35 comes before 32 and 31, as 27 and 28 do.
fn before_32_and_31(cases: &mut Vec<Case>) {
    let s = table_s();
    let last: [&[u8]; 7] = [
        b"a\0",
        b"a\x01",
        b"a",
        b"\x80\0",
        b"\x80\x01",
        b"\x80",
        b"a\0\0",
    ];
    for modes in BOTH {
        for bytes in last {
            for rows in [0, WORDS, 2 * WORDS - 1, 2 * WORDS] {
                cases.push(lent(rows, &s, array(&[(1, bytes)], modes)));
            }
            for empty in [MAX_NUMBERED - 1, MAX_NUMBERED] {
                let mut entries = vec![(0, &b"\0"[..]); empty];
                entries.push((1, bytes));
                // No row for the last text, so that no rows need be stored.
                let rows = WORDS * entries.len();
                cases.push(lent(rows, &s, array(&entries, modes)));
                if empty == MAX_NUMBERED {
                    let plain = array(&entries, modes | NO_DEDUPLICATION);
                    cases.push(lent(rows, &s, plain));
                    cases.push(lent(rows, &table_plain(), array(&entries, modes)));
                }
            }
        }
    }
}

/// BYTES, FIXED, VARINT and FLOAT64 have no 00, nor a text in mode 4 clear.
fn other_kinds(cases: &mut Vec<Case>) {
    let n = Node::new;
    for bytes in [&b""[..], b"a", b"\0", b"a\0", b"\x80", b"\x80\0"] {
        let rows = list(rows::BYTES, &[bytes]);
        for modes in modes() {
            cases.push(write(&table_bytes(), modes, &rows, bytes));
        }
        for modes in BOTH {
            for behind in BEHIND {
                let all = [bytes, behind].concat();
                let message = array(&[(bytes.len(), &all)], modes);
                cases.push(read(&table_bytes(), &message));
            }
        }
    }
    for (value, nodes) in [
        (&b"\x02"[..], n(table::VARINT, 0, 0)),
        (b"12345678", n(table::FLOAT64, 0, 0)),
        (b"abc", n(table::FIXED, 0, 3)),
        (b"", n(table::FIXED, 0, 0)),
    ] {
        let nodes = [n(table::BLOCK, 0, 3), nodes];
        for behind in [&b""[..], b"\0", b"\x01"] {
            let value = [value, behind].concat();
            cases.push(read(&nodes, &assemble(BOTH[1], vec![], value.clone())));
            cases.push(read(&nodes, &assemble(BOTH[0], vec![value], vec![])));
        }
    }
    // A text beside BYTES, by turns and under keys of their own.
    let pair = [
        n(table::ARRAY, 0, 0),
        n(table::RECORD, 0, 2),
        n(table::BLOCK, 2, 4),
        n(table::STRING, 0, 0),
        n(table::BLOCK, 2, 2),
        n(table::BYTES, 0, 0),
    ];
    let mut rows = vec![[rows::ARRAY, 3, 0, 0]];
    for (start, len) in [(0, 2), (1, 0), (0, 2)] {
        rows.extend([
            [rows::RECORD, 2, 0, 1],
            [rows::STRING, start, len, 2],
            [rows::BYTES, start, len, 4],
        ]);
    }
    for modes in all_modes() {
        both_ways(cases, &pair, &rows.concat(), b"ok", modes);
    }
}

/// A backreference has no 00; what it names ends before its own.
fn backreferences(cases: &mut Vec<Case>) {
    let s = table_s();
    for modes in modes() {
        for text in [&b"a"[..], b"", b"\0"] {
            for behind in [&b"\0"[..], b"\0\0", b"", b"\x01"] {
                // The text, and its number twice.
                let ended = [text, behind].concat();
                let (mut core, mut blocks) = (vec![6], vec![]);
                label::put(text.len() as i64, &mut core);
                match modes & INLINE_EVERYTHING {
                    0 => blocks.push(ended),
                    _ => core.extend(ended),
                }
                core.extend([7, 7]);
                cases.push(read(&s, &assemble(modes, blocks, core)));
            }
        }
    }
    for message in [
        &b"\x22\x06\x02a\x00\x07\x07\x00"[..],
        b"\x22\x04\x02a\x00\x07\x00",
        b"\x22\x06\x02a\x00\x07\x00\x00",
        b"\x20\x04a\x00\x06\x04\x02\x09",
        b"\x20\x04a\x00\x04\x02\x07",
    ] {
        cases.push(read(&s, message));
    }
}

/// Under NULLABLE, in an omittable field, and beside all that may stand in a record.
fn wrapped(cases: &mut Vec<Case>) {
    let r = table_r();
    for modes in modes() {
        let inline = modes & INLINE_EVERYTHING != 0;
        for text in [&b"ok\0"[..], b"ok", b"ok\x01", b"\xff\xff\0", b"ok\0\0"] {
            let message = match inline {
                false => assemble(modes, vec![text.to_vec(), vec![1]], vec![4]),
                true => assemble(modes, vec![], [&[4], text, &[1]].concat()),
            };
            cases.push(read(&r, &message));
        }
        // A null and, in mode 2, an error told elsewhere have none.
        for n in [1, 5] {
            let message = match inline {
                false => assemble(modes, vec![vec![1]], vec![n]),
                true => assemble(modes, vec![], vec![n, 1]),
            };
            cases.push(read(&r, &message));
        }
    }
    // Each 00 of a tree with texts and much else taken away, or made another byte.
    let (nodes, list, pool) = base_trees().pop().expect("a tree of every kind");
    assert_eq!(nodes, table_all());
    for modes in BOTH {
        let types = table::wire_types(&nodes);
        let pieces = spell::spell(&types, &list, &pool, modes, &mut |_| 1);
        for (block, at) in pieces.ends.clone() {
            for way in 0..3 {
                let mut pieces = pieces.clone();
                let piece = match block {
                    Some(block) => &mut pieces.blocks[block],
                    None => &mut pieces.core,
                };
                match way {
                    0 if at < piece.len() => piece[at] ^= 1,
                    1 if at < piece.len() => {
                        piece.remove(at);
                    }
                    _ => piece.insert(at, 0),
                }
                cases.push(read(&nodes, &pieces.message()));
            }
        }
    }
}

/// The writer puts the 00 itself, whatever follows in the pool.
fn from_the_pool(cases: &mut Vec<Case>) {
    let s = table_s();
    for modes in BOTH {
        for pool in [&b"ab\0c"[..], b"\0\0\0\0", b"abcd"] {
            for start in 0..=4 {
                for len in 0..=4 - start {
                    let text = [rows::STRING, start, len, 1];
                    let rows = [[rows::ARRAY, 1, 0, 0], text];
                    cases.push(write(&s, modes, &rows.concat(), pool));
                }
            }
        }
        // One byte more than there is; a text that the 00 would finish, or that is wrong.
        let text = |start, len| [rows::STRING, start, len, 1];
        for texts in [
            &[text(0, 5)][..],
            &[text(4, 1)],
            &[text(0, 4), text(3, 2)],
            &[text(0, 2), text(3, 1)],
            &[text(3, 1), text(0, 5)],
        ] {
            let rows = [&[[rows::ARRAY, texts.len() as u64, 0, 0]], texts].concat();
            cases.push(write(&s, modes, &rows.concat(), b"ab\0\xc3"));
        }
    }
}

/// 43: each 00 counts, so that one byte less is too few.
fn no_room(cases: &mut Vec<Case>) {
    let mut trees = base_trees();
    trees.retain(|(_, rows, _)| rows.chunks_exact(WORDS).any(|row| row[0] == rows::STRING));
    let texts: [&[u8]; 3] = [b"a", b"", b"a"];
    for count in 1..=texts.len() {
        let texts = &texts[..count];
        trees.push((table_s(), list(rows::STRING, texts), texts.concat()));
        trees.push((table_plain(), list(rows::STRING, texts), texts.concat()));
        trees.push((table_bytes(), list(rows::BYTES, texts), texts.concat()));
    }
    for (nodes, rows, pool) in trees {
        for modes in modes().filter(|modes| modes & OUT_OF_BAND_FIELD_ERRORS == 0) {
            let whole = write(&nodes, modes, &rows, &pool);
            let size = whole.answer().answer().map_or(0, |answer| answer.second);
            let least = (size as usize).saturating_sub(3);
            for out in least..=size as usize + 1 {
                cases.push(out_of(out, modes, &nodes, &rows, &pool));
            }
        }
    }
}

/// A block's own label grows with the 00, a text's label does not.
fn growing_labels(cases: &mut Vec<Case>) {
    for len in [61, 62, 63, 64, 8_189, 8_190, 8_191, 8_192] {
        let text = vec![b'x'; len];
        for modes in [BOTH[0], BOTH[1], BOTH[0] | NO_DEDUPLICATION] {
            let rows = list(rows::STRING, &[&text]);
            both_ways(cases, &table_s(), &rows, &text, modes);
        }
    }
    // The same by many 00: empty texts that are all written out.
    for count in [62, 63, 64] {
        let texts = vec![&b""[..]; count];
        for modes in BOTH.map(|modes| modes | NO_DEDUPLICATION) {
            both_ways(cases, &table_s(), &list(rows::STRING, &texts), b"", modes);
        }
    }
}

/// 65,536 bytes and one more, of which 8,191 are 00: written, and as a message that 31 or 20 refuse.
fn longest(cases: &mut Vec<Case>) {
    let s = table_s();
    let pool = b"xxxxxxx";
    for modes in BOTH.map(|modes| modes | NO_DEDUPLICATION) {
        for size in [MAX_BYTES, MAX_BYTES + 1] {
            // All but the last few have six bytes.
            let mut texts = vec![&pool[..6]; MAX_ROWS - 1];
            let six = message(&texts, modes).len();
            for text in texts.iter_mut().rev().take(six.abs_diff(size)) {
                *text = if six > size { &pool[..5] } else { pool };
            }
            let message = message(&texts, modes);
            assert_eq!(message.len(), size);
            cases.push(lent(4 * WORDS, &s, message));
            let mut rows = vec![rows::ARRAY, texts.len() as u64, 0, 0];
            rows.extend(
                texts
                    .iter()
                    .flat_map(|t| [rows::STRING, 0, t.len() as u64, 1]),
            );
            for out in [OUT - 1, OUT, OUT + 1] {
                cases.push(out_of(out, modes, &s, &rows, pool));
            }
        }
        // One text, which would fit without its 00.
        let most = MAX_BYTES - shell(modes);
        let pool = vec![b'y'; most + 1];
        for len in [most, most + 1] {
            let rows = [[rows::ARRAY, 1, 0, 0], [rows::STRING, 0, len as u64, 1]];
            let plain = modes & !NULL_TERMINATED_STRINGS;
            cases.push(out_of(OUT, plain, &s, &rows.concat(), &pool));
            cases.push(out_of(OUT, modes, &s, &rows.concat(), &pool));
        }
    }
}

/// The sheet's record of 63 texts, the last a repeat of the 62nd, which has no byte or one: named and written out.
fn shortest(cases: &mut Vec<Case>) {
    let nodes = text_record(63);
    for len in [0, 1] {
        let mut rows = vec![rows::RECORD, 63, 0, 0];
        for i in 0..63 {
            let [start, len] = if i < 61 { [i, 1] } else { [61, len] };
            rows.extend([rows::STRING, start, len, text_field(i)]);
        }
        let pool: Vec<u8> = (1..=62).collect();
        for modes in BOTH {
            both_ways(cases, &nodes, &rows, &pool, modes);
            both_ways(cases, &nodes, &rows, &pool, modes | NO_DEDUPLICATION);
            let types = table::wire_types(&nodes);
            let pieces = spell::spell(&types, &rows, &pool, modes, &mut |_| 0);
            cases.push(read(&nodes, &pieces.message()));
        }
        for out in 190..=193 {
            cases.push(out_of(out, BOTH[0], &nodes, &rows, &pool));
        }
    }
}
