//! Both sides of every limit that only a large case can reach, for the fixed list has the small ones; and each refusal of
//! a table by reader and writer.

use super::fixed::{array_chain, read, table_e, table_s, two_texts, OUT, ROWS};
use super::{assemble, shell, texts};
use crate::case::Case;
use crate::table::{self, file, Node};
use crate::{
    label, rows, INLINE_EVERYTHING, MAX_BYTES, MAX_NUMBERED, MAX_ROWS, NO_DEDUPLICATION,
    NULL_TERMINATED_STRINGS, WORK_WORDS,
};

pub fn cases() -> Vec<Case> {
    let mut cases = Vec::new();
    longest_messages(&mut cases);
    most_rows(&mut cases);
    most_literals(&mut cases);
    one_byte_numbers(&mut cases);
    integers(&mut cases);
    deepest_path(&mut cases);
    all_keys(&mut cases);
    longest_outputs(&mut cases);
    most_values(&mut cases);
    bad_tables(&mut cases);
    cases
}

fn labelled(count: usize) -> Vec<u8> {
    let mut core = Vec::new();
    label::put(count as i64, &mut core);
    core
}

/// A message for table S: texts all alike.
fn alike(text: &[u8], count: usize, modes: u64) -> Vec<u8> {
    texts::message(&vec![text; count], modes)
}

fn lent(case: Case, lent: usize) -> Case {
    match case {
        Case::Read {
            work,
            table,
            message,
            ..
        } => Case::Read {
            work,
            rows: lent,
            table,
            message,
        },
        other => other,
    }
}

/// 20: 65,536 bytes and one more, in one text and in many empty blocks.
fn longest_messages(cases: &mut Vec<Case>) {
    for size in [MAX_BYTES, MAX_BYTES + 1] {
        for inline in [0, INLINE_EVERYTHING] {
            for modes in [inline, inline | NULL_TERMINATED_STRINGS] {
                let message = alike(&vec![b'x'; size - shell(modes)], 1, modes);
                assert_eq!(message.len(), size);
                cases.push(read(&table_s(), &message));
            }
        }
        cases.push(read(&[Node::new(table::RECORD, 0, 0)], &vec![0; size]));
    }
    for len in [4_095, 4_096, 4_097] {
        let nodes = [
            Node::new(table::BLOCK, 0, 31),
            Node::new(table::FIXED, 0, 4_096),
        ];
        let message = assemble(0, vec![vec![7; len]], Vec::new());
        cases.push(read(&nodes, &message));
    }
}

/// 31: 8,192 rows and one more, whatever is lent; and what is lent and one more.
fn most_rows(cases: &mut Vec<Case>) {
    for entries in [MAX_ROWS - 2, MAX_ROWS - 1, MAX_ROWS] {
        let case = read(&table_e(), &assemble(0, vec![], labelled(entries)));
        for rows in [3 * MAX_ROWS, ROWS - 4, ROWS - 1, ROWS, ROWS + 3, ROWS + 4] {
            cases.push(lent(case.clone(), rows));
        }
    }
}

/// 32: 4,096 numbered literals and one more, of one key and of two; none without numbers.
fn most_literals(cases: &mut Vec<Case>) {
    let plain = [
        Node::new(table::ARRAY, 0, 0),
        Node::new(table::BLOCK, 0, 0),
        Node::new(table::STRING, 0, 0),
    ];
    for count in [MAX_NUMBERED, MAX_NUMBERED + 1] {
        cases.push(read(&table_s(), &alike(b"", count, 0)));
        cases.push(read(&table_s(), &alike(b"", count, NO_DEDUPLICATION)));
        cases.push(read(&plain, &alike(b"", count, 0)));
        // 32 before 31, where the row would not fit either.
        let case = read(&table_s(), &alike(b"", count, 0));
        cases.push(lent(case.clone(), rows::WORDS * MAX_NUMBERED));
        cases.push(lent(case, rows::WORDS * (MAX_NUMBERED + 1)));
    }
    let inline = alike(b"t", MAX_NUMBERED + 1, INLINE_EVERYTHING);
    cases.push(read(&table_s(), &inline));
    let pairs = [
        &[
            Node::new(table::ARRAY, 0, 0),
            Node::new(table::RECORD, 0, 2),
        ][..],
        &two_texts(),
    ]
    .concat();
    for count in [MAX_NUMBERED / 2, MAX_NUMBERED / 2 + 1] {
        let mut core = labelled(count);
        core.extend(vec![0; 2 * count]);
        cases.push(read(&pairs, &assemble(0, vec![vec![], vec![]], core)));
    }
}

/// The 61st number is the last of one byte; a number that has not been given is 26. Written, the last of so many
/// different texts comes again, and the first, whether it has no byte, one or two.
fn one_byte_numbers(cases: &mut Vec<Case>) {
    for literals in [60, 61, 62, 63] {
        for len in 0..3 {
            let text = |i: usize, len| [rows::STRING, 2 * i as u64, len, 1];
            let last = text(literals - 1, len);
            let mut list = vec![[rows::ARRAY, literals as u64 + 2, 0, 0]];
            list.extend((0..literals - 1).map(|i| text(i, 2)));
            list.extend([last, last, text(0, 2)]);
            let pool: Vec<u8> = (0..literals as u8).flat_map(|i| [i, b'x']).collect();
            for modes in [0, NULL_TERMINATED_STRINGS] {
                cases.push(Case::Write {
                    work: WORK_WORDS,
                    out: 300,
                    modes: modes as u128,
                    table: file(&table_s()),
                    rows: list.concat(),
                    pool: pool.clone(),
                });
            }
        }
        for number in literals - 1..=literals {
            let mut core = labelled(literals + 1);
            core.extend(vec![2; literals]);
            label::put(-4 - number as i64, &mut core);
            let block: Vec<u8> = (0..literals as u8).collect();
            let ended = block.iter().flat_map(|&byte| [byte, 0]).collect();
            let message = assemble(NULL_TERMINATED_STRINGS, vec![ended], core.clone());
            cases.push(read(&table_s(), &message));
            cases.push(read(&table_s(), &assemble(0, vec![block], core)));
        }
    }
}

/// Integers on both sides of each size of a label, read and written.
fn integers(cases: &mut Vec<Case>) {
    let nodes = [
        Node::new(table::BLOCK, 0, 0),
        Node::new(table::VARINT, 0, 0),
    ];
    let mut integers = vec![0, i64::MIN, i64::MAX];
    for size in 1..=9 {
        let edge = 1 << (7 * size - 1);
        integers.extend([edge - 1, edge, -edge, -edge - 1]);
    }
    for n in integers {
        let mut message = vec![2];
        label::put(n, &mut message);
        cases.push(read(&nodes, &message));
        let row = [rows::INTEGER, n as u64, 0, 0];
        for modes in [0, INLINE_EVERYTHING] {
            cases.push(Case::Write {
                work: WORK_WORDS,
                out: 14,
                modes: modes as u128,
                table: file(&nodes),
                rows: row.to_vec(),
                pool: Vec::new(),
            });
        }
    }
}

/// A path of 32 nodes, read to its end; 33 are refused by the check.
fn deepest_path(cases: &mut Vec<Case>) {
    for depth in [32, 33] {
        let nodes = array_chain(depth, true);
        let mut core = vec![2; depth - 2];
        core.push(4);
        cases.push(read(&nodes, &assemble(0, vec![b"ok".to_vec()], core)));
    }
}

/// All 32 keys, each with its block; one block fewer, one more.
fn all_keys(cases: &mut Vec<Case>) {
    let mut nodes = vec![Node::new(table::RECORD, 0, 32)];
    for key in (0..32).rev() {
        nodes.extend([
            Node::new(table::BLOCK, 0, key),
            Node::new(table::VARINT, 0, 0),
        ]);
    }
    for blocks in 31..=33 {
        let blocks = (0..blocks).map(|i| vec![2 * i]).collect();
        cases.push(read(&nodes, &assemble(0, blocks, Vec::new())));
    }
}

/// 41 and 43 at their limits.
fn longest_outputs(cases: &mut Vec<Case>) {
    let text = |start: usize, len: usize| [rows::STRING, start as u64, len as u64, 1];
    let write_in = |modes: u64, nodes: &[Node], out, rows: Vec<u64>, pool: Vec<u8>| Case::Write {
        work: WORK_WORDS,
        out,
        modes: modes as u128,
        table: file(nodes),
        rows,
        pool,
    };
    let write = |nodes: &[Node], out, rows, pool| write_in(0, nodes, out, rows, pool);
    for entries in [MAX_ROWS - 1, MAX_ROWS] {
        let mut list = vec![rows::ARRAY, entries as u64, 0, 0];
        list.extend([rows::RECORD, 0, 0, 1].repeat(entries));
        cases.push(write(&table_e(), OUT, list, Vec::new()));
    }
    for pool in [MAX_BYTES, MAX_BYTES + 1] {
        let list = [[rows::ARRAY, 1, 0, 0], text(0, 1)].concat();
        cases.push(write(&table_s(), OUT, list, vec![b'p'; pool]));
    }
    for modes in [0, NULL_TERMINATED_STRINGS, NULL_TERMINATED_STRINGS | 1] {
        let most = MAX_BYTES - shell(modes);
        for size in [most, most + 1] {
            for out in [OUT - 1, OUT, OUT + 1] {
                let list = [[rows::ARRAY, 1, 0, 0], text(0, size)].concat();
                let pool = vec![b'p'; size];
                cases.push(write_in(modes, &table_s(), out, list, pool));
            }
        }
    }
}

/// 32 in the writer: 4,096 different values and one more; and a fault of the very last row comes before it.
fn most_values(cases: &mut Vec<Case>) {
    // Each place in this pool has other bytes than all before it, and its words are small.
    let pool: Vec<u8> = (0..=255).map(|i: u8| i % 128).collect();
    let places = (1..=128).flat_map(|len| (0..128).map(move |start| [start, len]));
    let places: Vec<[u64; 2]> = places.take(MAX_NUMBERED + 1).collect();
    for (count, node) in [
        (MAX_NUMBERED, 1),
        (MAX_NUMBERED + 1, 1),
        (MAX_NUMBERED + 1, 2),
    ] {
        let mut list = vec![rows::ARRAY, count as u64, 0, 0];
        let texts = places[..count].iter();
        list.extend(texts.flat_map(|[a, b]| [rows::STRING, *a, *b, 1]));
        let last = list.len() - 1;
        list[last] = node;
        // There is no room, so that the message need not be stored.
        cases.push(Case::Write {
            work: WORK_WORDS,
            out: 9,
            modes: 0,
            table: file(&table_s()),
            rows: list,
            pool: pool.clone(),
        });
    }
}

/// 10 to 15 from reader and writer too, before anything that is wrong with the message or the rows.
fn bad_tables(cases: &mut Vec<Case>) {
    let n = Node::new;
    let sound = file(&table_s());
    let changed = |at: usize| {
        let mut table = sound.clone();
        table[at] ^= 4;
        table
    };
    let left_over = [n(table::BOOLEAN, 0, 0), n(table::BOOLEAN, 0, 0)];
    let two_kinds = [
        n(table::RECORD, 0, 2),
        n(table::BLOCK, 0, 9),
        n(table::STRING, 0, 0),
        n(table::BLOCK, 0, 9),
        n(table::BYTES, 0, 0),
    ];
    let tables = [
        changed(0),
        changed(3),
        changed(5),
        changed(8),
        file(&left_over),
        file(&two_kinds),
    ];
    for table in tables {
        cases.push(Case::Read {
            work: WORK_WORDS,
            rows: 10,
            table: table.clone(),
            message: Vec::new(),
        });
        cases.push(Case::Write {
            work: WORK_WORDS,
            out: 10,
            modes: 2,
            table,
            rows: vec![99],
            pool: Vec::new(),
        });
    }
}
