//! The node of each row (No. 7): the right one, and those that another rule would give, in reader, writer, look and part.

use super::assemble;
use super::fixed::{
    all_modes, base_trees, check, read, table_e, table_omittable_record, table_r, table_s, write,
};
use crate::case::Case;
use crate::rows::{self, Row, WORDS};
use crate::table::{self, file, wire_types, Node, WireType};
use crate::{label, spell, MAX_NODES, NO_DEDUPLICATION, NULL_TERMINATED_STRINGS, WORK_WORDS};

/// Both sides of the most that a node can be, and what is equal to a node in its low bits.
pub const EDGE_NODES: [u64; 12] = [
    0,
    1,
    MAX_NODES as u64 - 2,
    MAX_NODES as u64 - 1,
    MAX_NODES as u64,
    MAX_NODES as u64 + 1,
    1 << 16,
    (1 << 16) + 1,
    1 << 32,
    1 << 63,
    u64::MAX - 1,
    u64::MAX,
];

/// A value of every kind, from its top node on.
fn values() -> Vec<Vec<Node>> {
    let n = Node::new;
    let block = |key, kind, argument| vec![n(table::BLOCK, 0, key), n(kind, 0, argument)];
    vec![
        vec![n(table::BOOLEAN, 0, 0)],
        vec![n(table::ARRAY, 0, 0), n(table::BOOLEAN, 0, 0)],
        vec![n(table::RECORD, 0, 0)],
        block(0, table::STRING, 0),
        block(1, table::VARINT, 0),
        block(2, table::FLOAT64, 0),
        block(3, table::BYTES, 0),
        block(4, table::FIXED, 2),
    ]
}

/// A value by itself and under a NULLABLE, each as it is, as an omittable field's, and as an array's entry.
fn wrappings(value: &[Node]) -> Vec<Vec<Node>> {
    let nullable = [&[Node::new(table::NULLABLE, 0, 0)], value].concat();
    let mut all = Vec::new();
    for field in [value.to_vec(), nullable] {
        let mut omittable = field.clone();
        omittable[0].flags |= table::OMITTABLE;
        let array = [&[Node::new(table::ARRAY, 0, 0)], &field[..]].concat();
        all.extend([field, omittable, array]);
    }
    all
}

/// A record of a value of every kind in every wrapping.
pub fn table_wrapped() -> Vec<Node> {
    let mut nodes = vec![Node::new(table::RECORD, 0, 0)];
    for field in values().iter().flat_map(|value| wrappings(value)) {
        nodes.extend(field);
        nodes[0].argument += 1;
    }
    nodes
}

/// A tree with pool "ok": all that may be null is so, or nothing is; likewise absent. Every array has two entries.
pub fn tree(nodes: &[Node], null: bool, absent: bool) -> Vec<u64> {
    let mut list = Vec::new();
    grow(&mut list, &wire_types(nodes), 0, null, absent);
    list
}

fn grow(list: &mut Vec<u64>, types: &[WireType], node: usize, null: bool, absent: bool) {
    let top = node as u64;
    let this = types[node];
    list.extend(match this.kind {
        _ if absent && this.omittable => [rows::ABSENT, 0, 0, top],
        _ if null && this.nullable => [rows::NULL, 0, 0, top],
        table::BOOLEAN => [rows::TRUE, 0, 0, top],
        table::STRING => [rows::STRING, 0, 1, top],
        table::BYTES => [rows::BYTES, 1, 1, top],
        table::VARINT => [rows::INTEGER, 7, 0, top],
        table::FLOAT64 => [rows::FLOAT, 7, 0, top],
        table::FIXED => [rows::FIXED, 0, 2, top],
        table::RECORD => [rows::RECORD, this.argument as u64, 0, top],
        _ => [rows::ARRAY, 2, 0, top],
    });
    let mut child = this.child as usize;
    match list[list.len() - WORDS] {
        rows::RECORD => {
            for _ in 0..this.argument {
                grow(list, types, child, null, absent);
                child = types[child].end as usize;
            }
        }
        rows::ARRAY => {
            for _ in 0..2 {
                grow(list, types, child, null, absent);
            }
        }
        _ => {}
    }
}

/// The cases that are always stored.
pub fn chosen() -> Vec<Case> {
    let mut cases = Vec::new();
    every_wrapping(&mut cases);
    mistakes(&mut cases);
    each_row(&mut cases);
    order_in_the_writer(&mut cases);
    last_node(&mut cases);
    whole_rows(&mut cases);
    looks_and_parts(&mut cases);
    cases
}

/// All fixed cases of this kind.
pub fn cases(kind: char) -> Vec<Case> {
    let mut cases = chosen();
    each_word(&mut cases);
    cases.retain(|case| case.kind() == kind);
    cases
}

/// A tree as it is written and as it is read.
pub fn both_ways(cases: &mut Vec<Case>, nodes: &[Node], list: &[u64], pool: &[u8], modes: u64) {
    let types = wire_types(nodes);
    let message = spell::spell(&types, list, pool, modes, &mut |_| 1).message();
    cases.push(read(nodes, &message));
    cases.push(write(nodes, modes, list, pool));
}

fn every_wrapping(cases: &mut Vec<Case>) {
    let nodes = table_wrapped();
    for (null, absent) in [(false, false), (true, false), (false, true), (true, true)] {
        let list = tree(&nodes, null, absent);
        for modes in [0, NULL_TERMINATED_STRINGS, 37, 37 | NULL_TERMINATED_STRINGS] {
            both_ways(cases, &nodes, &list, b"ok", modes);
        }
    }
    // An error told elsewhere is a null under its NULLABLE.
    cases.push(read(&table_r(), b"\x08\x02\x0a\x02\x05"));
    for message in [&b"\x08\x02\x05"[..], b"\x08\x02\x03", b"\x08\x04\x00\x02"] {
        cases.push(read(&table_omittable_record(), message));
    }
    for (nodes, list, pool) in base_trees() {
        for modes in all_modes() {
            both_ways(cases, &nodes, &list, &pool, modes);
        }
    }
    // A backreference has its own node, not that of the literal that it names.
    let n = Node::new;
    let text = [n(table::BLOCK, 2, 5), n(table::STRING, 0, 0)];
    let nodes = [
        &[n(table::RECORD, 0, 3)][..],
        &text,
        &[n(table::NULLABLE, 0, 0)],
        &text,
        &[n(table::ARRAY, 0, 0)],
        &text,
    ]
    .concat();
    let text = |node| [rows::STRING, 0, 3, node];
    let list = [
        [rows::RECORD, 3, 0, 0],
        text(1),
        text(3),
        [rows::ARRAY, 2, 0, 6],
        text(7),
        text(7),
    ];
    both_ways(cases, &nodes, &list.concat(), b"abc", 0);
    both_ways(cases, &nodes, &list.concat(), b"abc", NO_DEDUPLICATION);
    for row in [2, 4, 5] {
        let mut wrong = list;
        wrong[row][3] = 1;
        cases.push(write(&nodes, 0, &wrong.concat(), b"abc"));
    }
}

/// Rules that look right: the BLOCK or the value itself under a NULLABLE or a BLOCK, the parent, the place among the
/// fields, the row's own number; and rules that look at some rows only.
fn mistakes(cases: &mut Vec<Case>) {
    for field in values().iter().flat_map(|value| wrappings(value)) {
        // After an integer, so that the field's node is neither its row's number nor its place among the fields.
        let front = [
            Node::new(table::RECORD, 0, 2),
            Node::new(table::BLOCK, 0, 9),
            Node::new(table::VARINT, 0, 0),
        ];
        let nodes = [&front[..], &field].concat();
        for (null, absent) in [(false, false), (true, false), (false, true)] {
            let list = tree(&nodes, null, absent);
            for at in (WORDS + 3..list.len()).step_by(WORDS) {
                let right = list[at] as usize;
                let holds = |node: &&Node| matches!(node.kind, table::NULLABLE | table::BLOCK);
                let held = nodes[right..].iter().take_while(holds).count();
                let mut wrong = vec![0, right - 1];
                wrong.extend(right + 1..=right + held);
                for node in wrong {
                    let mut list = list.clone();
                    list[at] = node as u64;
                    cases.push(write(&nodes, 0, &list, b"ok"));
                }
            }
        }
    }
    for (nodes, list, pool) in base_trees() {
        let changed = |change: &dyn Fn(usize, &Row) -> u64| {
            let rows = list.chunks_exact(WORDS).enumerate();
            let mut list = list.clone();
            for (i, row) in rows {
                let row = [row[0], row[1], row[2], row[3]];
                list[WORDS * i + 3] = change(i, &row);
            }
            write(&nodes, 0, &list, &pool)
        };
        let is_place = |row: &Row| (rows::STRING..=rows::FIXED).contains(&row[0]);
        let below = |node: u64| match nodes[node as usize].kind {
            table::NULLABLE | table::BLOCK => node + 1,
            _ => node,
        };
        cases.push(changed(&|_, _| 0));
        cases.push(changed(&|i, _| i as u64));
        cases.push(changed(&|_, row| row[3] + 1));
        cases.push(changed(&|_, row| below(row[3])));
        cases.push(changed(&|_, row| below(below(row[3]))));
        // Only rows with a place have theirs, or only the others.
        cases.push(changed(&|_, row| if is_place(row) { row[3] } else { 0 }));
        cases.push(changed(&|_, row| if is_place(row) { 0 } else { row[3] }));
        // None but null and absent rows are wrong.
        cases.push(changed(&|_, row| match row[0] {
            rows::NULL | rows::ABSENT => 0,
            _ => row[3],
        }));
    }
}

/// Each row in turn with each node near its own or at a limit.
fn each_row(cases: &mut Vec<Case>) {
    for (nodes, list, pool) in base_trees() {
        for at in (3..list.len()).step_by(WORDS) {
            let right = list[at];
            for wrong in [
                right.wrapping_sub(1),
                right + 1,
                right + 2,
                right + (1 << 8),
                right + (1 << 16),
                right + (1 << 32),
                MAX_NODES as u64 - 1,
                MAX_NODES as u64,
                u64::MAX,
            ] {
                let mut list = list.clone();
                list[at] = wrong;
                cases.push(write(&nodes, 0, &list, &pool));
            }
        }
    }
}

/// 42 for a node before 28 at one row and after an earlier 28; before 43, after 40 and 41; and rows that are missing or
/// left over.
fn order_in_the_writer(cases: &mut Vec<Case>) {
    let s = table_s();
    let array = |entries| [rows::ARRAY, entries, 0, 0];
    let text = |len, node| [rows::STRING, 0, len, node];
    for list in [
        &[array(1), text(1, 1)][..],
        &[array(1), text(1, 2)],
        &[array(1), text(1, 0)],
        &[array(1), text(1, 1_024)],
        &[array(2), text(1, 1), text(0, 2)],
        &[array(2), text(0, 2), text(1, 1)],
        &[array(2), text(0, 1), text(1, 2)],
        &[array(2), text(1, 2)],
        &[array(2), text(0, 2)],
        // Left over, whatever its node is.
        &[array(0), text(0, 1)],
        &[array(0), text(0, 2)],
        &[array(0), text(0, u64::MAX)],
        &[[rows::ARRAY, 1, 0, 1], text(1, 1)],
        &[[rows::ARRAY, 9, 0, 1]],
        &[[rows::ARRAY, 9, 1, 1]],
    ] {
        let list = list.concat();
        cases.push(write(&s, 0, &list, b"\xff"));
        cases.push(write(&s, 0, &list, b"x"));
        cases.push(write(&s, 2, &list, b"x"));
        cases.push(write(&s, 0, &[&list[..], &[1]].concat(), b"x"));
        cases.push(Case::Write {
            work: WORK_WORDS,
            out: 2,
            modes: 0,
            table: file(&s),
            rows: list,
            pool: b"x".to_vec(),
        });
    }
}

/// A table with all nodes: a record whose last field is node 1,023; and few rows that stand far behind.
fn last_node(cases: &mut Vec<Case>) {
    let fields = MAX_NODES - 1;
    let mut nodes = vec![Node::new(table::RECORD, 0, fields as u16)];
    nodes.resize(MAX_NODES, Node::new(table::BOOLEAN, 0, 0));
    let mut list = tree(&nodes, false, false);
    both_ways(cases, &nodes, &list, b"", 0);
    list[WORDS * fields + 3] = MAX_NODES as u64;
    cases.push(write(&nodes, 0, &list, b""));
    // A record that is null, and after it a text under a NULLABLE or without it.
    for nullable in [true, false] {
        let mut last = vec![
            Node::new(table::NULLABLE, table::OMITTABLE, 0),
            Node::new(table::BLOCK, 2, 31),
            Node::new(table::STRING, 0, 0),
        ];
        if !nullable {
            last.remove(0);
        }
        let top = MAX_NODES - last.len();
        let truths = top - 3;
        let mut nodes = vec![
            Node::new(table::RECORD, 0, 2),
            Node::new(table::NULLABLE, 0, 0),
            Node::new(table::RECORD, 0, truths as u16),
        ];
        nodes.resize(top, Node::new(table::BOOLEAN, 0, 0));
        nodes.extend(last);
        let top = top as u64;
        for row in [
            [rows::STRING, 0, 2, top],
            [rows::NULL, 0, 0, top],
            [rows::ABSENT, 0, 0, top],
        ] {
            if row[0] != rows::STRING && !nullable {
                continue;
            }
            let list = [[rows::RECORD, 2, 0, 0], [rows::NULL, 0, 0, 1], row].concat();
            both_ways(cases, &nodes, &list, b"ok", 0);
            let low = top & 0xff;
            for wrong in [top - 1, top + 1, top + 2, top + 3, low, top + (1 << 16)] {
                let mut list = list.clone();
                list[2 * WORDS + 3] = wrong;
                cases.push(write(&nodes, 0, &list, b"ok"));
            }
        }
    }
}

/// Words lent or given that are no whole rows of four: those of three words among them.
fn whole_rows(cases: &mut Vec<Case>) {
    for (nodes, list, pool) in base_trees() {
        let count = list.len() / WORDS;
        let types = wire_types(&nodes);
        let message = spell::spell(&types, &list, &pool, 0, &mut |_| 1).message();
        let mut lent = vec![0, 3 * count - 1, 3 * count, 3 * count + 1];
        lent.extend(WORDS * count - WORDS..=WORDS * count + WORDS);
        for rows in lent {
            cases.push(Case::Read {
                work: WORK_WORDS,
                rows,
                table: file(&nodes),
                message: message.clone(),
            });
        }
        // The same rows without their nodes, as they were before.
        let three: Vec<u64> = list
            .chunks_exact(WORDS)
            .flat_map(|row| row[..3].to_vec())
            .collect();
        cases.push(write(&nodes, 0, &three, &pool));
        cases.push(write(&nodes, 0, &three.repeat(4), &pool));
        for words in list.len() - WORDS..list.len() {
            cases.push(write(&nodes, 0, &list[..words], &pool));
        }
        for more in 1..=3 {
            cases.push(write(
                &nodes,
                0,
                &[&list[..], &vec![0; more]].concat(),
                &pool,
            ));
        }
    }
    // The words of 8,192 rows of three are 6,144 rows of four; one more is too many for them, but not for the writer.
    let e = table_e();
    for rows in [6_143, 6_144, 6_145] {
        let entries = rows as u64 - 1;
        let mut list = vec![rows::ARRAY, entries, 0, 0];
        list.extend([rows::RECORD, 0, 0, 1].repeat(entries as usize));
        cases.push(write(&e, 0, &list, b""));
        let mut core = Vec::new();
        label::put(entries as i64, &mut core);
        cases.push(Case::Read {
            work: WORK_WORDS,
            rows: 24_576,
            table: file(&e),
            message: assemble(0, vec![], core),
        });
    }
}

/// Every kind under every node at a limit, right in all else or not; a part does not ask for the node.
fn looks_and_parts(cases: &mut Vec<Case>) {
    for kind in 0..=12 {
        let sound = match kind {
            rows::STRING..=rows::FIXED => [kind, 1, 2],
            rows::INTEGER | rows::FLOAT | rows::RECORD | rows::ARRAY => [kind, 5, 0],
            _ => [kind, 0, 0],
        };
        for node in EDGE_NODES {
            let row = [&sound[..], &[node]].concat();
            looked(cases, 3, 0, row.clone());
            looked(cases, 2, 0, row.clone());
            looked(cases, 3, 1, [&[99; 4], &row[..]].concat());
        }
        let unsound = [kind, sound[1], sound[2] + 1, 1_024];
        looked(cases, 3, 0, unsound.to_vec());
    }
    // Words after the last whole row, and before it.
    let row = [rows::STRING, 0, 1, 1_023];
    for words in 0..=9 {
        let list: Vec<u64> = row.iter().copied().cycle().take(words).collect();
        for index in 0..3 {
            looked(cases, 1, index, list.clone());
        }
    }
    // Three words a row are no rows of four.
    for index in 0..4 {
        looked(cases, 9, index, [rows::STRING, 1, 2].repeat(4));
        looked(cases, 9, index, [rows::STRING, 1, 2, 6].repeat(3));
    }
}

/// The same row looked at, and its part.
fn looked(cases: &mut Vec<Case>, bytes: usize, index: u64, list: Vec<u64>) {
    cases.push(Case::Look {
        bytes,
        index,
        rows: list.clone(),
    });
    cases.push(Case::Part {
        index,
        rows: list,
        data: b"abcdefghi"[..bytes].to_vec(),
    });
}

/// Each node of a tree with each number up to the table's nodes, and the limits.
fn each_word(cases: &mut Vec<Case>) {
    for (nodes, list, pool) in base_trees() {
        for at in (3..list.len()).step_by(WORDS) {
            let near = 0..=nodes.len() as u64;
            for wrong in near.chain(EDGE_NODES) {
                let mut list = list.clone();
                list[at] = wrong;
                cases.push(write(&nodes, 0, &list, &pool));
            }
        }
    }
    cases.push(check(&table_wrapped()));
}
