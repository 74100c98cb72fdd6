//! Short ways to call the model in tests.
#![allow(dead_code)]

use model::table::{self, Node};
use model::{read, write, Answer, WORK_WORDS};

pub fn n(kind: u8, flags: u8, argument: u16) -> Node {
    Node::new(kind, flags, argument)
}

pub fn ok(count: usize) -> Answer {
    Answer::success(count)
}

pub fn no(number: u64) -> Answer {
    Answer::refused(number, 0)
}

pub fn no_at(number: u64, second: usize) -> Answer {
    Answer::refused(number, second)
}

pub fn check(nodes: &[Node]) -> Answer {
    table::check(&table::file(nodes), WORK_WORDS)
}

/// Reads with `lent` words that hold garbage; the answer and all lent words.
pub fn read_lent(nodes: &[Node], message: &[u8], lent: usize) -> (Answer, Vec<u64>) {
    let mut rows = vec![0xdddd; lent];
    let answer = read::read(&table::file(nodes), message, &mut rows, WORK_WORDS);
    (answer, rows)
}

/// Rows of three words, each with the node that it stands under as its fourth; a row that does not fit has nothing below
/// it, and one that is left over has node 0. By the request's words, from the nodes as they stand in the table.
pub fn under(nodes: &[Node], rows: &[[u64; 3]]) -> Vec<[u64; 4]> {
    let mut all = Vec::new();
    if !rows.is_empty() {
        value(nodes, 0, rows, &mut all);
    }
    for &[kind, a, b] in &rows[all.len()..] {
        all.push([kind, a, b, 0]);
    }
    all
}

fn value(nodes: &[Node], top: usize, rows: &[[u64; 3]], all: &mut Vec<[u64; 4]>) {
    let Some(&[kind, a, b]) = rows.get(all.len()) else {
        return;
    };
    all.push([kind, a, b, top as u64]);
    // The value itself, which a NULLABLE or BLOCK may hold.
    let mut inner = top;
    while matches!(nodes[inner].kind, table::NULLABLE | table::BLOCK) {
        inner += 1;
    }
    match (kind, nodes[inner].kind) {
        (9, table::RECORD) => {
            let mut field = inner + 1;
            for _ in 0..a.min(nodes[inner].argument as u64) {
                value(nodes, field, rows, all);
                field = after(nodes, field);
            }
        }
        (10, table::ARRAY) => {
            for _ in 0..a {
                if all.len() == rows.len() {
                    return;
                }
                value(nodes, inner + 1, rows, all);
            }
        }
        _ => {}
    }
}

/// The node after this one and all below it.
fn after(nodes: &[Node], node: usize) -> usize {
    let children = match nodes[node].kind {
        table::RECORD => nodes[node].argument,
        table::ARRAY | table::BLOCK | table::NULLABLE => 1,
        _ => 0,
    };
    (0..children).fold(node + 1, |next, _| after(nodes, next))
}

/// Reads with rows enough; the answer and the rows, cut after the last.
pub fn whole_rows_of(nodes: &[Node], message: &[u8]) -> (Answer, Vec<[u64; 4]>) {
    let (answer, mut rows) = read_lent(nodes, message, 4 * 8_192);
    let used = if answer.is_success() {
        4 * answer.second as usize
    } else {
        0
    };
    assert!(rows[used..].iter().all(|&word| word == 0));
    rows.truncate(used);
    let rows = rows
        .chunks_exact(4)
        .map(|row| [row[0], row[1], row[2], row[3]]);
    (answer, rows.collect())
}

/// The same without the nodes, which must be those that the rows stand under.
pub fn rows_of(nodes: &[Node], message: &[u8]) -> (Answer, Vec<[u64; 3]>) {
    let (answer, rows) = whole_rows_of(nodes, message);
    let three: Vec<[u64; 3]> = rows.iter().map(|&[kind, a, b, _]| [kind, a, b]).collect();
    assert_eq!(rows, under(nodes, &three));
    (answer, three)
}

pub fn answer(nodes: &[Node], message: &[u8]) -> Answer {
    rows_of(nodes, message).0
}

/// Writes into `lent` bytes that hold garbage; the answer and all lent bytes. The rows are given the nodes that they
/// stand under.
pub fn write_lent(
    nodes: &[Node],
    modes: u128,
    rows: &[[u64; 3]],
    pool: &[u8],
    lent: usize,
) -> (Answer, Vec<u8>) {
    write_whole(nodes, modes, &under(nodes, rows), pool, lent)
}

/// The same of rows that have their nodes, right or wrong.
pub fn write_whole(
    nodes: &[Node],
    modes: u128,
    rows: &[[u64; 4]],
    pool: &[u8],
    lent: usize,
) -> (Answer, Vec<u8>) {
    let mut out = vec![0xdd; lent];
    let table = table::file(nodes);
    let answer = write::write(&table, modes, &rows.concat(), pool, &mut out, WORK_WORDS);
    let used = if answer.is_success() {
        answer.second as usize
    } else {
        0
    };
    assert!(out[used..].iter().all(|&byte| byte == 0));
    (answer, out)
}

/// Writes with room enough; the answer and the message.
pub fn message_of(
    nodes: &[Node],
    modes: u128,
    rows: &[[u64; 3]],
    pool: &[u8],
) -> (Answer, Vec<u8>) {
    let (answer, mut out) = write_lent(nodes, modes, rows, pool, 65_536);
    let used = if answer.is_success() {
        answer.second as usize
    } else {
        0
    };
    out.truncate(used);
    (answer, out)
}
