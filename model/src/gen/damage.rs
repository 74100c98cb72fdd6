//! Damage to what was sound: bytes, nodes, rows, and messages piece by piece.

use super::fixed::HEADERS;
use super::nodes::EDGE_NODES;
use super::trees::EDGE_WORDS;
use crate::label;
use crate::rng::Rng;
use crate::rows::WORDS;
use crate::spell::Pieces;
use crate::table::{self, Node};

/// Labels with a meaning somewhere, and their neighbours.
pub const EDGE_LABELS: [i64; 20] = [
    i64::MIN,
    -66,
    -65,
    -64,
    -8,
    -6,
    -5,
    -4,
    -3,
    -2,
    -1,
    0,
    1,
    2,
    3,
    63,
    64,
    8_192,
    65_537,
    i64::MAX,
];

/// Bytes that are no label: not shortest, over 64 bits, or cut if they stand last.
pub const NO_LABELS: [&[u8]; 8] = [
    b"\x80\x00",
    b"\x81\x00",
    b"\xff\xff\x00",
    b"\xff\xff\xff\xff\xff\xff\xff\xff\xff\x02",
    b"\xff\xff\xff\xff\xff\xff\xff\xff\xff\x00",
    b"\xff\xff\xff\xff\xff\xff\xff\xff\xff\x81\x01",
    b"\x80\x80\x80\x80\x80\x80\x80\x80\x80\x80\x01",
    b"\xff",
];

/// Flip, set, insert, delete, cut or append.
pub fn bytes(rng: &mut Rng, bytes: &mut Vec<u8>) {
    let len = bytes.len();
    let at = rng.below(len);
    match rng.below(8) {
        0 | 1 if len > 0 => bytes[at] ^= 1 << rng.below(8),
        2 | 3 if len > 0 => bytes[at] = rng.pick(&[0, 1, 2, 3, 4, 5, 6, 7, 0x7f, 0x80, 0xfe, 0xff]),
        4 => bytes.insert(rng.below(len + 1), rng.byte()),
        5 if len > 0 => {
            bytes.remove(at);
        }
        6 => bytes.truncate(at),
        _ => bytes.push(rng.pick(&[0, 1, 2, 0x41, 0x80, 0xff])),
    }
}

/// One change among the nodes; the count in the file follows them.
pub fn nodes(rng: &mut Rng, nodes: &mut Vec<Node>) {
    let at = rng.below(nodes.len());
    match rng.below(11) {
        0 => nodes[at].kind = rng.below(13) as u8,
        1 => nodes[at].flags = rng.pick(&[0, 1, 2, 3, 4, 8, 0x80, 0xff]),
        2 => nodes[at].argument = rng.pick(&[0, 1, 2, 3, 31, 32, 255, 256, 4_096, 4_097, 65_535]),
        3 => {
            nodes.remove(at);
        }
        4 => nodes.insert(at, Node::new(1 + rng.below(10) as u8, 0, 0)),
        5 => {
            let other = rng.below(nodes.len());
            nodes.swap(at, other);
        }
        6 => nodes.push(Node::new(table::BOOLEAN, 0, 0)),
        7 => {
            let record = nodes.iter().position(|node| node.kind == table::RECORD);
            let at = record.unwrap_or(at);
            let step = rng.pick(&[1, u16::MAX]);
            nodes[at].argument = nodes[at].argument.wrapping_add(step);
        }
        // Another key, length or flag: refusal 15 if the key is used elsewhere.
        _ => {
            let blocks: Vec<usize> = (0..nodes.len())
                .filter(|&i| nodes[i].kind == table::BLOCK)
                .collect();
            if let Some(&first) = blocks.first() {
                let block = rng.pick(&blocks);
                match rng.below(3) {
                    0 => nodes[block].argument = nodes[first].argument,
                    1 => nodes[block].flags ^= table::DEDUPLICATE,
                    _ => {
                        if let Some(child) = nodes.get_mut(block + 1) {
                            child.argument ^= 1;
                        }
                    }
                }
            }
        }
    }
    if nodes.is_empty() {
        nodes.push(Node::new(table::NULLABLE, 0, 0));
    }
}

/// One change in a row list.
pub fn rows(rng: &mut Rng, rows: &mut Vec<u64>) {
    let count = rows.len() / WORDS;
    let row = rng.below(count);
    let word = rng.below(rows.len());
    match rng.below(12) {
        0 if count > 0 => rows[WORDS * row] = rng.below(13) as u64,
        1 if count > 0 => rows[word] = rng.pick(&EDGE_WORDS),
        2 if count > 0 => rows[word] = rows[word].wrapping_add(1),
        3 if count > 0 => rows[word] = rows[word].wrapping_sub(1),
        4 if count > 0 => {
            rows.drain(WORDS * row..WORDS * (row + 1));
        }
        5 => {
            let at = WORDS * rng.below(count + 1);
            let kind = rng.below(11) as u64;
            // Often the node of the row before, as a further entry of an array would have.
            let node = match at {
                0 => 0,
                _ => rows[at - 1],
            };
            rows.splice(at..at, [kind, 0, 0, node]);
        }
        6 => rows.truncate(WORDS * row),
        7 if rng.one_in(3) => rows.truncate(word),
        8..=10 if count > 0 => node(rng, rows, row),
        _ if count > 0 => {
            let other = rng.below(count);
            for i in 0..WORDS {
                rows.swap(WORDS * row + i, WORDS * other + i);
            }
        }
        _ => rows.push(0),
    }
}

/// Another node in a row: one nearby, one of another row, one at a limit, or one that is equal in its low bits.
fn node(rng: &mut Rng, rows: &mut [u64], row: usize) {
    let count = rows.len() / WORDS;
    let other = WORDS * rng.below(count) + 3;
    let at = WORDS * row + 3;
    rows[at] = match rng.below(6) {
        0 => rows[at].wrapping_add(1 + rng.below(2) as u64),
        1 => rows[at].wrapping_sub(1 + rng.below(2) as u64),
        2 => rows[other],
        3 => rng.pick(&EDGE_NODES),
        4 => rows[at].wrapping_add(1 << rng.pick(&[8, 10, 16, 32, 63])),
        _ => 0,
    };
}

/// One change inside the pieces, whose own labels follow it. Faults of the walk
/// come of these; faults of the pieces come of damaged bytes.
pub fn pieces(rng: &mut Rng, pieces: &mut Pieces) {
    let labels = pieces.labels.len();
    match rng.below(12) {
        0..=3 if labels > 0 => {
            let at = pieces.labels[rng.below(labels)];
            if at >= pieces.core.len() {
                return;
            }
            let end = label::get(&pieces.core, at).map_or(at + 1, |(_, end)| end);
            let mut other = Vec::new();
            if rng.one_in(4) {
                other.extend(rng.pick(&NO_LABELS));
            } else {
                label::put(rng.pick(&EDGE_LABELS), &mut other);
            }
            pieces.core.splice(at..end, other);
        }
        4 => bytes(rng, &mut pieces.core),
        5 | 6 if !pieces.blocks.is_empty() => {
            let block = rng.below(pieces.blocks.len());
            bytes(rng, &mut pieces.blocks[block]);
        }
        7 if !pieces.blocks.is_empty() => {
            pieces.blocks.remove(rng.below(pieces.blocks.len()));
        }
        8 => {
            let block = vec![b'x'; rng.below(3)];
            let at = rng.below(pieces.blocks.len() + 1);
            pieces.blocks.insert(at, block);
        }
        9 if pieces.blocks.len() > 1 => {
            let other = rng.below(pieces.blocks.len());
            pieces.blocks.swap(0, other);
        }
        10 | 11 if !pieces.ends.is_empty() => end(rng, pieces),
        _ if rng.one_in(3) => pieces.header ^= 1 << rng.below(8),
        _ => pieces.header = rng.pick(&HEADERS),
    }
}

/// Behind a literal another byte than its 00, none, or one 00 more; now and then its text is wrong as well.
fn end(rng: &mut Rng, pieces: &mut Pieces) {
    let (block, at) = rng.pick(&pieces.ends);
    let piece = match block {
        Some(block) => pieces.blocks.get_mut(block),
        None => Some(&mut pieces.core),
    };
    // It may have been damaged before.
    let Some(piece) = piece.filter(|piece| at <= piece.len()) else {
        return;
    };
    if at > 0 && rng.one_in(4) {
        piece[at - 1] = rng.pick(&[0x80, 0xc3, 0xff]);
    }
    match rng.below(6) {
        0 | 1 if at < piece.len() => piece[at] = rng.pick(&[1, b'0', 0x80, 0xff]),
        2 | 3 => piece.truncate(at),
        4 if at < piece.len() => {
            piece.remove(at);
        }
        _ => piece.insert(at, 0),
    }
}
