//! The fixed list: the sheet's examples, every cell of the label matrix, both
//! sides of the limits that small cases can reach.

use super::damage::{EDGE_LABELS, NO_LABELS};
use super::trees::EDGE_WORDS;
use super::{ends, nodes, texts};
use crate::case::Case;
use crate::small::{text_field, text_record};
use crate::table::{self, file, Node, WireType};
use crate::{
    label, rows, spell, INLINE_EVERYTHING, MAX_NODES, MAX_PATH, MODES, NULL_TERMINATED_STRINGS,
    WORK_WORDS,
};

/// Rows enough for every message.
pub const ROWS: usize = rows::WORDS * 8_192;
/// Row numbers beyond all rows, some of which would wrap to a row that is there.
pub const BEYOND: [u64; 6] = [
    1 << 61,
    1 << 62,
    1 << 63,
    (1 << 62) + 1,
    u64::MAX / 3 + 1,
    u64::MAX,
];
/// Output enough for every message.
pub const OUT: usize = 65_536;
/// The sixteen headers that are read.
pub const HEADERS: [u8; 16] = [
    0x00, 0x02, 0x08, 0x0a, 0x20, 0x22, 0x28, 0x2a, 0x40, 0x42, 0x48, 0x4a, 0x60, 0x62, 0x68, 0x6a,
];

fn n(kind: u8, flags: u8, argument: u16) -> Node {
    Node::new(kind, flags, argument)
}

/// The sheet's table R: a nullable deduplicated text and an integer.
pub fn table_r() -> Vec<Node> {
    vec![
        n(7, 0, 2),
        n(10, 0, 0),
        n(9, 2, 0),
        n(1, 0, 0),
        n(9, 0, 1),
        n(3, 0, 0),
    ]
}

/// The sheet's table S: an array of deduplicated texts.
pub fn table_s() -> Vec<Node> {
    vec![n(8, 0, 0), n(9, 2, 0), n(1, 0, 0)]
}

/// The sheet's table E: an array of empty records.
pub fn table_e() -> Vec<Node> {
    vec![n(8, 0, 0), n(7, 0, 0)]
}

/// One field of every kind, some wrapped.
pub fn table_all() -> Vec<Node> {
    vec![
        n(7, 0, 8),
        n(9, 2, 3),
        n(1, 0, 0),
        n(2, 1, 0),
        n(9, 1, 1),
        n(3, 0, 0),
        n(10, 1, 0),
        n(9, 0, 2),
        n(4, 0, 0),
        n(10, 0, 0),
        n(9, 2, 0),
        n(5, 0, 0),
        n(9, 0, 4),
        n(6, 0, 3),
        n(8, 0, 0),
        n(10, 0, 0),
        n(7, 0, 1),
        n(9, 3, 3),
        n(1, 0, 0),
        n(9, 2, 3),
        n(1, 0, 0),
    ]
}

/// An omittable nullable record: one 0 in front, not two.
pub fn table_omittable_record() -> Vec<Node> {
    vec![n(7, 0, 1), n(10, 1, 0), n(7, 0, 1), n(2, 0, 0)]
}

pub fn types(nodes: &[Node]) -> Vec<WireType> {
    table::wire_types(nodes)
}

pub fn check(nodes: &[Node]) -> Case {
    Case::Table {
        work: WORK_WORDS,
        table: file(nodes),
    }
}

pub fn read(nodes: &[Node], message: &[u8]) -> Case {
    Case::Read {
        work: WORK_WORDS,
        rows: ROWS,
        table: file(nodes),
        message: message.to_vec(),
    }
}

pub fn write(nodes: &[Node], modes: u64, rows: &[u64], pool: &[u8]) -> Case {
    Case::Write {
        work: WORK_WORDS,
        out: OUT,
        modes: modes as u128,
        table: file(nodes),
        rows: rows.to_vec(),
        pool: pool.to_vec(),
    }
}

/// Every place, label and mode of the label matrix.
#[derive(Clone, Copy, Debug)]
pub struct Cell {
    pub kind: u8,
    pub deduplicate: bool,
    pub nullable: bool,
    pub omittable: bool,
    pub label: i64,
    pub modes: u64,
}

pub fn cells() -> Vec<Cell> {
    let places = [
        (table::STRING, true),
        (table::STRING, false),
        (table::BYTES, true),
        (table::BYTES, false),
        (table::BOOLEAN, false),
        (table::ARRAY, false),
        (table::VARINT, false),
        (table::FLOAT64, false),
        (table::FIXED, false),
        (table::RECORD, false),
    ];
    let mut cells = Vec::new();
    for (kind, deduplicate) in places {
        for wrapping in 0..4 {
            let (nullable, omittable) = (wrapping & 1 != 0, wrapping & 2 != 0);
            let unlabelled = matches!(
                kind,
                table::VARINT | table::FLOAT64 | table::FIXED | table::RECORD
            );
            if unlabelled && wrapping == 0 {
                continue;
            }
            for label in EDGE_LABELS {
                for modes in all_modes() {
                    cells.push(Cell {
                        kind,
                        deduplicate,
                        nullable,
                        omittable,
                        label,
                        modes,
                    });
                }
            }
        }
    }
    cells
}

/// A text as it stands in its piece: in mode 4 a 00 follows.
pub fn end_text(text: &mut Vec<u8>, modes: u64) {
    if modes & NULL_TERMINATED_STRINGS != 0 {
        text.push(0);
    }
}

pub fn all_modes() -> impl Iterator<Item = u64> {
    (0..64).filter(|modes| modes & !MODES == 0)
}

impl Cell {
    /// A record of one text and the place of the cell. A text's key is the place's
    /// own where that holds texts, so that number -4 has been given.
    pub fn nodes(&self) -> Vec<Node> {
        let text = matches!(self.kind, table::STRING | table::BYTES);
        let deduplicate = |on: bool| if on { table::DEDUPLICATE } else { 0 };
        let first = if text { self.kind } else { table::STRING };
        let block = deduplicate(self.deduplicate || !text);
        let mut nodes = vec![n(7, 0, 2), n(9, block, 0), n(first, 0, 0)];
        let top = nodes.len();
        if self.nullable {
            nodes.push(n(10, 0, 0));
        }
        match self.kind {
            table::BOOLEAN => nodes.push(n(2, 0, 0)),
            table::ARRAY => nodes.extend([n(8, 0, 0), n(2, 0, 0)]),
            table::RECORD => nodes.extend([n(7, 0, 1), n(2, 0, 0)]),
            table::FIXED => nodes.extend([n(9, 0, 1), n(6, 0, 3)]),
            table::VARINT | table::FLOAT64 => nodes.extend([n(9, 0, 1), n(self.kind, 0, 0)]),
            _ => nodes.extend([n(9, deduplicate(self.deduplicate), 0), n(self.kind, 0, 0)]),
        }
        if self.omittable {
            nodes[top].flags |= table::OMITTABLE;
        }
        nodes
    }

    /// The text, the label, and after it what a value of that label would need.
    pub fn message(&self) -> Vec<u8> {
        let inline = self.modes & INLINE_EVERYTHING != 0;
        let mut first = b"xy".to_vec();
        if self.kind != table::BYTES {
            end_text(&mut first, self.modes);
        }
        let mut core = vec![4];
        if inline {
            core.extend(&first);
        }
        let mut blocks = vec![first];
        label::put(self.label, &mut core);
        let few = usize::try_from(self.label).unwrap_or(0).min(64);
        let (own_block, value) = match self.kind {
            table::STRING | table::BYTES => {
                let mut value = vec![b'z'; few];
                if self.kind == table::STRING && self.label >= 0 {
                    end_text(&mut value, self.modes);
                }
                (false, value)
            }
            table::VARINT => (true, vec![0x09]),
            table::FLOAT64 => (true, vec![0x3f; 8]),
            table::FIXED => (true, vec![0x11, 0x22, 0x33]),
            _ => (false, Vec::new()),
        };
        if !own_block || self.label == 0 {
            if inline {
                core.extend(&value);
            } else if own_block {
                blocks.push(value);
            } else {
                blocks[0].extend(&value);
            }
        }
        match self.kind {
            table::ARRAY => core.extend(vec![0x02; few]),
            table::RECORD if self.label == 0 => core.push(0x02),
            _ => {}
        }
        spell::Pieces {
            header: (self.modes << 1) as u8,
            blocks,
            core,
            ..spell::Pieces::default()
        }
        .message()
    }

    pub fn case(&self) -> Case {
        read(&self.nodes(), &self.message())
    }
}

pub fn cases(kind: char) -> Vec<Case> {
    let mut cases = Vec::new();
    match kind {
        'T' => tables(&mut cases),
        'R' => messages(&mut cases),
        'W' => row_lists(&mut cases),
        'L' => looks(&mut cases),
        _ => parts(&mut cases),
    }
    cases.extend(texts::cases(kind));
    cases.extend(nodes::cases(kind));
    cases.extend(ends::cases(kind));
    cases
}

fn tables(cases: &mut Vec<Case>) {
    let bases = [
        table_r(),
        table_s(),
        table_e(),
        table_all(),
        table_omittable_record(),
    ];
    for nodes in &bases {
        for i in 0..nodes.len() {
            let mut changed = |change: &dyn Fn(&mut Node)| {
                let mut nodes = nodes.clone();
                change(&mut nodes[i]);
                cases.push(check(&nodes));
            };
            for kind in (0..13).chain([255]) {
                changed(&|node| node.kind = kind);
            }
            for flags in [0, 1, 2, 3, 4, 5, 8, 128, 255] {
                changed(&|node| node.flags = flags);
            }
            for argument in [0, 1, 2, 3, 31, 32, 33, 256, 4_095, 4_096, 4_097, 65_535] {
                changed(&|node| node.argument = argument);
            }
            let mut less = nodes.clone();
            less.remove(i);
            cases.push(check(&less));
            let mut more = nodes.clone();
            more.insert(i, n(2, 0, 0));
            cases.push(check(&more));
        }
        let whole = file(nodes);
        for work in [0, 1, WORK_WORDS - 1, WORK_WORDS, WORK_WORDS + 1, 20_000] {
            for table in [whole.clone(), Vec::new()] {
                cases.push(Case::Table { work, table });
            }
        }
        for len in 0..whole.len() {
            let table = whole[..len].to_vec();
            cases.push(Case::Table {
                work: WORK_WORDS,
                table,
            });
        }
        for at in 0..7 {
            for byte in [0, 1, 2, 6, 7, 255] {
                let mut table = whole.clone();
                table[at] = byte;
                cases.push(Case::Table {
                    work: WORK_WORDS,
                    table,
                });
            }
        }
        let mut longer = whole.clone();
        longer.push(0);
        cases.push(Case::Table {
            work: WORK_WORDS,
            table: longer,
        });
    }
    for depth in [MAX_PATH - 1, MAX_PATH, MAX_PATH + 1, MAX_PATH + 2] {
        cases.push(check(&array_chain(depth, false)));
        cases.push(check(&array_chain(depth, true)));
        // The same depth in a record's second field.
        let mut nodes = vec![n(7, 0, 2), n(2, 0, 0)];
        nodes.extend(array_chain(depth - 1, true));
        cases.push(check(&nodes));
    }
    for count in [1, 2, MAX_NODES - 1, MAX_NODES, MAX_NODES + 1] {
        let mut nodes = vec![n(7, 0, count as u16 - 1)];
        nodes.extend(vec![n(2, 0, 0); count - 1]);
        cases.push(check(&nodes));
    }
    // A key against its first use, not against the use before.
    let block = |flags, kind, argument| [n(9, flags, 5), n(kind, 0, argument)];
    let uses = [
        block(0, 1, 0),
        block(2, 1, 0),
        block(0, 5, 0),
        block(0, 6, 4),
        block(0, 6, 5),
        block(1, 6, 4),
    ];
    for first in &uses {
        for second in &uses {
            for third in &uses {
                let mut nodes = vec![n(7, 0, 3)];
                nodes.extend([first, second, third].into_iter().flatten());
                cases.push(check(&nodes));
                // A later fault of nesting comes before the keys.
                nodes.push(n(2, 0, 0));
                cases.push(check(&nodes));
            }
        }
    }
}

/// Arrays in arrays, `depth` nodes deep, with a truth or a text at the end.
pub fn array_chain(depth: usize, text: bool) -> Vec<Node> {
    let ending = if text {
        vec![n(9, 2, 0), n(1, 0, 0)]
    } else {
        vec![n(2, 0, 0)]
    };
    let mut nodes = vec![n(8, 0, 0); depth - ending.len()];
    nodes.extend(ending);
    nodes
}

/// The first message of the sheet, for table R.
const FIRST: &[u8] = b"\x00\x04ok\x02\x01\x02\x04";

/// The sheet's messages, and the mistakes that look right.
pub fn sheet() -> Vec<Case> {
    let (r, s, e) = (table_r(), table_s(), table_e());
    let mut cases = Vec::new();
    for message in [
        FIRST,
        b"\x00\x02\x0a\x02\x01",
        b"\x00\x14\xff\xff\xff\xff\xff\xff\xff\xff\xff\x01\x02\x01",
        b"\x00\x14\xff\xff\xff\xff\xff\xff\xff\xff\xff\x02\x02\x01",
        // The text before its number, no block for the integer, one block too many.
        b"\x00\x02\x01\x02\x07",
        b"\x00\x04ok\x02\x04",
        b"\x00\x04ok\x02\x01\x00\x02\x04",
        // The key is new and the literal too long: 29 before 27.
        b"\x00\x02\x7e",
        b"\x00\x04ok\x04\xfe\x01",
        // Too long and not UTF-8 at once; not UTF-8 alone.
        b"\x00\x04\xff\xff\x02\x01\x02\x06",
        b"\x00\x04\xff\xff\x02\x01\x02\x04",
    ] {
        cases.push(read(&r, message));
    }
    for message in [
        &b"\x00\x02A\x08\x06\x00\x02\x07"[..],
        b"\x00\x18PASSEDKILLED\x08\x06\x0c\x0c\x07",
        b"\x00\x24PASSEDKILLEDPASSED\x08\x06\x0c\x0c\x0c",
        b"\x00\x04\x02\x07",
        b"\x00\x04\x02\x05",
        b"\x00\x04\x80\x00",
        b"\x00",
        b"\x00\x00",
        b"\x00\x00\x00",
        b"\x00\x01",
        b"\x00\x02",
        b"\x00\x02\x00",
        b"\x00\x00\x02\x00",
        b"\x00\x02A\x02\x00",
        b"\x02\x00",
        b"\x02\x02\x00",
        b"\x02\x06\x02A\x02A\x07",
        b"\x42\x06\x02A\x02A\x07",
        b"\x02\x02\x04A",
        b"\x02",
    ] {
        cases.push(read(&s, message));
    }
    cases.push(read(&e, b"\x00\x04\xfe\x7f"));
    cases.push(read(&e, b"\x00\x06\x80\x80\x01"));
    cases.push(read(
        &e,
        b"\x00\x14\xfe\xff\xff\xff\xff\xff\xff\xff\xff\x01",
    ));
    for message in [
        &b"\x00\x04\x00\x02"[..],
        b"\x00\x06\x00\x00\x02",
        b"\x00\x02\x03",
        b"\x00\x02\x01",
        b"\x00\x02\x05",
        b"\x08\x02\x05",
    ] {
        cases.push(read(&table_omittable_record(), message));
    }
    // One numbering for each key: the first of either, and what one for both would say.
    let two_keys = [&[n(7, 0, 4)][..], &two_texts(), &two_texts()].concat();
    cases.push(read(&two_keys, b"\x00\x02a\x02b\x08\x02\x02\x07\x07"));
    cases.push(read(&two_keys, b"\x00\x02a\x02b\x08\x02\x02\x07\x09"));
    // A record under NULLABLE has its 0; a count alone is not trusted; -2^63 names nothing.
    let nullable_record = [n(10, 0, 0), n(7, 0, 1), n(2, 0, 0)];
    cases.push(read(&nullable_record, b"\x00\x04\x00\x02"));
    cases.push(read(&nullable_record, b"\x00\x02\x02"));
    let truths = [n(8, 0, 0), n(2, 0, 0)];
    cases.push(read(
        &truths,
        b"\x00\x14\xfe\xff\xff\xff\xff\xff\xff\xff\xff\x01",
    ));
    cases.push(read(
        &s,
        b"\x00\x16\x02\xff\xff\xff\xff\xff\xff\xff\xff\xff\x01",
    ));
    // The same tree in 130 bytes and in 129: the last text named, and written out.
    let texts = text_record(63);
    for last in [&b"\x81\x01"[..], b"\x02"] {
        let mut block: Vec<u8> = (1..=62).collect();
        if last.len() == 1 {
            block.push(62);
        }
        let mut core = vec![2; 62];
        core.extend(last);
        let pieces = spell::Pieces {
            blocks: vec![block],
            core,
            ..spell::Pieces::default()
        };
        cases.push(read(&texts, &pieces.message()));
    }
    // It is written with the last text named, and does not fit where the other one would.
    let mut list = vec![rows::RECORD, 63, 0, 0];
    for i in 0..63 {
        list.extend([rows::STRING, i.min(61), 1, text_field(i)]);
    }
    for out in [129, 130] {
        cases.push(Case::Write {
            work: WORK_WORDS,
            out,
            modes: 0,
            table: file(&texts),
            rows: list.clone(),
            pool: (1..=62).collect(),
        });
    }
    // Each key names its own texts, and none of the other's.
    let text = |start, node| [rows::STRING, start, 1, node];
    let list = [
        [rows::RECORD, 4, 0, 0],
        text(0, 1),
        text(1, 3),
        text(2, 5),
        text(3, 7),
    ];
    for pool in [b"abab", b"aaaa", b"abba"] {
        cases.push(write(&two_keys, 0, &list.concat(), pool));
    }
    cases
}

/// Two deduplicated texts under different keys.
pub fn two_texts() -> [Node; 4] {
    [n(9, 2, 0), n(1, 0, 0), n(9, 2, 1), n(1, 0, 0)]
}

fn messages(cases: &mut Vec<Case>) {
    cases.extend(cells().iter().map(Cell::case));
    cases.extend(sheet());
    let (r, s) = (table_r(), table_s());
    // Every first byte, with what follows for pieces and for mode 0.
    for header in 0..=255u8 {
        for rest in [&FIRST[1..], b"\x04ok\x01", b"\x00\x04ok\x02\x01\x02\x04"] {
            let mut message = vec![header];
            message.extend(rest);
            cases.push(read(&r, &message));
        }
        cases.push(read(&r, &[header]));
    }
    cases.push(read(&r, b""));
    // What is no label: as a piece's, in the core, as a VARINT, in all modes.
    for bad in NO_LABELS {
        for cut in 1..=bad.len() {
            let bad = &bad[..cut];
            cases.push(read(&s, &[b"\x00", bad].concat()));
            cases.push(read(&s, &[b"\x00\x00", bad].concat()));
            cases.push(read(&s, &[b"\x02", bad].concat()));
            let size = 2 * bad.len() as u8;
            cases.push(read(&s, &[b"\x00", &[size][..], bad].concat()));
            cases.push(read(&s, &[b"\x02\x02", bad].concat()));
            cases.push(read(&r, &[b"\x00", &[size][..], bad, b"\x02\x01"].concat()));
            cases.push(read(&r, &[b"\x02\x01", bad].concat()));
        }
    }
    // Short and lent-just-enough rows; too little work.
    for rows in 0..=16 {
        cases.push(Case::Read {
            work: WORK_WORDS,
            rows,
            table: file(&r),
            message: FIRST.to_vec(),
        });
    }
    for work in [0, WORK_WORDS - 1, WORK_WORDS + 1] {
        cases.push(Case::Read {
            work,
            rows: 10,
            table: file(&r),
            message: FIRST.to_vec(),
        });
    }
    // Values of eight and of three bytes, with one byte less and one more.
    for (kind, len) in [(4u8, 8usize), (6, 3), (6, 0)] {
        let argument = if kind == 6 { len as u16 } else { 0 };
        let nodes = [n(8, 0, 0), n(9, 0, 7), n(kind, 0, argument)];
        for have in len.saturating_sub(1)..=len + 1 {
            let mut message = vec![0, 2 * have as u8];
            message.extend(vec![0x77; have]);
            message.extend([2, 2]);
            cases.push(read(&nodes, &message));
        }
        cases.push(read(&nodes, b"\x00\x02\x02"));
    }
}

/// Trees for the writer's fixed cases: table, rows, pool.
pub fn base_trees() -> Vec<(Vec<Node>, Vec<u64>, Vec<u8>)> {
    let text = |start, len| [rows::STRING, start, len, 1];
    let all_rows = [
        [rows::RECORD, 8, 0, 0],
        text(0, 2),
        [rows::TRUE, 0, 0, 3],
        [rows::INTEGER, u64::MAX, 0, 4],
        [rows::FLOAT, 0x7ff8_0000_0000_0001, 0, 6],
        [rows::BYTES, 1, 3, 9],
        [rows::FIXED, 2, 3, 12],
        [rows::ARRAY, 3, 0, 14],
        [rows::RECORD, 1, 0, 15],
        [rows::STRING, 4, 2, 17],
        [rows::NULL, 0, 0, 15],
        [rows::RECORD, 1, 0, 15],
        [rows::ABSENT, 0, 0, 17],
        [rows::STRING, 6, 0, 19],
    ];
    vec![
        (
            table_r(),
            vec![9, 2, 0, 0, 6, 0, 2, 1, 4, u64::MAX, 0, 4],
            b"ok".to_vec(),
        ),
        (
            table_r(),
            vec![9, 2, 0, 0, 0, 0, 0, 1, 4, 5, 0, 4],
            Vec::new(),
        ),
        (
            table_s(),
            [[10, 3, 0, 0], text(0, 6), text(6, 6), text(12, 6)].concat(),
            b"PASSEDKILLEDPASSED".to_vec(),
        ),
        (
            table_s(),
            [[10, 3, 0, 0], text(1, 0), text(0, 1), text(0, 0)].concat(),
            b"A".to_vec(),
        ),
        (table_s(), vec![10, 0, 0, 0], Vec::new()),
        (
            table_e(),
            vec![10, 2, 0, 0, 9, 0, 0, 1, 9, 0, 0, 1],
            Vec::new(),
        ),
        (table_all(), all_rows.concat(), b"ababab".to_vec()),
    ]
}

fn row_lists(cases: &mut Vec<Case>) {
    for (nodes, rows, pool) in base_trees() {
        for modes in 0..256 {
            cases.push(write(&nodes, modes, &rows, &pool));
        }
        for bit in 0..64 {
            cases.push(write(&nodes, 1 << bit, &rows, &pool));
            cases.push(write(&nodes, 1 << bit | 1, &rows[1..], &pool));
        }
        for work in [0, WORK_WORDS - 1, WORK_WORDS + 1] {
            cases.push(Case::Write {
                work,
                out: 99,
                modes: 0,
                table: file(&nodes),
                rows: rows.clone(),
                pool: pool.clone(),
            });
        }
        for at in 0..rows.len() {
            for word in (0..13).chain(EDGE_WORDS) {
                let mut rows = rows.clone();
                rows[at] = word;
                cases.push(write(&nodes, 0, &rows, &pool));
            }
            cases.push(write(&nodes, 0, &rows[..at], &pool));
        }
        for more in [&[0][..], &[0, 0, 0], &[0; 4], &[9, 9, 9, 9], &[99, 1, 1, 1]] {
            let rows = [&rows, more].concat();
            cases.push(write(&nodes, 4, &rows, &pool));
        }
        let full = write(&nodes, 0, &rows, &pool);
        let Some(answer) = full.answer().answer() else {
            continue;
        };
        for out in 0..=answer.second as usize + 2 {
            cases.push(Case::Write {
                work: WORK_WORDS,
                out,
                modes: 0,
                table: file(&nodes),
                rows: rows.clone(),
                pool: pool.clone(),
            });
        }
    }
    let s = table_s();
    for bad in [&b"\x80"[..], b"\xc3", b"\xe2\x82", b"\xf8\x80\x80\x80"] {
        let len = bad.len() as u64;
        // 28 alone; a 42 in a later row; a place too far in the same row.
        let (one, two) = ([10, 1, 0, 0], [10, 2, 0, 0]);
        let text = |len| [6, 0, len, 1];
        cases.push(write(&s, 0, &[one, text(len)].concat(), bad));
        cases.push(write(&s, 0, &[two, text(len), text(9)].concat(), bad));
        cases.push(write(&s, 0, &[one, text(len + 1)].concat(), bad));
        cases.push(write(&s, 0, &[two, text(len)].concat(), bad));
    }
}

fn looks(cases: &mut Vec<Case>) {
    let words = [0, 1, 4, 5, 6, 1 << 63, u64::MAX];
    for kind in (0..13).chain([1 << 63, u64::MAX]) {
        for a in words {
            for b in words {
                for bytes in [0, 1, 5] {
                    cases.push(Case::Look {
                        bytes,
                        index: 0,
                        rows: vec![kind, a, b, a % 3],
                    });
                }
            }
        }
    }
    for len in 0..13 {
        for index in (0..4).chain(BEYOND) {
            cases.push(Case::Look {
                bytes: 2,
                index,
                rows: (0..len).map(|i| [6, 1, 1, 7][i % 4]).collect(),
            });
        }
    }
    for a in EDGE_WORDS {
        for kind in [rows::INTEGER, rows::FLOAT] {
            cases.push(Case::Look {
                bytes: 0,
                index: 1,
                rows: vec![99, 1, 1, 1, kind, a, 0, 1],
            });
        }
    }
    for bits in [f64::NAN.to_bits(), 0x7ff0_0000_0000_0001, 1.5f64.to_bits()] {
        cases.push(Case::Look {
            bytes: 0,
            index: 0,
            rows: vec![rows::FLOAT, bits, 0, 2],
        });
    }
}

fn parts(cases: &mut Vec<Case>) {
    let words = [0, 1, 2, 3, 5, 6, 1 << 63, u64::MAX];
    for kind in 0..13 {
        for a in words {
            for b in words {
                for data in [&b""[..], b"x", b"hello"] {
                    cases.push(Case::Part {
                        index: 0,
                        rows: vec![kind, a, b, a % 3],
                        data: data.to_vec(),
                    });
                }
            }
        }
    }
    for len in 0..13 {
        for index in (0..4).chain(BEYOND) {
            cases.push(Case::Part {
                index,
                rows: (0..len).map(|i| [6, 1, 1, 7][i % 4]).collect(),
                data: b"hi".to_vec(),
            });
        }
    }
}
