//! The case generator: sound cases, damaged ones, and both sides of every limit.

pub mod damage;
pub mod ends;
pub mod fixed;
pub mod limits;
pub mod nodes;
pub mod texts;
pub mod trees;

use crate::case::Case;
use crate::label;
use crate::rng::Rng;
use crate::spell::{self, Pieces};
use crate::table::{self, file, Node};
use crate::{
    rows, INLINE_EVERYTHING, MAX_BYTES, MAX_NODES, MAX_NUMBERED, MAX_ROWS, MODES,
    NULL_TERMINATED_STRINGS, WORK_WORDS,
};
use fixed::{OUT, ROWS};

pub const KINDS: &str = "TRWLP";

/// One case in so many is big: thousands of rows or literals.
const BIG: usize = 250;

pub struct Cases {
    rng: Rng,
    /// Kinds to draw from, the weighty ones several times.
    draw: Vec<char>,
    fixed: [Vec<Case>; 5],
}

impl Cases {
    pub fn new(seed: u64, kinds: &str) -> Cases {
        let weights = [('T', 4), ('R', 7), ('W', 7), ('L', 1), ('P', 1)];
        let draw = weights
            .iter()
            .filter(|(kind, _)| kinds.contains(*kind))
            .flat_map(|&(kind, weight)| vec![kind; weight])
            .collect();
        let fixed = std::array::from_fn(|i| {
            let kind = KINDS.as_bytes()[i] as char;
            if kinds.contains(kind) {
                fixed::cases(kind)
            } else {
                Vec::new()
            }
        });
        Cases {
            rng: Rng::new(seed),
            draw,
            fixed,
        }
    }

    pub fn next_case(&mut self) -> Case {
        let kind = self.rng.pick(&self.draw);
        let rng = &mut self.rng;
        if rng.one_in(4) {
            let fixed = &self.fixed[KINDS.find(kind).expect("a known kind")];
            let mut case = fixed[rng.below(fixed.len())].clone();
            vary(rng, &mut case);
            return case;
        }
        match kind {
            'T' => Case::Table {
                work: work(rng),
                table: table_file(rng),
            },
            'R' if rng.one_in(BIG) => big_read(rng),
            'R' => read(rng),
            'W' if rng.one_in(BIG) => big_write(rng),
            'W' => write(rng),
            'L' => Case::Look {
                bytes: rng.pick(&[0, 1, 5, 20, 20, 70_000]),
                index: index(rng),
                rows: loose_rows(rng),
            },
            _ => {
                let len = rng.pick(&[0, 1, 5, 20, 20]);
                Case::Part {
                    index: index(rng),
                    rows: loose_rows(rng),
                    data: (0..len).map(|_| rng.byte()).collect(),
                }
            }
        }
    }
}

/// Other sizes of the lent buffers under a fixed case.
fn vary(rng: &mut Rng, case: &mut Case) {
    match case {
        Case::Read { rows, .. } if *rows == ROWS => {
            *rows = rng.pick(&[200, 200, 201, 202, 203, 1, 7, 8, 11, 12, 13, ROWS, ROWS + 5])
        }
        Case::Write { out, .. } if *out == OUT => *out = rng.pick(&[300, 300, 299, OUT, OUT + 1]),
        _ => {}
    }
    if let Case::Read { table, .. } | Case::Write { table, .. } = case {
        if rng.one_in(40) {
            *table = bad_table(rng);
        }
    }
}

fn work(rng: &mut Rng) -> usize {
    if rng.one_in(40) {
        return rng.pick(&[0, 1, 100, WORK_WORDS - 1]);
    }
    if rng.one_in(8) {
        return WORK_WORDS + rng.below(5_000);
    }
    WORK_WORDS
}

/// A table file: sound, damaged among its nodes, or damaged in its bytes.
fn table_file(rng: &mut Rng) -> Vec<u8> {
    let mut nodes = trees::nodes(rng);
    if rng.one_in(60) {
        let depth = 31 + rng.below(4);
        nodes = trees::chain(rng, depth);
    }
    let way = rng.below(10);
    if way >= 4 {
        for _ in 0..1 + rng.below(3) {
            damage::nodes(rng, &mut nodes);
        }
    }
    let mut table = file(&nodes);
    if way == 9 {
        damage::bytes(rng, &mut table);
    }
    table
}

/// A table that reader or writer refuse, each refusal as often as the others.
fn bad_table(rng: &mut Rng) -> Vec<u8> {
    let mut nodes = sound_nodes(rng);
    let at = rng.below(nodes.len());
    match rng.below(7) {
        3 => nodes[at].flags |= 4,
        4 => nodes.push(Node::new(table::BOOLEAN, 0, 0)),
        5 => {
            let key = rng.below(32) as u16;
            nodes = vec![Node::new(table::RECORD, 0, 2)];
            for kind in [table::STRING, table::BYTES] {
                nodes.push(Node::new(table::BLOCK, 0, key));
                nodes.push(Node::new(kind, 0, 0));
            }
        }
        6 => return table_file(rng),
        front => {
            let mut table = file(&nodes);
            table[[0, 3, 5][front]] ^= 1;
            return table;
        }
    }
    file(&nodes)
}

/// A table for reader and writer: nearly always sound.
fn sound_nodes(rng: &mut Rng) -> Vec<Node> {
    match rng.below(10) {
        0 => fixed::table_r(),
        1 => fixed::table_s(),
        2 => fixed::table_all(),
        _ => trees::nodes(rng),
    }
}

fn modes(rng: &mut Rng) -> u64 {
    let mut modes = 0;
    for mode in [0, 2, 4, 5] {
        if rng.one_in(3) {
            modes |= 1 << mode;
        }
    }
    modes
}

fn fuel(rng: &mut Rng) -> usize {
    match rng.below(40) {
        0 => 600,
        1..=5 => 120,
        _ => 1 + rng.below(25),
    }
}

/// Lent 64-bit words for a tree of `count` rows: just enough, short, or ample.
fn lent_rows(rng: &mut Rng, count: usize) -> usize {
    let whole = rows::WORDS * count;
    match rng.below(16) {
        0 => whole,
        1 => whole.saturating_sub(1 + rng.below(rows::WORDS)),
        2 => rng.below(whole + 1),
        3 => whole + 1 + rng.below(rows::WORDS - 1),
        4 if rng.one_in(4) => ROWS + rng.below(8),
        5 => rng.pick(&[0, 3 * count]),
        _ => whole + rng.below(40),
    }
}

fn read(rng: &mut Rng) -> Case {
    let nodes = sound_nodes(rng);
    let types = table::wire_types(&nodes);
    let fuel = fuel(rng);
    let tree = trees::tree(rng, &types, fuel);
    let modes = modes(rng);
    // Now and then a modest encoder, else one that spells as it likes.
    let plain = rng.one_in(3);
    let mut pieces = spell::spell(&types, &tree.rows, &tree.pool, modes, &mut |ways| {
        if plain {
            1
        } else {
            rng.below(ways)
        }
    });
    let way = rng.below(10);
    if (4..8).contains(&way) {
        for _ in 0..1 + rng.below(2) {
            damage::pieces(rng, &mut pieces);
        }
    }
    let mut message = pieces.message();
    if way >= 8 {
        for _ in 0..1 + rng.below(3) {
            damage::bytes(rng, &mut message);
        }
    }
    let mut table = file(&nodes);
    if rng.one_in(40) {
        table = bad_table(rng);
    }
    Case::Read {
        work: work(rng),
        rows: lent_rows(rng, tree.rows.len() / rows::WORDS),
        table,
        message,
    }
}

fn write(rng: &mut Rng) -> Case {
    let nodes = sound_nodes(rng);
    let types = table::wire_types(&nodes);
    let fuel = fuel(rng);
    let mut tree = trees::tree(rng, &types, fuel);
    let mut modes = modes(rng) as u128;
    // The size is known while the tree is sound.
    let pieces = spell::spell(&types, &tree.rows, &tree.pool, modes as u64, &mut |_| 1);
    let size = pieces.message().len();
    if rng.one_in(2) {
        for _ in 0..1 + rng.below(2) {
            damage::rows(rng, &mut tree.rows);
        }
    }
    if rng.one_in(30) {
        let pool = rng.below(tree.pool.len() + 1);
        tree.pool.truncate(pool);
    }
    if rng.one_in(20) {
        modes |= match rng.below(3) {
            0 => 1 << rng.below(7),
            1 => 1 << rng.below(64),
            _ => rng.word() as u128,
        };
    }
    let out = match rng.below(12) {
        0 | 1 => size,
        2 | 3 => size.saturating_sub(1 + rng.below(2)),
        4 => rng.below(size + 1),
        5 => 0,
        6 if rng.one_in(4) => OUT + rng.below(4),
        _ => size + rng.below(64),
    };
    let mut table = file(&nodes);
    if rng.one_in(40) {
        table = bad_table(rng);
    }
    Case::Write {
        work: work(rng),
        out,
        modes,
        table,
        rows: tree.rows,
        pool: tree.pool,
    }
}

fn index(rng: &mut Rng) -> u64 {
    match rng.below(8) {
        0 => rng.pick(&fixed::BEYOND),
        _ => rng.below(3) as u64,
    }
}

/// Words for rows that need not be sound, nor whole.
fn loose_rows(rng: &mut Rng) -> Vec<u64> {
    let mut words = Vec::new();
    for _ in 0..rng.below(5) {
        let kind = match rng.below(2) {
            0 => 6 + rng.below(3),
            _ => rng.below(12),
        };
        let mut word = || match rng.below(5) {
            0 => rng.pick(&trees::EDGE_WORDS),
            1 => rng.below(22) as u64,
            2 | 3 => rng.below(6) as u64,
            _ => 0,
        };
        words.extend([kind as u64, word(), word()]);
        words.push(match rng.below(6) {
            0 => rng.pick(&nodes::EDGE_NODES),
            1 => rng.pick(&trees::EDGE_WORDS),
            _ => rng.below(MAX_NODES) as u64,
        });
    }
    words.extend(vec![0; rng.below(rows::WORDS)]);
    words
}

pub fn assemble(modes: u64, blocks: Vec<Vec<u8>>, core: Vec<u8>) -> Vec<u8> {
    Pieces {
        header: (modes << 1) as u8,
        blocks,
        core,
        ..Pieces::default()
    }
    .message()
}

/// What stands around the one text of a message that is about as long as can be, its 00 in mode 4 among it.
pub fn shell(modes: u64) -> usize {
    let zero = usize::from(modes & NULL_TERMINATED_STRINGS != 0);
    match modes & INLINE_EVERYTHING {
        0 => 1 + 3 + 1 + 1 + 3 + zero,
        _ => 1 + 1 + 3 + zero,
    }
}

/// A number of a limit's neighbourhood.
fn near(rng: &mut Rng, limit: usize) -> usize {
    limit - 1 + rng.below(3)
}

fn big_read(rng: &mut Rng) -> Case {
    let any_modes = modes(rng);
    let inline = any_modes & 1 != 0;
    let (nodes, message) = match rng.below(7) {
        // Entries that need no bytes, up to the last row and past it.
        0 => {
            let mut core = Vec::new();
            label::put(near(rng, MAX_ROWS - 1) as i64, &mut core);
            (fixed::table_e(), assemble(any_modes, vec![], core))
        }
        // The last number, and the literal after it; then backreferences.
        1 | 2 => {
            let literals = near(rng, MAX_NUMBERED) + rng.below(2);
            let references = rng.pick(&[0, 10, 4_000, 4_095, 4_096]);
            let (mut core, mut block) = (Vec::new(), Vec::new());
            label::put((literals + references) as i64, &mut core);
            for i in 0..literals {
                let text = format!("{i:x}");
                let text = &text.as_bytes()[..rng.below(text.len() + 1)];
                label::put(text.len() as i64, &mut core);
                let piece = if inline { &mut core } else { &mut block };
                piece.extend(text);
                fixed::end_text(piece, any_modes);
            }
            for _ in 0..references {
                label::put(-4 - rng.below(literals) as i64, &mut core);
            }
            (fixed::table_s(), assemble(any_modes, vec![block], core))
        }
        // The longest message, and one byte more.
        3 => {
            let size = near(rng, MAX_BYTES);
            let text = vec![b't'; size - shell(any_modes)];
            (fixed::table_s(), texts::message(&[&text], any_modes))
        }
        // Blocks that nobody asks for, as many as there can be.
        4 => {
            let mut message = vec![0; 1 + rng.below(MAX_BYTES)];
            message[0] = (any_modes << 1) as u8;
            let empty_record = vec![Node::new(table::RECORD, 0, 0)];
            (
                rng.pick(&[&empty_record, &fixed::table_e()]).clone(),
                message,
            )
        }
        // One long text, of any characters.
        5 => {
            let len = rng.below(60_000);
            let text = texts::near_in(rng, len);
            (fixed::table_s(), texts::message(&[&text], any_modes))
        }
        // A table with all nodes.
        _ => {
            let nodes = wide_table(rng);
            let types = table::wire_types(&nodes);
            let tree = trees::tree(rng, &types, 2_000);
            let pieces = spell::spell(&types, &tree.rows, &tree.pool, any_modes, &mut |ways| {
                rng.below(ways)
            });
            (nodes, pieces.message())
        }
    };
    Case::Read {
        work: WORK_WORDS,
        rows: rng.pick(&[
            ROWS,
            ROWS,
            ROWS - 1,
            ROWS - 4,
            ROWS + 5,
            3 * MAX_ROWS,
            rows::WORDS * MAX_NUMBERED,
            rows::WORDS * (MAX_NUMBERED + 1),
        ]),
        table: file(&nodes),
        message,
    }
}

/// 1,024 nodes: texts of all keys under one record, and truths to fill it up.
fn wide_table(rng: &mut Rng) -> Vec<Node> {
    let mut nodes = vec![Node::new(table::RECORD, 0, 0)];
    let texts = 500 + rng.below(12);
    for _ in 0..texts {
        let key = rng.below(32) as u16;
        let flags = table::DEDUPLICATE | rng.below(2) as u8;
        nodes.push(Node::new(table::BLOCK, flags, key));
        nodes.push(Node::new(table::STRING, 0, 0));
    }
    nodes[0].argument = (texts + MAX_NODES - nodes.len()) as u16;
    nodes.resize(MAX_NODES, Node::new(table::BOOLEAN, 0, 0));
    nodes
}

fn big_write(rng: &mut Rng) -> Case {
    let any_modes = modes(rng);
    let text = |start: usize, len: usize| [rows::STRING, start as u64, len as u64, 1];
    let (nodes, rows, pool) = match rng.below(6) {
        // Rows up to the limit and past it.
        0 => {
            let entries = near(rng, MAX_ROWS - 1);
            let mut rows = vec![rows::ARRAY, entries as u64, 0, 0];
            rows.extend([rows::RECORD, 0, 0, 1].repeat(entries));
            (fixed::table_e(), rows, Vec::new())
        }
        // Different values up to the limit and past it, and repeats of some.
        1 | 2 => {
            let different = near(rng, MAX_NUMBERED);
            let repeats = rng.pick(&[0, 10, 4_000]);
            let pool: Vec<u8> = (0..different)
                .flat_map(|i| [b'a' + (i % 64) as u8 / 4, (i / 64) as u8, (i % 64) as u8])
                .collect();
            let mut rows = vec![rows::ARRAY, (different + repeats) as u64, 0, 0];
            rows.extend((0..different).flat_map(|i| text(3 * i, 3)));
            rows.extend((0..repeats).flat_map(|_| text(3 * rng.below(different), 3)));
            (fixed::table_s(), rows, pool)
        }
        // The longest message and pool, and one byte more.
        3 => {
            let size = near(rng, MAX_BYTES);
            let shell = shell(any_modes);
            let extra = rng.pick(&[0, shell, shell + 1]);
            let pool = vec![b'p'; size - shell + extra];
            let rows = [[rows::ARRAY, 1, 0, 0], text(0, size - shell)].concat();
            (fixed::table_s(), rows, pool)
        }
        // One long text, of any characters.
        4 => {
            let len = rng.below(60_000);
            let pool = texts::near_in(rng, len);
            let rows = [[rows::ARRAY, 1, 0, 0], text(0, pool.len())].concat();
            (fixed::table_s(), rows, pool)
        }
        // The same long places again and again: far over the limit, unless named.
        _ => {
            let pool = vec![b'q'; 3_000];
            let entries = 40 + rng.below(200);
            let mut rows = vec![rows::ARRAY, entries as u64, 0, 0];
            for _ in 0..entries {
                let len = rng.pick(&[2_900, 2_901, 10]);
                rows.extend(text(rng.below(99), len));
            }
            (fixed::table_s(), rows, pool)
        }
    };
    Case::Write {
        work: WORK_WORDS,
        out: rng.pick(&[OUT, OUT, OUT - 1, OUT + 1, 70_000, 9_000]),
        modes: (any_modes & MODES) as u128,
        table: file(&nodes),
        rows,
        pool,
    }
}
