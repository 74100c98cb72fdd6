//! Random tables, and random trees that fit them.

use super::texts;
use crate::rng::Rng;
use crate::table::{self, Node, WireType};
use crate::{rows, KEYS, MAX_BYTES, MAX_NODES, MAX_PATH};

/// Words that lie on a limit somewhere.
pub const EDGE_WORDS: [u64; 18] = [
    0,
    1,
    2,
    3,
    5,
    63,
    64,
    8_191,
    8_192,
    65_536,
    65_537,
    1 << 31,
    1 << 32,
    (1 << 63) - 1,
    1 << 63,
    (1 << 63) + 1,
    u64::MAX - 1,
    u64::MAX,
];

/// What one key holds in a table.
#[derive(Clone, Copy)]
struct Key {
    number: u16,
    scalar: Node,
    deduplicate: bool,
}

/// A sound table: mostly small, sometimes deep, seldom with all nodes.
pub fn nodes(rng: &mut Rng) -> Vec<Node> {
    let (budget, depth) = match rng.below(200) {
        0 => (MAX_NODES, MAX_PATH),
        1..=3 => (1 + rng.below(200), MAX_PATH),
        4..=9 => return chain(rng, MAX_PATH),
        10..=39 => (1 + rng.below(40), 8),
        _ => (1 + rng.below(14), 6),
    };
    let mut builder = Builder::new(rng);
    builder.root(budget, depth);
    builder.nodes
}

/// A table with one path of just `depth` nodes.
pub fn chain(rng: &mut Rng, depth: usize) -> Vec<Node> {
    let mut builder = Builder::new(rng);
    builder.chain(depth);
    builder.nodes
}

struct Builder<'a> {
    rng: &'a mut Rng,
    nodes: Vec<Node>,
    keys: Vec<Key>,
}

impl<'a> Builder<'a> {
    fn new(rng: &'a mut Rng) -> Builder<'a> {
        let most = if rng.one_in(10) { KEYS } else { 4 };
        let first = rng.below(KEYS);
        let keys = (0..1 + rng.below(most))
            .map(|i| {
                let kind = rng.pick(&[
                    table::STRING,
                    table::STRING,
                    table::STRING,
                    table::BYTES,
                    table::VARINT,
                    table::FLOAT64,
                    table::FIXED,
                ]);
                let length = match kind {
                    table::FIXED => rng.pick(&[0, 1, 2, 4, 8, 20]),
                    _ => 0,
                };
                let text = matches!(kind, table::STRING | table::BYTES);
                Key {
                    number: ((first + i) % KEYS) as u16,
                    scalar: Node::new(kind, 0, length),
                    deduplicate: text && !rng.one_in(4),
                }
            })
            .collect();
        Builder {
            rng,
            nodes: Vec::new(),
            keys,
        }
    }

    fn push(&mut self, kind: u8, flags: u8, argument: usize) {
        self.nodes.push(Node::new(kind, flags, argument as u16));
    }

    fn block(&mut self, flags: u8) {
        let key = self.rng.pick(&self.keys);
        let deduplicate = if key.deduplicate {
            table::DEDUPLICATE
        } else {
            0
        };
        self.push(table::BLOCK, flags | deduplicate, key.number as usize);
        self.nodes.push(key.scalar);
    }

    fn root(&mut self, budget: usize, depth: usize) {
        match self.rng.below(10) {
            0 => {
                self.value(0, budget, depth, true);
            }
            1..=4 if budget >= 3 => {
                self.push(table::ARRAY, 0, 0);
                self.value(0, budget - 1, depth - 1, true);
            }
            _ => {
                self.record(0, budget, depth);
            }
        }
    }

    /// One value of at most `budget` nodes and `depth` on a path; how many it took.
    fn value(&mut self, flags: u8, budget: usize, depth: usize, may_be_null: bool) -> usize {
        if budget < 2 || depth < 2 {
            let empty_record = self.rng.one_in(4);
            let kind = if empty_record {
                table::RECORD
            } else {
                table::BOOLEAN
            };
            self.push(kind, flags, 0);
            return 1;
        }
        match self.rng.below(20) {
            0..=8 => {
                self.block(flags);
                2
            }
            9 | 10 => {
                self.push(table::BOOLEAN, flags, 0);
                1
            }
            11..=13 if may_be_null => {
                self.push(table::NULLABLE, flags, 0);
                1 + self.value(0, budget - 1, depth - 1, false)
            }
            14..=16 => {
                self.push(table::ARRAY, flags, 0);
                1 + self.value(0, budget - 1, depth - 1, true)
            }
            _ => self.record(flags, budget, depth),
        }
    }

    fn record(&mut self, flags: u8, budget: usize, depth: usize) -> usize {
        let mut left = budget - 1;
        let most = if self.rng.one_in(8) {
            left
        } else {
            left.min(5)
        };
        let fields = if depth < 2 {
            0
        } else {
            self.rng.below(most + 1)
        };
        self.push(table::RECORD, flags, fields);
        for i in 0..fields {
            let share = left - (fields - i - 1);
            let share = 1 + self.rng.below(share);
            let flags = self.omittable();
            left -= self.value(flags, share, depth - 1, true);
        }
        budget - left
    }

    fn omittable(&mut self) -> u8 {
        if self.rng.one_in(4) {
            table::OMITTABLE
        } else {
            0
        }
    }

    fn chain(&mut self, depth: usize) {
        let mut may_be_null = true;
        let mut flags = 0;
        // Fields that still have to come after the path, innermost last.
        let mut later = Vec::new();
        for left in (1..=depth).rev() {
            if left == 1 {
                self.push(table::BOOLEAN, flags, 0);
            } else if left == 2 && self.rng.one_in(2) {
                self.block(flags);
                break;
            } else {
                let way = self.rng.below(4);
                if way == 0 && may_be_null {
                    self.push(table::NULLABLE, flags, 0);
                    flags = 0;
                    may_be_null = false;
                    continue;
                } else if way == 1 {
                    self.push(table::ARRAY, flags, 0);
                    flags = 0;
                } else {
                    let (before, after) = (self.rng.below(2), self.rng.below(2));
                    self.push(table::RECORD, flags, before + 1 + after);
                    for _ in 0..before {
                        self.push(table::BOOLEAN, 0, 0);
                    }
                    later.push(after);
                    flags = self.omittable();
                }
                may_be_null = true;
            }
        }
        for after in later.into_iter().rev() {
            for _ in 0..after {
                self.push(table::BOOLEAN, table::OMITTABLE, 0);
            }
        }
    }
}

pub struct Tree {
    pub rows: Vec<u64>,
    pub pool: Vec<u8>,
}

/// A tree that fits the table, of about `fuel` rows. Now and then some of its texts lie near a bound of UTF-8, on
/// either side; nothing else is ever wrong with it.
pub fn tree(rng: &mut Rng, types: &[WireType], fuel: usize) -> Tree {
    let near = rng.one_in(6);
    let palette = |rng: &mut Rng| {
        let size = 1 + rng.below(5);
        (0..size).map(|_| (text(rng, near), None)).collect()
    };
    let mut grower = Grower {
        palettes: (0..KEYS).map(|_| palette(rng)).collect(),
        rng,
        types,
        fuel,
        near,
        tree: Tree {
            rows: Vec::new(),
            pool: Vec::new(),
        },
    };
    grower.value(0);
    grower.tree
}

/// A text and where it stands in the pool, once it does.
type Placed = (Vec<u8>, Option<usize>);

struct Grower<'a> {
    rng: &'a mut Rng,
    types: &'a [WireType],
    palettes: Vec<Vec<Placed>>,
    fuel: usize,
    near: bool,
    tree: Tree,
}

impl Grower<'_> {
    fn row(&mut self, node: usize, kind: u64, a: u64, b: u64) {
        self.tree.rows.extend([kind, a, b, node as u64]);
    }

    fn value(&mut self, node: usize) {
        let this = self.types[node];
        let spent = self.fuel == 0;
        self.fuel = self.fuel.saturating_sub(1);
        if this.omittable && (spent || self.rng.one_in(4)) {
            return self.row(node, rows::ABSENT, 0, 0);
        }
        if this.nullable && (spent || self.rng.one_in(4)) {
            return self.row(node, rows::NULL, 0, 0);
        }
        match this.kind {
            table::BOOLEAN => {
                let truth = rows::FALSE + self.rng.below(2) as u64;
                self.row(node, truth, 0, 0)
            }
            table::VARINT => {
                let n = self.word();
                self.row(node, rows::INTEGER, n, 0)
            }
            table::FLOAT64 => {
                let bits = self.word();
                self.row(node, rows::FLOAT, bits, 0)
            }
            table::FIXED => {
                let len = this.argument as usize;
                let start = self.fixed(len);
                self.row(node, rows::FIXED, start as u64, len as u64)
            }
            table::STRING | table::BYTES => {
                let (start, len) = self.place(&this);
                let kind = if this.kind == table::STRING {
                    rows::STRING
                } else {
                    rows::BYTES
                };
                self.row(node, kind, start as u64, len as u64)
            }
            table::RECORD => {
                self.row(node, rows::RECORD, this.argument as u64, 0);
                let mut field = this.child as usize;
                for _ in 0..this.argument {
                    self.value(field);
                    field = self.types[field].end as usize;
                }
            }
            _ => {
                let wanted = match self.rng.below(8) {
                    0 => 0,
                    1 => self.rng.below(100),
                    _ => self.rng.below(8),
                };
                let at = self.tree.rows.len();
                self.row(node, rows::ARRAY, 0, 0);
                let mut entries = 0;
                while entries < wanted && self.fuel > 0 {
                    self.value(this.child as usize);
                    entries += 1;
                }
                self.tree.rows[at + 1] = entries as u64;
            }
        }
    }

    fn word(&mut self) -> u64 {
        match self.rng.below(4) {
            0 => self.rng.word(),
            1 => self.rng.pick(&EDGE_WORDS),
            // Around every size of a VARINT, on both sides of zero.
            _ => {
                let size = self.rng.below(64);
                let near = (1u64 << size).wrapping_add(self.rng.below(3) as u64);
                let near = near.wrapping_sub(1);
                if self.rng.one_in(2) {
                    near.wrapping_neg()
                } else {
                    near
                }
            }
        }
    }

    fn append(&mut self, bytes: &[u8]) -> usize {
        let start = self.tree.pool.len();
        self.tree.pool.extend(bytes);
        start
    }

    fn fixed(&mut self, len: usize) -> usize {
        let pool = self.tree.pool.len();
        if pool >= len && self.rng.one_in(2) {
            return self.rng.below(pool - len + 1);
        }
        let bytes: Vec<u8> = (0..len).map(|_| self.rng.byte()).collect();
        self.append(&bytes)
    }

    /// A text of the key's palette, at its old place or at a new one.
    fn place(&mut self, this: &WireType) -> (usize, usize) {
        if self.rng.one_in(6) {
            let fresh = text(self.rng, self.near);
            if self.tree.pool.len() + fresh.len() <= MAX_BYTES {
                return (self.append(&fresh), fresh.len());
            }
        }
        let size = self.palettes[this.key as usize].len();
        let choice = self.rng.below(size);
        let (text, placed) = self.palettes[this.key as usize][choice].clone();
        if text.is_empty() {
            return (self.rng.below(self.tree.pool.len() + 1), 0);
        }
        match placed {
            Some(start) if !self.rng.one_in(4) => (start, text.len()),
            _ if self.tree.pool.len() + text.len() > MAX_BYTES => (0, 0),
            _ => {
                let start = self.append(&text);
                self.palettes[this.key as usize][choice].1 = Some(start);
                (start, text.len())
            }
        }
    }
}

/// A text; where `near` says so, one in three has a character near a bound of UTF-8.
fn text(rng: &mut Rng, near: bool) -> Vec<u8> {
    let len = match rng.below(24) {
        0..=4 => 0,
        5..=10 => 1,
        11..=13 => 2,
        14..=16 => 3,
        17..=21 => 4 + rng.below(12),
        22 => 60 + rng.below(8),
        // Now and then where a block's label takes a third byte.
        _ if rng.one_in(60) => 8_188 + rng.below(6),
        _ => 120 + rng.below(20),
    };
    if near && rng.one_in(3) {
        texts::near_in(rng, len)
    } else {
        texts::right(rng, len)
    }
}
