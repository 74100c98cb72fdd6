//! Every message that a legal encoder could make of a tree, not only the writer's.
//!
//! Free are: a literal or the number of any equal earlier literal, and in mode 2
//! -1 or -3 for a null. Everything else in a message is settled by its tree.

use crate::table::{self, WireType};
use crate::{
    label, rows, INLINE_EVERYTHING, KEYS, NO_DEDUPLICATION, NULL_TERMINATED_STRINGS,
    OUT_OF_BAND_FIELD_ERRORS,
};

/// A message before it is put together.
#[derive(Clone, Default)]
pub struct Pieces {
    pub header: u8,
    pub blocks: Vec<Vec<u8>>,
    pub core: Vec<u8>,
    /// Where the labels begin in the core.
    pub labels: Vec<usize>,
    /// Where the bytes of each literal end: its block, or none for the core, and the place there. In mode 4 a text has
    /// its 00 there.
    pub ends: Vec<(Option<usize>, usize)>,
    /// Numbered literals of each key, as places in the pool.
    pub literals: Vec<Vec<(usize, usize)>>,
}

impl Pieces {
    pub fn message(&self) -> Vec<u8> {
        let mut message = vec![self.header];
        if self.header & 2 == 0 {
            for piece in self.blocks.iter().chain([&self.core]) {
                label::put(piece.len() as i64, &mut message);
                message.extend(piece);
            }
        } else {
            message.extend(&self.core);
        }
        message
    }
}

/// One spelling of a tree that fits its table. `choose` is asked for a number
/// below its argument wherever there is more than one way.
pub fn spell(
    types: &[WireType],
    rows: &[u64],
    pool: &[u8],
    modes: u64,
    choose: &mut dyn FnMut(usize) -> usize,
) -> Pieces {
    let mut speller = Speller {
        types,
        rows,
        pool,
        modes,
        next: 0,
        blocks: [None; KEYS],
        choose,
        pieces: Pieces {
            header: (modes << 1) as u8,
            literals: vec![Vec::new(); KEYS],
            ..Pieces::default()
        },
    };
    speller.value(0);
    assert_eq!(
        rows::WORDS * speller.next,
        rows.len(),
        "rows are one whole tree"
    );
    speller.pieces
}

struct Speller<'a> {
    types: &'a [WireType],
    rows: &'a [u64],
    pool: &'a [u8],
    modes: u64,
    next: usize,
    blocks: [Option<usize>; KEYS],
    choose: &'a mut dyn FnMut(usize) -> usize,
    pieces: Pieces,
}

impl Speller<'_> {
    fn value(&mut self, node: usize) {
        let this = self.types[node];
        let [kind, a, b, _] = rows::get(self.rows, self.next as u64).expect("a row for each value");
        self.next += 1;
        let unlabelled = matches!(
            this.kind,
            table::VARINT | table::FLOAT64 | table::FIXED | table::RECORD
        );
        if kind >= rows::INTEGER && unlabelled && (this.nullable || this.omittable) {
            self.label(0);
        }
        match kind {
            rows::NULL => {
                let two = self.modes & OUT_OF_BAND_FIELD_ERRORS != 0;
                let n = if two && (self.choose)(2) == 1 { -3 } else { -1 };
                self.label(n);
            }
            rows::ABSENT => self.label(-2),
            rows::FALSE => self.label(0),
            rows::TRUE => self.label(1),
            rows::INTEGER => label::put(a as i64, self.home(this.key)),
            rows::FLOAT => self.home(this.key).extend(a.to_le_bytes()),
            rows::FIXED => self.copy(this.key, a as usize, b as usize),
            rows::STRING | rows::BYTES => self.text(&this, a as usize, b as usize),
            rows::RECORD => {
                let mut field = this.child as usize;
                for _ in 0..a {
                    self.value(field);
                    field = self.types[field].end as usize;
                }
            }
            _ => {
                self.label(a as i64);
                for _ in 0..a {
                    self.value(this.child as usize);
                }
            }
        }
    }

    fn text(&mut self, this: &WireType, start: usize, len: usize) {
        if this.deduplicate && self.modes & NO_DEDUPLICATION == 0 {
            let value = &self.pool[start..start + len];
            let given = &mut self.pieces.literals[this.key as usize];
            let equal: Vec<usize> = (0..given.len())
                .filter(|&j| &self.pool[given[j].0..given[j].0 + given[j].1] == value)
                .collect();
            let way = match equal.len() {
                0 => 0,
                many => (self.choose)(many + 1),
            };
            if way > 0 {
                return self.label(-4 - equal[way - 1] as i64);
            }
            given.push((start, len));
        }
        self.label(len as i64);
        self.copy(this.key, start, len);
        let zeros = zeros(this, self.modes);
        let home = self.home(this.key);
        let end = home.len();
        home.resize(end + zeros, 0);
        let block = self.blocks[this.key as usize];
        self.pieces.ends.push((block, end));
    }

    fn label(&mut self, n: i64) {
        self.pieces.labels.push(self.pieces.core.len());
        label::put(n, &mut self.pieces.core);
    }

    fn copy(&mut self, key: u8, start: usize, len: usize) {
        let pool = self.pool;
        self.home(key).extend(&pool[start..start + len]);
    }

    fn home(&mut self, key: u8) -> &mut Vec<u8> {
        if self.modes & INLINE_EVERYTHING != 0 {
            return &mut self.pieces.core;
        }
        let block = *self.blocks[key as usize].get_or_insert_with(|| {
            self.pieces.blocks.push(Vec::new());
            self.pieces.blocks.len() - 1
        });
        &mut self.pieces.blocks[block]
    }
}

/// How many 00 follow a literal of this type: one, if it is a text in mode 4.
pub fn zeros(this: &WireType, modes: u64) -> usize {
    usize::from(this.kind == table::STRING && modes & NULL_TERMINATED_STRINGS != 0)
}

/// Every spelling of a small tree, by counting through all choices.
pub fn all(types: &[WireType], rows: &[u64], pool: &[u8], modes: u64) -> Vec<Vec<u8>> {
    let mut messages = Vec::new();
    // Each choice made so far with the number of its ways.
    let mut path: Vec<(usize, usize)> = Vec::new();
    loop {
        let mut step = 0;
        let pieces = spell(types, rows, pool, modes, &mut |ways| {
            if step == path.len() {
                path.push((0, ways));
            }
            step += 1;
            path[step - 1].0
        });
        messages.push(pieces.message());
        while path
            .last()
            .is_some_and(|&(chosen, ways)| chosen + 1 == ways)
        {
            path.pop();
        }
        match path.last_mut() {
            Some((chosen, _)) => *chosen += 1,
            None => return messages,
        }
    }
}

/// Demand 3's premise: under a deduplicating key, each value whose literal takes
/// fewer than three bytes, label, bytes and the 00 of mode 4, is among its key's
/// first 61 different ones. With `repeated` only the values that come again are asked.
pub fn premise(types: &[WireType], rows: &[u64], pool: &[u8], modes: u64, repeated: bool) -> bool {
    if modes & NO_DEDUPLICATION != 0 {
        return true;
    }
    let pieces = spell(types, rows, pool, modes, &mut |_| 0);
    (0..).zip(&pieces.literals).all(|(key, places)| {
        let block = types
            .iter()
            .find(|this| this.deduplicate && this.key == key);
        let zeros = block.map_or(0, |this| zeros(this, modes));
        let values: Vec<&[u8]> = places.iter().map(|&(a, b)| &pool[a..a + b]).collect();
        let mut different: Vec<&[u8]> = Vec::new();
        for value in &values {
            if !different.contains(value) {
                different.push(value);
            }
        }
        different.iter().skip(61).all(|value| {
            let short = label::size(value.len() as i64) + value.len() + zeros < 3;
            let again = values.iter().filter(|v| *v == value).count() > 1;
            !(short && (again || !repeated))
        })
    })
}
