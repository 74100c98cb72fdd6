//! The writer: rows and a pool into a message.

use std::collections::hash_map::Entry;
use std::collections::HashMap;
use std::hash::{BuildHasherDefault, Hasher};

use crate::table::{self, WireType};
use crate::{
    label, refuse, rows, utf8, Answer, INLINE_EVERYTHING, KEYS, MAX_BYTES, MAX_NUMBERED, MAX_ROWS,
    MODES, NO_DEDUPLICATION, NULL_TERMINATED_STRINGS, WORK_WORDS,
};

/// How the first equal literal of a key is found; the message is the same.
#[derive(Clone, Copy, Debug, PartialEq, Eq)]
pub enum Search {
    /// By a hash table.
    Hash,
    /// By the sheet's words: through the earlier literals of the key, one by one.
    OneByOne,
}

/// The call. Modes are a number of any width whose bit m is mode m.
pub fn write(
    table: &[u8],
    modes: u128,
    rows: &[u64],
    pool: &[u8],
    out: &mut [u8],
    work: usize,
) -> Answer {
    write_by(Search::Hash, table, modes, rows, pool, out, work)
}

/// The call, with this search.
pub fn write_by(
    search: Search,
    table: &[u8],
    modes: u128,
    rows: &[u64],
    pool: &[u8],
    out: &mut [u8],
    work: usize,
) -> Answer {
    match write_message(search, table, modes, rows, pool, out, work) {
        Ok(len) => {
            out[len..].fill(0);
            Answer::success(len)
        }
        Err(refusal) => {
            out.fill(0);
            refusal
        }
    }
}

fn write_message(
    search: Search,
    table: &[u8],
    modes: u128,
    rows: &[u64],
    pool: &[u8],
    out: &mut [u8],
    work: usize,
) -> Result<usize, Answer> {
    if work < WORK_WORDS {
        return refuse(1, 0);
    }
    let nodes = table::nodes(table)?;
    let types = table::wire_types(&nodes);
    if modes & !(MODES as u128) != 0 {
        return refuse(40, 0);
    }
    let modes = modes as u64;
    let count = rows.len() / rows::WORDS;
    let whole = rows.len() == rows::WORDS * count;
    if !whole || count > MAX_ROWS || pool.len() > MAX_BYTES {
        return refuse(41, 0);
    }
    let mut writer = Writer {
        search,
        types: &types,
        modes,
        rows,
        pool,
        next: 0,
        core: Vec::with_capacity(count),
        order: Vec::new(),
        keys: std::array::from_fn(|_| Key::default()),
        different: 0,
        value_bytes: 0,
    };
    writer.value(0)?;
    if writer.next < count {
        return refuse(42, writer.next);
    }
    if writer.different > MAX_NUMBERED {
        return refuse(32, 0);
    }
    writer.finish(out)
}

/// What has been written under one key.
#[derive(Default)]
struct Key<'a> {
    touched: bool,
    block: Vec<u8>,
    /// The number of each different value, counted from 0: in the hash table, or its place in the list.
    numbers: HashMap<&'a [u8], u32, BuildHasherDefault<Mixer>>,
    literals: Vec<&'a [u8]>,
}

impl<'a> Key<'a> {
    /// The number of the equal literal; a new one is kept, with the next number. `room` is how many may still come.
    fn number_of(&mut self, value: &'a [u8], search: Search, room: usize) -> Option<u32> {
        if search == Search::OneByOne {
            // Slices are compared by their lengths first.
            let first = self.literals.iter().position(|&literal| literal == value);
            if first.is_none() {
                self.literals.push(value);
            }
            return first.map(|number| number as u32);
        }
        if self.numbers.capacity() == 0 {
            // Room at once for what may come, so that it seldom grows.
            self.numbers.reserve(room.min(MAX_NUMBERED) / 2);
        }
        let next = self.numbers.len() as u32;
        match self.numbers.entry(value) {
            Entry::Occupied(number) => Some(*number.get()),
            Entry::Vacant(new) => {
                new.insert(next);
                None
            }
        }
    }
}

struct Writer<'a> {
    search: Search,
    types: &'a [WireType],
    modes: u64,
    rows: &'a [u64],
    pool: &'a [u8],
    next: usize,
    core: Vec<u8>,
    /// Keys in the order of first touch.
    order: Vec<u8>,
    keys: [Key<'a>; KEYS],
    /// Different values of the deduplicating keys, all keys together.
    different: usize,
    /// Bytes of values so far; past the limit none is kept, since 43 is sure.
    value_bytes: usize,
}

impl<'a> Writer<'a> {
    fn value(&mut self, node: usize) -> Result<(), Answer> {
        let this = self.types[node];
        let at = self.next;
        let Some(row) = rows::get(self.rows, at as u64) else {
            return refuse(42, at);
        };
        self.next += 1;
        let [kind, a, b, under] = row;
        if rows::seen(row, self.pool.len()).is_none() || under != node as u64 {
            return refuse(42, at);
        }
        match (kind, this.kind) {
            (rows::NULL, _) if this.nullable => self.label(-1),
            (rows::ABSENT, _) if this.omittable => self.label(-2),
            (rows::FALSE, table::BOOLEAN) => self.label(0),
            (rows::TRUE, table::BOOLEAN) => self.label(1),
            (rows::INTEGER, table::VARINT) => {
                self.present(&this);
                label::put(a as i64, self.touch(this.key));
            }
            (rows::FLOAT, table::FLOAT64) => {
                self.present(&this);
                self.put(this.key, &a.to_le_bytes());
            }
            (rows::FIXED, table::FIXED) if b == this.argument as u64 => {
                self.present(&this);
                let pool = self.pool;
                self.put(this.key, &pool[a as usize..][..b as usize]);
            }
            (rows::STRING, table::STRING) | (rows::BYTES, table::BYTES) => {
                let pool = self.pool;
                let value = &pool[a as usize..][..b as usize];
                if this.kind == table::STRING && !utf8::valid(value) {
                    return refuse(28, at);
                }
                self.labelled_bytes(&this, value);
            }
            (rows::RECORD, table::RECORD) if a == this.argument as u64 => {
                self.present(&this);
                let mut field = this.child as usize;
                for _ in 0..this.argument {
                    self.value(field)?;
                    field = self.types[field].end as usize;
                }
            }
            (rows::ARRAY, table::ARRAY) => {
                // Each entry needs a row, so a count without end finds one missing.
                self.label(a as i64);
                for _ in 0..a {
                    self.value(this.child as usize)?;
                }
            }
            _ => return refuse(42, at),
        }
        Ok(())
    }

    fn label(&mut self, n: i64) {
        label::put(n, &mut self.core);
    }

    /// The 0 in front of an unlabelled value that might not be there.
    fn present(&mut self, this: &WireType) {
        if this.nullable || this.omittable {
            self.label(0);
        }
    }

    /// A STRING or BYTES: the number of the first equal literal, else a literal.
    fn labelled_bytes(&mut self, this: &WireType, value: &'a [u8]) {
        if this.deduplicate && self.modes & NO_DEDUPLICATION == 0 {
            let room = self.rows.len() / rows::WORDS - self.next;
            let key = &mut self.keys[this.key as usize];
            if let Some(number) = key.number_of(value, self.search, room) {
                return self.label(-4 - number as i64);
            }
            self.different += 1;
        }
        self.label(value.len() as i64);
        self.put(this.key, value);
        if this.kind == table::STRING && self.modes & NULL_TERMINATED_STRINGS != 0 {
            self.put(this.key, &[0]);
        }
    }

    /// Where the key's values go.
    fn touch(&mut self, key: u8) -> &mut Vec<u8> {
        if self.modes & INLINE_EVERYTHING != 0 {
            return &mut self.core;
        }
        let state = &mut self.keys[key as usize];
        if !state.touched {
            state.touched = true;
            self.order.push(key);
        }
        &mut state.block
    }

    fn put(&mut self, key: u8, value: &[u8]) {
        self.value_bytes += value.len();
        let fits = self.value_bytes <= MAX_BYTES;
        let block = self.touch(key);
        if fits {
            block.extend_from_slice(value);
        }
    }

    /// Header, blocks in the order of first touch, core.
    fn finish(&self, out: &mut [u8]) -> Result<usize, Answer> {
        let labelled = self.modes & INLINE_EVERYTHING == 0;
        let blocks = self.order.iter().map(|&key| &self.keys[key as usize].block);
        let pieces = || blocks.clone().chain(std::iter::once(&self.core));
        let size = |piece: &Vec<u8>| match labelled {
            true => label::size(piece.len() as i64) + piece.len(),
            false => piece.len(),
        };
        let len = 1 + pieces().map(size).sum::<usize>();
        if self.value_bytes > MAX_BYTES || len > MAX_BYTES.min(out.len()) {
            return refuse(43, 0);
        }
        out[0] = (self.modes << 1) as u8;
        let mut at = 1;
        let mut front = Vec::with_capacity(10);
        for piece in pieces() {
            if labelled {
                front.clear();
                label::put(piece.len() as i64, &mut front);
                out[at..at + front.len()].copy_from_slice(&front);
                at += front.len();
            }
            out[at..at + piece.len()].copy_from_slice(piece);
            at += piece.len();
        }
        Ok(at)
    }
}

/// A quick hash for short values; the standard one would be most of the writer's time.
#[derive(Default)]
struct Mixer(u64);

impl Mixer {
    fn mix(&mut self, word: u64) {
        self.0 = (self.0.rotate_left(26) ^ word).wrapping_mul(0x9e37_79b9_7f4a_7c15);
    }
}

impl Hasher for Mixer {
    fn write(&mut self, bytes: &[u8]) {
        let mut words = bytes.chunks_exact(8);
        for word in &mut words {
            self.mix(u64::from_le_bytes(word.try_into().expect("eight bytes")));
        }
        let rest = words.remainder();
        if !rest.is_empty() {
            let mut word = [0; 8];
            word[..rest.len()].copy_from_slice(rest);
            self.mix(u64::from_le_bytes(word));
        }
    }

    fn write_usize(&mut self, len: usize) {
        self.mix(len as u64);
    }

    fn finish(&self) -> u64 {
        self.0 ^ (self.0 >> 32)
    }
}
