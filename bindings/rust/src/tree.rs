//! Rows to be written.

use std::collections::HashMap;

use crate::codec::Table;
use crate::value::{kind, Value};

/// A tree to be written: its values are pushed parents first, each with all below it before the next.
///
/// The bytes of strings, bytes and fixed values are copied, equal ones once. So a tree whose message is not too long
/// never has more bytes here than are allowed.
///
/// The node that a value stands under is not pushed: it follows from the table, which comes with the writing.
#[derive(Clone, Debug, Default)]
pub struct Tree {
    /// Of each value its kind, a and b.
    values: Vec<[u64; 3]>,
    pool: Vec<u8>,
    starts: HashMap<Box<[u8]>, usize>,
}

impl Tree {
    /// No values yet.
    pub fn new() -> Tree {
        Tree::default()
    }

    /// Adds the next value. Whether it fits is judged when the tree is written. A `str` is always text there, so no tree
    /// is refused with [`Refusal::Text`](crate::Refusal::Text).
    pub fn push(&mut self, value: Value) -> &mut Tree {
        let row = match value {
            Value::Null => [kind::NULL, 0, 0],
            Value::Absent => [kind::ABSENT, 0, 0],
            Value::Bool(false) => [kind::FALSE, 0, 0],
            Value::Bool(true) => [kind::TRUE, 0, 0],
            Value::Int(n) => [kind::INTEGER, n as u64, 0],
            Value::Float(f) => [kind::FLOAT, f.to_bits(), 0],
            Value::Str(text) => self.place(kind::STRING, text.as_bytes()),
            Value::Bytes(bytes) => self.place(kind::BYTES, bytes),
            Value::Fixed(bytes) => self.place(kind::FIXED, bytes),
            Value::Record(fields) => [kind::RECORD, fields as u64, 0],
            Value::Array(entries) => [kind::ARRAY, entries as u64, 0],
        };
        self.values.push(row);
        self
    }

    fn place(&mut self, kind: u64, bytes: &[u8]) -> [u64; 3] {
        let start = match self.starts.get(bytes) {
            Some(&start) => start,
            None => {
                let start = self.pool.len();
                self.pool.extend(bytes);
                self.starts.insert(bytes.into(), start);
                start
            }
        };
        [kind, start as u64, bytes.len() as u64]
    }

    /// How many values there are.
    pub fn len(&self) -> usize {
        self.values.len()
    }

    /// Are there none?
    pub fn is_empty(&self) -> bool {
        self.values.is_empty()
    }

    /// Takes all values out, and keeps the memory for the next tree.
    pub fn clear(&mut self) {
        self.values.clear();
        self.pool.clear();
        self.starts.clear();
    }

    /// The rows of the tree under a table, four words each, as they are written: each has the node that it stands under.
    /// From the first value on that does not fit, the nodes may be any.
    pub fn rows(&self, table: &Table) -> Vec<u64> {
        let mut rows = Vec::new();
        table.shapes().fill(&self.values, &mut rows);
        rows
    }

    /// Of each value its kind, a and b.
    pub(crate) fn values(&self) -> &[[u64; 3]] {
        &self.values
    }

    /// The bytes that the rows' places are counted in.
    pub fn pool(&self) -> &[u8] {
        &self.pool
    }
}

impl<'m> Extend<Value<'m>> for Tree {
    fn extend<I: IntoIterator<Item = Value<'m>>>(&mut self, values: I) {
        for value in values {
            self.push(value);
        }
    }
}

impl<'m> FromIterator<Value<'m>> for Tree {
    fn from_iter<I: IntoIterator<Item = Value<'m>>>(values: I) -> Tree {
        let mut tree = Tree::new();
        tree.extend(values);
        tree
    }
}
