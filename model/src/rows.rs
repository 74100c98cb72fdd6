//! Rows: what one shows, and the part of the bytes that it points to.

use crate::{Answer, MAX_NODES};

pub const NULL: u64 = 0;
pub const ABSENT: u64 = 1;
pub const FALSE: u64 = 2;
pub const TRUE: u64 = 3;
pub const INTEGER: u64 = 4;
pub const FLOAT: u64 = 5;
pub const STRING: u64 = 6;
pub const BYTES: u64 = 7;
pub const FIXED: u64 = 8;
pub const RECORD: u64 = 9;
pub const ARRAY: u64 = 10;

/// Words of a row: kind, a, b, and the table node that it stands under.
pub const WORDS: usize = 4;
pub type Row = [u64; WORDS];

/// What looking at a row shows: its value, and its node.
#[derive(Clone, Copy, Debug)]
pub struct Seen {
    pub value: Value,
    pub node: u64,
}

/// The value that a row shows. Places and counts keep the row's kind.
#[derive(Clone, Copy, Debug)]
pub enum Value {
    Null,
    Absent,
    Truth(bool),
    Integer(i64),
    Float(f64),
    Place { kind: u64, start: u64, len: u64 },
    Count { kind: u64, count: u64 },
}

impl Seen {
    /// The row that shows this.
    pub fn row(self) -> Row {
        let [kind, a, b] = match self.value {
            Value::Null => [NULL, 0, 0],
            Value::Absent => [ABSENT, 0, 0],
            Value::Truth(false) => [FALSE, 0, 0],
            Value::Truth(true) => [TRUE, 0, 0],
            Value::Integer(n) => [INTEGER, n as u64, 0],
            Value::Float(x) => [FLOAT, x.to_bits(), 0],
            Value::Place { kind, start, len } => [kind, start, len],
            Value::Count { kind, count } => [kind, count, 0],
        };
        [kind, a, b, self.node]
    }
}

/// The row numbered `index`, if it is among the whole rows.
pub fn get(rows: &[u64], index: u64) -> Option<Row> {
    if index >= (rows.len() / WORDS) as u64 {
        return None;
    }
    let at = WORDS * index as usize;
    Some([rows[at], rows[at + 1], rows[at + 2], rows[at + 3]])
}

/// `a + b` in natural numbers, so that huge words do not wrap into the bytes.
fn is_inside(a: u64, b: u64, bytes: usize) -> bool {
    a as u128 + b as u128 <= bytes as u128
}

/// What the first three words show; `None` when they are not as the sheet says, or
/// their place is outside the lent bytes.
fn value(kind: u64, a: u64, b: u64, bytes: usize) -> Option<Value> {
    let unused = |n: u64| n == 0;
    match kind {
        NULL if unused(a | b) => Some(Value::Null),
        ABSENT if unused(a | b) => Some(Value::Absent),
        FALSE if unused(a | b) => Some(Value::Truth(false)),
        TRUE if unused(a | b) => Some(Value::Truth(true)),
        INTEGER if unused(b) => Some(Value::Integer(a as i64)),
        FLOAT if unused(b) => Some(Value::Float(f64::from_bits(a))),
        STRING | BYTES | FIXED if is_inside(a, b, bytes) => Some(Value::Place {
            kind,
            start: a,
            len: b,
        }),
        RECORD | ARRAY if unused(b) => Some(Value::Count { kind, count: a }),
        _ => None,
    }
}

/// What a row shows, if all of its words are as they may be under some table.
pub fn seen([kind, a, b, node]: Row, bytes: usize) -> Option<Seen> {
    if node >= MAX_NODES as u64 {
        return None;
    }
    let value = value(kind, a, b, bytes)?;
    Some(Seen { value, node })
}

/// The call that looks at one row.
pub fn look(rows: &[u64], bytes: usize, index: u64) -> (Answer, Option<Seen>) {
    let Some(row) = get(rows, index) else {
        return (Answer::refused(50, 0), None);
    };
    match seen(row, bytes) {
        Some(seen) => (Answer::success(0), Some(seen)),
        None => (Answer::refused(51, 0), None),
    }
}

/// The call that hands back the part of the lent bytes itself. It does not ask for the node.
pub fn part<'a>(rows: &[u64], bytes: &'a [u8], index: u64) -> &'a [u8] {
    match get(rows, index).and_then(|[kind, a, b, _]| value(kind, a, b, bytes.len())) {
        Some(Value::Place { start, len, .. }) => &bytes[start as usize..][..len as usize],
        _ => &[],
    }
}
