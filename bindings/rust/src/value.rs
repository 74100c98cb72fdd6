//! One value of a tree.

use crate::ffi;
use crate::refusal::{Call, Refusal};

/// A row as a value, whose bytes are borrowed: from the message for one that was read.
///
/// Two values are equal when they are the same in the message: of floats the bits are compared. So a NaN equals itself,
/// and 0.0 and -0.0 differ.
#[derive(Clone, Copy, Debug)]
pub enum Value<'m> {
    /// Null.
    Null,
    /// An omittable field that is not there. It has a row of its own, so that a record always has all of its fields.
    Absent,
    /// A BOOLEAN.
    Bool(bool),
    /// A VARINT.
    Int(i64),
    /// A FLOAT64. Every bit is kept, of a NaN too: it is made by [`f64::from_bits`] and written by [`f64::to_bits`], and
    /// [`Value::float_bits`] hands the bits out.
    Float(f64),
    /// A STRING.
    Str(&'m str),
    /// BYTES.
    Bytes(&'m [u8]),
    /// A FIXED, with the length that the table gives.
    Fixed(&'m [u8]),
    /// A RECORD: so many fields follow, each with all below it.
    Record(usize),
    /// An ARRAY: so many entries follow, each with all below it.
    Array(usize),
}

impl Value<'_> {
    /// The bits of a float.
    pub fn float_bits(self) -> Option<u64> {
        match self {
            Value::Float(f) => Some(f.to_bits()),
            _ => None,
        }
    }

    /// How many values stand right below this one: fields of a record, entries of an array, else 0.
    pub fn children(self) -> usize {
        match self {
            Value::Record(n) | Value::Array(n) => n,
            _ => 0,
        }
    }
}

impl PartialEq for Value<'_> {
    fn eq(&self, other: &Value) -> bool {
        match (self, other) {
            (Value::Null, Value::Null) | (Value::Absent, Value::Absent) => true,
            (Value::Bool(a), Value::Bool(b)) => a == b,
            (Value::Int(a), Value::Int(b)) => a == b,
            (Value::Float(a), Value::Float(b)) => a.to_bits() == b.to_bits(),
            (Value::Str(a), Value::Str(b)) => a == b,
            (Value::Bytes(a), Value::Bytes(b)) | (Value::Fixed(a), Value::Fixed(b)) => a == b,
            (Value::Record(a), Value::Record(b)) | (Value::Array(a), Value::Array(b)) => a == b,
            _ => false,
        }
    }
}

impl Eq for Value<'_> {}

/// Kinds of rows, by their number.
pub(crate) mod kind {
    pub const NULL: u64 = 0;
    pub const ABSENT: u64 = 1;
    pub const FALSE: u64 = 2;
    pub const TRUE: u64 = 3;
    pub const INTEGER: u64 = 4;
    pub const FLOAT: u64 = 5;
    pub const STRING: u64 = 6;
    pub const BYTES: u64 = 7;
    pub const FIXED: u64 = 8;
    pub const RECORD: u64 = 9;
    pub const ARRAY: u64 = 10;
}

/// What looking at a row shows.
#[derive(Clone, Copy, Debug, PartialEq, Eq)]
pub struct Seen<'m> {
    /// Its value.
    pub value: Value<'m>,
    /// The node of the table that it stands under, the topmost where a NULLABLE or BLOCK holds it: its column.
    pub node: usize,
}

/// Looks at one row of four words each, wherever the words come from; its place, if it has one, must be inside of the
/// bytes, and its node below 1,024. Refuses with [`Refusal::NoRow`] or [`Refusal::BadRow`].
///
/// The library judges texts when it reads and writes, and these rows may come from neither. So the bytes of a string are
/// tested here, and refused with [`Refusal::Text`] if they are no text. [`Rows::get`](crate::Rows::get) needs no test.
pub fn look<'m>(words: &[u64], bytes: &'m [u8], index: usize) -> Result<Seen<'m>, Refusal> {
    let seen = ffi::look(words, bytes, index);
    if let Some(refusal) = Refusal::of(Call::Look, seen.number, seen.second) {
        return Err(refusal);
    }
    let part = || ffi::part(words, bytes, index);
    let value = match seen.kind {
        kind::NULL => Value::Null,
        kind::ABSENT => Value::Absent,
        kind::FALSE => Value::Bool(false),
        kind::TRUE => Value::Bool(true),
        kind::INTEGER => Value::Int(seen.a as i64),
        kind::FLOAT => Value::Float(f64::from_bits(seen.a)),
        kind::STRING => match std::str::from_utf8(part()) {
            Ok(text) => Value::Str(text),
            Err(_) => return Err(Refusal::Text { row: Some(index) }),
        },
        kind::BYTES => Value::Bytes(part()),
        kind::FIXED => Value::Fixed(part()),
        kind::RECORD => Value::Record(seen.a as usize),
        kind::ARRAY => Value::Array(seen.a as usize),
        // The library refuses other kinds itself.
        _ => return Err(Refusal::BadRow),
    };
    let node = seen.node as usize;
    Ok(Seen { value, node })
}
