//! Tables of the tests.
#![allow(dead_code)]

use argo::Table;

/// A table file of these nodes: kind, flags, and the argument in two bytes.
pub fn file(nodes: &[[u8; 4]]) -> Vec<u8> {
    let count = (nodes.len() as u16).to_le_bytes();
    [b"AWT\x01\0", &count[..], &nodes.concat()].concat()
}

pub fn table(nodes: &[[u8; 4]]) -> Table {
    Table::new(file(nodes)).unwrap()
}

pub const STRING: [u8; 4] = [1, 0, 0, 0];
pub const BOOLEAN: [u8; 4] = [2, 0, 0, 0];
pub const VARINT: [u8; 4] = [3, 0, 0, 0];
pub const FLOAT64: [u8; 4] = [4, 0, 0, 0];
pub const BYTES: [u8; 4] = [5, 0, 0, 0];
pub const ARRAY: [u8; 4] = [8, 0, 0, 0];
pub const NULLABLE: [u8; 4] = [10, 0, 0, 0];

pub const fn fixed(length: u8) -> [u8; 4] {
    [6, 0, length, 0]
}

pub const fn record(fields: u8) -> [u8; 4] {
    [7, 0, fields, 0]
}

pub const fn block(key: u8) -> [u8; 4] {
    [9, 0, key, 0]
}

pub const fn deduplicating(key: u8) -> [u8; 4] {
    [9, 2, key, 0]
}

/// A record of a text that may be null and an integer.
pub fn pair() -> Table {
    table(&[
        record(2),
        NULLABLE,
        deduplicating(0),
        STRING,
        block(1),
        VARINT,
    ])
}

/// An array of texts, which deduplicate.
pub fn texts() -> Table {
    table(&[ARRAY, deduplicating(0), STRING])
}

/// A message of `texts` with one text, of fewer than 64 bytes.
pub fn one_text(text: &[u8]) -> Vec<u8> {
    let label = 2 * text.len() as u8;
    [&[0, label], text, &[4, 2, label]].concat()
}

/// An array of records without fields.
pub fn empties() -> Table {
    table(&[ARRAY, record(0)])
}

/// The sample night: name, status, a note that may be null, seconds that may be absent, a digest.
pub fn night() -> Table {
    Table::new(&include_bytes!("../../../../samples/night.table")[..]).unwrap()
}

pub const NIGHT: &[u8] = include_bytes!("../../../../samples/night.message");
