//! The node that each row of a tree stands under. For rows that fit it follows from the table and from the rows before, so
//! that a tree need not say it.

use crate::value::kind;

/// Kinds of nodes, by their number.
const RECORD: u8 = 7;
const ARRAY: u8 = 8;
const BLOCK: u8 = 9;
const NULLABLE: u8 = 10;

/// What stands at a node of a checked table.
#[derive(Clone, Copy, Debug, PartialEq, Eq)]
struct Shape {
    /// The kind of the value: neither NULLABLE nor BLOCK.
    kind: u8,
    /// Fields of a RECORD.
    fields: usize,
    /// The node below a RECORD or ARRAY.
    below: usize,
    /// The node after all of it.
    after: usize,
}

/// What stands at each node of a checked table.
#[derive(Clone, Debug, PartialEq, Eq)]
pub struct Shapes(Box<[Shape]>);

/// Values that are still to come below one row.
struct Open {
    node: usize,
    left: u64,
    /// Is it a record, whose fields have a node each?
    fields: bool,
}

impl Shapes {
    /// Of a table file that the library has taken.
    pub fn of(table: &[u8]) -> Shapes {
        let nodes: Vec<&[u8]> = table[7..].chunks_exact(4).collect();
        let nothing = Shape {
            kind: 0,
            fields: 0,
            below: 0,
            after: 0,
        };
        let mut shapes = vec![nothing; nodes.len()];
        // What stands below a node comes after it.
        for (node, bytes) in nodes.iter().enumerate().rev() {
            let below = node + 1;
            let argument = usize::from(u16::from_le_bytes([bytes[2], bytes[3]]));
            let (fields, children) = match bytes[0] {
                RECORD => (argument, argument),
                ARRAY => (0, 1),
                BLOCK | NULLABLE => {
                    shapes[node] = shapes[below];
                    continue;
                }
                _ => (0, 0),
            };
            let after = (0..children).fold(below, |next, _| shapes[next].after);
            shapes[node] = Shape {
                kind: bytes[0],
                fields,
                below,
                after,
            };
        }
        Shapes(shapes.into())
    }

    /// The rows of these values (kind, a, b), with their nodes, in place of what `rows` holds. From the first value on
    /// that does not fit, the nodes may be any: it is refused before they are looked at.
    pub fn fill(&self, values: &[[u64; 3]], rows: &mut Vec<u64>) {
        rows.clear();
        let mut open = vec![Open {
            node: 0,
            left: 1,
            fields: false,
        }];
        for &[kind, a, b] in values {
            while open.last().is_some_and(|open| open.left == 0) {
                open.pop();
            }
            let Some(parent) = open.last_mut() else {
                // Left over.
                rows.extend([kind, a, b, 0]);
                continue;
            };
            let node = parent.node;
            let shape = self.0[node];
            parent.left -= 1;
            if parent.fields {
                parent.node = shape.after;
            }
            rows.extend([kind, a, b, node as u64]);
            match (kind, shape.kind) {
                (kind::RECORD, RECORD) => open.push(Open {
                    node: shape.below,
                    left: a.min(shape.fields as u64),
                    fields: true,
                }),
                (kind::ARRAY, ARRAY) => open.push(Open {
                    node: shape.below,
                    left: a,
                    fields: false,
                }),
                _ => {}
            }
        }
    }
}

#[cfg(test)]
mod tests {
    use super::*;

    fn filled(table: &[u8], values: &[[u64; 3]]) -> Vec<u64> {
        let mut rows = vec![7; 5];
        Shapes::of(table).fill(values, &mut rows);
        assert_eq!(rows.len(), 4 * values.len());
        for (row, value) in rows.chunks_exact(4).zip(values) {
            assert_eq!(row[..3], value[..]);
        }
        rows.into_iter().skip(3).step_by(4).collect()
    }

    /// A record of: an omittable NULLABLE of a BLOCK; an array of NULLABLEs of records of two BLOCKs; an array of
    /// arrays; a record without fields; a truth.
    const TABLE: &[u8] = b"AWT\x01\0\x10\0\
        \x07\0\x05\0\
        \x0a\x01\0\0\x09\x02\0\0\x01\0\0\0\
        \x08\0\0\0\x0a\0\0\0\x07\0\x02\0\x09\0\x01\0\x03\0\0\0\x09\x01\x01\0\x03\0\0\0\
        \x08\0\0\0\x08\0\0\0\x02\0\0\0\
        \x07\0\0\0\
        \x02\0\0\0";

    #[test]
    fn each_value_has_its_top_node() {
        let values = [
            [kind::RECORD, 5, 0],
            [kind::STRING, 0, 0],
            [kind::ARRAY, 3, 0],
            [kind::RECORD, 2, 0],
            [kind::INTEGER, 1, 0],
            [kind::ABSENT, 0, 0],
            [kind::NULL, 0, 0],
            [kind::RECORD, 2, 0],
            [kind::INTEGER, 1, 0],
            [kind::INTEGER, 1, 0],
            [kind::ARRAY, 3, 0],
            [kind::ARRAY, 0, 0],
            [kind::ARRAY, 2, 0],
            [kind::TRUE, 0, 0],
            [kind::FALSE, 0, 0],
            [kind::ARRAY, 0, 0],
            [kind::RECORD, 0, 0],
            [kind::TRUE, 0, 0],
        ];
        let nodes = [0, 1, 4, 5, 7, 9, 5, 5, 7, 9, 11, 12, 12, 13, 13, 12, 14, 15];
        assert_eq!(filled(TABLE, &values), nodes);
        for first in [kind::NULL, kind::ABSENT] {
            let mut values = values;
            values[1] = [first, 0, 0];
            assert_eq!(filled(TABLE, &values), nodes);
        }
    }

    /// What does not fit, is missing or is left over does no harm, however large its count.
    #[test]
    fn rows_that_do_not_fit_are_filled_too() {
        assert_eq!(filled(TABLE, &[]), []);
        let record = |fields| [kind::RECORD, fields, 0];
        let null = [kind::NULL, 0, 0];
        for fields in [4, 5, 6, 1 << 40, u64::MAX] {
            let values = [&[record(fields)][..], &[null; 20]].concat();
            let nodes = filled(TABLE, &values);
            assert_eq!(nodes[..5], [0, 1, 4, 11, 14]);
            assert!(nodes.iter().all(|&node| node < 16));
        }
        let array = [kind::ARRAY, u64::MAX, 0];
        let values = [&[record(5), null, array][..], &[null; 20]].concat();
        assert_eq!(filled(TABLE, &values)[3..], [5; 20]);
        // An array where a record must be, and the other way round: neither has anything below it.
        let values = [[kind::ARRAY, 2, 0], null, null];
        assert_eq!(filled(TABLE, &values), [0, 0, 0]);
        let values = [record(5), null, record(2), null];
        assert_eq!(filled(TABLE, &values), [0, 1, 4, 11]);
    }

    /// Wrappings at the root, and a table of one node.
    #[test]
    fn the_root_is_node_0() {
        let text = b"AWT\x01\0\x03\0\x0a\0\0\0\x09\0\0\0\x01\0\0\0";
        assert_eq!(filled(text, &[[kind::STRING, 0, 0]]), [0]);
        let truth = b"AWT\x01\0\x01\0\x02\0\0\0";
        assert_eq!(filled(truth, &[[kind::TRUE, 0, 0]; 2]), [0, 0]);
    }
}
