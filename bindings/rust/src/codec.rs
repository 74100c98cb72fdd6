//! A checked table, and the buffers that calls are lent.

use crate::ffi;
use crate::modes::Modes;
use crate::nodes::Shapes;
use crate::refusal::{Call, Refusal};
use crate::rows::Rows;
use crate::tree::Tree;
use crate::{MAX_BYTES, MAX_ROWS, ROW_WORDS};

/// Words that a call wants as work.
const WORK: usize = 16_384;

fn work() -> Box<[u32]> {
    vec![0; WORK].into_boxed_slice()
}

/// The count of a success, or the refusal.
fn counted(call: Call, answer: ffi::Answer) -> Result<usize, Refusal> {
    match Refusal::of(call, answer.number, answer.second) {
        None => Ok(answer.second as usize),
        Some(refusal) => Err(refusal),
    }
}

/// A table that the library has checked. It may be shared by threads.
#[derive(Clone, Debug, PartialEq, Eq)]
pub struct Table {
    bytes: Box<[u8]>,
    nodes: usize,
    shapes: Shapes,
}

impl Table {
    /// Checks the bytes of a table file, and keeps them. Refuses with the table's faults, 10 to 15.
    pub fn new(bytes: impl Into<Box<[u8]>>) -> Result<Table, Refusal> {
        let bytes = bytes.into();
        let nodes = counted(Call::Check, ffi::check(&bytes, &mut work()))?;
        let shapes = Shapes::of(&bytes);
        Ok(Table {
            bytes,
            nodes,
            shapes,
        })
    }

    /// How many nodes it has.
    pub fn nodes(&self) -> usize {
        self.nodes
    }

    /// What stands at each node.
    pub(crate) fn shapes(&self) -> &Shapes {
        &self.shapes
    }

    /// The bytes of the file.
    pub fn as_bytes(&self) -> &[u8] {
        &self.bytes
    }

    /// Reads a message, with buffers of its own; for many messages, [`Codec::read`] has them once.
    pub fn read<'m>(&self, message: &'m [u8]) -> Result<Rows<'static, 'm>, Refusal> {
        let mut rows = vec![0; ROW_WORDS * MAX_ROWS];
        let judged = read(self, message, &mut rows, &mut work())?;
        Ok(Rows::new(judged.into_owned()))
    }

    /// Writes a tree, with buffers of its own; for many trees, [`Codec::write`] has them once.
    pub fn write(&self, modes: Modes, tree: &Tree) -> Result<Vec<u8>, Refusal> {
        let mut out = vec![0; MAX_BYTES];
        let length = write(self, modes, tree, &mut Vec::new(), &mut out, &mut work())?;
        out.truncate(length);
        Ok(out)
    }
}

/// The buffers that reading and writing are lent, 384 KiB, allocated once, and the rows of the largest tree that was
/// written. A thread has its own.
#[derive(Debug)]
pub struct Codec {
    work: Box<[u32]>,
    rows: Box<[u64]>,
    /// The rows of a tree that is written, with their nodes.
    given: Vec<u64>,
    out: Box<[u8]>,
}

impl Codec {
    /// With room for the largest message.
    pub fn new() -> Codec {
        Codec::with_rows(MAX_ROWS)
    }

    /// With room for reading so many rows, of which 8,192 are enough. A call zeroes all of its rows, so that for small
    /// messages fewer are quicker; a message with more is refused with [`Refusal::ManyRows`].
    pub fn with_rows(rows: usize) -> Codec {
        Codec {
            work: work(),
            rows: vec![0; ROW_WORDS * rows.min(MAX_ROWS)].into(),
            given: Vec::new(),
            out: vec![0; MAX_BYTES].into(),
        }
    }

    /// Reads a message. Nothing is copied: the rows stay in the codec, the values' bytes in the message.
    pub fn read<'c, 'm>(
        &'c mut self,
        table: &Table,
        message: &'m [u8],
    ) -> Result<Rows<'c, 'm>, Refusal> {
        let judged = read(table, message, &mut self.rows, &mut self.work)?;
        Ok(Rows::new(judged))
    }

    /// Writes a tree. The message stays in the codec until the next call.
    pub fn write(&mut self, table: &Table, modes: Modes, tree: &Tree) -> Result<&[u8], Refusal> {
        let Codec {
            work, given, out, ..
        } = self;
        let length = write(table, modes, tree, given, out, work)?;
        Ok(&out[..length])
    }

    /// Writes a tree at the front of `out`, of which the rest is zeroed, and answers the message's length. Refuses with
    /// [`Refusal::NoRoom`] where it does not fit. After a refusal `out` holds zeros alone.
    pub fn write_to(
        &mut self,
        table: &Table,
        modes: Modes,
        tree: &Tree,
        out: &mut [u8],
    ) -> Result<usize, Refusal> {
        write(table, modes, tree, &mut self.given, out, &mut self.work)
    }
}

impl Default for Codec {
    fn default() -> Codec {
        Codec::new()
    }
}

fn read<'c, 'm>(
    table: &Table,
    message: &'m [u8],
    rows: &'c mut [u64],
    work: &mut [u32],
) -> Result<ffi::Judged<'c, 'm>, Refusal> {
    let (answer, judged) = ffi::read(&table.bytes, message, rows, work);
    counted(Call::Read, answer)?;
    Ok(judged)
}

fn write(
    table: &Table,
    modes: Modes,
    tree: &Tree,
    rows: &mut Vec<u64>,
    out: &mut [u8],
    work: &mut [u32],
) -> Result<usize, Refusal> {
    table.shapes.fill(tree.values(), rows);
    let answer = ffi::write(&table.bytes, modes.bits(), rows, tree.pool(), out, work);
    counted(Call::Write, answer)
}

#[cfg(test)]
mod tests {
    use super::*;
    use crate::value::kind;

    // A text, and an array of texts.
    const TEXT: &[u8] = b"AWT\x01\0\x02\0\x09\x02\0\0\x01\0\0\0";
    const TEXTS: &[u8] = b"AWT\x01\0\x03\0\x08\0\0\0\x09\x02\0\0\x01\0\0\0";

    /// Writes rows, of which the last is a string of these bytes under this node: a tree cannot hold one that is no
    /// text, nor a wrong node.
    fn write_bytes(
        table: &[u8],
        rows: &[[u64; 4]],
        bytes: &[u8],
        node: u64,
        work: &mut [u32],
    ) -> Result<usize, Refusal> {
        let last = [kind::STRING, 0, bytes.len() as u64, node];
        let rows = [rows.concat(), last.to_vec()].concat();
        let answer = ffi::write(table, 0, &rows, bytes, &mut [0; 64], work);
        counted(Call::Write, answer)
    }

    /// Each lead, with both sides of each bound for the byte after it: what is written is what a `str` may hold.
    #[test]
    fn rows_28() {
        let mut work = work();
        let array = [[kind::ARRAY, 2, 0, 0], [kind::STRING, 0, 0, 1]];
        for lead in 0..=0xff {
            for second in [0x7f, 0x80, 0x8f, 0x90, 0x9f, 0xa0, 0xbf, 0xc0] {
                for length in 1..=4 {
                    let bytes = &[lead, second, 0xbf, 0x80][..length];
                    let root = write_bytes(TEXT, &[], bytes, 0, &mut work);
                    let entry = write_bytes(TEXTS, &array, bytes, 1, &mut work);
                    if std::str::from_utf8(bytes).is_ok() {
                        assert!(root.is_ok() && entry.is_ok(), "{bytes:x?}");
                    } else {
                        let refused = |row| Err(Refusal::Text { row: Some(row) });
                        assert_eq!((root, entry), (refused(0), refused(2)), "{bytes:x?}");
                    }
                }
            }
        }
    }

    /// A wrong node is 42 at its row, also where the text is none; and an earlier row comes first.
    #[test]
    fn rows_42_for_the_node() {
        let mut work = work();
        let unfit = |row| Err(Refusal::Unfit { row });
        let array = [kind::ARRAY, 2, 0, 0];
        let text = [kind::STRING, 0, 0, 1];
        assert_eq!(write_bytes(TEXT, &[], b"a", 0, &mut work), Ok(5));
        for node in [1, 2, 1_023, 1_024, 1 << 32, u64::MAX] {
            for bytes in [&b"a"[..], b"\xff"] {
                let root = write_bytes(TEXT, &[], bytes, node, &mut work);
                assert_eq!(root, unfit(0));
            }
        }
        for node in [0, 2, 1_023, 1_024, 1 + (1 << 32), u64::MAX] {
            let mut write =
                |rows: &[[u64; 4]], node| write_bytes(TEXTS, rows, b"\xff", node, &mut work);
            assert_eq!(write(&[array, text], node), unfit(2));
            let wrong = [kind::STRING, 0, 0, node];
            assert_eq!(write(&[array, wrong], 1), unfit(1));
            let wrong = [kind::ARRAY, 2, 0, node.max(1)];
            assert_eq!(write(&[wrong, text], 1), unfit(0));
        }
    }
}
