//! Rows that were read.

use std::iter::FusedIterator;

use crate::ffi::Judged;
use crate::modes::Modes;
use crate::value::{look, Value};
use crate::ROW_WORDS;

/// The tree of a message, as rows: parents first, each with all below it before the next. Rows are numbered from 0, the
/// root.
///
/// The values' bytes are borrowed from the message (`'m`), so they outlive the rows, which may be borrowed from a codec
/// (`'c`).
#[derive(Clone, Debug)]
pub struct Rows<'c, 'm> {
    judged: Judged<'c, 'm>,
}

impl<'c, 'm> Rows<'c, 'm> {
    /// The library made them of their message, so that looking at one is never refused.
    pub(crate) fn new(judged: Judged<'c, 'm>) -> Rows<'c, 'm> {
        Rows { judged }
    }

    /// How many rows there are; a message has one at least.
    #[allow(clippy::len_without_is_empty)]
    pub fn len(&self) -> usize {
        self.words().len() / ROW_WORDS
    }

    /// The value of a row; none beyond the rows. A text is not tested again, since reading has done so.
    pub fn get(&self, row: usize) -> Option<Value<'m>> {
        match self.judged.text(row) {
            Some(text) => Some(Value::Str(text)),
            None => look(self.words(), self.message(), row)
                .ok()
                .map(|seen| seen.value),
        }
    }

    /// The column of a row: the node of the table that it stands under, the topmost where a NULLABLE or BLOCK holds it;
    /// none beyond the rows. Nodes are numbered from 0, the root. The tree is not walked for it.
    ///
    /// A field has its top node, be it null, absent or there; each entry of an array has the array's child. So the cells
    /// of one column are the rows with equal nodes.
    pub fn node(&self, row: usize) -> Option<usize> {
        let words = self.words().chunks_exact(ROW_WORDS).nth(row)?;
        Some(words[3] as usize)
    }

    /// All values, in order.
    pub fn iter(&self) -> Iter<'_, 'm> {
        Iter { rows: self, row: 0 }
    }

    /// The row after this one and all below it: where its next sibling stands, if it has one.
    pub fn after(&self, row: usize) -> usize {
        let mut row = row;
        let mut left = 1;
        while left > 0 {
            let Some(value) = self.get(row) else { break };
            left += value.children();
            left -= 1;
            row += 1;
        }
        row
    }

    /// The rows right below this one: a record's fields, an array's entries, else none.
    pub fn children(&self, row: usize) -> Children<'_, 'm> {
        Children {
            rows: self,
            row: row.saturating_add(1),
            left: self.get(row).map_or(0, Value::children),
        }
    }

    /// The modes of the message.
    pub fn modes(&self) -> Modes {
        Modes::of_header(self.message())
    }

    /// The rows, four words each; places are counted in the message. [`look`] takes them.
    pub fn words(&self) -> &[u64] {
        self.judged.words()
    }

    /// The message.
    pub fn message(&self) -> &'m [u8] {
        self.judged.message()
    }
}

impl<'r, 'm> IntoIterator for &'r Rows<'_, 'm> {
    type Item = Value<'m>;
    type IntoIter = Iter<'r, 'm>;

    fn into_iter(self) -> Iter<'r, 'm> {
        self.iter()
    }
}

/// All values of a tree, in order.
#[derive(Clone, Debug)]
pub struct Iter<'r, 'm> {
    rows: &'r Rows<'r, 'm>,
    row: usize,
}

impl<'m> Iterator for Iter<'_, 'm> {
    type Item = Value<'m>;

    fn next(&mut self) -> Option<Value<'m>> {
        let value = self.rows.get(self.row)?;
        self.row += 1;
        Some(value)
    }

    fn size_hint(&self) -> (usize, Option<usize>) {
        let left = self.rows.len() - self.row;
        (left, Some(left))
    }
}

impl ExactSizeIterator for Iter<'_, '_> {}
impl FusedIterator for Iter<'_, '_> {}

/// The rows right below one.
#[derive(Clone, Debug)]
pub struct Children<'r, 'm> {
    rows: &'r Rows<'r, 'm>,
    row: usize,
    left: usize,
}

impl Iterator for Children<'_, '_> {
    type Item = usize;

    fn next(&mut self) -> Option<usize> {
        self.left = self.left.checked_sub(1)?;
        let row = self.row;
        if self.left > 0 {
            self.row = self.rows.after(row);
        }
        Some(row)
    }

    fn size_hint(&self) -> (usize, Option<usize>) {
        (self.left, Some(self.left))
    }
}

impl ExactSizeIterator for Children<'_, '_> {}
impl FusedIterator for Children<'_, '_> {}
