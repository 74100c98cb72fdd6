//! The calls of `libargo.a` (`include/argo.h`), with slices for its pointers and counts.
//!
//! All of the crate's unsafe code is here: the calls, and [`Judged::text`], which takes bytes for text as the library
//! judged them. Each call below is sound for the same reasons, which the signatures of the safe functions give:
//! - A pointer and its count come from one slice, so the memory is there, is initialised, is aligned for its type, and
//!   stays so until the call ends. The library keeps no pointer, and is proved to read and write inside of the counts
//!   only.
//! - What it writes to is lent as `&mut`, so no other buffer of the call overlaps it, and no other thread sees it.
//! - It has no state of its own, so that calls may be made from several threads at once.
//! - Every call ends, is total (no contents of a buffer and no number is forbidden), and neither unwinds nor calls back.
//! - What it answers and writes are plain numbers, of which every bit pattern is a value.

use std::borrow::Cow;

use crate::value::kind;
use crate::ROW_WORDS;

/// `argo_answer`: 0 and a count, or a refusal's number and second number.
#[repr(C)]
#[derive(Clone, Copy)]
pub struct Answer {
    pub number: u64,
    pub second: u64,
}

/// `argo_seen`: a row's words. A float's bits are in `a`; `value` is not used here, since a NaN comes in it as some NaN.
#[repr(C)]
#[derive(Clone, Copy)]
pub struct Seen {
    pub number: u64,
    pub second: u64,
    pub kind: u64,
    pub a: u64,
    pub b: u64,
    pub node: u64,
    pub value: f64,
}

#[repr(C)]
#[derive(Clone, Copy)]
struct Place {
    start: u64,
    len: u64,
}

extern "C" {
    fn argo_check(table: *const u8, table_len: usize, work: *mut u32, work_len: usize) -> Answer;

    fn argo_read(
        table: *const u8,
        table_len: usize,
        message: *const u8,
        message_len: usize,
        rows: *mut u64,
        rows_len: usize,
        work: *mut u32,
        work_len: usize,
    ) -> Answer;

    fn argo_write(
        table: *const u8,
        table_len: usize,
        modes: u64,
        rows: *const u64,
        rows_len: usize,
        pool: *const u8,
        pool_len: usize,
        out: *mut u8,
        out_len: usize,
        work: *mut u32,
        work_len: usize,
    ) -> Answer;

    fn argo_look(
        rows: *const u64,
        rows_len: usize,
        bytes: *const u8,
        bytes_len: usize,
        index: usize,
    ) -> Seen;

    fn argo_part(
        rows: *const u64,
        rows_len: usize,
        bytes: *const u8,
        bytes_len: usize,
        index: usize,
    ) -> Place;
}

pub fn check(table: &[u8], work: &mut [u32]) -> Answer {
    // SAFETY: two slices of their own lengths, the second lent as `&mut` (see above).
    unsafe { argo_check(table.as_ptr(), table.len(), work.as_mut_ptr(), work.len()) }
}

/// The answer, and the rows that were made; none after a refusal.
pub fn read<'c, 'm>(
    table: &[u8],
    message: &'m [u8],
    rows: &'c mut [u64],
    work: &mut [u32],
) -> (Answer, Judged<'c, 'm>) {
    // SAFETY: four slices of their own lengths, the two that are written to lent as `&mut` (see above).
    let answer = unsafe {
        argo_read(
            table.as_ptr(),
            table.len(),
            message.as_ptr(),
            message.len(),
            rows.as_mut_ptr(),
            rows.len(),
            work.as_mut_ptr(),
            work.len(),
        )
    };
    let count = match answer.number {
        0 => answer.second as usize,
        _ => 0,
    };
    let words = Cow::Borrowed(&rows[..ROW_WORDS * count]);
    (answer, Judged { words, message })
}

/// Rows, and the message that they were read from. [`read`] alone makes them, and nothing changes them, so that `text`
/// may trust them.
#[derive(Clone, Debug)]
pub struct Judged<'c, 'm> {
    words: Cow<'c, [u64]>,
    message: &'m [u8],
}

impl<'m> Judged<'_, 'm> {
    /// The same rows, in memory of their own.
    pub fn into_owned(self) -> Judged<'static, 'm> {
        Judged {
            words: Cow::Owned(self.words.into_owned()),
            message: self.message,
        }
    }

    pub fn words(&self) -> &[u64] {
        &self.words
    }

    pub fn message(&self) -> &'m [u8] {
        self.message
    }

    /// The text of a string's row; none for any other row.
    pub fn text(&self, row: usize) -> Option<&'m str> {
        let words = self.words.chunks_exact(ROW_WORDS).nth(row)?;
        if words[0] != kind::STRING {
            return None;
        }
        let text = part(&self.words, self.message, row);
        // SAFETY: these are the bytes that a string's row names, of a read that answered 0. It has judged them, and for
        // a backreference it has judged the literal, whose bytes these are, by the rule of RFC 3629. That is proved for
        // every message; and so is that the rule takes the encodings of the code points 0 to 10FFFF without D800 to
        // DFFF, one after the other, which are what a `str` may hold, and takes nothing else. Row and bytes are still
        // what that read left and saw: `words` and `message` are private to this module, `read` alone fills them, both
        // of one call, and since then they are borrowed as `&` or owned, and nothing here writes to them.
        Some(unsafe { std::str::from_utf8_unchecked(text) })
    }
}

pub fn write(
    table: &[u8],
    modes: u64,
    rows: &[u64],
    pool: &[u8],
    out: &mut [u8],
    work: &mut [u32],
) -> Answer {
    // SAFETY: five slices of their own lengths, the two that are written to lent as `&mut` (see above).
    unsafe {
        argo_write(
            table.as_ptr(),
            table.len(),
            modes,
            rows.as_ptr(),
            rows.len(),
            pool.as_ptr(),
            pool.len(),
            out.as_mut_ptr(),
            out.len(),
            work.as_mut_ptr(),
            work.len(),
        )
    }
}

pub fn look(rows: &[u64], bytes: &[u8], index: usize) -> Seen {
    // SAFETY: two slices of their own lengths, only read (see above); any index may be asked for.
    unsafe {
        argo_look(
            rows.as_ptr(),
            rows.len(),
            bytes.as_ptr(),
            bytes.len(),
            index,
        )
    }
}

/// The part of the bytes that a string, bytes or fixed row names; else the empty part.
pub fn part<'m>(rows: &[u64], bytes: &'m [u8], index: usize) -> &'m [u8] {
    // SAFETY: two slices of their own lengths, only read (see above); any index may be asked for.
    let place = unsafe {
        argo_part(
            rows.as_ptr(),
            rows.len(),
            bytes.as_ptr(),
            bytes.len(),
            index,
        )
    };
    &bytes[place.start as usize..][..place.len as usize]
}
