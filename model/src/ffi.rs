//! The C interface of `libargo.a`, each part behind its feature. A call answers
//! `None` when its part is not linked.

use crate::Answer;

#[repr(C)]
#[derive(Clone, Copy, Debug)]
pub struct ArgoAnswer {
    pub number: u64,
    pub second: u64,
}

#[repr(C)]
#[derive(Clone, Copy, Debug)]
pub struct ArgoSeen {
    pub number: u64,
    pub second: u64,
    pub kind: u64,
    pub a: u64,
    pub b: u64,
    pub node: u64,
    pub value: f64,
}

#[repr(C)]
#[derive(Clone, Copy, Debug)]
pub struct ArgoPlace {
    pub start: u64,
    pub len: u64,
}

#[cfg(feature = "ffi-check")]
extern "C" {
    fn argo_check(
        table: *const u8,
        table_len: usize,
        work: *mut u32,
        work_len: usize,
    ) -> ArgoAnswer;
}

#[cfg(feature = "ffi-read")]
extern "C" {
    fn argo_read(
        table: *const u8,
        table_len: usize,
        message: *const u8,
        message_len: usize,
        rows: *mut u64,
        rows_len: usize,
        work: *mut u32,
        work_len: usize,
    ) -> ArgoAnswer;

    fn argo_look(
        rows: *const u64,
        rows_len: usize,
        bytes: *const u8,
        bytes_len: usize,
        index: usize,
    ) -> ArgoSeen;

    fn argo_part(
        rows: *const u64,
        rows_len: usize,
        bytes: *const u8,
        bytes_len: usize,
        index: usize,
    ) -> ArgoPlace;
}

#[cfg(feature = "ffi-write")]
extern "C" {
    fn argo_write(
        table: *const u8,
        table_len: usize,
        modes: u64,
        rows: *const u64,
        rows_len: usize,
        pool: *const u8,
        pool_len: usize,
        out: *mut u8,
        out_len: usize,
        work: *mut u32,
        work_len: usize,
    ) -> ArgoAnswer;
}

/// Is the call for this kind of case linked?
pub fn has(kind: char) -> bool {
    match kind {
        'T' => cfg!(feature = "ffi-check"),
        'R' | 'L' | 'P' => cfg!(feature = "ffi-read"),
        _ => cfg!(feature = "ffi-write"),
    }
}

#[cfg(any(feature = "ffi-check", feature = "ffi-read", feature = "ffi-write"))]
impl From<ArgoAnswer> for Answer {
    fn from(answer: ArgoAnswer) -> Answer {
        Answer {
            number: answer.number,
            second: answer.second,
        }
    }
}

// Each unsafe block lends slices for the time of one call, with their own lengths.

pub fn check(table: &[u8], work: &mut [u32]) -> Option<Answer> {
    #[cfg(feature = "ffi-check")]
    return Some(
        unsafe { argo_check(table.as_ptr(), table.len(), work.as_mut_ptr(), work.len()) }.into(),
    );
    #[cfg(not(feature = "ffi-check"))]
    {
        let _ = (table, work);
        None
    }
}

pub fn read(table: &[u8], message: &[u8], rows: &mut [u64], work: &mut [u32]) -> Option<Answer> {
    #[cfg(feature = "ffi-read")]
    return Some(
        unsafe {
            argo_read(
                table.as_ptr(),
                table.len(),
                message.as_ptr(),
                message.len(),
                rows.as_mut_ptr(),
                rows.len(),
                work.as_mut_ptr(),
                work.len(),
            )
        }
        .into(),
    );
    #[cfg(not(feature = "ffi-read"))]
    {
        let _ = (table, message, rows, work);
        None
    }
}

pub fn write(
    table: &[u8],
    modes: u64,
    rows: &[u64],
    pool: &[u8],
    out: &mut [u8],
    work: &mut [u32],
) -> Option<Answer> {
    #[cfg(feature = "ffi-write")]
    return Some(
        unsafe {
            argo_write(
                table.as_ptr(),
                table.len(),
                modes,
                rows.as_ptr(),
                rows.len(),
                pool.as_ptr(),
                pool.len(),
                out.as_mut_ptr(),
                out.len(),
                work.as_mut_ptr(),
                work.len(),
            )
        }
        .into(),
    );
    #[cfg(not(feature = "ffi-write"))]
    {
        let _ = (table, modes, rows, pool, out, work);
        None
    }
}

pub fn look(rows: &[u64], bytes: &[u8], index: u64) -> Option<ArgoSeen> {
    #[cfg(feature = "ffi-read")]
    return Some(unsafe {
        argo_look(
            rows.as_ptr(),
            rows.len(),
            bytes.as_ptr(),
            bytes.len(),
            index as usize,
        )
    });
    #[cfg(not(feature = "ffi-read"))]
    {
        let _ = (rows, bytes, index);
        None
    }
}

pub fn part(rows: &[u64], bytes: &[u8], index: u64) -> Option<ArgoPlace> {
    #[cfg(feature = "ffi-read")]
    return Some(unsafe {
        argo_part(
            rows.as_ptr(),
            rows.len(),
            bytes.as_ptr(),
            bytes.len(),
            index as usize,
        )
    });
    #[cfg(not(feature = "ffi-read"))]
    {
        let _ = (rows, bytes, index);
        None
    }
}
