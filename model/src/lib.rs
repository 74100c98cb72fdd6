//! The job feed's codec a second time, written from the sheet alone:
//! table check, reader, writer, looking at a row; and the tools that compare.

pub mod bench;
pub mod case;
pub mod clock;
pub mod columns;
pub mod compare;
pub mod ffi;
pub mod gen;
pub mod hostile;
pub mod label;
pub mod night;
pub mod read;
pub mod rng;
pub mod rows;
pub mod sample;
pub mod scenes;
pub mod small;
pub mod spell;
pub mod store;
pub mod table;
pub mod utf8;
pub mod write;

/// Words of 32 bits that a caller must lend as work.
pub const WORK_WORDS: usize = 16_384;
pub const MAX_NODES: usize = 1_024;
pub const MAX_PATH: usize = 32;
pub const MAX_FIXED: u16 = 4_096;
pub const KEYS: usize = 32;
/// Longest message, and longest pool of the writer.
pub const MAX_BYTES: usize = 65_536;
pub const MAX_ROWS: usize = 8_192;
/// Most numbered literals of one message, all keys together.
pub const MAX_NUMBERED: usize = 4_096;

/// Mode 0: no pieces, every value stands in the core.
pub const INLINE_EVERYTHING: u64 = 1 << 0;
/// Mode 2: -3 is a null whose error is told elsewhere.
pub const OUT_OF_BAND_FIELD_ERRORS: u64 = 1 << 2;
/// Mode 4: a 00 follows each STRING literal in its piece.
pub const NULL_TERMINATED_STRINGS: u64 = 1 << 4;
/// Mode 5: no literal has a number.
pub const NO_DEDUPLICATION: u64 = 1 << 5;
pub const MODES: u64 =
    INLINE_EVERYTHING | OUT_OF_BAND_FIELD_ERRORS | NULL_TERMINATED_STRINGS | NO_DEDUPLICATION;

/// What a call answers: a number and a second number.
#[derive(Clone, Copy, Debug, PartialEq, Eq, Hash, PartialOrd, Ord)]
pub struct Answer {
    pub number: u64,
    pub second: u64,
}

impl Answer {
    pub fn success(count: usize) -> Answer {
        Answer {
            number: 0,
            second: count as u64,
        }
    }

    pub fn refused(number: u64, second: usize) -> Answer {
        Answer {
            number,
            second: second as u64,
        }
    }

    pub fn is_success(self) -> bool {
        self.number == 0
    }
}

/// A refusal as an error, so that `?` ends the whole walk.
pub fn refuse<T>(number: u64, second: usize) -> Result<T, Answer> {
    Err(Answer::refused(number, second))
}
