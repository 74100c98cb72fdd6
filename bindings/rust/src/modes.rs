//! Modes of a message.

use std::ops::BitOr;

/// The modes of a message, a set: `Modes::NO_DEDUPLICATION | Modes::OUT_OF_BAND_ERRORS`. The default is none of them.
#[derive(Clone, Copy, Debug, Default, PartialEq, Eq, Hash)]
pub struct Modes(u64);

impl Modes {
    /// None of the modes: values stand in blocks, repeats are named by numbers.
    pub const NONE: Modes = Modes(0);
    /// Mode 0, InlineEverything: there are no blocks, and values stand in the core.
    pub const INLINE_EVERYTHING: Modes = Modes(1);
    /// Mode 2, OutOfBandFieldErrors: an error stands for null.
    pub const OUT_OF_BAND_ERRORS: Modes = Modes(1 << 2);
    /// Mode 4, NullTerminatedStrings: a 00 follows each string that is written out, outside of its length. A `&str` that
    /// was read does not have it.
    pub const NULL_TERMINATED: Modes = Modes(1 << 4);
    /// Mode 5, NoDeduplication: each value is written out.
    pub const NO_DEDUPLICATION: Modes = Modes(1 << 5);

    /// The set whose mode m is bit m of the number. Any number is taken; writing in modes other than 0, 2, 4 and 5
    /// is refused with [`Refusal::Modes`](crate::Refusal::Modes).
    pub const fn from_bits(bits: u64) -> Modes {
        Modes(bits)
    }

    /// The number whose bit m is mode m.
    pub const fn bits(self) -> u64 {
        self.0
    }

    /// Are all of these modes among them?
    pub const fn contains(self, modes: Modes) -> bool {
        self.0 & modes.0 == modes.0
    }

    /// Those of a message that was read: its header is one byte, with mode m in bit m + 1.
    pub(crate) fn of_header(message: &[u8]) -> Modes {
        Modes(message.first().map_or(0, |&header| u64::from(header >> 1)))
    }
}

impl BitOr for Modes {
    type Output = Modes;

    fn bitor(self, modes: Modes) -> Modes {
        Modes(self.0 | modes.0)
    }
}
