//! Why a call was refused.

use std::error::Error;
use std::fmt;

/// Why a call was refused: a variant for each number of the feed's rules, with the node or the row at fault where the
/// rules name one. `docs/REFUSALS.md` says for each whose fault it is, and what to do.
#[derive(Clone, Copy, Debug, PartialEq, Eq, Hash)]
#[non_exhaustive]
pub enum Refusal {
    /// 1: the work is too short. This wrapper always lends enough, so it never answers it.
    WorkShort,

    /// 10: the table has fewer than 7 bytes, or does not begin with `AWT`.
    TableMark,
    /// 11: the table's version is not 1.
    TableVersion,
    /// 12: the table's node count is 0 or over 1,024, or its length is another.
    TableSize,
    /// 13: a node's kind, flags or argument.
    TableNode {
        /// The first such node.
        node: usize,
    },
    /// 14: nesting, depth, a node left over or missing.
    TableTree {
        /// The first node at which the nodes so far break a rule; their count if one is missing.
        node: usize,
    },
    /// 15: a key disagrees with its first use.
    TableKey {
        /// The BLOCK that disagrees.
        node: usize,
    },

    /// 20: the message is empty or has over 65,536 bytes.
    MessageSize,
    /// 21: the header is longer than a byte, or has another mode than 0, 2, 4 and 5.
    Header,
    /// 22: there are no pieces, or the label of one is not its length.
    Pieces,
    /// 23: a label or VARINT in a piece is cut, over 64 bits or not shortest.
    Label,
    /// 24: a label that is not allowed at its place.
    LabelPlace,
    /// 25: an error under NULLABLE, without mode 2.
    Error,
    /// 26: a backreference to a number that was not given, of a key without numbers, or in mode 5.
    Backreference,
    /// 27: a piece ends before the value does, or in mode 4 before the 00 behind a string.
    Cut,
    /// 28: a string is not UTF-8 by RFC 3629, which is what a `str` may hold. A [`Tree`](crate::Tree) has no other
    /// strings, so that only reading and [`look`](crate::look) answer it.
    Text {
        /// The row that was looked at; none when reading.
        row: Option<usize>,
    },
    /// 29: no block is left for a key that is touched now.
    NoBlock,
    /// 30: bytes or blocks are left at the end.
    Unused,
    /// 31: one row more than 8,192, or than the codec has room for.
    ManyRows,
    /// 32: more than 4,096 numbered literals, all keys together; when writing, different values.
    ManyLiterals,
    /// 35: in mode 4, the byte behind a string is not 00.
    Terminator,

    /// 40: the modes to write in are others than 0, 2, 4 and 5.
    Modes,
    /// 41: over 8,192 rows, or a pool of over 65,536 bytes.
    RowsSize,
    /// 42: a row is bad, does not fit the table, is left over or missing. Its node is never wrong here, since it is filled
    /// in from the table.
    Unfit {
        /// The first such row; their count if one is missing.
        row: usize,
    },
    /// 43: the message is longer than the room for it, or than 65,536 bytes.
    NoRoom,

    /// 50: the row number is beyond the rows.
    NoRow,
    /// 51: a row's kind or words are bad, its node is not below 1,024, or its place is outside of the bytes.
    BadRow,

    /// A number that none of the above has: of a library that is newer than this wrapper.
    Other {
        /// The refusal's number.
        number: u64,
        /// Its second number.
        second: u64,
    },
}

/// Which call was refused; the second number of 28 means something only when writing.
#[derive(Clone, Copy, PartialEq, Eq)]
pub(crate) enum Call {
    Check,
    Read,
    Write,
    Look,
}

/// Those whose second number is always 0; 28 is among them for reading.
const PLAIN: [Refusal; 23] = [
    Refusal::WorkShort,
    Refusal::TableMark,
    Refusal::TableVersion,
    Refusal::TableSize,
    Refusal::MessageSize,
    Refusal::Header,
    Refusal::Pieces,
    Refusal::Label,
    Refusal::LabelPlace,
    Refusal::Error,
    Refusal::Backreference,
    Refusal::Cut,
    Refusal::NoBlock,
    Refusal::Unused,
    Refusal::ManyRows,
    Refusal::ManyLiterals,
    Refusal::Terminator,
    Refusal::Modes,
    Refusal::RowsSize,
    Refusal::NoRoom,
    Refusal::NoRow,
    Refusal::BadRow,
    Refusal::Text { row: None },
];

impl Refusal {
    /// The refusal that a call's two numbers stand for; none for 0.
    pub(crate) fn of(call: Call, number: u64, second: u64) -> Option<Refusal> {
        let at = second as usize;
        match number {
            0 => None,
            13 => Some(Refusal::TableNode { node: at }),
            14 => Some(Refusal::TableTree { node: at }),
            15 => Some(Refusal::TableKey { node: at }),
            28 if call == Call::Write => Some(Refusal::Text { row: Some(at) }),
            42 => Some(Refusal::Unfit { row: at }),
            _ => {
                let known = PLAIN.into_iter().find(|r| r.number() == number);
                Some(known.unwrap_or(Refusal::Other { number, second }))
            }
        }
    }

    /// Its number in the feed's rules.
    pub fn number(self) -> u64 {
        match self {
            Refusal::WorkShort => 1,
            Refusal::TableMark => 10,
            Refusal::TableVersion => 11,
            Refusal::TableSize => 12,
            Refusal::TableNode { .. } => 13,
            Refusal::TableTree { .. } => 14,
            Refusal::TableKey { .. } => 15,
            Refusal::MessageSize => 20,
            Refusal::Header => 21,
            Refusal::Pieces => 22,
            Refusal::Label => 23,
            Refusal::LabelPlace => 24,
            Refusal::Error => 25,
            Refusal::Backreference => 26,
            Refusal::Cut => 27,
            Refusal::Text { .. } => 28,
            Refusal::NoBlock => 29,
            Refusal::Unused => 30,
            Refusal::ManyRows => 31,
            Refusal::ManyLiterals => 32,
            Refusal::Terminator => 35,
            Refusal::Modes => 40,
            Refusal::RowsSize => 41,
            Refusal::Unfit { .. } => 42,
            Refusal::NoRoom => 43,
            Refusal::NoRow => 50,
            Refusal::BadRow => 51,
            Refusal::Other { number, .. } => number,
        }
    }

    /// Its second number: the node or the row at fault, else 0.
    pub fn second(self) -> u64 {
        match self {
            Refusal::TableNode { node }
            | Refusal::TableTree { node }
            | Refusal::TableKey { node } => node as u64,
            Refusal::Text { row } => row.unwrap_or(0) as u64,
            Refusal::Unfit { row } => row as u64,
            Refusal::Other { second, .. } => second,
            _ => 0,
        }
    }

    /// The table's node at fault.
    pub fn node(self) -> Option<usize> {
        match self {
            Refusal::TableNode { node }
            | Refusal::TableTree { node }
            | Refusal::TableKey { node } => Some(node),
            _ => None,
        }
    }

    /// The row at fault.
    pub fn row(self) -> Option<usize> {
        match self {
            Refusal::Unfit { row } => Some(row),
            Refusal::Text { row } => row,
            _ => None,
        }
    }

    fn meaning(self) -> &'static str {
        match self {
            Refusal::WorkShort => "work has fewer than 16,384 words of 32 bits",
            Refusal::TableMark => "table under 7 bytes, or its mark is wrong",
            Refusal::TableVersion => "table's version is not 1",
            Refusal::TableSize => "table's node count is 0 or over 1,024, or its length is wrong",
            Refusal::TableNode { .. } => "a table node's kind, flags or argument",
            Refusal::TableTree { .. } => {
                "the table's nesting, its depth, a node left over or missing"
            }
            Refusal::TableKey { .. } => "a key of the table disagrees with its first use",
            Refusal::MessageSize => "message empty or over 65,536 bytes",
            Refusal::Header => "header longer than a byte, or a mode other than 0, 2, 4 and 5 set",
            Refusal::Pieces => "the message has no pieces, or a piece's label is not its length",
            Refusal::Label => "a label or VARINT is cut, over 64 bits, or not shortest",
            Refusal::LabelPlace => "a label is not allowed at its place",
            Refusal::Error => "an error under NULLABLE, with mode 2 clear",
            Refusal::Backreference => {
                "a backreference to a number not yet given, for a key not deduplicating, or in mode 5"
            }
            Refusal::Cut => "a piece ends before the value, or the 00 behind it, does",
            Refusal::Text { .. } => "a string is not UTF-8",
            Refusal::NoBlock => "no block left for a key now touched",
            Refusal::Unused => "bytes or blocks unused at the end",
            Refusal::ManyRows => "one row more than 8,192 or than there is room for",
            Refusal::ManyLiterals => "more than 4,096 numbered literals, all keys together",
            Refusal::Terminator => "in mode 4, the byte behind a string is not 00",
            Refusal::Modes => "modes other than 0, 2, 4 and 5",
            Refusal::RowsSize => "over 8,192 rows, or a pool over 65,536 bytes",
            Refusal::Unfit { .. } => {
                "a row is malformed, does not fit the table, is missing or left over"
            }
            Refusal::NoRoom => "message over the room for it or over 65,536 bytes",
            Refusal::NoRow => "row number beyond the rows",
            Refusal::BadRow => "the row's kind or words, or its place is outside of the bytes",
            Refusal::Other { .. } => "a refusal that these bindings do not know",
        }
    }
}

/// `refusal 42 at row 3: a row is malformed, …`
impl fmt::Display for Refusal {
    fn fmt(&self, f: &mut fmt::Formatter) -> fmt::Result {
        write!(f, "refusal {}", self.number())?;
        if let Some(node) = self.node() {
            write!(f, " at node {node}")?;
        }
        if let Some(row) = self.row() {
            write!(f, " at row {row}")?;
        }
        write!(f, ": {}", self.meaning())
    }
}

impl Error for Refusal {}

#[cfg(test)]
mod tests {
    use super::{Call, Refusal, PLAIN};

    /// The numbers of the feed's rules.
    const NUMBERS: [u64; 27] = [
        1, 10, 11, 12, 13, 14, 15, 20, 21, 22, 23, 24, 25, 26, 27, 28, 29, 30, 31, 32, 35, 40, 41,
        42, 43, 50, 51,
    ];

    #[test]
    fn each_number_has_a_variant_that_says_it() {
        for number in NUMBERS {
            for call in [Call::Check, Call::Read, Call::Write, Call::Look] {
                let refusal = Refusal::of(call, number, 0).unwrap();
                assert!(!matches!(refusal, Refusal::Other { .. }), "{number}");
                assert_eq!((refusal.number(), refusal.second()), (number, 0));
            }
        }
        assert_eq!(Refusal::of(Call::Read, 0, 25), None);
    }

    #[test]
    fn second_numbers_are_nodes_or_rows() {
        let of = |number| Refusal::of(Call::Write, number, 7).unwrap();
        assert_eq!([13, 14, 15].map(|n| of(n).node()), [Some(7); 3]);
        assert_eq!([28, 42].map(|n| of(n).row()), [Some(7); 2]);
        assert_eq!([13, 14, 15, 28, 42].map(|n| of(n).second()), [7; 5]);
        assert!(PLAIN.iter().all(|r| r.second() == 0));
        let reading = Refusal::of(Call::Read, 28, 0).unwrap();
        assert_eq!(reading, Refusal::Text { row: None });
    }

    #[test]
    fn an_unknown_number_is_kept() {
        let newer = Refusal::of(Call::Read, 34, 5).unwrap();
        assert_eq!((newer.number(), newer.second()), (34, 5));
        assert_eq!((newer.node(), newer.row()), (None, None));
    }

    /// The header's names are these variants' names.
    #[test]
    fn the_header_has_the_same_numbers() {
        let header = include_str!("../../../include/argo.h");
        let refusals = header.split("/* Refusals, by number").nth(1).unwrap();
        let refusals = refusals.split("};").next().unwrap();
        let mut numbers = Vec::new();
        for line in refusals.lines() {
            let Some((name, rest)) = line.trim().split_once(" = ") else {
                continue;
            };
            let digits = rest.split(|c: char| !c.is_ascii_digit()).next().unwrap();
            let number = digits.parse().unwrap();
            let variant = format!("{:?}", Refusal::of(Call::Read, number, 0).unwrap());
            let variant = variant.split(' ').next().unwrap();
            let ours = name.strip_prefix("ARGO_").unwrap().replace('_', "");
            assert_eq!(variant.to_uppercase(), ours);
            numbers.push(number);
        }
        assert_eq!(numbers, NUMBERS);
    }

    #[test]
    fn the_page_of_refusals_has_each_number_and_name() {
        let page = include_str!("../../../docs/REFUSALS.md");
        for number in NUMBERS {
            let variant = format!("{:?}", Refusal::of(Call::Read, number, 0).unwrap());
            let variant = variant.split(' ').next().unwrap();
            let row = format!("| {number} `{variant}` |");
            assert!(page.contains(&row), "docs/REFUSALS.md has no row {row}");
        }
    }
}
