//! Mode 4 (No. 5): a 00 behind each STRING literal, in its piece; 27, 35 and 28; what it costs.

mod common;

use std::collections::BTreeSet;
use std::ops::Range;

use common::*;
use model::case::{Case, Reply};
use model::gen::ends::{cases, chosen};
use model::gen::fixed::{table_r, table_s, types};
use model::gen::texts::{table_bytes, table_plain};
use model::gen::Cases;
use model::rows::{self, part};
use model::store::{decode, Store};
use model::table::{self, Node};
use model::{label, spell, Answer};

#[test]
fn a_text_and_its_00() {
    let s = table_s();
    // In its block, and inline in the core right behind the text.
    assert_eq!(rows_of(&s, b"\x20\x04a\x00\x04\x02\x02").1[1], [6, 2, 1]);
    assert_eq!(rows_of(&s, b"\x22\x02\x02a\x00").1[1], [6, 3, 1]);
    assert_eq!(
        message_of(&s, 16, &[[10, 1, 0], [6, 0, 1]], b"a").1,
        b"\x20\x04a\x00\x04\x02\x02"
    );
    assert_eq!(
        message_of(&s, 17, &[[10, 1, 0], [6, 0, 1]], b"a").1,
        b"\x22\x02\x02a\x00"
    );
    // An empty text starts at its 00, the next one after it.
    let rows = [[10, 3, 0], [6, 2, 0], [6, 3, 0], [6, 4, 1]];
    let message = b"\x60\x08\x00\x00b\x00\x08\x06\x00\x00\x02";
    assert_eq!(rows_of(&s, message), (ok(4), rows.to_vec()));
    assert_eq!(
        message_of(&s, 48, &rows, message),
        (ok(11), message.to_vec())
    );
    // Other zero bytes are the text's own.
    let rows = [[10, 1, 0], [6, 2, 3]];
    let message = b"\x20\x08\x00a\x00\x00\x04\x02\x06";
    assert_eq!(rows_of(&s, message), (ok(2), rows.to_vec()));
    assert_eq!(
        message_of(&s, 16, &rows, message),
        (ok(9), message.to_vec())
    );
    assert_eq!(part(&[6, 2, 3, 1], message, 0), b"\x00a\x00");
}

#[test]
fn the_order_of_27_35_and_28() {
    let s = table_s();
    for (bytes, said, wanted) in [
        (&b"a\x00"[..], 1, ok(2)),
        (b"\xc3\xa9\x00", 2, ok(2)),
        // The text or its 00 is missing.
        (b"", 1, no(27)),
        (b"a", 1, no(27)),
        (b"a", 2, no(27)),
        (b"a\x00", 2, no(27)),
        (b"\xff", 1, no(27)),
        (b"\xff\x00", 2, no(27)),
        (b"\xff\x01", 2, no(27)),
        (b"", 0, no(27)),
        // Another byte, be the text right or not.
        (b"a\x01", 1, no(35)),
        (b"ab", 1, no(35)),
        (b"\xff\x01", 1, no(35)),
        (b"\xff\xff", 1, no(35)),
        (b"\xc3\xa9", 1, no(35)),
        (b"\x01", 0, no(35)),
        (b"a\x01\x00", 1, no(35)),
        // The text alone.
        (b"\xff\x00", 1, no(28)),
        (b"\xc3\x00", 1, no(28)),
        (b"\xff\x00\x01", 1, no(28)),
        // One byte more.
        (b"a\x00\x00", 1, no(30)),
        (b"\x00\x00", 0, no(30)),
    ] {
        let block = [&[0x20, 2 * bytes.len() as u8], bytes, &[4, 2, 2 * said]].concat();
        let inline = [&[0x22, 2, 2 * said], bytes].concat();
        assert_eq!(answer(&s, &block), wanted, "{bytes:x?} {said}");
        assert_eq!(answer(&s, &inline), wanted, "{bytes:x?} {said}");
        // 31 comes after all of them.
        let lent = |message| read_lent(&s, message, 4).0.number;
        let wanted = match wanted.number {
            0 | 30 => 31,
            number => number,
        };
        assert_eq!([lent(&block), lent(&inline)], [wanted; 2], "{bytes:x?}");
    }
    // 23, 24, 26 and 29 before them.
    assert_eq!(answer(&s, b"\x20\x02a\x04\x02\x80"), no(23));
    assert_eq!(answer(&s, b"\x20\x02a\x04\x02\x05"), no(24));
    assert_eq!(answer(&s, b"\x20\x02a\x04\x02\x07"), no(26));
    assert_eq!(answer(&s, b"\x20\x04\x02\x00"), no(29));
    // The highest length, to which one cannot be added.
    let highest = b"\x22\x02\xfe\xff\xff\xff\xff\xff\xff\xff\xff\x01a\x00";
    assert_eq!(answer(&s, highest), no(27));
}

#[test]
fn a_fault_comes_before_32() {
    for (last, wanted) in [
        (&b"\x00"[..], no(32)),
        (b"\x01", no(35)),
        (b"", no(27)),
        (b"\x00\x00", no(32)),
    ] {
        let mut core = Vec::new();
        label::put(4_097, &mut core);
        core.extend(vec![0; 4_097]);
        let block = [&[0; 4_096], last].concat();
        let mut message = vec![0x20];
        for piece in [block, core] {
            label::put(piece.len() as i64, &mut message);
            message.extend(piece);
        }
        assert_eq!(answer(&table_s(), &message), wanted);
        // Where the row would not fit either.
        assert_eq!(read_lent(&table_s(), &message, 4 * 4_097).0, wanted);
        let plain = if wanted.number == 32 { no(31) } else { wanted };
        message[0] = 0x60;
        assert_eq!(read_lent(&table_s(), &message, 4 * 4_097).0, plain);
    }
}

#[test]
fn the_00_stands_in_the_same_piece() {
    let two = [n(7, 0, 2), n(9, 2, 0), n(1, 0, 0), n(9, 2, 1), n(1, 0, 0)];
    assert_eq!(answer(&two, b"\x20\x04a\x00\x02\x00\x04\x02\x00"), ok(3));
    // Right behind the first block stands the second one's label, 00.
    assert_eq!(answer(&two, b"\x20\x02a\x00\x04\x02\x00"), no(27));
    assert_eq!(answer(&two, b"\x20\x04a\x00\x00\x04\x02\x00"), no(27));
    assert_eq!(answer(&two, b"\x20\x06a\x00\x00\x00\x04\x02\x00"), no(27));
}

#[test]
fn only_literals_of_texts_have_one() {
    // BYTES have none, whatever they hold.
    let bytes = table_bytes();
    assert_eq!(rows_of(&bytes, b"\x20\x02a\x04\x02\x02").1[1], [7, 2, 1]);
    assert_eq!(rows_of(&bytes, b"\x22\x02\x02a").1[1], [7, 3, 1]);
    assert_eq!(answer(&bytes, b"\x20\x04a\x00\x04\x02\x02"), no(30));
    assert_eq!(answer(&bytes, b"\x22\x02\x02a\x00"), no(30));
    assert_eq!(answer(&bytes, b"\x20\x04a\x00\x04\x02\x04"), ok(2));
    for modes in [16, 48, 20] {
        let written = message_of(&bytes, modes, &[[10, 1, 0], [7, 0, 1]], b"a").1;
        assert_eq!(written[1..], *b"\x02a\x04\x02\x02");
    }
    // A backreference has none, inline neither.
    let s = table_s();
    let rows = [[10, 3, 0], [6, 2, 1], [6, 2, 1], [6, 2, 1]];
    let message = b"\x20\x04a\x00\x08\x06\x02\x07\x07";
    assert_eq!(rows_of(&s, message), (ok(4), rows.to_vec()));
    assert_eq!(message_of(&s, 16, &rows, message).1, message);
    assert_eq!(answer(&s, b"\x22\x04\x02a\x00\x07"), ok(3));
    assert_eq!(answer(&s, b"\x22\x04\x02a\x00\x07\x00"), no(30));
    assert_eq!(answer(&s, b"\x20\x06a\x00\x00\x06\x04\x02\x07"), no(30));
    assert_eq!(answer(&s, b"\x62\x04\x02a\x00\x07"), no(26));
    // A text without a number has one; a null and an error told elsewhere have none.
    assert_eq!(answer(&table_plain(), b"\x20\x04a\x00\x04\x02\x02"), ok(2));
    assert_eq!(answer(&table_plain(), b"\x20\x02a\x04\x02\x02"), no(27));
    let r = table_r();
    assert_eq!(answer(&r, b"\x20\x06ok\x00\x02\x01\x02\x04"), ok(3));
    assert_eq!(answer(&r, b"\x20\x04ok\x02\x01\x02\x04"), no(27));
    assert_eq!(answer(&r, b"\x28\x02\x0a\x02\x05"), ok(3));
    assert_eq!(answer(&r, b"\x20\x02\x0a\x02\x05"), no(25));
    assert_eq!(answer(&r, b"\x2a\x01\x0a"), ok(3));
}

#[test]
fn the_writer_does_not_copy_it() {
    let s = table_s();
    for pool in [&b"abcd"[..], b"ab\x00d", b"\x00\x00\x00\x00"] {
        for start in 0..=4 {
            for len in 0..=4 - start {
                let text = &pool[start as usize..][..len as usize];
                let rows = [[10, 1, 0], [6, start, len]];
                let inline = [&[0x22, 2, 2 * len as u8], text, &[0]].concat();
                assert_eq!(message_of(&s, 17, &rows, pool).1, inline);
                let size = 2 * (len as u8 + 1);
                let block = [&[0x20, size], text, &[0, 4, 2, 2 * len as u8]].concat();
                assert_eq!(message_of(&s, 16, &rows, pool).1, block);
            }
        }
        assert_eq!(
            message_of(&s, 16, &[[10, 1, 0], [6, 2, 3]], pool).0,
            no_at(42, 1)
        );
    }
    // The text is judged without it.
    let rows = [[10, 1, 0], [6, 0, 1]];
    assert_eq!(message_of(&s, 16, &rows, b"\xc3\x00").0, no_at(28, 1));
}

#[test]
fn it_counts_in_the_message() {
    let s = table_s();
    for (modes, size) in [(16, 10), (17, 8), (48, 12), (49, 10), (20, 10)] {
        let rows = [[10, 3, 0], [6, 0, 1], [6, 1, 0], [6, 0, 1]];
        let answer = |lent| write_lent(&s, modes, &rows, b"a", lent).0;
        assert_eq!(answer(size), ok(size), "{modes}");
        assert_eq!(answer(size - 1), no(43), "{modes}");
    }
    // The block's own label grows with it, that of the text does not.
    for (len, size) in [(62, 62 + 1 + 5), (63, 63 + 1 + 6), (64, 64 + 1 + 7)] {
        let pool = [b'x'; 64];
        let written = message_of(&s, 16, &[[10, 1, 0], [6, 0, len]], &pool);
        assert_eq!(written.0, ok(size));
        assert_eq!(rows_of(&s, &written.1).0, ok(2));
    }
    // 8,191 of them, up to the last byte of the longest message.
    for (five, wanted) in [(1, ok(65_536)), (0, no(43))] {
        let mut rows = vec![[10, 8_191, 0]];
        rows.extend(vec![[6, 0, 6]; 8_191 - five]);
        rows.extend(vec![[6, 0, 5]; five]);
        let (answer, message) = message_of(&s, 48, &rows, b"xxxxxx");
        assert_eq!(answer, wanted);
        if answer.is_success() {
            assert_eq!(rows_of(&s, &message).0, ok(8_192));
        }
    }
}

/// A value written out takes its label, its bytes and, if it is a text in mode 4, the 00.
#[test]
fn the_premise_counts_it() {
    let premise = |kind: u64, len: u64, modes: u64| {
        let nodes = match kind {
            rows::STRING => table_s(),
            _ => table_bytes(),
        };
        let mut list = vec![[rows::ARRAY, 62, 0, 0]];
        list.extend((0..61).map(|i| [kind, 3 * i, 3, 1]));
        list.push([kind, 3 * 61, len, 1]);
        let pool: Vec<u8> = (0..62).flat_map(|i| [i, 1, 2]).collect();
        spell::premise(&types(&nodes), &list.concat(), &pool, modes, false)
    };
    for inline in [0, 1] {
        assert!(!premise(rows::STRING, 0, inline));
        assert!(!premise(rows::STRING, 1, inline));
        assert!(premise(rows::STRING, 2, inline));
        // Two bytes for an empty text, three for one of a byte.
        assert!(!premise(rows::STRING, 0, 16 | inline));
        assert!(premise(rows::STRING, 1, 16 | inline));
        for modes in [0, 16] {
            assert!(!premise(rows::BYTES, 0, modes | inline));
            assert!(!premise(rows::BYTES, 1, modes | inline));
            assert!(premise(rows::BYTES, 2, modes | inline));
        }
        assert!(premise(rows::STRING, 0, 48 | inline));
    }
}

/// Rules for the 00 that look right.
#[derive(Clone, Copy, Debug, PartialEq)]
enum Rule {
    Right,
    /// Mode 4 is read as if it were clear.
    Never,
    BytesToo,
    NumberedOnly,
    NotInMode5,
    NotInline,
    NotEmpty,
    ReferencesToo,
    InTheLabel,
    InTheRow,
    AnyByte,
    MayBeMissing,
    MissingIs35,
    InTheNextPiece,
    /// The text ends at its first zero byte.
    FirstZero,
    TextBefore35,
    TextBefore27,
    After32And31,
    /// What stands behind the text in the pool.
    FromThePool,
    NotInTheSize,
}

impl Rule {
    /// Whether such a literal is followed by a 00.
    fn ends(self, text: bool, numbered: bool, modes: u64, len: usize) -> bool {
        modes & 16 != 0
            && (text || self == Rule::BytesToo)
            && match self {
                Rule::Never => false,
                Rule::NumberedOnly => numbered,
                Rule::NotInMode5 => modes & 32 == 0,
                Rule::NotInline => modes & 1 == 0,
                Rule::NotEmpty => len > 0,
                _ => true,
            }
    }

    /// Reads an array of texts or BYTES: its rows, or the refusal.
    fn read(self, nodes: &[Node], message: &[u8], lent: usize) -> Result<Vec<u64>, u64> {
        let modes = (message[0] >> 1) as u64;
        let (text, marked) = (nodes[2].kind == table::STRING, nodes[1].flags != 0);
        let numbered = marked && modes & 32 == 0;
        let mut pieces = pieces(message)?;
        let mut core = pieces.pop().ok_or(22u64)?;
        let mut rows = Vec::new();
        let mut row = |row: [u64; 4]| match rows.len() + 4 > lent.min(4 * 8_192) {
            true => Err(31u64),
            false => {
                rows.extend(row);
                Ok(())
            }
        };
        let count = label_of(message, &mut core)?;
        if count < 0 {
            return Err(24);
        }
        row([10, count as u64, 0, 0])?;
        let kind = if text { 6 } else { 7 };
        let (mut touched, mut given) = (false, Vec::new());
        for _ in 0..count {
            let n = label_of(message, &mut core)?;
            if n <= -4 {
                let number = (-4 - n) as usize;
                let (start, len) = *given.get(number).ok_or(26u64)?;
                row([kind, start as u64, len as u64, 1])?;
                if self == Rule::ReferencesToo && self.ends(text, numbered, modes, len) {
                    let piece = pieces.first_mut().unwrap_or(&mut core);
                    if piece.start == piece.end {
                        return Err(27);
                    }
                    piece.start += 1;
                }
                continue;
            }
            if n < 0 {
                return Err(24);
            }
            let piece = match modes & 1 {
                0 => pieces.first_mut().ok_or(29u64)?,
                _ => &mut core,
            };
            touched = true;
            let end = self.ends(text, marked, modes, n as usize);
            let len = match self {
                Rule::InTheLabel if end => (n as usize).saturating_sub(1),
                _ => n as usize,
            };
            let there = len <= piece.len();
            let start = piece.start;
            let bytes = &message[start..][..if there { len } else { 0 }];
            let missing = end && len == piece.len();
            let behind = match self {
                Rule::InTheNextPiece => message.get(start.saturating_add(len)),
                _ => message[..piece.end].get(start.saturating_add(len)),
            };
            let wrong = end && behind.is_some_and(|&byte| byte != 0);
            let bad = text && std::str::from_utf8(bytes).is_err();
            let too_many = numbered && given.len() == 4_096;
            let no_row = 4 * (2 + given.len()) > lent && numbered;
            let mut faults = vec![
                (27, !there),
                (27, there && missing),
                (35, there && wrong),
                (28, bad),
                (32, too_many),
            ];
            match self {
                Rule::AnyByte => faults[2].1 = false,
                Rule::MayBeMissing => faults[1].1 = false,
                Rule::InTheNextPiece => faults[1].1 = there && missing && behind.is_none(),
                Rule::MissingIs35 => faults[1].0 = 35,
                Rule::TextBefore35 => faults.swap(2, 3),
                Rule::TextBefore27 => faults.swap(1, 3),
                Rule::After32And31 => {
                    faults.push((31, no_row));
                    let last = faults.remove(2);
                    faults.push(last);
                }
                _ => {}
            }
            if let Some((number, _)) = faults.iter().find(|(_, found)| *found) {
                return Err(*number);
            }
            piece.start += (len + usize::from(end)).min(piece.len());
            let shown = match self {
                Rule::InTheRow => len + usize::from(end),
                Rule::FirstZero if end => bytes.iter().position(|&b| b == 0).unwrap_or(len),
                _ => len,
            };
            row([kind, start as u64, shown as u64, 1])?;
            if numbered {
                given.push((start, shown));
            }
        }
        let used = usize::from(touched && modes & 1 == 0);
        let unread = |piece: &Range<usize>| !piece.is_empty();
        if pieces.len() > used || pieces.iter().any(unread) || unread(&core) {
            return Err(30);
        }
        Ok(rows)
    }

    /// Writes rows that fit: the message, or 43.
    fn write(
        self,
        nodes: &[Node],
        modes: u64,
        rows: &[u64],
        pool: &[u8],
        out: usize,
    ) -> Result<Vec<u8>, u64> {
        let (text, marked) = (nodes[2].kind == table::STRING, nodes[1].flags != 0);
        let (mut core, mut block) = (Vec::new(), Vec::new());
        label::put(rows[1] as i64, &mut core);
        let mut given: Vec<&[u8]> = Vec::new();
        let mut ends = 0;
        for row in rows[4..].chunks_exact(4) {
            let (start, len) = (row[1] as usize, row[2] as usize);
            let value = &pool[start..start + len];
            let number = given.iter().position(|&other| other == value);
            let number = number.filter(|_| marked && modes & 32 == 0);
            let end = self.ends(text, marked, modes, len);
            let end = end && (number.is_none() || self == Rule::ReferencesToo);
            ends += usize::from(end);
            match number {
                Some(number) => label::put(-4 - number as i64, &mut core),
                None if self == Rule::InTheLabel && end => label::put(len as i64 + 1, &mut core),
                None => label::put(len as i64, &mut core),
            }
            let piece = match modes & 1 {
                0 => &mut block,
                _ => &mut core,
            };
            if number.is_none() {
                given.push(value);
                let zero = value.iter().position(|&byte| byte == 0);
                let cut = zero.filter(|_| self == Rule::FirstZero && end);
                piece.extend(&value[..cut.unwrap_or(len)]);
            }
            if end {
                piece.push(match self {
                    Rule::FromThePool => pool.get(start + len).copied().unwrap_or(0),
                    _ => 0,
                });
            }
        }
        let mut message = vec![(modes << 1) as u8];
        if modes & 1 == 0 {
            let touched = rows.len() > 4;
            for piece in touched.then_some(block).iter().chain([&core]) {
                label::put(piece.len() as i64, &mut message);
                message.extend(piece);
            }
        } else {
            message.extend(core);
        }
        let size = match self {
            Rule::NotInTheSize => message.len() - ends,
            _ => message.len(),
        };
        match size > out.min(65_536) {
            true => Err(43),
            false => Ok(message),
        }
    }
}

/// The pieces of a message; inline the core alone.
fn pieces(message: &[u8]) -> Result<Vec<Range<usize>>, u64> {
    if message[0] & 2 != 0 {
        let core = 1..message.len();
        return Ok(vec![core]);
    }
    let (mut pieces, mut at) = (Vec::new(), 1);
    while at < message.len() {
        let (len, start) = label::get(message, at).ok_or(22u64)?;
        if len < 0 || len as usize > message.len() - start {
            return Err(22);
        }
        at = start + len as usize;
        pieces.push(start..at);
    }
    Ok(pieces)
}

fn label_of(message: &[u8], piece: &mut Range<usize>) -> Result<i64, u64> {
    let (n, after) = label::get(&message[..piece.end], piece.start).ok_or(23u64)?;
    piece.start = after;
    Ok(n)
}

/// A stored case of an array of texts or BYTES, and whether the rule answers it as the model does; the rules are no
/// programs of their own, so that a case is left out if it is refused before the first text.
fn agrees(rule: Rule, case: &Case) -> Option<bool> {
    let tables = [table_s(), table_plain(), table_bytes()];
    let nodes = |file: &[u8]| tables.iter().find(|nodes| table::file(nodes) == file);
    match (case, case.answer()) {
        (
            Case::Read {
                table,
                message,
                rows,
                ..
            },
            Reply::Rows(answer, list),
        ) => {
            let early = [1, 20, 21];
            let nodes = nodes(table).filter(|_| !early.contains(&answer.number))?;
            let wanted = match answer.number {
                0 => Ok(list),
                number => Err(number),
            };
            Some(rule.read(nodes, message, *rows) == wanted)
        }
        (
            Case::Write {
                table,
                modes,
                rows,
                pool,
                out,
                ..
            },
            Reply::Message(answer, message),
        ) => {
            let nodes = nodes(table).filter(|_| [0, 43].contains(&answer.number))?;
            let wanted = match answer.number {
                0 => Ok(message),
                number => Err(number),
            };
            Some(rule.write(nodes, *modes as u64, rows, pool, *out) == wanted)
        }
        _ => None,
    }
}

#[test]
fn stored_cases_tell_mistakes_that_look_right() {
    let stored = decode(&Store::new(1, "RW", 9, Vec::new()).file).unwrap();
    let told = |rule: Rule, kind: char| {
        let of_kind = stored.iter().filter(|case| case.kind() == kind);
        let agree: Vec<bool> = of_kind.filter_map(|case| agrees(rule, case)).collect();
        assert!(agree.len() > 500);
        agree.iter().filter(|agrees| !*agrees).count()
    };
    for case in &stored {
        assert_ne!(agrees(Rule::Right, case), Some(false), "{case}");
    }
    let both = [
        Rule::Never,
        Rule::BytesToo,
        Rule::NumberedOnly,
        Rule::NotInMode5,
        Rule::NotInline,
        Rule::NotEmpty,
        Rule::ReferencesToo,
        Rule::InTheLabel,
        Rule::FirstZero,
    ];
    let reader = [
        Rule::InTheRow,
        Rule::AnyByte,
        Rule::MayBeMissing,
        Rule::MissingIs35,
        Rule::InTheNextPiece,
        Rule::TextBefore35,
        Rule::TextBefore27,
        Rule::After32And31,
    ];
    for rule in both.iter().chain(&reader) {
        assert!(told(*rule, 'R') > 0, "{rule:?}");
    }
    for rule in both.iter().chain(&[Rule::FromThePool, Rule::NotInTheSize]) {
        assert!(told(*rule, 'W') > 0, "{rule:?}");
    }
}

#[test]
fn all_chosen_cases_are_stored() {
    let stored = Store::new(1, "TRWLP", 9, Vec::new());
    assert_eq!(stored.left_out, 0);
    let stored = decode(&stored.file).unwrap();
    for case in chosen() {
        assert!(stored.contains(&case), "{case}");
    }
}

#[test]
fn fixed_cases_have_every_answer() {
    let numbers = |kind| -> BTreeSet<u64> {
        let answers = cases(kind)
            .into_iter()
            .filter_map(|case| case.answer().answer());
        answers.map(|answer| answer.number).collect()
    };
    assert!(numbers('R').is_superset(&[0, 21, 26, 27, 28, 29, 30, 31, 32, 35].into()));
    assert!(numbers('W').is_superset(&[0, 28, 40, 42, 43].into()));
}

/// Generated messages in mode 4 are right, or have something else behind a text, often enough.
#[test]
fn generated_cases_in_mode_4() {
    let mut cases = Cases::new(6, "RW");
    let (mut read, mut written, mut wrong, mut missing) = (0, 0, 0, 0);
    let mut modes_read = BTreeSet::new();
    let mut modes_written = BTreeSet::new();
    for _ in 0..30_000 {
        let case = cases.next_case();
        let answer = case.answer().answer().unwrap_or(Answer::success(0));
        match &case {
            Case::Read { message, .. } if message.first().is_some_and(|h| h & 0x20 != 0) => {
                match answer.number {
                    0 => {
                        read += 1;
                        modes_read.insert(message[0] >> 1);
                    }
                    35 => wrong += 1,
                    27 => missing += 1,
                    _ => {}
                }
            }
            Case::Write { modes, .. } if modes & 16 != 0 && answer.is_success() => {
                written += 1;
                modes_written.insert(*modes as u8);
            }
            _ => {}
        }
    }
    assert!(
        read > 500 && written > 500 && wrong > 300 && missing > 300,
        "{read} {written} {wrong} {missing}"
    );
    let all = BTreeSet::from([16, 17, 20, 21, 48, 49, 52, 53]);
    assert_eq!((&modes_read, &modes_written), (&all, &all));
}
