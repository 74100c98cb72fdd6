//! Texts on both sides of each bound of UTF-8, read and written; and random ones near the bounds.

use super::assemble;
use super::fixed::{end_text, read, table_r, table_s, write, OUT, ROWS};
use crate::case::Case;
use crate::rng::Rng;
use crate::table::{self, file, Node};
use crate::{label, rows, INLINE_EVERYTHING, MAX_NUMBERED, NO_DEDUPLICATION, WORK_WORDS};

/// Characters of one to four bytes, all right.
pub const RIGHT: [&[&[u8]]; 4] = [
    &[b"\x00", b"A", b"\x7f"],
    &[
        b"\xc2\x80",
        b"\xc2\xbf",
        b"\xc3\xa9",
        b"\xdf\x80",
        b"\xdf\xbf",
    ],
    &[
        b"\xe0\xa0\x80",
        b"\xe0\xbf\xbf",
        b"\xe1\x80\x80",
        b"\xe2\x82\xac",
        b"\xec\xbf\xbf",
        b"\xed\x80\x80",
        b"\xed\x9f\x80",
        b"\xed\x9f\xbf",
        b"\xee\x80\x80",
        b"\xef\x80\x80",
        b"\xef\xbf\xbf",
    ],
    &[
        b"\xf0\x90\x80\x80",
        b"\xf0\x9f\x98\x80",
        b"\xf0\xbf\xbf\xbf",
        b"\xf1\x80\x80\x80",
        b"\xf3\xbf\xbf\xbf",
        b"\xf4\x80\x80\x80",
        b"\xf4\x8f\x80\x80",
        b"\xf4\x8f\xbf\xbf",
    ],
];

/// What an older rule took, or another rule would; and bytes that begin no character.
pub const WRONG: [&[u8]; 32] = [
    b"\x80",
    b"\xbf",
    b"\xc0",
    b"\xc1",
    b"\xc0\x80",
    b"\xc0\xaf",
    b"\xc0\xbf",
    b"\xc1\x80",
    b"\xc1\xbf",
    b"\xe0\x80\x80",
    b"\xe0\x80\xaf",
    b"\xe0\x9f\x80",
    b"\xe0\x9f\xbf",
    b"\xed\xa0\x80",
    b"\xed\xa0\xbf",
    b"\xed\xaf\xbf",
    b"\xed\xb0\x80",
    b"\xed\xbf\xbf",
    b"\xed\xa0\xbd\xed\xb8\x80",
    b"\xf0\x80\x80\x80",
    b"\xf0\x8f\x80\x80",
    b"\xf0\x8f\xbf\xbf",
    b"\xf4\x90\x80\x80",
    b"\xf4\x90\xbf\xbf",
    b"\xf4\xbf\xbf\xbf",
    b"\xf5",
    b"\xf5\x80\x80\x80",
    b"\xf7\xbf\xbf\xbf",
    b"\xf8\x80\x80\x80",
    b"\xf8\x88\x80\x80\x80",
    b"\xfe",
    b"\xff",
];

/// Of the characters that are not ASCII: a byte after the first is none, 7F or C0; or the last ones are missing.
pub fn broken() -> Vec<Vec<u8>> {
    let mut texts = Vec::new();
    for right in long_characters() {
        for at in 1..right.len() {
            for byte in [0x7f, 0xc0] {
                let mut text = right.to_vec();
                text[at] = byte;
                texts.push(text);
            }
            texts.push(right[..at].to_vec());
        }
    }
    texts.sort();
    texts.dedup();
    texts
}

/// Those that are right and not ASCII.
fn long_characters() -> impl Iterator<Item = &'static [u8]> {
    RIGHT[1..].iter().flat_map(|size| size.iter().copied())
}

/// Characters, or what is none, on both sides of each bound.
fn bounds() -> impl Iterator<Item = &'static [u8]> {
    let right = RIGHT.iter().flat_map(|size| size.iter().copied());
    right.chain(WRONG)
}

/// An array of BYTES.
pub fn table_bytes() -> Vec<Node> {
    let mut nodes = table_s();
    nodes[2].kind = table::BYTES;
    nodes
}

/// An array of texts that have no numbers.
pub fn table_plain() -> Vec<Node> {
    let mut nodes = table_s();
    nodes[1].flags = 0;
    nodes
}

/// A message of these texts, all literals.
pub fn message(texts: &[&[u8]], modes: u64) -> Vec<u8> {
    let (mut core, mut block) = (Vec::new(), Vec::new());
    label::put(texts.len() as i64, &mut core);
    for text in texts {
        label::put(text.len() as i64, &mut core);
        let piece = match modes & INLINE_EVERYTHING {
            0 => &mut block,
            _ => &mut core,
        };
        piece.extend(*text);
        end_text(piece, modes);
    }
    assemble(modes, vec![block], core)
}

/// Rows of these texts, which follow each other in their pool.
pub fn list(kind: u64, texts: &[&[u8]]) -> Vec<u64> {
    let mut list = vec![rows::ARRAY, texts.len() as u64, 0, 0];
    let mut start = 0;
    for text in texts {
        list.extend([kind, start, text.len() as u64, 1]);
        start += text.len() as u64;
    }
    list
}

pub fn written(modes: u64, texts: &[&[u8]]) -> Case {
    let list = list(rows::STRING, texts);
    write(&table_s(), modes, &list, &texts.concat())
}

/// The cases that are always stored.
pub fn chosen() -> Vec<Case> {
    let mut cases = Vec::new();
    alone(&mut cases);
    beside_others(&mut cases);
    order_in_the_reader(&mut cases);
    order_in_the_writer(&mut cases);
    very_long(&mut cases);
    cases
}

/// All fixed cases of this kind.
pub fn cases(kind: char) -> Vec<Case> {
    let mut cases = chosen();
    among_letters(&mut cases);
    too_many(&mut cases);
    cases.retain(|case| case.kind() == kind);
    cases
}

/// One text in a message or in a pool: with pieces, inline, and as BYTES.
fn alone(cases: &mut Vec<Case>) {
    let s = table_s();
    let broken = broken();
    let mut texts: Vec<&[u8]> = bounds().collect();
    texts.extend(broken.iter().map(Vec::as_slice));
    for text in texts {
        cases.push(read(&s, &message(&[text], 0)));
        cases.push(read(&s, &message(&[text], INLINE_EVERYTHING)));
        cases.push(written(0, &[text]));
    }
    for text in bounds() {
        let bytes = list(rows::BYTES, &[text]);
        cases.push(read(&table_bytes(), &message(&[text], 0)));
        cases.push(write(&table_bytes(), 0, &bytes, text));
    }
    // Without numbers, with errors told elsewhere, and under a NULLABLE.
    for text in [&b"\xed\x9f\xbf"[..], b"\xed\xa0\x80"] {
        for modes in [NO_DEDUPLICATION, NO_DEDUPLICATION | INLINE_EVERYTHING, 4] {
            cases.push(read(&s, &message(&[text], modes)));
            cases.push(written(modes, &[text]));
        }
        cases.push(read(&table_plain(), &message(&[text], 0)));
        let blocks = vec![text.to_vec(), vec![1]];
        cases.push(read(&table_r(), &assemble(0, blocks, vec![6])));
        let job = [
            [rows::RECORD, 2, 0, 0],
            [rows::STRING, 0, 3, 1],
            [rows::INTEGER, 1, 0, 4],
        ];
        cases.push(write(&table_r(), 0, &job.concat(), text));
    }
}

/// What stands before or after a text does not count.
fn beside_others(cases: &mut Vec<Case>) {
    let s = table_s();
    for right in long_characters() {
        for at in 1..right.len() {
            // A character that runs on into the next text.
            let (front, back) = right.split_at(at);
            cases.push(read(&s, &message(&[front, back], 0)));
            cases.push(read(&s, &message(&[front, back], INLINE_EVERYTHING)));
            cases.push(written(0, &[front, back]));
            // The rest stands in the pool, but not in the text.
            let short = [rows::ARRAY, 1, 0, 0, rows::STRING, 0, at as u64, 1];
            cases.push(write(&s, 0, &short, right));
        }
        // Bytes that are wrong on both sides of the place; a text whose bytes overlap another's.
        let size = right.len() as u64;
        let inner = [rows::ARRAY, 1, 0, 0, rows::STRING, 1, size, 1];
        cases.push(write(&s, 0, &inner, &[b"\xe1", right, b"\x80"].concat()));
        let twice = [&inner[..], &[rows::STRING, 2, size - 1, 1]].concat();
        let twice = [&[rows::ARRAY, 2], &twice[2..]].concat();
        cases.push(write(&s, 0, &twice, &[b"\xe1", right, b"\x80"].concat()));
        cases.push(read(&s, &message(&[right, b"\x80"], 0)));
        cases.push(read(&s, &message(&[right, b"", right], 0)));
    }
    // After the block stands a core of 64 bytes, whose label is 80 01.
    for text in [&b"\xc3"[..], b"\xe2\x82", b"x"] {
        let mut texts = vec![&b""[..]; 63];
        texts[0] = text;
        cases.push(read(&s, &message(&texts, 0)));
    }
}

pub fn lent(rows: usize, nodes: &[Node], message: Vec<u8>) -> Case {
    Case::Read {
        work: WORK_WORDS,
        rows,
        table: file(nodes),
        message,
    }
}

/// 28 after 27, before 32 and 31; and the first text at fault, also before another fault.
fn order_in_the_reader(cases: &mut Vec<Case>) {
    let s = table_s();
    for text in [&b"\xe0\xa0\x80"[..], b"\xe0\x9f\xbf"] {
        for modes in [0, INLINE_EVERYTHING] {
            // The rest of the array's labels: one is missing, one is not allowed.
            for core in [&[4, 6][..], &[4, 6, 1], &[4, 1, 6], &[4, 6, 7]] {
                let mut core = core.to_vec();
                if modes != 0 {
                    let at = 1 + core.iter().position(|&n| n == 6).unwrap_or(0);
                    core.splice(at..at, text.iter().copied());
                }
                cases.push(read(&s, &assemble(modes, vec![text.to_vec()], core)));
            }
            // One byte more than there is, and one left over.
            for said in [8, 4] {
                let core = match modes {
                    0 => vec![2, said],
                    _ => [&[2, said], text].concat(),
                };
                cases.push(read(&s, &assemble(modes, vec![text.to_vec()], core)));
            }
            for texts in [
                &[text, text, text][..],
                &[b"ok", text, b"ok"],
                &[b"ok", b"\xff", text],
            ] {
                cases.push(read(&s, &message(texts, modes)));
            }
            // Rows for the array alone, and for all.
            for rows in [0, 3, 4, 6, 7, 8] {
                cases.push(lent(rows, &s, message(&[text], modes)));
            }
        }
        // The last number, and one literal more; the row fits, or it does not.
        for (empty, modes) in [
            (MAX_NUMBERED - 1, 0),
            (MAX_NUMBERED, 0),
            (MAX_NUMBERED, INLINE_EVERYTHING),
        ] {
            let mut texts = vec![&b""[..]; empty];
            texts.push(text);
            let message = message(&texts, modes);
            cases.push(lent(ROWS, &s, message.clone()));
            cases.push(lent(rows::WORDS * texts.len(), &s, message));
        }
        // A block that nobody asks for.
        let blocks = vec![text.to_vec(), b"x".to_vec()];
        cases.push(read(&s, &assemble(0, blocks, vec![2, 6])));
    }
}

/// 28 at its row, after 42 there and before any later fault and 43.
fn order_in_the_writer(cases: &mut Vec<Case>) {
    let s = table_s();
    for text in [&b"\xf4\x8f\xbf\xbf"[..], b"\xf4\x90\x80\x80"] {
        for modes in [0, INLINE_EVERYTHING, NO_DEDUPLICATION, 2] {
            cases.push(written(modes, &[text, text]));
            cases.push(written(modes, &[b"ok", b"", text, b"\xff"]));
        }
        let place = |start: u64, len: u64| [rows::STRING, start, len, 1];
        for places in [
            // The text, then a place outside; the other way round; a place too long.
            &[place(0, 4), place(0, 5)][..],
            &[place(0, 5), place(0, 4)],
            &[place(1, 4)],
            // A row of another kind first, or after it; a word that should be 0.
            &[[rows::BYTES, 0, 4, 1], place(0, 4)],
            &[place(0, 4), [rows::BYTES, 0, 4, 1]],
            &[place(0, 4), [rows::NULL, 0, 1, 1]],
        ] {
            let count = places.len() as u64;
            for said in [count, count + 1, count - 1] {
                let list = [&[[rows::ARRAY, said, 0, 0]], places].concat().concat();
                cases.push(write(&s, 0, &list, text));
            }
        }
        // No room, and just enough.
        for out in [0, 8, 9, OUT] {
            cases.push(Case::Write {
                work: WORK_WORDS,
                out,
                modes: 0,
                table: file(&s),
                rows: list(rows::STRING, &[text]),
                pool: text.to_vec(),
            });
        }
    }
}

/// Texts of some 60,000 bytes, with a fault at the very end, in the middle or nowhere.
fn very_long(cases: &mut Vec<Case>) {
    for letter in ["a", "λ", "語", "λ語", "aλ", "😀"] {
        let text = letter.repeat(60_000 / letter.len()).into_bytes();
        let last = text.len() - 1;
        let mut middle = text.clone();
        middle[last / 2] ^= 0x40;
        let surrogate = [&text[..], b"\xed\xbf\xbf"].concat();
        for text in [&text[..], &text[..last], &middle, &surrogate] {
            cases.push(read(&table_s(), &message(&[text], 0)));
            cases.push(written(0, &[text]));
        }
    }
}

/// A character after so many letters, at the end and before others.
fn among_letters(cases: &mut Vec<Case>) {
    let places = |letter: &'static str, counts: &'static [usize]| {
        let fronts = counts.iter().map(move |&count| letter.repeat(count));
        fronts.flat_map(|front| ["", "yyyyyyyyy"].map(|back| (front.clone(), back)))
    };
    let ascii = places("x", &[1, 2, 3, 4, 5, 6, 7, 8, 9, 15, 16, 17, 31, 32, 33]);
    let two = places("λ", &[1, 4, 8]);
    for (front, back) in ascii.chain(two).chain(places("語", &[1, 3, 11])) {
        for text in bounds() {
            let text = [front.as_bytes(), text, back.as_bytes()].concat();
            cases.push(read(&table_s(), &message(&[&text], 0)));
            cases.push(written(0, &[&text]));
        }
    }
}

/// 28 before 32: one different value too many, and a text at fault after them.
fn too_many(cases: &mut Vec<Case>) {
    for last in [&b"\xdf\xbf"[..], b"\xc1\xbf"] {
        let mut list = vec![rows::ARRAY, MAX_NUMBERED as u64 + 1, 0, 0];
        let mut pool = last.to_vec();
        pool.resize(2 + MAX_NUMBERED, b'x');
        list.extend((1..=MAX_NUMBERED as u64).flat_map(|len| [rows::STRING, 2, len, 1]));
        list.extend([rows::STRING, 0, 2, 1]);
        cases.push(write(&table_s(), 0, &list, &pool));
    }
}

/// A text of `len` bytes that is right: letters mostly, or with zero bytes among them, or characters of one size, or of
/// any.
pub fn right(rng: &mut Rng, len: usize) -> Vec<u8> {
    let way = rng.below(8);
    let mut text = Vec::new();
    while text.len() < len {
        let size = match way {
            0..=2 => way + 2,
            3 => 1 + rng.below(4),
            _ if rng.one_in(6) => 1 + rng.below(4),
            _ => 0,
        };
        match size {
            1..=4 if size <= len - text.len() => text.extend(rng.pick(RIGHT[size - 1])),
            _ if way == 7 && rng.one_in(3) => text.push(0),
            _ => text.push(b'a' + rng.below(4) as u8),
        }
    }
    text
}

/// A text of `len` bytes and, somewhere in it, a character near a bound: about half of them are right.
pub fn near_in(rng: &mut Rng, len: usize) -> Vec<u8> {
    let before = rng.below(len + 1);
    let mut text = right(rng, before);
    text.extend(edge(rng));
    text.extend(right(rng, len - before));
    text
}

/// The same of any length up to some words.
pub fn near(rng: &mut Rng) -> Vec<u8> {
    let most = rng.pick(&[0, 1, 4, 9, 20, 70]);
    let len = rng.below(most + 1);
    near_in(rng, len)
}

/// A character whose first byte lies near a bound, and the next one too.
fn edge(rng: &mut Rng) -> Vec<u8> {
    const FIRST: [u8; 16] = [
        0xc2, 0xdf, 0xe0, 0xe0, 0xe1, 0xec, 0xed, 0xed, 0xee, 0xef, 0xf0, 0xf0, 0xf1, 0xf3, 0xf4,
        0xf4,
    ];
    const NEXT: [u8; 6] = [0x80, 0x8f, 0x90, 0x9f, 0xa0, 0xbf];
    let first = match rng.below(8) {
        0 => rng.pick(&[0x80, 0xbf, 0xc0, 0xc1, 0xf5, 0xf7, 0xf8, 0xff]),
        _ => rng.pick(&FIRST),
    };
    let size = match first {
        0x80..=0xdf => 2,
        0xe0..=0xef => 3,
        _ => 4,
    };
    let mut text = vec![first, rng.pick(&NEXT)];
    text.resize_with(size, || rng.pick(&[0x80, 0xbf]));
    match rng.below(12) {
        0 => text[1] = rng.pick(&[0x7f, 0xc0]),
        1 => text[size - 1] = rng.pick(&[0x7f, 0xc0]),
        2 => text.push(0x80),
        3 => {
            text.pop();
        }
        _ => {}
    }
    text
}
