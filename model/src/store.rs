//! Stored cases in binary, which the program `vectors` runs through the library. They stand in blocks of a fixed size,
//! with zeros after the last case of each. Every answer in them is the model's.
//!
//! ```text
//! number  one byte below 248, or 247 + how many bytes, and those, low first
//! bytes   how many runs; of each, how often, how many bytes, and those
//! words   the same with a number for each word
//!
//! T work table, number second
//! R work rows table message, number second rows
//! W work out modes table rows pool, number second message
//! L bytes index rows, number second kind a b node
//! P index rows data, part
//! ```

use std::collections::HashSet;
use std::ops::Range;

use crate::case::{Case, Reply};
use crate::gen::{ends, fixed, limits, nodes, texts, Cases, KINDS};
use crate::rng::Rng;
use crate::rows::{self, Seen};
use crate::Answer;

/// A case does not cross the end of a block.
const BLOCK: usize = 65_536;

/// What the program has to lend.
const WORK: usize = 21_504;
const ROWS: usize = 33_000;
const BYTES: usize = 73_728;

/// The longest pattern that is looked for in runs.
const PATTERN: usize = 16;

/// Cases in blocks.
pub struct Store {
    pub file: Vec<u8>,
    blocks: usize,
    stored: HashSet<Vec<u8>>,
    /// Bytes of the largest case.
    pub largest: usize,
    /// Cases that are larger than the program can take, or than what was left of the last block.
    pub left_out: usize,
}

impl Store {
    /// The sheet's cases, the limits, those given, the texts, the nodes and the 00 of mode 4; then, by turns, some of the
    /// fixed list and of the generator, until one does not fit any more.
    pub fn new(seed: u64, kinds: &str, blocks: usize, given: Vec<Case>) -> Store {
        let mut store = Store {
            file: Vec::new(),
            blocks,
            stored: HashSet::new(),
            largest: 0,
            left_out: 0,
        };
        let chosen = fixed::sheet().into_iter().chain(limits::cases());
        for case in chosen
            .chain(given)
            .chain(texts::chosen())
            .chain(nodes::chosen())
            .chain(ends::chosen())
        {
            if kinds.contains(case.kind()) && !store.add(&case) {
                store.left_out += 1;
            }
        }
        let mut list: Vec<Case> = kinds.chars().flat_map(fixed::cases).collect();
        let mut rng = Rng::new(seed);
        let mut cases = Cases::new(seed, kinds);
        loop {
            let more = if rng.one_in(2) && !list.is_empty() {
                list.swap_remove(rng.below(list.len()))
            } else {
                cases.next_case()
            };
            if encode(&more).is_some_and(|case| case.len() < 2_500) && !store.add(&more) {
                return store;
            }
        }
    }

    pub fn count(&self) -> usize {
        self.stored.len()
    }

    /// True if the case is stored now.
    fn add(&mut self, case: &Case) -> bool {
        let Some(case) = encode(case) else {
            return false;
        };
        if self.stored.contains(&case) {
            return true;
        }
        let used = self.file.len() % BLOCK;
        let pad = if used + case.len() > BLOCK {
            BLOCK - used
        } else {
            0
        };
        if self.file.len() + pad + case.len() > self.blocks * BLOCK {
            return false;
        }
        self.file.resize(self.file.len() + pad, 0);
        self.file.extend(&case);
        self.largest = self.largest.max(case.len());
        self.stored.insert(case)
    }
}

/// A case as bytes; `None` when it is larger than the program can take.
fn encode(case: &Case) -> Option<Vec<u8>> {
    let reply = case.answer();
    let mut out = vec![case.kind() as u8];
    let fits = match case {
        Case::Table { work, table } => {
            number(*work as u64, &mut out);
            bytes(table, &mut out);
            *work <= WORK && table.len() <= BYTES
        }
        Case::Read {
            work,
            rows,
            table,
            message,
        } => {
            number(*work as u64, &mut out);
            number(*rows as u64, &mut out);
            bytes(table, &mut out);
            bytes(message, &mut out);
            *work <= WORK && *rows <= ROWS && table.len() <= BYTES && message.len() <= BYTES
        }
        Case::Write {
            work,
            out: room,
            modes,
            table,
            rows,
            pool,
        } => {
            number(*work as u64, &mut out);
            number(*room as u64, &mut out);
            number(u64::try_from(*modes).ok()?, &mut out);
            bytes(table, &mut out);
            words(rows, &mut out);
            bytes(pool, &mut out);
            let lent = [*room, table.len(), pool.len()];
            *work <= WORK && rows.len() <= ROWS && lent.iter().all(|&len| len <= BYTES)
        }
        Case::Look { bytes, index, rows } => {
            number(*bytes as u64, &mut out);
            number(*index, &mut out);
            words(rows, &mut out);
            *bytes <= BYTES && rows.len() <= ROWS
        }
        Case::Part { index, rows, data } => {
            number(*index, &mut out);
            words(rows, &mut out);
            bytes(data, &mut out);
            data.len() <= BYTES && rows.len() <= ROWS
        }
    };
    match &reply {
        Reply::Numbers(answer) => numbers(*answer, &mut out),
        Reply::Rows(answer, rows) => {
            numbers(*answer, &mut out);
            words(rows, &mut out);
        }
        Reply::Message(answer, message) => {
            numbers(*answer, &mut out);
            bytes(message, &mut out);
        }
        Reply::Seen(answer, seen) => {
            numbers(*answer, &mut out);
            for word in seen.map_or([0; rows::WORDS], Seen::row) {
                number(word, &mut out);
            }
        }
        Reply::Part(part) => bytes(part, &mut out),
    }
    (fits && out.len() < BLOCK).then_some(out)
}

fn numbers(answer: Answer, out: &mut Vec<u8>) {
    number(answer.number, out);
    number(answer.second, out);
}

fn number(n: u64, out: &mut Vec<u8>) {
    if n < 248 {
        out.push(n as u8);
        return;
    }
    let size = 8 - n.leading_zeros() as usize / 8;
    out.push(247 + size as u8);
    out.extend(&n.to_le_bytes()[..size]);
}

fn bytes(list: &[u8], out: &mut Vec<u8>) {
    put_runs(list, out, |byte, out| out.push(byte));
}

fn words(list: &[u64], out: &mut Vec<u8>) {
    put_runs(list, out, number);
}

fn put_runs<T: Copy + PartialEq>(list: &[T], out: &mut Vec<u8>, put: impl Fn(T, &mut Vec<u8>)) {
    let runs = runs(list);
    number(runs.len() as u64, out);
    for (times, pattern) in runs {
        number(times as u64, out);
        number(pattern.len() as u64, out);
        for &one in pattern {
            put(one, out);
        }
    }
}

/// The list as runs, each a pattern and how often it comes.
fn runs<T: PartialEq>(list: &[T]) -> Vec<(usize, &[T])> {
    let mut runs = Vec::new();
    let (mut plain, mut at) = (0, 0);
    while at < list.len() {
        let rest = &list[at..];
        let repeats = |size: usize| {
            rest.chunks_exact(size)
                .take_while(|c| *c == &rest[..size])
                .count()
        };
        let best = (1..=PATTERN.min(rest.len()))
            .map(|size| (repeats(size), size))
            .max_by_key(|&(times, size)| ((times - 1) * size, std::cmp::Reverse(size)));
        match best {
            // Worth the few bytes that a run takes.
            Some((times, size)) if (times - 1) * size > 8 => {
                if plain < at {
                    runs.push((1, &list[plain..at]));
                }
                runs.push((times, &rest[..size]));
                at += times * size;
                plain = at;
            }
            _ => at += 1,
        }
    }
    if plain < at {
        runs.push((1, &list[plain..at]));
    }
    runs
}

/// The cases of a stored file, in order; an error where one is not as the model would store it.
pub fn decode(file: &[u8]) -> Result<Vec<Case>, String> {
    Ok(stored(file)?
        .into_iter()
        .map(|stored| stored.case)
        .collect())
}

/// A case of a file, and the place in it of its answer.
struct Stored {
    case: Case,
    answer: Range<usize>,
}

fn stored(file: &[u8]) -> Result<Vec<Stored>, String> {
    let mut cases = Vec::new();
    for (i, block) in file.chunks(BLOCK).enumerate() {
        let place = |left: &[u8]| i * BLOCK + block.len() - left.len();
        let mut rest = block;
        while rest.first().is_some_and(|&letter| letter != 0) {
            let number = cases.len() + 1;
            let mut answer = rest;
            let case = case(&mut answer).ok_or_else(|| format!("case {number} cannot be read"))?;
            rest = encode(&case)
                .and_then(|stored| rest.strip_prefix(&stored[..]))
                .ok_or_else(|| {
                    format!(
                        "case {number} is not stored so: {case} -> {}",
                        case.answer()
                    )
                })?;
            let answer = place(answer)..place(rest);
            cases.push(Stored { case, answer });
        }
        if rest.iter().any(|&byte| byte != 0) {
            return Err(format!("bytes after case {}", cases.len()));
        }
    }
    Ok(cases)
}

/// A copy of a stored file with one answer wrong.
pub struct Damaged {
    pub name: String,
    pub file: Vec<u8>,
    /// What the program has to say of it.
    pub report: String,
}

/// Of each letter's first case with something to show, two copies: one has the answer's number wrong, the other the last
/// of the numbers, words or bytes that are stored with it. A part has no number.
pub fn damaged(file: &[u8]) -> Result<Vec<Damaged>, String> {
    let cases = stored(file)?;
    let mut copies = Vec::new();
    for letter in KINDS.chars() {
        let shows = |stored: &Stored| match stored.case.answer() {
            Reply::Part(part) => !part.is_empty(),
            reply => reply.answer().is_some_and(|answer| answer.is_success()),
        };
        let chosen = (1..)
            .zip(&cases)
            .find(|(_, stored)| stored.case.kind() == letter && shows(stored));
        let Some((number, Stored { answer, .. })) = chosen else {
            return Err(format!("no case {letter} has something to show"));
        };
        let mut damage = |what: &str, at: usize| {
            let mut file = file.to_vec();
            file[at] ^= 1;
            copies.push(Damaged {
                name: format!("{letter}-{what}"),
                file,
                report: format!("differs: case {number}\n{} cases, 1 differ\n", cases.len()),
            });
        };
        if letter != 'P' {
            damage("number", answer.start);
        }
        damage("last", answer.end - 1);
    }
    Ok(copies)
}

/// The case in front, and then what follows is its answer.
fn case(from: &mut &[u8]) -> Option<Case> {
    Some(match get_byte(from)? {
        b'T' => Case::Table {
            work: get_number(from)? as usize,
            table: get_bytes(from)?,
        },
        b'R' => Case::Read {
            work: get_number(from)? as usize,
            rows: get_number(from)? as usize,
            table: get_bytes(from)?,
            message: get_bytes(from)?,
        },
        b'W' => Case::Write {
            work: get_number(from)? as usize,
            out: get_number(from)? as usize,
            modes: get_number(from)? as u128,
            table: get_bytes(from)?,
            rows: get_words(from)?,
            pool: get_bytes(from)?,
        },
        b'L' => Case::Look {
            bytes: get_number(from)? as usize,
            index: get_number(from)?,
            rows: get_words(from)?,
        },
        b'P' => Case::Part {
            index: get_number(from)?,
            rows: get_words(from)?,
            data: get_bytes(from)?,
        },
        _ => return None,
    })
}

fn get_byte(from: &mut &[u8]) -> Option<u8> {
    let (&byte, rest) = from.split_first()?;
    *from = rest;
    Some(byte)
}

fn get_number(from: &mut &[u8]) -> Option<u64> {
    let first = get_byte(from)?;
    if first < 248 {
        return Some(first as u64);
    }
    let mut number = 0;
    for i in 0..first - 247 {
        number |= (get_byte(from)? as u64) << (8 * i);
    }
    Some(number)
}

fn get_bytes(from: &mut &[u8]) -> Option<Vec<u8>> {
    get_runs(from, get_byte)
}

fn get_words(from: &mut &[u8]) -> Option<Vec<u64>> {
    get_runs(from, get_number)
}

fn get_runs<T: Clone>(from: &mut &[u8], get: impl Fn(&mut &[u8]) -> Option<T>) -> Option<Vec<T>> {
    let mut list = Vec::new();
    for _ in 0..get_number(from)? {
        let times = get_number(from)? as usize;
        let size = get_number(from)?;
        let pattern = (0..size).map(|_| get(from)).collect::<Option<Vec<T>>>()?;
        for _ in 0..times {
            list.extend(pattern.iter().cloned());
        }
    }
    Some(list)
}
