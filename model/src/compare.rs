//! Cases through the C interface, against the model. Every lent word is garbage
//! before the call and looked at after it, and so are guard words around it.

use std::collections::BTreeMap;
use std::time::Instant;

use crate::case::Case;
use crate::ffi;
use crate::gen::Cases;
use crate::rng::Rng;
use crate::rows::{self, Seen, Value};
use crate::{read, table, write, Answer};

/// Words around a lent buffer that no call may touch.
const GUARD: usize = 8;
/// One call in so many runs on a thread with the stack that the library is promised.
const THREAD: usize = 64;
const STACK: usize = 64 * 1_024;
/// Differences printed before the rest is only counted.
const SHOWN: usize = 20;

/// Generated cases; true when all agree. A traced run shows the case that a
/// crash of the library would leave unnamed.
pub fn generated(seed: u64, count: usize, kinds: &str, trace: bool) -> Result<bool, String> {
    if let Some(kind) = kinds.chars().find(|&kind| !ffi::has(kind)) {
        return Err(format!(
            "kind {kind} is not linked: build with its ffi feature, or leave it out with --kinds"
        ));
    }
    println!("seed {seed}, kinds {kinds}");
    let mut cases = Cases::new(seed, kinds);
    let mut comparison = Comparison::new(seed);
    let start = Instant::now();
    for _ in 0..count {
        let case = cases.next_case();
        if trace {
            println!("{case}");
        }
        comparison.compare(&case);
    }
    let rate = count as f64 / start.elapsed().as_secs_f64();
    println!("{rate:.0} cases a second");
    Ok(comparison.close())
}

/// Stored cases, by what stands in front of `->`; true when all agree.
pub fn stored(text: &str) -> Result<bool, String> {
    let mut comparison = Comparison::new(1);
    let mut left_out = 0;
    for (i, line) in text.lines().enumerate() {
        if line.trim().is_empty() || line.starts_with('#') {
            continue;
        }
        let case = line.split(" -> ").next().unwrap_or(line);
        let case = Case::parse(case).map_err(|error| format!("line {}: {error}", i + 1))?;
        // The interface has modes of 64 bits.
        let wide = matches!(case, Case::Write { modes, .. } if modes > u64::MAX as u128);
        if wide || !ffi::has(case.kind()) {
            left_out += 1;
            continue;
        }
        comparison.compare(&case);
    }
    if left_out > 0 {
        println!("{left_out} cases left out: modes over 64 bits, or the call is not linked");
    }
    Ok(comparison.close())
}

/// A kind of word that buffers are made of.
trait Word: Copy + PartialEq + Send {
    const ZERO: Self;
    /// Garbage is never zero, so that a word left as it was always shows.
    fn garbage(word: u64) -> Self;
    fn join(self, other: Self) -> Self;
}

macro_rules! word {
    ($($int:ty)*) => {$(
        impl Word for $int {
            const ZERO: Self = 0;
            fn garbage(word: u64) -> Self {
                (word as $int).max(1)
            }
            fn join(self, other: Self) -> Self {
                self | other
            }
        }
    )*};
}

word!(u8 u32 u64);

/// A buffer to lend, refilled with garbage for each call.
struct Lent<T> {
    garbage: Vec<T>,
    words: Vec<T>,
    shift: usize,
}

impl<T: Word> Lent<T> {
    fn new(rng: &mut Rng) -> Lent<T> {
        let garbage = (0..8_192).map(|_| T::garbage(rng.word())).collect();
        Lent {
            garbage,
            words: Vec::new(),
            shift: 0,
        }
    }

    fn refill(&mut self, len: usize, rng: &mut Rng) -> &mut [T] {
        self.shift = rng.below(self.garbage.len());
        self.words.clear();
        let mut from = self.shift;
        let total = len + 2 * GUARD;
        while self.words.len() < total {
            let some = (total - self.words.len()).min(self.garbage.len() - from);
            self.words
                .extend_from_slice(&self.garbage[from..from + some]);
            from = 0;
        }
        self.lent_mut()
    }

    fn lent(&self) -> &[T] {
        &self.words[GUARD..self.words.len() - GUARD]
    }

    fn lent_mut(&mut self) -> &mut [T] {
        let end = self.words.len() - GUARD;
        &mut self.words[GUARD..end]
    }

    fn guards_stand(&self) -> bool {
        let as_filled = |at: usize| self.garbage[(self.shift + at) % self.garbage.len()];
        let end = self.words.len() - GUARD;
        (0..GUARD)
            .chain(end..end + GUARD)
            .all(|at| self.words[at] == as_filled(at))
    }

    fn is_zero(&self) -> bool {
        let joined = self
            .lent()
            .iter()
            .fold(T::ZERO, |all, &word| all.join(word));
        joined == T::ZERO
    }
}

/// Calls of the library beside the model's.
pub struct Comparison {
    rng: Rng,
    work: Lent<u32>,
    rows: Lent<u64>,
    out: Lent<u8>,
    model_rows: Vec<u64>,
    model_out: Vec<u8>,
    total: usize,
    /// How many of each kind there were.
    kinds: BTreeMap<char, usize>,
    differ: usize,
}

impl Comparison {
    pub fn new(seed: u64) -> Comparison {
        let mut rng = Rng::new(!seed);
        Comparison {
            work: Lent::new(&mut rng),
            rows: Lent::new(&mut rng),
            out: Lent::new(&mut rng),
            model_rows: Vec::new(),
            model_out: Vec::new(),
            total: 0,
            kinds: BTreeMap::new(),
            differ: 0,
            rng,
        }
    }

    /// Prints how many agree; true when all do.
    pub fn close(&self) -> bool {
        let kinds: Vec<String> = self
            .kinds
            .iter()
            .map(|(kind, count)| format!("{kind} {count}"))
            .collect();
        let kinds = kinds.join(", ");
        println!("{} cases ({kinds}), {} differ", self.total, self.differ);
        self.differ == 0
    }

    pub fn compare(&mut self, case: &Case) {
        self.total += 1;
        *self.kinds.entry(case.kind()).or_default() += 1;
        if let Err(difference) = self.difference(case) {
            self.differ += 1;
            if self.differ <= SHOWN {
                println!("{case} -> {}", case.answer());
                println!("  library: {difference}");
            }
        }
    }

    /// What the library does otherwise.
    fn difference(&mut self, case: &Case) -> Result<(), String> {
        let on_thread = self.total.is_multiple_of(THREAD);
        match case {
            Case::Table { work, table } => {
                let lent = self.work.refill(*work, &mut self.rng);
                let theirs = call(on_thread, || ffi::check(table, lent));
                same_numbers(table::check(table, *work), theirs)?;
            }
            Case::Read {
                work,
                rows,
                table,
                message,
            } => {
                let lent = self.work.refill(*work, &mut self.rng);
                let into = self.rows.refill(*rows, &mut self.rng);
                self.model_rows.clear();
                self.model_rows.extend_from_slice(into);
                let ours = read::read(table, message, &mut self.model_rows, *work);
                let theirs = call(on_thread, || ffi::read(table, message, into, lent));
                same_numbers(ours, theirs)?;
                same_words("rows", &self.model_rows, &self.rows)?;
            }
            Case::Write {
                work,
                out,
                modes,
                table,
                rows,
                pool,
            } => {
                let lent = self.work.refill(*work, &mut self.rng);
                let into = self.out.refill(*out, &mut self.rng);
                self.model_out.clear();
                self.model_out.extend_from_slice(into);
                let ours = write::write(table, *modes, rows, pool, &mut self.model_out, *work);
                let modes = *modes as u64;
                let theirs = call(on_thread, || {
                    ffi::write(table, modes, rows, pool, into, lent)
                });
                same_numbers(ours, theirs)?;
                same_words("out", &self.model_out, &self.out)?;
            }
            Case::Look { bytes, index, rows } => {
                let bytes = self.out.refill(*bytes, &mut self.rng);
                return same_seen(rows, bytes, *index);
            }
            Case::Part { index, rows, data } => {
                let ours = rows::part(rows, data, *index);
                let theirs = ffi::part(rows, data, *index).expect("linked");
                let (start, len) = (theirs.start as usize, theirs.len as usize);
                // An empty part may stand anywhere.
                let same = len == ours.len()
                    && (len == 0
                        || data.get(start..).and_then(|rest| rest.get(..len)) == Some(ours));
                return if same {
                    Ok(())
                } else {
                    Err(format!("start {start} len {len}"))
                };
            }
        }
        if !self.work.guards_stand() {
            return Err("words around work are changed".to_string());
        }
        if !self.work.is_zero() {
            let at = self.work.lent().iter().position(|&word| word != 0);
            return Err(format!("work word {} is not zero", at.unwrap_or(0)));
        }
        Ok(())
    }
}

/// The library's call, now and then with no more stack than it was promised.
fn call(on_thread: bool, call: impl FnOnce() -> Option<Answer> + Send) -> Answer {
    let answer = if on_thread {
        std::thread::scope(|scope| {
            std::thread::Builder::new()
                .stack_size(STACK)
                .spawn_scoped(scope, call)
                .expect("a thread")
                .join()
                .expect("the call returns")
        })
    } else {
        call()
    };
    answer.expect("linked")
}

fn same_numbers(ours: Answer, theirs: Answer) -> Result<(), String> {
    if ours == theirs {
        Ok(())
    } else {
        Err(theirs.to_string())
    }
}

fn same_words<T: Word + std::fmt::Display>(
    name: &str,
    ours: &[T],
    theirs: &Lent<T>,
) -> Result<(), String> {
    if !theirs.guards_stand() {
        return Err(format!("words around {name} are changed"));
    }
    if ours == theirs.lent() {
        return Ok(());
    }
    let differs = |(i, (a, b)): (usize, (&T, &T))| (a != b).then_some((i, *a, *b));
    let pairs = ours.iter().zip(theirs.lent()).enumerate();
    match pairs.filter_map(differs).next() {
        Some((i, a, b)) => Err(format!("{name} word {i} is {b}, not {a}")),
        None => Err(format!("{name} has another length")),
    }
}

fn same_seen(rows: &[u64], bytes: &[u8], index: u64) -> Result<(), String> {
    let (ours, seen) = rows::look(rows, bytes.len(), index);
    let theirs = ffi::look(rows, bytes, index).expect("linked");
    let words = seen.map_or([0; rows::WORDS], Seen::row);
    let value = match seen.map(|seen| seen.value) {
        Some(Value::Float(x)) => x,
        _ => 0.0,
    };
    // The row's bits are in `a`; the float of a NaN may be any NaN.
    let same_value = if value.is_nan() {
        theirs.value.is_nan()
    } else {
        theirs.value.to_bits() == value.to_bits()
    };
    let same = theirs.number == ours.number
        && theirs.second == ours.second
        && [theirs.kind, theirs.a, theirs.b, theirs.node] == words
        && same_value;
    if same {
        Ok(())
    } else {
        Err(format!("{theirs:?}"))
    }
}

#[cfg(test)]
mod tests {
    use super::*;

    #[test]
    fn a_lent_buffer_shows_what_was_left_and_what_was_overrun() {
        let mut rng = Rng::new(3);
        let mut lent: Lent<u32> = Lent::new(&mut rng);
        for len in [0, 1, 5, 20_000] {
            let words = lent.refill(len, &mut rng);
            assert_eq!(words.len(), len);
            assert!(words.iter().all(|&word| word != 0));
            words.fill(0);
            assert!(lent.is_zero() && lent.guards_stand());
            let last = lent.words.len() - 1;
            lent.words[last] ^= 1;
            assert!(!lent.guards_stand());
            lent.words[last] ^= 1;
            lent.words[0] = 0;
            assert!(!lent.guards_stand());
        }
        let words = lent.refill(9, &mut rng);
        words[..8].fill(0);
        assert!(!lent.is_zero());
    }
}
