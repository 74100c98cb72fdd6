//! Rows that are worst for the library's writer, all but the last for its search for an equal literal. A text has a
//! hash of 27 bits. Twelve of them, with its key and size, choose the chain that it is looked for in; a literal there
//! that has the same size and all the bits is compared with it. If they differ, the text is looked for anew, among those
//! that were last compared with this literal and have as many pairs of first bytes in common with it.

use std::collections::HashSet;
use std::iter::repeat;

use crate::rng::Rng;
use crate::{rows, MAX_BYTES, MAX_NUMBERED, MAX_ROWS};

/// Rows under table S, and the number of the answer to them.
pub struct List {
    pub name: &'static str,
    pub rows: Vec<u64>,
    pub pool: Vec<u8>,
    pub number: u64,
}

impl List {
    fn new(name: &'static str, places: &[[u64; 2]], pool: Vec<u8>, number: u64) -> List {
        let mut rows = vec![rows::ARRAY, places.len() as u64, 0, 0];
        rows.extend(places.iter().flat_map(|[a, b]| [rows::STRING, *a, *b, 1]));
        List {
            name,
            rows,
            pool,
            number,
        }
    }

    /// Texts, then repeats of them as far as there may be rows. They are so short that a message holds them, so that
    /// both passes are made.
    fn texts(name: &'static str, texts: &[Text], repeats: impl Iterator<Item = usize>) -> List {
        let places = (0..texts.len()).chain(repeats).map(|i| [8 * i as u64, 8]);
        let places: Vec<[u64; 2]> = places.take(MAX_ROWS - 1).collect();
        List::new(name, &places, texts.concat(), 0)
    }
}

/// Each list is made when its turn comes.
pub fn lists() -> [fn() -> List; 9] {
    [
        || far_behind(256),
        || far_behind(512),
        || far_behind(4_096),
        || far_behind(8_191),
        one_chain,
        one_chain_twice,
        one_hash,
        many_sizes,
        mixed_letters,
    ]
}

type Text = [u8; 8];

/// The last number that a literal can have.
const LAST: usize = MAX_NUMBERED - 1;
const CHAINS: u64 = 4_096;
const HALF: u64 = 1 << 32;
/// Two numbers below 2^32 add up to this, or to 2^32 more, about equally often.
const MIDDLE: u64 = HALF / 2;
const LOW: u64 = 2_246_822_519;
const HIGH: u64 = 1_540_483_477;

/// The library's hash.
fn hash(text: &[u8]) -> u64 {
    let size = text.len();
    let four = |at: usize| number(&text[at..][..4]);
    let eight = |at: usize| number(&text[at..][..8]);
    ended(match size {
        0 => 0,
        1..=3 => mixed(0, number(&[text[0], text[size / 2], text[size - 1]])),
        4..=7 => mixed(0, four(0) + HALF * four(size - 4)),
        _ => {
            let step = if size <= 64 { 8 } else { (size - 8) / 7 };
            let words = (0..size - 8).step_by(step).chain([size - 8]);
            words.fold(0, |h, at| mixed(h, eight(at)))
        }
    })
}

fn number(bytes: &[u8]) -> u64 {
    let add = |number: u64, &byte: &u8| 256 * number + byte as u64;
    bytes.iter().rev().fold(0, add)
}

fn mixed(h: u64, word: u64) -> u64 {
    let x = word % HALF * LOW + word / HALF * HIGH;
    (31 * h + x / HALF + x % HALF) % HALF
}

fn ended(h: u64) -> u64 {
    h * 3_266_489_917 / 65_536 % (1 << 27)
}

/// Texts whose hashes agree in the bits that choose the chain, and in no others: none is compared with another.
fn chained(chain: u64) -> impl Iterator<Item = Text> {
    let mut hashes = HashSet::new();
    let texts = (0..).map(|i: u64| {
        let number = i.wrapping_mul(0x9e37_79b9_7f4a_7c15);
        std::array::from_fn(|place| (number >> (7 * place)) as u8 % 128)
    });
    texts.filter(move |text| {
        let hash = hash(text);
        hash % CHAINS == chain && hashes.insert(hash)
    })
}

/// ASCII texts that end in the same h, so that all bits of their hashes agree, and differ in their first two bytes.
fn alike(h: u64) -> impl Iterator<Item = Text> {
    // The two halves of a product are added, which is to reckon modulo 2^32 - 1, but for a carry. Its prime factors are
    // each one more than a power of two up to 2^16, so that the power of 2^16 - 1 is the inverse.
    let modulus = HALF - 1;
    let inverse = (0..65_535).fold(1, |power, _| power * HIGH % modulus);
    let text = move |front: u64, middle: u64| {
        let low =
            front % 128 + 256 * (front / 128) + 65_536 * (middle % 128 + 256 * (middle / 128));
        let high = (h + modulus - low * LOW % modulus) % modulus * inverse % modulus;
        let text: Text = (low + HALF * high).to_le_bytes();
        (text.is_ascii() && hash(&text) == ended(h)).then_some(text)
    };
    (0..128 * 128).filter_map(move |front| (0..128 * 128).find_map(|middle| text(front, middle)))
}

/// Long places in a pool of one letter with another at 60,000, so that two of them differ only far behind. At most 4,096
/// are different, and no message holds them.
fn far_behind(places: u64) -> List {
    let mut pool = vec![b'a'; MAX_BYTES];
    pool[60_000] = b'b';
    let places: Vec<_> = (0..places).map(|i| [i % 4_096, 60_000]).collect();
    List::new(
        "60,000 bytes each, that differ only far behind",
        &places,
        pool,
        43,
    )
}

/// Each is looked for through all that were there before it.
fn one_chain() -> List {
    let texts: Vec<Text> = chained(0).take(MAX_NUMBERED).collect();
    List::texts("one chain, and each again", &texts, 0..MAX_NUMBERED)
}

/// The last two have one hash, and the number of the first of them is the chain's. So the chain is gone through to that
/// one, and then once more from the beginning: as many links as a search can have.
fn one_chain_twice() -> List {
    let chain = LAST as u64 - 1;
    let h = (MIDDLE..HALF).find(|&h| ended(h) % CHAINS == chain);
    let h = h.expect("a number for each chain");
    let others = chained(chain).filter(|text| hash(text) != ended(h));
    let texts: Vec<Text> = others.take(LAST - 1).chain(alike(h).take(2)).collect();
    List::texts("one chain, gone through twice", &texts, repeat(LAST))
}

/// All have one hash, and none has a first pair in common with another. So a text is compared with the first, then with
/// the only one that was last compared with that one, and so on: as many comparisons as a search can have.
fn one_hash() -> List {
    let texts: Vec<Text> = alike(MIDDLE).take(MAX_NUMBERED).collect();
    List::texts("one hash, and the last again", &texts, repeat(LAST))
}

/// One place of each size, all in one chain. No message holds them.
fn many_sizes() -> List {
    let mut rng = Rng::new(1);
    let pool: Vec<u8> = (0..MAX_BYTES).map(|_| rng.byte() % 128).collect();
    let place = |size: usize| {
        let chain = |start: usize| (hash(&pool[start..][..size]) + 977 * size as u64) % CHAINS;
        let start = (0..MAX_BYTES - size).find(|&start| chain(start) == 0);
        [start.expect("a place for each size") as u64, size as u64]
    };
    let mut places: Vec<_> = (4..4 + MAX_NUMBERED).map(place).collect();
    places.resize(MAX_ROWS - 1, places[LAST]);
    List::new(
        "one chain of many sizes, and the last again",
        &places,
        pool,
        43,
    )
}

/// Worst for the check of a text, not for the search: one long text of letters of one and two bytes in no order, as
/// often as there may be rows.
fn mixed_letters() -> List {
    let mut rng = Rng::new(1);
    let mut text = String::new();
    while text.len() < 57_000 {
        text.push(if rng.one_in(2) { 'a' } else { 'é' });
    }
    let places = vec![[0, text.len() as u64]; MAX_ROWS - 1];
    List::new(
        "57,000 bytes of mixed letters, again and again",
        &places,
        text.into_bytes(),
        0,
    )
}

#[cfg(test)]
mod tests {
    use super::*;

    fn different<T: Eq + std::hash::Hash>(all: impl Iterator<Item = T>) -> usize {
        all.collect::<HashSet<T>>().len()
    }

    #[test]
    fn texts_of_one_hash() {
        let texts: Vec<Text> = alike(MIDDLE).take(MAX_NUMBERED).collect();
        assert_eq!(
            different(texts.iter().map(|text| [text[0], text[1]])),
            4_096
        );
        assert_eq!(different(texts.iter().map(|text| hash(text))), 1);
    }

    #[test]
    fn texts_of_one_chain() {
        let texts: Vec<Text> = chained(7).take(100).collect();
        assert_eq!(different(texts.iter().map(|text| hash(text))), 100);
        assert!(texts.iter().all(|text| hash(text) % CHAINS == 7));
    }

    #[test]
    fn a_long_text_is_hashed_by_nine_words() {
        let mut text = [b'a'; 60_000];
        let all = hash(&text);
        text[8_569] = b'b';
        assert_eq!(hash(&text), all);
        text[8_570] = b'b';
        assert_ne!(hash(&text), all);
    }
}
