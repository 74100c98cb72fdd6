//! UTF-8 as RFC 3629 has it: no long forms, no halves of surrogate pairs, nothing past 10FFFF.

use std::ops::RangeInclusive;

/// Where a byte after the first of a character lies.
const TAIL: RangeInclusive<u8> = 0x80..=0xbf;

pub fn valid(mut text: &[u8]) -> bool {
    // Texts are mostly ASCII, which is found out many bytes at a time.
    if text.is_ascii() {
        return true;
    }
    while let Some((&first, rest)) = text.split_first() {
        if first < 0x80 {
            text = after_words(rest);
            continue;
        }
        let Some((next, others)) = expected(first) else {
            return false;
        };
        let Some((second, rest)) = rest.split_first() else {
            return false;
        };
        let Some((tails, rest)) = rest.split_at_checked(others) else {
            return false;
        };
        if !next.contains(second) || !tails.iter().all(|byte| TAIL.contains(byte)) {
            return false;
        }
        text = rest;
    }
    true
}

/// After the first byte of a character that is not ASCII: where the next one lies, and how many tails follow that one.
fn expected(first: u8) -> Option<(RangeInclusive<u8>, usize)> {
    Some(match first {
        0xc2..=0xdf => (TAIL, 0),
        0xe0 => (0xa0..=0xbf, 1),
        0xed => (0x80..=0x9f, 1),
        0xe1..=0xef => (TAIL, 1),
        0xf0 => (0x90..=0xbf, 2),
        0xf4 => (0x80..=0x8f, 2),
        0xf1..=0xf3 => (TAIL, 2),
        _ => return None,
    })
}

/// What is left after the words of eight bytes in front that are all ASCII.
fn after_words(mut text: &[u8]) -> &[u8] {
    while let Some((word, rest)) = text.split_first_chunk::<8>() {
        if u64::from_ne_bytes(*word) & 0x8080_8080_8080_8080 != 0 {
            break;
        }
        text = rest;
    }
    text
}

#[cfg(test)]
mod tests {
    use super::valid;
    use crate::gen::texts;
    use crate::rng::Rng;

    /// Both sides of every bound, and some bytes far from them.
    const EDGES: [u8; 32] = [
        0x00, 0x41, 0x7f, 0x80, 0x81, 0x8f, 0x90, 0x9f, 0xa0, 0xaf, 0xbf, 0xc0, 0xc1, 0xc2, 0xc3,
        0xdf, 0xe0, 0xe1, 0xe2, 0xec, 0xed, 0xee, 0xef, 0xf0, 0xf1, 0xf3, 0xf4, 0xf5, 0xf7, 0xf8,
        0xfe, 0xff,
    ];

    /// The rule of the standard library, which is none of the two programs.
    fn agrees(text: &[u8]) {
        let third = std::str::from_utf8(text).is_ok();
        assert_eq!(valid(text), third, "{text:x?}");
    }

    #[test]
    fn all_short_texts() {
        agrees(&[]);
        for a in 0..=255 {
            agrees(&[a]);
            for b in 0..=255 {
                agrees(&[a, b]);
                for c in EDGES {
                    agrees(&[a, b, c]);
                }
            }
        }
    }

    #[test]
    fn edges_of_the_ranges() {
        for a in EDGES {
            for b in EDGES {
                for c in EDGES {
                    agrees(&[a, b, c]);
                    for d in EDGES {
                        agrees(&[a, b, c, d]);
                    }
                }
            }
        }
    }

    #[test]
    fn every_second_byte_of_four() {
        for a in 0xef..=0xf8 {
            for b in 0..=255 {
                for c in EDGES {
                    for d in EDGES {
                        agrees(&[a, b, c, d]);
                        agrees(&[a, b, c, d, 0x80]);
                    }
                }
            }
        }
    }

    #[test]
    fn every_character_and_every_half_of_a_pair() {
        for code in 0..0x11_0000 {
            match char::from_u32(code) {
                Some(letter) => assert!(valid(letter.encode_utf8(&mut [0; 4]).as_bytes())),
                None => {
                    let tail = |shift: u32| 0x80 | (code >> shift) as u8 & 0x3f;
                    assert!(!valid(&[0xed, tail(6), tail(0)]), "{code:x}");
                }
            }
        }
    }

    #[test]
    fn long_texts_around_each_bound() {
        let mut rng = Rng::new(2);
        let mut taken = 0;
        for _ in 0..200_000 {
            let text = texts::near(&mut rng);
            agrees(&text);
            taken += valid(&text) as usize;
            // And any bytes of the neighbourhoods, most of which are no text.
            let size = rng.below(12);
            agrees(&(0..size).map(|_| rng.pick(&EDGES)).collect::<Vec<u8>>());
        }
        assert!((80_000..150_000).contains(&taken), "{taken}");
    }

    #[test]
    fn a_fault_anywhere_in_a_long_text_is_seen() {
        let mut text = vec![b'x'; 40];
        assert!(valid(&text));
        for i in 0..40 {
            text[i] = 0x80;
            assert!(!valid(&text), "{i}");
            text[i] = b'x';
        }
        for letter in ["é", "語", "😀"] {
            let text = letter.repeat(20).into_bytes();
            for i in 0..text.len() {
                for byte in [0x7f, 0xc0] {
                    let mut text = text.clone();
                    text[i] = byte;
                    agrees(&text);
                    assert_eq!(valid(&text[..i]), i % letter.len() == 0);
                }
            }
        }
    }

    #[test]
    fn the_loose_forms_are_not_taken() {
        // A slash in two bytes and in three; half a pair; past the last character.
        for text in [
            &b"\xc0\xaf"[..],
            b"\xe0\x80\xaf",
            b"\xed\xa0\x80",
            b"\xf4\x90\x80\x80",
            b"\xf7\xbf\xbf\xbf",
            b"\xf8\x80\x80\x80\x80",
        ] {
            assert!(!valid(text), "{text:x?}");
        }
    }
}
