//! Labels and VARINTs: signed 64-bit numbers, zig-zagged, seven bits a byte,
//! low first, in the fewest bytes.

pub fn zigzag(n: i64) -> u64 {
    // No negation, so -2^63 is a number like any other.
    ((n << 1) ^ (n >> 63)) as u64
}

pub fn unzigzag(z: u64) -> i64 {
    (z >> 1) as i64 ^ -((z & 1) as i64)
}

/// Bytes that the label takes.
pub fn size(n: i64) -> usize {
    let bits = 64 - (zigzag(n) | 1).leading_zeros() as usize;
    bits.div_ceil(7)
}

pub fn put(n: i64, out: &mut Vec<u8>) {
    let mut z = zigzag(n);
    while z >= 0x80 {
        out.push(z as u8 | 0x80);
        z >>= 7;
    }
    out.push(z as u8);
}

/// The label at `at` in `piece` and the place after it. `None` when it is cut by
/// the piece's end, over 64 bits, or not shortest.
pub fn get(piece: &[u8], at: usize) -> Option<(i64, usize)> {
    let first = *piece.get(at)?;
    if first < 0x80 {
        return Some((unzigzag(first as u64), at + 1));
    }
    let mut z = (first & 0x7f) as u64;
    for i in 1..10 {
        let byte = *piece.get(at + i)?;
        z |= ((byte & 0x7f) as u64) << (7 * i);
        if byte < 0x80 {
            // A zero top byte is padding; the tenth byte has room for one bit.
            let whole = byte != 0 && (i < 9 || byte == 1);
            return whole.then_some((unzigzag(z), at + i + 1));
        }
    }
    None
}

#[cfg(test)]
mod tests {
    use super::*;

    fn bytes(n: i64) -> Vec<u8> {
        let mut out = Vec::new();
        put(n, &mut out);
        out
    }

    #[test]
    fn zigzag_goes_by_its_formula() {
        let pairs = [
            (0, 0),
            (-1, 1),
            (1, 2),
            (-2, 3),
            (2, 4),
            (i64::MAX, u64::MAX - 1),
        ];
        for (n, z) in pairs {
            assert_eq!(zigzag(n), z);
            assert_eq!(unzigzag(z), n);
        }
        assert_eq!(zigzag(i64::MIN), u64::MAX);
        assert_eq!(unzigzag(u64::MAX), i64::MIN);
    }

    #[test]
    fn sizes_change_at_the_powers() {
        let sizes = [
            (63, 1),
            (-64, 1),
            (64, 2),
            (-65, 2),
            (8_191, 2),
            (-8_192, 2),
            (8_192, 3),
            (-8_193, 3),
            ((1 << 20) - 1, 3),
            (1 << 20, 4),
            (i64::MAX, 10),
            (i64::MIN, 10),
        ];
        for (n, wanted) in sizes {
            assert_eq!(size(n), wanted, "{n}");
            assert_eq!(bytes(n).len(), wanted, "{n}");
            assert_eq!(get(&bytes(n), 0), Some((n, wanted)));
        }
    }

    #[test]
    fn marked_label_examples() {
        assert_eq!(get(&[0x80, 0x00], 0), None);
        let mut ten = vec![0xff; 9];
        ten.push(0x01);
        assert_eq!(get(&ten, 0), Some((i64::MIN, 10)));
        ten[9] = 0x02;
        assert_eq!(get(&ten, 0), None);
        assert_eq!(bytes(-64), [0x7f]);
        assert_eq!(bytes(-65), [0x81, 0x01]);
    }

    #[test]
    fn cut_and_overlong_labels_are_none() {
        assert_eq!(get(&[], 0), None);
        assert_eq!(get(&[0x80], 0), None);
        assert_eq!(get(&[0xff; 9], 0), None);
        let mut eleven = vec![0x80; 10];
        eleven.push(0x01);
        assert_eq!(get(&eleven, 0), None);
        let mut padded = vec![0xff; 9];
        padded.push(0x00);
        assert_eq!(get(&padded, 0), None);
        assert_eq!(get(&[0x02, 0x04], 1), Some((2, 2)));
    }

    #[test]
    fn every_two_byte_label_is_the_one_written() {
        for first in 0..=255u8 {
            for second in 0..=255u8 {
                let piece = [first, second];
                if let Some((n, end)) = get(&piece, 0) {
                    assert_eq!(bytes(n), piece[..end]);
                }
            }
        }
        for n in -9_000..9_000 {
            assert_eq!(get(&bytes(n), 0), Some((n, size(n))));
        }
    }
}
