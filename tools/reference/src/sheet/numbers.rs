// The written form of a number of a lot book. 02, W2: "in numbers of seven-bit groups (here up to
// ten bytes)"; 14 for "a malformed number or one above 2^64-1". The rest is 01's, "Numbers and
// table": "lowest group first; a byte's top bit is set when another group follows. It has the
// fewest bytes".

pub const MOST_BYTES: usize = 10;

// The bytes of n.
pub fn bytes_of(n: u64) -> Vec<u8> {
    let mut bytes = Vec::new();
    let mut rest = n;
    loop {
        let group = (rest % 128) as u8;
        rest /= 128;
        if rest == 0 {
            bytes.push(group);
            return bytes;
        }
        bytes.push(group + 128);
    }
}

// The number that begins at `at`, and the place past it; none where no number is written there.
pub fn number_at(bytes: &[u8], at: usize) -> Option<(u64, usize)> {
    let follows = bytes[at..].iter().take_while(|&&byte| byte >= 128).count();
    let count = follows + 1;
    if count > MOST_BYTES || at + count > bytes.len() {
        return None;
    }
    let written = &bytes[at..at + count];
    let value = written.iter().rev().fold(0u128, |n, &byte| n * 128 + (byte % 128) as u128);
    let value = u64::try_from(value).ok()?;
    // "the fewest bytes"
    (bytes_of(value) == written).then_some((value, at + count))
}

#[cfg(test)]
mod tests {
    use super::*;
    use crate::random::Random;

    #[test]
    fn by_hand() {
        let nine = |byte: u8, last: u8| [&[byte; 9][..], &[last]].concat();
        assert_eq!(bytes_of(0), [0]);
        assert_eq!(bytes_of(127), [0x7F]);
        assert_eq!(bytes_of(128), [0x80, 0x01]);
        assert_eq!(bytes_of(u64::MAX), nine(0xFF, 0x01));
        assert_eq!(bytes_of(1 << 63), nine(0x80, 0x01));
        assert_eq!(number_at(&nine(0xFF, 0x01), 0), Some((u64::MAX, 10)));
        for wrong in [
            vec![],
            vec![0x80],
            vec![0x80, 0x00],
            vec![0xFF; 9],
            vec![0xFF; 10],
            nine(0x80, 0x00),
            nine(0x80, 0x02),
            nine(0xFF, 0x02),
            nine(0xFF, 0x7F),
            nine(0xFF, 0x81),
            [&nine(0xFF, 0x81)[..], &[0x00]].concat(),
            [&nine(0xFF, 0x81)[..], &[0x01]].concat(),
        ] {
            assert_eq!(number_at(&wrong, 0), None, "{wrong:?}");
        }
    }

    // a number has as many bytes as its groups, is read back, and is what is read
    #[test]
    fn many_numbers() {
        let mut random = Random::new(1);
        for i in 0..100_000 {
            let n = random.next() >> (i % 64);
            let bytes = bytes_of(n);
            let groups = (64 - n.leading_zeros() as usize).div_ceil(7).max(1);
            assert_eq!(bytes.len(), groups);
            assert_eq!(number_at(&bytes, 0), Some((n, bytes.len())));
            assert_eq!(number_at(&bytes[..bytes.len() - 1], 0), None);
        }
        for _ in 0..100_000 {
            let bytes: Vec<u8> = (0..12).map(|_| random.next() as u8 | 128).collect();
            let count = random.below(12);
            let ended = [&bytes[..count], &[random.below(4) as u8]].concat();
            if let Some((value, next)) = number_at(&ended, 0) {
                assert_eq!(bytes_of(value), ended[..next]);
            }
        }
    }
}
