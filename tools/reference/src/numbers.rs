// The written form of a number (01, "Numbers and table"): "groups of seven bits, lowest group
// first; a byte's top bit is set when another group follows. It has the fewest bytes, at most
// three, and is at most 65,535."

// The bytes of n.
pub fn bytes_of(n: u16) -> Vec<u8> {
    let mut bytes = Vec::new();
    let mut rest = n;
    loop {
        let group = (rest % 128) as u8;
        rest /= 128;
        if rest == 0 {
            bytes.push(group);
            return bytes;
        }
        bytes.push(group + 128);
    }
}

// The bytes of a list of numbers.
pub fn bytes_of_list(list: &[u16]) -> Vec<u8> {
    list.iter().flat_map(|&n| bytes_of(n)).collect()
}

// What stands at a place of the input.
#[derive(Clone, Copy, Debug, PartialEq, Eq)]
pub enum Reading {
    Number { value: u16, next: usize },
    Truncated, // 01: cut short
    Malformed, // 01: loose
}

// The number that begins at `at`. A byte is judged as soon as it is there.
pub fn number_at(bytes: &[u8], at: usize) -> Reading {
    let mut value: u32 = 0;
    for i in 0..3 {
        let Some(&byte) = bytes.get(at + i) else {
            return Reading::Truncated;
        };
        // "a third byte above `03`", also one that says that a fourth follows
        if i == 2 && byte > 3 {
            return Reading::Malformed;
        }
        value += ((byte % 128) as u32) << (7 * i);
        if byte < 128 {
            // "the fewest bytes": the highest group is not 0 unless it is the only one
            if i > 0 && byte == 0 {
                return Reading::Malformed;
            }
            return Reading::Number { value: value as u16, next: at + i + 1 };
        }
    }
    unreachable!("the third byte is at most 3")
}

#[cfg(test)]
mod tests {
    use super::*;

    #[test]
    fn examples_of_01() {
        assert_eq!(bytes_of(0), [0]);
        assert_eq!(bytes_of(127), [0x7F]);
        assert_eq!(bytes_of(128), [0x80, 0x01]);
        assert_eq!(bytes_of(16_383), [0xFF, 0x7F]);
        assert_eq!(bytes_of(16_384), [0x80, 0x80, 0x01]);
        assert_eq!(bytes_of(65_535), [0xFF, 0xFF, 0x03]);
        for loose in
            [&[0x80, 0x00][..], &[0xFF, 0xFF, 0x04], &[0x80, 0x80, 0x00], &[0xFF, 0xFF, 0x84]]
        {
            assert_eq!(number_at(loose, 0), Reading::Malformed);
        }
        for short in [&[][..], &[0x80], &[0x80, 0x80]] {
            assert_eq!(number_at(short, 0), Reading::Truncated);
        }
    }

    // every number is read back, and what is read is just what would be written
    #[test]
    fn all_numbers() {
        for n in 0..=u16::MAX {
            let bytes = bytes_of(n);
            assert_eq!(number_at(&bytes, 0), Reading::Number { value: n, next: bytes.len() });
        }
        for code in 0..1u32 << 24 {
            let bytes = [code as u8, (code >> 8) as u8, (code >> 16) as u8];
            if let Reading::Number { value, next } = number_at(&bytes, 0) {
                assert_eq!(bytes_of(value), bytes[..next]);
            }
        }
    }
}
