// Books worked by hand from 02, W2: their bytes, and the sheet or the refusal.

use super::cases::{Case, Group};
use crate::refusal::*;
use crate::worked::hex;

const SHEETS: [(&str, &[&str]); 6] = [
    ("", &["TOTAL                         0                 "]),
    (
        "00 00 00 00",
        &[
            "         0                    0 running        0",
            "TOTAL                         0                 ",
        ],
    ),
    (
        "07 64 00 00  08 0C 01 05",
        &[
            "         7                  100 running        0",
            "         8                   12 failed         5",
            "TOTAL                       112                 ",
        ],
    ),
    // failed at 0, with nothing taken and with something
    (
        "01 00 01 00  02 80 01 01 00",
        &[
            "         1                    0 failed         0",
            "         2                  128 failed         0",
            "TOTAL                       128                 ",
        ],
    ),
    // every column full: lot 10^10 - 1, taken 2^64 - 1, place 10^8 - 1
    (
        "FF C7 AF A0 25  FF FF FF FF FF FF FF FF FF 01  01  FF C1 D7 2F",
        &[
            "9999999999 18446744073709551615 failed  99999999",
            "TOTAL      18446744073709551615                 ",
        ],
    ),
    // a sum of 2^64 - 1
    (
        "00 FF FF FF FF FF FF FF FF 7F 00 00  01 80 80 80 80 80 80 80 80 80 01 00 00",
        &[
            "         0  9223372036854775807 running        0",
            "         1  9223372036854775808 running        0",
            "TOTAL      18446744073709551615                 ",
        ],
    ),
];

const REFUSALS: [(&str, u8, usize); 24] = [
    // cut short
    ("80", BAD_BOOK, 0),
    ("00", BAD_BOOK, 0),
    ("00 00", BAD_BOOK, 0),
    ("00 00 00", BAD_BOOK, 0),
    ("00 00 00 80", BAD_BOOK, 0),
    ("00 00 00 00  01", BAD_BOOK, 1),
    // a malformed number, and one above 2^64 - 1
    ("80 00 00 00 00", BAD_BOOK, 0),
    ("00 81 00 00 00", BAD_BOOK, 0),
    ("00 FF FF FF FF FF FF FF FF FF 02 00 00", BAD_BOOK, 0),
    ("00 80 80 80 80 80 80 80 80 80 02 00 00", BAD_BOOK, 0),
    ("00 FF FF FF FF FF FF FF FF FF 81 00 00 00", BAD_BOOK, 0),
    // lots
    ("00 00 00 00  00 00 00 00", BAD_BOOK, 1),
    ("05 00 00 00  04 00 00 00", BAD_BOOK, 1),
    ("05 00 00 00  06 00 00 00  06 00 00 00  07 00 00 00", BAD_BOOK, 2),
    // marks and places
    ("00 00 02 00", BAD_BOOK, 0),
    ("00 05 80 02 00", BAD_BOOK, 0),
    ("00 05 00 01", BAD_BOOK, 0),
    ("00 05 01 06", BAD_BOOK, 0),
    ("00 00 01 01", BAD_BOOK, 0),
    // too wide: lot 10^10, place 10^8
    ("80 C8 AF A0 25  00 00 00", BAD_BOOK, 0),
    ("00  FF FF FF FF FF FF FF FF FF 01  01  80 C2 D7 2F", BAD_BOOK, 0),
    // a sum of 2^64, and then a bad record
    ("00 80 80 80 80 80 80 80 80 80 01 00 00  01 80 80 80 80 80 80 80 80 80 01 00 00", 15, 0),
    ("00 FF FF FF FF FF FF FF FF FF 01 00 00  01 01 00 00", TOTAL_TOO_LARGE, 0),
    ("00 FF FF FF FF FF FF FF FF FF 01 00 00  01 01 00 00  02 00 02 00", BAD_BOOK, 2),
];

fn worked_sheets() -> Vec<Case> {
    let mut cases = Vec::new();
    for (bytes, lines) in SHEETS {
        let text: String = lines.iter().map(|line| format!("{line}\n")).collect();
        let (book, count) = (hex(bytes), text.len());
        for out_len in [count, count + 1, count + 100] {
            let case = Case::known(book.clone(), out_len, (0, count));
            cases.push(Case { text: Some(text.clone()), ..case });
        }
        for out_len in [count - 1, count - 49, 0] {
            cases.push(Case::known(book.clone(), out_len, (WRONG_LENGTH, 0)));
        }
    }
    cases
}

// 14 and 15 come before 1
fn worked_refusals() -> Vec<Case> {
    let of = |(bytes, number, place)| {
        [1_000, 0].map(|out_len| Case::known(hex(bytes), out_len, (number, place)))
    };
    REFUSALS.into_iter().flat_map(of).collect()
}

pub fn groups() -> Vec<Group> {
    vec![
        Group { name: "worked_sheets", cases: worked_sheets() },
        Group { name: "worked_refusals", cases: worked_refusals() },
    ]
}
