//! The lot sheet from Rust: a lot book of three records is written, number by number, and its sheet is printed; then
//! each refusal is met. The same as `../../c/sheet.c`.
use crate::cspe::{sheet, SHEET_LINE_BYTES};
use crate::{expect, given, show_refusal};

/// Lot, taken, 0 running or 1 failed, place.
type Lot = [u64; 4];

const LOTS: [Lot; 3] = [
    [4711, 1200, 0, 0],
    [4712, 87, 1, 87],
    [9_999_999_999, 10_000_000_000_000_000_000, 1, 99_999_999],
];
const ROOM: usize = (LOTS.len() + 1) * SHEET_LINE_BYTES;

/// A number in seven-bit groups, the lowest first.
fn put_number(book: &mut Vec<u8>, mut number: u64) {
    while number >= 128 {
        book.push((number % 128 + 128) as u8);
        number /= 128;
    }
    book.push(number as u8);
}

fn book_of(lots: &[Lot]) -> Vec<u8> {
    let mut book = Vec::new();
    lots.iter().flatten().for_each(|&number| put_number(&mut book, number));
    book
}

/// A refusal, which must be the one given and have written nothing.
fn refuse(call: &str, book: &[u8], room: usize, number: u32, place: u64) {
    let mut text = [b'.'; ROOM];
    show_refusal(call, sheet(book, &mut text[..room]), number, place);
    expect(text == [b'.'; ROOM], "nothing is written");
}

pub fn print() {
    let book = book_of(&LOTS);
    // one byte more than the sheet needs: it is kept
    let mut text = [b'.'; ROOM + 1];
    let count = given(sheet(&book, &mut text), "the sheet");
    expect(count == ROOM && text[ROOM] == b'.', "how many bytes are written");
    print!("{}", String::from_utf8_lossy(&text[..count]));

    refuse("a book without its last byte", &book[..book.len() - 1], ROOM, 14, 2);
    refuse("an output one byte short", &book, ROOM - 1, 1, 0);
    refuse("a lot that does not ascend", &book_of(&[LOTS[0], LOTS[0]]), ROOM, 14, 1);
    refuse("a total of 2^64", &book_of(&[[1, u64::MAX, 0, 0], [2, 1, 0, 0]]), ROOM, 15, 0);
}
