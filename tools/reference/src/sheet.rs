// The lot sheet of the office (02, W2): a lot book's bytes to lines of text.
//     numbers    the written form of a number, up to ten bytes
//     book       the records of a book, and refusal 14
//     print      the lines, and the sheet: refusals 14, 15 and 1 in order
//     cases      the test data file, and what its test prints
//     worked     cases worked by hand
//     drawn      books that are good
//     faults     records with one known fault, reason by reason
//     limits     cases at each limit
//     made       cases of each clause, drawn
//     wrong      cases that are stored wrong on purpose

pub mod book;
pub mod cases;
pub mod drawn;
pub mod faults;
pub mod limits;
pub mod made;
pub mod numbers;
pub mod print;
pub mod worked;
pub mod wrong;

#[cfg(test)]
mod properties;
