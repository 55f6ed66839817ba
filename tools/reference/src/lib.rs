// Another implementation of documents 01 and 02 (the CSP_E line monitor), naive and in the order
// of their words, which writes the stored answers of the test programs. It shares nothing with the
// crates.
//
//     numbers      the written form of a number            refusal     numbers, places, words
//     table        the abstract table                      reader      refusals 3 to 6
//     judge        refusals 7 to 9                         operations  Read, Write, the list check
//     random       a seeded generator                      generate    accepted tables
//     role         what each number of a table is          damage      tables with one known fault
//     worked       cases worked by hand                    case        a case of test data
//     cases        the test data file                      summary     what its test prints
//     monitor      residuals, Open, Feed, Offer, View, and the test data of histories
//     sheet        the lot sheet (02, W2), and its test data
//     wash         wash hours (02, W5), and their test data

pub mod case;
pub mod cases;
pub mod damage;
pub mod generate;
pub mod judge;
pub mod monitor;
pub mod numbers;
pub mod operations;
pub mod random;
pub mod reader;
pub mod refusal;
pub mod role;
pub mod sheet;
pub mod summary;
pub mod table;
pub mod wash;
pub mod worked;

#[cfg(test)]
mod properties;
#[cfg(test)]
mod stored;
