// The monitor (01, "Residuals" to "The program and its lines"), naive and in the order of 01's
// words.
//     terms       the numbered terms: reach, doom, sets     residual    residuals, their words
//     state       the record; disturbed                     operations  Open, Feed, Offer, View
//     program     the program's line                        history     lines of test data
//     histories   the test data file                        examples    cases worked by hand
//     summary     what its test program prints              replay      the calls of a file again
//     tables      seeded tables with something to follow    lines       inputs of the program

pub mod examples;
pub mod histories;
pub mod history;
pub mod lines;
pub mod operations;
pub mod program;
pub mod replay;
pub mod residual;
pub mod state;
pub mod summary;
pub mod tables;
pub mod terms;

#[cfg(test)]
mod peaks;
#[cfg(test)]
mod properties;
#[cfg(test)]
mod traces;
