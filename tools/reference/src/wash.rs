// Wash hours (02, W5): two tables, a timetable, and events that bring their minutes.
//     timetable    good timetables, the drawing in force at a minute, its changes
//     operations   the call: all refusals in order, the state, the areas
//     history      lines of test data, each a call with its answer
//     histories    the test data file, and what its test program prints
//     drawn        timetables, minutes and pairs of tables
//     worked       cases worked by hand
//     refused      each refusal with each reason, two faults at once
//     events       17, crowded starts, 11 to 13, and what they restore
//     walks        histories over several weeks
//     wrong        answers that are wrong on purpose

pub mod drawn;
pub mod events;
pub mod histories;
pub mod history;
pub mod operations;
pub mod refused;
pub mod timetable;
pub mod walks;
pub mod worked;
pub mod wrong;

#[cfg(test)]
mod properties;
