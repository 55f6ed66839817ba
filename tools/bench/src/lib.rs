// Events per second of monitors (Open, document 02, W7, and Feed, document 01), side by side on the
// same inputs.
//     monitor     what a monitor is here: Open and Feed on lent areas
//     plain       one in plain Rust, written for speed; one that settles each follower once in a call;
//                 and an automaton over residual sets
//     proved      the proved monitor, through the static library
//     naive       the reference of tools/reference, as one of these
//     inputs      tables with events to feed
//     replay      whether a monitor answers as the reference, call by call
//     clock       the processor time of a thread
//     measure     events per second
//     report      the table in Markdown

pub mod clock;
pub mod inputs;
pub mod measure;
pub mod monitor;
pub mod naive;
pub mod plain;
pub mod proved;
pub mod replay;
pub mod report;
