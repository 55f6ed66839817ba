// What is measured: Open (document 02, W7) and Feed (document 01), on areas that the caller lends.
//     Record      the state record
//     Answer      a record, a refusal, or a refusal with a record
//     Monitor     Open and Feed

#[derive(Clone, Copy, Debug, PartialEq, Eq)]
pub struct Record {
    pub taken: u64,
    pub count: u64,
    // the largest count since it was opened, the present one included
    pub peak: u64,
    // the place of failure; none while running
    pub failed: Option<u64>,
}

// A refusal by its number and its place.
#[derive(Clone, Copy, Debug, PartialEq, Eq)]
pub struct Refusal {
    pub number: u8,
    pub place: usize,
}

#[derive(Clone, Copy, Debug, PartialEq, Eq)]
pub enum Answer {
    Given(Record),
    Refused(Refusal),
    Stopped(Refusal, Record),
}

// Areas 0 and 1 and the work area, as lent to a call.
pub struct Lent<'a> {
    pub area0: &'a mut [u64],
    pub area1: &'a mut [u64],
    pub work: &'a mut [u64],
}

pub trait Monitor {
    fn name(&self) -> &str;

    fn open(&self, list: &[u16], lent: Lent, events: &[u8]) -> Answer;

    fn feed(&self, list: &[u16], record: Record, lent: Lent, events: &[u8]) -> Answer;
}

pub const SLOT: usize = 16;
pub const MOST_AREA: usize = 4_096;
pub const WORK: usize = 8_192;
