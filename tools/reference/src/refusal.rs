// Refusals (01, "When the monitor declines"; 02): a number and a place. The constants have plain
// names; `word` gives 01's and 02's.

#[derive(Clone, Copy, Debug, PartialEq, Eq)]
pub struct Refusal {
    pub number: u8,
    pub place: usize,
}

pub const WRONG_LENGTH: u8 = 1;
pub const TOO_LONG: u8 = 2;
pub const TRUNCATED: u8 = 3;
pub const MALFORMED: u8 = 4;
pub const OUT_OF_RANGE: u8 = 5;
pub const TRAILING_INPUT: u8 = 6;
pub const WRONG_REFERENCE: u8 = 7;
pub const TOO_WIDE: u8 = 8;
pub const TOO_MANY_BRANCHES: u8 = 9;
pub const INCONSISTENT: u8 = 10;
pub const UNKNOWN_EVENT: u8 = 11;
pub const COUNTER_FULL: u8 = 12;
pub const CAPACITY_EXCEEDED: u8 = 13;
pub const BAD_BOOK: u8 = 14; // 02, W2
pub const TOTAL_TOO_LARGE: u8 = 15;
pub const BAD_TIMETABLE: u8 = 16; // 02, W5
pub const CLOCK_BACK: u8 = 17;

// The refusal of this number, as the answer of an operation.
pub fn refuse<T>(number: u8, place: usize) -> Result<T, Refusal> {
    Err(Refusal { number, place })
}

// 01's or 02's word for a refusal.
pub fn word(number: u8) -> &'static str {
    match number {
        WRONG_LENGTH => "wrong measure",
        TOO_LONG => "long table",
        TRUNCATED => "cut short",
        MALFORMED => "loose number",
        OUT_OF_RANGE => "off scale",
        TRAILING_INPUT => "left over",
        WRONG_REFERENCE => "wrong reference",
        TOO_WIDE => "too many hands",
        TOO_MANY_BRANCHES => "too many openings",
        INCONSISTENT => "disturbed",
        UNKNOWN_EVENT => "strange event",
        COUNTER_FULL => "counter full",
        CAPACITY_EXCEEDED => "crowded",
        BAD_BOOK => "bad book",
        TOTAL_TOO_LARGE => "total over 2^64-1",
        BAD_TIMETABLE => "bad timetable",
        CLOCK_BACK => "clock back",
        _ => "not a refusal",
    }
}
