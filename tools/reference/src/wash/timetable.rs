// The timetable of the wash hours (02, W5), minute by minute.
//     good        whether a list is a timetable
//     Drawing     the everyday one or the wash one
//     in_force    the drawing at an absolute minute
//     changes     whether the drawing in force changes after a minute, up to another

pub const WEEK: u64 = 10_080;
// Absolute minutes are below this.
pub const MINUTES: u64 = 1 << 48;

#[derive(Clone, Copy, Debug, PartialEq, Eq)]
pub enum Drawing {
    Everyday,
    Wash,
}

fn pairs(windows: &[u16]) -> impl Iterator<Item = (u64, u64)> + '_ {
    windows.chunks_exact(2).map(|pair| (pair[0] as u64, pair[1] as u64))
}

// "windows in minutes of the week as pairs, first minute, 0 to 10,079, included and last, up to
// 10,080, excluded, strictly ascending and not overlapping; touching is allowed. Empty windows and
// odd lists are bad."
pub fn good(windows: &[u16]) -> bool {
    let bounded = |(first, last): (u64, u64)| first < WEEK && last <= WEEK && first < last;
    let after = pairs(windows).skip(1);
    let ascending = pairs(windows).zip(after).all(|((_, last), (first, _))| last <= first);
    windows.len() % 2 == 0 && pairs(windows).all(bounded) && ascending
}

// "an absolute minute .., whose remainder by 10,080 is its minute of the week"; "In wash hours
// another drawing applies."
pub fn in_force(windows: &[u16], minute: u64) -> Drawing {
    let of_week = minute % WEEK;
    match pairs(windows).any(|(first, last)| first <= of_week && of_week < last) {
        true => Drawing::Wash,
        false => Drawing::Everyday,
    }
}

// "If the drawing in force changes at any minute after the last event's, up to and including the
// present one's". The drawing is the same a week later, so that a week of minutes tells.
pub fn changes(windows: &[u16], last: u64, present: u64) -> bool {
    let until = present.min(last.saturating_add(WEEK));
    let mut before = in_force(windows, last);
    let mut minute = last;
    while minute < until {
        minute += 1;
        let now = in_force(windows, minute);
        if now != before {
            return true;
        }
        before = now;
    }
    false
}
