//! The monitor's static library (`include/cspe_monitor.h`) for safe Rust.
//!
//!     Table      the numbers of a table: Read and Write
//!     Monitor    a monitor with its buffers: Open, Feed, Try, Offer, View
//!     Refusal    a refusal's number and place
//!     sheet      the lot sheet of a lot book
//!
//! The library asks of a caller that pointers are valid for the lengths beside them and aligned, and that what it
//! writes overlaps nothing else; slices that Rust lends are so. It asks nothing else.

mod library;

const NUMBERS: usize = 16_384;
const TABLE_BYTES: usize = 16_384;
const WORK_WORDS: usize = 8_192;
pub const SLOT_WORDS: usize = 16;
pub const RECORD_WORDS: usize = 5;
pub const SHEET_LINE_BYTES: usize = 49;

/// A refusal of document 01, by its number (1 to 13) and its place; of the lot sheet, 1, 14 or 15.
#[derive(Clone, Copy, Debug, PartialEq, Eq)]
pub struct Refusal {
    pub number: u32,
    pub place: u64,
}

/// What a call returned and wrote, as a result.
fn result(number: u32, value: u64) -> Result<u64, Refusal> {
    match number {
        0 => Ok(value),
        _ => Err(Refusal { number, place: value }),
    }
}

/// Sheet: writes the sheet of a lot book to the beginning of a text, and gives its count of bytes. On a refusal nothing
/// is written.
pub fn sheet(book: &[u8], text: &mut [u8]) -> Result<usize, Refusal> {
    let mut value = 0;
    // SAFETY: as in `Table::read`
    let number = unsafe {
        library::cspe_sheet(book.as_ptr(), book.len(), text.as_mut_ptr(), text.len(), &mut value)
    };
    Ok(result(number, value)? as usize)
}

/// The numbers of a table that was read.
#[derive(Clone, Debug, PartialEq, Eq)]
pub struct Table {
    list: Vec<u16>,
}

impl Table {
    /// Read: the bytes of a table.
    pub fn read(bytes: &[u8]) -> Result<Table, Refusal> {
        let mut list = vec![0; NUMBERS];
        let mut work = vec![0; WORK_WORDS];
        let mut value = 0;
        // SAFETY: each pointer is of a slice of the length beside it, and no two slices overlap
        let number = unsafe {
            library::cspe_read(
                bytes.as_ptr(),
                bytes.len(),
                list.as_mut_ptr(),
                list.len(),
                work.as_mut_ptr(),
                work.len(),
                &mut value,
            )
        };
        let count = result(number, value)?;
        list.truncate(count as usize);
        Ok(Table { list })
    }

    /// Write: its bytes.
    pub fn write(&self) -> Result<Vec<u8>, Refusal> {
        let mut bytes = vec![0; TABLE_BYTES];
        let mut work = vec![0; WORK_WORDS];
        let mut value = 0;
        // SAFETY: as in `read`
        let number = unsafe {
            library::cspe_write(
                self.list.as_ptr(),
                self.list.len(),
                bytes.as_mut_ptr(),
                bytes.len(),
                work.as_mut_ptr(),
                work.len(),
                &mut value,
            )
        };
        let count = result(number, value)?;
        bytes.truncate(count as usize);
        Ok(bytes)
    }

    pub fn numbers(&self) -> &[u16] {
        &self.list
    }
}

/// Running, or failed at a place.
#[derive(Clone, Copy, Debug, PartialEq, Eq)]
pub enum Verdict {
    Running,
    Failed(u64),
}

/// The state record: events taken, residuals held, the most that were held at a time since it was opened, and the
/// verdict.
#[derive(Clone, Copy, Debug, PartialEq, Eq)]
pub struct State {
    pub taken: u64,
    pub residuals: u64,
    pub peak: u64,
    pub verdict: Verdict,
}

/// A monitor as it can be kept elsewhere: its record and both areas.
#[derive(Clone, Debug, PartialEq, Eq)]
pub struct Parts {
    pub record: [u64; RECORD_WORDS],
    pub areas: [Vec<u64>; 2],
}

/// A monitor of a table, with the buffers that its calls are lent.
pub struct Monitor<'t> {
    table: &'t Table,
    parts: Parts,
    work: Vec<u64>,
}

impl<'t> Monitor<'t> {
    /// Open: a monitor that has room for so many residuals, 1 to 256 (any other number is refusal 1), after these
    /// events. Where one of them is refused, 11 to 13, the monitor is given that took those before it, with the
    /// refusal; on any other refusal there is no monitor, nor on 13 where the table begins with too many residuals.
    pub fn open(
        table: &'t Table,
        slots: usize,
        events: &[u8],
    ) -> Result<(Monitor<'t>, Option<Refusal>), Refusal> {
        let area = vec![0; slots * SLOT_WORDS];
        let areas = [area.clone(), area];
        let record = [0; RECORD_WORDS];
        let mut monitor = Monitor::resume(table, Parts { record, areas });
        let [area0, area1] = &mut monitor.parts.areas;
        let (mut place, mut opened) = (0, 0);
        // SAFETY: as in `Table::read`
        let number = unsafe {
            library::cspe_open(
                table.list.as_ptr(),
                table.list.len(),
                monitor.parts.record.as_mut_ptr(),
                RECORD_WORDS,
                area0.as_mut_ptr(),
                area0.len(),
                area1.as_mut_ptr(),
                area1.len(),
                events.as_ptr(),
                events.len(),
                monitor.work.as_mut_ptr(),
                monitor.work.len(),
                &mut place,
                &mut opened,
            )
        };
        match result(number, place) {
            Ok(_) => Ok((monitor, None)),
            Err(refusal) if opened == 1 => Ok((monitor, Some(refusal))),
            Err(refusal) => Err(refusal),
        }
    }

    /// A monitor whose parts were kept elsewhere. Each call of `feed` and `offer` tries them (refusals 1 and 10).
    pub fn resume(table: &'t Table, parts: Parts) -> Monitor<'t> {
        let work = vec![0; WORK_WORDS];
        Monitor { table, parts, work }
    }

    pub fn parts(&self) -> &Parts {
        &self.parts
    }

    /// Feed: takes events from the first. On refusals 11 to 13 those before the refused one are taken, on any other
    /// none is.
    pub fn feed(&mut self, events: &[u8]) -> Result<State, Refusal> {
        let [area0, area1] = &mut self.parts.areas;
        let mut place = 0;
        // SAFETY: as in `Table::read`
        let number = unsafe {
            library::cspe_feed(
                self.table.list.as_ptr(),
                self.table.list.len(),
                self.parts.record.as_mut_ptr(),
                RECORD_WORDS,
                area0.as_mut_ptr(),
                area0.len(),
                area1.as_mut_ptr(),
                area1.len(),
                events.as_ptr(),
                events.len(),
                self.work.as_mut_ptr(),
                self.work.len(),
                &mut place,
            )
        };
        result(number, place)?;
        Ok(self.state())
    }

    /// Try: the monitor that `feed` would leave; this one stays as it is.
    pub fn try_feed(&mut self, events: &[u8]) -> Result<Monitor<'t>, Refusal> {
        let mut copy = Monitor::resume(self.table, self.parts.clone());
        let [area0, area1] = &self.parts.areas;
        let [further0, further1] = &mut copy.parts.areas;
        let mut place = 0;
        // SAFETY: as in `Table::read`
        let number = unsafe {
            library::cspe_try(
                self.table.list.as_ptr(),
                self.table.list.len(),
                self.parts.record.as_ptr(),
                RECORD_WORDS,
                area0.as_ptr(),
                area0.len(),
                area1.as_ptr(),
                area1.len(),
                copy.parts.record.as_mut_ptr(),
                RECORD_WORDS,
                further0.as_mut_ptr(),
                further0.len(),
                further1.as_mut_ptr(),
                further1.len(),
                events.as_ptr(),
                events.len(),
                self.work.as_mut_ptr(),
                self.work.len(),
                &mut place,
            )
        };
        result(number, place)?;
        Ok(copy)
    }

    /// Offer: two words, a bit for each event, which is set exactly when residuals are left after that event. Bit e of
    /// the first is event e, of the second 64 + e.
    pub fn offer(&mut self) -> Result<[u64; 2], Refusal> {
        let [area0, area1] = &self.parts.areas;
        let (mut value, mut second) = (0, 0);
        // SAFETY: as in `Table::read`
        let number = unsafe {
            library::cspe_offer(
                self.table.list.as_ptr(),
                self.table.list.len(),
                self.parts.record.as_ptr(),
                RECORD_WORDS,
                area0.as_ptr(),
                area0.len(),
                area1.as_ptr(),
                area1.len(),
                self.work.as_mut_ptr(),
                self.work.len(),
                &mut value,
                &mut second,
            )
        };
        result(number, value).map(|first| [first, second])
    }

    /// View: the slots of the residuals held, and the area, 0 or 1, that they begin.
    pub fn view(&self) -> (&[u64], usize) {
        let [area0, area1] = &self.parts.areas;
        let mut area = 0;
        // SAFETY: as in `Table::read`
        let words = unsafe {
            library::cspe_view(
                self.parts.record.as_ptr(),
                RECORD_WORDS,
                area0.as_ptr(),
                area0.len(),
                area1.as_ptr(),
                area1.len(),
                &mut area,
            )
        };
        (&self.parts.areas[area as usize][..words], area as usize)
    }

    /// What the record says.
    pub fn state(&self) -> State {
        let [taken, residuals, failed, place, peak] = self.parts.record;
        let verdict = match failed {
            0 => Verdict::Running,
            _ => Verdict::Failed(place),
        };
        State { taken, residuals, peak, verdict }
    }
}
