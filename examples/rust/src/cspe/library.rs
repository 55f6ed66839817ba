//! The functions of `include/cspe_monitor.h`.

extern "C" {
    pub fn cspe_read(
        bytes: *const u8,
        bytes_length: usize,
        numbers: *mut u16,
        numbers_length: usize,
        work: *mut u64,
        work_length: usize,
        value: *mut u64,
    ) -> u32;
    pub fn cspe_write(
        list: *const u16,
        list_length: usize,
        bytes: *mut u8,
        bytes_length: usize,
        work: *mut u64,
        work_length: usize,
        value: *mut u64,
    ) -> u32;
    pub fn cspe_open(
        list: *const u16,
        list_length: usize,
        record: *mut u64,
        record_length: usize,
        area0: *mut u64,
        area0_length: usize,
        area1: *mut u64,
        area1_length: usize,
        events: *const u8,
        events_length: usize,
        work: *mut u64,
        work_length: usize,
        place: *mut u64,
        opened: *mut u64,
    ) -> u32;
    pub fn cspe_feed(
        list: *const u16,
        list_length: usize,
        record: *mut u64,
        record_length: usize,
        area0: *mut u64,
        area0_length: usize,
        area1: *mut u64,
        area1_length: usize,
        events: *const u8,
        events_length: usize,
        work: *mut u64,
        work_length: usize,
        place: *mut u64,
    ) -> u32;
    pub fn cspe_try(
        list: *const u16,
        list_length: usize,
        record: *const u64,
        record_length: usize,
        area0: *const u64,
        area0_length: usize,
        area1: *const u64,
        area1_length: usize,
        further_record: *mut u64,
        further_record_length: usize,
        further0: *mut u64,
        further0_length: usize,
        further1: *mut u64,
        further1_length: usize,
        events: *const u8,
        events_length: usize,
        work: *mut u64,
        work_length: usize,
        place: *mut u64,
    ) -> u32;
    pub fn cspe_offer(
        list: *const u16,
        list_length: usize,
        record: *const u64,
        record_length: usize,
        area0: *const u64,
        area0_length: usize,
        area1: *const u64,
        area1_length: usize,
        work: *mut u64,
        work_length: usize,
        value: *mut u64,
        second: *mut u64,
    ) -> u32;
    pub fn cspe_view(
        record: *const u64,
        record_length: usize,
        area0: *const u64,
        area0_length: usize,
        area1: *const u64,
        area1_length: usize,
        area: *mut u64,
    ) -> usize;
    pub fn cspe_sheet(
        book: *const u8,
        book_length: usize,
        text: *mut u8,
        text_length: usize,
        value: *mut u64,
    ) -> u32;
}
