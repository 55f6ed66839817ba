/*
 * A runtime monitor for tables in the process algebra CSP_E, as a static library for C: of document 01 Read, Write,
 * Feed, Offer and View, and of document 02 the office's lot sheet (W2), Try (W4), Feed in wash hours (W5) and Open
 * (W7); tables have up to 128 events (W6). `tools/build monitor_c` proves and writes it
 * (crates/monitor_c/out/libmonitor_c.a, for x86-64 Linux). Each function is proved to return, and to leave in every
 * word that it is lent, what crates/words_spec/specs defines (of cspe_sheet crates/sheet_words/specs, of
 * cspe_timed_feed crates/wash_words/specs), on every input: no call has a condition but those below.
 *
 * What is lent. Every buffer is the caller's, and is lent for one call: a pointer, and after it how many elements it
 * points to. A pointer is aligned for its type and is never NULL, also where its length is 0. A buffer that a call may
 * write (its pointer is not const) overlaps no other buffer of that call, and the word behind the last pointer lies in
 * none of them (the last two pointers of cspe_open and of cspe_offer: each word lies in none of them, nor in the
 * other). The library allocates nothing and keeps nothing between calls, so calls on different buffers may run at the
 * same time.
 *
 * Stack. 54 to 63 KiB were measured on the tables with the longest ways (tools/stack). A start in wash hours
 * (cspe_timed_feed) has an array of 32 KiB more and keeps no residual sets: 80 KiB were measured. No proof bounds it; a
 * thread with 128 KiB has room.
 *
 * What is returned. Each function but cspe_view returns the refusal's number, 0 where there is none (enum
 * cspe_refusal). One more word is written through the last pointer on every call: the result, the refusal's place, or
 * 0. cspe_offer writes two, through its last two pointers. cspe_open writes the place through the last pointer but one,
 * and through the last whether there is a monitor.
 *
 * The record of a monitor is CSPE_RECORD_WORDS words, at these indices:
 *     CSPE_TAKEN        how many events were taken
 *     CSPE_RESIDUALS    how many residuals are held
 *     CSPE_FAILED       0 running, 1 failed; a call that reads a record takes any word but 0 for failed
 *     CSPE_PLACE        how many events were taken when it failed, that event counted; 0 while it runs, and then not
 *                       read
 *     CSPE_PEAK         the most residuals that were held at a time since Open, those held now included. An event that
 *                       is refused, and those after a failure, do not move it; Open begins it anew. Areas are sized
 *                       by it: so many slots, and at least one, would have done for the events taken
 *                       (docs/USING.md). It is at least
 *                       CSPE_RESIDUALS and at most the slots, else the record is refused (10)
 * A monitor is its record and areas 0 and 1. Between calls only the calls below write them.
 *
 * In wash hours (cspe_timed_feed) the record is CSPE_TIMED_RECORD_WORDS words: the CSPE_RECORD_WORDS above, which count
 * since the last start, and then
 *     CSPE_STARTED      0 before the first event, and then no other word of the record is read; 1 after it. A call that
 *                       reads a record takes any word but 0 for started
 *     CSPE_MINUTE       the last event's minute
 * A record of zeros, with areas of zeros, is such a monitor before its first event: there is no call that starts it.
 * Its first CSPE_RECORD_WORDS words, once it has started, are a record for cspe_offer, cspe_try and cspe_view, on the
 * table in force at its minute.
 */
#ifndef CSPE_MONITOR_H
#define CSPE_MONITOR_H

#include <stddef.h>
#include <stdint.h>

#ifdef __cplusplus
extern "C" {
#endif

/* It goes up by one where the library changes for a caller; docs/CHANGELOG.md says how. */
#define CSPE_VERSION 7

/* A table has at most so many bytes. */
#define CSPE_TABLE_BYTES 16384
/* The largest alphabet: events are below it. */
#define CSPE_EVENTS 128
/* The length of cspe_read's output, in numbers. */
#define CSPE_NUMBERS 16384
/* The length of the work area, in words. */
#define CSPE_WORK_WORDS 8192
/* Areas 0 and 1 have equal lengths, in words: a multiple of a slot's, from the least to the most. A slot holds one
   residual, so they have room for a sixteenth of their words. */
#define CSPE_SLOT_WORDS 16
#define CSPE_AREA_WORDS_LEAST 16
#define CSPE_AREA_WORDS_MOST 4096
/* The length of a record, in words, and the indices of its words. */
#define CSPE_RECORD_WORDS 5
#define CSPE_TAKEN 0
#define CSPE_RESIDUALS 1
#define CSPE_FAILED 2
#define CSPE_PLACE 3
#define CSPE_PEAK 4
/* The length of a record in wash hours, and the indices of the words that it has more. */
#define CSPE_TIMED_RECORD_WORDS 7
#define CSPE_STARTED 5
#define CSPE_MINUTE 6
/* The minutes of a week; the minutes that an event may bring are below CSPE_MINUTE_BOUND, 2^48. */
#define CSPE_WEEK_MINUTES 10080
#define CSPE_MINUTE_BOUND UINT64_C(281474976710656)
/* The bytes of a line of a sheet: 48 characters and a line feed. */
#define CSPE_SHEET_LINE_BYTES 49

/*
 * The refusals, with document 01's words and their places. They are tried in this order: 1; 2; 3 to 5 at each number
 * from the left; 6; 7 from the left; 8; 9; 10; at each event 11, 12, 13. On a number list (all functions but
 * cspe_read) 4 is never met, and 2 is tried right after 9. cspe_open tries 13 for the table alone before the first
 * event. cspe_sheet alone gives 14 and 15, and in another order; cspe_timed_feed alone gives 16 and 17, and its order
 * stands with it.
 */
enum cspe_refusal {
    CSPE_NONE = 0,
    CSPE_WRONG_LENGTH = 1,       /* wrong measure: a lent length is not as it must be; place 0 */
    CSPE_TOO_LONG = 2,           /* long table: more than CSPE_TABLE_BYTES bytes; place 0 */
    CSPE_TRUNCATED = 3,          /* cut short: the input ends within the table; place: its length */
    CSPE_MALFORMED = 4,          /* loose number: a number that is not written as it must be; place: its first byte */
    CSPE_OUT_OF_RANGE = 5,       /* off scale: a field, an order or a term's bound is broken, or above 64 events that of
                                    3,072 rows in all sets together; place: that number, of rows the set's kind */
    CSPE_TRAILING_INPUT = 6,     /* left over: input after the table; place: the first such */
    CSPE_BAD_REFERENCE = 7,      /* wrong reference: a rule of references is broken; place: that number */
    CSPE_TOO_WIDE = 8,           /* too many hands: a level's width is above 8; place: the lowest such level */
    CSPE_TOO_MANY_BRANCHES = 9,  /* too many openings: above 256; place: the lowest such term */
    CSPE_INCONSISTENT = 10,      /* disturbed: record and areas disagree, the peak and the slots too; place 0 */
    CSPE_UNKNOWN_EVENT = 11,     /* strange event: not below the alphabet's size; place: events taken by this call */
    CSPE_COUNTER_FULL = 12,      /* counter full: 2^64 - 1 events were taken; place: the same */
    CSPE_CAPACITY_EXCEEDED = 13, /* crowded: more residuals than the areas have room for; place: the same */
    CSPE_BAD_BOOK = 14,          /* bad book: a record of a lot book is not as it must be; place: its index, from 0 */
    CSPE_TOTAL_TOO_LARGE = 15,   /* total over 2^64 - 1: the sum of what a lot book's records took; place 0 */
    CSPE_BAD_TIMETABLE = 16,     /* bad timetable: its windows are not as they must be; place 0 */
    CSPE_CLOCK_BACK = 17         /* clock back: a minute below the last one, or 2^48 or more; place: as 11's */
};

/*
 * Read: the bytes of a table to its numbers.
 *     bytes      the table, any length
 *     numbers    CSPE_NUMBERS numbers
 *     work       CSPE_WORK_WORDS words, of any content
 * 0           numbers has the table's numbers and then zeros; *value is how many they are: the number list that the
 *             other functions take
 * 1           numbers and work are kept; *value is 0
 * 2 to 9      numbers is zeroed; *value is the refusal's place: for 3 to 7 among the bytes, for 8 a level, for 9 a
 *             term's number, for 2 always 0
 * The work area is zeroed, but on 1.
 */
uint32_t cspe_read(const uint8_t *bytes, size_t bytes_length, uint16_t *numbers, size_t numbers_length,
                   uint64_t *work, size_t work_length, uint64_t *value);

/*
 * Write: the numbers of a table to its bytes.
 *     list       the number list, without zeros after it
 *     bytes      the output, any length
 *     work       CSPE_WORK_WORDS words, of any content
 * 0           bytes begins with the table's bytes, and the rest is kept; *value is how many they are
 * 1           bytes is kept; *value is 0. The work area's length is wrong, and work is kept; or, tried last of all,
 *             the table's bytes are more than bytes has room for, and work is zeroed
 * 2 to 9      bytes is kept; *value is the refusal's place: for 3 to 7 in the list, for 8 a level, for 9 a term's
 *             number, for 2 always 0
 * The work area is zeroed, but as said on 1.
 */
uint32_t cspe_write(const uint16_t *list, size_t list_length, uint8_t *bytes, size_t bytes_length,
                    uint64_t *work, size_t work_length, uint64_t *value);

/*
 * Open: a monitor of the table, which takes events from the first. Each is one byte.
 *     list            the number list of a table
 *     record          CSPE_RECORD_WORDS words, of any content
 *     area0, area1    the areas, of any content
 *     events          any number of events, or none
 *     work            CSPE_WORK_WORDS words, of any content
 * *opened is 1 where this call gave a record, also where an event was refused: record and areas are its monitor. It is
 * 0 where this call gave none: the words of record are then those that the caller lent.
 * 0           record and areas are the monitor after all events; of none it is the table's first monitor: running, or
 *             failed at 0 where no residual is left; *opened is 1, *place is 0
 * 1 to 9      record and areas are kept; *opened is 0
 * 11, 12      record and areas are the monitor after the events before the refused one; *opened is 1, and *place is
 *             their number. It can be fed on
 * 13          *opened is 1: so here too; where *place is 0, the first event was too much, and record and areas are the
 *             monitor before it. *opened is 0: the table has more residuals than the areas have room for before any
 *             event, whatever the events are; record is kept, both areas are zeroed, *place is 0
 * So 13 at place 0 is told apart by *opened, and nothing else tells it. On a refusal *place is its place. The work area
 * is zeroed, but kept on 1.
 */
uint32_t cspe_open(const uint16_t *list, size_t list_length, uint64_t *record, size_t record_length,
                   uint64_t *area0, size_t area0_length, uint64_t *area1, size_t area1_length,
                   const uint8_t *events, size_t events_length, uint64_t *work, size_t work_length,
                   uint64_t *place, uint64_t *opened);

/*
 * Feed: the monitor takes events, from the first. Each is one byte.
 *     list                    the number list that the monitor was opened with
 *     record, area0, area1    the monitor
 *     events                  any number of events, or none
 *     work                    CSPE_WORK_WORDS words, of any content
 * 0           record and areas are the monitor after all events; *place is 0
 * 1 to 10     record and areas are kept
 * 11 to 13    record and areas are the monitor after the events before the refused one; *place is their number
 * On a refusal *place is its place. After a failure events are still taken, and the record's place stays. The work area
 * is zeroed, but kept on 1.
 */
uint32_t cspe_feed(const uint16_t *list, size_t list_length, uint64_t *record, size_t record_length,
                   uint64_t *area0, size_t area0_length, uint64_t *area1, size_t area1_length,
                   const uint8_t *events, size_t events_length, uint64_t *work, size_t work_length,
                   uint64_t *place);

/*
 * Try: what cspe_feed would make of events, without feeding them.
 *     list                         the number list that the monitor was opened with
 *     record, area0, area1         the monitor, which is only read
 *     further_record               CSPE_RECORD_WORDS words, of any content
 *     further0, further1           as long as area0 and area1, of any content
 *     events                       any number of events, or none
 *     work                         CSPE_WORK_WORDS words, of any content
 * It returns what cspe_feed would, and *place is the place that cspe_feed would write.
 * 0           further_record, further0 and further1 are the monitor that cspe_feed would leave
 * 1 to 10     further_record, further0 and further1 are kept
 * 11 to 13    they are the monitor after the events before the refused one
 * A further record or area of another length is 1 at place 0, before all others. The work area is zeroed, but kept on
 * 1. After 0, and after 11 to 13, the further ones are a monitor: it can be fed on in place of the first, or tried
 * again.
 */
uint32_t cspe_try(const uint16_t *list, size_t list_length, const uint64_t *record, size_t record_length,
                  const uint64_t *area0, size_t area0_length, const uint64_t *area1, size_t area1_length,
                  uint64_t *further_record, size_t further_record_length, uint64_t *further0, size_t further0_length,
                  uint64_t *further1, size_t further1_length, const uint8_t *events, size_t events_length,
                  uint64_t *work, size_t work_length, uint64_t *place);

/*
 * Feed in wash hours: the monitor takes events, each with its minute, on one of two tables by a timetable.
 *     everyday, wash          the number lists of two tables; the wash table is in force in the timetable's windows
 *     windows                 the timetable: for each window the minute of the week at which it begins, 0 to 10,079,
 *                             and the one at which it ends, up to 10,080 and not included. Windows are not empty,
 *                             ascend and do not overlap; they may touch. Any number of windows, or none
 *     record                  CSPE_TIMED_RECORD_WORDS words
 *     area0, area1            with the record the monitor
 *     events                  any number of events, or none
 *     minutes                 as many minutes, one for each event: absolute, below CSPE_MINUTE_BOUND, and none below
 *                             the one before. The remainder by CSPE_WEEK_MINUTES is the minute of the week
 *     work                    CSPE_WORK_WORDS words, of any content
 * The monitor starts with its first event, on the table in force at that minute. Where the table in force changes at
 * any minute after the last event's, up to and including the present one's, it starts afresh on the table now in force,
 * no event taken before; so it does where the table changes and changes back.
 * 0           record and areas are the monitor after all events; *place is 0. Before the first event all words of
 *             record and areas are 0
 * 1 to 10, 16 record and areas are kept
 * 11, 12, 13, 17
 *             record and areas are the monitor after the events before the refused one, whose start, if one was due,
 *             has not been made; *place is the number of these events, starts or not
 * They are tried in this order: 1, also where events and minutes are not equally many; 2 to 9 of the everyday table,
 * and of the wash table; 16; 10, on the table in force at the record's minute, and before the first event only whether
 * the areas are zero; at each event 17, then 13 where a start is due and has more residuals than there are slots, then
 * 11, 12 and 13 on the table and count so reached. On a refusal *place is its place; for 2 to 9 it does not say which
 * table. The work area is zeroed, but kept on 1.
 */
uint32_t cspe_timed_feed(const uint16_t *everyday, size_t everyday_length, const uint16_t *wash, size_t wash_length,
                         const uint16_t *windows, size_t windows_length, uint64_t *record, size_t record_length,
                         uint64_t *area0, size_t area0_length, uint64_t *area1, size_t area1_length,
                         const uint8_t *events, size_t events_length, const uint64_t *minutes, size_t minutes_length,
                         uint64_t *work, size_t work_length, uint64_t *place);

/*
 * Offer: which events may come next.
 *     list                    the number list that the monitor was opened with
 *     record, area0, area1    the monitor, which is only read
 *     work                    CSPE_WORK_WORDS words, of any content
 * 0           a bit for each event below the alphabet's size: bit e of *value is event e, of *second event 64 + e. It
 *             is set exactly when residuals are left after that event, whether or not the areas have room for them.
 *             All other bits are 0, so *second is 0 where the alphabet's size is at most 64; both are 0 after a failure
 * 1 to 10     *value is the place, *second is 0
 * The work area is zeroed, but kept on 1.
 */
uint32_t cspe_offer(const uint16_t *list, size_t list_length, const uint64_t *record, size_t record_length,
                    const uint64_t *area0, size_t area0_length, const uint64_t *area1, size_t area1_length,
                    uint64_t *work, size_t work_length, uint64_t *value, uint64_t *second);

/*
 * View: where the residuals stand. It takes no table and never refuses.
 *     record, area0, area1    the monitor, which is only read
 * It returns how many words the residuals' slots are; they begin area *area, which is 0 or 1. It returns 0, and *area
 * is 0, after a failure, where the record holds no residual or more than that area has room for, and where record is
 * not of CSPE_RECORD_WORDS words. The peak is not read.
 * A slot is CSPE_SLOT_WORDS words: how many nodes the residual has, a word for each node, each parallel before its
 * sides, and zeros. A node's word is its term's number times 2^28 and the last four events that it remembers, the
 * nearest first, times 2^21, 2^14, 2^7 and 1.
 */
size_t cspe_view(const uint64_t *record, size_t record_length, const uint64_t *area0, size_t area0_length,
                 const uint64_t *area1, size_t area1_length, uint64_t *area);

/*
 * Sheet: the lot sheet of the office, a lot book as text. It takes no table and no work area.
 *     book    the lot book, any length: one record for each lot, four numbers each:
 *                 lot      ascending strictly from record to record, below 10^10
 *                 taken    how many events were taken, at most 2^64 - 1
 *                 mark     0 running, 1 failed
 *                 place    where it failed, at most taken and below 10^8; 0 while running
 *             A number is written in seven-bit groups, the lowest first, in its fewest bytes, at most ten; a byte's top
 *             bit is set where another group follows
 *     text    the output, any length
 * 0           text begins with the sheet, and the rest is kept; *value is how many bytes the sheet has:
 *             CSPE_SHEET_LINE_BYTES for each record, and as many for the last line
 * 14          a record is cut short or breaks a rule above; *value is the first such record's index, from 0
 * 15          the sum of taken is above 2^64 - 1; *value is 0
 * 1           the sheet has more bytes than text has room for; *value is 0
 * They are tried in this order: 14 at each record from the first, then 15, then 1. A refusal writes nothing to text.
 * A line has 48 characters and a line feed. Of a record it has the lot in columns 1 to 10, taken in 12 to 31, `running`
 * or `failed` in 33 to 39 and the place in 41 to 48; numbers stand at the right of their columns, words at the left,
 * spaces elsewhere. The last line has `TOTAL` in 1 to 5 and the sum of taken in 12 to 31. An empty book has the last
 * line alone.
 */
uint32_t cspe_sheet(const uint8_t *book, size_t book_length, uint8_t *text, size_t text_length, uint64_t *value);

#ifdef __cplusplus
}
#endif

#endif
