/*
 * A monitor in one struct, over the operations of cspe_monitor.h. Header-only C99, also C++17; it allocates nothing.
 *
 *     #define CSPE_SLOTS 8                        before the header, where 256 slots are too many
 *     #include "cspe.h"
 *
 *     static cspe_monitor line;
 *     if (cspe_monitor_open(&line, table, sizeof table) != CSPE_NONE) ..    the table is refused
 *     if (cspe_monitor_step(&line, event) != CSPE_NONE) ..                  the event is refused, not judged
 *     if (!cspe_monitor_running(&line)) ..                                  an event was not permitted
 *
 * `tools/cspe c DRAWING` writes a table, its events and their names as a C header. A caller of this header does not see
 * how a monitor is opened, nor how many words Offer writes: it stays as it is where the operations below it change.
 *
 * A refusal is 0 where there is none (enum cspe_refusal); its place is in the struct. A struct is opened before
 * anything else is asked of it. It lies still: it may be copied with `=`, and each copy is a monitor of its own.
 */
#ifndef CSPE_H
#define CSPE_H

#include "cspe_monitor.h"

/* Of this header: it goes up by one where a caller must change. CSPE_VERSION is the library's. */
#define CSPE_HEADER_VERSION 2

/* How many residuals a monitor has room for; the same wherever a struct is handed over. The peak of a trial lot says
   how many are needed (docs/GUIDE.md). */
#ifndef CSPE_SLOTS
#define CSPE_SLOTS (CSPE_AREA_WORDS_MOST / CSPE_SLOT_WORDS)
#endif
#if CSPE_SLOTS * CSPE_SLOT_WORDS < CSPE_AREA_WORDS_LEAST || CSPE_SLOTS * CSPE_SLOT_WORDS > CSPE_AREA_WORDS_MOST
#error "CSPE_SLOTS is out of its bounds: CSPE_AREA_WORDS_LEAST and CSPE_AREA_WORDS_MOST, in slots"
#endif

/* How many words Offer writes: a bit for each event, 64 to a word. */
#define CSPE_OFFER_WORDS 2
/* The largest number of a refusal. */
#define CSPE_REFUSALS 17

#ifdef __cplusplus
extern "C" {
#endif

typedef struct cspe_monitor {
    uint64_t record[CSPE_RECORD_WORDS];
    uint64_t areas[2][CSPE_SLOTS * CSPE_SLOT_WORDS];
    uint64_t work[CSPE_WORK_WORDS];
    uint16_t list[CSPE_NUMBERS];
    size_t list_length;
    size_t area_words; /* as many words of each area are lent */
    uint64_t place;    /* of the last refusal; 0 where the last call was not refused */
} cspe_monitor;

/* As cspe_monitor_open, with so many slots, at most CSPE_SLOTS. */
static inline uint32_t cspe_monitor_open_slots(cspe_monitor *m, const uint8_t *table, size_t table_length,
                                               size_t slots) {
    size_t i;
    uint64_t count = 0, opened = 0;
    uint32_t refusal;
    for (i = 0; i < CSPE_RECORD_WORDS; i++) m->record[i] = 0;
    m->record[CSPE_FAILED] = 1; /* a monitor that was not opened permits nothing */
    for (i = 0; i < sizeof m->areas[0] / sizeof m->areas[0][0]; i++) m->areas[0][i] = m->areas[1][i] = 0;
    m->list_length = 0;
    m->area_words = slots <= CSPE_SLOTS ? slots * CSPE_SLOT_WORDS : 0;
    m->place = 0;
    refusal = cspe_read(table, table_length, m->list, CSPE_NUMBERS, m->work, CSPE_WORK_WORDS, &count);
    if (refusal != CSPE_NONE) {
        m->place = count;
        return refusal;
    }
    m->list_length = (size_t)count;
    /* no events: `table` is lent for a pointer that is not NULL, and `opened` is 1 just where nothing is refused */
    return cspe_open(m->list, m->list_length, m->record, CSPE_RECORD_WORDS, m->areas[0], m->area_words, m->areas[1],
                     m->area_words, table, 0, m->work, CSPE_WORK_WORDS, &m->place, &opened);
}

/*
 * The monitor of a table's bytes, no event taken. 0, or 1 to 9 or 13 with the place in m->place; then m is failed at 0
 * and permits nothing.
 */
static inline uint32_t cspe_monitor_open(cspe_monitor *m, const uint8_t *table, size_t table_length) {
    return cspe_monitor_open_slots(m, table, table_length, CSPE_SLOTS);
}

/*
 * The monitor takes events, from the first. 0, or 11 to 13: then m->place events were taken, and the next one was not;
 * or 10 where somebody else wrote the struct, and then nothing was taken.
 */
static inline uint32_t cspe_monitor_feed(cspe_monitor *m, const uint8_t *events, size_t events_length) {
    return cspe_feed(m->list, m->list_length, m->record, CSPE_RECORD_WORDS, m->areas[0], m->area_words, m->areas[1],
                     m->area_words, events, events_length, m->work, CSPE_WORK_WORDS, &m->place);
}

/* The monitor takes one event. */
static inline uint32_t cspe_monitor_step(cspe_monitor *m, uint8_t event) {
    return cspe_monitor_feed(m, &event, 1);
}

/* Bit e % 64 of bits[e / 64] is set exactly where event e may come next; all are 0 on a refusal and after a failure. */
static inline uint32_t cspe_monitor_offer(cspe_monitor *m, uint64_t bits[CSPE_OFFER_WORDS]) {
    uint32_t refusal =
        cspe_offer(m->list, m->list_length, m->record, CSPE_RECORD_WORDS, m->areas[0], m->area_words, m->areas[1],
                   m->area_words, m->work, CSPE_WORK_WORDS, &bits[0], &bits[1]);
    m->place = 0;
    if (refusal != CSPE_NONE) {
        m->place = bits[0];
        bits[0] = 0;
    }
    return refusal;
}

/* 1 where this event may come next, else 0. */
static inline int cspe_monitor_permits(cspe_monitor *m, uint8_t event) {
    uint64_t bits[CSPE_OFFER_WORDS];
    if (event >= 64 * CSPE_OFFER_WORDS || cspe_monitor_offer(m, bits) != CSPE_NONE) return 0;
    return (int)(bits[event / 64] >> (event % 64) & 1);
}

/* 1 while all events were permitted, 0 after one that was not. */
static inline int cspe_monitor_running(const cspe_monitor *m) { return m->record[CSPE_FAILED] == 0; }

/* Which event, counted from 1, was the first not permitted; 0 where none was permitted at all, or while it runs. */
static inline uint64_t cspe_monitor_failed_at(const cspe_monitor *m) { return m->record[CSPE_PLACE]; }

/* How many events were taken. */
static inline uint64_t cspe_monitor_taken(const cspe_monitor *m) { return m->record[CSPE_TAKEN]; }

/* How many residuals are held, and the most that were held at a time. */
static inline uint64_t cspe_monitor_residuals(const cspe_monitor *m) { return m->record[CSPE_RESIDUALS]; }
static inline uint64_t cspe_monitor_peak(const cspe_monitor *m) { return m->record[CSPE_PEAK]; }

/* The slots of the residuals held, CSPE_SLOT_WORDS words each; *words is how many words they are. */
static inline const uint64_t *cspe_monitor_view(const cspe_monitor *m, size_t *words) {
    uint64_t area = 0;
    *words = cspe_view(m->record, CSPE_RECORD_WORDS, m->areas[0], m->area_words, m->areas[1], m->area_words, &area);
    return m->areas[area];
}

/* A refusal in a few words of English. */
static inline const char *cspe_refusal_text(uint32_t refusal) {
    static const char *const texts[CSPE_REFUSALS + 1] = {
        "not refused",
        "a lent length is wrong",
        "the table is too long",
        "the table is cut short",
        "a number of the table is not written as it must be",
        "a number of the table is out of its bounds",
        "something follows the table",
        "a call or a parameter breaks a rule",
        "a level has more than 8 terms side by side",
        "a term begins in more than 256 ways",
        "record and areas do not belong together",
        "the event is not in the alphabet",
        "2^64 - 1 events were taken",
        "more residuals than slots",
        "a record of the lot book is bad",
        "the total is above 2^64 - 1",
        "the timetable's windows are not in order",
        "the clock went back, or the minute is 2^48 or more",
    };
    return refusal <= CSPE_REFUSALS ? texts[refusal] : "no refusal has this number";
}

#ifdef __cplusplus
}
#endif

#endif
