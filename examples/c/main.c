/*
 * The monitor from C: table B of document 01 (an alphabet of 3; prefix {0}, prefix {1}, call 0) is read, a monitor is
 * opened and fed `0 1 0` in pieces, then asked what events would do, and each answer is checked. Then areas are sized
 * for another table: by the peak of a trial lot, with which a monitor is opened in one go. It prints a line for each
 * call, and ends with status 1 at the first answer that is not the expected one. In the repository's root:
 *
 *     tools/build monitor_c
 *     cc -std=c99 -O2 -Iinclude -o target/example examples/c/main.c crates/monitor_c/out/libmonitor_c.a
 *     target/example
 */
#include <inttypes.h>
#include <stdio.h>
#include <stdlib.h>
#include <string.h>

#include "cspe_monitor.h"
/* the tables, which `tools/cspe c` writes: table B; drawing K7 (prefix {0} to STOP, or prefix {0} to prefix {1} to
   STOP); drawing K8 (prefix {0} to STOP, twice, side by side) */
#include "k7.h"
#include "k8.h"
#include "table_b.h"

enum { SLOTS = 4, AREA_WORDS = SLOTS * CSPE_SLOT_WORDS };

static uint16_t list[CSPE_NUMBERS];
static size_t list_length;
static uint64_t record[CSPE_RECORD_WORDS];
static uint64_t area[2][CSPE_AREA_WORDS_MOST];
static size_t area_words = AREA_WORDS;
static uint64_t further_record[CSPE_RECORD_WORDS];
static uint64_t further[2][CSPE_AREA_WORDS_MOST];
static uint64_t work[CSPE_WORK_WORDS];

static void expect(int holds, const char *what) {
    if (!holds) {
        fprintf(stderr, "not as expected: %s\n", what);
        exit(1);
    }
}

/* A monitor with areas of so many words, after these events; *opened says whether there is one. */
static uint32_t open_monitor(size_t words, const uint8_t *events, size_t events_length, uint64_t *place,
                             uint64_t *opened) {
    area_words = words;
    return cspe_open(list, list_length, record, CSPE_RECORD_WORDS, area[0], area_words, area[1], area_words, events,
                     events_length, work, CSPE_WORK_WORDS, place, opened);
}

static uint32_t feed(const uint8_t *events, size_t events_length, uint64_t *place) {
    return cspe_feed(list, list_length, record, CSPE_RECORD_WORDS, area[0], area_words, area[1], area_words, events,
                     events_length, work, CSPE_WORK_WORDS, place);
}

static uint32_t try_events(const uint8_t *events, size_t events_length, uint64_t *place) {
    return cspe_try(list, list_length, record, CSPE_RECORD_WORDS, area[0], area_words, area[1], area_words,
                    further_record, CSPE_RECORD_WORDS, further[0], area_words, further[1], area_words, events,
                    events_length, work, CSPE_WORK_WORDS, place);
}

static uint32_t offer(uint64_t *value, uint64_t *second) {
    return cspe_offer(list, list_length, record, CSPE_RECORD_WORDS, area[0], area_words, area[1], area_words, work,
                      CSPE_WORK_WORDS, value, second);
}

/* Prints the record, which must be the one given. */
static void show(const char *call, uint64_t taken, uint64_t residuals, uint64_t failed, uint64_t place, uint64_t peak) {
    expect(record[CSPE_TAKEN] == taken && record[CSPE_RESIDUALS] == residuals && record[CSPE_FAILED] == failed &&
               record[CSPE_PLACE] == place && record[CSPE_PEAK] == peak,
           call);
    if (record[CSPE_FAILED] == 0) {
        printf("%s: running, %" PRIu64 " taken, %" PRIu64 " held, peak %" PRIu64 "\n", call, record[CSPE_TAKEN],
               record[CSPE_RESIDUALS], record[CSPE_PEAK]);
    } else {
        printf("%s: failed at %" PRIu64 ", %" PRIu64 " taken, peak %" PRIu64 "\n", call, record[CSPE_PLACE],
               record[CSPE_TAKEN], record[CSPE_PEAK]);
    }
}

/* Prints a refusal, which must be the one given. */
static void show_refusal(const char *call, uint32_t number, uint64_t place, uint32_t number_due, uint64_t place_due) {
    expect(number == number_due && place == place_due, call);
    printf("%s: refused %" PRIu32 " at %" PRIu64 "\n", call, number, place);
}

/* Prints the events that may come next, as two words of bits: of an alphabet of 3 the second is 0. */
static void show_offer(uint64_t bits_due) {
    uint64_t first, second;
    expect(offer(&first, &second) == CSPE_NONE && first == bits_due && second == 0, "offer");
    printf("offer: %" PRIu64 " %" PRIu64 "\n", first, second);
}

static void show_view(size_t words_due, uint64_t area_due) {
    uint64_t which;
    size_t words = cspe_view(record, CSPE_RECORD_WORDS, area[0], area_words, area[1], area_words, &which);
    expect(words == words_due && which == area_due, "view");
    printf("view: %zu words of area %" PRIu64 "\n", words, which);
    for (size_t i = 0; i < words; i += CSPE_SLOT_WORDS) {
        /* a slot's first word is how many nodes the residual has; then the nodes, the term in the bits from 28 on */
        printf("    nodes: %" PRIu64 ", term of the first: %" PRIu64 "\n", area[which][i], area[which][i + 1] >> 28);
    }
}

static void read_and_write(void) {
    uint64_t value;
    uint32_t number =
        cspe_read(table_b_table, sizeof table_b_table, list, CSPE_NUMBERS, work, CSPE_WORK_WORDS, &value);
    expect(number == CSPE_NONE, "read");
    list_length = (size_t)value;
    expect(list_length == sizeof table_b_table, "how many numbers are read");
    printf("read: %zu numbers\n", list_length);

    uint8_t bytes[CSPE_TABLE_BYTES];
    expect(cspe_write(list, list_length, bytes, sizeof bytes, work, CSPE_WORK_WORDS, &value) == CSPE_NONE, "write");
    expect(value == sizeof table_b_table && memcmp(bytes, table_b_table, sizeof table_b_table) == 0, "what is written");
    printf("write: %" PRIu64 " bytes\n", value);
}

static void follow(void) {
    const uint8_t events[] = {0, 1, 0};
    uint64_t place, opened;
    uint32_t number = open_monitor(0, events, 0, &place, &opened);
    show_refusal("open without slots", number, place, CSPE_WRONG_LENGTH, 0);
    expect(opened == 0, "no monitor");
    expect(open_monitor(AREA_WORDS, events, 0, &place, &opened) == CSPE_NONE && opened == 1, "open");
    show("open", 0, 1, 0, 0, 1);
    show_offer(1);

    expect(feed(events, 1, &place) == CSPE_NONE, "feed of the first piece");
    show("feed 0", 1, 1, 0, 0, 1);
    show_offer(2);
    expect(feed(events + 1, 2, &place) == CSPE_NONE, "feed of the second piece");
    show("feed 1 0", 3, 1, 0, 0, 1);
    show_offer(2);
    show_view(CSPE_SLOT_WORDS, 1);
}

/* What events would do, before they are fed: the answer and what Feed would leave; the monitor stays as it is. */
static void ask_first(void) {
    uint64_t place;
    const uint8_t bad[] = {1, 1};
    expect(try_events(bad, sizeof bad, &place) == CSPE_NONE, "try of events that are not permitted");
    expect(further_record[CSPE_FAILED] == 1 && further_record[CSPE_PLACE] == 5, "where they fail");
    printf("try 1 1: would fail at %" PRIu64 "\n", further_record[CSPE_PLACE]);

    const uint8_t good[] = {1, 0};
    expect(try_events(good, sizeof good, &place) == CSPE_NONE, "try of events that are permitted");
    expect(further_record[CSPE_FAILED] == 0 && further_record[CSPE_TAKEN] == 5, "how many would be taken");
    printf("try 1 0: would run, %" PRIu64 " taken\n", further_record[CSPE_TAKEN]);

    const uint8_t strange[] = {3};
    uint32_t number = try_events(strange, sizeof strange, &place);
    show_refusal("try 3", number, place, CSPE_UNKNOWN_EVENT, 0);
    expect(record[CSPE_TAKEN] == 3, "the monitor is as it was");
}

static void refuse_and_fail(void) {
    uint64_t place;
    /* 3 is no event of an alphabet of 3: the event before it is taken, and the record is the one after it */
    const uint8_t strange[] = {1, 3, 0};
    uint32_t number = feed(strange, sizeof strange, &place);
    show_refusal("feed 1 3 0", number, place, CSPE_UNKNOWN_EVENT, 1);
    show("the record", 4, 1, 0, 0, 1);

    const uint8_t wrong[] = {1};
    expect(feed(wrong, sizeof wrong, &place) == CSPE_NONE, "feed of an event that is not offered");
    show("feed 1", 5, 0, 1, 5, 1);
    show_offer(0);
    show_view(0, 0);

    /* a word of the areas that no call has written */
    area[0][0] = 1;
    number = feed(wrong, sizeof wrong, &place);
    show_refusal("feed with a changed area", number, place, CSPE_INCONSISTENT, 0);

    uint64_t value;
    number = cspe_read(table_b_table, sizeof table_b_table - 1, list, CSPE_NUMBERS, work, CSPE_WORK_WORDS, &value);
    show_refusal("read without the last byte", number, value, CSPE_TRUNCATED, sizeof table_b_table - 1);
}

/* The areas of a table, sized by a trial lot: the largest areas, and then as many slots as the peak. */
static void size_areas(void) {
    const uint8_t lot[] = {0, 0};
    uint64_t value;
    uint32_t number = cspe_read(k8_table, sizeof k8_table, list, CSPE_NUMBERS, work, CSPE_WORK_WORDS, &value);
    expect(number == CSPE_NONE, "read of another table");
    list_length = (size_t)value;

    uint64_t place, opened;
    number = open_monitor(CSPE_AREA_WORDS_MOST, lot, sizeof lot, &place, &opened);
    expect(number == CSPE_NONE, "open with 256 slots and a trial lot");
    show("trial lot with 256 slots", 2, 1, 0, 0, 2);
    size_t slots = (size_t)record[CSPE_PEAK];

    number = open_monitor(slots * CSPE_SLOT_WORDS, lot, sizeof lot, &place, &opened);
    expect(number == CSPE_NONE, "open with the peak's slots");
    show("the same with 2 slots", 2, 1, 0, 0, 2);

    /* one slot less: the first event is refused, which does not move the peak, and there is a monitor */
    number = open_monitor((slots - 1) * CSPE_SLOT_WORDS, lot, sizeof lot, &place, &opened);
    show_refusal("the same with 1 slot", number, place, CSPE_CAPACITY_EXCEEDED, 0);
    expect(opened == 1, "a monitor before the refused event");
    show("the record", 0, 1, 0, 0, 1);

    /* two residuals before any event, and one slot: the same number and place, and no monitor */
    number = cspe_read(k7_table, sizeof k7_table, list, CSPE_NUMBERS, work, CSPE_WORK_WORDS, &value);
    expect(number == CSPE_NONE, "read of a third table");
    list_length = (size_t)value;
    number = open_monitor(CSPE_SLOT_WORDS, lot, sizeof lot, &place, &opened);
    show_refusal("a table that begins with 2, and 1 slot", number, place, CSPE_CAPACITY_EXCEEDED, 0);
    expect(opened == 0, "no monitor");
    show("the record is kept", 0, 1, 0, 0, 1);
}

int main(void) {
    read_and_write();
    follow();
    ask_first();
    refuse_and_fail();
    size_areas();
    printf("ok\n");
    return 0;
}
