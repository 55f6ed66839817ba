/*
 * Wash hours from C: table B of document 01 on most minutes, and in a window of the week another table, which permits
 * the event 3 over and over. Events with their minutes go through the window and past it; then refusals are met. It
 * ends with status 1 at the first answer that is not the expected one. In the repository's root:
 *
 *     tools/build monitor_c
 *     cc -std=c99 -O2 -Iinclude -o target/wash examples/c/wash.c crates/monitor_c/out/libmonitor_c.a
 *     target/wash
 */
#include <inttypes.h>
#include <stdio.h>
#include <stdlib.h>
#include <string.h>

#include "cspe_monitor.h"

/* one slot */
enum { AREA_WORDS = CSPE_SLOT_WORDS };

static const uint8_t table_b[] = {3, 2, 0, 1, 0, 0, 1, 1, 1, 0, 2, 0, 2, 1, 5, 0};
/* A = 4, one set, {3}; one definition: prefix {3}, call itself */
static const uint8_t rinse[] = {4, 1, 0, 1, 3, 1, 0, 2, 0, 5, 0};
/* the wash window: from minute 1,320 of the week on, up to 1,380 */
static const uint16_t window[] = {1320, 1380};

static uint16_t everyday[CSPE_NUMBERS], wash[CSPE_NUMBERS];
static size_t everyday_count, wash_count;
static uint64_t record[CSPE_TIMED_RECORD_WORDS], area0[AREA_WORDS], area1[AREA_WORDS], work[CSPE_WORK_WORDS];

static void expect(int holds, const char *what) {
    if (!holds) {
        fprintf(stderr, "not as expected: %s\n", what);
        exit(1);
    }
}

static size_t read_table(const uint8_t *bytes, size_t length, uint16_t *numbers) {
    uint64_t count;
    expect(cspe_read(bytes, length, numbers, CSPE_NUMBERS, work, CSPE_WORK_WORDS, &count) == CSPE_NONE, "a table");
    return (size_t)count;
}

/* Prints what the record says: nothing yet, or the verdict since the last start, and the last event's minute. */
static void print_record(void) {
    if (record[CSPE_STARTED] == 0) {
        printf("not started\n");
        return;
    }
    if (record[CSPE_FAILED]) {
        printf("failed %" PRIu64 " %" PRIu64, record[CSPE_PLACE], record[CSPE_TAKEN]);
    } else {
        printf("running %" PRIu64 " %" PRIu64, record[CSPE_TAKEN], record[CSPE_RESIDUALS]);
    }
    printf(", minute %" PRIu64 "\n", record[CSPE_MINUTE]);
}

/* Feeds events with their minutes, prints the answer and the record, and holds the answer to the one that is due. */
static void feed(size_t count, const uint8_t *events, const uint64_t *minutes, const uint16_t *windows,
                 size_t windows_count, uint32_t number_due, uint64_t place_due) {
    uint64_t place;
    uint32_t number =
        cspe_timed_feed(everyday, everyday_count, wash, wash_count, windows, windows_count, record,
                        CSPE_TIMED_RECORD_WORDS, area0, AREA_WORDS, area1, AREA_WORDS, events, count, minutes, count,
                        work, CSPE_WORK_WORDS, &place);
    for (size_t i = 0; i < count; i++) {
        printf("%" PRIu8 " at %" PRIu64 "; ", events[i], minutes[i]);
    }
    if (number != CSPE_NONE) {
        printf("refused %" PRIu32 " at %" PRIu64 "; ", number, place);
    }
    print_record();
    expect(number == number_due && place == place_due, "the answer");
}

static void fed(size_t count, const uint8_t *events, const uint64_t *minutes) {
    feed(count, events, minutes, window, 2, CSPE_NONE, 0);
}

static void through_the_window(void) {
    fed(0, (const uint8_t[]){0}, (const uint64_t[]){0});
    fed(3, (const uint8_t[]){0, 1, 0}, (const uint64_t[]){1300, 1310, 1319});
    /* the window begins: a fresh start on the wash table */
    fed(2, (const uint8_t[]){3, 3}, (const uint64_t[]){1320, 1379});
    /* it has ended: a fresh start on table B, which goes on until the next week's window */
    fed(1, (const uint8_t[]){0}, (const uint64_t[]){1380});
    fed(1, (const uint8_t[]){1}, (const uint64_t[]){CSPE_WEEK_MINUTES + 1319});
    /* the window came and went between two events: a fresh start too */
    fed(1, (const uint8_t[]){0}, (const uint64_t[]){CSPE_WEEK_MINUTES + 1380});
    expect(record[CSPE_TAKEN] == 1, "one event since the last start");
}

static void refusals(void) {
    uint64_t before[CSPE_TIMED_RECORD_WORDS];
    memcpy(before, record, sizeof record);
    /* the clock went back; a timetable whose window ends before it begins; 3 is no event of table B */
    feed(1, (const uint8_t[]){1}, (const uint64_t[]){1000}, window, 2, CSPE_CLOCK_BACK, 0);
    feed(1, (const uint8_t[]){1}, (const uint64_t[]){CSPE_MINUTE_BOUND}, window, 2, CSPE_CLOCK_BACK, 0);
    feed(0, (const uint8_t[]){0}, (const uint64_t[]){0}, (const uint16_t[]){1380, 1320}, 2, CSPE_BAD_TIMETABLE, 0);
    feed(1, (const uint8_t[]){3}, (const uint64_t[]){20000}, window, 2, CSPE_UNKNOWN_EVENT, 0);
    expect(memcmp(before, record, sizeof record) == 0, "the record is as before");
    /* the place counts the events of the call, through a start: 4 is no event of the wash table either */
    feed(3, (const uint8_t[]){1, 3, 4}, (const uint64_t[]){20000, 2 * CSPE_WEEK_MINUTES + 1320, 21500}, window, 2,
         CSPE_UNKNOWN_EVENT, 2);
    expect(record[CSPE_TAKEN] == 1, "one event since the last start");
}

int main(void) {
    everyday_count = read_table(table_b, sizeof table_b, everyday);
    wash_count = read_table(rinse, sizeof rinse, wash);
    through_the_window();
    refusals();
    printf("ok\n");
    return 0;
}
