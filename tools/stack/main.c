/*
 * How much stack the calls of the static library take. A thread gets a stack filled with a pattern, makes one call on a
 * table that takes the longest ways there are through choices and calls, and what is left of the pattern tells how
 * deep it went. README.md has the command, and docs/USING.md the figures.
 */
#define _GNU_SOURCE
#include <pthread.h>
#include <stdio.h>
#include <stdlib.h>
#include <string.h>

#include "cspe_monitor.h"

#define STACK_BYTES (4u << 20)
#define PATTERN 0xA5
/* after so many events a call keeps residual sets, whatever the table */
#define LATE 112

static uint16_t list[CSPE_NUMBERS];
static size_t length;
static uint64_t record[CSPE_RECORD_WORDS];
static uint64_t area0[CSPE_AREA_WORDS_MOST], area1[CSPE_AREA_WORDS_MOST], work[CSPE_WORK_WORDS];
static uint64_t further_record[CSPE_RECORD_WORDS], further0[CSPE_AREA_WORDS_MOST], further1[CSPE_AREA_WORDS_MOST];
static uint64_t timed_record[CSPE_TIMED_RECORD_WORDS];
static uint8_t events[1], late_events[LATE + 1];
static uint64_t minutes[1] = {0};
static uint16_t windows[1];
static uint32_t said;
static uint64_t word, second, opened;

static void put(uint16_t n) { list[length++] = n; }

/* A body: `deep` choices, each of the next and FAIL, then a prefix over set 0 and STOP, or a call of a definition. */
static void chain(int deep, int called) {
    for (int i = 0; i < deep; i++)
        put(3);
    if (called < 0) {
        put(2), put(0), put(0);
    } else {
        put(5), put((uint16_t)called);
    }
    for (int i = 0; i < deep; i++)
        put(1);
}

/* A = 2, the sets {0}, {} and {1}; definitions of level 0, each a chain of `deep` choices to the one before. */
static void head(int definitions, int chains, int deep) {
    length = 0;
    put(2), put(3), put(0), put(1), put(0), put(0), put(0), put(0), put(1), put(1), put((uint16_t)definitions);
    for (int d = 0; d < chains; d++) {
        put(0);
        chain(d == 0 ? deep - 1 : deep, d - 1);
    }
}

/*
 * The last definition, of level 1: `leaves` prefixes in parallel over {0}, each before two of the longest chains, in
 * parallel over {}, with STOP as another choice where `several`. Eight leaves are all that a residual may have, so of
 * eight each is before one chain. Where `late`, event 1 leads back to the same definition.
 */
static void deep_feed(int leaves, int several, int late) {
    head(32, 31, 15);
    put(1);
    if (late)
        put(3), put(2), put(2), put(5), put(31);
    for (int i = 0; i < leaves; i++) {
        if (i + 1 < leaves)
            put(4), put(0);
        put(2), put(0);
        if (several)
            put(3), put(0);
        if (leaves < 8)
            put(4), put(1), put(5), put(30);
        put(5), put(30);
    }
}

/* with no event */
static void *settle(void *unused) {
    (void)unused;
    said = cspe_open(list, length, record, CSPE_RECORD_WORDS, area0, CSPE_AREA_WORDS_MOST, area1, CSPE_AREA_WORDS_MOST,
                     events, 0, work, CSPE_WORK_WORDS, &word, &opened);
    return NULL;
}

/* In one go: the table is settled, and takes an event. */
static void *open_one(void *unused) {
    (void)unused;
    said = cspe_open(list, length, record, CSPE_RECORD_WORDS, area0, CSPE_AREA_WORDS_MOST, area1, CSPE_AREA_WORDS_MOST,
                     events, 1, work, CSPE_WORK_WORDS, &word, &opened);
    return NULL;
}

static void *feed(void *unused) {
    (void)unused;
    said = cspe_feed(list, length, record, CSPE_RECORD_WORDS, area0, CSPE_AREA_WORDS_MOST, area1, CSPE_AREA_WORDS_MOST,
                     events, 1, work, CSPE_WORK_WORDS, &word);
    return NULL;
}

/* a long call, whose last event is the deep one */
static void *feed_late(void *unused) {
    (void)unused;
    said = cspe_feed(list, length, record, CSPE_RECORD_WORDS, area0, CSPE_AREA_WORDS_MOST, area1, CSPE_AREA_WORDS_MOST,
                     late_events, LATE + 1, work, CSPE_WORK_WORDS, &word);
    return NULL;
}

static void *try_feed(void *unused) {
    (void)unused;
    said = cspe_try(list, length, record, CSPE_RECORD_WORDS, area0, CSPE_AREA_WORDS_MOST, area1, CSPE_AREA_WORDS_MOST,
                    further_record, CSPE_RECORD_WORDS, further0, CSPE_AREA_WORDS_MOST, further1, CSPE_AREA_WORDS_MOST,
                    events, 1, work, CSPE_WORK_WORDS, &word);
    return NULL;
}

/* The first event in wash hours, with its start; the list is both tables, and there are no windows. */
static void *timed(void *unused) {
    (void)unused;
    said = cspe_timed_feed(list, length, list, length, windows, 0, timed_record, CSPE_TIMED_RECORD_WORDS, area0,
                           CSPE_AREA_WORDS_MOST, area1, CSPE_AREA_WORDS_MOST, events, 1, minutes, 1, work,
                           CSPE_WORK_WORDS, &word);
    return NULL;
}

static void *offer(void *unused) {
    (void)unused;
    said = cspe_offer(list, length, record, CSPE_RECORD_WORDS, area0, CSPE_AREA_WORDS_MOST, area1,
                      CSPE_AREA_WORDS_MOST, work, CSPE_WORK_WORDS, &word, &second);
    return NULL;
}

static void *nothing(void *unused) { return unused; }

/* The bytes of stack that a thread with this body touched. */
static size_t touched(void *(*body)(void *)) {
    unsigned char *stack = aligned_alloc(4096, STACK_BYTES);
    pthread_attr_t attributes;
    pthread_t thread;
    memset(stack, PATTERN, STACK_BYTES);
    if (pthread_attr_init(&attributes) || pthread_attr_setstack(&attributes, stack, STACK_BYTES) ||
        pthread_create(&thread, &attributes, body, NULL) || pthread_join(thread, NULL))
        exit(2);
    size_t kept = 0;
    while (kept < STACK_BYTES && stack[kept] == PATTERN)
        kept++;
    free(stack);
    return STACK_BYTES - kept;
}

static void show(const char *what, void *(*body)(void *), size_t base) {
    said = 99;
    size_t bytes = touched(body) - base;
    printf("%-34s %7zu bytes, answer %u, taken %llu, residuals %llu\n", what, bytes, said,
           (unsigned long long)record[CSPE_TAKEN], (unsigned long long)record[CSPE_RESIDUALS]);
}

static void show_timed(const char *what, size_t base) {
    memset(timed_record, 0, sizeof timed_record);
    memset(area0, 0, sizeof area0);
    memset(area1, 0, sizeof area1);
    said = 99;
    size_t bytes = touched(timed) - base;
    printf("%-34s %7zu bytes, answer %u, taken %llu, residuals %llu\n", what, bytes, said,
           (unsigned long long)timed_record[CSPE_TAKEN], (unsigned long long)timed_record[CSPE_RESIDUALS]);
}

int main(void) {
    memset(late_events, 1, LATE);
    size_t base = touched(nothing);
    head(16, 16, 31);
    show("open, 16 definitions", settle, base);
    head(32, 32, 15);
    show("open, 32 definitions", settle, base);
    show("feed, one prefix", feed, base);
    show("offer, one prefix", offer, base);
    show_timed("timed feed, one prefix", base);
    for (int several = 0; several < 2; several++) {
        for (int leaves = 1; leaves <= 8; leaves *= 2) {
            char what[64];
            deep_feed(leaves, several, 0);
            settle(NULL);
            snprintf(what, sizeof what, "feed, %d leaves, %s", leaves, several ? "several results" : "one result");
            show(what, feed, base);
            snprintf(what, sizeof what, "timed feed, %d leaves, %s", leaves, several ? "several" : "one result");
            show_timed(what, base);
            deep_feed(leaves, several, 1);
            settle(NULL);
            snprintf(what, sizeof what, "long feed, %d leaves, %s", leaves, several ? "several" : "one result");
            show(what, feed_late, base);
        }
    }
    deep_feed(8, 1, 0);
    settle(NULL);
    show("try, 8 leaves, several results", try_feed, base);
    show("open, 8 leaves, several results", open_one, base);
    return 0;
}
