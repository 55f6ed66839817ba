/*
 * What tools/cspe calls: include/cspe.h as functions of a shared object, over the proved library. It has no rule of its
 * own; library.py builds it and is its only caller.
 */
#include "cspe.h"

/* What Python must know of the header, by these places. */
uint64_t people_constant(int place) {
    const uint64_t constants[] = {
        sizeof(cspe_monitor), CSPE_SLOTS, CSPE_SLOT_WORDS, CSPE_RECORD_WORDS, CSPE_OFFER_WORDS, CSPE_TABLE_BYTES,
        CSPE_VERSION,
    };
    return constants[place];
}

uint32_t people_open(cspe_monitor *m, const uint8_t *table, size_t length, size_t slots) {
    return cspe_monitor_open_slots(m, table, length, slots);
}

uint32_t people_feed(cspe_monitor *m, const uint8_t *events, size_t length) {
    return cspe_monitor_feed(m, events, length);
}

uint32_t people_offer(cspe_monitor *m, uint64_t *bits) { return cspe_monitor_offer(m, bits); }

uint64_t people_place(const cspe_monitor *m) { return m->place; }

int people_running(const cspe_monitor *m) { return cspe_monitor_running(m); }
uint64_t people_failed_at(const cspe_monitor *m) { return cspe_monitor_failed_at(m); }
uint64_t people_taken(const cspe_monitor *m) { return cspe_monitor_taken(m); }
uint64_t people_peak(const cspe_monitor *m) { return cspe_monitor_peak(m); }

/* The residuals' slots, copied; how many words they are. */
size_t people_view(const cspe_monitor *m, uint64_t *slots) {
    size_t words, i;
    const uint64_t *from = cspe_monitor_view(m, &words);
    for (i = 0; i < words; i++) slots[i] = from[i];
    return words;
}

/* Brings record and residuals back to what they were: `record` as copied by people_record, `slots` by people_view. */
void people_record(const cspe_monitor *m, uint64_t *record) {
    size_t i;
    for (i = 0; i < CSPE_RECORD_WORDS; i++) record[i] = m->record[i];
}

void people_restore(cspe_monitor *m, const uint64_t *record, const uint64_t *slots, size_t words) {
    size_t i;
    uint64_t *present = m->areas[record[CSPE_TAKEN] % 2];
    for (i = 0; i < CSPE_RECORD_WORDS; i++) m->record[i] = record[i];
    for (i = 0; i < m->area_words; i++) m->areas[0][i] = m->areas[1][i] = 0;
    for (i = 0; i < words; i++) present[i] = slots[i];
}
