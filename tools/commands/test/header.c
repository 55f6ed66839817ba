/* What include/cspe.h promises, on table B and on drawing K8. Status 1, and a line, at the first that does not hold. */
#include <stdio.h>
#include <string.h>

#include "cspe.h"
#include "k8.h"
#include "table_b.h"

#define EXPECT(holds)                                      \
    do {                                                   \
        if (!(holds)) {                                    \
            printf("line %d: %s\n", __LINE__, #holds);     \
            return 1;                                      \
        }                                                  \
    } while (0)

static cspe_monitor m, copy;

static int opened(void) {
    static const uint8_t cut[] = {3, 2};
    EXPECT(cspe_monitor_open(&m, cut, sizeof cut) == CSPE_TRUNCATED && m.place == 2);
    EXPECT(!cspe_monitor_running(&m) && cspe_monitor_failed_at(&m) == 0 && !cspe_monitor_permits(&m, 0));
    EXPECT(cspe_monitor_step(&m, 0) != CSPE_NONE);
    EXPECT(cspe_monitor_open_slots(&m, table_b_table, sizeof table_b_table, CSPE_SLOTS + 1) == CSPE_WRONG_LENGTH);
    EXPECT(cspe_monitor_open(&m, table_b_table, sizeof table_b_table) == CSPE_NONE && m.place == 0);
    EXPECT(cspe_monitor_running(&m) && cspe_monitor_taken(&m) == 0);
    return 0;
}

static int followed(void) {
    static const uint8_t events[] = {0, 1, 0, 3, 1};
    uint64_t bits[CSPE_OFFER_WORDS];
    size_t words;
    EXPECT(cspe_monitor_offer(&m, bits) == CSPE_NONE && bits[0] == 1);
    EXPECT(cspe_monitor_feed(&m, events, sizeof events) == CSPE_UNKNOWN_EVENT && m.place == 3);
    EXPECT(cspe_monitor_taken(&m) == 3 && cspe_monitor_permits(&m, 1) && !cspe_monitor_permits(&m, 0));
    EXPECT(!cspe_monitor_permits(&m, 255));
    EXPECT(cspe_monitor_view(&m, &words)[0] == 1 && words == CSPE_SLOT_WORDS);
    copy = m;
    EXPECT(cspe_monitor_step(&copy, 0) == CSPE_NONE && !cspe_monitor_running(&copy));
    EXPECT(cspe_monitor_failed_at(&copy) == 4 && cspe_monitor_residuals(&copy) == 0);
    EXPECT(cspe_monitor_step(&m, 1) == CSPE_NONE && cspe_monitor_running(&m) && cspe_monitor_taken(&m) == 4);
    m.areas[1][0] = 1;
    EXPECT(cspe_monitor_step(&m, 0) == CSPE_INCONSISTENT && cspe_monitor_taken(&m) == 4);
    EXPECT(cspe_monitor_offer(&m, bits) == CSPE_INCONSISTENT && bits[0] == 0);
    return 0;
}

/* 128 events, of which 63, 64 and 127 may come. */
static int large(void) {
    static const uint8_t table[] = {0x80, 1, 1, 0, 3, 63, 64, 127, 1, 0, 2, 0, 5, 0};
    static const uint8_t events[] = {127, 64, 63};
    uint64_t bits[CSPE_OFFER_WORDS], high = (uint64_t)1 << 63;
    EXPECT(cspe_monitor_open(&m, table, sizeof table) == CSPE_NONE);
    EXPECT(cspe_monitor_offer(&m, bits) == CSPE_NONE && bits[0] == high && bits[1] == high + 1);
    EXPECT(cspe_monitor_permits(&m, 63) && cspe_monitor_permits(&m, 64) && cspe_monitor_permits(&m, 127));
    EXPECT(!cspe_monitor_permits(&m, 0) && !cspe_monitor_permits(&m, 65) && !cspe_monitor_permits(&m, 128));
    EXPECT(cspe_monitor_feed(&m, events, sizeof events) == CSPE_NONE && cspe_monitor_running(&m));
    m.areas[0][0] = 1;
    EXPECT(cspe_monitor_offer(&m, bits) == CSPE_INCONSISTENT && bits[0] == 0 && bits[1] == 0);
    return 0;
}

static int crowded(void) {
    EXPECT(cspe_monitor_open_slots(&m, k8_table, sizeof k8_table, 1) == CSPE_NONE);
    EXPECT(cspe_monitor_step(&m, 0) == CSPE_CAPACITY_EXCEEDED && cspe_monitor_taken(&m) == 0);
    EXPECT(cspe_monitor_open_slots(&m, k8_table, sizeof k8_table, 2) == CSPE_NONE);
    EXPECT(cspe_monitor_step(&m, 0) == CSPE_NONE && cspe_monitor_residuals(&m) == 2 && cspe_monitor_peak(&m) == 2);
    return 0;
}

static int told(void) {
    uint32_t i, j;
    EXPECT(CSPE_REFUSALS == CSPE_CLOCK_BACK);
    for (i = 0; i <= CSPE_REFUSALS; i++) {
        EXPECT(strlen(cspe_refusal_text(i)) > 8 && strcmp(cspe_refusal_text(i), cspe_refusal_text(CSPE_REFUSALS + 1)));
        for (j = 0; j < i; j++) EXPECT(strcmp(cspe_refusal_text(i), cspe_refusal_text(j)) != 0);
    }
    return 0;
}

int main(void) { return opened() || followed() || large() || crowded() || told(); }
