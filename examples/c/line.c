/*
 * A packing line judged from C with include/cspe.h: the drawing packing_line.csp comes in as packing_line.h, which
 * `tools/cspe c packing_line` wrote. Events are judged one by one; the one that is not permitted is told with those
 * that were. It prints a line for each event, and ends with status 1 at the first answer that is not the expected one.
 * In the repository's root:
 *
 *     tools/build monitor_c
 *     cc -std=c99 -O2 -Iinclude -o target/line examples/c/line.c crates/monitor_c/out/libmonitor_c.a
 *     target/line
 */
#include <stdio.h>

#define CSPE_SLOTS 8 /* the peak of this drawing is 2 */
#include "cspe.h"
#include "packing_line.h"

static cspe_monitor line;

static const char *name_of(uint8_t event) {
    return event < PACKING_LINE_EVENTS ? packing_line_event_names[event] : "an unknown event";
}

static void show_permitted(void) {
    uint8_t event;
    for (event = 0; event < PACKING_LINE_EVENTS; event++) {
        if (cspe_monitor_permits(&line, event)) printf(" %s", name_of(event));
    }
    printf("\n");
}

/* Judges an event before it is taken, and takes it; 1 where the answer is `due`. */
static int judge(uint8_t event, int due) {
    int permitted = cspe_monitor_permits(&line, event);
    uint32_t refusal;
    printf("permitted:");
    show_permitted();
    refusal = cspe_monitor_step(&line, event);
    if (refusal != CSPE_NONE) {
        printf("%s: %s\n", name_of(event), cspe_refusal_text(refusal));
        return due < 0 && line.place == 0;
    }
    printf("%s: %s\n", name_of(event), cspe_monitor_running(&line) ? "running" : "FAILED");
    return cspe_monitor_running(&line) == due && permitted == due;
}

int main(void) {
    uint32_t refusal = cspe_monitor_open(&line, packing_line_table, sizeof packing_line_table);
    if (refusal != CSPE_NONE) {
        printf("the table is refused: %s\n", cspe_refusal_text(refusal));
        return 1;
    }
    if (!judge(PACKING_LINE_STAMP, 1) || !judge(PACKING_LINE_LEFT, 1)) return 1;
    if (!judge(PACKING_LINE_EVENTS, -1)) return 1;
    if (!judge(PACKING_LINE_CRACK, 1) || !judge(PACKING_LINE_RIGHT, 0)) return 1;
    printf("event %u of %u was not permitted; peak %u\n", (unsigned)cspe_monitor_failed_at(&line),
           (unsigned)cspe_monitor_taken(&line), (unsigned)cspe_monitor_peak(&line));
    return cspe_monitor_failed_at(&line) == 4 ? 0 : 1;
}
