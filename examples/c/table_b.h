/* The table of the drawing table_b.csp, written by `cspe c`: edit the drawing, not this file. */
#ifndef TABLE_B_H
#define TABLE_B_H

#define TABLE_B_EVENTS 3

enum table_b_event {
    TABLE_B_EVENT_0 = 0,
    TABLE_B_EVENT_1 = 1,
    TABLE_B_EVENT_2 = 2
};

static const char *const table_b_event_names[3] = {
    "0",
    "1",
    "2"
};

static const unsigned char table_b_table[16] = {
    0x03, 0x02, 0x00, 0x01, 0x00, 0x00, 0x01, 0x01, 0x01, 0x00, 0x02, 0x00,
    0x02, 0x01, 0x05, 0x00
};

#endif
