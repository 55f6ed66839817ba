/* The table of the drawing k7.csp, written by `cspe c`: edit the drawing, not this file. */
#ifndef K7_H
#define K7_H

#define K7_EVENTS 3

enum k7_event {
    K7_EVENT_0 = 0,
    K7_EVENT_1 = 1,
    K7_EVENT_2 = 2
};

static const char *const k7_event_names[3] = {
    "0",
    "1",
    "2"
};

static const unsigned char k7_table[19] = {
    0x03, 0x02, 0x00, 0x01, 0x00, 0x00, 0x01, 0x01, 0x01, 0x00, 0x03, 0x02,
    0x00, 0x00, 0x02, 0x00, 0x02, 0x01, 0x00
};

#endif
