/* The table of the drawing k8.csp, written by `cspe c`: edit the drawing, not this file. */
#ifndef K8_H
#define K8_H

#define K8_EVENTS 3

enum k8_event {
    K8_EVENT_0 = 0,
    K8_EVENT_1 = 1,
    K8_EVENT_2 = 2
};

static const char *const k8_event_names[3] = {
    "0",
    "1",
    "2"
};

static const unsigned char k8_table[20] = {
    0x03, 0x03, 0x00, 0x01, 0x00, 0x00, 0x01, 0x01, 0x00, 0x00, 0x01, 0x00,
    0x04, 0x02, 0x02, 0x00, 0x00, 0x02, 0x00, 0x00
};

#endif
