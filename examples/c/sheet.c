/*
 * The lot sheet from C: a lot book of three records is written, number by number, and its sheet is printed; then each
 * refusal is met. It ends with status 1 at the first answer that is not the expected one. In the repository's root:
 *
 *     tools/build monitor_c
 *     cc -std=c99 -O2 -Iinclude -o target/sheet examples/c/sheet.c crates/monitor_c/out/libmonitor_c.a
 *     target/sheet
 */
#include <inttypes.h>
#include <stdio.h>
#include <stdlib.h>
#include <string.h>

#include "cspe_monitor.h"

/* the most bytes of a number, and of a record's four */
enum { NUMBER_BYTES = 10, RECORD_BYTES = 4 * NUMBER_BYTES, RECORDS = 3, LINES = RECORDS + 1 };

struct lot {
    uint64_t lot, taken, failed, place;
};

static const struct lot lots[RECORDS] = {
    {4711, 1200, 0, 0}, {4712, 87, 1, 87}, {9999999999, UINT64_C(10000000000000000000), 1, 99999999}};

static void expect(int holds, const char *what) {
    if (!holds) {
        fprintf(stderr, "not as expected: %s\n", what);
        exit(1);
    }
}

/* Writes a number in seven-bit groups, the lowest first, and returns how many bytes it has. */
static size_t put_number(uint8_t *bytes, uint64_t number) {
    size_t count = 0;
    while (number >= 128) {
        bytes[count++] = (uint8_t)(number % 128 + 128);
        number /= 128;
    }
    bytes[count++] = (uint8_t)number;
    return count;
}

static size_t put_lot(uint8_t *bytes, const struct lot *lot) {
    size_t count = put_number(bytes, lot->lot);
    count += put_number(bytes + count, lot->taken);
    count += put_number(bytes + count, lot->failed);
    return count + put_number(bytes + count, lot->place);
}

/* Prints a refusal, which must be the one given and have written nothing. */
static void show_refusal(const char *call, const uint8_t *book, size_t book_length, size_t text_length,
                         uint32_t number_due, uint64_t place_due) {
    uint8_t text[LINES * CSPE_SHEET_LINE_BYTES], before[sizeof text];
    memset(text, '.', sizeof text);
    memset(before, '.', sizeof before);
    uint64_t place;
    uint32_t number = cspe_sheet(book, book_length, text, text_length, &place);
    expect(number == number_due && place == place_due, call);
    expect(memcmp(text, before, sizeof text) == 0, "nothing is written");
    printf("%s: refused %" PRIu32 " at %" PRIu64 "\n", call, number, place);
}

static void print_sheet(const uint8_t *book, size_t book_length) {
    /* one byte more than the sheet needs: it is kept */
    uint8_t text[LINES * CSPE_SHEET_LINE_BYTES + 1];
    text[sizeof text - 1] = '.';
    uint64_t count;
    expect(cspe_sheet(book, book_length, text, sizeof text, &count) == CSPE_NONE, "the sheet");
    expect(count == sizeof text - 1 && text[count] == '.', "how many bytes are written");
    expect(fwrite(text, 1, (size_t)count, stdout) == count, "standard output");
}

int main(void) {
    uint8_t book[RECORDS * RECORD_BYTES];
    size_t ends[RECORDS], length = 0;
    for (size_t i = 0; i < RECORDS; i++) {
        length += put_lot(book + length, &lots[i]);
        ends[i] = length;
    }
    print_sheet(book, length);

    const size_t room = LINES * CSPE_SHEET_LINE_BYTES;
    show_refusal("a book without its last byte", book, length - 1, room, CSPE_BAD_BOOK, RECORDS - 1);
    show_refusal("an output one byte short", book, length, room - 1, CSPE_WRONG_LENGTH, 0);

    /* the lot of the first record again, after it */
    uint8_t again[2 * RECORD_BYTES];
    memcpy(again, book, ends[0]);
    memcpy(again + ends[0], book, ends[0]);
    show_refusal("a lot that does not ascend", again, 2 * ends[0], room, CSPE_BAD_BOOK, 1);

    const struct lot much[2] = {{1, UINT64_MAX, 0, 0}, {2, 1, 0, 0}};
    uint8_t over[2 * RECORD_BYTES];
    size_t over_length = put_lot(over, &much[0]);
    over_length += put_lot(over + over_length, &much[1]);
    show_refusal("a total of 2^64", over, over_length, room, CSPE_TOTAL_TOO_LARGE, 0);
    printf("ok\n");
    return 0;
}
