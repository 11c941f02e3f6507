/* Turns one still into its full record and its stream, with start codes of four bytes and with short ones, reads the record strictly, walks the
 * stream's units, checks each, and shows refusals. */
#include <stdio.h>
#include <string.h>

#include "vvcc.h"

/* a compact record of an SPS and a PPS, prefix size 4 */
static const uint8_t compact[] = {0x60, 11, 0x00, 0x79, 0x00, 0x0D, 0x02, 0x33, 0x80, 0x00, 0x02, 0x22, 0x4C,
                                  3, 0x00, 0x81, 0x80};
/* what the file stores for the picture */
static const uint8_t stored[] = {0x9A, 0x80};
/* a unit as no decoder should get it: it has 00 00 02 in it */
static const uint8_t wrong[] = {0x00, 0x41, 0x9A, 0x00, 0x00, 0x02, 0x33};

static void print_bytes(const char *what, const uint8_t *bytes, size_t len) {
    printf("%s:", what);
    for (size_t i = 0; i < len; i++)
        printf(" %02X", bytes[i]);
    printf("\n");
}

/* A unit, and whether it passes the unit check. */
static void show_unit(const char *what, const uint8_t *unit, size_t len) {
    vvcc_check c = vvcc_check_unit(unit, len);
    print_bytes(what, unit, len);
    printf("unit check: %s\n", c.passes ? "yes" : "no");
}

/* The units of a stream, and the wrong one. */
static void show_units(const uint8_t *stream, size_t len) {
    for (vvcc_unit u = vvcc_next_unit(stream, len, 0); u.found; u = vvcc_next_unit(stream, len, u.next))
        show_unit("unit", stream + u.start, u.len);
    show_unit("a unit with 00 00 02 in it", wrong, sizeof wrong);
}

/* Calls that are refused. `record` is left with a bit changed. */
static void show_refusals(uint8_t *record, size_t record_len, size_t stream_len) {
    uint8_t out[256], scratch[1024];
    vvcc_written w = vvcc_still_stream(compact, sizeof compact - 1, stored, sizeof stored, 0, 0, VVCC_FOUR_BYTES, out, sizeof out);
    printf("one byte short: refusal %u\n", (unsigned)w.refusal);
    w = vvcc_still_stream(compact, sizeof compact, stored, sizeof stored, 0, 0, VVCC_FOUR_BYTES, out, stream_len - 1);
    printf("output one byte short: refusal %u\n", (unsigned)w.refusal);
    record[0] ^= 0x80;
    vvcc_read r = vvcc_strict_record(record, record_len, scratch, 4 * record_len);
    printf("a reserved bit of the record changed: refusal %u\n", (unsigned)r.refusal);
}

int main(void) {
    uint8_t record[256], stream[256], scratch[1024], again[256];

    vvcc_written w = vvcc_still_record(compact, sizeof compact, 1, 8, 16, 8, record, sizeof record);
    if (w.refusal)
        return 1;
    print_bytes("record", record, w.len);
    size_t record_len = w.len;

    /* may an archive store the record? */
    vvcc_read r = vvcc_strict_record(record, record_len, scratch, 4 * record_len);
    if (r.refusal)
        return 1;
    printf("read strictly: %lu bytes\n", (unsigned long)r.consumed);

    w = vvcc_still_stream(compact, sizeof compact, stored, sizeof stored, 0, 0, VVCC_FOUR_BYTES, stream, sizeof stream);
    if (w.refusal)
        return 1;
    print_bytes("stream", stream, w.len);
    size_t stream_len = w.len;

    /* may a decoder get the stream? */
    show_units(stream, stream_len);

    /* the same stream from the full record and the item */
    static const uint8_t item[] = {0, 0, 0, 4, 0x00, 0x41, 0x9A, 0x80};
    for (vvcc_unit u = vvcc_next_item_unit(item, sizeof item, 4, 0); u.found; u = vvcc_next_item_unit(item, sizeof item, 4, u.next))
        print_bytes("item unit", item + u.start, u.len);
    w = vvcc_access_unit(record, record_len, item, sizeof item, 0, 0, VVCC_FOUR_BYTES, scratch, 4 * record_len, again, sizeof again);
    printf("assembled from record and item: %s\n", w.len == stream_len && !memcmp(again, stream, stream_len) ? "the same stream" : "another stream");

    /* the same units with short start codes: the picture follows three bytes */
    w = vvcc_still_stream(compact, sizeof compact, stored, sizeof stored, 0, 0, VVCC_SHORT, again, sizeof again);
    print_bytes("stream with short start codes", again, w.len);
    printf("short start codes: %lu bytes instead of %lu\n", (unsigned long)w.len, (unsigned long)stream_len);

    show_refusals(record, record_len, stream_len);
    return 0;
}
