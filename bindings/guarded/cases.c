/* The cases: sound inputs of every shape, a share of them damaged. */
#include "guarded.h"

#include <string.h>

static bytes compact, still;

/* A share of inputs is damaged. */
static void maybe_damaged(bytes *b) {
    if (one_in(3))
        damage(b);
    if (one_in(20))
        damage(b);
}

/* A target, or none. */
static void any_target(test_case *c) {
    c->has_target = one_in(2) ? 0 : one_in(8) ? (uint8_t)below(256) : 1;
    c->target = one_in(6) ? (uint16_t)below(65536) : (uint16_t)below(3);
}

/* Start codes: four bytes, or short ones under two of their numbers. */
static void any_codes(test_case *c) {
    static const uint8_t numbers[] = {VVCC_FOUR_BYTES, VVCC_SHORT, 255};
    c->short_codes = numbers[below(3)];
}

/* What a file states of a still, within its fields most of the time. */
static void any_picture(test_case *c) {
    c->chroma_format_idc = (uint8_t)below(one_in(20) ? 256 : 4);
    c->bit_depth = (uint8_t)below(one_in(20) ? 256 : 16);
    c->width = (uint32_t)(one_in(4) ? any_number() : below(5000));
    c->height = (uint32_t)(one_in(4) ? any_number() : below(5000));
}

/* How long the units of an item may be. */
static size_t any_most(void) {
    return one_in(100) ? 20000 : one_in(10) ? 400 : 20;
}

/* A still's stored bytes: an item where its record has the multi-layer flag, else any. */
static void stored_bytes(test_case *c) {
    c->second.len = 0;
    if (c->first.at[0] >> 7)
        item(&c->second, 1 + (c->first.at[0] >> 5 & 3), any_most());
    else
        add_any_bytes(&c->second, below(any_most() + 1));
}

/* A still. */
static void still_case(test_case *c) {
    compact_record(&c->first);
    if (c->call == STILL_STREAM)
        stored_bytes(c);
    any_picture(c);
    any_target(c);
    any_codes(c);
    maybe_damaged(&c->first);
    if (c->call == STILL_STREAM && one_in(6))
        damage(&c->second);
}

/* The full record of a still, as the library writes it, or one of any shape where it refuses. */
static void record_of_a_still(bytes *b) {
    compact_record(&compact);
    vvcc_written w = vvcc_still_record(compact.at, compact.len, 1, 8, 64, 48, still.at, MOST);
    still.len = w.len;
    b->len = 0;
    if (w.refusal)
        full_record(b);
    else
        add_bytes(b, still.at, still.len);
}

/* A full record. */
static void any_record(bytes *b) {
    if (one_in(2))
        record_of_a_still(b);
    else
        full_record(b);
}

/* A full record and an item. */
static void access_unit_case(test_case *c) {
    any_record(&c->first);
    item(&c->second, 1 + (c->first.at[0] >> 1 & 3), any_most());
    any_target(c);
    any_codes(c);
    maybe_damaged(&c->first);
    if (one_in(6))
        damage(&c->second);
}

/* A full record to read strictly. */
static void strict_record_case(test_case *c) {
    any_record(&c->first);
    if (one_in(8))
        change_reserved(&c->first);
    maybe_damaged(&c->first);
}

/* A place to continue from: inside or near the end, any, or the largest. */
static size_t any_from(size_t len) {
    if (one_in(10))
        return SIZE_MAX - below(3);
    return one_in(10) ? (size_t)any_number() : below(len + 4);
}

/* A stream or an item to walk. */
static void walk_case(test_case *c) {
    c->length_size = one_in(40) ? (uint8_t)below(256) : (uint8_t)(1 + below(4));
    if (c->call == NEXT_UNIT)
        stream(&c->first);
    else
        item(&c->first, (c->length_size - 1) % 4 + 1, any_most());
    if (one_in(3))
        damage(&c->first);
    c->from = any_from(c->first.len);
}

/* A case of any call. */
void any_case(test_case *c) {
    static const enum call share[] = {STILL_RECORD, STILL_RECORD,  STILL_STREAM,  STILL_STREAM, STILL_STREAM, ACCESS_UNIT, ACCESS_UNIT,
                                      ACCESS_UNIT,  STRICT_RECORD, STRICT_RECORD, NEXT_UNIT,    NEXT_UNIT,    CHECK_UNIT,  CHECK_UNIT,
                                      NEXT_ITEM_UNIT};
    c->call = share[below(15)];
    c->first.len = c->second.len = 0;
    if (c->call <= STILL_STREAM)
        still_case(c);
    else if (c->call == ACCESS_UNIT)
        access_unit_case(c);
    else if (c->call == STRICT_RECORD)
        strict_record_case(c);
    else if (c->call == CHECK_UNIT)
        unit_to_check(&c->first);
    else
        walk_case(c);
}

/* A record of 255 arrays that hold an empty OPI each, which takes the most scratch for its length. */
static void most_scratch(bytes *b) {
    b->len = 0;
    add_byte(b, 0xF8);
    add_byte(b, 255);
    for (int i = 0; i < 255; i++)
        add_number(b, 0x8C0000, 3);
}

/* Units of one byte with prefixes of one byte, which have the longest stream for their length. */
static void shortest_units(bytes *b) {
    for (int i = 0; i < 30000; i++)
        add_number(b, 0x0109, 2);
}

/* Case k of those with the longest inputs and outputs. */
void longest_case(test_case *c, size_t k) {
    bool layers = k / 4 % 2;
    c->call = (enum call)(k % 4);
    c->first.len = c->second.len = 0;
    any_picture(c);
    any_target(c);
    any_codes(c);
    if (c->call >= ACCESS_UNIT)
        most_scratch(&c->first);
    else
        longest_compact(&c->first, layers);
    if (c->call == ACCESS_UNIT || layers)
        shortest_units(&c->second);
    else
        add_any_bytes(&c->second, 60000);
    if (c->call == STILL_STREAM && layers)
        c->first.at[0] &= 0x9F;
}
