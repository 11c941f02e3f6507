/* One call with its slices in their places, and what must hold of every call. */
#include "guarded.h"

#include <stdio.h>
#include <stdlib.h>
#include <string.h>

const char *const call_names[CALLS] = {"vvcc_still_record", "vvcc_still_stream",   "vvcc_access_unit", "vvcc_strict_record",
                                       "vvcc_next_unit",    "vvcc_next_item_unit", "vvcc_check_unit"};

#define BIT(n) ((uint32_t)1 << (n))

/* The refusals of a still's record, without 20. */
#define OF_A_STILL (BIT(23) | BIT(1) | BIT(7) | BIT(16) | BIT(11) | BIT(15) | BIT(17) | BIT(12) | BIT(13) | BIT(14) | BIT(18) | BIT(3) | BIT(22))

/* The refusals that include/vvcc.h lists for each call. */
static const uint32_t listed[CALLS] = {
    OF_A_STILL | BIT(20),
    OF_A_STILL | BIT(6) | BIT(5) | BIT(20),
    BIT(23) | BIT(3) | BIT(1) | BIT(2) | BIT(20) | BIT(4) | BIT(5) | BIT(19),
    BIT(23) | BIT(3) | BIT(1) | BIT(2) | BIT(25) | BIT(26) | BIT(20),
    BIT(23),
    BIT(23) | BIT(4) | BIT(1) | BIT(5),
    BIT(23),
};

/* Prints what was wrong and the case, and ends the program. */
void fail(const test_case *c, const char *what) {
    fprintf(stderr, "guarded: %s: %s\nfirst:", call_names[c->call], what);
    for (size_t i = 0; i < c->first.len; i++)
        fprintf(stderr, " %02X", c->first.at[i]);
    fprintf(stderr, "\nsecond:");
    for (size_t i = 0; i < c->second.len; i++)
        fprintf(stderr, " %02X", c->second.at[i]);
    fprintf(stderr, "\nchroma %u, depth %u, %lu by %lu, target %u %u, short codes %u, length size %u, from %zu\n", c->chroma_format_idc,
            c->bit_depth, (unsigned long)c->width, (unsigned long)c->height, c->has_target, c->target, c->short_codes, c->length_size, c->from);
    exit(1);
}

/* Whether a call may return this refusal. */
bool is_listed(enum call call, uint32_t refusal) {
    return refusal >= 1 && refusal < REFUSALS && (listed[call] & BIT(refusal));
}

/* Places an input. */
static uint8_t *place_input(enum place p, enum side side, const bytes *b, uint8_t around) {
    uint8_t *at = place_slice(p, side, b->len, around);
    if (b->len)
        memcpy(at, b->at, b->len);
    return at;
}

/* Places memory to be written. */
static uint8_t *place_room(enum place p, enum side side, size_t len, uint8_t fill, uint8_t around) {
    uint8_t *at = place_slice(p, side, len, around);
    if (len)
        memset(at, fill, len);
    return at;
}

/* An input is unchanged, and so are the bytes next to it. */
static void check_input(const test_case *c, enum place p, enum side side, const uint8_t *at, const bytes *b, uint8_t around) {
    if (b->len && memcmp(at, b->at, b->len))
        fail(c, "an input was changed");
    if (strayed(p, side, at, b->len, around))
        fail(c, "a byte next to an input was changed");
}

/* The bytes of a slice from `from` on still hold the fill, and those next to the slice are unchanged. */
static void check_kept(const test_case *c, enum place p, const run *r, const uint8_t *at, size_t from, size_t len) {
    for (size_t i = from; i < len; i++)
        if (at[i] != r->fill)
            fail(c, p == OUT ? "a byte of the output after the result was changed" : "a byte of the scratch was changed");
    if (strayed(p, r->side, at, len, (uint8_t)~r->fill))
        fail(c, p == OUT ? "a byte next to the output was changed" : "a byte next to the scratch was changed");
}

/* A strict reading, which has no output. */
static vvcc_written read_strictly(const test_case *c, const uint8_t *first, run *r) {
    vvcc_read read = vvcc_strict_record(first, c->first.len, r->scratch, r->scratch_len);
    vvcc_written nothing = {read.refusal, 0};
    r->consumed = read.consumed;
    return nothing;
}

/* The call itself. */
static vvcc_written make_call(const test_case *c, const uint8_t *first, const uint8_t *second, run *r) {
    uint8_t codes = r->four_bytes ? VVCC_FOUR_BYTES : c->short_codes;
    switch (c->call) {
    case STILL_RECORD:
        return vvcc_still_record(first, c->first.len, c->chroma_format_idc, c->bit_depth, c->width, c->height, r->out, r->out_len);
    case STILL_STREAM:
        return vvcc_still_stream(first, c->first.len, second, c->second.len, c->has_target, c->target, codes, r->out, r->out_len);
    case STRICT_RECORD: return read_strictly(c, first, r);
    default:
        return vvcc_access_unit(first, c->first.len, second, c->second.len, c->has_target, c->target, codes, r->scratch, r->scratch_len,
                                r->out, r->out_len);
    }
}

/* A call that writes: all slices placed on one side, the call made, and what must hold of every answer checked. */
void perform(const test_case *c, run *r) {
    uint8_t around = (uint8_t)~r->fill;
    uint8_t *first = place_input(FIRST, r->side, &c->first, around), *second = place_input(SECOND, r->side, &c->second, around);
    r->scratch = place_room(SCRATCH, r->side, r->scratch_len, r->fill, around);
    r->out = place_room(OUT, r->side, r->out_len, r->fill, around);
    r->answer = make_call(c, first, second, r);
    check_input(c, FIRST, r->side, first, &c->first, around);
    check_input(c, SECOND, r->side, second, &c->second, around);
    if (r->answer.refusal && (r->answer.len || r->consumed || !is_listed(c->call, r->answer.refusal)))
        fail(c, "a refusal that the header does not list, or with a length");
    if (r->consumed > c->first.len)
        fail(c, "more bytes consumed than the record has");
    if (r->answer.len > r->out_len)
        fail(c, "a result longer than the output");
    check_kept(c, OUT, r, r->out, r->answer.len, r->out_len);
    check_kept(c, SCRATCH, r, r->scratch, r->scratch_len, r->scratch_len);
}

/* One step of a walk, the stream or the item placed. */
vvcc_unit step(const test_case *c, enum side side, uint8_t around, size_t from) {
    uint8_t *at = place_input(FIRST, side, &c->first, around);
    vvcc_unit u = c->call == NEXT_UNIT ? vvcc_next_unit(at, c->first.len, from) : vvcc_next_item_unit(at, c->first.len, c->length_size, from);
    check_input(c, FIRST, side, at, &c->first, around);
    if (u.refusal && !is_listed(c->call, u.refusal))
        fail(c, "a refusal that the header does not list");
    if ((u.refusal || !u.found) && (u.found || u.start || u.len || u.next))
        fail(c, "no unit, and numbers that are not 0");
    return u;
}

/* The check of a unit, the unit placed. No unit here is too long. */
vvcc_check ask(const test_case *c, enum side side, uint8_t around) {
    uint8_t *at = place_input(FIRST, side, &c->first, around);
    vvcc_check v = vvcc_check_unit(at, c->first.len);
    check_input(c, FIRST, side, at, &c->first, around);
    if (v.refusal)
        fail(c, "a unit that is not too long was refused");
    return v;
}
