/* Parameter sets and other units, as H.266 lays them out. Each is appended. */
#include "guarded.h"

static bytes rbsp;

/* The two header bytes of a unit of a type, layer 0, temporal id 0. */
static void header(bytes *b, unsigned type) {
    add_byte(b, 0);
    add_byte(b, type << 3 | 1);
}

/* The constraint flag and what follows it, up to the alignment. */
static void constraints(size_t *bit) {
    unsigned more = one_in(4) ? (unsigned)below(256) : (unsigned)below(3);
    if (one_in(2)) {
        add_bits(&rbsp, bit, 0, 1);
    } else {
        add_bits(&rbsp, bit, 1, 1);
        add_any_bits(&rbsp, bit, 71);
        add_bits(&rbsp, bit, more, 8);
        add_any_bits(&rbsp, bit, more);
    }
    align(bit);
}

/* The levels of `s` sublayers, after the bits that say which are present. */
static void sublayer_levels(size_t *bit, unsigned s) {
    uint32_t present = (uint32_t)below(256);
    if (s == 0)
        return;
    add_bits(&rbsp, bit, present, 8);
    for (unsigned i = 0; i < s; i++)
        if (present >> (7 - i) & 1)
            add_any_bits(&rbsp, bit, 8);
}

/* profile_tier_level( ) with `s` sublayers minus 1. */
static void ptl(size_t *bit, unsigned s) {
    add_any_bits(&rbsp, bit, 16);
    add_any_bits(&rbsp, bit, 2);
    constraints(bit);
    sublayer_levels(bit, s);
    unsigned profiles = one_in(8) ? (unsigned)below(25) : (unsigned)below(3);
    add_bits(&rbsp, bit, profiles, 8);
    add_any_bits(&rbsp, bit, 32 * profiles);
}

/* A picture's side: small, any, or one that takes the longest code. */
static void side(size_t *bit) {
    add_code(&rbsp, bit, one_in(12) ? 0xFFFFFFFE : one_in(6) ? any_number() >> 34 : below(5000));
}

/* What follows the PTL of an SPS. */
static void sps_rest(size_t *bit) {
    add_any_bits(&rbsp, bit, 1);
    if (one_in(4))
        add_bits(&rbsp, bit, 2 + (uint32_t)below(2), 2);
    else
        add_bits(&rbsp, bit, 0, 1);
    side(bit);
    side(bit);
    bool window = one_in(2);
    add_bits(&rbsp, bit, window, 1);
    for (unsigned i = 0; window && i < 4; i++)
        add_code(&rbsp, bit, below(9));
    add_bits(&rbsp, bit, one_in(60), 1);
    add_code(&rbsp, bit, one_in(60) ? 9 + below(4) : below(9));
    add_bits(&rbsp, bit, 1, 1);
}

/* An SPS. A few in a hundred have subpictures, too large a depth, or a code that is too long. */
void sps_unit(bytes *b, bool with_ptl) {
    size_t bit = 0;
    unsigned s = one_in(2) ? 0 : (unsigned)below(8);
    rbsp.len = 0;
    add_any_bits(&rbsp, &bit, 8);
    add_bits(&rbsp, &bit, s, 3);
    add_any_bits(&rbsp, &bit, 4);
    add_bits(&rbsp, &bit, with_ptl, 1);
    if (with_ptl)
        ptl(&bit, s);
    if (one_in(80))
        add_bits(&rbsp, &bit, 0, 32);
    sps_rest(&bit);
    header(b, 15);
    add_escaped(b, &rbsp);
}

/* A VPS of one layer; about one in a hundred has more. */
void vps_unit(bytes *b) {
    size_t bit = 0;
    unsigned s = one_in(2) ? 0 : (unsigned)below(8);
    rbsp.len = 0;
    add_any_bits(&rbsp, &bit, 4);
    add_bits(&rbsp, &bit, one_in(60) ? (uint32_t)below(64) : 0, 6);
    add_bits(&rbsp, &bit, s, 3);
    add_any_bits(&rbsp, &bit, 6);
    align(&bit);
    ptl(&bit, s);
    header(b, 14);
    add_escaped(b, &rbsp);
}

/* An OPI; some have no operating point. */
void opi_unit(bytes *b) {
    size_t bit = 0;
    rbsp.len = 0;
    add_bits(&rbsp, &bit, !one_in(5), 1);
    add_any_bits(&rbsp, &bit, 1);
    add_code(&rbsp, &bit, one_in(12) ? any_number() >> 34 : below(4));
    add_bits(&rbsp, &bit, 1, 1);
    header(b, 12);
    add_escaped(b, &rbsp);
}

/* A unit of any other type, with at most `most` bytes after its header. */
void other_unit(bytes *b, unsigned type, size_t most) {
    header(b, type);
    add_any_bytes(b, below(most + 1));
}

/* A picture's unit, IDR_N_LP as a still has it or any other. */
void picture_unit(bytes *b, size_t most) {
    other_unit(b, one_in(4) ? (unsigned)below(12) : 8, most);
}
