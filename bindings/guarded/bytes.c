/* Appends bytes and bits. What does not fit is left out. */
#include "guarded.h"

#include <string.h>

/* One byte. */
void add_byte(bytes *b, unsigned byte) {
    if (b->len < MOST)
        b->at[b->len++] = (uint8_t)byte;
}

/* Some bytes. */
void add_bytes(bytes *b, const uint8_t *at, size_t len) {
    if (len <= MOST - b->len) {
        memmove(b->at + b->len, at, len);
        b->len += len;
    }
}

/* Random bytes, many of them small. */
void add_any_bytes(bytes *b, size_t len) {
    for (size_t i = 0; i < len; i++) {
        uint64_t n = any_number() >> 32;
        add_byte(b, n & 0x300 ? (unsigned)n & 0xFF : (unsigned)n & 3);
    }
}

/* A number of `width` bytes, big-endian. */
void add_number(bytes *b, size_t value, unsigned width) {
    for (unsigned i = width; i > 0; i--)
        add_byte(b, (unsigned)(value >> 8 * (i - 1)) & 0xFF);
}

/* A field of `width` bits at the bit `*bit`, highest bit first. */
void add_bits(bytes *b, size_t *bit, uint32_t value, unsigned width) {
    for (unsigned i = width; i > 0; i--) {
        if (*bit / 8 == b->len)
            add_byte(b, 0);
        b->at[*bit / 8] |= (uint8_t)((value >> (i - 1) & 1) << (7 - *bit % 8));
        ++*bit;
    }
}

/* Random bits. */
void add_any_bits(bytes *b, size_t *bit, unsigned width) {
    for (unsigned i = 0; i < width; i++)
        add_bits(b, bit, (uint32_t)below(2), 1);
}

/* An Exp-Golomb code. */
void add_code(bytes *b, size_t *bit, uint64_t value) {
    unsigned zeros = 0;
    while ((value + 1) >> (zeros + 1))
        zeros++;
    add_bits(b, bit, 0, zeros);
    add_bits(b, bit, 1, 1);
    add_bits(b, bit, (uint32_t)(value + 1 - ((uint64_t)1 << zeros)), zeros);
}

/* The bit at which the next byte begins. */
void align(size_t *bit) {
    *bit = (*bit + 7) / 8 * 8;
}

/* An RBSP, with 03 inserted after two zeros if a small byte follows. */
void add_escaped(bytes *b, const bytes *rbsp) {
    unsigned zeros = 0;
    for (size_t i = 0; i < rbsp->len; i++) {
        if (zeros >= 2 && rbsp->at[i] <= 3) {
            add_byte(b, 3);
            zeros = 0;
        }
        add_byte(b, rbsp->at[i]);
        zeros = rbsp->at[i] ? 0 : zeros + 1;
    }
}

/* Removes the byte at a place. */
static void take_out(bytes *b, size_t at) {
    memmove(b->at + at, b->at + at + 1, b->len - at - 1);
    b->len--;
}

/* Inserts a byte at a place. */
static void put_in(bytes *b, size_t at) {
    if (b->len == MOST)
        return;
    memmove(b->at + at + 1, b->at + at, b->len - at);
    b->at[at] = (uint8_t)below(256);
    b->len++;
}

/* A place to damage: any, or one of the first, where lengths and counts are. */
static size_t any_place(const bytes *b) {
    return below(one_in(3) && b->len > 4 ? 4 : b->len);
}

/* One fault: a cut, a byte or a bit changed, a byte inserted or removed, bytes appended. */
void damage(bytes *b) {
    if (b->len == 0) {
        add_any_bytes(b, below(3));
        return;
    }
    size_t at = any_place(b);
    switch (below(6)) {
    case 0: b->len = one_in(2) ? b->len - 1 : at; break;
    case 1: b->at[at] = (uint8_t)below(256); break;
    case 2: b->at[at] ^= (uint8_t)(1 << below(8)); break;
    case 3: put_in(b, at); break;
    case 4: take_out(b, at); break;
    default: add_any_bytes(b, 1 + below(4)); break;
    }
}
