/* Four places of memory, each between two runs of inaccessible pages. */
#include "guarded.h"

#include <stdio.h>
#include <stdlib.h>
#include <string.h>
#include <sys/mman.h>

/* SHUT: the inaccessible bytes on each side. BESIDE: the bytes next to a slice, in the same page, that must not be changed. */
#define SHUT ((size_t)65536)
#define BESIDE ((size_t)64)

static uint8_t *places[PLACES];

/* New memory of `len` bytes, a multiple of a page, with `SHUT` inaccessible bytes before and after it. */
static uint8_t *between_shut(size_t len) {
    int flags = MAP_PRIVATE | MAP_ANONYMOUS | MAP_NORESERVE;
    void *all = mmap(NULL, SHUT + len + SHUT, PROT_NONE, flags, -1, 0);
    if (all == MAP_FAILED || mprotect((uint8_t *)all + SHUT, len, PROT_READ | PROT_WRITE)) {
        perror("guarded: mmap");
        exit(1);
    }
    return (uint8_t *)all + SHUT;
}

/* Makes the four places. */
void open_places(void) {
    for (int p = 0; p < PLACES; p++)
        places[p] = between_shut(ROOM);
}

/* The accessible bytes next to a slice: before a slice at the end of its place, after a slice at the front. */
static uint8_t *beside(enum side side, const uint8_t *at, size_t len, size_t n) {
    return (uint8_t *)at + (side == AT_THE_END ? -(ptrdiff_t)n : (ptrdiff_t)len);
}

/* How many bytes next to a slice are checked. */
static size_t beside_len(size_t len) {
    return ROOM - len < BESIDE ? ROOM - len : BESIDE;
}

/* A slice of a place that ends at an inaccessible page or begins directly after one. The bytes next to it are `around`. A slice of length 0 lies
 * in the inaccessible page itself. */
uint8_t *place_slice(enum place p, enum side side, size_t len, uint8_t around) {
    uint8_t *at = side == AT_THE_END ? places[p] + ROOM - len : places[p];
    size_t n = beside_len(len);
    memset(beside(side, at, len, n), around, n);
    return len == 0 && side == AT_THE_FRONT ? at - 1 : at;
}

/* Whether a byte next to a slice was changed. */
bool strayed(enum place p, enum side side, const uint8_t *at, size_t len, uint8_t around) {
    size_t n = beside_len(len);
    const uint8_t *b = beside(side, len == 0 && side == AT_THE_FRONT ? places[p] : at, len, n);
    for (size_t i = 0; i < n; i++)
        if (b[i] != around)
            return true;
    return false;
}

/* `len` zeros that end at an inaccessible page. They use memory only if they are read. */
uint8_t *long_slice(size_t len) {
    size_t pages = (len + SHUT - 1) / SHUT * SHUT;
    return between_shut(pages) + pages - len;
}
