/* A read and a write outside must be noticed; inputs of more than 2^30 bytes. */
#include "guarded.h"

#include <stdio.h>
#include <stdlib.h>
#include <string.h>
#include <sys/resource.h>
#include <sys/wait.h>
#include <unistd.h>

static const uint8_t worked[] = {0x60, 11, 0x00, 0x79, 0x00, 0x0D, 0x02, 0x33, 0x80, 0x00, 0x02, 0x22, 0x4C, 3, 0x00, 0x81, 0x80};

/* Lends a stream a byte longer than it is: a scan for 00 00 01 has to look at that byte. */
static void read_outside(enum side side) {
    uint8_t *s = place_slice(FIRST, side, 9, 7);
    memset(s, 0, 9);
    s[1] = 1;
    vvcc_next_unit(side == AT_THE_END ? s : s - 1, 10, 0);
}

/* Lends a unit a byte longer than it is, first or last: the unit check goes by that byte, which must not be 00. */
static void check_outside(enum side side) {
    uint8_t *u = place_slice(FIRST, side, 9, 7);
    memset(u, 5, 9);
    u[0] = u[1] = 0;
    vvcc_check_unit(side == AT_THE_END ? u : u - 1, 10);
}

/* Lends an output a byte longer than it is, for a record of 40 bytes. */
static void write_outside(enum side side) {
    uint8_t *out = place_slice(OUT, side, 39, 7);
    vvcc_still_record(worked, sizeof worked, 1, 8, 16, 8, side == AT_THE_END ? out : out - 1, 40);
}

/* Lends a scratch a byte longer than it is, for the unit list of that record, 35 bytes. */
static void write_scratch_outside(enum side side) {
    uint8_t *scratch = place_slice(SCRATCH, side, 34, 7), record[40];
    vvcc_still_record(worked, sizeof worked, 1, 8, 16, 8, record, sizeof record);
    vvcc_strict_record(record, sizeof record, side == AT_THE_END ? scratch : scratch - 1, 35);
}

/* Whether a process of its own that does this is ended by a signal. */
static bool is_ended(void (*wrong)(enum side), enum side side) {
    struct rlimit none = {0, 0};
    int status = 0;
    fflush(NULL);
    pid_t child = fork();
    if (child == 0) {
        setrlimit(RLIMIT_CORE, &none);
        wrong(side);
        _exit(0);
    }
    return child > 0 && waitpid(child, &status, 0) == child && WIFSIGNALED(status);
}

/* Each wrong length must end its process. */
size_t check_faults(void) {
    void (*const wrong[])(enum side) = {read_outside, check_outside, write_outside, write_scratch_outside};
    size_t n = 0;
    for (size_t i = 0; i < 4; i++)
        for (int side = AT_THE_END; side <= AT_THE_FRONT; side++, n++)
            if (!is_ended(wrong[i], (enum side)side)) {
                fprintf(stderr, "guarded: a %s outside was not noticed\n", i < 2 ? "read" : "write");
                exit(1);
            }
    return n;
}

/* An answer that must be a refusal, the output untouched. */
static size_t must_refuse(uint32_t number, vvcc_written w, const uint8_t *out) {
    bool kept = true;
    for (size_t i = 0; i < 64; i++)
        kept = kept && out[i] == 0x55;
    if (w.refusal != number || w.len || !kept) {
        fprintf(stderr, "guarded: a long input: %lu and not %lu\n", (unsigned long)w.refusal, (unsigned long)number);
        exit(1);
    }
    return 1;
}

/* Walks refuse an input that is too long, and accept the longest one. */
static size_t check_long_walks(const uint8_t *s, size_t most) {
    vvcc_unit answers[] = {vvcc_next_unit(s, most + 1, 0), vvcc_next_item_unit(s, most + 1, 4, 0), vvcc_next_unit(s + 1, most, most - 9),
                           vvcc_next_item_unit(s + 1, most, 4, most - 9)};
    static const uint32_t refusals[] = {23, 23, 0, 5};
    for (size_t i = 0; i < 4; i++)
        if (answers[i].refusal != refusals[i] || answers[i].found) {
            fprintf(stderr, "guarded: a long walk: %lu\n", (unsigned long)answers[i].refusal);
            exit(1);
        }
    return 4;
}

/* A unit that is too long is refused; one of the greatest length is checked, and ends in 00. */
static size_t check_long_units(const uint8_t *s, size_t most) {
    vvcc_check answers[] = {vvcc_check_unit(s, most + 1), vvcc_check_unit(s + 1, most)};
    static const uint32_t refusals[] = {23, 0};
    for (size_t i = 0; i < 2; i++)
        if (answers[i].refusal != refusals[i] || answers[i].passes) {
            fprintf(stderr, "guarded: a long unit: %lu\n", (unsigned long)answers[i].refusal);
            exit(1);
        }
    return 2;
}

/* A record that is too long is refused before it is looked at; one of the greatest length is read, and its reserved bits are 0. */
static size_t check_long_records(const uint8_t *s, size_t most, uint8_t *scratch) {
    vvcc_read answers[] = {vvcc_strict_record(s, most + 1, scratch, 64), vvcc_strict_record(s + 1, most, scratch, 64)};
    static const uint32_t refusals[] = {23, 25};
    for (size_t i = 0; i < 2; i++)
        if (answers[i].refusal != refusals[i] || answers[i].consumed) {
            fprintf(stderr, "guarded: a long record: %lu\n", (unsigned long)answers[i].refusal);
            exit(1);
        }
    return 2;
}

/* Streams of inputs of 2^30 + 1 bytes are refused, and so is a still whose item would have more. */
static size_t check_long_streams(const uint8_t *s, size_t most, uint8_t codes, uint8_t *scratch, uint8_t *out) {
    size_t n = 0;
    uint8_t small[sizeof worked];
    memcpy(small, worked, sizeof worked);
    small[0] = 0;
    n += must_refuse(23, vvcc_still_stream(s, most + 1, worked, 2, 0, 0, codes, out, 64), out);
    n += must_refuse(23, vvcc_still_stream(worked, 2, s, most + 1, 0, 0, codes, out, 64), out);
    n += must_refuse(23, vvcc_access_unit(s, most + 1, worked, 2, 0, 0, codes, scratch, 64, out, 64), out);
    n += must_refuse(23, vvcc_access_unit(worked, 2, s, most + 1, 0, 0, codes, scratch, 64, out, 64), out);
    n += must_refuse(23, vvcc_still_stream(worked, sizeof worked, s + 1, most, 0, 0, codes, out, 64), out);
    n += must_refuse(20, vvcc_still_stream(worked, sizeof worked, s + 7, most - 6, 0, 0, codes, out, 64), out);
    n += must_refuse(6, vvcc_still_stream(small, sizeof small, s + 1, most, 0, 0, codes, out, 64), out);
    return n;
}

/* Inputs of 2^30 + 1 bytes are refused. */
size_t check_long_inputs(void) {
    size_t most = (size_t)1 << 30, n = 0;
    uint8_t *s = long_slice(most + 1), *out = place_slice(OUT, AT_THE_END, 64, 7), *scratch = place_slice(SCRATCH, AT_THE_END, 64, 7);
    memset(out, 0x55, 64);
    n += must_refuse(23, vvcc_still_record(s, most + 1, 1, 8, 16, 8, out, 64), out);
    for (uint8_t codes = VVCC_FOUR_BYTES; codes <= VVCC_SHORT; codes++)
        n += check_long_streams(s, most, codes, scratch, out);
    return n + check_long_records(s, most, scratch) + check_long_walks(s, most) + check_long_units(s, most);
}
