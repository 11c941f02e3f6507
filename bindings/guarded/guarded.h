/* Runs the functions of include/vvcc.h with every slice next to an inaccessible page: declarations that the parts of the program share. */
#ifndef GUARDED_H
#define GUARDED_H

#define _DEFAULT_SOURCE

#include <stdbool.h>
#include <stddef.h>
#include <stdint.h>

#include "vvcc.h"

/* The longest input, and the longest slice that is lent. */
#define MOST ((size_t)1 << 18)
#define ROOM ((size_t)1 << 21)

/* Bytes with a length. */
typedef struct bytes {
    uint8_t at[MOST];
    size_t len;
} bytes;

enum call { STILL_RECORD, STILL_STREAM, ACCESS_UNIT, STRICT_RECORD, NEXT_UNIT, NEXT_ITEM_UNIT, CHECK_UNIT, CALLS };

/* The numbers of refusals are below this. */
#define REFUSALS 27

/* What a call is given: its inputs and its numbers. */
typedef struct test_case {
    enum call call;
    bytes first;  /* the record, the stream or the item of a walk, or the unit to check */
    bytes second; /* the stored bytes or the item */
    uint8_t chroma_format_idc, bit_depth;
    uint32_t width, height;
    uint8_t has_target;
    uint16_t target;
    uint8_t short_codes;
    uint8_t length_size;
    size_t from;
} test_case;

/* numbers.c: numbers from a seed */
void seed_numbers(uint64_t seed);
uint64_t any_number(void);
size_t below(size_t n);
bool one_in(size_t n);

/* bytes.c: appends bytes and bits */
void add_byte(bytes *b, unsigned byte);
void add_bytes(bytes *b, const uint8_t *at, size_t len);
void add_any_bytes(bytes *b, size_t len);
void add_number(bytes *b, size_t value, unsigned width);
void add_bits(bytes *b, size_t *bit, uint32_t value, unsigned width);
void add_any_bits(bytes *b, size_t *bit, unsigned width);
void add_code(bytes *b, size_t *bit, uint64_t value);
void align(size_t *bit);
void add_escaped(bytes *b, const bytes *rbsp);
void damage(bytes *b);

/* sets.c: parameter sets and other units */
void sps_unit(bytes *b, bool with_ptl);
void vps_unit(bytes *b);
void opi_unit(bytes *b);
void other_unit(bytes *b, unsigned type, size_t most);
void picture_unit(bytes *b, size_t most);

/* shapes.c: records, items, streams, and units to check */
void compact_record(bytes *b);
void longest_compact(bytes *b, bool layers);
void full_record(bytes *b);
void change_reserved(bytes *b);
void item(bytes *b, unsigned length_size, size_t most);
void stream(bytes *b);
void unit_to_check(bytes *b);

/* pages.c: memory between two inaccessible pages */
enum side { AT_THE_END, AT_THE_FRONT };

/* Which of the four places a slice lies in. */
enum place { FIRST, SECOND, SCRATCH, OUT, PLACES };

void open_places(void);
uint8_t *place_slice(enum place p, enum side side, size_t len, uint8_t around);
bool strayed(enum place p, enum side side, const uint8_t *at, size_t len, uint8_t around);
uint8_t *long_slice(size_t len);

/* calls.c: one call */
extern const char *const call_names[CALLS];

/* What is lent to a call in addition to its inputs, and the answer. */
typedef struct run {
    enum side side;
    uint8_t fill;
    bool four_bytes; /* start codes of four bytes, whatever the case has */
    size_t scratch_len, out_len;
    uint8_t *scratch, *out;
    vvcc_written answer;
    size_t consumed; /* of a record that is read; of another call 0 */
} run;

bool is_listed(enum call call, uint32_t refusal);
void perform(const test_case *c, run *r);
vvcc_unit step(const test_case *c, enum side side, uint8_t around, size_t from);
vvcc_check ask(const test_case *c, enum side side, uint8_t around);
void fail(const test_case *c, const char *what);

/* checks.c: a case at both placements, and its answers counted */
typedef struct counts {
    size_t answers[CALLS][REFUSALS]; /* by refusal, 0 for accepted; a walk counts by how it ends */
    size_t short_streams, taken_out; /* streams with short codes, and the zeros that they do not have */
    size_t pass;                     /* units that pass the unit check */
} counts;

size_t header_out(const test_case *c);
void check_case(const test_case *c, counts *n);

/* cases.c: the cases */
void any_case(test_case *c);
void longest_case(test_case *c, size_t k);

/* faults.c: wrong lengths must be noticed; inputs of more than 2^30 bytes */
size_t check_faults(void);
size_t check_long_inputs(void);

#endif
