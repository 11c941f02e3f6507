/* VVC stills: from compact records and stored bytes to full records and Annex B streams.
 *
 * The functions are in the static library libvvcc.a, which bindings/build makes in target. Each is proved to return exactly what its definition
 * says, on any input: the contracts are in the file src/lib.rt of crates/vvcc_still, crates/vvcc_records and crates/vvcc_units. The functions
 * allocate nothing, keep nothing between calls, return on every input, may be called from several threads at once, and use less than 64 KiB of
 * stack. The lengths given below for `scratch` and `out` are proved to be sufficient (crates/output_lengths): with that many bytes no call
 * returns 20. The use of the stack is not proved; it was worked out by hand, and bindings/guarded tests it.
 *
 * The caller must ensure that
 *  - a pointer and the length after it describe memory that may be read (for `out` and `scratch`: written), and the pointer is not null, even
 *    if the length is 0;
 *  - `out` and `scratch` overlap neither each other nor an input.
 *
 * Bytes of `out` after the result are not changed. On a refusal no byte of `out` is changed. What a call writes to `scratch`, and when, is said
 * with the call; bytes after it are not changed.
 */
#ifndef VVCC_H
#define VVCC_H

#include <stddef.h>
#include <stdint.h>

#ifdef __cplusplus
extern "C" {
#endif

/* Why a call is refused. docs/SCOPE.md defines the numbers. No function below returns 8, 9, 10, 21, 24, 27, 28 or 29: they belong to calls that
 * are not exported. */
enum vvcc_refusal {
    VVCC_ACCEPTED = 0,                 /* no refusal */
    VVCC_TRUNCATED = 1,                /* a field runs past the end */
    VVCC_CONSTRAINT_LENGTH_ZERO = 2,   /* the constraint length of a full record is 0 */
    VVCC_PREFIX_SIZE_THREE = 3,        /* the prefix size of a full record is 3 */
    VVCC_PREFIX_SIZE = 4,              /* the prefix size is not 1 to 4 */
    VVCC_ZERO_LENGTH_UNIT = 5,         /* a unit of the item has length 0 */
    VVCC_UNIT_TOO_LONG_FOR_PREFIX = 6, /* a unit is too long for its length prefix */
    VVCC_BYTES_LEFT_OVER = 7,          /* bytes are left over after the compact record */
    VVCC_COMPACT_UNIT_COUNT = 8,       /* a compact record must have 2 to 33 units */
    VVCC_COMPACT_UNIT_TOO_LONG = 9,    /* a unit of a compact record has more than 255 bytes */
    VVCC_WRONG_UNIT_TYPE = 10,         /* a unit has another type than the one to be read */
    VVCC_BITS_RUN_OUT = 11,            /* the bits of a parameter set run out */
    VVCC_CODE_TOO_LONG = 12,           /* an Exp-Golomb code has 32 zeros */
    VVCC_SUBPICTURES = 13,             /* the SPS has subpictures */
    VVCC_BIT_DEPTH = 14,               /* the bit depth of the SPS minus 8 is above 8 */
    VVCC_SEVERAL_LAYERS = 15,          /* the VPS has several layers */
    VVCC_NO_VPS = 16,                  /* the multi-layer flag is set and there is no VPS */
    VVCC_NO_SPS = 17,                  /* there is no SPS */
    VVCC_NO_PTL = 18,                  /* the SPS has no PTL and there is no VPS */
    VVCC_NOTHING_TO_WRITE = 19,        /* there is nothing to write */
    VVCC_BUFFER_TOO_SHORT = 20,        /* the result is longer than `out`, or the unit list is longer than `scratch` */
    VVCC_UNIT_LIST = 21,               /* the unit list is malformed */
    VVCC_FIELD_TOO_WIDE = 22,          /* a field is wider than its place */
    VVCC_INPUT_TOO_LONG = 23,          /* an input has more than 2^30 bytes */
    VVCC_NOT_ONE_STILL = 24,           /* the item is not one plain still */
    VVCC_RESERVED_BIT = 25,            /* a reserved bit of a full record is not the standard's */
    VVCC_ARRAY_TYPE = 26,              /* an array of a full record has a type outside 12 to 17 and 23 */
    VVCC_CONFIGURATION_VERSION = 27,   /* the first byte of an HEVC record is not 1 */
    VVCC_DIRECTORY_TOO_SHORT = 28,     /* a directory is shorter than the number of units */
    VVCC_TOO_LONG_TO_NARROW = 29       /* a length of the unit list is above 65,535 as narrowed */
};

/* The start codes of a stream: the number that a call takes as `short_codes`. Any number but 0 means short codes.
 * Short codes are those of H.266 B.2.2: the first unit of the stream, and each unit whose header has a type from 12 to 18, follow 00 00 00 01;
 * all others follow 00 00 01. The type is in bits 7 to 3 of the second byte of the unit; a unit with fewer than two bytes has none.
 * Under both choices the stream has the same units in the same order, and the refusals are the same but for 20 of `out`, which goes by the
 * length of the stream to be written. With short codes the stream is one byte shorter for each unit that follows 00 00 01, and never longer:
 * the lengths given for `out` are sufficient for both. */
enum vvcc_start_codes {
    VVCC_FOUR_BYTES = 0, /* every unit follows 00 00 00 01 */
    VVCC_SHORT = 1       /* short codes */
};

/* The answer of a call that writes. */
typedef struct vvcc_written {
    uint32_t refusal; /* 0, or the number of the refusal */
    size_t len;       /* the length of the result at the front of `out`; 0 on a refusal */
} vvcc_written;

/* The answer of a call that reads a record. */
typedef struct vvcc_read {
    uint32_t refusal; /* 0, or the number of the refusal */
    size_t consumed;  /* how many bytes of the record were consumed; 0 on a refusal */
} vvcc_read;

/* The answer of one step of a walk over units. */
typedef struct vvcc_unit {
    uint32_t refusal; /* 0, or the number of the refusal; then all other fields are 0 */
    uint32_t found;   /* 1 if there is a unit; 0 at the end, and then all other fields are 0 */
    size_t start;     /* offset of the unit's first byte in the stream or the item */
    size_t len;       /* its length, never 0 */
    size_t next;      /* the offset from which to continue */
} vvcc_unit;

/* The answer of the unit check. */
typedef struct vvcc_check {
    uint32_t refusal; /* 0, or the number of the refusal */
    uint32_t passes;  /* 1 for yes, 0 for no; 0 on a refusal */
} vvcc_check;

/* The full record (ISO/IEC 14496-15) of a still's compact record (ISO/IEC 23008-12 Amd 2, Annex L), with the chroma format, bit depth and
 * dimensions that the file states. `out` needs at most 1100 + 5*record_len bytes.
 * Refusals, in this order: 23, 1, 7; with the multi-layer flag set 16, then 11 and 15 of the VPS; 17; 11 to 14 of the SPS; 18, then 11 and 15
 * of the VPS; 3, 22, 20. */
vvcc_written vvcc_still_record(const uint8_t *record, size_t record_len,
                               uint8_t chroma_format_idc, uint8_t bit_depth, uint32_t width, uint32_t height,
                               uint8_t *out, size_t out_len);

/* The Annex B stream (H.266) of a still: the units of its compact record, grouped by type, then its picture, each after its start code.
 * `stored` is what the file stores for the picture. If `has_target` is not 0, `target` is the operating point that the caller asks for.
 * `short_codes` is 0 for start codes of four bytes; any other number is for short ones (vvcc_start_codes).
 * `out` needs at most 4*record_len + stored_len + 6 bytes if the multi-layer flag of the record is clear, and at most
 * 4*record_len + 5*stored_len/2 if it is set.
 * Refusals, in this order: 23; those of vvcc_still_record without 20; with the flag clear 6, then 23 if the item would have more than 2^30
 * bytes; with the flag set those of vvcc_access_unit for the item; 20. */
vvcc_written vvcc_still_stream(const uint8_t *record, size_t record_len,
                               const uint8_t *stored, size_t stored_len,
                               uint8_t has_target, uint16_t target, uint8_t short_codes,
                               uint8_t *out, size_t out_len);

/* The Annex B stream of a full record and an item of length-prefixed units. Leading AUD and OPI units of the item come first, then the units of
 * the record, then the rest of the item. An OPI unit of the item with another operating point than the target is left out. If `has_target` is 0,
 * the target is that of the record. `short_codes` is 0 for start codes of four bytes; any other number is for short ones (vvcc_start_codes).
 * The unit list of the record is written to `scratch` as soon as the record is accepted; `scratch` needs at most 4*record_len bytes. `out` needs
 * at most 2*record_len + 5*item_len/2 bytes, and with prefix size 4 at most 2*record_len + item_len.
 * Refusals, in this order: 23 (either input); 3, then in byte order 1 and 2 (the record); 20 (`scratch`); 23 (the unit list has more than 2^30
 * bytes); in byte order 1 and 5 (the item); 19; 20. */
vvcc_written vvcc_access_unit(const uint8_t *record, size_t record_len,
                              const uint8_t *item, size_t item_len,
                              uint8_t has_target, uint16_t target, uint8_t short_codes,
                              uint8_t *scratch, size_t scratch_len,
                              uint8_t *out, size_t out_len);

/* Reads a full record strictly: for an archive that stores a record only if its reserved bits are the standard's and its arrays have types that
 * a record may have. The bytes that were consumed end with the last array; others may follow. What was read, written again as a full record, is
 * exactly those bytes, unless its unit list has more than 2^30 bytes (proved: crates/rewritten).
 * `scratch` needs at most 4*record_len bytes. If the record is accepted, its unit list (docs/SCOPE.md, 2) is written to the front of `scratch`.
 * The length of the list is not returned: what is in `scratch` after the call is not for use by the caller. On a refusal no byte of it is changed.
 * Refusals, in this order: 23; 3, then in byte order 1 and 2; 25; 26; 20 (`scratch`). It is 25 unless
 *  - the top five bits of byte 0 are 11111;
 *  - with the PTL flag set, the low five bits of byte 3 are 11111 and the top two bits of byte 4 are 00, and with num_sublayers above 1 the low
 *    9 - num_sublayers bits of the byte with the level flags, at 7 + num_bytes_constraint_info, are 0;
 *  - bits 6 and 5 of the first byte of each array are 00. */
vvcc_read vvcc_strict_record(const uint8_t *record, size_t record_len,
                             uint8_t *scratch, size_t scratch_len);

/* The first unit of an Annex B stream whose start code is at or after the offset `from`. Start with 0 and continue with `next`. Refusal: 23. */
vvcc_unit vvcc_next_unit(const uint8_t *stream, size_t stream_len, size_t from);

/* The unit of an item whose length prefix, of `length_size` bytes, is at the offset `from`. Start with 0 and continue with `next`.
 * Refusals, in this order: 23, 4, then in byte order 1 and 5. */
vvcc_unit vvcc_next_item_unit(const uint8_t *item, size_t item_len, uint8_t length_size, size_t from);

/* The unit check: whether the bytes of a unit are as H.266 7.4.2 (NAL unit semantics) asks of every unit. It is yes exactly if
 *  - the unit is not empty, and its last byte is not 00;
 *  - none of 00 00 00, 00 00 01 and 00 00 02 occurs in it;
 *  - 00 00 03 does not occur in it before a byte above 03. At the very end of the unit it is allowed.
 * What the header of the unit says is not looked at, and nothing is decoded.
 * A unit that passes is split off a stream as it is (vvcc_next_unit). No other call checks its units: a service makes this call for each unit
 * before it hands a stream to a decoder. vvcc_next_unit finds the units of a stream, vvcc_next_item_unit those of an item. In a stream 00 00 01
 * begins another unit, and zeros at the end of a unit are cut off: a unit with either is noticed only if it is checked before it is in a stream.
 * Refusal: 23. */
vvcc_check vvcc_check_unit(const uint8_t *unit, size_t unit_len);

#ifdef __cplusplus
}
#endif

#endif
