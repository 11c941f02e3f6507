/* Records, items, streams, and units to check. */
#include "guarded.h"

#include <string.h>

static bytes unit, units;
static size_t starts[40], lens[40], count;

/* Keeps the unit that was just made. */
static void note_unit(void) {
    if (unit.len > 255)
        unit.len = 255;
    starts[count] = units.len;
    lens[count++] = unit.len;
    add_bytes(&units, unit.at, unit.len);
    unit.len = 0;
}

/* A unit that a record may hold in addition to the first SPS, VPS, OPI and DCI. */
static void further_unit(void) {
    static const unsigned types[] = {16, 16, 16, 17, 17, 23, 15, 14};
    unsigned type = one_in(12) ? (unsigned)below(32) : types[below(8)];
    size_t most = one_in(8) ? 253 : 12;
    if (one_in(40))
        add_any_bytes(&unit, below(3));
    else if (type == 15)
        sps_unit(&unit, true);
    else if (type == 14)
        vps_unit(&unit);
    else
        other_unit(&unit, type, most);
    note_unit();
}

/* Shuffles the units. */
static void shuffle(void) {
    for (size_t i = count; i > 1; i--) {
        size_t j = below(i), s = starts[j], n = lens[j];
        starts[j] = starts[i - 1];
        lens[j] = lens[i - 1];
        starts[i - 1] = s;
        lens[i - 1] = n;
    }
}

/* The SPS of the worked example in docs/SCOPE.md, or one with everything that an SPS may have. */
static void any_sps(bool with_ptl) {
    static const uint8_t worked[] = {0x00, 0x79, 0x00, 0x0D, 0x02, 0x33, 0x80, 0x00, 0x02, 0x22, 0x4C};
    if (one_in(4))
        add_bytes(&unit, worked, sizeof worked);
    else
        sps_unit(&unit, with_ptl);
    note_unit();
}

/* The units of a compact record: an SPS, a VPS where one is needed, one OPI and one DCI at most, then others. */
static void compact_units(bool layers) {
    static const uint8_t worked[] = {0x00, 0x81, 0x80};
    bool vps = (layers && !one_in(40)) || one_in(4);
    units.len = unit.len = count = 0;
    if (!one_in(60))
        any_sps(!vps || one_in(2));
    if (vps) {
        vps_unit(&unit);
        note_unit();
    }
    if (one_in(6)) {
        opi_unit(&unit);
        note_unit();
    }
    if (one_in(6)) {
        other_unit(&unit, 13, 12);
        note_unit();
    }
    add_bytes(&unit, worked, sizeof worked);
    note_unit();
    size_t all = one_in(10) ? 2 + below(32) : 2 + below(6);
    while (count < all)
        further_unit();
    shuffle();
}

/* The kept units as a compact record. */
static void write_compact(bytes *b, bool layers, unsigned size) {
    b->len = 0;
    add_byte(b, (unsigned)layers << 7 | (size - 1) << 5 | (unsigned)(count - 2));
    for (size_t i = 0; i < count; i++) {
        add_byte(b, (unsigned)lens[i]);
        add_bytes(b, units.at + starts[i], lens[i]);
    }
}

/* A compact record, sound most of the time. */
void compact_record(bytes *b) {
    static const unsigned sizes[] = {1, 2, 4, 4};
    bool layers = one_in(3);
    compact_units(layers);
    write_compact(b, layers, one_in(40) ? 3 : sizes[below(4)]);
}

/* The longest compact record: 33 units of 255 bytes, each of a type of its own as long as there are types. */
void longest_compact(bytes *b, bool layers) {
    units.len = unit.len = count = 0;
    while (count < 33) {
        unsigned type = (unsigned)count % 32;
        if (type == 15)
            sps_unit(&unit, true);
        else if (type == 14)
            vps_unit(&unit);
        else
            other_unit(&unit, type, 0);
        add_any_bytes(&unit, 255 - (unit.len < 255 ? unit.len : 255));
        note_unit();
    }
    write_compact(b, layers, 4);
}

/* The PTL record of a full record with a number of sublayers. */
static void ptl_record(bytes *b, unsigned sublayers) {
    unsigned n = one_in(60) ? 0 : 1 + (unsigned)below(one_in(6) ? 63 : 3);
    unsigned present = (unsigned)below(256), profiles = (unsigned)below(one_in(40) ? 256 : 3);
    add_byte(b, n);
    add_any_bytes(b, 2);
    add_any_bytes(b, n);
    if (sublayers > 1)
        add_byte(b, present);
    for (unsigned i = 1; i < sublayers; i++)
        if (present >> (8 - i) & 1)
            add_any_bytes(b, 1);
    add_byte(b, profiles);
    add_any_bytes(b, 4 * profiles);
    add_any_bytes(b, 6);
}

/* The part of a full record that is present if its PTL flag is set. */
static void full_head(bytes *b) {
    unsigned sublayers = one_in(2) ? 1 : (unsigned)below(8);
    unsigned point = (unsigned)below(one_in(4) ? 512 : 3);
    add_number(b, point << 7 | sublayers << 4 | (unsigned)below(16), 2);
    add_byte(b, (unsigned)below(8) << 5 | 0x1F);
    ptl_record(b, sublayers);
}

/* One unit after its length of 16 bits. */
static void counted_unit(bytes *b, unsigned type) {
    unit.len = 0;
    if (type == 15)
        sps_unit(&unit, true);
    else if (type == 14)
        vps_unit(&unit);
    else if (type == 12)
        opi_unit(&unit);
    else if (!one_in(30))
        other_unit(&unit, type, one_in(20) ? 600 : 12);
    add_number(b, unit.len, 2);
    add_bytes(b, unit.at, unit.len);
}

/* One array of a full record. */
static void array(bytes *b) {
    static const unsigned types[] = {12, 13, 14, 15, 16, 17, 23, 16};
    unsigned type = one_in(8) ? (unsigned)below(32) : types[below(8)];
    unsigned n = type == 12 || type == 13 ? 1 : (unsigned)below(one_in(30) ? 40 : 4);
    add_byte(b, (unsigned)below(2) << 7 | type);
    if (type != 12 && type != 13)
        add_number(b, n, 2);
    for (unsigned i = 0; i < n; i++)
        counted_unit(b, type);
}

/* A full record, sound most of the time. */
void full_record(bytes *b) {
    static const unsigned sizes[] = {0, 1, 3, 3};
    bool with_ptl = !one_in(3);
    unsigned size = one_in(60) ? 2 : sizes[below(4)];
    unsigned arrays = (unsigned)below(one_in(30) ? 256 : 5);
    b->len = 0;
    add_byte(b, 0xF8 | size << 1 | (unsigned)with_ptl);
    if (with_ptl)
        full_head(b);
    add_byte(b, arrays);
    for (unsigned i = 0; i < arrays; i++)
        array(b);
}

/* Changes a reserved bit of a full record: one of its head, or without the PTL flag one of byte 0 or of the first array. */
void change_reserved(bytes *b) {
    static const uint8_t with_ptl[][2] = {{0, 0x08}, {0, 0x10}, {0, 0x20}, {0, 0x40}, {0, 0x80}, {3, 0x01},
                                          {3, 0x02}, {3, 0x04}, {3, 0x08}, {3, 0x10}, {4, 0x40}, {4, 0x80}};
    static const uint8_t without[][2] = {{0, 0x08}, {0, 0x10}, {0, 0x20}, {0, 0x40}, {0, 0x80}, {2, 0x20}, {2, 0x40}};
    const uint8_t *bit = b->at[0] & 1 ? with_ptl[below(12)] : without[below(b->len > 2 ? 7 : 5)];
    b->at[bit[0]] ^= bit[1];
}

/* One unit of an item: an OPI, an AUD, a picture's or another. */
static void item_unit(bytes *b, bool leading, size_t most) {
    if (one_in(leading ? 2 : 8))
        opi_unit(b);
    else if (leading || one_in(8))
        other_unit(b, 20, 1);
    else if (one_in(8))
        add_any_bytes(b, 1 + below(4));
    else
        picture_unit(b, most);
}

/* Appends the length prefix of a unit and the unit, cut if it is too long for the prefix. */
static void put_prefixed(bytes *b, unsigned length_size) {
    size_t fits = length_size == 1 ? 255 : 65535;
    if (unit.len > fits)
        unit.len = fits;
    add_number(b, unit.len, length_size);
    add_bytes(b, unit.at, unit.len);
    unit.len = 0;
}

/* An item of length-prefixed units, AUD and OPI in front in a share of them, units of at most about `most` bytes. */
void item(bytes *b, unsigned length_size, size_t most) {
    size_t leading = one_in(2) ? 0 : below(4), rest = below(one_in(10) ? 60 : 5);
    b->len = unit.len = 0;
    for (size_t i = 0; i < leading + rest; i++) {
        item_unit(&unit, i < leading, most);
        put_prefixed(b, length_size);
    }
    if (one_in(150))
        add_number(b, 0, length_size);
}

/* Appends bytes that are 00, small or large. */
static void add_small_bytes(bytes *b, size_t len) {
    static const uint8_t some[] = {0x00, 0x00, 0x00, 0x00, 0x01, 0x01, 0x02, 0x03, 0x04, 0xFF};
    for (size_t i = 0; i < len; i++)
        add_byte(b, some[below(sizeof some)]);
}

/* A stream: units after start codes of three or four bytes with zeros between them, or bytes that are mostly small. */
void stream(bytes *b) {
    size_t n = below(8);
    b->len = 0;
    if (one_in(3)) {
        add_small_bytes(b, below(one_in(4) ? 400 : 60));
        return;
    }
    for (size_t i = 0; i < n; i++) {
        add_number(b, 1, 3 + (unsigned)below(2));
        unit.len = 0;
        item_unit(&unit, one_in(4), one_in(20) ? 3000 : 20);
        add_escaped(b, &unit);
        for (size_t zeros = below(3); zeros > 0; zeros--)
            add_byte(b, 0);
    }
}

/* Puts 00 00, a byte up to 04 and one up to 05 over those from a place on, often one of the last four, as far as the unit has bytes. */
static void put_over(bytes *b) {
    const uint8_t four[] = {0, 0, (uint8_t)below(5), (uint8_t)below(6)};
    size_t at = one_in(2) && b->len > 4 ? b->len - 1 - below(4) : below(b->len + 1);
    for (size_t i = 0; i < 4 && at + i < b->len; i++)
        b->at[at + i] = four[i];
}

/* A unit to check: short and of small bytes, or one in which 03 is inserted where it must be; a share of these have zeros put over some bytes. */
void unit_to_check(bytes *b) {
    b->len = unit.len = 0;
    if (one_in(3)) {
        add_small_bytes(b, below(12));
        return;
    }
    if (one_in(2))
        add_small_bytes(&unit, below(400));
    else
        add_any_bytes(&unit, below(400));
    add_escaped(b, &unit);
    if (one_in(2))
        put_over(b);
}
