/* A case at both placements. */
#include "guarded.h"

#include <string.h>

/* What the call returned with the lengths that the header states: its answer, its output and the unit list in its scratch. */
static struct {
    vvcc_written answer;
    size_t consumed;
    uint8_t out[ROOM], scratch[ROOM];
    size_t list_len;
} whole;

/* The length of the output that is always sufficient, from the header. */
size_t header_out(const test_case *c) {
    size_t first = c->first.len, second = c->second.len;
    bool layers = first && c->first.at[0] >> 7, four = first && (c->first.at[0] >> 1 & 3) == 3;
    if (c->call == STRICT_RECORD)
        return 0;
    if (c->call == STILL_RECORD)
        return 1100 + 5 * first;
    if (c->call == STILL_STREAM)
        return 4 * first + (layers ? 5 * second / 2 : second + 6);
    return 2 * first + (four ? second : 5 * second / 2);
}

/* The length of the scratch that is always sufficient, from the header. */
static size_t header_scratch(const test_case *c) {
    return c->call == ACCESS_UNIT || c->call == STRICT_RECORD ? 4 * c->first.len : 0;
}

/* How many bytes of the scratch were written: with two fills, those up to the last one that is the same in both. */
static size_t written_front(const test_case *c, const run *r) {
    size_t n = r->scratch_len;
    while (n > 0 && whole.scratch[n - 1] != r->scratch[n - 1])
        n--;
    if (n && memcmp(whole.scratch, r->scratch, n))
        fail(c, "the scratch differs between the placements");
    return n;
}

/* With the header's lengths, at the end with one fill and at the front with another: no 20, and the same. */
static void check_whole(const test_case *c, uint8_t fill) {
    run r = {.side = AT_THE_END, .fill = fill, .scratch_len = header_scratch(c), .out_len = header_out(c)};
    perform(c, &r);
    if (r.answer.refusal == 20)
        fail(c, "20 with the header's lengths");
    whole.answer = r.answer;
    whole.consumed = r.consumed;
    if (r.out_len)
        memcpy(whole.out, r.out, r.out_len);
    if (r.scratch_len)
        memcpy(whole.scratch, r.scratch, r.scratch_len);
    r.side = AT_THE_FRONT;
    r.fill = (uint8_t)~fill;
    perform(c, &r);
    if (r.answer.refusal != whole.answer.refusal || r.answer.len != whole.answer.len || r.consumed != whole.consumed ||
        (r.answer.len && memcmp(r.out, whole.out, r.answer.len)))
        fail(c, "the answer differs between the placements");
    whole.list_len = written_front(c, &r);
}

/* A strict reading: on a refusal no list; otherwise the consumed bytes alone are read the same, and with one byte less it is 1. */
static void check_consumed(const test_case *c) {
    static uint8_t list[ROOM];
    if (whole.answer.refusal) {
        if (whole.list_len)
            fail(c, "the scratch was changed on a refusal");
        return;
    }
    vvcc_read less = vvcc_strict_record(c->first.at, whole.consumed - 1, list, whole.list_len);
    vvcc_read all = vvcc_strict_record(c->first.at, whole.consumed, list, whole.list_len);
    if (less.refusal != 1 || all.refusal || all.consumed != whole.consumed || memcmp(list, whole.scratch, whole.list_len))
        fail(c, "the consumed bytes alone are not read the same");
}

/* What the scratch must hold: the unit list if it fits, then the fill. */
static void check_scratch(const test_case *c, const run *r) {
    size_t n = r->scratch_len < whole.list_len ? 0 : whole.list_len;
    if (n && memcmp(r->scratch, whole.scratch, n))
        fail(c, "the scratch does not hold the unit list");
    for (size_t i = n; i < r->scratch_len; i++)
        if (r->scratch[i] != r->fill)
            fail(c, "a byte of the scratch after the unit list was changed");
}

/* With other lengths, at one side: the same answer, or 20 where a length is too short. */
static void check_lengths(const test_case *c, enum side side, uint8_t fill, size_t scratch_len, size_t out_len) {
    run r = {.side = side, .fill = fill, .scratch_len = scratch_len, .out_len = out_len};
    bool short_out = !whole.answer.refusal && out_len < whole.answer.len;
    uint32_t refusal = scratch_len < whole.list_len || short_out ? 20 : whole.answer.refusal;
    perform(c, &r);
    if (r.answer.refusal != refusal || r.answer.len != (refusal ? 0 : whole.answer.len) || r.consumed != (refusal ? 0 : whole.consumed))
        fail(c, "another answer with memory of another length");
    if (r.answer.len && memcmp(r.out, whole.out, r.answer.len))
        fail(c, "other bytes with memory of another length");
    check_scratch(c, &r);
}

/* Whether 00 00 00 01 lies at a place. */
static bool is_code(const uint8_t *s, size_t len, size_t at) {
    return len - at >= 4 && !s[at] && !s[at + 1] && !s[at + 2] && s[at + 3] == 1;
}

/* How often an input holds 00 00 00 01. */
static size_t codes_inside(const bytes *b) {
    size_t n = 0;
    for (size_t at = 0; at < b->len; at++)
        n += is_code(b->at, b->len, at);
    return n;
}

/* Whether short codes leave the four bytes at a place as they are: those of the first unit, and of a unit whose header has a type from 12 to 18.
 * After a unit without a second byte comes a zero or nothing, which is no such type. */
static bool stays_whole(const uint8_t *s, size_t len, size_t at) {
    unsigned type = len - at > 5 ? s[at + 5] >> 3 : 0;
    return at == 0 || (type >= 12 && type <= 18);
}

/* A stream with short codes is that with four bytes, `four`, without the first zero of each start code that does not stay whole. A unit may hold
 * 00 00 00 01 itself, which is no start code and stays: no more often than the inputs hold it. Returns how many zeros were taken out. */
static size_t check_taken_out(const test_case *c, const uint8_t *four, size_t len) {
    const uint8_t *got = whole.out;
    size_t n = whole.answer.len, at = 0, inside = 0, taken = 0;
    for (size_t i = 0; i < len; i++, at++) {
        if (is_code(four, len, i) && !stays_whole(four, len, i)) {
            bool out = n - at >= 3 && got[at + 2] == 1;
            i += out;
            taken += out;
            inside += !out;
        }
        if (at == n || got[at] != four[i])
            fail(c, "short codes: other bytes than with four");
    }
    if (at != n || inside > codes_inside(&c->first) + codes_inside(&c->second))
        fail(c, "short codes: more bytes than there should be");
    return taken;
}

/* With short codes: the same call with four bytes has the same refusal, the same list and the same units. */
static void check_short(const test_case *c, counts *n) {
    run r = {.side = AT_THE_END, .four_bytes = true, .scratch_len = header_scratch(c), .out_len = header_out(c)};
    perform(c, &r);
    if (r.answer.refusal != whole.answer.refusal)
        fail(c, "short codes: another refusal than with four bytes");
    check_scratch(c, &r);
    if (r.answer.refusal)
        return;
    n->short_streams++;
    n->taken_out += check_taken_out(c, r.out, r.answer.len);
}

/* A length to lend for a result of n bytes: exactly that, one byte less, more, none or any. */
static size_t any_length(size_t n, size_t most) {
    switch (below(6)) {
    case 0:
    case 1: return n;
    case 2: return n ? n - 1 : 0;
    case 3: return n < most ? n + 1 + below(most - n) : n;
    case 4: return 0;
    default: return below(n + 1);
    }
}

/* A call that writes. */
static void check_written(const test_case *c, counts *n) {
    uint8_t fill = (uint8_t)any_number();
    check_whole(c, fill);
    if (c->call == STRICT_RECORD)
        check_consumed(c);
    if ((c->call == STILL_STREAM || c->call == ACCESS_UNIT) && c->short_codes)
        check_short(c, n);
    size_t out_len = any_length(whole.answer.len, header_out(c));
    size_t scratch_len = one_in(2) ? header_scratch(c) : any_length(whole.list_len, header_scratch(c));
    check_lengths(c, AT_THE_END, (uint8_t)(fill + 85), scratch_len, out_len);
    check_lengths(c, AT_THE_FRONT, (uint8_t)(fill + 170), scratch_len, out_len);
    n->answers[c->call][whole.answer.refusal]++;
}

/* Where the next 00 00 01 of a stream lies at or after a place, found byte by byte; the stream's length if there is none. */
static size_t next_code(const bytes *s, size_t from) {
    for (; from < s->len; from++)
        if (s->len - from >= 3 && !memcmp(s->at + from, "\0\0\1", 3))
            return from;
    return s->len;
}

/* The step over a stream as it must be: the bytes from one start code to the next without the zeros at their end, unless none are left. */
static vvcc_unit plain_step(const bytes *s, size_t from) {
    vvcc_unit none = {0, 0, 0, 0, 0};
    for (size_t code = next_code(s, from); code < s->len; code = next_code(s, code + 3)) {
        size_t start = code + 3, end = next_code(s, start);
        while (end > start && !s->at[end - 1])
            end--;
        if (end > start)
            return (vvcc_unit){0, 1, start, end - start, end};
    }
    return none;
}

/* Whether two steps are the same. */
static bool same_step(const vvcc_unit *u, const vvcc_unit *v) {
    return u->refusal == v->refusal && u->found == v->found && u->start == v->start && u->len == v->len && u->next == v->next;
}

/* A step over a stream is the one that a search byte by byte finds. */
static void check_stream_step(const test_case *c, const vvcc_unit *u, size_t from) {
    vvcc_unit right = plain_step(&c->first, from);
    if (!same_step(u, &right))
        fail(c, "a step differs from a search byte by byte");
}

/* A unit of an item lies inside, is not empty, and follows its length at the place that was asked for. */
static void check_item_unit(const test_case *c, const vvcc_unit *u, size_t from) {
    size_t ahead = c->length_size, len = c->first.len;
    if (u->found != 1 || u->len == 0 || u->len > len || u->start > len - u->len)
        fail(c, "a unit that is empty or does not lie inside");
    if (u->start < ahead || u->start - ahead != from || u->next != u->start + u->len)
        fail(c, "a unit that does not lie where it should");
}

/* One step at both placements. */
static vvcc_unit check_step(const test_case *c, size_t from, uint8_t around) {
    vvcc_unit u = step(c, AT_THE_END, around, from), v = step(c, AT_THE_FRONT, (uint8_t)~around, from);
    if (!same_step(&u, &v))
        fail(c, "a step differs between the placements");
    if (c->call == NEXT_ITEM_UNIT && u.found)
        check_item_unit(c, &u, from);
    if (c->call == NEXT_UNIT)
        check_stream_step(c, &u, from);
    return u;
}

/* A walk from the front to its end, each unit after the one before, and one step from any place. */
static void check_walk(const test_case *c, counts *n) {
    uint8_t around = (uint8_t)any_number();
    size_t from = 0;
    vvcc_unit u = check_step(c, from, around);
    while (u.found) {
        from = u.next;
        u = check_step(c, from, around);
    }
    if (c->call == NEXT_ITEM_UNIT && !u.refusal && from != c->first.len)
        fail(c, "a walk that ends before the item does");
    check_step(c, c->from, around);
    n->answers[c->call][u.refusal]++;
}

/* Whether a unit may not have the bytes from a place on: 00 00 and one up to 02, or 00 00 03 and one above 03. */
static bool is_forbidden(const uint8_t *at, size_t left) {
    if (left < 3 || at[0] || at[1])
        return false;
    return at[2] < 3 || (at[2] == 3 && left > 3 && at[3] > 3);
}

/* The rule of the unit check (H.266 7.4.2), place by place. */
static bool passes(const bytes *u) {
    bool pass = u->len && u->at[u->len - 1];
    for (size_t i = 0; i < u->len; i++)
        pass = pass && !is_forbidden(u->at + i, u->len - i);
    return pass;
}

/* The unit check at both placements. */
static void check_asked(const test_case *c, counts *n) {
    uint8_t around = (uint8_t)any_number();
    vvcc_check u = ask(c, AT_THE_END, around), v = ask(c, AT_THE_FRONT, (uint8_t)~around);
    uint32_t right = passes(&c->first);
    if (u.passes != right || v.passes != right)
        fail(c, "the unit check says something else than the rule");
    n->pass += right;
    n->answers[c->call][0]++;
}

/* One case, counted. */
void check_case(const test_case *c, counts *n) {
    if (c->call < NEXT_UNIT)
        check_written(c, n);
    else if (c->call == CHECK_UNIT)
        check_asked(c, n);
    else
        check_walk(c, n);
}
