/* Wrong libraries, for library/harness/faults: FAULT says which. Each has one call that does as the library's, but for one
 * thing; the call is handed on under the name `wrong`. FAULT 0 has none. */
/* calls.c asks for it, and this file comes first */
#define _DEFAULT_SOURCE

#include "hansobrik.h"

#include <string.h>

#undef _DEFAULT_SOURCE

#define BYTES const uint8_t *p, size_t c
#define READING uint8_t f, uint8_t k, hansobrik_state s, BYTES, uint8_t *o, size_t d
#define ADDING uint8_t f, hansobrik_assembly k, BYTES, uint8_t n, uint8_t *o, size_t d
#define TABLES hansobrik_assembly k, hansobrik_assembly l, uint8_t n
#define LEVEL uint8_t f, hansobrik_assembly k, BYTES, uint8_t x, uint16_t y
#define REPORTING uint8_t f, hansobrik_pass_report r, BYTES
#define REPORTS hansobrik_pass_report r, hansobrik_pass_report q

/* For wrong fillers, what a count by words is made of: the bits up to a byte edge, words of eight bytes, the rest. */
static inline size_t filler_end(uint8_t s)
{
    static const size_t ends[] = {20408, 40816, 61224, 81632, 138692, 195752, 252812, 309872, 316534, 323196, 329858, 354848};
    return ends[s - 1];
}
static inline size_t filler_start(uint8_t s) { return filler_end(s) - 2048; }
static inline size_t words_start(uint8_t s) { return (filler_start(s) + 7) / 8 * 8; }
static inline size_t words_end(uint8_t s) { return words_start(s) + (filler_end(s) - words_start(s)) / 64 * 64; }

/* The set bits from one place of a line to before another. */
static inline size_t ones(const uint8_t *p, size_t from, size_t to)
{
    size_t count = 0;
    for (; from < to; from++)
        if (p[from / 8] >> (7 - from % 8) & 1)
            count++;
    return count;
}

/* For wrong searches: the last 64 bits since the start, so many of them, and how many bits were read to get there. */
#define TAIL UINT64_C(0x4BBBB99995557FFF)
struct window {
    uint64_t bits;
    size_t count;
    size_t end;
};
typedef bool rule(struct window w, uint8_t k);

static inline int apart(uint64_t a, uint64_t b)
{
    int count = 0;
    for (uint64_t x = a ^ b; x != 0; x &= x - 1)
        count++;
    return count;
}

/* The rules: the right one, and that of document 01. */
static inline bool near_tail(struct window w, uint8_t k) { return w.count == 64 && apart(w.bits, TAIL) <= k; }
static inline bool exact_tail(struct window w, uint8_t k) { (void)k; return near_tail(w, 0); }

/* The bit that is read after i others: of the unread ones, then of the piece. */
static inline uint8_t bit_at(hansobrik_state s, const uint8_t *p, size_t i)
{
    if (i < s.unread_count)
        return (uint8_t)(s.unread >> (s.unread_count - 1 - i) & 1);
    i -= s.unread_count;
    return (uint8_t)(p[i / 8] >> (7 - i % 8) & 1);
}

/* The first window by a rule; one with the end 0 is none. */
static inline struct window first(rule counts, uint8_t k, hansobrik_state s, BYTES)
{
    struct window w = {s.search, s.search_count, 0};
    while (w.end < s.unread_count + 8 * c) {
        w.bits = w.bits << 1 | bit_at(s, p, w.end++);
        w.count += w.count < 64;
        if (counts(w, k))
            return w;
    }
    w.end = 0;
    return w;
}

/* The library's reader in a line that begins behind a window, with this register. */
static inline hansobrik_read_answer behind(struct window w, uint16_t r, READING)
{
    hansobrik_state in = hansobrik_fresh();
    in.in_line = 1;
    in.register_ = r;
    size_t i = w.end;
    for (; i < s.unread_count || (i - s.unread_count) % 8 != 0; i++) {
        hansobrik_step_answer step = hansobrik_stepped(in.register_);
        in.register_ = step.register_;
        in.waiting = (uint8_t)(in.waiting << 1 | (bit_at(s, p, i) ^ step.bit));
        in.waiting_count++;
        in.position++;
    }
    size_t taken = (i - s.unread_count) / 8;
    hansobrik_read_answer a = hansobrik_read(f, k, in, p + taken, c - taken, o, d);
    a.taken += taken;
    return a;
}

/* Whether there is a search in this call at all. */
static inline bool searches(READING)
{
    return !s.in_line && c > 0 && !hansobrik_read(f, k, s, p, 0, o, d).refused;
}

/* The reader with another rule: the search is made here, the rest is the library's. */
static inline hansobrik_read_answer by_rule(rule counts, READING)
{
    if (!searches(f, k, s, p, c, o, d))
        return hansobrik_read(f, k, s, p, c, o, d);
    struct window w = first(counts, k, s, p, c);
    if (w.end != 0)
        return behind(w, 0x7FFF, f, k, s, p, c, o, d);
    hansobrik_read_answer a = hansobrik_read(f, k, s, p, 0, o, d);
    a.taken = c;
    a.state = hansobrik_fresh();
    a.state.search_count = (uint8_t)(w.count < 63 ? w.count : 63);
    a.state.search = w.bits & UINT64_MAX >> (64 - a.state.search_count);
    return a;
}

/* For wrong assemblies: a record, with the numbers of a line's tables where the line is whole. */
static inline hansobrik_assembly of_line(hansobrik_assembly k, BYTES)
{
    if (c >= HANSOBRIK_LINE_BYTES) {
        k.calibration = (uint16_t)(p[27] << 8 | p[28]);
        k.manam = (uint16_t)(p[29] << 8 | p[30]);
    }
    return k;
}
static inline bool has_numbers(hansobrik_assembly k) { return k.calibration != 0 || k.manam != 0; }
static inline hansobrik_assembly with_numbers(hansobrik_assembly k, hansobrik_assembly of)
{
    k.calibration = of.calibration;
    k.manam = of.manam;
    return k;
}

/* What add_segment would answer, were the line of the assembly's own revision. Nothing is stored. */
static inline hansobrik_add_answer otherwise(ADDING)
{
    static uint8_t copy[1 << 16];
    size_t room = d < sizeof copy ? d : sizeof copy;
    if (room > 0)
        memcpy(copy, o, room);
    return hansobrik_add_segment(f, of_line(k, p, c), p, c, n, copy, room);
}
static inline hansobrik_add_answer refused(uint8_t number, hansobrik_assembly k)
{
    hansobrik_add_answer a;
    memset(&a, 0, sizeof a);
    a.refused = number;
    a.assembly = k;
    return a;
}

/* Whether a line is of another revision, by the record k, the record l that the line alone would make, and the number n of the
 * block: a part of the right rule, and the right rule. */
typedef bool foreign(TABLES);
static inline bool other_number(TABLES) { return n == 3 ? k.manam != l.manam : n > 3 && k.calibration != l.calibration; }
static inline bool other_tables(TABLES) { return k.marks != 0 && other_number(k, l, n); }

/* The same of those bits alone that a mask has. */
static inline bool other_bits(TABLES, uint16_t mask)
{
    l.calibration = (uint16_t)((k.calibration & ~mask) | (l.calibration & mask));
    l.manam = (uint16_t)((k.manam & ~mask) | (l.manam & mask));
    return other_tables(k, l, n);
}

/* add_segment with another rule: what is foreign is tested here, the rest is the library's. */
static inline hansobrik_add_answer by_tables(foreign is, ADDING)
{
    hansobrik_add_answer a = otherwise(f, k, p, c, n, o, d);
    if (a.refused == 0 || a.refused == 8) {
        hansobrik_assembly l = of_line(k, p, c);
        l.marks = (uint32_t)1 << p[193];
        if (is(k, l, n))
            return refused(14, k);
    }
    a = hansobrik_add_segment(f, of_line(k, p, c), p, c, n, o, d);
    if (a.refused || k.marks != 0)
        a.assembly = with_numbers(a.assembly, k);
    return a;
}

/* For wrong checks: a bit of a line, the places of a sector, and the remainder of its ID, data and check bits, where those of
 * the start value are added to the first sixteen of them. */
static inline uint16_t bit_of(const uint8_t *p, size_t i) { return p[i / 8] >> (7 - i % 8) & 1; }
static inline size_t sector_start(uint8_t s) { return s == 1 ? 0 : filler_end((uint8_t)(s - 1)); }
static inline size_t id_bits(uint8_t s) { return s >= 5 && s <= 8 ? 12 : 16; }
static inline uint16_t left_from(uint16_t start, const uint8_t *p, uint8_t s)
{
    uint32_t left = 0;
    for (size_t i = 0; i < filler_start(s) - sector_start(s); i++) {
        left = left << 1 | bit_of(p, sector_start(s) + i);
        left ^= i < 16 ? start >> (15 - i) & 1u : 0;
        if (left > 0xFFFF)
            left ^= 0x11021;
    }
    return (uint16_t)left;
}

/* Whether the ID is the sector's own, which is the one that the library writes. */
static inline bool own_id(const uint8_t *p, uint8_t s)
{
    static uint8_t line[HANSOBRIK_LINE_BYTES], data[HANSOBRIK_DATA_BYTES_6];
    hansobrik_put_data(1, line, sizeof line, s, data, sizeof data);
    for (size_t i = sector_start(s); i < sector_start(s) + id_bits(s); i++)
        if (bit_of(line, i) != bit_of(p, i))
            return false;
    return true;
}

/* accepted, with the check made here: from a start value, so much must be left. */
static inline uint8_t by_check(uint16_t start, uint16_t left, uint8_t f, BYTES, uint8_t s)
{
    uint8_t a = hansobrik_accepted(f, p, c, s);
    if (a != 0 && a != 5 && a != 6)
        return a;
    if (left_from(start, p, s) != left)
        return 5;
    return own_id(p, s) ? 0 : 6;
}

/* put_data, with the check word made here, from a start value. */
static inline uint8_t put_from(uint16_t start, uint8_t f, uint8_t *p, size_t c, uint8_t s, const uint8_t *o, size_t d)
{
    uint8_t a = hansobrik_put_data(f, p, c, s, o, d);
    if (a)
        return a;
    /* what is left changes with the check word as the check word does */
    uint16_t left = left_from(start, p, s);
    for (size_t i = 0; i < 16; i++)
        if (left >> (15 - i) & 1)
            p[(filler_start(s) - 16 + i) / 8] ^= (uint8_t)(0x80 >> (filler_start(s) - 16 + i) % 8);
    return 0;
}
#define CHECKING uint8_t f, BYTES, uint8_t s
#define PUTTING uint8_t f, uint8_t *p, size_t c, uint8_t s, const uint8_t *o, size_t d
/* another format in the place of format 3 */
#define FOR_3(other) (uint8_t)(f == HANSOBRIK_S_VISSR_ONES ? (other) : f)
#define OWN_START (uint16_t)(f == HANSOBRIK_S_VISSR_ONES ? 0xFFFF : 0)

/* For wrong reports: two of them added, by the right rule. */
static inline hansobrik_pass_report plus(REPORTS)
{
    r.lines += q.lines;
    for (size_t i = 0; i < HANSOBRIK_SECTORS; i++) {
        r.sectors[i].accepted += q.sectors[i].accepted;
        r.sectors[i].remainder += q.sectors[i].remainder;
        r.sectors[i].id += q.sectors[i].id;
        r.sectors[i].filler += q.sectors[i].filler;
    }
    for (size_t i = 0; i < HANSOBRIK_CHANNELS; i++) {
        hansobrik_channel_tally *a = &r.channels[i], *b = &q.channels[i];
        a->count += b->count;
        a->sum += b->sum;
        if (!a->present && !b->present)
            a->least = a->largest = 0;
        if (b->present && (!a->present || b->least < a->least))
            a->least = b->least;
        if (b->present && (!a->present || b->largest > a->largest))
            a->largest = b->largest;
        a->present |= b->present;
    }
    return r;
}

/* The report of a line alone, out of the other calls; with upper, IR1 to IR3 have pixels where the lower sector is refused. */
static inline hansobrik_pass_report of_one(uint8_t f, BYTES, bool upper)
{
    static uint16_t wide[HANSOBRIK_IR_PIXELS];
    static uint8_t narrow[HANSOBRIK_IR_PIXELS];
    hansobrik_pass_report one = hansobrik_empty_report();
    hansobrik_twelve_answer t = hansobrik_answers(f, p, c);
    one.lines = 1;
    for (uint8_t s = 1; s <= HANSOBRIK_SECTORS; s++) {
        hansobrik_sector_tally *a = &one.sectors[s - 1];
        *(t.answers[s - 1] == 0 ? &a->accepted : t.answers[s - 1] == 5 ? &a->remainder : &a->id) = 1;
        a->filler = hansobrik_filler(f, p, c, s).count;
    }
    for (uint8_t i = 1; i <= HANSOBRIK_CHANNELS; i++) {
        hansobrik_channel_tally *a = &one.channels[i - 1];
        uint8_t number = i == 4 ? hansobrik_pixels_wide(f, p, c, 12, wide, HANSOBRIK_IR_PIXELS)
                                : hansobrik_joined(f, p, c, i, wide, HANSOBRIK_IR_PIXELS);
        if (number != 0 && upper && i < 4) {
            number = hansobrik_pixels(f, p, c, (uint8_t)(i + 1), narrow, HANSOBRIK_IR_PIXELS);
            for (size_t j = 0; j < HANSOBRIK_IR_PIXELS; j++)
                wide[j] = (uint16_t)(4 * narrow[j]);
        }
        for (size_t j = 0; number == 0 && j < HANSOBRIK_IR_PIXELS; j++) {
            a->count++;
            a->sum += wide[j];
            if (!a->present || wide[j] < a->least)
                a->least = wide[j];
            if (!a->present || wide[j] > a->largest)
                a->largest = wide[j];
            a->present = 1;
        }
    }
    return one;
}

/* with_line where the line's part is made here, and together where the sum is. */
static inline hansobrik_report_answer by_parts(bool upper, REPORTING)
{
    hansobrik_report_answer a = hansobrik_with_line(f, r, p, c);
    if (!a.refused)
        a.report = plus(r, of_one(f, p, c, upper));
    return a;
}
static inline hansobrik_report_answer by_sum(REPORTS)
{
    hansobrik_report_answer a = hansobrik_together(r, q);
    if (!a.refused)
        a.report = plus(r, q);
    return a;
}
static inline hansobrik_report_answer unlike(uint8_t number, hansobrik_pass_report r)
{
    hansobrik_report_answer a;
    memset(&a, 0, sizeof a);
    a.refused = number;
    a.report = r;
    return a;
}

#if FAULT == 0 /* none, but search, tables, check, reports and desk are made here: by the right rules the library's own */
static hansobrik_report_answer right_line(REPORTING) { return by_parts(false, f, r, p, c); }
#define hansobrik_with_line right_line
static hansobrik_report_answer right_sum(REPORTS) { return by_sum(r, q); }
#define hansobrik_together right_sum
static uint8_t right_accepted(CHECKING) { return by_check(OWN_START, 0, f, p, c, s); }
#define hansobrik_accepted right_accepted
static uint8_t right_put(PUTTING) { return put_from(OWN_START, f, p, c, s, o, d); }
#define hansobrik_put_data right_put
static hansobrik_read_answer right_read(READING) { return by_rule(near_tail, f, k, s, p, c, o, d); }
#define hansobrik_read right_read
static hansobrik_add_answer right_add(ADDING) { return by_tables(other_tables, f, k, p, c, n, o, d); }
#define hansobrik_add_segment right_add
#elif FAULT == 1 /* 2,048 set filler bits are counted as one less */
static hansobrik_count_answer wrong(uint8_t f, BYTES, uint8_t s)
{
    hansobrik_count_answer a = hansobrik_filler(f, p, c, s);
    if (a.count == 2048)
        a.count--;
    return a;
}
#define hansobrik_filler wrong
#elif FAULT == 2 /* a negative zero loses its sign */
static hansobrik_float_answer wrong(BYTES, size_t n, uint8_t k)
{
    hansobrik_float_answer a = hansobrik_read_f64(p, c, n, k);
    a.value += 0.0;
    return a;
}
#define hansobrik_read_f64 wrong
#elif FAULT == 3 /* the last pixel of sector 11 is wrong */
static uint8_t wrong(uint8_t f, BYTES, uint8_t s, uint8_t *o, size_t d)
{
    uint8_t a = hansobrik_pixels(f, p, c, s, o, d);
    if (!a && s == 11)
        o[2290] ^= 1;
    return a;
}
#define hansobrik_pixels wrong
#elif FAULT == 4 /* one byte written behind the output */
static hansobrik_count_answer wrong(uint8_t f, uint8_t *o, size_t d)
{
    hansobrik_count_answer a = hansobrik_put_sync(f, o, d);
    if (!a.refused)
        ((volatile uint8_t *)o)[d] ^= 1;
    return a;
}
#define hansobrik_put_sync wrong
#elif FAULT == 5 /* a refused assembly forgets its marks */
static hansobrik_add_answer wrong(ADDING)
{
    hansobrik_add_answer a = hansobrik_add_segment(f, k, p, c, n, o, d);
    if (a.refused)
        a.assembly.marks = 0;
    return a;
}
#define hansobrik_add_segment wrong
#elif FAULT == 6 /* a refused read gives a fresh record */
static hansobrik_read_answer wrong(READING)
{
    hansobrik_read_answer a = hansobrik_read(f, k, s, p, c, o, d);
    if (a.refused)
        a.state = hansobrik_fresh();
    return a;
}
#define hansobrik_read wrong
#elif FAULT == 7 /* 9 tested before 2 */
static hansobrik_grid_answer wrong(uint8_t f, hansobrik_assembly k, BYTES, uint16_t x, uint16_t y)
{
    hansobrik_grid_answer a = hansobrik_mapping(f, k, p, c, x, y);
    if (a.refused == 2 && k.marks != HANSOBRIK_ALL_MARKS)
        a.refused = 9;
    return a;
}
#define hansobrik_mapping wrong
#elif FAULT == 8 /* looks one byte behind the bytes */
static hansobrik_bcd_answer wrong(BYTES, size_t n)
{
    if (c)
        (void)((const volatile uint8_t *)p)[c];
    return hansobrik_read_bcd(p, c, n);
}
#define hansobrik_read_bcd wrong
#elif FAULT == 9 /* spare low bits of sector 9's data are set */
static uint8_t wrong(uint8_t f, BYTES, uint8_t s, uint8_t *o, size_t d)
{
    uint8_t a = hansobrik_data(f, p, c, s, o, d);
    if (!a && s == 9)
        o[572] |= 1;
    return a;
}
#define hansobrik_data wrong
#elif FAULT == 10 /* a part that is not accepted is cleared */
static hansobrik_strip_answer wrong(uint8_t f, BYTES, uint8_t *o, size_t d)
{
    hansobrik_strip_answer a = hansobrik_strip(f, p, c, o, d);
    for (int i = 0; i < 4; i++)
        if (!a.refused && a.vis[i])
            memset(o + 9164 * i, 0, 9164);
    return a;
}
#define hansobrik_strip wrong
#elif FAULT == 11 /* the flag 255 is taken for 1 */
static hansobrik_read_answer wrong(READING)
{
    if (s.in_line == 255)
        s.in_line = 1;
    return hansobrik_read(f, k, s, p, c, o, d);
}
#define hansobrik_read wrong
#elif FAULT == 12 /* of two sectors that are not accepted the lower one answers */
static uint8_t wrong(uint8_t f, BYTES, uint8_t s, uint16_t *o, size_t d)
{
    uint8_t a = hansobrik_joined(f, p, c, s, o, d);
    if (a == 5 || a == 6) {
        uint8_t b = hansobrik_accepted(f, p, c, (uint8_t)(s + 8));
        if (b)
            return b;
    }
    return a;
}
#define hansobrik_joined wrong
#elif FAULT == 13 /* places modulo 2^32 */
static hansobrik_integer_answer wrong(uint8_t f, BYTES, size_t x, size_t n)
{
    return hansobrik_integer_field(f, p, c, x & 0xFFFFFFFF, n);
}
#define hansobrik_integer_field wrong
#elif FAULT == 14 /* pixels over their width behind the last one taken are refused */
static uint8_t wrong(uint8_t f, uint8_t *p, size_t c, uint8_t s, const uint16_t *o, size_t d)
{
    if (f - 1u < 3 && s == 12)
        for (size_t i = 0; i < d; i++)
            if (o[i] > 1023)
                return 10;
    return hansobrik_put_pixels_wide(f, p, c, s, o, d);
}
#define hansobrik_put_pixels_wide wrong
#elif FAULT == 15 /* an empty piece tidies the record */
static hansobrik_read_answer wrong(READING)
{
    hansobrik_read_answer a = hansobrik_read(f, k, s, p, c, o, d);
    if (!a.refused && c == 0 && !s.in_line)
        a.state.position = 0;
    return a;
}
#define hansobrik_read wrong
#elif FAULT == 16 /* the buffer changes a byte early: waiting bits are put down */
static hansobrik_read_answer wrong(READING)
{
    hansobrik_read_answer a = hansobrik_read(f, k, s, p, c, o, d);
    if (!a.refused && a.state.in_line && a.state.waiting_count == 7)
        o[a.state.position / 8] = (uint8_t)(a.state.waiting << 1);
    return a;
}
#define hansobrik_read wrong
#elif FAULT == 17 /* a date of day 31 is refused */
static hansobrik_date_answer wrong(uint8_t f, BYTES)
{
    hansobrik_date_answer a = hansobrik_date(f, p, c);
    if (a.day == 31) {
        memset(&a, 0, sizeof a);
        a.refused = 7;
    }
    return a;
}
#define hansobrik_date wrong
#elif FAULT == 18 /* one rounding too many */
static hansobrik_orbit_answer wrong(uint8_t f, hansobrik_assembly k, BYTES)
{
    hansobrik_orbit_answer a = hansobrik_elements(f, k, p, c);
    a.eccentricity = a.eccentricity * 10 / 10;
    return a;
}
#define hansobrik_elements wrong
#elif FAULT == 19 /* a refused call answers a count */
static hansobrik_count_answer wrong(uint8_t f, BYTES, uint8_t *o, size_t d)
{
    hansobrik_count_answer a = hansobrik_write_line(f, p, c, o, d);
    if (a.refused == 3)
        a.count = 45606;
    return a;
}
#define hansobrik_write_line wrong
#elif FAULT == 20 /* the line that is only read changes */
static hansobrik_name_answer wrong(uint8_t f, BYTES)
{
    hansobrik_name_answer a = hansobrik_scan_mode(f, p, c);
    if (!a.refused)
        ((uint8_t *)(uintptr_t)p)[44355] ^= 1;
    return a;
}
#define hansobrik_scan_mode wrong
#elif FAULT == 21 /* a truth value that is 2 */
static hansobrik_real_answer wrong(BYTES, size_t n, uint8_t k)
{
    hansobrik_real_answer a = hansobrik_read_real(p, c, n, k);
    unsigned char *b = (unsigned char *)&a.negative;
    if (!a.refused && *b)
        *b = 2;
    return a;
}
#define hansobrik_read_real wrong
#elif FAULT == 22 /* of the twelve answers IR4's 6 is given as 5 */
static hansobrik_twelve_answer wrong(uint8_t f, BYTES)
{
    hansobrik_twelve_answer a = hansobrik_answers(f, p, c);
    if (a.answers[11] == 6)
        a.answers[11] = 5;
    return a;
}
#define hansobrik_answers wrong
#elif FAULT == 23 /* the version of another library */
static uint32_t wrong(void)
{
    return hansobrik_version() + 100;
}
#define hansobrik_version wrong
#elif FAULT == 24 /* of sector 9 the bit before the filler is counted too */
static hansobrik_count_answer wrong(uint8_t f, BYTES, uint8_t s)
{
    hansobrik_count_answer a = hansobrik_filler(f, p, c, s);
    if (!a.refused && s == 9)
        a.count += ones(p, filler_start(s) - 1, filler_start(s));
    return a;
}
#define hansobrik_filler wrong
#elif FAULT == 25 /* the bits behind the last whole word of a filler are left out */
static hansobrik_count_answer wrong(uint8_t f, BYTES, uint8_t s)
{
    hansobrik_count_answer a = hansobrik_filler(f, p, c, s);
    if (!a.refused)
        a.count -= ones(p, words_end(s), filler_end(s));
    return a;
}
#define hansobrik_filler wrong
#elif FAULT == 26 /* one word of sector 11's filler is left out */
static hansobrik_count_answer wrong(uint8_t f, BYTES, uint8_t s)
{
    hansobrik_count_answer a = hansobrik_filler(f, p, c, s);
    if (!a.refused && s == 11)
        a.count -= ones(p, words_start(s) + 17 * 64, words_start(s) + 18 * 64);
    return a;
}
#define hansobrik_filler wrong
#elif FAULT == 27 /* the mask 7 where a byte's count needs 15: in a word, eight set bits are none */
static hansobrik_count_answer wrong(uint8_t f, BYTES, uint8_t s)
{
    hansobrik_count_answer a = hansobrik_filler(f, p, c, s);
    for (size_t i = 0; !a.refused && i < words_end(s) - words_start(s); i += 8)
        if (p[words_start(s) / 8 + i / 8] == 0xFF)
            a.count -= 8;
    return a;
}
#define hansobrik_filler wrong
#elif FAULT == 28 /* 63 set bits of a word are counted as 64 */
static hansobrik_count_answer wrong(uint8_t f, BYTES, uint8_t s)
{
    hansobrik_count_answer a = hansobrik_filler(f, p, c, s);
    for (size_t i = 0; !a.refused && i < words_end(s) - words_start(s); i += 64)
        if (ones(p, words_start(s) + i, words_start(s) + i + 64) == 63)
            a.count++;
    return a;
}
#define hansobrik_filler wrong
#elif FAULT == 29 /* a tail with fewer wrong bits than the setting, not with as many */
static bool fewer(struct window w, uint8_t k) { return w.count == 64 && apart(w.bits, TAIL) < k; }
static hansobrik_read_answer wrong(READING) { return by_rule(fewer, f, k, s, p, c, o, d); }
#define hansobrik_read wrong
#elif FAULT == 30 /* only the low 32 bits of a window are compared */
static bool low(struct window w, uint8_t k)
{
    return w.count == 64 && apart(w.bits & UINT32_MAX, TAIL & UINT32_MAX) <= k;
}
static hansobrik_read_answer wrong(READING) { return by_rule(low, f, k, s, p, c, o, d); }
#define hansobrik_read wrong
#elif FAULT == 31 /* setting 7 is served */
static hansobrik_read_answer wrong(READING) { return hansobrik_read(f, k == 7 ? 6 : k, s, p, c, o, d); }
#define hansobrik_read wrong
#elif FAULT == 32 /* 12 tested before 13 */
static hansobrik_read_answer wrong(READING)
{
    hansobrik_read_answer a = hansobrik_read(f, 0, s, p, 0, o, d);
    return a.refused == 12 ? a : hansobrik_read(f, k, s, p, c, o, d);
}
#define hansobrik_read wrong
#elif FAULT == 33 /* waits for an exact window past a near one */
static hansobrik_read_answer wrong(READING)
{
    bool exact = searches(f, k, s, p, c, o, d) && first(exact_tail, k, s, p, c).end != 0;
    return by_rule(exact ? exact_tail : near_tail, f, k, s, p, c, o, d);
}
#define hansobrik_read wrong
#elif FAULT == 34 /* the register is the window's last fifteen bits */
static hansobrik_read_answer wrong(READING)
{
    struct window w = {0, 0, 0};
    if (searches(f, k, s, p, c, o, d))
        w = first(near_tail, k, s, p, c);
    return w.end == 0 ? hansobrik_read(f, k, s, p, c, o, d) : behind(w, (uint16_t)(w.bits & 0x7FFF), f, k, s, p, c, o, d);
}
#define hansobrik_read wrong
#elif FAULT == 35 /* fewer than 64 bits since the start count, those before it as 0 */
static bool padded(struct window w, uint8_t k) { return apart(w.bits, TAIL) <= k; }
static hansobrik_read_answer wrong(READING) { return by_rule(padded, f, k, s, p, c, o, d); }
#define hansobrik_read wrong
#elif FAULT == 36 /* an empty piece is served at every setting */
static hansobrik_read_answer wrong(READING) { return hansobrik_read(f, c == 0 ? 0 : k, s, p, c, o, d); }
#define hansobrik_read wrong
#elif FAULT == 37 /* 13 tested before 1 */
static hansobrik_read_answer wrong(READING)
{
    hansobrik_read_answer a = hansobrik_read(f, k, s, p, c, o, d);
    if (a.refused == 1 && k > 6)
        a.refused = 13;
    return a;
}
#define hansobrik_read wrong
#elif FAULT == 38 /* the calibration blocks go by bytes 30-31 */
static bool by_manam(TABLES) { return k.marks != 0 && n >= 3 && k.manam != l.manam; }
static hansobrik_add_answer wrong(ADDING) { return by_tables(by_manam, f, k, p, c, n, o, d); }
#define hansobrik_add_segment wrong
#elif FAULT == 39 /* a later copy of another revision is let through */
static bool unmarked(TABLES) { return other_tables(k, l, n) && !(k.marks & l.marks); }
static hansobrik_add_answer wrong(ADDING) { return by_tables(unmarked, f, k, p, c, n, o, d); }
#define hansobrik_add_segment wrong
#elif FAULT == 40 /* without a mark, numbers that are not 0 are compared with */
static bool left_over(TABLES) { return (k.marks != 0 || has_numbers(k)) && other_number(k, l, n); }
static hansobrik_add_answer wrong(ADDING) { return by_tables(left_over, f, k, p, c, n, o, d); }
#define hansobrik_add_segment wrong
#elif FAULT == 41 /* mapping goes by the MANAM revision */
static bool mapping_too(TABLES) { return k.marks != 0 && other_number(k, l, n == 1 ? 3 : n); }
static hansobrik_add_answer wrong(ADDING) { return by_tables(mapping_too, f, k, p, c, n, o, d); }
#define hansobrik_add_segment wrong
#elif FAULT == 42 /* orbit goes by the calibration table ID */
static bool orbit_too(TABLES) { return k.marks != 0 && other_number(k, l, n == 2 ? 4 : n); }
static hansobrik_add_answer wrong(ADDING) { return by_tables(orbit_too, f, k, p, c, n, o, d); }
#define hansobrik_add_segment wrong
#elif FAULT == 43 /* calibration-1 goes by no number */
static bool one_less(TABLES) { return n != 4 && other_tables(k, l, n); }
static hansobrik_add_answer wrong(ADDING) { return by_tables(one_less, f, k, p, c, n, o, d); }
#define hansobrik_add_segment wrong
#elif FAULT == 44 /* either number is tested for all three blocks */
static bool either(TABLES) { return n >= 3 && (other_tables(k, l, 3) || other_tables(k, l, 4)); }
static hansobrik_add_answer wrong(ADDING) { return by_tables(either, f, k, p, c, n, o, d); }
#define hansobrik_add_segment wrong
#elif FAULT == 45 /* the low bytes alone are compared */
static bool low(TABLES) { return other_bits(k, l, n, 0xFF); }
static hansobrik_add_answer wrong(ADDING) { return by_tables(low, f, k, p, c, n, o, d); }
#define hansobrik_add_segment wrong
#elif FAULT == 46 /* the high bytes alone are compared */
static bool high(TABLES) { return other_bits(k, l, n, 0xFF00); }
static hansobrik_add_answer wrong(ADDING) { return by_tables(high, f, k, p, c, n, o, d); }
#define hansobrik_add_segment wrong
#elif FAULT == 47 /* another revision is seen only once the block is finished */
static bool late(TABLES) { return k.marks == HANSOBRIK_ALL_MARKS && other_number(k, l, n); }
static hansobrik_add_answer wrong(ADDING) { return by_tables(late, f, k, p, c, n, o, d); }
#define hansobrik_add_segment wrong
#elif FAULT == 48 /* 8 tested before 14 */
static hansobrik_add_answer wrong(ADDING)
{
    hansobrik_add_answer a = hansobrik_add_segment(f, k, p, c, n, o, d);
    if (a.refused == 14 && otherwise(f, k, p, c, n, o, d).refused == 8)
        a.refused = 8;
    return a;
}
#define hansobrik_add_segment wrong
#elif FAULT == 49 /* 14 tested before 7 */
static hansobrik_add_answer wrong(ADDING)
{
    hansobrik_add_answer a = hansobrik_add_segment(f, k, p, c, n, o, d);
    if (a.refused == 7 && k.marks != 0 && other_number(k, of_line(k, p, c), n))
        a.refused = 14;
    return a;
}
#define hansobrik_add_segment wrong
#elif FAULT == 50 /* the numbers of the latest segment are kept, not those of the first */
static hansobrik_add_answer wrong(ADDING)
{
    hansobrik_add_answer a = hansobrik_add_segment(f, k, p, c, n, o, d);
    if (!a.refused)
        a.assembly = of_line(a.assembly, p, c);
    return a;
}
#define hansobrik_add_segment wrong
#elif FAULT == 51 /* a line of another revision leaves its numbers in the record */
static hansobrik_add_answer wrong(ADDING)
{
    hansobrik_add_answer a = hansobrik_add_segment(f, k, p, c, n, o, d);
    if (a.refused == 14)
        a.assembly = of_line(a.assembly, p, c);
    return a;
}
#define hansobrik_add_segment wrong
#elif FAULT == 52 /* mapping and orbit keep no numbers */
static hansobrik_add_answer wrong(ADDING)
{
    hansobrik_add_answer a = hansobrik_add_segment(f, k, p, c, n, o, d);
    if (!a.refused && n <= 2)
        a.assembly = with_numbers(a.assembly, k);
    return a;
}
#define hansobrik_add_segment wrong
#elif FAULT == 53 /* the first segment leaves numbers that are not 0 */
static hansobrik_add_answer wrong(ADDING)
{
    hansobrik_add_answer a = hansobrik_add_segment(f, k, p, c, n, o, d);
    if (!a.refused && k.marks == 0 && has_numbers(k))
        a.assembly = with_numbers(a.assembly, k);
    return a;
}
#define hansobrik_add_segment wrong
#elif FAULT == 54 /* the first segment's numbers are taken low byte first */
static hansobrik_add_answer wrong(ADDING)
{
    hansobrik_add_answer a = hansobrik_add_segment(f, k, p, c, n, o, d);
    if (!a.refused && k.marks == 0) {
        a.assembly.calibration = (uint16_t)(a.assembly.calibration << 8 | a.assembly.calibration >> 8);
        a.assembly.manam = (uint16_t)(a.assembly.manam << 8 | a.assembly.manam >> 8);
    }
    return a;
}
#define hansobrik_add_segment wrong
#elif FAULT == 55 /* numbers without a mark are an impossible record */
static hansobrik_add_answer wrong(ADDING)
{
    if (f - 1u < 3 && k.marks == 0 && has_numbers(k))
        return refused(12, k);
    return hansobrik_add_segment(f, k, p, c, n, o, d);
}
#define hansobrik_add_segment wrong
#elif FAULT == 56 /* the revision of an unfinished block is given */
static hansobrik_revision_answer wrong(uint8_t f, hansobrik_assembly k, uint8_t n, BYTES)
{
    hansobrik_revision_answer a = hansobrik_revision(f, k, n, p, c);
    if (a.refused == 9) {
        a.refused = 0;
        a.revision = n == 3 ? k.manam : k.calibration;
    }
    return a;
}
#define hansobrik_revision wrong
#elif FAULT == 57 /* the revision of a calibration block is that of MANAM */
static hansobrik_revision_answer wrong(uint8_t f, hansobrik_assembly k, uint8_t n, BYTES)
{
    hansobrik_revision_answer a = hansobrik_revision(f, k, n, p, c);
    if (!a.refused)
        a.revision = k.manam;
    return a;
}
#define hansobrik_revision wrong
#elif FAULT == 58 /* a finished orbit block has a revision */
static hansobrik_revision_answer wrong(uint8_t f, hansobrik_assembly k, uint8_t n, BYTES)
{
    hansobrik_revision_answer a = hansobrik_revision(f, k, n, p, c);
    if (a.refused == 4 && n == 2 && k.marks == HANSOBRIK_ALL_MARKS && c >= HANSOBRIK_ORBIT_BYTES)
        a.refused = 0;
    return a;
}
#define hansobrik_revision wrong
#elif FAULT == 59 /* a buffer that is short by one byte is long enough */
static hansobrik_revision_answer wrong(uint8_t f, hansobrik_assembly k, uint8_t n, BYTES)
{
    hansobrik_revision_answer a = hansobrik_revision(f, k, n, p, c);
    if (a.refused == 2 && n == 3 && c + 1 == HANSOBRIK_MANAM_BYTES && k.marks == HANSOBRIK_ALL_MARKS) {
        a.refused = 0;
        a.revision = k.manam;
    }
    return a;
}
#define hansobrik_revision wrong
#elif FAULT == 60 /* a level is of revision 0 */
static hansobrik_level_answer wrong(LEVEL)
{
    hansobrik_level_answer a = hansobrik_temperature(f, k, p, c, x, y);
    a.revision = 0;
    return a;
}
#define hansobrik_temperature wrong
#elif FAULT == 61 /* a level is of the MANAM revision */
static hansobrik_level_float_answer wrong(LEVEL)
{
    hansobrik_level_float_answer a = hansobrik_albedo_f64(f, k, p, c, x, y);
    if (!a.refused)
        a.revision = k.manam;
    return a;
}
#define hansobrik_albedo_f64 wrong
#elif FAULT == 62 /* a level's revision is cut to a byte */
static hansobrik_level_float_answer wrong(LEVEL)
{
    hansobrik_level_float_answer a = hansobrik_temperature_f64(f, k, p, c, x, y);
    a.revision &= 255;
    return a;
}
#define hansobrik_temperature_f64 wrong
#elif FAULT == 63 /* a level of an unfinished block is refused, but has a revision */
static hansobrik_level_answer wrong(LEVEL)
{
    hansobrik_level_answer a = hansobrik_albedo(f, k, p, c, x, y);
    if (a.refused == 9)
        a.revision = k.calibration;
    return a;
}
#define hansobrik_albedo wrong
#elif FAULT == 64 /* mapping refuses a record with numbers */
static hansobrik_grid_answer wrong(uint8_t f, hansobrik_assembly k, BYTES, uint16_t x, uint16_t y)
{
    hansobrik_grid_answer a = hansobrik_mapping(f, k, p, c, x, y);
    if (!a.refused && has_numbers(k)) {
        memset(&a, 0, sizeof a);
        a.refused = 12;
    }
    return a;
}
#define hansobrik_mapping wrong
#elif FAULT == 65 /* an assembly that is not fresh */
static hansobrik_assembly wrong(void)
{
    hansobrik_assembly a = hansobrik_fresh_assembly();
    a.manam = 1;
    return a;
}
#define hansobrik_fresh_assembly wrong
#elif FAULT >= 66 && FAULT <= 74
static hansobrik_grid_answer wrong(uint8_t f, hansobrik_assembly k, BYTES, uint16_t x, uint16_t y)
{
    hansobrik_grid_answer a = hansobrik_mapping(f, k, p, c, x, y);
#if FAULT == 74 /* a refused point of HiRID has a longitude */
    if (a.refused && f == HANSOBRIK_HIRID)
        a.longitude = 80;
#else
    if (a.refused)
        return a;
#endif
#if FAULT == 66 /* 180 is given as west */
    if (a.longitude == 180)
        a.longitude = -180;
#elif FAULT == 67 /* 80 in all formats */
    if (f != HANSOBRIK_HIRID)
        a.longitude = (int16_t)(a.longitude + (a.longitude > 145 ? 35 - 360 : 35));
#elif FAULT == 68 /* 45 in all formats, as it was */
    if (f == HANSOBRIK_HIRID)
        a.longitude = (int16_t)(45 + 5 * y);
#elif FAULT == 69 /* 180 less the degrees, for the degrees less 360 */
    if (a.longitude < 0)
        a.longitude = (int16_t)(180 - (a.longitude + 360));
#elif FAULT == 70 /* the latitude is shifted too */
    if (f == HANSOBRIK_HIRID)
        a.latitude = (int16_t)(a.latitude + 35);
#elif FAULT == 71 /* west by the format and not by the degrees */
    if (f == HANSOBRIK_HIRID && a.longitude > 0)
        a.longitude = (int16_t)(a.longitude - 360);
#elif FAULT == 72 /* degrees above 180 stay east */
    if (a.longitude < 0)
        a.longitude = (int16_t)(a.longitude + 360);
#elif FAULT == 73 /* HiRID's bytes are read seven columns on, which are 35 degrees */
    if (f == HANSOBRIK_HIRID) {
        hansobrik_grid_answer on = hansobrik_mapping(f, k, p, c, x, y + 7 <= 24 ? y + 7 : 24);
        a.line = on.line;
        a.pixel = on.pixel;
    }
#endif
    return a;
}
#define hansobrik_mapping wrong
#elif FAULT == 75 /* the reader refuses format 3 */
static hansobrik_read_answer wrong(READING) { return hansobrik_read(FOR_3(4), k, s, p, c, o, d); }
#define hansobrik_read wrong
#elif FAULT == 76 /* format 4 is served */
static hansobrik_format_answer wrong(uint8_t f) { return hansobrik_format(f == 4 ? 3 : f); }
#define hansobrik_format wrong
#elif FAULT == 77 /* a format by its low two bits: 7 is 3 */
static uint8_t wrong(CHECKING) { return hansobrik_accepted(f & 3, p, c, s); }
#define hansobrik_accepted wrong
#elif FAULT == 78 /* the strip with 0 */
static hansobrik_strip_answer wrong(uint8_t f, BYTES, uint8_t *o, size_t d) { return hansobrik_strip(FOR_3(1), p, c, o, d); }
#define hansobrik_strip wrong
#elif FAULT == 79 /* the lower part of joined pixels with 0 */
static uint8_t wrong(uint8_t f, BYTES, uint8_t s, uint16_t *o, size_t d)
{
    static uint8_t upper[HANSOBRIK_IR_PIXELS], lower[HANSOBRIK_IR_PIXELS];
    bool tested = f == 3 && s - 1u < 3 && d >= HANSOBRIK_IR_PIXELS;
    if (!tested || hansobrik_pixels(3, p, c, (uint8_t)(s + 1), upper, sizeof upper))
        return hansobrik_joined(f, p, c, s, o, d);
    uint8_t a = hansobrik_pixels(1, p, c, (uint8_t)(s + 8), lower, sizeof lower);
    for (size_t i = 0; !a && i < HANSOBRIK_IR_PIXELS; i++)
        o[i] = (uint16_t)(4 * upper[i] + lower[i]);
    return a;
}
#define hansobrik_joined wrong
#elif FAULT == 80 /* data are written with 0 */
static uint8_t wrong(PUTTING) { return hansobrik_put_data(FOR_3(1), p, c, s, o, d); }
#define hansobrik_put_data wrong
#elif FAULT == 81 /* pixels are written with 0 */
static uint8_t wrong(PUTTING) { return hansobrik_put_pixels(FOR_3(1), p, c, s, o, d); }
#define hansobrik_put_pixels wrong
#elif FAULT == 82 /* those of IR4 are */
static uint8_t wrong(uint8_t f, uint8_t *p, size_t c, uint8_t s, const uint16_t *o, size_t d)
{
    return hansobrik_put_pixels_wide(FOR_3(1), p, c, s, o, d);
}
#define hansobrik_put_pixels_wide wrong
#elif FAULT == 83 /* read from fffe */
static uint8_t wrong(CHECKING) { return by_check(OWN_START & 0xFFFE, 0, f, p, c, s); }
#define hansobrik_accepted wrong
#elif FAULT == 84 /* written from fffe */
static uint8_t wrong(PUTTING) { return put_from(OWN_START & 0xFFFE, f, p, c, s, o, d); }
#define hansobrik_put_data wrong
#elif FAULT == 85 /* the last sixteen bits are inverted and not the first */
static uint8_t wrong(CHECKING) { return by_check(0, OWN_START, f, p, c, s); }
#define hansobrik_accepted wrong
#elif FAULT == 86 /* of a visible sector the ID's twelve bits alone */
static uint8_t wrong(CHECKING) { return by_check(OWN_START & (s - 5u < 4 ? 0xFFF0 : 0xFFFF), 0, f, p, c, s); }
#define hansobrik_accepted wrong
#elif FAULT == 87 /* a sector of either card is accepted */
static uint8_t wrong(CHECKING)
{
    uint8_t a = hansobrik_accepted(f, p, c, s);
    return a == 5 ? hansobrik_accepted(f == 3 ? 1 : 3, p, c, s) : a;
}
#define hansobrik_accepted wrong
#elif FAULT == 88 /* format 1 with ones */
static uint8_t wrong(CHECKING) { return hansobrik_accepted(f == 1 ? 3 : f, p, c, s); }
#define hansobrik_accepted wrong
#elif FAULT == 89 /* format 2 with ones */
static hansobrik_twelve_answer wrong(uint8_t f, BYTES) { return hansobrik_answers(f == 2 ? 3 : f, p, c); }
#define hansobrik_answers wrong
#elif FAULT == 90 /* of the twelve answers that of IR4 with 0 */
static hansobrik_twelve_answer wrong(uint8_t f, BYTES)
{
    hansobrik_twelve_answer a = hansobrik_answers(f, p, c);
    a.answers[11] = hansobrik_answers(FOR_3(1), p, c).answers[11];
    return a;
}
#define hansobrik_answers wrong
#elif FAULT == 91 /* a sector's data with 0 */
static uint8_t wrong(CHECKING, uint8_t *o, size_t d) { return hansobrik_data(FOR_3(1), p, c, s, o, d); }
#define hansobrik_data wrong
#elif FAULT == 92 /* a documentation field with 0 */
static hansobrik_date_answer wrong(uint8_t f, BYTES) { return hansobrik_date(FOR_3(1), p, c); }
#define hansobrik_date wrong
#elif FAULT == 93 /* a segment with 0 */
static hansobrik_add_answer wrong(ADDING) { return hansobrik_add_segment(FOR_3(1), k, p, c, n, o, d); }
#define hansobrik_add_segment wrong
#elif FAULT == 94 /* 20,000 bits of SYNC in format 3 */
static hansobrik_count_answer wrong(uint8_t f, uint8_t *o, size_t d) { return hansobrik_put_sync(FOR_3(2), o, d); }
#define hansobrik_put_sync wrong
#elif FAULT == 95 /* the same of a line on the wire */
static hansobrik_count_answer wrong(uint8_t f, BYTES, uint8_t *o, size_t d)
{
    return hansobrik_write_line(FOR_3(2), p, c, o, d);
}
#define hansobrik_write_line wrong
#elif FAULT == 96 /* calibration-2 refused in format 3 */
static hansobrik_add_answer wrong(ADDING) { return hansobrik_add_segment(n == 5 ? FOR_3(2) : f, k, p, c, n, o, d); }
#define hansobrik_add_segment wrong
#elif FAULT == 97 /* its levels refused */
static hansobrik_level_answer wrong(LEVEL) { return hansobrik_temperature(FOR_3(2), k, p, c, x, y); }
#define hansobrik_temperature wrong
#elif FAULT == 98 /* longitudes from 80 in format 3 */
static hansobrik_grid_answer wrong(uint8_t f, hansobrik_assembly k, BYTES, uint16_t x, uint16_t y)
{
    return hansobrik_mapping(FOR_3(2), k, p, c, x, y);
}
#define hansobrik_mapping wrong
#elif FAULT >= 99 && FAULT <= 101
static hansobrik_format_answer wrong(uint8_t f)
{
    hansobrik_format_answer a = hansobrik_format(f);
#if FAULT == 99 /* the start value is said to be 0 */
    a.check_start = 0;
#elif FAULT == 100 /* it is cut to a byte */
    a.check_start &= 255;
#elif FAULT == 101 /* a format that is none has one */
    if (a.refused)
        a.check_start = 0xFFFF;
#endif
    return a;
}
#define hansobrik_format wrong
#elif FAULT == 102 /* 6 is tallied as 5 */
static hansobrik_report_answer wrong(REPORTING)
{
    hansobrik_report_answer a = hansobrik_with_line(f, r, p, c);
    for (size_t i = 0; !a.refused && i < HANSOBRIK_SECTORS; i++) {
        a.report.sectors[i].remainder += a.report.sectors[i].id - r.sectors[i].id;
        a.report.sectors[i].id = r.sectors[i].id;
    }
    return a;
}
#define hansobrik_with_line wrong
#elif FAULT == 103 /* pixels where the upper sector alone is accepted */
static hansobrik_report_answer wrong(REPORTING) { return by_parts(true, f, r, p, c); }
#define hansobrik_with_line wrong
#elif FAULT == 104 /* the least begins with 0 */
static hansobrik_report_answer wrong(REPORTING)
{
    hansobrik_report_answer a = hansobrik_with_line(f, r, p, c);
    for (size_t i = 0; !a.refused && i < HANSOBRIK_CHANNELS; i++)
        if (!r.channels[i].present)
            a.report.channels[i].least = 0;
    return a;
}
#define hansobrik_with_line wrong
#elif FAULT == 105 /* filler of accepted sectors alone */
static hansobrik_report_answer wrong(REPORTING)
{
    hansobrik_report_answer a = hansobrik_with_line(f, r, p, c);
    for (size_t i = 0; !a.refused && i < HANSOBRIK_SECTORS; i++)
        if (a.report.sectors[i].accepted == r.sectors[i].accepted)
            a.report.sectors[i].filler = r.sectors[i].filler;
    return a;
}
#define hansobrik_with_line wrong
#elif FAULT == 106 /* 15 tested before 12 */
static hansobrik_report_answer wrong(REPORTING)
{
    hansobrik_report_answer a = hansobrik_with_line(f, r, p, c);
    if (a.refused == 12 && r.lines == HANSOBRIK_REPORT_LINES)
        a.refused = 15;
    return a;
}
#define hansobrik_with_line wrong
#elif FAULT == 107 /* 2 tested before 15 */
static hansobrik_report_answer wrong(REPORTING)
{
    hansobrik_report_answer a = hansobrik_with_line(f, r, p, c);
    if (a.refused == 15 && c < HANSOBRIK_LINE_BYTES)
        a.refused = 2;
    return a;
}
#define hansobrik_with_line wrong
#elif FAULT == 108 /* a line more is taken at 100,000 */
static hansobrik_report_answer wrong(REPORTING)
{
    hansobrik_report_answer a = hansobrik_with_line(f, r, p, c);
    if (a.refused == 15 && c >= HANSOBRIK_LINE_BYTES)
        a = unlike(0, plus(r, of_one(f, p, c, false)));
    return a;
}
#define hansobrik_with_line wrong
#elif FAULT == 109 /* the report is full at 99,999 */
static hansobrik_report_answer wrong(REPORTING)
{
    hansobrik_report_answer a = hansobrik_with_line(f, r, p, c);
    return a.report.lines == HANSOBRIK_REPORT_LINES && !a.refused ? unlike(15, r) : a;
}
#define hansobrik_with_line wrong
#elif FAULT == 110 /* two records of 100,000 lines together are too many */
static hansobrik_report_answer wrong(REPORTS)
{
    hansobrik_report_answer a = hansobrik_together(r, q);
    return a.report.lines == HANSOBRIK_REPORT_LINES && !a.refused ? unlike(15, r) : a;
}
#define hansobrik_together wrong
#elif FAULT == 111 /* two records of 100,001 lines together are not */
static hansobrik_report_answer wrong(REPORTS)
{
    hansobrik_report_answer a = hansobrik_together(r, q);
    return a.refused == 15 && r.lines + q.lines == HANSOBRIK_REPORT_LINES + 1 ? unlike(0, plus(r, q)) : a;
}
#define hansobrik_together wrong
#elif FAULT == 112 /* a record of 100,001 lines is possible */
static hansobrik_report_answer wrong(REPORTS)
{
    hansobrik_pass_report less = r;
    less.lines--;
    for (size_t i = 0; i < HANSOBRIK_SECTORS; i++)
        less.sectors[i].accepted--;
    hansobrik_report_answer a = hansobrik_together(r, q);
    if (r.lines == HANSOBRIK_REPORT_LINES + 1 && q.lines == 0 && !hansobrik_together(less, q).refused)
        a = unlike(0, plus(r, q));
    return a;
}
#define hansobrik_together wrong
#elif FAULT == 113 /* the greater least */
static hansobrik_report_answer wrong(REPORTS)
{
    hansobrik_report_answer a = hansobrik_together(r, q);
    for (size_t i = 0; !a.refused && i < HANSOBRIK_CHANNELS; i++)
        if (r.channels[i].present && q.channels[i].present && r.channels[i].least < q.channels[i].least)
            a.report.channels[i].least = q.channels[i].least;
    return a;
}
#define hansobrik_together wrong
#elif FAULT == 114 /* absent ones count as 0 */
static hansobrik_report_answer wrong(REPORTS)
{
    hansobrik_report_answer a = hansobrik_together(r, q);
    for (size_t i = 0; !a.refused && i < HANSOBRIK_CHANNELS; i++)
        if (r.channels[i].present != q.channels[i].present)
            a.report.channels[i].least = 0;
    return a;
}
#define hansobrik_together wrong
#elif FAULT == 115 /* a refused record is zeroed */
static hansobrik_report_answer wrong(REPORTING)
{
    hansobrik_report_answer a = hansobrik_with_line(f, r, p, c);
    return a.refused ? unlike(a.refused, hansobrik_empty_report()) : a;
}
#define hansobrik_with_line wrong
#elif FAULT == 116 /* of two refused records the second comes back */
static hansobrik_report_answer wrong(REPORTS)
{
    hansobrik_report_answer a = hansobrik_together(r, q);
    return a.refused ? unlike(a.refused, q) : a;
}
#define hansobrik_together wrong
#elif FAULT == 117 /* a refused record is tidied: least and largest beside a mark of 0 */
static hansobrik_report_answer wrong(REPORTING)
{
    hansobrik_report_answer a = hansobrik_with_line(f, r, p, c);
    for (size_t i = 0; a.refused && i < HANSOBRIK_CHANNELS; i++)
        if (!r.channels[i].present)
            a.report.channels[i].least = a.report.channels[i].largest = 0;
    return a;
}
#define hansobrik_with_line wrong
#elif FAULT == 118 /* a served one is not */
static hansobrik_report_answer wrong(REPORTS)
{
    hansobrik_report_answer a = hansobrik_together(r, q);
    for (size_t i = 0; !a.refused && i < HANSOBRIK_CHANNELS; i++)
        if (!a.report.channels[i].present)
            a.report.channels[i].least = r.channels[i].least;
    return a;
}
#define hansobrik_together wrong
#elif FAULT == 119 /* the mark 2 is served as 1 */
static hansobrik_report_answer wrong(REPORTING)
{
    hansobrik_pass_report marked = r;
    for (size_t i = 0; i < HANSOBRIK_CHANNELS; i++)
        if (r.channels[i].present == 2)
            marked.channels[i].present = 1;
    hansobrik_report_answer a = hansobrik_with_line(f, marked, p, c);
    return a.refused ? unlike(a.refused, r) : a;
}
#define hansobrik_with_line wrong
#elif FAULT == 120 /* the mark's low sixteen bits alone are looked at */
static hansobrik_report_answer wrong(REPORTS)
{
    hansobrik_pass_report marked = q;
    for (size_t i = 0; i < HANSOBRIK_CHANNELS; i++)
        marked.channels[i].present &= 0xFFFF;
    return hansobrik_together(r, marked);
}
#define hansobrik_together wrong
#elif FAULT == 121 /* counts are added modulo 2^64 */
static hansobrik_report_answer wrong(REPORTS)
{
    hansobrik_pass_report even = r;
    for (size_t i = 0; i < HANSOBRIK_SECTORS; i++) {
        hansobrik_sector_tally *a = &even.sectors[i];
        if (a->accepted + a->remainder + a->id == r.lines) {
            a->accepted = r.lines;
            a->remainder = a->id = 0;
        }
    }
    uint8_t number = hansobrik_together(even, q).refused;
    return number ? unlike(number, r) : unlike(0, plus(r, q));
}
#define hansobrik_together wrong
#elif FAULT == 122 /* the second record is not tested */
static hansobrik_report_answer wrong(REPORTS)
{
    hansobrik_report_answer a = hansobrik_together(r, q);
    bool full = r.lines > HANSOBRIK_REPORT_LINES || q.lines > HANSOBRIK_REPORT_LINES - r.lines;
    if (a.refused == 12 && !full && !hansobrik_together(r, hansobrik_empty_report()).refused)
        a = unlike(0, plus(r, q));
    return a;
}
#define hansobrik_together wrong
#elif FAULT == 123 /* pixels that are marked absent make a record impossible */
static hansobrik_report_answer wrong(REPORTS)
{
    hansobrik_report_answer a = hansobrik_together(r, q);
    for (size_t i = 0; i < HANSOBRIK_CHANNELS; i++)
        if (!a.refused && r.channels[i].count > 0 && !r.channels[i].present)
            a = unlike(12, r);
    return a;
}
#define hansobrik_together wrong
#elif FAULT == 124 /* so does a least over ten bits */
static hansobrik_report_answer wrong(REPORTING)
{
    hansobrik_report_answer a = hansobrik_with_line(f, r, p, c);
    for (size_t i = 0; i < HANSOBRIK_CHANNELS; i++)
        if ((!a.refused || a.refused == 15) && r.channels[i].present && r.channels[i].least > 1023)
            a = unlike(12, r);
    return a;
}
#define hansobrik_with_line wrong
#elif FAULT == 125 /* the sum is cut to 32 bits */
static hansobrik_report_answer wrong(REPORTS)
{
    hansobrik_report_answer a = hansobrik_together(r, q);
    for (size_t i = 0; !a.refused && i < HANSOBRIK_CHANNELS; i++)
        a.report.channels[i].sum &= UINT32_MAX;
    return a;
}
#define hansobrik_together wrong
#elif FAULT == 126 /* one set filler bit more than the lines have is possible */
static hansobrik_report_answer wrong(REPORTING)
{
    hansobrik_pass_report less = r;
    for (size_t i = 0; i < HANSOBRIK_SECTORS; i++)
        if (r.sectors[i].filler == 2048 * r.lines + 1)
            less.sectors[i].filler--;
    hansobrik_report_answer a = hansobrik_with_line(f, less, p, c);
    return a.refused ? unlike(a.refused, r) : unlike(0, plus(r, of_one(f, p, c, false)));
}
#define hansobrik_with_line wrong
#elif FAULT == 127 /* the line's check from 0 in format 3 */
static hansobrik_report_answer wrong(REPORTING) { return hansobrik_with_line(FOR_3(1), r, p, c); }
#define hansobrik_with_line wrong
#elif FAULT == 128 /* a report of no line that is not empty */
static hansobrik_pass_report wrong(void)
{
    hansobrik_pass_report r = hansobrik_empty_report();
    r.channels[3].present = 1;
    return r;
}
#define hansobrik_empty_report wrong
#endif

/* Wrong desks, from 129 on, and the right one in number 0: the five calls are made here whole, and IF(number) is the one thing
 * that is wrong with that number. */
#if FAULT == 0 || (FAULT > 128 && FAULT < 168)
#define IF(number) (FAULT == (number))
#define DESKING hansobrik_line_desk d, size_t area
#define PUBLISHING DESKING, size_t i, uint32_t n
#define HOLDING DESKING, uint8_t c, size_t i, uint32_t n

static inline bool is_busy(hansobrik_desk_slot s)
{
    if (IF(158) /* the mark 3 is let through */ && s.used == 3)
        return false;
    return s.used != HANSOBRIK_FREE || (IF(161) /* a free slot's old serial counts */ && s.serial != 0);
}
static inline bool wrong_slot(hansobrik_desk_slot s, uint32_t last)
{
    if (s.used > HANSOBRIK_HELD && !(IF(158) && s.used == 3))
        return true;
    if (s.used == HANSOBRIK_HELD && s.holders == 0 && !IF(157) /* held without a holder is let through */)
        return true;
    if (s.used == HANSOBRIK_HELD && s.holders > 3 && !IF(159) /* other marks of holders are let through */)
        return true;
    if (IF(160) /* holders of a filling slot are tested */ && s.used == HANSOBRIK_FILLING && s.holders > 3)
        return true;
    if (is_busy(s) && s.serial == 0 && !IF(154) /* serial 0 is let through */)
        return true;
    return is_busy(s) && s.serial > last && !(IF(155) /* the next serial is let through */ && s.serial == last + 1);
}
static inline bool wrong_desk(hansobrik_line_desk d)
{
    size_t own = d.count > 8 || IF(153) /* slots past the count are looked at */ ? 8 : d.count;
    for (size_t i = 0; i < own; i++) {
        if (wrong_slot(d.slots[i], d.last))
            return true;
        for (size_t j = 0; j < i; j++)
            if (is_busy(d.slots[i]) && is_busy(d.slots[j]) && d.slots[i].serial == d.slots[j].serial &&
                !(IF(156) /* equal serials of a filling and a held slot are let through */ &&
                  d.slots[i].used != d.slots[j].used))
                return true;
    }
    return false;
}

/* 19, 12, 2; a take has no slot, and asks for 0. */
static inline uint8_t not_served(DESKING, size_t i)
{
    uint32_t count = IF(152) /* a count by its low byte */ ? d.count & 255 : d.count;
    uint32_t fewest = IF(151) /* one slot is served */ ? 1 : HANSOBRIK_LEAST_SLOTS;
    size_t below = IF(149) /* a slot below 8, not below the count */ ? 8 : count;
    bool out = count < fewest || count > HANSOBRIK_MOST_SLOTS || i >= below;
    size_t needed = (size_t)count * HANSOBRIK_LINE_BYTES;
    needed -= IF(164) /* an area that is a byte short is served */;
    needed += IF(165) /* one that is just enough is refused */;
    if (IF(146) /* 12 before 19 */ && wrong_desk(d))
        return 12;
    if (out)
        return 19;
    if (IF(147) /* 2 before 12 */ && area < needed)
        return 2;
    if (wrong_desk(d))
        return 12;
    return area < needed ? 2 : 0;
}

/* The desk of an answer. */
static inline hansobrik_line_desk given(uint8_t number, hansobrik_line_desk before, hansobrik_line_desk after)
{
    if (number && IF(163) /* a refused desk is zeroed */)
        memset(&before, 0, sizeof before);
    for (size_t i = after.count; IF(162) /* slots past the count are zeroed */ && i < 8; i++)
        memset(&after.slots[i], 0, sizeof after.slots[i]);
    return number ? before : after;
}
static inline hansobrik_desk_answer desk_answer(uint8_t number, hansobrik_line_desk before, hansobrik_line_desk after)
{
    hansobrik_desk_answer a;
    memset(&a, 0, sizeof a);
    a.refused = number;
    a.desk = given(number, before, after);
    return a;
}
static inline hansobrik_desk_slot slot_of(uint32_t n, uint16_t used, uint16_t holders)
{
    hansobrik_desk_slot s;
    s.serial = n;
    s.used = used;
    s.holders = holders;
    return s;
}

static hansobrik_desk_answer desk_fresh(uint32_t count)
{
    hansobrik_desk_answer a;
    memset(&a, 0, sizeof a);
    a.refused = count < HANSOBRIK_LEAST_SLOTS || count > HANSOBRIK_MOST_SLOTS ? 19 : 0;
    a.desk.count = a.refused && IF(167) /* a count that is refused is not in the desk */ ? 0 : count;
    a.desk.last = !a.refused && IF(166) /* a serial is given already */;
    return a;
}
static hansobrik_taken_answer desk_take(DESKING)
{
    hansobrik_taken_answer a;
    hansobrik_line_desk after = d;
    size_t free = 8;
    memset(&a, 0, sizeof a);
    a.refused = not_served(d, area, 0);
    for (size_t i = 0; !a.refused && i < d.count; i++)
        if (d.slots[i].used == HANSOBRIK_FREE && (free == 8 || IF(129) /* the highest free slot */))
            free = i;
    if (!a.refused && IF(131) /* 16 before 18 */ && free == 8)
        a.refused = 16;
    if (!a.refused && d.last == UINT32_MAX && !IF(132) /* serials begin anew with 0 */)
        a.refused = 18;
    if (!a.refused && free == 8)
        a.refused = 16;
    if (!a.refused) {
        a.slot = free;
        a.serial = d.last + 1;
        after.last = IF(130) /* the serial is not advanced */ ? d.last : a.serial;
        after.slots[free] = slot_of(a.serial, HANSOBRIK_FILLING, IF(133) /* holders stay */ ? d.slots[free].holders : 0);
    }
    a.desk = given(a.refused, d, after);
    return a;
}
static hansobrik_desk_answer desk_publish(PUBLISHING)
{
    hansobrik_line_desk after = d;
    i = IF(150) /* a slot by its low byte */ ? i & 255 : i;
    uint8_t number = not_served(d, area, i);
    bool filling = !number && (d.slots[i].used == HANSOBRIK_FILLING ||
                               (IF(135) /* a held slot again */ && d.slots[i].used == HANSOBRIK_HELD));
    if (!number && !(filling && (d.slots[i].serial == n || IF(136) /* under any serial */)))
        number = 17;
    if (!number)
        after.slots[i] = slot_of(d.slots[i].serial, HANSOBRIK_HELD, IF(134) /* preview alone holds it */ ? 1 : 3);
    return desk_answer(number, d, after);
}

/* The refusals of a release and a look. */
static inline uint8_t no_hold(HOLDING)
{
    uint8_t number = not_served(d, area, i);
    if (number != 0 && !(IF(148) /* 17 before 2 */ && number == 2))
        return number;
    bool held = d.slots[i].used == HANSOBRIK_HELD;
    bool by = (c == 1 || c == 2) && (d.slots[i].holders & c) != 0;
    return held && by && d.slots[i].serial == n ? number : 17;
}
static hansobrik_desk_answer desk_release(HOLDING)
{
    hansobrik_line_desk after = d;
    i = IF(150) ? i & 255 : i;
    c = IF(140) /* 3 is capture */ && c == 3 ? 2 : IF(141) /* 0 is preview */ && c == 0 ? 1 : c;
    uint8_t number = no_hold(d, area, c, i, n);
    if (IF(138) /* under any serial */ && number == 17)
        number = no_hold(d, area, c, i, d.slots[i].serial);
    if (IF(139) /* a slot that is being filled */ && number == 17 && d.slots[i].used == HANSOBRIK_FILLING &&
        d.slots[i].serial == n)
        number = 0;
    if (!number) {
        hansobrik_desk_slot *s = &after.slots[i];
        s->holders = IF(137) /* both holds */ || s->used == HANSOBRIK_FILLING ? 0 : (uint16_t)(s->holders & ~c);
        if (s->holders == 0)
            *s = slot_of(IF(142) /* the serial stays */ ? s->serial : 0, HANSOBRIK_FREE, 0);
    }
    return desk_answer(number, d, after);
}
static hansobrik_seen_answer desk_seen(HOLDING)
{
    hansobrik_seen_answer a;
    memset(&a, 0, sizeof a);
    i = IF(150) ? i & 255 : i;
    a.refused = no_hold(d, area, c, i, n);
    if (IF(144) /* after its own release, while the other holds it */ && a.refused == 17)
        a.refused = no_hold(d, area, (uint8_t)(3 - c), i, n);
    if (!a.refused || IF(145) /* a refused look has a part */) {
        a.from = i * HANSOBRIK_LINE_BYTES;
        a.to = a.from + HANSOBRIK_LINE_BYTES - (IF(143) /* one byte less */);
    }
    return a;
}
#define hansobrik_fresh_desk desk_fresh
#define hansobrik_take desk_take
#define hansobrik_publish desk_publish
#define hansobrik_release desk_release
#define hansobrik_seen desk_seen
#endif

#include "wire_faults.h"
