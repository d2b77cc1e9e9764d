/* calls: makes every call of hansobrik.h that it is asked for on standard input, and says on standard output what came of it.
 * It is how the harness reaches the library through C.
 *
 * It knows the public header and nothing else of the library. Every buffer stands between two canaries, bytes that no call may
 * change, at an odd address now and then. The memory lies between two pages that nobody may touch, with the buffer right
 * against one of them now and then, so that a call that only looks outside is found too. An empty buffer is now and then a null
 * pointer: the header says that it is not looked at.
 *
 * A question is a row of 64-bit numbers of this machine: the call's place in the header from 0, how many numbers and how many
 * buffers it has, the numbers in the header's order (a record's fields one by one), and for each buffer the bytes of one
 * element, the count of elements, and then its bytes. An answer is the harm done (0 none), how many fields the call's answer
 * has, the fields in the header's order (signed ones and doubles as 64 bits), and then the bytes of all buffers. */
#define _DEFAULT_SOURCE /* mmap of memory alone */

#include "hansobrik.h"

#include <stdio.h>
#include <stdlib.h>
#include <string.h>
#include <sys/mman.h>

enum { CANARY = 64, PAGE = 65536, MOST_NUMBERS = 138, MOST_BUFFERS = 2, MOST_FIELDS = 70 };

/* The calls in the header's order, and one that is no call. */
enum {
    VERSION,
    FORMAT, STEPPED, STEP, PUT_SYNC,
    FRESH, READ, WRITE_LINE,
    ACCEPTED, ANSWERS, FILLER, DATA, PIXELS, PIXELS_WIDE, JOINED, STRIP, PUT_DATA, PUT_PIXELS, PUT_PIXELS_WIDE,
    READ_INTEGER, READ_BCD, READ_REAL, READ_F64, PUT_REAL,
    SCAN_MODE, SCANNER_SELECT, LINE_NUMBERS, DATE, SUB_COMMUTATION,
    INTEGER_FIELD, BCD_FIELD, REAL_FIELD, F64_FIELD,
    FRESH_ASSEMBLY, ADD_SEGMENT, REVISION, MAPPING, ALBEDO, ALBEDO_F64, TEMPERATURE, TEMPERATURE_F64, ELEMENTS,
    EMPTY_REPORT, WITH_LINE, TOGETHER,
    FRESH_DESK, TAKE, PUBLISH, RELEASE, SEEN,
    SPOIL
};

/* What is done to a buffer that must not be: 0, or one of these plus the buffer's place. */
enum { CANARY_CHANGED = 1, CONSTANT_CHANGED = 11 };

struct buffer {
    size_t room;           /* bytes of memory, and of sent */
    unsigned char *memory; /* between two pages that nobody may touch */
    unsigned char *sent;   /* what was asked, to compare with */
    unsigned char *start;  /* the buffer, in memory */
    size_t bytes;
    size_t count;          /* elements */
    bool constant;         /* lent to be read only */
};

static struct buffer buffers[MOST_BUFFERS];
static uint64_t numbers[MOST_NUMBERS];
static uint64_t fields[MOST_FIELDS];
static size_t field_count;
static unsigned turn;

static void stop(const char *why)
{
    fprintf(stderr, "calls: %s\n", why);
    exit(2);
}

/* ---- questions and answers as bytes ---- */

static void get(void *to, size_t bytes)
{
    if (bytes > 0 && fread(to, 1, bytes, stdin) != bytes)
        stop("the question ends early");
}

static uint64_t get_number(void)
{
    uint64_t number;
    get(&number, sizeof number);
    return number;
}

static void put(const void *from, size_t bytes)
{
    if (bytes > 0 && fwrite(from, 1, bytes, stdout) != bytes)
        stop("the answer cannot be written");
}

static void put_number(uint64_t number)
{
    put(&number, sizeof number);
}

/* ---- buffers between canaries ---- */

static unsigned char canary(size_t place)
{
    return (unsigned char)(0xA5u ^ (place * 29u));
}

static void make_room(struct buffer *b, size_t bytes)
{
    size_t room = (bytes + 4 * CANARY + PAGE - 1) / PAGE * PAGE;
    if (room <= b->room)
        return;
    if (b->memory != NULL)
        munmap(b->memory - PAGE, b->room + 2 * PAGE);
    free(b->sent);
    unsigned char *all = mmap(NULL, room + 2 * PAGE, PROT_NONE, MAP_PRIVATE | MAP_ANONYMOUS, -1, 0);
    b->sent = malloc(room);
    if (all == MAP_FAILED || b->sent == NULL || mprotect(all + PAGE, room, PROT_READ | PROT_WRITE) != 0)
        stop("no memory");
    b->memory = all + PAGE;
    b->room = room;
}

/* Where a buffer stands in the memory: right at its end, right at its start, or in the middle of it. */
static size_t place_of(const struct buffer *b, bool bytes, bool middle)
{
    if (!middle && turn % 4 == 0)
        return b->room - b->bytes;
    if (!middle && turn % 4 == 1)
        return 0;
    return CANARY + (bytes ? turn / 4 % 8 : turn / 4 % 4 * 2);
}

/* The canaries before and behind a buffer, so far as the memory goes. */
static unsigned char *first_canary(const struct buffer *b)
{
    return b->start - b->memory < CANARY ? b->memory : b->start - CANARY;
}

static size_t canaries_behind(const struct buffer *b)
{
    size_t rest = b->room - (size_t)(b->start - b->memory) - b->bytes;
    return rest < CANARY ? rest : CANARY;
}

/* Takes a buffer of the question into memory. */
static void get_buffer(struct buffer *b, bool middle)
{
    uint64_t element = get_number();
    uint64_t count = get_number();
    if ((element != 1 && element != 2) || count > SIZE_MAX / 4)
        stop("no such buffer");
    b->count = (size_t)count;
    b->bytes = b->count * (size_t)element;
    make_room(b, b->bytes);
    b->constant = false;
    b->start = b->memory + place_of(b, element == 1, middle);
    get(b->sent, b->bytes);
    memcpy(b->start, b->sent, b->bytes);
    for (unsigned char *p = first_canary(b); p < b->start; p++)
        *p = canary((size_t)(b->start - p));
    for (size_t i = 0; i < canaries_behind(b); i++)
        b->start[b->bytes + i] = canary(i);
}

static bool canaries_stand(const struct buffer *b)
{
    for (const unsigned char *p = first_canary(b); p < b->start; p++)
        if (*p != canary((size_t)(b->start - p)))
            return false;
    for (size_t i = 0; i < canaries_behind(b); i++)
        if (b->start[b->bytes + i] != canary(i))
            return false;
    return true;
}

static uint64_t harm(size_t count)
{
    for (size_t i = 0; i < count; i++) {
        if (!canaries_stand(&buffers[i]))
            return CANARY_CHANGED + i;
        if (buffers[i].constant && memcmp(buffers[i].start, buffers[i].sent, buffers[i].bytes) != 0)
            return CONSTANT_CHANGED + i;
    }
    return 0;
}

/* ---- what a call is handed: its i-th number, its i-th buffer ---- */

static uint8_t u8(size_t i) { return (uint8_t)numbers[i]; }
static uint16_t u16(size_t i) { return (uint16_t)numbers[i]; }
static uint32_t u32(size_t i) { return (uint32_t)numbers[i]; }
static size_t size(size_t i) { return (size_t)numbers[i]; }
static size_t count(size_t i) { return buffers[i].count; }

static void *lent(size_t i)
{
    return buffers[i].count == 0 && turn % 2 == 1 ? NULL : buffers[i].start;
}

static const void *seen(size_t i)
{
    buffers[i].constant = true;
    return lent(i);
}

static hansobrik_state state(size_t i)
{
    hansobrik_state s;
    s.position = numbers[i];
    s.search = numbers[i + 1];
    s.register_ = u16(i + 2);
    s.in_line = u8(i + 3);
    s.search_count = u8(i + 4);
    s.unread = u8(i + 5);
    s.unread_count = u8(i + 6);
    s.waiting = u8(i + 7);
    s.waiting_count = u8(i + 8);
    return s;
}

static hansobrik_assembly assembly(size_t i)
{
    hansobrik_assembly a;
    a.marks = u32(i);
    a.calibration = u16(i + 1);
    a.manam = u16(i + 2);
    return a;
}

/* The numbers of a report: its lines, four of each sector, five of each channel. */
enum { OF_SECTOR = 4, OF_CHANNEL = 5, OF_REPORT = 1 + OF_SECTOR * HANSOBRIK_SECTORS + OF_CHANNEL * HANSOBRIK_CHANNELS };

static hansobrik_sector_tally sector_tally(size_t i)
{
    hansobrik_sector_tally t;
    t.accepted = numbers[i];
    t.remainder = numbers[i + 1];
    t.id = numbers[i + 2];
    t.filler = numbers[i + 3];
    return t;
}

static hansobrik_channel_tally channel_tally(size_t i)
{
    hansobrik_channel_tally t;
    t.count = numbers[i];
    t.sum = numbers[i + 1];
    t.least = u16(i + 2);
    t.largest = u16(i + 3);
    t.present = u32(i + 4);
    return t;
}

static hansobrik_pass_report report(size_t i)
{
    hansobrik_pass_report r;
    r.lines = numbers[i++];
    for (size_t s = 0; s < HANSOBRIK_SECTORS; s++, i += OF_SECTOR)
        r.sectors[s] = sector_tally(i);
    for (size_t c = 0; c < HANSOBRIK_CHANNELS; c++, i += OF_CHANNEL)
        r.channels[c] = channel_tally(i);
    return r;
}

/* The numbers of a desk: its count and last serial, three of each slot. */
enum { OF_SLOT = 3, OF_DESK = 2 + OF_SLOT * HANSOBRIK_MOST_SLOTS };

static hansobrik_line_desk desk(void)
{
    hansobrik_line_desk d;
    d.count = u32(0);
    d.last = u32(1);
    for (size_t s = 0, i = 2; s < HANSOBRIK_MOST_SLOTS; s++, i += OF_SLOT) {
        d.slots[s].serial = u32(i);
        d.slots[s].used = u16(i + 1);
        d.slots[s].holders = u16(i + 2);
    }
    return d;
}

/* ---- what it answers: every field of each kind of answer ---- */

static void say(uint64_t field)
{
    if (field_count == MOST_FIELDS)
        stop("too many fields");
    fields[field_count++] = field;
}

static void say_signed(int64_t field) { say((uint64_t)field); }

/* The byte itself, so that a bool which is neither 0 nor 1 shows. */
static void say_bool(const bool *field)
{
    unsigned char byte;
    memcpy(&byte, field, sizeof byte);
    say(byte);
}

static void say_double(double field)
{
    uint64_t bits;
    memcpy(&bits, &field, sizeof bits);
    say(bits);
}

static void say_state(hansobrik_state s)
{
    say(s.position);
    say(s.search);
    say(s.register_);
    say(s.in_line);
    say(s.search_count);
    say(s.unread);
    say(s.unread_count);
    say(s.waiting);
    say(s.waiting_count);
}

static void say_assembly(hansobrik_assembly a)
{
    say(a.marks);
    say(a.calibration);
    say(a.manam);
}

static void say_report(hansobrik_pass_report r)
{
    say(r.lines);
    for (size_t s = 0; s < HANSOBRIK_SECTORS; s++) {
        say(r.sectors[s].accepted);
        say(r.sectors[s].remainder);
        say(r.sectors[s].id);
        say(r.sectors[s].filler);
    }
    for (size_t c = 0; c < HANSOBRIK_CHANNELS; c++) {
        say(r.channels[c].count);
        say(r.channels[c].sum);
        say(r.channels[c].least);
        say(r.channels[c].largest);
        say(r.channels[c].present);
    }
}

static void say_desk(hansobrik_line_desk d)
{
    say(d.count);
    say(d.last);
    for (size_t s = 0; s < HANSOBRIK_MOST_SLOTS; s++) {
        say(d.slots[s].serial);
        say(d.slots[s].used);
        say(d.slots[s].holders);
    }
}

static void say_format(hansobrik_format_answer a)
{
    say(a.refused);
    say(a.number);
    say(a.check_start);
    say(a.sync_bits);
    say(a.information_bits);
    say(a.dummy_bits);
    say(a.bytes);
}

static void say_step(hansobrik_step_answer a)
{
    say(a.refused);
    say(a.bit);
    say(a.register_);
}

static void say_count(hansobrik_count_answer a)
{
    say(a.refused);
    say(a.count);
}

static void say_read(hansobrik_read_answer a)
{
    say(a.refused);
    say_bool(&a.complete);
    say(a.taken);
    say_state(a.state);
}

static void say_twelve(hansobrik_twelve_answer a)
{
    say(a.refused);
    for (size_t i = 0; i < HANSOBRIK_SECTORS; i++)
        say(a.answers[i]);
}

static void say_strip(hansobrik_strip_answer a)
{
    say(a.refused);
    for (size_t i = 0; i < 4; i++)
        say(a.vis[i]);
}

static void say_integer(hansobrik_integer_answer a)
{
    say(a.refused);
    say(a.value);
}

static void say_bcd(hansobrik_bcd_answer a)
{
    say(a.refused);
    say(a.value);
}

static void say_real(hansobrik_real_answer a)
{
    say(a.refused);
    say_bool(&a.negative);
    say(a.places);
    say(a.magnitude);
}

static void say_float(hansobrik_float_answer a)
{
    say(a.refused);
    say_double(a.value);
}

static void say_name(hansobrik_name_answer a)
{
    say(a.refused);
    say(a.name);
    say(a.byte);
}

static void say_lines(hansobrik_lines_answer a)
{
    say(a.refused);
    say(a.set_line);
    say(a.reset_line);
    say(a.scan_count);
    say_signed(a.position);
}

static void say_date(hansobrik_date_answer a)
{
    say(a.refused);
    say(a.month);
    say(a.day);
    say(a.hour);
    say(a.minute);
    say(a.second);
    say(a.hundredths);
    say(a.year);
}

static void say_segment(hansobrik_segment_answer a)
{
    say(a.refused);
    say(a.segment);
    say(a.repeat);
}

static void say_add(hansobrik_add_answer a)
{
    say(a.refused);
    say_bool(&a.first_copy);
    say(a.segment);
    say_assembly(a.assembly);
}

static void say_revision(hansobrik_revision_answer a)
{
    say(a.refused);
    say(a.revision);
}

static void say_grid(hansobrik_grid_answer a)
{
    say(a.refused);
    say(a.line);
    say(a.pixel);
    say_signed(a.latitude);
    say_signed(a.longitude);
}

static void say_level(hansobrik_level_answer a)
{
    say(a.refused);
    say_bool(&a.negative);
    say(a.places);
    say(a.revision);
    say(a.magnitude);
}

static void say_level_float(hansobrik_level_float_answer a)
{
    say(a.refused);
    say(a.revision);
    say_double(a.value);
}

static void say_orbit(hansobrik_orbit_answer a)
{
    say(a.refused);
    say_double(a.epoch);
    say_double(a.axis);
    say_double(a.eccentricity);
    say_double(a.inclination);
    say_double(a.node);
    say_double(a.perigee);
    say_double(a.anomaly);
}

static void say_report_answer(hansobrik_report_answer a)
{
    say(a.refused);
    say_report(a.report);
}

static void say_desk_answer(hansobrik_desk_answer a)
{
    say(a.refused);
    say_desk(a.desk);
}

static void say_taken(hansobrik_taken_answer a)
{
    say(a.refused);
    say(a.serial);
    say(a.slot);
    say_desk(a.desk);
}

static void say_seen(hansobrik_seen_answer a)
{
    say(a.refused);
    say(a.from);
    say(a.to);
}

/* No call of the library: turns over a bit of the byte that lies numbers[1] bytes behind the start of buffer numbers[0], or
 * before it, as a wrong call would. The last buffer is lent to be read only. The harness asks for it to see that harm is
 * seen. */
static void spoil(size_t buffer_count)
{
    (void)seen(buffer_count - 1);
    buffers[size(0)].start[(int64_t)numbers[1]] ^= 1;
}

/* ---- the calls ---- */

static void call(uint64_t which, size_t buffer_count)
{
    switch (which) {
    case VERSION: say(hansobrik_version()); break;
    case FORMAT: say_format(hansobrik_format(u8(0))); break;
    case STEPPED: say_step(hansobrik_stepped(u16(0))); break;
    case STEP: say_step(hansobrik_step(lent(0))); break;
    case PUT_SYNC: say_count(hansobrik_put_sync(u8(0), lent(0), count(0))); break;

    case FRESH: say_state(hansobrik_fresh()); break;
    case READ: say_read(hansobrik_read(u8(0), u8(1), state(2), seen(0), count(0), lent(1), count(1))); break;
    case WRITE_LINE: say_count(hansobrik_write_line(u8(0), seen(0), count(0), lent(1), count(1))); break;

    case ACCEPTED: say(hansobrik_accepted(u8(0), seen(0), count(0), u8(1))); break;
    case ANSWERS: say_twelve(hansobrik_answers(u8(0), seen(0), count(0))); break;
    case FILLER: say_count(hansobrik_filler(u8(0), seen(0), count(0), u8(1))); break;
    case DATA: say(hansobrik_data(u8(0), seen(0), count(0), u8(1), lent(1), count(1))); break;
    case PIXELS: say(hansobrik_pixels(u8(0), seen(0), count(0), u8(1), lent(1), count(1))); break;
    case PIXELS_WIDE: say(hansobrik_pixels_wide(u8(0), seen(0), count(0), u8(1), lent(1), count(1))); break;
    case JOINED: say(hansobrik_joined(u8(0), seen(0), count(0), u8(1), lent(1), count(1))); break;
    case STRIP: say_strip(hansobrik_strip(u8(0), seen(0), count(0), lent(1), count(1))); break;
    case PUT_DATA: say(hansobrik_put_data(u8(0), lent(0), count(0), u8(1), seen(1), count(1))); break;
    case PUT_PIXELS: say(hansobrik_put_pixels(u8(0), lent(0), count(0), u8(1), seen(1), count(1))); break;
    case PUT_PIXELS_WIDE:
        say(hansobrik_put_pixels_wide(u8(0), lent(0), count(0), u8(1), seen(1), count(1)));
        break;

    case READ_INTEGER: say_integer(hansobrik_read_integer(seen(0), count(0), size(0))); break;
    case READ_BCD: say_bcd(hansobrik_read_bcd(seen(0), count(0), size(0))); break;
    case READ_REAL: say_real(hansobrik_read_real(seen(0), count(0), size(0), u8(1))); break;
    case READ_F64: say_float(hansobrik_read_f64(seen(0), count(0), size(0), u8(1))); break;
    case PUT_REAL: say(hansobrik_put_real(numbers[0] != 0, numbers[1], size(2), u8(3), lent(0), count(0))); break;

    case SCAN_MODE: say_name(hansobrik_scan_mode(u8(0), seen(0), count(0))); break;
    case SCANNER_SELECT: say_name(hansobrik_scanner_select(u8(0), seen(0), count(0))); break;
    case LINE_NUMBERS: say_lines(hansobrik_line_numbers(u8(0), seen(0), count(0))); break;
    case DATE: say_date(hansobrik_date(u8(0), seen(0), count(0))); break;
    case SUB_COMMUTATION: say_segment(hansobrik_sub_commutation(u8(0), seen(0), count(0))); break;
    case INTEGER_FIELD: say_integer(hansobrik_integer_field(u8(0), seen(0), count(0), size(1), size(2))); break;
    case BCD_FIELD: say_bcd(hansobrik_bcd_field(u8(0), seen(0), count(0), size(1), size(2))); break;
    case REAL_FIELD: say_real(hansobrik_real_field(u8(0), seen(0), count(0), size(1), size(2), u8(3))); break;
    case F64_FIELD: say_float(hansobrik_f64_field(u8(0), seen(0), count(0), size(1), size(2), u8(3))); break;

    case FRESH_ASSEMBLY: say_assembly(hansobrik_fresh_assembly()); break;
    case ADD_SEGMENT:
        say_add(hansobrik_add_segment(u8(0), assembly(1), seen(0), count(0), u8(4), lent(1), count(1)));
        break;
    case REVISION: say_revision(hansobrik_revision(u8(0), assembly(1), u8(4), seen(0), count(0))); break;
    case MAPPING: say_grid(hansobrik_mapping(u8(0), assembly(1), seen(0), count(0), u16(4), u16(5))); break;
    case ALBEDO: say_level(hansobrik_albedo(u8(0), assembly(1), seen(0), count(0), u8(4), u16(5))); break;
    case ALBEDO_F64: say_level_float(hansobrik_albedo_f64(u8(0), assembly(1), seen(0), count(0), u8(4), u16(5))); break;
    case TEMPERATURE: say_level(hansobrik_temperature(u8(0), assembly(1), seen(0), count(0), u8(4), u16(5))); break;
    case TEMPERATURE_F64:
        say_level_float(hansobrik_temperature_f64(u8(0), assembly(1), seen(0), count(0), u8(4), u16(5)));
        break;
    case ELEMENTS: say_orbit(hansobrik_elements(u8(0), assembly(1), seen(0), count(0))); break;

    case EMPTY_REPORT: say_report(hansobrik_empty_report()); break;
    case WITH_LINE: say_report_answer(hansobrik_with_line(u8(0), report(1), seen(0), count(0))); break;
    case TOGETHER: say_report_answer(hansobrik_together(report(0), report(OF_REPORT))); break;

    case FRESH_DESK: say_desk_answer(hansobrik_fresh_desk(u32(0))); break;
    case TAKE: say_taken(hansobrik_take(desk(), size(OF_DESK))); break;
    case PUBLISH:
        say_desk_answer(hansobrik_publish(desk(), size(OF_DESK), size(OF_DESK + 1), u32(OF_DESK + 2)));
        break;
    case RELEASE:
        say_desk_answer(hansobrik_release(desk(), size(OF_DESK), u8(OF_DESK + 1), size(OF_DESK + 2), u32(OF_DESK + 3)));
        break;
    case SEEN:
        say_seen(hansobrik_seen(desk(), size(OF_DESK), u8(OF_DESK + 1), size(OF_DESK + 2), u32(OF_DESK + 3)));
        break;

    case SPOIL: spoil(buffer_count); break;
    default: stop("no such call");
    }
}

int main(void)
{
    uint64_t which;
    while (fread(&which, sizeof which, 1, stdin) == 1) {
        uint64_t number_count = get_number();
        uint64_t buffer_count = get_number();
        if (number_count > MOST_NUMBERS || buffer_count > MOST_BUFFERS)
            stop("too many numbers or buffers");
        get(numbers, (size_t)number_count * sizeof numbers[0]);
        for (size_t i = 0; i < buffer_count; i++)
            get_buffer(&buffers[i], which == SPOIL);

        field_count = 0;
        call(which, (size_t)buffer_count);
        turn++;

        put_number(harm((size_t)buffer_count));
        put_number(field_count);
        put(fields, field_count * sizeof fields[0]);
        for (size_t i = 0; i < buffer_count; i++)
            put(buffers[i].start, buffers[i].bytes);
        if (fflush(stdout) != 0)
            stop("the answer cannot be written");
    }
    return 0;
}
