/* front: what stands in hansobrik.h alone and so in no archive, beside the calls themselves: the macros of the version, the
 * words of a refusal, the names of formats, scan modes and mirrors, the sizes that a call needs, and hansobrik_reader. It says
 * what is not so and ends with 1, or ends with 0. It is C11 and C++11. */
#include "hansobrik.h"

#include <stdio.h>
#include <string.h>

enum { LINES = 3, MOST = LINES * HANSOBRIK_WIRE_BYTES_2 + 1 };

static uint8_t sent[LINES][HANSOBRIK_LINE_BYTES];
static uint8_t aligned[MOST];
static uint8_t recording[MOST];
static size_t recorded;
static uint8_t line[HANSOBRIK_LINE_BYTES];
static unsigned checks;
static unsigned failures;

static void expect(bool holds, const char *what, unsigned number)
{
    checks++;
    if (!holds) {
        failures++;
        fprintf(stderr, "front: %s, %u\n", what, number);
    }
}

static void version(void)
{
    char text[64];
    unsigned number = (unsigned)hansobrik_version();
    expect(number == HANSOBRIK_VERSION, "the archive is of the header's version", number);
    snprintf(text, sizeof text, "%d.%d.%d", HANSOBRIK_VERSION_MAJOR, HANSOBRIK_VERSION_MINOR, HANSOBRIK_VERSION_PATCH);
    expect(strcmp(text, HANSOBRIK_VERSION_TEXT) == 0, "the version's text is its parts", HANSOBRIK_VERSION);
    snprintf(text, sizeof text, "%u.%u.%u", number / 10000, number / 100 % 100, number % 100);
    expect(strcmp(text, HANSOBRIK_VERSION_TEXT) == 0, "the version's text is the archive's number", number);
}

/* 0 to 19 have words of their own, and all the others the same ones. */
static void words(void)
{
    const char *unknown = hansobrik_refusal_words(255);
    for (unsigned number = 0; number <= 255; number++) {
        const char *said = hansobrik_refusal_words((uint8_t)number);
        expect(said[0] != '\0', "a refusal has words", number);
        expect((strcmp(said, unknown) == 0) == (number > 19), "0 and the nineteen refusals have words, no other has", number);
        for (unsigned other = 0; other < number && number <= 19; other++)
            expect(strcmp(said, hansobrik_refusal_words((uint8_t)other)) != 0, "two refusals have other words", number);
    }
}

/* A line whose documentation sector has this scan mode and scanner select, bytes 3 and 67, and a third byte. */
static void make_line(uint8_t format, uint8_t mode, uint8_t select, uint8_t third, uint8_t *out)
{
    static uint8_t doc[HANSOBRIK_DATA_BYTES_8];
    doc[0] = mode;
    doc[64] = select;
    doc[100] = third;
    expect(hansobrik_put_data(format, out, HANSOBRIK_LINE_BYTES, 1, doc, sizeof doc) == HANSOBRIK_OK, "a line is made", third);
}

/* The lengths of the three formats, by the names in the comments of hansobrik_put_sync and hansobrik_write_line. */
static size_t sync_bytes(uint8_t format)
{
    return format == HANSOBRIK_S_VISSR ? HANSOBRIK_SYNC_BYTES_1
           : format == HANSOBRIK_HIRID ? HANSOBRIK_SYNC_BYTES_2
                                       : HANSOBRIK_SYNC_BYTES_3;
}

static size_t wire_bytes(uint8_t format)
{
    return format == HANSOBRIK_S_VISSR ? HANSOBRIK_WIRE_BYTES_1
           : format == HANSOBRIK_HIRID ? HANSOBRIK_WIRE_BYTES_2
                                       : HANSOBRIK_WIRE_BYTES_3;
}

/* What a format says of itself; and a documentation sector of zeros has the paper's check word, with which a format of the
 * other start value refuses it. */
static void formats(void)
{
    for (unsigned n = 0; n <= 255; n++) {
        hansobrik_format_answer a = hansobrik_format((uint8_t)n);
        bool known = n >= HANSOBRIK_S_VISSR && n <= HANSOBRIK_S_VISSR_ONES;
        expect(a.refused == (known ? HANSOBRIK_OK : HANSOBRIK_REFUSED_FORMAT), "1, 2, 3 are formats, no other number is", n);
        if (!known)
            continue;
        bool ones = n == HANSOBRIK_S_VISSR_ONES;
        expect(a.number == n, "a format has its number", n);
        expect(a.check_start == (ones ? 0xFFFF : 0), "a format has its start value", n);
        expect(a.sync_bits == 8 * sync_bytes(a.number), "a format has its SYNC", n);
        expect(a.bytes == wire_bytes(a.number), "a format has its bytes", n);
        make_line(a.number, 0, 0, 0, line);
        unsigned word = (unsigned)line[2293] << 8 | line[2294];
        expect(word == (ones ? 0x9063 : 0), "a sector of zeros has its check word", n);
        for (uint8_t other = HANSOBRIK_S_VISSR; other <= HANSOBRIK_S_VISSR_ONES; other++) {
            bool same = ones == (other == HANSOBRIK_S_VISSR_ONES);
            expect(hansobrik_accepted(other, line, sizeof line, 1) == (same ? HANSOBRIK_OK : HANSOBRIK_REFUSED_REMAINDER),
                   "it is refused where the check starts otherwise", other);
        }
    }
}

static void named(uint8_t mode, uint8_t mode_name, uint8_t select, uint8_t mirror)
{
    make_line(HANSOBRIK_S_VISSR, mode, select, 0, line);
    expect(hansobrik_scan_mode(HANSOBRIK_S_VISSR, line, sizeof line).name == mode_name, "a scan mode has its name", mode);
    expect(hansobrik_scanner_select(HANSOBRIK_S_VISSR, line, sizeof line).name == mirror, "a mirror has its name", select);
}

/* The bytes are the paper's. */
static void names(void)
{
    named(0x00, HANSOBRIK_SCAN_FULL, 0xFF, HANSOBRIK_MIRROR_1A);
    named(0x0F, HANSOBRIK_SCAN_LIMITED, 0xF0, HANSOBRIK_MIRROR_1B);
    named(0xFF, HANSOBRIK_SCAN_SINGLE, 0x00, HANSOBRIK_MIRROR_2A);
    named(0x55, HANSOBRIK_SCAN_UNNAMED, 0x0F, HANSOBRIK_MIRROR_2B);
    named(0xF0, HANSOBRIK_SCAN_UNNAMED, 0x55, HANSOBRIK_MIRROR_UNNAMED);
}

/* With the size that the header names a call is served, and with one less it is refused. */
static void needs(uint8_t exact, uint8_t less, uint8_t number, const char *what, unsigned which)
{
    expect(exact == HANSOBRIK_OK, what, which);
    expect(less == number, what, which);
}

/* The sector's data and pixels, by the names in the comments of hansobrik_data and hansobrik_pixels. */
static size_t data_bytes(uint8_t sector)
{
    return sector <= 4    ? HANSOBRIK_DATA_BYTES_8
           : sector <= 8  ? HANSOBRIK_DATA_BYTES_6
           : sector <= 11 ? HANSOBRIK_DATA_BYTES_2
                          : HANSOBRIK_DATA_BYTES_10;
}

static size_t pixels_of(uint8_t sector)
{
    return sector >= 5 && sector <= 8 ? HANSOBRIK_VIS_PIXELS : HANSOBRIK_IR_PIXELS;
}

static void sector_sizes(uint8_t f)
{
    enum { IN = HANSOBRIK_REFUSED_SHORT_INPUT, OUT = HANSOBRIK_REFUSED_SHORT_OUTPUT };
    static uint8_t room[HANSOBRIK_STRIP_BYTES];
    static uint16_t wide[HANSOBRIK_IR_PIXELS];
    const size_t all = sizeof line;
    memset(room, 0, sizeof room);
    for (uint8_t s = 1; s <= HANSOBRIK_SECTORS; s++) {
        size_t n = data_bytes(s);
        needs(hansobrik_put_data(f, line, all, s, room, n), hansobrik_put_data(f, line, all, s, room, n - 1), IN, "put_data",
              s);
        needs(hansobrik_data(f, line, all, s, room, n), hansobrik_data(f, line, all, s, room, n - 1), OUT, "data", s);
        needs(hansobrik_accepted(f, line, all, s), hansobrik_accepted(f, line, all - 1, s), IN, "accepted", s);
    }
    for (uint8_t s = 2; s <= 11; s++) {
        size_t n = pixels_of(s);
        needs(hansobrik_put_pixels(f, line, all, s, room, n), hansobrik_put_pixels(f, line, all, s, room, n - 1), IN,
              "put_pixels", s);
        needs(hansobrik_pixels(f, line, all, s, room, n), hansobrik_pixels(f, line, all, s, room, n - 1), OUT, "pixels", s);
    }
    size_t n = HANSOBRIK_IR_PIXELS;
    needs(hansobrik_put_pixels_wide(f, line, all, 12, wide, n), hansobrik_put_pixels_wide(f, line, all, 12, wide, n - 1), IN,
          "put_pixels_wide", f);
    needs(hansobrik_pixels_wide(f, line, all, 12, wide, n), hansobrik_pixels_wide(f, line, all, 12, wide, n - 1), OUT,
          "pixels_wide", f);
    for (uint8_t c = 1; c <= 3; c++)
        needs(hansobrik_joined(f, line, all, c, wide, n), hansobrik_joined(f, line, all, c, wide, n - 1), OUT, "joined", c);
    n = HANSOBRIK_STRIP_BYTES;
    needs(hansobrik_strip(f, line, all, room, n).refused, hansobrik_strip(f, line, all, room, n - 1).refused, OUT, "strip", f);
    n = sync_bytes(f);
    needs(hansobrik_put_sync(f, room, n).refused, hansobrik_put_sync(f, room, n - 1).refused, OUT, "put_sync", f);
    n = wire_bytes(f);
    needs(hansobrik_write_line(f, line, all, aligned, n).refused, hansobrik_write_line(f, line, all, aligned, n - 1).refused,
          OUT, "write_line", f);
}

static void block_sizes(uint8_t f)
{
    enum { IN = HANSOBRIK_REFUSED_SHORT_INPUT };
    static const size_t sizes[] = {HANSOBRIK_MAPPING_BYTES, HANSOBRIK_ORBIT_BYTES, HANSOBRIK_MANAM_BYTES,
                                   HANSOBRIK_CALIBRATION_1_BYTES, HANSOBRIK_CALIBRATION_2_BYTES};
    static uint8_t block[HANSOBRIK_CALIBRATION_2_BYTES];
    const size_t all = sizeof line;
    const hansobrik_assembly none = hansobrik_fresh_assembly();
    hansobrik_assembly done = none;
    done.marks = HANSOBRIK_ALL_MARKS;
    uint8_t last = f == HANSOBRIK_HIRID ? HANSOBRIK_CALIBRATION_1 : HANSOBRIK_CALIBRATION_2;
    for (uint8_t b = HANSOBRIK_MAPPING; b <= last; b++) {
        size_t n = sizes[b - 1];
        needs(hansobrik_add_segment(f, none, line, all, b, block, n).refused,
              hansobrik_add_segment(f, none, line, all, b, block, n - 1).refused, IN, "add_segment", b);
    }
    for (uint8_t b = HANSOBRIK_MANAM; b <= last; b++) {
        size_t n = sizes[b - 1];
        needs(hansobrik_revision(f, done, b, block, n).refused, hansobrik_revision(f, done, b, block, n - 1).refused, IN,
              "revision", b);
    }
    size_t n = HANSOBRIK_MAPPING_BYTES;
    needs(hansobrik_mapping(f, done, block, n, 24, 24).refused, hansobrik_mapping(f, done, block, n - 1, 24, 24).refused, IN,
          "mapping", f);
    n = HANSOBRIK_ORBIT_BYTES;
    needs(hansobrik_elements(f, done, block, n).refused, hansobrik_elements(f, done, block, n - 1).refused, IN, "elements", f);
    if (f != HANSOBRIK_HIRID) {
        n = HANSOBRIK_CALIBRATION_2_BYTES;
        needs(hansobrik_albedo(f, done, block, n, 4, 63).refused, hansobrik_albedo(f, done, block, n - 1, 4, 63).refused, IN,
              "albedo", 4);
        needs(hansobrik_temperature(f, done, block, n, 4, 1023).refused,
              hansobrik_temperature(f, done, block, n - 1, 4, 1023).refused, IN, "temperature", 4);
    }
}

/* A report counts up to the lines that the header names, and no further; its sectors and channels are as many as it names. The
 * line is one of zeros, all of whose sectors are accepted. */
static void report_sizes(uint8_t f)
{
    hansobrik_pass_report none = hansobrik_empty_report();
    expect(sizeof none.sectors / sizeof none.sectors[0] == HANSOBRIK_SECTORS, "a report has every sector", f);
    expect(sizeof none.channels / sizeof none.channels[0] == HANSOBRIK_CHANNELS, "a report has every channel", f);
    hansobrik_report_answer one = hansobrik_with_line(f, none, line, sizeof line);
    needs(one.refused, hansobrik_with_line(f, none, line, sizeof line - 1).refused, HANSOBRIK_REFUSED_SHORT_INPUT, "with_line",
          f);
    expect(one.report.lines == 1, "a line is counted", f);
    for (unsigned s = 0; s < HANSOBRIK_SECTORS; s++)
        expect(one.report.sectors[s].accepted == 1 && one.report.sectors[s].filler == 0, "a sector is counted", s + 1);
    for (unsigned c = 0; c < HANSOBRIK_CHANNELS; c++)
        expect(one.report.channels[c].count == HANSOBRIK_IR_PIXELS && one.report.channels[c].present == 1,
               "a channel is counted", c + 1);
    hansobrik_pass_report last = none;
    last.lines = HANSOBRIK_REPORT_LINES - 1;
    for (unsigned s = 0; s < HANSOBRIK_SECTORS; s++)
        last.sectors[s].accepted = last.lines;
    hansobrik_report_answer full = hansobrik_with_line(f, last, line, sizeof line);
    needs(full.refused, hansobrik_with_line(f, full.report, line, sizeof line).refused, HANSOBRIK_REFUSED_FULL, "with_line", f);
    needs(hansobrik_together(last, one.report).refused, hansobrik_together(full.report, one.report).refused,
          HANSOBRIK_REFUSED_FULL, "together", f);
}

/* A desk has the slots that the header names, and each call needs LINE_BYTES for each; marks and consumers are the header's. */
static void desk_sizes(void)
{
    enum { IN = HANSOBRIK_REFUSED_SHORT_INPUT, OUT = HANSOBRIK_REFUSED_OUT_OF_RANGE };
    expect(hansobrik_fresh_desk(HANSOBRIK_LEAST_SLOTS - 1).refused == OUT, "a desk needs its least slots", OUT);
    expect(hansobrik_fresh_desk(HANSOBRIK_MOST_SLOTS + 1).refused == OUT, "a desk has its most slots at most", OUT);
    for (unsigned count = HANSOBRIK_LEAST_SLOTS; count <= HANSOBRIK_MOST_SLOTS; count++) {
        hansobrik_desk_answer fresh = hansobrik_fresh_desk(count);
        hansobrik_line_desk desk = fresh.desk;
        size_t n = (size_t)count * HANSOBRIK_LINE_BYTES;
        expect(fresh.refused == HANSOBRIK_OK, "a desk of so many slots is served", count);
        expect(sizeof desk.slots / sizeof desk.slots[0] == HANSOBRIK_MOST_SLOTS, "a desk has room for every slot", count);
        for (unsigned slot = 0; slot < count; slot++) {
            expect(desk.slots[slot].used == HANSOBRIK_FREE, "a slot is free", slot);
            hansobrik_taken_answer taken = hansobrik_take(desk, n);
            needs(taken.refused, hansobrik_take(desk, n - 1).refused, IN, "take", count);
            expect(taken.slot == slot && taken.serial == slot + 1, "the lowest slot, the next serial", slot);
            desk = taken.desk;
            expect(desk.slots[slot].used == HANSOBRIK_FILLING, "a slot is filling", slot);
        }
        expect(hansobrik_take(desk, n).refused == HANSOBRIK_REFUSED_NO_SLOT, "no slot is left", count);
        size_t last = count - 1;
        hansobrik_desk_answer held = hansobrik_publish(desk, n, last, count);
        needs(held.refused, hansobrik_publish(desk, n - 1, last, count).refused, IN, "publish", count);
        desk = held.desk;
        expect(desk.slots[last].used == HANSOBRIK_HELD, "a slot is held", count);
        expect(desk.slots[last].holders == HANSOBRIK_PREVIEW + HANSOBRIK_CAPTURE, "by both", count);
        hansobrik_seen_answer seen = hansobrik_seen(desk, n, HANSOBRIK_CAPTURE, last, count);
        needs(seen.refused, hansobrik_seen(desk, n - 1, HANSOBRIK_CAPTURE, last, count).refused, IN, "seen", count);
        expect(seen.from == last * HANSOBRIK_LINE_BYTES && seen.to == n, "its part of the area", count);
        hansobrik_desk_answer one = hansobrik_release(desk, n, HANSOBRIK_PREVIEW, last, count);
        needs(one.refused, hansobrik_release(desk, n - 1, HANSOBRIK_PREVIEW, last, count).refused, IN, "release", count);
        expect(one.desk.slots[last].holders == HANSOBRIK_CAPTURE, "capture holds it still", count);
        expect(hansobrik_release(one.desk, n, HANSOBRIK_PREVIEW, last, count).refused == HANSOBRIK_REFUSED_NO_HOLD,
               "a hold is released once", count);
        hansobrik_desk_answer both = hansobrik_release(one.desk, n, HANSOBRIK_CAPTURE, last, count);
        expect(both.refused == HANSOBRIK_OK && both.desk.slots[last].used == HANSOBRIK_FREE, "it is free again", count);
        both.desk.last = UINT32_MAX;
        expect(hansobrik_take(both.desk, n).refused == HANSOBRIK_REFUSED_NO_SERIAL, "serials are used up", count);
    }
}

/* Lines that differ, written one after the other, and all of it some bits late, so that no line begins or ends at a byte. Each
 * tail, the last 64 bits of SYNC, has so many wrong bits. */
static void make_recording(uint8_t format, unsigned late, uint8_t wrong)
{
    size_t tail = sync_bytes(format) - 8;
    recorded = 0;
    for (unsigned i = 0; i < LINES; i++) {
        make_line(format, 0, 0, (uint8_t)(i + 1), sent[i]);
        hansobrik_count_answer written =
            hansobrik_write_line(format, sent[i], sizeof sent[i], aligned + recorded, sizeof aligned - recorded);
        expect(written.refused == HANSOBRIK_OK, "a line is written", i);
        for (uint8_t bit = 0; bit < wrong; bit++)
            aligned[recorded + tail + bit] ^= 1;
        recorded += written.count;
    }
    aligned[recorded++] = 0;
    for (size_t i = 0; i < recorded; i++) {
        unsigned before = i == 0 ? 0 : aligned[i - 1];
        recording[i] = (uint8_t)((before << 8 | aligned[i]) >> late);
    }
}

/* The record after the whole recording by the calls alone, in one piece; and the lines are those sent. */
static hansobrik_state plainly(uint8_t format, uint8_t setting)
{
    hansobrik_state state = hansobrik_fresh();
    unsigned lines = 0;
    for (size_t at = 0; at < recorded;) {
        hansobrik_read_answer answer =
            hansobrik_read(format, setting, state, recording + at, recorded - at, line, sizeof line);
        at += answer.taken;
        state = answer.state;
        if (answer.complete && lines < LINES)
            expect(memcmp(line, sent[lines], sizeof line) == 0, "the calls give the line that was sent", lines);
        lines += answer.complete;
    }
    expect(lines == LINES, "the calls give every line", lines);
    return state;
}

/* The same by hansobrik_reader, in pieces of this length. */
static void in_pieces(uint8_t format, uint8_t setting, size_t length)
{
    hansobrik_reader reader = hansobrik_reader_fresh(format, setting);
    unsigned lines = 0;
    bool taken = true;
    for (size_t at = 0; at < recorded && taken; at += length) {
        taken = hansobrik_reader_offer(&reader, recording + at, recorded - at < length ? recorded - at : length);
        while (hansobrik_reader_line(&reader, line, sizeof line)) {
            if (lines < LINES)
                expect(memcmp(line, sent[lines], sizeof line) == 0, "the reader gives the line that was sent", lines);
            lines++;
        }
        taken = taken && reader.refused == HANSOBRIK_OK;
    }
    expect(taken, "every piece is taken", (unsigned)length);
    expect(lines == LINES, "the reader gives every line", (unsigned)length);
    hansobrik_state after = plainly(format, setting);
    expect(memcmp(&reader.state, &after, sizeof after) == 0, "the reader's record is that of the calls", (unsigned)length);
}

/* A reader hands its setting on: with as many wrong bits in each tail it gives every line, and one that bears one less gives
 * none. Above 6 it is refused, without a piece too. */
static void settings(uint8_t format)
{
    for (uint8_t setting = 1; setting <= HANSOBRIK_LARGEST_SETTING; setting++) {
        make_recording(format, format + 1u, setting);
        in_pieces(format, setting, 1000);
        hansobrik_reader less = hansobrik_reader_fresh(format, (uint8_t)(setting - 1));
        expect(hansobrik_reader_offer(&less, recording, recorded), "a fresh reader takes a piece", setting);
        expect(!hansobrik_reader_line(&less, line, sizeof line), "a tail with too many wrong bits is none", setting);
        expect(less.refused == HANSOBRIK_OK && less.rest_count == 0, "and the whole piece is read", setting);
    }
    hansobrik_reader reader = hansobrik_reader_fresh(format, HANSOBRIK_LARGEST_SETTING + 1);
    expect(!hansobrik_reader_line(&reader, line, sizeof line), "an unknown setting is refused", reader.setting);
    expect(reader.refused == HANSOBRIK_REFUSED_SETTING, "with its number", reader.refused);
}

/* A piece with a rest stands, whatever is offered meanwhile or refused; nothing of it is lost. */
static void rests(uint8_t format)
{
    hansobrik_reader reader = hansobrik_reader_fresh(format, 0);
    expect(!hansobrik_reader_line(&reader, line, sizeof line), "without a piece there is no line", format);
    expect(reader.refused == HANSOBRIK_OK, "and no refusal", format);
    expect(hansobrik_reader_offer(&reader, recording, recorded), "the first piece is taken", format);
    for (unsigned lines = 0; lines < LINES; lines++) {
        const uint8_t *rest = reader.rest;
        size_t count = reader.rest_count;
        expect(!hansobrik_reader_offer(&reader, aligned, recorded), "no piece is taken while a rest is left", lines);
        expect(!hansobrik_reader_line(&reader, line, sizeof line - 1), "a short buffer is refused", lines);
        expect(reader.refused == HANSOBRIK_REFUSED_SHORT_INPUT, "with its number", reader.refused);
        expect(reader.rest == rest && reader.rest_count == count, "the rest stands", lines);
        expect(hansobrik_reader_line(&reader, line, sizeof line), "the line is there all the same", lines);
        expect(reader.refused == HANSOBRIK_OK, "and is not refused", lines);
        expect(memcmp(line, sent[lines], sizeof line) == 0, "it is the one that was sent", lines);
    }
    expect(!hansobrik_reader_line(&reader, line, sizeof line), "there is no line more", format);
    expect(reader.rest_count == 0, "the piece is used up", format);
    expect(hansobrik_reader_offer(&reader, recording, recorded), "then the next one is taken", format);

    for (uint8_t unknown = 0; unknown <= HANSOBRIK_S_VISSR_ONES + 1; unknown += HANSOBRIK_S_VISSR_ONES + 1) {
        reader = hansobrik_reader_fresh(unknown, 0);
        expect(hansobrik_reader_offer(&reader, recording, recorded), "a fresh reader takes a piece", unknown);
        expect(!hansobrik_reader_line(&reader, line, sizeof line), "an unknown format is refused", unknown);
        expect(reader.refused == HANSOBRIK_REFUSED_FORMAT, "with its number", reader.refused);
    }
}

int main(void)
{
    static const size_t lengths[] = {1, 7, 1000, 4096, HANSOBRIK_WIRE_BYTES_1 - 1, HANSOBRIK_WIRE_BYTES_2 + 1, MOST};
    version();
    words();
    names();
    formats();
    desk_sizes();
    for (uint8_t format = HANSOBRIK_S_VISSR; format <= HANSOBRIK_S_VISSR_ONES; format++) {
        sector_sizes(format);
        block_sizes(format);
        report_sizes(format);
        make_recording(format, format + 1u, 0);
        for (size_t i = 0; i < sizeof lengths / sizeof lengths[0]; i++)
            in_pieces(format, 0, lengths[i]);
        rests(format);
        settings(format);
    }
    if (failures > 0)
        return 1;
    return printf("front: %u checks\n", checks) < 0 || fflush(stdout) != 0;
}
