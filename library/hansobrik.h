/* hansobrik.h - weather-satellite lines, S-VISSR 2.0 (format 1, and format 3 from a card whose check starts from ones) and
 * HiRID (format 2).
 *
 * Every call of the library, every constant, every refusal number. The code behind it is proved: each call ends, stays
 * inside what was lent, and answers as its contract says, for any bytes and any state record.
 *
 * How the calls go:
 * - A buffer is a pointer and a count of its elements (bytes, or 16-bit numbers where the pointer says so). It is not kept
 *   after the call. Where the count is 0 the pointer is not looked at. The comment of a call names the elements that each
 *   buffer needs, by the constants below without their HANSOBRIK_; more is no harm.
 * - Buffers lent to one call must not overlap, and one that is written must not be read or written by anybody else meanwhile.
 * - Every call is safe from any thread on buffers of its own: the library has no memory of its own, keeps nothing between
 *   calls and takes no lock. Two calls at once may read the same buffer. What a caller keeps (a reader's record, a register,
 *   an assembly's record, a report, a desk) belongs to one recording, and one thread at a time hands it on. Where feeder,
 *   preview and capture have threads of their own, one lock stands around the desk's record and each call on it, and none
 *   around the bytes of a slot.
 * - `refused`, or the number that comes back alone, is HANSOBRIK_OK or a refusal number. "Refused: FORMAT, STATE." in the
 *   comment of a call says that it gives HANSOBRIK_REFUSED_FORMAT or HANSOBRIK_REFUSED_STATE and no other, tested in this
 *   order. A refused call changes no buffer; its answer has 0 in every other field, but the reader's record, a register, an
 *   assembly's record, a report and a desk come back as they were handed in, of two reports the first.
 * - Bytes of a buffer behind a call's result are kept.
 * - Format 3 is format 1 from a card that presets its check register with sixteen ones: in each sector the first 16 bits are
 *   inverted before the remainder is taken. Nothing else differs, so lines of either card are found in both formats, but no
 *   sector is accepted in both: where one card's recording is read as the other's, every good sector is refused with
 *   REMAINDER.
 * - Numbers have the width that is declared: C cuts a wider one without a word, so compile with -Wconversion.
 *
 * Widths: the reader's record, an assembly's, a report and a desk have fields of fixed width and 24, 8, 488 and 72 bytes
 * without a gap on every machine, so one that was stored is read on another machine of the same byte order. Counts and lengths
 * are size_t and follow the machine. The proofs are over sizes of 64 bits and the archive is made for such machines: where
 * size_t has 4 bytes this header does not compile.
 *
 * C11 or C++11, or later. Link with libhansobrik.a (`pkg-config --cflags --libs hansobrik` where it is installed). The library
 * takes no memory; of the C library it needs memcpy and memset alone.
 */
#ifndef HANSOBRIK_H
#define HANSOBRIK_H

#include <stdbool.h>
#include <stddef.h>
#include <stdint.h>

#ifdef __cplusplus
static_assert(sizeof(size_t) == 8, "hansobrik: the library is made for machines whose size_t has 8 bytes");
extern "C" {
#else
_Static_assert(sizeof(size_t) == 8, "hansobrik: the library is made for machines whose size_t has 8 bytes");
#endif

/* ---- the version of this header ---- */

#define HANSOBRIK_VERSION_MAJOR 0
#define HANSOBRIK_VERSION_MINOR 8
#define HANSOBRIK_VERSION_PATCH 0
#define HANSOBRIK_VERSION (HANSOBRIK_VERSION_MAJOR * 10000 + HANSOBRIK_VERSION_MINOR * 100 + HANSOBRIK_VERSION_PATCH)
#define HANSOBRIK_VERSION_TEXT "0.8.0"

/* ---- refusal numbers, in the order in which they are tested ---- */

enum {
    HANSOBRIK_OK = 0,                    /* the call was served */
    HANSOBRIK_REFUSED_FORMAT = 1,        /* the format is none of 1, 2, 3 */
    HANSOBRIK_REFUSED_SETTING = 13,      /* the setting of a reader is above 6 */
    HANSOBRIK_REFUSED_OUT_OF_RANGE = 19, /* a desk's slots are not 2 to 8, or a slot is not below their count */
    HANSOBRIK_REFUSED_STATE = 12,        /* the reader's record, the register, the marks, a report or a desk are impossible */
    HANSOBRIK_REFUSED_FULL = 15,         /* the report would have over 100,000 lines */
    HANSOBRIK_REFUSED_NUMBER = 4,        /* a sector, channel or block number that the call does not serve;
                                            calibration-2 in format 2 */
    HANSOBRIK_REFUSED_RANGE = 10,        /* level, grid point, number size or decimal places out of range;
                                            a pixel over its width */
    HANSOBRIK_REFUSED_MAGNITUDE = 11,    /* a magnitude over 2^31-1 (n 4) or 2^47-1 (n 6), on writing */
    HANSOBRIK_REFUSED_SHORT_INPUT = 2,   /* line or block buffer, area, number bytes, sector data or pixels fewer than needed */
    HANSOBRIK_REFUSED_NO_SERIAL = 18,    /* the serial numbers of a desk are used up */
    HANSOBRIK_REFUSED_NO_SLOT = 16,      /* no slot of a desk is free */
    HANSOBRIK_REFUSED_NO_HOLD = 17,      /* the consumer does not hold the slot under that serial, or the slot is not being
                                            filled under it */
    HANSOBRIK_REFUSED_SHORT_OUTPUT = 3,  /* the output is shorter than the result */
    HANSOBRIK_REFUSED_REMAINDER = 5,     /* the sector's remainder is not 0 */
    HANSOBRIK_REFUSED_ID = 6,            /* the remainder is 0, the ID not the sector's own */
    HANSOBRIK_REFUSED_FIELD = 7,         /* BCD digit over 9, date part out of range, bad segment or repeat bytes */
    HANSOBRIK_REFUSED_REVISION = 14,     /* the segment is of another revision of the tables than the assembly */
    HANSOBRIK_REFUSED_SEGMENT = 8,       /* the segment differs from the stored one */
    HANSOBRIK_REFUSED_UNFINISHED = 9     /* an entry of a block without all 25 segments */
};

/* ---- sizes ---- */

enum {
    HANSOBRIK_S_VISSR = 1,             /* the three formats */
    HANSOBRIK_HIRID = 2,
    HANSOBRIK_S_VISSR_ONES = 3,        /* S-VISSR from a card that presets its check register with ones */
    HANSOBRIK_LARGEST_SETTING = 6,     /* wrong bits of the tail, of its 64, that a reader may be told to bear */
    HANSOBRIK_LINE_BYTES = 44356,      /* one plain line */
    HANSOBRIK_WIRE_BYTES_1 = 45606,    /* one line on the wire, format 1 */
    HANSOBRIK_WIRE_BYTES_2 = 49500,    /* the same, format 2 */
    HANSOBRIK_WIRE_BYTES_3 = 45606,    /* and format 3, as in format 1 */
    HANSOBRIK_SYNC_BYTES_1 = 1250,
    HANSOBRIK_SYNC_BYTES_2 = 2500,
    HANSOBRIK_SYNC_BYTES_3 = 1250,
    HANSOBRIK_SECTORS = 12,            /* 1 DOC, 2-4 IR1-3 upper, 5-8 VIS1-4, 9-11 IR1-3 lower, 12 IR4 */
    HANSOBRIK_IR_PIXELS = 2291,        /* also the bytes of DOC */
    HANSOBRIK_VIS_PIXELS = 9164,
    HANSOBRIK_STRIP_BYTES = 36656,     /* VIS1 to VIS4, 9,164 each */
    HANSOBRIK_DATA_BYTES_8 = 2291,     /* data of a sector as bytes: 1 to 4, */
    HANSOBRIK_DATA_BYTES_6 = 6873,     /* 5 to 8, */
    HANSOBRIK_DATA_BYTES_2 = 573,      /* 9 to 11, the two low bits of the last byte spare, */
    HANSOBRIK_DATA_BYTES_10 = 2864,    /* and 12, likewise */
    HANSOBRIK_MAPPING = 1,             /* the five blocks, */
    HANSOBRIK_ORBIT = 2,
    HANSOBRIK_MANAM = 3,
    HANSOBRIK_CALIBRATION_1 = 4,
    HANSOBRIK_CALIBRATION_2 = 5,       /* not in format 2 */
    HANSOBRIK_MAPPING_BYTES = 2500,    /* and their sizes */
    HANSOBRIK_ORBIT_BYTES = 3200,
    HANSOBRIK_MANAM_BYTES = 10250,
    HANSOBRIK_CALIBRATION_1_BYTES = 6400,
    HANSOBRIK_CALIBRATION_2_BYTES = 25600,
    HANSOBRIK_SEGMENTS = 25,
    HANSOBRIK_CHANNELS = 4,            /* IR1 to IR4 */
    HANSOBRIK_REPORT_LINES = 100000,   /* the most lines of a report */
    HANSOBRIK_LEAST_SLOTS = 2,         /* a desk has so many slots of LINE_BYTES each, */
    HANSOBRIK_MOST_SLOTS = 8,          /* up to so many */
    HANSOBRIK_FREE = 0,                /* what a slot is used for, */
    HANSOBRIK_FILLING = 1,
    HANSOBRIK_HELD = 2,
    HANSOBRIK_PREVIEW = 1,             /* and the two who hold a line: as a consumer one of them, as holders their sum */
    HANSOBRIK_CAPTURE = 2,
    HANSOBRIK_ALL_MARKS = 0x1FFFFFF,   /* the marks of a finished block */
    HANSOBRIK_FIFTEEN_ONES = 0x7FFF    /* the scrambling register before the first information bit */
};

/* What scan mode and scanner select name. */
enum {
    HANSOBRIK_SCAN_UNNAMED = 0,        /* the byte names no mode */
    HANSOBRIK_SCAN_FULL = 1,
    HANSOBRIK_SCAN_LIMITED = 2,
    HANSOBRIK_SCAN_SINGLE = 3
};

enum {
    HANSOBRIK_MIRROR_UNNAMED = 0,      /* the byte names no mirror */
    HANSOBRIK_MIRROR_1A = 1,
    HANSOBRIK_MIRROR_1B = 2,
    HANSOBRIK_MIRROR_2A = 3,
    HANSOBRIK_MIRROR_2B = 4
};

/* ---- what a caller keeps, and the answers ---- */

/* What a reader keeps between calls. Every field 0 is a fresh one. A caller may look at in_line and position: where in_line is
 * 1 at the end of a recording, it stops inside a line, of whose 8 * LINE_BYTES bits it has the first `position`. The other
 * fields are the reader's own. */
typedef struct {
    uint64_t position;     /* in a line: the next line bit */
    uint64_t search;       /* between lines: the last bits since the search began, the last one lowest */
    uint16_t register_;    /* in a line: the scrambling register */
    uint8_t in_line;       /* 1 in a line, 0 between lines */
    uint8_t search_count;
    uint8_t unread;        /* between lines: bits of the last byte taken that are still to read */
    uint8_t unread_count;
    uint8_t waiting;       /* in a line: bits that wait for their byte */
    uint8_t waiting_count;
} hansobrik_state;

/* What an assembly keeps between calls. Every field 0 is a fresh one. A caller may look at all of it: at marks, and once a
 * segment is marked at the two numbers, which say of which revision of the operator's tables the assembly is. Before that they
 * say nothing. */
typedef struct {
    uint32_t marks;        /* bit s is set once segment s is stored */
    uint16_t calibration;  /* calibration table ID, sector bytes 28-29 of the line that brought the first segment */
    uint16_t manam;        /* MANAM revision, bytes 30-31 of that line */
} hansobrik_assembly;

/* A sector over all lines of a report. */
typedef struct {
    uint64_t accepted;     /* lines in which it was accepted, */
    uint64_t remainder;    /* refused with REMAINDER, */
    uint64_t id;           /* and refused with ID */
    uint64_t filler;       /* its filler bits that were set, in lines that refused it too */
} hansobrik_sector_tally;

/* The ten-bit pixels of an infrared channel over all lines of a report: IR1 to IR3 of the lines in which the upper and the
 * lower sector were both accepted, IR4 of those in which its sector was. */
typedef struct {
    uint64_t count;
    uint64_t sum;
    uint16_t least;
    uint16_t largest;
    uint32_t present;      /* 1: least and largest hold. 0: there are no pixels. No other mark is possible */
} hansobrik_channel_tally;

/* One record over all lines of a pass. Every field 0 is that of no line. A caller may look at all of it. */
typedef struct {
    uint64_t lines;
    hansobrik_sector_tally sectors[12];   /* sector n at n - 1 */
    hansobrik_channel_tally channels[4];  /* IR1 to IR4, channel n at n - 1 */
} hansobrik_pass_report;

/* One slot of a desk. Of a FREE one serial and holders say nothing, of a FILLING one its holders. */
typedef struct {
    uint32_t serial;       /* of the line in it */
    uint16_t used;         /* FREE, FILLING or HELD. No other mark is possible */
    uint16_t holders;      /* of a HELD one: PREVIEW, CAPTURE or their sum. No other mark is possible */
} hansobrik_desk_slot;

/* Who has which slot of an area: `count` slots of LINE_BYTES each, slot i from byte i * LINE_BYTES on. A caller may look at all
 * of it. Slots from the count on do not exist: nobody looks at them, and they come back as they stand. */
typedef struct {
    uint32_t count;        /* LEAST_SLOTS to MOST_SLOTS */
    uint32_t last;         /* the serial number given last; 0 before the first */
    hansobrik_desk_slot slots[8];
} hansobrik_line_desk;

typedef struct {
    uint8_t refused;
    uint8_t number;
    uint16_t check_start;  /* what the check of its sectors starts from: 0, in format 3 0xFFFF */
    size_t sync_bits;
    size_t information_bits;
    size_t dummy_bits;
    size_t bytes;          /* one line on the wire */
} hansobrik_format_answer;

typedef struct {
    uint8_t refused;
    uint8_t bit;           /* the scrambling bit that the step gave */
    uint16_t register_;    /* the register after it; as it was handed in where the step is refused */
} hansobrik_step_answer;

typedef struct {
    uint8_t refused;
    size_t count;
} hansobrik_count_answer;

typedef struct {
    uint8_t refused;
    bool complete;         /* a line stands whole in the buffer */
    size_t taken;          /* bytes taken of the piece; offer the rest again */
    hansobrik_state state; /* for the next call */
} hansobrik_read_answer;

typedef struct {
    uint8_t refused;
    uint8_t answers[12];   /* sectors 1 to 12: OK where the sector is accepted, else REMAINDER or ID */
} hansobrik_twelve_answer;

typedef struct {
    uint8_t refused;
    uint8_t vis[4];        /* VIS1 to VIS4: OK, or REMAINDER or ID where the sector is not accepted and its part stays */
} hansobrik_strip_answer;

typedef struct {
    uint8_t refused;
    uint32_t value;
} hansobrik_integer_answer;

typedef struct {
    uint8_t refused;
    uint64_t value;
} hansobrik_bcd_answer;

typedef struct {
    uint8_t refused;
    bool negative;         /* a negative zero is one */
    uint8_t places;
    uint64_t magnitude;
} hansobrik_real_answer;

typedef struct {
    uint8_t refused;
    double value;
} hansobrik_float_answer;

typedef struct {
    uint8_t refused;
    uint8_t name;          /* HANSOBRIK_SCAN_.. or HANSOBRIK_MIRROR_.. */
    uint8_t byte;          /* the byte itself, also where it names nothing */
} hansobrik_name_answer;

typedef struct {
    uint8_t refused;
    uint16_t set_line;
    uint16_t reset_line;
    uint16_t scan_count;
    int32_t position;      /* scan count minus set line */
} hansobrik_lines_answer;

typedef struct {
    uint8_t refused;
    uint8_t month;
    uint8_t day;
    uint8_t hour;
    uint8_t minute;
    uint8_t second;
    uint8_t hundredths;
    uint16_t year;
} hansobrik_date_answer;

typedef struct {
    uint8_t refused;
    uint8_t segment;       /* 0 to 24 */
    uint8_t repeat;        /* 0 to 7 */
} hansobrik_segment_answer;

typedef struct {
    uint8_t refused;
    bool first_copy;
    uint8_t segment;
    hansobrik_assembly assembly; /* for the next call */
} hansobrik_add_answer;

typedef struct {
    uint8_t refused;
    uint16_t revision;     /* of MANAM the MANAM revision, of a calibration block the calibration table ID */
} hansobrik_revision_answer;

typedef struct {
    uint8_t refused;
    uint16_t line;
    uint16_t pixel;
    int16_t latitude;      /* degrees north; south is below 0 */
    int16_t longitude;     /* degrees east, above -180 and at most 180; west is below 0 */
} hansobrik_grid_answer;

typedef struct {
    uint8_t refused;
    bool negative;         /* a negative zero is one */
    uint8_t places;
    uint16_t revision;     /* the calibration table ID of the block */
    uint64_t magnitude;
} hansobrik_level_answer;

typedef struct {
    uint8_t refused;
    uint16_t revision;     /* the calibration table ID of the block */
    double value;
} hansobrik_level_float_answer;

typedef struct {
    uint8_t refused;
    double epoch;          /* MJD */
    double axis;           /* km */
    double eccentricity;
    double inclination;    /* degrees, as are the rest */
    double node;
    double perigee;
    double anomaly;
} hansobrik_orbit_answer;

typedef struct {
    uint8_t refused;
    hansobrik_pass_report report; /* for the next call */
} hansobrik_report_answer;

typedef struct {
    uint8_t refused;
    hansobrik_line_desk desk; /* for the next call */
} hansobrik_desk_answer;

typedef struct {
    uint8_t refused;
    uint32_t serial;          /* under which the slot is filled */
    size_t slot;              /* the lowest that was free */
    hansobrik_line_desk desk; /* for the next call */
} hansobrik_taken_answer;

typedef struct {
    uint8_t refused;
    size_t from;              /* the first byte of the line in the area, */
    size_t to;                /* and the first one behind it */
} hansobrik_seen_answer;

/* ---- the version of the archive ---- */

/* HANSOBRIK_VERSION of the header that the archive was made with; another number is that of another header. Never refused. */
uint32_t hansobrik_version(void);

/* ---- formats, scrambling, SYNC ---- */

/* The lengths of a format, and the start value of its check. Refused: FORMAT. */
hansobrik_format_answer hansobrik_format(uint8_t format);

/* One step of the scrambling register, by value. A register over fifteen bits comes back as it was. Refused: STATE. */
hansobrik_step_answer hansobrik_stepped(uint16_t register_);

/* The same of a register that is lent, and changes in place; a refused one stays as it was. Refused: STATE. */
hansobrik_step_answer hansobrik_step(uint16_t *register_);

/* SYNC at the front of out; count is its bytes. Needs in out: SYNC_BYTES_1, SYNC_BYTES_2 or SYNC_BYTES_3, by
 * format. Refused: FORMAT, SHORT_OUTPUT. */
hansobrik_count_answer hansobrik_put_sync(uint8_t format, uint8_t *out, size_t out_count);

/* ---- recordings ---- */

/* A reader before a recording's first bit. Never refused. */
hansobrik_state hansobrik_fresh(void);

/* Reads until a line is complete or the piece is used up; the answer's record is for the next call, and the rest of the piece
 * is offered to it again. A complete line stands in the buffer until a later call finds the next tail. hansobrik_reader, at the
 * end of this file, keeps record and rest together. Needs in line: LINE_BYTES. The piece may have any length, 0 too.
 *
 * The setting, 0 to LARGEST_SETTING, is how many bits of the tail may be wrong: the first 64 bits that differ from it in at
 * most that many places count as the tail. 0 asks for the exact one. Where bits come wrong choose 4: then up to four wrong
 * bits in any 64 neighbouring bits of SYNC and dummy never cost a line and never make a false one. 5 and 6 bear as many in the
 * tail, but in any other 64 bits only three and two. The record does not hold the setting: hand in the same one in all calls on
 * a recording. Refused: FORMAT, SETTING, STATE, SHORT_INPUT. */
hansobrik_read_answer hansobrik_read(uint8_t format, uint8_t setting, hansobrik_state state, const uint8_t *piece,
                                     size_t piece_count, uint8_t *line, size_t line_count);

/* One plain line on the wire at the front of out; count is its bytes. Needs in line: LINE_BYTES; in out: WIRE_BYTES_1,
 * WIRE_BYTES_2 or WIRE_BYTES_3, by format. Refused: FORMAT, SHORT_INPUT, SHORT_OUTPUT. */
hansobrik_count_answer hansobrik_write_line(uint8_t format, const uint8_t *line, size_t line_count, uint8_t *out,
                                            size_t out_count);

/* ---- the twelve sectors of a plain line ---- */

/* Whether a sector, 1 to 12, is accepted. Needs in line: LINE_BYTES.
 * Refused: FORMAT, NUMBER, SHORT_INPUT, REMAINDER, ID. */
uint8_t hansobrik_accepted(uint8_t format, const uint8_t *line, size_t line_count, uint8_t sector);

/* What hansobrik_accepted says of each of the twelve sectors; one call divides each sector once. Needs in line: LINE_BYTES.
 * Refused: FORMAT, SHORT_INPUT. */
hansobrik_twelve_answer hansobrik_answers(uint8_t format, const uint8_t *line, size_t line_count);

/* The filler bits of a sector, 1 to 12, that are set. Needs in line: LINE_BYTES. Refused: FORMAT, NUMBER, SHORT_INPUT. */
hansobrik_count_answer hansobrik_filler(uint8_t format, const uint8_t *line, size_t line_count, uint8_t sector);

/* The data of a sector, 1 to 12. Needs in line: LINE_BYTES; in out: DATA_BYTES_8 for 1 to 4, DATA_BYTES_6 for 5 to 8,
 * DATA_BYTES_2 for 9 to 11, DATA_BYTES_10 for 12. Refused: FORMAT, NUMBER, SHORT_INPUT, SHORT_OUTPUT, REMAINDER, ID. */
uint8_t hansobrik_data(uint8_t format, const uint8_t *line, size_t line_count, uint8_t sector, uint8_t *out,
                       size_t out_count);

/* The pixels of a sector from 2 to 11. Needs in line: LINE_BYTES; in out: VIS_PIXELS for 5 to 8, else IR_PIXELS.
 * Refused: FORMAT, NUMBER, SHORT_INPUT, SHORT_OUTPUT, REMAINDER, ID. */
uint8_t hansobrik_pixels(uint8_t format, const uint8_t *line, size_t line_count, uint8_t sector, uint8_t *out,
                         size_t out_count);

/* The pixels of IR4, sector 12. Needs in line: LINE_BYTES; in out: IR_PIXELS.
 * Refused: FORMAT, NUMBER, SHORT_INPUT, SHORT_OUTPUT, REMAINDER, ID. */
uint8_t hansobrik_pixels_wide(uint8_t format, const uint8_t *line, size_t line_count, uint8_t sector, uint16_t *out,
                              size_t out_count);

/* The ten-bit pixels of IR1, IR2 or IR3, channel 1 to 3; the upper sector is tested before the lower. Needs in line:
 * LINE_BYTES; in out: IR_PIXELS. Refused: FORMAT, NUMBER, SHORT_INPUT, SHORT_OUTPUT, REMAINDER, ID. */
uint8_t hansobrik_joined(uint8_t format, const uint8_t *line, size_t line_count, uint8_t channel, uint16_t *out,
                         size_t out_count);

/* VIS1 to VIS4 in one strip, each in its own part of VIS_PIXELS bytes. Needs in line: LINE_BYTES; in strip: STRIP_BYTES.
 * Refused: FORMAT, SHORT_INPUT, SHORT_OUTPUT. */
hansobrik_strip_answer hansobrik_strip(uint8_t format, const uint8_t *line, size_t line_count, uint8_t *strip,
                                       size_t strip_count);

/* Data into a sector, 1 to 12, with ID, check word and zero filler; the other sectors keep their bits. Needs in line:
 * LINE_BYTES; in bytes: as many as hansobrik_data needs in out. Refused: FORMAT, NUMBER, SHORT_INPUT. */
uint8_t hansobrik_put_data(uint8_t format, uint8_t *line, size_t line_count, uint8_t sector, const uint8_t *bytes,
                           size_t bytes_count);

/* Pixels into a sector from 2 to 11. Needs in line: LINE_BYTES; in pixels: VIS_PIXELS for 5 to 8, else IR_PIXELS.
 * Refused: FORMAT, NUMBER, RANGE, SHORT_INPUT. */
uint8_t hansobrik_put_pixels(uint8_t format, uint8_t *line, size_t line_count, uint8_t sector, const uint8_t *pixels,
                             size_t pixels_count);

/* Pixels into IR4, sector 12. Needs in line: LINE_BYTES; in pixels: IR_PIXELS. Refused: FORMAT, NUMBER, RANGE, SHORT_INPUT. */
uint8_t hansobrik_put_pixels_wide(uint8_t format, uint8_t *line, size_t line_count, uint8_t sector, const uint16_t *pixels,
                                  size_t pixels_count);

/* ---- numbers at the front of a buffer ---- */

/* I*n, n 1 to 4. Needs in bytes: n. Refused: RANGE, SHORT_INPUT. */
hansobrik_integer_answer hansobrik_read_integer(const uint8_t *bytes, size_t bytes_count, size_t n);

/* BCD*n, n 1 to 6. Needs in bytes: n. Refused: RANGE, SHORT_INPUT, FIELD. */
hansobrik_bcd_answer hansobrik_read_bcd(const uint8_t *bytes, size_t bytes_count, size_t n);

/* R*n.m, n 4 or 6, m 0 to 15, as sign, magnitude and places. Needs in bytes: n. Refused: RANGE, SHORT_INPUT. */
hansobrik_real_answer hansobrik_read_real(const uint8_t *bytes, size_t bytes_count, size_t n, uint8_t m);

/* The same as a double. Needs in bytes: n. Refused: RANGE, SHORT_INPUT. */
hansobrik_float_answer hansobrik_read_f64(const uint8_t *bytes, size_t bytes_count, size_t n, uint8_t m);

/* The n bytes of R*n.m, n 4 or 6, m 0 to 15. Needs in out: n. Refused: RANGE, MAGNITUDE, SHORT_OUTPUT. */
uint8_t hansobrik_put_real(bool negative, uint64_t magnitude, size_t n, uint8_t m, uint8_t *out, size_t out_count);

/* ---- the documentation sector ---- */

/* Scan mode, byte 3, and scanner select, byte 67. Needs in line: LINE_BYTES. Refused: FORMAT, SHORT_INPUT, REMAINDER, ID. */
hansobrik_name_answer hansobrik_scan_mode(uint8_t format, const uint8_t *line, size_t line_count);
hansobrik_name_answer hansobrik_scanner_select(uint8_t format, const uint8_t *line, size_t line_count);

/* Set line, reset line, scan count, and the line position. Needs in line: LINE_BYTES.
 * Refused: FORMAT, SHORT_INPUT, REMAINDER, ID, FIELD. */
hansobrik_lines_answer hansobrik_line_numbers(uint8_t format, const uint8_t *line, size_t line_count);

/* Date and time. Needs in line: LINE_BYTES. Refused: FORMAT, SHORT_INPUT, REMAINDER, ID, FIELD. */
hansobrik_date_answer hansobrik_date(uint8_t format, const uint8_t *line, size_t line_count);

/* Which segment of every block the line carries, and its repeat. Needs in line: LINE_BYTES.
 * Refused: FORMAT, SHORT_INPUT, REMAINDER, ID, FIELD. */
hansobrik_segment_answer hansobrik_sub_commutation(uint8_t format, const uint8_t *line, size_t line_count);

/* A number field, I*n, at a place: a byte of the sector from 1 to 2,293, ID included, in which all its n bytes lie. Needs in
 * line: LINE_BYTES. Refused: FORMAT, RANGE, SHORT_INPUT, REMAINDER, ID. */
hansobrik_integer_answer hansobrik_integer_field(uint8_t format, const uint8_t *line, size_t line_count, size_t place,
                                                 size_t n);

/* The same of BCD*n. Needs in line: LINE_BYTES. Refused: FORMAT, RANGE, SHORT_INPUT, REMAINDER, ID, FIELD. */
hansobrik_bcd_answer hansobrik_bcd_field(uint8_t format, const uint8_t *line, size_t line_count, size_t place, size_t n);

/* The same of R*n.m, and as a double. Needs in line: LINE_BYTES. Refused: FORMAT, RANGE, SHORT_INPUT, REMAINDER, ID. */
hansobrik_real_answer hansobrik_real_field(uint8_t format, const uint8_t *line, size_t line_count, size_t place, size_t n,
                                           uint8_t m);
hansobrik_float_answer hansobrik_f64_field(uint8_t format, const uint8_t *line, size_t line_count, size_t place, size_t n,
                                           uint8_t m);

/* ---- blocks, put together out of 25 segments ---- */

/* An assembly that has no segment yet: every field 0. Never refused. */
hansobrik_assembly hansobrik_fresh_assembly(void);

/* The segment of a block, MAPPING to CALIBRATION_2, that a line carries, added to the block's assembly: its record, which comes
 * back in the answer for the next call, and its block buffer. To begin an assembly hand in a fresh record; the block buffer may
 * hold anything.
 *
 * The record takes calibration table ID and MANAM revision from the line that brings the first segment, and keeps them. For
 * CALIBRATION_1 and CALIBRATION_2 a line with another calibration table ID is refused with REVISION, for MANAM one with another
 * MANAM revision, equal copies too; MAPPING and ORBIT go by neither. So after a change of the operator's tables every line is
 * refused with REVISION until the caller begins a new assembly.
 *
 * Needs in line: LINE_BYTES; in block: MAPPING_BYTES, ORBIT_BYTES, MANAM_BYTES, CALIBRATION_1_BYTES or CALIBRATION_2_BYTES, by
 * number; CALIBRATION_2 is not in HIRID.
 * Refused: FORMAT, STATE, NUMBER, SHORT_INPUT, REMAINDER, ID, FIELD, REVISION, SEGMENT. */
hansobrik_add_answer hansobrik_add_segment(uint8_t format, hansobrik_assembly assembly, const uint8_t *line, size_t line_count,
                                           uint8_t number, uint8_t *block, size_t block_count);

/* Of which revision of the operator's tables a finished block is: MANAM, CALIBRATION_1 or CALIBRATION_2, no other. Needs in
 * block: MANAM_BYTES, CALIBRATION_1_BYTES or CALIBRATION_2_BYTES, by number.
 * Refused: FORMAT, STATE, NUMBER, SHORT_INPUT, UNFINISHED. */
hansobrik_revision_answer hansobrik_revision(uint8_t format, hansobrik_assembly assembly, uint8_t number, const uint8_t *block,
                                             size_t block_count);

/* A point of a finished mapping block, row and column 0 to 24, five degrees apart: rows from 60 north to 60 south, columns from
 * 45 to 165 east in S_VISSR and S_VISSR_ONES and from 80 east to 160 west in HIRID. Needs in block: MAPPING_BYTES.
 * Refused: FORMAT, STATE, RANGE, SHORT_INPUT, UNFINISHED. */
hansobrik_grid_answer hansobrik_mapping(uint8_t format, hansobrik_assembly assembly, const uint8_t *block, size_t block_count,
                                        uint16_t row, uint16_t column);

/* A level of a finished calibration-2 block: albedo of VIS 1 to 4 (0 to 63), temperature of IR 1 to 4 (0 to 1,023); and which
 * revision it is of. Needs in block: CALIBRATION_2_BYTES. Refused: FORMAT, STATE, NUMBER, RANGE, SHORT_INPUT, UNFINISHED. */
hansobrik_level_answer hansobrik_albedo(uint8_t format, hansobrik_assembly assembly, const uint8_t *block, size_t block_count,
                                        uint8_t channel, uint16_t level);
hansobrik_level_float_answer hansobrik_albedo_f64(uint8_t format, hansobrik_assembly assembly, const uint8_t *block,
                                                  size_t block_count, uint8_t channel, uint16_t level);
hansobrik_level_answer hansobrik_temperature(uint8_t format, hansobrik_assembly assembly, const uint8_t *block,
                                             size_t block_count, uint8_t channel, uint16_t level);
hansobrik_level_float_answer hansobrik_temperature_f64(uint8_t format, hansobrik_assembly assembly, const uint8_t *block,
                                                       size_t block_count, uint8_t channel, uint16_t level);

/* The orbital elements of a finished orbit block. Needs in block: ORBIT_BYTES.
 * Refused: FORMAT, STATE, SHORT_INPUT, UNFINISHED. */
hansobrik_orbit_answer hansobrik_elements(uint8_t format, hansobrik_assembly assembly, const uint8_t *block,
                                          size_t block_count);

/* ---- the report of a pass ---- */

/* The report of no line: every field 0. Never refused. */
hansobrik_pass_report hansobrik_empty_report(void);

/* A report with one line more: of the twelve sectors what hansobrik_answers says, of their filler what hansobrik_filler counts,
 * and the pixels that hansobrik_joined and hansobrik_pixels_wide give. A line whose sectors are all refused counts too.
 *
 * A report is impossible, STATE, where it has over REPORT_LINES lines, where accepted, remainder and id of a sector are not its
 * lines together, where filler, count or sum are above what so many lines have (2,048 bits in a sector, 2,291 pixels in a
 * channel, 1,023 in a pixel), or where `present` is neither 0 nor 1. Nothing else is asked of it: with the mark 0 least and
 * largest may hold anything, and both are 0 in the answer.
 *
 * Needs in line: LINE_BYTES. Refused: FORMAT, STATE, FULL, SHORT_INPUT. */
hansobrik_report_answer hansobrik_with_line(uint8_t format, hansobrik_pass_report report, const uint8_t *line,
                                            size_t line_count);

/* The report of two passes one after the other: the two added, with the lesser least and the greater largest of those that are
 * marked present. The first is tested for STATE, then the second; then both for FULL together. Refused: STATE, FULL. */
hansobrik_report_answer hansobrik_together(hansobrik_pass_report first, hansobrik_pass_report second);

/* ---- the desk: one area of several slots for a feeder and two who read ---- */

/* A desk shares an area of 2 to 8 slots, one line each, between the feeder, which fills them, and preview and capture, which
 * read. No call is lent the area: the desk is the record of who may touch which slot, and `area` is how many bytes there are.
 *
 *     hansobrik_line_desk desk = hansobrik_fresh_desk(4).desk;
 *     hansobrik_taken_answer t = hansobrik_take(desk, sizeof area);    the feeder: a free slot, and the next serial
 *     desk = t.desk;
 *     (hansobrik_read, with the slot's LINE_BYTES lent as its line, until it says complete)
 *     desk = hansobrik_publish(desk, sizeof area, t.slot, t.serial).desk;
 *     hansobrik_seen_answer s = hansobrik_seen(desk, sizeof area, HANSOBRIK_PREVIEW, t.slot, t.serial);
 *     show(area + s.from);
 *     desk = hansobrik_release(desk, sizeof area, HANSOBRIK_PREVIEW, t.slot, t.serial).desk;
 *
 * Who may touch the bytes of a slot: FREE nobody; FILLING the feeder alone; HELD each of its holders, to read, until its own
 * release. What one of them releases changes nothing that the other may read. The slot is FREE again when both have released
 * it, and nothing else frees one: a slot that was taken stays FILLING until its line is published, where need be with the rest
 * of a later piece. The rest of a piece behind a complete line is offered to the reader with another slot lent; where none is
 * free, NO_SLOT, the feeder offers nothing until one is.
 *
 * A desk is impossible, STATE, where a slot below its count is FILLING or HELD under serial 0, or under one above `last`, or
 * under that of another such slot; where one is HELD without a holder; or where a mark is none of those above. No call makes an
 * impossible desk of a possible one. An accepted call changes the slot that it is about, a take also `last`, and nothing else.
 */

/* An empty desk of so many slots: no serial is given yet, every slot is FREE. A refused count stands in the desk all the same,
 * which no call serves. Refused: OUT_OF_RANGE. */
hansobrik_desk_answer hansobrik_fresh_desk(uint32_t count);

/* The lowest FREE slot for the next line, FILLING from now on under the next serial number: 1, 2, .. up to 2^32-1, none twice.
 * Needs in area: the desk's count times LINE_BYTES. Refused: OUT_OF_RANGE, STATE, SHORT_INPUT, NO_SERIAL, NO_SLOT. */
hansobrik_taken_answer hansobrik_take(hansobrik_line_desk desk, size_t area);

/* The slot holds its whole line: from now on it is HELD, by preview and capture both. NO_HOLD where it is not FILLING under
 * this serial. Needs in area: the desk's count times LINE_BYTES. Refused: OUT_OF_RANGE, STATE, SHORT_INPUT, NO_HOLD. */
hansobrik_desk_answer hansobrik_publish(hansobrik_line_desk desk, size_t area, size_t slot, uint32_t serial);

/* The consumer, PREVIEW or CAPTURE, holds the slot no longer; where nobody else does it is FREE, with 0 in every field. NO_HOLD
 * where it does not hold the slot under this serial, as any other number never does: each hold is released once. Needs in area:
 * the desk's count times LINE_BYTES. Refused: OUT_OF_RANGE, STATE, SHORT_INPUT, NO_HOLD. */
hansobrik_desk_answer hansobrik_release(hansobrik_line_desk desk, size_t area, uint8_t consumer, size_t slot, uint32_t serial);

/* The part of the area that a holder may read, LINE_BYTES from byte `from` on. It changes nothing, so that no desk comes back.
 * NO_HOLD as for a release. Needs in area: the desk's count times LINE_BYTES.
 * Refused: OUT_OF_RANGE, STATE, SHORT_INPUT, NO_HOLD. */
hansobrik_seen_answer hansobrik_seen(hansobrik_line_desk desk, size_t area, uint8_t consumer, size_t slot, uint32_t serial);

/* ---- helpers, which stand here whole: plain C, tested and not proved ---- */

/* A refusal number in words. */
static inline const char *
hansobrik_refusal_words(uint8_t number)
{
    switch (number) {
    case HANSOBRIK_OK: return "the call was served";
    case HANSOBRIK_REFUSED_FORMAT: return "the format is none of 1, 2, 3";
    case HANSOBRIK_REFUSED_SETTING: return "the setting of a reader is above 6";
    case HANSOBRIK_REFUSED_OUT_OF_RANGE: return "a desk's slots are not 2 to 8, or a slot is not below their count";
    case HANSOBRIK_REFUSED_STATE:
        return "the reader's record, the register, the marks, a report or a desk are impossible";
    case HANSOBRIK_REFUSED_FULL: return "the report would have over 100,000 lines";
    case HANSOBRIK_REFUSED_NUMBER:
        return "a sector, channel or block number that the call does not serve; calibration-2 in format 2";
    case HANSOBRIK_REFUSED_RANGE:
        return "level, grid point, number size or decimal places out of range; a pixel over its width";
    case HANSOBRIK_REFUSED_MAGNITUDE: return "a magnitude over 2^31-1 (n 4) or 2^47-1 (n 6), on writing";
    case HANSOBRIK_REFUSED_SHORT_INPUT:
        return "line or block buffer, area, number bytes, sector data or pixels fewer than needed";
    case HANSOBRIK_REFUSED_NO_SERIAL: return "the serial numbers of a desk are used up";
    case HANSOBRIK_REFUSED_NO_SLOT: return "no slot of a desk is free";
    case HANSOBRIK_REFUSED_NO_HOLD:
        return "the consumer does not hold the slot under that serial, or the slot is not being filled under it";
    case HANSOBRIK_REFUSED_SHORT_OUTPUT: return "the output is shorter than the result";
    case HANSOBRIK_REFUSED_REMAINDER: return "the sector's remainder is not 0";
    case HANSOBRIK_REFUSED_ID: return "the remainder is 0, the ID not the sector's own";
    case HANSOBRIK_REFUSED_FIELD: return "BCD digit over 9, date part out of range, bad segment or repeat bytes";
    case HANSOBRIK_REFUSED_REVISION: return "the segment is of another revision of the tables than the assembly";
    case HANSOBRIK_REFUSED_SEGMENT: return "the segment differs from the stored one";
    case HANSOBRIK_REFUSED_UNFINISHED: return "an entry of a block without all 25 segments";
    default: return "a number that the library does not give";
    }
}

/* A reader that hands its record and its setting on by itself and keeps the rest of the piece:
 *
 *     hansobrik_reader reader = hansobrik_reader_fresh(HANSOBRIK_S_VISSR, 0);
 *     (for each piece)
 *         hansobrik_reader_offer(&reader, piece, count);
 *         while (hansobrik_reader_line(&reader, line, sizeof line))
 *             show(line);
 *         if (reader.refused != HANSOBRIK_OK)
 *             stop(hansobrik_refusal_words(reader.refused));
 *
 * The piece is read where it stands: it must stay as it is until it is used up. */
typedef struct {
    hansobrik_state state; /* the record after the last call */
    const uint8_t *rest;   /* of the piece: the bytes that are not taken yet */
    size_t rest_count;
    uint8_t format;
    uint8_t setting;       /* as hansobrik_read takes it, the same for the whole recording */
    uint8_t refused;       /* of the last hansobrik_reader_line: OK, or why it gave no line */
} hansobrik_reader;

/* A reader before a recording's first bit, without a piece. */
static inline hansobrik_reader
hansobrik_reader_fresh(uint8_t format, uint8_t setting)
{
    hansobrik_reader reader;
    reader.state = hansobrik_fresh();
    reader.rest = NULL;
    reader.rest_count = 0;
    reader.format = format;
    reader.setting = setting;
    reader.refused = HANSOBRIK_OK;
    return reader;
}

/* The next piece. Where some of the last one is still to read it takes nothing and gives false: with those bytes left out the
 * reader would lose the line that they belong to. */
static inline bool
hansobrik_reader_offer(hansobrik_reader *reader, const uint8_t *piece, size_t count)
{
    if (reader->rest_count > 0)
        return false;
    reader->rest = piece;
    reader->rest_count = count;
    return true;
}

/* Reads on in the piece. True: a line stands whole in the buffer; there may be more in the piece. False: the piece is used up
 * and the next one may be offered, or the call was refused and `refused` says why; then nothing was taken, and the same call
 * with what it lacked goes on. Needs in line: LINE_BYTES. */
static inline bool
hansobrik_reader_line(hansobrik_reader *reader, uint8_t *line, size_t line_count)
{
    hansobrik_read_answer answer =
        hansobrik_read(reader->format, reader->setting, reader->state, reader->rest, reader->rest_count, line, line_count);
    reader->refused = answer.refused;
    reader->state = answer.state;
    if (answer.taken > 0)
        reader->rest += answer.taken;
    reader->rest_count -= answer.taken;
    return answer.complete;
}

#ifdef __cplusplus
}
#endif

#endif
