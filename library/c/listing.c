/* listing [-2|-3] [-s K] [FILE]: the lines of the recording FILE, or of standard input where FILE is - or none is named, in
 * format 1, with -2 in format 2 or with -3 in format 3, read with the setting K, 0 to 6, or else 0. For each line it writes
 * `line N good G filler F`: N counts from 1, G are the accepted ones of the twelve sectors, F the filler bits that are set in
 * all of them. At the end it writes `total N`, and where the recording stops inside a line it says so on standard error. Status
 * 2 for other words and for two formats; 1 where the recording cannot be read or the listing not be written, and then there is
 * no `total`.
 *
 * One line buffer and one piece are all its memory, however long the recording is. */
#include "hansobrik.h"

#include <errno.h>
#include <inttypes.h>
#include <stdio.h>
#include <string.h>

static uint8_t line[HANSOBRIK_LINE_BYTES];
static uint8_t piece[4096];

/* What is to be said of the line that stands in the buffer. */
static bool show(uint8_t format, unsigned long number)
{
    hansobrik_twelve_answer sectors = hansobrik_answers(format, line, sizeof line);
    unsigned good = 0;
    size_t filler = 0;
    for (uint8_t sector = 1; sector <= HANSOBRIK_SECTORS; sector++) {
        if (sectors.answers[sector - 1] == HANSOBRIK_OK)
            good++;
        filler += hansobrik_filler(format, line, sizeof line, sector).count;
    }
    return printf("line %lu good %u filler %zu\n", number, good, filler) >= 0;
}

/* Status 1, with what went wrong in the place of the listing's last line. */
static int fail(const char *where, const char *what)
{
    fflush(stdout);
    fprintf(stderr, "listing: %s: %s\n", where, what);
    return 1;
}

static int list(uint8_t format, uint8_t setting, FILE *recording, const char *name)
{
    hansobrik_reader reader = hansobrik_reader_fresh(format, setting);
    unsigned long lines = 0;
    size_t count;
    while ((count = fread(piece, 1, sizeof piece, recording)) > 0) {
        /* all of the last piece was read below, so this one is taken */
        hansobrik_reader_offer(&reader, piece, count);
        while (hansobrik_reader_line(&reader, line, sizeof line))
            if (!show(format, ++lines))
                return fail("standard output", strerror(errno));
        if (reader.refused != HANSOBRIK_OK)
            return fail(name, hansobrik_refusal_words(reader.refused));
    }
    if (ferror(recording))
        return fail(name, strerror(errno));
    if (printf("total %lu\n", lines) < 0 || fflush(stdout) != 0)
        return fail("standard output", strerror(errno));
    if (reader.state.in_line == 1)
        fprintf(stderr, "an unfinished line, %" PRIu64 " of %d bits\n", reader.state.position, 8 * HANSOBRIK_LINE_BYTES);
    return 0;
}

/* Whether the word is a setting: one digit from 0 to 6. */
static bool is_setting(const char *word)
{
    return word != NULL && word[0] >= '0' && word[0] <= '0' + HANSOBRIK_LARGEST_SETTING && word[1] == '\0';
}

int main(int argc, char **argv)
{
    uint8_t format = HANSOBRIK_S_VISSR, setting = 0;
    const char *name = NULL;
    for (int i = 1; i < argc; i++) {
        if (strcmp(argv[i], "-2") == 0 && format != HANSOBRIK_S_VISSR_ONES) {
            format = HANSOBRIK_HIRID;
        } else if (strcmp(argv[i], "-3") == 0 && format != HANSOBRIK_HIRID) {
            format = HANSOBRIK_S_VISSR_ONES;
        } else if (strcmp(argv[i], "-s") == 0 && is_setting(argv[i + 1])) {
            setting = (uint8_t)(argv[++i][0] - '0');
        } else if (name == NULL && (argv[i][0] != '-' || argv[i][1] == '\0')) {
            name = argv[i];
        } else {
            fprintf(stderr, "usage: listing [-2|-3] [-s K] [FILE]\n");
            return 2;
        }
    }
    if (name == NULL || strcmp(name, "-") == 0)
        return list(format, setting, stdin, "standard input");
    FILE *recording = fopen(name, "rb");
    if (recording == NULL)
        return fail(name, strerror(errno));
    int status = list(format, setting, recording, name);
    fclose(recording);
    return status;
}
