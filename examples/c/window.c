/*
 * window FILE: the names of a STIL text, five rows from the middle of its run and a waveform; or why the text is
 * refused, and where.
 *
 *     cc -std=c99 -I include examples/c/window.c target/libstil.a -o window
 */
#include "stil.h"

#include <inttypes.h>
#include <stdio.h>

enum { ROWS = 5, BESIDE = 36, UNASSIGNED = '.' };

/* One byte more than a text may have: a longer file is refused, and not cut. */
struct text {
    uint8_t bytes[LUTEMETEOR_TEXT_MOST + 1];
    size_t length;
};

static const char *const MEANINGS[] = {
    "no refusal",
    "text too long",
    "byte not allowed",
    "comment not closed",
    "token not allowed here, or text ended",
    "name needed, and this is none",
    "name unknown",
    "name already used",
    "one too many",
    "number malformed or out of bounds",
    "group with a signal twice, absent or without any",
    "waveform with a character twice, wrong alternatives or a time that does not rise",
    "data with a wrong character, a signal twice or a wrong length",
    "misplaced #, or arguments that do not fit",
    "bodies nested too deep",
    "listed pattern not defined",
    "run too large",
    "cycle without a table, or character without a waveform",
    "no such table, signal or character",
    "buffer too short",
};

static int read_text(const char *path, struct text *text)
{
    FILE *file = fopen(path, "rb");
    if (file == NULL) {
        return 0;
    }
    text->length = fread(text->bytes, 1, sizeof text->bytes, file);
    int good = !ferror(file);
    fclose(file);
    return good;
}

/* ---- a refusal, with the part of its line that stands beside its place */

/* How many bytes are underlined: the token at the place, as far as it is shown, or 1 where there is none. */
static size_t marked(const struct text *text, size_t place)
{
    uint64_t token[3];
    uint64_t answer = lutemeteor_token(text->bytes, text->length, place, token, 3);
    if (answer != 0 || token[0] == 0 || token[1] != place) {
        return 1;
    }
    return token[2] < BESIDE ? (size_t)token[2] : BESIDE;
}

static void print_shown(uint8_t byte)
{
    int blank = byte == '\t' || byte == '\r';
    putchar(blank ? ' ' : byte < 32 || byte > 126 ? '?' : byte);
}

static void print_refusal(const struct text *text, uint64_t answer)
{
    unsigned refusal = lutemeteor_refusal(answer);
    size_t place = lutemeteor_place(answer);
    uint64_t at[2];
    lutemeteor_line(text->bytes, text->length, place, at, 2);
    size_t start = place - (size_t)(at[1] - 1);
    printf("REFUSED %u AT %zu LINE %" PRIu64 " COLUMN %" PRIu64 ": %s\n", refusal, place, at[0], at[1], MEANINGS[refusal]);

    size_t from = place - start > BESIDE ? place - BESIDE : start;
    for (size_t i = from; i < text->length && i < place + BESIDE && text->bytes[i] != '\n'; i++) {
        print_shown(text->bytes[i]);
    }
    printf("\n%*s", (int)(place - from), "");
    for (size_t left = marked(text, place); left > 0; left--) {
        putchar('^');
    }
    putchar('\n');
}

/* ---- what an accepted text holds; each answers 0, or the refusal */

static uint64_t print_name(const struct text *text, int table, uint64_t number)
{
    uint64_t name[2];
    uint64_t answer = lutemeteor_name(text->bytes, text->length, table != 0, number, name, 2);
    if (answer == 0) {
        fwrite(text->bytes + name[0], 1, name[1], stdout);
    }
    return answer;
}

static uint64_t print_names(const struct text *text, int table, uint64_t count)
{
    uint64_t answer = 0;
    printf("%s %" PRIu64 "\n", table ? "TABLES" : "SIGNALS", count);
    for (uint64_t number = 0; answer == 0 && number < count; number++) {
        answer = print_name(text, table, number);
        putchar('\n');
    }
    return answer;
}

static uint64_t print_waveform(const struct text *text, uint64_t table, uint64_t signal, uint8_t character)
{
    int64_t times[LUTEMETEOR_EVENTS_MOST];
    uint8_t letters[LUTEMETEOR_EVENTS_MOST];
    uint64_t count;
    uint64_t answer = lutemeteor_waveform(text->bytes, text->length, table, signal, character, times,
                                          LUTEMETEOR_EVENTS_MOST, letters, LUTEMETEOR_EVENTS_MOST, &count, 1);
    if (answer != 0) {
        return answer;
    }
    printf("WAVEFORM ");
    answer = print_name(text, 1, table);
    putchar(' ');
    if (answer == 0) {
        answer = print_name(text, 0, signal);
    }
    printf(" %c\nEVENTS %" PRIu64 "\n", character, count);
    for (uint64_t i = 0; i < count; i++) {
        printf("%" PRId64 " %c\n", times[i], letters[i]);
    }
    return answer;
}

/* The waveform of the last signal that has a character in a row, if there is one. */
static uint64_t print_waveform_in(const struct text *text, const uint8_t *row, uint64_t signals)
{
    for (uint64_t signal = signals; signal > 0; signal--) {
        if (row[signal - 1] != UNASSIGNED) {
            return print_waveform(text, row[signals] - (uint64_t)'0', signal - 1, row[signal - 1]);
        }
    }
    return 0;
}

static uint64_t print_middle(const struct text *text, uint64_t signals, uint64_t cycles)
{
    uint8_t rows[ROWS * LUTEMETEOR_ROW_MOST];
    uint64_t shown[2];
    uint64_t first = cycles > ROWS ? (cycles - ROWS) / 2 : 0;
    uint64_t answer = lutemeteor_window(text->bytes, text->length, first, ROWS, UNASSIGNED, rows, sizeof rows, shown, 2);
    if (answer != 0) {
        return answer;
    }
    printf("CYCLES %" PRIu64 "\nROWS %" PRIu64 " FROM %" PRIu64 "\n", cycles, shown[0], first);
    fwrite(rows, signals + 2, shown[0], stdout);
    printf("VISITS %" PRIu64 "\n", shown[1]);
    return shown[0] == 0 ? 0 : print_waveform_in(text, rows, signals);
}

static uint64_t print_text(const struct text *text)
{
    uint64_t counts[5];
    uint64_t answer = lutemeteor_check(text->bytes, text->length, counts, 5);
    if (answer == 0) {
        answer = print_names(text, 0, counts[0]);
    }
    if (answer == 0) {
        answer = print_names(text, 1, counts[1]);
    }
    return answer == 0 ? print_middle(text, counts[0], counts[3]) : answer;
}

int main(int argc, char **argv)
{
    static struct text text;
    if (argc != 2) {
        fprintf(stderr, "window FILE: one file is wanted\n");
        return 2;
    }
    if (!read_text(argv[1], &text)) {
        fprintf(stderr, "%s cannot be read\n", argv[1]);
        return 2;
    }
    uint64_t answer = print_text(&text);
    if (answer != 0) {
        print_refusal(&text, answer);
    }
    if (fflush(stdout) != 0 || ferror(stdout)) {
        fprintf(stderr, "standard output cannot be written\n");
        return 2;
    }
    return 0;
}
