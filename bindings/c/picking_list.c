/*
 * picking_list NAME FILE...: prints a line for each FITS file: file, value of the name, comment, unit, with tabs between.
 *
 * A file that has no such line (it cannot be read, its header is refused, it has no such name, or a value that is undefined or
 * invalid) is named on standard error with the reason, and the exit status is 1. The reason of a refused card names the card and the
 * byte of it, both counted from 0. Where more than one card bears the name, the last one's value is in the line, and a warning on
 * standard error says so.
 */
#include "widrekas.h"

#include <errno.h>
#include <inttypes.h>
#include <stdio.h>
#include <string.h>

/* A header's bytes, and what an entry of it is laid into. */
static uint8_t header[WIDREKAS_LONGEST];
static uint8_t text[WIDREKAS_ROOM];
static uint8_t comment[WIDREKAS_ROOM];
static uint8_t digits[WIDREKAS_DIGITS];
static size_t out[WIDREKAS_NUMBERS];
static int64_t number;
static size_t commented, comment_length, card, column;

/* Bytes of a header or of a file's name on one line: control characters as \xNN. */
static void print_shown(FILE *to, const uint8_t *bytes, size_t length)
{
    for (size_t i = 0; i < length; i++) {
        if (bytes[i] < 32 || bytes[i] == 127) {
            fprintf(to, "\\x%02X", bytes[i]);
        } else {
            putc(bytes[i], to);
        }
    }
}

/* The name of a file. */
static void print_file(FILE *to, const char *file)
{
    print_shown(to, (const uint8_t *)file, strlen(file));
}

/* The front of a file, cut to whole cards. Answers whether it could be read. */
static int read_front(const char *file, size_t *length)
{
    FILE *in = fopen(file, "rb");
    if (in == NULL) {
        int why = errno;
        print_file(stderr, file);
        fprintf(stderr, ": %s\n", strerror(why));
        return 0;
    }
    *length = fread(header, 1, sizeof header, in);
    int failed = ferror(in);
    fclose(in);
    if (failed) {
        print_file(stderr, file);
        fprintf(stderr, ": cannot be read\n");
        return 0;
    }
    *length -= *length % WIDREKAS_CARD;
    return 1;
}

/* The value of the entry that was read. */
static void print_value(void)
{
    const char *minus = out[WIDREKAS_ENTRY_FLAG] ? "-" : "";
    switch (out[WIDREKAS_ENTRY_KIND]) {
    case WIDREKAS_INTEGER:
        printf("%" PRId64, number);
        break;
    case WIDREKAS_FINITE: {
        int length = (int)out[WIDREKAS_ENTRY_DIGITS_LENGTH];
        printf("%s%.*se%" PRId64, minus, length > 0 ? length : 1, length > 0 ? (const char *)digits : "0", number);
        break;
    }
    case WIDREKAS_INFINITE:
        printf("%sinf", minus);
        break;
    case WIDREKAS_NAN:
        printf("%snan", minus);
        break;
    case WIDREKAS_LOGICAL:
        putchar(out[WIDREKAS_ENTRY_FLAG] ? 'T' : 'F');
        break;
    case WIDREKAS_STRING:
        print_shown(stdout, text, out[WIDREKAS_ENTRY_TEXT_LENGTH]);
        break;
    default:
        break;
    }
}

/* The comment, without spaces at its ends: the seams between cards become spaces. */
static void print_comment(void)
{
    static uint8_t shown[WIDREKAS_ROOM];
    size_t start = 0;
    size_t end = comment_length;
    for (size_t i = 0; i < end; i++) {
        shown[i] = comment[i] == '\n' ? ' ' : comment[i];
    }
    while (start < end && shown[start] == ' ') {
        start++;
    }
    while (start < end && shown[end - 1] == ' ') {
        end--;
    }
    print_shown(stdout, shown + start, end - start);
}

/* The unit that the comment names, if any. */
static void print_unit(void)
{
    size_t start;
    size_t end = widrekas_unit_past_space(comment, comment_length, &start);
    if (end > 0) {
        print_shown(stdout, comment + start, end - start);
    }
}

/* How many cards bear a name: what the list has at the place of that name. */
static size_t times_borne(size_t length, const uint8_t *name, size_t long_name)
{
    static size_t first[WIDREKAS_PLACES], last[WIDREKAS_PLACES], times[WIDREKAS_PLACES];
    uint8_t own[WIDREKAS_LONGEST_NAME];
    size_t count, long_own;
    if (widrekas_list(header, length, first, WIDREKAS_PLACES, last, WIDREKAS_PLACES, times, WIDREKAS_PLACES, &count, &column) != 0) {
        return 0;
    }
    for (size_t k = 0; k < count; k++) {
        if (widrekas_name(header, length, first[k], own, sizeof own, &long_own, &column) == 0 && long_own == long_name &&
            memcmp(own, name, long_name) == 0) {
            return times[k];
        }
    }
    return 0;
}

/* Why a file's header or name is refused, with the card and the byte of it where a card is refused. */
static void print_refusal(const char *file, uint8_t answer)
{
    print_file(stderr, file);
    if (answer <= WIDREKAS_EXTENSION_NOT_QUOTED) {
        fprintf(stderr, ": refused %d at card %zu, byte %zu", answer, out[WIDREKAS_ENTRY_CARD], column);
    } else {
        fprintf(stderr, ": refused %d", answer);
    }
    fprintf(stderr, ": %s\n", widrekas_meaning(answer));
}

/* The line of a file. Answers whether there is one. */
static int print_line(const char *file, const char *name)
{
    size_t length;
    if (!read_front(file, &length)) {
        return 0;
    }
    const uint8_t *asked = (const uint8_t *)name;
    size_t long_name = strlen(name);
    uint8_t answer = widrekas_lookup_value(header, length, asked, long_name, text, sizeof text, digits, sizeof digits, out,
                                           WIDREKAS_NUMBERS, &number, &column);
    if (answer == 0) {
        answer = widrekas_lookup_comment(header, length, asked, long_name, comment, sizeof comment, &commented, &comment_length,
                                         &card, &column);
    }
    if (answer != 0) {
        print_refusal(file, answer);
        return 0;
    }
    size_t kind = out[WIDREKAS_ENTRY_KIND];
    if (kind == WIDREKAS_UNDEFINED || kind == WIDREKAS_INVALID) {
        print_file(stderr, file);
        fprintf(stderr, ": %s has %s value", name, kind == WIDREKAS_UNDEFINED ? "no" : "an invalid");
        if (kind == WIDREKAS_INVALID) {
            size_t end = out[WIDREKAS_ENTRY_TEXT_LENGTH];
            while (end > 0 && text[end - 1] == ' ') {
                end--;
            }
            fputs(": ", stderr);
            print_shown(stderr, text, end);
        }
        putc('\n', stderr);
        return 0;
    }
    size_t times = times_borne(length, asked, long_name);
    if (times > 1) {
        print_file(stderr, file);
        fputs(": warning: ", stderr);
        print_shown(stderr, asked, long_name);
        fprintf(stderr, " stands on %zu cards, and the last one counts\n", times);
    }
    print_file(stdout, file);
    putchar('\t');
    print_value();
    putchar('\t');
    print_comment();
    putchar('\t');
    print_unit();
    putchar('\n');
    return 1;
}

int main(int count, char **words)
{
    if (count < 2) {
        fprintf(stderr, "usage: picking_list NAME FILE...\n");
        return 2;
    }
    int status = 0;
    for (int i = 2; i < count; i++) {
        if (!print_line(words[i], words[1])) {
            status = 1;
        }
    }
    if (fflush(stdout) != 0) {
        return 1;
    }
    return status;
}
