/*
 * What CFITSIO reads of the names of a header, for bench/written.
 *
 *     written ASKED FILE
 *
 * Prints a line for each name of ASKED: the name, the kind by which CFITSIO takes its value, the value, the comment; with tabs between.
 * A string is in hexadecimal, a decimal the bits of its double in hexadecimal, a comment in hexadecimal behind a =. An error has its
 * number in place of the value.
 */
#include <fitsio.h>
#include <stdint.h>
#include <stdio.h>
#include <string.h>

static void say_text(const char *text)
{
    for (; *text != '\0'; text++) {
        printf("%02x", (unsigned)(unsigned char)*text);
    }
}

/* Reads a value by the kind that its text has. */
static int say_value(fitsfile *file, const char *name, char kind, char *comment)
{
    int status = 0, truth;
    LONGLONG integer;
    double real;
    uint64_t bits;
    char *text = NULL;
    switch (kind) {
    case 'C':
        if (fits_read_key_longstr(file, name, &text, comment, &status) == 0) {
            printf("%s\tstring\t", name);
            say_text(text);
        }
        if (text != NULL) {
            int freed = 0;
            fits_free_memory(text, &freed);
        }
        break;
    case 'L':
        if (fits_read_key(file, TLOGICAL, name, &truth, comment, &status) == 0) {
            printf("%s\tlogical\t%c", name, truth ? 'T' : 'F');
        }
        break;
    case 'I':
        if (fits_read_key(file, TLONGLONG, name, &integer, comment, &status) == 0) {
            printf("%s\tinteger\t%lld", name, (long long)integer);
        }
        break;
    default:
        if (fits_read_key(file, TDOUBLE, name, &real, comment, &status) == 0) {
            memcpy(&bits, &real, sizeof bits);
            printf("%s\tdecimal\t%016llx", name, (unsigned long long)bits);
        }
        break;
    }
    return status;
}

static void say(fitsfile *file, const char *name)
{
    char value[FLEN_VALUE] = "", comment[FLEN_COMMENT] = "", kind = 'C';
    int status = 0;
    fits_read_keyword(file, name, value, comment, &status);
    fits_get_keytype(value, &kind, &status);
    comment[0] = '\0';
    if (status == 0) {
        status = say_value(file, name, kind, comment);
    }
    if (status != 0) {
        printf("%s\terror\t%d", name, status);
        fits_clear_errmsg();
    }
    printf("\t=");
    say_text(comment);
    printf("\n");
}

int main(int count, char **words)
{
    static char line[8192];
    fitsfile *file;
    FILE *asked;
    int status = 0;
    if (count != 3 || (asked = fopen(words[1], "r")) == NULL) {
        fprintf(stderr, "usage: written ASKED FILE\n");
        return 2;
    }
    if (fits_open_diskfile(&file, words[2], READONLY, &status) != 0) {
        fits_report_error(stderr, status);
        return 1;
    }
    while (fgets(line, sizeof line, asked) != NULL) {
        line[strcspn(line, "\t")] = '\0';
        say(file, line);
    }
    fits_close_file(file, &status);
    return fclose(asked) != 0 || status != 0;
}
