/*
 * Tests of the C boundary. What is expected comes from the rules and examples of docs/SPECIFICATION.md, never from our own output.
 * Every slice that is lent has its own memory of just its length, so that a step outside is seen by valgrind.
 */
#include "widrekas.h"

#include <math.h>
#include <stdio.h>
#include <stdlib.h>
#include <string.h>

static int checks;

/* Ends the run where something does not hold; unlike assert, in every build. */
#define CHECK(holds)                                                           \
    do {                                                                       \
        checks++;                                                              \
        if (!(holds)) {                                                        \
            fprintf(stderr, "%s:%d: %s\n", __FILE__, __LINE__, #holds);        \
            exit(1);                                                           \
        }                                                                      \
    } while (0)

/* What lent memory holds before a call. */
#define BEFORE 0xa5

static void *lent(size_t bytes)
{
    void *memory = malloc(bytes > 0 ? bytes : 1);
    CHECK(memory != NULL);
    memset(memory, BEFORE, bytes > 0 ? bytes : 1);
    return memory;
}

static int untouched(const void *memory, size_t bytes)
{
    const unsigned char *byte = memory;
    for (size_t i = 0; i < bytes; i++) {
        if (byte[i] != BEFORE) {
            return 0;
        }
    }
    return 1;
}

/* What *column holds before a call: no byte of a card. */
#define KEPT ((size_t)4711)

/* Answers 1 to 8 set *column to a byte of the card; every other answer leaves it. */
static int told_or_kept(uint8_t answer, size_t column)
{
    return 1 <= answer && answer <= 8 ? column < WIDREKAS_CARD : column == KEPT;
}

/* Cards, each padded with spaces to 80 bytes. */
static uint8_t *cards(const char *const *fronts, size_t many)
{
    uint8_t *bytes = lent(many * WIDREKAS_CARD);
    memset(bytes, ' ', many * WIDREKAS_CARD);
    for (size_t i = 0; i < many; i++) {
        memcpy(bytes + i * WIDREKAS_CARD, fronts[i], strlen(fronts[i]));
    }
    return bytes;
}

/* ---- cards */

struct card {
    uint8_t *record;
    int64_t number;
    size_t column;
    uint8_t answer;
};

static struct card read_card(const char *front)
{
    struct card read = {lent(WIDREKAS_RECORD), -1, KEPT, 0};
    uint8_t *card = cards(&front, 1);
    read.answer = widrekas_card(card, WIDREKAS_CARD, read.record, WIDREKAS_RECORD, &read.number, &read.column);
    CHECK(told_or_kept(read.answer, read.column));
    if (read.answer != 0) {
        CHECK(untouched(read.record, WIDREKAS_RECORD) && read.number == -1);
    }
    free(card);
    return read;
}

/* Whether a text of a record is the one expected, with zeros behind it. */
static int is_part(const uint8_t *record, int length_at, int at, const char *expected)
{
    size_t length = strlen(expected);
    if (record[length_at] != length || memcmp(record + at, expected, length) != 0) {
        return 0;
    }
    for (size_t i = length; i < WIDREKAS_CARD; i++) {
        if (record[at + i] != 0) {
            return 0;
        }
    }
    return 1;
}

static void is_card(const char *front, int class, int kind, int flag, int64_t number, const char *name,
                    const char *text, const char *comment)
{
    struct card read = read_card(front);
    CHECK(read.answer == 0);
    const uint8_t *record = read.record;
    CHECK(record[WIDREKAS_RECORD_CLASS] == class && record[WIDREKAS_RECORD_KIND] == kind);
    CHECK(record[WIDREKAS_RECORD_FLAG] == flag && read.number == number);
    CHECK(record[WIDREKAS_RECORD_COMMENTED] == (comment != NULL) && record[7] == 0);
    CHECK(is_part(record, WIDREKAS_RECORD_NAME_LENGTH, WIDREKAS_RECORD_NAME, name));
    CHECK(is_part(record, WIDREKAS_RECORD_TEXT_LENGTH, WIDREKAS_RECORD_TEXT, text));
    CHECK(is_part(record, WIDREKAS_RECORD_COMMENT_LENGTH, WIDREKAS_RECORD_COMMENT, comment != NULL ? comment : ""));
    free(read.record);
}

static void is_refused(const char *front, int refusal, size_t column)
{
    struct card read = read_card(front);
    CHECK(read.answer == refusal && read.column == column);
    free(read.record);
}

static void test_cards(void)
{
    is_card("K       = ''", WIDREKAS_VALUE_CARD, WIDREKAS_STRING, 0, 0, "K", "", NULL);
    is_card("K       = '   '", WIDREKAS_VALUE_CARD, WIDREKAS_STRING, 0, 0, "K", " ", NULL);
    is_card("K       = 'O''RING' /", WIDREKAS_VALUE_CARD, WIDREKAS_STRING, 0, 0, "K", "O'RING", "");
    is_card("K       = 'abc''", WIDREKAS_VALUE_CARD, WIDREKAS_STRING, 0, 0, "K", "abc", NULL);
    is_card("K       = 9223372036854775807 / c", WIDREKAS_VALUE_CARD, WIDREKAS_INTEGER, 0, INT64_MAX, "K", "", " c");
    is_card("K       = 9223372036854775808", WIDREKAS_VALUE_CARD, WIDREKAS_FINITE, 0, 0, "K", "9223372036854775808", NULL);
    is_card("K       = -1.5D3", WIDREKAS_VALUE_CARD, WIDREKAS_FINITE, 1, 2, "K", "15", NULL);
    is_card("K       = -inf", WIDREKAS_VALUE_CARD, WIDREKAS_INFINITE, 1, 0, "K", "", NULL);
    is_card("K       = +nan", WIDREKAS_VALUE_CARD, WIDREKAS_NAN, 0, 0, "K", "", NULL);
    is_card("K       = 1D", WIDREKAS_VALUE_CARD, WIDREKAS_INVALID, 0, 0, "K", "1E", NULL);
    is_card("K       = TEXT", WIDREKAS_VALUE_CARD, WIDREKAS_LOGICAL, 1, 0, "K", "", NULL);
    is_card("K       = / lost", WIDREKAS_VALUE_CARD, WIDREKAS_UNDEFINED, 0, 0, "K", "", NULL);
    is_card("CONTINUE  '75' / ring", WIDREKAS_CONTINUE_CARD, 0, 0, 0, "CONTINUE", "75", " ring");
    is_card("XTENSION= 'IMAGE   '", WIDREKAS_XTENSION_CARD, 0, 0, 0, "XTENSION", "IMAGE", NULL);
    is_card("COMMENT a", WIDREKAS_COMMENT_CARD, 0, 0, 0, "COMMENT", "a", NULL);
    is_card("HISTORY b", WIDREKAS_HISTORY_CARD, 0, 0, 0, "HISTORY", "b", NULL);
    is_card("HIERARCH A  B = F", WIDREKAS_HIERARCH_CARD, WIDREKAS_LOGICAL, 0, 0, "A.B", "", NULL);
    is_card("        a", WIDREKAS_COMMENT_CARD, 0, 0, 0, "", "a", NULL);
    is_card("KIT     =5", WIDREKAS_UNDEFINED_CARD, 0, 0, 0, "KIT",
            "KIT     =5                                                                      ", NULL);
    is_card("  END", WIDREKAS_END_CARD, 0, 0, 0, "END", "", NULL);
    is_card("", WIDREKAS_SPACE_CARD, 0, 0, 0, "", "", NULL);
    is_card("END     of it", WIDREKAS_END_CARD, 0, 0, 0, "END", "", NULL);
    is_refused("K       = \x80", WIDREKAS_HIGH_BYTE, 10);
    is_refused("K       = 5 \x0b 6", WIDREKAS_ODD_BYTE, 12);
    is_refused("K       = '", WIDREKAS_STRING_NOT_CLOSED, 10);
    is_refused("K       = 'a' b", WIDREKAS_STRING_NOT_CLOSED, 10);
    is_refused("CONTINUE  a'", WIDREKAS_STRING_NOT_OPENED, 10);
    is_refused("K       = (1, 2)", WIDREKAS_COMPLEX, 10);
    is_refused("HIERARCH A", WIDREKAS_NO_EQUALS, 9);
    is_refused("HIERARCH  = 1", WIDREKAS_NO_NAME, 10);
    is_refused("XTENSION= IMAGE", WIDREKAS_EXTENSION_NOT_QUOTED, 10);
    static const size_t lengths[][2] = {{0, 248}, {79, 248}, {81, 248}, {80, 0}, {80, 247}, {80, 249}};
    for (size_t i = 0; i < sizeof lengths / sizeof lengths[0]; i++) {
        uint8_t *card = lent(lengths[i][0]);
        uint8_t *record = lent(lengths[i][1]);
        int64_t number = -1;
        size_t column = KEPT;
        CHECK(widrekas_card(card, lengths[i][0], record, lengths[i][1], &number, &column) == WIDREKAS_WRONG_LENGTH);
        CHECK(untouched(record, lengths[i][1]) && number == -1 && column == KEPT);
        free(card);
        free(record);
    }
}

static void test_units(void)
{
    /* The end by both readings, and the start by the second. */
    static const struct {
        const char *comment;
        size_t end, start, past_space;
    } units[] = {{"[mm] ring", 3, 1, 3}, {"[]", 1, 1, 1},      {" [mm]", 0, 2, 4},      {" []", 0, 2, 2},    {"  [mm]", 0, KEPT, 0},
                 {"[mm", 0, KEPT, 0},    {" [mm", 0, KEPT, 0}, {"", 0, KEPT, 0},        {" ", 0, KEPT, 0},   {"]", 0, KEPT, 0},
                 {"[a]]", 2, 1, 2},      {" [ ]]", 0, 2, 3},   {"\t[mm]", 0, KEPT, 0}, {" [s\nm]", 0, 2, 5}, {"\x7f[s]", 0, KEPT, 0}};
    for (size_t i = 0; i < sizeof units / sizeof units[0]; i++) {
        size_t length = strlen(units[i].comment), start = KEPT;
        uint8_t *comment = lent(length);
        memcpy(comment, units[i].comment, length);
        CHECK(widrekas_unit(comment, length) == units[i].end);
        CHECK(widrekas_unit_past_space(comment, length, &start) == units[i].past_space && start == units[i].start);
        free(comment);
    }
}

/* ---- headers */

/* The places that a list is laid into. */
struct places {
    size_t *first, *last, *times, count, column;
};

static struct places lend_places(void)
{
    size_t size = WIDREKAS_PLACES * sizeof(size_t);
    struct places p = {lent(size), lent(size), lent(size), 12345, KEPT};
    return p;
}

static void give_back_places(struct places p)
{
    free(p.first);
    free(p.last);
    free(p.times);
}

/* Lists a header of so many bytes. */
static uint8_t list(const uint8_t *header, size_t length, struct places *p)
{
    size_t size = WIDREKAS_PLACES * sizeof(size_t);
    uint8_t answer = widrekas_list(header, length, p->first, WIDREKAS_PLACES, p->last, WIDREKAS_PLACES, p->times, WIDREKAS_PLACES,
                                   &p->count, &p->column);
    CHECK(told_or_kept(answer, p->column));
    if (answer != 0) {
        CHECK(untouched(p->first, size) && untouched(p->last, size) && untouched(p->times, size));
    }
    return answer;
}

/* A refusal that has no column leaves KEPT. */
static void is_refused_header(const char *const *fronts, size_t many, int refusal, size_t card, size_t column)
{
    uint8_t *header = cards(fronts, many);
    struct places p = lend_places();
    CHECK(list(header, many * WIDREKAS_CARD, &p) == refusal && p.count == card && p.column == column);
    give_back_places(p);
    /* Both halves of a lookup refuse it alike. */
    uint8_t text[1], comment[1], digits[WIDREKAS_DIGITS];
    size_t out[WIDREKAS_NUMBERS] = {7, 7, 7, 7, 7}, commented = 7, length = 7, at = 7;
    int64_t number = -1;
    size_t told = KEPT;
    uint8_t answer = widrekas_lookup_value(header, many * WIDREKAS_CARD, (const uint8_t *)"K", 1, text, 1, digits, WIDREKAS_DIGITS,
                                           out, WIDREKAS_NUMBERS, &number, &told);
    CHECK(answer == refusal && out[0] == card && out[1] == 7 && out[3] == 7 && number == -1 && told == column);
    told = KEPT;
    answer = widrekas_lookup_comment(header, many * WIDREKAS_CARD, (const uint8_t *)"K", 1, comment, 1, &commented, &length, &at,
                                     &told);
    CHECK(answer == refusal && at == card && commented == 7 && length == 7 && told == column);
    free(header);
}

static void test_lists(void)
{
    static const char *const some[] = {"B       = 1", "HIERARCH A B = 2", "COMMENT", "B       = 3", "C       = 4", "END", "\xff"};
    uint8_t *header = cards(some, 7);
    struct places p = lend_places();
    CHECK(list(header, 7 * WIDREKAS_CARD, &p) == 0 && p.count == 3);
    CHECK(p.first[0] == 0 && p.last[0] == 3 && p.first[1] == 1 && p.last[1] == 1 && p.first[2] == 4 && p.last[2] == 4);
    CHECK(p.times[0] == 2 && p.times[1] == 1 && p.times[2] == 1);
    for (size_t i = 3; i < WIDREKAS_PLACES; i++) {
        CHECK(p.first[i] == 720 && p.last[i] == 720 && p.times[i] == 0);
    }
    give_back_places(p);

    /* Each of the three lengths is asked for. */
    static const size_t lengths[][3] = {{719, 720, 720}, {720, 719, 720}, {720, 720, 719}, {0, 720, 720}, {720, 0, 720}, {720, 720, 0}};
    for (size_t i = 0; i < sizeof lengths / sizeof lengths[0]; i++) {
        size_t size = WIDREKAS_PLACES * sizeof(size_t);
        p = lend_places();
        CHECK(widrekas_list(header, 7 * WIDREKAS_CARD, p.first, lengths[i][0], p.last, lengths[i][1], p.times, lengths[i][2], &p.count,
                            &p.column) == 255);
        CHECK(untouched(p.first, size) && untouched(p.last, size) && untouched(p.times, size) && p.count == 12345 && p.column == KEPT);
        give_back_places(p);
    }
    free(header);

    /* Value, HIERARCH and XTENSION cards count, each name by itself; CONTINUE cards and what stands behind END do not. */
    static const char *const again[] = {"KIT     = 'a&'",     "CONTINUE  'b'", "HIERARCH KIT = 1", "XTENSION= 'IMAGE'", "KIT     =",
                                        "XTENSION= 'TABLE'", "KITS    = 2",   "KIT = 3",          "END",               "KIT     = 4"};
    header = cards(again, 10);
    p = lend_places();
    CHECK(list(header, 10 * WIDREKAS_CARD, &p) == 0 && p.count == 3);
    CHECK(p.first[0] == 0 && p.last[0] == 4 && p.times[0] == 3);
    CHECK(p.first[1] == 3 && p.last[1] == 5 && p.times[1] == 2 && p.first[2] == 6 && p.times[2] == 1 && p.times[3] == 0);
    give_back_places(p);
    free(header);
    static const char *const lone[] = {"K       = 1", "K       = '", "END"};
    is_refused_header(lone, 3, WIDREKAS_STRING_NOT_CLOSED, 1, 10);
    static const char *const endless[] = {"K       = 1", "K       = 2"};
    is_refused_header(endless, 2, WIDREKAS_NO_END, 2, KEPT);
    is_refused_header(endless, 0, WIDREKAS_HEADER_LENGTH, 0, KEPT);
}

/* ---- where END stands */

static void is_header(const char *const *fronts, size_t many, int refusal, size_t card, size_t column)
{
    uint8_t *header = cards(fronts, many);
    size_t *told = lent(sizeof *told);
    size_t *at = lent(sizeof *at);
    *at = KEPT;
    CHECK(widrekas_header(header, many * WIDREKAS_CARD, told, at) == refusal && *told == card && *at == column);
    free(at);
    free(told);
    free(header);
}

/* A card that is END, whatever follows the keyword, and one that is not. */
static void is_end(const char *front, int is)
{
    const char *const fronts[] = {"K       = 5", front};
    is_header(fronts, 2, is ? 0 : WIDREKAS_NO_END, is ? 1 : 2, KEPT);
}

static void test_header(void)
{
    is_end("END", 1);
    is_end("END     of it", 1);
    is_end("END     = 5", 1);
    is_end("  END", 1);
    is_end("     END", 1);
    is_end("\tEND", 1);
    is_end("END\n\f\r", 1);
    is_end("END     \x01\x7f", 1);
    is_end("      END", 0);
    is_end("ENDE", 0);
    is_end("END = 5", 0);
    is_end("E ND", 0);
    is_end("end", 0);
    is_end("END\v", 0);
    is_end("COMMENT END", 0);

    static const char *const twice[] = {"END", "K       = (", "END"};
    is_header(twice, 3, 0, 0, KEPT);
    static const char *const high[] = {"K       = 1", "END   \x80"};
    is_header(high, 2, WIDREKAS_HIGH_BYTE, 1, 6);
    static const char *const lone[] = {"K       = 1", "COMMENT", "K       = '", "K       = (", "END"};
    is_header(lone, 5, WIDREKAS_STRING_NOT_CLOSED, 2, 10);
    is_header(lone, 2, WIDREKAS_NO_END, 2, KEPT);
    is_header(lone, 0, WIDREKAS_HEADER_LENGTH, 0, KEPT);

    /* The longest header, one card more, and lengths between cards. The answer takes what may be lent beside it. */
    uint8_t *header = lent(WIDREKAS_LONGEST + WIDREKAS_CARD);
    memset(header, ' ', WIDREKAS_LONGEST + WIDREKAS_CARD);
    memcpy(header + WIDREKAS_LONGEST - WIDREKAS_CARD, "END", 3);
    size_t told[3] = {11, 12, 13}, at[3] = {14, KEPT, 15};
    CHECK(widrekas_header(header, WIDREKAS_LONGEST, told + 1, at + 1) == 0 && told[1] == 719);
    CHECK(widrekas_header(header, WIDREKAS_LONGEST - WIDREKAS_CARD, told + 1, at + 1) == WIDREKAS_NO_END && told[1] == 719);
    CHECK(widrekas_header(header, WIDREKAS_LONGEST + WIDREKAS_CARD, told + 1, at + 1) == WIDREKAS_HEADER_LENGTH && told[1] == 0);
    told[1] = 12;
    CHECK(widrekas_header(header, 79, told + 1, at + 1) == WIDREKAS_HEADER_LENGTH && told[1] == 0);
    told[1] = 12;
    CHECK(widrekas_header(header, 81, told + 1, at + 1) == WIDREKAS_HEADER_LENGTH && told[1] == 0 && at[1] == KEPT);
    /* The last byte of the last card. */
    header[WIDREKAS_LONGEST - 1] = 0x80;
    CHECK(widrekas_header(header, WIDREKAS_LONGEST, told + 1, at + 1) == WIDREKAS_HIGH_BYTE && told[1] == 719 && at[1] == 79);
    CHECK(told[0] == 11 && told[2] == 13 && at[0] == 14 && at[2] == 15);
    free(header);
}

/* ---- names */

/* Reads a name into room bytes between two guards, and checks that nothing else is touched. */
static uint8_t read_name(const uint8_t *header, size_t length, size_t card, size_t room, uint8_t *name, size_t *told,
                         size_t *column)
{
    enum { GUARD = 16 };
    uint8_t *memory = lent(GUARD + room + GUARD);
    *told = 4321;
    *column = KEPT;
    uint8_t answer = widrekas_name(header, length, card, memory + GUARD, room, told, column);
    CHECK(told_or_kept(answer, *column));
    size_t written = answer == 0 ? *told : 0;
    CHECK(written <= room && written <= WIDREKAS_LONGEST_NAME);
    CHECK(answer == 0 || *told == 4321);
    CHECK(untouched(memory, GUARD) && untouched(memory + GUARD + written, room - written + GUARD));
    memcpy(name, memory + GUARD, written);
    free(memory);
    return answer;
}

/* The name that the second of three cards bears: with no room, a byte too little, just enough, and more. */
static void is_name(const char *front, const char *expected)
{
    const char *const fronts[] = {"K       = (", front, "\xff"};
    uint8_t *header = cards(fronts, 3);
    size_t length = strlen(expected), told, column;
    uint8_t name[WIDREKAS_LONGEST_NAME];
    for (size_t room = 0; room <= WIDREKAS_LONGEST_NAME + 5; room++) {
        uint8_t answer = read_name(header, 3 * WIDREKAS_CARD, 1, room, name, &told, &column);
        if (room < length) {
            CHECK(answer == WIDREKAS_BUFFER_SHORT);
        } else {
            CHECK(answer == 0 && told == length && memcmp(name, expected, length) == 0);
        }
    }
    free(header);
}

/* A card without a name, with any room. */
static void has_no_name(const char *front, int refusal, size_t column)
{
    const char *const fronts[] = {"A       = 1", front};
    uint8_t *header = cards(fronts, 2);
    size_t told, at;
    uint8_t name[WIDREKAS_LONGEST_NAME];
    for (size_t room = 0; room <= WIDREKAS_LONGEST_NAME; room += 40) {
        CHECK(read_name(header, 2 * WIDREKAS_CARD, 1, room, name, &told, &at) == refusal && at == column);
    }
    free(header);
}

static void test_names(void)
{
    is_name("KIT     = 5", "KIT");
    is_name("  KIT   = 'a'", "KIT");
    is_name("\tKIT\t   = 'a'", "KIT");
    is_name("A B     = T", "A B");
    is_name("A\x01\x7f     = T", "A\x01\x7f");
    is_name("ABCDEFGH= / nothing", "ABCDEFGH");
    is_name("KIT     = what", "KIT");
    is_name("XTENSION= 'IMAGE'", "XTENSION");
    is_name("XTENSION  'IMAGE'", "XTENSION");
    is_name("HIERARCH KIT = 5", "KIT");
    is_name("HIERARCH  ESO  DET\tID= 5", "ESO.DET.ID");
    is_name("HIERARCHxA = 5", "A");
    is_name("HIERARCH=K = 5", "K");
    is_name("HIERARCH ABCDEFGHIJKLMNOPQRSTUVWXYZABCDEFGHIJKLMNOPQRSTUVWXYZABCDEFGHIJKLMNOPQR=",
            "ABCDEFGHIJKLMNOPQRSTUVWXYZABCDEFGHIJKLMNOPQRSTUVWXYZABCDEFGHIJKLMNOPQR");
    has_no_name("COMMENT = 5", WIDREKAS_NAME_NOT_FOUND, KEPT);
    has_no_name("HISTORY = 5", WIDREKAS_NAME_NOT_FOUND, KEPT);
    has_no_name("        = 5", WIDREKAS_NAME_NOT_FOUND, KEPT);
    has_no_name("", WIDREKAS_NAME_NOT_FOUND, KEPT);
    has_no_name("CONTINUE  'a'", WIDREKAS_NAME_NOT_FOUND, KEPT);
    has_no_name("END", WIDREKAS_NAME_NOT_FOUND, KEPT);
    has_no_name("  END   = 5", WIDREKAS_NAME_NOT_FOUND, KEPT);
    has_no_name("KIT     =5", WIDREKAS_NAME_NOT_FOUND, KEPT);
    has_no_name("KIT = 5", WIDREKAS_NAME_NOT_FOUND, KEPT);
    has_no_name("KIT     = \x80", WIDREKAS_HIGH_BYTE, 10);
    has_no_name("KIT     = 5 \x0b 6", WIDREKAS_ODD_BYTE, 12);
    has_no_name("KIT     = 'a", WIDREKAS_STRING_NOT_CLOSED, 10);
    has_no_name("CONTINUE  a'", WIDREKAS_STRING_NOT_OPENED, 10);
    has_no_name("KIT     = (1, 2)", WIDREKAS_COMPLEX, 10);
    has_no_name("HIERARCH KIT", WIDREKAS_NO_EQUALS, 9);
    has_no_name("HIERARCH = 5", WIDREKAS_NO_NAME, 9);
    has_no_name("XTENSION= IMAGE", WIDREKAS_EXTENSION_NOT_QUOTED, 10);

    /* Behind END a name is read; a number that the header lacks is 12, and a bad length comes first. */
    static const char *const some[] = {"B       = 1", "HIERARCH A B = 2", "COMMENT", "B       = 3", "C       = 4", "END", "D       = 5"};
    uint8_t *header = cards(some, 7);
    uint8_t name[WIDREKAS_LONGEST_NAME];
    size_t told, column;
    CHECK(read_name(header, 7 * WIDREKAS_CARD, 6, 80, name, &told, &column) == 0 && told == 1 && name[0] == 'D');
    static const size_t beyond[] = {7, 8, 720, (size_t)-1, (size_t)-1 / WIDREKAS_CARD + 1};
    for (size_t i = 0; i < sizeof beyond / sizeof beyond[0]; i++) {
        CHECK(read_name(header, 7 * WIDREKAS_CARD, beyond[i], 80, name, &told, &column) == WIDREKAS_NAME_NOT_FOUND);
        CHECK(read_name(header, 79, beyond[i], 80, name, &told, &column) == WIDREKAS_HEADER_LENGTH);
    }
    CHECK(read_name(header, 0, 0, 80, name, &told, &column) == WIDREKAS_HEADER_LENGTH);
    CHECK(read_name(header, 7 * WIDREKAS_CARD - 1, 0, 0, name, &told, &column) == WIDREKAS_HEADER_LENGTH);

    /* The names of a list, each at its first card and at its last. */
    static const char *const names[] = {"B", "A.B", "C"};
    struct places p = lend_places();
    CHECK(list(header, 7 * WIDREKAS_CARD, &p) == 0 && p.count == 3);
    for (size_t k = 0; k < p.count; k++) {
        size_t length = strlen(names[k]);
        CHECK(read_name(header, 7 * WIDREKAS_CARD, p.first[k], 80, name, &told, &column) == 0);
        CHECK(told == length && memcmp(name, names[k], length) == 0);
        CHECK(read_name(header, 7 * WIDREKAS_CARD, p.last[k], length, name, &told, &column) == 0);
        CHECK(told == length && memcmp(name, names[k], length) == 0);
    }
    give_back_places(p);
    free(header);
}

/* ---- entries */

/* What an entry is asked by, and what its halves were laid into. */
struct asked {
    const uint8_t *header;
    size_t length;
    const char *name; /* or none, and the card's number */
    size_t card;
    uint8_t *text, *comment, *digits;
    size_t *out;
    int64_t number;
    size_t column;
    size_t commented, comment_length, comment_card, comment_column;
};

/* The value's half. */
static uint8_t ask_value(struct asked *a, size_t text)
{
    a->text = lent(text);
    a->digits = lent(WIDREKAS_DIGITS);
    a->out = lent(WIDREKAS_NUMBERS * sizeof(size_t));
    a->number = -1;
    a->column = KEPT;
    uint8_t answer;
    if (a->name != NULL) {
        answer = widrekas_lookup_value(a->header, a->length, (const uint8_t *)a->name, strlen(a->name), a->text, text, a->digits,
                                       WIDREKAS_DIGITS, a->out, WIDREKAS_NUMBERS, &a->number, &a->column);
    } else {
        answer = widrekas_entry_value(a->header, a->length, a->card, a->text, text, a->digits, WIDREKAS_DIGITS, a->out,
                                      WIDREKAS_NUMBERS, &a->number, &a->column);
    }
    CHECK(told_or_kept(answer, a->column));
    return answer;
}

/* The comment's half. */
static uint8_t ask_comment(struct asked *a, size_t comment)
{
    a->comment = lent(comment);
    a->commented = a->comment_length = a->comment_card = a->comment_column = KEPT;
    uint8_t answer;
    if (a->name != NULL) {
        answer = widrekas_lookup_comment(a->header, a->length, (const uint8_t *)a->name, strlen(a->name), a->comment, comment,
                                         &a->commented, &a->comment_length, &a->comment_card, &a->comment_column);
    } else {
        answer = widrekas_entry_comment(a->header, a->length, a->card, a->comment, comment, &a->commented, &a->comment_length,
                                        &a->comment_card, &a->comment_column);
    }
    CHECK(told_or_kept(answer, a->comment_column));
    return answer;
}

static void give_back_value(struct asked *a)
{
    free(a->text);
    free(a->digits);
    free(a->out);
}

/* A value that is refused with 12 or 13 leaves the room that is wanted, and nothing else. */
static void is_refused_value(struct asked a, size_t text, int refusal, size_t wanted)
{
    CHECK(ask_value(&a, text) == refusal && a.out[WIDREKAS_ENTRY_TEXT_LENGTH] == wanted);
    CHECK(untouched(a.text, text) && untouched(a.digits, WIDREKAS_DIGITS) && a.number == -1);
    CHECK(untouched(a.out, 3 * sizeof(size_t)) && untouched(a.out + 4, sizeof(size_t)));
    give_back_value(&a);
}

static void is_refused_comment(struct asked a, size_t comment, int refusal, size_t wanted)
{
    CHECK(ask_comment(&a, comment) == refusal && a.comment_length == wanted);
    CHECK(untouched(a.comment, comment) && a.commented == KEPT && a.comment_card == KEPT);
    free(a.comment);
}

/* No entry: both halves give 12. */
static void is_missing(struct asked a)
{
    is_refused_value(a, 80, WIDREKAS_NAME_NOT_FOUND, 0);
    is_refused_comment(a, 80, WIDREKAS_NAME_NOT_FOUND, 0);
}

/* A refused card that is met leaves its number, its column and nothing else, in both halves, also where there is no room. */
static void meets_refused(struct asked a, int refusal, size_t card, size_t column)
{
    for (size_t room = 0; room <= 80; room += 40) {
        CHECK(ask_value(&a, room) == refusal && a.out[WIDREKAS_ENTRY_CARD] == card && a.column == column);
        CHECK(untouched(a.text, room) && untouched(a.digits, WIDREKAS_DIGITS));
        CHECK(untouched(a.out + 1, (WIDREKAS_NUMBERS - 1) * sizeof(size_t)) && a.number == -1);
        give_back_value(&a);
        CHECK(ask_comment(&a, room) == refusal && a.comment_card == card && a.comment_column == column);
        CHECK(untouched(a.comment, room) && a.commented == KEPT && a.comment_length == KEPT);
        free(a.comment);
    }
}

/* An entry by its halves, each with room to spare, with room that is just enough, with a byte too little and with none. */
static void is_entry(struct asked a, size_t kind, size_t flag, int64_t number, const char *digits, const char *text,
                     const char *comment)
{
    size_t text_length = strlen(text);
    size_t comment_length = comment != NULL ? strlen(comment) : 0;
    for (size_t spare = 0; spare <= 30; spare += 10) {
        CHECK(ask_value(&a, text_length + spare) == 0);
        CHECK(a.out[WIDREKAS_ENTRY_CARD] == 0 && a.out[WIDREKAS_ENTRY_KIND] == kind && a.out[WIDREKAS_ENTRY_FLAG] == flag);
        CHECK(a.out[WIDREKAS_ENTRY_TEXT_LENGTH] == text_length && memcmp(a.text, text, text_length) == 0);
        CHECK(a.out[WIDREKAS_ENTRY_DIGITS_LENGTH] == strlen(digits) && strncmp((char *)a.digits, digits, WIDREKAS_DIGITS) == 0);
        CHECK(a.number == number && untouched(a.text + text_length, spare));
        give_back_value(&a);
        CHECK(ask_comment(&a, comment_length + spare) == 0);
        CHECK(a.commented == (comment != NULL) && a.comment_length == comment_length && a.comment_card == KEPT);
        CHECK(comment_length == 0 || memcmp(a.comment, comment, comment_length) == 0);
        CHECK(untouched(a.comment + comment_length, spare));
        free(a.comment);
    }
    if (text_length > 0) {
        is_refused_value(a, text_length - 1, WIDREKAS_BUFFER_SHORT, text_length);
        is_refused_value(a, 0, WIDREKAS_BUFFER_SHORT, text_length);
    }
    if (comment_length > 0) {
        is_refused_comment(a, comment_length - 1, WIDREKAS_BUFFER_SHORT, comment_length);
        is_refused_comment(a, 0, WIDREKAS_BUFFER_SHORT, comment_length);
    }
}

static void test_entries(void)
{
    static const char *const example[] = {"SIZE    = 12", "KIT     = 'FKM-&'", "CONTINUE  '75' / ring", "END"};
    uint8_t *header = cards(example, 4);
    struct asked a = {header, 320, "KIT", 0, NULL, NULL, NULL, NULL, 0, KEPT, 0, 0, 0, 0};
    is_entry(a, WIDREKAS_STRING, 0, 0, "", "FKM-75", " ring");
    a.name = "SIZE";
    is_entry(a, WIDREKAS_INTEGER, 0, 12, "", "", NULL);
    a.name = "size";
    is_missing(a);
    a.name = "";
    is_missing(a);
    a.name = NULL;
    a.card = 1;
    is_entry(a, WIDREKAS_STRING, 0, 0, "", "FKM-75", " ring");
    a.card = 2;
    is_missing(a);
    a.card = (size_t)-1;
    is_missing(a);
    free(header);

    static const char *const edges[] = {"A       = 'FKM-&'",       "COMMENT",        "CONTINUE  '75'",  "B       = 'FKM &'",
                                        "CONTINUE  ''",            "C       = 'x&'", "D       = 5",     "CONTINUE  'y'",
                                        "E       = 'a&' /[mm]",    "CONTINUE '&'",   "CONTINUE 'b' / c", "F       = -1.5D3",
                                        "G       = what",          "D       = 6 /",  "END"};
    header = cards(edges, 15);
    struct asked b = {header, 15 * WIDREKAS_CARD, "A", 0, NULL, NULL, NULL, NULL, 0, KEPT, 0, 0, 0, 0};
    is_entry(b, WIDREKAS_STRING, 0, 0, "", "FKM-75", NULL);
    b.name = "B";
    is_entry(b, WIDREKAS_STRING, 0, 0, "", "FKM", NULL);
    b.name = "C";
    is_entry(b, WIDREKAS_STRING, 0, 0, "", "x&", NULL);
    b.name = "D";
    is_entry(b, WIDREKAS_INTEGER, 0, 6, "", "", "");
    b.name = "E";
    is_entry(b, WIDREKAS_STRING, 0, 0, "", "ab", "[mm]\n c");
    b.name = "F";
    is_entry(b, WIDREKAS_FINITE, 1, 2, "15", "", NULL);
    b.name = "G";
    is_entry(b, WIDREKAS_INVALID, 0, 0, "",
             "what                                                                  ", NULL);
    free(header);

    uint8_t few[WIDREKAS_DIGITS] = {0};
    size_t out[WIDREKAS_NUMBERS] = {0};
    int64_t number = -1;
    size_t column = KEPT;
    CHECK(widrekas_entry_value(few, 0, 0, few, 0, few + 1, WIDREKAS_DIGITS - 1, out, WIDREKAS_NUMBERS, &number, &column) == 255);
    CHECK(widrekas_entry_value(few, 0, 0, few, 0, few, WIDREKAS_DIGITS, out, WIDREKAS_NUMBERS - 1, &number, &column) == 255);
    CHECK(widrekas_lookup_value(few, 0, few, 0, few, 0, few, 0, out, WIDREKAS_NUMBERS, &number, &column) == 255);
    out[0] = 5;
    CHECK(widrekas_entry_value(few, 79, 0, few, 0, few, 0, out, WIDREKAS_NUMBERS, &number, &column) == 255 && out[0] == 5);
    uint8_t digits[WIDREKAS_DIGITS];
    CHECK(widrekas_entry_value(few, 79, 0, few, 0, digits, WIDREKAS_DIGITS, out, WIDREKAS_NUMBERS, &number, &column) == 9);
    CHECK(out[0] == 0 && number == -1 && column == KEPT);
    size_t commented = KEPT, length = KEPT, at = 5;
    CHECK(widrekas_entry_comment(few, 79, 0, few, 0, &commented, &length, &at, &column) == 9 && at == 0);
    at = 5;
    CHECK(widrekas_lookup_comment(few, 79, few, 0, few, 0, &commented, &length, &at, &column) == 9 && at == 0);
    CHECK(commented == KEPT && length == KEPT && column == KEPT);
}

/* Entries by their cards' numbers, where refused cards and END stand around them. */
static void test_met(void)
{
    static const char *const broken[] = {"KIT     = 'a&'", "WCS     = (1", "CONTINUE  'b'", "END"};
    uint8_t *header = cards(broken, 4);
    struct asked a = {header, 320, NULL, 0, NULL, NULL, NULL, NULL, 0, KEPT, 0, 0, 0, 0};
    meets_refused(a, WIDREKAS_COMPLEX, 1, 10);
    a.card = 1;
    meets_refused(a, WIDREKAS_COMPLEX, 1, 10);
    a.card = 2;
    is_missing(a);
    a.card = 3;
    is_missing(a);
    a.name = "KIT";
    meets_refused(a, WIDREKAS_COMPLEX, 1, 10);
    free(header);

    /* Only an open string meets a refused card, and the first one. */
    static const char *const complete[] = {"KIT     = 'a' / b", "WCS     = (1", "B       = 'c&'", "COMMENT",   "CONTINUE  'd'",
                                           "CONTINUE  'e",      "C       = 5",  "CONTINUE  f'",   "D       = '&'", "COMMENT",
                                           "CONTINUE  'g",      "CONTINUE  h'", "E       = '&'",  "END",       "F       = '"};
    header = cards(complete, 15);
    struct asked b = {header, 15 * WIDREKAS_CARD, NULL, 0, NULL, NULL, NULL, NULL, 0, KEPT, 0, 0, 0, 0};
    is_entry(b, WIDREKAS_STRING, 0, 0, "", "a", " b");
    b.card = 2;
    is_entry(b, WIDREKAS_STRING, 0, 0, "", "cd", NULL);
    b.card = 6;
    is_entry(b, WIDREKAS_INTEGER, 0, 5, "", "", NULL);
    b.card = 7;
    meets_refused(b, WIDREKAS_STRING_NOT_OPENED, 7, 10);
    b.card = 8;
    meets_refused(b, WIDREKAS_STRING_NOT_CLOSED, 10, 10);
    b.card = 12;
    is_entry(b, WIDREKAS_STRING, 0, 0, "", "&", NULL);
    free(header);

    /* Behind END an entry is read by its number, and has no name for the others. */
    static const char *const behind[] = {"END", "KIT     = 'a&'", "CONTINUE  'b'", "END", "WCS     = (1"};
    header = cards(behind, 5);
    struct asked c = {header, 5 * WIDREKAS_CARD, NULL, 1, NULL, NULL, NULL, NULL, 0, KEPT, 0, 0, 0, 0};
    is_entry(c, WIDREKAS_STRING, 0, 0, "", "ab", NULL);
    c.card = 4;
    meets_refused(c, WIDREKAS_COMPLEX, 4, 10);
    c.name = "KIT";
    is_missing(c);
    struct places p = lend_places();
    CHECK(list(header, 5 * WIDREKAS_CARD, &p) == 0 && p.count == 0 && p.times[0] == 0);
    give_back_places(p);
    free(header);
}

/* ---- columns */

/* Cards that are refused, with the byte at which they are: counted by hand, by the rule of enum widrekas_refusal. */
static const struct {
    const char *front;
    int refusal;
    size_t column;
} columns[] = {
    /* The first byte of 128 or more, wherever it stands. */
    {"\xff       = 5", WIDREKAS_HIGH_BYTE, 0},
    {"K       = 'a\xe9' / \xb0\xff", WIDREKAS_HIGH_BYTE, 12},
    {"K       = 5 / 20 \xb0", WIDREKAS_HIGH_BYTE, 17},
    {"COMMENT  20 \xb0", WIDREKAS_HIGH_BYTE, 12},
    {"        \x80", WIDREKAS_HIGH_BYTE, 8},
    {"END \x80\x80", WIDREKAS_HIGH_BYTE, 4},
    {"NO VALUE  \x80", WIDREKAS_HIGH_BYTE, 10},
    /* The byte where the scan stops, behind blanks and strings too. */
    {"K       =  \x0b", WIDREKAS_ODD_BYTE, 11},
    {"K       = 5 \x0b / \x0b", WIDREKAS_ODD_BYTE, 12},
    {"K       = 5\t6", WIDREKAS_ODD_BYTE, 11},
    {"K       = \t\n\f\r\x7f", WIDREKAS_ODD_BYTE, 14},
    {"K       = '\x0b' \x0b", WIDREKAS_ODD_BYTE, 14},
    {"K       = 'a'\x0b'b' \x0b", WIDREKAS_ODD_BYTE, 18},
    {"K       = 'a'\x0b\x0b \x0b", WIDREKAS_ODD_BYTE, 16},
    {"CONTINUE\x01", WIDREKAS_ODD_BYTE, 8},
    {"CONTINUE 'a' \x01", WIDREKAS_ODD_BYTE, 13},
    {"HIERARCH A=\x0b", WIDREKAS_ODD_BYTE, 11},
    {"HIERARCH \x0b = \x01", WIDREKAS_ODD_BYTE, 13},
    {"XTENSION\x0b\x0b\x0b", WIDREKAS_ODD_BYTE, 10},
    /* The first byte of the raw text that is no blank: it is a quote. */
    {"K       = 'a", WIDREKAS_STRING_NOT_CLOSED, 10},
    {"K       =    'a", WIDREKAS_STRING_NOT_CLOSED, 13},
    {"K       = \t'a' b", WIDREKAS_STRING_NOT_CLOSED, 11},
    {"CONTINUE'a", WIDREKAS_STRING_NOT_CLOSED, 8},
    {"CONTINUE\r\n'a", WIDREKAS_STRING_NOT_CLOSED, 10},
    {"HIERARCH A='", WIDREKAS_STRING_NOT_CLOSED, 11},
    {"HIERARCH A B = 'x", WIDREKAS_STRING_NOT_CLOSED, 15},
    {"HIERARCH=A='x=", WIDREKAS_STRING_NOT_CLOSED, 11},
    {"CONTINUEa'", WIDREKAS_STRING_NOT_OPENED, 8},
    {"CONTINUE   a'", WIDREKAS_STRING_NOT_OPENED, 11},
    {"CONTINUE \f a b'", WIDREKAS_STRING_NOT_OPENED, 11},
    /* It is a parenthesis. */
    {"K       = (", WIDREKAS_COMPLEX, 10},
    {"K       =      (1, 2)", WIDREKAS_COMPLEX, 15},
    {"HIERARCH A=(", WIDREKAS_COMPLEX, 11},
    {"HIERARCH A =  (1, 2) / =", WIDREKAS_COMPLEX, 14},
    /* HIERARCH without a = from byte 9 on, and without a name. */
    {"HIERARCH", WIDREKAS_NO_EQUALS, 9},
    {"HIERARCH A B C", WIDREKAS_NO_EQUALS, 9},
    {"HIERARCH= 5", WIDREKAS_NO_EQUALS, 9},
    {"HIERARCH = 5", WIDREKAS_NO_NAME, 9},
    {"HIERARCH   = 5 = 6", WIDREKAS_NO_NAME, 11},
    {"HIERARCH= = 5", WIDREKAS_NO_NAME, 10},
    {"HIERARCH==", WIDREKAS_NO_NAME, 9},
    /* XTENSION: the raw text may be empty or begin with the slash; bytes 8 and 9 are no part of it. */
    {"XTENSION=", WIDREKAS_EXTENSION_NOT_QUOTED, 10},
    {"XTENSION", WIDREKAS_EXTENSION_NOT_QUOTED, 10},
    {"XTENSION''", WIDREKAS_EXTENSION_NOT_QUOTED, 10},
    {"XTENSION= \t\f\r", WIDREKAS_EXTENSION_NOT_QUOTED, 10},
    {"XTENSION= / c", WIDREKAS_EXTENSION_NOT_QUOTED, 10},
    {"XTENSION=  /", WIDREKAS_EXTENSION_NOT_QUOTED, 11},
    {"XTENSION=\t\t\tIMAGE", WIDREKAS_EXTENSION_NOT_QUOTED, 12},
    {"XTENSION=    'IMAGE", WIDREKAS_EXTENSION_NOT_QUOTED, 13},
    /* Two on one card: 1, then 6 and 7, then 2, then the rest. */
    {"HIERARCH A \x80", WIDREKAS_HIGH_BYTE, 11},
    {"K       = \x0b \x80", WIDREKAS_HIGH_BYTE, 12},
    {"HIERARCH A \x0b", WIDREKAS_NO_EQUALS, 9},
    {"HIERARCH \t =\x0b", WIDREKAS_NO_NAME, 11},
    {"K       = (\x0b", WIDREKAS_ODD_BYTE, 11},
    {"K       = 'a' b\x0b", WIDREKAS_ODD_BYTE, 15},
    {"XTENSION= IMAGE\x0b", WIDREKAS_ODD_BYTE, 15},
};

/* The six functions tell the same column of a card, alone or as the second of a header. */
static void test_columns(void)
{
    int seen[9] = {0};
    for (size_t i = 0; i < sizeof columns / sizeof columns[0]; i++) {
        const char *front = columns[i].front;
        int refusal = columns[i].refusal;
        size_t column = columns[i].column;
        is_refused(front, refusal, column);
        has_no_name(front, refusal, column);
        const char *const fronts[] = {"A       = 'a&'", front, "K       = (", "END"};
        is_header(fronts, 4, refusal, 1, column);
        is_refused_header(fronts, 4, refusal, 1, column);
        uint8_t *header = cards(fronts, 4);
        /* By a name; by the card itself; by the entry whose string is open before it. */
        struct asked a = {header, 4 * WIDREKAS_CARD, "A", 0, NULL, NULL, NULL, NULL, 0, KEPT, 0, 0, 0, 0};
        meets_refused(a, refusal, 1, column);
        a.name = NULL;
        meets_refused(a, refusal, 1, column);
        a.card = 1;
        meets_refused(a, refusal, 1, column);
        free(header);
        seen[refusal]++;
    }
    for (int refusal = 1; refusal <= 8; refusal++) {
        CHECK(seen[refusal] > 0);
    }

    /* The last byte of a card, and a refused card that an entry meets behind others. */
    uint8_t card[WIDREKAS_CARD + 1];
    memset(card, ' ', WIDREKAS_CARD);
    card[WIDREKAS_CARD] = 0;
    card[79] = 0xff;
    is_refused((const char *)card, WIDREKAS_HIGH_BYTE, 79);
    memcpy(card, "K       =", 9);
    card[79] = '\'';
    is_refused((const char *)card, WIDREKAS_STRING_NOT_CLOSED, 79);
    memcpy(card, "HIERARCH ", 9);
    card[79] = '=';
    is_refused((const char *)card, WIDREKAS_NO_NAME, 79);
    static const char *const joined[] = {"A       = 'a&'", "COMMENT", "CONTINUE  '&'", "CONTINUE   'b", "K       = (", "END"};
    uint8_t *header = cards(joined, 6);
    struct asked a = {header, 6 * WIDREKAS_CARD, NULL, 0, NULL, NULL, NULL, NULL, 0, KEPT, 0, 0, 0, 0};
    meets_refused(a, WIDREKAS_STRING_NOT_CLOSED, 3, 11);
    a.card = 4;
    meets_refused(a, WIDREKAS_COMPLEX, 4, 10);
    free(header);
}

/* ---- cards written */

#define X10 "xxxxxxxxxx"
#define X60 X10 X10 X10 X10 X10 X10
#define X65 X60 "xxxxx"
#define X67 X60 "xxxxxxx"
#define C10 "cccccccccc"
#define C48 C10 C10 C10 C10 "cccccccc"
#define C65 C10 C10 C10 C10 C10 C10 "ccccc"
#define Q10 "''''''''''"
#define D10 "1234567891"

/* What is to be written. */
struct wanted {
    const char *name;
    size_t kind, flag;
    int64_t number;
    const char *text;
    const char *comment; /* or none */
};

static struct wanted truth(size_t flag, const char *comment)
{
    return (struct wanted){"KIT", WIDREKAS_LOGICAL, flag, 0, "", comment};
}

static struct wanted integer(int64_t number, const char *comment)
{
    return (struct wanted){"KIT", WIDREKAS_INTEGER, 0, number, "", comment};
}

static struct wanted decimal(size_t minus, const char *digits, int64_t power, const char *comment)
{
    return (struct wanted){"KIT", WIDREKAS_FINITE, minus, power, digits, comment};
}

static struct wanted string(const char *text, const char *comment)
{
    return (struct wanted){"KIT", WIDREKAS_STRING, 0, 0, text, comment};
}

/* A slice of its own for the bytes of a text. */
static uint8_t *slice(const char *text, size_t length)
{
    uint8_t *bytes = lent(length);
    memcpy(bytes, text, length);
    return bytes;
}

/* Writes into room bytes between two guards, and checks that nothing else is touched. The caller frees the block. */
static uint8_t write_into(const struct wanted *w, size_t room, uint8_t **block, size_t *count)
{
    enum { GUARD = 16 };
    size_t name_length = strlen(w->name), text_length = strlen(w->text), comment_length = w->comment != NULL ? strlen(w->comment) : 0;
    uint8_t *name = slice(w->name, name_length);
    uint8_t *text = slice(w->text, text_length);
    uint8_t *comment = slice(w->comment != NULL ? w->comment : "", comment_length);
    uint8_t *memory = lent(GUARD + room + GUARD);
    *count = 4321;
    uint8_t answer = widrekas_write(name, name_length, w->kind, w->flag, w->number, text, text_length, w->comment != NULL, comment,
                                    comment_length, memory + GUARD, room, count);
    size_t written = answer == 0 ? *count * WIDREKAS_CARD : 0;
    CHECK(answer == 0 || (19 <= answer && answer <= 21));
    CHECK(answer == 0 ? 1 <= *count && written <= room && written <= WIDREKAS_BLOCK : *count == 4321);
    CHECK(untouched(memory, GUARD) && untouched(memory + GUARD + written, room - written + GUARD));
    CHECK(memcmp(name, w->name, name_length) == 0 && memcmp(text, w->text, text_length) == 0);
    *block = slice((const char *)memory + GUARD, written);
    free(memory);
    free(comment);
    free(text);
    free(name);
    return answer;
}

/* Written cards in a header, with commentary between them, are read back as they were asked for. */
static void reads_back(const struct wanted *w, const uint8_t *block, size_t count)
{
    static const char *const between[] = {"COMMENT between", "HISTORY between", "", "        between", "KIT     =5"};
    size_t many = 0, length = (2 * count + 4) * WIDREKAS_CARD;
    uint8_t *header = lent(length);
    memset(header, ' ', length);
    memcpy(header + many++ * WIDREKAS_CARD, "KIT     = 'before&'", 19);
    for (size_t i = 0; i < count; i++) {
        const char *front = between[i % 5];
        memcpy(header + many++ * WIDREKAS_CARD, block + i * WIDREKAS_CARD, WIDREKAS_CARD);
        memcpy(header + many++ * WIDREKAS_CARD, front, strlen(front));
    }
    memcpy(header + many++ * WIDREKAS_CARD, "CONTINUE  'not its own'", 23);
    memcpy(header + many++ * WIDREKAS_CARD, "OTHER   = 5", 11);
    memcpy(header + many++ * WIDREKAS_CARD, "END", 3);
    CHECK(many * WIDREKAS_CARD == length);
    struct asked a = {header, length, w->name, 0, NULL, NULL, NULL, NULL, 0, KEPT, 0, 0, 0, 0};
    int is_string = w->kind == WIDREKAS_STRING, is_decimal = w->kind == WIDREKAS_FINITE;
    size_t flag = w->kind == WIDREKAS_LOGICAL || is_decimal ? w->flag != 0 : 0;
    int64_t number = w->kind == WIDREKAS_INTEGER || is_decimal ? w->number : 0;
    is_entry(a, w->kind, flag, number, is_decimal ? w->text : "", is_string ? w->text : "", w->comment);
    free(header);
}

/* Cards as they are written, each padded with spaces: into a block that they fill, into larger ones, and into one that is a byte short. */
static void is_written(struct wanted w, const char *const *fronts, size_t many)
{
    static const size_t spare[] = {0, 1, 79, 80, 4711};
    uint8_t *expected = cards(fronts, many), *block;
    size_t length = many * WIDREKAS_CARD, count;
    for (size_t i = 0; i < sizeof spare / sizeof spare[0]; i++) {
        CHECK(write_into(&w, length + spare[i], &block, &count) == 0 && count == many);
        CHECK(memcmp(block, expected, length) == 0);
        free(block);
    }
    CHECK(write_into(&w, WIDREKAS_BLOCK, &block, &count) == 0 && count == many);
    free(block);
    CHECK(write_into(&w, length - 1, &block, &count) == WIDREKAS_BLOCK_SHORT);
    free(block);
    CHECK(write_into(&w, 0, &block, &count) == WIDREKAS_BLOCK_SHORT);
    free(block);
    reads_back(&w, expected, many);
    free(expected);
}

static void is_one(struct wanted w, const char *front)
{
    is_written(w, &front, 1);
}

static void is_two(struct wanted w, const char *front, const char *behind)
{
    const char *const fronts[] = {front, behind};
    is_written(w, fronts, 2);
}

/* What is not written, with any block. */
static void is_not_written(struct wanted w, int refusal)
{
    static const size_t rooms[] = {0, 1, 79, 80, 81, WIDREKAS_BLOCK, 3 * WIDREKAS_BLOCK};
    for (size_t i = 0; i < sizeof rooms / sizeof rooms[0]; i++) {
        uint8_t *block;
        size_t count;
        CHECK(write_into(&w, rooms[i], &block, &count) == refusal);
        free(block);
    }
}

static void test_written_numbers(void)
{
    is_one(truth(1, NULL), "KIT     =                    T");
    is_one(truth(0, NULL), "KIT     =                    F");
    is_one(truth(2, NULL), "KIT     =                    T");
    is_one(truth((size_t)-1, NULL), "KIT     =                    T");
    is_one(truth(1, "ring"), "KIT     =                    T /ring");
    is_one(truth(1, ""), "KIT     =                    T /");
    is_one(truth(0, " / ring"), "KIT     =                    F / / ring");
    is_one(truth(1, "[mm] it's 100 %&~"), "KIT     =                    T /[mm] it's 100 %&~");
    is_one(truth(1, C48), "KIT     =                    T /" C48);
    is_one(integer(0, NULL), "KIT     =                    0");
    is_one(integer(-7, NULL), "KIT     =                   -7");
    is_one(integer(-10, "c"), "KIT     =                  -10 /c");
    is_one(integer(1234567890, NULL), "KIT     =           1234567890");
    is_one(integer(INT64_MAX, NULL), "KIT     =  9223372036854775807");
    is_one(integer(INT64_MIN, NULL), "KIT     = -9223372036854775808");
    is_one(integer(INT64_MIN, C48), "KIT     = -9223372036854775808 /" C48);
    is_one(decimal(1, "15", -1, NULL), "KIT     =               -15E-1");
    is_one(decimal(0, "15", 2, "[s]"), "KIT     =                 15E2 /[s]");
    is_one(decimal(9, "5", 0, NULL), "KIT     =                 -5E0");
    is_one(decimal(0, "", 0, NULL), "KIT     =                  0E0");
    is_one(decimal(1, "", 0, NULL), "KIT     =                 -0E0");
    is_one(decimal(0, "1", 99999, NULL), "KIT     =              1E99999");
    is_one(decimal(1, "102", -99999, NULL), "KIT     =          -102E-99999");
    is_one(decimal(0, "9223372036854775808", 0, ""), "KIT     = 9223372036854775808E0 /");
    /* 19, 20 and 21 bytes: the last passes the field, and starts where it starts. */
    is_one(decimal(0, D10 "234567", -1, "c"), "KIT     =  " D10 "234567E-1 /c");
    is_one(decimal(0, D10 "2345678", -1, "c"), "KIT     = " D10 "2345678E-1 /c");
    is_one(decimal(1, D10 "2345678", -1, "c"), "KIT     = -" D10 "2345678E-1 /c");
    is_one(decimal(0, "1234567890123456789", 2, NULL), "KIT     = 1234567890123456789E2");
    /* 70 bytes without a comment, 68 with an empty one. */
    is_one(decimal(0, D10 D10 D10 D10 D10 D10 "23456789", 0, NULL), "KIT     = " D10 D10 D10 D10 D10 D10 "23456789E0");
    is_one(decimal(0, D10 D10 D10 D10 D10 D10 "234567", 0, ""), "KIT     = " D10 D10 D10 D10 D10 D10 "234567E0 /");
    is_one(decimal(1, "1234567890123456789", 2, C10 C10 C10 C10 "cccccc"), "KIT     = -1234567890123456789E2 /" C10 C10 C10 C10 "cccccc");

    is_not_written(truth(1, C48 "c"), WIDREKAS_UNWRITABLE_VALUE);
    is_not_written(integer(-7, C48 "c"), WIDREKAS_UNWRITABLE_VALUE);
    is_not_written(integer(INT64_MIN, C48 "c"), WIDREKAS_UNWRITABLE_VALUE);
    is_not_written(decimal(0, D10 D10 D10 D10 D10 D10 "23456789", 0, ""), WIDREKAS_UNWRITABLE_VALUE);
    is_not_written(decimal(0, D10 D10 D10 D10 D10 D10 "23456789", 10, NULL), WIDREKAS_UNWRITABLE_VALUE);
    is_not_written(decimal(0, D10 D10 D10 D10 D10 D10 "234567891", 0, NULL), WIDREKAS_UNWRITABLE_VALUE);
    is_not_written(decimal(0, D10 D10 D10 D10 D10 D10 D10 D10 D10 D10, 0, NULL), WIDREKAS_UNWRITABLE_VALUE);
    is_not_written(decimal(1, "1234567890123456789", 2, C10 C10 C10 C10 "ccccccc"), WIDREKAS_UNWRITABLE_VALUE);
    static const char *const digits[] = {"0", "00", "10", "01", "010", "1.5", "-1", "+1", " 1", "1 ", "1E1", "a", "/", ":", "1\xb1"};
    for (size_t i = 0; i < sizeof digits / sizeof digits[0]; i++) {
        is_not_written(decimal(0, digits[i], 0, NULL), WIDREKAS_UNWRITABLE_VALUE);
    }
    static const int64_t powers[] = {100000, -100000, INT64_MAX, INT64_MIN};
    for (size_t i = 0; i < sizeof powers / sizeof powers[0]; i++) {
        is_not_written(decimal(0, "1", powers[i], NULL), WIDREKAS_UNWRITABLE_VALUE);
        is_not_written(decimal(1, "", powers[i], NULL), WIDREKAS_UNWRITABLE_VALUE);
    }
    is_not_written(decimal(0, "", 1, NULL), WIDREKAS_UNWRITABLE_VALUE);
    is_not_written(decimal(0, "", -1, NULL), WIDREKAS_UNWRITABLE_VALUE);
    static const size_t kinds[] = {0, WIDREKAS_INFINITE, WIDREKAS_NAN, WIDREKAS_UNDEFINED, WIDREKAS_INVALID, 9, 257, (size_t)-1};
    for (size_t i = 0; i < sizeof kinds / sizeof kinds[0]; i++) {
        is_not_written((struct wanted){"KIT", kinds[i], 1, 1, "1", NULL}, WIDREKAS_UNWRITABLE_VALUE);
        is_not_written((struct wanted){"KIT", kinds[i], 0, 0, "", "c"}, WIDREKAS_UNWRITABLE_VALUE);
    }
}

static void test_written_strings(void)
{
    is_one(string("a", NULL), "KIT     = 'a'");
    is_one(string("", NULL), "KIT     = ''");
    is_one(string("", ""), "KIT     = '' /");
    is_one(string(" ", NULL), "KIT     = ' '");
    is_one(string("  a", "ring"), "KIT     = '  a' /ring");
    is_one(string("O'RING", NULL), "KIT     = 'O''RING'");
    is_one(string("'", "'"), "KIT     = '''' /'");
    is_one(string("a/b & c", " d"), "KIT     = 'a/b & c' / d");
    is_one(string("", C65), "KIT     = '' /" C65);
    is_one(string("a", C65), "KIT     = 'a' /" C65);
    /* The last card has 70 bytes for the quotes, the text and the comment. */
    is_one(string(X67 "x", NULL), "KIT     = '" X67 "x'");
    is_one(string(X65 "x", ""), "KIT     = '" X65 "x' /");
    is_one(string(X60, "123456"), "KIT     = '" X60 "' /123456");
    is_one(string(X65 "'y", NULL), "KIT     = '" X65 "''y'");
    is_one(string(Q10 Q10 Q10 "''''", NULL), "KIT     = '" Q10 Q10 Q10 Q10 Q10 Q10 "'''''''''");
    /* One byte more, and the first card takes as many characters as fit in 67 bytes. */
    is_two(string(X67 "xy", NULL), "KIT     = '" X67 "&'", "CONTINUE  'xy'");
    is_two(string(X67, ""), "KIT     = '" X67 "&'", "CONTINUE  '' /");
    is_two(string(X60 "x", "123456"), "KIT     = '" X60 "x&'", "CONTINUE  '' /123456");
    is_two(string("ab", C65), "KIT     = 'ab&'", "CONTINUE  '' /" C65);
    is_two(string("'", C65), "KIT     = '''&'", "CONTINUE  '' /" C65);
    /* A doubled quote is not cut, and stands whole where it fits. */
    is_two(string(X65 "x'y", NULL), "KIT     = '" X65 "x&'", "CONTINUE  '''y'");
    is_two(string(X65 "'yz", NULL), "KIT     = '" X65 "''&'", "CONTINUE  'yz'");
    is_two(string(Q10 Q10 Q10 "'''''", NULL), "KIT     = '" Q10 Q10 Q10 Q10 Q10 Q10 "''''''&'", "CONTINUE  ''''''");
    /* A & or a space before the cut or behind it belongs to the text. */
    is_two(string(X65 "x&yz", NULL), "KIT     = '" X65 "x&&'", "CONTINUE  'yz'");
    is_two(string(X65 "  yz", NULL), "KIT     = '" X65 "  &'", "CONTINUE  'yz'");
    is_two(string(X67 "& z", NULL), "KIT     = '" X67 "&'", "CONTINUE  '& z'");
    is_two(string(X67 "  z", "c"), "KIT     = '" X67 "&'", "CONTINUE  '  z' /c");
    /* Only the last card has the comment. */
    static const char *const three[] = {"KIT     = '" X67 "&'", "CONTINUE  '" X67 "&'", "CONTINUE  '" X10 "' /ring"};
    is_written(string(X67 X67 X10, "ring"), three, 3);
    static const char *const whole[] = {"KIT     = '" X67 "&'", "CONTINUE  '" X67 "&'", "CONTINUE  '' /" C65};
    is_written(string(X67 X67, C65), whole, 3);

    /* The longest: 2,000 quotes, 33 on each of 60 cards, 20 on the next, and the comment on the last. */
    char text[2002];
    const char *longest[62];
    memset(text, '\'', 2000);
    text[2000] = 0;
    for (size_t i = 0; i < 60; i++) {
        longest[i] = i == 0 ? "KIT     = '" Q10 Q10 Q10 Q10 Q10 Q10 "''''''&'" : "CONTINUE  '" Q10 Q10 Q10 Q10 Q10 Q10 "''''''&'";
    }
    longest[60] = "CONTINUE  '" Q10 Q10 Q10 Q10 "&'";
    longest[61] = "CONTINUE  '' /" C65;
    is_written(string(text, C65), longest, 62);
    /* And of single bytes: 67 on each of 29 cards, 57 on the last. */
    memset(text, 'x', 2001);
    text[2001] = 0;
    is_not_written(string(text, NULL), WIDREKAS_UNWRITABLE_VALUE);
    text[2000] = 0;
    const char *singles[30];
    for (size_t i = 0; i < 29; i++) {
        singles[i] = i == 0 ? "KIT     = '" X67 "&'" : "CONTINUE  '" X67 "&'";
    }
    singles[29] = "CONTINUE  '" X10 X10 X10 X10 X10 "xxxxxxx'";
    is_written(string(text, NULL), singles, 30);

    static const char *const ends[] = {"a ", "  ", "a  ", "' ", "& ", "&", "a&", "a&&", " &"};
    for (size_t i = 0; i < sizeof ends / sizeof ends[0]; i++) {
        is_not_written(string(ends[i], NULL), WIDREKAS_UNWRITABLE_VALUE);
        is_not_written(string(ends[i], "c"), WIDREKAS_UNWRITABLE_VALUE);
    }
    is_not_written(string("", C65 "c"), WIDREKAS_UNWRITABLE_VALUE);
    is_not_written(string("ab", C65 "c"), WIDREKAS_UNWRITABLE_VALUE);
    is_not_written(string(X67 X67, C65 "c"), WIDREKAS_UNWRITABLE_VALUE);
}

/* Which bytes a name, a string and a comment may have: each byte but 0, which ends a C string, between two others and alone. */
static void test_written_bytes(void)
{
    for (int byte = 1; byte <= 255; byte++) {
        char within[4] = {'A', (char)byte, 'B', 0}, alone[2] = {(char)byte, 0};
        uint8_t *block;
        size_t count;
        int in_name = ('A' <= byte && byte <= 'Z') || ('0' <= byte && byte <= '9') || byte == '-' || byte == '_';
        int printable = 32 <= byte && byte <= 126;
        struct wanted w[] = {truth(1, NULL),   truth(1, NULL),    string(within, NULL), string(alone, NULL),
                             truth(1, within), integer(1, alone), string("a", within),  string("a", alone)};
        w[0].name = within;
        w[1].name = alone;
        for (size_t i = 0; i < sizeof w / sizeof w[0]; i++) {
            int may = i < 2 ? in_name : printable;
            may = may && !(i == 3 && byte == '&') && !((i == 5 || i == 7) && byte == ' ');
            int refusal = i < 2 ? WIDREKAS_UNWRITABLE_NAME : WIDREKAS_UNWRITABLE_VALUE;
            CHECK(write_into(&w[i], WIDREKAS_BLOCK, &block, &count) == (may ? 0 : refusal));
            if (may) {
                reads_back(&w[i], block, count);
            }
            free(block);
        }
    }
    uint8_t block[WIDREKAS_CARD];
    const uint8_t *zero = (const uint8_t *)"A\0B";
    size_t count = 9;
    memset(block, 7, sizeof block);
    CHECK(widrekas_write(zero, 3, WIDREKAS_LOGICAL, 1, 0, zero, 0, 0, zero, 0, block, sizeof block, &count) == 19);
    CHECK(widrekas_write(zero, 1, WIDREKAS_STRING, 0, 0, zero, 3, 0, zero, 0, block, sizeof block, &count) == 20);
    CHECK(widrekas_write(zero, 1, WIDREKAS_LOGICAL, 1, 0, zero, 0, 1, zero, 3, block, sizeof block, &count) == 20);
    CHECK(widrekas_write(zero, 1, WIDREKAS_FINITE, 1, 0, zero + 1, 1, 0, zero, 0, block, sizeof block, &count) == 20);
    CHECK(count == 9 && block[0] == 7 && block[79] == 7);
}

static void test_written_names(void)
{
    static const char *const names[] = {"A",  "Z9",       "0",      "-",        "_",       "KIT",     "NAXIS1",  "ABCDEFGH", "DATE-OBS", "END1",
                                        "EN", "COMMENTS", "COMMEN", "HISTORYS", "CONTINU", "XTENSIO", "HIERARC", "SIMPLE",   "________"};
    for (size_t i = 0; i < sizeof names / sizeof names[0]; i++) {
        char front[WIDREKAS_CARD + 1];
        CHECK(snprintf(front, sizeof front, "%-8s=                   12 /c", names[i]) == 33);
        struct wanted w = integer(12, "c");
        w.name = names[i];
        is_one(w, front);
        CHECK(snprintf(front, sizeof front, "%-8s= '" X67 "&'", names[i]) == WIDREKAS_CARD);
        w = string(X67 X10, "c");
        w.name = names[i];
        is_two(w, front, "CONTINUE  '" X10 "' /c");
    }
    static const char *const none[] = {"",     "COMMENT", "HISTORY", "END", "CONTINUE", "XTENSION", "HIERARCH", "ABCDEFGHI", "kit",
                                       "KIT ", " KIT",    "A B",     "A.B", "K\tT",     "K\x7f",    "K\xff",    "A=",        "ABCDEFGHIJKLMNOP"};
    for (size_t i = 0; i < sizeof none / sizeof none[0]; i++) {
        /* The name is tested first, then the value. */
        struct wanted all[] = {truth(1, NULL), string("a", "c"), string("a&", NULL), truth(1, "c "), decimal(0, "0", 0, NULL)};
        for (size_t k = 0; k < sizeof all / sizeof all[0]; k++) {
            all[k].name = none[i];
            is_not_written(all[k], WIDREKAS_UNWRITABLE_NAME);
        }
    }
    is_not_written(truth(1, " "), WIDREKAS_UNWRITABLE_VALUE);
    is_not_written(truth(1, "c "), WIDREKAS_UNWRITABLE_VALUE);
    is_not_written(string("a", "c  "), WIDREKAS_UNWRITABLE_VALUE);
}

/* What a kind does not have is not looked at, nor is a comment that is not there. */
static void test_written_beside(void)
{
    static const struct {
        size_t kind;
        const char *front;
    } rows[] = {{WIDREKAS_INTEGER, "K       =                   42"}, {WIDREKAS_LOGICAL, "K       =                    T"}};
    static const uint8_t odd[] = {0xff, ' ', '&', ' '};
    const uint8_t *name = (const uint8_t *)"K";
    uint8_t block[WIDREKAS_CARD + 1];
    size_t count;
    for (size_t i = 0; i < sizeof rows / sizeof rows[0]; i++) {
        uint8_t *expected = cards(&rows[i].front, 1);
        memset(block, 7, sizeof block);
        CHECK(widrekas_write(name, 1, rows[i].kind, 77, 42, odd, 4, 0, odd, 4, block, sizeof block, &count) == 0);
        CHECK(count == 1 && memcmp(block, expected, WIDREKAS_CARD) == 0 && block[WIDREKAS_CARD] == 7);
        free(expected);
    }
    const char *front = "K       = 'K' /K";
    uint8_t *expected = cards(&front, 1);
    CHECK(widrekas_write(name, 1, WIDREKAS_STRING, 77, INT64_MIN, name, 1, (size_t)-1, name, 1, block, WIDREKAS_CARD, &count) == 0);
    CHECK(count == 1 && memcmp(block, expected, WIDREKAS_CARD) == 0 && block[WIDREKAS_CARD] == 7);
    free(expected);
}

/* ---- doubles and words */

/* The same double to the bit; any nan is the same as another of its sign. */
static int same_double(double a, double b)
{
    uint64_t x, y;
    memcpy(&x, &a, sizeof x);
    memcpy(&y, &b, sizeof y);
    return a != a ? b != b && x >> 63 == y >> 63 : x == y;
}

static double double_of(const char *value)
{
    char front[WIDREKAS_CARD + 1];
    CHECK(snprintf(front, sizeof front, "K       = %s", value) <= WIDREKAS_CARD);
    const char *fronts = front;
    uint8_t *header = cards(&fronts, 1);
    struct asked a = {header, WIDREKAS_CARD, NULL, 0, NULL, NULL, NULL, NULL, 0, KEPT, 0, 0, 0, 0};
    CHECK(ask_value(&a, 80) == 0);
    double read = widrekas_double(a.out, a.digits, a.number);
    give_back_value(&a);
    free(header);
    return read;
}

/* What stands on the right was rounded by the compiler, or is written to the bit. */
static void test_doubles(void)
{
    static const struct {
        const char *value;
        double is;
    } rows[] = {
        {"0", 0.0},
        {"-0", 0.0},
        {"-0.", -0.0},
        {"0.", 0.0},
        {"-0.0E5", -0.0},
        {"1", 1.0},
        {"-12", -12.0},
        {"1.5D3", 1500.0},
        {"-.5", -0.5},
        {"0.1", 0x1.999999999999ap-4},
        {"1e23", 0x1.52d02c7e14af6p+76},
        {"-1E23", -0x1.52d02c7e14af6p+76},
        {"8.41E21", 8.41e21},
        {"9.5367431640625e-7", 0x1p-20},
        {"5e-324", 0x1p-1074},
        {"9007199254740993", 9007199254740992.0},
        {"9007199254740995", 9007199254740996.0},
        {"9007199254740993.", 9007199254740992.0},
        {"9007199254740993.0000000000000000000000000000000000000000001", 9007199254740994.0},
        {"9223372036854775807", 0x1p63},
        {"-9223372036854775808", -0x1p63},
        {"9223372036854775808", 0x1p63},
        {"2.2250738585072011e-308", 0x0.fffffffffffffp-1022},
        {"2.2250738585072014e-308", 0x1p-1022},
        {"4.9406564584124654e-324", 0x1p-1074},
        {"2.4703282292062328e-324", 0x1p-1074},
        {"2.4703282292062327e-324", 0.0},
        {"-2.4703282292062327e-324", -0.0},
        {"1.7976931348623157e308", 0x1.fffffffffffffp+1023},
        {"1.7976931348623158e308", 0x1.fffffffffffffp+1023},
        {"1e99999", HUGE_VAL},
        {"-1e99999", -HUGE_VAL},
        {"1.7976931348623159e308", HUGE_VAL},
        {"1e-99999", 0.0},
        {"-1e-99999", -0.0},
        {"1e-999999999999999999999", 0.0},
        {"-1e999999999999999999999", -HUGE_VAL},
        {"+inf", HUGE_VAL},
        {"-Infinity", -HUGE_VAL},
        {"3141592653589793238462643383279502884197169399375105820974944592307816",
         3141592653589793238462643383279502884197169399375105820974944592307816.0},
        {".000000000000000000000000000000000000000031415926535897932384626433832",
         0.000000000000000000000000000000000000000031415926535897932384626433832},
    };
    for (size_t i = 0; i < sizeof rows / sizeof rows[0]; i++) {
        CHECK(same_double(double_of(rows[i].value), rows[i].is));
    }
    double minus = double_of("-nan"), plus = double_of("+NaN");
    CHECK(minus != minus && plus != plus && !same_double(minus, plus));
    static const char *const others[] = {"T", "F", "'5'", "", "what", "1D", "inf"};
    for (size_t i = 0; i < sizeof others / sizeof others[0]; i++) {
        double none = double_of(others[i]);
        CHECK(none != none);
    }

    /* All 80 digits, and powers that no card has. */
    size_t out[WIDREKAS_NUMBERS] = {0, WIDREKAS_FINITE, 1, 0, WIDREKAS_DIGITS};
    uint8_t digits[WIDREKAS_DIGITS];
    for (size_t i = 0; i < WIDREKAS_DIGITS; i++) {
        digits[i] = (uint8_t)('0' + (i + 1) % 10);
    }
    double all = -1.2345678901234567890123456789012345678901234567890123456789012345678901234567890;
    CHECK(same_double(widrekas_double(out, digits, -79), all));
    CHECK(same_double(widrekas_double(out, digits, INT64_MAX), -HUGE_VAL));
    CHECK(same_double(widrekas_double(out, digits, INT64_MIN), -0.0));
    out[WIDREKAS_ENTRY_DIGITS_LENGTH] = (size_t)-1;
    CHECK(same_double(widrekas_double(out, digits, -79), all));
    out[WIDREKAS_ENTRY_KIND] = 0;
    double none = widrekas_double(out, digits, 0);
    CHECK(none != none);
}

static void test_meanings(void)
{
    for (int answer = 0; answer <= 255; answer++) {
        const char *words = widrekas_meaning((uint8_t)answer);
        CHECK(strlen(words) > 0 && strlen(words) <= 80);
        int known = (answer <= WIDREKAS_BLOCK_SHORT && answer != 11) || answer >= WIDREKAS_NOTHING_LEFT;
        CHECK((strcmp(words, "no such answer") == 0) == !known);
        for (int other = 0; known && other < answer; other++) {
            CHECK(strcmp(words, widrekas_meaning((uint8_t)other)) != 0);
        }
    }
    CHECK(strstr(widrekas_meaning(WIDREKAS_NO_END), "END") != NULL);
}

/* ---- tiles */

struct tile {
    const char *bytes;
    size_t length, nx, bits;
    int refusal;
    int32_t pixels[2];
    size_t count; /* the bits used, or the pixels written */
};

/* The rows of the edge table, with blocks of 32. */
static const struct tile edges[] = {
    {"\x0a\x00", 2, 2, 8, 0, {10, 10}, 11},
    {"\x0a\x32", 2, 2, 8, 0, {10, 11}, 15},
    {"\x00\x28", 2, 1, 8, 0, {255, 0}, 13},
    {"\x0a\xff\xe0", 3, 1, 8, 0, {138, 0}, 19},
    {"\x0a\x30", 2, 2, 8, WIDREKAS_TILE_ENDS, {10, 0}, 1},
    {"\0\0\0\x05\xd0\0\0\0\x10", 9, 1, 32, 0, {6, 0}, 69},
    {"\0\0\0\0\xd8", 5, 1, 32, WIDREKAS_FS_ABOVE_TOP, {0, 0}, 0},
};

static void test_decode(void)
{
    for (size_t i = 0; i < sizeof edges / sizeof edges[0]; i++) {
        const struct tile *t = &edges[i];
        uint8_t *tile = lent(t->length);
        memcpy(tile, t->bytes, t->length);
        int32_t *pixels = lent(t->nx * sizeof *pixels);
        size_t count = 999;
        CHECK(widrekas_decode(tile, t->length, t->nx, 32, t->bits, pixels, t->nx, &count) == t->refusal);
        CHECK(count == t->count);
        size_t written = t->refusal == 0 ? t->nx : t->count;
        CHECK(memcmp(pixels, t->pixels, written * sizeof *pixels) == 0);
        CHECK(untouched(pixels + written, (t->nx - written) * sizeof *pixels));
        free(pixels);

        /* The same by a step, which a tile of one block is. */
        pixels = lent(t->nx * sizeof *pixels);
        size_t bit = 999, done = 999;
        int32_t last = 999;
        size_t some = 999;
        CHECK(widrekas_open(tile, t->length, t->nx, 32, t->bits, &bit, &done, &last) == 0 && done == 0 && bit == t->bits);
        int answer = widrekas_step(tile, t->length, t->nx, 32, t->bits, &bit, &done, &last, pixels, t->nx, &some);
        CHECK(answer == t->refusal && memcmp(pixels, t->pixels, written * sizeof *pixels) == 0);
        if (answer == 0) {
            CHECK(bit == t->count && done == t->nx && last == t->pixels[t->nx - 1] && some == 999);
            answer = widrekas_step(tile, t->length, t->nx, 32, t->bits, &bit, &done, &last, pixels, t->nx, &some);
            CHECK(answer == WIDREKAS_NOTHING_LEFT && bit == t->count && done == t->nx && some == 999);
        } else {
            CHECK(bit == t->bits && done == 0 && some == t->count);
        }
        free(pixels);
        free(tile);
    }
}

static void test_tile_refusals(void)
{
    static const size_t shapes[][3] = {{0, 32, 8}, {1048577, 32, 8}, {2, 0, 8}, {2, 65537, 8}, {2, 32, 7}, {2, 32, (size_t)-1}};
    static const uint8_t tile[] = {0x0a, 0x00};
    int32_t pixels[2] = {-77, -77};
    size_t count, bit = 5, done = 6, written;
    int32_t last = 7;
    for (size_t i = 0; i < sizeof shapes / sizeof shapes[0]; i++) {
        const size_t *s = shapes[i];
        count = written = 999;
        CHECK(widrekas_decode(tile, 2, s[0], s[1], s[2], pixels, 2, &count) == WIDREKAS_LIMITS && count == 0);
        CHECK(widrekas_open(tile, 2, s[0], s[1], s[2], &bit, &done, &last) == WIDREKAS_LIMITS);
        CHECK(widrekas_step(tile, 2, s[0], s[1], s[2], &bit, &done, &last, pixels, 2, &written) == WIDREKAS_LIMITS);
        CHECK(written == 0 && bit == 5 && done == 6 && last == 7);
    }
    CHECK(widrekas_open(tile, 0, 2, 32, 8, &bit, &done, &last) == WIDREKAS_TILE_ENDS && bit == 5);
    CHECK(widrekas_decode(tile, 2, 3, 32, 8, pixels, 2, &count) == WIDREKAS_PIXEL_COUNT);
    CHECK(widrekas_step(tile, 2, 3, 32, 8, &bit, &done, &last, pixels, 2, &written) == WIDREKAS_PIXEL_COUNT);
    static const struct {
        size_t bit, done;
        int32_t last;
    } cursors[] = {{7, 0, 0}, {17, 0, 0}, {8, 3, 0}, {8, 1, 0}, {8, 0, 256}, {8, 0, -1}, {(size_t)-1, (size_t)-1, 0}};
    for (size_t i = 0; i < sizeof cursors / sizeof cursors[0]; i++) {
        bit = cursors[i].bit;
        done = cursors[i].done;
        last = cursors[i].last;
        written = 999;
        CHECK(widrekas_step(tile, 2, 2, 32, 8, &bit, &done, &last, pixels, 2, &written) == WIDREKAS_BAD_CURSOR);
        CHECK(written == 0 && bit == cursors[i].bit && done == cursors[i].done && last == cursors[i].last);
    }
    CHECK(pixels[0] == -77 && pixels[1] == -77);
}

/* ---- bytes at random */

static uint64_t state = 20261115;

static size_t below(size_t n)
{
    state ^= state << 13;
    state ^= state >> 7;
    state ^= state << 17;
    return (size_t)(state >> 16) % n;
}

/* What stands at the column of a refused card. */
static void is_column(const uint8_t *card, int refusal, size_t column)
{
    size_t high = 0;
    while (high < WIDREKAS_CARD && card[high] < 128) {
        high++;
    }
    switch (refusal) {
    case WIDREKAS_HIGH_BYTE: CHECK(column == high); break;
    case WIDREKAS_ODD_BYTE: CHECK(column >= 8 && (card[column] < 32 || card[column] == 127)); break;
    case WIDREKAS_STRING_NOT_CLOSED: CHECK(column >= 8 && card[column] == '\''); break;
    case WIDREKAS_STRING_NOT_OPENED: CHECK(column >= 8 && card[column] != '\'' && card[column] != ' '); break;
    case WIDREKAS_COMPLEX: CHECK(column >= 10 && card[column] == '('); break;
    default: CHECK(0); /* no HIERARCH or XTENSION card is made */
    }
    CHECK(refusal == WIDREKAS_HIGH_BYTE || high == WIDREKAS_CARD);
}

/* How many of the first cards bear a name. */
static size_t cards_named(const uint8_t *header, size_t length, size_t many, const uint8_t *name, size_t name_length)
{
    size_t named = 0;
    for (size_t i = 0; i < many; i++) {
        uint8_t own[WIDREKAS_LONGEST_NAME];
        size_t told = 0, at = KEPT;
        uint8_t answer = widrekas_name(header, length, i, own, sizeof own, &told, &at);
        named += answer == 0 && told == name_length && memcmp(own, name, told) == 0;
    }
    return named;
}

static void test_random(void)
{
    for (int round = 0; round < 2000; round++) {
        size_t many = below(5);
        size_t length = many * WIDREKAS_CARD + (below(10) == 0 ? below(80) : 0);
        uint8_t *header = lent(length);
        for (size_t i = 0; i < length; i++) {
            header[i] = (uint8_t)(below(20) == 0 ? below(256) : (size_t)"KIT     = 'a/&'.5TE(["[below(21)]);
        }
        for (size_t i = 0; i < many; i++) {
            memcpy(header + i * WIDREKAS_CARD, i + 1 == many ? "END     " : below(2) == 0 ? "KIT     = '" : "CONTINUE '", 8);
        }
        struct places p = lend_places();
        uint8_t listed = list(header, length, &p);
        if (p.column != KEPT) {
            is_column(header + p.count * WIDREKAS_CARD, listed, p.column);
        }
        struct asked a = {header, length, "KIT", 0, NULL, NULL, NULL, NULL, 0, KEPT, 0, 0, 0, 0};
        int looked = ask_value(&a, below(100)), remarked = ask_comment(&a, below(100));
        CHECK(listed <= 10 && (listed == 0 ? looked == 0 || looked == 12 || looked == 13 : looked == listed));
        CHECK(listed == 0 ? remarked == 0 || remarked == 12 || remarked == 13 : remarked == listed);
        CHECK((looked == 12) == (remarked == 12) && a.column == p.column && a.comment_column == p.column);

        /* A second call that lends the room that is wanted is answered. */
        size_t wanted = looked == 13 ? a.out[WIDREKAS_ENTRY_TEXT_LENGTH] : 0;
        free(a.comment);
        give_back_value(&a);
        if (looked == 13) {
            CHECK(ask_value(&a, wanted) == 0 && a.out[WIDREKAS_ENTRY_TEXT_LENGTH] == wanted);
            give_back_value(&a);
        }
        if (remarked == 13) {
            wanted = a.comment_length;
            CHECK(ask_comment(&a, wanted) == 0 && a.comment_length == wanted && a.commented == 1);
            free(a.comment);
        }

        /* Where END stands is refused as the list is; each name of the list is found, and no other number of a card bears it first. */
        size_t card = 777, at = KEPT;
        CHECK(widrekas_header(header, length, &card, &at) == listed && (listed == 0 ? card < many : card == p.count));
        CHECK(at == p.column);
        for (size_t k = 0; listed == 0 && k < p.count; k++) {
            uint8_t name[WIDREKAS_LONGEST_NAME], text[1], comment[1], digits[WIDREKAS_DIGITS];
            size_t told = 0, out[WIDREKAS_NUMBERS], commented, remark, none;
            int64_t number;
            CHECK(widrekas_name(header, length, p.first[k], name, sizeof name, &told, &at) == 0 && p.first[k] < card);
            CHECK(p.times[k] == cards_named(header, length, card, name, told));
            int found = widrekas_lookup_value(header, length, name, told, text, 1, digits, WIDREKAS_DIGITS, out, WIDREKAS_NUMBERS,
                                              &number, &at);
            CHECK((found == 0 || found == WIDREKAS_BUFFER_SHORT) && at == KEPT);
            found = widrekas_lookup_comment(header, length, name, told, comment, 1, &commented, &remark, &none, &at);
            CHECK((found == 0 || found == WIDREKAS_BUFFER_SHORT) && at == KEPT);
        }
        give_back_places(p);

        size_t nx = below(40), bit = below(300), done = below(40), written = 0;
        int32_t *pixels = lent(nx * sizeof *pixels), lastpix = (int32_t)below(600) - 300;
        size_t bits = (size_t)8 << below(4);
        int decoded = widrekas_decode(header, length, nx, below(20), bits, pixels, nx, &written);
        CHECK(decoded == 0 || decoded == 14 || decoded == 16 || decoded == 17);
        CHECK(decoded == 0 || untouched(pixels + written, (nx - written) * sizeof *pixels));
        int stepped = widrekas_step(header, length, nx, 1 + below(20), bits, &bit, &done, &lastpix, pixels, nx, &written);
        CHECK(stepped == 0 || stepped == 254 || (14 <= stepped && stepped <= 18));
        free(pixels);
        free(header);
    }
}

/* Bytes of which most may stand in a text. */
static void some_bytes(char *text, size_t length, const char *usual)
{
    size_t many = strlen(usual);
    for (size_t i = 0; i < length; i++) {
        text[i] = below(200) == 0 ? (char)(1 + below(255)) : usual[below(many)];
    }
    text[length] = 0;
}

static int all_printable(const char *text)
{
    for (; *text != 0; text++) {
        if (*text < 32 || *text > 126) {
            return 0;
        }
    }
    return 1;
}

static int may_have_name(const char *name)
{
    static const char *const special[] = {"COMMENT", "HISTORY", "END", "CONTINUE", "XTENSION", "HIERARCH"};
    for (size_t i = 0; i < sizeof special / sizeof special[0]; i++) {
        if (strcmp(name, special[i]) == 0) {
            return 0;
        }
    }
    size_t length = strlen(name);
    return 1 <= length && length <= 8 && strspn(name, "ABCDEFGHIJKLMNOPQRSTUVWXYZ0123456789-_") == length;
}

static int may_be_string(const char *text, const char *comment)
{
    size_t length = strlen(text);
    char last = length > 0 ? text[length - 1] : 'x';
    return all_printable(text) && length <= 2000 && last != '&' && (last != ' ' || length == 1) && (comment == NULL || strlen(comment) <= 65);
}

static int may_be_decimal(const char *digits, int64_t power)
{
    size_t length = strlen(digits);
    if (length == 0) {
        return power == 0;
    }
    return strspn(digits, "0123456789") == length && digits[0] != '0' && digits[length - 1] != '0' && -99999 <= power && power <= 99999;
}

/* What the rules say of a call with enough room: 0, 19 or 20. */
static int by_the_rules(const struct wanted *w)
{
    size_t comment = w->comment != NULL ? strlen(w->comment) : 0, bytes = 20;
    char number[40];
    if (!may_have_name(w->name)) {
        return WIDREKAS_UNWRITABLE_NAME;
    }
    if (w->comment != NULL && (!all_printable(w->comment) || (comment > 0 && w->comment[comment - 1] == ' '))) {
        return WIDREKAS_UNWRITABLE_VALUE;
    }
    switch (w->kind) {
    case WIDREKAS_INTEGER:
    case WIDREKAS_LOGICAL: break;
    case WIDREKAS_STRING: return may_be_string(w->text, w->comment) ? 0 : WIDREKAS_UNWRITABLE_VALUE;
    case WIDREKAS_FINITE:
        if (may_be_decimal(w->text, w->number)) {
            size_t digits = w->text[0] == 0 ? 1 : strlen(w->text);
            size_t all = (w->flag != 0) + digits + (size_t)snprintf(number, sizeof number, "E%lld", (long long)w->number);
            bytes = all < 20 ? 20 : all;
            break;
        }
        return WIDREKAS_UNWRITABLE_VALUE;
    default: return WIDREKAS_UNWRITABLE_VALUE;
    }
    return bytes + (w->comment != NULL ? 2 + comment : 0) <= 70 ? 0 : WIDREKAS_UNWRITABLE_VALUE;
}

static void test_random_writing(void)
{
    static const size_t lengths[] = {1, 3, 10, 70, 140, 700, 2005};
    static const char *const texts[] = {"1", "123456789", "0123456789", "ab'", "x", "'", "A &'", "FKM-75 '&/"};
    static char name[12], text[2010], comment[80];
    int seen[22] = {0};
    for (int round = 0; round < 20000; round++) {
        some_bytes(name, below(round % 4 == 0 ? 11 : 9), below(8) == 0 ? "END" : "KIT0-_Z");
        some_bytes(text, below(lengths[below(7)]), texts[below(8)]);
        some_bytes(comment, below(round % 3 == 0 ? 75 : 30), "[mm] ring/'&");
        struct wanted w = {name, WIDREKAS_STRING, below(3), (int64_t)below(300) - 150, text, below(3) == 0 ? NULL : comment};
        w.kind = below(8) == 0 ? below(10) : 1 + below(6);
        if (below(4) == 0) {
            w.number = below(2) == 0 ? (int64_t)state : (int64_t)below(200100) - 100050;
        }
        uint8_t *block, *other;
        size_t count, many;
        int rule = by_the_rules(&w);
        CHECK(write_into(&w, WIDREKAS_BLOCK, &block, &count) == rule);
        seen[rule]++;
        for (int i = 0; i < 2; i++) {
            size_t room = i == 0 ? below(WIDREKAS_BLOCK) : below(4) * WIDREKAS_CARD + below(2) * below(WIDREKAS_CARD);
            int is_short = rule == 0 && room < count * WIDREKAS_CARD;
            CHECK(write_into(&w, room, &other, &many) == (is_short ? WIDREKAS_BLOCK_SHORT : rule));
            CHECK(rule != 0 || is_short || (many == count && memcmp(block, other, count * WIDREKAS_CARD) == 0));
            seen[WIDREKAS_BLOCK_SHORT] += is_short;
            free(other);
        }
        if (rule == 0) {
            reads_back(&w, block, count);
        }
        free(block);
    }
    CHECK(seen[0] > 2000 && seen[19] > 500 && seen[20] > 2000 && seen[21] > 500);
}

int main(void)
{
    CHECK(widrekas_version() == 4);
    test_cards();
    test_units();
    test_lists();
    test_header();
    test_names();
    test_entries();
    test_met();
    test_columns();
    test_written_numbers();
    test_written_strings();
    test_written_bytes();
    test_written_names();
    test_written_beside();
    test_doubles();
    test_meanings();
    test_decode();
    test_tile_refusals();
    test_random();
    test_random_writing();
    printf("%d checks\n", checks);
    return 0;
}
