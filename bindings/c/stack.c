/*
 * stack: measures how much of its caller's stack each function of the boundary takes, prints it, and holds it to the limits that
 * widrekas.h names. Each call runs in a thread whose stack was painted before; the lowest byte that is changed tells how deep it went.
 * The headers and tiles are fixed ones that reach far, and some at random.
 */
#define _POSIX_C_SOURCE 200112L
#include "widrekas.h"

#include <pthread.h>
#include <stdio.h>
#include <string.h>

#define AREA ((size_t)1 << 18)
#define PAINT 0x5c

static unsigned char *area;
static uintptr_t caller;
static size_t deep;

/* What the calls are lent. */
static uint8_t header[WIDREKAS_LONGEST], text[WIDREKAS_ROOM], comment[WIDREKAS_ROOM], digits[WIDREKAS_DIGITS];
static uint8_t record[WIDREKAS_RECORD], name[WIDREKAS_LONGEST_NAME], tile[20000], block[WIDREKAS_BLOCK];
static size_t out[WIDREKAS_NUMBERS], first[WIDREKAS_PLACES], last[WIDREKAS_PLACES], times[WIDREKAS_PLACES];
static int32_t pixels[1000], last_pixel;
static size_t length, card, count, column, bits, bit, done, kind, remark, room;
static int64_t number;
static volatile size_t answer;

/* A thread that does one call, and looks at the paint before anything else runs on its stack. */
#define CALL(function, call)                                                   \
    static void *call_##function(void *none)                                   \
    {                                                                          \
        char here = 0;                                                         \
        size_t i = 0;                                                          \
        caller = (uintptr_t)&here;                                             \
        answer = call;                                                         \
        while (area[i] == PAINT) {                                             \
            i++;                                                               \
        }                                                                      \
        deep = caller - (uintptr_t)(area + i);                                 \
        return none;                                                           \
    }

CALL(version, widrekas_version())
CALL(card, widrekas_card(header, WIDREKAS_CARD, record, WIDREKAS_RECORD, &number, &column))
CALL(unit, widrekas_unit(header, length))
CALL(unit_past_space, widrekas_unit_past_space(header, length, &count))
CALL(header, widrekas_header(header, length, &count, &column))
CALL(list, widrekas_list(header, length, first, WIDREKAS_PLACES, last, WIDREKAS_PLACES, times, WIDREKAS_PLACES, &count, &column))
CALL(name, widrekas_name(header, length, card, name, sizeof name, &count, &column))
CALL(entry_value, widrekas_entry_value(header, length, card, text, sizeof text, digits, sizeof digits, out, WIDREKAS_NUMBERS,
                                       &number, &column))
CALL(entry_comment, widrekas_entry_comment(header, length, card, comment, sizeof comment, &bit, &count, &done, &column))
CALL(lookup_value, widrekas_lookup_value(header, length, (const uint8_t *)"KIT", 3, text, sizeof text, digits, sizeof digits, out,
                                         WIDREKAS_NUMBERS, &number, &column))
CALL(lookup_comment, widrekas_lookup_comment(header, length, (const uint8_t *)"KIT", 3, comment, sizeof comment, &bit, &count,
                                             &done, &column))
CALL(write, widrekas_write((const uint8_t *)"KIT", 3, kind, 1, number, text, length, 1, comment, remark, block, room, &count))
CALL(open, widrekas_open(tile, length, 1000, 32, bits, &bit, &done, &last_pixel))
CALL(step, widrekas_step(tile, length, 1000, 32, bits, &bit, &done, &last_pixel, pixels, 1000, &count))
CALL(decode, widrekas_decode(tile, length, 1000, 32, bits, pixels, 1000, &count))

struct function {
    const char *name;
    void *(*call)(void *);
    size_t limit;
    size_t most;
};

#define KIB 1024

static struct function of_headers[] = {
    {"widrekas_version", call_version, 4 * KIB, 0}, {"widrekas_card", call_card, 4 * KIB, 0},
    {"widrekas_unit", call_unit, 4 * KIB, 0},       {"widrekas_unit_past_space", call_unit_past_space, 4 * KIB, 0},
    {"widrekas_header", call_header, 4 * KIB, 0},
    {"widrekas_list", call_list, 80 * KIB, 0},      {"widrekas_name", call_name, 4 * KIB, 0},
    {"widrekas_entry_value", call_entry_value, 64 * KIB, 0},
    {"widrekas_entry_comment", call_entry_comment, 64 * KIB, 0},
    {"widrekas_lookup_value", call_lookup_value, 64 * KIB, 0},
    {"widrekas_lookup_comment", call_lookup_comment, 64 * KIB, 0},
};

static struct function of_values[] = {{"widrekas_write", call_write, 4 * KIB, 0}};

static struct function of_tiles[] = {
    {"widrekas_open", call_open, 4 * KIB, 0},
    {"widrekas_step", call_step, 4 * KIB, 0},
    {"widrekas_decode", call_decode, 4 * KIB, 0},
};

/* Calls each function once before, so that the loader has bound what the library calls. */
static void warm(const struct function *functions, size_t many)
{
    for (size_t i = 0; i < many; i++) {
        functions[i].call(NULL);
    }
}

static void measure(struct function *functions, size_t many)
{
    for (size_t i = 0; i < many; i++) {
        pthread_attr_t how;
        pthread_t thread;
        memset(area, PAINT, AREA);
        if (pthread_attr_init(&how) != 0 || pthread_attr_setstack(&how, area, AREA) != 0 ||
            pthread_create(&thread, &how, functions[i].call, NULL) != 0 || pthread_join(thread, NULL) != 0) {
            fprintf(stderr, "stack: no thread could be made\n");
            exit(1);
        }
        pthread_attr_destroy(&how);
        if (deep > functions[i].most) {
            functions[i].most = deep;
        }
    }
}

#define MEASURE(functions) measure(functions, sizeof functions / sizeof functions[0])

static uint64_t state = 20261116;

static size_t below(size_t n)
{
    state = state * UINT64_C(6364136223846793005) + UINT64_C(1442695040888963407);
    return (size_t)(state >> 33) % n;
}

static void put_card(size_t i, const char *front)
{
    memset(header + i * WIDREKAS_CARD, ' ', WIDREKAS_CARD);
    memcpy(header + i * WIDREKAS_CARD, front, strlen(front));
}

/* A string of so many cards, each with a comment, then END. */
static void joined(size_t many)
{
    put_card(0, "KIT     = 'a&' / c");
    for (size_t i = 1; i + 1 < many; i++) {
        put_card(i, "CONTINUE  'abcdefghijklmnopqrstuvwxyzabcdefghijklmnopqrstuvwxyz&' / r");
    }
    put_card(many - 1, "END");
    length = many * WIDREKAS_CARD;
    card = 0;
    MEASURE(of_headers);
}

static const char *const fronts[] = {
    "KIT     = 'a&'", "KIT     = '",       "CONTINUE  '", "CONTINUE",   "COMMENT ",       "        ", "XTENSION= 'a'",    "XTENSION= ",
    "HIERARCH KIT = ", "HIERARCH A B C = ", "HIERARCH ",   "K       = ", "K       = -1.5D", "K       = (", "K       = 12 / [m", "END",
};

static void at_random(void)
{
    size_t many = 1 + below(8);
    length = many * WIDREKAS_CARD;
    for (size_t i = 0; i < many; i++) {
        const char *front = fronts[below(sizeof fronts / sizeof fronts[0])];
        put_card(i, front);
        for (size_t j = strlen(front); j < WIDREKAS_CARD && below(40) > 0; j++) {
            header[i * WIDREKAS_CARD + j] = (uint8_t)"KIT/&' .5TED-+9(\x01\x7f"[below(18)];
        }
    }
    if (below(2) == 0) {
        put_card(many - 1, "END");
    }
    card = below(many);
    MEASURE(of_headers);
}

/* Values of every kind, with comments: strings of 2,000 bytes, of which any number are quotes, and digits up to where they fit a card. */
static void values(void)
{
    static const int64_t numbers[] = {0, -1, 99999, -99999, INT64_MAX, INT64_MIN};
    for (int round = 0; round < 400; round++) {
        kind = 1 + below(8);
        number = numbers[below(6)];
        length = kind == WIDREKAS_STRING ? 2001 - below(round % 2 == 0 ? 3 : 2002) : below(72);
        remark = below(67);
        room = round % 4 == 0 ? below(sizeof block) : sizeof block;
        memset(comment, 'c', remark);
        for (size_t i = 0, quotes = below(4); i < length; i++) {
            text[i] = (uint8_t)(kind != WIDREKAS_STRING ? '1' + below(9) : below(3) < quotes ? '\'' : 'x');
        }
        MEASURE(of_values);
    }
}

static void tiles(void)
{
    for (bits = 8; bits <= 32; bits *= 2) {
        for (int round = 0; round < 20; round++) {
            length = round == 0 ? sizeof tile : 4 + below(2000);
            for (size_t i = 0; i < length; i++) {
                tile[i] = (uint8_t)below(round % 2 == 0 ? 256 : 96);
            }
            bit = bits;
            done = 0;
            last_pixel = 0;
            MEASURE(of_tiles);
        }
    }
}

static int told(const struct function *functions, size_t many)
{
    int within = 1;
    for (size_t i = 0; i < many; i++) {
        printf("%s %zu\n", functions[i].name, functions[i].most);
        if (functions[i].most > functions[i].limit) {
            fprintf(stderr, "stack: %s takes %zu bytes, above %zu\n", functions[i].name, functions[i].most, functions[i].limit);
            within = 0;
        }
    }
    return within;
}

int main(void)
{
    if (posix_memalign((void **)&area, 4096, AREA) != 0) {
        return 1;
    }
    memset(area, 0, AREA);
    put_card(0, "KIT     = 'a&' / c");
    put_card(1, "END");
    length = 2 * WIDREKAS_CARD;
    bits = 8;
    warm(of_headers, sizeof of_headers / sizeof of_headers[0]);
    warm(of_tiles, sizeof of_tiles / sizeof of_tiles[0]);
    kind = WIDREKAS_LOGICAL;
    room = sizeof block;
    warm(of_values, sizeof of_values / sizeof of_values[0]);
    joined(3);
    joined(36);
    joined(108);
    joined(109);
    joined(720);
    for (int round = 0; round < 1000; round++) {
        at_random();
    }
    values();
    tiles();
    int within = told(of_headers, sizeof of_headers / sizeof of_headers[0]);
    within &= told(of_values, sizeof of_values / sizeof of_values[0]);
    within &= told(of_tiles, sizeof of_tiles / sizeof of_tiles[0]);
    free(area);
    return within ? 0 : 1;
}
