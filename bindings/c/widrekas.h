/*
 * Widrekas: FITS header cards read and written, joined strings, keyword lookup and Rice tiles. What is proved of the exported functions
 * below stands in the project's docs/PROMISES.md; the names and meanings here are not checked against it. The two functions at the end,
 * which are static inline, are not proved.
 *
 * Link with libwidrekas.a (pkg-config: widrekas). The library uses memcpy and memset, no heap, no files and no state of its own, so it
 * may be called from any number of threads.
 *
 * For every function:
 *
 * - It takes any bytes and any numbers, returns, and reads and writes within the lent lengths alone.
 * - No pointer may be null, also where its length is 0. What is lent to be written (no const) may overlap nothing else that is
 *   lent in the same call, and every byte or number of it is in memory that may be written.
 * - The answer is 0, or the number of one refusal (enum widrekas_refusal), or 254 or 255 where it is said.
 * - 255 is tested first. A function that can answer it looks at no byte before the lengths are right, so with a wrong length no refusal
 *   is given. Refusals are tested in the order in which the comment names them; on one card that is 1, then 6 and 7, then 2, then the rest.
 * - Whatever the comment does not name stays as it was.
 * - *column, which eight functions have last, is where a card is refused: enum widrekas_refusal has the rule. Answers 1 to 8 set it, and
 *   every other answer leaves it as it was.
 *
 * Stack. What a call takes of its caller's stack, as measured, up to the next fifty bytes: widrekas_list 74,600, the two lookups 63,550,
 * the two entries 63,500, widrekas_header 4,050, widrekas_name 4,000, widrekas_card 4,000, widrekas_write 1,950, widrekas_decode 1,000,
 * widrekas_step 650, the others 50. stack.c measures it on x86-64 Linux: each call runs in a thread whose stack was painted before, over
 * strings of up to 720 cards, 1,000 headers and 400 values at random and tiles of each width. It holds the list below 80 KiB, lookups and
 * entries below 64, and the others below 4. valgrind's massif sees the same of a lookup and a list. The loader takes some 2 KiB more where
 * it binds memcpy at the first call.
 */
#ifndef WIDREKAS_H
#define WIDREKAS_H

#include <stddef.h>
#include <stdint.h>
#include <stdlib.h>

#ifdef __cplusplus
extern "C" {
#endif

/* The bytes of a card, and of the longest header: 720 cards. */
#define WIDREKAS_CARD 80
#define WIDREKAS_LONGEST 57600

/* The bytes of a card's record, the numbers of an entry's value, the bytes of its digits, the places of a list. */
#define WIDREKAS_RECORD 248
#define WIDREKAS_NUMBERS 5
#define WIDREKAS_DIGITS 80
#define WIDREKAS_PLACES 720

/* The bytes of the longest name. */
#define WIDREKAS_LONGEST_NAME 80

/* Room that is enough for any joined text or comment: 81 bytes for each of 720 cards. */
#define WIDREKAS_ROOM 58320

/* A block that is enough for whatever is written: 62 cards. */
#define WIDREKAS_BLOCK 4960

/* The limits of a tile: its pixels, the pixels of a block, its bytes. */
#define WIDREKAS_MOST_PIXELS 1048576
#define WIDREKAS_MOST_BLOCK 65536
#define WIDREKAS_MOST_BYTES 8388608

/* Answers that are no refusal: nothing is left to step over; a slice has another length than the one asked for. */
#define WIDREKAS_NOTHING_LEFT 254
#define WIDREKAS_WRONG_LENGTH 255

/*
 * The refusals, in words by widrekas_meaning.
 *
 * 1 to 8 refuse a card. They have a column: the byte of that card, 0 to 79, at which it is refused. widrekas_card, widrekas_header,
 * widrekas_list, widrekas_name, the two entries and the two lookups write it to *column. The others have none.
 *
 *     1           the first byte of 128 or more
 *     2           the byte outside 32..126 at which the scan for the slash stops
 *     3, 4, 5, 8  the first byte of the raw text that is no blank; 10 if there is none, which 8 alone can meet
 *     6           9
 *     7           the first = from byte 9 on
 *
 * The raw text begins at byte 8 of a CONTINUE card, directly behind the first = from byte 9 on of a HIERARCH card, and at byte 10 of any
 * other. Blanks are space, tab, line feed, form feed and return.
 */
enum widrekas_refusal {
    WIDREKAS_HIGH_BYTE = 1,            /* a byte of the card is 128 or more */
    WIDREKAS_ODD_BYTE = 2,             /* before the slash, a byte outside 32..126 that is not replaced */
    WIDREKAS_STRING_NOT_CLOSED = 3,    /* the value text begins with a quote and does not end with one, or is a lone quote */
    WIDREKAS_STRING_NOT_OPENED = 4,    /* a CONTINUE text ends with a quote and does not begin with one */
    WIDREKAS_COMPLEX = 5,              /* the value text begins with a parenthesis */
    WIDREKAS_NO_EQUALS = 6,            /* a HIERARCH card has no = from byte 9 on */
    WIDREKAS_NO_NAME = 7,              /* a HIERARCH card has no name before its = */
    WIDREKAS_EXTENSION_NOT_QUOTED = 8, /* an XTENSION text is not within quotes */
    WIDREKAS_HEADER_LENGTH = 9,        /* the header's length is 0, not a multiple of 80, or above 57,600 */
    WIDREKAS_NO_END = 10,              /* there is no END card */
    /* 11 is a gap: it would say that the name table is full, and no header can fill it */
    WIDREKAS_NAME_NOT_FOUND = 12,      /* no entry bears the name, or stands at the card */
    WIDREKAS_BUFFER_SHORT = 13,        /* a lent buffer is shorter than the text for it */
    WIDREKAS_LIMITS = 14,              /* nx, nblock, the width or the tile's length is outside its limits */
    WIDREKAS_PIXEL_COUNT = 15,         /* the pixel slice is not nx long */
    WIDREKAS_TILE_ENDS = 16,           /* the tile ends before the bits asked for */
    WIDREKAS_FS_ABOVE_TOP = 17,        /* an FS field is above its top */
    WIDREKAS_BAD_CURSOR = 18,          /* the cursor is outside its rules */
    WIDREKAS_UNWRITABLE_NAME = 19,     /* the name is not 1 to 8 of A to Z, 0 to 9, - and _, or is a special keyword */
    WIDREKAS_UNWRITABLE_VALUE = 20,    /* the value or its comment is outside the rules for written cards */
    WIDREKAS_BLOCK_SHORT = 21          /* the lent block is shorter than the cards for it */
};

/* The kinds of values. A card without a value has 0. */
enum widrekas_kind {
    WIDREKAS_INTEGER = 1,   /* the number is the integer */
    WIDREKAS_FINITE = 2,    /* a decimal: the flag is its minus, the number its power of ten, beside its digits */
    WIDREKAS_INFINITE = 3,  /* the flag is its minus */
    WIDREKAS_NAN = 4,       /* the flag is its minus */
    WIDREKAS_LOGICAL = 5,   /* the flag is its truth */
    WIDREKAS_STRING = 6,    /* the text is the string */
    WIDREKAS_UNDEFINED = 7, /* an empty value field */
    WIDREKAS_INVALID = 8    /* the text is the raw text, or that of a failed number with every D made an E */
};

/* The classes of cards. */
enum widrekas_class {
    WIDREKAS_VALUE_CARD = 1,
    WIDREKAS_CONTINUE_CARD = 2,
    WIDREKAS_XTENSION_CARD = 3,
    WIDREKAS_COMMENT_CARD = 4,
    WIDREKAS_HISTORY_CARD = 5,
    WIDREKAS_HIERARCH_CARD = 6,
    WIDREKAS_SPACE_CARD = 7,
    WIDREKAS_END_CARD = 8,
    WIDREKAS_UNDEFINED_CARD = 9
};

/* Where the parts of a card's record stand: seven numbers of a byte each, then three texts of 80 bytes each. */
enum widrekas_record {
    WIDREKAS_RECORD_CLASS = 0,
    WIDREKAS_RECORD_KIND = 1,
    WIDREKAS_RECORD_FLAG = 2,
    WIDREKAS_RECORD_COMMENTED = 3, /* 1 where there is a comment, which may be empty */
    WIDREKAS_RECORD_NAME_LENGTH = 4,
    WIDREKAS_RECORD_TEXT_LENGTH = 5,
    WIDREKAS_RECORD_COMMENT_LENGTH = 6,
    WIDREKAS_RECORD_NAME = 8,
    WIDREKAS_RECORD_TEXT = 88,
    WIDREKAS_RECORD_COMMENT = 168
};

/* The numbers of an entry's value. */
enum widrekas_number {
    WIDREKAS_ENTRY_CARD = 0, /* 0; with the header's refusals, 1 to 10, the card's number */
    WIDREKAS_ENTRY_KIND = 1,
    WIDREKAS_ENTRY_FLAG = 2,
    WIDREKAS_ENTRY_TEXT_LENGTH = 3, /* with 13, the room that is wanted; with 12, 0 */
    WIDREKAS_ENTRY_DIGITS_LENGTH = 4
};

/* The version of this boundary: 3. Functions may join without a change of it. */
uint32_t widrekas_version(void);

/*
 * Reads a card of 80 bytes.
 *
 * 0: out, 248 bytes, is the card's record, its texts padded with zeros; *number is the integer or the power of ten, or 0.
 * The name is the keyword, bytes 0 to 7 without the blanks at both ends, whatever the class: that of a commentary, CONTINUE, XTENSION,
 * END or undefined card too, so that a record with a name need not be an entry. Where there is no keyword the name is empty. A HIERARCH
 * card has its dotted name instead.
 * The text is the value's (a string, an invalid text, a decimal's digits), a CONTINUE or XTENSION card's string, a comment or history
 * text, or an undefined card whole. END and space cards have none.
 * 255: card_length is not 80 or out_length not 248. 1 to 8: the refusal, and *column is the byte of the card at which it is refused.
 * Both leave out and *number as they were. 0 and 255 leave *column.
 */
uint8_t widrekas_card(const uint8_t *card, size_t card_length, uint8_t *out, size_t out_length, int64_t *number,
                      size_t *column);

/*
 * Finds the unit that a comment names as fitsrs reads it: what stands between a [ that is its first byte and the first ] behind it. Most
 * headers have a space before the [, as the standard recommends: widrekas_unit_past_space is for these.
 *
 * Answers the place of the ], so that the unit is the bytes from 1 up to it; or 0 where there is none. An empty unit answers 1.
 */
size_t widrekas_unit(const uint8_t *comment, size_t comment_length);

/*
 * Finds the unit that a comment names, with one space in front passed over, or none: "/ [s] time" and "/[s] time" have the unit s. Two
 * spaces, or any other byte before the [, leave it without one. Where widrekas_unit finds a unit, this is the same.
 *
 * Answers the place of the ], and *start is that of the byte behind the [, 1 or 2: the unit is the bytes from *start up to the answer.
 * Answers 0 where there is none, and *start stays as it was. An empty unit answers *start.
 */
size_t widrekas_unit_past_space(const uint8_t *comment, size_t comment_length, size_t *start);

/*
 * Says where END stands. Nothing behind the first END is looked at, so the front of a file may be lent: as many whole cards as there
 * are, and at most WIDREKAS_LONGEST bytes.
 *
 * 0: *card is END's card number. The header has (*card + 1) * 80 bytes; in a file the data begin at this number, rounded up to a
 * multiple of 2,880.
 * 9: *card is 0. 1 to 8: *card is the number of the first card that is refused, and *column the byte of it at which it is refused.
 * 10: *card is the number of cards. 0, 9 and 10 leave *column.
 */
uint8_t widrekas_header(const uint8_t *header, size_t header_length, size_t *card, size_t *column);

/*
 * Lists the names of a header, in the order of their first cards. Nothing behind the first END is looked at.
 *
 * 0: *count is the number of names; for each of them first has the number of the first card that bears it, last that of the last one,
 * whose entry counts, and times how many bear it: value, HIERARCH and XTENSION cards, but no CONTINUE card. The places behind them are
 * 720 in first and last, and 0 in times, so that times adds up to the number of those cards before END.
 * 255: first_length, last_length or times_length is not 720; *count stays as it was. 9, 1 to 8, 10: *count is the card's number, as in
 * widrekas_header, and with 1 to 8 *column is the byte of that card. All leave first, last and times as they were. 0, 255, 9 and 10
 * leave *column.
 */
uint8_t widrekas_list(const uint8_t *header, size_t header_length, size_t *first, size_t first_length, size_t *last,
                      size_t last_length, size_t *times, size_t times_length, size_t *count, size_t *column);

/*
 * Reads the name that the entry at a card's number bears. The name at place k of a list is that at card first[k]. No other card is
 * looked at, as in widrekas_entry_value.
 *
 * 0: name begins with the name, what is beyond stays, and *length is the name's length. There is no zero behind it. Its bytes are the
 * card's, each below 128; control characters may stand among them.
 * 9. 1 to 8: that card is refused, and *column is the byte of it at which it is. 12: there is no such card, or it bears no entry (a
 * commentary, CONTINUE, END or undefined card). 13: name is shorter than the name; WIDREKAS_LONGEST_NAME bytes are always enough. All
 * leave name and *length as they were. 0, 9, 12 and 13 leave *column.
 */
uint8_t widrekas_name(const uint8_t *header, size_t header_length, size_t card, uint8_t *name, size_t name_length,
                      size_t *length, size_t *column);

/*
 * An entry is read by halves: its value with its text, and its comment. Each half has a buffer of its own and gives 13 for that buffer
 * alone, so a caller that wants the text asks for no comment. Each reads the entry's cards for itself. Who wants both of every entry reads
 * its card by widrekas_card, which has both, and asks the halves only where the value is a string that ends in &.
 *
 * Reads the value of the entry at a card's number, its text joined with the CONTINUE cards behind it. The header's length is tested. Of
 * its cards that one is read and those behind it, up to where the entry ends; others are not looked at. So an entry behind END is read if
 * its number is asked for, and whether the header is accepted is for widrekas_header or widrekas_list to say.
 *
 * 0: out, 5 numbers, is the value (enum widrekas_number); text begins with the string or invalid text, by its length, and what is beyond
 * stays; digits, 80 bytes, is the decimal's digits, then zeros; *number is the integer or the power of ten, or 0.
 * 255: digits_length is not 80 or out_length not 5. 9: out[0] is 0.
 * 1 to 8: a refused card is met. out[0] is that card's number, and *column the byte of it at which it is refused. It is the card
 * itself, or the first one that is refused while the entry's string is open. A string that is complete before a refused card is read, as
 * is any other value.
 * 12: there is no such card, or it is no entry; out[3] is 0. 13: text is shorter than the text for it, and out[3] is the room that is
 * wanted: a second call that lends so much is not answered 13. WIDREKAS_ROOM is always enough.
 * All leave the rest as it was: text, digits, *number and the numbers in out that are not named. 0, 255, 9, 12 and 13 leave *column.
 */
uint8_t widrekas_entry_value(const uint8_t *header, size_t header_length, size_t card, uint8_t *text, size_t text_length,
                             uint8_t *digits, size_t digits_length, size_t *out, size_t out_length, int64_t *number,
                             size_t *column);

/*
 * Reads the comment of the entry at a card's number, joined with those of the CONTINUE cards behind it, a line feed between them.
 *
 * 0: *commented is 1 where there is a comment, which may be empty, or 0; comment begins with it, *length is its length, and what is
 * beyond stays.
 * 9: *card is 0. 1 to 8: as in widrekas_entry_value, and *card is the refused card's number. 12: as in widrekas_entry_value, and *length is
 * 0. 13: comment is shorter than the comment, and *length is the room that is wanted.
 * All leave the rest as it was. 0, 9, 12 and 13 leave *column; 0, 12 and 13 leave *card.
 */
uint8_t widrekas_entry_comment(const uint8_t *header, size_t header_length, size_t number, uint8_t *comment,
                               size_t comment_length, size_t *commented, size_t *length, size_t *card, size_t *column);

/*
 * Looks a name's value up: that of the last entry that bears the name, joined. Names are compared byte for byte.
 *
 * 0: as widrekas_entry_value. 255: as widrekas_entry_value. 9, 1 to 8, 10: the header's refusal, and out[0] is the card's number, as in
 * widrekas_header, and with 1 to 8 *column is the byte of that card. 12: no entry bears the name; out[3] is 0. 13: as
 * widrekas_entry_value. All leave the rest as it was, as in widrekas_entry_value. 0, 255, 9, 10, 12 and 13 leave *column.
 */
uint8_t widrekas_lookup_value(const uint8_t *header, size_t header_length, const uint8_t *name, size_t name_length,
                              uint8_t *text, size_t text_length, uint8_t *digits, size_t digits_length, size_t *out,
                              size_t out_length, int64_t *number, size_t *column);

/*
 * Looks a name's comment up: that of the last entry that bears the name, joined.
 *
 * 0: as widrekas_entry_comment. 9, 1 to 8, 10: the header's refusal, *card is the card's number, and with 1 to 8 *column is the byte of
 * that card. 12: no entry bears the name; *length is 0. 13: as widrekas_entry_comment. All leave the rest as it was, as in
 * widrekas_entry_comment. 0, 9, 10, 12 and 13 leave *column; 0, 12 and 13 leave *card.
 */
uint8_t widrekas_lookup_comment(const uint8_t *header, size_t header_length, const uint8_t *name, size_t name_length,
                                uint8_t *comment, size_t comment_length, size_t *commented, size_t *length, size_t *card,
                                size_t *column);

/*
 * Writes the cards of a name and its value at the front of block, 80 bytes each, one behind the other.
 *
 * The value has the form in which widrekas_lookup_value gives it back: kind is one of enum widrekas_kind; number is the integer or a
 * decimal's power of ten; flag is a logical's truth or a decimal's minus; text is a string's text or a decimal's digits. What a kind does
 * not have is not looked at. commented says whether there is a comment, which may be empty; without one, comment is not looked at. flag
 * and commented are false where they are 0, and any other number is true.
 *
 * 0: *count is the number of cards, 1 to 62, and what follows them in block stays. The first card bears the name, the others are
 * CONTINUE cards of a string; the last has the comment, directly behind the slash. In an accepted header where these cards stand in order
 * before END, with at most commentary between them, and no later card bears the name, widrekas_lookup_value answers the same kind and what
 * the kind has of flag, number, digits and text, and widrekas_lookup_comment the same comment.
 * In a header the cards may take the places of all cards of the name, equally many and in their order: its entries, and the CONTINUE
 * cards joined to them. If between these places stands commentary alone, every other name is answered as before.
 * 19: the name is not 1 to 8 bytes of A to Z, 0 to 9, hyphen and underscore, or is COMMENT, HISTORY, END, CONTINUE, XTENSION or HIERARCH.
 * 20: the comment or a string has a byte outside 32..126 or a space at its end; a string of one space is accepted. A string has more than
 * 2,000 bytes, ends in &, or stands beside a comment of more than 65. A logical or number with its comment passes byte 79. A decimal's
 * digits have another byte than 0 to 9 or a zero at either end; its power is beyond 99,999 in size, or is not 0 where there are no digits.
 * The kind is none of integer, finite, logical and string.
 * 21: block_length is less than 80 bytes for each card; WIDREKAS_BLOCK bytes are always enough.
 * All three, in this order, leave block and *count as they were.
 */
uint8_t widrekas_write(const uint8_t *name, size_t name_length, size_t kind, size_t flag, int64_t number, const uint8_t *text,
                       size_t text_length, size_t commented, const uint8_t *comment, size_t comment_length, uint8_t *block,
                       size_t block_length, size_t *count);

/*
 * Opens a Rice tile of nx pixels in blocks of nblock, with pixels of 8, 16 or 32 bits.
 *
 * 0: *bit, *done and *last are the cursor at the first block: the next bit of the tile, the pixels done, the last pixel.
 * 14. 16: the tile is shorter than its start value. Both leave the cursor as it was.
 */
uint8_t widrekas_open(const uint8_t *tile, size_t tile_length, size_t nx, size_t nblock, size_t bits, size_t *bit,
                      size_t *done, int32_t *last);

/*
 * Decodes one block from a cursor into its part of the tile's nx pixels, which starts at pixel *done, touching no other.
 *
 * 0: the cursor stands at the next block. 254: nothing is left.
 * 14. 15: pixels_length is not nx. 18. All three touch no pixel, and *written is 0. 16, 17: the pixels of the block before the fault
 * are written, the others untouched, and *written is how many. A refusal and 254 leave the cursor as it was; 0 and 254 leave
 * *written; 254 touches no pixel.
 */
uint8_t widrekas_step(const uint8_t *tile, size_t tile_length, size_t nx, size_t nblock, size_t bits, size_t *bit,
                      size_t *done, int32_t *last, int32_t *pixels, size_t pixels_length, size_t *written);

/*
 * Decodes a tile whole.
 *
 * 0: pixels, nx of them, is the tile, and *count is the bits used.
 * 14. 15: pixels_length is not nx. Both touch no pixel, and *count is 0. 16, 17: the pixels before the fault are written, the others
 * untouched, and *count is how many.
 */
uint8_t widrekas_decode(const uint8_t *tile, size_t tile_length, size_t nx, size_t nblock, size_t bits, int32_t *pixels,
                        size_t pixels_length, size_t *count);

/* ---- Not proved: what follows is C, and stands here for convenience. */

/* An answer in words, at most 80 bytes and a zero. Those of a refusal are the ones of docs/REFUSALS.md. */
static inline const char *widrekas_meaning(uint8_t answer)
{
    switch (answer) {
    case 0: return "nothing is refused";
    case 1: return "a byte of the card is 128 or more";
    case 2: return "before the slash and outside a string stands a byte outside 32 to 126";
    case 3: return "the string begins with a quote and does not end with one";
    case 4: return "the CONTINUE string ends with a quote and does not begin with one";
    case 5: return "the value begins with a parenthesis, and complex numbers are not read";
    case 6: return "the HIERARCH card has no = from byte 9 on";
    case 7: return "the HIERARCH card has no name before its =";
    case 8: return "the XTENSION value is not within quotes";
    case 9: return "the header's length is 0, no multiple of 80, or above 57,600";
    case 10: return "the header has no END card";
    case 12: return "no entry bears the name or stands at the card";
    case 13: return "a lent buffer is shorter than the text for it";
    case 14: return "the tile's pixels, block, width or length is outside its limits";
    case 15: return "the pixel slice is not as long as the tile has pixels";
    case 16: return "the tile ends before its last pixel";
    case 17: return "an FS field of the tile is above its top";
    case 18: return "the cursor does not fit the tile";
    case 19: return "the name is not 1 to 8 of A to Z, 0 to 9, - and _, or is a special keyword";
    case 20: return "the value or its comment is outside the rules for written cards";
    case 21: return "the block is shorter than the cards for it";
    case WIDREKAS_NOTHING_LEFT: return "nothing is left to step over";
    case WIDREKAS_WRONG_LENGTH: return "a lent slice has another length than the one asked for";
    default: return "no such answer";
    }
}

/*
 * The double of an entry's integer or decimal, from out, digits and *number as widrekas_entry_value or widrekas_lookup_value left
 * them with 0.
 *
 * An integer is converted, and a finite decimal is given to strtod as its sign, digits, e and power, with no decimal point: the locale
 * has no say, and the double is the nearest one if the C library rounds right, as glibc does. One that is too large becomes an
 * infinity, one that is too small a zero, both of the decimal's sign, and errno may then be ERANGE. Zero, inf and nan keep their sign.
 * Any other kind (logical, string, undefined, invalid) gives nan.
 */
static inline double widrekas_double(const size_t *out, const uint8_t *digits, int64_t number)
{
    /* A sign, the digits, e, a sign, up to 19 digits of the power, and the zero at the end. */
    char text[1 + WIDREKAS_DIGITS + 1 + 1 + 19 + 1];
    char power[19];
    size_t count = out[WIDREKAS_ENTRY_DIGITS_LENGTH];
    size_t length = 0;
    size_t places = 0;
    size_t i;
    uint64_t size = number < 0 ? 0 - (uint64_t)number : (uint64_t)number;
    int minus = out[WIDREKAS_ENTRY_FLAG] != 0;
    switch (out[WIDREKAS_ENTRY_KIND]) {
    case WIDREKAS_INTEGER: return (double)number;
    case WIDREKAS_FINITE: break;
    case WIDREKAS_INFINITE: return strtod(minus ? "-inf" : "inf", NULL);
    case WIDREKAS_NAN: return strtod(minus ? "-nan" : "nan", NULL);
    default: return strtod("nan", NULL);
    }
    if (minus) {
        text[length++] = '-';
    }
    for (i = 0; i < count && i < WIDREKAS_DIGITS; i++) {
        text[length++] = (char)digits[i];
    }
    if (count == 0) {
        text[length++] = '0';
    }
    text[length++] = 'e';
    if (number < 0) {
        text[length++] = '-';
    }
    do {
        power[places++] = (char)('0' + size % 10);
        size /= 10;
    } while (size > 0);
    while (places > 0) {
        text[length++] = power[--places];
    }
    text[length] = 0;
    return strtod(text, NULL);
}

#ifdef __cplusplus
}
#endif

#endif
