/* gpmf.h: the proved reader of GPMF, the metadata of action cameras, for C and C++ on x86-64.
 *
 * Each function is proved to answer what its definition says, on all input, to stay in bounds and to end. No call allocates, keeps anything
 * between calls, or asks anything of the numbers that it is given: places, counts, rows and columns may be any. What a caller owes is what C cannot tell:
 *   - a pointer and the length behind it name memory that may be read, and that may be written where the pointer is not const;
 *     where the length is 0 nothing is read or written, and the pointer may be NULL;
 *   - memory that is written overlaps nothing else that is lent to the same call;
 *   - a bool is false or true.
 *
 * An answer begins with its kind: GPMF_IS with its values, GPMF_NOTHING, GPMF_MORE, or GPMF_REFUSED with a refusal's number and place. What an
 * answer does not have is 0. A place is counted in bytes from the start of the payload or file. A refused call leaves what was lent as it was, but that a call which
 * prints lays the refusal into `out`, and that gpmf_put_packet without `whole` lays what stands before its place too, and so overwrites `rows` by those of that front.
 *
 * A payload is what stands behind the 8 bytes of a DEVC's header, in a raw file or in a sample of a video's metadata track: items one behind the other.
 *
 * Calls may run in several threads at once, on memory that no other thread writes meanwhile. A call that reads a payload takes at most 16 KB of the stack: 4 KB for rows of
 * its own and a frame for each of at most 17 levels, as compiled today some 9 KB in all (oracle/before.sh measures it); every other call takes less. */
#ifndef GPMF_H
#define GPMF_H

#include <stdbool.h>
#include <stddef.h>
#include <stdint.h>

#ifdef __cplusplus
extern "C" {
#endif

/* ---- kinds of an answer */

#define GPMF_REFUSED UINT32_C(0) /* refused: see number and place */
#define GPMF_IS UINT32_C(1)      /* there, with its values */
#define GPMF_NOTHING UINT32_C(2) /* there is none */
#define GPMF_MORE UINT32_C(3)    /* not known before more is lent: of a file from `place` on, or more room */

/* ---- numbers of a refusal */

#define GPMF_TOO_LONG UINT32_C(1)        /* the payload is over GPMF_MOST_BYTES */
#define GPMF_PAST_END UINT32_C(2)        /* an item's payload runs past the end of its level, or of the payload given */
#define GPMF_LEFT_OVER UINT32_C(3)       /* the search for a last item meets 1 to 7 bytes, too few for a header */
#define GPMF_TOO_DEEP UINT32_C(4)        /* a container with a payload stands at depth 16 */
#define GPMF_NO_ROOM UINT32_C(5)         /* a row, or an element, does not fit the room */
#define GPMF_TOO_FEW UINT32_C(6)         /* an item's payload has too few bytes for the shape of its value */
#define GPMF_UNREADABLE UINT32_C(7)      /* a text of the value, or its date, is not readable */
#define GPMF_LONG_TYPE UINT32_C(8)       /* a TYPE text expands to more than 256 characters */
#define GPMF_BAD_AXES UINT32_C(9)        /* the strings of axes are not three ASCII characters each */
#define GPMF_BAD_MATRIX UINT32_C(10)     /* a matrix is not nine numbers, or has a row with none above 0.5 or below -0.5 */
#define GPMF_BAD_DURATIONS UINT32_C(11)  /* a duration list is over its limits, or has a duration that is not finite */
#define GPMF_NO_ITEM UINT32_C(12)        /* at the place asked are fewer than 8 bytes, or an item of length 0; or, for a `?`, no whole TYPE of one text with a payload at the place named */
#define GPMF_OUTSIDE UINT32_C(13)        /* the row or the column asked lies outside the value */

/* ---- limits and fixed numbers */

#define GPMF_MOST_BYTES 1048576u          /* of a payload */
#define GPMF_MOST_ROWS 4096u              /* of a reading */
#define GPMF_ROW_WIDTH 8u                 /* numbers of a row */
#define GPMF_NO_TYPE UINT32_C(4294967295) /* the place of a TYPE where none is in force */
#define GPMF_FULL SIZE_MAX                /* the place behind text that did not fit its buffer */

/* Kinds of a group. */
#define GPMF_GROUP_CALLER UINT32_C(0) /* the caller's: of the outermost items, and of all items of a forced reading; its key is 0 */
#define GPMF_GROUP_BY_KEY UINT32_C(1) /* named by the key of the last item of the container */

/* Tags: what an item is for, by its key. */
#define GPMF_TAG_OTHER UINT32_C(0)        /* all other keys */
#define GPMF_TAG_DATA UINT32_C(1)         /* the readings: GYRO ACCL GRAV WBAL ISOE SHUT MWET IORI CORI AALP WNDM UNIF WRGB GPS5 FASC */
#define GPMF_TAG_UNIT UINT32_C(2)         /* SIUN, UNIT */
#define GPMF_TAG_MATRIX UINT32_C(3)       /* MTRX */
#define GPMF_TAG_SCALE UINT32_C(4)        /* SCAL: what the readings are divided by */
#define GPMF_TAG_TIMESTAMP_US UINT32_C(5) /* STMP: a time in microseconds */
#define GPMF_TAG_NAME UINT32_C(6)         /* STNM of a stream, DVNM of a device */
#define GPMF_TAG_TMPC UINT32_C(7)         /* a temperature */
#define GPMF_TAG_TSMP UINT32_C(8)         /* the samples so far */
#define GPMF_TAG_ORIN UINT32_C(9)         /* the order of the axes that come in */
#define GPMF_TAG_ORIO UINT32_C(10)        /* the order in which they are wanted */

/* A key of four letters as one number: GPMF_KEY('M', 'W', 'E', 'T'). */
#define GPMF_KEY(a, b, c, d) \
    ((uint32_t)(unsigned char)(a) << 24 | (uint32_t)(unsigned char)(b) << 16 | (uint32_t)(unsigned char)(c) << 8 | (uint32_t)(unsigned char)(d))

/* ---- plain records */

/* An item's header: its key as one number, its type letter, and the size and the repeat of its samples. */
typedef struct gpmf_klv {
    uint32_t key;
    uint8_t data_type;
    uint8_t size;
    uint16_t repeat;
} gpmf_klv;

/* The group that a key names: its number in this table, 0 for every other key, and the key.
 *    1 GYRO    2 ACCL    3 GRAV    4 MAGN    5 CORI    6 IORI    7 SHUT    8 GPS5
 *    9 FASC   10 MWET   11 AALP   12 WNDM   13 UNIF   14 WRGB   15 WBAL   16 ISOE */
typedef struct gpmf_group_id {
    uint32_t number;
    uint32_t key;
} gpmf_group_id;

/* A row of a reading. */
typedef struct gpmf_row {
    uint32_t place;      /* of the item's header */
    uint32_t group_kind; /* GPMF_GROUP_CALLER or GPMF_GROUP_BY_KEY */
    uint32_t group_key;  /* the key of the group, or 0 */
    uint32_t tag;        /* GPMF_TAG_DATA to GPMF_TAG_ORIO, GPMF_TAG_OTHER for other keys */
    uint32_t key;
    uint32_t shape;      /* type x 2^24 + size x 2^16 + repeat */
    uint32_t type_place; /* of the TYPE in force for a `?` item, else GPMF_NO_TYPE */
    uint32_t depth;      /* outermost items have 0 */
} gpmf_row;

/* A place to read a header from. */
typedef struct gpmf_cursor {
    size_t at;
} gpmf_cursor;

/* A fraction. */
typedef struct gpmf_exact {
    int64_t numerator;
    uint64_t denominator;
} gpmf_exact;

/* The forms of a number. */
#define GPMF_SIGNED UINT32_C(0)
#define GPMF_UNSIGNED UINT32_C(1)
#define GPMF_SINGLE UINT32_C(2)
#define GPMF_DOUBLE UINT32_C(3)

/* One number of a value: the field that its form names holds it, and the others are 0. */
typedef struct gpmf_number {
    uint32_t form;
    float single_value;
    int64_t signed_value;
    uint64_t unsigned_value;
    double double_value;
} gpmf_number;

/* Three axes, a character each; a camera's are X, Y and Z, small for the other direction. */
typedef struct gpmf_axes {
    uint8_t first;
    uint8_t second;
    uint8_t third;
} gpmf_axes;

/* A matrix of three rows of three, row by row. */
typedef struct gpmf_matrix {
    float entries[9];
} gpmf_matrix;

/* A quaternion: its real part, then those along the first, the second and the third axis. */
typedef struct gpmf_quaternion {
    double w;
    double x;
    double y;
    double z;
} gpmf_quaternion;

/* A packet of a raw file: its payload is the bytes from start up to end. */
typedef struct gpmf_packet {
    size_t start;
    size_t end;
} gpmf_packet;

/* A cursor over the packets of a raw file. */
typedef struct gpmf_packets {
    size_t at;
} gpmf_packets;

/* Where what was laid ends, and whether the packet was accepted. */
typedef struct gpmf_taken {
    size_t end;
    bool accepted;
} gpmf_taken;

/* ---- answers */

/* A whole number. */
typedef struct gpmf_whole_answer {
    uint32_t kind;
    uint32_t number;
    size_t place;
    uint64_t value;
} gpmf_whole_answer;

/* A number in double. */
typedef struct gpmf_real_answer {
    uint32_t kind;
    uint32_t number;
    size_t place;
    double value;
} gpmf_real_answer;

/* An item: its header, and in `place` where that stands. */
typedef struct gpmf_item_answer {
    uint32_t kind;
    uint32_t number;
    size_t place;
    gpmf_klv klv;
} gpmf_item_answer;

/* An element of a value. */
typedef struct gpmf_element_answer {
    uint32_t kind;
    uint32_t number;
    size_t place;
    gpmf_number element;
} gpmf_element_answer;

/* What a value is called. */
#define GPMF_VALUE_SINGLE UINT32_C(0)       /* one number */
#define GPMF_VALUE_LIST UINT32_C(1)         /* a number a row */
#define GPMF_VALUE_VECTOR UINT32_C(2)       /* three a row */
#define GPMF_VALUE_TIMED_VECTOR UINT32_C(3) /* four a row */
#define GPMF_VALUE_NESTED UINT32_C(4)       /* any other count a row */
#define GPMF_VALUE_TEXT UINT32_C(5)         /* one Latin-1 text: its bytes are the columns */
#define GPMF_VALUE_TEXTS UINT32_C(6)        /* a UTF-8 text a row */
#define GPMF_VALUE_IDENTIFIER UINT32_C(7)   /* four 32-bit numbers */
#define GPMF_VALUE_DATE_TIME UINT32_C(8)    /* milliseconds since 1970 */
#define GPMF_VALUE_QUATERNIONS UINT32_C(9)  /* w x y z a row, as they stand */
#define GPMF_VALUE_STRUCTURES UINT32_C(10)  /* a structure a row, by its TYPE */
#define GPMF_VALUE_UNKNOWN UINT32_C(11)     /* of a type that is not read: no elements */

/* The shape of a value: what it is called, its rows, and the columns of its first row. */
typedef struct gpmf_shape_answer {
    uint32_t kind;
    uint32_t number;
    size_t place;
    uint32_t value_kind;
    size_t rows;
    size_t columns;
} gpmf_shape_answer;

/* A row. */
typedef struct gpmf_row_answer {
    uint32_t kind;
    uint32_t number;
    size_t place;
    gpmf_row row;
} gpmf_row_answer;

/* What a payload is read as: so many rows, and so many headers, one for each item: containers, empty items and TYPE items too. */
typedef struct gpmf_metadata_answer {
    uint32_t kind;
    uint32_t number;
    size_t place;
    size_t rows;
    size_t headers;
} gpmf_metadata_answer;

/* Three axes. */
typedef struct gpmf_axes_answer {
    uint32_t kind;
    uint32_t number;
    size_t place;
    gpmf_axes axes;
} gpmf_axes_answer;

/* The axes of ORIN and of ORIO. */
typedef struct gpmf_orientations_answer {
    uint32_t kind;
    uint32_t number;
    size_t place;
    gpmf_axes orin;
    gpmf_axes orio;
} gpmf_orientations_answer;

/* A quaternion. */
typedef struct gpmf_quaternion_answer {
    uint32_t kind;
    uint32_t number;
    size_t place;
    gpmf_quaternion quaternion;
} gpmf_quaternion_answer;

/* A part of what was lent: where it starts, and how many bytes it has. */
typedef struct gpmf_part_answer {
    uint32_t kind;
    uint32_t number;
    size_t place;
    size_t start;
    size_t length;
} gpmf_part_answer;

/* A packet, and the cursor to go on with. */
typedef struct gpmf_packet_answer {
    uint32_t kind;
    uint32_t number;
    size_t place;
    gpmf_packet packet;
    gpmf_packets rest;
} gpmf_packet_answer;

/* A packet, what its payload is read as, and the cursor to go on with. A packet that was cut is GPMF_IS, also where its reading in `metadata` is refused; where none
 * was cut, `metadata` is all zeros. */
typedef struct gpmf_packet_metadata_answer {
    uint32_t kind;
    uint32_t number;
    size_t place;
    gpmf_packet packet;
    gpmf_metadata_answer metadata;
    gpmf_packets rest;
} gpmf_packet_metadata_answer;

/* ---- the reading of a payload, and its rows */

/* What a payload is read as; its rows go into rows[0 .. rows_len), eight numbers each (gpmf_row), of which those behind the last row stay as they were.
 * Refused with 1 to 5. With `forced`, every item has the caller's group. */
gpmf_metadata_answer gpmf_parse_metadata(const uint8_t *payload, size_t payload_len, bool forced, uint32_t *rows, size_t rows_len);

/* How many rows so many numbers have room for: an eighth, rounded down, and at most GPMF_MOST_ROWS. */
size_t gpmf_room(size_t numbers);

/* The n-th row, from 0; GPMF_NOTHING where the numbers have no room for such a row. */
gpmf_row_answer gpmf_row_at(const uint32_t *rows, size_t rows_len, size_t n);

/* Stores a row as the n-th, and tells whether there is room for it. */
bool gpmf_put_row(uint32_t *out, size_t out_len, size_t n, gpmf_row row);

/* The index of the last of the first `count` rows that has a group and a tag, and under GPMF_TAG_OTHER the key too: a key that has a tag (gpmf_tag_id) is found by that
 * alone. GPMF_NOTHING where there is none. Refused with 5, at place 0, where so many rows have no room. */
gpmf_whole_answer gpmf_lookup(const uint32_t *rows, size_t rows_len, size_t count, uint32_t group_kind, uint32_t group_key, uint32_t tag, uint32_t key);

/* The last item of the level from a place to the end; GPMF_NOTHING where there is none. Refused with 2 or 3, at the place where the search stops. */
gpmf_item_answer gpmf_last_item(const uint8_t *s, size_t s_len, size_t at);

/* The last item of a payload; GPMF_NOTHING where there is none. Refused with 1, at place 0, or with 2 or 3, at the place where the search stops. */
gpmf_item_answer gpmf_get_last_klv(const uint8_t *payload, size_t payload_len);

/* ---- values: of the item whose header stands at `at`, with its TYPE at `type_at` (GPMF_NO_TYPE for none), as a row has them */

/* The element at a row and a column. Refused with 1, at place 0, or with 2, 6, 7, 8, 12 or 13, at the place asked. Each call goes through the whole TYPE text of a
 * structure, or through all texts of several, as gpmf_columns_at and gpmf_text_at do: for all elements of a value take gpmf_elements_at. */
gpmf_element_answer gpmf_element(const uint8_t *s, size_t s_len, size_t at, size_t type_at, size_t row, size_t column);

/* What the value is called, its rows, and the columns of its first row. Refused as gpmf_element, but for 13. */
gpmf_shape_answer gpmf_shape_at(const uint8_t *s, size_t s_len, size_t at, size_t type_at);

/* The columns of a row: of a text, its bytes. Refused as gpmf_element; with 13 where the row lies outside. */
gpmf_whole_answer gpmf_columns_at(const uint8_t *s, size_t s_len, size_t at, size_t type_at, size_t row);

/* All elements of the value, row after row, and in a row column after column: each as one number in numbers[0 .. numbers_len), of which those behind the last element
 * stay as they were. How many there are. Refused as gpmf_shape_at; with 5, at the place asked, where they do not fit. The letter of the type (of a row, shape >> 24) says the
 * form of each:
 *   b s l j          signed, as its two's complement in 64 bits
 *   B S L J c F G U  unsigned
 *   f q              the bits of a float (gpmf_single_bits)
 *   d Q              the bits of a double (gpmf_double_bits)
 *   ?                column by column by the letters of its TYPE text (gpmf_text_at of type_at, row 0), written out (gpmf_resolve_custom_type), for which gpmf_width is not 0
 * Every other letter has no elements. How long an element takes does not depend on the TYPE text. */
gpmf_whole_answer gpmf_elements_at(const uint8_t *s, size_t s_len, size_t at, size_t type_at, uint64_t *numbers, size_t numbers_len);

/* The header of the item. Refused with 1, at place 0, or with 2 or 12, at the place asked. */
gpmf_item_answer gpmf_klv_at(const uint8_t *s, size_t s_len, size_t at, size_t type_at);

/* Which part of s the item's own payload is: s + start, `length` bytes. Refused as gpmf_klv_at. */
gpmf_part_answer gpmf_bytes_at(const uint8_t *s, size_t s_len, size_t at, size_t type_at);

/* Which part of s the text of a row is: of one text without the zeros behind it, of several up to the first zero. Refused as gpmf_columns_at; with 13 too where the value is no text. */
gpmf_part_answer gpmf_text_at(const uint8_t *s, size_t s_len, size_t at, size_t type_at, size_t row);

/* ---- items */

/* A cursor at a place. */
gpmf_cursor gpmf_cursor_new(size_t at);

/* The header at a cursor, of an item whose payload is all there. Refused with 12 where fewer than 8 bytes are left, with 2 where the payload runs past the end, at
 * the cursor's place. */
gpmf_item_answer gpmf_parse_header(gpmf_cursor cursor, const uint8_t *s, size_t s_len);

/* The length of an item's payload: size times repeat. */
size_t gpmf_data_len(gpmf_klv klv);

/* The same with its padding to a multiple of four. */
size_t gpmf_aligned_data_len(gpmf_klv klv);

/* Whether the value is one text: type F, or c with repeat 1 or size 1. */
bool gpmf_is_one_text(gpmf_klv klv);

/* Whether the item is a TYPE whose value is one text. */
bool gpmf_is_type_text(gpmf_klv klv);

/* The tag of a key: GPMF_TAG_DATA to GPMF_TAG_ORIO, GPMF_TAG_OTHER for other keys. */
uint32_t gpmf_tag_id(uint32_t key);

/* The group that a key names. */
gpmf_group_id gpmf_group_from_key(uint32_t key);

/* The number that bytes stand for, the first weighing most; the first eight where there are more. */
uint64_t gpmf_big_endian(const uint8_t *part, size_t part_len);

/* ---- numbers */

/* high + low / 65536 in float. */
float gpmf_q15_16(int16_t high, uint16_t low);

/* high + low / 4294967295 in double. */
double gpmf_q31_32(int32_t high, uint32_t low);

/* The same with nothing rounded. */
gpmf_exact gpmf_q31_32_exact(int32_t high, uint32_t low);

/* The bytes of one element of a type; 0 for a letter that reads nothing. */
size_t gpmf_width(uint8_t letter);

/* What the bytes at a place stand for, by the letter of a type; the unsigned 0 where they are not all there. */
gpmf_number gpmf_element_at(const uint8_t *s, size_t s_len, size_t at, uint8_t letter);

/* The exact form of the Q number at a place; 0 / 4294967295 where its bytes are not all there. */
gpmf_exact gpmf_exact_at(const uint8_t *s, size_t s_len, size_t at);

/* The bits of a float; of every NaN those of one. */
uint32_t gpmf_single_bits(float x);

/* The bits of a double; of every NaN those of one. */
uint64_t gpmf_double_bits(double x);

/* ---- texts and dates */

/* A TYPE text written out into out, and how many characters it has. Refused with 8, at place 0, where it is over 256 characters. */
gpmf_whole_answer gpmf_resolve_custom_type(const uint8_t *text, size_t text_len, uint8_t out[256]);

/* How many bytes of a Latin-1 text are kept: all but its trailing zeros. */
size_t gpmf_latin1_len(const uint8_t *text, size_t text_len);

/* How many bytes a UTF-8 text has up to its first zero. */
size_t gpmf_utf8_len(const uint8_t *text, size_t text_len);

/* Whether bytes are well-formed UTF-8. */
bool gpmf_is_utf8(const uint8_t *text, size_t text_len);

/* Whether each run of `size` bytes is, up to its first zero; with size 0, the whole. */
bool gpmf_are_utf8(const uint8_t *texts, size_t texts_len, size_t size);

/* Milliseconds from the start of 1970 to the date yymmddhhmmss.sss, 0 for a date or a time that is impossible. Refused with 6 under 16 bytes, with 7 where it is not
 * readable, at place 0. */
gpmf_whole_answer gpmf_parse_utcdate(const uint8_t *text, size_t text_len);

/* ---- what the first `count` rows of a reading lead to, for a group. Calls that are lent a payload and rows are refused with 1, at place 0, and with 5 as
 * gpmf_lookup; what is refused of an item that a row leads to has that row's place */

/* The item of a group and a tag, as gpmf_lookup finds its row; GPMF_NOTHING where there is no such row. Refused with 2 or 12 where the row's place holds no such item. */
gpmf_item_answer gpmf_tagged_item(const uint8_t *s, size_t s_len, const uint32_t *rows, size_t rows_len, size_t count, uint32_t group_kind, uint32_t group_key, uint32_t tag, uint32_t key);

/* Whether a header's type, size and repeat are those of one number of a letter. Its key is not looked at: `s` under CORI or IORI is quaternions all the same. */
bool gpmf_is_one_number(gpmf_klv klv, uint8_t letter);

/* The stamp of a group, in microseconds of the camera's clock: its STMP, if that is one J number or a date (whose milliseconds are taken as they are), else
 * its TICK, if that is one L number, times 1000. GPMF_NOTHING where it has neither. Refused with 2, 6, 7 or 12 of STMP; else with 2 or 12 of TICK. */
gpmf_whole_answer gpmf_stamp_us(const uint8_t *s, size_t s_len, const uint32_t *rows, size_t rows_len, size_t count, uint32_t group_kind, uint32_t group_key);

/* The quaternion of a row of CORI or IORI, scaled by the group's SCAL if that is one s number, else by 32767. GPMF_NOTHING where the group has no data, or these are
 * no quaternions. Refused with 2, 6, 12 or 13 (the row lies outside) of the data, with 2 or 12 of SCAL. */
gpmf_quaternion_answer gpmf_scaled_quaternion(const uint8_t *s, size_t s_len, const uint32_t *rows, size_t rows_len, size_t count, uint32_t group_kind, uint32_t group_key, size_t row);

/* w, negated x, y and z over a scale. */
gpmf_quaternion gpmf_scaled(int16_t w, int16_t x, int16_t y, int16_t z, double scale);

/* 0 less x in 16 bits: -32768 stays. */
int16_t gpmf_negated(int16_t x);

/* The axes of a group by its MTRX, or where it has none by its ORIN and ORIO. GPMF_NOTHING where it has not these, where a row of MTRX
 * is not f or q numbers, two of them or five and more, or where ORIN or ORIO is not one text. Refused with 2 or 12 of one of them; with 9 or 10, at place 0, as the calls on axes below. */
gpmf_axes_answer gpmf_orientation_of_group(const uint8_t *payload, size_t payload_len, const uint32_t *rows, size_t rows_len, size_t count, uint32_t group_kind, uint32_t group_key);

/* Milliseconds for a reading, on average over as many packets as the shortest list has: readings, whether stamped (not 0), stamps in microseconds, durations in
 * milliseconds, whether time is missing since the last stamped packet (not 0). GPMF_NOTHING where there are no readings. Refused with 11, at place 0. */
gpmf_real_answer gpmf_get_avg_sample_duration(const uint32_t *counts, size_t counts_len, const uint8_t *has_stamp, size_t has_stamp_len, const uint64_t *stamps, size_t stamps_len,
                                              const double *durations, size_t durations_len, const uint8_t *missing, size_t missing_len);

/* ---- axes: all refusals have place 0 */

/* The axes that the texts of ORIN and ORIO name. Refused with 9. */
gpmf_orientations_answer gpmf_orientations_of(const uint8_t *orin, size_t orin_len, const uint8_t *orio, size_t orio_len);

/* A row for each ORIO letter, a column for each ORIN letter: 1 for the same, -1 for the other direction, else 0. */
gpmf_matrix gpmf_orientations_to_matrix(gpmf_axes orin, gpmf_axes orio);

/* The axes that a matrix names. Refused with 10. */
gpmf_axes_answer gpmf_matrix_to_orientation(gpmf_matrix matrix);

/* The same of the numbers of an MTRX. Refused with 10 where they are not nine. */
gpmf_axes_answer gpmf_mtrx_to_orientation(const float *mtrx, size_t mtrx_len);

/* ---- packets of a raw file */

/* The place of the first DEVC from a place on; GPMF_NOTHING where there is none. */
gpmf_whole_answer gpmf_find_devc(const uint8_t *file, size_t file_len, size_t from);

/* A cursor over packets, from a place on: 0 for all of them. */
gpmf_packets gpmf_packets_new(size_t at);

/* The next packet of a file in memory, and the cursor to go on with; GPMF_NOTHING at the end. */
gpmf_packet_answer gpmf_packets_next(gpmf_packets packets, const uint8_t *file, size_t file_len);

/* The same in a window of a file that is read piece by piece; `more`: bytes of the file follow the window. GPMF_MORE: go on with a window that begins at `place`
 * of this one and has more bytes, and in that with gpmf_packets_new(0). */
gpmf_packet_answer gpmf_packets_next_in(gpmf_packets packets, const uint8_t *window, size_t window_len, bool more);

/* The next packet of a file, and what its payload is read as (gpmf_parse_metadata); GPMF_NOTHING at the end. Row places count from the packet's start. */
gpmf_packet_metadata_answer gpmf_next_metadata(gpmf_packets packets, const uint8_t *file, size_t file_len, bool forced, uint32_t *rows, size_t rows_len);

/* The same in a window of a file, with GPMF_MORE as gpmf_packets_next_in: the new window begins at `place` of this one, and its cursor is gpmf_packets_new(0).
 * GPMF_REFUSED with 1: a packet from packet.start on that is over the limit wherever it ends; go on in this window with `rest`. */
gpmf_packet_metadata_answer gpmf_next_metadata_in(gpmf_packets packets, const uint8_t *window, size_t window_len, bool more, bool forced, uint32_t *rows, size_t rows_len);

/* ---- printing: text is laid into out[0 .. out_len) from a place on, and the answer is the place behind it; what does not fit is not laid and the answer is
 * GPMF_FULL, and from GPMF_FULL on nothing is laid either, so that calls can follow one another without a test between them. A call that lays several parts, as lines, leaves
 * those that were laid before the first that does not fit */

/* The listing of a payload: its first line, and a line a row; the rows go into `rows` as in gpmf_parse_metadata. It has at most 56 bytes for each row that rows_len has
 * room for (gpmf_room), and 56 more. */
size_t gpmf_list(const uint8_t *payload, size_t payload_len, uint32_t *rows, size_t rows_len, uint8_t *out, size_t out_len, size_t at);

/* The first line of a listing. */
size_t gpmf_put_answer(uint8_t *out, size_t out_len, size_t at, gpmf_metadata_answer answer);

/* A line for each of the first `count` rows; the line of the refusal with 5 at 0 alone where rows_len has no room for so many. */
size_t gpmf_put_rows(uint8_t *out, size_t out_len, size_t at, const uint32_t *rows, size_t rows_len, size_t count);

/* A packet of a take: its line, its listing, and where it is refused the listing of what stands before the place; with `whole`, nothing of a refused one. The line says
 * `number`, which a take counts from 1, `place`, where the payload starts in the file, and payload_len. The rows of what is listed go into
 * `rows`: of a refused packet those of its front, and with `whole` none, so that `rows` stay as they were. It has at most 106 bytes more than a listing (gpmf_list). */
gpmf_taken gpmf_put_packet(const uint8_t *payload, size_t payload_len, uint64_t number, uint64_t place, bool whole, uint32_t *rows, size_t rows_len, uint8_t *out, size_t out_len,
                           size_t at);

/* A packet of more bytes than are held: its line, of its number, the place where it starts in the file and how many bytes it has, its refusal with 1, and a front of no
 * rows; with `whole`, nothing. */
size_t gpmf_put_long_packet(uint64_t number, uint64_t place, uint64_t bytes, bool whole, uint8_t *out, size_t out_len, size_t at);

/* The last line of a take: its counts. */
size_t gpmf_put_totals(uint8_t *out, size_t out_len, size_t at, uint64_t packets, uint64_t read, uint64_t refused);

/* A byte. */
size_t gpmf_put(uint8_t *out, size_t out_len, size_t at, uint8_t b);

/* Bytes. */
size_t gpmf_put_bytes(uint8_t *out, size_t out_len, size_t at, const uint8_t *text, size_t text_len);

/* A number in decimal. */
size_t gpmf_put_decimal(uint8_t *out, size_t out_len, size_t at, uint64_t n);

/* The last `count` digits of a number in hex. */
size_t gpmf_put_hex(uint8_t *out, size_t out_len, size_t at, uint64_t n, size_t count);

/* A signed number in decimal. */
size_t gpmf_put_signed(uint8_t *out, size_t out_len, size_t at, int64_t n);

/* ---- what is read out of a line */

/* How many pieces a text falls into, each ended by a byte or by the end. */
size_t gpmf_pieces(const uint8_t *s, size_t s_len, uint8_t b);

/* The number in decimal digits; GPMF_NOTHING where there is none of 64 bits. */
gpmf_whole_answer gpmf_decimal_number(const uint8_t *s, size_t s_len);

/* The number in small hex digits; GPMF_NOTHING where there is none of 64 bits. */
gpmf_whole_answer gpmf_hex_number(const uint8_t *s, size_t s_len);

/* The bytes in small hex digits, laid at the front of out; GPMF_NOTHING where it is not hex, GPMF_MORE where they have no room. */
gpmf_whole_answer gpmf_unhex(const uint8_t *s, size_t s_len, uint8_t *out, size_t out_len);

#ifdef __cplusplus
}
#endif

#endif
