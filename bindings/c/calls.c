/* calls SAMPLES: calls every function of gpmf.h on input that is good and on input that is refused, and compares each answer. It is C11 and C++17.
 * What is expected was worked out by hand from document 01, or stands in the folder SAMPLES, whose prints a model wrote.
 * Samples and lent rows end where a page that may not be touched begins, so that a byte too many stops the program. */
#ifndef _DEFAULT_SOURCE
#define _DEFAULT_SOURCE /* for MAP_ANONYMOUS */
#endif
#include "gpmf.h"

#include <assert.h>
#include <math.h>
#include <stdio.h>
#include <stdlib.h>
#include <string.h>
#include <sys/mman.h>
#include <ucontext.h>
#include <unistd.h>

/* ---- layouts: each field where the record of the library has it */

#define HAS(type, field, at) static_assert(offsetof(type, field) == (at), #type "." #field)
#define SIZE(type, size) static_assert(sizeof(type) == (size), #type)

SIZE(size_t, 8);
SIZE(bool, 1);
SIZE(gpmf_klv, 8);
HAS(gpmf_klv, key, 0);
HAS(gpmf_klv, data_type, 4);
HAS(gpmf_klv, size, 5);
HAS(gpmf_klv, repeat, 6);
SIZE(gpmf_group_id, 8);
HAS(gpmf_group_id, number, 0);
HAS(gpmf_group_id, key, 4);
SIZE(gpmf_row, 32);
HAS(gpmf_row, place, 0);
HAS(gpmf_row, group_kind, 4);
HAS(gpmf_row, group_key, 8);
HAS(gpmf_row, tag, 12);
HAS(gpmf_row, key, 16);
HAS(gpmf_row, shape, 20);
HAS(gpmf_row, type_place, 24);
HAS(gpmf_row, depth, 28);
SIZE(gpmf_cursor, 8);
SIZE(gpmf_exact, 16);
HAS(gpmf_exact, numerator, 0);
HAS(gpmf_exact, denominator, 8);
SIZE(gpmf_number, 32);
HAS(gpmf_number, form, 0);
HAS(gpmf_number, single_value, 4);
HAS(gpmf_number, signed_value, 8);
HAS(gpmf_number, unsigned_value, 16);
HAS(gpmf_number, double_value, 24);
SIZE(gpmf_axes, 3);
HAS(gpmf_axes, first, 0);
HAS(gpmf_axes, second, 1);
HAS(gpmf_axes, third, 2);
SIZE(gpmf_matrix, 36);
SIZE(gpmf_quaternion, 32);
HAS(gpmf_quaternion, w, 0);
HAS(gpmf_quaternion, x, 8);
HAS(gpmf_quaternion, y, 16);
HAS(gpmf_quaternion, z, 24);
SIZE(gpmf_packet, 16);
HAS(gpmf_packet, start, 0);
HAS(gpmf_packet, end, 8);
SIZE(gpmf_packets, 8);
SIZE(gpmf_taken, 16);
HAS(gpmf_taken, end, 0);
HAS(gpmf_taken, accepted, 8);

#define ANSWER(type, size) \
    SIZE(type, size);      \
    HAS(type, kind, 0);    \
    HAS(type, number, 4);  \
    HAS(type, place, 8)

ANSWER(gpmf_whole_answer, 24);
HAS(gpmf_whole_answer, value, 16);
ANSWER(gpmf_real_answer, 24);
HAS(gpmf_real_answer, value, 16);
ANSWER(gpmf_item_answer, 24);
HAS(gpmf_item_answer, klv, 16);
ANSWER(gpmf_element_answer, 48);
HAS(gpmf_element_answer, element, 16);
ANSWER(gpmf_shape_answer, 40);
HAS(gpmf_shape_answer, value_kind, 16);
HAS(gpmf_shape_answer, rows, 24);
HAS(gpmf_shape_answer, columns, 32);
ANSWER(gpmf_row_answer, 48);
HAS(gpmf_row_answer, row, 16);
ANSWER(gpmf_metadata_answer, 32);
HAS(gpmf_metadata_answer, rows, 16);
HAS(gpmf_metadata_answer, headers, 24);
ANSWER(gpmf_axes_answer, 24);
HAS(gpmf_axes_answer, axes, 16);
ANSWER(gpmf_orientations_answer, 24);
HAS(gpmf_orientations_answer, orin, 16);
HAS(gpmf_orientations_answer, orio, 19);
ANSWER(gpmf_quaternion_answer, 48);
HAS(gpmf_quaternion_answer, quaternion, 16);
ANSWER(gpmf_part_answer, 32);
HAS(gpmf_part_answer, start, 16);
HAS(gpmf_part_answer, length, 24);
ANSWER(gpmf_packet_answer, 40);
HAS(gpmf_packet_answer, packet, 16);
HAS(gpmf_packet_answer, rest, 32);
ANSWER(gpmf_packet_metadata_answer, 72);
HAS(gpmf_packet_metadata_answer, packet, 16);
HAS(gpmf_packet_metadata_answer, metadata, 32);
HAS(gpmf_packet_metadata_answer, rest, 64);

/* ---- checks */

static int checks = 0;
static int faults = 0;

static void check(bool holds, int line, const char *what) {
    checks += 1;
    if (holds) return;
    faults += 1;
    printf("calls.c:%d: not so: %s\n", line, what);
}

#define CHECK(what) check((what), __LINE__, #what)

/* A text of this file as the two arguments of a slice. */
#define TEXT(text) (const uint8_t *)(text), sizeof(text) - 1

/* No bytes. */
#define NONE NULL, 0

static const uint32_t MWET = GPMF_KEY('M', 'W', 'E', 'T');
static const uint32_t AALP = GPMF_KEY('A', 'A', 'L', 'P');
static const uint32_t CORI = GPMF_KEY('C', 'O', 'R', 'I');
static const uint32_t ACCL = GPMF_KEY('A', 'C', 'C', 'L');
static const uint32_t FACE = GPMF_KEY('F', 'A', 'C', 'E');
static const uint32_t GPS5 = GPMF_KEY('G', 'P', 'S', '5');
static const uint32_t STRM = GPMF_KEY('S', 'T', 'R', 'M');
static const uint32_t SCAL = GPMF_KEY('S', 'C', 'A', 'L');
static const uint32_t TYPE = GPMF_KEY('T', 'Y', 'P', 'E');

/* ---- answers: every field is compared, and what is not there must be 0 */

static bool whole_is(gpmf_whole_answer a, uint64_t value) { return a.kind == GPMF_IS && a.number == 0 && a.place == 0 && a.value == value; }
static bool whole_nothing(gpmf_whole_answer a) { return a.kind == GPMF_NOTHING && a.number == 0 && a.place == 0 && a.value == 0; }
static bool whole_more(gpmf_whole_answer a) { return a.kind == GPMF_MORE && a.number == 0 && a.place == 0 && a.value == 0; }
static bool whole_refused(gpmf_whole_answer a, uint32_t number, size_t place) {
    return a.kind == GPMF_REFUSED && a.number == number && a.place == place && a.value == 0;
}

static bool real_is(gpmf_real_answer a, double value) { return a.kind == GPMF_IS && a.number == 0 && a.place == 0 && a.value == value; }
static bool real_nothing(gpmf_real_answer a) { return a.kind == GPMF_NOTHING && a.number == 0 && a.place == 0 && a.value == 0; }
static bool real_refused(gpmf_real_answer a, uint32_t number) { return a.kind == GPMF_REFUSED && a.number == number && a.place == 0 && a.value == 0; }

static gpmf_klv klv(uint32_t key, char data_type, uint8_t size, uint16_t repeat) {
    gpmf_klv header;
    header.key = key;
    header.data_type = (uint8_t)data_type;
    header.size = size;
    header.repeat = repeat;
    return header;
}
static bool same_klv(gpmf_klv a, gpmf_klv b) { return a.key == b.key && a.data_type == b.data_type && a.size == b.size && a.repeat == b.repeat; }
static bool item_is(gpmf_item_answer a, size_t place, gpmf_klv header) {
    return a.kind == GPMF_IS && a.number == 0 && a.place == place && same_klv(a.klv, header);
}
static bool item_nothing(gpmf_item_answer a) { return a.kind == GPMF_NOTHING && a.number == 0 && a.place == 0 && same_klv(a.klv, klv(0, 0, 0, 0)); }
static bool item_refused(gpmf_item_answer a, uint32_t number, size_t place) {
    return a.kind == GPMF_REFUSED && a.number == number && a.place == place && same_klv(a.klv, klv(0, 0, 0, 0));
}

static bool is_signed(gpmf_number n, int64_t value) {
    return n.form == GPMF_SIGNED && n.signed_value == value && n.unsigned_value == 0 && n.single_value == 0 && n.double_value == 0;
}
static bool is_unsigned(gpmf_number n, uint64_t value) {
    return n.form == GPMF_UNSIGNED && n.unsigned_value == value && n.signed_value == 0 && n.single_value == 0 && n.double_value == 0;
}
static bool is_single(gpmf_number n, float value) {
    return n.form == GPMF_SINGLE && n.single_value == value && n.unsigned_value == 0 && n.signed_value == 0 && n.double_value == 0;
}
static bool is_double(gpmf_number n, double value) {
    return n.form == GPMF_DOUBLE && n.double_value == value && n.unsigned_value == 0 && n.signed_value == 0 && n.single_value == 0;
}
/* The number of an element that was read; of one that was not, no number. */
static gpmf_number read_as(gpmf_element_answer a) {
    gpmf_number n = a.element;
    if (a.kind != GPMF_IS || a.number != 0 || a.place != 0) n.form = UINT32_MAX;
    return n;
}
static bool element_refused(gpmf_element_answer a, uint32_t number, size_t place) {
    return a.kind == GPMF_REFUSED && a.number == number && a.place == place && is_signed(a.element, 0);
}

static bool shape_is(gpmf_shape_answer a, uint32_t value_kind, size_t rows, size_t columns) {
    return a.kind == GPMF_IS && a.number == 0 && a.place == 0 && a.value_kind == value_kind && a.rows == rows && a.columns == columns;
}
static bool shape_refused(gpmf_shape_answer a, uint32_t number, size_t place) {
    return a.kind == GPMF_REFUSED && a.number == number && a.place == place && a.value_kind == 0 && a.rows == 0 && a.columns == 0;
}

static bool part_is(gpmf_part_answer a, size_t start, size_t length) {
    return a.kind == GPMF_IS && a.number == 0 && a.place == 0 && a.start == start && a.length == length;
}
static bool part_refused(gpmf_part_answer a, uint32_t number, size_t place) {
    return a.kind == GPMF_REFUSED && a.number == number && a.place == place && a.start == 0 && a.length == 0;
}

static bool rows_are(gpmf_metadata_answer a, size_t rows, size_t headers) {
    return a.kind == GPMF_IS && a.number == 0 && a.place == 0 && a.rows == rows && a.headers == headers;
}
static bool rows_refused(gpmf_metadata_answer a, uint32_t number, size_t place) {
    return a.kind == GPMF_REFUSED && a.number == number && a.place == place && a.rows == 0 && a.headers == 0;
}
static bool no_rows_told(gpmf_metadata_answer a) { return rows_refused(a, 0, 0); }

static gpmf_row row(uint32_t place, uint32_t group_kind, uint32_t group_key, uint32_t tag, uint32_t key, uint32_t shape, uint32_t type_place, uint32_t depth) {
    gpmf_row made;
    made.place = place;
    made.group_kind = group_kind;
    made.group_key = group_key;
    made.tag = tag;
    made.key = key;
    made.shape = shape;
    made.type_place = type_place;
    made.depth = depth;
    return made;
}
static uint32_t shape_of(char data_type, uint32_t size, uint32_t repeat) { return (uint32_t)(unsigned char)data_type << 24 | size << 16 | repeat; }
static bool same_row(gpmf_row a, gpmf_row b) { return memcmp(&a, &b, sizeof a) == 0; }
static bool row_is(gpmf_row_answer a, gpmf_row b) { return a.kind == GPMF_IS && a.number == 0 && a.place == 0 && same_row(a.row, b); }
static bool row_nothing(gpmf_row_answer a) { return a.kind == GPMF_NOTHING && a.number == 0 && a.place == 0 && same_row(a.row, row(0, 0, 0, 0, 0, 0, 0, 0)); }

static gpmf_axes axes(char first, char second, char third) {
    gpmf_axes made;
    made.first = (uint8_t)first;
    made.second = (uint8_t)second;
    made.third = (uint8_t)third;
    return made;
}
static bool same_axes(gpmf_axes a, gpmf_axes b) { return a.first == b.first && a.second == b.second && a.third == b.third; }
static bool axes_are(gpmf_axes_answer a, gpmf_axes b) { return a.kind == GPMF_IS && a.number == 0 && a.place == 0 && same_axes(a.axes, b); }
static bool axes_nothing(gpmf_axes_answer a) { return a.kind == GPMF_NOTHING && a.number == 0 && a.place == 0 && same_axes(a.axes, axes(0, 0, 0)); }
static bool axes_refused(gpmf_axes_answer a, uint32_t number) {
    return a.kind == GPMF_REFUSED && a.number == number && a.place == 0 && same_axes(a.axes, axes(0, 0, 0));
}

static bool quaternion_is(gpmf_quaternion q, double w, double x, double y, double z) { return q.w == w && q.x == x && q.y == y && q.z == z; }

static bool packet_is(gpmf_packet_answer a, size_t start, size_t end, size_t rest) {
    return a.kind == GPMF_IS && a.number == 0 && a.place == 0 && a.packet.start == start && a.packet.end == end && a.rest.at == rest;
}
static bool packet_none(gpmf_packet_answer a, uint32_t kind, size_t place) {
    return a.kind == kind && a.number == 0 && a.place == place && a.packet.start == 0 && a.packet.end == 0 && a.rest.at == 0;
}
static bool packet_read(gpmf_packet_metadata_answer a, size_t start, size_t end, size_t rest) {
    return a.kind == GPMF_IS && a.number == 0 && a.place == 0 && a.packet.start == start && a.packet.end == end && a.rest.at == rest;
}
static bool packet_not_read(gpmf_packet_metadata_answer a, uint32_t kind, uint32_t number, size_t place, size_t start, size_t rest) {
    return a.kind == kind && a.number == number && a.place == place && a.packet.start == start && a.packet.end == 0 && no_rows_told(a.metadata) && a.rest.at == rest;
}

/* ---- memory */

/* So many bytes, behind which comes a page that may not be touched; they are never given back. */
static uint8_t *edge(size_t size) {
    size_t page = (size_t)sysconf(_SC_PAGESIZE);
    size_t room = (size / page + 1) * page;
    uint8_t *at = (uint8_t *)mmap(NULL, room + page, PROT_READ | PROT_WRITE, MAP_PRIVATE | MAP_ANONYMOUS, -1, 0);
    if (at == MAP_FAILED || mprotect(at + room, page, PROT_NONE) != 0) {
        puts("calls: no memory");
        exit(2);
    }
    return at + (room - size);
}

/* A sample, whole. */
typedef struct sample {
    const uint8_t *bytes;
    size_t size;
} sample;

static const char *folder;

static sample load(const char *name) {
    char path[4096];
    sample loaded;
    static uint8_t held[65536];
    FILE *file;
    uint8_t *at;
    if ((size_t)snprintf(path, sizeof path, "%s/%s", folder, name) >= sizeof path || (file = fopen(path, "rb")) == NULL) {
        printf("calls: cannot open %s in %s\n", name, folder);
        exit(2);
    }
    loaded.size = fread(held, 1, sizeof held, file);
    fclose(file);
    at = edge(loaded.size);
    memcpy(at, held, loaded.size);
    loaded.bytes = at;
    return loaded;
}

/* What lent numbers hold before a call. */
#define OLD UINT32_C(0xA5A5A5A5)

/* Numbers to lend, all OLD. */
static uint32_t *lend(size_t count) {
    uint32_t *numbers = (uint32_t *)(void *)edge(count * sizeof(uint32_t));
    for (size_t i = 0; i < count; i++) numbers[i] = OLD;
    return numbers;
}

/* Whether the numbers from a place on are as they were lent. */
static bool kept(const uint32_t *numbers, size_t from, size_t count) {
    for (size_t i = from; i < count; i++)
        if (numbers[i] != OLD) return false;
    return true;
}

/* A buffer to lay text into, all 0xA5. */
static uint8_t *buffer(size_t size) {
    uint8_t *bytes = edge(size);
    memset(bytes, 0xA5, size);
    return bytes;
}

static bool kept_bytes(const uint8_t *bytes, size_t from, size_t size) {
    for (size_t i = from; i < size; i++)
        if (bytes[i] != 0xA5) return false;
    return true;
}

/* A payload of zeros, one byte longer than any that is read. */
static const uint8_t *too_long(void) {
    static const uint8_t *zeros = NULL;
    if (zeros == NULL) zeros = edge(GPMF_MOST_BYTES + 1);
    return zeros;
}

/* samples/packet.raw, and its rows: 58 in room for 60. */
#define ROWS 58
#define LENT 480

static sample packet;
static uint32_t *rows;

/* ---- the reading of a payload, and its rows */

static void the_reading(void) {
    sample damaged = load("packet_damaged.raw");
    uint32_t *short_of_one = lend(ROWS * 8 - 1);
    uint32_t *forced = lend(LENT);
    uint32_t *untouched = lend(LENT);
    packet = load("packet.raw");
    rows = lend(LENT);
    CHECK(rows_are(gpmf_parse_metadata(packet.bytes, packet.size, false, rows, LENT), ROWS, 68));
    CHECK(kept(rows, ROWS * 8, LENT) && !kept(rows, ROWS * 8 - 1, LENT));

    /* 11 outermost items, 57 within them: a header for each when forced, and two for those within when not */
    CHECK(rows_are(gpmf_parse_metadata(packet.bytes, packet.size, true, forced, LENT), ROWS, 68));
    CHECK(row_is(gpmf_row_at(forced, LENT, 42), row(864, GPMF_GROUP_CALLER, 0, GPMF_TAG_DATA, MWET, shape_of('B', 3, 4), GPMF_NO_TYPE, 1)));

    CHECK(rows_refused(gpmf_parse_metadata(damaged.bytes, damaged.size, false, untouched, LENT), GPMF_PAST_END, 804));
    CHECK(kept(untouched, 0, LENT));
    CHECK(rows_refused(gpmf_parse_metadata(packet.bytes, packet.size, false, short_of_one, ROWS * 8 - 1), GPMF_NO_ROOM, 984));
    CHECK(kept(short_of_one, 0, ROWS * 8 - 1));
    CHECK(rows_refused(gpmf_parse_metadata(packet.bytes, packet.size, false, NULL, 0), GPMF_NO_ROOM, 0));
    CHECK(rows_refused(gpmf_parse_metadata(too_long(), GPMF_MOST_BYTES + 1, false, untouched, LENT), GPMF_TOO_LONG, 0));
    CHECK(rows_are(gpmf_parse_metadata(too_long(), GPMF_MOST_BYTES, false, untouched, LENT), 0, GPMF_MOST_BYTES / 8));
    CHECK(rows_are(gpmf_parse_metadata(NONE, false, untouched, LENT), 0, 0));
    CHECK(rows_are(gpmf_parse_metadata(NONE, true, NULL, 0), 0, 0));
    CHECK(kept(untouched, 0, LENT));
}

/* Document 01's cases. */
static void small_payloads(void) {
    uint32_t *numbers = lend(16);
    CHECK(rows_are(gpmf_parse_metadata(TEXT("1234567"), false, numbers, 16), 0, 0));
    CHECK(rows_refused(gpmf_parse_metadata(TEXT("ABCDB\x06\x00\x01" "12345"), false, numbers, 16), GPMF_PAST_END, 0));
    CHECK(rows_refused(gpmf_parse_metadata(TEXT("ABCD\x00\x01\x00\x04" "1234"), false, numbers, 16), GPMF_LEFT_OVER, 0));
    CHECK(rows_are(gpmf_parse_metadata(TEXT("ABCD\x00\x01\x00\x04" "1234"), true, numbers, 16), 0, 1));
    CHECK(rows_are(gpmf_parse_metadata(TEXT("GYROs\x06\x00\x00"), false, numbers, 16), 0, 1));
    CHECK(kept(numbers, 0, 16));
    CHECK(rows_are(gpmf_parse_metadata(TEXT("ABCDB\x05\x00\x01" "12345"), false, numbers, 16), 1, 1));
    CHECK(row_is(gpmf_row_at(numbers, 16, 0), row(0, 0, 0, 0, GPMF_KEY('A', 'B', 'C', 'D'), shape_of('B', 5, 1), GPMF_NO_TYPE, 0)));
    CHECK(kept(numbers, 8, 16));
}

/* Containers round one item, each of one repeat a byte, with some bytes left over in the outermost one; returns the payload's size. */
static size_t lay_nested(uint8_t containers, uint8_t left, uint8_t bytes[256]) {
    size_t size = 0;
    for (uint8_t i = 0; i < containers; i++, size += 8) {
        memcpy(bytes + size, "NEST\x00\x01\x00", 7);
        bytes[size + 7] = (uint8_t)((containers - 1 - i) * 8 + 12 + (i == 0 ? left : 0));
    }
    memcpy(bytes + size, "ABCDB\x04\x00\x01" "1234\0\0\0\0\0\0\0", 19);
    return size + 12 + left;
}

static gpmf_metadata_answer nested(uint8_t containers, uint32_t *numbers) {
    uint8_t bytes[256];
    return gpmf_parse_metadata(bytes, lay_nested(containers, 0, bytes), false, numbers, 8);
}

/* The same with three bytes left over, forced or not, and with room for so many numbers. */
static gpmf_metadata_answer left_over(uint8_t containers, bool forced, uint32_t *numbers, size_t lent) {
    uint8_t bytes[256];
    return gpmf_parse_metadata(bytes, lay_nested(containers, 3, bytes), forced, numbers, lent);
}

static void deep_payloads(void) {
    uint32_t *numbers = lend(8);
    uint32_t key = GPMF_KEY('A', 'B', 'C', 'D');
    CHECK(rows_refused(nested(17, numbers), GPMF_TOO_DEEP, 0));
    CHECK(kept(numbers, 0, 8));
    CHECK(rows_are(nested(16, numbers), 1, 17));
    CHECK(row_is(gpmf_row_at(numbers, 8, 0), row(128, 1, key, 0, key, shape_of('B', 4, 1), GPMF_NO_TYPE, 16)));
}

/* gpmf.h says that a reading takes at most 16 KB of the stack. So it is called on a stack of its own of 16 KB, the frames
 * of this program among them, with a page that may not be touched below it: 16 containers, the deepest that is accepted,
 * 17, which are refused, and 18 with bytes left over in the outermost. */
static struct {
    ucontext_t home;
    ucontext_t away;
    uint8_t bytes[256];
    size_t size;
    uint32_t numbers[8];
    gpmf_metadata_answer answer;
    bool forced;
} small;

static void on_a_small_stack(void) { small.answer = gpmf_parse_metadata(small.bytes, small.size, small.forced, small.numbers, 8); }

static gpmf_metadata_answer read_on_a_small_stack(uint8_t containers, uint8_t left, bool forced) {
    size_t page = (size_t)sysconf(_SC_PAGESIZE);
    size_t size = 16 * 1024;
    uint8_t *stack = (uint8_t *)mmap(NULL, size + page, PROT_READ | PROT_WRITE, MAP_PRIVATE | MAP_ANONYMOUS, -1, 0);
    if (stack == MAP_FAILED || mprotect(stack, page, PROT_NONE) != 0 || getcontext(&small.away) != 0) abort();
    small.size = lay_nested(containers, left, small.bytes);
    small.forced = forced;
    small.away.uc_stack.ss_sp = stack + page;
    small.away.uc_stack.ss_size = size;
    small.away.uc_link = &small.home;
    makecontext(&small.away, on_a_small_stack, 0);
    if (swapcontext(&small.home, &small.away) != 0) abort();
    munmap(stack, size + page);
    return small.answer;
}

static void small_stacks(void) {
#if !defined(__SANITIZE_ADDRESS__) /* which does not know of a stack that is made here */
    CHECK(rows_are(read_on_a_small_stack(16, 0, false), 1, 17) && rows_are(read_on_a_small_stack(16, 0, true), 1, 17));
    CHECK(rows_refused(read_on_a_small_stack(17, 0, false), GPMF_TOO_DEEP, 0) && rows_refused(read_on_a_small_stack(17, 0, true), GPMF_TOO_DEEP, 0));
    CHECK(rows_refused(read_on_a_small_stack(18, 3, false), GPMF_LEFT_OVER, 0));
#else
    (void)read_on_a_small_stack;
#endif
}

/* A refusal inside waits for the chains of all containers around it. Where the group is forced there is no chain. */
static void waiting_refusals(void) {
    uint32_t *numbers = lend(8);
    CHECK(rows_refused(left_over(18, false, numbers, 8), GPMF_LEFT_OVER, 0) && rows_refused(left_over(18, true, numbers, 8), GPMF_TOO_DEEP, 0));
    CHECK(rows_refused(left_over(2, false, numbers, 7), GPMF_LEFT_OVER, 0) && rows_refused(left_over(2, true, numbers, 7), GPMF_NO_ROOM, 0));
    CHECK(kept(numbers, 0, 8));
    CHECK(rows_are(left_over(2, true, numbers, 8), 1, 3));
}

static void the_rows(void) {
    uint32_t *numbers = lend(17);
    gpmf_row other = row(1, 2, 3, 4, 5, 6, 7, 8);
    CHECK(gpmf_room(0) == 0 && gpmf_room(7) == 0 && gpmf_room(8) == 1 && gpmf_room(17) == 2);
    CHECK(gpmf_room(32767) == 4095 && gpmf_room(32768) == 4096 && gpmf_room(32776) == 4096 && gpmf_room(SIZE_MAX) == 4096);

    CHECK(row_is(gpmf_row_at(rows, LENT, 42), row(864, GPMF_GROUP_BY_KEY, MWET, GPMF_TAG_DATA, MWET, shape_of('B', 3, 4), GPMF_NO_TYPE, 1)));
    CHECK(row_is(gpmf_row_at(rows, LENT, 34), row(700, GPMF_GROUP_BY_KEY, FACE, GPMF_TAG_OTHER, FACE, shape_of('?', 20, 1), 684, 1)));
    CHECK(row_nothing(gpmf_row_at(rows, LENT, 60)) && row_nothing(gpmf_row_at(rows, LENT, SIZE_MAX)) && row_nothing(gpmf_row_at(NONE, 0)));

    CHECK(!gpmf_put_row(numbers, 17, 2, other) && !gpmf_put_row(numbers, 17, SIZE_MAX, other) && !gpmf_put_row(NULL, 0, 0, other));
    CHECK(kept(numbers, 0, 17));
    CHECK(gpmf_put_row(numbers, 17, 1, other));
    for (uint32_t i = 0; i < 8; i++) CHECK(numbers[i] == OLD && numbers[8 + i] == i + 1);
    CHECK(numbers[16] == OLD && row_is(gpmf_row_at(numbers, 17, 1), other));
}

static void lookups(void) {
    uint32_t gpsf = GPMF_KEY('G', 'P', 'S', 'F');
    CHECK(whole_is(gpmf_lookup(rows, LENT, ROWS, 1, MWET, 1, 0), 42));
    CHECK(whole_is(gpmf_lookup(rows, LENT, ROWS, 1, AALP, 4, 0), 47));
    CHECK(whole_is(gpmf_lookup(rows, LENT, ROWS, 1, GPS5, 0, gpsf), 52));
    CHECK(whole_is(gpmf_lookup(rows, LENT, ROWS, 0, 0, 6, 0), 1));
    CHECK(whole_nothing(gpmf_lookup(rows, LENT, 42, 1, MWET, 1, 0)));
    CHECK(whole_nothing(gpmf_lookup(rows, LENT, ROWS, 1, MWET, 4, 0)));
    CHECK(whole_nothing(gpmf_lookup(rows, LENT, ROWS, 1, GPS5, 0, AALP)));
    CHECK(whole_nothing(gpmf_lookup(NONE, 0, 0, 0, 0, 0)));
    CHECK(whole_refused(gpmf_lookup(rows, LENT, 61, 1, MWET, 1, 0), GPMF_NO_ROOM, 0));
    CHECK(whole_refused(gpmf_lookup(NONE, SIZE_MAX, 1, MWET, 1, 0), GPMF_NO_ROOM, 0));
}

static void last_items(void) {
    CHECK(item_is(gpmf_last_item(packet.bytes, 212, 36), 180, klv(ACCL, 's', 6, 4)));
    CHECK(item_is(gpmf_get_last_klv(packet.bytes, packet.size), 984, klv(STRM, 0, 1, 228)));
    CHECK(item_is(gpmf_get_last_klv(TEXT("GYROs\x06\x00\x00")), 0, klv(GPMF_KEY('G', 'Y', 'R', 'O'), 's', 6, 0)));
    CHECK(item_nothing(gpmf_last_item(packet.bytes, 212, 212)) && item_nothing(gpmf_last_item(packet.bytes, 212, SIZE_MAX)));
    CHECK(item_nothing(gpmf_last_item(NONE, 0)) && item_nothing(gpmf_get_last_klv(NONE)));
    CHECK(item_refused(gpmf_last_item(packet.bytes, 215, 36), GPMF_LEFT_OVER, 212));
    CHECK(item_refused(gpmf_last_item(packet.bytes, 211, 36), GPMF_PAST_END, 180));
    CHECK(item_refused(gpmf_get_last_klv(TEXT("1234567")), GPMF_LEFT_OVER, 0));
    CHECK(item_refused(gpmf_get_last_klv(TEXT("ABCDB\x06\x00\x01" "12345")), GPMF_PAST_END, 0));
    CHECK(item_refused(gpmf_get_last_klv(too_long(), GPMF_MOST_BYTES + 1), GPMF_TOO_LONG, 0));
}

/* ---- values */

/* The element of the packet's item at a place. */
static gpmf_element_answer at(size_t place, size_t type_place, size_t line, size_t column) {
    return gpmf_element(packet.bytes, packet.size, place, type_place, line, column);
}

static void elements(void) {
    CHECK(is_unsigned(read_as(at(864, GPMF_NO_TYPE, 2, 0)), 1) && is_unsigned(read_as(at(864, GPMF_NO_TYPE, 2, 2)), 59));
    CHECK(is_signed(read_as(at(968, GPMF_NO_TYPE, 0, 0)), -35) && is_signed(read_as(at(968, GPMF_NO_TYPE, 3, 1)), -26));
    CHECK(is_single(read_as(at(296, GPMF_NO_TYPE, 0, 0)), 34.875f));
    CHECK(is_unsigned(read_as(at(700, 684, 0, 0)), 7) && is_single(read_as(at(700, 684, 0, 2)), 0.765625f));
    CHECK(is_unsigned(read_as(at(840, GPMF_NO_TYPE, 0, 13)), 't') && is_unsigned(read_as(at(1084, GPMF_NO_TYPE, 0, 0)), UINT64_C(1709251199400)));
    CHECK(is_signed(read_as(at(600, GPMF_NO_TYPE, 0, 1)), -28212));
    CHECK(is_double(read_as(gpmf_element(TEXT("ABCDd\x08\x00\x01\x3f\xf8\x00\x00\x00\x00\x00\x00"), 0, GPMF_NO_TYPE, 0, 0)), 1.5));

    CHECK(element_refused(at(864, GPMF_NO_TYPE, 4, 0), GPMF_OUTSIDE, 864) && element_refused(at(864, GPMF_NO_TYPE, 0, SIZE_MAX), GPMF_OUTSIDE, 864));
    CHECK(element_refused(at(700, GPMF_NO_TYPE, 0, 0), GPMF_OUTSIDE, 700) && element_refused(at(700, 0, 0, 0), GPMF_NO_ITEM, 700));
    CHECK(element_refused(at(1213, GPMF_NO_TYPE, 0, 0), GPMF_NO_ITEM, 1213) && element_refused(at(SIZE_MAX, GPMF_NO_TYPE, 0, 0), GPMF_NO_ITEM, SIZE_MAX));
    CHECK(element_refused(gpmf_element(NONE, 0, GPMF_NO_TYPE, 0, 0), GPMF_NO_ITEM, 0));
    CHECK(element_refused(gpmf_element(packet.bytes, 883, 864, GPMF_NO_TYPE, 0, 0), GPMF_PAST_END, 864));
    CHECK(element_refused(gpmf_element(TEXT("CORIs\x02\x00\x01" "12"), 0, GPMF_NO_TYPE, 0, 0), GPMF_TOO_FEW, 0));
    CHECK(element_refused(gpmf_element(TEXT("NAMEc\x02\x00\x02" "ab\xff" "c"), 0, GPMF_NO_TYPE, 0, 0), GPMF_UNREADABLE, 0));
    CHECK(element_refused(gpmf_element(TEXT("TYPEc\x01\x00\x06" "f[257]\x00\x00" "ABCD?\x01\x00\x01" "1"), 16, 0, 0, 0), GPMF_LONG_TYPE, 16));
    CHECK(element_refused(gpmf_element(too_long(), GPMF_MOST_BYTES + 1, 8, GPMF_NO_TYPE, 0, 0), GPMF_TOO_LONG, 0));
}

/* The shape of the packet's item at a place. */
static gpmf_shape_answer shape(size_t place, size_t type_place) { return gpmf_shape_at(packet.bytes, packet.size, place, type_place); }

static void shapes(void) {
    CHECK(shape_is(shape(0, GPMF_NO_TYPE), GPMF_VALUE_SINGLE, 1, 1));
    CHECK(shape_is(shape(956, GPMF_NO_TYPE), GPMF_VALUE_LIST, 2, 1));
    CHECK(shape_is(shape(864, GPMF_NO_TYPE), GPMF_VALUE_VECTOR, 4, 3));
    CHECK(shape_is(gpmf_shape_at(TEXT("ABCDB\x04\x00\x02" "12345678"), 0, GPMF_NO_TYPE), GPMF_VALUE_TIMED_VECTOR, 2, 4));
    CHECK(shape_is(shape(968, GPMF_NO_TYPE), GPMF_VALUE_NESTED, 4, 2));
    CHECK(shape_is(shape(840, GPMF_NO_TYPE), GPMF_VALUE_TEXT, 1, 14));
    CHECK(shape_is(shape(1120, GPMF_NO_TYPE), GPMF_VALUE_TEXTS, 5, 3));
    CHECK(shape_is(gpmf_shape_at(TEXT("ABCDG\x10\x00\x01" "0123456789abcdef"), 0, GPMF_NO_TYPE), GPMF_VALUE_IDENTIFIER, 1, 4));
    CHECK(shape_is(shape(1084, GPMF_NO_TYPE), GPMF_VALUE_DATE_TIME, 1, 1));
    CHECK(shape_is(shape(600, GPMF_NO_TYPE), GPMF_VALUE_QUATERNIONS, 3, 4));
    CHECK(shape_is(shape(700, 684), GPMF_VALUE_STRUCTURES, 1, 5));
    CHECK(shape_is(shape(700, GPMF_NO_TYPE), GPMF_VALUE_UNKNOWN, 0, 0) && shape_is(shape(28, GPMF_NO_TYPE), GPMF_VALUE_UNKNOWN, 0, 0));
    CHECK(shape_refused(shape(1220, GPMF_NO_TYPE), GPMF_NO_ITEM, 1220) && shape_refused(gpmf_shape_at(NONE, 7, GPMF_NO_TYPE), GPMF_NO_ITEM, 7));
    CHECK(shape_refused(gpmf_shape_at(packet.bytes, 883, 864, GPMF_NO_TYPE), GPMF_PAST_END, 864));

    CHECK(whole_is(gpmf_columns_at(packet.bytes, packet.size, 1120, GPMF_NO_TYPE, 2), 1));
    CHECK(whole_is(gpmf_columns_at(packet.bytes, packet.size, 1120, GPMF_NO_TYPE, 3), 3));
    CHECK(whole_refused(gpmf_columns_at(packet.bytes, packet.size, 1120, GPMF_NO_TYPE, 5), GPMF_OUTSIDE, 1120));
    CHECK(whole_refused(gpmf_columns_at(NONE, 0, GPMF_NO_TYPE, 0), GPMF_NO_ITEM, 0));
}

/* All elements of an item's value, into eight numbers that hold 9 before: how many, and whether the others still do. */
static bool all_elements_are(const uint8_t *s, size_t size, size_t at, size_t type_at, const uint64_t *expected, size_t count) {
    uint64_t numbers[8] = {9, 9, 9, 9, 9, 9, 9, 9};
    if (!whole_is(gpmf_elements_at(s, size, at, type_at, numbers, 8), count)) return false;
    for (size_t n = 0; n < 8; n++) {
        if (numbers[n] != (n < count ? expected[n] : 9)) return false;
    }
    return true;
}

/* They are refused, and none of two numbers is touched. */
static bool all_elements_refused(const uint8_t *s, size_t size, size_t at, size_t lent, uint32_t number, size_t place) {
    uint64_t numbers[2] = {9, 9};
    return whole_refused(gpmf_elements_at(s, size, at, GPMF_NO_TYPE, numbers, lent), number, place) && numbers[0] == 9 && numbers[1] == 9;
}

static void all_elements(void) {
    const uint64_t pairs[] = {1, UINT64_MAX, UINT64_MAX - 32767, 4}, structure[] = {7, 0x3fc00000}, bytes[] = {'d', 'e', 'g', 'm'};
    CHECK(all_elements_are(TEXT("ABCDs\x04\x00\x02" "\x00\x01\xff\xff\x80\x00\x00\x04"), 0, GPMF_NO_TYPE, pairs, 4));
    CHECK(all_elements_are(TEXT("TYPEc\x01\x00\x02" "Lf\x00\x00" "FACE?\x08\x00\x01" "\x00\x00\x00\x07\x3f\xc0\x00\x00"), 12, 0, structure, 2));
    CHECK(all_elements_are(TEXT("UNITc\x03\x00\x02" "degm\x00\x00"), 0, GPMF_NO_TYPE, bytes, 4));
    CHECK(all_elements_are(TEXT("ABCDw\x01\x00\x01" "1"), 0, GPMF_NO_TYPE, NULL, 0));
    CHECK(all_elements_refused(TEXT("ABCDB\x01\x00\x02" "12"), 0, 1, GPMF_NO_ROOM, 0));
    CHECK(all_elements_refused(TEXT("NAMEc\x02\x00\x02" "ab\xff" "c"), 0, 2, GPMF_UNREADABLE, 0));
    CHECK(all_elements_refused(packet.bytes, 883, 864, 2, GPMF_PAST_END, 864));
    CHECK(all_elements_refused(too_long(), GPMF_MOST_BYTES + 1, 8, 2, GPMF_TOO_LONG, 0));
    CHECK(whole_refused(gpmf_elements_at(NONE, 0, GPMF_NO_TYPE, NULL, 0), GPMF_NO_ITEM, 0));
}

/* The header, the bytes and the texts of an item, as a view of it has them. */
static void parts(void) {
    CHECK(item_is(gpmf_klv_at(packet.bytes, packet.size, 864, GPMF_NO_TYPE), 864, klv(MWET, 'B', 3, 4)));
    CHECK(item_refused(gpmf_klv_at(packet.bytes, packet.size, 700, 0), GPMF_NO_ITEM, 700));
    CHECK(item_refused(gpmf_klv_at(packet.bytes, 883, 864, GPMF_NO_TYPE), GPMF_PAST_END, 864));
    CHECK(item_refused(gpmf_klv_at(NONE, 3, GPMF_NO_TYPE), GPMF_NO_ITEM, 3));

    CHECK(part_is(gpmf_bytes_at(packet.bytes, packet.size, 864, GPMF_NO_TYPE), 872, 12));
    CHECK(part_refused(gpmf_bytes_at(packet.bytes, 883, 864, GPMF_NO_TYPE), GPMF_PAST_END, 864));
    CHECK(part_refused(gpmf_bytes_at(too_long(), GPMF_MOST_BYTES + 1, 8, GPMF_NO_TYPE), GPMF_TOO_LONG, 0));
    CHECK(part_refused(gpmf_bytes_at(NONE, SIZE_MAX, GPMF_NO_TYPE), GPMF_NO_ITEM, SIZE_MAX));

    CHECK(part_is(gpmf_text_at(packet.bytes, packet.size, 840, GPMF_NO_TYPE, 0), 848, 14));
    CHECK(memcmp(packet.bytes + 848, "Microphone Wet", 14) == 0);
    CHECK(part_is(gpmf_text_at(packet.bytes, packet.size, 1120, GPMF_NO_TYPE, 2), 1134, 1) && packet.bytes[1134] == 'm');
    CHECK(part_is(gpmf_text_at(packet.bytes, packet.size, 1120, GPMF_NO_TYPE, 4), 1140, 3) && memcmp(packet.bytes + 1140, "m/s", 3) == 0);
    CHECK(part_refused(gpmf_text_at(packet.bytes, packet.size, 1120, GPMF_NO_TYPE, 5), GPMF_OUTSIDE, 1120));
    CHECK(part_refused(gpmf_text_at(packet.bytes, packet.size, 864, GPMF_NO_TYPE, 0), GPMF_OUTSIDE, 864));
    CHECK(part_refused(gpmf_text_at(TEXT("NAMEc\x02\x00\x02" "ab\xff" "c"), 0, GPMF_NO_TYPE, 0), GPMF_UNREADABLE, 0));
    CHECK(part_refused(gpmf_text_at(NONE, 0, GPMF_NO_TYPE, 0), GPMF_NO_ITEM, 0));
}

/* ---- items */

static void items(void) {
    CHECK(gpmf_cursor_new(0).at == 0 && gpmf_cursor_new(SIZE_MAX).at == SIZE_MAX);
    CHECK(item_is(gpmf_parse_header(gpmf_cursor_new(864), packet.bytes, 884), 864, klv(MWET, 'B', 3, 4)));
    CHECK(item_is(gpmf_parse_header(gpmf_cursor_new(28), packet.bytes, packet.size), 28, klv(STRM, 0, 1, 176)));
    CHECK(item_refused(gpmf_parse_header(gpmf_cursor_new(864), packet.bytes, 883), GPMF_PAST_END, 864));
    CHECK(item_refused(gpmf_parse_header(gpmf_cursor_new(864), packet.bytes, 871), GPMF_NO_ITEM, 864));
    CHECK(item_refused(gpmf_parse_header(gpmf_cursor_new(SIZE_MAX), NONE), GPMF_NO_ITEM, SIZE_MAX));

    CHECK(gpmf_data_len(klv(MWET, 'B', 3, 3)) == 9 && gpmf_data_len(klv(0, 0, 255, 65535)) == 16711425 && gpmf_data_len(klv(0, 0, 0, 9)) == 0);
    CHECK(gpmf_aligned_data_len(klv(MWET, 'B', 3, 3)) == 12 && gpmf_aligned_data_len(klv(MWET, 'B', 3, 4)) == 12);
    CHECK(gpmf_aligned_data_len(klv(0, 0, 255, 65535)) == 16711428);

    CHECK(gpmf_is_one_text(klv(0, 'c', 1, 7)) && gpmf_is_one_text(klv(0, 'c', 7, 1)) && gpmf_is_one_text(klv(0, 'F', 4, 2)));
    CHECK(!gpmf_is_one_text(klv(0, 'c', 2, 2)) && !gpmf_is_one_text(klv(0, 'f', 4, 1)));
    CHECK(gpmf_is_type_text(klv(TYPE, 'c', 1, 5)) && !gpmf_is_type_text(klv(MWET, 'c', 1, 5)) && !gpmf_is_type_text(klv(TYPE, 'B', 1, 5)));

    CHECK(gpmf_tag_id(MWET) == GPMF_TAG_DATA && gpmf_tag_id(GPMF_KEY('U', 'N', 'I', 'T')) == GPMF_TAG_UNIT && gpmf_tag_id(SCAL) == GPMF_TAG_SCALE);
    CHECK(gpmf_tag_id(GPMF_KEY('M', 'T', 'R', 'X')) == GPMF_TAG_MATRIX && gpmf_tag_id(GPMF_KEY('S', 'T', 'M', 'P')) == GPMF_TAG_TIMESTAMP_US);
    CHECK(gpmf_tag_id(GPMF_KEY('S', 'T', 'N', 'M')) == GPMF_TAG_NAME && gpmf_tag_id(GPMF_KEY('T', 'M', 'P', 'C')) == GPMF_TAG_TMPC);
    CHECK(gpmf_tag_id(GPMF_KEY('T', 'S', 'M', 'P')) == GPMF_TAG_TSMP && gpmf_tag_id(GPMF_KEY('O', 'R', 'I', 'N')) == GPMF_TAG_ORIN);
    CHECK(gpmf_tag_id(GPMF_KEY('O', 'R', 'I', 'O')) == GPMF_TAG_ORIO && gpmf_tag_id(STRM) == GPMF_TAG_OTHER);
    CHECK(gpmf_group_from_key(MWET).number == 10 && gpmf_group_from_key(MWET).key == MWET);
    CHECK(gpmf_group_from_key(FACE).number == 0 && gpmf_group_from_key(FACE).key == FACE);
    CHECK(gpmf_big_endian(TEXT("MWET")) == MWET && gpmf_big_endian(TEXT("\x01\x02")) == 258 && gpmf_big_endian(NONE) == 0);
    CHECK(gpmf_big_endian(TEXT("\xff\xff\xff\xff\xff\xff\xff\xfe\x01")) == UINT64_C(0xfffffffffffffffe));
}

/* ---- numbers */

#define BYTES "\xff\xfe\xfd\xfc\xfb\xfa\xf9\xf8"

static void numbers_at_places(void) {
    CHECK(is_signed(gpmf_element_at(TEXT(BYTES), 0, 'b'), -1) && is_unsigned(gpmf_element_at(TEXT(BYTES), 1, 'B'), 254));
    CHECK(is_signed(gpmf_element_at(TEXT(BYTES), 0, 's'), -2) && is_unsigned(gpmf_element_at(TEXT(BYTES), 1, 'S'), 0xfefd));
    CHECK(is_signed(gpmf_element_at(TEXT(BYTES), 0, 'l'), -66052) && is_unsigned(gpmf_element_at(TEXT(BYTES), 1, 'L'), 0xfefdfcfb));
    CHECK(is_signed(gpmf_element_at(TEXT(BYTES), 0, 'j'), -INT64_C(0x0001020304050608)));
    CHECK(is_unsigned(gpmf_element_at(TEXT(BYTES), 0, 'J'), UINT64_C(0xfffefdfcfbfaf9f8)));
    CHECK(is_single(gpmf_element_at(TEXT("\x3f\xc0\x00\x00"), 0, 'f'), 1.5f));
    CHECK(is_double(gpmf_element_at(TEXT("\x3f\xf8\x00\x00\x00\x00\x00\x00"), 0, 'd'), 1.5));
    CHECK(is_single(gpmf_element_at(TEXT("\xff\xff\x40\x00"), 0, 'q'), -0.75f));
    CHECK(is_double(gpmf_element_at(TEXT("\x00\x00\x00\x00\xff\xff\xff\xff"), 0, 'Q'), 1.0));
    CHECK(is_unsigned(gpmf_element_at(TEXT(BYTES), 5, 'L'), 0) && is_unsigned(gpmf_element_at(TEXT(BYTES), SIZE_MAX, 'b'), 0));
    CHECK(is_unsigned(gpmf_element_at(TEXT(BYTES), 0, '?'), 0) && is_unsigned(gpmf_element_at(NONE, 0, 'B'), 0));

    CHECK(gpmf_exact_at(TEXT("\xff\xff\xff\xff\x00\x00\x00\x05"), 0).numerator == INT64_C(-4294967290));
    CHECK(gpmf_exact_at(TEXT("\xff\xff\xff\xff\x00\x00\x00\x05"), 0).denominator == 4294967295);
    CHECK(gpmf_exact_at(TEXT(BYTES), 1).numerator == 0 && gpmf_exact_at(NONE, SIZE_MAX).denominator == 4294967295);
}

static void numbers(void) {
    CHECK(gpmf_q15_16(1, 32768) == 1.5f && gpmf_q15_16(-1, 16384) == -0.75f && gpmf_q15_16(-32768, 0) == -32768.0f);
    CHECK(gpmf_q31_32(0, 4294967295) == 1.0 && gpmf_q31_32(-3, 0) == -3.0 && gpmf_q31_32(2, 1431655765) == 2.0 + 1431655765.0 / 4294967295.0);
    CHECK(gpmf_q31_32_exact(2, 7).numerator == INT64_C(8589934597) && gpmf_q31_32_exact(2, 7).denominator == 4294967295);
    CHECK(gpmf_q31_32_exact(INT32_MIN, 0).numerator == INT64_C(-2147483648) * 4294967295);
    CHECK(gpmf_width('b') == 1 && gpmf_width('S') == 2 && gpmf_width('q') == 4 && gpmf_width('Q') == 8 && gpmf_width('c') == 0 && gpmf_width(0) == 0);
    CHECK(gpmf_single_bits(1.5f) == 0x3fc00000 && gpmf_single_bits(-0.0f) == 0x80000000);
    CHECK(gpmf_single_bits(NAN) == 0x7fc00000 && gpmf_single_bits(-NAN) == 0x7fc00000);
    CHECK(gpmf_double_bits(1.5) == UINT64_C(0x3ff8000000000000) && gpmf_double_bits(-INFINITY) == UINT64_C(0xfff0000000000000));
    CHECK(gpmf_double_bits((double)NAN) == UINT64_C(0x7ff8000000000000) && gpmf_double_bits((double)-NAN) == UINT64_C(0x7ff8000000000000));
}

/* ---- texts and dates */

static void types(void) {
    uint8_t *out = buffer(256);
    CHECK(whole_refused(gpmf_resolve_custom_type(TEXT("f[257]"), out), GPMF_LONG_TYPE, 0));
    CHECK(whole_is(gpmf_resolve_custom_type(NONE, out), 0));
    CHECK(kept_bytes(out, 0, 256));
    CHECK(whole_is(gpmf_resolve_custom_type(TEXT("Lf[4]"), out), 5));
    CHECK(memcmp(out, "Lffff", 5) == 0 && kept_bytes(out, 5, 256));
    CHECK(whole_is(gpmf_resolve_custom_type(TEXT("S[256]"), out), 256));
    CHECK(out[0] == 'S' && out[255] == 'S');
}

static void texts(void) {
    CHECK(gpmf_latin1_len(TEXT("ab\0c\0\0")) == 4 && gpmf_latin1_len(TEXT("\0\0")) == 0 && gpmf_latin1_len(NONE) == 0);
    CHECK(gpmf_utf8_len(TEXT("ab\0c\0\0")) == 2 && gpmf_utf8_len(TEXT("abc")) == 3 && gpmf_utf8_len(NONE) == 0);
    CHECK(gpmf_is_utf8(TEXT("m/s\xc2\xb2")) && gpmf_is_utf8(NONE));
    CHECK(!gpmf_is_utf8(TEXT("m/s\xb2")) && !gpmf_is_utf8(TEXT("\xed\xa0\x80")) && !gpmf_is_utf8(TEXT("\xc3")));
    CHECK(gpmf_are_utf8(TEXT("a\0\xff" "b"), 4) && !gpmf_are_utf8(TEXT("a\0\xff" "b"), 2) && !gpmf_are_utf8(TEXT("\xff"), 0) && gpmf_are_utf8(NONE, 2));
    CHECK(whole_is(gpmf_parse_utcdate(TEXT("240229120000.000")), UINT64_C(1709208000000)));
    CHECK(whole_is(gpmf_parse_utcdate(TEXT("230229120000.000")), 0));
    CHECK(whole_refused(gpmf_parse_utcdate(TEXT("240229120000.00")), GPMF_TOO_FEW, 0) && whole_refused(gpmf_parse_utcdate(NONE), GPMF_TOO_FEW, 0));
    CHECK(whole_refused(gpmf_parse_utcdate(TEXT("24022912000x.000")), GPMF_UNREADABLE, 0));
}

/* ---- what the rows of a group lead to */

static void group_items(void) {
    CHECK(item_is(gpmf_tagged_item(packet.bytes, packet.size, rows, LENT, ROWS, 1, MWET, 1, 0), 864, klv(MWET, 'B', 3, 4)));
    CHECK(item_is(gpmf_tagged_item(packet.bytes, packet.size, rows, LENT, ROWS, 1, FACE, 0, FACE), 700, klv(FACE, '?', 20, 1)));
    CHECK(item_nothing(gpmf_tagged_item(packet.bytes, packet.size, rows, LENT, ROWS, 1, MWET, 4, 0)));
    CHECK(item_nothing(gpmf_tagged_item(NONE, NONE, 0, 1, MWET, 1, 0)));
    CHECK(item_refused(gpmf_tagged_item(NONE, rows, LENT, ROWS, 1, MWET, 1, 0), GPMF_NO_ITEM, 864));
    CHECK(item_refused(gpmf_tagged_item(packet.bytes, 875, rows, LENT, ROWS, 1, MWET, 1, 0), GPMF_PAST_END, 864));
    CHECK(item_refused(gpmf_tagged_item(packet.bytes, packet.size, rows, LENT, 61, 1, MWET, 1, 0), GPMF_NO_ROOM, 0));
    CHECK(item_refused(gpmf_tagged_item(too_long(), GPMF_MOST_BYTES + 1, NONE, 9, 1, MWET, 1, 0), GPMF_TOO_LONG, 0));

    CHECK(gpmf_is_one_number(klv(SCAL, 's', 2, 1), 's') && gpmf_is_one_number(klv(SCAL, 's', 3, 1), 's'));
    CHECK(!gpmf_is_one_number(klv(SCAL, 's', 2, 2), 's') && !gpmf_is_one_number(klv(SCAL, 's', 4, 1), 's') && !gpmf_is_one_number(klv(SCAL, 's', 2, 1), 'S'));
    CHECK(!gpmf_is_one_number(klv(SCAL, 'c', 1, 1), 'c'));

    CHECK(whole_is(gpmf_stamp_us(packet.bytes, packet.size, rows, LENT, ROWS, 1, MWET), 1001518));
    CHECK(whole_nothing(gpmf_stamp_us(packet.bytes, packet.size, rows, LENT, ROWS, 0, 0)) && whole_nothing(gpmf_stamp_us(NONE, NONE, 0, 1, MWET)));
    CHECK(whole_refused(gpmf_stamp_us(packet.bytes, 816, rows, LENT, ROWS, 1, MWET), GPMF_NO_ITEM, 812));
    CHECK(whole_refused(gpmf_stamp_us(packet.bytes, packet.size, rows, LENT, SIZE_MAX, 1, MWET), GPMF_NO_ROOM, 0));
}

static void group_quaternions(void) {
    gpmf_quaternion_answer first = gpmf_scaled_quaternion(packet.bytes, packet.size, rows, LENT, ROWS, 1, CORI, 0);
    gpmf_quaternion_answer outside = gpmf_scaled_quaternion(packet.bytes, packet.size, rows, LENT, ROWS, 1, CORI, 3);
    gpmf_quaternion_answer nothing = gpmf_scaled_quaternion(packet.bytes, packet.size, rows, LENT, ROWS, 1, ACCL, 0);
    gpmf_quaternion_answer empty = gpmf_scaled_quaternion(NONE, NONE, 0, 1, CORI, 0);
    CHECK(first.kind == GPMF_IS && first.number == 0 && first.place == 0);
    CHECK(quaternion_is(first.quaternion, -10196 / 32767.0, 28212 / 32767.0, -22306 / 32767.0, 1794 / 32767.0));
    CHECK(outside.kind == GPMF_REFUSED && outside.number == GPMF_OUTSIDE && outside.place == 600 && quaternion_is(outside.quaternion, 0, 0, 0, 0));
    CHECK(nothing.kind == GPMF_NOTHING && nothing.number == 0 && nothing.place == 0 && quaternion_is(nothing.quaternion, 0, 0, 0, 0));
    CHECK(empty.kind == GPMF_NOTHING);
    CHECK(quaternion_is(gpmf_scaled(1, -32768, 3, -4, 2.0), 0.5, -16384.0, 1.5, -2.0) && gpmf_scaled(1, 0, 0, 0, 0.0).w == (double)INFINITY);
    CHECK(gpmf_negated(5) == -5 && gpmf_negated(-32768) == -32768 && gpmf_negated(32767) == -32767);
}

static void group_axes(void) {
    CHECK(axes_are(gpmf_orientation_of_group(packet.bytes, packet.size, rows, LENT, ROWS, 1, ACCL), axes('Z', 'y', 'X')));
    CHECK(axes_nothing(gpmf_orientation_of_group(packet.bytes, packet.size, rows, LENT, ROWS, 1, MWET)));
    CHECK(axes_nothing(gpmf_orientation_of_group(NONE, NONE, 0, 1, ACCL)));
    CHECK(axes_refused(gpmf_orientation_of_group(packet.bytes, packet.size, rows, LENT, 61, 1, ACCL), GPMF_NO_ROOM));
    CHECK(axes_refused(gpmf_orientation_of_group(too_long(), GPMF_MOST_BYTES + 1, rows, LENT, 61, 1, ACCL), GPMF_TOO_LONG));
}

/* An item in front of those that are asked for, so that their place is not 0. */
#define FIRST "DVIDL\x04\x00\x01\x00\x00\x00\x01"

/* What a payload's own rows lead to, for the caller's group: of at most three items. */
static gpmf_whole_answer stamp_of(const uint8_t *s, size_t size) {
    uint32_t *numbers = lend(24);
    size_t count = gpmf_parse_metadata(s, size, false, numbers, 24).rows;
    return gpmf_stamp_us(s, size, numbers, 24, count, GPMF_GROUP_CALLER, 0);
}
static gpmf_quaternion_answer quaternion_of(const uint8_t *s, size_t size) {
    uint32_t *numbers = lend(24);
    size_t count = gpmf_parse_metadata(s, size, false, numbers, 24).rows;
    return gpmf_scaled_quaternion(s, size, numbers, 24, count, GPMF_GROUP_CALLER, 0, 0);
}
/* The same where the payload's last bytes are missing after its rows are written. */
static gpmf_axes_answer axes_without(const uint8_t *s, size_t size, size_t missing) {
    uint32_t *numbers = lend(24);
    size_t count = gpmf_parse_metadata(s, size, false, numbers, 24).rows;
    return gpmf_orientation_of_group(s, size - missing, numbers, 24, count, GPMF_GROUP_CALLER, 0);
}
static gpmf_axes_answer axes_of(const uint8_t *s, size_t size) {
    return axes_without(s, size, 0);
}

/* What is refused of an item has the place of its row, and what is refused of axes has none. */
static void group_refusals(void) {
    gpmf_quaternion_answer few = quaternion_of(TEXT(FIRST "CORIs\x02\x00\x01" "12\x00\x00"));
    gpmf_axes_answer past = axes_without(TEXT(FIRST "MTRXf\x08\x00\x01" "12345678"), 1);
    CHECK(whole_is(stamp_of(TEXT(FIRST "STMPU\x10\x00\x01" "240229120000.000")), UINT64_C(1709208000000)));
    CHECK(whole_refused(stamp_of(TEXT(FIRST "STMPU\x10\x00\x01" "24022912000x.000")), GPMF_UNREADABLE, 12));
    CHECK(whole_refused(stamp_of(TEXT(FIRST "STMPU\x08\x00\x01" "24022912")), GPMF_TOO_FEW, 12));
    CHECK(whole_is(stamp_of(TEXT(FIRST "STMPJ\x01\x00\x01" "1\x00\x00\x00" "TICKL\x04\x00\x01\x00\x00\x00\x05")), 5000));
    CHECK(whole_nothing(stamp_of(TEXT(FIRST "TICKL\x04\x00\x02\x00\x00\x00\x05\x00\x00\x00\x06"))));
    CHECK(few.kind == GPMF_REFUSED && few.number == GPMF_TOO_FEW && few.place == 12 && quaternion_is(few.quaternion, 0, 0, 0, 0));
    CHECK(past.kind == GPMF_REFUSED && past.number == GPMF_PAST_END && past.place == 12 && same_axes(past.axes, axes(0, 0, 0)));
    CHECK(axes_nothing(axes_of(TEXT(FIRST "ORINc\x02\x00\x02" "ab\xff" "c" "ORIOc\x01\x00\x03" "XYZ\x00"))));
    CHECK(axes_refused(axes_of(TEXT(FIRST "ORINc\x01\x00\x04" "XYZA" "ORIOc\x01\x00\x03" "XYZ\x00")), GPMF_BAD_AXES));
    CHECK(axes_refused(axes_of(TEXT(FIRST "MTRXf\x08\x00\x01" "12345678")), GPMF_BAD_MATRIX));
    CHECK(axes_nothing(axes_of(TEXT(FIRST "MTRXf\x0c\x00\x01" "123456789abc"))) && axes_nothing(axes_of(TEXT(FIRST "ORINc\x01\x00\x03" "XYZ\x00"))));
}

static void averages(void) {
    const uint32_t counts[3] = {10, 10, 10};
    const uint32_t none[3] = {0, 0, 0};
    const uint32_t too_many[3] = {10, 65536, 10};
    const uint8_t yes[3] = {1, 1, 1};
    const uint8_t no[3] = {0, 0, 0};
    const uint8_t second[3] = {0, 1, 0};
    const uint64_t stamps[3] = {0, 500000, 2000000};
    const uint64_t late[3] = {0, 500000, UINT64_C(1) << 42};
    const double durations[3] = {1000, 1000, 500};
    const double endless[3] = {1000, (double)INFINITY, 500};
    CHECK(real_is(gpmf_get_avg_sample_duration(counts, 3, yes, 3, stamps, 3, durations, 3, no, 3), 100.0));
    CHECK(real_is(gpmf_get_avg_sample_duration(counts, 3, yes, 3, stamps, 3, durations, 3, second, 3), 150.0));
    CHECK(real_is(gpmf_get_avg_sample_duration(counts, 3, no, 3, stamps, 3, durations, 3, no, 3), 2500.0 / 30));
    CHECK(real_is(gpmf_get_avg_sample_duration(counts, 3, yes, 3, stamps, 2, durations, 3, no, 3), 50.0));
    CHECK(real_nothing(gpmf_get_avg_sample_duration(none, 3, yes, 3, stamps, 3, durations, 3, no, 3)));
    CHECK(real_nothing(gpmf_get_avg_sample_duration(NONE, NONE, NONE, NONE, NONE)));
    CHECK(real_refused(gpmf_get_avg_sample_duration(too_many, 3, yes, 3, stamps, 3, durations, 3, no, 3), GPMF_BAD_DURATIONS));
    CHECK(real_refused(gpmf_get_avg_sample_duration(counts, 3, yes, 3, late, 3, durations, 3, no, 3), GPMF_BAD_DURATIONS));
    CHECK(real_refused(gpmf_get_avg_sample_duration(counts, 3, yes, 3, stamps, 3, endless, 3, no, 3), GPMF_BAD_DURATIONS));
}

/* ---- axes */

static void orientations(void) {
    gpmf_orientations_answer are = gpmf_orientations_of(TEXT("YxZ"), TEXT("XYZ"));
    gpmf_orientations_answer two = gpmf_orientations_of(TEXT("Yx"), TEXT("XYZ"));
    gpmf_orientations_answer empty = gpmf_orientations_of(NONE, NONE);
    gpmf_matrix matrix = gpmf_orientations_to_matrix(axes('Y', 'x', 'Z'), axes('X', 'Y', 'Z'));
    const float expected[9] = {0, -1, 0, 1, 0, 0, 0, 0, 1};
    CHECK(are.kind == GPMF_IS && are.number == 0 && are.place == 0 && same_axes(are.orin, axes('Y', 'x', 'Z')) && same_axes(are.orio, axes('X', 'Y', 'Z')));
    CHECK(two.kind == GPMF_REFUSED && two.number == GPMF_BAD_AXES && two.place == 0 && same_axes(two.orin, axes(0, 0, 0)) && same_axes(two.orio, axes(0, 0, 0)));
    CHECK(empty.kind == GPMF_REFUSED && empty.number == GPMF_BAD_AXES);
    for (int i = 0; i < 9; i++) CHECK(matrix.entries[i] == expected[i]);
    CHECK(axes_are(gpmf_matrix_to_orientation(matrix), axes('y', 'X', 'Z')));
    matrix.entries[8] = 0.5f;
    CHECK(axes_refused(gpmf_matrix_to_orientation(matrix), GPMF_BAD_MATRIX));
    CHECK(axes_are(gpmf_mtrx_to_orientation(expected, 9), axes('y', 'X', 'Z')));
    CHECK(axes_refused(gpmf_mtrx_to_orientation(expected, 8), GPMF_BAD_MATRIX) && axes_refused(gpmf_mtrx_to_orientation(NONE), GPMF_BAD_MATRIX));
}

/* ---- packets of a raw file */

static void cuts(void) {
    sample take = load("take.raw");
    gpmf_packets from = gpmf_packets_new(0);
    gpmf_packets behind = gpmf_packets_new(SIZE_MAX);
    CHECK(from.at == 0 && behind.at == SIZE_MAX);
    CHECK(whole_is(gpmf_find_devc(take.bytes, take.size, 0), 0) && whole_is(gpmf_find_devc(take.bytes, take.size, 1), 1220));
    CHECK(whole_nothing(gpmf_find_devc(take.bytes, take.size, 4925)) && whole_nothing(gpmf_find_devc(take.bytes, take.size, SIZE_MAX)));
    CHECK(whole_nothing(gpmf_find_devc(NONE, 0)));

    CHECK(packet_is(gpmf_packets_next(from, take.bytes, take.size), 8, 1220, 1220));
    CHECK(packet_is(gpmf_packets_next(gpmf_packets_new(1220), take.bytes, take.size), 1228, 2448, 2448));
    CHECK(packet_is(gpmf_packets_next(gpmf_packets_new(4924), take.bytes, take.size), 4932, 6160, 6160));
    CHECK(packet_none(gpmf_packets_next(gpmf_packets_new(6160), take.bytes, take.size), GPMF_NOTHING, 0));
    CHECK(packet_none(gpmf_packets_next(behind, take.bytes, take.size), GPMF_NOTHING, 0) && packet_none(gpmf_packets_next(from, NONE), GPMF_NOTHING, 0));

    CHECK(packet_none(gpmf_packets_next_in(from, take.bytes, 1220, true), GPMF_MORE, 0));
    CHECK(packet_is(gpmf_packets_next_in(from, take.bytes, 1224, true), 8, 1220, 1220));
    CHECK(packet_none(gpmf_packets_next_in(gpmf_packets_new(1220), take.bytes, 1300, true), GPMF_MORE, 1220));
    CHECK(packet_is(gpmf_packets_next_in(gpmf_packets_new(1220), take.bytes, 1300, false), 1228, 1300, 1300));
    CHECK(packet_none(gpmf_packets_next_in(from, NONE, true), GPMF_MORE, 0) && packet_none(gpmf_packets_next_in(from, NONE, false), GPMF_NOTHING, 0));
}

static void readings_of_packets(void) {
    sample damaged = load("damaged.raw");
    uint32_t *numbers = lend(LENT);
    gpmf_packet_metadata_answer a = gpmf_next_metadata(gpmf_packets_new(1220), damaged.bytes, damaged.size, false, numbers, LENT);
    CHECK(packet_read(a, 1228, 2430, 2430) && rows_refused(a.metadata, GPMF_PAST_END, 984) && kept(numbers, 0, LENT));
    CHECK(packet_not_read(gpmf_next_metadata(gpmf_packets_new(damaged.size), damaged.bytes, damaged.size, false, numbers, LENT), GPMF_NOTHING, 0, 0, 0, 0));
    CHECK(packet_not_read(gpmf_next_metadata(gpmf_packets_new(0), NONE, true, NULL, 0), GPMF_NOTHING, 0, 0, 0, 0));
    CHECK(kept(numbers, 0, LENT));
    a = gpmf_next_metadata(gpmf_packets_new(0), damaged.bytes, damaged.size, false, numbers, LENT);
    CHECK(packet_read(a, 8, 1220, 1220) && rows_are(a.metadata, 57, 68));
    CHECK(row_is(gpmf_row_at(numbers, LENT, 41), row(856, 1, MWET, 1, MWET, shape_of('B', 3, 4), GPMF_NO_TYPE, 1)) && kept(numbers, 57 * 8, LENT));
}

static void readings_in_windows(void) {
    sample damaged = load("damaged.raw");
    size_t size = 8 + (size_t)GPMF_MOST_BYTES + 4;
    uint8_t *window = edge(size);
    uint32_t *numbers = lend(LENT);
    gpmf_packets from = gpmf_packets_new(0);
    gpmf_packet_metadata_answer a = gpmf_next_metadata_in(gpmf_packets_new(1220), damaged.bytes, damaged.size, true, false, numbers, LENT);
    memcpy(window, "DEVC", 4);
    CHECK(packet_read(a, 1228, 2430, 2430) && rows_refused(a.metadata, GPMF_PAST_END, 984));
    CHECK(packet_not_read(gpmf_next_metadata_in(from, damaged.bytes, 1000, true, false, numbers, LENT), GPMF_MORE, 0, 0, 0, 0));
    CHECK(packet_not_read(gpmf_next_metadata_in(from, window, size, true, false, numbers, LENT), GPMF_REFUSED, GPMF_TOO_LONG, 0, 8, 1));
    CHECK(packet_not_read(gpmf_next_metadata_in(from, window, size - 1, true, false, numbers, LENT), GPMF_MORE, 0, 0, 0, 0));
    CHECK(packet_not_read(gpmf_next_metadata_in(from, NONE, false, false, NULL, 0), GPMF_NOTHING, 0, 0, 0, 0));
    CHECK(kept(numbers, 0, LENT));
    a = gpmf_next_metadata_in(from, damaged.bytes, 1224, true, true, numbers, LENT);
    CHECK(packet_read(a, 8, 1220, 1220) && rows_are(a.metadata, 57, 68) && !kept(numbers, 57 * 8 - 1, LENT) && kept(numbers, 57 * 8, LENT));
}

/* ---- printing */

static bool lies(const uint8_t *out, size_t from, const char *text) { return memcmp(out + from, text, strlen(text)) == 0; }

static void small_prints(void) {
    uint8_t *out = buffer(32);
    CHECK(gpmf_put(out, 32, 30, 'x') == 31 && lies(out, 30, "x\xa5"));
    CHECK(gpmf_put(out, 32, 32, 'y') == GPMF_FULL && gpmf_put(out, 32, GPMF_FULL, 'y') == GPMF_FULL && gpmf_put(NONE, 0, 'y') == GPMF_FULL);
    CHECK(gpmf_put_bytes(out, 32, 0, TEXT("abc")) == 3 && lies(out, 0, "abc\xa5"));
    CHECK(gpmf_put_bytes(out, 32, 31, TEXT("de")) == GPMF_FULL && kept_bytes(out, 31, 32));
    CHECK(gpmf_put_bytes(out, 32, 32, NONE) == 32 && gpmf_put_bytes(NONE, 0, NONE) == 0);
    CHECK(gpmf_put_decimal(out, 32, 3, UINT64_MAX) == 23 && lies(out, 0, "abc18446744073709551615\xa5"));
    CHECK(gpmf_put_decimal(out, 32, 23, 0) == 24 && lies(out, 23, "0\xa5") && gpmf_put_decimal(NONE, 0, 0) == GPMF_FULL);
    CHECK(gpmf_put_hex(out, 32, 0, MWET, 8) == 8 && lies(out, 0, "4d574554") && gpmf_put_hex(out, 32, 0, MWET, 3) == 3 && lies(out, 0, "55474554"));
    CHECK(gpmf_put_hex(NONE, 0, 1, 0) == 0 && gpmf_put_hex(NONE, 0, 1, 1) == GPMF_FULL);
    CHECK(gpmf_put_signed(out, 32, 0, INT64_MIN) == 20 && lies(out, 0, "-9223372036854775808"));
    CHECK(gpmf_put_signed(out, 32, 31, -1) == GPMF_FULL && kept_bytes(out, 31, 32) && gpmf_put_signed(NONE, 0, 0) == GPMF_FULL);
}

static void listings(void) {
    sample damaged = load("packet_damaged.raw");
    sample listing = load("packet.list");
    uint8_t *out = buffer(4096);
    uint32_t *numbers = lend(LENT);
    CHECK(gpmf_list(damaged.bytes, damaged.size, numbers, LENT, out, 4096, 5) == 22 && lies(out, 5, "refused 2 at 804\n\xa5"));
    CHECK(kept(numbers, 0, LENT) && gpmf_list(NONE, NULL, 0, NULL, 0, 0) == GPMF_FULL);
    CHECK(gpmf_list(packet.bytes, packet.size, numbers, LENT, out, 4096, 0) == listing.size && memcmp(out, listing.bytes, listing.size) == 0);
    CHECK(memcmp(numbers, rows, LENT * sizeof *rows) == 0 && kept_bytes(out, listing.size, 4096));
    memset(out, 0xA5, 4096);
    CHECK(gpmf_list(packet.bytes, packet.size, numbers, LENT, out, listing.size - 1, 0) == GPMF_FULL);
    CHECK(lies(out, 0, "rows 58 headers 68\n0 - DVID") && lies(out, listing.size - 51, "1144 GPS5 SCAL 108 4 5 1\n") && kept_bytes(out, listing.size - 26, 4096));
}

static void lines(void) {
    uint8_t *out = buffer(64);
    gpmf_metadata_answer answer = gpmf_parse_metadata(packet.bytes, packet.size, false, rows, LENT);
    CHECK(gpmf_put_answer(out, 64, 0, answer) == 19 && lies(out, 0, "rows 58 headers 68\n\xa5"));
    answer = gpmf_parse_metadata(TEXT("ABCDB\x06\x00\x01"), false, NULL, 0);
    CHECK(gpmf_put_answer(out, 64, 19, answer) == 34 && lies(out, 19, "refused 2 at 0\n\xa5"));
    CHECK(gpmf_put_answer(out, 64, 50, answer) == GPMF_FULL && kept_bytes(out, 50, 64) && gpmf_put_answer(NONE, 0, answer) == GPMF_FULL);
    CHECK(gpmf_put_rows(out, 64, 1, rows, LENT, 2) == 38 && lies(out, 1, "0 - DVID 76 4 1 0\n12 - DVNM 99 1 6 0\n\xa5"));
    CHECK(gpmf_put_rows(out, 64, 40, NONE, 5) == 55 && lies(out, 40, "refused 5 at 0\n\xa5") && gpmf_put_rows(out, 64, 60, NONE, 0) == 60);
    CHECK(gpmf_put_rows(NONE, 0, NONE, 0) == 0 && gpmf_put_rows(NONE, 0, NONE, 1) == GPMF_FULL && gpmf_put_rows(NONE, 0, rows, LENT, 1) == GPMF_FULL);
    CHECK(gpmf_put_totals(out, 64, 0, 5, 2, 3) == 27 && lies(out, 0, "packets 5 read 2 refused 3\n"));
    memset(out, 0xA5, 64);
    CHECK(gpmf_put_totals(out, 10, 0, 5, 2, 3) == GPMF_FULL && lies(out, 0, "packets 5\xa5") && gpmf_put_totals(NONE, 0, 5, 2, 3) == GPMF_FULL);
}

/* A take as the program prints it, beside what is stored. */
static void takes(const char *printed, bool whole) {
    sample file = load("damaged.raw");
    sample expected = load(printed);
    uint8_t *out = buffer(8192);
    uint32_t *numbers = lend(LENT);
    uint64_t packets = 0;
    uint64_t read = 0;
    size_t place = 0;
    gpmf_packet_answer next = gpmf_packets_next(gpmf_packets_new(0), file.bytes, file.size);
    for (; next.kind == GPMF_IS; next = gpmf_packets_next(next.rest, file.bytes, file.size)) {
        size_t size = next.packet.end - next.packet.start;
        gpmf_taken taken = gpmf_put_packet(file.bytes + next.packet.start, size, ++packets, next.packet.start, whole, numbers, LENT, out, 8192, place);
        read += taken.accepted ? 1 : 0;
        place = taken.end;
    }
    place = gpmf_put_totals(out, 8192, place, packets, read, packets - read);
    CHECK(packets == 5 && read == 2 && place == expected.size && memcmp(out, expected.bytes, expected.size) == 0 && kept_bytes(out, place, 8192));
}

static void packets_laid(void) {
    static const char expected[] = "packet 3 at 100 bytes 2000000\nrefused 1 at 0\nfront rows 0 headers 0\n";
    uint8_t *out = buffer(128);
    uint32_t *numbers = lend(8);
    gpmf_taken left_out = gpmf_put_packet(TEXT("ABCDB\x06\x00\x01"), 1, 8, true, numbers, 8, out, 128, 7);
    gpmf_taken full = gpmf_put_packet(NONE, 1, 8, false, NULL, 0, NULL, 0, 0);
    CHECK(left_out.end == 7 && !left_out.accepted && kept(numbers, 0, 8) && kept_bytes(out, 0, 128));
    CHECK(full.end == GPMF_FULL && full.accepted);
    full = gpmf_put_packet(TEXT("ABCDB\x01\x00\x01" "1\0\0\0" "ABCDB\x06\x00\x01"), 1, 8, false, numbers, 8, NULL, 0, 0);
    CHECK(full.end == GPMF_FULL && !full.accepted && row_is(gpmf_row_at(numbers, 8, 0), row(0, 0, 0, 0, GPMF_KEY('A', 'B', 'C', 'D'), shape_of('B', 1, 1), GPMF_NO_TYPE, 0)));
    CHECK(gpmf_put_long_packet(3, 100, 2000000, true, out, 128, 9) == 9 && kept_bytes(out, 0, 128));
    CHECK(gpmf_put_long_packet(3, 100, 2000000, false, out, 128, 0) == sizeof expected - 1 && lies(out, 0, expected));
    CHECK(gpmf_put_long_packet(3, 100, 2000000, false, NULL, 0, 0) == GPMF_FULL);
    takes("damaged.take", false);
    takes("damaged.whole", true);
}

/* ---- what is read out of a line */

static void line_parts(void) {
    uint8_t *out = buffer(4);
    CHECK(gpmf_pieces(TEXT("a bc d"), ' ') == 3 && gpmf_pieces(TEXT("a "), ' ') == 2 && gpmf_pieces(NONE, ' ') == 1);
    CHECK(whole_is(gpmf_decimal_number(TEXT("18446744073709551615")), UINT64_MAX) && whole_nothing(gpmf_decimal_number(TEXT("18446744073709551616"))));
    CHECK(whole_nothing(gpmf_decimal_number(TEXT("1a"))) && whole_nothing(gpmf_decimal_number(NONE)));
    CHECK(whole_is(gpmf_hex_number(TEXT("4d574554")), MWET) && whole_nothing(gpmf_hex_number(TEXT("4D"))) && whole_nothing(gpmf_hex_number(NONE)));
    CHECK(whole_nothing(gpmf_unhex(TEXT("0"), out, 4)) && whole_nothing(gpmf_unhex(TEXT("0g"), out, 4)) && whole_more(gpmf_unhex(TEXT("0011223344"), out, 4)));
    CHECK(kept_bytes(out, 0, 4) && whole_is(gpmf_unhex(NONE, NONE), 0));
    CHECK(whole_is(gpmf_unhex(TEXT("00ff10"), out, 4), 3) && memcmp(out, "\x00\xff\x10\xa5", 4) == 0);
}

int main(int count, char **words) {
    if (count != 2) {
        puts("usage: calls SAMPLES");
        return 2;
    }
    folder = words[1];
    the_reading();
    small_payloads();
    deep_payloads();
    waiting_refusals();
    small_stacks();
    the_rows();
    lookups();
    last_items();
    elements();
    shapes();
    all_elements();
    parts();
    items();
    numbers_at_places();
    numbers();
    types();
    texts();
    group_items();
    group_quaternions();
    group_axes();
    group_refusals();
    averages();
    orientations();
    cuts();
    readings_of_packets();
    readings_in_windows();
    small_prints();
    listings();
    lines();
    packets_laid();
    line_parts();
    printf("%d checks, %d faults\n", checks, faults);
    return faults == 0 ? 0 : 1;
}
