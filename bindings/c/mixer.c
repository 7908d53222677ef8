/* mixer FILE: which seconds of a raw take had a wet microphone (MWET), and the gain (AALP), as a table with a line for each packet.
 *
 * A packet that is refused is not lost: the bytes before the refusal's place, read alone with the same room, are accepted. So what a damaged card still has of
 * the second is in the table, and the last column tells the refusal. samples/README.md describes each column. */
#include "gpmf.h"

#include <errno.h>
#include <math.h>
#include <stdio.h>
#include <stdlib.h>
#include <string.h>

#define NUMBERS ((size_t)GPMF_MOST_ROWS * GPMF_ROW_WIDTH)
#define CELL 313 /* room for every double with one digit behind the point: a sign, 309 digits, the point, a digit, and the zero behind */

/* A payload that was accepted, and its rows. */
typedef struct reading {
    const uint8_t *bytes;
    size_t size;
    const uint32_t *rows;
    size_t count;
} reading;

/* A value: its shape, and how its numbers are told. They are read once, for gpmf_element would go through the TYPE text of a structure for each. */
typedef struct value {
    const uint8_t *bytes; /* the item's own payload */
    size_t size;          /* the bytes of one sample */
    uint32_t kind;
    size_t rows;
    size_t columns;
    uint8_t letters[256]; /* a structure has one for each column, any other value one for all */
    size_t letter_count;
} value;

/* The numbers of the value that was read last: no value has more than a payload has bytes. */
static uint64_t numbers[GPMF_MOST_BYTES];

/* The letters of a structure's columns: those of its TYPE text, written out, that read something. */
static size_t letters_of(const reading *from, size_t type_place, uint8_t letters[256]) {
    gpmf_part_answer text = gpmf_text_at(from->bytes, from->size, type_place, GPMF_NO_TYPE, 0);
    uint8_t written[256];
    gpmf_whole_answer all = gpmf_resolve_custom_type(from->bytes + text.start, text.length, written);
    size_t count = 0;
    for (size_t n = 0; n < all.value; n++) {
        if (gpmf_width(written[n]) != 0) letters[count++] = written[n];
    }
    return count;
}

/* Finds the item of a group and tag, and reads its value into `numbers`; false where there is none, or its value cannot be read. */
static bool find(const reading *from, uint32_t group, uint32_t tag, value *found) {
    gpmf_whole_answer index = gpmf_lookup(from->rows, NUMBERS, from->count, GPMF_GROUP_BY_KEY, group, tag, 0);
    gpmf_row row;
    gpmf_shape_answer shape;
    if (index.kind != GPMF_IS) return false;
    row = gpmf_row_at(from->rows, NUMBERS, (size_t)index.value).row;
    shape = gpmf_shape_at(from->bytes, from->size, row.place, row.type_place);
    if (shape.kind != GPMF_IS) return false;
    found->bytes = from->bytes + gpmf_bytes_at(from->bytes, from->size, row.place, row.type_place).start;
    found->size = row.shape >> 16 & 255;
    found->kind = shape.value_kind;
    found->rows = shape.rows;
    found->columns = shape.columns;
    found->letters[0] = (uint8_t)(row.shape >> 24);
    found->letter_count = shape.value_kind == GPMF_VALUE_STRUCTURES ? letters_of(from, row.type_place, found->letters) : 1;
    return gpmf_elements_at(from->bytes, from->size, row.place, row.type_place, numbers, GPMF_MOST_BYTES).kind == GPMF_IS;
}

/* What a number of gpmf_elements_at stands for by its letter, in double. */
static double in_double(uint64_t bits, uint8_t letter) {
    uint32_t low = (uint32_t)bits;
    int64_t whole;
    float single;
    double twice;
    memcpy(&whole, &bits, sizeof whole);
    memcpy(&single, &low, sizeof single);
    memcpy(&twice, &bits, sizeof twice);
    switch (letter) {
    case 'b': case 's': case 'l': case 'j': return (double)whole;
    case 'f': case 'q': return (double)single;
    case 'd': case 'Q': return twice;
    default: return (double)bits;
    }
}

/* The element at a row and a column, in double; false where it lies outside. Several texts are of unequal lengths, so that theirs are taken from the bytes. */
static bool element(const value *of, size_t row, size_t column, double *number) {
    if (row >= of->rows) return false;
    if (of->kind == GPMF_VALUE_TEXTS) {
        const uint8_t *text = of->bytes + row * of->size;
        if (column >= gpmf_utf8_len(text, of->size)) return false;
        *number = text[column];
        return true;
    }
    if (column >= of->columns) return false;
    *number = in_double(numbers[row * of->columns + column], of->letters[column % of->letter_count]);
    return true;
}

/* What the columns of a group's readings are divided by: SCAL has one number for all columns, or one for each; without SCAL it is 1, and 0 where it cannot be read. */
static void scales(const reading *from, uint32_t group, double divisors[2]) {
    value scal;
    memset(&scal, 0, sizeof scal);
    bool none = gpmf_lookup(from->rows, NUMBERS, from->count, GPMF_GROUP_BY_KEY, group, GPMF_TAG_SCALE, 0).kind == GPMF_NOTHING;
    bool there = find(from, group, GPMF_TAG_SCALE, &scal) && scal.columns != 0;
    for (size_t column = 0; column < 2; column++) {
        size_t index = there && scal.rows == 1 && scal.columns == 1 ? 0 : column;
        divisors[column] = none ? 1 : 0;
        if (there) element(&scal, index / scal.columns, index % scal.columns, &divisors[column]);
    }
}

/* The mean of a column over its scale, with one digit behind the point; the stroke stays where there is none. A NaN is `nan`, also one that C prints with a sign. */
static void mean(const value *of, size_t column, double divisor, char cell[CELL]) {
    double sum = 0;
    if (divisor == 0) return;
    for (size_t row = 0; row < of->rows; row++) {
        double number;
        if (!element(of, row, column, &number)) return;
        sum += number / divisor;
    }
    sum /= (double)of->rows;
    if (isnan(sum)) snprintf(cell, CELL, "nan");
    else snprintf(cell, CELL, "%.1f", sum);
}

/* How many numbers of a column are not 0, and how many there are. */
static void share(const value *of, size_t column, char cell[CELL]) {
    size_t wet = 0;
    for (size_t row = 0; row < of->rows; row++) {
        double number;
        if (!element(of, row, column, &number)) return;
        wet += number != 0 ? 1 : 0;
    }
    snprintf(cell, CELL, "%zu/%zu", wet, of->rows);
}

/* One line of the table. */
static void print_second(unsigned long second, const reading *from, const char *packet) {
    const uint32_t mwet = GPMF_KEY('M', 'W', 'E', 'T');
    const uint32_t aalp = GPMF_KEY('A', 'A', 'L', 'P');
    char cells[5][CELL] = {"-", "-", "-", "-", "-"};
    value found;
    double divisors[2];
    scales(from, aalp, divisors);
    if (find(from, mwet, GPMF_TAG_DATA, &found) && found.columns >= 3) {
        share(&found, 0, cells[0]);
        share(&found, 1, cells[1]);
        mean(&found, 2, 1, cells[2]);
    }
    if (find(from, aalp, GPMF_TAG_DATA, &found) && found.columns >= 2) {
        mean(&found, 0, divisors[0], cells[3]);
        mean(&found, 1, divisors[1], cells[4]);
    }
    printf("%6lu  %8s  %7s  %10s  %10s  %9s  %s\n", second, cells[0], cells[1], cells[2], cells[3], cells[4], packet);
}

static void print_take(const uint8_t *file, size_t size) {
    static uint32_t rows[NUMBERS];
    unsigned long second = 0;
    gpmf_packet_metadata_answer next = gpmf_next_metadata(gpmf_packets_new(0), file, size, false, rows, NUMBERS);
    puts("second  main wet  all wet  confidence  level dBFS  peak dBFS  packet");
    for (; next.kind == GPMF_IS; next = gpmf_next_metadata(next.rest, file, size, false, rows, NUMBERS)) {
        char packet[64] = "read";
        reading whole = {file + next.packet.start, next.packet.end - next.packet.start, rows, next.metadata.rows};
        if (next.metadata.kind == GPMF_REFUSED) {
            snprintf(packet, sizeof packet, "refused %u at %zu", (unsigned)next.metadata.number, next.metadata.place);
            whole.size = next.metadata.place;
            whole.count = gpmf_parse_metadata(whole.bytes, whole.size, false, rows, NUMBERS).rows;
        }
        print_second(++second, &whole, packet);
    }
}

/* All bytes of a file, or NULL. */
static uint8_t *load(FILE *file, size_t *size) {
    size_t room = 65536;
    uint8_t *bytes = (uint8_t *)malloc(room);
    *size = 0;
    while (bytes != NULL) {
        uint8_t *larger;
        *size += fread(bytes + *size, 1, room - *size, file);
        if (*size < room) break;
        larger = (uint8_t *)realloc(bytes, room *= 2);
        if (larger == NULL) free(bytes);
        bytes = larger;
    }
    return bytes;
}

int main(int count, char **words) {
    FILE *file;
    uint8_t *bytes;
    size_t size;
    if (count != 2) {
        fputs("usage: mixer FILE\n", stderr);
        return 2;
    }
    file = fopen(words[1], "rb");
    if (file == NULL) {
        fprintf(stderr, "mixer: %s: %s\n", words[1], strerror(errno));
        return 2;
    }
    bytes = load(file, &size);
    if (bytes == NULL || ferror(file)) {
        fputs("mixer: the file cannot be read\n", stderr);
        return 2;
    }
    fclose(file);
    print_take(bytes, size);
    free(bytes);
    return 0;
}
