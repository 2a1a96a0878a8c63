/*
 * Makes a sheet from scratch: every root of the dimension is split toward the origin, down to a depth, and each leaf gets
 * its record: mark, code, a grey sample for each vertex. Prints the records, checks the sheet, and writes it to a file
 * where one is named.
 */
#include "bytes.h"
#include "refusals.h"

#include <string.h>

#define MOST_RECORDS 1176 /* 24 roots, and of each at most 49 leaves */
#define LONGEST_RECORD (2 + RMK_LONGEST_CODE + 2 * (RMK_LONGEST_ROOT + 1))

typedef struct {
    size_t d;
    unsigned long depth; /* of the leaves at the origin */
    size_t length;
    uint8_t bytes[MOST_RECORDS * LONGEST_RECORD];
} sheet;

/* Grey grows with the distance from the origin: 64 units are one, squared. */
static unsigned grey_at(const uint8_t *point, size_t d)
{
    unsigned grey = 0;
    for (size_t a = 0; a < d; a++)
        grey += number_at(point + 2 * a) / 64 * (number_at(point + 2 * a) / 64);
    return grey;
}

/* Records follow each other with nothing between them. */
static void put_record(sheet *s, const uint8_t *code, const uint8_t *points)
{
    uint8_t *record = s->bytes + s->length, *samples = record + 2 + code_length(code);
    if (sizeof s->bytes - s->length < LONGEST_RECORD) {
        fprintf(stderr, "more than %d records\n", MOST_RECORDS);
        exit(2);
    }
    memcpy(record, "\x43\x4C", 2);
    memcpy(record + 2, code, code_length(code));
    for (size_t i = 0; i <= s->d; i++)
        put_number(samples + 2 * i, grey_at(points + 2 * s->d * i, s->d));
    s->length = (size_t)(samples - s->bytes) + 2 * (s->d + 1);
    print_hex(record, (size_t)(samples - record));
    for (size_t i = 0; i <= s->d; i++)
        printf(" %u", number_at(samples + 2 * i));
    printf("\n");
}

static int has_origin(const uint8_t *points, size_t d)
{
    static const uint8_t origin[2 * RMK_LONGEST_ROOT];
    for (size_t i = 0; i <= d; i++)
        if (memcmp(points + 2 * d * i, origin, 2 * d) == 0)
            return 1;
    return 0;
}

/* The leaves of a cell, child 0's before child 1's: that is tree order. */
static void put_leaves(sheet *s, const uint8_t *code)
{
    uint8_t points[RMK_LONGEST_POINTS], child[RMK_LONGEST_CODE];
    need_done("rmk_vertices", rmk_vertices(code, code_length(code), points, sizeof points).refusal);
    if (!has_origin(points, s->d) || code[1] >= s->depth) {
        put_record(s, code, points);
        return;
    }
    for (uint8_t which = 0; which < 2; which++) {
        need_done("rmk_child", rmk_child(code, code_length(code), which, child, sizeof child).refusal);
        put_leaves(s, child);
    }
}

/* Every root that begins with these axes, in dictionary order. */
static void put_roots(sheet *s, uint8_t *root, size_t begun)
{
    uint8_t code[RMK_LONGEST_CODE];
    if (begun == s->d) {
        need_done("rmk_path_to_code", rmk_path_to_code(root, s->d, root, 0, code, sizeof code).refusal);
        put_leaves(s, code);
        return;
    }
    for (uint8_t axis = 1; axis <= s->d; axis++)
        if (memchr(root, axis, begun) == NULL) {
            root[begun] = axis;
            put_roots(s, root, begun + 1);
        }
}

int main(int count, char **words)
{
    static sheet s;
    uint8_t root[8];
    s.d = count > 1 ? strtoul(words[1], NULL, 10) : 2;
    s.depth = count > 2 ? strtoul(words[2], NULL, 10) : 4;
    if (count > 4 || s.d < 1 || s.d > sizeof root) {
        fprintf(stderr, "usage: make_sheet [dimension [depth [file]]]\n");
        return 2;
    }
    put_roots(&s, root, 0);
    rmk_sheet_answer answer = rmk_sheet_check(s.bytes, s.length);
    need_sheet("the sheet", answer.refusal, answer.offset);
    printf("records %zu, bytes %zu\n", answer.records, s.length);
    FILE *file = count > 3 ? fopen(words[3], "wb") : NULL;
    if (count > 3 && (file == NULL || fwrite(s.bytes, 1, s.length, file) != s.length || fclose(file) != 0)) {
        fprintf(stderr, "%s: it cannot be written\n", words[3]);
        return 2;
    }
    return 0;
}
