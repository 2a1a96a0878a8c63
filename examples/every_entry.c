/*
 * Tries reshmokhit.h: its constants, its refusals in words, its answers' fields and its entries' types are held against
 * a list written down here, and every entry is called with document 01's examples. Each answer's numbers and each lent
 * cell are compared with what the document says; what differs is printed, and the exit status is then 1.
 *
 * It is C11 and C++11, so that the header is tried in both. What is expected comes from the document's text: the worked
 * cells P1 to P10, the 24-byte sheet, the limits, the order of the refusals, and for a few more cells and points the rules
 * of the bisection, of the code, of the weights and of the slope, followed by hand.
 */
#include "reshmokhit.h"
#include "reshmokhit.h" /* the second time changes nothing */

#include <assert.h>
#include <stdio.h>
#include <stdlib.h>
#include <string.h>

/* What the header declares. */

static_assert(RMK_HALVINGS == 12, "the greatest depth is 12 times the dimension");
static_assert(RMK_CUBE_SIDE == 4096, "the cube is 0 to 4096 on each axis");
static_assert(RMK_LONGEST_ROOT == 4, "a root is d bytes, d at most 4");
static_assert(RMK_LONGEST_PATH == 48, "one byte for each step, at most 12 times 4");
static_assert(RMK_LONGEST_CODE == 18, "2 + d + L, at most 18");
static_assert(RMK_LONGEST_POINTS == 40, "5 points of 4 coordinates of 2 bytes");
static_assert(RMK_LONGEST_WEIGHTS == 10, "5 weights of 2 bytes");

static_assert(RMK_DONE == 0, "done");
static_assert(RMK_REFUSED_DIMENSION == 1, "dimension is not 2, 3 or 4");
static_assert(RMK_REFUSED_DEPTH == 2, "depth above 12d");
static_assert(RMK_REFUSED_LENGTH == 3, "a code alone: under 2 bytes, or not 2+d+L bytes");
static_assert(RMK_REFUSED_PERMUTATION == 4, "axis outside 1..d, or repeated");
static_assert(RMK_REFUSED_ORTHANT == 5, "an orthant byte of 2^d or more");
static_assert(RMK_REFUSED_SIGN == 6, "a sign that the box forbids");
static_assert(RMK_REFUSED_STEP == 7, "facet above d, child above 1, or path byte above 1");
static_assert(RMK_REFUSED_FACE == 8, "facet lies in a face of the cube");
static_assert(RMK_REFUSED_ROOT == 9, "parent of a root");
static_assert(RMK_REFUSED_DEEPEST == 10, "child at the greatest depth");
static_assert(RMK_REFUSED_SHORT == 11, "a lent output is shorter than the answer");
static_assert(RMK_REFUSED_POINT == 12, "point has not d coordinates, or one outside 0 to 4096");
static_assert(RMK_REFUSED_RECORD == 13, "sheet: mark missing or wrong, or record cut short");
static_assert(RMK_REFUSED_LEAF == 14, "sheet: another dimension, not the next leaf, or ended early");
static_assert(RMK_REFUSED_INPUT == 15, "program only: input over 65,536 bytes");

/* A field's type, by its address, and where it stands. */
#define FIELD(answer, type, field, at) \
    static inline type *answer##_##field(answer *whole) { return &whole->field; } \
    static_assert(offsetof(answer, field) == (at), #answer " has " #field " elsewhere")

typedef uint16_t four_coordinates[4];
typedef double four_slopes[4];

FIELD(rmk_written, uint8_t, refusal, 0);
FIELD(rmk_written, size_t, length, sizeof(size_t));
static_assert(sizeof(rmk_written) == 2 * sizeof(size_t), "rmk_written has other fields");

FIELD(rmk_path_written, uint8_t, refusal, 0);
FIELD(rmk_path_written, size_t, axes, sizeof(size_t));
FIELD(rmk_path_written, size_t, depth, 2 * sizeof(size_t));
static_assert(sizeof(rmk_path_written) == 3 * sizeof(size_t), "rmk_path_written has other fields");

FIELD(rmk_crossed, uint8_t, refusal, 0);
FIELD(rmk_crossed, uint8_t, place, 1);
FIELD(rmk_crossed, size_t, length, sizeof(size_t));
FIELD(rmk_crossed, four_coordinates, vertex, 2 * sizeof(size_t));
static_assert(sizeof(rmk_crossed) == 2 * sizeof(size_t) + 4 * sizeof(uint16_t), "rmk_crossed has other fields");

FIELD(rmk_sheet_answer, uint8_t, refusal, 0);
FIELD(rmk_sheet_answer, size_t, offset, sizeof(size_t));
FIELD(rmk_sheet_answer, size_t, records, 2 * sizeof(size_t));
static_assert(sizeof(rmk_sheet_answer) == 3 * sizeof(size_t), "rmk_sheet_answer has other fields");

FIELD(rmk_compatible_answer, uint8_t, refusal, 0);
FIELD(rmk_compatible_answer, uint8_t, compatible, 1);
FIELD(rmk_compatible_answer, size_t, offset, sizeof(size_t));
static_assert(sizeof(rmk_compatible_answer) == 2 * sizeof(size_t), "rmk_compatible_answer has other fields");

FIELD(rmk_leaf_answer, uint8_t, refusal, 0);
FIELD(rmk_leaf_answer, size_t, offset, sizeof(size_t));
FIELD(rmk_leaf_answer, size_t, number, 2 * sizeof(size_t));
FIELD(rmk_leaf_answer, size_t, length, 3 * sizeof(size_t));
static_assert(sizeof(rmk_leaf_answer) == 4 * sizeof(size_t), "rmk_leaf_answer has other fields");

FIELD(rmk_value_answer, uint8_t, refusal, 0);
FIELD(rmk_value_answer, size_t, offset, sizeof(size_t));
FIELD(rmk_value_answer, double, value, 2 * sizeof(size_t));
static_assert(sizeof(rmk_value_answer) == 2 * sizeof(size_t) + sizeof(double), "rmk_value_answer has other fields");

FIELD(rmk_slope_answer, uint8_t, refusal, 0);
FIELD(rmk_slope_answer, size_t, offset, sizeof(size_t));
FIELD(rmk_slope_answer, four_slopes, slope, 2 * sizeof(size_t));
static_assert(sizeof(rmk_slope_answer) == 2 * sizeof(size_t) + 4 * sizeof(double), "rmk_slope_answer has other fields");

/* A pointer of the expected type takes an entry of that type alone. */
#define TYPE(entry, answer, ...) \
    do { \
        answer (*typed)(__VA_ARGS__) = entry; \
        (void)typed; \
    } while (0)

static void entry_types(void)
{
    TYPE(rmk_code_check, uint8_t, const uint8_t *, size_t);
    TYPE(rmk_path_to_code, rmk_written, const uint8_t *, size_t, const uint8_t *, size_t, uint8_t *, size_t);
    TYPE(rmk_code_to_path, rmk_path_written, const uint8_t *, size_t, uint8_t *, size_t, uint8_t *, size_t);
    TYPE(rmk_vertices, rmk_written, const uint8_t *, size_t, uint8_t *, size_t);
    TYPE(rmk_child, rmk_written, const uint8_t *, size_t, uint8_t, uint8_t *, size_t);
    TYPE(rmk_parent, rmk_written, const uint8_t *, size_t, uint8_t *, size_t);
    TYPE(rmk_cross, rmk_crossed, const uint8_t *, size_t, uint8_t, uint8_t *, size_t);
    TYPE(rmk_sheet_check, rmk_sheet_answer, const uint8_t *, size_t);
    TYPE(rmk_compatible, rmk_compatible_answer, const uint8_t *, size_t);
    TYPE(rmk_leaf_at, rmk_leaf_answer, const uint8_t *, size_t, const uint8_t *, size_t, uint8_t *, size_t);
    TYPE(rmk_value_at, rmk_value_answer, const uint8_t *, size_t, const uint8_t *, size_t);
    TYPE(rmk_slope_at, rmk_slope_answer, const uint8_t *, size_t, const uint8_t *, size_t);
}

/* Byte strings and lent outputs. */

/* More cells than any input or output here has, so that those past the lent ones are watched too. */
#define ROOM 64
/* A lent length with room for every answer. */
#define AMPLE 56

typedef struct {
    uint8_t at[ROOM];
    size_t length;
} bytes;

/* The numbers of a text, each in `width` bytes, low byte first. Any other text is a slip of this file. */
static bytes read_numbers(const char *text, int base, size_t width)
{
    bytes read = {{0}, 0};
    for (text += strspn(text, " "); *text != '\0'; text += strspn(text, " ")) {
        char *end;
        unsigned long number = strtoul(text, &end, base);
        for (size_t i = 0; i < width && read.length < ROOM; i++, number /= 256)
            read.at[read.length++] = (uint8_t)(number % 256);
        if (end == text || number != 0 || read.length == ROOM)
            abort();
        text = end;
    }
    return read;
}

static bytes hex(const char *text)
{
    return read_numbers(text, 16, 1);
}

/* Coordinates or weights. */
static bytes coordinates(const char *text)
{
    return read_numbers(text, 10, 2);
}

/* What a cell holds before a call: a value that is in no answer here, and another for each cell. */
static uint8_t pattern(size_t cell)
{
    return (uint8_t)(0xa0 + cell);
}

/* An output of which the first `length` cells are lent. */
static bytes lend(size_t length)
{
    bytes output;
    output.length = length;
    for (size_t i = 0; i < ROOM; i++)
        output.at[i] = pattern(i);
    return output;
}

/* The comparison. */

static size_t answers, differences;
static char call[256];

/* Begins an answer: the call, for the report of a difference. */
static void begin(const char *entry, const char *input, const char *more)
{
    snprintf(call, sizeof call, "%s of [%s] %s", entry, input, more);
    answers++;
}

static void same_number(const char *name, size_t expected, size_t given)
{
    if (expected == given)
        return;
    printf("%s: %s is %zu, not %zu\n", call, name, given, expected);
    differences++;
}

/* Bit for bit, so that -0.0 is not +0.0. */
static void same_value(const char *name, double expected, double given)
{
    if (memcmp(&expected, &given, sizeof given) == 0)
        return;
    printf("%s: %s is %.17g, not %.17g\n", call, name, given, expected);
    differences++;
}

static void same_text(const char *name, const char *expected, const char *given)
{
    if (strcmp(expected, given) == 0)
        return;
    printf("%s: %s is \"%s\", not \"%s\"\n", call, name, given, expected);
    differences++;
}

/* The expected bytes stand at the front; every other cell, lent or not, keeps its content. */
static void same_cells(const char *name, const bytes *expected, const bytes *given)
{
    for (size_t i = 0; i < ROOM; i++) {
        uint8_t cell = i < expected->length ? expected->at[i] : pattern(i);
        if (cell == given->at[i])
            continue;
        printf("%s: cell %zu of %s is %02x, not %02x\n", call, i, name, given->at[i], cell);
        differences++;
    }
}

static const char *with_number(const char *name, size_t number, size_t lent)
{
    static char text[64];
    snprintf(text, sizeof text, "%s %zu, lent %zu", name, number, lent);
    return text;
}

static const char *with_lent(size_t lent)
{
    static char text[32];
    snprintf(text, sizeof text, "lent %zu", lent);
    return text;
}

/* One call of each entry. Where a refusal is expected, the expected bytes are empty. */

static void code_check(const char *code_text, uint8_t refusal)
{
    bytes code = hex(code_text);
    begin("code check", code_text, "");
    same_number("refusal", refusal, rmk_code_check(code.at, code.length));
}

static void path_to_code(const char *root_text, const char *path_text, size_t lent, uint8_t refusal,
                         const char *code_text)
{
    bytes root = hex(root_text), path = hex(path_text), expected = hex(code_text), code = lend(lent);
    begin("path to code", root_text, path_text);
    rmk_written answer = rmk_path_to_code(root.at, root.length, path.at, path.length, code.at, code.length);
    same_number("refusal", refusal, answer.refusal);
    same_number("length", expected.length, answer.length);
    same_cells("code", &expected, &code);
}

static void code_to_path(const char *code_text, size_t root_lent, size_t path_lent, uint8_t refusal,
                         const char *root_text, const char *path_text)
{
    bytes code = hex(code_text), expected_root = hex(root_text), expected_path = hex(path_text);
    bytes root = lend(root_lent), path = lend(path_lent);
    begin("code to path", code_text, with_number("root lent", root_lent, path_lent));
    rmk_path_written answer =
        rmk_code_to_path(code.at, code.length, root.at, root.length, path.at, path.length);
    same_number("refusal", refusal, answer.refusal);
    same_number("axes", expected_root.length, answer.axes);
    same_number("depth", expected_path.length, answer.depth);
    same_cells("root", &expected_root, &root);
    same_cells("path", &expected_path, &path);
}

static void vertices(const char *code_text, size_t lent, uint8_t refusal, const char *points_text)
{
    bytes code = hex(code_text), expected = coordinates(points_text), points = lend(lent);
    begin("vertices", code_text, with_lent(lent));
    rmk_written answer = rmk_vertices(code.at, code.length, points.at, points.length);
    same_number("refusal", refusal, answer.refusal);
    same_number("length", expected.length, answer.length);
    same_cells("points", &expected, &points);
}

static void child(const char *code_text, uint8_t which, size_t lent, uint8_t refusal, const char *child_text)
{
    bytes code = hex(code_text), expected = hex(child_text), out = lend(lent);
    begin("child", code_text, with_number("which", which, lent));
    rmk_written answer = rmk_child(code.at, code.length, which, out.at, out.length);
    same_number("refusal", refusal, answer.refusal);
    same_number("length", expected.length, answer.length);
    same_cells("out", &expected, &out);
}

static void parent(const char *code_text, size_t lent, uint8_t refusal, const char *parent_text)
{
    bytes code = hex(code_text), expected = hex(parent_text), out = lend(lent);
    begin("parent", code_text, with_lent(lent));
    rmk_written answer = rmk_parent(code.at, code.length, out.at, out.length);
    same_number("refusal", refusal, answer.refusal);
    same_number("length", expected.length, answer.length);
    same_cells("out", &expected, &out);
}

static const char *const axes[] = {"axis 1", "axis 2", "axis 3", "axis 4"};

/* The new vertex has d coordinates, and zeros on the other axes; four zeros where it is empty. */
static void same_vertex(const char *vertex_text, const uint16_t *given)
{
    bytes expected = coordinates(vertex_text);
    for (size_t a = 0; a < 4; a++)
        same_number(axes[a], expected.at[2 * a] + 256u * expected.at[2 * a + 1], given[a]);
}

static void fill_stack(void)
{
    volatile uint8_t cells[1024];
    for (size_t i = 0; i < sizeof cells; i++)
        cells[i] = 0xa5;
}

static void call_cross(const bytes *code, uint8_t facet, bytes *out, rmk_crossed *answer)
{
    *answer = rmk_cross(code->at, code->length, facet, out->at, out->length);
}

static void call_slope(const bytes *sheet, const bytes *point, rmk_slope_answer *answer)
{
    *answer = rmk_slope_at(sheet->at, sheet->length, point->at, point->length);
}

/* An answer of such a size comes through memory. So the stack is filled before it is asked for: a coordinate or a slope
 * that is left unset is then no 0. Through these pointers the functions are called as they stand, in the same part of the
 * stack. */
static void (*volatile fill)(void) = fill_stack;
static void (*volatile crossed)(const bytes *, uint8_t, bytes *, rmk_crossed *) = call_cross;
static void (*volatile sloped)(const bytes *, const bytes *, rmk_slope_answer *) = call_slope;

static void cross(const char *code_text, uint8_t facet, size_t lent, uint8_t refusal, const char *across_text,
                  uint8_t place, const char *vertex_text)
{
    bytes code = hex(code_text), expected = hex(across_text), out = lend(lent);
    rmk_crossed answer;
    begin("crossing", code_text, with_number("facet", facet, lent));
    fill();
    crossed(&code, facet, &out, &answer);
    same_number("refusal", refusal, answer.refusal);
    same_number("place", place, answer.place);
    same_number("length", expected.length, answer.length);
    same_vertex(vertex_text, answer.vertex);
    same_cells("out", &expected, &out);
}

static void cross_refused(const char *code_text, uint8_t facet, size_t lent, uint8_t refusal)
{
    cross(code_text, facet, lent, refusal, "", 0, "");
}

static void sheet_check(const char *sheet_text, uint8_t refusal, size_t offset, size_t records)
{
    bytes sheet = hex(sheet_text);
    begin("sheet check", sheet_text, "");
    rmk_sheet_answer answer = rmk_sheet_check(sheet.at, sheet.length);
    same_number("refusal", refusal, answer.refusal);
    same_number("offset", offset, answer.offset);
    same_number("records", records, answer.records);
}

static void compatible(const char *sheet_text, uint8_t refusal, uint8_t yes, size_t offset)
{
    bytes sheet = hex(sheet_text);
    begin("compatibility test", sheet_text, "");
    rmk_compatible_answer answer = rmk_compatible(sheet.at, sheet.length);
    same_number("refusal", refusal, answer.refusal);
    same_number("compatible", yes, answer.compatible);
    same_number("offset", offset, answer.offset);
}

/* A point as bytes, which need not be whole coordinates; its text is for the report. */
static void leaf_at_bytes(const char *sheet_text, const char *point_text, bytes point, size_t lent, uint8_t refusal,
                          size_t offset, size_t number, const char *weights_text)
{
    bytes sheet = hex(sheet_text), expected = coordinates(weights_text), weights = lend(lent);
    begin("leaf", sheet_text, point_text);
    rmk_leaf_answer answer =
        rmk_leaf_at(sheet.at, sheet.length, point.at, point.length, weights.at, weights.length);
    same_number("refusal", refusal, answer.refusal);
    same_number("offset", offset, answer.offset);
    same_number("number", number, answer.number);
    same_number("length", expected.length, answer.length);
    same_cells("weights", &expected, &weights);
}

static void value_at_bytes(const char *sheet_text, const char *point_text, bytes point, uint8_t refusal, size_t offset,
                           double value)
{
    bytes sheet = hex(sheet_text);
    begin("value", sheet_text, point_text);
    rmk_value_answer answer = rmk_value_at(sheet.at, sheet.length, point.at, point.length);
    same_number("refusal", refusal, answer.refusal);
    same_number("offset", offset, answer.offset);
    same_value("value", value, answer.value);
}

static void slope_at_bytes(const char *sheet_text, const char *point_text, bytes point, uint8_t refusal, size_t offset,
                           const double *slope)
{
    bytes sheet = hex(sheet_text);
    rmk_slope_answer answer;
    begin("slope", sheet_text, point_text);
    fill();
    sloped(&sheet, &point, &answer);
    same_number("refusal", refusal, answer.refusal);
    same_number("offset", offset, answer.offset);
    for (size_t a = 0; a < 4; a++)
        same_value(axes[a], slope[a], answer.slope[a]);
}

/* The leaf and the value at a point of a good sheet. */
static void query(const char *sheet_text, const char *point_text, size_t number, const char *weights_text, double value)
{
    bytes point = coordinates(point_text);
    leaf_at_bytes(sheet_text, point_text, point, AMPLE, RMK_DONE, 0, number, weights_text);
    leaf_at_bytes(sheet_text, point_text, point, coordinates(weights_text).length, RMK_DONE, 0, number, weights_text);
    value_at_bytes(sheet_text, point_text, point, RMK_DONE, 0, value);
}

/* The slope there: a whole number for each of the two axes, over the side of the leaf's box. */
static void slope(const char *sheet_text, const char *point_text, int axis_1, int axis_2, int side)
{
    const double expected[4] = {(double)axis_1 / side, (double)axis_2 / side, 0.0, 0.0};
    slope_at_bytes(sheet_text, point_text, coordinates(point_text), RMK_DONE, 0, expected);
}

/* All queries refused, the leaf's with room and with none. */
static void query_refused(const char *sheet_text, const char *point_text, bytes point, uint8_t refusal, size_t offset)
{
    const double zeros[4] = {0.0, 0.0, 0.0, 0.0};
    leaf_at_bytes(sheet_text, point_text, point, AMPLE, refusal, offset, 0, "");
    leaf_at_bytes(sheet_text, point_text, point, 0, refusal, offset, 0, "");
    value_at_bytes(sheet_text, point_text, point, refusal, offset, 0.0);
    slope_at_bytes(sheet_text, point_text, point, refusal, offset, zeros);
}

static void point_refused(const char *sheet_text, const char *point_text)
{
    query_refused(sheet_text, point_text, coordinates(point_text), RMK_REFUSED_POINT, 0);
}

/* The sheet check, and the compatibility test and all queries, which refuse a sheet as it does, whatever the point and
 * the lent output. */
static void sheet_refused(const char *sheet_text, uint8_t refusal, size_t offset)
{
    sheet_check(sheet_text, refusal, offset, 0);
    compatible(sheet_text, refusal, 0, offset);
    query_refused(sheet_text, "1024 1024", coordinates("1024 1024"), refusal, offset);
    query_refused(sheet_text, "4097 0", coordinates("4097 0"), refusal, offset);
    query_refused(sheet_text, "", coordinates(""), refusal, offset);
}

/* Document 01's examples. */

#define P1 "02 00 01 02"
#define P2 "02 01 02 81"
#define P3 "02 02 81 02 01"
#define P4 "02 04 01 02 01 00"
#define P5 "03 01 02 03 81"
#define P6_ACROSS "02 00 02 01"      /* also the root [+2 +1] */
#define P7 "02 01 01 02"             /* P1's child 0, which keeps the signed permutation */
#define P8_ACROSS_0 "02 02 01 02 00"
#define P8_ACROSS_1 "02 02 02 81 01"
#define P9_BAD_CHILD "02 01 81 02"
#define P9_BAD_ROOT "02 00 01 82"
#define P9_GOOD "02 01 01 82"        /* child 1 of the root [+2 +1] */
#define P4_PARENT "02 03 81 02 01"   /* path 010: P3's child 0 */

#define ROOT_3 "03 00 01 02 03"
#define ROOT_4 "04 00 01 02 03 04"

/* Twelve times child 0 on each axis: every sign stays plus, every orthant is the low side of every axis. */
#define TWELVE "00 00 00 00 00 00 00 00 00 00 00 00"
#define DEEPEST_2 "02 18 01 02 " TWELVE
#define TOO_DEEP_2 "02 19 01 02 " TWELVE
#define DEEPEST_4 "04 30 01 02 03 04 " TWELVE
#define PATH_24 TWELVE " " TWELVE
#define PATH_25 PATH_24 " 00"
#define PATH_48 PATH_24 " " PATH_24

static void try_code_check(void)
{
    const char *good[] = {P1, P2, P3, P4, P5, P6_ACROSS, P7, P8_ACROSS_0, P8_ACROSS_1, P9_GOOD,
                          P4_PARENT, ROOT_3, ROOT_4, DEEPEST_2, DEEPEST_4};
    for (size_t i = 0; i < sizeof good / sizeof good[0]; i++)
        code_check(good[i], RMK_DONE);
    code_check("", RMK_REFUSED_LENGTH);
    code_check("02", RMK_REFUSED_LENGTH);
    code_check("05", RMK_REFUSED_LENGTH); /* under 2 bytes comes before the dimension */
    code_check("01 00 01", RMK_REFUSED_DIMENSION);
    code_check("05 00 01 02 03 04 05", RMK_REFUSED_DIMENSION);
    code_check("05 ff", RMK_REFUSED_DIMENSION);
    code_check(TOO_DEEP_2, RMK_REFUSED_DEPTH);
    code_check("02 ff", RMK_REFUSED_DEPTH);
    code_check("02 00 01", RMK_REFUSED_LENGTH);
    code_check("02 00 00", RMK_REFUSED_LENGTH); /* before the permutation */
    code_check("02 00 01 02 00", RMK_REFUSED_LENGTH);
    code_check("02 00 01 01", RMK_REFUSED_PERMUTATION);
    code_check("02 00 00 01", RMK_REFUSED_PERMUTATION);
    code_check("02 00 01 03", RMK_REFUSED_PERMUTATION);
    code_check("02 02 01 01 04", RMK_REFUSED_PERMUTATION); /* before the orthant */
    code_check("02 02 01 02 04", RMK_REFUSED_ORTHANT);
    code_check("02 02 81 02 04", RMK_REFUSED_ORTHANT); /* before the sign */
    code_check(P9_BAD_CHILD, RMK_REFUSED_SIGN);
    code_check(P9_BAD_ROOT, RMK_REFUSED_SIGN);
}

static void try_path_to_code(void)
{
    path_to_code("01 02", "", AMPLE, RMK_DONE, P1);
    path_to_code("01 02", "01", AMPLE, RMK_DONE, P2);
    path_to_code("01 02", "00 01", AMPLE, RMK_DONE, P3);
    path_to_code("01 02", "00 01 00 01", AMPLE, RMK_DONE, P4);
    path_to_code("01 02 03", "01", AMPLE, RMK_DONE, P5);
    path_to_code("02 01", "01", AMPLE, RMK_DONE, P9_GOOD);
    path_to_code("01 02", PATH_24, 16, RMK_DONE, DEEPEST_2);
    path_to_code("01 02 03 04", PATH_48, RMK_LONGEST_CODE, RMK_DONE, DEEPEST_4);
    path_to_code("01", PATH_25, AMPLE, RMK_REFUSED_DIMENSION, "");
    path_to_code("", "", AMPLE, RMK_REFUSED_DIMENSION, "");
    path_to_code("01 02 03 04 05", "", AMPLE, RMK_REFUSED_DIMENSION, "");
    path_to_code("01 02", PATH_25, AMPLE, RMK_REFUSED_DEPTH, "");
    path_to_code("01 01", PATH_25, AMPLE, RMK_REFUSED_DEPTH, ""); /* before the permutation */
    path_to_code("01 01", "", AMPLE, RMK_REFUSED_PERMUTATION, "");
    path_to_code("01 03", "02", AMPLE, RMK_REFUSED_PERMUTATION, ""); /* before the path's bytes */
    path_to_code("01 82", "", AMPLE, RMK_REFUSED_PERMUTATION, ""); /* a sign counts as outside */
    path_to_code("01 02", "00 02", AMPLE, RMK_REFUSED_STEP, "");
    path_to_code("01 02", "02", 0, RMK_REFUSED_STEP, ""); /* before the lent output */
    path_to_code("01 02", "00 01", 5, RMK_DONE, P3);
    path_to_code("01 02", "00 01", 4, RMK_REFUSED_SHORT, "");
    path_to_code("01 02", "00 01", 0, RMK_REFUSED_SHORT, "");
    path_to_code("01 02 03 04", PATH_48, RMK_LONGEST_CODE - 1, RMK_REFUSED_SHORT, "");
}

static void try_code_to_path(void)
{
    code_to_path(P1, AMPLE, AMPLE, RMK_DONE, "01 02", "");
    code_to_path(P2, AMPLE, AMPLE, RMK_DONE, "01 02", "01");
    code_to_path(P3, AMPLE, AMPLE, RMK_DONE, "01 02", "00 01");
    code_to_path(P4, AMPLE, AMPLE, RMK_DONE, "01 02", "00 01 00 01");
    code_to_path(P5, AMPLE, AMPLE, RMK_DONE, "01 02 03", "01");
    code_to_path(P9_GOOD, AMPLE, AMPLE, RMK_DONE, "02 01", "01");
    code_to_path(P1, 2, 0, RMK_DONE, "01 02", "");
    code_to_path(P5, 3, 1, RMK_DONE, "01 02 03", "01");
    code_to_path(DEEPEST_2, 2, 24, RMK_DONE, "01 02", PATH_24);
    code_to_path(DEEPEST_4, RMK_LONGEST_ROOT, RMK_LONGEST_PATH, RMK_DONE, "01 02 03 04", PATH_48);
    code_to_path(P5, 2, AMPLE, RMK_REFUSED_SHORT, "", "");
    code_to_path(P5, 3, 0, RMK_REFUSED_SHORT, "", "");
    code_to_path(P4, AMPLE, 3, RMK_REFUSED_SHORT, "", "");
    code_to_path(P4, 1, 3, RMK_REFUSED_SHORT, "", "");
    code_to_path(DEEPEST_4, RMK_LONGEST_ROOT, RMK_LONGEST_PATH - 1, RMK_REFUSED_SHORT, "", "");
    code_to_path(DEEPEST_4, RMK_LONGEST_ROOT - 1, RMK_LONGEST_PATH, RMK_REFUSED_SHORT, "", "");
    code_to_path(P9_BAD_CHILD, 0, 0, RMK_REFUSED_SIGN, "", ""); /* before the lent outputs */
    code_to_path(TOO_DEEP_2, AMPLE, AMPLE, RMK_REFUSED_DEPTH, "", "");
}

static void try_vertices(void)
{
    vertices(P1, AMPLE, RMK_DONE, "0 0  4096 0  4096 4096");
    vertices(P2, AMPLE, RMK_DONE, "4096 0  4096 4096  2048 2048");
    vertices(P3, AMPLE, RMK_DONE, "4096 0  2048 0  2048 2048");
    vertices(P4, AMPLE, RMK_DONE, "2048 0  3072 0  3072 1024");
    /* v1, v2, v3 of the root, and the midpoint of its v0 and v3. */
    vertices(P5, 24, RMK_DONE, "4096 0 0  4096 4096 0  4096 4096 4096  2048 2048 2048");
    vertices(ROOT_4, RMK_LONGEST_POINTS, RMK_DONE,
             "0 0 0 0  4096 0 0 0  4096 4096 0 0  4096 4096 4096 0  4096 4096 4096 4096");
    vertices(DEEPEST_2, 12, RMK_DONE, "0 0  1 0  1 1");
    vertices(P3, 11, RMK_REFUSED_SHORT, "");
    vertices(P3, 0, RMK_REFUSED_SHORT, "");
    vertices(P5, 23, RMK_REFUSED_SHORT, "");
    vertices(ROOT_4, RMK_LONGEST_POINTS - 1, RMK_REFUSED_SHORT, "");
    vertices(P9_BAD_ROOT, 0, RMK_REFUSED_SIGN, "");
    vertices("02", AMPLE, RMK_REFUSED_LENGTH, "");
}

static void try_child(void)
{
    child(P1, 0, AMPLE, RMK_DONE, P7);
    child(P1, 1, AMPLE, RMK_DONE, P2);
    child(P7, 1, AMPLE, RMK_DONE, P3);
    child(P2, 0, AMPLE, RMK_DONE, P8_ACROSS_1); /* across facet 1 of P3: the number changed */
    child(P3, 0, AMPLE, RMK_DONE, P4_PARENT);
    child(P4_PARENT, 1, AMPLE, RMK_DONE, P4);
    child(ROOT_3, 1, AMPLE, RMK_DONE, P5);
    child(P6_ACROSS, 1, AMPLE, RMK_DONE, P9_GOOD);
    child(P1, 2, AMPLE, RMK_REFUSED_STEP, "");
    child(P1, 255, 0, RMK_REFUSED_STEP, "");
    child(DEEPEST_2, 0, AMPLE, RMK_REFUSED_DEEPEST, "");
    child(DEEPEST_2, 1, 0, RMK_REFUSED_DEEPEST, "");
    child(DEEPEST_2, 2, AMPLE, RMK_REFUSED_STEP, ""); /* before the depth */
    child(P7, 1, 5, RMK_DONE, P3); /* one byte more than P7 has: the new orthant */
    child(P7, 1, 4, RMK_REFUSED_SHORT, "");
    child(P1, 1, 0, RMK_REFUSED_SHORT, "");
    child(P9_BAD_CHILD, 2, 0, RMK_REFUSED_SIGN, "");
}

static void try_parent(void)
{
    parent(P2, AMPLE, RMK_DONE, P1);
    parent(P7, AMPLE, RMK_DONE, P1);
    parent(P3, AMPLE, RMK_DONE, P7);
    parent(P4, AMPLE, RMK_DONE, P4_PARENT);
    parent(P4_PARENT, AMPLE, RMK_DONE, P3);
    parent(P5, AMPLE, RMK_DONE, ROOT_3);
    parent(P9_GOOD, AMPLE, RMK_DONE, P6_ACROSS);
    parent(P1, AMPLE, RMK_REFUSED_ROOT, "");
    parent(ROOT_4, 0, RMK_REFUSED_ROOT, "");
    parent(P3, 4, RMK_DONE, P7); /* one byte less than P3 has */
    parent(P3, 3, RMK_REFUSED_SHORT, "");
    parent(P2, 0, RMK_REFUSED_SHORT, "");
    parent(P9_BAD_ROOT, AMPLE, RMK_REFUSED_SIGN, "");
}

/* At level 0 each vertex is the one before, moved by the box's side along the entry; vertex 0 stands low on the axes with
 * a plus and high on those with a minus. The boxes of these two, of side 1024, have the low corners (1024,2048,3072) and
 * (0,1024,2048,3072). */
#define BOXED_3 "03 06 81 02 83 06 05" /* (2048,2048,4096) (1024,2048,4096) (1024,3072,4096) (1024,3072,3072) */
#define BOXED_4 "04 08 01 82 03 84 0C 0A" /* (0,2048,2048,4096), then 1 up, 2 down, 3 up, 4 down */

static void try_cross(void)
{
    cross(P1, 1, AMPLE, RMK_DONE, P6_ACROSS, 1, "0 4096"); /* v1 of the root [+2 +1] */
    cross_refused(P1, 0, AMPLE, RMK_REFUSED_FACE);
    cross_refused(P1, 2, AMPLE, RMK_REFUSED_FACE);
    cross(P7, 0, AMPLE, RMK_DONE, P2, 1, "4096 4096"); /* P2's v1, which is P1's v2 */
    cross(P2, 1, AMPLE, RMK_DONE, P7, 0, "0 0");
    cross(P3, 0, AMPLE, RMK_DONE, P8_ACROSS_0, 0, "0 0"); /* P7's v0 */
    cross(P3, 1, AMPLE, RMK_DONE, P8_ACROSS_1, 1, "4096 2048"); /* the midpoint of P2's v0 and v1 */
    cross_refused(P3, 2, AMPLE, RMK_REFUSED_FACE);
    /* Over the middle of the cube: the box at (2048,0) with side 512 goes down by its side on axis 1. */
    cross("02 06 02 01 01 00 00", 2, AMPLE, RMK_DONE, "02 06 02 81 00 01 01", 2, "1536 512");
    cross(DEEPEST_2, 1, AMPLE, RMK_DONE, "02 18 02 01 " TWELVE, 1, "0 1"); /* the box has side 1 */
    /* Past place k: child 1 of P3 and child 1 of P8_ACROSS_0, with the midpoints of their v0 and v2 at place 2. */
    cross("02 03 02 01 01", 2, AMPLE, RMK_DONE, "02 03 02 81 00", 2, "1024 1024");
    /* Path 00 from the roots [+1 +2 +3] and [+1 +3 +2], with the midpoint of the root's v0 and v2 at place 2. */
    cross("03 02 01 02 03", 2, AMPLE, RMK_DONE, "03 02 01 03 02", 2, "2048 0 2048");
    /* The roots [+1 +2 +3] and [+2 +1 +3] have all vertices in common but vertex 1. */
    cross(ROOT_3, 1, 5, RMK_DONE, "03 00 02 01 03", 1, "0 4096 0");
    /* From child 0 of a root, which lacks the root's vd, to child 1, which has it at place d - 1; and back to v0. */
    cross("03 01 01 02 03", 0, AMPLE, RMK_DONE, P5, 2, "4096 4096 4096");
    cross(P5, 2, AMPLE, RMK_DONE, "03 01 01 02 03", 0, "0 0 0");
    cross("04 01 01 02 03 04", 0, AMPLE, RMK_DONE, "04 01 02 03 04 81", 3, "4096 4096 4096 4096");
    cross("04 01 02 03 04 81", 3, AMPLE, RMK_DONE, "04 01 01 02 03 04", 0, "0 0 0 0");
    cross(ROOT_4, 2, AMPLE, RMK_DONE, "04 00 01 03 02 04", 2, "4096 0 4096 0");
    /* The box goes up by its side on axis 1. */
    cross(DEEPEST_4, 0, RMK_LONGEST_CODE, RMK_DONE, "04 30 81 02 03 04 00 00 00 00 00 00 00 00 00 00 00 01", 0, "2 0 0 0");
    /* Two entries change places: v1 is v0 moved up on axis 2, v2 is v1 moved up on axis 3. */
    cross(BOXED_3, 1, AMPLE, RMK_DONE, "03 06 02 81 83 06 05", 1, "2048 3072 4096");
    cross(BOXED_4, 2, AMPLE, RMK_DONE, "04 08 01 03 82 84 0C 0A", 2, "1024 2048 3072 4096");
    cross_refused(P1, 3, AMPLE, RMK_REFUSED_STEP);
    cross_refused(P1, 255, 0, RMK_REFUSED_STEP);
    cross_refused(P1, 0, 0, RMK_REFUSED_FACE); /* before the lent output */
    cross_refused(BOXED_4, 5, AMPLE, RMK_REFUSED_STEP);
    cross_refused(ROOT_4, 4, AMPLE, RMK_REFUSED_FACE);
    cross(BOXED_4, 2, 8, RMK_DONE, "04 08 01 03 82 84 0C 0A", 2, "1024 2048 3072 4096");
    cross_refused(BOXED_4, 2, 7, RMK_REFUSED_SHORT);
    cross(P3, 1, 5, RMK_DONE, P8_ACROSS_1, 1, "4096 2048");
    cross_refused(P3, 1, 4, RMK_REFUSED_SHORT);
    cross_refused(P7, 0, 0, RMK_REFUSED_SHORT);
    cross_refused(P9_BAD_CHILD, 3, 0, RMK_REFUSED_SIGN);
}

#define RECORD_0 "43 4C 02 00 01 02 0A 00 14 00 32 00 "
#define RECORD_1 "43 4C 02 00 02 01 0A 00 1E 00 32 00 "
#define SAMPLES_2 " 0A 00 14 00 32 00 "
#define SAMPLES_3 " 0A 00 14 00 32 00 64 00 "

static void try_sheet_check(void)
{
    sheet_check(RECORD_0 RECORD_1, RMK_DONE, 0, 2);
    sheet_refused(RECORD_0, RMK_REFUSED_LEAF, 12);
    sheet_refused("", RMK_REFUSED_LEAF, 0);
    /* The first root's two children, P7 and P2, in its place. */
    sheet_check("43 4C " P7 SAMPLES_2 "43 4C " P2 SAMPLES_2 RECORD_1, RMK_DONE, 0, 3);
    sheet_refused("43 4C " P7 SAMPLES_2 RECORD_1, RMK_REFUSED_LEAF, 12); /* a gap */
    sheet_refused(RECORD_0 "43 4C " P2 SAMPLES_2 RECORD_1, RMK_REFUSED_LEAF, 12); /* an overlap */
    sheet_refused(RECORD_1 RECORD_0, RMK_REFUSED_LEAF, 0);
    sheet_refused(RECORD_0 RECORD_0, RMK_REFUSED_LEAF, 12);
    sheet_refused(RECORD_0 RECORD_1 RECORD_1, RMK_REFUSED_LEAF, 24);
    sheet_refused(RECORD_0 "43 4C " ROOT_3 SAMPLES_3, RMK_REFUSED_LEAF, 12); /* another dimension */
    sheet_refused("43 4D 02 00 01 02" SAMPLES_2 RECORD_1, RMK_REFUSED_RECORD, 0);
    sheet_refused(RECORD_0 "00 4C 02 00 02 01" SAMPLES_2, RMK_REFUSED_RECORD, 12);
    sheet_refused(RECORD_0 RECORD_1 "00", RMK_REFUSED_RECORD, 24);
    sheet_refused(RECORD_0 "43 4C 05", RMK_REFUSED_RECORD, 12); /* fewer than two bytes after the mark */
    sheet_refused(RECORD_0 "43 4C 05 FF", RMK_REFUSED_DIMENSION, 12);
    sheet_refused(RECORD_0 "43 4C 02 19", RMK_REFUSED_DEPTH, 12);
    sheet_refused(RECORD_0 "43 4C 02 00 02", RMK_REFUSED_RECORD, 12); /* code cut */
    sheet_refused(RECORD_0 "43 4C 02 00 02 02", RMK_REFUSED_PERMUTATION, 12);
    sheet_refused(RECORD_0 "43 4C 02 02 02 01 04", RMK_REFUSED_ORTHANT, 12);
    sheet_refused(RECORD_0 "43 4C " P9_BAD_ROOT, RMK_REFUSED_SIGN, 12);
    sheet_refused(RECORD_0 "43 4C 02 00 02 01 0A 00 1E 00 32", RMK_REFUSED_RECORD, 12); /* samples cut */
    sheet_refused("43 4C 02 00 02 01 0A 00 1E 00 32", RMK_REFUSED_RECORD, 0); /* before 14 */
}

#define SHEET RECORD_0 RECORD_1
#define HALVED "43 4C " P7 SAMPLES_2 "43 4C " P2 SAMPLES_2 RECORD_1 /* the first root's two children */
#define QUARTERED "43 4C " P8_ACROSS_0 SAMPLES_2 "43 4C " P3 SAMPLES_2 "43 4C " P2 SAMPLES_2 /* and P7's two */
#define CORNER QUARTERED RECORD_1
#define BOTH_CHILDREN "43 4C 02 01 02 01" SAMPLES_2 "43 4C " P9_GOOD SAMPLES_2 /* the second root's */

static void try_compatible(void)
{
    compatible(SHEET, RMK_DONE, 1, 0);
    /* One of the two roots is split: (2048,2048), a vertex of both halves, is the middle of the other root's longest edge, whose two
     * ends no other leaf has. With that root's two children in its place, each half of the edge has two leaves. */
    compatible(HALVED, RMK_DONE, 0, 0);
    compatible("43 4C " P7 SAMPLES_2 "43 4C " P2 SAMPLES_2 BOTH_CHILDREN, RMK_DONE, 1, 0);
    /* P7's two children reach the other root's edge two steps below it; where that root is split once, they have no vertex inside an
     * edge of its children. */
    compatible(CORNER, RMK_DONE, 0, 0);
    compatible(QUARTERED BOTH_CHILDREN, RMK_DONE, 1, 0);
}

static void try_queries(void)
{
    query(SHEET, "1024 1024", 0, "3072 0 1024", 20.0); /* P10: both leaves have the point, the first counts */
    query(SHEET, "0 0", 0, "4096 0 0", 10.0);
    query(SHEET, "4096 4096", 0, "0 0 4096", 50.0);
    query(SHEET, "4096 0", 0, "0 4096 0", 20.0);
    query(SHEET, "0 4096", 1, "0 4096 0", 30.0);
    query(SHEET, "2048 1024", 0, "2048 1024 1024", 22.5);
    query(SHEET, "1024 2048", 1, "2048 1024 1024", 25.0);
    query(SHEET, "1 0", 0, "4095 1 0", 10.00244140625); /* 10 and 10 / 4096 */
    query(HALVED, "2048 2048", 0, "0 0 4096", 50.0); /* a vertex of all three leaves */
    query(HALVED, "3072 1024", 0, "0 2048 2048", 35.0); /* on the facet that the two children share */
    query(HALVED, "4096 2048", 1, "2048 2048 0", 15.0);
    query(HALVED, "1024 2048", 2, "2048 1024 1024", 25.0);
    /* Depth 2: the box has side 2048, and so is the sum of the weights. */
    query(CORNER, "2048 1024", 0, "0 1024 1024", 35.0);
    query(CORNER, "3072 0", 1, "1024 1024 0", 15.0);
    query(CORNER, "3072 1024", 1, "1024 0 1024", 30.0);
    query("43 4C " P1 " 00 00 00 00 00 00 " RECORD_1, "1 1", 0, "4095 0 1", 0.0);
    query("43 4C " P1 " FF FF FF FF FF FF " RECORD_1, "4096 1", 0, "0 4095 1", 65535.0);
}

/* Other samples: 7 at each vertex; the greatest at v1 alone, and at v0 and v1. */
#define FLAT " 07 00 07 00 07 00 "
#define PEAK " 00 00 FF FF 00 00 "
#define CLIFF " FF FF FF FF 00 00 "

static void try_slopes(void)
{
    slope(SHEET, "1024 512", 10, 30, 4096); /* worked by the museum: v0 to v1 goes up axis 1, v1 to v2 up axis 2 */
    slope(SHEET, "1024 1024", 10, 30, 4096); /* both leaves have the point, the first counts */
    slope(SHEET, "4096 4096", 10, 30, 4096);
    slope(SHEET, "1024 2048", 20, 20, 4096); /* the other root goes up axis 2 first */
    /* In P7 v2 stands 2048 up axis 2 from the middle of v0 and v1, and its sample is 35 above the middle's 15. In P2 v2
     * stands 2048 down axis 1 from the middle. */
    slope(HALVED, "2048 1024", 10, 70, 4096);
    slope(HALVED, "4096 2048", -70, 10, 4096);
    slope(HALVED, "3072 1024", 10, 70, 4096); /* on the facet that the two children share */
    /* Depth 2: the box has side 2048. In P3 v0 to v1 goes down axis 1. */
    slope(CORNER, "1024 512", 10, 30, 2048);
    slope(CORNER, "3072 512", -10, 30, 2048);
    /* Zero is +0.0, also down an axis: axis 1 of P2 and of P3. */
    slope("43 4C " P1 FLAT RECORD_1, "1024 512", 0, 0, 4096);
    slope("43 4C " P7 SAMPLES_2 "43 4C " P2 FLAT RECORD_1, "4096 2048", 0, 0, 4096);
    slope("43 4C " P8_ACROSS_0 SAMPLES_2 "43 4C " P3 FLAT "43 4C " P2 SAMPLES_2 RECORD_1, "3072 512", 0, 0, 2048);
    /* The steepest in a box: by a vertex a whole side away, and by one half a side away. */
    slope("43 4C " P1 PEAK RECORD_1, "1024 512", 65535, -65535, 4096);
    slope("43 4C " P7 CLIFF "43 4C " P2 CLIFF RECORD_1, "2048 1024", 0, -131070, 4096);
    slope("43 4C " P7 CLIFF "43 4C " P2 CLIFF RECORD_1, "4096 2048", 131070, 0, 4096);
}

static void try_query_refusals(void)
{
    const char *points[] = {"4097 0", "0 4097", "4096 4097", "65535 65535", "", "1024", "1024 1024 1024",
                            "1024 1024 1024 1024"};
    for (size_t i = 0; i < sizeof points / sizeof points[0]; i++)
        point_refused(SHEET, points[i]);
    query_refused(SHEET, "00", hex("00"), RMK_REFUSED_POINT, 0);
    query_refused(SHEET, "00 04 00", hex("00 04 00"), RMK_REFUSED_POINT, 0);
    query_refused(SHEET, "00 04 00 04 00", hex("00 04 00 04 00"), RMK_REFUSED_POINT, 0);
    for (size_t lent = 0; lent < 6; lent++)
        leaf_at_bytes(SHEET, "1024 1024", coordinates("1024 1024"), lent, RMK_REFUSED_SHORT, 0, 0, "");
}

static void refusal_in_words(uint8_t refusal, const char *name, const char *sentence)
{
    char number[8];
    snprintf(number, sizeof number, "%d", refusal);
    begin("words", number, "");
    same_text("name", name, rmk_refusal_name(refusal));
    same_text("sentence", sentence, rmk_refusal_text(refusal));
}

static void try_words(void)
{
    refusal_in_words(0, "RMK_DONE", "done");
    refusal_in_words(1, "RMK_REFUSED_DIMENSION", "dimension is not 2, 3 or 4");
    refusal_in_words(2, "RMK_REFUSED_DEPTH", "depth above 12 d");
    refusal_in_words(3, "RMK_REFUSED_LENGTH", "a code alone: under 2 bytes, or not 2 + d + depth div d bytes");
    refusal_in_words(4, "RMK_REFUSED_PERMUTATION", "axis outside 1..d, or repeated; in a root also any sign");
    refusal_in_words(5, "RMK_REFUSED_ORTHANT", "an orthant byte of 2^d or more");
    refusal_in_words(6, "RMK_REFUSED_SIGN", "a sign that the box forbids");
    refusal_in_words(7, "RMK_REFUSED_STEP", "facet above d, child above 1, or path byte above 1");
    refusal_in_words(8, "RMK_REFUSED_FACE", "facet lies in a face of the cube");
    refusal_in_words(9, "RMK_REFUSED_ROOT", "parent of a root");
    refusal_in_words(10, "RMK_REFUSED_DEEPEST", "child at the greatest depth");
    refusal_in_words(11, "RMK_REFUSED_SHORT", "a lent output is shorter than the answer");
    refusal_in_words(12, "RMK_REFUSED_POINT", "point has not d coordinates, or one outside 0 to 4096");
    refusal_in_words(13, "RMK_REFUSED_RECORD", "sheet: mark missing or wrong, or record cut short");
    refusal_in_words(14, "RMK_REFUSED_LEAF", "sheet: another dimension, not the next leaf, or ended early");
    refusal_in_words(15, "RMK_REFUSED_INPUT", "listing program only: input over 65,536 bytes");
    for (unsigned other = 16; other < 256; other++)
        refusal_in_words((uint8_t)other, "unknown", "no refusal has this number");
}

/* Three numbers with dots between them. */
static void try_version(void)
{
    unsigned parts[3];
    int end = 0;
    begin("version", RMK_VERSION, "");
    same_number("numbers", 3, (size_t)sscanf(RMK_VERSION, "%u.%u.%u%n", &parts[0], &parts[1], &parts[2], &end));
    same_text("the rest", "", RMK_VERSION + end);
}

int main(void)
{
    entry_types();
    try_version();
    try_words();
    try_code_check();
    try_path_to_code();
    try_code_to_path();
    try_vertices();
    try_child();
    try_parent();
    try_cross();
    try_sheet_check();
    try_compatible();
    try_queries();
    try_slopes();
    try_query_refusals();
    printf("every_entry: %zu answers compared, %zu differences\n", answers, differences);
    return differences != 0;
}
