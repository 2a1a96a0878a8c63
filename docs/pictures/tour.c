/*
 * Answers questions about cells and sheets by the library alone: a question on each line of standard input, its answer on a line
 * of standard output. docs/pictures/tour asks what the pictures need, and again what TOUR.md and SCOPE.md say.
 *
 *     check CODE               done
 *     code root 12 path 01     the code of a root and a path
 *     path CODE                root 12 path 01
 *     vertices CODE            (4096,0) (2048,0) (2048,2048)
 *     child 1 CODE             the child's code
 *     parent CODE              the parent's code
 *     cross 0 CODE             the code across, the new vertex's place, and where it is: 02 01 02 81 place 1 at (4096,4096)
 *     sheet SHEET              2 records
 *     compatible SHEET         yes, or no
 *     leaf (1024,1024) SHEET   record 0 weights 3072 0 1024
 *     value (1024,1024) SHEET  20
 *     slope (1024,512) SHEET   on each axis: 0.00244140625 0.00732421875
 *
 * CODE and SHEET are bytes, two hex digits each. A refusal is `refused 6`, one found while reading a sheet `refused 14 at 12`.
 */
#include "reshmokhit.h"

#include <ctype.h>
#include <stdio.h>
#include <stdlib.h>
#include <string.h>

#define MOST 65536

static uint8_t bytes[MOST]; /* the code or the sheet of the question */
static size_t length;

static _Noreturn void fail(const char *why)
{
    fprintf(stderr, "tour: %s\n", why);
    exit(2);
}

static void skip(const char **at)
{
    while (isspace((unsigned char)**at))
        (*at)++;
}

static void word(const char **at, const char *wanted)
{
    skip(at);
    if (strncmp(*at, wanted, strlen(wanted)) != 0)
        fail(wanted);
    *at += strlen(wanted);
}

static unsigned number(const char **at)
{
    unsigned value = 0;
    skip(at);
    if (!isdigit((unsigned char)**at))
        fail("a number is missing");
    for (; isdigit((unsigned char)**at); (*at)++)
        value = 10 * value + (unsigned)(**at - '0');
    return value;
}

/* Single digits, as in 12 or 0101; there may be none. */
static size_t digits(const char **at, uint8_t *to)
{
    size_t count = 0;
    skip(at);
    for (; isdigit((unsigned char)**at); (*at)++) {
        if (count == MOST)
            fail("too many digits");
        to[count++] = (uint8_t)(**at - '0');
    }
    return count;
}

/* Pairs of hex digits up to the line's end. */
static void rest(const char *at)
{
    length = 0;
    for (skip(&at); *at; skip(&at)) {
        unsigned value;
        if (!isxdigit((unsigned char)at[0]) || !isxdigit((unsigned char)at[1]) || length == MOST)
            fail("a byte is two hex digits");
        sscanf(at, "%2x", &value);
        bytes[length++] = (uint8_t)value;
        at += 2;
    }
}

/* (x,y,..), two bytes for each coordinate, low byte first. Gives the number of bytes. */
static size_t point(const char **at, uint8_t *to, size_t most)
{
    size_t count = 0;
    word(at, "(");
    do {
        unsigned value = number(at);
        if (value > 65535 || count + 2 > most)
            fail("no such point");
        to[count++] = (uint8_t)(value % 256);
        to[count++] = (uint8_t)(value / 256);
    } while (*(*at)++ == ',');
    return count;
}

static unsigned two(const uint8_t *at)
{
    return at[0] + 256u * at[1];
}

static void print_bytes(const uint8_t *at, size_t count)
{
    for (size_t i = 0; i < count; i++)
        printf("%s%02X", i ? " " : "", at[i]);
}

static int refused(uint8_t refusal)
{
    if (refusal != RMK_DONE)
        printf("refused %d", refusal);
    return refusal != RMK_DONE;
}

/* Refusals 11 and 12 of a query are not found while reading the sheet. */
static int refused_at(uint8_t refusal, size_t offset)
{
    int is = refused(refusal);
    if (is && refusal != RMK_REFUSED_SHORT && refusal != RMK_REFUSED_POINT)
        printf(" at %zu", offset);
    return is;
}

static void print_code(rmk_written written, const uint8_t *code)
{
    if (!refused(written.refusal))
        print_bytes(code, written.length);
}

static void ask_check(const char *at)
{
    rest(at);
    if (!refused(rmk_code_check(bytes, length)))
        printf("done");
}

static void ask_code(const char *at)
{
    static uint8_t root[MOST], path[MOST];
    uint8_t code[RMK_LONGEST_CODE];
    word(&at, "root");
    size_t axes = digits(&at, root);
    word(&at, "path");
    size_t depth = digits(&at, path);
    print_code(rmk_path_to_code(root, axes, path, depth, code, sizeof code), code);
}

static void ask_path(const char *at)
{
    uint8_t root[RMK_LONGEST_ROOT], path[RMK_LONGEST_PATH];
    rest(at);
    rmk_path_written written = rmk_code_to_path(bytes, length, root, sizeof root, path, sizeof path);
    if (refused(written.refusal))
        return;
    printf("root ");
    for (size_t i = 0; i < written.axes; i++)
        printf("%d", root[i]);
    printf(written.depth ? " path " : " path");
    for (size_t i = 0; i < written.depth; i++)
        printf("%d", path[i]);
}

static void ask_vertices(const char *at)
{
    uint8_t points[RMK_LONGEST_POINTS];
    rest(at);
    rmk_written written = rmk_vertices(bytes, length, points, sizeof points);
    if (refused(written.refusal))
        return;
    size_t d = bytes[0];
    for (size_t i = 0; i < written.length; i += 2) {
        size_t axis = i / 2 % d;
        printf("%s%u%s", axis ? "," : i ? " (" : "(", two(points + i), axis == d - 1 ? ")" : "");
    }
}

static void ask_child(const char *at)
{
    uint8_t code[RMK_LONGEST_CODE];
    unsigned which = number(&at);
    rest(at);
    print_code(rmk_child(bytes, length, (uint8_t)which, code, sizeof code), code);
}

static void ask_parent(const char *at)
{
    uint8_t code[RMK_LONGEST_CODE];
    rest(at);
    print_code(rmk_parent(bytes, length, code, sizeof code), code);
}

static void ask_cross(const char *at)
{
    uint8_t code[RMK_LONGEST_CODE];
    unsigned facet = number(&at);
    rest(at);
    rmk_crossed crossed = rmk_cross(bytes, length, (uint8_t)facet, code, sizeof code);
    if (refused(crossed.refusal))
        return;
    for (size_t a = bytes[0]; a < 4; a++)
        if (crossed.vertex[a] != 0)
            fail("a coordinate of an unused axis is not 0");
    print_bytes(code, crossed.length);
    printf(" place %d at ", crossed.place);
    for (size_t a = 0; a < bytes[0]; a++)
        printf("%s%d", a ? "," : "(", crossed.vertex[a]);
    printf(")");
}

static void ask_sheet(const char *at)
{
    rest(at);
    rmk_sheet_answer answer = rmk_sheet_check(bytes, length);
    if (!refused_at(answer.refusal, answer.offset))
        printf("%zu records", answer.records);
}

static void ask_compatible(const char *at)
{
    rest(at);
    rmk_compatible_answer answer = rmk_compatible(bytes, length);
    if (!refused_at(answer.refusal, answer.offset))
        printf(answer.compatible ? "yes" : "no");
}

static void ask_leaf(const char *at)
{
    uint8_t where[2 * 8], weights[RMK_LONGEST_WEIGHTS];
    size_t count = point(&at, where, sizeof where);
    rest(at);
    rmk_leaf_answer answer = rmk_leaf_at(bytes, length, where, count, weights, sizeof weights);
    if (refused_at(answer.refusal, answer.offset))
        return;
    printf("record %zu weights", answer.number);
    for (size_t i = 0; i < answer.length; i += 2)
        printf(" %u", two(weights + i));
}

static void ask_value(const char *at)
{
    uint8_t where[2 * 8];
    size_t count = point(&at, where, sizeof where);
    rest(at);
    rmk_value_answer answer = rmk_value_at(bytes, length, where, count);
    if (!refused_at(answer.refusal, answer.offset))
        printf("%.17g", answer.value);
}

static void ask_slope(const char *at)
{
    uint8_t where[2 * 8];
    size_t count = point(&at, where, sizeof where);
    rest(at);
    rmk_slope_answer answer = rmk_slope_at(bytes, length, where, count);
    if (refused_at(answer.refusal, answer.offset))
        return;
    for (size_t a = bytes[2]; a < 4; a++)
        if (answer.slope[a] != 0)
            fail("a slope of an unused axis is not 0");
    for (size_t a = 0; a < bytes[2]; a++)
        printf("%s%.17g", a ? " " : "", answer.slope[a]);
}

static const struct {
    const char *verb;
    void (*ask)(const char *);
} questions[] = {
    {"check ", ask_check}, {"code ", ask_code},   {"path ", ask_path},   {"vertices ", ask_vertices},
    {"child ", ask_child}, {"parent ", ask_parent}, {"cross ", ask_cross}, {"sheet ", ask_sheet},
    {"compatible ", ask_compatible}, {"leaf ", ask_leaf}, {"value ", ask_value}, {"slope ", ask_slope},
};

int main(void)
{
    static char line[4 * MOST];
    while (fgets(line, sizeof line, stdin)) {
        size_t i = 0, count = sizeof questions / sizeof *questions;
        while (i < count && strncmp(line, questions[i].verb, strlen(questions[i].verb)) != 0)
            i++;
        if (i == count)
            fail("no such question");
        questions[i].ask(line + strlen(questions[i].verb));
        printf("\n");
        fflush(stdout);
    }
    return 0;
}
