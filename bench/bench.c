/*
 * bench.c: time per call of each entry, ours beside plain C, as a table in markdown.
 *
 * Both run over the same random good inputs of every dimension and depth, in rounds that alternate, and
 * the medians count. Both are called through pointers from here and stand in files of their own, so that
 * neither is inlined. Outputs are lent at their longest and not cleared between calls.
 */
#define _POSIX_C_SOURCE 199309L
#include "plain.h"

#include <stdio.h>
#include <stdlib.h>
#include <string.h>
#include <time.h>

#define CODES 8192
#define ROUNDS 600
#define MOST_LEAVES 1000000
#define SHEET_BYTES (38 * MOST_LEAVES) /* a record has at most 38 bytes */
#define MOST_IN_RING 48                 /* cells around an edge of the cubes of dimension 4 */
#define POINTS 16             /* that a round of queries asks for */
#define QUERY_LEAVES 10000
#define SMALL_LEAVES 100

/* The answer of a crossing that does not say where it landed, as an older library gives it. */
typedef struct {
    uint8_t refusal;
    uint8_t place;
    size_t length;
} old_crossed;

/* One program's entries. */
typedef struct {
    uint8_t (*code_check)(const uint8_t *, size_t);
    rmk_written (*path_to_code)(const uint8_t *, size_t, const uint8_t *, size_t, uint8_t *, size_t);
    rmk_path_written (*code_to_path)(const uint8_t *, size_t, uint8_t *, size_t, uint8_t *, size_t);
    rmk_written (*vertices)(const uint8_t *, size_t, uint8_t *, size_t);
    rmk_written (*child)(const uint8_t *, size_t, uint8_t, uint8_t *, size_t);
    rmk_written (*parent)(const uint8_t *, size_t, uint8_t *, size_t);
    rmk_crossed (*cross)(const uint8_t *, size_t, uint8_t, uint8_t *, size_t);
    rmk_sheet_answer (*sheet_check)(const uint8_t *, size_t);
    rmk_compatible_answer (*compatible)(const uint8_t *, size_t);
    rmk_leaf_answer (*leaf_at)(const uint8_t *, size_t, const uint8_t *, size_t, uint8_t *, size_t);
    rmk_value_answer (*value_at)(const uint8_t *, size_t, const uint8_t *, size_t);
    rmk_slope_answer (*slope_at)(const uint8_t *, size_t, const uint8_t *, size_t);
    old_crossed (*old_cross)(const uint8_t *, size_t, uint8_t, uint8_t *, size_t);
} entries;

/* What the old crossing is to answer. It is not measured. */
static old_crossed plain_old_cross(const uint8_t *code, size_t code_length, uint8_t facet, uint8_t *out, size_t out_length)
{
    rmk_crossed across = plain_cross(code, code_length, facet, out, out_length);
    old_crossed answer = {across.refusal, across.place, across.length};
    return answer;
}

static const entries plain = {plain_code_check, plain_path_to_code, plain_code_to_path,
                              plain_vertices,   plain_child,        plain_parent,
                              plain_cross,      plain_sheet_check,  plain_compatible,
                              plain_leaf_at,    plain_value_at,     plain_slope_at,
                              plain_old_cross};

/* Plain C that keeps the next cell as a code: the sheet check alone. */
static const entries by_next = {.sheet_check = plain_sheet_by_next};

/* bench/run names the entries that the library has not. */
#ifdef NO_CROSS
#define rmk_cross NULL
#endif
#ifdef NO_SHEETS
#define rmk_sheet_check NULL
#endif
#ifdef NO_COMPATIBLE
#define rmk_compatible NULL
#endif
#ifdef NO_LEAF_AT
#define rmk_leaf_at NULL
#endif
#ifdef NO_VALUE_AT
#define rmk_value_at NULL
#endif
#ifdef NO_SLOPE_AT
#define rmk_slope_at NULL
#endif
static const entries ours = {rmk_code_check, rmk_path_to_code, rmk_code_to_path, rmk_vertices,
                             rmk_child,      rmk_parent,       rmk_cross,        rmk_sheet_check,
                             rmk_compatible, rmk_leaf_at,      rmk_value_at,     rmk_slope_at,
                             NULL};

/* The library that RMK_OLD_LIBRARY names; bench/run gives its entries these names. */
#ifdef OLD_LIBRARY
old_crossed old_rmk_cross(const uint8_t *, size_t, uint8_t, uint8_t *, size_t);
rmk_written old_rmk_vertices(const uint8_t *, size_t, uint8_t *, size_t);
#else
#define old_rmk_cross NULL
#define old_rmk_vertices NULL
#endif
static const entries old = {.vertices = old_rmk_vertices, .old_cross = old_rmk_cross};

/* A random cell. */
typedef struct {
    uint8_t d, depth, length, which, facet;
    uint8_t code[RMK_LONGEST_CODE];
} sample;

static sample samples[CODES];
static uint8_t sample_roots[CODES][RMK_LONGEST_ROOT], sample_paths[CODES][RMK_LONGEST_PATH];
static uint8_t sheet[SHEET_BYTES];
static size_t sheet_length, sheet_records;
static uint8_t points[POINTS][2 * RMK_LONGEST_ROOT];
static size_t turns = 1; /* how often a round of values or slopes asks for all points: more where the sheet is small */

static uint64_t random_below(uint64_t n)
{
    static uint64_t state = 1;
    state ^= state << 13;
    state ^= state >> 7;
    state ^= state << 17;
    return (state >> 11) % n;
}

static void random_path(uint8_t *path, size_t depth)
{
    for (size_t t = 0; t < depth; t++)
        path[t] = (uint8_t)random_below(2);
}

/* Of one dimension, or of any where d is 0. */
static void random_sample(size_t n, uint8_t d)
{
    sample *s = &samples[n];
    uint8_t *root = sample_roots[n];
    s->d = d ? d : (uint8_t)(2 + random_below(3));
    s->depth = (uint8_t)random_below((uint64_t)RMK_HALVINGS * s->d + 1);
    s->which = (uint8_t)random_below(2);
    s->facet = (uint8_t)random_below(s->d + 1u);
    for (size_t a = 0; a < s->d; a++) { /* each axis goes to a random place among those before */
        size_t at = random_below(a + 1);
        root[a] = root[at];
        root[at] = (uint8_t)(a + 1);
    }
    random_path(sample_paths[n], s->depth);
    rmk_written written = plain_path_to_code(root, s->d, sample_paths[n], s->depth, s->code, sizeof s->code);
    s->length = (uint8_t)written.length;
}

/* One record. Its samples differ from those beside it. */
static void add_leaf(const uint8_t *code, size_t length)
{
    size_t samples_length = 2 * (code[0] + 1u);
    sheet[sheet_length] = 0x43;
    sheet[sheet_length + 1] = 0x4C;
    memcpy(sheet + sheet_length + 2, code, length);
    for (size_t i = 0; i < samples_length; i++)
        sheet[sheet_length + 2 + length + i] = (uint8_t)(7 * sheet_records + 31 * i);
    sheet_length += 2 + length + samples_length;
    sheet_records++;
}

/* The tree of a cell that is split toward some of its deepest cells and nowhere else. */
static void add_tree(const uint8_t *code, size_t length, unsigned deepest)
{
    if (deepest == 0 || code[1] == RMK_HALVINGS * code[0]) {
        add_leaf(code, length);
        return;
    }
    uint8_t child[RMK_LONGEST_CODE];
    unsigned share = (unsigned)random_below(deepest + 1);
    for (uint8_t which = 0; which < 2; which++) {
        rmk_written written = plain_child(code, length, which, child, sizeof child);
        add_tree(child, written.length, which == 0 ? share : deepest - share);
    }
}

/* The next root in dictionary order, from the digits on; 0 where there is none left. */
static int next_root(uint8_t *root, unsigned *digits)
{
    unsigned d = root[0];
    while (*digits < 1u << (2 * d)) {
        for (unsigned a = 0; a < d; a++)
            root[2 + a] = (uint8_t)(1 + (*digits >> (2 * (d - 1 - a)) & 3));
        *digits += 1;
        if (plain_code_check(root, 2u + d) == RMK_DONE)
            return 1;
    }
    return 0;
}

/* All roots in dictionary order, their leaves of every depth. With so many deepest cells a root there are
 * at most 13,000 records. */
static void random_sheet(uint8_t d)
{
    static const unsigned deepest[] = {200, 60, 10};
    uint8_t root[RMK_LONGEST_CODE] = {d, 0};
    sheet_length = sheet_records = 0;
    for (unsigned digits = 0; next_root(root, &digits);)
        add_tree(root, 2u + d, deepest[d - 2]);
}

/* The tree of a cell with so many leaves, a quarter to three quarters of them in either half as a rule. */
static void add_leaves(const uint8_t *code, size_t length, size_t leaves)
{
    if (leaves == 1) {
        add_leaf(code, length);
        return;
    }
    size_t most = (size_t)1 << (RMK_HALVINGS * code[0] - code[1] - 1); /* that one half has room for */
    size_t shares[2] = {leaves / 4 + random_below(leaves / 2 + 1), 0};
    size_t low = leaves > most ? leaves - most : 1, high = leaves - 1 < most ? leaves - 1 : most;
    shares[0] = shares[0] < low ? low : shares[0] > high ? high : shares[0];
    shares[1] = leaves - shares[0];
    for (uint8_t which = 0; which < 2; which++) {
        uint8_t child[RMK_LONGEST_CODE];
        rmk_written written = plain_child(code, length, which, child, sizeof child);
        add_leaves(child, written.length, shares[which]);
    }
}

/* A good sheet of so many leaves, in even parts on the roots. */
static void sized_sheet(uint8_t d, size_t leaves)
{
    uint8_t root[RMK_LONGEST_CODE] = {d, 0};
    size_t left = d == 2 ? 2 : d == 3 ? 6 : 24;
    sheet_length = sheet_records = 0;
    for (unsigned digits = 0; next_root(root, &digits); left--)
        add_leaves(root, 2u + d, (leaves - sheet_records) / left);
}

/* Eight bytes at most, mixed. */
static uint64_t hash_of(const uint8_t *bytes, size_t length)
{
    uint64_t word = 0;
    memcpy(&word, bytes, length);
    word = (word ^ word >> 32) * 0x9e3779b97f4a7c15u;
    return (word ^ word >> 29) * 0xbf58476d1ce4e5b9u;
}

/* One number for all cells that are split at the same edge, in whatever order they have its ends: a ring of cells. */
static uint64_t ring_of(const uint8_t *code, size_t length)
{
    uint8_t vertices[RMK_LONGEST_POINTS];
    size_t d = code[0], k = d - code[1] % d;
    plain_vertices(code, length, vertices, sizeof vertices);
    return hash_of(vertices, 2 * d) + hash_of(vertices + 2 * d * k, 2 * d);
}

/* The cells of a depth inside a cell, those of every ring below the limit split once more. */
static void add_cells(const uint8_t *code, size_t length, unsigned depth, uint64_t limit)
{
    if (code[1] > depth || (code[1] == depth && ring_of(code, length) >= limit)) {
        add_leaf(code, length);
        return;
    }
    for (uint8_t which = 0; which < 2; which++) {
        uint8_t child[RMK_LONGEST_CODE];
        rmk_written written = plain_child(code, length, which, child, sizeof child);
        add_cells(child, written.length, depth, limit);
    }
}

static void add_roots(uint8_t d, unsigned depth, uint64_t limit)
{
    uint8_t root[RMK_LONGEST_CODE] = {d, 0};
    sheet_length = sheet_records = 0;
    for (unsigned digits = 0; next_root(root, &digits);)
        add_cells(root, 2u + d, depth, limit);
}

static int by_number(const void *p, const void *q)
{
    uint64_t a = *(const uint64_t *)p, b = *(const uint64_t *)q;
    return (a > b) - (a < b);
}

/* A compatible sheet of so many leaves, or as few less as whole rings allow: all cells of a depth, and whole rings of them split.
 * In a uniform sheet every ring is whole: all cells that have its edge are split there. */
static void compatible_sheet(uint8_t d, size_t leaves)
{
    static uint64_t rings[MOST_LEAVES];
    unsigned depth = 0;
    for (size_t cells = d == 2 ? 2 : d == 3 ? 6 : 24; 2 * cells <= leaves; cells *= 2)
        depth++;
    add_roots(d, depth, 0);
    size_t cells = sheet_records, record = sheet_length / cells, code = 2u + d + depth / d;
    for (size_t n = 0; n < cells; n++)
        rings[n] = ring_of(sheet + n * record + 2, code);
    qsort(rings, cells, sizeof *rings, by_number);
    add_roots(d, depth, rings[leaves - cells]); /* no more of them are below that one */
}

/* Anywhere in the cube. */
static void random_points(uint8_t d)
{
    for (size_t n = 0; n < POINTS; n++)
        for (size_t a = 0; a < d; a++) {
            uint64_t x = random_below(RMK_CUBE_SIDE + 1);
            points[n][2 * a] = (uint8_t)(x & 255);
            points[n][2 * a + 1] = (uint8_t)(x >> 8);
        }
}

/* A round calls one entry on every sample and gives a sum of what it answered. */
typedef uint64_t round_of(const entries *e);

static uint64_t code_check_round(const entries *e)
{
    uint64_t sum = 0;
    for (const sample *s = samples; s < samples + CODES; s++)
        sum += 1u + e->code_check(s->code, s->length);
    return sum;
}

static uint64_t path_to_code_round(const entries *e)
{
    uint8_t out[RMK_LONGEST_CODE] = {0};
    uint64_t sum = 0;
    for (size_t n = 0; n < CODES; n++) {
        const sample *s = &samples[n];
        sum += e->path_to_code(sample_roots[n], s->d, sample_paths[n], s->depth, out, sizeof out).length;
        sum += out[2];
    }
    return sum;
}

static uint64_t code_to_path_round(const entries *e)
{
    uint8_t root[RMK_LONGEST_ROOT] = {0}, path[RMK_LONGEST_PATH] = {0};
    uint64_t sum = 0;
    for (const sample *s = samples; s < samples + CODES; s++) {
        sum += e->code_to_path(s->code, s->length, root, sizeof root, path, sizeof path).depth;
        sum += root[0] + path[0];
    }
    return sum;
}

static uint64_t vertices_round(const entries *e)
{
    uint8_t points[RMK_LONGEST_POINTS] = {0};
    uint64_t sum = 0;
    for (const sample *s = samples; s < samples + CODES; s++) {
        sum += e->vertices(s->code, s->length, points, sizeof points).length;
        sum += points[1] + points[5];
    }
    return sum;
}

static uint64_t child_round(const entries *e)
{
    uint8_t out[RMK_LONGEST_CODE] = {0};
    uint64_t sum = 0;
    for (const sample *s = samples; s < samples + CODES; s++) {
        sum += e->child(s->code, s->length, s->which, out, sizeof out).length;
        sum += out[2];
    }
    return sum;
}

static uint64_t parent_round(const entries *e)
{
    uint8_t out[RMK_LONGEST_CODE] = {0};
    uint64_t sum = 0;
    for (const sample *s = samples; s < samples + CODES; s++) {
        sum += e->parent(s->code, s->length, out, sizeof out).length;
        sum += out[2];
    }
    return sum;
}

static uint64_t cross_round(const entries *e)
{
    uint8_t out[RMK_LONGEST_CODE] = {0};
    uint64_t sum = 0;
    for (const sample *s = samples; s < samples + CODES; s++) {
        rmk_crossed across = e->cross(s->code, s->length, s->facet, out, sizeof out);
        sum += across.place + out[2];
        sum += across.vertex[0] + across.vertex[1] + across.vertex[2] + across.vertex[3];
    }
    return sum;
}

/* The coordinates of one vertex of a code, as a sum, by all its vertices. */
static inline uint64_t sum_by_vertices(const entries *e, const uint8_t *code, size_t length, uint8_t place)
{
    uint8_t points[RMK_LONGEST_POINTS]; /* all of the cell's are written */
    const uint8_t *point = points + 2u * code[0] * place;
    uint64_t sum = 0;
    e->vertices(code, length, points, sizeof points);
    for (size_t a = 0; a < code[0]; a++)
        sum += point[2 * a] + 256u * point[2 * a + 1];
    return sum;
}

/* The same sum as the crossing's, by the vertices of the code that it wrote. */
static uint64_t cross_and_vertices_round(const entries *e)
{
    uint8_t out[RMK_LONGEST_CODE] = {0};
    uint64_t sum = 0;
    for (const sample *s = samples; s < samples + CODES; s++) {
        rmk_crossed across = e->cross(s->code, s->length, s->facet, out, sizeof out);
        sum += across.place + out[2];
        if (across.refusal == RMK_DONE)
            sum += sum_by_vertices(e, out, across.length, across.place);
    }
    return sum;
}

static uint64_t old_cross_and_vertices_round(const entries *e)
{
    uint8_t out[RMK_LONGEST_CODE] = {0};
    uint64_t sum = 0;
    for (const sample *s = samples; s < samples + CODES; s++) {
        old_crossed across = e->old_cross(s->code, s->length, s->facet, out, sizeof out);
        sum += across.place + out[2];
        if (across.refusal == RMK_DONE)
            sum += sum_by_vertices(e, out, across.length, across.place);
    }
    return sum;
}

/* The old crossing, and ours for a caller that does not read where it landed. */
static uint64_t old_cross_round(const entries *e)
{
    uint8_t out[RMK_LONGEST_CODE] = {0};
    uint64_t sum = 0;
    for (const sample *s = samples; s < samples + CODES; s++) {
        sum += e->old_cross(s->code, s->length, s->facet, out, sizeof out).place;
        sum += out[2];
    }
    return sum;
}

static uint64_t cross_unread_round(const entries *e)
{
    uint8_t out[RMK_LONGEST_CODE] = {0};
    uint64_t sum = 0;
    for (const sample *s = samples; s < samples + CODES; s++) {
        sum += e->cross(s->code, s->length, s->facet, out, sizeof out).place;
        sum += out[2];
    }
    return sum;
}

static uint64_t sheet_check_round(const entries *e)
{
    return e->sheet_check(sheet, sheet_length).records;
}

static uint64_t compatible_round(const entries *e)
{
    return e->compatible(sheet, sheet_length).compatible;
}

static uint64_t leaf_at_round(const entries *e)
{
    uint8_t weights[RMK_LONGEST_WEIGHTS] = {0};
    uint64_t sum = 0;
    for (size_t n = 0; n < POINTS; n++) {
        sum += e->leaf_at(sheet, sheet_length, points[n], 2u * sheet[2], weights, sizeof weights).number;
        sum += weights[0] + weights[1] + weights[2];
    }
    return sum;
}

static uint64_t value_at_round(const entries *e)
{
    uint64_t sum = 0;
    for (size_t n = 0; n < turns * POINTS; n++) /* times the greatest side: whole */
        sum += (uint64_t)(e->value_at(sheet, sheet_length, points[n % POINTS], 2u * sheet[2]).value * RMK_CUBE_SIDE);
    return sum;
}

static uint64_t bits_of(double value)
{
    uint64_t bits;
    memcpy(&bits, &value, sizeof bits);
    return bits;
}

/* Each axis has a factor of its own, so that no axis stands for another. */
static uint64_t slope_at_round(const entries *e)
{
    uint64_t sum = 0;
    for (size_t n = 0; n < turns * POINTS; n++) {
        rmk_slope_answer at = e->slope_at(sheet, sheet_length, points[n % POINTS], 2u * sheet[2]);
        sum += bits_of(at.slope[0]) + 3 * bits_of(at.slope[1]) + 5 * bits_of(at.slope[2]) + 7 * bits_of(at.slope[3]);
    }
    return sum;
}

/* The check alone, as often as a round of queries has it. */
static uint64_t checks_round(const entries *e)
{
    uint64_t sum = 0;
    for (size_t n = 0; n < POINTS; n++)
        sum += sheet_check_round(e);
    return sum;
}

/* Nanoseconds that a round took; its sum must be the one expected. The round is called as it stands, through a pointer that the
 * compiler does not see through: one made for each place where it is called would differ from place to place. */
static double time_of(round_of *round, const entries *e, uint64_t expected)
{
    round_of *volatile called = round;
    struct timespec begin, end;
    clock_gettime(CLOCK_MONOTONIC, &begin);
    uint64_t sum = called(e);
    clock_gettime(CLOCK_MONOTONIC, &end);
    if (sum != expected) {
        fprintf(stderr, "the library and plain C do not answer the same\n");
        exit(1);
    }
    return (double)(end.tv_sec - begin.tv_sec) * 1e9 + (double)(end.tv_nsec - begin.tv_nsec);
}

static int by_size(const void *p, const void *q)
{
    double a = *(const double *)p, b = *(const double *)q;
    return (a > b) - (a < b);
}

static double median(double *values, size_t count)
{
    qsort(values, count, sizeof *values, by_size);
    return values[count / 2];
}

/* The medians of some rounds. That of the ratio is the median of the rounds' own ratios: the two halves of a
 * round meet the same machine, busy or not. */
typedef struct {
    double our_time, other_time, ratio;
} medians;

/* Our round beside another of one program's entries. */
static medians measure_both(round_of *our_round, round_of *other_round, const entries *beside, size_t rounds)
{
    static double our_times[ROUNDS], other_times[ROUNDS], ratios[ROUNDS];
    uint64_t our_sum = our_round(&plain), other_sum = other_round(&plain);
    for (size_t n = 0; n < rounds; n++) {
        our_times[n] = time_of(our_round, &ours, our_sum);
        other_times[n] = time_of(other_round, beside, other_sum);
        ratios[n] = our_times[n] / other_times[n];
    }
    medians m = {median(our_times, rounds), median(other_times, rounds), median(ratios, rounds)};
    return m;
}

static medians measure(round_of *round, const entries *beside, size_t rounds)
{
    return measure_both(round, round, beside, rounds);
}

/* One row of the first table, for each of `calls` calls or records. */
static void row(const char *name, round_of *round, size_t calls)
{
    medians m = measure(round, &plain, ROUNDS);
    printf("| %s | %.1f | %.1f | %.2f |\n", name, m.our_time / (double)calls, m.other_time / (double)calls, m.ratio);
}

/* One row of the second: a good sheet, in millions of bytes a second, and our speed as a part of plain C's. And one of the third:
 * the same sheet, for each record, beside plain C and beside plain C by the next cell. */
static void speed_row(uint8_t d, size_t leaves)
{
    sized_sheet(d, leaves);
    medians m = measure(sheet_check_round, &plain, ROUNDS / 10);
    double bytes = (double)sheet_length * 1e3;
    printf("| %u | %zu | %zu | %.0f | %.0f | %.2f |\n", d, sheet_records, sheet_length, bytes / m.our_time,
           bytes / m.other_time, 1 / m.ratio);
}

static void record_row(uint8_t d, size_t leaves)
{
    sized_sheet(d, leaves);
    size_t rounds = leaves > 100000 ? ROUNDS / 30 : ROUNDS / 10;
    medians m = measure(sheet_check_round, &plain, rounds), n = measure(sheet_check_round, &by_next, rounds);
    double records = (double)sheet_records;
    printf("| %u | %zu | %.1f | %.1f | %.2f | %.1f | %.2f |\n", d, sheet_records, n.our_time / records,
           m.other_time / records, m.ratio, n.other_time / records, n.ratio);
}

static void sheet_tables(void)
{
    if (!ours.sheet_check)
        return;
    printf("\n| dimension | leaves | bytes | ours, MB/s | plain C, MB/s | speed |\n|---|---|---|---|---|---|\n");
    for (uint8_t d = 2; d <= 4; d++)
        for (size_t leaves = 10000; leaves <= 100000; leaves *= 10)
            speed_row(d, leaves);
    printf("\n| dimension | leaves | ours, ns a record | plain C, ns | ratio | C by the next cell, ns | ratio |\n"
           "|---|---|---|---|---|---|---|\n");
    for (uint8_t d = 2; d <= 4; d++)
        for (size_t leaves = 10000; leaves <= 1000000; leaves *= 10)
            record_row(d, leaves);
}

/* One row of the fourth: a compatible sheet, so that every facet is judged, for each record. A large one is not read often. */
static void compatible_row(uint8_t d, size_t leaves)
{
    compatible_sheet(d, leaves);
    if (sheet_records > leaves || leaves - sheet_records >= MOST_IN_RING || compatible_round(&plain) != 1) {
        fprintf(stderr, "the sheet is not compatible, or has too few leaves\n");
        exit(1);
    }
    medians m = measure(compatible_round, &plain, 1 + 200000 / leaves);
    double records = (double)sheet_records;
    printf("| compatible, dimension %u | %zu | %.1f | %.1f | %.2f |\n", d, sheet_records, m.our_time / records,
           m.other_time / records, m.ratio);
}

static void compatible_table(void)
{
    if (!ours.compatible)
        return;
    printf("\n| entry | leaves | ours, ns a record | plain C, ns | ratio |\n|---|---|---|---|---|\n");
    for (uint8_t d = 2; d <= 4; d++)
        for (size_t leaves = 1000; leaves <= MOST_LEAVES; leaves *= 10)
            compatible_row(d, leaves);
}

/* The same once more for us alone, with the leaves doubled from row to row, but for a ring at most: how many times the time of half
 * as many leaves. */
static void doubling_table(void)
{
    if (!ours.compatible)
        return;
    printf("\n| leaves | dimension 2, ns a record | twice | dimension 3, ns a record | twice | dimension 4, ns a record | twice |\n"
           "|---|---|---|---|---|---|---|\n");
    double before[3] = {0, 0, 0};
    for (size_t leaves = 15625; leaves <= MOST_LEAVES; leaves *= 2) {
        printf("| %zu |", leaves);
        for (uint8_t d = 2; d <= 4; d++) {
            compatible_sheet(d, leaves);
            double time = measure(compatible_round, &ours, 1 + 200000 / leaves).our_time;
            printf(" %.1f |", time / (double)sheet_records);
            if (before[d - 2] > 0)
                printf(" %.2f |", time / before[d - 2]);
            else
                printf(" |");
            before[d - 2] = time;
        }
        printf("\n");
    }
}

/* One row of the fifth: a query beside plain C and beside our sheet check alone, for each call. */
static void query_row(const char *name, round_of *round, uint8_t d)
{
    sized_sheet(d, QUERY_LEAVES);
    random_points(d);
    medians m = measure(round, &plain, ROUNDS / 10);
    medians n = measure_both(round, checks_round, &ours, ROUNDS / 10);
    double calls = POINTS * 1e3;
    printf("| %s, dimension %u | %zu | %.1f | %.1f | %.2f | %.1f | %.2f |\n", name, d, sheet_records, m.our_time / calls,
           m.other_time / calls, m.ratio, n.other_time / calls, n.ratio);
}

static void query_table(void)
{
    if (!ours.leaf_at && !ours.value_at && !ours.slope_at)
        return;
    printf("\n| query | leaves | ours, us | plain C, us | ratio | our sheet check, us | ratio |\n"
           "|---|---|---|---|---|---|---|\n");
    for (uint8_t d = 2; d <= 4; d++) {
        if (ours.leaf_at)
            query_row("leaf_at", leaf_at_round, d);
        if (ours.value_at)
            query_row("value_at", value_at_round, d);
        if (ours.slope_at)
            query_row("slope_at", slope_at_round, d);
    }
}

/* One row of the sixth: our slope beside our value, of the same sheet at the same points, for each call. */
static void slope_row(uint8_t d, size_t leaves)
{
    sized_sheet(d, leaves);
    random_points(d);
    turns = 1 + QUERY_LEAVES / sheet_records / 10;
    medians m = measure_both(slope_at_round, value_at_round, &ours, ROUNDS / 10);
    double calls = (double)(turns * POINTS) * 1e3;
    turns = 1;
    printf("| slope_at beside value_at, dimension %u | %zu | %.3f | %.3f | %.2f |\n", d, sheet_records, m.our_time / calls,
           m.other_time / calls, m.ratio);
}

static void slope_table(void)
{
    if (!ours.slope_at || !ours.value_at)
        return;
    printf("\n| query | leaves | slope_at, us | value_at, us | ratio |\n|---|---|---|---|---|\n");
    slope_row(2, 2);
    for (uint8_t d = 2; d <= 4; d++)
        for (size_t leaves = SMALL_LEAVES; leaves <= QUERY_LEAVES; leaves *= 100)
            slope_row(d, leaves);
}

/* One row of the last: our crossing beside another way to the same, for each call. */
static void landing_row(const char *name, round_of *our_round, round_of *other_round, const entries *beside)
{
    medians m = measure_both(our_round, other_round, beside, ROUNDS);
    printf("| %s | %.1f | %.1f | %.2f |\n", name, m.our_time / CODES, m.other_time / CODES, m.ratio);
}

/* What it costs that a crossing says where it landed, beside asking for the vertices of the code that it wrote. */
static void landing_table(void)
{
    static const char *const names[] = {"cross beside cross and vertices, dimension 2",
                                        "cross beside cross and vertices, dimension 3",
                                        "cross beside cross and vertices, dimension 4"};
    static const char *const old_names[] = {"cross beside the old cross, dimension 2", "cross beside the old cross, dimension 3",
                                            "cross beside the old cross, dimension 4"};
    if (!ours.cross)
        return;
    for (size_t n = 0; n < CODES; n++)
        random_sample(n, 0);
    printf("\n| crossing, and where it landed | ours, ns | the other, ns | ratio |\n|---|---|---|---|\n");
    landing_row("cross beside cross and vertices", cross_round, cross_and_vertices_round, &ours);
    if (old.old_cross) {
        landing_row("cross beside the old cross", cross_round, old_cross_round, &old);
        landing_row("cross, vertex unread, beside the old cross", cross_unread_round, old_cross_round, &old);
        landing_row("cross beside the old cross and vertices", cross_round, old_cross_and_vertices_round, &old);
    }
    for (uint8_t d = 2; d <= 4; d++) {
        for (size_t n = 0; n < CODES; n++)
            random_sample(n, d);
        landing_row(names[d - 2], cross_round, cross_and_vertices_round, &ours);
        if (old.old_cross)
            landing_row(old_names[d - 2], cross_round, old_cross_round, &old);
    }
}

/* A good sheet of at most so many bytes, to a file. */
static int write_sheet(const char *path, uint8_t d, size_t most)
{
    size_t leaves = 24;
    for (sheet_length = 0; sheet_length <= most; leaves += 24)
        sized_sheet(d, leaves);
    for (leaves -= 24; sheet_length > most; leaves -= 24)
        sized_sheet(d, leaves);
    FILE *file = fopen(path, "wb");
    if (!file || fwrite(sheet, 1, sheet_length, file) != sheet_length)
        return 1;
    return fclose(file);
}

/* With a path: writes a sheet there. Without: the tables. */
int main(int count, char **words)
{
    if (count == 2)
        return write_sheet(words[1], 3, 65536);
    static const char *const sheet_names[] = {"sheet_check, a record, dimension 2",
                                              "sheet_check, a record, dimension 3",
                                              "sheet_check, a record, dimension 4"};
    static const char *const cross_names[] = {"cross, dimension 2", "cross, dimension 3", "cross, dimension 4"};
    for (size_t n = 0; n < CODES; n++)
        random_sample(n, 0);
    printf("| entry | ours, ns | plain C, ns | ratio |\n|---|---|---|---|\n");
    row("code_check", code_check_round, CODES);
    row("path_to_code", path_to_code_round, CODES);
    row("code_to_path", code_to_path_round, CODES);
    row("vertices", vertices_round, CODES);
    row("child", child_round, CODES);
    row("parent", parent_round, CODES);
    if (ours.cross)
        row("cross", cross_round, CODES);
    for (uint8_t d = 2; d <= 4 && ours.cross; d++) {
        for (size_t n = 0; n < CODES; n++)
            random_sample(n, d);
        row(cross_names[d - 2], cross_round, CODES);
    }
    for (uint8_t d = 2; d <= 4 && ours.sheet_check; d++) {
        random_sheet(d);
        row(sheet_names[d - 2], sheet_check_round, sheet_records);
    }
    sheet_tables();
    compatible_table();
    doubling_table();
    query_table();
    slope_table();
    landing_table();
    return 0;
}
