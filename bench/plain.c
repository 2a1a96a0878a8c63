/*
 * plain.c: the entries in plain C, each the rule that document 01 states or that follows from it.
 * An entry of the signed permutation stays the byte it is: the axis in the low bits, 128 for minus.
 */
#include "plain.h"

#include <stdlib.h>
#include <string.h>

#define MINUS 128u
#define HEAD 2u /* bytes before the entries: dimension and depth */
#define MOST_AXES 4u
#define MARK 2u /* bytes before a record's code: 43 4C */

/* What the first two bytes of a code say, and the code's refusal. */
typedef struct {
    unsigned d, depth, boxes, k;
    uint8_t refusal;
} header;

static unsigned axis_of(uint8_t entry) { return entry & (MINUS - 1); }

static unsigned is_minus(uint8_t entry) { return entry >> 7; }

static unsigned is_high(unsigned orthant, unsigned axis) { return orthant >> (axis - 1) & 1; }

/* The last orthant is the box's own sign, one bit for each axis; the cube's own sign is plus. */
static unsigned own_sign(const uint8_t *orthants, unsigned boxes)
{
    return boxes == 0 ? 0 : orthants[boxes - 1];
}

static rmk_written written(uint8_t refusal, size_t length)
{
    rmk_written answer = {refusal, length};
    return answer;
}

/* Are the entries, less what the mask takes off, the axes 1..d, each once? */
static int is_permutation(const uint8_t *entries, unsigned d, unsigned mask)
{
    unsigned seen = 0;
    for (unsigned i = 0; i < d; i++) {
        unsigned axis = entries[i] & mask;
        if (axis < 1 || axis > d || (seen >> axis & 1))
            return 0;
        seen |= 1u << axis;
    }
    return 1;
}

/* Refusals 1 and 2. */
static header read_head(const uint8_t *code)
{
    header h = {code[0], code[1], 0, 0, RMK_DONE};
    if (h.d < 2 || h.d > MOST_AXES) {
        h.refusal = RMK_REFUSED_DIMENSION;
        return h;
    }
    if (h.depth > RMK_HALVINGS * h.d) {
        h.refusal = RMK_REFUSED_DEPTH;
        return h;
    }
    h.boxes = h.depth / h.d;
    h.k = h.d - h.depth % h.d;
    return h;
}

/* Refusals 4, 5 and 6. */
static uint8_t body_refusal(const uint8_t *entries, header h)
{
    const uint8_t *orthants = entries + h.d;
    if (!is_permutation(entries, h.d, MINUS - 1))
        return RMK_REFUSED_PERMUTATION;
    for (unsigned i = 0; i < h.boxes; i++)
        if (orthants[i] >> h.d)
            return RMK_REFUSED_ORTHANT;
    unsigned own = own_sign(orthants, h.boxes);
    for (unsigned i = 0; i < h.k; i++)
        if (is_minus(entries[i]) != is_high(own, axis_of(entries[i])))
            return RMK_REFUSED_SIGN;
    return RMK_DONE;
}

/* The whole code check. */
static header read_code(const uint8_t *code, size_t code_length)
{
    header h = {0, 0, 0, 0, RMK_REFUSED_LENGTH};
    if (code_length < HEAD)
        return h;
    h = read_head(code);
    if (h.refusal)
        return h;
    h.refusal = code_length == HEAD + h.d + h.boxes ? body_refusal(code + HEAD, h) : RMK_REFUSED_LENGTH;
    return h;
}

uint8_t plain_code_check(const uint8_t *code, size_t code_length)
{
    return read_code(code, code_length).refusal;
}

/* Child 1 of a cell: the first k entries turn left, the moved one is negated. A fixed count is faster
 * than one that varies. */
static void turn_left(uint8_t *entries, unsigned k)
{
    uint8_t first = entries[0];
    for (unsigned i = 1; i < MOST_AXES; i++)
        if (i < k)
            entries[i - 1] = entries[i];
    entries[k - 1] = first ^ MINUS;
}

static void turn_right(uint8_t *entries, unsigned k)
{
    uint8_t last = entries[k - 1];
    for (unsigned i = MOST_AXES - 1; i > 0; i--)
        if (i < k)
            entries[i] = entries[i - 1];
    entries[0] = last ^ MINUS;
}

/* The orthant that a new level appends. */
static uint8_t orthant_of(const uint8_t *entries, unsigned d)
{
    unsigned orthant = 0;
    for (unsigned i = 0; i < d; i++)
        orthant |= is_minus(entries[i]) << (axis_of(entries[i]) - 1);
    return (uint8_t)orthant;
}

static uint8_t path_refusal(const uint8_t *root, size_t d, const uint8_t *path, size_t depth)
{
    if (d < 2 || d > MOST_AXES)
        return RMK_REFUSED_DIMENSION;
    if (depth > RMK_HALVINGS * d)
        return RMK_REFUSED_DEPTH;
    if (!is_permutation(root, (unsigned)d, 255))
        return RMK_REFUSED_PERMUTATION;
    for (size_t t = 0; t < depth; t++)
        if (path[t] > 1)
            return RMK_REFUSED_STEP;
    return RMK_DONE;
}

rmk_written plain_path_to_code(const uint8_t *root, size_t root_length, const uint8_t *path,
                               size_t path_length, uint8_t *code, size_t code_length)
{
    uint8_t refusal = path_refusal(root, root_length, path, path_length);
    if (refusal)
        return written(refusal, 0);
    unsigned d = (unsigned)root_length, depth = (unsigned)path_length, k = d;
    size_t length = HEAD + d + depth / d;
    if (code_length < length)
        return written(RMK_REFUSED_SHORT, 0);
    uint8_t entries[MOST_AXES] = {0}, *orthant = code + HEAD + d;
    memcpy(entries, root, d);
    for (unsigned t = 0; t < depth; t++) {
        if (path[t])
            turn_left(entries, k);
        if (--k == 0) {
            *orthant++ = orthant_of(entries, d);
            k = d;
        }
    }
    code[0] = (uint8_t)d;
    code[1] = (uint8_t)depth;
    memcpy(code + HEAD, entries, d);
    return written(RMK_DONE, length);
}

/* Takes back the step that halved at place k: it was step 0 exactly when entry k has the own sign of
 * the box before it. Gives the step. */
static uint8_t step_back(uint8_t *entries, unsigned k, unsigned own)
{
    uint8_t moved = entries[k - 1];
    if (is_minus(moved) == is_high(own, axis_of(moved)))
        return 0;
    turn_right(entries, k);
    return 1;
}

rmk_path_written plain_code_to_path(const uint8_t *code, size_t code_length, uint8_t *root,
                                    size_t root_length, uint8_t *path, size_t path_length)
{
    header h = read_code(code, code_length);
    rmk_path_written answer = {h.refusal, 0, 0};
    if (!h.refusal && (root_length < h.d || path_length < h.depth))
        answer.refusal = RMK_REFUSED_SHORT;
    if (answer.refusal)
        return answer;
    const uint8_t *orthants = code + HEAD + h.d;
    uint8_t entries[MOST_AXES] = {0};
    memcpy(entries, code + HEAD, h.d);
    for (unsigned t = h.depth, k = h.k, boxes = h.boxes; t-- > 0;) {
        if (k == h.d) {
            k = 0;
            boxes--;
        }
        path[t] = step_back(entries, ++k, own_sign(orthants, boxes));
    }
    memcpy(root, entries, h.d);
    answer.axes = h.d;
    answer.depth = h.depth;
    return answer;
}

static uint8_t *put_point(uint8_t *to, const unsigned *point, unsigned d)
{
    for (unsigned a = 0; a < d; a++) {
        *to++ = (uint8_t)(point[a] & 255);
        *to++ = (uint8_t)(point[a] >> 8);
    }
    return to;
}

/* Moves a point along an entry, in the entry's direction. */
static void move(unsigned *point, uint8_t entry, unsigned by)
{
    unsigned *coordinate = &point[axis_of(entry) - 1];
    *coordinate = is_minus(entry) ? *coordinate - by : *coordinate + by;
}

/* Vertex 0: the corner of the box from which every entry leads along the box. */
static void first_vertex(unsigned *point, const uint8_t *entries, unsigned d, unsigned boxes)
{
    const uint8_t *orthants = entries + d;
    for (unsigned i = 0; i < d; i++) {
        unsigned axis = axis_of(entries[i]), steps = 0;
        for (unsigned t = 0; t < boxes; t++)
            steps = 2 * steps + is_high(orthants[t], axis);
        point[axis - 1] = (steps + is_minus(entries[i])) * (RMK_CUBE_SIDE >> boxes);
    }
}

rmk_written plain_vertices(const uint8_t *code, size_t code_length, uint8_t *points,
                           size_t points_length)
{
    header h = read_code(code, code_length);
    if (h.refusal)
        return written(h.refusal, 0);
    size_t length = 2 * h.d * (h.d + 1);
    if (points_length < length)
        return written(RMK_REFUSED_SHORT, 0);
    const uint8_t *entries = code + HEAD;
    unsigned side = RMK_CUBE_SIDE >> h.boxes, corner[MOST_AXES] = {0}, middle[MOST_AXES];
    first_vertex(corner, entries, h.d, h.boxes);
    memcpy(middle, corner, sizeof corner);
    points = put_point(points, corner, h.d);
    for (unsigned j = 0; j < h.d; j++) {
        move(middle, entries[j], side / 2);
        if (j < h.k)
            move(corner, entries[j], side);
        points = put_point(points, j < h.k ? corner : middle, h.d);
    }
    return written(RMK_DONE, length);
}

/* A child's code, of a good code that may be split. Gives its length. */
static inline size_t put_child(const uint8_t *code, size_t code_length, header h, unsigned which, uint8_t *out)
{
    memcpy(out, code, code_length);
    out[1] = (uint8_t)(h.depth + 1);
    if (which)
        turn_left(out + HEAD, h.k);
    if (h.k > 1)
        return code_length;
    out[code_length] = orthant_of(out + HEAD, h.d);
    return code_length + 1;
}

rmk_written plain_child(const uint8_t *code, size_t code_length, uint8_t which, uint8_t *out,
                        size_t out_length)
{
    header h = read_code(code, code_length);
    if (h.refusal)
        return written(h.refusal, 0);
    if (which > 1)
        return written(RMK_REFUSED_STEP, 0);
    if (h.depth == RMK_HALVINGS * h.d)
        return written(RMK_REFUSED_DEEPEST, 0);
    if (out_length < (h.k == 1 ? code_length + 1 : code_length))
        return written(RMK_REFUSED_SHORT, 0);
    return written(RMK_DONE, put_child(code, code_length, h, which, out));
}

/* The parent's code, of a good code that is no root's. Gives its length. */
static inline size_t put_parent(const uint8_t *code, size_t code_length, header h, uint8_t *out)
{
    unsigned new_level = h.k == h.d, k = new_level ? 1 : h.k + 1;
    size_t length = code_length - new_level;
    memcpy(out, code, length);
    out[1] = (uint8_t)(h.depth - 1);
    step_back(out + HEAD, k, own_sign(code + HEAD + h.d, h.boxes - new_level));
    return length;
}

rmk_written plain_parent(const uint8_t *code, size_t code_length, uint8_t *out, size_t out_length)
{
    header h = read_code(code, code_length);
    if (h.refusal)
        return written(h.refusal, 0);
    if (h.depth == 0)
        return written(RMK_REFUSED_ROOT, 0);
    if (out_length < code_length - (h.k == h.d))
        return written(RMK_REFUSED_SHORT, 0);
    return written(RMK_DONE, put_parent(code, code_length, h, out));
}

static void swap(uint8_t *p, uint8_t *q)
{
    uint8_t kept = *p;
    *p = *q;
    *q = kept;
}

/* The entries of the cell across a facet. Gives the place of the new vertex. */
static unsigned cross_entries(uint8_t *entries, header h, unsigned facet, unsigned own)
{
    if (facet == h.d || (facet == 0 && h.k == h.d)) {
        entries[facet == 0 ? 0 : h.d - 1] ^= MINUS;
        return facet;
    }
    if (facet != 0 && facet != h.k) {
        swap(&entries[facet - 1], &entries[facet]);
        return facet;
    }
    unsigned has_own_sign = is_minus(entries[h.k]) == is_high(own, axis_of(entries[h.k]));
    if (facet == 0 && has_own_sign) {
        turn_left(entries, h.k + 1);
        return h.k;
    }
    if (facet == 0) {
        swap(&entries[0], &entries[h.k]);
        entries[0] ^= MINUS;
        entries[h.k] ^= MINUS;
        return 0;
    }
    if (has_own_sign) {
        swap(&entries[h.k - 1], &entries[h.k]);
        return h.k;
    }
    turn_right(entries, h.k + 1);
    return 0;
}

/* How many orthants, from the last one on, flip their bit when the box moves by its side on an axis: the
 * carry ends at the first one whose bit is `last`. None if the move leaves the cube. */
static unsigned carry(const uint8_t *orthants, unsigned boxes, unsigned bit, unsigned last)
{
    for (unsigned n = 1; n <= boxes; n++)
        if ((orthants[boxes - n] & bit) == last)
            return n;
    return 0;
}

/* Where a crossing leads out of the box: on which axis, and through how many boxes above. */
typedef struct {
    unsigned leaves_box, bit, flips;
} way_out;

static inline way_out way_across(const uint8_t *entries, header h, unsigned facet)
{
    const uint8_t *orthants = entries + h.d;
    uint8_t entry = facet == 0 ? entries[0] : entries[h.d - 1];
    way_out way = {facet == h.d || (facet == 0 && h.k == h.d), 1u << (axis_of(entry) - 1), 0};
    if (facet == h.d)
        way.flips = carry(orthants, h.boxes, way.bit, is_minus(entry) ? 0 : way.bit);
    else if (way.leaves_box)
        way.flips = h.boxes > 0; /* to the other half of the box above */
    return way;
}

static int leaves_cube(way_out way) { return way.leaves_box && way.flips == 0; }

/* The code of the cell across a facet that is not in a face of the cube. Gives the place of the new vertex. */
static inline unsigned put_across(const uint8_t *code, size_t code_length, header h, unsigned facet, way_out way,
                                  uint8_t *out)
{
    memcpy(out, code, code_length);
    for (unsigned n = 1; n <= way.flips; n++)
        out[code_length - n] ^= (uint8_t)way.bit;
    return cross_entries(out + HEAD, h, facet, own_sign(code + HEAD + h.d, h.boxes));
}

/* One vertex alone: from vertex 0 along the entries before its place, by the side each up to place k, by half of it past k. */
static void put_vertex(uint16_t *vertex, const uint8_t *entries, header h, unsigned place)
{
    unsigned by = (RMK_CUBE_SIDE >> h.boxes) >> (place > h.k), point[MOST_AXES] = {0};
    first_vertex(point, entries, h.d, h.boxes);
    for (unsigned j = 0; j < place; j++)
        move(point, entries[j], by);
    for (unsigned a = 0; a < MOST_AXES; a++)
        vertex[a] = (uint16_t)point[a];
}

static rmk_crossed not_crossed(uint8_t refusal)
{
    rmk_crossed answer = {refusal, 0, 0, {0}};
    return answer;
}

rmk_crossed plain_cross(const uint8_t *code, size_t code_length, uint8_t facet, uint8_t *out,
                        size_t out_length)
{
    header h = read_code(code, code_length);
    if (h.refusal)
        return not_crossed(h.refusal);
    if (facet > h.d)
        return not_crossed(RMK_REFUSED_STEP);
    way_out way = way_across(code + HEAD, h, facet);
    if (leaves_cube(way))
        return not_crossed(RMK_REFUSED_FACE);
    if (out_length < code_length)
        return not_crossed(RMK_REFUSED_SHORT);
    unsigned place = put_across(code, code_length, h, facet, way, out);
    rmk_crossed answer = {RMK_DONE, (uint8_t)place, code_length, {0}};
    put_vertex(answer.vertex, out + HEAD, h, place);
    return answer;
}

/* Where the next leaf starts. A root's stretch is 2^(greatest depth) long, and a cell of depth D takes
 * 2^(greatest depth - D) of it, from its path's number on. */
typedef struct {
    unsigned d; /* 0 before the first record */
    int complete;
    uint8_t root[MOST_AXES];
    uint64_t start;
} frontier;

static size_t record_length(header h) { return MARK + HEAD + h.d + h.boxes + 2 * (h.d + 1); }

/* A record's own tests. */
static header read_record(const uint8_t *record, size_t left)
{
    header h = {0, 0, 0, 0, RMK_REFUSED_RECORD};
    if (left < MARK + HEAD || record[0] != 0x43 || record[1] != 0x4C)
        return h;
    h = read_head(record + MARK);
    if (h.refusal)
        return h;
    if (left < MARK + HEAD + h.d + h.boxes)
        h.refusal = RMK_REFUSED_RECORD;
    else
        h.refusal = body_refusal(record + MARK + HEAD, h);
    if (!h.refusal && left < record_length(h))
        h.refusal = RMK_REFUSED_RECORD;
    return h;
}

/* A code's root, and where its cell starts on the root's stretch. */
static uint64_t start_of(const uint8_t *entries, header h, uint8_t *root)
{
    const uint8_t *orthants = entries + h.d;
    uint64_t start = 0, half = (uint64_t)1 << (RMK_HALVINGS * h.d - h.depth);
    memcpy(root, entries, h.d);
    for (unsigned t = h.depth, k = h.k, boxes = h.boxes; t-- > 0; half *= 2) {
        if (k == h.d) {
            k = 0;
            boxes--;
        }
        if (step_back(root, ++k, own_sign(orthants, boxes)))
            start += half;
    }
    return start;
}

/* The next permutation in dictionary order, or 0 after the last. */
static int next_root(uint8_t *root, unsigned d)
{
    unsigned i = d - 1, j = d - 1;
    while (i > 0 && root[i - 1] > root[i])
        i--;
    if (i == 0)
        return 0;
    while (root[j] < root[i - 1])
        j--;
    swap(&root[i - 1], &root[j]);
    for (j = d - 1; i < j; i++, j--)
        swap(&root[i], &root[j]);
    return 1;
}

/* Moves past a leaf. Gives 0 if the cell is not the next one. */
static int pass_leaf(frontier *next, const uint8_t *entries, header h)
{
    static const uint8_t first_root[MOST_AXES] = {1, 2, 3, 4};
    uint8_t root[MOST_AXES] = {0};
    if (next->d == 0) {
        next->d = h.d;
        memcpy(next->root, first_root, h.d);
    }
    if (next->d != h.d || next->complete)
        return 0;
    if (start_of(entries, h, root) != next->start || memcmp(root, next->root, h.d) != 0)
        return 0;
    next->start += (uint64_t)1 << (RMK_HALVINGS * h.d - h.depth);
    if (next->start >> (RMK_HALVINGS * h.d)) {
        next->start = 0;
        next->complete = !next_root(next->root, h.d);
    }
    return 1;
}

rmk_sheet_answer plain_sheet_check(const uint8_t *sheet, size_t sheet_length)
{
    rmk_sheet_answer answer = {RMK_DONE, 0, 0};
    frontier next = {0, 0, {0}, 0};
    size_t at = 0, records = 0;
    while (at < sheet_length) {
        header h = read_record(sheet + at, sheet_length - at);
        answer.refusal = h.refusal;
        if (!h.refusal && !pass_leaf(&next, sheet + at + MARK + HEAD, h))
            answer.refusal = RMK_REFUSED_LEAF;
        if (answer.refusal)
            break;
        at += record_length(h);
        records++;
    }
    if (!answer.refusal && !next.complete)
        answer.refusal = RMK_REFUSED_LEAF;
    if (answer.refusal)
        answer.offset = at;
    else
        answer.records = records;
    return answer;
}

/* The next cell, kept as a code: its entries, the orthants of the first cell of greatest depth inside it, its depth, and its path
 * as a number, whose last 1s are the steps to take back. */
typedef struct {
    unsigned d, depth; /* d is 0 before the first record */
    int complete;
    uint64_t path;
    uint8_t root[MOST_AXES], entries[MOST_AXES], orthants[RMK_HALVINGS];
} next_cell;

static void begin_root(next_cell *next)
{
    next->depth = 0;
    next->path = 0;
    memcpy(next->entries, next->root, MOST_AXES);
    memset(next->orthants, 0, RMK_HALVINGS);
}

/* Are the bytes a record whose code is that of the next cell, or of the first one inside it? */
static int is_next(const next_cell *next, const uint8_t *record, size_t left, header *h)
{
    if (left < MARK + HEAD || record[0] != 0x43 || record[1] != 0x4C || next->complete)
        return 0;
    const uint8_t *entries = record + MARK + HEAD;
    *h = read_head(record + MARK);
    if (h->refusal || h->d != next->d || h->depth < next->depth || left < record_length(*h))
        return 0;
    for (unsigned i = 0; i < h->d; i++)
        if (entries[i] != next->entries[i])
            return 0;
    for (unsigned i = 0; i < h->boxes; i++)
        if (entries[h->d + i] != next->orthants[i])
            return 0;
    return 1;
}

/* Moves past a leaf of so great a depth: the 1s at its path's end are taken back, and the last 0 becomes 1. */
static void pass_next(next_cell *next, header h)
{
    uint64_t path = next->path << (h.depth - next->depth);
    unsigned depth = h.depth, k = h.k;
    for (; path & 1; path >>= 1, depth--) {
        k = k == h.d ? 1 : k + 1;
        turn_right(next->entries, k);
    }
    if (depth == 0) {
        next->complete = !next_root(next->root, h.d);
        begin_root(next);
        return;
    }
    turn_left(next->entries, k == h.d ? 1 : k + 1);
    unsigned boxes = (depth - 1) / h.d;
    memset(next->orthants + boxes, orthant_of(next->entries, h.d), RMK_HALVINGS - boxes);
    next->depth = depth;
    next->path = path + 1;
}

rmk_sheet_answer plain_sheet_by_next(const uint8_t *sheet, size_t sheet_length)
{
    rmk_sheet_answer answer = {RMK_DONE, 0, 0};
    next_cell next = {0, 0, 0, 0, {1, 2, 3, 4}, {0}, {0}};
    size_t at = 0, records = 0;
    if (sheet_length >= MARK + HEAD && sheet[MARK] >= 2 && sheet[MARK] <= MOST_AXES)
        next.d = sheet[MARK];
    begin_root(&next);
    while (at < sheet_length) {
        header h;
        if (!is_next(&next, sheet + at, sheet_length - at, &h)) {
            answer.refusal = read_record(sheet + at, sheet_length - at).refusal;
            answer.refusal = answer.refusal ? answer.refusal : RMK_REFUSED_LEAF;
            break;
        }
        pass_next(&next, h);
        at += record_length(h);
        records++;
    }
    if (!answer.refusal && !next.complete)
        answer.refusal = RMK_REFUSED_LEAF;
    if (answer.refusal)
        answer.offset = at;
    else
        answer.records = records;
    return answer;
}

/* The codes of a good sheet's leaves, each at the first free slot from its hash on. At most half the slots are taken. */
typedef struct {
    const uint8_t **slots;
    size_t mask;
} leaf_set;

static size_t hash_of(const uint8_t *code, size_t length)
{
    uint64_t words[3] = {0}, hash = 0; /* the longest code has 18 bytes */
    memcpy(words, code, length);
    for (unsigned i = 0; i < 3; i++)
        hash = (hash ^ words[i] ^ hash >> 32) * 0x9e3779b97f4a7c15u;
    return (size_t)(hash ^ hash >> 32);
}

/* The first two bytes of a code say how long it is, so that no shorter one is read past its end. */
static int is_leaf(const leaf_set *leaves, const uint8_t *code, size_t length)
{
    for (size_t at = hash_of(code, length) & leaves->mask; leaves->slots[at]; at = (at + 1) & leaves->mask)
        if (memcmp(leaves->slots[at], code, HEAD) == 0 && memcmp(leaves->slots[at], code, length) == 0)
            return 1;
    return 0;
}

static leaf_set leaves_of(const uint8_t *sheet, size_t records)
{
    leaf_set leaves = {NULL, 1};
    while (leaves.mask < 2 * records)
        leaves.mask = 2 * leaves.mask + 1;
    leaves.slots = calloc(leaves.mask + 1, sizeof *leaves.slots);
    if (!leaves.slots)
        abort();
    for (size_t n = 0; n < records; n++) {
        header h = read_head(sheet + MARK);
        size_t at = hash_of(sheet + MARK, HEAD + h.d + h.boxes) & leaves.mask;
        while (leaves.slots[at])
            at = (at + 1) & leaves.mask;
        leaves.slots[at] = sheet + MARK;
        sheet += record_length(h);
    }
    return leaves;
}

/* Does a leaf have all vertices of the facet that leads to a cell, whose new vertex stands at a place? It is the cell; or its
 * parent, where the place is that of the cell's newest vertex; or its child 1 or 0, where the place is 0 or k. The place decides
 * which one of the three is looked for. */
static int is_met(const leaf_set *leaves, const uint8_t *code, size_t length, header h, unsigned place)
{
    uint8_t other[RMK_LONGEST_CODE];
    if (is_leaf(leaves, code, length))
        return 1;
    if (place == (h.k == h.d ? 1 : h.k + 1))
        return h.depth > 0 && is_leaf(leaves, other, put_parent(code, length, h, other));
    if (place != 0 && place != h.k)
        return 0;
    return h.depth < RMK_HALVINGS * h.d && is_leaf(leaves, other, put_child(code, length, h, place == 0, other));
}

/* Was the last step to child 1? Then entry k of the parent has not the own sign of the box before it. */
static int is_second(const uint8_t *code, header h)
{
    unsigned new_level = h.k == h.d, k = new_level ? 1 : h.k + 1;
    uint8_t moved = code[HEAD + k - 1];
    return h.depth > 0 && is_minus(moved) != is_high(own_sign(code + HEAD + h.d, h.boxes - new_level), axis_of(moved));
}

/* Is each facet of a leaf in a face of the cube, or met by another leaf? No two others lie beyond it: leaves do not overlap. As ours
 * does, it looks from child 0 alone, and not at facet 0. */
static int meets_leaves(const leaf_set *leaves, const uint8_t *code, header h)
{
    size_t length = HEAD + h.d + h.boxes;
    uint8_t across[RMK_LONGEST_CODE];
    if (is_second(code, h))
        return 1;
    for (unsigned facet = 1; facet <= h.d; facet++) {
        way_out way = way_across(code + HEAD, h, facet);
        if (leaves_cube(way))
            continue;
        unsigned place = put_across(code, length, h, facet, way, across);
        if (!is_met(leaves, across, length, h, place))
            return 0;
    }
    return 1;
}

rmk_compatible_answer plain_compatible(const uint8_t *sheet, size_t sheet_length)
{
    rmk_sheet_answer checked = plain_sheet_by_next(sheet, sheet_length);
    rmk_compatible_answer answer = {checked.refusal, 0, checked.offset};
    if (answer.refusal)
        return answer;
    leaf_set leaves = leaves_of(sheet, checked.records);
    answer.compatible = 1;
    for (size_t n = 0; n < checked.records && answer.compatible; n++) {
        header h = read_head(sheet + MARK);
        answer.compatible = (uint8_t)meets_leaves(&leaves, sheet + MARK, h);
        sheet += record_length(h);
    }
    free(leaves.slots);
    return answer;
}

static unsigned two_bytes(const uint8_t *at) { return at[0] | (unsigned)at[1] << 8; }

/* The coordinates of a point, or 0 where they are not d or one lies outside the cube. */
static int read_point(const uint8_t *bytes, size_t length, unsigned d, unsigned *point)
{
    if (length != 2 * d)
        return 0;
    for (unsigned a = 0; a < d; a++) {
        point[a] = two_bytes(bytes + 2 * a);
        if (point[a] > RMK_CUBE_SIDE)
            return 0;
    }
    return 1;
}

/* The first root that has the point: its axes from the greatest coordinate down, equal ones in order. Gives the root's number, and
 * the point's weights there: each vertex is the one before moved on one axis. */
static unsigned first_root(const unsigned *point, unsigned d, unsigned *weights)
{
    unsigned axes[MOST_AXES], number = 0, before = RMK_CUBE_SIDE;
    for (unsigned a = 0; a < d; a++) {
        unsigned at = a;
        for (; at > 0 && point[axes[at - 1]] < point[a]; at--)
            axes[at] = axes[at - 1];
        axes[at] = a;
    }
    for (unsigned i = 0; i < d; i++) {
        unsigned smaller = 0; /* of the axes that stand later */
        for (unsigned j = i + 1; j < d; j++)
            smaller += axes[j] < axes[i];
        number = number * (d - i) + smaller;
        weights[i] = before - point[axes[i]];
        before = point[axes[i]];
    }
    weights[d] = before;
    return number;
}

/* The first child that has the point. With m the midpoint of v0 and vk, v0 is 2m - vk and vk is 2m - v0. */
static unsigned step_toward(unsigned *weights, unsigned k)
{
    unsigned first = weights[0], last = weights[k];
    if (first >= last) {
        weights[0] = first - last;
        weights[k] = 2 * last;
        return 0;
    }
    for (unsigned i = 1; i < k; i++)
        weights[i - 1] = weights[i];
    weights[k - 1] = last - first;
    weights[k] = 2 * first;
    return 1;
}

/* Where on the line the first cell of a depth begins that has the point, in cells of that depth; and the point's weights there, of
 * the cube's side as their sum. */
static uint64_t way_down(const unsigned *point, unsigned d, unsigned depth, unsigned *weights)
{
    uint64_t at = first_root(point, d, weights);
    for (unsigned t = 0, k = d; t < depth; t++, k = k == 1 ? d : k - 1)
        at = 2 * at + step_toward(weights, k);
    return at;
}

/* The record of a good sheet whose cell has the cell of greatest depth at a place of the line. */
static const uint8_t *record_over(const uint8_t *record, uint64_t place, size_t *number)
{
    unsigned d = record[MARK], depth = record[MARK + 1];
    uint64_t end = (uint64_t)1 << (RMK_HALVINGS * d - depth);
    for (*number = 0; end <= place; ++*number) {
        record += MARK + HEAD + d + depth / d + 2 * (d + 1);
        depth = record[MARK + 1];
        end += (uint64_t)1 << (RMK_HALVINGS * d - depth);
    }
    return record;
}

/* The leaf at a point, and the point's weights there. */
typedef struct {
    uint8_t refusal;
    size_t offset, number;
    unsigned d, k, side, weights[MOST_AXES + 1];
    const uint8_t *entries, *samples;
} leaf;

static leaf leaf_at(const uint8_t *sheet, size_t sheet_length, const uint8_t *bytes, size_t length)
{
    rmk_sheet_answer checked = plain_sheet_by_next(sheet, sheet_length);
    leaf found = {checked.refusal, checked.offset, 0, 0, 0, 0, {0}, sheet, sheet};
    unsigned point[MOST_AXES] = {0};
    if (found.refusal)
        return found;
    found.d = sheet[MARK];
    if (!read_point(bytes, length, found.d, point)) {
        found.refusal = RMK_REFUSED_POINT;
        return found;
    }
    uint64_t place = way_down(point, found.d, RMK_HALVINGS * found.d, found.weights);
    const uint8_t *record = record_over(sheet, place, &found.number);
    header h = read_head(record + MARK);
    way_down(point, h.d, h.depth, found.weights);
    for (unsigned i = 0; i <= h.d; i++)
        found.weights[i] >>= h.boxes;
    found.k = h.k;
    found.side = RMK_CUBE_SIDE >> h.boxes;
    found.entries = record + MARK + HEAD;
    found.samples = found.entries + h.d + h.boxes;
    return found;
}

rmk_leaf_answer plain_leaf_at(const uint8_t *sheet, size_t sheet_length, const uint8_t *point,
                              size_t point_length, uint8_t *weights, size_t weights_length)
{
    leaf found = leaf_at(sheet, sheet_length, point, point_length);
    rmk_leaf_answer answer = {found.refusal, found.offset, 0, 0};
    if (!answer.refusal && weights_length < 2 * (found.d + 1))
        answer.refusal = RMK_REFUSED_SHORT;
    if (answer.refusal)
        return answer;
    put_point(weights, found.weights, found.d + 1);
    answer.number = found.number;
    answer.length = 2 * (found.d + 1);
    return answer;
}

rmk_value_answer plain_value_at(const uint8_t *sheet, size_t sheet_length, const uint8_t *point,
                                size_t point_length)
{
    leaf found = leaf_at(sheet, sheet_length, point, point_length);
    rmk_value_answer answer = {found.refusal, found.offset, 0};
    if (answer.refusal)
        return answer;
    uint32_t sum = 0; /* at most 4096 times 65,535 */
    for (unsigned i = 0; i <= found.d; i++)
        sum += found.weights[i] * two_bytes(found.samples + 2 * i);
    answer.value = (double)sum / found.side;
    return answer;
}

static int sample_at(const leaf *found, unsigned vertex) { return (int)two_bytes(found->samples + 2 * vertex); }

/* How much the samples rise along entry j, over the side of the box. Up to place k a vertex stands a side from the one before, past
 * it half a side; the first of those stands so far from the middle of v0 and vk. */
static int rise_along(const leaf *found, unsigned j)
{
    int here = sample_at(found, j + 1), before = sample_at(found, j);
    if (j < found->k)
        return here - before;
    if (j == found->k)
        return 2 * here - before - sample_at(found, 0);
    return 2 * (here - before);
}

rmk_slope_answer plain_slope_at(const uint8_t *sheet, size_t sheet_length, const uint8_t *point,
                                size_t point_length)
{
    leaf found = leaf_at(sheet, sheet_length, point, point_length);
    rmk_slope_answer answer = {found.refusal, found.offset, {0}};
    if (answer.refusal)
        return answer;
    for (unsigned j = 0; j < found.d; j++) {
        uint8_t entry = found.entries[j];
        int rise = rise_along(&found, j);
        answer.slope[axis_of(entry) - 1] = (double)(is_minus(entry) ? -rise : rise) / found.side;
    }
    return answer;
}
