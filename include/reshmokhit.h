/*
 * reshmokhit.h: location codes of bisected simplices in dimension 2, 3 and 4.
 *
 * The cube is 0 to 4096 on each axis. Its d! roots are halved again and again; each cell that arises
 * has one code, a short byte string. Document 01 decides every rule; this header says how to call.
 *
 * What holds for every entry:
 *
 *  - A byte slice is a pointer and a length. The pointer is valid for its length: so many bytes may be
 *    read and, where the slice is a lent output, written. At length 0 nothing is read or written, and
 *    any non-null pointer will do, for example one to a single byte. No pointer is null.
 *  - A lent output overlaps no other argument. Inputs may overlap each other.
 *  - The answer's refusal is the first that applies, in the order named at the entry, or RMK_DONE.
 *  - A refusal changes no lent cell, and the answer's other numbers are zero, with one exception: a
 *    refusal found while reading a sheet gives the offset too. On success the cells past the answer
 *    keep their content.
 *  - In a byte slice a coordinate is two bytes, low byte first; so is a weight.
 *
 * The archive's global symbols all begin with rmk_, and it needs none but the C library's memset.
 *
 * The order for a code, named once: RMK_REFUSED_LENGTH (under 2 bytes), DIMENSION, DEPTH, LENGTH,
 * PERMUTATION, ORTHANT, SIGN.
 */
#ifndef RESHMOKHIT_H
#define RESHMOKHIT_H

#include <stddef.h>
#include <stdint.h>

#ifdef __cplusplus
extern "C" {
#endif

/* The version. It stands here alone: the scripts read this line. */
#define RMK_VERSION "0.12.0"

/* Sizes. The longest ones suffice as lent outputs in every dimension. */
#define RMK_HALVINGS 12        /* the greatest depth is this times the dimension */
#define RMK_CUBE_SIDE 4096     /* two to the power RMK_HALVINGS */
#define RMK_LONGEST_ROOT 4     /* bytes: d */
#define RMK_LONGEST_PATH 48    /* bytes: one for each step */
#define RMK_LONGEST_CODE 18    /* bytes: 2 + d + depth div d */
#define RMK_LONGEST_POINTS 40  /* bytes: 2 d (d + 1) */
#define RMK_LONGEST_WEIGHTS 10 /* bytes: 2 (d + 1) */

/* Refusal numbers. */
#define RMK_DONE 0                /* done */
#define RMK_REFUSED_DIMENSION 1   /* dimension is not 2, 3 or 4 */
#define RMK_REFUSED_DEPTH 2       /* depth above 12 d */
#define RMK_REFUSED_LENGTH 3      /* a code alone: under 2 bytes, or not 2 + d + depth div d bytes */
#define RMK_REFUSED_PERMUTATION 4 /* axis outside 1..d, or repeated; in a root also any sign */
#define RMK_REFUSED_ORTHANT 5     /* an orthant byte of 2^d or more */
#define RMK_REFUSED_SIGN 6        /* a sign that the box forbids */
#define RMK_REFUSED_STEP 7        /* facet above d, child above 1, or path byte above 1 */
#define RMK_REFUSED_FACE 8        /* facet lies in a face of the cube */
#define RMK_REFUSED_ROOT 9        /* parent of a root */
#define RMK_REFUSED_DEEPEST 10    /* child at the greatest depth */
#define RMK_REFUSED_SHORT 11      /* a lent output is shorter than the answer */
#define RMK_REFUSED_POINT 12      /* point has not d coordinates, or one outside 0 to 4096 */
#define RMK_REFUSED_RECORD 13     /* sheet: mark missing or wrong, or record cut short */
#define RMK_REFUSED_LEAF 14       /* sheet: another dimension, not the next leaf, or ended early */
#define RMK_REFUSED_INPUT 15      /* listing program only: input over 65,536 bytes */

/* Answer of an entry with one lent output. */
typedef struct {
    uint8_t refusal;
    size_t length; /* bytes written, from the output's first cell on */
} rmk_written;

/* Answer of code to path, which has two lent outputs. */
typedef struct {
    uint8_t refusal;
    size_t axes;  /* bytes written to the root: d */
    size_t depth; /* bytes written to the path */
} rmk_path_written;

/* Answer of crossing. */
typedef struct {
    uint8_t refusal;
    uint8_t place;      /* of the new vertex, in the cell across */
    size_t length;      /* bytes written, from the output's first cell on */
    uint16_t vertex[4]; /* the new vertex: a coordinate for each axis, axis 1 first; 0 past the dimension */
} rmk_crossed;

/* Answer of the sheet check. */
typedef struct {
    uint8_t refusal;
    size_t offset;  /* on a refusal: where the record's first mark byte stands or should stand; else 0 */
    size_t records; /* of a good sheet, else 0 */
} rmk_sheet_answer;

/* Answer of the compatibility test. */
typedef struct {
    uint8_t refusal;
    uint8_t compatible; /* 1 for yes, 0 for no and on a refusal */
    size_t offset;      /* on a refusal: as the sheet check gives it; else 0 */
} rmk_compatible_answer;

/* Answer of the leaf at a point. */
typedef struct {
    uint8_t refusal;
    size_t offset; /* on a refusal of the sheet: as the sheet check gives it; else 0 */
    size_t number; /* the record's, counted from 0 */
    size_t length; /* bytes of weights written, from the output's first cell on */
} rmk_leaf_answer;

/* Answer of the grey value at a point. */
typedef struct {
    uint8_t refusal;
    size_t offset; /* on a refusal of the sheet: as the sheet check gives it; else 0 */
    double value;  /* exact; +0.0 on a refusal */
} rmk_value_answer;

/* Answer of the slope at a point. */
typedef struct {
    uint8_t refusal;
    size_t offset;   /* on a refusal of the sheet: as the sheet check gives it; else 0 */
    double slope[4]; /* exact, axis 1 first; +0.0 past the dimension and on a refusal */
} rmk_slope_answer;

/** Code check: is a byte string the code of a cell?
 * \param [in] code     The byte string: dimension; depth D; d signed axes (plus 128 for minus);
 *                      D div d orthants (bit a-1 set for the high side of axis a).
 * \return              The refusal, or RMK_DONE for the code of exactly one cell.
 *
 * Refusals, in order:  those for a code.
 * Assumed:             `code` is non-null and valid for `code_length` bytes.
 * Example:             02 01 02 81 is done, 02 01 81 02 is RMK_REFUSED_SIGN.
 */
uint8_t rmk_code_check(const uint8_t *code, size_t code_length);

/** Path to code: the code of the cell that a root and a path lead to.
 * \param [in] root     d axes, each of 1..d once; their number is the dimension.
 * \param [in] path     One byte, 0 or 1, for each step.
 * \param [out] code    Lent. Gets the code: 2 + d + path_length div d bytes.
 * \return              The refusal, and the code's length.
 *
 * Refusals, in order:  RMK_REFUSED_DIMENSION (root length), DEPTH (path length), PERMUTATION, STEP,
 *                      SHORT.
 * Assumed:             each pointer is non-null and valid for its length; `code` overlaps neither
 *                      `root` nor `path`.
 * Example:             root 01 02 and path 00 01 give 02 02 81 02 01, length 5.
 */
rmk_written rmk_path_to_code(const uint8_t *root, size_t root_length, const uint8_t *path,
                             size_t path_length, uint8_t *code, size_t code_length);

/** Code to path: the root and the path that lead to the cell of a code; undoes path to code.
 * \param [in] code     The code.
 * \param [out] root    Lent. Gets d axes.
 * \param [out] path    Lent. Gets one byte, 0 or 1, for each step. Both are filled, or neither.
 * \return              The refusal, and the bytes written to each output.
 *
 * Refusals, in order:  those for a code; RMK_REFUSED_SHORT (either output).
 * Assumed:             each pointer is non-null and valid for its length; neither output overlaps the
 *                      code or the other output.
 * Example:             02 02 81 02 01 gives root 01 02 and path 00 01; axes 2, depth 2.
 */
rmk_path_written rmk_code_to_path(const uint8_t *code, size_t code_length, uint8_t *root,
                                  size_t root_length, uint8_t *path, size_t path_length);

/** Vertices: the points of a cell, in vertex order.
 * \param [in] code     The code.
 * \param [out] points  Lent. Gets d + 1 points of d coordinates: 2 d (d + 1) bytes.
 * \return              The refusal, and the bytes written.
 *
 * Refusals, in order:  those for a code; RMK_REFUSED_SHORT.
 * Assumed:             each pointer is non-null and valid for its length; `points` does not overlap
 *                      `code`.
 * Example:             02 02 81 02 01 gives (4096,0) (2048,0) (2048,2048), which is
 *                      00 10 00 00  00 08 00 00  00 08 00 08, length 12.
 */
rmk_written rmk_vertices(const uint8_t *code, size_t code_length, uint8_t *points,
                         size_t points_length);

/** Child: the code of child 0 or child 1 of a cell.
 * \param [in] code     The code.
 * \param [in] which    0 or 1.
 * \param [out] out     Lent. Gets the child's code.
 * \return              The refusal, and the child's code length.
 *
 * Refusals, in order:  those for a code; RMK_REFUSED_STEP (which above 1), DEEPEST, SHORT.
 * Assumed:             each pointer is non-null and valid for its length; `out` does not overlap
 *                      `code`.
 * Example:             child 1 of 02 00 01 02 is 02 01 02 81, length 4.
 */
rmk_written rmk_child(const uint8_t *code, size_t code_length, uint8_t which, uint8_t *out,
                      size_t out_length);

/** Parent: the code of the cell that a cell is a child of.
 * \param [in] code     The code.
 * \param [out] out     Lent. Gets the parent's code.
 * \return              The refusal, and the parent's code length.
 *
 * Refusals, in order:  those for a code; RMK_REFUSED_ROOT, SHORT.
 * Assumed:             each pointer is non-null and valid for its length; `out` does not overlap
 *                      `code`.
 * Example:             the parent of 02 02 81 02 01 is 02 01 01 02, length 4.
 */
rmk_written rmk_parent(const uint8_t *code, size_t code_length, uint8_t *out, size_t out_length);

/** Crossing: the one other cell of the same depth that has all vertices of a facet.
 * \param [in] code     The code.
 * \param [in] facet    The place, 0..d, of the vertex that the facet lacks.
 * \param [out] out     Lent. Gets the code of the cell across, as long as `code`.
 * \return              The refusal, the place of the new vertex in the cell across (it may differ from
 *                      `facet`), the code's length, and the new vertex's coordinates, those that
 *                      rmk_vertices gives at the place.
 *
 * Beside rmk_child:    let facet j of child b lie inside this facet. Crossing j is refused with FACE
 *                      exactly where crossing this facet is. Otherwise it gives, with place j, child b of
 *                      the cell across, or child 1 - b where the place answered here is not `facet`.
 *
 * Refusals, in order:  those for a code; RMK_REFUSED_STEP (facet above d), FACE, SHORT.
 * Assumed:             each pointer is non-null and valid for its length; `out` does not overlap
 *                      `code`.
 * Example:             02 01 01 02 across facet 0 is 02 01 02 81, place 1, length 4, vertex (4096,4096),
 *                      which is 4096, 4096, 0, 0.
 */
rmk_crossed rmk_cross(const uint8_t *code, size_t code_length, uint8_t facet, uint8_t *out,
                      size_t out_length);

/** Sheet check: does a byte string list, in tree order, the leaves of a forest on all d! roots?
 * \param [in] sheet    The sheet: for each leaf the mark 43 4C, the code, and d + 1 samples of two
 *                      bytes, low byte first.
 * \return              The refusal, its offset, and the number of records of a good sheet. An early end
 *                      is refused at the sheet's length.
 *
 * Refusals, in order:  for each record in turn RMK_REFUSED_RECORD (mark, or fewer than two bytes after
 *                      it), DIMENSION, DEPTH, RECORD (code cut short), PERMUTATION, ORTHANT, SIGN,
 *                      RECORD (samples cut short), LEAF. Bytes after the completing leaf are read as
 *                      one more record.
 * Assumed:             `sheet` is non-null and valid for `sheet_length` bytes.
 * Example:             43 4C 02 00 01 02 0A 00 14 00 32 00  43 4C 02 00 02 01 0A 00 1E 00 32 00 is
 *                      done with 2 records; its first 12 bytes are RMK_REFUSED_LEAF, offset 12.
 */
rmk_sheet_answer rmk_sheet_check(const uint8_t *sheet, size_t sheet_length);

/** Compatibility test: are the leaves of a sheet compatible? They are when, for each leaf and each facet not
 * in a face of the cube, exactly one other leaf has all that facet's vertices. Vertices are points, in
 * whatever order; another leaf is another record.
 * \param [in] sheet    The sheet, as the sheet check takes it. The whole of it is checked at each call.
 * \return              The refusal, 1 for yes or 0 for no, and the refusal's offset.
 *
 * Refusals, in order:  those of the sheet check, with its offset.
 * Assumed:             `sheet` is non-null and valid for `sheet_length` bytes; 256 KiB of stack are left,
 *                      most of which an index of 10,240 records takes.
 * Example:             the sheet check's 24 bytes are compatible, 1. With its first record replaced by
 *                      that leaf's halves, 02 01 01 02 and 02 01 02 81, they are not, 0: the ends of the
 *                      other root's longest edge, (0,0) and (4096,4096), are in no other leaf together. With
 *                      that root replaced by its halves too, 02 01 02 01 and 02 01 01 82, they are: 1.
 * Cost:                one pass to check the sheet and one to fill the index; then, for each leaf that is a
 *                      cell's child 0 and each of its facets but facet 0, one crossing and one search: among
 *                      the index's records by halving, and from there over at most records / 9216 more,
 *                      none where the cell stands near its leaf in tree order, as most do.
 */
rmk_compatible_answer rmk_compatible(const uint8_t *sheet, size_t sheet_length);

/** Leaf at a point: the first leaf in tree order whose closed cell contains the point, and the point's
 * weights there.
 * \param [in] sheet    The sheet, as the sheet check takes it. The whole of it is checked at each call.
 * \param [in] point    d coordinates, each from 0 to 4096: 2 d bytes.
 * \param [out] weights Lent. Gets d + 1 weights, one for each vertex of the leaf, in vertex order:
 *                      2 (d + 1) bytes. With s the side of the leaf's box, they are the only whole
 *                      numbers from 0 to s of sum s whose weighted vertices sum to s times the point.
 * \return              The refusal, its offset, the record's number and the bytes written.
 *
 * Refusals, in order:  those of the sheet check, with its offset; RMK_REFUSED_POINT, SHORT.
 * Assumed:             each pointer is non-null and valid for its length; `weights` overlaps neither
 *                      `sheet` nor `point`.
 * Example:             the sheet check's 24 bytes at (1024,1024), which is 00 04 00 04: record 0, weights
 *                      3072, 0, 1024, which is 00 0C  00 00  00 04, length 6.
 */
rmk_leaf_answer rmk_leaf_at(const uint8_t *sheet, size_t sheet_length, const uint8_t *point,
                            size_t point_length, uint8_t *weights, size_t weights_length);

/** Grey value at a point: the weighted samples of the leaf at the point.
 * \param [in] sheet    The sheet, as the sheet check takes it. The whole of it is checked at each call.
 * \param [in] point    d coordinates, each from 0 to 4096: 2 d bytes.
 * \return              The refusal, its offset, and the value: the sum of weight i times sample i,
 *                      divided by s. A binary64 holds it exactly; zero is +0.0.
 *
 * Refusals, in order:  those of the sheet check, with its offset; RMK_REFUSED_POINT.
 * Assumed:             each pointer is non-null and valid for its length.
 * Example:             the sheet check's 24 bytes at (1024,1024), which is 00 04 00 04: value 20.
 */
rmk_value_answer rmk_value_at(const uint8_t *sheet, size_t sheet_length, const uint8_t *point,
                              size_t point_length);

/** Slope at a point: the slope of the grey field in the leaf at the point.
 * \param [in] sheet    The sheet, as the sheet check takes it. The whole of it is checked at each call.
 * \param [in] point    d coordinates, each from 0 to 4096: 2 d bytes.
 * \return              The refusal, its offset, and on each axis the slope of the only linear function
 *                      through the leaf's samples, sample i at vertex i. With s the side of the leaf's box,
 *                      there are whole numbers n1 .. nd such that for any two vertices u and v of the leaf,
 *                      s times (sample of u - sample of v) is the sum over the axes a of na times (ua - va).
 *                      The slope on axis a is na divided by s. A binary64 holds it exactly; zero is +0.0.
 *
 * Refusals, in order:  those of the sheet check, with its offset; RMK_REFUSED_POINT.
 * Assumed:             each pointer is non-null and valid for its length.
 * Example:             the sheet check's 24 bytes at (1024,512), which is 00 04 00 02: slopes 10/4096 and
 *                      30/4096, which is 0.00244140625, 0.00732421875, 0, 0.
 */
rmk_slope_answer rmk_slope_at(const uint8_t *sheet, size_t sheet_length, const uint8_t *point,
                              size_t point_length);

/* Refusals in words. These two are plain C and in no archive: it has the proved entries and no more. */

/** Refusal's name: that of its constant.
 * \param [in] refusal  The refusal number, or any other.
 * \return              The name, or "unknown" where no refusal has the number. It is not to be freed.
 *
 * Example:             6 gives "RMK_REFUSED_SIGN", 16 gives "unknown".
 */
static inline const char *rmk_refusal_name(uint8_t refusal)
{
    switch (refusal) {
    case RMK_DONE: return "RMK_DONE";
    case RMK_REFUSED_DIMENSION: return "RMK_REFUSED_DIMENSION";
    case RMK_REFUSED_DEPTH: return "RMK_REFUSED_DEPTH";
    case RMK_REFUSED_LENGTH: return "RMK_REFUSED_LENGTH";
    case RMK_REFUSED_PERMUTATION: return "RMK_REFUSED_PERMUTATION";
    case RMK_REFUSED_ORTHANT: return "RMK_REFUSED_ORTHANT";
    case RMK_REFUSED_SIGN: return "RMK_REFUSED_SIGN";
    case RMK_REFUSED_STEP: return "RMK_REFUSED_STEP";
    case RMK_REFUSED_FACE: return "RMK_REFUSED_FACE";
    case RMK_REFUSED_ROOT: return "RMK_REFUSED_ROOT";
    case RMK_REFUSED_DEEPEST: return "RMK_REFUSED_DEEPEST";
    case RMK_REFUSED_SHORT: return "RMK_REFUSED_SHORT";
    case RMK_REFUSED_POINT: return "RMK_REFUSED_POINT";
    case RMK_REFUSED_RECORD: return "RMK_REFUSED_RECORD";
    case RMK_REFUSED_LEAF: return "RMK_REFUSED_LEAF";
    case RMK_REFUSED_INPUT: return "RMK_REFUSED_INPUT";
    default: return "unknown";
    }
}

/** Refusal's sentence: when it is given, as the comment at its constant says.
 * \param [in] refusal  The refusal number, or any other.
 * \return              The sentence, or "no refusal has this number". It is not to be freed.
 *
 * Example:             6 gives "a sign that the box forbids", 16 gives "no refusal has this number".
 */
static inline const char *rmk_refusal_text(uint8_t refusal)
{
    switch (refusal) {
    case RMK_DONE: return "done";
    case RMK_REFUSED_DIMENSION: return "dimension is not 2, 3 or 4";
    case RMK_REFUSED_DEPTH: return "depth above 12 d";
    case RMK_REFUSED_LENGTH: return "a code alone: under 2 bytes, or not 2 + d + depth div d bytes";
    case RMK_REFUSED_PERMUTATION: return "axis outside 1..d, or repeated; in a root also any sign";
    case RMK_REFUSED_ORTHANT: return "an orthant byte of 2^d or more";
    case RMK_REFUSED_SIGN: return "a sign that the box forbids";
    case RMK_REFUSED_STEP: return "facet above d, child above 1, or path byte above 1";
    case RMK_REFUSED_FACE: return "facet lies in a face of the cube";
    case RMK_REFUSED_ROOT: return "parent of a root";
    case RMK_REFUSED_DEEPEST: return "child at the greatest depth";
    case RMK_REFUSED_SHORT: return "a lent output is shorter than the answer";
    case RMK_REFUSED_POINT: return "point has not d coordinates, or one outside 0 to 4096";
    case RMK_REFUSED_RECORD: return "sheet: mark missing or wrong, or record cut short";
    case RMK_REFUSED_LEAF: return "sheet: another dimension, not the next leaf, or ended early";
    case RMK_REFUSED_INPUT: return "listing program only: input over 65,536 bytes";
    default: return "no refusal has this number";
    }
}

#ifdef __cplusplus
}
#endif

#endif
