/*
 * Walks around a vertex in dimension 2 and around an edge in dimension 3: from cell to cell of one depth, each time
 * across a facet that has the vertex or the edge, until the first cell comes back. A face of the cube stops the walk;
 * then it goes from the first cell the other way. A line has a cell, the facet that is crossed, and the new vertex.
 */
#include "bytes.h"
#include "refusals.h"

#include <stdbool.h>
#include <string.h>

/* A cell on the way. Two of its vertices do not belong to what is walked around: the next crossing leaves the one
   behind and keeps the other. */
typedef struct {
    uint8_t code[RMK_LONGEST_CODE];
    size_t length;
    uint8_t leaves;                      /* the one's place, which names the facet to cross */
    uint8_t keeps[2 * RMK_LONGEST_ROOT]; /* the other, as it stands among the cell's points */
} stand;

/* Where a walk begins: a cell, and both places. */
typedef struct {
    uint8_t code[RMK_LONGEST_CODE];
    size_t length;
    uint8_t leaves, keeps;
} start;

static void points_of(const uint8_t *code, size_t length, uint8_t *points)
{
    need_done("rmk_vertices", rmk_vertices(code, length, points, RMK_LONGEST_POINTS).refusal);
}

/* The place of a vertex that the cell is known to have. */
static uint8_t place_of(const stand *at, const uint8_t *vertex)
{
    uint8_t points[RMK_LONGEST_POINTS], place = 0;
    size_t size = 2u * at->code[0];
    points_of(at->code, at->length, points);
    while (memcmp(points + place * size, vertex, size) != 0)
        place++;
    return place;
}

/* Crosses, and turns to the next facet: the vertex that was kept is left next, and the new one is kept, which the
   answer carries. Gives false, and stays, where the facet lies in a face of the cube. */
static bool step(stand *at)
{
    stand next = *at;
    rmk_crossed across = rmk_cross(at->code, at->length, at->leaves, next.code, sizeof next.code);
    if (across.refusal == RMK_REFUSED_FACE)
        return false;
    need_done("rmk_cross", across.refusal);
    next.leaves = place_of(&next, at->keeps);
    for (size_t a = 0; a < next.code[0]; a++)
        put_number(next.keeps + 2 * a, across.vertex[a]);
    *at = next;
    return true;
}

/* Prints the cells from the first one on. Gives true where it comes back. */
static bool walk(stand first)
{
    stand at = first;
    size_t cells = 0;
    do {
        cells++;
        print_hex(at.code, at.length);
        printf(" across %u", at.leaves);
        if (!step(&at)) {
            printf("\na face of the cube, after %zu\n", cells);
            return false;
        }
        printf(" to ");
        print_point(at.keeps, at.code[0]);
        printf("\n");
    } while (memcmp(at.code, first.code, first.length) != 0);
    printf("back at the first cell, after %zu\n", cells);
    return true;
}

/* Only here are vertices asked for to know the one to keep: from then on it is the new one. */
static stand stand_at(const start *first, uint8_t leaves, uint8_t keeps)
{
    uint8_t points[RMK_LONGEST_POINTS];
    size_t size = 2u * first->code[0];
    stand at = {{0}, first->length, leaves, {0}};
    points_of(first->code, first->length, points);
    memcpy(at.code, first->code, first->length);
    memcpy(at.keeps, points + keeps * size, size);
    return at;
}

static void walk_around(const start *first)
{
    uint8_t points[RMK_LONGEST_POINTS];
    size_t d = first->code[0];
    points_of(first->code, first->length, points);
    printf("around");
    for (size_t place = 0; place <= d; place++)
        if (place != first->leaves && place != first->keeps) {
            printf(" ");
            print_point(points + place * 2 * d, d);
        }
    printf("\n");
    if (!walk(stand_at(first, first->leaves, first->keeps))) {
        printf("the other way\n");
        walk(stand_at(first, first->keeps, first->leaves));
    }
}

int main(void)
{
    static const start starts[] = {
        {{2, 1, 1, 2}, 4, 0, 1},             /* a vertex in the middle of the square */
        {{2, 3, 2, 1, 1}, 5, 1, 2},          /* a vertex on its side */
        {{3, 0, 1, 2, 3}, 5, 1, 2},          /* the cube's diagonal */
        {{3, 1, 2, 3, 0x81}, 5, 0, 2},       /* an edge with one end in the cube's middle */
        {{3, 3, 0x81, 2, 0x83, 5}, 6, 0, 3}, /* an edge in a face */
    };
    for (size_t i = 0; i < sizeof starts / sizeof starts[0]; i++)
        walk_around(&starts[i]);
    return 0;
}
