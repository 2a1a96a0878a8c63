/*
 * plain.h: the entries of reshmokhit.h in plain C, the measure that the proved library is held to.
 * Same bytes, same checks, same order of refusals; the parameters are those of the rmk_ entries. The compatibility test alone
 * allocates memory.
 */
#ifndef PLAIN_H
#define PLAIN_H

#include "reshmokhit.h"

uint8_t plain_code_check(const uint8_t *code, size_t code_length);
rmk_written plain_path_to_code(const uint8_t *root, size_t root_length, const uint8_t *path,
                               size_t path_length, uint8_t *code, size_t code_length);
rmk_path_written plain_code_to_path(const uint8_t *code, size_t code_length, uint8_t *root,
                                    size_t root_length, uint8_t *path, size_t path_length);
rmk_written plain_vertices(const uint8_t *code, size_t code_length, uint8_t *points,
                           size_t points_length);
rmk_written plain_child(const uint8_t *code, size_t code_length, uint8_t which, uint8_t *out,
                        size_t out_length);
rmk_written plain_parent(const uint8_t *code, size_t code_length, uint8_t *out, size_t out_length);
rmk_crossed plain_cross(const uint8_t *code, size_t code_length, uint8_t facet, uint8_t *out,
                        size_t out_length);
rmk_sheet_answer plain_sheet_check(const uint8_t *sheet, size_t sheet_length);
rmk_compatible_answer plain_compatible(const uint8_t *sheet, size_t sheet_length);
rmk_leaf_answer plain_leaf_at(const uint8_t *sheet, size_t sheet_length, const uint8_t *point,
                              size_t point_length, uint8_t *weights, size_t weights_length);
rmk_value_answer plain_value_at(const uint8_t *sheet, size_t sheet_length, const uint8_t *point,
                                size_t point_length);
rmk_slope_answer plain_slope_at(const uint8_t *sheet, size_t sheet_length, const uint8_t *point,
                                size_t point_length);

/* The sheet check once more, by another way: the next cell is kept as a code, and each record compared with it. */
rmk_sheet_answer plain_sheet_by_next(const uint8_t *sheet, size_t sheet_length);

#endif
