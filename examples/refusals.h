/* What the examples do at a refusal that they have no use for. */
#ifndef EXAMPLES_REFUSALS_H
#define EXAMPLES_REFUSALS_H

#include "reshmokhit.h"

#include <stdio.h>
#include <stdlib.h>

/* Goes on where the entry has done its work; ends the program, with the refusal's name, where not. */
static inline void need_done(const char *entry, uint8_t refusal)
{
    if (refusal == RMK_DONE)
        return;
    fprintf(stderr, "%s: %s\n", entry, rmk_refusal_name(refusal));
    exit(1);
}

/* The same of an entry that reads a sheet: a refusal of the sheet says where. */
static inline void need_sheet(const char *file, uint8_t refusal, size_t offset)
{
    if (refusal == RMK_DONE)
        return;
    fprintf(stderr, "%s: %s at %zu\n", file, rmk_refusal_name(refusal), offset);
    exit(1);
}

#endif
