/*
 * Tests sheets for compatibility: of each facet in no face of the cube exactly one other leaf has all vertices.
 * Exit status 1 if one is refused or not compatible.
 */
#include "bytes.h"
#include "refusals.h"

/* The test needs 256 KiB of stack: a thread with a small one is no place for it. */
static int tell(const char *file)
{
    size_t length;
    uint8_t *sheet = read_file(file, &length);
    rmk_compatible_answer answer = rmk_compatible(sheet, length);
    free(sheet);
    if (answer.refusal != RMK_DONE) /* then answer.compatible is 0 and says nothing */
        printf("%s: %s at %zu\n", file, rmk_refusal_name(answer.refusal), answer.offset);
    else
        printf("%s: %s\n", file, answer.compatible ? "compatible" : "not compatible");
    return answer.refusal == RMK_DONE && answer.compatible ? 0 : 1;
}

int main(int count, char **words)
{
    int status = 0;
    if (count < 2) {
        fprintf(stderr, "usage: is_compatible file..\n");
        return 2;
    }
    for (int i = 1; i < count; i++)
        status |= tell(words[i]);
    return status;
}
