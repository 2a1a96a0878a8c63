/*
 * Checks codes, given as hex on the command line, and prints of each its cell's vertices and its parent's code.
 * Exit status 1 if one is refused.
 */
#include "bytes.h"
#include "refusals.h"

#include <string.h>

#define DEFAULT_CODE "0202810201"
#define MOST_BYTES 64

/* Reads pairs of hex digits. Gives the number of bytes, or -1 if the text is not such. */
static int read_hex(const char *text, uint8_t *bytes)
{
    size_t count = strlen(text) / 2;
    if (strlen(text) % 2 != 0 || count > MOST_BYTES || strspn(text, "0123456789abcdefABCDEF") != 2 * count)
        return -1;
    for (size_t i = 0; i < count; i++) {
        unsigned value;
        sscanf(text + 2 * i, "%2x", &value);
        bytes[i] = (uint8_t)value;
    }
    return (int)count;
}

/* One line for each vertex. */
static void print_vertices(const uint8_t *code, size_t length)
{
    uint8_t points[RMK_LONGEST_POINTS];
    rmk_written written = rmk_vertices(code, length, points, sizeof points);
    need_done("rmk_vertices", written.refusal);
    size_t d = code[0];
    for (size_t at = 0; at < written.length; at += 2 * d) {
        printf("vertex %zu: ", at / (2 * d));
        print_point(points + at, d);
        printf("\n");
    }
}

static void print_parent(const uint8_t *code, size_t length)
{
    uint8_t parent[RMK_LONGEST_CODE];
    rmk_written written = rmk_parent(code, length, parent, sizeof parent);
    if (written.refusal == RMK_REFUSED_ROOT) {
        printf("parent none, it is a root\n");
        return;
    }
    need_done("rmk_parent", written.refusal);
    printf("parent ");
    print_hex(parent, written.length);
    printf("\n");
}

/* Gives the exit status: 0 if the code is good, 1 if it is refused, 2 if the text is not hex. */
static int tell(const char *text)
{
    uint8_t code[MOST_BYTES];
    int length = read_hex(text, code);
    if (length < 0) {
        fprintf(stderr, "usage: check_code [code in hex, at most %d bytes]..\n", MOST_BYTES);
        return 2;
    }
    printf("code %s\n", text);
    uint8_t refusal = rmk_code_check(code, (size_t)length);
    if (refusal != RMK_DONE) {
        printf("%s\n", rmk_refusal_name(refusal));
        return 1;
    }
    print_vertices(code, (size_t)length);
    print_parent(code, (size_t)length);
    return 0;
}

int main(int count, char **words)
{
    int status = count > 1 ? 0 : tell(DEFAULT_CODE);
    for (int i = 1; i < count && status < 2; i++) {
        int one = tell(words[i]);
        status = one > status ? one : status;
    }
    return status;
}
