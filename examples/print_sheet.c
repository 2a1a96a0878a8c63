/*
 * Reads a sheet from a file and prints each leaf: its record's number, its code, and its vertices with their samples.
 * Exit status 1 if the sheet is refused.
 */
#include "bytes.h"
#include "refusals.h"

/* Prints the record that begins here, of a checked sheet, and gives its length. */
static size_t print_record(const uint8_t *record, size_t number)
{
    const uint8_t *code = record + 2; /* after the mark */
    const uint8_t *samples = code + code_length(code);
    uint8_t points[RMK_LONGEST_POINTS];
    size_t d = code[0];
    need_done("rmk_vertices", rmk_vertices(code, code_length(code), points, sizeof points).refusal);
    printf("leaf %zu ", number);
    print_hex(code, code_length(code));
    printf("\n");
    for (size_t i = 0; i <= d; i++) {
        printf("  ");
        print_point(points + 2 * d * i, d);
        printf(" %u\n", number_at(samples + 2 * i));
    }
    return (size_t)(samples - record) + 2 * (d + 1);
}

int main(int count, char **words)
{
    if (count != 2) {
        fprintf(stderr, "usage: print_sheet file\n");
        return 2;
    }
    size_t length, offset = 0;
    uint8_t *sheet = read_file(words[1], &length);
    rmk_sheet_answer answer = rmk_sheet_check(sheet, length);
    need_sheet(words[1], answer.refusal, answer.offset);
    printf("%zu leaves of dimension %u\n", answer.records, sheet[2]);
    for (size_t number = 0; number < answer.records; number++)
        offset += print_record(sheet + offset, number);
    free(sheet);
    return 0;
}
