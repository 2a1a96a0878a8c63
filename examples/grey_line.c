/*
 * Asks a volume for its grey value along a line: at the two ends and at the points between that cut it into so many
 * parts. The value is exact, and 17 digits are enough to print it so.
 * Exit status 1 if the sheet or a point is refused.
 */
#include "bytes.h"
#include "refusals.h"

#define MOST_COORDINATES 8

/* A whole coordinate of two bytes. */
static int read_coordinate(const char *word, long *number)
{
    char *end;
    *number = strtol(word, &end, 10);
    return *word != '\0' && *end == '\0' && 0 <= *number && *number <= 65535;
}

/* Prints one point and the value there. */
static void ask(const char *file, const uint8_t *sheet, size_t length, const uint8_t *point, size_t d)
{
    rmk_value_answer answer = rmk_value_at(sheet, length, point, 2 * d);
    if (answer.refusal != RMK_REFUSED_POINT)
        need_sheet(file, answer.refusal, answer.offset);
    print_point(point, d);
    if (answer.refusal == RMK_REFUSED_POINT) {
        printf(" %s\n", rmk_refusal_name(answer.refusal));
        exit(1);
    }
    printf(" %.17g\n", answer.value);
}

int main(int count, char **words)
{
    long ends[2 * MOST_COORDINATES];
    int d = (count - 3) / 2, good = count > 4 && count % 2 == 1 && d <= MOST_COORDINATES;
    for (int i = 0; good && i < 2 * d; i++)
        good = read_coordinate(words[3 + i], &ends[i]);
    long parts = good ? strtol(words[2], NULL, 10) : 0;
    if (parts < 1 || parts > 4096) {
        fprintf(stderr, "usage: grey_line file parts x y .. x y ..\n");
        return 2;
    }
    size_t length;
    uint8_t *sheet = read_file(words[1], &length), point[2 * MOST_COORDINATES];
    for (long n = 0; n <= parts; n++) {
        for (int a = 0; a < d; a++)
            put_number(point + 2 * a, (unsigned)((ends[a] * (parts - n) + ends[d + a] * n) / parts));
        ask(words[1], sheet, length, point, (size_t)d);
    }
    free(sheet);
    return 0;
}
