/*
 * plain_list.c: the listing program in plain C. The sheet check, then a line for each record.
 */
#include "plain.h"

#include <stdio.h>
#include <string.h>

#define LIMIT 65536

static char text[2 * LIMIT + 32];

static size_t decimal(char *out, size_t n)
{
    char digits[20];
    size_t count = 0;
    do
        digits[count++] = (char)('0' + n % 10);
    while (n /= 10);
    for (size_t i = 0; i < count; i++)
        out[i] = digits[count - 1 - i];
    return count;
}

static size_t line(char *out, const char *word, size_t n)
{
    size_t at = strlen(word);
    memcpy(out, word, at);
    at += decimal(out + at, n);
    out[at] = '\n';
    return at + 1;
}

static size_t leaf(char *out, size_t number, const uint8_t *code, size_t length)
{
    static const char hex[] = "0123456789abcdef";
    size_t at = decimal(out, number);
    out[at++] = ' ';
    for (size_t i = 0; i < length; i++) {
        out[at++] = hex[code[i] >> 4];
        out[at++] = hex[code[i] & 15];
    }
    out[at] = '\n';
    return at + 1;
}

static size_t good(const uint8_t *sheet, size_t records)
{
    size_t to = line(text, "dim ", sheet[2]);
    for (size_t number = 0; number < records; number++) {
        size_t d = sheet[2], length = 2 + d + sheet[3] / d;
        to += leaf(text + to, number, sheet + 2, length);
        sheet += 2 + length + 2 * (d + 1);
    }
    return to + line(text + to, "leaves ", records);
}

int main(void)
{
    static uint8_t sheet[LIMIT + 1];
    size_t length = fread(sheet, 1, sizeof sheet, stdin);
    rmk_sheet_answer answer = {RMK_REFUSED_INPUT, 0, 0};
    if (length <= LIMIT)
        answer = plain_sheet_check(sheet, length);
    if (answer.refusal)
        length = (size_t)sprintf(text, "refused %u at %zu\n", answer.refusal, answer.offset);
    else
        length = good(sheet, answer.records);
    return fwrite(text, 1, length, stdout) != length;
}
