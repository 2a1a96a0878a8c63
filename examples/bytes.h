/* Bytes as the library takes and gives them: numbers, codes and points; and the bytes of a file. */
#ifndef EXAMPLES_BYTES_H
#define EXAMPLES_BYTES_H

#include <stdint.h>
#include <stdio.h>
#include <stdlib.h>

/* A coordinate, a weight or a sample: two bytes, low byte first. */
static inline unsigned number_at(const uint8_t *bytes)
{
    return bytes[0] + 256u * bytes[1];
}

static inline void put_number(uint8_t *bytes, unsigned number)
{
    bytes[0] = (uint8_t)(number % 256);
    bytes[1] = (uint8_t)(number / 256);
}

/* The length of the good code that begins here. */
static inline size_t code_length(const uint8_t *code)
{
    return 2u + code[0] + code[1] / code[0];
}

static inline void print_hex(const uint8_t *bytes, size_t length)
{
    for (size_t i = 0; i < length; i++)
        printf("%02x", bytes[i]);
}

static inline void print_point(const uint8_t *point, size_t d)
{
    for (size_t a = 0; a < d; a++)
        printf("%s%u", a == 0 ? "(" : ",", number_at(point + 2 * a));
    printf(")");
}

/* All bytes of a file, in memory that is never null; ends the program where it cannot be read. */
static inline uint8_t *read_file(const char *name, size_t *length)
{
    FILE *file = fopen(name, "rb");
    size_t room = 4096;
    uint8_t *bytes = malloc(room);
    *length = 0;
    while (file != NULL && bytes != NULL) {
        size_t read = fread(bytes + *length, 1, room - *length, file);
        *length += read;
        if (read == 0)
            break;
        if (*length == room)
            bytes = realloc(bytes, room *= 2);
    }
    if (file == NULL || bytes == NULL || ferror(file)) {
        fprintf(stderr, "%s: it cannot be read\n", name);
        exit(2);
    }
    fclose(file);
    return bytes;
}

#endif
