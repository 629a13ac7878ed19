/* The input of the examples: a file, and the addresses of a command line. */
#ifndef INPUT_H
#define INPUT_H

#include <errno.h>
#include <stdio.h>
#include <stdlib.h>

#include "limberlime.h"

/* Returns the whole file, which the caller frees, or null on failure. An empty file is not null. */
static inline uint8_t *read_file(const char *path, size_t *length)
{
    FILE *file = fopen(path, "rb");
    uint8_t *bytes = NULL;
    size_t capacity = 0;
    *length = 0;
    if (file == NULL)
        return NULL;
    do {
        capacity = capacity == 0 ? 65536 : 2 * capacity;
        uint8_t *more = realloc(bytes, capacity);
        if (more == NULL) {
            free(bytes);
            fclose(file);
            return NULL;
        }
        bytes = more;
        *length += fread(bytes + *length, 1, capacity - *length, file);
    } while (*length == capacity);
    if (ferror(file)) {
        free(bytes);
        bytes = NULL;
    }
    fclose(file);
    return bytes;
}

/* Reads the addresses in hexadecimal digits. The caller frees them. Returns null if an argument isn't an address. */
static inline uint32_t *read_addresses(char **words, size_t count)
{
    uint32_t *addresses = malloc((count + 1) * sizeof *addresses);
    for (size_t i = 0; addresses != NULL && i < count; i++) {
        char *end;
        errno = 0;
        unsigned long long address = strtoull(words[i], &end, 16);
        if (errno != 0 || *end != '\0' || end == words[i] || address > UINT32_MAX) {
            free(addresses);
            return NULL;
        }
        addresses[i] = (uint32_t)address;
    }
    return addresses;
}

#endif
