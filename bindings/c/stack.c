/* Prints the stack of each address of a PDB file or a records file, as `pdb_symbolizer -p PDB ADDRESS...` does:
 *
 *     stack PDB ADDRESS...
 *
 * An address is a hexadecimal number, relative to the load address. The exit status is 1 if the library refuses the
 * file or a call. It is 2 for all other errors, such as a file that can't be read or an invalid address.
 */
#include <errno.h>
#include <stdio.h>
#include <stdlib.h>

#include "limberlime.h"

/* Returns the whole file, which the caller frees, or null on failure. An empty file is not null. */
static uint8_t *read_file(const char *path, size_t *length)
{
    FILE *file = fopen(path, "rb");
    uint8_t *bytes = NULL;
    size_t capacity = 0;
    *length = 0;
    if (file == NULL)
        return NULL;
    do {
        capacity = capacity == 0 ? 65536 : 2 * capacity;
        uint8_t *more = (uint8_t *)realloc(bytes, capacity);
        if (more == NULL) {
            free(bytes);
            fclose(file);
            return NULL;
        }
        bytes = more;
        *length += fread(bytes + *length, 1, capacity - *length, file);
    } while (*length == capacity);
    if (ferror(file)) {
        free(bytes);
        bytes = NULL;
    }
    fclose(file);
    return bytes;
}

/* Reads an address in hexadecimal digits. Returns 1 if the argument is one, and 0 if it isn't. */
static int read_address(const char *word, uint32_t *address)
{
    char *end;
    errno = 0;
    unsigned long long number = strtoull(word, &end, 16);
    *address = (uint32_t)number;
    return errno == 0 && *end == '\0' && end != word && number <= UINT32_MAX;
}

static void print_frame(const struct limberlime_frame *frame, const char *before)
{
    printf("%s%s at %s:%lu:0\n", before, frame->function == NULL ? "??" : frame->function,
           frame->file == NULL ? "??" : frame->file, (unsigned long)frame->line);
}

/* Prints the stack of an address, or the error. An error of this address alone (LIMBERLIME_ADDRESS_REFUSED) prints `??`
 * and returns 0. */
static int print_stack(struct limberlime_handle *handle, uint32_t address)
{
    struct limberlime_function_frames found;
    int64_t answer = limberlime_find_frames(handle, address, &found);
    if (answer != 0) {
        fprintf(stderr, "stack: 0x%lx: %s\n", (unsigned long)address, limberlime_refusal_text(answer));
        if (answer != LIMBERLIME_ADDRESS_REFUSED)
            return 1;
        found.count = 0;
    }
    if (found.count == 0)
        printf("?? at ??:0:0\n");
    for (size_t i = 0; i < found.count; i++)
        print_frame(&found.frames[i], i == 0 ? "" : " (inlined by) ");
    printf("\n");
    return 0;
}

/* Opens the records file at a path. */
static int64_t open_records(const char *path, struct limberlime_handle *handle)
{
    size_t length;
    uint8_t *bytes = read_file(path, &length);
    if (bytes == NULL)
        return LIMBERLIME_CANNOT_READ_FILE;
    int64_t answer = limberlime_open(bytes, length, handle);
    free(bytes);
    return answer;
}

/* Opens the file at a path as a PDB file. If it isn't one, opens it as a records file. */
static int64_t open_file(const char *path, struct limberlime_handle *handle)
{
    int64_t answer = limberlime_open_path(path, handle);
    if (answer == LIMBERLIME_NOT_A_PDB_FILE && open_records(path, handle) == 0)
        return 0;
    return answer;
}

/* Prints the stacks of all addresses, up to the first error. */
static int print_stacks(struct limberlime_handle *handle, char **words)
{
    int status = 0;
    for (; status == 0 && *words != NULL; words++) {
        uint32_t address;
        if (!read_address(*words, &address)) {
            fprintf(stderr, "stack: an address is a hexadecimal number of 32 bits\n");
            return 2;
        }
        status = print_stack(handle, address);
    }
    return status;
}

int main(int argc, char **argv)
{
    if (argc < 3) {
        fprintf(stderr, "usage: stack PDB ADDRESS...\n");
        return 2;
    }
    struct limberlime_handle handle = LIMBERLIME_CLOSED;
    int64_t answer = open_file(argv[1], &handle);
    if (answer != 0) {
        fprintf(stderr, "stack: %s: %s\n", argv[1], limberlime_refusal_text(answer));
        return answer == LIMBERLIME_CANNOT_READ_FILE ? 2 : 1;
    }
    int status = print_stacks(&handle, argv + 2);
    limberlime_close(&handle);
    if (fflush(stdout) != 0)
        status = 2;
    return status;
}
