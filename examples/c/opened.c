/* Prints what pdb_report prints for addresses. It reads the records once, for all addresses:
 *
 *     opened RECORDS (frames|names) ADDRESS...
 *
 * Each address is looked up by a call of its own. An address is a hexadecimal number. The exit status is 1 if the
 * library refuses the records or a call, and 2 for all other errors.
 */
#include <string.h>

#include "input.h"

typedef int64_t (*opened_call)(struct limberlime_handle *, const uint32_t *, size_t, uint8_t *, size_t, size_t *);

/* A buffer for all answers. It is enlarged if a text doesn't fit. */
struct buffer {
    uint8_t *bytes;
    size_t capacity;
};

/* Looks up one address. If the text is longer than the buffer, enlarges the buffer and makes the call again. */
static int64_t ask(opened_call call, struct limberlime_handle *handle, uint32_t address, struct buffer *buffer)
{
    size_t wanted = 0;
    int64_t length = call(handle, &address, 1, buffer->bytes, buffer->capacity, &wanted);
    if (length == LIMBERLIME_BUFFER_TOO_SMALL) {
        uint8_t *larger = realloc(buffer->bytes, wanted);
        if (larger == NULL)
            return LIMBERLIME_OUT_OF_MEMORY;
        buffer->bytes = larger;
        buffer->capacity = wanted;
        length = call(handle, &address, 1, buffer->bytes, buffer->capacity, &wanted);
    }
    return length;
}

/* Prints the answer for each address, up to the first error. */
static int print_answers(opened_call call, struct limberlime_handle *handle, const uint32_t *addresses, size_t count)
{
    struct buffer buffer = {malloc(256), 256};
    int64_t length = buffer.bytes == NULL ? LIMBERLIME_OUT_OF_MEMORY : 0;
    for (size_t i = 0; length >= 0 && i < count; i++) {
        length = ask(call, handle, addresses[i], &buffer);
        if (length > 0)
            fwrite(buffer.bytes, 1, (size_t)length, stdout);
    }
    if (length < 0)
        fprintf(stderr, "opened: %s\n", limberlime_refusal_text(length));
    free(buffer.bytes);
    return length < 0 ? 1 : 0;
}

/* Opens the records, prints the answers, and closes the records. */
static int print_opened(opened_call call, const uint8_t *records, size_t length, const uint32_t *addresses,
                        size_t count)
{
    struct limberlime_handle handle = LIMBERLIME_CLOSED;
    int64_t answer = limberlime_open(records, length, &handle);
    if (answer < 0) {
        fprintf(stderr, "opened: %s\n", limberlime_refusal_text(answer));
        return 1;
    }
    int status = print_answers(call, &handle, addresses, count);
    limberlime_close(&handle);
    return status;
}

int main(int argc, char **argv)
{
    opened_call call = NULL;
    if (argc >= 4 && strcmp(argv[2], "frames") == 0)
        call = limberlime_frames_of;
    if (argc >= 4 && strcmp(argv[2], "names") == 0)
        call = limberlime_names_of;
    if (call == NULL) {
        fprintf(stderr, "usage: opened RECORDS (frames|names) ADDRESS...\n");
        return 2;
    }
    size_t length, count = (size_t)argc - 3;
    uint8_t *records = read_file(argv[1], &length);
    uint32_t *addresses = read_addresses(argv + 3, count);
    int status = 2;
    if (records == NULL)
        fprintf(stderr, "opened: cannot read %s\n", argv[1]);
    else if (addresses == NULL)
        fprintf(stderr, "opened: an address is a hexadecimal number of 32 bits\n");
    else
        status = print_opened(call, records, length, addresses, count);
    if (fflush(stdout) != 0)
        status = 2;
    free(addresses);
    free(records);
    return status;
}
