/* Prints what pdb_report prints for addresses, by one call of the library:
 *
 *     report RECORDS (frames|names) ADDRESS...
 *
 * An address is a hexadecimal number. The exit status is 1 if the library refuses the call, and 2 for all other errors.
 */
#include <string.h>

#include "input.h"

typedef int64_t (*report_call)(const uint8_t *, size_t, const uint32_t *, size_t, uint8_t *, size_t, size_t *);

/* Prints a report. If the first buffer is too small, the call stores the length that is needed, and is made again. */
static int print_report(report_call call, const uint8_t *records, size_t records_length, const uint32_t *addresses,
                        size_t address_count)
{
    size_t capacity = 4096, wanted = 0;
    uint8_t *buffer = malloc(capacity);
    int64_t length = LIMBERLIME_OUT_OF_MEMORY;
    if (buffer != NULL)
        length = call(records, records_length, addresses, address_count, buffer, capacity, &wanted);
    if (length == LIMBERLIME_BUFFER_TOO_SMALL) {
        uint8_t *larger = realloc(buffer, wanted);
        if (larger != NULL) {
            buffer = larger;
            length = call(records, records_length, addresses, address_count, buffer, wanted, &wanted);
        }
    }
    if (length < 0)
        fprintf(stderr, "report: %s\n", limberlime_refusal_text(length));
    else
        fwrite(buffer, 1, (size_t)length, stdout);
    free(buffer);
    return length < 0 ? 1 : 0;
}

int main(int argc, char **argv)
{
    report_call call = NULL;
    if (argc >= 3 && strcmp(argv[2], "frames") == 0)
        call = limberlime_frames;
    if (argc >= 3 && strcmp(argv[2], "names") == 0)
        call = limberlime_names;
    if (call == NULL) {
        fprintf(stderr, "usage: report RECORDS (frames|names) ADDRESS...\n");
        return 2;
    }
    size_t records_length, address_count = (size_t)argc - 3;
    uint8_t *records = read_file(argv[1], &records_length);
    uint32_t *addresses = read_addresses(argv + 3, address_count);
    int status = 2;
    if (records == NULL)
        fprintf(stderr, "report: cannot read %s\n", argv[1]);
    else if (addresses == NULL)
        fprintf(stderr, "report: an address is a hexadecimal number of 32 bits\n");
    else
        status = print_report(call, records, records_length, addresses, address_count);
    if (fflush(stdout) != 0)
        status = 2;
    free(addresses);
    free(records);
    return status;
}
