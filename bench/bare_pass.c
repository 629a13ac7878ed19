/* How long it takes to look at all records of types, ids and symbols of a PDB file, and to do nothing else.
 *
 *     cc -O2 -o bare_pass bare_pass.c
 *     ./bare_pass app.pdb
 *
 * The streams are read through a buffer. The place of each type and id is kept, an entry of each symbol, and the name of
 * each public one. It prints the microseconds of processor time, the kilobytes of memory that it held at most, and how
 * many records there were. Files are taken as whole: nothing is looked at but what is needed to go on. */
#include <fcntl.h>
#include <stdint.h>
#include <stdio.h>
#include <stdlib.h>
#include <string.h>
#include <sys/resource.h>
#include <unistd.h>

enum { TYPES = 2, DEBUG_INFORMATION = 3, IDS = 4, PUBLIC = 0x110e, PIECE = 131072, LONGEST_RECORD = 65537 };

static int file;
static uint32_t block_size;
static uint8_t *directory;

static uint32_t four(const uint8_t *bytes) { uint32_t number; memcpy(&number, bytes, 4); return number; }
static uint16_t two(const uint8_t *bytes) { uint16_t number; memcpy(&number, bytes, 2); return number; }

static void read_at(void *buffer, size_t count, uint64_t place) {
    if (pread(file, buffer, count, place) < 0) { perror("pread"); exit(1); }
}

static uint32_t blocks_over(uint32_t size) { return size == UINT32_MAX ? 0 : (size + block_size - 1) / block_size; }

static uint32_t size_of(uint32_t stream) { return four(directory + 4 + 4 * stream); }

static const uint8_t *numbers_of(uint32_t stream) {
    const uint8_t *numbers = directory + 4 + 4 * four(directory);
    for (uint32_t before = 0; before < stream; before++) numbers += 4 * blocks_over(size_of(before));
    return numbers;
}

static void read_directory(void) {
    uint8_t front[56];
    read_at(front, sizeof front, 0);
    block_size = four(front + 32);
    uint32_t count = blocks_over(four(front + 44));
    uint8_t *numbers = malloc(4 * count);
    read_at(numbers, 4 * count, (uint64_t)four(front + 52) * block_size);
    directory = malloc((size_t)count * block_size);
    for (uint32_t at = 0; at < count; at++)
        read_at(directory + (size_t)at * block_size, block_size, (uint64_t)four(numbers + 4 * at) * block_size);
    free(numbers);
}

/* A list that grows by doubling. */
struct list { uint8_t *items; size_t size, count, room; };

static void *one_more(struct list *list) {
    if (list->count == list->room) {
        list->room = list->room ? 2 * list->room : 4;
        list->items = realloc(list->items, list->size * list->room);
    }
    return list->items + list->size * list->count++;
}

/* An entry of a symbol has as many bytes as one of the library. */
struct symbol { uint16_t kind, section; uint32_t offset; uint8_t *name; size_t length; uint64_t others[4]; };

static struct list starts = {0, 4, 0, 0}, symbols = {0, sizeof(struct symbol), 0, 0};

static void keep_start(const uint8_t *record, uint32_t place) { (void)record; *(uint32_t *)one_more(&starts) = place; }

static void keep_symbol(const uint8_t *record, uint32_t place) {
    (void)place;
    struct symbol *symbol = one_more(&symbols);
    *symbol = (struct symbol){.kind = two(record + 2)};
    if (symbol->kind == PUBLIC) {
        symbol->offset = four(record + 8);
        symbol->section = two(record + 12);
        symbol->length = strnlen((const char *)record + 14, two(record) - 12);
        symbol->name = malloc(symbol->length + 1);
        memcpy(symbol->name, record + 14, symbol->length);
    }
}

/* Goes over the records of a stream, which begin behind a header in streams of types. */
static void pass(uint32_t stream, int has_header, void (*keep)(const uint8_t *, uint32_t)) {
    static uint8_t buffer[LONGEST_RECORD + PIECE];
    const uint8_t *numbers = numbers_of(stream);
    size_t left = size_of(stream), held = 0;
    uint32_t count = blocks_over(left), place = 0;
    for (uint32_t from = 0, to; from < count; from = to) {
        for (to = from + 1; to < count && four(numbers + 4 * to) == four(numbers + 4 * to - 4) + 1
             && (size_t)(to - from + 1) * block_size <= PIECE; to++) {}
        size_t length = (size_t)(to - from) * block_size;
        if (length > left) length = left;
        read_at(buffer + held, length, (uint64_t)four(numbers + 4 * from) * block_size);
        held += length;
        left -= length;
        size_t at = from == 0 && has_header ? four(buffer + 4) : 0;
        while (held - at >= 4 && held - at >= two(buffer + at) + 2u) {
            keep(buffer + at, place + at);
            at += two(buffer + at) + 2u;
        }
        memmove(buffer, buffer + at, held - at);
        held -= at;
        place += at;
    }
}

int main(int count, char **words) {
    if (count != 2 || (file = open(words[1], O_RDONLY)) < 0) {
        fprintf(stderr, "usage: bare_pass PDB\n");
        return 2;
    }
    read_directory();
    uint8_t header[64];
    read_at(header, sizeof header, (uint64_t)four(numbers_of(DEBUG_INFORMATION)) * block_size);
    pass(TYPES, 1, keep_start);
    pass(IDS, 1, keep_start);
    pass(two(header + 20), 0, keep_symbol);
    struct rusage usage;
    getrusage(RUSAGE_SELF, &usage);
    printf("%ld us, %ld KB, %zu types and ids, %zu symbols\n",
           (usage.ru_utime.tv_sec + usage.ru_stime.tv_sec) * 1000000 + usage.ru_utime.tv_usec + usage.ru_stime.tv_usec,
           usage.ru_maxrss, starts.count, symbols.count);
    return 0;
}
