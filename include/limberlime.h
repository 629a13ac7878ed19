/* Limberlime: functions, files, lines and inlined calls at addresses of a Windows program.
 *
 * Four calls open a handle:
 *   limberlime_open_path     a PDB file at a path; reads what questions need, when they are asked
 *   limberlime_open_pdb      the bytes of a PDB file; reads all of it
 *   limberlime_open          the bytes of a records file (docs/FORMAT.md)
 *   limberlime_open_records  the bytes of a records file that names module files
 *
 * limberlime_find_frames and limberlime_find_function answer one address as data, limberlime_find_all_frames answers
 * many, and limberlime_next_function goes over all functions. limberlime_frames_of and limberlime_names_of write the
 * text that the program pdb_report prints to a buffer of the caller. limberlime_frames and limberlime_names do the same
 * over the bytes of a records file, which they read at each call. Link with -llimberlime.
 *
 * Pointers: each pointer is null, or valid and aligned for as many elements as its length says, until the call returns.
 * During a call nobody writes what it reads, and nobody else uses what it writes: the buffer, *wanted and the handle.
 * These overlap neither each other nor what is read. Lengths in bytes are below 2 to the power of 63. No call keeps a
 * pointer that it was given after it returned.
 *
 * Memory comes from malloc, calloc, realloc and free. So no call may be made from a signal handler, or from the forked
 * child of a process with threads. Calls share nothing but the handle that they are given, so threads may make them at
 * the same time, each with handles of its own.
 *
 * Handles: a handle is LIMBERLIME_CLOSED before its first call. From then on only these calls write it, one at a time.
 * It may be moved, but no second copy of an open handle may be used. It must be closed before its own memory is freed;
 * otherwise its records are never freed. It may go to another thread if the two are ordered, as by a lock, or by the
 * thread's start or join.
 */
#ifndef LIMBERLIME_H
#define LIMBERLIME_H

#include <stddef.h>
#include <stdint.h>
#include <stdlib.h>
#include <string.h>

#if defined(__unix__) || defined(__APPLE__)
#include <fcntl.h>
#include <sys/mman.h>
#include <sys/stat.h>
#include <unistd.h>
#define LIMBERLIME_MAPS_FILES 1
#else
#include <stdio.h>
#define LIMBERLIME_MAPS_FILES 0
#endif

/* The version of this header. The packages take theirs from it. */
#define LIMBERLIME_VERSION_MAJOR 0
#define LIMBERLIME_VERSION_MINOR 2
#define LIMBERLIME_VERSION_PATCH 0

/* How the functions below are defined. By default each file that includes this header has its own copies. A file that
 * makes a shared library of them defines this macro first (bindings/library.c). */
#ifndef LIMBERLIME_FUNCTION
#define LIMBERLIME_FUNCTION static inline
#endif

#ifdef __cplusplus
extern "C" {
#endif

/* Why a call has no answer. The buffer is then unchanged. */
enum limberlime_refusal {
    /* A pointer is null, whatever its length. *wanted is unchanged. */
    LIMBERLIME_NULL_POINTER = -1,
    /* No addresses: the count is 0. */
    LIMBERLIME_NO_ADDRESSES = -2,
    /* The bytes are not a JSON text. An empty text isn't one either. */
    LIMBERLIME_NOT_JSON = -3,
    /* The JSON text has no records: a value is missing, of the wrong kind, or out of range. pdb_report says where. */
    LIMBERLIME_NO_RECORDS = -4,
    /* The records file names module files, which only limberlime_open_records reads. */
    LIMBERLIME_MODULE_FILES = -5,
    /* The records are refused, for example because two modules claim the same bytes, or a stream can't be read. */
    LIMBERLIME_RECORDS_REFUSED = -6,
    /* The records of the module of some address are refused. Ask for one address at a time to learn which. */
    LIMBERLIME_ADDRESS_REFUSED = -7,
    /* Memory ran out. The same call may succeed later. */
    LIMBERLIME_OUT_OF_MEMORY = -8,
    /* The text is longer than the buffer. *wanted is its length: call again with as much. */
    LIMBERLIME_BUFFER_TOO_SMALL = -9,
    /* The handle is closed: it was never opened, its last opening was refused, or limberlime_close closed it. */
    LIMBERLIME_CLOSED_HANDLE = -10,
    /* The bytes are not a PDB file. */
    LIMBERLIME_NOT_A_PDB_FILE = -11,
    /* The bytes are a program (EXE or DLL), not its PDB file. */
    LIMBERLIME_PROGRAM = -12,
    /* The bytes are a portable PDB file, which a program for .NET has. */
    LIMBERLIME_PORTABLE_PDB = -13,
    /* The bytes are a compressed file from a symbol store. */
    LIMBERLIME_COMPRESSED = -14,
    /* The bytes are a PDB file of version 2.00, which has another format. */
    LIMBERLIME_OLD_PDB_FILE = -15,
    /* The bytes end before the end of the PDB file's directory of streams. */
    LIMBERLIME_CUT_SHORT = -16,
    /* The streams of the PDB file are together longer than the file. */
    LIMBERLIME_STREAMS_TOO_LONG = -17,
    /* The PDB file describes the objects of a compiler, not a program. */
    LIMBERLIME_OF_OBJECTS = -18,
    /* No call answers this number. If the types of a PDB file have a form from before 2005, functions have the names of
     * their symbols. */
    LIMBERLIME_OLD_TYPES = -19,
    /* The PDB file has no section headers, so nothing says where code is. */
    LIMBERLIME_NO_SECTION_HEADERS = -20,
    /* Code was rearranged after linking (OMAP), and answers would have wrong addresses. */
    LIMBERLIME_REARRANGED = -21,
    /* A stream that all answers need is broken. */
    LIMBERLIME_BROKEN_STREAM = -22,
    /* The PDB file has no debug id, so nothing says which build it belongs to. */
    LIMBERLIME_NO_DEBUG_ID = -23,
    /* The caller's function can't read a module file that the records file names. */
    LIMBERLIME_CANNOT_READ_MODULE = -24,
    /* The file at the path can't be read: it doesn't exist, is a folder, or the system refuses it. */
    LIMBERLIME_CANNOT_READ_FILE = -25
};

/* A function whose code has an address: the one that was called, or one that was inlined there. Texts are UTF-8. A 0
 * follows the last byte, and the length doesn't count it. */
struct limberlime_frame {
    /* The function's name and its length in bytes: its signature, or the name of its symbol if the signature can't be
     * printed. Null if it is unknown. */
    const char *function;
    size_t function_length;
    /* The name of the code's source file and its length in bytes. Null if it is unknown. */
    const char *file;
    size_t file_length;
    /* The line in that file. It is 0 if the line is unknown, and also if the records say 0. */
    uint32_t line;
};

/* The frames at an address. They and their texts are valid until the next call with their handle. */
struct limberlime_function_frames {
    /* How many there are. It is 0 if no function contains the address. */
    size_t count;
    /* The frames: the innermost inlined function first, and the function that was called last. */
    const struct limberlime_frame *frames;
    /* Where the function that was called starts, relative to where the program is loaded. */
    uint32_t start;
    /* The address of the first byte after it if end_known is 1, and else 0. */
    uint32_t end;
    uint32_t end_known;
};

/* Where a text is among the texts of an answer, and its length in bytes. A text that is unknown starts at SIZE_MAX. */
struct limberlime_place {
    size_t start;
    size_t length;
};

/* A frame as the library writes it. */
struct limberlime_row {
    struct limberlime_place function;
    struct limberlime_place file;
    uint32_t line;
};

/* How many rows an answer has, how many bytes its texts have, and its function's addresses. */
struct limberlime_found {
    size_t rows;
    size_t texts;
    uint32_t start;
    uint32_t end;
    uint32_t end_known;
};

/* The size of each public struct in bytes, as the caller was compiled; 0 means the size in the library. A later version
 * may add members at the end of a struct. It then writes only the members that the caller's struct has. So a program
 * runs with the library of its header's version, and with each later one of the same soname. */
struct limberlime_sizes {
    size_t handle;
    size_t function_frames;
    size_t frame;
};

/* The memory of a handle's last answer. */
struct limberlime_buffers {
    struct limberlime_row *rows;
    struct limberlime_frame *frames;
    size_t row_capacity;
    uint8_t *texts;
    size_t text_capacity;
};

/* A PDB file of which only parts were read so far. */
struct limberlime_file {
    /* The file's bytes, and how many there are. Null if the handle has no such file, or all of it was read. */
    uint8_t *bytes;
    size_t length;
    /* 1 if the bytes are mapped, and 0 if they are in memory of malloc. */
    int is_mapped;
    /* For each module of the file 1 if it was read, and else 0. */
    uint8_t *flags;
    size_t flag_capacity;
    size_t modules;
    /* The addresses for which parts were read. */
    uint32_t *addresses;
    size_t address_count;
    size_t address_capacity;
    /* How often a part was read. */
    unsigned rounds;
};

/* Records that were opened, and a context that answers over them and borrows from them, or nothing. The handle owns
 * both; their memory is the library's. */
struct limberlime_handle {
    /* Only the library uses these. The second is null if the handle is closed. */
    void *records;
    void *context;
    /* Set by LIMBERLIME_CLOSED, and read by the functions below. */
    struct limberlime_sizes sizes;
    /* Only the functions below use these. */
    struct limberlime_buffers buffers;
    struct limberlime_file file;
};

/* A handle that was never opened, as `struct limberlime_handle handle = LIMBERLIME_CLOSED;`. */
#define LIMBERLIME_CLOSED \
    { NULL, NULL, LIMBERLIME_SIZES, { NULL, NULL, 0, NULL, 0 }, { NULL, 0, 0, NULL, 0, 0, NULL, 0, 0, 0 } }
#define LIMBERLIME_SIZES \
    { sizeof(struct limberlime_handle), sizeof(struct limberlime_function_frames), sizeof(struct limberlime_frame) }

/* The library's own calls. The functions below give them no null pointer. */
int64_t limberlime_frames_unchecked(const uint8_t *records, size_t records_length, const uint32_t *addresses,
                                    size_t address_count, uint8_t *buffer, size_t capacity, size_t *wanted);
int64_t limberlime_names_unchecked(const uint8_t *records, size_t records_length, const uint32_t *addresses,
                                   size_t address_count, uint8_t *buffer, size_t capacity, size_t *wanted);
int64_t limberlime_open_unchecked(const uint8_t *records, size_t records_length, struct limberlime_handle *handle);
int64_t limberlime_module_files_unchecked(const uint8_t *records, size_t records_length, uint8_t *buffer,
                                          size_t capacity, size_t *wanted);
int64_t limberlime_open_records_unchecked(const uint8_t *records, size_t records_length, const uint8_t *contents,
                                          size_t contents_length, const size_t *lengths, size_t count,
                                          struct limberlime_handle *handle);
int64_t limberlime_frames_of_unchecked(struct limberlime_handle *handle, const uint32_t *addresses,
                                       size_t address_count, uint8_t *buffer, size_t capacity, size_t *wanted);
int64_t limberlime_names_of_unchecked(struct limberlime_handle *handle, const uint32_t *addresses,
                                      size_t address_count, uint8_t *buffer, size_t capacity, size_t *wanted);
int64_t limberlime_open_pdb_unchecked(const uint8_t *pdb, size_t pdb_length, struct limberlime_handle *handle);
int64_t limberlime_open_part_unchecked(const uint8_t *pdb, size_t pdb_length, const uint32_t *addresses,
                                       size_t address_count, uint8_t *flags, size_t flag_capacity, size_t *modules,
                                       struct limberlime_handle *handle);
int64_t limberlime_is_read_unchecked(struct limberlime_handle *handle, uint32_t address, const uint8_t *flags,
                                     size_t modules);
int64_t limberlime_debug_id_unchecked(const uint8_t *pdb, size_t pdb_length, uint8_t *buffer, size_t capacity,
                                      size_t *wanted);
int64_t limberlime_machine_unchecked(const uint8_t *pdb, size_t pdb_length);
int64_t limberlime_find_frames_unchecked(struct limberlime_handle *handle, uint32_t address,
                                         struct limberlime_row *rows, size_t row_capacity, uint8_t *texts,
                                         size_t text_capacity, struct limberlime_found *found);
int64_t limberlime_find_function_unchecked(struct limberlime_handle *handle, uint32_t address,
                                           struct limberlime_row *rows, size_t row_capacity, uint8_t *texts,
                                           size_t text_capacity, struct limberlime_found *found);
int64_t limberlime_next_start_unchecked(struct limberlime_handle *handle, uint32_t address,
                                        struct limberlime_row *rows, size_t row_capacity, uint8_t *texts,
                                        size_t text_capacity, struct limberlime_found *found);
void limberlime_close_unchecked(struct limberlime_handle *handle);
int64_t limberlime_version_unchecked(void);

/* The version of the library that is linked, as major * 1000000 + minor * 1000 + patch: 2000 for 0.2.0. It may be later
 * than this header's, LIMBERLIME_VERSION_MAJOR and so on. */
LIMBERLIME_FUNCTION int64_t limberlime_version(void)
{
    return limberlime_version_unchecked();
}

/* The message for a number that a call answers: a text that is always valid, and is empty if the number is no refusal.
 */
LIMBERLIME_FUNCTION const char *limberlime_refusal_text(int64_t answer)
{
    switch (answer) {
    case LIMBERLIME_NULL_POINTER: return "a null pointer";
    case LIMBERLIME_NO_ADDRESSES: return "no addresses";
    case LIMBERLIME_NOT_JSON: return "not a JSON text";
    case LIMBERLIME_NO_RECORDS: return "no records";
    case LIMBERLIME_MODULE_FILES: return "module files";
    case LIMBERLIME_RECORDS_REFUSED: return "the records are refused";
    case LIMBERLIME_ADDRESS_REFUSED: return "the records of the address's module are refused";
    case LIMBERLIME_OUT_OF_MEMORY: return "out of memory";
    case LIMBERLIME_BUFFER_TOO_SMALL: return "the buffer is too small";
    case LIMBERLIME_CLOSED_HANDLE: return "the handle is closed";
    case LIMBERLIME_NOT_A_PDB_FILE: return "not a PDB file";
    case LIMBERLIME_PROGRAM: return "a program (EXE or DLL), not its PDB file";
    case LIMBERLIME_PORTABLE_PDB: return "a .NET portable PDB";
    case LIMBERLIME_COMPRESSED: return "a compressed file (CAB, .pd_)";
    case LIMBERLIME_OLD_PDB_FILE: return "a PDB file of version 2.00 (JG)";
    case LIMBERLIME_CUT_SHORT: return "the file is cut short before the end of its directory";
    case LIMBERLIME_STREAMS_TOO_LONG: return "the streams are longer than the file together";
    case LIMBERLIME_OF_OBJECTS: return "a compiler's PDB file, of objects and not of a program";
    case LIMBERLIME_OLD_TYPES: return "types made by a version from before 2005";
    case LIMBERLIME_NO_SECTION_HEADERS: return "no section headers (stripped)";
    case LIMBERLIME_REARRANGED: return "rearranged addresses (OMAP)";
    case LIMBERLIME_BROKEN_STREAM: return "a broken stream";
    case LIMBERLIME_NO_DEBUG_ID: return "no debug id";
    case LIMBERLIME_CANNOT_READ_MODULE: return "cannot read a module file";
    case LIMBERLIME_CANNOT_READ_FILE: return "cannot read the file";
    default: return "";
    }
}

/* Writes the functions at each address, with files and lines, the innermost inlined function first. The text is that of
 *     pdb_report RECORDS frames ADDRESS...
 *
 * records, records_length: the bytes of a records file.
 * addresses, address_count: relative to where the program is loaded, in bytes.
 * buffer, capacity: where the text goes, and its room in bytes. The text is UTF-8 and doesn't end with a 0. Bytes after
 *     the text are unchanged.
 * wanted: gets the length of the text in bytes, even if the buffer is too small for it, and 0 if there is no text.
 *
 * Answers the length of the text that was written, in bytes, or a number of enum limberlime_refusal. To learn only the
 * length, give a capacity of 0; the buffer must not be null even so. If one address is refused, nothing is written.
 */
LIMBERLIME_FUNCTION int64_t limberlime_frames(const uint8_t *records, size_t records_length, const uint32_t *addresses,
                                              size_t address_count, uint8_t *buffer, size_t capacity, size_t *wanted)
{
    if (records == NULL || addresses == NULL || buffer == NULL || wanted == NULL)
        return LIMBERLIME_NULL_POINTER;
    return limberlime_frames_unchecked(records, records_length, addresses, address_count, buffer, capacity, wanted);
}

/* Writes a line for each address: its function, and where that starts and ends. The text is that of
 *     pdb_report RECORDS names ADDRESS...
 * All else is as for limberlime_frames.
 */
LIMBERLIME_FUNCTION int64_t limberlime_names(const uint8_t *records, size_t records_length, const uint32_t *addresses,
                                             size_t address_count, uint8_t *buffer, size_t capacity, size_t *wanted)
{
    if (records == NULL || addresses == NULL || buffer == NULL || wanted == NULL)
        return LIMBERLIME_NULL_POINTER;
    return limberlime_names_unchecked(records, records_length, addresses, address_count, buffer, capacity, wanted);
}

/* Frees what a handle has of a file of which only parts were read. */
static inline void limberlime_free_file(struct limberlime_handle *handle)
{
    static const struct limberlime_file none = {NULL, 0, 0, NULL, 0, 0, NULL, 0, 0, 0};
    struct limberlime_file *file = &handle->file;
#if LIMBERLIME_MAPS_FILES
    if (file->is_mapped)
        munmap(file->bytes, file->length);
#endif
    if (!file->is_mapped)
        free(file->bytes);
    free(file->flags);
    free(file->addresses);
    *file = none;
}

/* Opens a handle over the records in the bytes of a records file.
 *
 * records, records_length: the bytes of a records file. They may be freed after the call.
 * handle: if it is open, it is closed first.
 *
 * Answers 0, or a number of enum limberlime_refusal. After a refusal the handle is closed; only after
 * LIMBERLIME_NULL_POINTER it is unchanged. If the records can't answer anything, this call says so, by
 * LIMBERLIME_RECORDS_REFUSED. If only those of one module are broken, the calls that ask for its addresses say so.
 */
LIMBERLIME_FUNCTION int64_t limberlime_open(const uint8_t *records, size_t records_length,
                                            struct limberlime_handle *handle)
{
    if (records == NULL || handle == NULL)
        return LIMBERLIME_NULL_POINTER;
    limberlime_free_file(handle);
    return limberlime_open_unchecked(records, records_length, handle);
}

/* A number that doubles until it is no less than another. */
static inline size_t limberlime_capacity(size_t capacity, size_t wanted)
{
    while (capacity < wanted && capacity <= SIZE_MAX / 2)
        capacity *= 2;
    return capacity < wanted ? wanted : capacity;
}

/* The caller's function that reads a module file of a records file.
 *
 * caller: the pointer that was given to limberlime_open_records.
 * name: the file's name, ended by a 0. If it doesn't begin with a slash, it is relative to the folder of the records
 *     file.
 * bytes, length: get the place and the number of the file's bytes, which must be valid until the next call of this
 *     function.
 *
 * Answers 0, or another number if the file can't be read.
 */
typedef int (*limberlime_module_file_call)(void *caller, const char *name, const uint8_t **bytes, size_t *length);

/* The contents of module files, one after the other. */
struct limberlime_contents {
    uint8_t *bytes;
    size_t length;
    size_t capacity;
    size_t *lengths;
    size_t count;
};

/* Appends the bytes of a file. Answers whether there was memory for them. */
static inline int limberlime_append(struct limberlime_contents *contents, const uint8_t *bytes, size_t length)
{
    size_t wanted = contents->length + length;
    if (contents->capacity < wanted) {
        size_t capacity = limberlime_capacity(contents->capacity, wanted);
        uint8_t *grown = (uint8_t *)realloc(contents->bytes, capacity);
        if (grown == NULL)
            return 0;
        contents->bytes = grown;
        contents->capacity = capacity;
    }
    if (length > 0)
        memcpy(contents->bytes + contents->length, bytes, length);
    contents->length = wanted;
    contents->lengths[contents->count++] = length;
    return 1;
}

/* Has the caller's function read the files of these names, each of which is ended by a 0. */
static inline int64_t limberlime_gather(const uint8_t *names, size_t names_length,
                                        limberlime_module_file_call module_file, void *caller,
                                        struct limberlime_contents *contents)
{
    for (size_t start = 0; start < names_length;) {
        const char *name = (const char *)names + start;
        const uint8_t *bytes = NULL;
        size_t length = 0;
        if (module_file(caller, name, &bytes, &length) != 0 || (bytes == NULL && length > 0))
            return LIMBERLIME_CANNOT_READ_MODULE;
        if (!limberlime_append(contents, bytes, length))
            return LIMBERLIME_OUT_OF_MEMORY;
        start += strlen(name) + 1;
    }
    return 0;
}

/* Opens a records file by the names of its module files, with buffers for the names and the contents. */
static inline int64_t limberlime_open_named(const uint8_t *records, size_t records_length, uint8_t *names,
                                            size_t names_length, limberlime_module_file_call module_file, void *caller,
                                            struct limberlime_contents *contents, struct limberlime_handle *handle)
{
    size_t wanted;
    int64_t answer = LIMBERLIME_OUT_OF_MEMORY;
    if (names != NULL && contents->bytes != NULL && contents->lengths != NULL)
        answer = limberlime_module_files_unchecked(records, records_length, names, names_length, &wanted);
    if (answer >= 0)
        answer = limberlime_gather(names, names_length, module_file, caller, contents);
    if (answer == 0)
        return limberlime_open_records_unchecked(records, records_length, contents->bytes, contents->length,
                                                 contents->lengths, contents->count, handle);
    limberlime_close_unchecked(handle);
    return answer;
}

/* Opens a handle over the records in the bytes of a records file and of the module files that it names.
 *
 * module_file, caller: reads each module file, in the order in which the records file names them. It makes no call with
 *     this handle.
 *
 * All else is as for limberlime_open. If a module file can't be read, the answer is LIMBERLIME_CANNOT_READ_MODULE.
 */
LIMBERLIME_FUNCTION int64_t limberlime_open_records(const uint8_t *records, size_t records_length,
                                                    limberlime_module_file_call module_file, void *caller,
                                                    struct limberlime_handle *handle)
{
    struct limberlime_contents contents = {NULL, 0, 1024, NULL, 0};
    uint8_t none = 0;
    uint8_t *names;
    size_t names_length = 0;
    int64_t answer;
    if (records == NULL || module_file == NULL || handle == NULL)
        return LIMBERLIME_NULL_POINTER;
    limberlime_free_file(handle);
    answer = limberlime_module_files_unchecked(records, records_length, &none, 0, &names_length);
    if (answer < 0 && answer != LIMBERLIME_BUFFER_TOO_SMALL) {
        limberlime_close_unchecked(handle);
        return answer;
    }
    names = (uint8_t *)malloc(names_length + 1);
    contents.bytes = (uint8_t *)malloc(contents.capacity);
    contents.lengths = (size_t *)calloc(names_length + 1, sizeof *contents.lengths);
    answer = limberlime_open_named(records, records_length, names, names_length, module_file, caller, &contents,
                                   handle);
    free(names);
    free(contents.bytes);
    free(contents.lengths);
    return answer;
}

/* Opens a handle over the bytes of a PDB file, and reads all of it.
 *
 * pdb, pdb_length: the bytes of a PDB file. They may be freed after the call.
 * handle: if it is open, it is closed first.
 *
 * Broken parts of the file are left out, as in pdb_symbolizer. Answers 0, or a number of enum limberlime_refusal. After
 * a refusal the handle is closed; only after LIMBERLIME_NULL_POINTER it is unchanged.
 */
LIMBERLIME_FUNCTION int64_t limberlime_open_pdb(const uint8_t *pdb, size_t pdb_length,
                                                struct limberlime_handle *handle)
{
    if (pdb == NULL || handle == NULL)
        return LIMBERLIME_NULL_POINTER;
    limberlime_free_file(handle);
    return limberlime_open_pdb_unchecked(pdb, pdb_length, handle);
}

/* How often parts of a file are read. Each time, the tables of a context are built again, so after this many times all
 * of the file is read. */
#define LIMBERLIME_ROUNDS 16

/* Adds an address for which a part is read. Answers whether there was memory for it. */
static inline int limberlime_add_address(struct limberlime_file *file, uint32_t address)
{
    if (file->address_count == file->address_capacity) {
        size_t capacity = limberlime_capacity(16, file->address_count + 1);
        uint32_t *grown = (uint32_t *)realloc(file->addresses, capacity * sizeof *grown);
        if (grown == NULL)
            return 0;
        file->addresses = grown;
        file->address_capacity = capacity;
    }
    file->addresses[file->address_count++] = address;
    return 1;
}

/* Makes room for the flags of this many modules. Flags that are set stay set, since a later part has all modules of the
 * parts before it. Answers whether there was memory. */
static inline int limberlime_grow_flags(struct limberlime_file *file, size_t modules)
{
    size_t capacity = limberlime_capacity(1024, modules);
    uint8_t *flags = (uint8_t *)calloc(capacity, 1);
    if (flags == NULL)
        return 0;
    if (file->modules > 0)
        memcpy(flags, file->flags, file->modules);
    free(file->flags);
    file->flags = flags;
    file->flag_capacity = capacity;
    return 1;
}

/* Reads what answers at the file's addresses need. Once there are no flags, all of the file was read. */
static inline int64_t limberlime_read_part(struct limberlime_handle *handle)
{
    static const uint32_t none = 0;
    struct limberlime_file *file = &handle->file;
    size_t modules = 0;
    int64_t answer = LIMBERLIME_BUFFER_TOO_SMALL;
    while (answer == LIMBERLIME_BUFFER_TOO_SMALL) {
        if (file->flag_capacity <= modules && !limberlime_grow_flags(file, modules + 1))
            return LIMBERLIME_OUT_OF_MEMORY;
        answer = limberlime_open_part_unchecked(file->bytes, file->length,
                                                file->address_count == 0 ? &none : file->addresses,
                                                file->address_count, file->flags, file->flag_capacity, &modules, handle);
    }
    if (answer < 0)
        return answer;
    file->modules = modules;
    if (modules == 0)
        limberlime_free_file(handle);
    return 0;
}

/* Reads all of a file of which only parts were read. A refusal leaves the handle as it was. */
static inline int64_t limberlime_read_whole(struct limberlime_handle *handle)
{
    struct limberlime_handle whole = LIMBERLIME_CLOSED;
    int64_t answer;
    if (handle->file.bytes == NULL)
        return 0;
    answer = limberlime_open_pdb_unchecked(handle->file.bytes, handle->file.length, &whole);
    if (answer != 0)
        return answer;
    limberlime_free_file(handle);
    limberlime_close_unchecked(handle);
    handle->records = whole.records;
    handle->context = whole.context;
    return 0;
}

/* Reads what is missing for answers at these addresses, of a file of which only parts were read. After a refusal the
 * file has the addresses that it had. */
static inline int64_t limberlime_read_for(struct limberlime_handle *handle, const uint32_t *addresses,
                                          size_t address_count)
{
    struct limberlime_file *file = &handle->file;
    size_t before = file->address_count;
    int64_t answer = 0;
    if (file->bytes == NULL)
        return 0;
    for (size_t i = 0; answer >= 0 && i < address_count; i++) {
        answer = limberlime_is_read_unchecked(handle, addresses[i], file->flags, file->modules);
        if (answer == 0 && !limberlime_add_address(file, addresses[i]))
            answer = LIMBERLIME_OUT_OF_MEMORY;
    }
    if (answer >= 0) {
        if (file->address_count == before)
            return 0;
        answer = ++file->rounds > LIMBERLIME_ROUNDS ? limberlime_read_whole(handle) : limberlime_read_part(handle);
    }
    if (answer < 0)
        file->address_count = before;
    return answer;
}

/* Gets the bytes of the file at a path, mapped if the system can do that. Answers whether it can be read. */
static inline int limberlime_map(const char *path, struct limberlime_file *file)
{
#if LIMBERLIME_MAPS_FILES
    struct stat status;
    int descriptor = open(path, O_RDONLY | O_NONBLOCK);
    void *bytes = MAP_FAILED;
    if (descriptor < 0)
        return 0;
    if (fstat(descriptor, &status) == 0 && S_ISREG(status.st_mode) && status.st_size > 0)
        bytes = mmap(NULL, (size_t)status.st_size, PROT_READ, MAP_PRIVATE, descriptor, 0);
    close(descriptor);
    if (bytes == MAP_FAILED)
        return 0;
    file->bytes = (uint8_t *)bytes;
    file->length = (size_t)status.st_size;
    file->is_mapped = 1;
    return 1;
#else
    FILE *stream = fopen(path, "rb");
    size_t capacity = (size_t)1 << 20, read = 0;
    int is_whole;
    if (stream == NULL)
        return 0;
    do {
        uint8_t *grown = (uint8_t *)realloc(file->bytes, capacity);
        if (grown == NULL)
            break;
        file->bytes = grown;
        read = fread(file->bytes + file->length, 1, capacity - file->length, stream);
        file->length += read;
        capacity *= 2;
    } while (read > 0);
    is_whole = feof(stream) && !ferror(stream);
    return fclose(stream) == 0 && is_whole && file->length > 0;
#endif
}

/* Opens a handle over the PDB file at a path. It reads only what questions need, when they are asked;
 * limberlime_next_function, limberlime_frames_of and limberlime_names_of read all of the file.
 *
 * path: of a file that doesn't change until the handle is closed. It may be removed, or replaced by another file that
 *     is renamed to its path. If it is written or truncated meanwhile, answers are wrong, or the process ends by SIGBUS.
 * handle: if it is open, it is closed first.
 *
 * Broken parts of the file are left out, as in pdb_symbolizer. Answers 0, or a number of enum limberlime_refusal. After
 * a refusal the handle is closed; only after LIMBERLIME_NULL_POINTER it is unchanged. LIMBERLIME_CANNOT_READ_FILE is
 * for a file that can't be read, or is empty.
 */
LIMBERLIME_FUNCTION int64_t limberlime_open_path(const char *path, struct limberlime_handle *handle)
{
    int64_t answer = LIMBERLIME_CANNOT_READ_FILE;
    if (path == NULL || handle == NULL)
        return LIMBERLIME_NULL_POINTER;
    limberlime_free_file(handle);
    limberlime_close_unchecked(handle);
    if (limberlime_map(path, &handle->file))
        answer = limberlime_read_part(handle);
    if (answer != 0) {
        limberlime_free_file(handle);
        limberlime_close_unchecked(handle);
    }
    return answer;
}

/* Writes the debug id of a PDB file, by which programs, symbol servers and crash reports name it: 32 digits, then the
 * age, for example 6B32B94164959A524C4C44205044422E1. 40 bytes are enough for each.
 *
 * Answers its length, or a number of enum limberlime_refusal. The buffer and *wanted are as for limberlime_frames.
 */
LIMBERLIME_FUNCTION int64_t limberlime_debug_id(const uint8_t *pdb, size_t pdb_length, uint8_t *buffer,
                                                size_t capacity, size_t *wanted)
{
    if (pdb == NULL || buffer == NULL || wanted == NULL)
        return LIMBERLIME_NULL_POINTER;
    return limberlime_debug_id_unchecked(pdb, pdb_length, buffer, capacity, wanted);
}

/* Answers the machine type of a PDB file's program, by its number in program headers: 0x8664 for x86_64, 0x14c for x86,
 * 0xaa64 for Arm64, and 0 if the file doesn't say it; or a number of enum limberlime_refusal.
 */
LIMBERLIME_FUNCTION int64_t limberlime_machine(const uint8_t *pdb, size_t pdb_length)
{
    if (pdb == NULL)
        return LIMBERLIME_NULL_POINTER;
    return limberlime_machine_unchecked(pdb, pdb_length);
}

/* Allocates buffers for an answer of this size, with frames of the caller's size. Answers whether there was memory. */
static inline int limberlime_grow(struct limberlime_buffers *buffers, size_t rows, size_t texts, size_t frame_size)
{
    if (buffers->row_capacity == 0 || buffers->row_capacity < rows) {
        size_t capacity = limberlime_capacity(16, rows);
        free(buffers->rows);
        free(buffers->frames);
        buffers->rows = (struct limberlime_row *)calloc(capacity, sizeof *buffers->rows);
        buffers->frames = (struct limberlime_frame *)calloc(capacity, frame_size);
        buffers->row_capacity = buffers->rows == NULL || buffers->frames == NULL ? 0 : capacity;
    }
    if (buffers->text_capacity == 0 || buffers->text_capacity < texts) {
        size_t capacity = limberlime_capacity(1024, texts);
        free(buffers->texts);
        buffers->texts = (uint8_t *)calloc(capacity, 1);
        buffers->text_capacity = buffers->texts == NULL ? 0 : capacity;
    }
    return buffers->row_capacity >= rows && buffers->text_capacity >= texts && buffers->row_capacity != 0
        && buffers->text_capacity != 0;
}

/* The text at a place, or null if it is unknown. */
static inline const char *limberlime_text(const struct limberlime_buffers *buffers, struct limberlime_place place)
{
    return place.start == SIZE_MAX ? NULL : (const char *)buffers->texts + place.start;
}

/* Makes frames of what the library wrote to a handle's buffers, with pointers to their texts. */
static inline void limberlime_show(struct limberlime_buffers *buffers, const struct limberlime_found *found,
                                   size_t frame_size, struct limberlime_function_frames *frames)
{
    unsigned char *place = (unsigned char *)buffers->frames;
    for (size_t i = 0; i < found->rows; i++, place += frame_size) {
        const struct limberlime_row *row = &buffers->rows[i];
        struct limberlime_frame *frame = (struct limberlime_frame *)(void *)place;
        frame->function = limberlime_text(buffers, row->function);
        frame->function_length = row->function.length;
        frame->file = limberlime_text(buffers, row->file);
        frame->file_length = row->file.length;
        frame->line = row->line;
    }
    frames->count = found->rows;
    frames->frames = buffers->frames;
    frames->start = found->start;
    frames->end = found->end;
    frames->end_known = found->end_known;
}

typedef int64_t (*limberlime_find_call)(struct limberlime_handle *, uint32_t, struct limberlime_row *, size_t,
                                        uint8_t *, size_t, struct limberlime_found *);

/* Asks by a call of the library, with larger buffers if the answer doesn't fit. */
static inline int64_t limberlime_find(limberlime_find_call call, struct limberlime_handle *handle, uint32_t address,
                                      struct limberlime_function_frames *frames)
{
    struct limberlime_buffers *buffers = &handle->buffers;
    struct limberlime_found found = {0, 0, 0, 0, 0};
    size_t frame_size = handle->sizes.frame == 0 ? sizeof(struct limberlime_frame) : handle->sizes.frame;
    int64_t answer = LIMBERLIME_BUFFER_TOO_SMALL;
    while (answer == LIMBERLIME_BUFFER_TOO_SMALL) {
        if (!limberlime_grow(buffers, found.rows, found.texts, frame_size))
            return LIMBERLIME_OUT_OF_MEMORY;
        answer = call(handle, address, buffers->rows, buffers->row_capacity, buffers->texts, buffers->text_capacity,
                      &found);
    }
    if (answer == 0)
        limberlime_show(buffers, &found, frame_size, frames);
    return answer;
}

/* Finds the frames at an address: the functions that contain it, with files and lines, the innermost one first.
 *
 * handle: open. It has the same records after the call, even if the call is refused. It keeps what this answer read, so
 *     later questions take less time. If a part of the records is found broken, later questions that need it get the
 *     same refusal, or the same names are missing.
 * address: relative to where the program is loaded, in bytes.
 * frames: gets what is found. It is unchanged if the call is refused.
 *
 * Answers 0, or a number of enum limberlime_refusal: LIMBERLIME_CLOSED_HANDLE, LIMBERLIME_ADDRESS_REFUSED,
 * LIMBERLIME_RECORDS_REFUSED, LIMBERLIME_OUT_OF_MEMORY or LIMBERLIME_NULL_POINTER. If no function contains the address,
 * it answers 0, and frames->count is 0. The frames of a PDB file are those that pdb_symbolizer prints.
 */
LIMBERLIME_FUNCTION int64_t limberlime_find_frames(struct limberlime_handle *handle, uint32_t address,
                                                   struct limberlime_function_frames *frames)
{
    int64_t answer;
    if (handle == NULL || frames == NULL)
        return LIMBERLIME_NULL_POINTER;
    answer = limberlime_read_for(handle, &address, 1);
    return answer != 0 ? answer : limberlime_find(limberlime_find_frames_unchecked, handle, address, frames);
}

/* The caller's function that gets the answer of limberlime_find_frames for an address, and the frames if that is 0.
 * They are valid until it returns. It makes no call with the handle. Answers 0 to go on, or another number to stop.
 */
typedef int (*limberlime_frames_call)(void *caller, uint32_t address, int64_t answer,
                                      const struct limberlime_function_frames *frames);

/* Finds the frames at each address of a list, and passes the answers to a function of the caller, in order.
 *
 * each, caller: the function that gets the answers, and the first argument that it gets.
 *
 * Answers how many addresses it passed on, or LIMBERLIME_NULL_POINTER. They are all, unless the function stopped.
 */
LIMBERLIME_FUNCTION int64_t limberlime_find_all_frames(struct limberlime_handle *handle, const uint32_t *addresses,
                                                       size_t address_count, limberlime_frames_call each, void *caller)
{
    size_t asked = 0;
    int goes_on = 1;
    if (handle == NULL || addresses == NULL || each == NULL)
        return LIMBERLIME_NULL_POINTER;
    /* If this is refused, so is the question for the first address that needs more of the file. */
    (void)limberlime_read_for(handle, addresses, address_count);
    while (goes_on && asked < address_count) {
        struct limberlime_function_frames frames;
        uint32_t address = addresses[asked++];
        int64_t answer = limberlime_find_frames(handle, address, &frames);
        goes_on = each(caller, address, answer, answer == 0 ? &frames : NULL) == 0;
    }
    return (int64_t)asked;
}

/* Finds the function that contains an address, as a single frame without file and line. All else is as for
 * limberlime_find_frames. It needs no lines, so it never answers LIMBERLIME_ADDRESS_REFUSED.
 */
LIMBERLIME_FUNCTION int64_t limberlime_find_function(struct limberlime_handle *handle, uint32_t address,
                                                     struct limberlime_function_frames *frames)
{
    int64_t answer;
    if (handle == NULL || frames == NULL)
        return LIMBERLIME_NULL_POINTER;
    answer = limberlime_read_for(handle, &address, 1);
    return answer != 0 ? answer : limberlime_find(limberlime_find_function_unchecked, handle, address, frames);
}

/* Finds the next function by start address, as limberlime_find_function answers it. The first call for a handle looks
 * up where all functions start.
 *
 * next: the lowest start to look for; 0 for the first call. If the answer is 0, it gets the address after the start
 *     that was found.
 *
 * After the last function frames->count is 0.
 */
LIMBERLIME_FUNCTION int64_t limberlime_next_function(struct limberlime_handle *handle, uint64_t *next,
                                                     struct limberlime_function_frames *frames)
{
    static const struct limberlime_function_frames none = {0, NULL, 0, 0, 0};
    int64_t read;
    if (handle == NULL || next == NULL || frames == NULL)
        return LIMBERLIME_NULL_POINTER;
    read = limberlime_read_whole(handle);
    if (read != 0)
        return read;
    while (*next <= UINT32_MAX) {
        uint32_t start;
        int64_t answer = limberlime_find(limberlime_next_start_unchecked, handle, (uint32_t)*next, frames);
        if (answer != 0 || frames->count == 0)
            return answer;
        start = frames->start;
        answer = limberlime_find_function(handle, start, frames);
        if (answer != 0)
            return answer;
        *next = (uint64_t)start + 1;
        if (frames->count != 0)
            return 0;
    }
    *frames = none;
    return 0;
}

/* Writes the text of limberlime_frames over the records of a handle, which has the same records after the call, even if
 * the call is refused. A closed handle is refused by LIMBERLIME_CLOSED_HANDLE, whatever the other arguments are, if
 * none is null. All else is as for limberlime_frames.
 */
LIMBERLIME_FUNCTION int64_t limberlime_frames_of(struct limberlime_handle *handle, const uint32_t *addresses,
                                                 size_t address_count, uint8_t *buffer, size_t capacity, size_t *wanted)
{
    int64_t read;
    if (handle == NULL || addresses == NULL || buffer == NULL || wanted == NULL)
        return LIMBERLIME_NULL_POINTER;
    read = limberlime_read_whole(handle);
    if (read != 0)
        return read;
    return limberlime_frames_of_unchecked(handle, addresses, address_count, buffer, capacity, wanted);
}

/* Writes the text of limberlime_names over the records of a handle. All else is as for limberlime_frames_of.
 */
LIMBERLIME_FUNCTION int64_t limberlime_names_of(struct limberlime_handle *handle, const uint32_t *addresses,
                                                size_t address_count, uint8_t *buffer, size_t capacity, size_t *wanted)
{
    int64_t read;
    if (handle == NULL || addresses == NULL || buffer == NULL || wanted == NULL)
        return LIMBERLIME_NULL_POINTER;
    read = limberlime_read_whole(handle);
    if (read != 0)
        return read;
    return limberlime_names_of_unchecked(handle, addresses, address_count, buffer, capacity, wanted);
}

/* Closes a handle: frees its records and the frames of its last answer. The handle may be opened again. It does nothing
 * if the handle is closed or the pointer is null.
 */
LIMBERLIME_FUNCTION void limberlime_close(struct limberlime_handle *handle)
{
    if (handle == NULL)
        return;
    limberlime_free_file(handle);
    limberlime_close_unchecked(handle);
    free(handle->buffers.rows);
    free(handle->buffers.frames);
    free(handle->buffers.texts);
    handle->buffers.rows = NULL;
    handle->buffers.frames = NULL;
    handle->buffers.texts = NULL;
    handle->buffers.row_capacity = 0;
    handle->buffers.text_capacity = 0;
}

#ifdef __cplusplus
}
#endif

#endif
