/* Tests that each kind of refusal has its error number, and what a handle returns for a small program.
 *
 *     test SHAPES FOLDER MODULES
 *
 * The arguments are crates/pdb_symbolizer/data/shapes.pdb, crates/pdb_container_tests/data and
 * crates/pdb_report_tests/data/modules. The exit status is 1 if a result is not the expected one.
 */
#include <stdio.h>
#include <string.h>

#include "limberlime.h"

static int failures;

static void expect(const char *what, int holds)
{
    if (!holds) {
        printf("not so: %s\n", what);
        failures++;
    }
}

/* Returns the first MiB of a file, which the caller frees. The files of this test are smaller. */
static uint8_t *read_file(const char *folder, const char *name, size_t *length)
{
    char path[4096];
    snprintf(path, sizeof path, "%s%s%s", folder, *name == '\0' ? "" : "/", name);
    FILE *file = fopen(path, "rb");
    uint8_t *bytes = (uint8_t *)malloc(1 << 20);
    if (file == NULL || bytes == NULL) {
        printf("cannot read %s\n", path);
        exit(2);
    }
    *length = fread(bytes, 1, 1 << 20, file);
    fclose(file);
    return bytes;
}

static const struct {
    const char *name;
    int64_t refusal;
} refused[] = {
    {"text.pdb", LIMBERLIME_NOT_A_PDB_FILE},
    {"program.exe", LIMBERLIME_PROGRAM},
    {"portable.pdb", LIMBERLIME_PORTABLE_PDB},
    {"compressed.pd_", LIMBERLIME_COMPRESSED},
    {"version_2.pdb", LIMBERLIME_OLD_PDB_FILE},
    {"superblock_alone.pdb", LIMBERLIME_CUT_SHORT},
    {"streams_too_long.pdb", LIMBERLIME_STREAMS_TOO_LONG},
    {"objects.pdb", LIMBERLIME_OF_OBJECTS},
    {"stripped.pdb", LIMBERLIME_NO_SECTION_HEADERS},
    {"rearranged_to.pdb", LIMBERLIME_REARRANGED},
    {"cut_debug.pdb", LIMBERLIME_BROKEN_STREAM},
};

static void refused_files(const char *folder)
{
    struct limberlime_handle handle = LIMBERLIME_CLOSED;
    struct limberlime_function_frames frames;
    for (size_t i = 0; i < sizeof refused / sizeof *refused; i++) {
        size_t length;
        uint8_t *bytes = read_file(folder, refused[i].name, &length);
        int64_t answer = limberlime_open_pdb(bytes, length, &handle);
        if (answer != refused[i].refusal) {
            printf("%s: answered %lld\n", refused[i].name, (long long)answer);
            failures++;
        }
        expect("a refusal has a text", *limberlime_refusal_text(answer) != '\0');
        expect("the handle is closed", limberlime_find_frames(&handle, 0x1000, &frames) == LIMBERLIME_CLOSED_HANDLE);
        free(bytes);
    }
    limberlime_close(&handle);
}

/* Tests that opening a path returns the same errors as opening the bytes, and that paths without a file are refused. */
static void refused_paths(const char *folder)
{
    struct limberlime_handle handle = LIMBERLIME_CLOSED;
    struct limberlime_function_frames frames;
    char path[4096];
    for (size_t i = 0; i < sizeof refused / sizeof *refused; i++) {
        snprintf(path, sizeof path, "%s/%s", folder, refused[i].name);
        expect("a refusal by its number", limberlime_open_path(path, &handle) == refused[i].refusal);
        expect("the handle is closed", limberlime_find_frames(&handle, 0x1000, &frames) == LIMBERLIME_CLOSED_HANDLE);
    }
    snprintf(path, sizeof path, "%s/missing.pdb", folder);
    expect("no file", limberlime_open_path(path, &handle) == LIMBERLIME_CANNOT_READ_FILE);
    snprintf(path, sizeof path, "%s/old_types.pdb", folder);
    expect("types from before 2005 are left out", limberlime_open_path(path, &handle) == 0);
    expect("a folder", limberlime_open_path(folder, &handle) == LIMBERLIME_CANNOT_READ_FILE);
    expect("a device", limberlime_open_path("/dev/null", &handle) == LIMBERLIME_CANNOT_READ_FILE);
    expect("no path", limberlime_open_path(NULL, &handle) == LIMBERLIME_NULL_POINTER);
    expect("no handle", limberlime_open_path(path, NULL) == LIMBERLIME_NULL_POINTER);
    limberlime_close(&handle);
}

/* Returns whether two results are equal. */
static int are_same(const struct limberlime_function_frames *a, const struct limberlime_function_frames *b)
{
    int same = a->count == b->count && a->start == b->start && a->end == b->end && a->end_known == b->end_known;
    for (size_t i = 0; same && i < a->count; i++) {
        const struct limberlime_frame *x = &a->frames[i], *y = &b->frames[i];
        same = x->line == y->line && x->function_length == y->function_length && x->file_length == y->file_length
            && (x->function == NULL) == (y->function == NULL) && (x->file == NULL) == (y->file == NULL)
            && (x->function == NULL || strcmp(x->function, y->function) == 0)
            && (x->file == NULL || strcmp(x->file, y->file) == 0);
    }
    return same;
}

static int add_frames(void *caller, uint32_t address, int64_t answer, const struct limberlime_function_frames *frames)
{
    (void)address;
    *(size_t *)caller += answer == 0 ? frames->count : 0;
    return 0;
}

/* Tests that a file opened by its path gives the same answers as its bytes. */
static void paths(const char *path, const uint8_t *pdb, size_t length)
{
    static const uint32_t addresses[] = {0x1136, 0x10, 0x1000};
    struct limberlime_handle whole = LIMBERLIME_CLOSED, parts = LIMBERLIME_CLOSED;
    struct limberlime_function_frames wanted, found;
    uint8_t text[1024], wanted_text[1024];
    size_t size = 0, wanted_size = 0, frames = 0;
    uint64_t next = 0;
    expect("it opens by its bytes", limberlime_open_pdb(pdb, length, &whole) == 0);
    expect("it opens by its path", limberlime_open_path(path, &parts) == 0);
    for (uint32_t address = 0x0ff0; address < 0x1300; address++) {
        expect("frames", limberlime_find_frames(&whole, address, &wanted) == 0
               && limberlime_find_frames(&parts, address, &found) == 0 && are_same(&wanted, &found));
        expect("a function", limberlime_find_function(&whole, address, &wanted) == 0
               && limberlime_find_function(&parts, address, &found) == 0 && are_same(&wanted, &found));
    }
    expect("it opens anew", limberlime_open_path(path, &parts) == 0);
    expect("the next function", limberlime_next_function(&parts, &next, &found) == 0 && found.count == 1);
    expect("it opens once more", limberlime_open_path(path, &parts) == 0);
    expect("a text", limberlime_frames_of(&whole, addresses, 3, wanted_text, sizeof wanted_text, &wanted_size) > 0
           && limberlime_frames_of(&parts, addresses, 3, text, sizeof text, &size) > 0 && size == wanted_size
           && memcmp(text, wanted_text, size) == 0);
    expect("it opens again", limberlime_open_path(path, &parts) == 0);
    expect("a list", limberlime_find_all_frames(&parts, addresses, 3, add_frames, &frames) == 3 && frames > 3);
    expect("bytes after a path", limberlime_open_pdb(pdb, length, &parts) == 0
           && limberlime_find_frames(&parts, 0x1136, &found) == 0 && found.count == 3);
    limberlime_close(&parts);
    limberlime_close(&whole);
}

static void expect_frame(const struct limberlime_frame *frame, const char *function, const char *file, uint32_t line)
{
    expect("a function's name", strcmp(frame->function, function) == 0);
    expect("a function's length", frame->function_length == strlen(function));
    expect("a file's name", strcmp(frame->file, file) == 0);
    expect("a file's length", frame->file_length == strlen(file));
    expect("a line", frame->line == line);
}

static void shapes(const uint8_t *pdb, size_t length)
{
    struct limberlime_handle handle = LIMBERLIME_CLOSED;
    struct limberlime_function_frames frames;
    expect("it opens", limberlime_open_pdb(pdb, length, &handle) == 0);
    expect("frames are answered", limberlime_find_frames(&handle, 0x1136, &frames) == 0 && frames.count == 3);
    expect_frame(&frames.frames[0], "shapes::Point::length() const", "C:\\shapes\\shapes.h", 10);
    expect_frame(&frames.frames[1], "Picture::draw(int)", "C:\\shapes\\main.cpp", 29);
    expect_frame(&frames.frames[2], "Framed::draw(int)", "C:\\shapes\\main.cpp", 36);
    expect("the function's addresses", frames.start <= 0x1136 && frames.end_known == 1 && frames.end > 0x1136);
    expect("a function is answered", limberlime_find_function(&handle, 0x1136, &frames) == 0 && frames.count == 1);
    expect("its name", strcmp(frames.frames[0].function, "Framed::draw(int)") == 0);
    expect("no file, no line", frames.frames[0].file == NULL && frames.frames[0].line == 0);
    expect("nothing lies there", limberlime_find_frames(&handle, 0x10, &frames) == 0 && frames.count == 0);
    expect("it opens anew", limberlime_open_pdb(pdb, length, &handle) == 0);
    expect("it answers the same", limberlime_find_frames(&handle, 0x1136, &frames) == 0 && frames.count == 3);
    limberlime_close(&handle);
    expect("it is closed", limberlime_find_frames(&handle, 0x1136, &frames) == LIMBERLIME_CLOSED_HANDLE);
    limberlime_close(&handle);
}

static void functions(const uint8_t *pdb, size_t length)
{
    static const uint32_t starts[] = {0x1000, 0x1020, 0x10e0, 0x1110, 0x1150, 0x1190, 0x1260};
    struct limberlime_handle handle = LIMBERLIME_CLOSED;
    struct limberlime_function_frames frames;
    uint64_t next = 0;
    size_t named = 0;
    expect("it opens", limberlime_open_pdb(pdb, length, &handle) == 0);
    do {
        expect("a function is answered", limberlime_next_function(&handle, &next, &frames) == 0);
        if (frames.count == 1 && frames.frames[0].function != NULL) {
            expect("its start", named < 7 && frames.start == starts[named]);
            named++;
        }
    } while (frames.count != 0);
    expect("all functions come", named == 7);
    expect("then none do", limberlime_next_function(&handle, &next, &frames) == 0 && frames.count == 0);
    limberlime_close(&handle);
    next = 0;
    expect("it is closed", limberlime_next_function(&handle, &next, &frames) == LIMBERLIME_CLOSED_HANDLE);
    limberlime_close(&handle);
}

/* If the caller's struct of a frame has more members, frames are laid out at the caller's size. */
static void larger_frames(const uint8_t *pdb, size_t length)
{
    struct larger_frame {
        struct limberlime_frame frame;
        uint64_t later[2];
    };
    struct limberlime_handle handle = LIMBERLIME_CLOSED;
    struct limberlime_function_frames frames;
    handle.sizes.frame = sizeof(struct larger_frame);
    expect("it opens", limberlime_open_pdb(pdb, length, &handle) == 0);
    expect("frames are answered", limberlime_find_frames(&handle, 0x1136, &frames) == 0 && frames.count == 3);
    const struct larger_frame *larger = (const struct larger_frame *)(const void *)frames.frames;
    expect("the last frame", larger[2].frame.line == 36 && larger[2].later[0] == 0);
    limberlime_close(&handle);
}

static void versions(void)
{
    int64_t version = LIMBERLIME_VERSION_MAJOR * 1000000 + LIMBERLIME_VERSION_MINOR * 1000 + LIMBERLIME_VERSION_PATCH;
    expect("the library's version is the header's", limberlime_version() == version);
}

#ifdef __cplusplus
/* In C++ the name of a struct is also the name of a type, unless a function has the same name. */
static void names_without_struct(void)
{
    limberlime_handle handle = LIMBERLIME_CLOSED;
    limberlime_function_frames frames = {0, NULL, 0, 0, 0};
    limberlime_frame frame = {NULL, 0, NULL, 0, 0};
    limberlime_place place = {0, 0};
    limberlime_row row = {place, place, 0};
    limberlime_found found = {0, 0, 0, 0, 0};
    limberlime_sizes sizes = LIMBERLIME_SIZES;
    limberlime_buffers buffers = {&row, &frame, 1, NULL, 0};
    limberlime_contents contents = {NULL, 0, 0, NULL, 0};
    limberlime_file file = {NULL, 0, 0, NULL, 0, 0, NULL, 0, 0, 0};
    expect("sizes", handle.sizes.frame == sizes.frame && frames.count + found.rows + contents.count + file.length == 0);
    expect("buffers", buffers.rows == &row);
}
#endif

static void null_pointers(const uint8_t *pdb, size_t length)
{
    struct limberlime_handle handle = LIMBERLIME_CLOSED;
    struct limberlime_function_frames frames;
    uint8_t buffer[40];
    size_t wanted;
    expect("no bytes", limberlime_open_pdb(NULL, length, &handle) == LIMBERLIME_NULL_POINTER);
    expect("no handle", limberlime_open_pdb(pdb, length, NULL) == LIMBERLIME_NULL_POINTER);
    expect("no frames", limberlime_find_frames(&handle, 1, NULL) == LIMBERLIME_NULL_POINTER);
    expect("no handle to ask", limberlime_find_function(NULL, 1, &frames) == LIMBERLIME_NULL_POINTER);
    expect("no bytes of an id", limberlime_debug_id(NULL, 1, buffer, 40, &wanted) == LIMBERLIME_NULL_POINTER);
    limberlime_close(NULL);
}

static void debug_ids(const uint8_t *pdb, size_t length)
{
    static const char id[] = "6B32B94164959A524C4C44205044422E1";
    uint8_t buffer[40];
    size_t wanted;
    expect("a debug id", limberlime_debug_id(pdb, length, buffer, sizeof buffer, &wanted) == (int64_t)sizeof id - 1);
    expect("its text", memcmp(buffer, id, sizeof id - 1) == 0);
    expect("its length", limberlime_debug_id(pdb, length, buffer, 32, &wanted) == LIMBERLIME_BUFFER_TOO_SMALL
           && wanted == sizeof id - 1);
    expect("none of a text", limberlime_debug_id(buffer, 32, buffer + 32, 8, &wanted) == LIMBERLIME_NOT_A_PDB_FILE);
}

static void machines(const uint8_t *pdb, size_t length)
{
    expect("a processor", limberlime_machine(pdb, length) == 0x8664);
    expect("none of a text", limberlime_machine(pdb, 16) == LIMBERLIME_NOT_A_PDB_FILE);
    expect("none of no bytes", limberlime_machine(NULL, 16) == LIMBERLIME_NULL_POINTER);
}

/* The folder that module files are read from, and the bytes of the last one. */
struct folder {
    const char *path;
    uint8_t *bytes;
};

static int hand_in(void *caller, const char *name, const uint8_t **bytes, size_t *length)
{
    struct folder *folder = (struct folder *)caller;
    free(folder->bytes);
    folder->bytes = read_file(folder->path, name, length);
    *bytes = folder->bytes;
    return 0;
}

static int hand_in_nothing(void *caller, const char *name, const uint8_t **bytes, size_t *length)
{
    (void)caller, (void)name, (void)bytes, (void)length;
    return 1;
}

static void module_files(const char *path)
{
    static const uint32_t addresses[] = {0x1010, 0x1050};
    static const char wanted_text[] = "0x1010 - f\xef\xbf\xbd 0x1010..0x1050\n0x1050 - g 0x1050..0x1090\n";
    struct limberlime_handle handle = LIMBERLIME_CLOSED;
    struct folder folder = {path, NULL};
    uint8_t text[256];
    size_t length, wanted;
    uint8_t *records = read_file(path, "two.json", &length);
    expect("module files are wanted", limberlime_open(records, length, &handle) == LIMBERLIME_MODULE_FILES);
    expect("none is handed in", limberlime_open_records(records, length, hand_in_nothing, NULL, &handle)
           == LIMBERLIME_CANNOT_READ_MODULE);
    expect("it is closed", limberlime_names_of(&handle, addresses, 2, text, sizeof text, &wanted)
           == LIMBERLIME_CLOSED_HANDLE);
    expect("they are handed in", limberlime_open_records(records, length, hand_in, &folder, &handle) == 0);
    expect("the names are answered", limberlime_names_of(&handle, addresses, 2, text, sizeof text, &wanted)
           == (int64_t)sizeof wanted_text - 1);
    expect("the names' text", memcmp(text, wanted_text, sizeof wanted_text - 1) == 0);
    expect("no module files", limberlime_open_records((const uint8_t *)"{", 1, hand_in, &folder, &handle)
           == LIMBERLIME_NOT_JSON);
    expect("no call", limberlime_open_records(records, length, NULL, NULL, &handle) == LIMBERLIME_NULL_POINTER);
    limberlime_close(&handle);
    free(folder.bytes);
    free(records);
}

/* Counts the answers to a list of addresses. The callback stops the list after `most` answers. */
struct answers {
    size_t given;
    size_t most;
    size_t frames;
};

static int add_answer(void *caller, uint32_t address, int64_t answer, const struct limberlime_function_frames *frames)
{
    struct answers *answers = (struct answers *)caller;
    expect("addresses come in order", address == (answers->given == 0 ? 0x1136u : 0x10u));
    expect("each is answered", answer == 0 && frames != NULL);
    answers->frames += frames == NULL ? 0 : frames->count;
    answers->given++;
    return answers->given == answers->most;
}

static void lists(const uint8_t *pdb, size_t length)
{
    static const uint32_t addresses[] = {0x1136, 0x10};
    struct limberlime_handle handle = LIMBERLIME_CLOSED;
    struct answers all = {0, 3, 0}, first = {0, 1, 0};
    expect("it opens", limberlime_open_pdb(pdb, length, &handle) == 0);
    expect("a list is asked for", limberlime_find_all_frames(&handle, addresses, 2, add_answer, &all) == 2);
    expect("all frames come", all.given == 2 && all.frames == 3);
    expect("a caller may stop", limberlime_find_all_frames(&handle, addresses, 2, add_answer, &first) == 1);
    expect("then no more come", first.given == 1);
    limberlime_close(&handle);
}

int main(int argc, char **argv)
{
    if (argc != 4)
        return 2;
    size_t length;
    uint8_t *pdb = read_file(argv[1], "", &length);
    refused_files(argv[2]);
    refused_paths(argv[2]);
    paths(argv[1], pdb, length);
    shapes(pdb, length);
    larger_frames(pdb, length);
    versions();
#ifdef __cplusplus
    names_without_struct();
#endif
    null_pointers(pdb, length);
    debug_ids(pdb, length);
    machines(pdb, length);
    functions(pdb, length);
    lists(pdb, length);
    module_files(argv[3]);
    free(pdb);
    return failures == 0 ? 0 : 1;
}
