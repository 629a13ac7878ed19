/* Tests that each kind of refusal has its error number and leaves the buffer unchanged.
 *
 *     refusals RECORDS FAILING_PARTS
 *
 * The arguments are small_x64.json and failing_parts.json of crates/pdb_report_tests/data. The exit status is 1 if an
 * answer is not the expected one.
 */
#include <string.h>

#include "input.h"

#define CAPACITY 4096
#define UNTOUCHED 0xAA

static uint8_t buffer[CAPACITY];
static const uint32_t addresses[2] = {0x1544, 0x2b45};
static int failures;

/* Returns whether the buffer is unchanged from `from` on. */
static int untouched(size_t from)
{
    for (size_t i = from; i < CAPACITY; i++)
        if (buffer[i] != UNTOUCHED)
            return 0;
    return 1;
}

/* Compares the answer of a call, and the length that it stored. The length is read through a pointer, after the
 * call. */
static void expect(const char *what, int64_t answer, int64_t wanted_answer, const size_t *length, size_t wanted_length)
{
    size_t written = answer > 0 ? (size_t)answer : 0;
    if (answer != wanted_answer || *length != wanted_length || !untouched(written)) {
        printf("%s: answered %lld, wanted %lld; length %zu, wanted %zu; %s behind\n", what, (long long)answer,
               (long long)wanted_answer, *length, wanted_length, untouched(written) ? "untouched" : "WRITTEN");
        failures++;
    }
    memset(buffer, UNTOUCHED, CAPACITY);
}

/* Tests the answer to a text that is passed as the records. */
static void expect_text(const char *text, int64_t wanted_answer)
{
    size_t wanted = 7;
    int64_t answer = limberlime_frames((const uint8_t *)text, strlen(text), addresses, 2, buffer, CAPACITY, &wanted);
    expect(text, answer, wanted_answer, &wanted, 0);
    wanted = 7;
    answer = limberlime_names((const uint8_t *)text, strlen(text), addresses, 2, buffer, CAPACITY, &wanted);
    expect(text, answer, wanted_answer, &wanted, 0);
}

#define STREAMS \
    "\"sections\":[{\"virtual_address\":4096,\"virtual_size\":256,\"execute\":true}]," \
    "\"address_map\":[{\"virtual_address\":4096,\"virtual_size\":256}],\"global_symbols\":[]," \
    "\"type_information\":[],\"id_information\":[],\"string_table\":[],"
#define ONE_MODULE(CONTRIBUTIONS) \
    "\"debug_information\":{\"machine_type\":\"Amd64\",\"modules\":[{\"name\":\"a\"},{\"name\":\"b\"}]," \
    "\"section_contributions\":[" CONTRIBUTIONS "]},"

static void refused_texts(void)
{
    expect_text("", LIMBERLIME_NOT_JSON);
    expect_text("{", LIMBERLIME_NOT_JSON);
    expect_text("{}", LIMBERLIME_NO_RECORDS);
    expect_text("[]", LIMBERLIME_NO_RECORDS);
    expect_text("{" STREAMS ONE_MODULE("{\"section\":1,\"offset\":0,\"size\":4294967296,\"module\":0}")
                "\"module_infos\":[]}", LIMBERLIME_NO_RECORDS);
    expect_text("{\"version\":2," STREAMS ONE_MODULE("") "\"module_infos\":[{\"file\":\"a.json\"}]}",
                LIMBERLIME_MODULE_FILES);
    expect_text("{" STREAMS ONE_MODULE("{\"section\":1,\"offset\":0,\"size\":8,\"module\":0},"
                                       "{\"section\":1,\"offset\":4,\"size\":8,\"module\":1}")
                "\"module_infos\":[]}", LIMBERLIME_RECORDS_REFUSED);
}

static void refused_pointers(const uint8_t *records, size_t length)
{
    size_t wanted = 7;
    expect("null records", limberlime_frames(NULL, length, addresses, 2, buffer, CAPACITY, &wanted),
           LIMBERLIME_NULL_POINTER, &wanted, 7);
    expect("null records, length 0", limberlime_frames(NULL, 0, addresses, 2, buffer, CAPACITY, &wanted),
           LIMBERLIME_NULL_POINTER, &wanted, 7);
    expect("null addresses", limberlime_frames(records, length, NULL, 2, buffer, CAPACITY, &wanted),
           LIMBERLIME_NULL_POINTER, &wanted, 7);
    expect("null addresses, count 0", limberlime_names(records, length, NULL, 0, buffer, CAPACITY, &wanted),
           LIMBERLIME_NULL_POINTER, &wanted, 7);
    expect("null buffer", limberlime_frames(records, length, addresses, 2, NULL, CAPACITY, &wanted),
           LIMBERLIME_NULL_POINTER, &wanted, 7);
    expect("null buffer, capacity 0", limberlime_names(records, length, addresses, 2, NULL, 0, &wanted),
           LIMBERLIME_NULL_POINTER, &wanted, 7);
    expect("null length", limberlime_names(records, length, addresses, 2, buffer, CAPACITY, NULL),
           LIMBERLIME_NULL_POINTER, &wanted, 7);
    expect("all null", limberlime_names(NULL, 0, NULL, 0, NULL, 0, NULL), LIMBERLIME_NULL_POINTER, &wanted, 7);
}

static void refused_lengths(const uint8_t *records, size_t length)
{
    size_t whole = 0, wanted = 7;
    int64_t answer = limberlime_frames(records, length, addresses, 2, buffer, CAPACITY, &whole);
    expect("a buffer that is large enough", answer, (int64_t)whole, &whole, whole);
    if (answer <= 0) {
        printf("no text to go by: %lld\n", (long long)answer);
        failures++;
        return;
    }
    expect("no addresses", limberlime_frames(records, length, addresses, 0, buffer, CAPACITY, &wanted),
           LIMBERLIME_NO_ADDRESSES, &wanted, 0);
    expect("no bytes", limberlime_frames(records, 0, addresses, 2, buffer, CAPACITY, &wanted),
           LIMBERLIME_NOT_JSON, &wanted, 0);
    expect("records cut off", limberlime_frames(records, length / 2, addresses, 2, buffer, CAPACITY, &wanted),
           LIMBERLIME_NOT_JSON, &wanted, 0);
    answer = limberlime_frames(records, length, addresses, 2, buffer, 0, &wanted);
    expect("a buffer of no bytes", answer, LIMBERLIME_BUFFER_TOO_SMALL, &wanted, whole);
    answer = limberlime_frames(records, length, addresses, 2, buffer, whole - 1, &wanted);
    expect("a buffer that is short by one byte", answer, LIMBERLIME_BUFFER_TOO_SMALL, &wanted, whole);
    answer = limberlime_frames(records, length, addresses, 2, buffer, whole, &wanted);
    expect("a buffer of the very length", answer, (int64_t)whole, &wanted, whole);
}

/* One of two addresses is refused, because its module has a broken list of inlined functions. Nothing is written for
 * the other one either. */
static void refused_address(const uint8_t *records, size_t length)
{
    static const uint32_t asked[] = {0x10c4, 0x1024};
    size_t wanted = 7;
    int64_t answer = limberlime_frames(records, length, asked, 2, buffer, CAPACITY, &wanted);
    expect("an address that is refused", answer, LIMBERLIME_ADDRESS_REFUSED, &wanted, 0);
}

/* Tests that both calls refuse a handle that has no records. */
static void expect_closed(const char *what, struct limberlime_handle *handle)
{
    size_t wanted = 7;
    int64_t answer = limberlime_frames_of(handle, addresses, 2, buffer, CAPACITY, &wanted);
    expect(what, answer, LIMBERLIME_CLOSED_HANDLE, &wanted, 0);
    wanted = 7;
    answer = limberlime_names_of(handle, addresses, 0, buffer, CAPACITY, &wanted);
    expect(what, answer, LIMBERLIME_CLOSED_HANDLE, &wanted, 0);
    if (handle->records != NULL) {
        printf("%s: the handle leads somewhere\n", what);
        failures++;
    }
}

/* Tests the answer of limberlime_open. */
static void expect_opening(const char *what, const uint8_t *records, size_t length, struct limberlime_handle *handle,
                           int64_t wanted_answer)
{
    int64_t answer = limberlime_open(records, length, handle);
    if (answer != wanted_answer) {
        printf("opening %s: answered %lld, wanted %lld\n", what, (long long)answer, (long long)wanted_answer);
        failures++;
    }
}

/* A refused call of limberlime_open closes the handle, whether it was open before or not. */
static void refused_opening(const char *text, int64_t wanted_answer, const uint8_t *records, size_t length)
{
    struct limberlime_handle handle = LIMBERLIME_CLOSED;
    expect_opening(text, (const uint8_t *)text, strlen(text), &handle, wanted_answer);
    expect_closed(text, &handle);
    expect_opening("records", records, length, &handle, 0);
    expect_opening(text, (const uint8_t *)text, strlen(text), &handle, wanted_answer);
    expect_closed(text, &handle);
}

static void refused_openings(const uint8_t *records, size_t length)
{
    refused_opening("{", LIMBERLIME_NOT_JSON, records, length);
    refused_opening("{}", LIMBERLIME_NO_RECORDS, records, length);
    refused_opening("{\"version\":2," STREAMS ONE_MODULE("") "\"module_infos\":[{\"file\":\"a.json\"}]}",
                    LIMBERLIME_MODULE_FILES, records, length);
    refused_opening("{" STREAMS ONE_MODULE("{\"section\":1,\"offset\":0,\"size\":8,\"module\":0},"
                                           "{\"section\":1,\"offset\":4,\"size\":8,\"module\":1}")
                    "\"module_infos\":[]}", LIMBERLIME_RECORDS_REFUSED, records, length);
}

/* Tests null pointers. None of them changes the records of a handle. */
static void refused_handle_pointers(struct limberlime_handle *handle, const uint8_t *records, size_t length)
{
    size_t wanted = 7;
    expect_opening("into no handle", records, length, NULL, LIMBERLIME_NULL_POINTER);
    expect_opening("null records", NULL, 0, handle, LIMBERLIME_NULL_POINTER);
    limberlime_close(NULL);
    expect("no handle", limberlime_frames_of(NULL, addresses, 2, buffer, CAPACITY, &wanted),
           LIMBERLIME_NULL_POINTER, &wanted, 7);
    expect("null addresses", limberlime_names_of(handle, NULL, 0, buffer, CAPACITY, &wanted),
           LIMBERLIME_NULL_POINTER, &wanted, 7);
    expect("null buffer", limberlime_frames_of(handle, addresses, 2, NULL, 0, &wanted),
           LIMBERLIME_NULL_POINTER, &wanted, 7);
    expect("null length", limberlime_names_of(handle, addresses, 2, buffer, CAPACITY, NULL),
           LIMBERLIME_NULL_POINTER, &wanted, 7);
}

/* Tests what an open handle refuses, and that it gives the same answers afterwards as the calls over bytes. */
static void refused_questions(const uint8_t *records, size_t length, const uint8_t *failing, size_t failing_length)
{
    static const uint32_t asked[] = {0x10c4, 0x1024};
    static uint8_t text[CAPACITY];
    struct limberlime_handle handle = LIMBERLIME_CLOSED;
    size_t whole = 0, wanted = 7;
    int64_t answer = limberlime_frames(records, length, addresses, 2, text, CAPACITY, &whole);
    expect_closed("never opened", &handle);
    expect_opening("records with a broken module", failing, failing_length, &handle, 0);
    expect("an address that is refused", limberlime_frames_of(&handle, asked, 2, buffer, CAPACITY, &wanted),
           LIMBERLIME_ADDRESS_REFUSED, &wanted, 0);
    expect_opening("other records", records, length, &handle, 0);
    refused_handle_pointers(&handle, records, length);
    expect("no addresses", limberlime_frames_of(&handle, addresses, 0, buffer, CAPACITY, &wanted),
           LIMBERLIME_NO_ADDRESSES, &wanted, 0);
    expect("a buffer that is short by one byte",
           limberlime_frames_of(&handle, addresses, 2, buffer, whole - 1, &wanted),
           LIMBERLIME_BUFFER_TOO_SMALL, &wanted, whole);
    int64_t again = limberlime_frames_of(&handle, addresses, 2, buffer, whole, &wanted);
    if (answer <= 0 || memcmp(text, buffer, whole) != 0) {
        printf("an open handle has another text\n");
        failures++;
    }
    expect("a buffer of the very length", again, answer, &wanted, whole);
    limberlime_close(&handle);
    expect_closed("closed", &handle);
    limberlime_close(&handle);
    expect_closed("closed twice", &handle);
}

int main(int argc, char **argv)
{
    size_t length, failing_length;
    uint8_t *records = argc == 3 ? read_file(argv[1], &length) : NULL;
    uint8_t *failing = argc == 3 ? read_file(argv[2], &failing_length) : NULL;
    if (records == NULL || failing == NULL) {
        fprintf(stderr, "usage: refusals RECORDS FAILING_PARTS\n");
        return 2;
    }
    memset(buffer, UNTOUCHED, CAPACITY);
    refused_texts();
    refused_pointers(records, length);
    refused_lengths(records, length);
    refused_address(failing, failing_length);
    refused_openings(records, length);
    refused_questions(records, length, failing, failing_length);
    free(records);
    free(failing);
    printf("refusals: %d answers are others than wanted\n", failures);
    return failures == 0 ? 0 : 1;
}
