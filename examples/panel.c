/*
 * A boot in small: opens with both banks, measures a few things, reads both
 * logs, replays the agile log entry by entry, and prints the registers as
 * measured and as replayed. C99, and C++.
 */
#include "sevgharin.h"

#include <inttypes.h>
#include <stdio.h>
#include <string.h>

static uint8_t state[SEVGHARIN_STATE_SIZE];
static uint8_t log12[1024];
static uint8_t agile[1024];
static uint8_t table[1024];
static uint8_t replay[SEVGHARIN_REPLAY_SIZE];

static uint64_t number_at(const uint8_t *bytes, size_t size)
{
    uint64_t value = 0;
    while (size > 0) {
        size--;
        value = value << 8 | bytes[size];
    }
    return value;
}

static void put_u32(uint8_t *bytes, uint32_t value)
{
    int i;
    for (i = 0; i < 4; i++)
        bytes[i] = (uint8_t)(value >> (8 * i));
}

static void print_bytes(const char *what, int number, const uint8_t *bytes, size_t size)
{
    size_t i;
    printf("%s %02d ", what, number);
    for (i = 0; i < size; i++)
        printf("%02x", bytes[i]);
    putchar('\n');
}

/* The registers named, of both banks. */
static void print_registers(const char *what, const uint8_t *sha1, const uint8_t *sha256)
{
    static const int shown[] = {2, 16, 17};
    size_t i;
    printf("%s\n", what);
    for (i = 0; i < sizeof shown / sizeof shown[0]; i++) {
        int r = shown[i];
        print_bytes("  sha1", r, sha1 + SEVGHARIN_SHA1_SIZE * r, SEVGHARIN_SHA1_SIZE);
        print_bytes("  sha256", r, sha256 + SEVGHARIN_SHA256_SIZE * r, SEVGHARIN_SHA256_SIZE);
    }
}

static void open_panel(uint32_t bitmap)
{
    uint64_t status = sevgharin_open(state, sizeof state, bitmap, log12, sizeof log12, agile, sizeof agile, table, sizeof table);
    printf("open %" PRIu32 ": %016" PRIx64 "\n", bitmap, status);
}

/* Measures data into a register, with an event. */
static void measure(const char *what, uint64_t flags, uint32_t reg, uint32_t type, const void *event, size_t event_size,
                    const void *data, size_t data_size)
{
    uint8_t request[SEVGHARIN_REQUEST_HEAD_SIZE + 64] = {0};
    size_t size = SEVGHARIN_REQUEST_HEAD_SIZE + event_size;
    uint64_t status;
    put_u32(request + SEVGHARIN_REQUEST_SIZE, (uint32_t)size);
    put_u32(request + SEVGHARIN_REQUEST_HEADER, SEVGHARIN_REQUEST_HEADER_SIZE);
    request[SEVGHARIN_REQUEST_VERSION] = 1;
    put_u32(request + SEVGHARIN_REQUEST_REGISTER, reg);
    put_u32(request + SEVGHARIN_REQUEST_EVENT_TYPE, type);
    memcpy(request + SEVGHARIN_REQUEST_HEAD_SIZE, event, event_size);
    status = sevgharin_request(state, sizeof state, flags, request, size, (const uint8_t *)data, data_size, log12, sizeof log12,
                               agile, sizeof agile, table, sizeof table);
    printf("%s: %016" PRIx64 "\n", what, status);
}

/* The used length of a log. */
static size_t read_log(uint32_t format)
{
    uint8_t answer[SEVGHARIN_READING_SIZE];
    uint64_t status = sevgharin_read_log(state, sizeof state, format, log12, sizeof log12, agile, sizeof agile, table,
                                         sizeof table, answer, sizeof answer);
    uint64_t used = number_at(answer + SEVGHARIN_READING_USED, 8);
    printf("read %" PRIu32 ": %016" PRIx64 ", used %" PRIu64 ", closed %d, last entry %d at %" PRIu64 "\n", format, status,
           used, answer[SEVGHARIN_READING_CLOSED], answer[SEVGHARIN_READING_HAS_LAST],
           number_at(answer + SEVGHARIN_READING_LAST, 8));
    return (size_t)used;
}

/* Takes a slice of one entry; tells whether to go on. */
static int take_one(const uint8_t *log, size_t size)
{
    uint8_t answer[SEVGHARIN_SLICE_SIZE];
    uint64_t status = sevgharin_slice(replay, sizeof replay, log, size, 1, answer, sizeof answer);
    printf("slice: %" PRIu64 ", taken %" PRIu64 ", number %" PRIu64 ", offset %" PRIu64 ", done %d, place %" PRIu64 "\n", status,
           number_at(answer + SEVGHARIN_SLICE_TAKEN, 8), number_at(answer + SEVGHARIN_SLICE_NUMBER, 8),
           number_at(answer + SEVGHARIN_SLICE_OFFSET, 8), answer[SEVGHARIN_SLICE_DONE],
           number_at(replay + SEVGHARIN_REPLAY_PLACE, 8));
    return status == 0 && answer[SEVGHARIN_SLICE_DONE] == 0;
}

static void replay_log(uint32_t format, const uint8_t *log, size_t size)
{
    uint64_t status = sevgharin_begin(replay, sizeof replay, format, log, size);
    printf("begin %" PRIu32 ": %" PRIu64 ", banks %" PRIu64 ", place %" PRIu64 "\n", format, status,
           number_at(replay + SEVGHARIN_REPLAY_BANKS, 4), number_at(replay + SEVGHARIN_REPLAY_PLACE, 8));
    while (status == 0 && take_one(log, size))
        continue;
}

/* A header and an archive of different sizes must not be used together. */
static int archive_is_ours(void)
{
    printf("version: %s\n", sevgharin_version() == SEVGHARIN_VERSION ? "the header's" : "another");
    return sevgharin_version() == SEVGHARIN_VERSION;
}

int main(void)
{
    static const char fox[] = "The quick brown fox jumps over the lazy dog";
    static const char event[] = "TCG2 Protocol Test";
    static const uint8_t zeros[4] = {0};
    size_t used;

    if (!archive_is_ours())
        return 1;
    open_panel(4);
    open_panel(SEVGHARIN_BANK_SHA1 | SEVGHARIN_BANK_SHA256);
    measure("four zero bytes into 2", 0, 2, 4, zeros, sizeof zeros, zeros, sizeof zeros);
    measure("the fox into 16", 0, 16, 1, event, sizeof event - 1, fox, sizeof fox - 1);
    measure("abc into 17", 0, 17, 1, "", 0, "abc", 3);
    measure("register 24", 0, 24, 1, "", 0, "abc", 3);
    measure("an image", SEVGHARIN_PE_COFF, 4, 1, "", 0, "abc", 3);
    print_registers("measured", state + SEVGHARIN_STATE_SHA1, state + SEVGHARIN_STATE_SHA256);

    print_bytes("the agile entry at", SEVGHARIN_HEADER_SIZE_BOTH, agile + SEVGHARIN_HEADER_SIZE_BOTH, 76);

    /* From the first reading on the table takes entries too. */
    read_log(3);
    read_log(SEVGHARIN_FORMAT_1_2);
    measure("abc into 0", 0, 0, 1, "", 0, "abc", 3);
    measure("abc into 5, not logged", SEVGHARIN_EXTEND_ONLY, 5, 1, "", 0, "abc", 3);
    used = read_log(SEVGHARIN_FORMAT_AGILE);
    printf("table used %" PRIu64 ", entries %" PRIu64 "\n", number_at(state + SEVGHARIN_STATE_TABLE_USED, 8),
           number_at(state + SEVGHARIN_STATE_TABLE_COUNT, 8));

    replay_log(SEVGHARIN_FORMAT_AGILE, agile, used);
    print_registers("replayed", replay + SEVGHARIN_REPLAY_SHA1, replay + SEVGHARIN_REPLAY_SHA256);
    replay_log(SEVGHARIN_FORMAT_AGILE, agile, used - 1);
    replay_log(SEVGHARIN_FORMAT_AGILE, log12, 32);
    take_one(agile, used);
    return 0;
}
