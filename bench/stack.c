/*
 * Measures the stack that each call needs: on a thread of its own, the bytes
 * below the caller are painted, the call is made, and the deepest byte that
 * was touched is found. A path's need is the same for every content, so each
 * call is made with inputs that reach its paths, and the most is told. It
 * includes the call's arguments and its caller's small frame.
 */
#include "sevgharin.h"

#include <pthread.h>
#include <stdio.h>
#include <stdlib.h>
#include <string.h>

#define STACK (1 << 20)
#define PAINTED (1 << 18)
/* Bytes below the painter's frame that stay unpainted, for its own calls. */
#define GAP 256

static uint8_t stack[STACK] __attribute__((aligned(4096)));

static uint8_t state[SEVGHARIN_STATE_SIZE];
static uint8_t log12[SEVGHARIN_LONGEST_STORE];
static uint8_t agile[SEVGHARIN_LONGEST_STORE];
static uint8_t table[SEVGHARIN_LONGEST_STORE];
static uint8_t replay[SEVGHARIN_REPLAY_SIZE];
static uint8_t request[SEVGHARIN_REQUEST_HEAD_SIZE + SEVGHARIN_LONGEST_EVENT];
static uint8_t data[SEVGHARIN_LONGEST_DATA];
static uint8_t reading[SEVGHARIN_READING_SIZE];
static uint8_t slice[SEVGHARIN_SLICE_SIZE];
static uint8_t digest[SEVGHARIN_SHA256_SIZE];
static uint8_t reg[SEVGHARIN_SHA256_SIZE];

/* What the calls are made with. */
static uint32_t bitmap;
static uint32_t format;
static uint64_t flags;
static uint64_t asked;
static size_t event_size;
static size_t data_size;
static size_t used;
static uint64_t status;

static void open_panel(void)
{
    status = sevgharin_open(state, sizeof state, bitmap, log12, sizeof log12, agile, sizeof agile, table, sizeof table);
}

static void measure(void)
{
    status = sevgharin_request(state, sizeof state, flags, request, SEVGHARIN_REQUEST_HEAD_SIZE + event_size, data, data_size,
                               log12, sizeof log12, agile, sizeof agile, table, sizeof table);
}

static void read_log(void)
{
    status = sevgharin_read_log(state, sizeof state, format, log12, sizeof log12, agile, sizeof agile, table, sizeof table,
                                reading, sizeof reading);
}

static void begin(void)
{
    status = sevgharin_begin(replay, sizeof replay, format, format == 1 ? log12 : agile, used);
}

static void take(void)
{
    status = sevgharin_slice(replay, sizeof replay, format == 1 ? log12 : agile, used, asked, slice, sizeof slice);
}

static void hash_sha1(void)
{
    status = sevgharin_sha1(data, data_size, digest, SEVGHARIN_SHA1_SIZE);
}

static void hash_sha256(void)
{
    status = sevgharin_sha256(data, data_size, digest, SEVGHARIN_SHA256_SIZE);
}

static void extend_sha1(void)
{
    status = sevgharin_sha1_extend(reg, SEVGHARIN_SHA1_SIZE, digest, SEVGHARIN_SHA1_SIZE);
}

static void extend_sha256(void)
{
    status = sevgharin_sha256_extend(reg, SEVGHARIN_SHA256_SIZE, digest, SEVGHARIN_SHA256_SIZE);
}

enum { OPEN, REQUEST, READ_LOG, BEGIN, SLICE, SHA1, SHA256, SHA1_EXTEND, SHA256_EXTEND, CALLS };

/* A call, what docs/INTEGRATION.md allows it, and the most that was found. */
static struct {
    const char *name;
    void (*call)(void);
    size_t allowed;
    size_t most;
} calls[CALLS] = {
    {"sevgharin_open", open_panel, 8192, 0},
    {"sevgharin_request", measure, 8192, 0},
    {"sevgharin_read_log", read_log, 8192, 0},
    {"sevgharin_begin", begin, 8192, 0},
    {"sevgharin_slice", take, 8192, 0},
    {"sevgharin_sha1", hash_sha1, 2048, 0},
    {"sevgharin_sha256", hash_sha256, 2048, 0},
    {"sevgharin_sha1_extend", extend_sha1, 2048, 0},
    {"sevgharin_sha256_extend", extend_sha256, 2048, 0},
};

/* The bytes touched below this frame, with one paint. */
static __attribute__((noinline)) size_t depth(void (*call)(void), uint8_t paint)
{
    uint8_t *here = (uint8_t *)__builtin_frame_address(0);
    volatile uint8_t *from = here - PAINTED;
    volatile uint8_t *p;
    for (p = from; p < here - GAP; p++)
        *p = paint;
    call();
    for (p = from; p < here - GAP && *p == paint; p++)
        continue;
    return (size_t)(here - (uint8_t *)(uintptr_t)p);
}

static void probe_once(int which, uint8_t paint)
{
    size_t found = depth(calls[which].call, paint);
    if (found > calls[which].most)
        calls[which].most = found;
}

/* Makes a call twice, with two paints: a byte left as painted isn't missed in both. The status must be as wanted. */
static void probe(int which, uint64_t wanted)
{
    static uint8_t kept[sizeof state + sizeof replay];
    memcpy(kept, state, sizeof state);
    memcpy(kept + sizeof state, replay, sizeof replay);
    probe_once(which, 0xa5);
    memcpy(state, kept, sizeof state);
    memcpy(replay, kept + sizeof state, sizeof replay);
    probe_once(which, 0x5a);
    if (status != wanted) {
        printf("%s answered %llu\n", calls[which].name, (unsigned long long)status);
        exit(1);
    }
}

static void set_request(size_t size)
{
    size_t whole = SEVGHARIN_REQUEST_HEAD_SIZE + size;
    event_size = size;
    memset(request, 0, SEVGHARIN_REQUEST_HEAD_SIZE);
    request[SEVGHARIN_REQUEST_SIZE] = (uint8_t)whole;
    request[SEVGHARIN_REQUEST_SIZE + 1] = (uint8_t)(whole >> 8);
    request[SEVGHARIN_REQUEST_HEADER] = SEVGHARIN_REQUEST_HEADER_SIZE;
    request[SEVGHARIN_REQUEST_REGISTER] = 7;
}

static void probe_requests(void)
{
    static const size_t lengths[] = {1, 55, 56, 63, 64, 119, 120, 200, SEVGHARIN_LONGEST_DATA};
    size_t i;
    for (i = 0; i < sizeof lengths / sizeof lengths[0]; i++) {
        data_size = lengths[i];
        set_request(0);
        probe(REQUEST, 0);
        set_request(i == 0 ? SEVGHARIN_LONGEST_EVENT : i);
        probe(REQUEST, 0);
        flags = SEVGHARIN_EXTEND_ONLY;
        probe(REQUEST, 0);
        flags = SEVGHARIN_PE_COFF;
        probe(REQUEST, SEVGHARIN_UNSUPPORTED);
        flags = 0x20;
        probe(REQUEST, SEVGHARIN_INVALID_PARAMETER);
        flags = 0;
    }
}

static void probe_replays(void)
{
    static const uint64_t numbers[] = {0, 1, 3, UINT64_MAX};
    size_t i;
    for (format = 1; format <= 2; format++) {
        if (format == 1 && bitmap == SEVGHARIN_BANK_SHA256)
            continue;
        read_log();
        used = 0;
        for (i = 8; i > 0; i--)
            used = used << 8 | reading[SEVGHARIN_READING_USED + i - 1];
        for (i = 0; i < sizeof numbers / sizeof numbers[0]; i++) {
            asked = numbers[i];
            probe(BEGIN, 0);
            probe(SLICE, 0);
        }
        used--;
        probe(BEGIN, 0);
        probe(SLICE, SEVGHARIN_REFUSED_CUT_SHORT);
    }
    probe(BEGIN, SEVGHARIN_REFUSED_FORMAT);
    probe(SLICE, SEVGHARIN_REFUSED_REPLAY);
}

static void probe_digests(void)
{
    for (data_size = 0; data_size <= 200; data_size++) {
        probe(SHA1, 0);
        probe(SHA256, 0);
    }
    probe(SHA1_EXTEND, 0);
    probe(SHA256_EXTEND, 0);
}

static void *run(void *unused)
{
    for (bitmap = 1; bitmap <= 3; bitmap++) {
        probe(OPEN, 0);
        set_request(9);
        data_size = 10;
        probe(REQUEST, 0);
        for (format = 3; format >= (bitmap == 2 ? 2u : 1u); format--)
            probe(READ_LOG, format == 3 ? SEVGHARIN_INVALID_PARAMETER : 0);
        probe_requests();
        probe_replays();
    }
    probe(OPEN, SEVGHARIN_INVALID_PARAMETER);
    probe(REQUEST, SEVGHARIN_DEVICE_ERROR);
    probe(READ_LOG, SEVGHARIN_DEVICE_ERROR);
    probe_digests();
    return unused;
}

int main(void)
{
    pthread_attr_t attributes;
    pthread_t thread;
    int passed = 0;
    int i;
    if (pthread_attr_init(&attributes) || pthread_attr_setstack(&attributes, stack, sizeof stack)
        || pthread_create(&thread, &attributes, run, NULL) || pthread_join(thread, NULL))
        return 2;
    for (i = 0; i < CALLS; i++) {
        int fits = calls[i].most <= calls[i].allowed;
        passed += fits;
        printf("%-24s %5zu bytes of stack, %zu allowed%s\n", calls[i].name, calls[i].most, calls[i].allowed,
               fits ? "" : ": TOO MANY");
    }
    printf("%d passed, %d failed\n", passed, CALLS - passed);
    return passed != CALLS;
}
