/*
 * Every call with each lent buffer flush against memory that can't be touched,
 * once behind its last byte and once before its first: an access outside of a
 * buffer ends the program by a signal. Valgrind and the address sanitizer see
 * less (the buffers of a firmware are static), and neither runs x86-64 code on
 * another machine.
 *
 * usage: edges          every case; the last line is `N passed, M failed`
 *        edges past     reads one byte behind a buffer, and must not come back
 *        edges before   reads one byte before a buffer
 */
#define _DEFAULT_SOURCE
#include "sevgharin.h"

#include <stdio.h>
#include <stdlib.h>
#include <string.h>
#include <sys/mman.h>

/* A part that can't be touched, as wide as any machine's page. */
#define GUARD 65536
#define LONGEST 65537
#define BUFFERS 8

enum side { PAST, BEFORE };

static uint8_t *room[BUFFERS];
static int lent;
static enum side guarded;
static unsigned long passed;
static unsigned long failed;

static void make_rooms(void)
{
    int i;
    for (i = 0; i < BUFFERS; i++) {
        uint8_t *all = mmap(NULL, 4 * GUARD, PROT_NONE, MAP_PRIVATE | MAP_ANONYMOUS, -1, 0);
        if (all == MAP_FAILED || mprotect(all + GUARD, 2 * GUARD, PROT_READ | PROT_WRITE) != 0) {
            perror("edges");
            exit(1);
        }
        room[i] = all + GUARD;
    }
}

/* The next buffer, of size bytes with the given content (zero where there is none). */
static uint8_t *lend(size_t size, const uint8_t *content)
{
    uint8_t *start = guarded == PAST ? room[lent] + 2 * GUARD - size : room[lent];
    lent++;
    if (size > 0 && content != NULL)
        memcpy(start, content, size);
    else
        memset(start, 0, size);
    return start;
}

static void done(uint64_t answer)
{
    /* Every answer is one of the header's; which one is compared elsewhere. */
    if ((answer & ~SEVGHARIN_ERROR_BIT) <= SEVGHARIN_REFUSED_FORMAT)
        passed++;
    else
        failed++;
    lent = 0;
}

/* ---- a panel's memory between calls, without guards */

static uint8_t state[SEVGHARIN_STATE_SIZE];
static uint8_t stores[3][LONGEST];
static size_t sizes[3];

static void open_panel(uint32_t bitmap, size_t size)
{
    uint8_t *s = lend(sizeof state, NULL), *st[3];
    int i;
    uint64_t answer;
    for (i = 0; i < 3; i++) {
        sizes[i] = size;
        st[i] = lend(size, NULL);
    }
    answer = sevgharin_open(s, sizeof state, bitmap, st[0], size, st[1], size, st[2], size);
    memcpy(state, s, sizeof state);
    for (i = 0; i < 3; i++)
        memcpy(stores[i], st[i], size);
    done(answer);
}

static void request(uint64_t flags, size_t lent_size, uint32_t size, const uint8_t *data, size_t data_size)
{
    static uint8_t bytes[LONGEST];
    uint8_t *s, *r, *d, *st[3];
    int i;
    uint64_t answer;
    bytes[0] = (uint8_t)size;
    bytes[1] = (uint8_t)(size >> 8);
    bytes[4] = SEVGHARIN_REQUEST_HEADER_SIZE;
    bytes[10] = 5;
    s = lend(sizeof state, state);
    r = lend(lent_size, bytes);
    d = lend(data_size, data);
    for (i = 0; i < 3; i++)
        st[i] = lend(sizes[i], stores[i]);
    answer = sevgharin_request(s, sizeof state, flags, r, lent_size, d, data_size, st[0], sizes[0], st[1], sizes[1], st[2], sizes[2]);
    memcpy(state, s, sizeof state);
    for (i = 0; i < 3; i++)
        memcpy(stores[i], st[i], sizes[i]);
    done(answer);
}

static size_t read_log(uint32_t format, size_t answer_size)
{
    uint8_t *s = lend(sizeof state, state), *st[3], *a;
    int i;
    size_t used = 0;
    uint64_t answer;
    for (i = 0; i < 3; i++)
        st[i] = lend(sizes[i], stores[i]);
    a = lend(answer_size, NULL);
    answer = sevgharin_read_log(s, sizeof state, format, st[0], sizes[0], st[1], sizes[1], st[2], sizes[2], a, answer_size);
    memcpy(state, s, sizeof state);
    if (answer == 0)
        used = (size_t)(a[0] | a[1] << 8 | a[2] << 16);
    done(answer);
    return used;
}

/* The log's first bytes replayed, in slices. */
static void replay_log(uint32_t format, const uint8_t *log, size_t size, uint64_t asked)
{
    uint8_t replay[SEVGHARIN_REPLAY_SIZE];
    uint8_t *p = lend(sizeof replay, NULL), *l = lend(size, log), *a;
    uint64_t answer = sevgharin_begin(p, sizeof replay, format, l, size);
    int going = answer == 0;
    memcpy(replay, p, sizeof replay);
    done(answer);
    while (going) {
        p = lend(sizeof replay, replay);
        l = lend(size, log);
        a = lend(SEVGHARIN_SLICE_SIZE, NULL);
        answer = sevgharin_slice(p, sizeof replay, l, size, asked, a, SEVGHARIN_SLICE_SIZE);
        memcpy(replay, p, sizeof replay);
        going = answer == 0 && a[SEVGHARIN_SLICE_DONE] == 0;
        done(answer);
    }
}

/* ---- the cases */

static void digests(void)
{
    static uint8_t message[LONGEST];
    static const size_t long_ones[] = {4096, 65535, 65536};
    size_t i, n;
    for (i = 0; i < 260 + 3; i++) {
        n = i < 260 ? i : long_ones[i - 260];
        uint8_t *m = lend(n, message), *d = lend(SEVGHARIN_SHA1_SIZE, NULL);
        done(sevgharin_sha1(m, n, d, SEVGHARIN_SHA1_SIZE));
        m = lend(n, message);
        d = lend(SEVGHARIN_SHA256_SIZE, NULL);
        done(sevgharin_sha256(m, n, d, SEVGHARIN_SHA256_SIZE));
        message[i] = (uint8_t)(i * 7);
    }
    for (i = 0; i < 40; i++)
        for (n = 0; n < 40; n++) {
            uint8_t *r = lend(i, NULL), *d = lend(n, NULL);
            done(sevgharin_sha1_extend(r, i, d, n));
            r = lend(i, NULL);
            d = lend(n, NULL);
            done(sevgharin_sha256_extend(r, i, d, n));
        }
}

static void requests(uint32_t bitmap, size_t size)
{
    static const uint8_t data[LONGEST] = {1, 2, 3};
    static const size_t data_sizes[] = {0, 1, 55, 56, 64, 119, 120, 65536, 65537};
    size_t i;
    open_panel(bitmap, size);
    for (i = 0; i < 40; i++)
        request(0, i, (uint32_t)i, data, 4);
    for (i = 0; i < sizeof data_sizes / sizeof data_sizes[0]; i++)
        request(i % 2, 30, 24, data, data_sizes[i]);
    read_log(1, SEVGHARIN_READING_SIZE);
    read_log(2, SEVGHARIN_READING_SIZE - 1);
    read_log(3, 0);
    request(0, 20000, 18 + 4096, data, 3);
    request(0, 20000, 18 + 4097, data, 3);
    request(SEVGHARIN_PE_COFF, 18, 18, data, 3);
    for (i = 0; i < 30; i++)
        request(0, 18 + i, (uint32_t)(18 + i), data, 1 + i);
}

static void replays(void)
{
    size_t used[2] = {read_log(1, SEVGHARIN_READING_SIZE), read_log(2, SEVGHARIN_READING_SIZE)}, n;
    uint32_t format;
    for (format = 1; format <= 2; format++)
        for (n = 0; n <= used[format - 1] && n < 700; n++)
            replay_log(format, stores[format - 1], n, 1 + n % 3);
    replay_log(3, stores[1], used[1], 1);
    replay_log(2, stores[1], sizes[1], 1);
    replay_log(2, stores[1], LONGEST, 1);
}

static void all_cases(void)
{
    static const size_t store_sizes[] = {0, 15, 16, 64, 65, 68, 69, 100, 145, 700, 5000, 65536, 65537};
    size_t i;
    uint32_t bitmap;
    digests();
    for (bitmap = 0; bitmap <= 4; bitmap++)
        for (i = 0; i < sizeof store_sizes / sizeof store_sizes[0]; i++) {
            requests(bitmap, store_sizes[i]);
            if (store_sizes[i] == 5000)
                replays();
        }
}

int main(int count, char **words)
{
    make_rooms();
    if (count > 1) {
        guarded = strcmp(words[1], "past") == 0 ? PAST : BEFORE;
        volatile uint8_t *bytes = lend(1, NULL);
        return guarded == PAST ? bytes[1] : *(bytes - 1);
    }
    for (guarded = PAST; guarded <= BEFORE; guarded++)
        all_cases();
    printf("%lu passed, %lu failed\n", passed, failed);
    return failed > 0;
}
