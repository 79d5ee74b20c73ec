/*
 * A caller without a C library: nothing is linked beside the archive, so a
 * symbol that it needs is seen at once. Compiled with the System V and with
 * Microsoft's calling convention, by gcc and clang, it makes every call and
 * prints each answer and what was lent, in hexadecimal digits; bench/archive
 * compares.
 */
#include "sevgharin.h"

#define COUNT(a) (sizeof(a) / sizeof((a)[0]))

static uint8_t state[SEVGHARIN_STATE_SIZE];
static uint8_t log12[512];
static uint8_t agile[512];
static uint8_t table[512];
static uint8_t replay[SEVGHARIN_REPLAY_SIZE];
static uint8_t reading[SEVGHARIN_READING_SIZE];
static uint8_t slice[SEVGHARIN_SLICE_SIZE];
static uint8_t digest1[SEVGHARIN_SHA1_SIZE];
static uint8_t digest256[SEVGHARIN_SHA256_SIZE];
static uint8_t register1[SEVGHARIN_SHA1_SIZE];
static uint8_t register256[SEVGHARIN_SHA256_SIZE];

static const uint8_t fox[] = "The quick brown fox jumps over the lazy dog";
#define FOX_SIZE (sizeof fox - 1)

static long system_call(long number, long a, long b, long c)
{
    long result;
    __asm__ volatile("syscall" : "=a"(result) : "a"(number), "D"(a), "S"(b), "d"(c) : "rcx", "r11", "memory");
    return result;
}

static void print(const char *text, size_t size)
{
    while (size > 0) {
        long wrote = system_call(1, 1, (long)text, (long)size);
        if (wrote <= 0)
            system_call(231, 1, 0, 0);
        text += wrote;
        size -= (size_t)wrote;
    }
}

static size_t length(const char *text)
{
    size_t n = 0;
    while (text[n] != 0)
        n++;
    return n;
}

static void print_digits(const uint8_t *bytes, size_t size)
{
    static const char digits[] = "0123456789abcdef";
    size_t i;
    for (i = 0; i < size; i++) {
        char two[2];
        two[0] = digits[bytes[i] >> 4];
        two[1] = digits[bytes[i] & 15];
        print(two, 2);
    }
    print("\n", 1);
}

/* A line: the call, its answer with the highest byte first, and a buffer. */
static void tell(const char *call, uint64_t answer, const uint8_t *buffer, size_t size)
{
    static const char digits[] = "0123456789abcdef";
    char text[18];
    int i;
    text[0] = ' ';
    for (i = 0; i < 16; i++)
        text[1 + i] = digits[answer >> (60 - 4 * i) & 15];
    text[17] = ' ';
    print(call, length(call));
    print(text, sizeof text);
    print_digits(buffer, size);
}

static void hash(void)
{
    tell("sha1", sevgharin_sha1(fox, FOX_SIZE, digest1, sizeof digest1), digest1, sizeof digest1);
    tell("sha256", sevgharin_sha256(fox, FOX_SIZE, digest256, sizeof digest256), digest256, sizeof digest256);
    tell("sha1_extend", sevgharin_sha1_extend(register1, sizeof register1, digest1, sizeof digest1), register1, sizeof register1);
    tell("sha256_extend", sevgharin_sha256_extend(register256, sizeof register256, digest256, sizeof digest256), register256,
         sizeof register256);
    tell("sha1", sevgharin_sha1(fox, FOX_SIZE, digest1, sizeof digest1 - 1), digest1, sizeof digest1);
}

/* The fox into register 16, with an event of four bytes. */
static void measure(uint64_t flags)
{
    static const uint8_t request[] = {22, 0, 0, 0, 14, 0, 0, 0, 1, 0, 16, 0, 0, 0, 1, 0, 0, 0, 'd', 'r', 'u', 'm'};
    uint64_t answer = sevgharin_request(state, sizeof state, flags, request, sizeof request, fox, FOX_SIZE, log12, sizeof log12,
                                        agile, sizeof agile, table, sizeof table);
    tell("request", answer, state, sizeof state);
}

static void read_log(uint32_t format)
{
    uint64_t answer = sevgharin_read_log(state, sizeof state, format, log12, sizeof log12, agile, sizeof agile, table, sizeof table,
                                         reading, sizeof reading);
    tell("read_log", answer, reading, sizeof reading);
}

static void replay_log(void)
{
    size_t used = (size_t)(reading[0] | reading[1] << 8);
    tell("begin", sevgharin_begin(replay, sizeof replay, SEVGHARIN_FORMAT_AGILE, agile, used), replay, sizeof replay);
    do {
        tell("slice", sevgharin_slice(replay, sizeof replay, agile, used, 1, slice, sizeof slice), slice, sizeof slice);
    } while (slice[SEVGHARIN_SLICE_TAKEN] == 1 && slice[SEVGHARIN_SLICE_DONE] == 0);
    tell("replayed", 0, replay + SEVGHARIN_REPLAY_SHA1, sizeof replay - SEVGHARIN_REPLAY_SHA1);
    tell("measured", 0, state + SEVGHARIN_STATE_SHA1, sizeof state - SEVGHARIN_STATE_SHA1);
}

/* Called by _start. */
void run(void);
void run(void)
{
    size_t i;
    static const uint64_t flags[] = {0, SEVGHARIN_PE_COFF, 0, 0, 0, 0};
    tell("version", sevgharin_version(), (const uint8_t *)"", 0);
    tell("expected", SEVGHARIN_VERSION, (const uint8_t *)"", 0);
    hash();
    tell("open", sevgharin_open(state, sizeof state, 4, log12, sizeof log12, agile, sizeof agile, table, sizeof table), state,
         sizeof state);
    tell("open", sevgharin_open(state, sizeof state, 3, log12, sizeof log12, agile, sizeof agile, table, sizeof table), state,
         sizeof state);
    for (i = 0; i < COUNT(flags); i++)
        measure(flags[i]);
    read_log(3);
    read_log(SEVGHARIN_FORMAT_AGILE);
    replay_log();
    /* The agile log has no room for more: 11. */
    measure(0);
    tell("log12", 0, log12, sizeof log12);
    tell("agile", 0, agile, sizeof agile);
    tell("table", 0, table, sizeof table);
    system_call(231, 0, 0, 0);
}

/* 32 bytes for Microsoft's convention, which the other doesn't mind. */
__asm__(".globl _start\n_start:\n\txorl %ebp, %ebp\n\tandq $-16, %rsp\n\tsubq $32, %rsp\n\tcall run\n\thlt\n");
