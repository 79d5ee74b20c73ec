/*
 * A UEFI program that interrupts the library at its own instructions. Each call
 * is made once undisturbed and once more, on the same bytes, while the processor
 * takes a single-step interrupt after every instruction, on the library's own
 * stack. At every k-th instruction inside the library the handler overwrites the
 * 128 bytes below the interrupted stack pointer, which an interrupt handler of
 * the firmware may use. The status and every byte that was lent must be the
 * same. INTERRUPT.TXT tells each call on a line: k, name, instructions
 * interrupted, those with bytes overwritten, verdict.
 */
#include "uefi.h"

#include "sevgharin.h"

#define HIDDEN __attribute__((visibility("hidden")))

#define STEP_VECTOR 1
#define VECTORS 32
#define INTERRUPT_GATE 0x8e
#define TRAP_FLAG "0x100"

/* Stores that a few requests fill. */
#define STORE 512
#define DATA 200
#define EVENT 30

/* ---- the interrupt */

extern const UINT8 on_step[] HIDDEN;

/* The handler works on these: interrupts of the library since the call, those that are left until the next overwriting, k. */
HIDDEN UINT64 steps, left, every, overwritten;
/* Its registers are kept here: on the stack they would stand among the bytes that it overwrites. */
HIDDEN UINT64 saved_rax, saved_rcx, saved_rdi;

/* What is written over the bytes is this address: a call that keeps a pointer there then goes astray, and mostly comes back. */
HIDDEN UINT8 decoy[4096];

/*
 * The library's code lies between two symbols that bench/interrupts sets. The
 * processor has aligned the stack pointer, a multiple of 8, to 16, and pushed 40
 * bytes: rip, cs, flags, rsp, ss. What lies below them, down to 128 bytes below
 * the interrupted rsp, and between them and that rsp is overwritten.
 */
__asm__(".text\n"
        ".hidden library_start, library_end, _text, _etext, on_fault\n"
        ".global on_step\n"
        "on_step:\n"
        "    movq %rax, saved_rax(%rip)\n"
        "    movq %rcx, saved_rcx(%rip)\n"
        "    movq %rdi, saved_rdi(%rip)\n"
        "    movq (%rsp), %rax\n"
        "    leaq library_start(%rip), %rcx\n"
        "    cmpq %rcx, %rax\n"
        "    jb 2f\n"
        "    leaq library_end(%rip), %rcx\n"
        "    cmpq %rcx, %rax\n"
        "    jae 2f\n"
        "    incq steps(%rip)\n"
        "    decq left(%rip)\n"
        "    jnz 1f\n"
        "    movq every(%rip), %rcx\n"
        "    movq %rcx, left(%rip)\n"
        "    incq overwritten(%rip)\n"
        "    cld\n"
        "    leaq decoy(%rip), %rax\n"
        "    movq 24(%rsp), %rdi\n"
        "    subq $128, %rdi\n"
        "    movq %rsp, %rcx\n"
        "    subq %rdi, %rcx\n"
        "    shrq $3, %rcx\n"
        "    rep stosq\n"
        "    leaq 40(%rsp), %rdi\n"
        "    movq 24(%rsp), %rcx\n"
        "    subq %rdi, %rcx\n"
        "    shrq $3, %rcx\n"
        "    rep stosq\n"
        "1:  movq saved_rax(%rip), %rax\n"
        "    movq saved_rcx(%rip), %rcx\n"
        "    movq saved_rdi(%rip), %rdi\n"
        "    iretq\n"
        "2:  leaq _text(%rip), %rcx\n"
        "    cmpq %rcx, %rax\n"
        "    jb on_fault\n"
        "    leaq _etext(%rip), %rcx\n"
        "    cmpq %rcx, %rax\n"
        "    jb 1b\n"
        "    jmp on_fault\n");

struct gate {
    UINT16 offset_low;
    UINT16 selector;
    UINT8 stack_table;
    UINT8 type;
    UINT16 offset_middle;
    UINT32 offset_high;
    UINT32 reserved;
};

struct table_pointer {
    UINT16 limit;
    UINT64 base;
} __attribute__((packed));

static struct gate gates[VECTORS];
static void *back[5];

/* A fault while a call is interrupted, or a step in code that is not this program's: it worked on what was overwritten. The call is given up. */
HIDDEN void on_fault(void);

void on_fault(void)
{
    __builtin_longjmp(back, 1);
}

static void set_gate(UINTN vector, const void *handler)
{
    UINT64 offset = (UINT64)handler;
    UINT16 selector;
    __asm__("mov %%cs, %0" : "=r"(selector));
    /* Stack table 0: the processor stays on the stack that it finds. */
    gates[vector] = (struct gate){(UINT16)offset, selector, 0, INTERRUPT_GATE, (UINT16)(offset >> 16), (UINT32)(offset >> 32), 0};
}

static void set_gates(void)
{
    UINTN vector;
    for (vector = 0; vector < VECTORS; vector++)
        set_gate(vector, (const void *)(UINTN)on_fault);
    set_gate(STEP_VECTOR, on_step);
}

/* Tells whether the call came back. */
static __attribute__((noinline)) int step_through(uint64_t (*call)(void), uint64_t *status)
{
    if (__builtin_setjmp(back))
        return 0;
    __asm__ volatile("pushfq; orq $" TRAP_FLAG ", (%%rsp); popfq" ::: "memory", "cc");
    *status = call();
    __asm__ volatile("pushfq; andq $~" TRAP_FLAG ", (%%rsp); popfq" ::: "memory", "cc");
    return 1;
}

/* The firmware's own interrupts wait meanwhile. */
static int interrupted(uint64_t (*call)(void), uint64_t *status)
{
    struct table_pointer own = {sizeof gates - 1, (UINT64)gates};
    struct table_pointer firmware;
    int came_back;
    steps = 0;
    overwritten = 0;
    left = 1;
    __asm__ volatile("cli; sidt %0; lidt %1" : "=m"(firmware) : "m"(own) : "memory");
    came_back = step_through(call, status);
    __asm__ volatile("lidt %0; sti" ::"m"(firmware) : "memory");
    return came_back;
}

/* ---- the calls, and the bytes that they are lent */

static struct lent {
    uint8_t state[SEVGHARIN_STATE_SIZE];
    uint8_t log12[STORE];
    uint8_t agile[STORE];
    uint8_t table[STORE];
    uint8_t request[SEVGHARIN_REQUEST_HEAD_SIZE + EVENT];
    uint8_t data[DATA];
    uint8_t reading[SEVGHARIN_READING_SIZE];
    uint8_t replay[SEVGHARIN_REPLAY_SIZE];
    uint8_t slice[SEVGHARIN_SLICE_SIZE];
    uint8_t digest[SEVGHARIN_SHA256_SIZE];
    uint8_t reg[SEVGHARIN_SHA256_SIZE];
} lent;

static uint32_t bitmap;
static uint64_t flags;
static uint32_t format;
static size_t used;
static uint64_t asked;
static size_t data_size;
static size_t digest_size;

static uint64_t call_version(void)
{
    return sevgharin_version();
}

static uint64_t call_open(void)
{
    return sevgharin_open(lent.state, sizeof lent.state, bitmap, lent.log12, STORE, lent.agile, STORE, lent.table, STORE);
}

static uint64_t call_request(void)
{
    return sevgharin_request(lent.state, sizeof lent.state, flags, lent.request, sizeof lent.request, lent.data, data_size, lent.log12,
                             STORE, lent.agile, STORE, lent.table, STORE);
}

static uint64_t call_read_log(void)
{
    return sevgharin_read_log(lent.state, sizeof lent.state, format, lent.log12, STORE, lent.agile, STORE, lent.table, STORE, lent.reading,
                              sizeof lent.reading);
}

static uint64_t call_begin(void)
{
    return sevgharin_begin(lent.replay, sizeof lent.replay, format, format == 1 ? lent.log12 : lent.agile, used);
}

static uint64_t call_slice(void)
{
    return sevgharin_slice(lent.replay, sizeof lent.replay, format == 1 ? lent.log12 : lent.agile, used, asked, lent.slice,
                           sizeof lent.slice);
}

static uint64_t call_sha1(void)
{
    return sevgharin_sha1(lent.data, data_size, lent.digest, digest_size);
}

static uint64_t call_sha256(void)
{
    return sevgharin_sha256(lent.data, data_size, lent.digest, digest_size);
}

static uint64_t call_sha1_extend(void)
{
    return sevgharin_sha1_extend(lent.reg, SEVGHARIN_SHA1_SIZE, lent.digest, digest_size);
}

static uint64_t call_sha256_extend(void)
{
    return sevgharin_sha256_extend(lent.reg, SEVGHARIN_SHA256_SIZE, lent.digest, digest_size);
}

/* ---- one call, both ways */

static char text[1 << 16];
static UINTN text_size;

static void tell(const char *line, ...)
{
    va_list words;
    va_start(words, line);
    text_size += AsciiVSPrint((CHAR8 *)text + text_size, sizeof text - text_size, (const CHAR8 *)line, words);
    va_end(words);
}

/* Leaves the bytes as the undisturbed call did. */
static const char *verdict(uint64_t (*call)(void), uint64_t wanted)
{
    static struct lent before, undisturbed;
    uint64_t status = 0;
    int came_back;
    int same;
    CopyMem(&before, &lent, sizeof lent);
    if (call() != wanted)
        return "wrong";
    CopyMem(&undisturbed, &lent, sizeof lent);
    CopyMem(&lent, &before, sizeof lent);
    came_back = interrupted(call, &status);
    same = status == wanted && CompareMem(&lent, &undisturbed, sizeof lent) == 0;
    CopyMem(&lent, &undisturbed, sizeof lent);
    return !came_back ? "fault" : same ? "same" : "different";
}

static void try_call(const char *name, uint64_t (*call)(void), uint64_t wanted)
{
    const char *found = verdict(call, wanted);
    tell("%ld sevgharin_%a %ld %ld %a\n", every, name, steps, overwritten, found);
}

/* ---- what is tried */

static void set_request(uint8_t reg)
{
    SetMem(lent.request, sizeof lent.request, 0x20);
    SetMem(lent.request, SEVGHARIN_REQUEST_HEAD_SIZE, 0);
    lent.request[SEVGHARIN_REQUEST_SIZE] = sizeof lent.request;
    lent.request[SEVGHARIN_REQUEST_HEADER] = SEVGHARIN_REQUEST_HEADER_SIZE;
    lent.request[SEVGHARIN_REQUEST_REGISTER] = reg;
}

static void try_request(uint8_t reg, uint64_t with, uint64_t wanted)
{
    set_request(reg);
    flags = with;
    try_call("request", call_request, wanted);
}

static void try_reading(uint32_t of, uint64_t wanted)
{
    format = of;
    try_call("read_log", call_read_log, wanted);
    used = lent.reading[SEVGHARIN_READING_USED] + 256u * lent.reading[SEVGHARIN_READING_USED + 1];
}

/* A log whole, an entry at a time and at once; and without its last byte. */
static void try_replay(void)
{
    try_call("begin", call_begin, 0);
    asked = 1;
    try_call("slice", call_slice, 0);
    asked = UINT64_MAX;
    try_call("slice", call_slice, 0);
    used--;
    try_call("begin", call_begin, 0);
    try_call("slice", call_slice, SEVGHARIN_REFUSED_CUT_SHORT);
}

static void try_boot(uint32_t banks)
{
    bitmap = banks;
    data_size = DATA;
    try_call("open", call_open, 0);
    try_request(7, 0, 0);
    if (banks & SEVGHARIN_BANK_SHA1) {
        try_reading(SEVGHARIN_FORMAT_1_2, 0);
        try_replay();
    }
    try_reading(SEVGHARIN_FORMAT_AGILE, 0);
    try_request(23, 0, 0);
    try_request(16, SEVGHARIN_EXTEND_ONLY, 0);
    try_reading(SEVGHARIN_FORMAT_AGILE, 0);
    try_replay();
}

/* After a boot with both banks. */
static void try_full_stores(void)
{
    set_request(2);
    flags = 0;
    while (call_request() == 0)
        continue;
    try_request(3, 0, SEVGHARIN_VOLUME_FULL);
    try_request(3, SEVGHARIN_EXTEND_ONLY, SEVGHARIN_VOLUME_FULL);
}

static void try_refusals(void)
{
    try_request(24, 0, SEVGHARIN_INVALID_PARAMETER);
    try_request(1, SEVGHARIN_PE_COFF, SEVGHARIN_UNSUPPORTED);
    try_reading(3, SEVGHARIN_INVALID_PARAMETER);
    bitmap = 4;
    try_call("open", call_open, SEVGHARIN_INVALID_PARAMETER);
    try_request(1, 0, SEVGHARIN_DEVICE_ERROR);
    try_reading(SEVGHARIN_FORMAT_AGILE, SEVGHARIN_DEVICE_ERROR);
    used = SEVGHARIN_HEADER_SIZE_ONE - 1;
    try_call("begin", call_begin, SEVGHARIN_REFUSED_HEADER);
    format = 3;
    try_call("begin", call_begin, SEVGHARIN_REFUSED_FORMAT);
    try_call("slice", call_slice, SEVGHARIN_REFUSED_REPLAY);
}

static void try_digests(void)
{
    static const size_t lengths[] = {0, 1, 55, 56, 63, 64, 119, 120, DATA};
    UINTN i;
    for (i = 0; i < sizeof lengths / sizeof lengths[0]; i++) {
        data_size = lengths[i];
        digest_size = SEVGHARIN_SHA1_SIZE;
        try_call("sha1", call_sha1, 0);
        try_call("sha1_extend", call_sha1_extend, 0);
        try_call("sha256", call_sha256, SEVGHARIN_INVALID_PARAMETER);
        try_call("sha256_extend", call_sha256_extend, SEVGHARIN_INVALID_PARAMETER);
        digest_size = SEVGHARIN_SHA256_SIZE;
        try_call("sha256", call_sha256, 0);
        try_call("sha256_extend", call_sha256_extend, 0);
        try_call("sha1", call_sha1, SEVGHARIN_INVALID_PARAMETER);
        try_call("sha1_extend", call_sha1_extend, SEVGHARIN_INVALID_PARAMETER);
    }
}

static void try_all(void)
{
    try_call("version", call_version, SEVGHARIN_VERSION);
    try_boot(SEVGHARIN_BANK_SHA1);
    try_boot(SEVGHARIN_BANK_SHA256);
    try_boot(SEVGHARIN_BANK_SHA1 | SEVGHARIN_BANK_SHA256);
    try_full_stores();
    try_refusals();
    try_digests();
}

EFI_STATUS efi_main(EFI_HANDLE image, EFI_SYSTEM_TABLE *system)
{
    static const UINT64 numbers[] = {1, 2, 3, 7};
    UINTN i;
    bench_start(image, system);
    set_gates();
    SetMem(lent.data, DATA, 0x5e);
    for (i = 0; i < sizeof numbers / sizeof numbers[0]; i++) {
        every = numbers[i];
        try_all();
    }
    bench_write(L"INTERRUPT.TXT", text, text_size);
    bench_end();
}
