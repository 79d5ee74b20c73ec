/*
 * A UEFI program that asks the firmware's TCG2 protocol for the agile log, the
 * TPM for its registers and the firmware for its final events table, measures
 * into the registers that it may extend, asks again, and writes all of it to
 * its disk.
 */
#include "uefi.h"

#include "sevgharin.h"

#define TPM_ALG_SHA1 0x0004
#define TPM_ALG_SHA256 0x000b
#define EV_IPL 13
/* 17 to 22 are extended at another locality than the firmware's. */
#define LAST_STATIC_REGISTER 16
#define APPLICATION_REGISTER 23

/* EFI_TCG2_PROTOCOL as far as it is used; the first is GetCapability. */
struct tcg2 {
    void *capability;
    EFI_STATUS(EFIAPI *event_log)(struct tcg2 *, UINT32 format, UINT64 *start, UINT64 *last, BOOLEAN *truncated);
    EFI_STATUS(EFIAPI *measure)(struct tcg2 *, UINT64 flags, UINT64 data, UINT64 data_size, const UINT8 *event);
    EFI_STATUS(EFIAPI *command)(struct tcg2 *, UINT32 in_size, const UINT8 *in, UINT32 out_size, UINT8 *out);
};

/* The files of one asking. */
struct files {
    CHAR16 *log;
    CHAR16 *sha1;
    CHAR16 *sha256;
    CHAR16 *table;
};

static const struct files before = {L"LOG1.BIN", L"SHA1-1.BIN", L"SHA256-1.BIN", L"TABLE1.BIN"};
static const struct files after = {L"LOG2.BIN", L"SHA1-2.BIN", L"SHA256-2.BIN", L"TABLE2.BIN"};

static struct tcg2 *tcg2;

static UINT64 little(const UINT8 *at, UINTN size)
{
    UINT64 number = 0;
    while (size-- > 0)
        number = number << 8 | at[size];
    return number;
}

static void put_little(UINT8 *at, UINTN size, UINT64 number)
{
    UINTN i;
    for (i = 0; i < size; i++)
        at[i] = (UINT8)(number >> (8 * i));
}

static UINTN digest_size(UINT64 algorithm)
{
    bench_need(algorithm == TPM_ALG_SHA1 || algorithm == TPM_ALG_SHA256 ? EFI_SUCCESS : EFI_UNSUPPORTED, "an entry has another bank\n");
    return algorithm == TPM_ALG_SHA1 ? SEVGHARIN_SHA1_SIZE : SEVGHARIN_SHA256_SIZE;
}

/* The bytes of an agile entry: register, type, digests, event. */
static UINTN entry_size(const UINT8 *entry)
{
    UINT64 digests = little(entry + 8, 4);
    UINTN at = 12;
    while (digests-- > 0)
        at += 2 + digest_size(little(entry + at, 2));
    return at + 4 + little(entry + at, 4);
}

/* The firmware tells where the log's last entry starts: the log ends where that entry does. */
static void write_log(CHAR16 *name)
{
    UINT64 start, last;
    BOOLEAN truncated;
    bench_need(tcg2->event_log(tcg2, SEVGHARIN_FORMAT_AGILE, &start, &last, &truncated), "GetEventLog was refused\n");
    bench_need(truncated ? EFI_VOLUME_FULL : EFI_SUCCESS, "the log is truncated\n");
    bench_write(name, (const UINT8 *)start, last - start + entry_size((const UINT8 *)last));
}

static void write_table(CHAR16 *name)
{
    EFI_GUID final_events = {0x1e2ed096, 0x30e2, 0x4254, {0xbd, 0x89, 0x86, 0x3b, 0xbe, 0xf8, 0x23, 0x25}};
    UINT8 *table;
    UINT64 entries;
    UINTN size = SEVGHARIN_TABLE_HEADER_SIZE;
    bench_need(LibGetSystemConfigurationTable(&final_events, (void **)&table), "there is no final events table\n");
    for (entries = little(table + 8, 8); entries > 0; entries--)
        size += entry_size(table + size);
    bench_write(name, table, size);
}

/* TPM2_PCR_Read of one register: the digest's bytes, of which there are none where the TPM has no such bank. */
static UINTN read_register(UINT16 algorithm, UINTN reg, UINT8 *digest)
{
    UINT8 command[20] = {0x80, 0x01, 0, 0, 0, sizeof command, 0, 0, 0x01, 0x7e, 0, 0, 0, 1, 0, (UINT8)algorithm, 3};
    UINT8 answer[128];
    UINTN size;
    command[17 + reg / 8] = (UINT8)(1 << reg % 8);
    bench_need(tcg2->command(tcg2, sizeof command, command, sizeof answer, answer), "the TPM took no command\n");
    bench_need(answer[6] | answer[7] | answer[8] | answer[9] ? EFI_DEVICE_ERROR : EFI_SUCCESS, "TPM2_PCR_Read was refused\n");
    /* A header of 10 bytes, a counter of 4, one selection of 4 and 6, the number of digests, and a digest's length. */
    if (answer[27] == 0)
        return 0;
    size = answer[29];
    CopyMem(digest, answer + 30, size);
    return size;
}

static void write_bank(CHAR16 *name, UINT16 algorithm)
{
    UINT8 digests[SEVGHARIN_REGISTERS * 64];
    UINTN size = 0;
    UINTN reg;
    for (reg = 0; reg < SEVGHARIN_REGISTERS; reg++)
        size += read_register(algorithm, reg, digests + size);
    bench_write(name, digests, size);
}

static void write_all(const struct files *files)
{
    write_log(files->log);
    write_table(files->table);
    write_bank(files->sha1, TPM_ALG_SHA1);
    write_bank(files->sha256, TPM_ALG_SHA256);
}

/* HashLogExtendEvent. Data and event have another length for each register; lengths of data lie on both sides of a hash's blocks. */
static void measure(UINTN reg)
{
    static UINT8 data[1 + 55 * SEVGHARIN_REGISTERS];
    static UINT8 event[SEVGHARIN_REQUEST_HEAD_SIZE + 7 * SEVGHARIN_REGISTERS];
    UINTN data_size = 1 + 55 * reg;
    UINTN size = SEVGHARIN_REQUEST_HEAD_SIZE + 7 * reg;
    SetMem(data, data_size, (UINT8)(0x40 + reg));
    SetMem(event, size, (UINT8)(0x60 + reg));
    put_little(event + SEVGHARIN_REQUEST_SIZE, 4, size);
    put_little(event + SEVGHARIN_REQUEST_HEADER, 4, SEVGHARIN_REQUEST_HEADER_SIZE);
    put_little(event + SEVGHARIN_REQUEST_VERSION, 2, 1);
    put_little(event + SEVGHARIN_REQUEST_REGISTER, 4, reg);
    put_little(event + SEVGHARIN_REQUEST_EVENT_TYPE, 4, EV_IPL);
    bench_need(tcg2->measure(tcg2, 0, (UINTN)data, data_size, event), "HashLogExtendEvent was refused\n");
}

/* Tells in a file how many measurements were made. */
static void measure_all(void)
{
    UINT8 measured = 0;
    UINTN reg;
    for (reg = 0; reg <= APPLICATION_REGISTER; reg++) {
        if (reg > LAST_STATIC_REGISTER && reg != APPLICATION_REGISTER)
            continue;
        measure(reg);
        measured++;
    }
    bench_write(L"MEASURED.BIN", &measured, 1);
}

EFI_STATUS efi_main(EFI_HANDLE image, EFI_SYSTEM_TABLE *system)
{
    EFI_GUID tcg2_protocol = {0x607f766c, 0x7455, 0x42be, {0x93, 0x0b, 0xe4, 0xd7, 0x6d, 0xb2, 0x72, 0x0f}};
    bench_start(image, system);
    bench_need(LibLocateProtocol(&tcg2_protocol, (void **)&tcg2), "the firmware has no TCG2 protocol\n");
    write_all(&before);
    measure_all();
    write_all(&after);
    bench_end();
}
