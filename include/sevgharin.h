/*
 * Sevgharin: measured boot of the washer's control panel.
 *
 * Link libsevgharin.a (x86-64), which ./archive makes. It needs no other
 * symbol; it allocates nothing, keeps nothing between calls and holds no pointer
 * after a call. It leaves the bytes below the stack pointer alone, so an
 * interrupt may be taken on its stack. docs/LAYOUT.md has the byte layouts, and
 * docs/INTEGRATION.md the order of calls, the stack that each needs and what to
 * keep.
 *
 * Buffers. Each one is a pointer and its length in bytes.
 *  - No pointer may be null, that of an empty buffer included: where a length
 *    is 0, pass any address.
 *  - All bytes of a buffer must be readable, and writable where the pointer
 *    isn't const, until the call returns.
 *  - A buffer that a call may write must not overlap another buffer of it.
 *  - Buffers may lie at any alignment.
 *  - One state, its three stores, or one replay must not be used by two calls
 *    at the same time.
 * The library can't check these; everything else it checks, and answers for
 * every content and every length.
 */
#ifndef SEVGHARIN_H
#define SEVGHARIN_H

#include <stddef.h>
#include <stdint.h>

/*
 * The calls follow the System V convention, whatever convention the caller is
 * compiled with: EFIAPI and -mabi=ms are Microsoft's.
 */
#if !defined(__x86_64__) && !defined(_M_X64)
#define SEVGHARIN_CALL
#elif defined(__GNUC__)
#define SEVGHARIN_CALL __attribute__((sysv_abi))
#else
#error "sevgharin.h: this compiler can't call the System V convention on x86-64; gcc and clang can"
#endif

#ifdef __cplusplus
extern "C" {
#endif

/* ---- what openings, requests, readings and digests answer: 0, or 2^63 + an EFI status's number */

#define SEVGHARIN_ERROR_BIT UINT64_C(0x8000000000000000)

#define SEVGHARIN_SUCCESS UINT64_C(0)
/* A parameter or a buffer's length is wrong. Nothing was changed. */
#define SEVGHARIN_INVALID_PARAMETER (SEVGHARIN_ERROR_BIT + 2)
/* The PE/COFF flag is set, and no image is understood. Nothing was changed. */
#define SEVGHARIN_UNSUPPORTED (SEVGHARIN_ERROR_BIT + 3)
/* Opening: the agile log has no room for its header, or the table for its. */
#define SEVGHARIN_BUFFER_TOO_SMALL (SEVGHARIN_ERROR_BIT + 5)
/* The state's bytes encode no state, or one that doesn't go with the buffers. Nothing was changed. */
#define SEVGHARIN_DEVICE_ERROR (SEVGHARIN_ERROR_BIT + 7)
/* A store is closed because an entry found no room. The register HAS been extended. */
#define SEVGHARIN_VOLUME_FULL (SEVGHARIN_ERROR_BIT + 11)

/* ---- what beginnings and slices of a replay answer: 0, or one of these as it stands */

/* The log ends within an entry. */
#define SEVGHARIN_REFUSED_CUT_SHORT UINT64_C(31)
/* An entry's register is above 23. */
#define SEVGHARIN_REFUSED_REGISTER UINT64_C(32)
/* An entry's digest count or algorithms aren't those of the log's header. */
#define SEVGHARIN_REFUSED_DIGEST_LIST UINT64_C(33)
/* An entry's event is over 4,096 bytes. */
#define SEVGHARIN_REFUSED_EVENT UINT64_C(34)
/* A buffer has a wrong length, the replay's place is beyond the log, or no beginning gives its format and banks. */
#define SEVGHARIN_REFUSED_REPLAY UINT64_C(35)
/* The log is over 65,536 bytes. */
#define SEVGHARIN_REFUSED_LOG UINT64_C(36)
/* Beginning, format 2: the log starts with none of the headers that opening writes. */
#define SEVGHARIN_REFUSED_HEADER UINT64_C(37)
/* Beginning: the format is neither 1 nor 2. */
#define SEVGHARIN_REFUSED_FORMAT UINT64_C(38)

/* ---- banks, formats, flags */

/* Bits of a bitmap of banks: 1, 2 or 3. */
#define SEVGHARIN_BANK_SHA1 UINT32_C(1)
#define SEVGHARIN_BANK_SHA256 UINT32_C(2)

/* The two logs. The 1.2 log is kept only while the SHA-1 bank is active. */
#define SEVGHARIN_FORMAT_1_2 UINT32_C(1)
#define SEVGHARIN_FORMAT_AGILE UINT32_C(2)

/* Flags of a request. */
#define SEVGHARIN_EXTEND_ONLY UINT64_C(0x1)
#define SEVGHARIN_PE_COFF UINT64_C(0x10)

/* ---- sizes, in bytes */

#define SEVGHARIN_SHA1_SIZE 20
#define SEVGHARIN_SHA256_SIZE 32
/* Registers 0 to 23 in each bank. */
#define SEVGHARIN_REGISTERS 24

#define SEVGHARIN_STATE_SIZE 1307
#define SEVGHARIN_READING_SIZE 18
#define SEVGHARIN_REPLAY_SIZE 1264
#define SEVGHARIN_SLICE_SIZE 25

/*
 * The interface's number, and the sizes of a state and of a replay. Hold it
 * against sevgharin_version() before the first opening: where they differ, the
 * archive isn't this header's.
 */
#define SEVGHARIN_INTERFACE 1
#define SEVGHARIN_VERSION \
    ((UINT64_C(1) << 32) * SEVGHARIN_INTERFACE + (UINT64_C(1) << 16) * SEVGHARIN_STATE_SIZE + SEVGHARIN_REPLAY_SIZE)

/* What opening writes to the agile log (with both banks, with one) and to the table. */
#define SEVGHARIN_HEADER_SIZE_BOTH 69
#define SEVGHARIN_HEADER_SIZE_ONE 65
#define SEVGHARIN_TABLE_HEADER_SIZE 16

/* A request's bytes before its event, and what stands in its header size field. */
#define SEVGHARIN_REQUEST_HEAD_SIZE 18
#define SEVGHARIN_REQUEST_HEADER_SIZE 14

/* The most bytes that a store, a request's data and an event may have. */
#define SEVGHARIN_LONGEST_STORE 65536
#define SEVGHARIN_LONGEST_DATA 65536
#define SEVGHARIN_LONGEST_EVENT 4096

/* ---- where fields lie; numbers are little-endian, with no padding */

/* A state. The marks of a log have the layout of a reading's answer record. */
#define SEVGHARIN_STATE_BITMAP 0        /* u32 */
#define SEVGHARIN_STATE_LOG12 4         /* marks of the 1.2 log */
#define SEVGHARIN_STATE_AGILE 22        /* marks of the agile log */
#define SEVGHARIN_STATE_TABLE_USED 40   /* u64 */
#define SEVGHARIN_STATE_TABLE_CLOSED 48 /* u8, 0 or 1 */
#define SEVGHARIN_STATE_TABLE_COUNT 49  /* u64 */
#define SEVGHARIN_STATE_ARMED 57        /* u8, 0 or 1: the table takes entries */
#define SEVGHARIN_STATE_FULL 58         /* u8, 0 or 1: an 11 was answered */
#define SEVGHARIN_STATE_SHA1 59         /* 24 registers of 20 bytes */
#define SEVGHARIN_STATE_SHA256 539      /* 24 registers of 32 bytes */

/* A reading's answer record, and a log's marks in a state. */
#define SEVGHARIN_READING_USED 0     /* u64: the log's used length */
#define SEVGHARIN_READING_CLOSED 8   /* u8, 0 or 1: no entry is taken any more */
#define SEVGHARIN_READING_HAS_LAST 9 /* u8, 0 or 1: there is a last entry */
#define SEVGHARIN_READING_LAST 10    /* u64: where it starts; 0 where there is none */

/* A request's bytes. The event follows; bytes past the size are ignored. */
#define SEVGHARIN_REQUEST_SIZE 0        /* u32: 18 + the event's length */
#define SEVGHARIN_REQUEST_HEADER 4      /* u32: 14 */
#define SEVGHARIN_REQUEST_VERSION 8     /* u16: not looked at */
#define SEVGHARIN_REQUEST_REGISTER 10   /* u32: 0 to 23 */
#define SEVGHARIN_REQUEST_EVENT_TYPE 14 /* u32: any */

/* A replay. */
#define SEVGHARIN_REPLAY_FORMAT 0   /* u32 */
#define SEVGHARIN_REPLAY_BANKS 4    /* u32: bitmap of the log's banks */
#define SEVGHARIN_REPLAY_PLACE 8    /* u64: where the next entry starts */
#define SEVGHARIN_REPLAY_SHA1 16    /* 24 registers of 20 bytes */
#define SEVGHARIN_REPLAY_SHA256 496 /* 24 registers of 32 bytes */

/* A slice's answer record. */
#define SEVGHARIN_SLICE_TAKEN 0  /* u64: entries taken */
#define SEVGHARIN_SLICE_NUMBER 8 /* u64: the refusal's number; 0 where there is none */
#define SEVGHARIN_SLICE_OFFSET 16 /* u64: where the refused entry starts (35 and 36: the replay's place); 0 where there is no refusal */
#define SEVGHARIN_SLICE_DONE 24  /* u8: 1 where there is no refusal and the whole log is replayed */

/* ---- measuring */

/*
 * Opens with the banks of a bitmap: the first call of a boot, and once.
 *
 * Writes the state, resets every register, writes the header to the agile log
 * and to the table, and no other byte of them. A store is at most 65,536 bytes;
 * log12 may be empty where SHA-1 isn't among the banks.
 *
 * 0; 2: the state's buffer isn't SEVGHARIN_STATE_SIZE bytes (nothing is
 * changed), the bitmap isn't 1 to 3, or a store is over 65,536 bytes; 5: the
 * agile log or the table is shorter than its header. After the other refusals
 * the stores are as lent and the state is all zero, which every request and
 * reading refuses.
 */
uint64_t SEVGHARIN_CALL sevgharin_open(uint8_t *state, size_t state_size, uint32_t bitmap,
                                       uint8_t *log12, size_t log12_size, uint8_t *agile, size_t agile_size,
                                       uint8_t *table, size_t table_size);

/*
 * HashLogExtendEvent: hashes data in each active bank, extends the request's
 * register by the digests, and writes an entry with the request's event to the
 * logs, and to the table once it is armed. With SEVGHARIN_EXTEND_ONLY nothing
 * is logged.
 *
 * 0: the state and the stores are changed; 11: a store had no room for the
 * entry and is closed for good, or was closed earlier (extend-only: an earlier
 * request answered 11). The register HAS been extended and the other stores
 * have the entry. 7: the state's bytes encode no state, or one that doesn't
 * belong to stores of these lengths; 2: data is empty or over 65,536 bytes, a
 * flag is unknown, fewer than 18 request bytes, header size not 14, size under
 * 18 or above request_size, event over 4,096 bytes, register above 23; 3: the
 * PE/COFF flag. On 7, 2 and 3, in this order, no byte changes.
 */
uint64_t SEVGHARIN_CALL sevgharin_request(uint8_t *state, size_t state_size, uint64_t flags,
                                          const uint8_t *request, size_t request_size,
                                          const uint8_t *data, size_t data_size, uint8_t *log12, size_t log12_size,
                                          uint8_t *agile, size_t agile_size, uint8_t *table, size_t table_size);

/*
 * GetEventLog: tells a log's used length, whether it is closed, and where its
 * last entry starts, and arms the table: from the first success on, of either
 * format, requests write their entries to the table too.
 *
 * 0; 7: the state's bytes encode no state, or one that doesn't belong to stores
 * of these lengths; 2: answer isn't SEVGHARIN_READING_SIZE bytes, the format is
 * neither 1 nor 2, or it is 1 while SHA-1 isn't active. On 7 and 2, in this
 * order, the state stays, and an answer record of its size is all zero.
 */
uint64_t SEVGHARIN_CALL sevgharin_read_log(uint8_t *state, size_t state_size, uint32_t format,
                                           const uint8_t *log12, size_t log12_size,
                                           const uint8_t *agile, size_t agile_size,
                                           const uint8_t *table, size_t table_size,
                                           uint8_t *answer, size_t answer_size);

/* ---- replay */

/*
 * Begins the replay of a log. Lend the log's used bytes alone, not its whole
 * buffer.
 *
 * Writes the replay: the format, the banks that the header names (SHA-1 for
 * format 1), the place of the first entry, and every register reset.
 *
 * 0; 35: the replay's buffer isn't SEVGHARIN_REPLAY_SIZE bytes, and nothing is
 * changed; 38, 36, 37, in this order: the replay is all zero, which every
 * slice refuses.
 */
uint64_t SEVGHARIN_CALL sevgharin_begin(uint8_t *replay, size_t replay_size, uint32_t format,
                                        const uint8_t *log, size_t log_size);

/*
 * Takes at most so many entries as asked, extends the replay's registers by
 * their digests and moves its place on. Lend the bytes of the beginning again;
 * a log that has grown since is fine. Asked 0 takes none.
 *
 * 0: as many as asked were taken, or all that are left; 31 to 34: so many as the
 * answer tells, and the entry at its offset doesn't hold together. On these
 * the replay is written. 36, 35, in this order: none was taken, and the replay
 * stays. The answer record is filled on each of them. 35 is also the answer
 * where a buffer isn't SEVGHARIN_REPLAY_SIZE or SEVGHARIN_SLICE_SIZE bytes, and
 * then, before all else, nothing is changed.
 */
uint64_t SEVGHARIN_CALL sevgharin_slice(uint8_t *replay, size_t replay_size, const uint8_t *log, size_t log_size,
                                        uint64_t asked, uint8_t *answer, size_t answer_size);

/* ---- digests, and one step of a register; 0, or 2 where a digest or a register has another length, and it stays */

uint64_t SEVGHARIN_CALL sevgharin_sha1(const uint8_t *message, size_t message_size,
                                       uint8_t *digest, size_t digest_size);
uint64_t SEVGHARIN_CALL sevgharin_sha256(const uint8_t *message, size_t message_size,
                                         uint8_t *digest, size_t digest_size);

/* Sets the register to the hash of its value and the digest. */
uint64_t SEVGHARIN_CALL sevgharin_sha1_extend(uint8_t *reg, size_t reg_size,
                                              const uint8_t *digest, size_t digest_size);
uint64_t SEVGHARIN_CALL sevgharin_sha256_extend(uint8_t *reg, size_t reg_size,
                                                const uint8_t *digest, size_t digest_size);

/* ---- the archive itself */

/* SEVGHARIN_VERSION of the header that the archive goes with. */
uint64_t SEVGHARIN_CALL sevgharin_version(void);

#ifdef __cplusplus
}
#endif

#endif
