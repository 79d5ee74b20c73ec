/* What the UEFI programs of the test bench share: files on the disk that the program was started from, and the machine's end. */
#ifndef BENCH_UEFI_H
#define BENCH_UEFI_H

#include <efi.h>
#include <efilib.h>

/* To be called first. */
void bench_start(EFI_HANDLE image, EFI_SYSTEM_TABLE *system);

/* Makes a file. */
void bench_write(CHAR16 *name, const void *bytes, UINTN size);

/* Where the status is an error: makes FAILED.TXT, which tells what failed, and shuts the machine down. */
void bench_need(EFI_STATUS status, const char *what);

/* Shuts the machine down. */
void bench_end(void) __attribute__((noreturn));

#endif
