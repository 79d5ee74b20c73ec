#include "uefi.h"

static EFI_FILE_HANDLE root;

void bench_end(void)
{
    RT->ResetSystem(EfiResetShutdown, EFI_SUCCESS, 0, NULL);
    for (;;)
        continue;
}

static EFI_STATUS write_file(CHAR16 *name, const void *bytes, UINTN size)
{
    EFI_FILE_HANDLE file;
    UINTN written = size;
    EFI_STATUS status = root->Open(root, &file, name, EFI_FILE_MODE_CREATE | EFI_FILE_MODE_READ | EFI_FILE_MODE_WRITE, 0);
    if (EFI_ERROR(status))
        return status;
    status = file->Write(file, &written, (void *)(UINTN)bytes);
    if (EFI_ERROR(file->Close(file)) || written != size)
        return EFI_DEVICE_ERROR;
    return status;
}

void bench_need(EFI_STATUS status, const char *what)
{
    if (!EFI_ERROR(status))
        return;
    write_file(L"FAILED.TXT", what, strlena((const CHAR8 *)what));
    bench_end();
}

void bench_write(CHAR16 *name, const void *bytes, UINTN size)
{
    bench_need(write_file(name, bytes, size), "a file was not written\n");
}

void bench_start(EFI_HANDLE image, EFI_SYSTEM_TABLE *system)
{
    EFI_GUID loaded_image = LOADED_IMAGE_PROTOCOL;
    EFI_LOADED_IMAGE *loaded;
    InitializeLib(image, system);
    /* Without the disk nothing can be told: the files that are missing tell it. */
    if (EFI_ERROR(BS->HandleProtocol(image, &loaded_image, (void **)&loaded)))
        bench_end();
    root = LibOpenRoot(loaded->DeviceHandle);
    if (root == NULL)
        bench_end();
}
