/*
 * memcpy and memset for the archive, under names that ./archive gives them:
 * firmware has its own, with its own calling convention, or none. The only
 * code of the archive that is not proved (docs/GAPS.md).
 */
#include <stddef.h>
#include <stdint.h>

/* Eight bytes at any address. */
typedef uint64_t eight __attribute__((aligned(1), may_alias));

void *sevgharin_memcpy(void *to, const void *from, size_t size);
void *sevgharin_memset(void *to, int value, size_t size);

void *sevgharin_memcpy(void *to, const void *from, size_t size)
{
    uint8_t *t = to;
    const uint8_t *f = from;
    for (; size >= 8; size -= 8, t += 8, f += 8)
        *(eight *)t = *(const eight *)f;
    for (; size > 0; size--)
        *t++ = *f++;
    return to;
}

void *sevgharin_memset(void *to, int value, size_t size)
{
    uint8_t *t = to;
    const uint64_t all = (uint8_t)value * UINT64_C(0x0101010101010101);
    for (; size >= 8; size -= 8, t += 8)
        *(eight *)t = all;
    for (; size > 0; size--)
        *t++ = (uint8_t)value;
    return to;
}
