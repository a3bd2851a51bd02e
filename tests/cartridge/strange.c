/* strange.c: linked between tools/cartridge.c and what it calls (by the linker's --wrap), so that a call does what it
 * never does here otherwise. FAULT names it: a call of the system that fails, or a library that is wrong. */
#define _DEFAULT_SOURCE
#include "stormtoggle.h"
#include <errno.h>
#include <stdlib.h>
#include <string.h>
#include <sys/types.h>

int __real_flock(int descriptor, int operation);
int __real_fsync(int descriptor);
int __real_msync(void *bytes, size_t length, int how);
int __real_posix_fallocate(int descriptor, off_t at, off_t length);
uint64_t __real_stormtoggle_mount(uint8_t *record, size_t record_len, const uint8_t *p0, size_t p0_len,
                                  const uint8_t *p1, size_t p1_len);

static int has_fault(const char *name)
{
    const char *fault = getenv("FAULT");
    return fault != NULL && strcmp(fault, name) == 0;
}

static int fail(int error)
{
    errno = error;
    return -1;
}

int __wrap_flock(int descriptor, int operation)
{
    return has_fault("flock") ? fail(ENOLCK) : __real_flock(descriptor, operation);
}

int __wrap_fsync(int descriptor)
{
    return has_fault("fsync") ? fail(EIO) : __real_fsync(descriptor);
}

int __wrap_msync(void *bytes, size_t length, int how)
{
    return has_fault("msync") ? fail(EIO) : __real_msync(bytes, length, how);
}

int __wrap_posix_fallocate(int descriptor, off_t at, off_t length)
{
    return has_fault("full") ? ENOSPC : __real_posix_fallocate(descriptor, at, length);
}

uint64_t __wrap_stormtoggle_mount(uint8_t *record, size_t record_len, const uint8_t *p0, size_t p0_len,
                                  const uint8_t *p1, size_t p1_len)
{
    if (has_fault("takes all"))
        return 0;
    if (has_fault("refuses all"))
        return (uint64_t)STORMTOGGLE_BY_UNSOUND << 32;
    return __real_stormtoggle_mount(record, record_len, p0, p0_len, p1, p1_len);
}
