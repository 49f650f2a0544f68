/* Counts the allocations of a program that is started with this in LD_PRELOAD, from its main on, and lets the one fail
 * whose number FAIL_NTH gives; 0 is none. When it ends by _exit(2), it writes their number to descriptor 3. */
#define _GNU_SOURCE
#include <errno.h>
#include <stdatomic.h>
#include <stdio.h>
#include <stdlib.h>
#include <sys/syscall.h>
#include <unistd.h>

void *__libc_malloc(size_t size);
void *__libc_calloc(size_t count, size_t size);
void *__libc_realloc(void *block, size_t size);
void *__libc_memalign(size_t alignment, size_t size);

static atomic_ulong made;
static unsigned long failing;

static int fails(void) {
    if (atomic_fetch_add(&made, 1) + 1 != failing) {
        return 0;
    }
    errno = ENOMEM;
    return 1;
}

void *malloc(size_t size) { return fails() ? NULL : __libc_malloc(size); }

void *calloc(size_t count, size_t size) { return fails() ? NULL : __libc_calloc(count, size); }

void *realloc(void *block, size_t size) { return fails() ? NULL : __libc_realloc(block, size); }

void *memalign(size_t alignment, size_t size) { return fails() ? NULL : __libc_memalign(alignment, size); }

void *aligned_alloc(size_t alignment, size_t size) { return memalign(alignment, size); }

int posix_memalign(void **place, size_t alignment, size_t size) {
    void *block = memalign(alignment, size);
    if (block == NULL) {
        return ENOMEM;
    }
    *place = block;
    return 0;
}

__attribute__((constructor)) static void begin(void) {
    const char *number = getenv("FAIL_NTH");
    if (number != NULL) {
        failing = strtoul(number, NULL, 10);
    }
    atomic_store(&made, 0);
}

void _exit(int status) {
    char text[32];
    int length = snprintf(text, sizeof text, "%lu\n", atomic_load(&made));
    if (write(3, text, (size_t)length) != length) {
        status = 3;
    }
    syscall(SYS_exit_group, status);
    __builtin_unreachable();
}
