/* Loaded before a program by LD_PRELOAD: the call of malloc, calloc or realloc with the number OPC_REFUSE is refused, from 1.
   The file OPC_COUNT, of eight bytes, counts the calls; it is shared, since a program may end without leave to write. */
#include <errno.h>
#include <fcntl.h>
#include <stdatomic.h>
#include <stdlib.h>
#include <sys/mman.h>
#include <unistd.h>

extern void *__libc_malloc(size_t);
extern void *__libc_calloc(size_t, size_t);
extern void *__libc_realloc(void *, size_t);

static _Atomic unsigned long *calls;
static unsigned long refused;

__attribute__((constructor)) static void begin(void)
{
    const char *number = getenv("OPC_REFUSE");
    const char *name = getenv("OPC_COUNT");
    int file = name ? open(name, O_RDWR) : -1;
    void *shared = file < 0 ? MAP_FAILED : mmap(NULL, sizeof *calls, PROT_READ | PROT_WRITE, MAP_SHARED, file, 0);
    refused = number ? strtoul(number, NULL, 10) : 0;
    if (shared != MAP_FAILED)
        calls = shared;
}

static int is_refused(void)
{
    if (!calls || atomic_fetch_add(calls, 1) + 1 != refused)
        return 0;
    errno = ENOMEM;
    return 1;
}

void *malloc(size_t size)
{
    return is_refused() ? NULL : __libc_malloc(size);
}

void *calloc(size_t count, size_t size)
{
    return is_refused() ? NULL : __libc_calloc(count, size);
}

void *realloc(void *old, size_t size)
{
    return is_refused() ? NULL : __libc_realloc(old, size);
}
