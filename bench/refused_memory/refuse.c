/* Refuses one request for memory, or all from one on, of the program that it is preloaded into:

       REFUSE_AT=N     the N-th request is refused
       REFUSE_FROM=N   and all after it
       REFUSE_SPACE=B  the address space is limited to B bytes, once the stack has grown: it can't be refused
       REFUSE_SAY=F    the number of requests stands in the first eight bytes of the file F

   Requests of all threads are counted together. */
#define _GNU_SOURCE
#include <errno.h>
#include <fcntl.h>
#include <stdatomic.h>
#include <stdlib.h>
#include <sys/mman.h>
#include <sys/resource.h>
#include <unistd.h>

void *__libc_malloc(size_t);
void *__libc_calloc(size_t, size_t);
void *__libc_realloc(void *, size_t);
void *__libc_memalign(size_t, size_t);

static atomic_ulong unsaid;
static atomic_ulong *asked = &unsaid;
static unsigned long at, from;

static int refused(void)
{
    unsigned long number = 1 + atomic_fetch_add(asked, 1);
    if (number != at && (from == 0 || number < from))
        return 0;
    errno = ENOMEM;
    return 1;
}

void *malloc(size_t size)
{
    return refused() ? NULL : __libc_malloc(size);
}

void *calloc(size_t count, size_t size)
{
    return refused() ? NULL : __libc_calloc(count, size);
}

void *realloc(void *old, size_t size)
{
    return refused() ? NULL : __libc_realloc(old, size);
}

void *memalign(size_t align, size_t size)
{
    return refused() ? NULL : __libc_memalign(align, size);
}

void *aligned_alloc(size_t align, size_t size)
{
    return refused() ? NULL : __libc_memalign(align, size);
}

int posix_memalign(void **into, size_t align, size_t size)
{
    if (refused())
        return ENOMEM;
    *into = __libc_memalign(align, size);
    return *into == NULL ? ENOMEM : 0;
}

static unsigned long number_of(const char *name)
{
    const char *text = getenv(name);
    return text == NULL ? 0 : strtoul(text, NULL, 10);
}

/* Grows the stack to what the program may need of it. */
static void __attribute__((noinline)) grow(void)
{
    volatile char room[1 << 20];
    for (size_t at = 0; at < sizeof room; at += 512)
        room[at] = 1;
}

static void limit(unsigned long bytes)
{
    struct rlimit most = {bytes, bytes};
    grow();
    if (setrlimit(RLIMIT_AS, &most) != 0)
        _exit(99);
}

__attribute__((constructor)) static void begin(void)
{
    unsigned long space = number_of("REFUSE_SPACE");
    const char *name = getenv("REFUSE_SAY");
    at = number_of("REFUSE_AT");
    from = number_of("REFUSE_FROM");
    if (name != NULL) {
        int file = open(name, O_RDWR);
        if (file < 0 || ftruncate(file, sizeof *asked) != 0)
            _exit(99);
        void *shared = mmap(NULL, sizeof *asked, PROT_READ | PROT_WRITE, MAP_SHARED, file, 0);
        if (shared == MAP_FAILED)
            _exit(99);
        asked = shared;
    }
    if (space != 0)
        limit(space);
    atomic_store(asked, 0);
}
