/* Memory that runs out: preloaded into a program, it lets the allocations of STARVE fail, `FIRST` or `FIRST-LAST`, counted
   from 1, and counts them in the file STARVE_COUNT, where that is given: eight bytes. */
#define _GNU_SOURCE
#include <errno.h>
#include <fcntl.h>
#include <stdlib.h>
#include <sys/mman.h>
#include <unistd.h>

void *__libc_malloc(size_t size);
void *__libc_calloc(size_t count, size_t size);
void *__libc_realloc(void *old, size_t size);
void *__libc_memalign(size_t alignment, size_t size);

static unsigned long own_count;
static unsigned long *made = &own_count;
static unsigned long first, last;

/* The program may end without its destructors, so the count stands in the file itself. */
static void count_in(const char *path)
{
    int file = open(path, O_RDWR | O_CREAT | O_TRUNC | O_CLOEXEC, 0600);
    void *place;

    if (file < 0 || ftruncate(file, sizeof *made) != 0)
        _exit(99);
    place = mmap(NULL, sizeof *made, PROT_READ | PROT_WRITE, MAP_SHARED, file, 0);
    if (place == MAP_FAILED)
        _exit(99);
    close(file);
    made = place;
}

__attribute__((constructor)) static void read_starve(void)
{
    const char *words = getenv("STARVE"), *path = getenv("STARVE_COUNT");
    char *end = NULL;

    if (path != NULL)
        count_in(path);
    if (words == NULL)
        return;
    first = strtoul(words, &end, 10);
    last = *end == '-' ? strtoul(end + 1, NULL, 10) : first;
    *made = 0;
}

static int starves(void)
{
    unsigned long number = __atomic_add_fetch(made, 1, __ATOMIC_SEQ_CST);

    if (first == 0 || number < first || number > last)
        return 0;
    errno = ENOMEM;
    return 1;
}

void *malloc(size_t size)
{
    return starves() ? NULL : __libc_malloc(size);
}

void *calloc(size_t count, size_t size)
{
    return starves() ? NULL : __libc_calloc(count, size);
}

void *realloc(void *old, size_t size)
{
    return starves() ? NULL : __libc_realloc(old, size);
}

void *memalign(size_t alignment, size_t size)
{
    return starves() ? NULL : __libc_memalign(alignment, size);
}

void *aligned_alloc(size_t alignment, size_t size)
{
    return memalign(alignment, size);
}

int posix_memalign(void **place, size_t alignment, size_t size)
{
    void *made_here = memalign(alignment, size);

    if (made_here == NULL)
        return ENOMEM;
    *place = made_here;
    return 0;
}
