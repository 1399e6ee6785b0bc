/* Refuses requests for memory of the program that it is loaded into by LD_PRELOAD.
 *
 *   STARVE_AT=N        the Nth request is refused, counted from 1; 0 or nothing: none is
 *   STARVE_ROW=K       and so are those that come after it, K in all; nothing: the one alone
 *   STARVE_ON=1        and so are all that come after it
 *   STARVE_COUNTS=F    the file F holds two numbers of 64 bits: the requests so far, and those refused
 *
 * Requests are counted from main on: what the loader takes before is no concern of the program. The counts
 * are in the file at every moment, so they are right however the program ends. The names that begin with
 * __libc are glibc's own. The built program asks by malloc and realloc; the others are here for later ones.
 */
#define _GNU_SOURCE
#include <errno.h>
#include <fcntl.h>
#include <stddef.h>
#include <stdint.h>
#include <stdlib.h>
#include <sys/mman.h>
#include <unistd.h>

extern void *__libc_malloc(size_t size);
extern void *__libc_calloc(size_t number, size_t size);
extern void *__libc_realloc(void *block, size_t size);
extern void *__libc_memalign(size_t alignment, size_t size);

struct counts {
    uint64_t requests;
    uint64_t refused;
};

static struct counts unseen;
static struct counts *counts = &unseen;
static uint64_t first;
static uint64_t row;
static int goes_on;
static int has_begun;

static uint64_t number(const char *name)
{
    const char *text = getenv(name);
    return text ? strtoull(text, NULL, 10) : 0;
}

static void share_counts(const char *name)
{
    int file = name ? open(name, O_RDWR | O_CREAT | O_TRUNC, 0666) : -1;
    if (file < 0)
        return;
    if (ftruncate(file, sizeof *counts) == 0) {
        void *shared = mmap(NULL, sizeof *counts, PROT_READ | PROT_WRITE, MAP_SHARED, file, 0);
        if (shared != MAP_FAILED)
            counts = shared;
    }
    close(file);
}

/* The loader calls this before it calls main. */
__attribute__((constructor)) static void begin(void)
{
    first = number("STARVE_AT");
    row = number("STARVE_ROW");
    goes_on = number("STARVE_ON") != 0;
    share_counts(getenv("STARVE_COUNTS"));
    has_begun = 1;
}

static int is_refused(void)
{
    if (!has_begun)
        return 0;
    uint64_t now = ++counts->requests;
    if (first == 0 || now < first)
        return 0;
    if (now > first && now - first >= row && !goes_on)
        return 0;
    ++counts->refused;
    return 1;
}

static void *refusal(void)
{
    errno = ENOMEM;
    return NULL;
}

void *malloc(size_t size)
{
    return is_refused() ? refusal() : __libc_malloc(size);
}

void *calloc(size_t number, size_t size)
{
    return is_refused() ? refusal() : __libc_calloc(number, size);
}

void *realloc(void *block, size_t size)
{
    return is_refused() ? refusal() : __libc_realloc(block, size);
}

void *aligned_alloc(size_t alignment, size_t size)
{
    return is_refused() ? refusal() : __libc_memalign(alignment, size);
}

void *memalign(size_t alignment, size_t size)
{
    return aligned_alloc(alignment, size);
}

int posix_memalign(void **block, size_t alignment, size_t size)
{
    if (is_refused())
        return ENOMEM;
    void *got = __libc_memalign(alignment, size);
    if (got == NULL)
        return ENOMEM;
    *block = got;
    return 0;
}
