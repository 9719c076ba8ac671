// Refuses allocations of a program, as if there were no more memory. It is loaded before the C library, by LD_PRELOAD.
// REFUSE=N refuses the Nth allocation, counted from 1, and REFUSE=N.. that one and all behind it, to the end of the program.
// REFUSE=N..thread refuses that one and all behind it of the thread that asked for it, and none of another's.
// LEAST=BYTES counts and refuses those alone that ask for so many bytes or more.
// DURING=call counts and refuses those alone that are asked for while the program makes a call: it writes a line on standard error before
// the call and one after it, which are BEGUN and ENDED.
// The file that REFUSED names holds how many were refused so far, how many weren't behind the first of them, and the numbers of the
// first NOTED that were, in eight bytes each, however the program ends. Behind room for all of these it holds how many were asked for.
#include <errno.h>
#include <fcntl.h>
#include <limits.h>
#include <stdatomic.h>
#include <stddef.h>
#include <stdint.h>
#include <stdlib.h>
#include <string.h>
#include <sys/mman.h>
#include <unistd.h>

extern void *__libc_malloc(size_t size);
extern void *__libc_calloc(size_t count, size_t size);
extern void *__libc_realloc(void *block, size_t size);
extern void *__libc_memalign(size_t alignment, size_t size);
extern ssize_t __write(int file, const void *bytes, size_t len);

enum { NOTED = 255 };

static const char BEGUN[] = "the call begins\n";
static const char ENDED[] = "the call has ended\n";

struct refusals {
    _Atomic uint64_t count;
    _Atomic uint64_t granted;
    uint64_t numbers[NOTED];
    _Atomic uint64_t asked;
};

static long first;
static long last;
static int by_thread;
// Whether all that this thread asks for is refused. (In a place that is there before the thread: it takes no allocation.)
static __thread int is_refused_all __attribute__((tls_model("initial-exec")));
static size_t least;
// Whether allocations are counted now.
static atomic_int is_counting;
static int is_told;
static struct refusals *refused;

// The refusals in the file of this name. Without it nothing could be seen, so the program doesn't begin.
static struct refusals *refusals_in(const char *name)
{
    int file = name == NULL ? -1 : open(name, O_RDWR | O_CREAT | O_TRUNC | O_CLOEXEC, 0600);
    if (file < 0 || ftruncate(file, sizeof *refused) != 0)
        abort();
    void *found = mmap(NULL, sizeof *refused, PROT_READ | PROT_WRITE, MAP_SHARED, file, 0);
    if (found == MAP_FAILED)
        abort();
    close(file);
    return found;
}

__attribute__((constructor)) static void read_words(void)
{
    const char *word = getenv("REFUSE");
    if (word == NULL)
        return;
    char *end;
    refused = refusals_in(getenv("REFUSED"));
    first = strtol(word, &end, 10);
    last = strcmp(end, "..") == 0 ? LONG_MAX : first;
    by_thread = strcmp(end, "..thread") == 0;
    const char *bytes = getenv("LEAST");
    least = bytes == NULL ? 0 : strtoul(bytes, NULL, 10);
    is_told = getenv("DURING") != NULL;
    atomic_store(&is_counting, !is_told);
    atomic_store(&refused->asked, 0);
}

static int is_refused(size_t size)
{
    if (refused == NULL || size < least || !atomic_load(&is_counting))
        return 0;
    long number = (long)atomic_fetch_add(&refused->asked, 1) + 1;
    int is_meant = number >= first && number <= last;
    if (by_thread && is_meant)
        is_refused_all = 1;
    if (!is_meant && !is_refused_all) {
        if (number > first)
            atomic_fetch_add(&refused->granted, 1);
        return 0;
    }
    uint64_t place = atomic_fetch_add(&refused->count, 1);
    if (place < NOTED)
        refused->numbers[place] = (uint64_t)number;
    errno = ENOMEM;
    return 1;
}

void *malloc(size_t size)
{
    return is_refused(size) ? NULL : __libc_malloc(size);
}

// The product, or the greatest size where there is none so great.
static size_t bytes_of(size_t count, size_t size)
{
    size_t bytes;
    return __builtin_mul_overflow(count, size, &bytes) ? SIZE_MAX : bytes;
}

void *calloc(size_t count, size_t size)
{
    return is_refused(bytes_of(count, size)) ? NULL : __libc_calloc(count, size);
}

void *realloc(void *block, size_t size)
{
    return is_refused(size) ? NULL : __libc_realloc(block, size);
}

void *memalign(size_t alignment, size_t size)
{
    return is_refused(size) ? NULL : __libc_memalign(alignment, size);
}

void *aligned_alloc(size_t alignment, size_t size)
{
    return memalign(alignment, size);
}

int posix_memalign(void **block, size_t alignment, size_t size)
{
    void *found = memalign(alignment, size);
    if (found == NULL)
        return ENOMEM;
    *block = found;
    return 0;
}

static int is_line(const void *bytes, size_t len, const char *line)
{
    return len == strlen(line) && memcmp(bytes, line, len) == 0;
}

ssize_t write(int file, const void *bytes, size_t len)
{
    if (is_told && file == STDERR_FILENO && is_line(bytes, len, BEGUN))
        atomic_store(&is_counting, 1);
    if (is_told && file == STDERR_FILENO && is_line(bytes, len, ENDED))
        atomic_store(&is_counting, 0);
    return __write(file, bytes, len);
}
