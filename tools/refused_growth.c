/* Refuses a program some of its growths of memory; it is loaded before the C library, by LD_PRELOAD.
 *
 * The built program takes all its memory by malloc and realloc of the C library, which is glibc's. Here each call of
 * theirs, and of their like, is counted from 1 on, and answered with no memory from the first refused one to the last.
 * The file that REFUSED_GROWTHS names has three numbers of 64 bits: how many growths there were, which is written here
 * as they come, and the first and the last that are refused. What is called before the program itself begins, as by
 * the loader, is not counted.
 */
#include <errno.h>
#include <fcntl.h>
#include <stddef.h>
#include <stdint.h>
#include <stdlib.h>
#include <sys/mman.h>

struct growths {
    uint64_t count, first, last;
};

/* glibc's own names of its functions */
void *__libc_malloc(size_t size);
void *__libc_calloc(size_t items, size_t size);
void *__libc_realloc(void *block, size_t size);
void *__libc_memalign(size_t alignment, size_t size);

static struct growths *growths;

__attribute__((constructor)) static void begin(void) {
    const char *path = getenv("REFUSED_GROWTHS");
    int file = path ? open(path, O_RDWR | O_CLOEXEC) : -1;
    void *shared = mmap(NULL, sizeof(struct growths), PROT_READ | PROT_WRITE, MAP_SHARED, file, 0);
    if (shared == MAP_FAILED)
        abort();
    growths = shared;
}

/* Counts a growth, and says whether it is refused. */
static int is_refused(void) {
    uint64_t number;
    if (growths == NULL)
        return 0;
    number = ++growths->count;
    if (number < growths->first || number > growths->last)
        return 0;
    errno = ENOMEM;
    return 1;
}

void *malloc(size_t size) {
    return is_refused() ? NULL : __libc_malloc(size);
}

void *calloc(size_t items, size_t size) {
    return is_refused() ? NULL : __libc_calloc(items, size);
}

void *realloc(void *block, size_t size) {
    return is_refused() ? NULL : __libc_realloc(block, size);
}

void *memalign(size_t alignment, size_t size) {
    return is_refused() ? NULL : __libc_memalign(alignment, size);
}

void *aligned_alloc(size_t alignment, size_t size) {
    return memalign(alignment, size);
}

int posix_memalign(void **block, size_t alignment, size_t size) {
    *block = memalign(alignment, size);
    return *block == NULL ? ENOMEM : 0;
}
