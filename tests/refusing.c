/* Preloaded into the program: counts its growths, which are the calls that ask the C library for memory, and refuses some. The file that REFUSING
   names is a page that the test has in its memory too: the number of growths so far, the first and the last that are refused, how many were, and
   how many blocks the program has. */

#include <errno.h>
#include <fcntl.h>
#include <stddef.h>
#include <stdlib.h>
#include <sys/mman.h>

void *__libc_malloc(size_t size);
void *__libc_calloc(size_t count, size_t size);
void *__libc_realloc(void *block, size_t size);
void *__libc_memalign(size_t alignment, size_t size);
void __libc_free(void *block);

struct page {
    volatile unsigned long count, first, last, refused, blocks;
};

static struct page *page;

__attribute__((constructor)) static void begin(void) {
    const char *name = getenv("REFUSING");
    int file = name ? open(name, O_RDWR) : -1;
    void *found = file < 0 ? MAP_FAILED : mmap(NULL, sizeof(struct page), PROT_READ | PROT_WRITE, MAP_SHARED, file, 0);
    if (found != MAP_FAILED) {
        page = found;
        page->count = 0;
    }
}

static int is_refused(void) {
    if (!page) return 0;
    unsigned long number = ++page->count;
    if (number < page->first || number > page->last) return 0;
    ++page->refused;
    errno = ENOMEM;
    return 1;
}

static void *counted(void *block) {
    if (page && block) ++page->blocks;
    return block;
}

void *malloc(size_t size) { return is_refused() ? NULL : counted(__libc_malloc(size)); }

void *calloc(size_t count, size_t size) { return is_refused() ? NULL : counted(__libc_calloc(count, size)); }

void *realloc(void *block, size_t size) {
    if (is_refused()) return NULL;
    void *found = __libc_realloc(block, size);
    return block ? found : counted(found);
}

void *memalign(size_t alignment, size_t size) { return is_refused() ? NULL : counted(__libc_memalign(alignment, size)); }

void *aligned_alloc(size_t alignment, size_t size) { return memalign(alignment, size); }

int posix_memalign(void **block, size_t alignment, size_t size) {
    void *found = memalign(alignment, size);
    if (found) *block = found;
    return found ? 0 : ENOMEM;
}

void free(void *block) {
    if (page && block) --page->blocks;
    __libc_free(block);
}
