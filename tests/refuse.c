/* Refuses one growth of a program's memory, by its number from 1 in the variable REFUSE, and grants all others. As it refuses
   it writes a line to the descriptor 9; a run in which nothing comes there asked for fewer growths.

   cc -O2 -shared -fPIC -o refuse.so refuse.c; LD_PRELOAD=./refuse.so REFUSE=3 PROGRAM 9> told */
#include <errno.h>
#include <stdatomic.h>
#include <stddef.h>
#include <stdlib.h>
#include <unistd.h>

extern void *__libc_malloc(size_t);
extern void *__libc_calloc(size_t, size_t);
extern void *__libc_realloc(void *, size_t);
extern void *__libc_memalign(size_t, size_t);

static atomic_ulong asked;
static atomic_ulong refused;

/* What the loader asked for before the program began does not count. */
__attribute__((constructor)) static void begin(void) {
    const char *text = getenv("REFUSE");
    atomic_store(&asked, 0);
    atomic_store(&refused, text ? strtoul(text, NULL, 10) : 0);
}

static int is_refused(void) {
    if (atomic_fetch_add(&asked, 1) + 1 != atomic_load(&refused)) return 0;
    if (write(9, "refused\n", 8) != 8) return 0;
    errno = ENOMEM;
    return 1;
}

void *malloc(size_t size) { return is_refused() ? NULL : __libc_malloc(size); }
/* The start of a thread asks for its room by this one. */
void *calloc(size_t count, size_t size) { return is_refused() ? NULL : __libc_calloc(count, size); }
void *realloc(void *block, size_t size) { return is_refused() ? NULL : __libc_realloc(block, size); }
void *aligned_alloc(size_t align, size_t size) { return is_refused() ? NULL : __libc_memalign(align, size); }
