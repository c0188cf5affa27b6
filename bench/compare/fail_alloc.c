// Preloaded: the call of malloc or realloc of the number FAIL_ALLOC, counted from 1, finds no memory, and where FAIL_LASTING is set
// each one behind it neither.
#include <errno.h>
#include <stdlib.h>

extern void *__libc_malloc(size_t size);
extern void *__libc_realloc(void *old, size_t size);

static unsigned long calls, failing;
static int lasting;

__attribute__((constructor)) static void begin(void) {
    const char *text = getenv("FAIL_ALLOC");
    failing = text ? strtoul(text, NULL, 10) : 0;
    lasting = getenv("FAIL_LASTING") != NULL;
    calls = 0;
}

static int fails(void) {
    unsigned long call = __atomic_add_fetch(&calls, 1, __ATOMIC_RELAXED);
    if (failing == 0 || (lasting ? call < failing : call != failing)) return 0;
    errno = ENOMEM;
    return 1;
}

void *malloc(size_t size) { return fails() ? NULL : __libc_malloc(size); }
void *realloc(void *old, size_t size) { return fails() ? NULL : __libc_realloc(old, size); }
