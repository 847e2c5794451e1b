// Refuses a program one request for memory, the one whose number from 1 is in REFUSE, and tells of it on standard error: to be preloaded.
#define _GNU_SOURCE
#include <dlfcn.h>
#include <errno.h>
#include <stdlib.h>
#include <unistd.h>

static void *(*system_malloc)(size_t);
static void *(*system_realloc)(void *, size_t);
static long left;

// Runs before the program, which has one thread.
__attribute__((constructor)) static void begin(void) {
    const char *number = getenv("REFUSE");
    system_malloc = (void *(*)(size_t))dlsym(RTLD_NEXT, "malloc");
    system_realloc = (void *(*)(void *, size_t))dlsym(RTLD_NEXT, "realloc");
    left = number ? atol(number) : 0;
}

static int is_refused(void) {
    static const char told[] = "refused\n";
    if (left == 0 || --left > 0) {
        return 0;
    }
    errno = ENOMEM;
    return write(2, told, sizeof told - 1) > 0;
}

void *malloc(size_t size) {
    if (!system_malloc) {
        system_malloc = (void *(*)(size_t))dlsym(RTLD_NEXT, "malloc");
    }
    return is_refused() ? NULL : system_malloc(size);
}

void *realloc(void *block, size_t size) {
    if (!system_realloc) {
        system_realloc = (void *(*)(void *, size_t))dlsym(RTLD_NEXT, "realloc");
    }
    return is_refused() ? NULL : system_realloc(block, size);
}
