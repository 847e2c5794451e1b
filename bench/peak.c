// Tells on standard error how many bytes a program had at most from malloc, each with the eight bytes before it: to be preloaded.
#define _GNU_SOURCE
#include <dlfcn.h>
#include <malloc.h>
#include <stdio.h>
#include <stdlib.h>

static void *(*system_malloc)(size_t);
static void *(*system_realloc)(void *, size_t);
static void (*system_free)(void *);
static long now, most;

static void find(void) {
    system_malloc = (void *(*)(size_t))dlsym(RTLD_NEXT, "malloc");
    system_realloc = (void *(*)(void *, size_t))dlsym(RTLD_NEXT, "realloc");
    system_free = (void (*)(void *))dlsym(RTLD_NEXT, "free");
}

static long size_of(void *block) {
    return block ? (long)malloc_usable_size(block) + 8 : 0;
}

static void *add(void *block) {
    now += size_of(block);
    most = now > most ? now : most;
    return block;
}

void *malloc(size_t size) {
    if (!system_malloc) {
        find();
    }
    return add(system_malloc(size));
}

void *realloc(void *block, size_t size) {
    if (!system_realloc) {
        find();
    }
    now -= size_of(block);
    return add(system_realloc(block, size));
}

void free(void *block) {
    if (!system_free) {
        find();
    }
    now -= size_of(block);
    system_free(block);
}

__attribute__((destructor)) static void tell(void) {
    fprintf(stderr, "peak %ld\n", most);
}
