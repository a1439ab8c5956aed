/* Counts how many bytes a program holds at most: built as a shared library and loaded before it (LD_PRELOAD). */
#define _GNU_SOURCE
#include <dlfcn.h>
#include <malloc.h>
#include <stdio.h>
#include <stdlib.h>

static long held, most;
static void *(*next_malloc)(size_t);
static void *(*next_realloc)(void *, size_t);
static void (*next_free)(void *);

static void find(void) {
    next_malloc = dlsym(RTLD_NEXT, "malloc");
    next_realloc = dlsym(RTLD_NEXT, "realloc");
    next_free = dlsym(RTLD_NEXT, "free");
}

static void *count(void *block) {
    held += block ? (long)malloc_usable_size(block) : 0;
    if (held > most) most = held;
    return block;
}

void *malloc(size_t size) {
    if (!next_malloc) find();
    return count(next_malloc(size));
}

void *realloc(void *block, size_t size) {
    if (!next_malloc) find();
    if (block) held -= (long)malloc_usable_size(block);
    return count(next_realloc(block, size));
}

void free(void *block) {
    if (!next_malloc) find();
    if (block) held -= (long)malloc_usable_size(block);
    next_free(block);
}

__attribute__((destructor)) static void tell(void) { fprintf(stderr, "%ld\n", most); }
