/* Stands before the C library while tools/refused runs a program. REFUSE names one call by its kind and its number, from 1 on:
   memory:3 answers null at the third call of malloc or realloc; read:2, write:2 and rename:2 fail the second read, write or change of a
   file's name. EACH changes every read and write: `short` lets it move one byte, `interrupted` interrupts it once before it is done. At the
   end the file that COUNTED names gets how many calls there were: of memory, reads, writes, and names. */
#define _GNU_SOURCE
#include <dlfcn.h>
#include <errno.h>
#include <stdio.h>
#include <stdlib.h>
#include <string.h>
#include <unistd.h>

enum { MEMORY, READ, WRITE, RENAME, KINDS };
static const char *const names[KINDS] = {"memory", "read", "write", "rename"};
static unsigned long made[KINDS], refused[KINDS];
static int is_short, is_interrupted;

static void *(*next_malloc)(size_t);
static void *(*next_realloc)(void *, size_t);
static ssize_t (*next_read)(int, void *, size_t);
static ssize_t (*next_write)(int, const void *, size_t);
static int (*next_rename)(const char *, const char *);

__attribute__((constructor)) static void begin(void) {
    const char *call = getenv("REFUSE"), *each = getenv("EACH"), *number = call ? strchr(call, ':') : NULL;
    next_malloc = dlsym(RTLD_NEXT, "malloc");
    next_realloc = dlsym(RTLD_NEXT, "realloc");
    next_read = dlsym(RTLD_NEXT, "read");
    next_write = dlsym(RTLD_NEXT, "write");
    next_rename = dlsym(RTLD_NEXT, "rename");
    for (int kind = 0; kind < KINDS; kind++) {
        made[kind] = 0;
        refused[kind] = number && !strncmp(call, names[kind], (size_t)(number - call)) ? strtoul(number + 1, NULL, 10) : 0;
    }
    is_short = each && !strcmp(each, "short");
    is_interrupted = each && !strcmp(each, "interrupted");
}

__attribute__((destructor)) static void end(void) {
    unsigned long all[KINDS];
    const char *name = getenv("COUNTED");
    memcpy(all, made, sizeof all);
    memset(refused, 0, sizeof refused);
    is_short = is_interrupted = 0;
    FILE *file = name ? fopen(name, "w") : NULL;
    if (file) {
        fprintf(file, "%lu %lu %lu %lu\n", all[MEMORY], all[READ], all[WRITE], all[RENAME]);
        fclose(file);
    }
}

static int is_refused(int kind) { return ++made[kind] == refused[kind]; }

void *malloc(size_t size) {
    if (!next_malloc)
        next_malloc = dlsym(RTLD_NEXT, "malloc");
    return is_refused(MEMORY) ? NULL : next_malloc(size);
}

void *realloc(void *block, size_t size) {
    if (!next_realloc)
        next_realloc = dlsym(RTLD_NEXT, "realloc");
    return is_refused(MEMORY) ? NULL : next_realloc(block, size);
}

/* Whether the call fails, with errno set: the refused one, or each call before one that is done. */
static int fails(int kind) {
    static int was_interrupted[KINDS];
    if (is_interrupted && (was_interrupted[kind] = !was_interrupted[kind])) {
        errno = EINTR;
        return 1;
    }
    if (!is_refused(kind))
        return 0;
    errno = kind == READ ? EIO : ENOSPC;
    return 1;
}

ssize_t read(int file, void *bytes, size_t count) {
    return fails(READ) ? -1 : next_read(file, bytes, is_short && count ? 1 : count);
}

ssize_t write(int file, const void *bytes, size_t count) {
    return fails(WRITE) ? -1 : next_write(file, bytes, is_short && count ? 1 : count);
}

int rename(const char *from, const char *to) {
    if (!is_refused(RENAME))
        return next_rename(from, to);
    errno = EIO;
    return -1;
}
