// Refuses one growth of memory of a program that it is loaded before (LD_PRELOAD): the one with the number in REFUSE, from 0
// on. At the end it writes to the file named in REPORT how many growths there were, and how many blocks are still held.
// Only what the program itself asks for counts, and not what the C library does.
#define _GNU_SOURCE
#include <dlfcn.h>
#include <stdio.h>
#include <stdlib.h>
#include <string.h>

static long growths, held, refused = -1;
static void *(*next_malloc)(size_t);
static void *(*next_realloc)(void *, size_t);
static void (*next_free)(void *);

static void begin(void) {
    if (next_free)
        return;
    next_malloc = dlsym(RTLD_NEXT, "malloc");
    next_realloc = dlsym(RTLD_NEXT, "realloc");
    next_free = dlsym(RTLD_NEXT, "free");
    const char *number = getenv("REFUSE");
    refused = number ? atol(number) : -1;
}

static int is_of_the_program(void *caller) {
    Dl_info at, own;
    return dladdr(caller, &at) && dladdr((void *)begin, &own) && !strstr(at.dli_fname, ".so") && at.dli_fbase != own.dli_fbase;
}

void *malloc(size_t size) {
    begin();
    if (!is_of_the_program(__builtin_return_address(0)))
        return next_malloc(size);
    void *block = growths++ == refused ? NULL : next_malloc(size);
    held += block != NULL;
    return block;
}

void *realloc(void *block, size_t size) {
    begin();
    if (!is_of_the_program(__builtin_return_address(0)))
        return next_realloc(block, size);
    void *moved = growths++ == refused ? NULL : next_realloc(block, size);
    held += moved != NULL && block == NULL;
    return moved;
}

void free(void *block) {
    begin();
    if (is_of_the_program(__builtin_return_address(0)))
        held -= block != NULL;
    next_free(block);
}

__attribute__((destructor)) static void report(void) {
    const char *name = getenv("REPORT");
    FILE *file = name ? fopen(name, "w") : NULL;
    if (file) {
        fprintf(file, "%ld %ld\n", growths, held);
        fclose(file);
    }
}
