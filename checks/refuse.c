// A library to preload: the program's request for memory number REFUSE_AT, counted from 1, is refused, and all others
// are passed on. Where one was refused the file at REFUSE_NOTE is made.
#define _GNU_SOURCE
#include <dlfcn.h>
#include <errno.h>
#include <fcntl.h>
#include <stdatomic.h>
#include <stdlib.h>
#include <unistd.h>

static void *(*real_malloc)(size_t);
static void *(*real_realloc)(void *, size_t);
static atomic_long left;
static const char *note;

__attribute__((constructor)) static void start(void) {
    const char *at = getenv("REFUSE_AT");
    note = getenv("REFUSE_NOTE");
    real_malloc = (void *(*)(size_t))dlsym(RTLD_NEXT, "malloc");
    real_realloc = (void *(*)(void *, size_t))dlsym(RTLD_NEXT, "realloc");
    left = at ? atol(at) : 0;
}

static int is_refused(void) {
    if (left == 0 || --left != 0)
        return 0;
    if (note) {
        int file = open(note, O_WRONLY | O_CREAT | O_TRUNC, 0600);
        if (file >= 0)
            close(file);
    }
    errno = ENOMEM;
    return 1;
}

void *malloc(size_t size) {
    if (!real_malloc)
        real_malloc = (void *(*)(size_t))dlsym(RTLD_NEXT, "malloc");
    return is_refused() ? NULL : real_malloc(size);
}

void *realloc(void *block, size_t size) {
    if (!real_realloc)
        real_realloc = (void *(*)(void *, size_t))dlsym(RTLD_NEXT, "realloc");
    return is_refused() ? NULL : real_realloc(block, size);
}
