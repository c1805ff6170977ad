// A library to be loaded before a built program: it refuses one growth, or all from one on. For tests alone.
//
// A built program takes and enlarges its memory by `malloc` and `realloc` of the C library, and by no other call.
//   REFUSE_GROWTH   the number of the growth that is refused, from 1; 0 or none: no growth is
//   REFUSE_ON       where it is set, all later growths are refused too
//   GROWTHS_FILE    a file of 16 bytes or more, which is given two numbers: the growths asked for, and those refused.
//                   It is mapped, so that the numbers are there however the program ends
#define _GNU_SOURCE
#include <dlfcn.h>
#include <fcntl.h>
#include <stdint.h>
#include <stdlib.h>
#include <sys/mman.h>
#include <unistd.h>

static uint64_t own_counts[2];
static uint64_t *counts = own_counts;
static uint64_t refused_at;
static int refuses_on;

__attribute__((constructor)) static void begin(void) {
    const char *at = getenv("REFUSE_GROWTH");
    const char *name = getenv("GROWTHS_FILE");
    refuses_on = getenv("REFUSE_ON") != NULL;
    int file = name ? open(name, O_RDWR | O_CLOEXEC) : -1;
    if (file >= 0) {
        void *place = mmap(NULL, sizeof own_counts, PROT_READ | PROT_WRITE, MAP_SHARED, file, 0);
        close(file);
        if (place != MAP_FAILED) counts = place;
    }
    // Last, so that what the loader itself took before is not counted.
    counts[0] = counts[1] = 0;
    refused_at = at ? strtoull(at, NULL, 10) : 0;
}

static int is_refused(void) {
    uint64_t number = ++counts[0];
    int refused = refused_at != 0 && (refuses_on ? number >= refused_at : number == refused_at);
    counts[1] += refused;
    return refused;
}

void *malloc(size_t size) {
    static void *(*real)(size_t);
    if (!real) real = (void *(*)(size_t))dlsym(RTLD_NEXT, "malloc");
    return is_refused() ? NULL : real(size);
}

void *realloc(void *old, size_t size) {
    static void *(*real)(void *, size_t);
    if (!real) real = (void *(*)(void *, size_t))dlsym(RTLD_NEXT, "realloc");
    return is_refused() ? NULL : real(old, size);
}
