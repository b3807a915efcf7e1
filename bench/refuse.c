/* Stands in front of the C library's malloc and realloc in a program that is loaded after it. It counts their calls from
   the program's main on, from 1, in the file that CALLS_FILE names, and refuses the call whose number REFUSED_CALL names,
   with REFUSED_ON also every later one. Nothing is refused where REFUSED_CALL is not there or 0. */
#define _GNU_SOURCE
#include <dlfcn.h>
#include <errno.h>
#include <fcntl.h>
#include <stdatomic.h>
#include <stdlib.h>
#include <sys/mman.h>
#include <unistd.h>

static void *(*next_malloc)(size_t);
static void *(*next_realloc)(void *, size_t);
static atomic_ulong *calls;
static unsigned long refused;
static int later_too;

__attribute__((constructor)) static void begin(void) {
    const char *file = getenv("CALLS_FILE"), *number = getenv("REFUSED_CALL");
    next_malloc = (void *(*)(size_t))dlsym(RTLD_NEXT, "malloc");
    next_realloc = (void *(*)(void *, size_t))dlsym(RTLD_NEXT, "realloc");
    refused = number ? strtoul(number, NULL, 10) : 0;
    later_too = getenv("REFUSED_ON") != NULL;
    int handle = file ? open(file, O_RDWR) : -1;
    if (handle < 0)
        _exit(70);
    void *place = mmap(NULL, sizeof *calls, PROT_READ | PROT_WRITE, MAP_SHARED, handle, 0);
    if (place == MAP_FAILED)
        _exit(70);
    close(handle);
    calls = place;
}

static int is_refused(void) {
    if (!calls)
        return 0;
    unsigned long call = atomic_fetch_add(calls, 1) + 1;
    int is = refused && (call == refused || (later_too && call > refused));
    if (is)
        errno = ENOMEM;
    return is;
}

void *malloc(size_t size) {
    if (!next_malloc)
        next_malloc = (void *(*)(size_t))dlsym(RTLD_NEXT, "malloc");
    return is_refused() ? NULL : next_malloc(size);
}

void *realloc(void *block, size_t size) {
    if (!next_realloc)
        next_realloc = (void *(*)(void *, size_t))dlsym(RTLD_NEXT, "realloc");
    return is_refused() ? NULL : next_realloc(block, size);
}
