/* Preloaded into a program, it refuses one of the program's own requests for memory or for a thread.
 *
 *   REFUSE_AT    the number of the request, counted from 1; 0 or nothing refuses none
 *   REFUSE_MORE  if set, every later request is refused too
 *   REFUSE_TO    a file descriptor that takes one byte for each refusal
 *
 * A request is the program's own where the call comes from the program's own code; what the C library asks of itself
 * isn't counted. gcc -O2 -shared -fPIC -o refuse.so refuse.c
 */
#define _GNU_SOURCE
#include <dlfcn.h>
#include <errno.h>
#include <link.h>
#include <pthread.h>
#include <stdatomic.h>
#include <stdlib.h>
#include <unistd.h>

static uintptr_t code_from, code_to;
static atomic_long requests;
static long refuse_at;
static int refuse_more, refuse_to = -1;

static void *(*next_malloc)(size_t);
static void *(*next_calloc)(size_t, size_t);
static void *(*next_realloc)(void *, size_t);
static int (*next_thread)(pthread_t *, const pthread_attr_t *, void *(*)(void *), void *);

/* The first object that is told of is the program itself. */
static int find_code(struct dl_phdr_info *info, size_t size, void *unused) {
    (void)size, (void)unused;
    for (int i = 0; i < info->dlpi_phnum; i++) {
        const ElfW(Phdr) *part = &info->dlpi_phdr[i];
        if (part->p_type == PT_LOAD && (part->p_flags & PF_X)) {
            code_from = info->dlpi_addr + part->p_vaddr;
            code_to = code_from + part->p_memsz;
        }
    }
    return 1;
}

static long number_in(const char *name, long otherwise) {
    const char *text = getenv(name);
    return text && *text ? atol(text) : otherwise;
}

__attribute__((constructor)) static void begin(void) {
    next_malloc = dlsym(RTLD_NEXT, "malloc");
    next_calloc = dlsym(RTLD_NEXT, "calloc");
    next_realloc = dlsym(RTLD_NEXT, "realloc");
    next_thread = dlsym(RTLD_NEXT, "pthread_create");
    refuse_to = (int)number_in("REFUSE_TO", -1);
    refuse_more = (int)number_in("REFUSE_MORE", 0);
    refuse_at = number_in("REFUSE_AT", 0);
    dl_iterate_phdr(find_code, NULL);
}

static int is_refused(void *caller) {
    uintptr_t at = (uintptr_t)caller;
    if (refuse_at == 0 || at < code_from || at >= code_to) return 0;
    long number = atomic_fetch_add(&requests, 1) + 1;
    if (number != refuse_at && !(refuse_more && number > refuse_at)) return 0;
    if (refuse_to >= 0 && write(refuse_to, "r", 1) != 1) abort();
    return 1;
}

static void *no_memory(void) {
    errno = ENOMEM;
    return NULL;
}

void *malloc(size_t size) {
    if (!next_malloc) next_malloc = dlsym(RTLD_NEXT, "malloc");
    return is_refused(__builtin_return_address(0)) ? no_memory() : next_malloc(size);
}

void *calloc(size_t count, size_t size) {
    if (!next_calloc) return no_memory(); /* while dlsym looks for it */
    return is_refused(__builtin_return_address(0)) ? no_memory() : next_calloc(count, size);
}

void *realloc(void *old, size_t size) {
    if (!next_realloc) next_realloc = dlsym(RTLD_NEXT, "realloc");
    return is_refused(__builtin_return_address(0)) ? no_memory() : next_realloc(old, size);
}

int pthread_create(pthread_t *thread, const pthread_attr_t *how, void *(*body)(void *), void *given) {
    if (!next_thread) next_thread = dlsym(RTLD_NEXT, "pthread_create");
    return is_refused(__builtin_return_address(0)) ? EAGAIN : next_thread(thread, how, body, given);
}
