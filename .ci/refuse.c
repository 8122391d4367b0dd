/* A library to load before a program: the REFUSE_ATth allocation that the program itself asks for is refused, and so is each
 * thread from the REFUSE_THREADS_FROMth on; the file that REFUSE_TOLD names is made then. What other libraries ask for is not
 * counted.
 *
 * Of a program that counts which places it reaches (.ci/branches), the first allocation of each kind is refused that no run
 * before was refused, by the file that REFUSE_SEEN names, of REFUSE_KINDS bytes: one in a run. Of one kind are those that the same
 * code asks for behind the same two places. */
#define _GNU_SOURCE
#include <dlfcn.h>
#include <errno.h>
#include <fcntl.h>
#include <link.h>
#include <pthread.h>
#include <stdatomic.h>
#include <stdint.h>
#include <stdlib.h>
#include <sys/mman.h>
#include <unistd.h>

#define REFUSE_KINDS 1048576

void *__libc_malloc(size_t size);
void *__libc_calloc(size_t count, size_t size);
void *__libc_realloc(void *old, size_t size);
void *__libc_memalign(size_t alignment, size_t size);

static uintptr_t first, behind;
static long refused_at, threads_refused_from;
static atomic_long asked, threads_asked;
static unsigned char *seen;
static atomic_int has_refused_kind;

/* The first object is the program. */
static int note_program(struct dl_phdr_info *info, size_t size, void *unused)
{
    (void)size;
    (void)unused;
    for (int i = 0; i < info->dlpi_phnum; i++) {
        const ElfW(Phdr) *part = &info->dlpi_phdr[i];
        if (part->p_type == PT_LOAD && (part->p_flags & PF_X)) {
            first = info->dlpi_addr + part->p_vaddr;
            behind = first + part->p_memsz;
        }
    }
    return 1;
}

__attribute__((constructor)) static void begin(void)
{
    const char *at = getenv("REFUSE_AT");
    refused_at = at ? atol(at) : 0;
    const char *from = getenv("REFUSE_THREADS_FROM");
    threads_refused_from = from ? atol(from) : 0;
    const char *kinds = getenv("REFUSE_SEEN");
    int file = kinds ? open(kinds, O_RDWR) : -1;
    void *map = file >= 0 ? mmap(NULL, REFUSE_KINDS, PROT_READ | PROT_WRITE, MAP_SHARED, file, 0) : MAP_FAILED;
    if (map != MAP_FAILED)
        seen = map;
    dl_iterate_phdr(note_program, NULL);
}

static int is_own(const void *caller)
{
    return (uintptr_t)caller >= first && (uintptr_t)caller < behind;
}

static void tell(void)
{
    const char *told = getenv("REFUSE_TOLD");
    int file = told ? open(told, O_CREAT | O_WRONLY, 0600) : -1;
    if (file >= 0)
        close(file);
}

/* The kind of an allocation: who asks, and behind which places, which the program tells by REACHED_LAST. */
static unsigned char *kind_of(const void *caller)
{
    static const uint32_t *last;
    if (!last) {
        const char *place = getenv("REACHED_LAST");
        if (!place)
            return NULL;
        last = (const uint32_t *)(uintptr_t)strtoull(place, NULL, 16);
    }
    uint64_t key = (uintptr_t)caller - first;
    key = (key * 0x9e3779b97f4a7c15 + last[0]) * 0x9e3779b97f4a7c15 + last[1];
    return seen + (key * 0x9e3779b97f4a7c15 >> 32) % REFUSE_KINDS;
}

static int is_new_kind(const void *caller)
{
    unsigned char *kind = seen && !atomic_load(&has_refused_kind) ? kind_of(caller) : NULL;
    if (!kind || *kind)
        return 0;
    atomic_store(&has_refused_kind, 1);
    return *kind = 1;
}

static int is_refused(const void *caller)
{
    if (!is_own(caller) || (atomic_fetch_add(&asked, 1) + 1 != refused_at && !is_new_kind(caller)))
        return 0;
    tell();
    errno = ENOMEM;
    return 1;
}

void *malloc(size_t size)
{
    return is_refused(__builtin_return_address(0)) ? NULL : __libc_malloc(size);
}

void *calloc(size_t count, size_t size)
{
    return is_refused(__builtin_return_address(0)) ? NULL : __libc_calloc(count, size);
}

void *realloc(void *old, size_t size)
{
    return is_refused(__builtin_return_address(0)) ? NULL : __libc_realloc(old, size);
}

void *aligned_alloc(size_t alignment, size_t size)
{
    return is_refused(__builtin_return_address(0)) ? NULL : __libc_memalign(alignment, size);
}

int posix_memalign(void **to, size_t alignment, size_t size)
{
    if (is_refused(__builtin_return_address(0)))
        return ENOMEM;
    void *got = __libc_memalign(alignment, size);
    if (!got)
        return ENOMEM;
    *to = got;
    return 0;
}

int pthread_create(pthread_t *thread, const pthread_attr_t *attributes, void *(*start)(void *), void *argument)
{
    int (*real)(pthread_t *, const pthread_attr_t *, void *(*)(void *), void *) = dlsym(RTLD_NEXT, "pthread_create");
    if (is_own(__builtin_return_address(0)) && threads_refused_from
        && atomic_fetch_add(&threads_asked, 1) + 1 >= threads_refused_from) {
        tell();
        return EAGAIN;
    }
    return real(thread, attributes, start, argument);
}
