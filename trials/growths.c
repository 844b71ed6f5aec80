/* Preloaded (LD_PRELOAD), counts the growths of a program: its own calls of malloc, calloc, realloc and their kin, and not those that
   the C library makes for itself. By the environment:
     GROWTH_REFUSE=N   the Nth of them is refused: null, and ENOMEM (0: none)
     GROWTH_LASTING=1  and each one after it, too, as where memory stays full
     GROWTH_TELL=FILE  at the end the file has a line `growths COUNT refused K`
     GROWTH_LIST=FILE  and this one a record of each: a number for its thread, its kind (m, c, r, a), its size, and where it was asked for
     GROWTH_LIBC=1     the C library's own are counted, and may be refused, as well
     GROWTH_ALONE=1    no thread can be started, so that all is done by one and in one order
   The C library has these calls from rattle_alloc and rattle_realloc of the kit, by which each Vec, Box and String grows. */
#define _GNU_SOURCE
#include <dlfcn.h>
#include <errno.h>
#include <fcntl.h>
#include <link.h>
#include <pthread.h>
#include <stdatomic.h>
#include <stdint.h>
#include <stdio.h>
#include <stdlib.h>
#include <sys/mman.h>
#include <sys/syscall.h>
#include <unistd.h>

extern void *__libc_malloc(size_t);
extern void *__libc_calloc(size_t, size_t);
extern void *__libc_realloc(void *, size_t);
extern void *__libc_memalign(size_t, size_t);

enum { PLACES = 24, ROOM = 1 << 22 };

/* One growth: a word each for thread, kind, size, and the places in the program that the stack holds, from the innermost on. */
struct record {
    uint64_t thread, kind, size, places[PLACES];
};

static uint64_t refused_one;
static int is_lasting, counts_libc, is_alone;
static atomic_uint_fast64_t counted, listed, refused, threads;
static uintptr_t base, from, to;
static struct record *list;
static __thread uint64_t own_thread;
static __thread uintptr_t stack_end;

static uint64_t number(const char *name) {
    const char *word = getenv(name);
    return word ? strtoull(word, NULL, 10) : 0;
}

/* The code of the program itself is the first object. */
static int first_object(struct dl_phdr_info *info, size_t size, void *data) {
    (void)size;
    (void)data;
    base = info->dlpi_addr;
    for (int k = 0; k < info->dlpi_phnum; k++) {
        const ElfW(Phdr) *part = &info->dlpi_phdr[k];
        if (part->p_type == PT_LOAD && (part->p_flags & PF_X)) {
            from = info->dlpi_addr + part->p_vaddr;
            to = from + part->p_memsz;
        }
    }
    return 1;
}

__attribute__((constructor)) static void begin(void) {
    refused_one = number("GROWTH_REFUSE");
    is_lasting = number("GROWTH_LASTING") != 0;
    counts_libc = number("GROWTH_LIBC") != 0;
    is_alone = number("GROWTH_ALONE") != 0;
    const char *path = getenv("GROWTH_LIST");
    if (path) {
        int file = open(path, O_RDWR | O_CREAT | O_TRUNC, 0644);
        if (file >= 0 && ftruncate(file, (off_t)ROOM * sizeof(struct record)) == 0) {
            void *made = mmap(NULL, (size_t)ROOM * sizeof(struct record), PROT_READ | PROT_WRITE, MAP_SHARED, file, 0);
            list = made == MAP_FAILED ? NULL : made;
        }
        close(file);
    }
    dl_iterate_phdr(first_object, NULL);
}

__attribute__((destructor)) static void end(void) {
    const char *path = getenv("GROWTH_TELL");
    if (!path) return;
    int file = open(path, O_WRONLY | O_CREAT | O_TRUNC, 0644);
    if (file < 0) return;
    dprintf(file, "growths %llu refused %llu\n", (unsigned long long)counted, (unsigned long long)refused);
    close(file);
}

/* The program ends by this call, which runs no destructor. */
void _exit(int status) {
    end();
    syscall(SYS_exit_group, status);
    __builtin_unreachable();
}

/* The words of the stack that lie in the program's code just behind a call: mostly its return addresses, some of them stale. */
static void put_places(uint64_t *places) {
    uintptr_t *at = __builtin_frame_address(0);
    if (!stack_end) {
        pthread_attr_t attr;
        void *low;
        size_t size;
        if (pthread_getattr_np(pthread_self(), &attr) != 0) return;
        pthread_attr_getstack(&attr, &low, &size);
        pthread_attr_destroy(&attr);
        stack_end = (uintptr_t)low + size;
    }
    int found = 0;
    for (; (uintptr_t)at + 8 <= stack_end && found < PLACES; at++) {
        uintptr_t word = *at;
        if (word < from + 6 || word >= to) continue;
        const unsigned char *code = (const unsigned char *)word;
        if (code[-5] == 0xe8 || (code[-6] == 0xff && code[-5] == 0x15) || (code[-2] == 0xff && (code[-1] & 0xf8) == 0xd0))
            places[found++] = word - base;
    }
}

static void put(char kind, size_t size) {
    static __thread int is_inside;
    if (is_inside) return;
    is_inside = 1;
    uint64_t at = atomic_fetch_add(&listed, 1);
    if (at < ROOM) {
        if (!own_thread) own_thread = atomic_fetch_add(&threads, 1) + 1;
        list[at].thread = own_thread;
        list[at].kind = (uint64_t)kind;
        list[at].size = size;
        put_places(list[at].places);
    }
    is_inside = 0;
}

/* Whether this growth is refused; it is counted where it is the program's. */
static int is_refused(const void *caller, char kind, size_t size) {
    uintptr_t place = (uintptr_t)caller;
    if (!counts_libc && (place < from || place >= to)) return 0;
    uint64_t at = atomic_fetch_add(&counted, 1) + 1;
    if (list) put(kind, size);
    if (refused_one == 0 || (is_lasting ? at < refused_one : at != refused_one)) return 0;
    atomic_fetch_add(&refused, 1);
    errno = ENOMEM;
    return 1;
}

#define CALLER __builtin_extract_return_addr(__builtin_return_address(0))

void *malloc(size_t size) { return is_refused(CALLER, 'm', size) ? NULL : __libc_malloc(size); }

void *calloc(size_t count, size_t size) { return is_refused(CALLER, 'c', count * size) ? NULL : __libc_calloc(count, size); }

void *realloc(void *block, size_t size) { return is_refused(CALLER, 'r', size) ? NULL : __libc_realloc(block, size); }

void *memalign(size_t align, size_t size) { return is_refused(CALLER, 'a', size) ? NULL : __libc_memalign(align, size); }

void *aligned_alloc(size_t align, size_t size) { return is_refused(CALLER, 'a', size) ? NULL : __libc_memalign(align, size); }

int posix_memalign(void **block, size_t align, size_t size) {
    if (is_refused(CALLER, 'a', size)) return ENOMEM;
    *block = __libc_memalign(align, size);
    return *block ? 0 : ENOMEM;
}

/* Where no thread is to be started the caller is told so, as by a system that has no more. */
int pthread_create(pthread_t *thread, const pthread_attr_t *attr, void *(*start)(void *), void *word) {
    static int (*next)(pthread_t *, const pthread_attr_t *, void *(*)(void *), void *);
    if (is_alone) return EAGAIN;
    if (!next) *(void **)&next = dlsym(RTLD_NEXT, "pthread_create");
    return next(thread, attr, start, word);
}
