/* Preloaded (LD_PRELOAD), counts the calls by which a program reads, writes, cuts and syncs its database and its log: pread, pwrite,
   ftruncate, fsync and fdatasync of files whose names begin with `matter.db`, and syncs of a folder. By the environment:
     FAULT_REFUSE=N   the Nth of them is refused, with EIO, and a write with ENOSPC (0: none)
     FAULT_LASTING=1  and each one after it, too, as where the disk is gone
     FAULT_HALF=1     of a write that is refused the first half is written, and told as written; the one after it is refused
     FAULT_LIES=1     the Nth is told as done, and isn't: no program can see that, so a trial has to
     FAULT_TELL=FILE  at the end the file has a line of letters, one for each call: r, w, c (cut) or s; a capital where it was refused */
#define _GNU_SOURCE
#include <dlfcn.h>
#include <errno.h>
#include <fcntl.h>
#include <pthread.h>
#include <stdint.h>
#include <stdio.h>
#include <stdlib.h>
#include <string.h>
#include <sys/stat.h>
#include <sys/syscall.h>
#include <unistd.h>

enum { ROOM = 1 << 20 };
enum answer { PASS, REFUSED, HALVED, LIED };

static pthread_mutex_t lock = PTHREAD_MUTEX_INITIALIZER;
static long refused_one, counted;
static int is_lasting, halves, lies, is_next;
static char told[ROOM];

static long number(const char *name) {
    const char *word = getenv(name);
    return word ? strtol(word, NULL, 10) : 0;
}

__attribute__((constructor)) static void begin(void) {
    refused_one = number("FAULT_REFUSE");
    is_lasting = number("FAULT_LASTING") != 0;
    halves = number("FAULT_HALF") != 0;
    lies = number("FAULT_LIES") != 0;
}

__attribute__((destructor)) static void end(void) {
    const char *path = getenv("FAULT_TELL");
    if (!path) return;
    int file = open(path, O_WRONLY | O_CREAT | O_TRUNC, 0644);
    if (file < 0) return;
    dprintf(file, "%s\n", told);
    close(file);
}

/* The program ends by this call, which runs no destructor. */
void _exit(int status) {
    end();
    syscall(SYS_exit_group, status);
    __builtin_unreachable();
}

/* Whether the file is the database or its log, or, of a sync, a folder. */
static int is_ours(int file, char kind) {
    char link[64], path[4096];
    struct stat about;
    if (kind == 's' && fstat(file, &about) == 0 && S_ISDIR(about.st_mode)) return 1;
    snprintf(link, sizeof link, "/proc/self/fd/%d", file);
    ssize_t length = readlink(link, path, sizeof path - 1);
    if (length <= 0) return 0;
    path[length] = 0;
    const char *name = strrchr(path, '/');
    return name && strncmp(name + 1, "matter.db", 9) == 0;
}

/* What becomes of a call of this kind; it is counted where it is at one of our files. */
static enum answer answer(int file, char kind) {
    if (!is_ours(file, kind)) return PASS;
    pthread_mutex_lock(&lock);
    long at = ++counted;
    int is_due = refused_one && (at == refused_one || is_next || (is_lasting && at > refused_one));
    enum answer found = !is_due ? PASS : lies ? LIED : halves && kind == 'w' && !is_next ? HALVED : REFUSED;
    is_next = found == HALVED;
    if (at < ROOM) told[at - 1] = (char)(found == PASS ? kind : kind - 'a' + 'A');
    pthread_mutex_unlock(&lock);
    if (found == REFUSED) errno = kind == 'w' ? ENOSPC : EIO;
    return found;
}

#define NEXT(type, name, ...) ((type(*)(__VA_ARGS__))dlsym(RTLD_NEXT, name))

ssize_t pread(int file, void *bytes, size_t size, off_t at) {
    switch (answer(file, 'r')) {
    case REFUSED: return -1;
    case LIED: memset(bytes, 0, size); return (ssize_t)size;
    default: return NEXT(ssize_t, "pread", int, void *, size_t, off_t)(file, bytes, size, at);
    }
}

ssize_t pwrite(int file, const void *bytes, size_t size, off_t at) {
    switch (answer(file, 'w')) {
    case REFUSED: return -1;
    case LIED: return (ssize_t)size;
    case HALVED: size = (size + 1) / 2; /* fall through */
    default: return NEXT(ssize_t, "pwrite", int, const void *, size_t, off_t)(file, bytes, size, at);
    }
}

int ftruncate(int file, off_t size) {
    enum answer due = answer(file, 'c');
    return due == REFUSED ? -1 : due == LIED ? 0 : NEXT(int, "ftruncate", int, off_t)(file, size);
}

int fsync(int file) {
    enum answer due = answer(file, 's');
    return due == REFUSED ? -1 : due == LIED ? 0 : NEXT(int, "fsync", int)(file);
}

int fdatasync(int file) {
    enum answer due = answer(file, 's');
    return due == REFUSED ? -1 : due == LIED ? 0 : NEXT(int, "fdatasync", int)(file);
}

ssize_t pread64(int file, void *bytes, size_t size, off_t at) { return pread(file, bytes, size, at); }
ssize_t pwrite64(int file, const void *bytes, size_t size, off_t at) { return pwrite(file, bytes, size, at); }
int ftruncate64(int file, off_t size) { return ftruncate(file, size); }
