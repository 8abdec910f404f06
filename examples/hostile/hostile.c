/* Stands between a program and the C library, and refuses what the program asks for. Built and loaded by hostile.py.

   HOSTILE_LOG=FILE     a line for each call: `open NAME`, `stat NAME`, `read NAME`, `write N` (bytes to standard output), and at the end `asked N`:
                        how often memory was asked for
   HOSTILE_INPUT=K      the K-th of the calls open, stat and read fails, counted from 0
   HOSTILE_OUTPUT=K     the K-th write to standard output fails, counted from 0
   HOSTILE_ERROR=1      each write to standard error fails
   HOSTILE_MOST=N       a read gives, and a write to standard output takes, at most N bytes
   HOSTILE_MEMORY=FILE  at each call that asks for memory the process is split in two: one is refused it, and goes on to its end; then the other gets it.
                        A line of FILE for each: `K SIGNAL STATUS BYTES`, the bytes that it wrote to standard output, and `same` where they are those
                        of the file HOSTILE_TEXT
   HOSTILE_ALL=1        with HOSTILE_MEMORY: all calls behind the K-th are refused too
   HOSTILE_EACH=N       with HOSTILE_MEMORY: only each N-th call is refused
*/
#define _GNU_SOURCE
#include <dlfcn.h>
#include <errno.h>
#include <fcntl.h>
#include <stdarg.h>
#include <stdio.h>
#include <stdlib.h>
#include <string.h>
#include <sys/mman.h>
#include <sys/stat.h>
#include <sys/syscall.h>
#include <sys/wait.h>
#include <unistd.h>

#define NAMES 1024
/* Above the files that a program opens. */
#define LOG 900
#define MEMORY 901
#define TEXT 902

extern void *__libc_malloc(size_t), *__libc_realloc(void *, size_t), *__libc_calloc(size_t, size_t);

static long at_input = -1, at_output = -1, most = -1, each = 1, asked, inputs, outputs, sent;
static int is_split, is_all, is_refused, is_ready, no_error;
static char names[NAMES][256];

static long number_of(const char *name, long otherwise) {
    const char *text = getenv(name);
    return text ? atol(text) : otherwise;
}

static int opened(const char *name, int flags, int to) {
    const char *file = getenv(name);
    if (!file) return 0;
    int found = syscall(SYS_openat, AT_FDCWD, file, flags | O_CLOEXEC, 0600);
    if (found < 0 || dup2(found, to) < 0) _exit(99);
    syscall(SYS_close, found);
    return 1;
}

static int has_log;

__attribute__((constructor)) static void begin(void) {
    at_input = number_of("HOSTILE_INPUT", -1);
    at_output = number_of("HOSTILE_OUTPUT", -1);
    most = number_of("HOSTILE_MOST", -1);
    each = number_of("HOSTILE_EACH", 1);
    no_error = number_of("HOSTILE_ERROR", 0);
    is_all = number_of("HOSTILE_ALL", 0);
    has_log = opened("HOSTILE_LOG", O_WRONLY | O_CREAT | O_TRUNC, LOG);
    is_split = opened("HOSTILE_MEMORY", O_WRONLY | O_CREAT | O_TRUNC, MEMORY);
    if (is_split) opened("HOSTILE_TEXT", O_RDONLY, TEXT);
    is_ready = 1;
}

static void note(const char *what, const char *name, long count) {
    char line[400];
    if (!has_log) return;
    int size = name ? snprintf(line, sizeof line, "%s %s\n", what, name) : snprintf(line, sizeof line, "%s %ld\n", what, count);
    syscall(SYS_write, LOG, line, size);
}

__attribute__((destructor)) static void finish(void) { note("asked", 0, asked); }

/* Whether the K-th call that asks for input fails. */
static int is_input_refused(const char *what, const char *name) {
    note(what, name, 0);
    return inputs++ == at_input;
}

int open(const char *name, int flags, ...) {
    va_list more;
    va_start(more, flags);
    int mode = va_arg(more, int);
    va_end(more);
    if (is_input_refused("open", name)) return errno = EIO, -1;
    int found = syscall(SYS_openat, AT_FDCWD, name, flags, mode);
    if (found >= 0 && found < NAMES) snprintf(names[found], sizeof names[found], "%s", name);
    return found;
}

int statx(int folder, const char *name, int flags, unsigned mask, struct statx *to) {
    const char *of = *name ? name : folder >= 0 && folder < NAMES ? names[folder] : "?";
    if (is_input_refused("stat", of)) return errno = EIO, -1;
    return syscall(SYS_statx, folder, name, flags, mask, to);
}

ssize_t read(int file, void *to, size_t count) {
    if (is_input_refused("read", file >= 0 && file < NAMES ? names[file] : "?")) return errno = EIO, -1;
    return syscall(SYS_read, file, to, most >= 0 && count > (size_t)most ? (size_t)most : count);
}

ssize_t write(int file, const void *from, size_t count) {
    if (file == 2 && no_error) return errno = EIO, -1;
    if (file != 1) return syscall(SYS_write, file, from, count);
    note("write", 0, count);
    if (outputs++ == at_output) return errno = EIO, -1;
    ssize_t taken = syscall(SYS_write, file, from, most >= 0 && count > (size_t)most ? (size_t)most : count);
    sent += taken > 0 ? taken : 0;
    return taken;
}

/* Whether what was written, behind what had been before the split, is the text of TEXT. */
static int is_same(int written, off_t size) {
    struct stat text;
    if (fstat(TEXT, &text) || text.st_size != sent + size) return 0;
    if (!size) return 1;
    char *a = mmap(0, size, PROT_READ, MAP_PRIVATE, written, 0), *b = mmap(0, sent + size, PROT_READ, MAP_PRIVATE, TEXT, 0);
    int same = a != MAP_FAILED && b != MAP_FAILED && !memcmp(a, b + sent, size);
    munmap(a, size);
    munmap(b, sent + size);
    return same;
}

/* Splits the process. In the one that is refused memory this is 1; the other waits for its end, writes how it ended, and goes on. */
static int is_refused_here(long place) {
    off_t places[16];
    int written = memfd_create("written", 0);
    for (int file = 3; file < 16; file++) places[file] = file == written ? -1 : lseek(file, 0, SEEK_CUR);
    pid_t refused = fork();
    if (refused < 0) _exit(98);
    if (!refused) {
        dup2(written, 1);
        syscall(SYS_close, written);
        is_split = 0;
        is_refused = is_all;
        return 1;
    }
    int status = 0;
    struct stat size;
    waitpid(refused, &status, 0);
    fstat(written, &size);
    char line[100];
    int signal = WIFSIGNALED(status) ? WTERMSIG(status) : 0;
    int length = snprintf(line, sizeof line, "%ld %d %d %ld%s\n", place, signal, WIFEXITED(status) ? WEXITSTATUS(status) : -1, sent + (long)size.st_size,
                          is_same(written, size.st_size) ? " same" : "");
    syscall(SYS_write, MEMORY, line, length);
    syscall(SYS_close, written);
    /* A place in a file is shared by both processes. */
    for (int file = 3; file < 16; file++)
        if (places[file] >= 0) lseek(file, places[file], SEEK_SET);
    return 0;
}

static int is_memory_refused(void) {
    if (!is_ready) return 0;
    long place = asked++;
    return is_refused || (is_split && place % each == 0 && is_refused_here(place));
}

void *malloc(size_t size) { return is_memory_refused() ? (errno = ENOMEM, NULL) : __libc_malloc(size); }
void *realloc(void *at, size_t size) { return is_memory_refused() ? (errno = ENOMEM, NULL) : __libc_realloc(at, size); }
void *calloc(size_t count, size_t size) { return is_memory_refused() ? (errno = ENOMEM, NULL) : __libc_calloc(count, size); }
