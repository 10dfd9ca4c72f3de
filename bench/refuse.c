/* Stands between a program and the system while bench/memory runs it: set before the program by LD_PRELOAD, it counts what the
   program asks for, and answers some of it as a system does that refuses. The environment says which:

   REFUSE_WHAT   memory: each request for memory, and for a thread, which takes some; calls: each open, read and write, but for
                 files that tell of the machine, below /sys/, by which the program learns how many processors there are
   REFUSE_HOW    how a call is refused. fail: it fails; one: it reads or writes one byte; none: it reads or writes no byte
   REFUSE_FIRST  the number of the first request that is refused, counted from 1
   REFUSE_LAST   the number of the last
   REFUSE_SLOW   1: all other reads and writes have one byte
   REFUSE_TOLD   a file of eight bytes, which has the number of requests so far, also where the program crashes

   Requests go on to the C library, which is GNU's, by the names that it has for this. */
#define _GNU_SOURCE
#include <dlfcn.h>
#include <errno.h>
#include <fcntl.h>
#include <pthread.h>
#include <stdarg.h>
#include <stdint.h>
#include <stdlib.h>
#include <string.h>
#include <sys/mman.h>
#include <sys/syscall.h>
#include <unistd.h>

extern void *__libc_malloc(size_t size);
extern void *__libc_calloc(size_t count, size_t size);
extern void *__libc_realloc(void *block, size_t size);
extern void *__libc_memalign(size_t alignment, size_t size);

typedef int make_thread_fn(pthread_t *, const pthread_attr_t *, void *(*)(void *), void *);

enum what { NOTHING, MEMORY, CALLS };
enum { FILES = 1024 };
enum how { FAIL, ONE_BYTE, NO_BYTE };

static enum what counted = NOTHING;
static enum how how = FAIL;
static int is_slow = 0;
static uint64_t first = 0;
static uint64_t last = 0;
static uint64_t *told = NULL;
static make_thread_fn *make_thread = NULL;
static char is_of_machine[FILES];

/* The value of a variable of the environment, and an empty text where there is none. */
static const char *variable(const char *name) {
    const char *value = getenv(name);
    return value != NULL ? value : "";
}

/* Reads the environment, before the program begins. Nothing is counted until then. */
__attribute__((constructor)) static void begin(void) {
    const char *what = variable("REFUSE_WHAT");
    const char *manner = variable("REFUSE_HOW");
    int file = (int)syscall(SYS_openat, AT_FDCWD, variable("REFUSE_TOLD"), O_RDWR);
    void *place = mmap(NULL, sizeof *told, PROT_READ | PROT_WRITE, MAP_SHARED, file, 0);
    make_thread = (make_thread_fn *)dlsym(RTLD_NEXT, "pthread_create");
    if (file < 0 || place == MAP_FAILED || make_thread == NULL) abort();
    close(file);
    told = place;
    how = strcmp(manner, "one") == 0 ? ONE_BYTE : strcmp(manner, "none") == 0 ? NO_BYTE : FAIL;
    is_slow = strcmp(variable("REFUSE_SLOW"), "1") == 0;
    first = strtoull(variable("REFUSE_FIRST"), NULL, 10);
    last = strtoull(variable("REFUSE_LAST"), NULL, 10);
    counted = strcmp(what, "memory") == 0 ? MEMORY : strcmp(what, "calls") == 0 ? CALLS : NOTHING;
}

/* Counts a request, where those of its kind are counted, and says whether it is refused. */
static int is_refused(enum what asked) {
    if (asked != counted) return 0;
    uint64_t number = __atomic_add_fetch(told, 1, __ATOMIC_RELAXED);
    return first <= number && number <= last;
}

/* The same for memory: a refusal leaves its reason. */
static int has_no_memory(void) {
    if (!is_refused(MEMORY)) return 0;
    errno = ENOMEM;
    return 1;
}

void *malloc(size_t size) {
    return has_no_memory() ? NULL : __libc_malloc(size);
}

void *calloc(size_t count, size_t size) {
    return has_no_memory() ? NULL : __libc_calloc(count, size);
}

void *realloc(void *block, size_t size) {
    return has_no_memory() ? NULL : __libc_realloc(block, size);
}

void *memalign(size_t alignment, size_t size) {
    return has_no_memory() ? NULL : __libc_memalign(alignment, size);
}

void *aligned_alloc(size_t alignment, size_t size) {
    return has_no_memory() ? NULL : __libc_memalign(alignment, size);
}

int posix_memalign(void **into, size_t alignment, size_t size) {
    if (is_refused(MEMORY)) return ENOMEM;
    void *block = __libc_memalign(alignment, size);
    if (block == NULL) return ENOMEM;
    *into = block;
    return 0;
}

/* The memory that the C library asks for on the way is counted on its own. */
int pthread_create(pthread_t *thread, const pthread_attr_t *attributes, void *(*run)(void *), void *with) {
    return is_refused(MEMORY) ? EAGAIN : make_thread(thread, attributes, run, with);
}

static int opened(const char *path, int flags, mode_t mode) {
    int of_machine = strncmp(path, "/sys/", 5) == 0;
    if (!of_machine && is_refused(CALLS) && how == FAIL) {
        errno = EIO;
        return -1;
    }
    int file = (int)syscall(SYS_openat, AT_FDCWD, path, flags, mode);
    if (0 <= file && file < FILES) is_of_machine[file] = (char)of_machine;
    return file;
}

int open(const char *path, int flags, ...) {
    va_list rest;
    va_start(rest, flags);
    mode_t mode = flags & O_CREAT ? va_arg(rest, mode_t) : 0;
    va_end(rest);
    return opened(path, flags, mode);
}

/* How many bytes a call on this file that asks for so many may have: fewer than 0 where it fails. */
static ssize_t granted(int file, size_t size) {
    if (0 <= file && file < FILES && is_of_machine[file]) return (ssize_t)size;
    int refused = is_refused(CALLS);
    if (refused && how == FAIL) {
        errno = EIO;
        return -1;
    }
    if (refused && how == NO_BYTE) return 0;
    return (refused || is_slow) && size > 1 ? 1 : (ssize_t)size;
}

ssize_t read(int file, void *into, size_t size) {
    ssize_t most = granted(file, size);
    return most <= 0 ? most : syscall(SYS_read, file, into, (size_t)most);
}

ssize_t write(int file, const void *from, size_t size) {
    ssize_t most = granted(file, size);
    return most <= 0 ? most : syscall(SYS_write, file, from, (size_t)most);
}
