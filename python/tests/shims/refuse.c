/* Refuses memory to the program that is started with this in LD_PRELOAD: the growth of the number REFUSE, counted from 1,
   and where REFUSE_ALL is set each one after it too. Of the first that was refused a byte goes to the descriptor
   REFUSE_MARK. Where REFUSE_CALL is set only those growths are counted that come after the program writes a line `call`
   to its standard output, and before it writes a line `answer`. A growth is a call that may take memory; freeing is left as it is. */
#include <errno.h>
#include <stdatomic.h>
#include <stddef.h>
#include <stdlib.h>
#include <string.h>
#include <sys/syscall.h>
#include <unistd.h>

/* glibc's own */
void *__libc_malloc(size_t size);
void *__libc_calloc(size_t count, size_t size);
void *__libc_realloc(void *old, size_t size);
void *__libc_memalign(size_t alignment, size_t size);

static long refused;
static int all;
static int mark;
static int in_call;
static atomic_int counted;
static atomic_long growths;

__attribute__((constructor)) static void read_environment(void) {
    const char *number = getenv("REFUSE");
    const char *descriptor = getenv("REFUSE_MARK");
    all = getenv("REFUSE_ALL") != NULL;
    mark = descriptor ? atoi(descriptor) : -1;
    refused = number ? atol(number) : 0;
    in_call = getenv("REFUSE_CALL") != NULL;
    counted = !in_call;
}

static int begins(const char *bytes, size_t size, const char *word) {
    return size >= strlen(word) && memcmp(bytes, word, strlen(word)) == 0;
}

static ssize_t put(int descriptor, const void *bytes, size_t size) {
    if (in_call && descriptor == STDOUT_FILENO && begins(bytes, size, "answer"))
        counted = 0;
    ssize_t written = syscall(SYS_write, descriptor, bytes, size);
    if (in_call && descriptor == STDOUT_FILENO && begins(bytes, size, "call"))
        counted = 1;
    return written;
}

ssize_t write(int descriptor, const void *bytes, size_t size) {
    return put(descriptor, bytes, size);
}

ssize_t __write(int descriptor, const void *bytes, size_t size) {
    return put(descriptor, bytes, size);
}

/* Whether this growth is refused. Growths before the constructor has run are the loader's. */
static int is_refused(void) {
    if (refused == 0 || !counted)
        return 0;
    long growth = atomic_fetch_add(&growths, 1) + 1;
    if (growth == refused && mark >= 0 && write(mark, "!", 1) != 1)
        abort();
    return all ? growth >= refused : growth == refused;
}

static void *none(void) {
    errno = ENOMEM;
    return NULL;
}

void *malloc(size_t size) {
    return is_refused() ? none() : __libc_malloc(size);
}

void *calloc(size_t count, size_t size) {
    return is_refused() ? none() : __libc_calloc(count, size);
}

void *realloc(void *old, size_t size) {
    return is_refused() ? none() : __libc_realloc(old, size);
}

void *memalign(size_t alignment, size_t size) {
    return is_refused() ? none() : __libc_memalign(alignment, size);
}

void *aligned_alloc(size_t alignment, size_t size) {
    return memalign(alignment, size);
}

int posix_memalign(void **place, size_t alignment, size_t size) {
    void *room = memalign(alignment, size);
    if (room == NULL)
        return ENOMEM;
    *place = room;
    return 0;
}
