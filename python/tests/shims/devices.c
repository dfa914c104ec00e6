/* Makes worse the standard input and output of the program that is started with this in LD_PRELOAD. Where ONE_BYTE is set
   each read and each write takes one byte at most. The read of the number FAILING_READ and the write of the number
   FAILING_WRITE, counted from 1, fail; those before and after them do not. Of a call that failed a byte goes to the descriptor FAILING_MARK. */
#include <errno.h>
#include <stdlib.h>
#include <sys/syscall.h>
#include <unistd.h>

static int one_byte;
static int mark;
static long failing_read;
static long failing_write;
static long reads;
static long writes;

static long number_in(const char *name, long otherwise) {
    const char *text = getenv(name);
    return text ? atol(text) : otherwise;
}

__attribute__((constructor)) static void read_environment(void) {
    one_byte = getenv("ONE_BYTE") != NULL;
    mark = (int)number_in("FAILING_MARK", -1);
    failing_read = number_in("FAILING_READ", 0);
    failing_write = number_in("FAILING_WRITE", 0);
}

static ssize_t failed(void) {
    if (mark >= 0 && syscall(SYS_write, mark, "!", 1) != 1)
        abort();
    errno = EIO;
    return -1;
}

static size_t taken(size_t size) {
    return one_byte && size > 1 ? 1 : size;
}

ssize_t read(int descriptor, void *bytes, size_t size) {
    if (descriptor != STDIN_FILENO)
        return syscall(SYS_read, descriptor, bytes, size);
    return ++reads == failing_read ? failed() : syscall(SYS_read, descriptor, bytes, taken(size));
}

static ssize_t put(int descriptor, const void *bytes, size_t size) {
    if (descriptor != STDOUT_FILENO)
        return syscall(SYS_write, descriptor, bytes, size);
    return ++writes == failing_write ? failed() : syscall(SYS_write, descriptor, bytes, taken(size));
}

ssize_t write(int descriptor, const void *bytes, size_t size) {
    return put(descriptor, bytes, size);
}

ssize_t __write(int descriptor, const void *bytes, size_t size) {
    return put(descriptor, bytes, size);
}
