/* Has the calls on files fail of the program that is started with this in LD_PRELOAD, or the program be killed at them.
   Calls are counted from 1, but for those on the standard input and the standard error. At the call of the number
   FAULT_AT it does what FAULT_DO says: `before` kills it, `after` kills it once the call was made, `torn` once half of a
   write was, and a number is the error that the call gives. Where FAULT_ON is set, all later calls of that kind give it,
   too. Of each call a letter goes to the descriptor FAULT_MARK, behind `!` where it failed. */
#define _GNU_SOURCE
#include <dlfcn.h>
#include <errno.h>
#include <fcntl.h>
#include <signal.h>
#include <stdarg.h>
#include <stdlib.h>
#include <string.h>
#include <sys/stat.h>
#include <sys/syscall.h>
#include <unistd.h>

enum { NOTHING, BEFORE, AFTER, TORN, FAILS };

static long at;
static int does;
static int error;
static int stays;
static int mark;
static long calls;
static char failing;
static int kills_after;

static const char *text_of(const char *name) {
    const char *text = getenv(name);
    return text ? text : "";
}

__attribute__((constructor)) static void read_environment(void) {
    const char *what = text_of("FAULT_DO");
    at = atol(text_of("FAULT_AT"));
    stays = *text_of("FAULT_ON") != 0;
    mark = *text_of("FAULT_MARK") ? atoi(text_of("FAULT_MARK")) : -1;
    error = atoi(what);
    does = error ? FAILS : !strcmp(what, "before") ? BEFORE : !strcmp(what, "after") ? AFTER : !strcmp(what, "torn") ? TORN : NOTHING;
}

static void say(char letter) {
    if (mark >= 0 && syscall(SYS_write, mark, &letter, 1) != 1)
        abort();
}

static void end(void) {
    syscall(SYS_kill, syscall(SYS_getpid), SIGKILL);
}

/* Whether this call fails. */
static int met(char kind) {
    int is_now = ++calls == at;
    int fails = does == FAILS && (is_now || (failing == kind && stays));
    if (is_now && does == BEFORE)
        end();
    kills_after = is_now && (does == AFTER || does == TORN);
    if (fails) {
        failing = kind;
        errno = error;
        say('!');
    }
    say(kind);
    return fails;
}

static long done(long answer) {
    if (kills_after)
        end();
    return answer;
}

#define REAL(name) ((__typeof__(name) *)dlsym(RTLD_NEXT, #name))

int open(const char *path, int flags, ...) {
    va_list more;
    va_start(more, flags);
    mode_t mode = (flags & O_CREAT) ? va_arg(more, mode_t) : 0;
    va_end(more);
    return met('o') ? -1 : (int)done(REAL(open)(path, flags, mode));
}

int openat(int folder, const char *path, int flags, ...) {
    va_list more;
    va_start(more, flags);
    mode_t mode = (flags & O_CREAT) ? va_arg(more, mode_t) : 0;
    va_end(more);
    return met('o') ? -1 : (int)done(REAL(openat)(folder, path, flags, mode));
}

ssize_t read(int file, void *bytes, size_t size) {
    if (file <= STDERR_FILENO)
        return REAL(read)(file, bytes, size);
    return met('r') ? -1 : done(REAL(read)(file, bytes, size));
}

ssize_t pread(int file, void *bytes, size_t size, off_t place) {
    return met('r') ? -1 : done(REAL(pread)(file, bytes, size, place));
}

ssize_t pwrite(int file, const void *bytes, size_t size, off_t place) {
    if (met('w'))
        return -1;
    return done(REAL(pwrite)(file, bytes, kills_after && does == TORN ? size / 2 : size, place));
}

static ssize_t put(int file, const void *bytes, size_t size) {
    if (file == STDIN_FILENO || file == STDERR_FILENO || file == mark)
        return syscall(SYS_write, file, bytes, size);
    return met(file == STDOUT_FILENO ? 'a' : 'w') ? -1 : done(syscall(SYS_write, file, bytes, size));
}

ssize_t write(int file, const void *bytes, size_t size) {
    return put(file, bytes, size);
}

ssize_t __write(int file, const void *bytes, size_t size) {
    return put(file, bytes, size);
}

int fsync(int file) {
    return met('s') ? -1 : (int)done(REAL(fsync)(file));
}

int fdatasync(int file) {
    return met('s') ? -1 : (int)done(REAL(fdatasync)(file));
}

int ftruncate(int file, off_t size) {
    return met('t') ? -1 : (int)done(REAL(ftruncate)(file, size));
}

int flock(int file, int how) {
    return met('f') ? -1 : (int)done(REAL(flock)(file, how));
}

int mkdir(const char *path, mode_t mode) {
    return met('m') ? -1 : (int)done(REAL(mkdir)(path, mode));
}

int link(const char *from, const char *to) {
    return met('l') ? -1 : (int)done(REAL(link)(from, to));
}

int unlink(const char *path) {
    return met('u') ? -1 : (int)done(REAL(unlink)(path));
}

int statx(int folder, const char *restrict path, int flags, unsigned mask, struct statx *restrict found) {
    if (folder >= 0 && folder <= STDERR_FILENO)
        return REAL(statx)(folder, path, flags, mask, found);
    return met('x') ? -1 : (int)done(REAL(statx)(folder, path, flags, mask, found));
}

ssize_t getdents64(int folder, void *bytes, size_t size) {
    return met('d') ? -1 : done(REAL(getdents64)(folder, bytes, size));
}
