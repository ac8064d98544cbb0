/* Loaded into a program, this writes what it does to its files, and what it prints, to the file that TRACE names: a line
   for each write, change of the length and sync, in their order, with the file's name. */
#define _GNU_SOURCE
#include <dlfcn.h>
#include <fcntl.h>
#include <stdio.h>
#include <stdlib.h>
#include <unistd.h>

static FILE *trace;

__attribute__((constructor)) static void begin(void) {
    trace = fopen(getenv("TRACE"), "w");
}

static void note(char what, int fd, long at, const unsigned char *bytes, long count) {
    char link[64], name[4096];
    snprintf(link, sizeof link, "/proc/self/fd/%d", fd);
    ssize_t length = readlink(link, name, sizeof name - 1);
    name[length < 0 ? 0 : length] = 0;
    fprintf(trace, "%c %s %ld ", what, fd == 1 ? "-" : name, at);
    for (long i = 0; bytes && i < count; i++)
        fprintf(trace, "%02x", bytes[i]);
    fputc('\n', trace);
    fflush(trace);
}

#define NEXT(type, name) ((type)dlsym(RTLD_NEXT, name))

ssize_t pwrite64(int fd, const void *bytes, size_t count, off64_t at) {
    ssize_t done = NEXT(ssize_t(*)(int, const void *, size_t, off64_t), "pwrite64")(fd, bytes, count, at);
    note('w', fd, at, bytes, done);
    return done;
}

ssize_t pwrite(int fd, const void *bytes, size_t count, off_t at) { return pwrite64(fd, bytes, count, at); }

ssize_t write(int fd, const void *bytes, size_t count) {
    ssize_t done = NEXT(ssize_t(*)(int, const void *, size_t), "write")(fd, bytes, count);
    note('p', fd, 0, bytes, done);
    return done;
}

int ftruncate64(int fd, off64_t length) {
    int done = NEXT(int (*)(int, off64_t), "ftruncate64")(fd, length);
    note('t', fd, length, NULL, 0);
    return done;
}

int ftruncate(int fd, off_t length) { return ftruncate64(fd, length); }

int fdatasync(int fd) {
    int done = NEXT(int (*)(int), "fdatasync")(fd);
    note('s', fd, 0, NULL, 0);
    return done;
}

int fsync(int fd) {
    int done = NEXT(int (*)(int), "fsync")(fd);
    note('s', fd, 0, NULL, 0);
    return done;
}
