/* Preloaded by tools/trials/cut-power: notes each write, change of length and sync of a table's two files, and each reply that is sent, in one list,
 * so that a power cut can be played at any place of it. NOTES in the environment is the file that they go to.
 *
 * A note: an octet of kind (w, t, s or r), an octet of file (0 the database, 1 its log), 8 octets of place or length, 4 of count, and so many octets.
 * A reply is noted before it is sent, so that what is noted after it may come late and never early. */
#define _GNU_SOURCE
#include <dlfcn.h>
#include <fcntl.h>
#include <pthread.h>
#include <stdint.h>
#include <stdio.h>
#include <stdlib.h>
#include <string.h>
#include <sys/socket.h>
#include <sys/types.h>
#include <unistd.h>

static int notes = -1;
static pthread_mutex_t turn = PTHREAD_MUTEX_INITIALIZER;

/* which of the two files it is, or -1 */
static int file_of(int descriptor)
{
    char link[64], path[4096];
    snprintf(link, sizeof link, "/proc/self/fd/%d", descriptor);
    ssize_t length = readlink(link, path, sizeof path - 1);
    if (length < 4)
        return -1;
    path[length] = 0;
    if (!strcmp(path + length - 4, "-wal"))
        return 1;
    return strcmp(path + length - 3, ".db") ? -1 : 0;
}

static void note(char kind, int file, uint64_t place, const void *octets, uint32_t count)
{
    static ssize_t (*real)(int, const void *, size_t);
    char head[14] = {kind, (char)file};
    if (!real)
        real = dlsym(RTLD_NEXT, "write");
    memcpy(head + 2, &place, 8);
    memcpy(head + 10, &count, 4);
    pthread_mutex_lock(&turn);
    if (notes < 0)
        notes = open(getenv("NOTES"), O_WRONLY | O_CREAT | O_APPEND, 0600);
    if (real(notes, head, 14) < 0 || (count && real(notes, octets, count) < 0))
        abort();
    pthread_mutex_unlock(&turn);
}

ssize_t pwrite64(int descriptor, const void *octets, size_t count, off64_t place)
{
    static ssize_t (*real)(int, const void *, size_t, off64_t);
    if (!real)
        real = dlsym(RTLD_NEXT, "pwrite64");
    int file = file_of(descriptor);
    if (file >= 0)
        note('w', file, (uint64_t)place, octets, (uint32_t)count);
    return real(descriptor, octets, count, place);
}

ssize_t pwrite(int descriptor, const void *octets, size_t count, off_t place)
{
    return pwrite64(descriptor, octets, count, place);
}

static int synced(const char *name, int descriptor)
{
    int (*real)(int) = dlsym(RTLD_NEXT, name);
    int done = real(descriptor), file = file_of(descriptor);
    if (!done && file >= 0)
        note('s', file, 0, 0, 0);
    return done;
}

int fdatasync(int descriptor)
{
    return synced("fdatasync", descriptor);
}

int fsync(int descriptor)
{
    return synced("fsync", descriptor);
}

int ftruncate64(int descriptor, off64_t length)
{
    static int (*real)(int, off64_t);
    if (!real)
        real = dlsym(RTLD_NEXT, "ftruncate64");
    int file = file_of(descriptor);
    if (file >= 0)
        note('t', file, (uint64_t)length, 0, 0);
    return real(descriptor, length);
}

int ftruncate(int descriptor, off_t length)
{
    return ftruncate64(descriptor, length);
}

ssize_t write(int descriptor, const void *octets, size_t count)
{
    static ssize_t (*real)(int, const void *, size_t);
    int kind;
    socklen_t size = sizeof kind;
    if (!real)
        real = dlsym(RTLD_NEXT, "write");
    if (!getsockopt(descriptor, SOL_SOCKET, SO_TYPE, &kind, &size))
        note('r', 0, 0, octets, (uint32_t)count);
    return real(descriptor, octets, count);
}

ssize_t send(int descriptor, const void *octets, size_t count, int flags)
{
    static ssize_t (*real)(int, const void *, size_t, int);
    if (!real)
        real = dlsym(RTLD_NEXT, "send");
    note('r', 0, 0, octets, (uint32_t)count);
    return real(descriptor, octets, count, flags);
}
