/* Preloaded by tools/trials/refuse-disk: one call of a kind fails, and says so on standard error. In the environment: REFUSE_KIND (write, sync or
 * cut), REFUSE, the number of the call, counted from 1, REFUSE_ERRNO, and REFUSE_ON where all calls from that one on fail. Writes are those at a place of a file,
 * which are those of the table's two files; half of a write that fails once is written. No header is needed, so that any compiler will do. */
typedef unsigned long size;

extern void *dlsym(void *, const char *);
extern char *getenv(const char *);
extern long atol(const char *);
extern int strcmp(const char *, const char *);
extern long write(int, const void *, size);
extern void abort(void);
extern int *__errno_location(void);

#define NEXT ((void *)-1L)

static long calls;

static int is_refused(const char *kind)
{
    const char *which = getenv("REFUSE_KIND"), *number = getenv("REFUSE"), *error = getenv("REFUSE_ERRNO");
    if (!which || !number || !error || strcmp(which, kind))
        return 0;
    long call = __atomic_add_fetch(&calls, 1, __ATOMIC_SEQ_CST);
    if (getenv("REFUSE_ON") ? call < atol(number) : call != atol(number))
        return 0;
    if (write(2, "refused\n", 8) != 8)
        abort();
    *__errno_location() = (int)atol(error);
    return 1;
}

long pwrite64(int file, const void *octets, size count, long place)
{
    static long (*real)(int, const void *, size, long);
    if (!real)
        real = dlsym(NEXT, "pwrite64");
    if (!is_refused("write"))
        return real(file, octets, count, place);
    int error = *__errno_location();
    if (!getenv("REFUSE_ON") && count > 1 && real(file, octets, count / 2, place) < 0)
        abort();
    *__errno_location() = error;
    return -1;
}

long pwrite(int file, const void *octets, size count, long place)
{
    return pwrite64(file, octets, count, place);
}

int fdatasync(int file)
{
    static int (*real)(int);
    if (!real)
        real = dlsym(NEXT, "fdatasync");
    return is_refused("sync") ? -1 : real(file);
}

int fsync(int file)
{
    static int (*real)(int);
    if (!real)
        real = dlsym(NEXT, "fsync");
    return is_refused("sync") ? -1 : real(file);
}

int ftruncate64(int file, long length)
{
    static int (*real)(int, long);
    if (!real)
        real = dlsym(NEXT, "ftruncate64");
    return is_refused("cut") ? -1 : real(file, length);
}

int ftruncate(int file, long length)
{
    return ftruncate64(file, length);
}
