/* Preloaded by tools/trials/shut_table.py: behind the first sync that another thread made, refuses the one request for memory of the first thread whose number is in REFUSE,
 * counted from 1, and says so on standard error. No header is needed, so that any compiler will do. */
typedef unsigned long size;

extern void *__libc_malloc(size);
extern void *__libc_realloc(void *, size);
extern void *dlsym(void *, const char *);
extern char *getenv(const char *);
extern long atol(const char *);
extern long write(int, const void *, size);
extern int getpid(void);
extern int gettid(void);

#define NEXT ((void *)-1L)

static int is_synced;
static long requests;

static int is_refused(void)
{
    if (!__atomic_load_n(&is_synced, __ATOMIC_SEQ_CST) || gettid() != getpid())
        return 0;
    const char *number = getenv("REFUSE");
    return ++requests == (number ? atol(number) : 0) && write(2, "refused\n", 8) == 8;
}

void *malloc(size octets)
{
    return is_refused() ? 0 : __libc_malloc(octets);
}

void *realloc(void *old, size octets)
{
    return is_refused() ? 0 : __libc_realloc(old, octets);
}

static int synced(const char *name, int file)
{
    int (*real)(int) = (int (*)(int))dlsym(NEXT, name);
    int done = real(file);
    if (gettid() != getpid())
        __atomic_store_n(&is_synced, 1, __ATOMIC_SEQ_CST);
    return done;
}

int fsync(int file)
{
    return synced("fsync", file);
}

int fdatasync(int file)
{
    return synced("fdatasync", file);
}
