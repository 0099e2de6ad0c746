/* Preloaded by tools/trials/refuse-memory, tools/trials/refuse-memory-file and tools/trials/refuse-memory-served: refuses the one request for memory whose number is in REFUSE, counted
 * from 1, and says so on standard error. Where REFUSE_FROM names a file, what was asked before it was there doesn't count. What the kit builds asks by malloc and
 * realloc alone. No header is needed, so that any compiler will do. */
typedef unsigned long size;

extern void *__libc_malloc(size);
extern void *__libc_realloc(void *, size);
extern char *getenv(const char *);
extern long atol(const char *);
extern int access(const char *, int);
extern long write(int, const void *, size);

static long refused = -1, requests;
static int has_begun;

static int is_counted(void)
{
    const char *file = has_begun ? 0 : getenv("REFUSE_FROM");
    if (file && access(file, 0))
        return 0;
    has_begun = 1;
    return 1;
}

static int is_refused(void)
{
    if (!is_counted())
        return 0;
    if (refused < 0) {
        const char *number = getenv("REFUSE");
        refused = number ? atol(number) : 0;
    }
    return __atomic_add_fetch(&requests, 1, __ATOMIC_SEQ_CST) == refused && write(2, "refused\n", 8) == 8;
}

void *malloc(size octets)
{
    return is_refused() ? 0 : __libc_malloc(octets);
}

void *realloc(void *old, size octets)
{
    return is_refused() ? 0 : __libc_realloc(old, octets);
}
