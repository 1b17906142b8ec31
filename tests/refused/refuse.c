// Stands before the C library in a run of the program: the call number REFUSE_AT of the kind REFUSE_KIND, which is alloc,
// open, read or write, fails, with the error REFUSE_ERROR where that is given; with REFUSE_MOST reads and writes move at most so
// many bytes. At the end the file REFUSE_LEFT gets the number of blocks that the program itself took and didn't free.
extern void *dlsym(void *handle, const char *name);
extern int dladdr(const void *address, void *about);
extern unsigned long getauxval(unsigned long kind);
extern int creat(const char *name, unsigned mode);
extern int dprintf(int file, const char *format, ...);
extern char *getenv(const char *name);
extern int strcmp(const char *a, const char *b);
extern long strtol(const char *text, char **end, int base);
extern int *__errno_location(void);

#define REAL(name) dlsym((void *)-1L, name)
enum { NO_MEMORY = 12, IO_ERROR = 5, ENTRY = 9 };

static long calls, left;

static int refuses(const char *kind) {
    const char *refused = getenv("REFUSE_KIND"), *at = getenv("REFUSE_AT");
    return refused && at && !strcmp(kind, refused) && __atomic_add_fetch(&calls, 1, __ATOMIC_SEQ_CST) == strtol(at, 0, 10);
}

static long fail(int error) {
    const char *other = getenv("REFUSE_ERROR");
    *__errno_location() = other ? (int)strtol(other, 0, 10) : error;
    return -1;
}

static unsigned long at_most(unsigned long size) {
    const char *most = getenv("REFUSE_MOST");
    return most && strtol(most, 0, 10) < (long)size ? (unsigned long)strtol(most, 0, 10) : size;
}

// Whether the address lies in the program, and not in a library: where the program's entry lies.
static int is_program(void *address) {
    struct { const char *file; void *base; const char *name; void *place; } here, entry;
    return dladdr(address, &here) && dladdr((void *)getauxval(ENTRY), &entry) && here.base == entry.base;
}

static void count(void *caller, long blocks) {
    if (is_program(caller)) __atomic_add_fetch(&left, blocks, __ATOMIC_SEQ_CST);
}

void *malloc(unsigned long size) {
    void *(*real)(unsigned long) = REAL("malloc");
    void *taken = refuses("alloc") ? (fail(NO_MEMORY), (void *)0) : real(size);
    if (taken) count(__builtin_return_address(0), 1);
    return taken;
}

void *realloc(void *block, unsigned long size) {
    void *(*real)(void *, unsigned long) = REAL("realloc");
    void *taken = refuses("alloc") ? (fail(NO_MEMORY), (void *)0) : real(block, size);
    if (taken && !block) count(__builtin_return_address(0), 1);
    return taken;
}

void free(void *block) {
    void (*real)(void *) = REAL("free");
    if (block) count(__builtin_return_address(0), -1);
    real(block);
}

// A program's end, behind its main.
__attribute__((noreturn)) void _exit(int status) {
    __attribute__((noreturn)) void (*real)(int) = REAL("_exit");
    const char *name = getenv("REFUSE_LEFT");
    if (name) dprintf(creat(name, 0600), "%ld\n", left);
    real(status);
}

int open(const char *name, int flags, unsigned mode) {
    int (*real)(const char *, int, unsigned) = REAL("open");
    return refuses("open") ? (int)fail(IO_ERROR) : real(name, flags, mode);
}

long read(int file, void *into, unsigned long size) {
    long (*real)(int, void *, unsigned long) = REAL("read");
    return refuses("read") ? fail(IO_ERROR) : real(file, into, at_most(size));
}

long write(int file, const void *from, unsigned long size) {
    long (*real)(int, const void *, unsigned long) = REAL("write");
    return refuses("write") ? fail(IO_ERROR) : real(file, from, at_most(size));
}
