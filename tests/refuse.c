/* Refuses calls that a program makes of the C library: requests for memory, starts of threads, openings and
   reads of files, and writes to standard output. It is loaded before the C library, and told what to refuse by
   its environment:

   REFUSE=CALL FIRST LAST ERROR   the calls of that kind with the numbers from FIRST to LAST, counted from 1.
                                  CALL is m (memory), t (thread), o (open), r (read of a file so opened), w
                                  (write), or s (open below /proc or /sys, where the system tells of itself). A
                                  request for memory finds none, and a thread isn't started; the others end with
                                  that error number, or move nothing where it is 0
   SHORT=1                        each read and each write moves one byte at most

   When the program ends it tells on standard error how many calls of each kind there were, and how many
   writes came behind one that was refused. It needs no header, so that any compiler for x86-64 makes it. */

typedef __SIZE_TYPE__ size;

extern void *__libc_malloc(size bytes);
extern void *__libc_calloc(size count, size bytes);
extern void *__libc_realloc(void *block, size bytes);
extern long syscall(long number, ...);
extern void *dlsym(void *handle, const char *name);
extern char *getenv(const char *name);
extern int *__errno_location(void);
extern int dprintf(int file, const char *format, ...);

enum { SYS_READ = 0, SYS_WRITE = 1, SYS_EXIT_GROUP = 231, SYS_OPENAT = 257, HERE = -100 };
enum { OUTPUT = 1, ERRORS = 2 };
enum { INTERRUPTED = 4, AGAIN = 11, NO_MEMORY = 12 };

struct counted {
    char name;
    long calls, first, last, error;
};

static struct counted memory = {'m'}, threads = {'t'}, opens = {'o'}, reads = {'r'}, writes = {'w'}, asks = {'s'};
static long is_ready, is_short, is_refused, writes_behind;

/* which open files are the program's own */
enum { FILES = 1024 };
static char is_own[FILES];

static long number(const char **text) {
    long n = 0;
    while (**text == ' ')
        ++*text;
    for (; **text >= '0' && **text <= '9'; ++*text)
        n = n * 10 + (**text - '0');
    return n;
}

__attribute__((constructor)) static void begin(void) {
    struct counted *all[] = {&memory, &threads, &opens, &reads, &writes, &asks};
    const char *told = getenv("REFUSE");
    for (int i = 0; told && *told && i < 6; ++i)
        if (all[i]->name == *told) {
            const char *rest = told + 1;
            all[i]->first = number(&rest);
            all[i]->last = number(&rest);
            all[i]->error = number(&rest);
        }
    is_short = getenv("SHORT") != 0;
    is_ready = 1;
}

__attribute__((destructor)) static void tell(void) {
    if (!is_ready)
        return;
    is_ready = 0;
    dprintf(ERRORS, "calls m=%ld t=%ld o=%ld r=%ld w=%ld s=%ld behind=%ld\n", memory.calls, threads.calls,
            opens.calls, reads.calls, writes.calls, asks.calls, writes_behind);
}

/* A program may end so, or by a return of its `main`. */
void _exit(int status) {
    tell();
    for (;;)
        syscall(SYS_EXIT_GROUP, status);
}

/* Counts a call, and says whether it is to be refused. */
static int is_due(struct counted *kind) {
    if (!is_ready)
        return 0;
    long call = __atomic_add_fetch(&kind->calls, 1, __ATOMIC_SEQ_CST);
    return kind->first <= call && call <= kind->last;
}

static long refused(long error) {
    if (!error)
        return 0;
    *__errno_location() = (int)error;
    return -1;
}

static void *no_memory(void) {
    *__errno_location() = NO_MEMORY;
    return 0;
}

void *malloc(size bytes) { return is_due(&memory) ? no_memory() : __libc_malloc(bytes); }

void *calloc(size count, size bytes) { return is_due(&memory) ? no_memory() : __libc_calloc(count, bytes); }

void *realloc(void *block, size bytes) { return is_due(&memory) ? no_memory() : __libc_realloc(block, bytes); }

typedef int start(void *thread, const void *attributes, void *(*run)(void *), void *argument);

int pthread_create(void *thread, const void *attributes, void *(*run)(void *), void *argument) {
    static start *next;
    if (!next)
        next = (start *)dlsym((void *)-1, "pthread_create");
    return is_due(&threads) ? AGAIN : next(thread, attributes, run, argument);
}

static int begins(const char *path, const char *front) {
    while (*front && *path == *front)
        ++path, ++front;
    return !*front;
}

int open(const char *path, int flags, int mode) {
    int asks_system = begins(path, "/proc/") || begins(path, "/sys/");
    struct counted *kind = asks_system ? &asks : &opens;
    if (is_due(kind))
        return (int)refused(kind->error);
    long file = syscall(SYS_OPENAT, HERE, path, flags, mode);
    if (0 <= file && file < FILES)
        is_own[file] = !asks_system;
    return (int)file;
}

long read(int file, void *bytes, size count) {
    if (file < 0 || file >= FILES || !is_own[file])
        return syscall(SYS_READ, file, bytes, count);
    if (is_due(&reads))
        return refused(reads.error);
    return syscall(SYS_READ, file, bytes, is_short && count > 1 ? 1 : count);
}

long write(int file, const void *bytes, size count) {
    if (file != OUTPUT)
        return syscall(SYS_WRITE, file, bytes, count);
    if (is_refused)
        __atomic_add_fetch(&writes_behind, 1, __ATOMIC_SEQ_CST);
    if (is_due(&writes)) {
        is_refused = writes.error != INTERRUPTED;
        return refused(writes.error);
    }
    return syscall(SYS_WRITE, file, bytes, is_short && count > 1 ? 1 : count);
}
