/* Loaded before the C library, this refuses some growths of a program's memory, or all from one on, and likewise its
   threads.

   REFUSE_GROWTH=N        the Nth malloc or realloc answers nothing
   REFUSE_GROWTH=N+       the Nth and all later ones answer nothing
   REFUSE_GROWTH=M,N,..   the Mth, the Nth and so on answer nothing, by rising number
   GROWTHS=FILE           how many there were is written into FILE when the program ends
   REFUSE_THREAD=N        the Nth thread can't be made; with N+, M,N,.. as above
   THREADS=FILE           how many were asked for, likewise

   It names no header, so that the toolchain's own clang compiles it on a machine with no other. */

typedef unsigned long size_t;

extern void *__libc_malloc(size_t size);
extern void *__libc_realloc(void *old, size_t size);
extern void *dlsym(void *from, const char *name);
extern char *getenv(const char *name);
extern int creat(const char *path, unsigned mode);
extern long write(int file, const void *bytes, size_t count);
extern void _Exit(int status);

enum { MOST = 1024, TRY_AGAIN = 11 };

/* What is asked for, how often so far, and which of them are refused. */
struct asked {
    unsigned long count, refused[MOST];
    int several, and_later;
};

static struct asked growths, threads;

static void read_refused(struct asked *asked, const char *said) {
    asked->count = 0;
    for (; said && asked->several < MOST && *said >= '0' && *said <= '9'; asked->several++) {
        for (; *said >= '0' && *said <= '9'; said++)
            asked->refused[asked->several] = asked->refused[asked->several] * 10 + (unsigned long)(*said - '0');
        said += *said == ',';
    }
    asked->and_later = said && *said == '+';
}

__attribute__((constructor)) static void begin(void) {
    read_refused(&growths, getenv("REFUSE_GROWTH"));
    read_refused(&threads, getenv("REFUSE_THREAD"));
}

static void tell(unsigned long count, const char *path) {
    char digits[24];
    int at = sizeof digits;
    int file = path ? creat(path, 0600) : -1;
    if (file < 0)
        return;
    do {
        digits[--at] = (char)('0' + count % 10);
        count /= 10;
    } while (count);
    write(file, digits + at, sizeof digits - (size_t)at);
}

__attribute__((destructor)) static void end(void) {
    tell(growths.count, getenv("GROWTHS"));
    tell(threads.count, getenv("THREADS"));
}

/* A program that may start threads ends by this, and no destructor runs. */
void _exit(int status) {
    end();
    _Exit(status);
    __builtin_unreachable();
}

/* Threads may ask at once. */
static int is_refused(struct asked *asked) {
    unsigned long at = __atomic_add_fetch(&asked->count, 1, __ATOMIC_SEQ_CST);
    for (int i = 0; i < asked->several; i++)
        if (at == asked->refused[i] || (asked->and_later && at > asked->refused[i]))
            return 1;
    return 0;
}

void *malloc(size_t size) {
    return is_refused(&growths) ? 0 : __libc_malloc(size);
}

void *realloc(void *old, size_t size) {
    return is_refused(&growths) ? 0 : __libc_realloc(old, size);
}

typedef int create(unsigned long *thread, const void *how, void *(*start)(void *), void *given);

/* The C library's own stands behind this one. */
int pthread_create(unsigned long *thread, const void *how, void *(*start)(void *), void *given) {
    create *next = (create *)dlsym((void *)-1l, "pthread_create");
    return is_refused(&threads) || !next ? TRY_AGAIN : next(thread, how, start, given);
}
