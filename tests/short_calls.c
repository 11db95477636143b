/* Loaded before the C library, this interrupts a program's reads and writes.

   SHORT_CALLS=1     each call of read and write takes one byte at most, and the first one and every 32nd behind it
                     answer that they were interrupted (more often is too often for the toolchain's `print`, by which
                     clap tells the help: it gives up after 64 calls more than there are bytes)
   INTERRUPTED=FILE  FILE is made where a signal interrupts a call: signal 10 (SIGUSR1) does that and nothing else

   It names no header, so that the toolchain's own clang compiles it on a machine with no other. */

typedef unsigned long size_t;

enum { READ = 0, WRITE = 1, INTERRUPTED = 4, SIGUSR1 = 10 };

extern char *getenv(const char *name);
extern long syscall(long number, ...);
extern int creat(const char *path, unsigned mode);
extern int *__errno_location(void);
extern int siginterrupt(int signal, int is_interrupting);
extern void (*signal(int signal, void (*handler)(int)))(int);

static unsigned long calls;
static int is_short;

static void pass(int number) {
    (void)number;
}

__attribute__((constructor)) static void begin(void) {
    is_short = getenv("SHORT_CALLS") != 0;
    siginterrupt(SIGUSR1, 1);
    signal(SIGUSR1, pass);
}

/* Threads may call at once. */
static long call(long number, int file, const void *bytes, size_t count) {
    if (is_short && __atomic_add_fetch(&calls, 1, __ATOMIC_SEQ_CST) % 32 == 1) {
        *__errno_location() = INTERRUPTED;
        return -1;
    }
    long taken = syscall(number, (long)file, bytes, is_short && count > 1 ? 1 : count);
    const char *told = getenv("INTERRUPTED");
    if (taken < 0 && *__errno_location() == INTERRUPTED && told) {
        creat(told, 0600);
        *__errno_location() = INTERRUPTED;
    }
    return taken;
}

long read(int file, void *bytes, size_t count) {
    return call(READ, file, bytes, count);
}

long write(int file, const void *bytes, size_t count) {
    return call(WRITE, file, bytes, count);
}

long __write(int file, const void *bytes, size_t count) {
    return call(WRITE, file, bytes, count);
}
