/* Loaded before the C library, this is the clock that a program reads: STEP_CLOCK=N lets N milliseconds pass from one
   reading of the monotonic clock to the next. Any other clock is the system's. Each sleep ends after a tenth of a millisecond,
   and each read takes as long, so that there are sleeps meanwhile.

   It names no header, so that the toolchain's own clang compiles it on a machine with no other. */

struct moment { long seconds, nanoseconds; };

enum { MONOTONIC = 1, READ = 0, NANOSLEEP = 35, CLOCK_GETTIME = 228 };

extern char *getenv(const char *name);
extern long syscall(long number, ...);

static unsigned long readings, step;

__attribute__((constructor)) static void begin(void) {
    const char *text = getenv("STEP_CLOCK");
    for (; text && *text; text++) step = step * 10 + (unsigned long)(*text - '0');
}

/* Threads may read at once. */
int clock_gettime(int clock, struct moment *now) {
    if (clock != MONOTONIC || !step) return (int)syscall(CLOCK_GETTIME, (long)clock, now);
    unsigned long passed = step * __atomic_add_fetch(&readings, 1, __ATOMIC_SEQ_CST);
    now->seconds = (long)(passed / 1000);
    now->nanoseconds = (long)(passed % 1000 * 1000000);
    return 0;
}

static const struct moment nap = {0, 100000};

int nanosleep(const struct moment *asked, struct moment *left) {
    return (int)syscall(NANOSLEEP, step ? &nap : asked, left);
}

long read(int file, void *bytes, unsigned long size) {
    if (step) syscall(NANOSLEEP, &nap, (void *)0);
    return syscall(READ, (long)file, bytes, size);
}
