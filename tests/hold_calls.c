/* Loaded before the C library, this holds a program at a call that concerns its files, or has one fail.

   HOLD_CALL=N   the program stops itself (SIGSTOP) before the Nth of these calls, from 1: open, statx, write to a file,
                 fsync, fchmod, flock, link, rename, unlink
   FAIL_CALL=N   the Nth of them fails in place of that, with FAIL_WITH as errno (5, EIO, unless given)
   COUNT_CALLS=FILE   their number is written into FILE, as text, when the program ends

   It names no header, so that the toolchain's own clang compiles it on a machine with no other. */

typedef unsigned long size_t;

enum { WRITE = 1, OPEN = 2, FLOCK = 73, FSYNC = 74, RENAME = 82, CREAT = 85, LINK = 86, UNLINK = 87, FCHMOD = 91, EXIT_GROUP = 231, STATX = 332 };
enum { SIGSTOP = 19, STANDARD_STREAMS = 3 };

extern char *getenv(const char *name);
extern long syscall(long number, ...);
extern int *__errno_location(void);
extern int raise(int signal);

static unsigned long calls, held, failing, error = 5;

static unsigned long number_in(const char *name, unsigned long otherwise) {
    const char *text = getenv(name);
    unsigned long number = 0;
    if (!text) return otherwise;
    for (; *text; text++) number = number * 10 + (unsigned long)(*text - '0');
    return number;
}

__attribute__((constructor)) static void begin(void) {
    held = number_in("HOLD_CALL", 0);
    failing = number_in("FAIL_CALL", 0);
    error = number_in("FAIL_WITH", 5);
}

static void tell_calls(void) {
    const char *told = getenv("COUNT_CALLS");
    char text[24], *digit = text + sizeof text;
    if (!told) return;
    for (unsigned long left = calls; left; left /= 10) *--digit = (char)('0' + left % 10);
    long file = syscall(CREAT, told, 0600);
    syscall(WRITE, file, digit, (size_t)(text + sizeof text - digit));
}

/* The program ends by this call, which runs no destructor. */
__attribute__((noreturn)) void _exit(int status) {
    tell_calls();
    for (;;) syscall(EXIT_GROUP, (long)status);
}

/* Whether the call that is made is to fail. */
static int fails(void) {
    unsigned long number = __atomic_add_fetch(&calls, 1, __ATOMIC_SEQ_CST);
    if (number == held) raise(SIGSTOP);
    if (number != failing) return 0;
    *__errno_location() = (int)error;
    return 1;
}

int open(const char *path, int flags, unsigned mode) {
    return fails() ? -1 : (int)syscall(OPEN, path, (long)flags, (long)mode);
}

int statx(int folder, const char *path, int flags, unsigned mask, void *told) {
    return fails() ? -1 : (int)syscall(STATX, (long)folder, path, (long)flags, (long)mask, told);
}

long write(int file, const void *bytes, size_t count) {
    return file >= STANDARD_STREAMS && fails() ? -1 : syscall(WRITE, (long)file, bytes, count);
}

long __write(int file, const void *bytes, size_t count) {
    return write(file, bytes, count);
}

int fsync(int file) {
    return fails() ? -1 : (int)syscall(FSYNC, (long)file);
}

int fchmod(int file, unsigned mode) {
    return fails() ? -1 : (int)syscall(FCHMOD, (long)file, (long)mode);
}

int flock(int file, int how) {
    return fails() ? -1 : (int)syscall(FLOCK, (long)file, (long)how);
}

int link(const char *from, const char *to) {
    return fails() ? -1 : (int)syscall(LINK, from, to);
}

int rename(const char *from, const char *to) {
    return fails() ? -1 : (int)syscall(RENAME, from, to);
}

int unlink(const char *path) {
    return fails() ? -1 : (int)syscall(UNLINK, path);
}
