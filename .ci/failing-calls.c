// Makes one call of a program on a file, a socket or the random source fail, or cuts it short. It is loaded before the C
// library. FAILING_CALL is the number of the call, from 1, and FAILING_NAME its name, if only a call of this name is to fail;
// FAILING_TIMES how many calls fail from this one on, if more than one; FAILING_HOW an error's number, or 0 for half of the
// bytes and at most 100, -1 for one byte, -2 for none, -9 to end the program before it, as a kill does; and to the file
// FAILING_LOG goes a line for each call, with its name and its descriptor. Where FAILING_MORE is set, calls that open,
// connect, wait, set and close are among them. Or it refuses memory, where FAILING_ALLOCATION is set: to the allocation of
// this number, from 1 and since the program's beginning, and where it is negative to those that follow too. Then each
// allocation has a line in the log, with its name, its size, and whether the program asks for it or a library. Where
// FAILING_DURABLE names a folder, it has there of each file that is synced what a power cut would leave: a sync that passes
// brings what was written since, and one that fails loses it, as a system does that forgets what it couldn't write.
// FAILING_ORDER gets a line for each write at a place, with place and length, each sync, and each file that may be made, with
// the mode that is asked for. It has no headers, as a compiler of the kit has none: what it needs of the C library of Linux is
// declared here.
typedef __SIZE_TYPE__ size_t;
typedef long ssize_t, off_t, off64_t;
typedef unsigned mode_t, socklen_t;
typedef unsigned long nfds_t;
struct sockaddr;
struct pollfd;
struct epoll_event;
struct statx;
typedef struct {
    const char *dli_fname;
    void *dli_fbase;
    const char *dli_sname;
    void *dli_saddr;
} Dl_info;

int *__errno_location(void), dladdr(const void *, Dl_info *), snprintf(char *, size_t, const char *, ...);
int atoi(const char *), strcmp(const char *, const char *);
char *strrchr(const char *, int);
ssize_t readlink(const char *, char *, size_t);
void *malloc(size_t), *memcpy(void *, const void *, size_t);
void free(void *);
long atol(const char *), syscall(long, ...);
char *getenv(const char *);
void *dlsym(void *, const char *);

#define errno (*__errno_location())
enum { ENOMEM = 12, AT_FDCWD = -100, O_WRONLY = 1, O_CREAT = 0100, O_APPEND = 02000 };
#ifdef __x86_64__
enum { SYS_write = 1, SYS_close = 3, SYS_pwrite64 = 18, SYS_exit_group = 231, SYS_openat = 257 };
#else
enum { SYS_write = 64, SYS_close = 57, SYS_pwrite64 = 68, SYS_exit_group = 94, SYS_openat = 56 };
#endif

static long made;

static void note(const char *log, const char *line, int length) {
    long file = syscall(SYS_openat, AT_FDCWD, log, O_WRONLY | O_APPEND | O_CREAT, 0600);
    if (file >= 0) {
        syscall(SYS_write, file, line, (size_t)length);
        syscall(SYS_close, file);
    }
}

static int how(void) {
    const char *it = getenv("FAILING_HOW");
    return it ? atoi(it) : 0;
}

// whether this call is the one; a line goes to the log
static int is_it(const char *name, int fd) {
    const char *log = getenv("FAILING_LOG"), *number = getenv("FAILING_CALL"), *only = getenv("FAILING_NAME");
    if (!log || getenv("FAILING_ALLOCATION"))
        return 0;
    char line[64];
    note(log, line, snprintf(line, sizeof line, "%s %d\n", name, fd));
    const char *times = getenv("FAILING_TIMES");
    long behind = number ? ++made - atol(number) : -1;
    int is_one = behind >= 0 && behind < (times ? atol(times) : 1) && (!only || !strcmp(only, name));
    if (is_one && how() == -9)
        syscall(SYS_exit_group, 137);
    return is_one;
}

// what the C library has under a name
#define REAL(name) ((__typeof__(&name))dlsym((void *)-1, #name))

// half of some bytes, and at most 100; or one
static size_t cut(size_t count) {
    if (count < 2)
        return count;
    return how() == -1 ? 1 : count > 200 ? 100 : count / 2;
}

// ---- what a power cut would leave

typedef struct Write Write;
struct Write {
    Write *next;
    int fd;
    long at;
    size_t count;
    char bytes[];
};
static Write *writes, **last_write = &writes;

static const char *file_of(int fd, char *path) {
    char link[64];
    snprintf(link, sizeof link, "/proc/self/fd/%d", fd);
    ssize_t length = readlink(link, path, 4095);
    path[length < 0 ? 0 : length] = 0;
    const char *slash = strrchr(path, '/');
    return slash && slash[1] ? slash + 1 : "folder";
}

// a line for a call that passed or failed on a file
static void order(const char *what, int fd, long at, long count) {
    const char *log = getenv("FAILING_ORDER");
    char path[4096], line[4300];
    if (log)
        note(log, line, snprintf(line, sizeof line, "%s %s %ld %ld\n", what, file_of(fd, path), at, count));
}

static void written(int fd, const void *bytes, ssize_t count, long at) {
    if (count <= 0)
        return;
    order("write", fd, at, count);
    if (!getenv("FAILING_DURABLE"))
        return;
    Write *one = malloc(sizeof *one + (size_t)count);
    *one = (Write){0, fd, at, (size_t)count};
    memcpy(one->bytes, bytes, (size_t)count);
    *last_write = one;
    last_write = &one->next;
}

static void synced(const char *how_named, int fd, int failed) {
    const char *folder = getenv("FAILING_DURABLE");
    char path[4096], to[4400];
    order(failed ? "failed-sync" : how_named, fd, 0, 0);
    if (!folder)
        return;
    snprintf(to, sizeof to, "%s/%s", folder, file_of(fd, path));
    long file = failed ? -1 : syscall(SYS_openat, AT_FDCWD, to, O_WRONLY | O_CREAT, 0600);
    for (Write **it = &writes; *it;) {
        Write *one = *it;
        if (one->fd != fd) {
            it = &one->next;
            continue;
        }
        if (file >= 0)
            syscall(SYS_pwrite64, file, one->bytes, one->count, one->at);
        *it = one->next;
        free(one);
    }
    for (last_write = &writes; *last_write;)
        last_write = &(*last_write)->next;
    if (file >= 0)
        syscall(SYS_close, file);
}

// a call that moves bytes fails or moves fewer of them
#define MOVES(name, parameters, ...)                                                               \
    ssize_t name parameters {                                                                      \
        if (is_it(#name, fd)) {                                                                    \
            if (how() == -2)                                                                       \
                return 0;                                                                          \
            if (how() > 0) {                                                                       \
                errno = how();                                                                     \
                return -1;                                                                         \
            }                                                                                      \
            count = cut(count);                                                                    \
        }                                                                                          \
        return REAL(name)(__VA_ARGS__);                                                            \
    }

// a call that moves none fails
#define ACTS(name, parameters, ...)                                                                \
    int name parameters {                                                                          \
        if (is_it(#name, fd) && how() > 0) {                                                       \
            errno = how();                                                                         \
            return -1;                                                                             \
        }                                                                                          \
        return REAL(name)(__VA_ARGS__);                                                            \
    }

// a write at a place, which a power cut loses until the file is synced
#define WRITES(name, Place)                                                                        \
    ssize_t name(int fd, const void *buffer, size_t count, Place at) {                             \
        if (is_it(#name, fd)) {                                                                    \
            if (how() == -2)                                                                       \
                return 0;                                                                          \
            if (how() > 0) {                                                                       \
                errno = how();                                                                     \
                return -1;                                                                         \
            }                                                                                      \
            count = cut(count);                                                                    \
        }                                                                                          \
        ssize_t moved = REAL(name)(fd, buffer, count, at);                                         \
        written(fd, buffer, moved, at);                                                            \
        return moved;                                                                              \
    }

#define SYNCS(name)                                                                                \
    int name(int fd) {                                                                             \
        if (is_it(#name, fd) && how() > 0) {                                                       \
            synced(#name, fd, 1);                                                                  \
            errno = how();                                                                         \
            return -1;                                                                             \
        }                                                                                          \
        int answer = REAL(name)(fd);                                                               \
        synced(#name, fd, answer);                                                                 \
        return answer;                                                                             \
    }

MOVES(read, (int fd, void *buffer, size_t count), fd, buffer, count)
MOVES(write, (int fd, const void *buffer, size_t count), fd, buffer, count)
MOVES(__write, (int fd, const void *buffer, size_t count), fd, buffer, count)
MOVES(pread, (int fd, void *buffer, size_t count, off_t at), fd, buffer, count, at)
MOVES(pread64, (int fd, void *buffer, size_t count, off64_t at), fd, buffer, count, at)
WRITES(pwrite, off_t)
WRITES(pwrite64, off64_t)
MOVES(recv, (int fd, void *buffer, size_t count, int flags), fd, buffer, count, flags)
MOVES(send, (int fd, const void *buffer, size_t count, int flags), fd, buffer, count, flags)
SYNCS(fsync)
SYNCS(fdatasync)
ACTS(ftruncate, (int fd, off_t size), fd, size)
ACTS(ftruncate64, (int fd, off64_t size), fd, size)
ACTS(flock, (int fd, int operation), fd, operation)

int getentropy(void *buffer, size_t count) {
    if (is_it("getentropy", -1) && how() > 0) {
        errno = how();
        return -1;
    }
    return REAL(getentropy)(buffer, count);
}

// whether one of the further calls is the one, and fails
static int fails_more(const char *name, int fd) {
    if (!getenv("FAILING_MORE") || !is_it(name, fd) || how() <= 0)
        return 0;
    errno = how();
    return 1;
}

#define MORE(name, parameters, on, ...)                                                            \
    int name parameters { return fails_more(#name, on) ? -1 : REAL(name)(__VA_ARGS__); }

MORE(statx, (int fd, const char *path, int flags, unsigned mask, struct statx *out), fd, fd, path, flags, mask, out)
MORE(fchmod, (int fd, mode_t mode), fd, fd, mode)
MORE(unlink, (const char *path), -1, path)
MORE(socket, (int domain, int type, int protocol), -1, domain, type, protocol)
MORE(connect, (int fd, const struct sockaddr *to, socklen_t size), fd, fd, to, size)
MORE(accept4, (int fd, struct sockaddr *from, socklen_t *size, int flags), fd, fd, from, size, flags)
MORE(epoll_create1, (int flags), -1, flags)
MORE(epoll_ctl, (int fd, int what, int on, struct epoll_event *event), fd, fd, what, on, event)
MORE(epoll_wait, (int fd, struct epoll_event *events, int most, int milliseconds), fd, fd, events, most, milliseconds)
MORE(bind, (int fd, const struct sockaddr *at, socklen_t size), fd, fd, at, size)
MORE(listen, (int fd, int waiting), fd, fd, waiting)
MORE(getsockopt, (int fd, int level, int name, void *value, socklen_t *size), fd, fd, level, name, value, size)
MORE(setsockopt, (int fd, int level, int name, const void *value, socklen_t size), fd, fd, level, name, value, size)

int open(const char *path, int flags, ...) {
    __builtin_va_list rest;
    __builtin_va_start(rest, flags);
    mode_t mode = flags & O_CREAT ? __builtin_va_arg(rest, mode_t) : 0;
    __builtin_va_end(rest);
    const char *log = getenv("FAILING_ORDER"), *slash = strrchr(path, '/');
    char line[4300];
    if (log && flags & O_CREAT)
        note(log, line, snprintf(line, sizeof line, "create %s 0 %o\n", slash ? slash + 1 : path, mode));
    return fails_more(strcmp(path, "/dev/null") ? "open" : "open-null", -1) ? -1 : REAL(open)(path, flags, mode);
}

int ioctl(int fd, unsigned long request, ...) {
    __builtin_va_list rest;
    __builtin_va_start(rest, request);
    void *argument = __builtin_va_arg(rest, void *);
    __builtin_va_end(rest);
    return fails_more("ioctl", fd) ? -1 : REAL(ioctl)(fd, request, argument);
}

// what waits may find nothing in its time
int poll(struct pollfd *these, nfds_t count, int milliseconds) {
    if (!getenv("FAILING_MORE") || !is_it("poll", -1) || how() == -1)
        return REAL(poll)(these, count, milliseconds);
    errno = how();
    return how() == -2 ? 0 : -1;
}

// what is closed is so also where that fails
int close(int fd) {
    int failed = fails_more("close", fd), error = errno, closed = REAL(close)(fd);
    if (!failed)
        return closed;
    errno = error;
    return -1;
}

// ---- memory; what the C library asks for before the program begins isn't counted

typedef int (*Main)(int, char **, char **);

void *__libc_malloc(size_t), *__libc_calloc(size_t, size_t), *__libc_realloc(void *, size_t);
int __libc_start_main(Main, int, char **, void (*)(void), void (*)(void), void (*)(void), void *);

static Main program; // once it has begun
static Main begins;
static long asked;

static int begin(int count, char **words, char **variables) {
    program = begins;
    return program(count, words, variables);
}

int __libc_start_main(Main main, int count, char **words, void (*first)(void), void (*last)(void), void (*end)(void),
                      void *stack) {
    begins = main;
    return REAL(__libc_start_main)(begin, count, words, first, last, end, stack);
}

static int is_refused(const char *name, size_t size, const void *caller) {
    const char *log = getenv("FAILING_LOG"), *number = getenv("FAILING_ALLOCATION");
    if (!program || !log || !number)
        return 0;
    Dl_info by, own;
    int is_own = dladdr(caller, &by) && dladdr((void *)program, &own) && by.dli_fbase == own.dli_fbase;
    char line[64];
    note(log, line, snprintf(line, sizeof line, "%s %zu %s\n", name, size, is_own ? "program" : "library"));
    if (++asked != atol(number) && (*number != '-' || asked < -atol(number)))
        return 0;
    errno = ENOMEM;
    return 1;
}

#define ASKS(name, size, parameters, ...)                                                          \
    void *name parameters {                                                                        \
        return is_refused(#name, size, __builtin_return_address(0)) ? 0 : __libc_##name(__VA_ARGS__); \
    }

ASKS(malloc, size, (size_t size), size)
ASKS(calloc, count * size, (size_t count, size_t size), count, size)
ASKS(realloc, size, (void *old, size_t size), old, size)
