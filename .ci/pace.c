// Tells what a program took. It is loaded before the C library; where PACE names a file, a line goes to it when the program ends:
// microseconds of the processor since its beginning, and the kilobytes of memory that it had at its greatest. It has no headers,
// as failing-calls.c has none.
typedef __SIZE_TYPE__ size_t;
typedef long ssize_t;
struct rusage {
    struct {
        long sec, usec;
    } user, system;
    long rest[14];
};

int getrusage(int, struct rusage *), snprintf(char *, size_t, const char *, ...), open(const char *, int, ...), close(int);
ssize_t read(int, void *, size_t), write(int, const void *, size_t);
char *getenv(const char *), *strstr(const char *, const char *);
long atol(const char *);

enum { SELF = 0, O_WRONLY = 1, O_CREAT = 0100, O_APPEND = 02000 };

// the kilobytes at the greatest, of this program alone: what began it counts in getrusage too
static long greatest(void) {
    static char text[4096];
    int file = open("/proc/self/status", 0);
    ssize_t length = file < 0 ? 0 : read(file, text, sizeof text - 1);
    if (file >= 0)
        close(file);
    text[length < 0 ? 0 : length] = 0;
    const char *line = strstr(text, "VmHWM:");
    return line ? atol(line + 6) : 0;
}

__attribute__((destructor)) static void tell(void) {
    const char *pace = getenv("PACE");
    struct rusage took;
    char line[64];
    if (!pace || getrusage(SELF, &took))
        return;
    long micros = (took.user.sec + took.system.sec) * 1000000 + took.user.usec + took.system.usec;
    int file = open(pace, O_WRONLY | O_CREAT | O_APPEND, 0600);
    if (file < 0)
        return;
    write(file, line, (size_t)snprintf(line, sizeof line, "%ld %ld\n", micros, greatest()));
    close(file);
}
