// What the programs of this folder share: the clock, medians, and how texts of two sides are measured in memory and on files. Texts,
// turns and rounds are those of bench/src/turn.rs and session.rs. Nothing is printed while something is measured. Seeds aren't drawn
// from the system, as those there aren't.
#include <fcntl.h>
#include <stdarg.h>
#include <stdint.h>
#include <stdio.h>
#include <stdlib.h>
#include <string.h>
#include <time.h>
#include <unistd.h>

// How many texts of an epoch are measured, how many turns, and how many rounds on files, in each of which both sides say two texts.
enum { TEXTS = 20001, TURNS = 201, ROUNDS = 41 };

// The longer of both texts that are said, and the room for a packet.
enum { TEXT = 1024, ROOM = 4096 };

// A side's file has its whole length from the start, and beside the record a page for the gate.
enum { FILE_SIZE = 65536, GATE = 32768 };

// When a program ends at the latest.
enum { SECONDS = 60 };

// A ratchet of two sides, 0 and 1, each of which has said a text that the other took.
struct ratchet {
    void (*begin)(void);
    // Says a text: the packet's length.
    size_t (*say)(int side, const unsigned char *text, size_t length, unsigned char *packet);
    // Takes a packet, which it may destroy: the text's length.
    size_t (*take)(int side, unsigned char *packet, size_t length, unsigned char *text);
    // What a side has to keep, and its length.
    const unsigned char *(*record)(int side, size_t *length);
};

static inline void demand(int holds, const char *what) {
    if (holds)
        return;
    fprintf(stderr, "beside: %s\n", what);
    exit(1);
}

// Fills in bytes that differ each time.
static inline void draw(unsigned char *bytes, size_t length) {
    static uint64_t state = 1;
    for (size_t at = 0; at < length; at++) {
        state = state * 6364136223846793005 + 1442695040888963407;
        bytes[at] = (unsigned char)(state >> 56);
    }
}

static inline int64_t now(void) {
    struct timespec time;
    demand(!clock_gettime(CLOCK_MONOTONIC, &time), "no clock");
    return time.tv_sec * 1000000000LL + time.tv_nsec;
}

static inline int is_later(const void *one, const void *other) {
    int64_t a = *(const int64_t *)one, b = *(const int64_t *)other;
    return (a > b) - (a < b);
}

// The time in the middle, in microseconds.
static inline double median(int64_t *times, size_t count) {
    qsort(times, count, sizeof *times, is_later);
    return (double)times[count / 2] / 1000;
}

// Prints a line: of what, what, and how long it takes.
__attribute__((format(printf, 3, 4))) static inline void tell(const char *name, double micros, const char *what, ...) {
    va_list values;
    printf("%s, ", name);
    va_start(values, what);
    vprintf(what, values);
    va_end(values);
    printf(": %.2f us\n", micros);
    fflush(stdout);
}

// One side says a text, and the other takes it.
static inline void pass(const struct ratchet *ratchet, int from, const unsigned char *text, size_t length) {
    unsigned char packet[ROOM], taken[ROOM];
    size_t sent = ratchet->say(from, text, length, packet);
    size_t got = ratchet->take(!from, packet, sent, taken);
    demand(got == length && !memcmp(taken, text, length), "a text went wrong");
}

// A text in an epoch, said by one side and taken by the other: each is measured by itself.
static inline double time_text(const struct ratchet *ratchet, const unsigned char *text, size_t length) {
    static int64_t times[TEXTS];
    ratchet->begin();
    for (int at = 0; at < TEXTS; at++) {
        int64_t start = now();
        pass(ratchet, 0, text, length);
        times[at] = now() - start;
    }
    return median(times, TEXTS);
}

// A turn with its text: sides say one each, in turn.
static inline double time_turn(const struct ratchet *ratchet, const unsigned char *text, size_t length) {
    int64_t times[TURNS];
    ratchet->begin();
    for (int turn = 0; turn < TURNS; turn++) {
        int64_t start = now();
        pass(ratchet, turn % 2, text, length);
        times[turn] = now() - start;
    }
    return median(times, TURNS);
}

// Writes a record and syncs it; for each further sync a byte is written, as a gate of the messenger's tables is.
static inline void keep(int file, const unsigned char *record, size_t length, int syncs) {
    static unsigned char gate;
    demand(length <= GATE && pwrite(file, record, length, 0) == (ssize_t)length && !fdatasync(file), "a record isn't kept");
    for (int sync = 1; sync < syncs; sync++) {
        gate++;
        demand(pwrite(file, &gate, 1, GATE) == 1 && !fdatasync(file), "a gate isn't kept");
    }
}

// A new file of zeros.
static inline int new_file(const char *path) {
    static const unsigned char zeros[FILE_SIZE];
    int file = open(path, O_RDWR | O_CREAT | O_TRUNC, 0600);
    demand(file >= 0 && pwrite(file, zeros, FILE_SIZE, 0) == FILE_SIZE && !fsync(file), "no file");
    return file;
}

// One side says two texts, the first with a turn, and the other takes them; each keeps its record after each. Times are filled in: of
// both said, and of both taken.
static inline void pass_kept(const struct ratchet *ratchet, int from, const int *files, int syncs, const unsigned char *text,
    int64_t *times) {
    unsigned char packets[2][ROOM], taken[ROOM];
    size_t lengths[2], kept;
    for (int at = 0; at < 2; at++) {
        int64_t start = now();
        lengths[at] = ratchet->say(from, text, TEXT, packets[at]);
        const unsigned char *record = ratchet->record(from, &kept);
        keep(files[from], record, kept, syncs);
        times[at] = now() - start;
    }
    for (int at = 0; at < 2; at++) {
        int64_t start = now();
        demand(ratchet->take(!from, packets[at], lengths[at], taken) == TEXT, "a text went wrong");
        const unsigned char *record = ratchet->record(!from, &kept);
        keep(files[!from], record, kept, syncs);
        times[2 + at] = now() - start;
    }
}

// The same writes and syncs alone.
static inline double time_keeping(int file, const unsigned char *record, size_t length, int syncs) {
    int64_t times[ROUNDS];
    for (int round = 0; round < ROUNDS; round++) {
        int64_t start = now();
        keep(file, record, length, syncs);
        times[round] = now() - start;
    }
    return median(times, ROUNDS);
}

// Texts of both sides on files, with so many syncs each.
static inline void report_files(const char *name, const struct ratchet *ratchet, int syncs, const unsigned char *text) {
    static const char *whats[4] = {"said with a turn", "said", "taken with a turn", "taken"};
    int64_t times[4][2 * ROUNDS], four[4];
    int files[2] = {new_file("beside-first"), new_file("beside-second")};
    size_t length;
    ratchet->begin();
    for (int round = 0; round < 2 * ROUNDS; round++) {
        pass_kept(ratchet, round % 2, files, syncs, text, four);
        for (int what = 0; what < 4; what++)
            times[what][round] = four[what];
    }
    for (int what = 0; what < 4; what++)
        tell(name, median(times[what], 2 * ROUNDS), "a text of %d bytes on a file, syncs %d, %s", TEXT, syncs, whats[what]);
    const unsigned char *record = ratchet->record(0, &length);
    tell(name, time_keeping(files[0], record, length, syncs), "writes and syncs alone of a record of %zu bytes, syncs %d", length,
        syncs);
    demand(!close(files[0]) && !close(files[1]) && !unlink("beside-first") && !unlink("beside-second"), "a file stays");
}

// Prints each figure of a ratchet: words are its name and the numbers of syncs.
static inline int report(const struct ratchet *ratchet, int count, char **words) {
    unsigned char text[TEXT];
    alarm(SECONDS);
    demand(count > 1, "the name is missing");
    memset(text, 5, TEXT);
    for (int length = 100; length <= TEXT; length += TEXT - 100) {
        tell(words[1], time_text(ratchet, text, length), "a text of %d bytes in an epoch, said and taken", length);
        tell(words[1], time_turn(ratchet, text, length), "a turn with a text of %d bytes, both sides", length);
    }
    for (int at = 2; at < count; at++)
        report_files(words[1], ratchet, atoi(words[at]), text);
    return 0;
}
