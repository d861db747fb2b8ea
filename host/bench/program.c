/* The program around a C judge: table and log from standard input, the report to standard output. */
#define _POSIX_C_SOURCE 200809L
#include "../recorder/judge.h"
#include <stdbool.h>
#include <stdlib.h>
#include <string.h>
#include <sys/mman.h>
#include <unistd.h>

enum { LONGEST_TABLE = 32768 };

typedef struct {
    uint8_t *bytes; /* NULL: the input could not be had */
    size_t n;
    bool mapped;
} input_t;

/* Standard input as a mapped file, if it is a file that nobody has read from. */
static input_t mapped_input(void) {
    off_t n = lseek(0, 0, SEEK_CUR) == 0 ? lseek(0, 0, SEEK_END) : 0;
    void *map = n > 0 ? mmap(NULL, (size_t)n, PROT_READ, MAP_PRIVATE, 0, 0) : MAP_FAILED;
    if (map != MAP_FAILED) return (input_t){map, (size_t)n, true};
    if (n > 0) lseek(0, 0, SEEK_SET);
    return (input_t){NULL, 0, false};
}

static input_t read_input(void) {
    size_t room = 1 << 16;
    input_t in = {malloc(room), 0, false};
    while (in.bytes) {
        ssize_t got = read(0, in.bytes + in.n, room - in.n);
        if (got == 0) return in;
        in.n += got > 0 ? (size_t)got : 0;
        uint8_t *grown = got < 0 ? NULL : in.n == room ? realloc(in.bytes, room *= 2) : in.bytes;
        if (!grown) free(in.bytes);
        in.bytes = grown;
    }
    return in;
}

static input_t all_input(void) {
    input_t in = mapped_input();
    return in.bytes ? in : read_input();
}

static void give_up_input(input_t in) {
    if (in.mapped) munmap(in.bytes, in.n);
    else free(in.bytes);
}

/* Where the log begins: behind the first line that begins `end` and a tab and lies, its newline too, in the bytes that a table may have. */
static size_t cut(const uint8_t *in, size_t n) {
    size_t most = n < LONGEST_TABLE ? n : LONGEST_TABLE, at = 0;
    while (at < most) {
        const uint8_t *newline = memchr(in + at, '\n', most - at);
        if (!newline) break;
        size_t next = (size_t)(newline - in) + 1;
        if (next - at > 4 && memcmp(in + at, "end\t", 4) == 0) return next;
        at = next;
    }
    return n < LONGEST_TABLE + 1 ? n : LONGEST_TABLE + 1;
}

static bool write_all(const uint8_t *bytes, size_t n) {
    while (n) {
        ssize_t wrote = write(1, bytes, n);
        if (wrote <= 0) return false;
        bytes += wrote;
        n -= (size_t)wrote;
    }
    return true;
}

int main(void) {
    input_t in = all_input();
    if (!in.bytes) return 1;
    size_t log = cut(in.bytes, in.n), room = JUDGE_ROOM(in.n - log);
    uint8_t *out = malloc(room);
    size_t length = out ? judge(in.bytes, log, in.bytes + log, in.n - log, out, room) : 0;
    bool done = length && write_all(out, length);
    free(out);
    give_up_input(in);
    return done ? 0 : 1;
}
