/* Calls the functions of judge.h on case after case, for tests of whatever judge it is linked with.
 *
 * From standard input: five numbers of four bytes, low end first (which function: 0 for `judge`, 1 for `reached`; the lengths of table,
 * log and buffer; how many numbers the refusal has, 0 for `judge`, which gives none), then table and log. To standard output: the answer,
 * four bytes; a byte that is 1 where the guard bytes before and behind buffer and refusal are as they were, else 0; the whole buffer; the
 * whole refusal, each number of eight bytes, low end first. Buffer, refusal and guard bytes are filled with FILL before the call.
 *
 * Each part ends where a page ends that nobody may touch, buffer and refusal but for their guard bytes; table and log can only be read. */
#define _DEFAULT_SOURCE
#include "judge.h"
#include <stdbool.h>
#include <stdio.h>
#include <stdlib.h>
#include <string.h>
#include <sys/mman.h>
#include <unistd.h>

enum { FILL = 0xaa, GUARD = 64 };

/* Whole pages; the last one is closed. */
typedef struct {
    uint8_t *pages;
    size_t open, closed;
} memory_t;

static void give_up(const char *why) {
    fprintf(stderr, "%s\n", why);
    exit(1);
}

/* Pages for n bytes that end where the closed page begins. */
static memory_t lend(size_t n) {
    size_t page = (size_t)sysconf(_SC_PAGESIZE);
    size_t open = (n + page - 1) / page * page;
    void *pages = mmap(NULL, open + page, PROT_READ | PROT_WRITE, MAP_PRIVATE | MAP_ANONYMOUS, -1, 0);
    if (pages == MAP_FAILED) give_up("no memory");
    memory_t memory = {pages, open, page};
    if (mprotect(memory.pages + open, page, PROT_NONE) != 0) give_up("a page does not close");
    return memory;
}

static uint8_t *last_bytes(memory_t memory, size_t n) { return memory.pages + memory.open - n; }

static void take_back(memory_t memory) { munmap(memory.pages, memory.open + memory.closed); }

static bool read_length(size_t *n) {
    uint8_t b[4];
    if (fread(b, 1, 4, stdin) != 4) return false;
    *n = (size_t)b[0] | (size_t)b[1] << 8 | (size_t)b[2] << 16 | (size_t)b[3] << 24;
    return true;
}

/* The next n bytes of standard input, from now on only for reading. */
static memory_t read_part(size_t n) {
    memory_t memory = lend(n);
    if (fread(last_bytes(memory, n), 1, n, stdin) != n) give_up("a case ends early");
    if (memory.open && mprotect(memory.pages, memory.open, PROT_READ) != 0) give_up("a page stays writable");
    return memory;
}

/* Memory to be written to, with guard bytes before and behind. */
typedef struct {
    memory_t memory;
    uint8_t *bytes;
    size_t n;
} lent_t;

static lent_t lend_guarded(size_t n) {
    lent_t lent = {lend(n + 2 * GUARD), NULL, n};
    uint8_t *before = last_bytes(lent.memory, n + 2 * GUARD);
    memset(before, FILL, n + 2 * GUARD);
    lent.bytes = before + GUARD;
    return lent;
}

static bool untouched(const uint8_t *guard) {
    for (int i = 0; i < GUARD; i++)
        if (guard[i] != FILL) return false;
    return true;
}

static bool guarded(lent_t lent) { return untouched(lent.bytes - GUARD) && untouched(lent.bytes + lent.n); }

static void write_answer(size_t answer, bool guards) {
    uint8_t b[5] = {(uint8_t)answer, (uint8_t)(answer >> 8), (uint8_t)(answer >> 16), (uint8_t)(answer >> 24), guards};
    fwrite(b, 1, 5, stdout);
}

/* A case as it is asked: its numbers, in their order. */
typedef struct {
    size_t function, table, log, room, numbers;
} case_t;

static bool read_case(case_t *asked) {
    return read_length(&asked->function) && read_length(&asked->table) && read_length(&asked->log) && read_length(&asked->room) &&
           read_length(&asked->numbers);
}

static size_t call(case_t asked, const uint8_t *table, const uint8_t *log, uint8_t *out, uint64_t *refusal) {
    if (asked.function == 0) return judge(table, asked.table, log, asked.log, out, asked.room);
    return reached(table, asked.table, log, asked.log, out, asked.room, refusal, asked.numbers);
}

static void answer_case(case_t asked) {
    memory_t table = read_part(asked.table), log = read_part(asked.log);
    lent_t out = lend_guarded(asked.room), refusal = lend_guarded(asked.numbers * sizeof(uint64_t));
    size_t answer =
        call(asked, last_bytes(table, asked.table), last_bytes(log, asked.log), out.bytes, (uint64_t *)(void *)refusal.bytes);
    write_answer(answer, guarded(out) && guarded(refusal));
    fwrite(out.bytes, 1, out.n, stdout);
    fwrite(refusal.bytes, 1, refusal.n, stdout);
    take_back(table);
    take_back(log);
    take_back(out.memory);
    take_back(refusal.memory);
}

int main(void) {
    case_t asked;
    while (read_case(&asked)) answer_case(asked);
    return 0;
}
