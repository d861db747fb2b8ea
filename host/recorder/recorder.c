/* A recorder such as sits on the bench, in small: it writes down the steps of a component in a ring of lines, so that the last ones are
 * always there, and has them judged when somebody asks.
 *
 * A log is judged from the component's start on. So the ring marks the first line of each run, and what is judged is every run that is
 * still there from its first line; the rest of a run that the ring has half forgotten is passed over.
 *
 * A long drive is cut into two files at noon. The second one begins with the row of the state that the first one reaches, so it is judged
 * by itself, and a cycle that is open at noon is reported when it closes.
 *
 *   sh host/recorder/build recorder host/recorder/recorder.c && sh host/run ./recorder */
#include "judge.h"
#include <stdarg.h>
#include <stdbool.h>
#include <stdio.h>
#include <stdlib.h>
#include <string.h>

enum { LINES = 64, LONGEST_LINE = 63 };
enum { PERIOD = 10 };

/* Table K of document 01: one task of the period above, with one activity of one codel. */
static const char TABLE[] = "task\t10\t5\n"
                            "act\t0\n"
                            "codel\t0\tstart\t20\n"
                            "edge\t0\tether\trun\n"
                            "end\t4\n";

/* ---- the ring ---- */

typedef struct {
    bool first; /* of a run */
    size_t length;
    char text[LONGEST_LINE + 1];
} line_t;

/* The last LINES lines; line number n lies at n % LINES. */
typedef struct {
    line_t line[LINES];
    size_t written; /* lines since the recorder was switched on */
    bool starting;  /* the next line is the first of a run */
} ring_t;

static size_t oldest(const ring_t *ring) { return ring->written < LINES ? 0 : ring->written - LINES; }

static const line_t *line_at(const ring_t *ring, size_t n) { return &ring->line[n % LINES]; }

/* The component starts: what comes now is a log of its own. */
static void start_run(ring_t *ring) { ring->starting = true; }

/* Writes a step down, as printf would; a step that is too long for a line is cut, and the judge refuses it. */
__attribute__((format(printf, 2, 3))) static void record(ring_t *ring, const char *format, ...) {
    line_t *line = &ring->line[ring->written++ % LINES];
    va_list numbers;
    va_start(numbers, format);
    int length = vsnprintf(line->text, sizeof line->text, format, numbers);
    va_end(numbers);
    line->length = length < 0 ? 0 : length > LONGEST_LINE ? LONGEST_LINE : (size_t)length;
    line->first = ring->starting;
    ring->starting = false;
}

/* The first line of the run that begins at line n or behind it; the number of lines written if there is none. */
static size_t next_run(const ring_t *ring, size_t n) {
    while (n < ring->written && !line_at(ring, n)->first) n++;
    return n;
}

/* ---- judging ---- */

/* Room for a log of every line there is, and a `state` row before them. */
enum { LOG_ROOM = REACHED_ROOM + LINES * LONGEST_LINE };

/* Copies the lines from one number up to another into one log, and gives its length. */
static size_t copy_log(const ring_t *ring, size_t from, size_t to, uint8_t *log) {
    size_t length = 0;
    for (size_t n = from; n < to; n++) {
        const line_t *line = line_at(ring, n);
        memcpy(log + length, line->text, line->length);
        length += line->length;
    }
    return length;
}

/* Judges a log, and prints its report under a title. */
static void print_report(const char *title, const uint8_t *log, size_t log_length) {
    static uint8_t report[JUDGE_ROOM(LOG_ROOM)];
    size_t length = judge((const uint8_t *)TABLE, sizeof TABLE - 1, log, log_length, report, sizeof report);
    printf("%s:\n", title);
    fwrite(report, 1, length, stdout);
}

static void print_run(const ring_t *ring, size_t from, size_t to) {
    uint8_t log[LOG_ROOM];
    char title[64];
    snprintf(title, sizeof title, "lines %zu to %zu", from + 1, to);
    print_report(title, log, copy_log(ring, from, to, log));
}

/* Judges every run that is in the ring from its first line, and prints the reports. */
static void print_reports(const ring_t *ring) {
    for (size_t from = next_run(ring, oldest(ring)); from < ring->written;) {
        size_t to = next_run(ring, from + 1);
        print_run(ring, from, to);
        from = to;
    }
}

/* Begins a file with the row of the state that a log reaches, and gives its length; a log that is refused reaches none. */
static size_t begin_file(const uint8_t *log, size_t log_length, uint8_t *file) {
    uint64_t refusal[2];
    size_t length = reached((const uint8_t *)TABLE, sizeof TABLE - 1, log, log_length, file, REACHED_ROOM, refusal, 2);
    if (length == 0) printf("no row: refusal %llu at line %llu\n", (unsigned long long)refusal[0], (unsigned long long)refusal[1]);
    return length;
}

/* Judges a drive, all of it in the ring, in two files: up to the line with this number, and from there on. */
static void print_cut(const ring_t *ring, size_t noon) {
    uint8_t morning[LOG_ROOM], afternoon[LOG_ROOM];
    size_t first = copy_log(ring, 0, noon, morning);
    size_t row = begin_file(morning, first, afternoon);
    size_t second = row + copy_log(ring, noon, ring->written, afternoon + row);
    print_report("up to noon", morning, first);
    print_report("from noon on", afternoon, second);
}

/* ---- the component ---- */

/* One cycle of the component of table K: its codel takes so many ticks, fewer than the period. */
static void run_cycle(ring_t *ring, unsigned ticks) {
    record(ring, "st\t0\n");
    record(ring, "sm\t0\t%016x\t%016x\n", 1u, 0u);
    record(ring, "lm\t0\t0\n");
    record(ring, "ea\t0\t0\n");
    record(ring, "wait\t%u\n", ticks);
    record(ring, "fa\t0\tether\n");
    record(ring, "fm\t0\n");
    record(ring, "wait\t%u\n", PERIOD - ticks);
}

/* A run: the component starts and goes through cycles of so many ticks each. */
static void run_component(ring_t *ring, const unsigned *ticks, size_t cycles) {
    start_run(ring);
    record(ring, "wait\t%u\n", PERIOD);
    for (size_t i = 0; i < cycles; i++) run_cycle(ring, ticks[i]);
}

/* The runs of a day at the bench; the ring has forgotten the start of the first one. */
static void show_runs(void) {
    static ring_t ring;
    const unsigned quick[] = {1, 4, 2, 3}, slow[] = {2, 5, 9}, last[] = {4, 7};
    run_component(&ring, quick, 4);
    run_component(&ring, slow, 3);
    run_component(&ring, last, 2);
    record(&ring, "wait\t%u\n", PERIOD); /* its timer is due, and it gives no signal: against the rules */
    print_reports(&ring);
}

/* A drive of three cycles. Noon comes in the second, while its codel executes: before it are a line, 8 of the first cycle and 5 of the
 * second. */
static void show_drive(void) {
    static ring_t drive;
    const unsigned ticks[] = {6, 7, 3};
    run_component(&drive, ticks, 3);
    print_cut(&drive, 1 + 8 + 5);
}

int main(void) {
    show_runs();
    show_drive();
    return EXIT_SUCCESS;
}
