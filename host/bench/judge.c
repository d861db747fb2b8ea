/* The judge of documents 01 and 02 in C: the measures that the product is held against. It keeps to recorder/judge.h. The engine that does
 * the steps is the tuned one, or with -DPLAIN the plain one; all else is the same. Nothing is allocated.
 *
 *   cc -O2 -std=c11 -o tuned program.c judge.c
 *   cc -O2 -std=c11 -DPLAIN -o plain program.c judge.c */
#include "../recorder/judge.h"
#include "table.h"
#ifdef PLAIN
#include "plain.h"
#else
#include "tuned.h"
#endif
#include "alike.h"

enum { LONGEST_ROW = 224, WINDOW = 64, STAGE = 65536 };

#ifdef __GNUC__
#define ALWAYS_INLINE inline __attribute__((always_inline))
#define NEVER_INLINE __attribute__((noinline))
#else
#define ALWAYS_INLINE inline
#define NEVER_INLINE
#endif

/* ---- the report ---- */

/* Rows go to `to` while they fit its room; `at` counts them all. */
typedef struct {
    uint8_t *to;
    size_t room, at;
} report_t;

static void put_row(report_t *r, const char *word, const uint64_t *numbers, int count) {
    uint8_t row[LONGEST_ROW], *p = row;
    size_t n = strlen(word);
    memcpy(p, word, n);
    p += n;
    for (int i = 0; i < count; i++) {
        *p++ = '\t';
        p = put_number(p, numbers[i]);
    }
    *p++ = '\n';
    n = (size_t)(p - row);
    if (r->at <= r->room && n <= r->room - r->at) memcpy(r->to + r->at, row, n);
    r->at += n;
}

/* ---- the log ---- */

typedef struct {
    engine_t engine;
    uint64_t accepted, opened, kept, dropped;
    uint64_t rows;      /* lines that are `state` rows, so far */
    uint64_t last_wait; /* the number of accepted steps up to the last wait */
    uint64_t most;      /* most other steps between waits so far */
    report_t *report;
} judging_t;

/* The readers below look at no more than 48 bytes from the start of a line: a longer line is no step. Each gives the place behind what it
 * read, or NULL. A leading zero or an eleventh digit is left for the reader of what must follow. */

static inline const uint8_t *read_number(const uint8_t *p, uint64_t *n) {
    uint64_t v = (uint64_t)*p - '0';
    if (v > 9) return NULL;
    p++;
    if (v != 0) {
        for (int k = 1; k < 10; k++, p++) {
            unsigned digit = (unsigned)*p - '0';
            if (digit > 9) break;
            v = 10 * v + digit;
        }
    }
    *n = v;
    return p;
}

static inline const uint8_t *read_last(const uint8_t *p, uint64_t *n) {
    p = read_number(p, n);
    return p && *p == '\n' ? p + 1 : NULL;
}

static inline const uint8_t *read_first(const uint8_t *p, uint64_t *n) {
    p = read_number(p, n);
    return p && *p == '\t' ? p + 1 : NULL;
}

/* Eight hex digits at once: a digit is its low four bits, and 9 more for a letter. The lowest byte above 0x7f, if any, passes neither test,
 * so a carry out of it does no harm. */
static ALWAYS_INLINE bool read_half(const uint8_t *p, uint64_t *half) {
    const uint64_t ones = 0x0101010101010101u, tops = 0x80 * ones;
    uint64_t x = (uint64_t)p[0] << 56 | (uint64_t)p[1] << 48 | (uint64_t)p[2] << 40 | (uint64_t)p[3] << 32 | (uint64_t)p[4] << 24 |
                 (uint64_t)p[5] << 16 | (uint64_t)p[6] << 8 | (uint64_t)p[7];
    uint64_t digit = (x + (0x80 - '0') * ones) & ~(x + (0x7f - '9') * ones) & tops;
    uint64_t letter = (x + (0x80 - 'a') * ones) & ~(x + (0x7f - 'f') * ones) & tops;
    if ((digit | letter) != tops) return false;
    x = (x & 0x0f * ones) + (letter >> 7) * 9;
    x = (x | x >> 4) & 0x00ff00ff00ff00ffu;
    x = (x | x >> 8) & 0x0000ffff0000ffffu;
    *half = (x | x >> 16) & 0xffffffffu;
    return true;
}

static ALWAYS_INLINE const uint8_t *read_set(const uint8_t *p, uint64_t *set, uint8_t behind) {
    uint64_t high, low;
    if (!read_half(p, &high) || !read_half(p + 8, &low) || p[16] != behind) return NULL;
    *set = high << 32 | low;
    return p + 17;
}

static inline const uint8_t *read_target(const uint8_t *p, uint64_t *target) {
    if (*p != 'e') return read_last(p, target);
    *target = ETHER_NUMBER;
    return memcmp(p, "ether\n", 6) == 0 ? p + 6 : NULL;
}

static inline unsigned take_wait(judging_t *j, uint64_t d) {
    unsigned refused = do_wait(&j->engine, d);
    if (refused) return refused;
    uint64_t stretch = j->accepted - j->last_wait;
    if (stretch > j->most) j->most = stretch;
    j->last_wait = j->accepted + 1;
    return 0;
}

static inline unsigned take_fm(judging_t *j, uint64_t task) {
    cycle_t c;
    unsigned refused = do_fm(&j->engine, task, &c);
    if (refused) return refused;
    if (c.close - c.open < j->engine.table->task[task].keep && c.missed == 0) {
        j->dropped++;
        return 0;
    }
    uint64_t row[] = {c.task, c.number, c.open, c.close, c.missed, c.longest};
    put_row(j->report, "kept", row, 6);
    j->kept++;
    return 0;
}

#define WORD(a, b) ((unsigned)(a) << 8 | (unsigned)(b))

/* Takes one line: sets the refusal and gives the place of the next line. */
static ALWAYS_INLINE const uint8_t *take_line(judging_t *j, const uint8_t *p, unsigned *refused) {
    const uint8_t *q = NULL;
    uint64_t n, m, r;
    unsigned word = WORD(p[0], p[1]);
    *refused = 11;
    if (word == WORD('w', 'a')) {
        if (p[2] != 'i' || p[3] != 't' || p[4] != '\t' || !(q = read_last(p + 5, &n))) return q;
        *refused = take_wait(j, n);
        j->accepted += !*refused;
        return q;
    }
    if (p[2] != '\t') return q;
    switch (word) {
    case WORD('s', 't'):
        if ((q = read_last(p + 3, &n))) *refused = do_st(&j->engine, n);
        break;
    case WORD('s', 'm'):
        if (!(q = read_first(p + 3, &n)) || !(q = read_set(q, &m, '\t')) || !(q = read_set(q, &r, '\n'))) break;
        *refused = do_sm(&j->engine, n, m, r);
        j->opened += !*refused;
        break;
    case WORD('l', 'm'):
        if ((q = read_first(p + 3, &n)) && (q = read_last(q, &m))) *refused = do_lm(&j->engine, n, m);
        break;
    case WORD('i', 'a'):
        if ((q = read_last(p + 3, &n))) *refused = do_ia(&j->engine, n);
        break;
    case WORD('e', 'a'):
        if ((q = read_first(p + 3, &n)) && (q = read_last(q, &m))) *refused = do_ea(&j->engine, n, m);
        break;
    case WORD('c', 'x'):
        if ((q = read_last(p + 3, &n))) *refused = do_cx(&j->engine, n);
        break;
    case WORD('f', 'a'):
        if ((q = read_first(p + 3, &n)) && (q = read_target(q, &m))) *refused = do_fa(&j->engine, n, m);
        break;
    case WORD('f', 'm'):
        if ((q = read_last(p + 3, &n))) *refused = take_fm(j, n);
        break;
    }
    j->accepted += !*refused;
    return q;
}

/* Takes lines until `stop` is reached or one is refused; there are WINDOW readable bytes from each line's start. */
static NEVER_INLINE const uint8_t *take_lines(judging_t *j, const uint8_t *p, const uint8_t *stop, unsigned *refused) {
    while (p < stop) {
        const uint8_t *next = take_line(j, p, refused);
        if (*refused) return p;
        p = next;
    }
    return p;
}

/* Takes steps up to the log's end or the first line that is not accepted, and gives its place. The last lines are taken from a copy with
 * zeros behind, so that no reader needs to ask where the log ends. */
static const uint8_t *take_steps(judging_t *j, const uint8_t *p, const uint8_t *end, unsigned *refused) {
    uint8_t tail[2 * WINDOW] = {0};
    *refused = 0;
    if (end - p > WINDOW) p = take_lines(j, p, end - WINDOW, refused);
    if (*refused || p == end) return p;
    size_t rest = (size_t)(end - p);
    memcpy(tail, p, rest);
    return p + (take_lines(j, tail, tail + rest, refused) - tail);
}

/* Takes the `state` row at `p`: sets the refusal and gives the place of the next line. */
static const uint8_t *take_row(judging_t *j, const uint8_t *p, const uint8_t *end, unsigned *refused) {
    const table_t *t = j->engine.table;
    saved_t told = {.date = {0}}, now = {.date = {0}};
    const uint8_t *next = read_row(t, p, end, &told);
    *refused = !next ? 11 : !sound(t, &told) ? 20 : 0;
    if (*refused) return p;
    if (j->accepted + j->rows == 0) {
        load(&j->engine, &told);
        for (unsigned i = 0; i < t->count[TASK]; i++) j->opened += is_managing(&j->engine, i);
    } else {
        save(&j->engine, &now);
        if (memcmp(&told, &now, sizeof told) != 0) *refused = 21;
    }
    j->rows += !*refused;
    return next;
}

/* Judges the log: steps, and `state` rows, which no reader of steps takes. */
static refusal_t read_log(judging_t *j, const uint8_t *log, size_t n) {
    const uint8_t *p = log, *end = log + n;
    unsigned refused = 0;
    do {
        p = take_steps(j, p, end, &refused);
        if (refused != 11 || !begins_row(p, end)) break;
        p = take_row(j, p, end, &refused);
    } while (!refused);
    return (refusal_t){refused, refused ? j->accepted + j->rows + 1 : 0};
}

static void put_sum(judging_t *j, refusal_t refused) {
    uint64_t managing = 0, stretch = j->accepted - j->last_wait;
    for (unsigned i = 0; i < j->engine.table->count[TASK]; i++) managing += is_managing(&j->engine, i);
    uint64_t most = stretch > j->most ? stretch : j->most;
    uint64_t row[] = {j->accepted, j->engine.date, j->opened, j->kept, j->dropped, managing, most, refused.number, refused.line};
    put_row(j->report, "sum", row, 9);
}

static void judge_log(const table_t *t, const uint8_t *log, size_t n, report_t *report) {
    judging_t j = {.report = report};
    start_fresh(&j.engine, t);
    put_sum(&j, read_log(&j, log, n));
}

static void write_report(const table_t *t, refusal_t refused, const uint8_t *log, size_t n, report_t *report) {
    uint64_t layout = 1;
    put_row(report, "cycles", &layout, 1);
    if (refused.number) {
        uint64_t row[] = {0, 0, 0, 0, 0, 0, 0, refused.number, refused.line};
        put_row(report, "sum", row, 9);
    } else {
        judge_log(t, log, n, report);
    }
}

/* A buffer too short for the longest report is filled from the side, or by judging again where the report is long. */
size_t judge(const uint8_t *table, size_t table_length, const uint8_t *log, size_t log_length, uint8_t *out, size_t out_length) {
    table_t t;
    uint8_t stage[STAGE];
    refusal_t refused = read_table(&t, table, table_length);
    report_t report = {out, out_length, 0};
    if (out_length >= JUDGE_ROOM(log_length)) {
        write_report(&t, refused, log, log_length, &report);
        return report.at;
    }
    report = (report_t){stage, sizeof stage, 0};
    write_report(&t, refused, log, log_length, &report);
    if (report.at > out_length) return 0;
    if (report.at <= sizeof stage) {
        memcpy(out, stage, report.at);
    } else {
        report = (report_t){out, out_length, 0};
        write_report(&t, refused, log, log_length, &report);
    }
    return report.at;
}

size_t reached(const uint8_t *table, size_t table_length, const uint8_t *log, size_t log_length, uint8_t *row, size_t row_length,
               uint64_t *refusal, size_t refusal_length) {
    table_t t;
    uint8_t text[LONGEST_STATE_ROW];
    size_t length = 0;
    report_t nowhere = {text, 0, 0};
    judging_t j = {.report = &nowhere};
    saved_t s = {.date = {0}};
    refusal_t refused = read_table(&t, table, table_length);
    if (!refused.number) {
        start_fresh(&j.engine, &t);
        refused = read_log(&j, log, log_length);
    }
    if (!refused.number) {
        save(&j.engine, &s);
        length = write_row(&t, &s, text);
        if (length > row_length) refused = (refusal_t){31, 0};
    }
    if (refusal_length >= 2) {
        refusal[0] = refused.number;
        refusal[1] = refused.line;
    }
    if (refused.number) return 0;
    memcpy(row, text, length);
    return length;
}
