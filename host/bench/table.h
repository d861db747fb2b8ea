/* The table of document 01: its rows, and the reading of its text. Both C judges use it. */
#ifndef TABLE_H
#define TABLE_H

#include <stdbool.h>
#include <stddef.h>
#include <stdint.h>
#include <string.h>

enum { MOST_TASKS = 16, MOST_ACTS = 64, MOST_CODELS = 256, MOST_EDGES = 512, MOST_MUTEXES = 512, LONGEST_TABLE = 32768 };
enum { ETHER = 256, NONE = -1 };
enum { TASK, ACT, CODEL, EDGE, MUTEX, END };
enum { START, STOP, MAIN };

static const uint64_t MOST_TICKS = 1000000000u;
static const uint64_t ETHER_NUMBER = UINT64_MAX; /* above every number */

typedef struct {
    uint32_t period, keep;
    uint64_t members; /* its activities as a set */
} task_row_t;

typedef struct {
    uint8_t task;
    int16_t start, stop; /* codels, or NONE */
} act_row_t;

typedef struct {
    uint32_t limit;
    uint8_t act, kind;
    bool has_edge;
} codel_row_t;

typedef struct {
    uint16_t codel, target; /* target: a codel or ETHER */
    bool pause;
} edge_row_t;

typedef struct {
    uint16_t lo, hi;
} mutex_row_t;

typedef struct {
    unsigned count[END]; /* rows so far of each kind */
    task_row_t task[MOST_TASKS];
    act_row_t act[MOST_ACTS];
    codel_row_t codel[MOST_CODELS];
    edge_row_t edge[MOST_EDGES];
    mutex_row_t mutex[MOST_MUTEXES];
    uint64_t last[2]; /* the first two numbers of the row before, for the order of rows */
} table_t;

typedef struct {
    uint64_t number, line;
} refusal_t;

typedef struct {
    const uint8_t *at, *end; /* end: the newline of the line */
} field_t;

/* The next field of the line must be a number; what follows it is left to the next reader. */
static bool number_field(field_t *f, uint64_t *n) {
    uint64_t v = 0;
    const uint8_t *from = f->at;
    while (f->at < f->end && f->at - from < 11 && *f->at >= '0' && *f->at <= '9') v = 10 * v + (*f->at++ - '0');
    *n = v;
    return f->at > from && f->at - from <= 10 && (*from != '0' || f->at - from == 1);
}

static bool word_field(field_t *f, const char *word) {
    size_t n = strlen(word);
    if ((size_t)(f->end - f->at) < n || memcmp(f->at, word, n) != 0) return false;
    if (f->at + n < f->end && f->at[n] != '\t') return false;
    f->at += n;
    return true;
}

static int one_word(field_t *f, const char *const words[], int count) {
    for (int i = 0; i < count; i++)
        if (word_field(f, words[i])) return i;
    return NONE;
}

static inline bool tab(field_t *f) { return f->at < f->end && *f->at++ == '\t'; }

/* A row by its form: its kind, or NONE; up to three values. */
static int parse_row(field_t f, uint64_t v[3]) {
    static const char *const rows[] = {"task", "act", "codel", "edge", "mutex", "end"};
    static const char *const kinds[] = {"start", "stop", "main"};
    static const char *const modes[] = {"run", "pause"};
    int row = one_word(&f, rows, 6), word = 0;
    bool good = row != NONE && tab(&f) && number_field(&f, &v[0]);
    if (good && (row == TASK || row == MUTEX)) {
        good = tab(&f) && number_field(&f, &v[1]);
    } else if (good && row == CODEL) {
        good = tab(&f) && (word = one_word(&f, kinds, 3)) != NONE && tab(&f) && number_field(&f, &v[2]);
        v[1] = (uint64_t)word;
    } else if (good && row == EDGE) {
        good = tab(&f);
        if (good && word_field(&f, "ether")) v[1] = ETHER_NUMBER;
        else good = good && number_field(&f, &v[1]);
        good = good && tab(&f) && (word = one_word(&f, modes, 2)) != NONE;
        v[2] = (uint64_t)word;
    }
    return good && f.at == f.end ? row : NONE;
}

static inline bool in_range(uint64_t n) { return n - 1 < MOST_TICKS; }

static unsigned add_task(table_t *t, const uint64_t v[3]) {
    if (!in_range(v[0]) || !in_range(v[1])) return 3;
    t->task[t->count[TASK]] = (task_row_t){.period = (uint32_t)v[0], .keep = (uint32_t)v[1]};
    return 0;
}

static unsigned add_act(table_t *t, const uint64_t v[3]) {
    unsigned a = t->count[ACT];
    if (v[0] >= t->count[TASK]) return 4;
    t->act[a] = (act_row_t){.task = (uint8_t)v[0], .start = NONE, .stop = NONE};
    t->task[v[0]].members |= 1ull << a;
    return 0;
}

static unsigned add_codel(table_t *t, const uint64_t v[3]) {
    unsigned c = t->count[CODEL];
    if (!in_range(v[2])) return 3;
    if (v[0] >= t->count[ACT]) return 4;
    act_row_t *act = &t->act[v[0]];
    int16_t *only = v[1] == START ? &act->start : v[1] == STOP ? &act->stop : NULL;
    if (only && *only != NONE) return 5;
    if (only) *only = (int16_t)c;
    t->codel[c] = (codel_row_t){.limit = (uint32_t)v[2], .act = (uint8_t)v[0], .kind = (uint8_t)v[1]};
    return 0;
}

static unsigned add_edge(table_t *t, const uint64_t v[3]) {
    unsigned count = t->count[CODEL];
    bool to_ether = v[1] == ETHER_NUMBER, pause = v[2] == 1;
    if (v[0] >= count || (!to_ether && v[1] >= count)) return 4;
    codel_row_t *from = &t->codel[v[0]];
    if (to_ether ? pause : t->codel[v[1]].act != from->act || t->codel[v[1]].kind == STOP) return 5;
    from->has_edge = true;
    t->edge[t->count[EDGE]] = (edge_row_t){(uint16_t)v[0], to_ether ? ETHER : (uint16_t)v[1], pause};
    return 0;
}

static unsigned add_mutex(table_t *t, const uint64_t v[3]) {
    unsigned count = t->count[CODEL];
    if (v[0] >= count || v[1] >= count) return 4;
    if (t->act[t->codel[v[0]].act].task == t->act[t->codel[v[1]].act].task) return 5;
    t->mutex[t->count[MUTEX]] = (mutex_row_t){(uint16_t)v[0], (uint16_t)v[1]};
    return 0;
}

/* 2: whether a row of the kind may stand behind the rows before it. */
static bool in_order(const table_t *t, int row, const uint64_t v[3]) {
    for (int later = row + 1; later < END; later++)
        if (t->count[later]) return false;
    if (row == MUTEX && v[0] > v[1]) return false;
    if (row == TASK || t->count[row] == 0) return true;
    if (row == ACT || row == CODEL) return t->last[0] <= v[0];
    return t->last[0] < v[0] || (t->last[0] == v[0] && t->last[1] < v[1]);
}

static unsigned add_row(table_t *t, int row, const uint64_t v[3]) {
    static const unsigned most[] = {MOST_TASKS, MOST_ACTS, MOST_CODELS, MOST_EDGES, MOST_MUTEXES};
    static unsigned (*const add[])(table_t *, const uint64_t[3]) = {add_task, add_act, add_codel, add_edge, add_mutex};
    if (!in_order(t, row, v)) return 2;
    if (t->count[row] == most[row]) return 3;
    unsigned refused = add[row](t, v);
    if (refused) return refused;
    t->count[row]++;
    t->last[0] = v[0];
    t->last[1] = v[1];
    return 0;
}

/* 7: what must be there after the last row. */
static bool whole(const table_t *t) {
    for (unsigned i = 0; i < t->count[TASK]; i++)
        if (!t->task[i].members) return false;
    for (unsigned i = 0; i < t->count[ACT]; i++)
        if (t->act[i].start == NONE) return false;
    for (unsigned i = 0; i < t->count[CODEL]; i++)
        if (!t->codel[i].has_edge) return false;
    return t->count[TASK] > 0;
}

/* Reads a table's text; a refusal with the number 0 is none. */
static refusal_t read_table(table_t *t, const uint8_t *text, size_t n) {
    const uint8_t *p = text, *past = text + n;
    uint64_t line = 0, end_line = 0;
    uint64_t v[3] = {0, 0, 0};
    memset(t->count, 0, sizeof t->count);
    if (n > LONGEST_TABLE) return (refusal_t){3, 0};
    while (p < past) {
        const uint8_t *newline = memchr(p, '\n', (size_t)(past - p));
        int row = newline ? parse_row((field_t){p, newline}, v) : NONE;
        line++;
        if (row == NONE) return (refusal_t){1, line};
        if (end_line) return (refusal_t){2, line};
        if (row == END) {
            if (v[0] != line - 1) return (refusal_t){6, line};
            end_line = line;
        } else {
            unsigned refused = add_row(t, row, v);
            if (refused) return (refusal_t){refused, line};
        }
        p = newline + 1;
    }
    if (!end_line) return (refusal_t){6, line + 1};
    return whole(t) ? (refusal_t){0, 0} : (refusal_t){7, end_line};
}

#endif
