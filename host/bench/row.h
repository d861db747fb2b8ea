/* The `state` row of document 02: its fields, its text, and the sound state. It is plain: a log has few of them. */
#ifndef ROW_H
#define ROW_H

#include "steps.h"

enum { LONGEST_STATE_ROW = 4095, MOST_DIGITS = 13 };

/* How a field is written. A holder is a number or `manager`, a place a number or `ether`; for the word stands ETHER_NUMBER. */
typedef enum { NUMBER, FLAG, SET, HOLDER_FORM, PLACE_FORM } form_t;

enum { TIMER, SIGNAL, MANAGING, HOLDER, TO_RUN, TO_INTERRUPT, CYCLE, OPEN, MISSED, LONGEST, TASK_FIELDS };
enum { PLACE, EXECUTING, CLOCK, ACT_FIELDS };

static const form_t form_of_date[] = {NUMBER};
static const form_t forms_of_task[TASK_FIELDS] = {[TIMER] = NUMBER,  [SIGNAL] = FLAG,      [MANAGING] = FLAG, [HOLDER] = HOLDER_FORM,
                                                  [TO_RUN] = SET,    [TO_INTERRUPT] = SET, [CYCLE] = NUMBER,  [OPEN] = NUMBER,
                                                  [MISSED] = NUMBER, [LONGEST] = NUMBER};
static const form_t forms_of_act[ACT_FIELDS] = {[PLACE] = PLACE_FORM, [EXECUTING] = FLAG, [CLOCK] = NUMBER};

/* A state as a row tells it: what is not in the table stays 0, so two of one table are compared byte by byte. */
typedef struct {
    uint64_t date[1], task[MOST_TASKS][TASK_FIELDS], act[MOST_ACTS][ACT_FIELDS];
} saved_t;

/* ---- reading ---- */

/* A field of a row: from `at` up to the tab or newline at `end`. */
static bool saved_number(const uint8_t *at, const uint8_t *end, uint64_t *n) {
    if (end == at || end - at > MOST_DIGITS || (*at == '0' && end - at > 1)) return false;
    for (*n = 0; at < end; at++) {
        if (*at < '0' || *at > '9') return false;
        *n = 10 * *n + (uint64_t)(*at - '0');
    }
    return true;
}

static bool saved_set(const uint8_t *at, const uint8_t *end, uint64_t *set) {
    static const char digits[] = "0123456789abcdef";
    if (end - at != 16) return false;
    for (*set = 0; at < end; at++) {
        const char *digit = memchr(digits, *at, 16);
        if (!digit) return false;
        *set = *set << 4 | (uint64_t)(digit - digits);
    }
    return true;
}

static bool is_word(const uint8_t *at, const uint8_t *end, const char *word) {
    size_t n = strlen(word);
    return (size_t)(end - at) == n && memcmp(at, word, n) == 0;
}

static bool saved_or_word(const uint8_t *at, const uint8_t *end, const char *word, uint64_t *n) {
    if (!is_word(at, end, word)) return saved_number(at, end, n);
    *n = ETHER_NUMBER;
    return true;
}

static bool read_field(form_t form, const uint8_t *at, const uint8_t *end, uint64_t *field) {
    switch (form) {
    case NUMBER: return saved_number(at, end, field);
    case FLAG: return saved_number(at, end, field) && *field <= 1;
    case SET: return saved_set(at, end, field);
    case HOLDER_FORM: return saved_or_word(at, end, "manager", field);
    case PLACE_FORM: return saved_or_word(at, end, "ether", field);
    }
    return false;
}

/* Reads so many fields, each behind a tab; gives the place behind them, or NULL. */
static const uint8_t *read_fields(const uint8_t *p, const uint8_t *newline, const form_t *forms, int count, uint64_t *fields) {
    for (int i = 0; i < count; i++) {
        if (p == newline) return NULL;
        const uint8_t *at = p + 1, *tab = memchr(at, '\t', (size_t)(newline - at));
        p = tab ? tab : newline;
        if (!read_field(forms[i], at, p, &fields[i])) return NULL;
    }
    return p;
}

static bool begins_row(const uint8_t *p, const uint8_t *end) { return end - p >= 6 && memcmp(p, "state\t", 6) == 0; }

/* Reads the row that begins at `p`, before `end`, into a state that is all zeros; gives its next line, or NULL. */
static const uint8_t *read_row(const table_t *t, const uint8_t *p, const uint8_t *end, saved_t *s) {
    size_t rest = (size_t)(end - p);
    const uint8_t *newline = memchr(p, '\n', rest < LONGEST_STATE_ROW ? rest : LONGEST_STATE_ROW);
    if (!newline || !begins_row(p, newline)) return NULL;
    p = read_fields(p + 5, newline, form_of_date, 1, s->date);
    for (unsigned i = 0; p && i < t->count[TASK]; i++) p = read_fields(p, newline, forms_of_task, TASK_FIELDS, s->task[i]);
    for (unsigned i = 0; p && i < t->count[ACT]; i++) p = read_fields(p, newline, forms_of_act, ACT_FIELDS, s->act[i]);
    return p == newline ? newline + 1 : NULL;
}

/* ---- writing ---- */

static uint8_t *put_number(uint8_t *p, uint64_t n) {
    uint8_t digits[20];
    int k = 20;
    do digits[--k] = (uint8_t)('0' + n % 10);
    while (n /= 10);
    memcpy(p, digits + k, (size_t)(20 - k));
    return p + (20 - k);
}

static uint8_t *put_word(uint8_t *p, const char *word) {
    size_t n = strlen(word);
    memcpy(p, word, n);
    return p + n;
}

static uint8_t *put_set(uint8_t *p, uint64_t set) {
    for (int i = 60; i >= 0; i -= 4) *p++ = (uint8_t)"0123456789abcdef"[set >> i & 15];
    return p;
}

static uint8_t *put_fields(uint8_t *p, const form_t *forms, int count, const uint64_t *fields) {
    for (int i = 0; i < count; i++) {
        bool word = fields[i] == ETHER_NUMBER;
        *p++ = '\t';
        if (forms[i] == SET) p = put_set(p, fields[i]);
        else if (forms[i] == HOLDER_FORM && word) p = put_word(p, "manager");
        else if (forms[i] == PLACE_FORM && word) p = put_word(p, "ether");
        else p = put_number(p, fields[i]);
    }
    return p;
}

/* Writes the row of a sound state, which fits LONGEST_STATE_ROW bytes, and gives its length. */
static size_t write_row(const table_t *t, const saved_t *s, uint8_t *row) {
    uint8_t *p = put_fields(put_word(row, "state"), form_of_date, 1, s->date);
    for (unsigned i = 0; i < t->count[TASK]; i++) p = put_fields(p, forms_of_task, TASK_FIELDS, s->task[i]);
    for (unsigned i = 0; i < t->count[ACT]; i++) p = put_fields(p, forms_of_act, ACT_FIELDS, s->act[i]);
    *p++ = '\n';
    return (size_t)(p - row);
}

/* ---- the sound state, sentence by sentence ---- */

static bool is_pause_target(const table_t *t, uint64_t codel) {
    for (unsigned i = 0; i < t->count[EDGE]; i++)
        if (t->edge[i].pause && t->edge[i].target == codel) return true;
    return false;
}

static bool in_a_mutex(const table_t *t, uint64_t codel) {
    for (unsigned i = 0; i < t->count[MUTEX]; i++)
        if (t->mutex[i].lo == codel || t->mutex[i].hi == codel) return true;
    return false;
}

static bool sound_numbers(const task_row_t *row, const uint64_t *task, uint64_t date) {
    if (task[TIMER] > row->period || task[TIMER] > date) return false;
    uint64_t since = date - task[TIMER];
    bool counts = task[CYCLE] + task[SIGNAL] <= since && task[MISSED] <= since;
    bool idle = task[OPEN] == 0 && task[MISSED] == 0 && task[LONGEST] == 0;
    return counts && task[LONGEST] <= MOST_TICKS && task[OPEN] <= date && (task[MANAGING] || idle);
}

static bool sound_holding(const task_row_t *row, const uint64_t *task) {
    uint64_t holder = task[HOLDER], sets = task[TO_RUN] | task[TO_INTERRUPT];
    bool manager = holder == ETHER_NUMBER;
    if (sets & ~row->members) return false;
    if (!manager && (holder >= MOST_ACTS || !in_set(row->members, holder))) return false;
    return task[MANAGING] || (manager && sets == 0);
}

/* An activity, in a state whose tasks are sound. */
static bool sound_act(const table_t *t, const saved_t *s, unsigned a) {
    const uint64_t *task = s->task[t->act[a].task], *act = s->act[a];
    bool ether = act[PLACE] == ETHER_NUMBER, holds = task[HOLDER] == a, interrupted = in_set(task[TO_INTERRUPT], a);
    if (!ether && (act[PLACE] >= t->count[CODEL] || t->codel[act[PLACE]].act != a)) return false;
    if ((!holds || interrupted) && (act[EXECUTING] || !(ether || is_pause_target(t, act[PLACE])))) return false;
    if (holds && ether && !in_set(task[TO_RUN] | task[TO_INTERRUPT], a)) return false;
    if (ether && act[EXECUTING]) return false;
    if (holds && !interrupted && !ether && !act[EXECUTING] && !in_a_mutex(t, act[PLACE])) return false;
    return act[CLOCK] <= (act[EXECUTING] ? t->codel[act[PLACE]].limit : 0);
}

static bool executes(const table_t *t, const saved_t *s, unsigned codel) {
    const uint64_t *act = s->act[t->codel[codel].act];
    return act[EXECUTING] && act[PLACE] == codel;
}

static bool sound(const table_t *t, const saved_t *s) {
    if (s->date[0] > CEILING) return false;
    for (unsigned i = 0; i < t->count[TASK]; i++)
        if (!sound_numbers(&t->task[i], s->task[i], s->date[0]) || !sound_holding(&t->task[i], s->task[i])) return false;
    for (unsigned i = 0; i < t->count[ACT]; i++)
        if (!sound_act(t, s, i)) return false;
    for (unsigned i = 0; i < t->count[MUTEX]; i++)
        if (executes(t, s, t->mutex[i].lo) && executes(t, s, t->mutex[i].hi)) return false;
    return true;
}

#endif
