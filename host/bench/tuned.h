/* The tuned engine: nothing grows at a wait. A timer and a clock are kept as the date when they end, sets of codels as bits, and the tasks
 * that hinder a wait are known at any time. */
#ifndef TUNED_H
#define TUNED_H

#include "row.h"

static const uint64_t NEVER = UINT64_MAX;

/* A set of codels. */
typedef struct {
    uint64_t w[4];
} codels_t;

static inline void put_codel(codels_t *s, unsigned c) { s->w[c >> 6] |= 1ull << (c & 63); }
static inline void drop_codel(codels_t *s, unsigned c) { s->w[c >> 6] &= ~(1ull << (c & 63)); }
static inline bool has_codel(const codels_t *s, unsigned c) { return s->w[c >> 6] >> (c & 63) & 1; }
static inline bool meet(const codels_t *a, const codels_t *b) {
    return ((a->w[0] & b->w[0]) | (a->w[1] & b->w[1]) | (a->w[2] & b->w[2]) | (a->w[3] & b->w[3])) != 0;
}

/* It lies in two lines of the cache, so that finding one is a shift. */
typedef struct {
    _Alignas(128) codels_t run;
    codels_t pause, conflict;
    uint32_t limit;
    bool ends, safe; /* ends: a run edge to ether; safe: no conflict */
} codel_t;

typedef struct {
    uint64_t to_run, to_interrupt, cycle, open, missed, longest;
    int16_t holder; /* an activity, or NONE: the manager */
    bool signal, managing;
} task_t;

typedef struct {
    uint64_t since; /* the date when its clock was 0; the clock is date - since while it executes */
    uint16_t at;    /* a codel or ETHER */
    bool executing;
} act_t;

typedef struct {
    const table_t *table;
    uint64_t date;
    uint64_t soonest;  /* a date that no end below is before */
    uint32_t ready;    /* tasks with something to do before a wait, conflicts apart */
    uint32_t standing; /* tasks whose holder stands before its codel */
    codels_t busy;     /* the codels with conflicts that execute */
    uint64_t timer_end[MOST_TASKS]; /* the date when the timer is at its period */
    uint64_t clock_end[MOST_TASKS]; /* the date when the holder's executing clock is at its limit, else NEVER */
    uint8_t task_of[MOST_ACTS];
    task_t task[MOST_TASKS];
    act_t act[MOST_ACTS];
    codel_t codel[MOST_CODELS];
} engine_t;

static void set_codels(engine_t *e, const table_t *t) {
    for (unsigned i = 0; i < t->count[CODEL]; i++) e->codel[i] = (codel_t){.limit = t->codel[i].limit, .safe = true};
    for (unsigned i = 0; i < t->count[EDGE]; i++) {
        const edge_row_t *edge = &t->edge[i];
        codel_t *from = &e->codel[edge->codel];
        if (edge->target == ETHER) from->ends = true;
        else put_codel(edge->pause ? &from->pause : &from->run, edge->target);
    }
    for (unsigned i = 0; i < t->count[MUTEX]; i++) {
        codel_t *lo = &e->codel[t->mutex[i].lo], *hi = &e->codel[t->mutex[i].hi];
        put_codel(&lo->conflict, t->mutex[i].hi);
        put_codel(&hi->conflict, t->mutex[i].lo);
        lo->safe = hi->safe = false;
    }
}

static void start_fresh(engine_t *e, const table_t *t) {
    e->table = t;
    set_codels(e, t);
    for (unsigned i = 0; i < t->count[TASK]; i++) {
        e->timer_end[i] = t->task[i].period;
        e->clock_end[i] = NEVER;
        e->task[i].holder = NONE;
    }
    for (unsigned i = 0; i < t->count[ACT]; i++) {
        e->act[i].at = ETHER;
        e->task_of[i] = t->act[i].task;
    }
}

static inline void start_clock(engine_t *e, unsigned task, const codel_t *codel) {
    uint64_t end = e->date + codel->limit;
    e->clock_end[task] = end;
    if (end < e->soonest) e->soonest = end;
}

static inline void enter(engine_t *e, unsigned task, act_t *act, unsigned c) {
    const codel_t *codel = &e->codel[c];
    act->at = (uint16_t)c;
    act->since = e->date;
    act->executing = codel->safe;
    e->ready &= ~(1u << task);
    if (codel->safe) start_clock(e, task, codel);
    else e->standing |= 1u << task;
}

/* Takes the activity off the codel that it executes. */
static inline void leave(engine_t *e, unsigned task, const act_t *act) {
    uint64_t clock = e->date - act->since;
    if (clock > e->task[task].longest) e->task[task].longest = clock;
    drop_codel(&e->busy, act->at);
    e->clock_end[task] = NEVER;
}

static inline void give_back(engine_t *e, unsigned task, unsigned a, unsigned place) {
    task_t *t = &e->task[task];
    t->to_run = without(t->to_run, a);
    t->to_interrupt = without(t->to_interrupt, a);
    t->holder = NONE;
    e->act[a].at = (uint16_t)place;
    e->act[a].executing = false;
    e->ready |= 1u << task;
}

static bool some_stand_free(const engine_t *e) {
    for (uint32_t rest = e->standing; rest; rest &= rest - 1) {
        unsigned task = (unsigned)__builtin_ctz(rest);
        unsigned at = e->act[e->task[task].holder].at;
        if (!meet(&e->codel[at].conflict, &e->busy)) return true;
    }
    return false;
}

static uint64_t soonest_end(const engine_t *e) {
    uint64_t soonest = NEVER;
    for (unsigned i = 0, n = e->table->count[TASK]; i < n; i++) {
        uint64_t end = e->timer_end[i] < e->clock_end[i] ? e->timer_end[i] : e->clock_end[i];
        if (end < soonest) soonest = end;
    }
    return soonest;
}

/* An `st` and the end of a codel only put ends off, so the soonest one is looked for anew only when a wait goes past the date known. */
static inline unsigned do_wait(engine_t *e, uint64_t d) {
    if (!in_range(d)) return 12;
    if (e->ready || some_stand_free(e)) return 16;
    uint64_t date = e->date + d;
    if (date > e->soonest && date > (e->soonest = soonest_end(e))) return 17;
    if (date > CEILING) return 18;
    e->date = date;
    return 0;
}

static inline unsigned do_st(engine_t *e, uint64_t task) {
    if (task >= e->table->count[TASK]) return 12;
    if (e->date < e->timer_end[task]) return 14;
    task_t *t = &e->task[task];
    e->timer_end[task] = e->date + e->table->task[task].period;
    if (!t->managing) e->ready |= 1u << task;
    else t->missed++;
    t->signal = true;
    return 0;
}

static inline unsigned do_lm(engine_t *e, uint64_t task, uint64_t a) {
    if (task >= e->table->count[TASK] || a >= e->table->count[ACT]) return 12;
    task_t *t = &e->task[task];
    if (!t->managing || t->holder != NONE || !in_set(t->to_run | t->to_interrupt, a)) return 13;
    act_t *act = &e->act[a];
    t->holder = (int16_t)a;
    if (act->at != ETHER && !in_set(t->to_interrupt, a)) enter(e, (unsigned)task, act, act->at);
    return 0;
}

static inline unsigned do_ia(engine_t *e, uint64_t a) {
    if (a >= e->table->count[ACT]) return 12;
    unsigned task = e->task_of[a];
    task_t *t = &e->task[task];
    if (t->holder != (int)a || !in_set(t->to_interrupt, a)) return 13;
    int stop = e->table->act[a].stop;
    if (stop == NONE) {
        give_back(e, task, (unsigned)a, ETHER);
    } else {
        t->to_interrupt = without(t->to_interrupt, a);
        enter(e, task, &e->act[a], (unsigned)stop);
    }
    return 0;
}

static inline unsigned do_ea(engine_t *e, uint64_t a, uint64_t c) {
    const table_t *table = e->table;
    if (a >= table->count[ACT] || c >= table->count[CODEL]) return 12;
    unsigned task = e->task_of[a];
    act_t *act = &e->act[a];
    if (e->task[task].holder != (int)a || in_set(e->task[task].to_interrupt, a)) return 13;
    if (act->at == ETHER) {
        if (table->act[a].start != (int)c) return 13;
    } else {
        if (!act->executing || !has_codel(&e->codel[act->at].run, (unsigned)c)) return 13;
        if (act->since == e->date) return 14;
        leave(e, task, act);
    }
    enter(e, task, act, (unsigned)c);
    return 0;
}

static inline unsigned do_cx(engine_t *e, uint64_t a) {
    if (a >= e->table->count[ACT]) return 12;
    unsigned task = e->task_of[a];
    if (e->task[task].holder != (int)a || !(e->standing >> task & 1)) return 13;
    act_t *act = &e->act[a];
    const codel_t *codel = &e->codel[act->at];
    if (meet(&codel->conflict, &e->busy)) return 15;
    e->standing &= ~(1u << task);
    put_codel(&e->busy, act->at);
    act->executing = true;
    act->since = e->date;
    start_clock(e, task, codel);
    return 0;
}

static inline unsigned do_fa(engine_t *e, uint64_t a, uint64_t target) {
    const table_t *table = e->table;
    bool to_ether = target == ETHER_NUMBER;
    if (a >= table->count[ACT] || (!to_ether && target >= table->count[CODEL])) return 12;
    unsigned task = e->task_of[a];
    act_t *act = &e->act[a];
    if (e->task[task].holder != (int)a || !act->executing) return 13;
    const codel_t *codel = &e->codel[act->at];
    if (!(to_ether ? codel->ends : has_codel(&codel->pause, (unsigned)target))) return 13;
    if (act->since == e->date) return 14;
    leave(e, task, act);
    give_back(e, task, (unsigned)a, to_ether ? ETHER : (unsigned)target);
    return 0;
}

static inline unsigned do_fm(engine_t *e, uint64_t task, cycle_t *closed) {
    if (task >= e->table->count[TASK]) return 12;
    task_t *t = &e->task[task];
    if (!t->managing || t->holder != NONE || (t->to_run | t->to_interrupt)) return 13;
    *closed = (cycle_t){task, t->cycle, t->open, e->date, t->missed, t->longest};
    t->managing = false;
    t->open = t->missed = t->longest = 0;
    if (!t->signal) e->ready &= ~(1u << task);
    return 0;
}

static uint64_t timer_of(const engine_t *e, unsigned task) { return e->date + e->table->task[task].period - e->timer_end[task]; }

static uint64_t clock_of(const engine_t *e, unsigned a) { return e->act[a].executing ? e->date - e->act[a].since : 0; }

/* Notes whether the task has something to do before a wait, or its holder stands or executes. */
static void note_task(engine_t *e, unsigned task) {
    const task_t *t = &e->task[task];
    if (t->holder == NONE) {
        if (t->managing || t->signal) e->ready |= 1u << task;
        return;
    }
    const act_t *act = &e->act[t->holder];
    if (act->at == ETHER || in_set(t->to_interrupt, (unsigned)t->holder)) {
        e->ready |= 1u << task;
    } else if (!act->executing) {
        e->standing |= 1u << task;
    } else {
        e->clock_end[task] = act->since + e->codel[act->at].limit;
        if (!e->codel[act->at].safe) put_codel(&e->busy, act->at);
    }
}

/* A clock may have begun before date 0: `since` then wraps around, and so does each sum with it, to the right number. */
static void load_times(engine_t *e, const saved_t *s) {
    for (unsigned i = 0; i < e->table->count[ACT]; i++) e->act[i].since = e->date - s->act[i][CLOCK];
    for (unsigned i = 0; i < e->table->count[TASK]; i++) {
        e->timer_end[i] = e->date + e->table->task[i].period - s->task[i][TIMER];
        note_task(e, i);
    }
}

#endif
