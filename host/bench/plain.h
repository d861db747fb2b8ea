/* The plain engine: the state as document 01 names it, changed in place; timers and clocks grow at each wait. */
#ifndef PLAIN_H
#define PLAIN_H

#include "row.h"

typedef struct {
    uint64_t timer, to_run, to_interrupt, cycle, open, missed, longest;
    int holder; /* an activity, or NONE: the manager */
    bool signal, managing;
} task_t;

typedef struct {
    uint64_t clock;
    int at; /* a codel or ETHER */
    bool executing;
} act_t;

typedef struct {
    const table_t *table;
    uint64_t date;
    task_t task[MOST_TASKS];
    act_t act[MOST_ACTS];
    uint16_t first_edge[MOST_CODELS + 1];    /* where a codel's edge rows begin; they end where the next codel's begin */
    uint16_t first_partner[MOST_CODELS + 1]; /* the same for the codels that it conflicts with */
    uint16_t partner[2 * MOST_MUTEXES];
} engine_t;

static void list_edges(engine_t *e, const table_t *t) {
    unsigned row = 0;
    for (unsigned c = 0; c <= t->count[CODEL]; c++) {
        while (row < t->count[EDGE] && t->edge[row].codel < c) row++;
        e->first_edge[c] = (uint16_t)row;
    }
}

static void list_partners(engine_t *e, const table_t *t) {
    unsigned n = 0;
    for (unsigned c = 0; c < t->count[CODEL]; c++) {
        e->first_partner[c] = (uint16_t)n;
        for (unsigned i = 0; i < t->count[MUTEX]; i++) {
            if (t->mutex[i].lo == c) e->partner[n++] = t->mutex[i].hi;
            else if (t->mutex[i].hi == c) e->partner[n++] = t->mutex[i].lo;
        }
    }
    e->first_partner[t->count[CODEL]] = (uint16_t)n;
}

static void start_fresh(engine_t *e, const table_t *t) {
    e->table = t;
    list_edges(e, t);
    list_partners(e, t);
    for (unsigned i = 0; i < t->count[TASK]; i++) e->task[i] = (task_t){.holder = NONE};
    for (unsigned i = 0; i < t->count[ACT]; i++) e->act[i] = (act_t){.at = ETHER};
}

static bool has_edge(const engine_t *e, int codel, int target, bool pause) {
    for (unsigned i = e->first_edge[codel]; i < e->first_edge[codel + 1]; i++)
        if (e->table->edge[i].target == target) return e->table->edge[i].pause == pause;
    return false;
}

static bool thread_safe(const engine_t *e, int codel) { return e->first_partner[codel] == e->first_partner[codel + 1]; }

static bool conflict_executes(const engine_t *e, int codel) {
    for (unsigned i = e->first_partner[codel]; i < e->first_partner[codel + 1]; i++) {
        int other = e->partner[i];
        const act_t *act = &e->act[e->table->codel[other].act];
        if (act->executing && act->at == other) return true;
    }
    return false;
}

static task_t *task_of(engine_t *e, uint64_t a) { return &e->task[e->table->act[a].task]; }

static bool stands(const task_t *t, const act_t *act, uint64_t a) {
    return t->holder == (int)a && !in_set(t->to_interrupt, a) && act->at != ETHER && !act->executing;
}

static void enter(const engine_t *e, act_t *act, int codel) {
    act->at = codel;
    act->executing = thread_safe(e, codel);
    act->clock = 0;
}

static void give_back(task_t *t, act_t *act, uint64_t a, int place) {
    t->to_run = without(t->to_run, a);
    t->to_interrupt = without(t->to_interrupt, a);
    t->holder = NONE;
    *act = (act_t){.at = place};
}

static void note_clock(task_t *t, const act_t *act) {
    if (act->clock > t->longest) t->longest = act->clock;
}

/* 16, for one task: whether some step of its own must come before a wait. */
static bool hinders(const engine_t *e, const task_t *t) {
    if (!t->managing) return t->signal;
    if (t->holder == NONE || in_set(t->to_interrupt, (uint64_t)t->holder)) return true;
    const act_t *act = &e->act[t->holder];
    if (act->at == ETHER) return true;
    return !act->executing && !conflict_executes(e, act->at);
}

/* 17, for one task: only its holder executes. */
static bool passes_a_limit(const engine_t *e, unsigned task, uint64_t d) {
    const task_t *t = &e->task[task];
    if (t->timer + d > e->table->task[task].period) return true;
    if (t->holder == NONE) return false;
    const act_t *act = &e->act[t->holder];
    return act->executing && act->clock + d > e->table->codel[act->at].limit;
}

static void pass_time(engine_t *e, uint64_t d) {
    e->date += d;
    for (unsigned i = 0; i < e->table->count[TASK]; i++) {
        task_t *t = &e->task[i];
        t->timer += d;
        if (t->holder != NONE && e->act[t->holder].executing) e->act[t->holder].clock += d;
    }
}

static unsigned do_wait(engine_t *e, uint64_t d) {
    unsigned tasks = e->table->count[TASK];
    if (!in_range(d)) return 12;
    for (unsigned i = 0; i < tasks; i++)
        if (hinders(e, &e->task[i])) return 16;
    for (unsigned i = 0; i < tasks; i++)
        if (passes_a_limit(e, i, d)) return 17;
    if (e->date + d > CEILING) return 18;
    pass_time(e, d);
    return 0;
}

static unsigned do_st(engine_t *e, uint64_t task) {
    if (task >= e->table->count[TASK]) return 12;
    task_t *t = &e->task[task];
    if (t->timer < e->table->task[task].period) return 14;
    t->timer = 0;
    if (t->managing) t->missed++;
    t->signal = true;
    return 0;
}

static unsigned do_lm(engine_t *e, uint64_t task, uint64_t a) {
    if (task >= e->table->count[TASK] || a >= e->table->count[ACT]) return 12;
    task_t *t = &e->task[task];
    if (!t->managing || t->holder != NONE || !in_set(t->to_run | t->to_interrupt, a)) return 13;
    act_t *act = &e->act[a];
    t->holder = (int)a;
    if (act->at != ETHER && !in_set(t->to_interrupt, a)) enter(e, act, act->at);
    return 0;
}

static unsigned do_ia(engine_t *e, uint64_t a) {
    if (a >= e->table->count[ACT]) return 12;
    task_t *t = task_of(e, a);
    if (t->holder != (int)a || !in_set(t->to_interrupt, a)) return 13;
    int stop = e->table->act[a].stop;
    if (stop == NONE) {
        give_back(t, &e->act[a], a, ETHER);
    } else {
        t->to_interrupt = without(t->to_interrupt, a);
        enter(e, &e->act[a], stop);
    }
    return 0;
}

static unsigned do_ea(engine_t *e, uint64_t a, uint64_t c) {
    if (a >= e->table->count[ACT] || c >= e->table->count[CODEL]) return 12;
    task_t *t = task_of(e, a);
    act_t *act = &e->act[a];
    if (t->holder != (int)a || in_set(t->to_interrupt, a)) return 13;
    if (act->at == ETHER) {
        if (e->table->act[a].start != (int)c) return 13;
    } else {
        if (!act->executing || !has_edge(e, act->at, (int)c, false)) return 13;
        if (act->clock == 0) return 14;
        note_clock(t, act);
    }
    enter(e, act, (int)c);
    return 0;
}

static unsigned do_cx(engine_t *e, uint64_t a) {
    if (a >= e->table->count[ACT]) return 12;
    act_t *act = &e->act[a];
    if (!stands(task_of(e, a), act, a)) return 13;
    if (conflict_executes(e, act->at)) return 15;
    act->executing = true;
    act->clock = 0;
    return 0;
}

static unsigned do_fa(engine_t *e, uint64_t a, uint64_t target) {
    bool to_ether = target == ETHER_NUMBER;
    if (a >= e->table->count[ACT] || (!to_ether && target >= e->table->count[CODEL])) return 12;
    task_t *t = task_of(e, a);
    act_t *act = &e->act[a];
    int place = to_ether ? ETHER : (int)target;
    if (t->holder != (int)a || !act->executing || !has_edge(e, act->at, place, !to_ether)) return 13;
    if (act->clock == 0) return 14;
    note_clock(t, act);
    give_back(t, act, a, place);
    return 0;
}

static unsigned do_fm(engine_t *e, uint64_t task, cycle_t *closed) {
    if (task >= e->table->count[TASK]) return 12;
    task_t *t = &e->task[task];
    if (!t->managing || t->holder != NONE || (t->to_run | t->to_interrupt)) return 13;
    *closed = (cycle_t){task, t->cycle, t->open, e->date, t->missed, t->longest};
    t->managing = false;
    t->open = t->missed = t->longest = 0;
    return 0;
}

static uint64_t timer_of(const engine_t *e, unsigned task) { return e->task[task].timer; }

static uint64_t clock_of(const engine_t *e, unsigned a) { return e->act[a].clock; }

static void load_times(engine_t *e, const saved_t *s) {
    for (unsigned i = 0; i < e->table->count[TASK]; i++) e->task[i].timer = s->task[i][TIMER];
    for (unsigned i = 0; i < e->table->count[ACT]; i++) e->act[i].clock = s->act[i][CLOCK];
}

#endif
