/* What both engines do alike, on the task_t and engine_t of the one that is included before it. */
#ifndef ALIKE_H
#define ALIKE_H

static inline bool is_managing(const engine_t *e, unsigned task) { return e->task[task].managing; }

static inline unsigned do_sm(engine_t *e, uint64_t task, uint64_t n, uint64_t r) {
    if (task >= e->table->count[TASK] || (n | r) & ~e->table->task[task].members) return 12;
    task_t *t = &e->task[task];
    if (t->managing || !t->signal) return 13;
    t->signal = false;
    t->managing = true;
    t->to_run = n;
    t->to_interrupt = r;
    t->cycle++;
    t->open = e->date;
    return 0;
}

static void save_task(const engine_t *e, unsigned i, uint64_t *to) {
    const task_t *t = &e->task[i];
    to[TIMER] = timer_of(e, i);
    to[SIGNAL] = t->signal;
    to[MANAGING] = t->managing;
    to[HOLDER] = t->holder == NONE ? ETHER_NUMBER : (uint64_t)t->holder;
    to[TO_RUN] = t->to_run;
    to[TO_INTERRUPT] = t->to_interrupt;
    to[CYCLE] = t->cycle;
    to[OPEN] = t->open;
    to[MISSED] = t->missed;
    to[LONGEST] = t->longest;
}

static void load_task(task_t *t, const uint64_t *from) {
    t->signal = from[SIGNAL];
    t->managing = from[MANAGING];
    t->holder = from[HOLDER] == ETHER_NUMBER ? NONE : (int16_t)from[HOLDER];
    t->to_run = from[TO_RUN];
    t->to_interrupt = from[TO_INTERRUPT];
    t->cycle = from[CYCLE];
    t->open = from[OPEN];
    t->missed = from[MISSED];
    t->longest = from[LONGEST];
}

/* The state as a row tells it, in a saved_t that is all zeros. */
static void save(const engine_t *e, saved_t *s) {
    s->date[0] = e->date;
    for (unsigned i = 0; i < e->table->count[TASK]; i++) save_task(e, i, s->task[i]);
    for (unsigned i = 0; i < e->table->count[ACT]; i++) {
        s->act[i][PLACE] = e->act[i].at == ETHER ? ETHER_NUMBER : (uint64_t)e->act[i].at;
        s->act[i][EXECUTING] = e->act[i].executing;
        s->act[i][CLOCK] = clock_of(e, i);
    }
}

/* Puts an engine that is fresh into a sound state. */
static void load(engine_t *e, const saved_t *s) {
    e->date = s->date[0];
    for (unsigned i = 0; i < e->table->count[TASK]; i++) load_task(&e->task[i], s->task[i]);
    for (unsigned i = 0; i < e->table->count[ACT]; i++) {
        e->act[i].at = s->act[i][PLACE] == ETHER_NUMBER ? ETHER : (uint16_t)s->act[i][PLACE];
        e->act[i].executing = s->act[i][EXECUTING];
    }
    load_times(e, s);
}

#endif
