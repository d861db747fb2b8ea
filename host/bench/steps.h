/* What both step engines share: the words in which they speak to the judge.
 *
 * An engine has a type engine_t with a field `date`, and these functions. Each do_ function tests a step in the order of document 01's
 * refusals, does it where it is accepted, and answers 0 or the number of the refusal.
 *
 *   start_fresh(engine, table)      the fresh state of a table that is fine, in an engine that is all zeros
 *   do_wait(engine, d)              and so on for st, sm, lm, ia, ea, cx, fa
 *   do_fm(engine, task, closed)     tells the cycle that it closes
 *   is_managing(engine, task)       whether the task's manager is managing
 *   timer_of(engine, task)          the task's timer
 *   clock_of(engine, activity)      the activity's clock
 *   load_times(engine, saved)       takes timers, clocks and what follows from the rest of a saved state, which is in the engine already */
#ifndef STEPS_H
#define STEPS_H

#include "table.h"

static const uint64_t CEILING = 1000000000000u;

/* A closed cycle, in the order of a `kept` row. */
typedef struct {
    uint64_t task, number, open, close, missed, longest;
} cycle_t;

static inline bool in_set(uint64_t set, uint64_t a) { return set >> a & 1; }

static inline uint64_t without(uint64_t set, uint64_t a) { return set & ~(1ull << a); }

#endif
