/* judge.h: the judge of component logs, for a recorder that has table and log in memory.
 *
 * Link with the product's archive (x86-64), as recorder/build does. */
#ifndef JUDGE_H
#define JUDGE_H

#include <stddef.h>
#include <stdint.h>

#ifdef __cplusplus
extern "C" {
#endif

/* Room for any report on a log of so many bytes. A kept cycle has one row of at most 75 bytes, and in the log an `fm` of its own and an
 * `sm` or, where it was open in the `state` row that the log begins with, its task's part of that row: 44 bytes or more. The rows
 * `cycles` and `sum` together are shorter than 256 bytes. */
#define JUDGE_ROOM(log_length) (2 * (size_t)(log_length) + 256)

/* Room for any `state` row. */
#define REACHED_ROOM 4095

/* Judges a log by a component table and writes the report.
 *
 * `table` is the text of the table, whole, up to and with its `end` row; `log` is the text of the log from the component's start on, or
 * from a `state` row on, which `reached` gave for the log before. Neither needs a zero behind it, and neither is changed. `report` is
 * memory of the caller's that overlaps neither of them. A part of length 0 still wants a pointer that is not null.
 *
 * The answer is the length of the report, which then fills the first bytes of `report`; the bytes behind it stay as they were. It is 0
 * exactly when the report is longer than `report_length`, and all of `report` stays as it was: no report is empty (proved: `judge-zero`).
 * A table or a step that breaks the rules is no failure: the last two numbers of the report say which rule was broken, and in which line.
 *
 * It allocates nothing and calls nothing; a thread that calls it should have 256 KiB of stack, of which it takes less than half. */
size_t judge(const uint8_t *table, size_t table_length, const uint8_t *log, size_t log_length, uint8_t *report, size_t report_length);

/* Writes the `state` row of the state after a log's last line, with its newline: the first line of the file in which the drive goes on.
 *
 * `table` and `log` are as for `judge`. `row`, of so many bytes, and `refusal`, of so many numbers, are memory of the caller's that
 * overlaps nothing else of the call. A part of length 0 still wants a pointer that is not null.
 *
 * The answer is the length of the row, which then fills the first bytes of `row`; the bytes behind it stay as they were. It is 0 where the
 * table or the log is refused, and where the row is longer than `row_length`, and all of `row` stays as it was.
 *
 * The first two numbers of `refusal` become the number and the line of the refusal, as `judge` reports them; 31 and 0 where the row does
 * not fit; 0 and 0 where there is a row. Numbers behind them stay as they were, and so does all of a `refusal` of fewer than two.
 *
 * It allocates nothing and calls nothing; the stack is as for `judge`. */
size_t reached(const uint8_t *table, size_t table_length, const uint8_t *log, size_t log_length, uint8_t *row, size_t row_length,
               uint64_t *refusal, size_t refusal_length);

#ifdef __cplusplus
}
#endif

#endif
