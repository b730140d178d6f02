/* The rules of federal tax deposits, and a desk in memory, for C: the static library of crates/ftd_c, in which each function is proved.
 *
 * A day is the number of days after 1 January 1900. The holidays are those of the year of the deposit's last day, and those of the
 * next year: at most 60 each, all in their year, each later than the one before. A pointer is never null, also where its count is 0.
 * Nothing is kept from call to call. A call may ask for memory, and gives it back: so make none in a signal handler, nor in the forked child of
 * a process with threads.
 *
 * Written by hand after the signatures of crates/ftd_c/src: what a function answers stands there, in its contract.
 */
#ifndef FTD_H
#define FTD_H

#include <stdbool.h>
#include <stddef.h>
#include <stdint.h>

#ifdef __cplusplus
extern "C" {
#endif

/* What is answered in place of a day: an argument is out of range, or memory was refused. */
#define FTD_OUT_OF_RANGE UINT32_MAX
#define FTD_NO_MEMORY (UINT32_MAX - 1)

/* The rule of a deposit. */
enum { FTD_MONTHLY = 0, FTD_SEMIWEEKLY = 1, FTD_NEXT_DAY = 2 };

/* The verdict on a deposit, and what is answered in its place where the case is out of range. */
enum { FTD_MET, FTD_WITH_RETURN, FTD_OPEN, FTD_MADE_UP, FTD_SHORT, FTD_LATE, FTD_NO_VERDICT = 255 };

/* What the verdict depends on: amounts in cents; that of the deposit is below 6,000,000,000,000,000. */
typedef struct {
    uint64_t cents;       /* the amount of the deposit */
    uint64_t paid_due;    /* paid for it up to its due date, and up to the as-of day */
    uint64_t paid_makeup; /* paid for it up to its makeup date, and up to the as-of day */
    uint32_t due;         /* its due date */
    uint32_t makeup;      /* its makeup date */
    uint32_t return_due;  /* the due date of the return of its quarter */
    uint32_t as_of;       /* the day as of which the verdict is asked */
    bool small;           /* whether its quarter may be paid with the return */
    bool quarter_paid;    /* whether what was paid up to the return reaches the quarter's total */
} ftd_case;

/* The day of a year, month and day of the month (both from 1), from 1900 to 2199. */
uint32_t ftd_day(uint32_t year, uint32_t month, uint32_t day);

/* When a deposit for days up to `last` is due; `last` is a day of 2001 to 2098. */
uint32_t ftd_due(uint8_t rule, uint32_t last, const uint32_t *this_year, size_t this_count, const uint32_t *next_year, size_t next_count);

/* When the return for the quarter of `last` is due, for form 943 that for its year; `form` is 941 or 943. */
uint32_t ftd_return_due(uint16_t form, uint32_t last, const uint32_t *this_year, size_t this_count, const uint32_t *next_year, size_t next_count);

/* Until when a tolerated shortfall of a deposit for days up to `last` can be made up. */
uint32_t ftd_makeup(uint16_t form, uint8_t rule, uint32_t last, const uint32_t *this_year, size_t this_count, const uint32_t *next_year, size_t next_count);

/* How a deposit stands. */
uint8_t ftd_verdict(const ftd_case *deposit);

/* What is answered in place of a count of bytes: memory was refused. */
#define FTD_NO_ANSWERS SIZE_MAX

/* Answers messages of HTTP (docs/HTTP.md), one after the other, by a desk in memory that begins with nothing entered and ends with the call.
 * The bytes are those of one connection. It ends with them; and before them after a message that asks for it, after the hundredth, and after
 * one that is refused by its head, whose answer says so by `Connection: close`. A message that is cut has no answer.
 *
 * Answers how many bytes the answers have. They stand at the front of `answers` where it has room for all of them; where it has not, or memory
 * was refused, nothing is written. So a call with `answers_count` 0 tells how much room to make. `answers` and `messages` are apart. */
size_t ftd_answer(const uint8_t *messages, size_t messages_count, uint8_t *answers, size_t answers_count);

#ifdef __cplusplus
}
#endif

#endif
