/* Vakrhildo for C: the proved planner, the roll's reader and its writer. Link with
   target/staticlib/libvakrhildo.a, which `./build vakrhildo` writes (x86-64 Linux). All five
   functions answer every input; they use no heap, no global state, nothing of another library but
   memset, and at most 21 KiB of stack. */
#ifndef VAKRHILDO_H
#define VAKRHILDO_H

#include <stddef.h>
#include <stdint.h>

#ifdef __cplusplus
extern "C" {
#endif

/* The most reports, and the numbers of a row: a buffer of VAKRHILDO_ROW * VAKRHILDO_REPORTS numbers
   is long enough for the rows of every list. */
#define VAKRHILDO_REPORTS 1024
#define VAKRHILDO_ROW 5
/* The bytes of the longest roll that is written, 16 + 12 * VAKRHILDO_REPORTS: a buffer with so many
   behind the place is long enough for the roll of every list. */
#define VAKRHILDO_ROLL 12304

/* number: 0, a plan; else the refusal. The rules are tried in the order 10 to 13 (for a roll), then
   1 to 4, 16 and 17 (where there is a floor), then 5 to 9, each over the whole list before the next:
      10  roll shorter than 16 bytes, or marked "AF" and shorter than 20
      11  mark wrong (the last two bytes are neither "AQ" nor "AF")
      12  back distance is not 16 + 12 times the count; 20 + 12 times in a roll marked "AF"
      13  back distance exceeds the roll's length
       1  the three lists differ in length
       2  more than 1,024 reports
       3  row buffer shorter than 5 times the reports
       4  P or Q outside 1 to 65,535
      16  R or T outside 1 to 65,535
      17  R/T below P/Q (equal is fine)
       5  operations 0 or above 65,535
       6  arrival offset above 2,147,483,647
       7  deadline offset above 2,147,483,647
       8  arrival offset below that of the report before
       9  no allowed plan: the place is the least i such that reports 0 to i have none
   (14, an input longer than 65,536 bytes, is given by the program rollplan only; 15, too little room
   in the buffer behind the place, by vakrhildo_write only, which has its own rules below.)
   place: the least report at fault, 0 where no report is.
   blocks: how many rows were written; 0 on a refusal. */
typedef struct {
    uint32_t number;
    size_t place;
    size_t blocks;
} vakrhildo_reply;

/* Plans a list, without a floor. arrivals and deadlines are readings of a 32-bit clock that goes on from
   0; a reading's offset is reading minus reference, modulo 2^32. P/Q is the fastest pace in ticks per
   operation. The rows stand at the front of rows, in order, five numbers each: first report, last report
   (counted from 0), start offset, end offset, operations; the numbers behind them stay as they were, and
   on a refusal all of them. A list of length n is n numbers from its pointer on; where n is 0 the pointer
   may be any that is not NULL. rows must not overlap the lists. */
vakrhildo_reply vakrhildo_plan(const uint32_t *arrivals, size_t arrivals_length,
                               const uint32_t *deadlines, size_t deadlines_length,
                               const uint32_t *operations, size_t operations_length,
                               uint32_t reference, uint32_t p, uint32_t q,
                               uint32_t *rows, size_t rows_length);

/* Plans a list as vakrhildo_plan does, with a floor: R/T is the slowest pace, in ticks per operation.
   Refusals 16 and 17 are tried too; where neither is given, the reply and the rows are those that
   vakrhildo_plan gives. What runs is not the rows: each report runs at the faster of R/T and its row's
   pace, (end - start) / operations. Its start is the later of its arrival and the finish of the report
   before; its finish is its start plus its operations times the pace it runs at. So a row's reports may be
   done before the row's end, and none finishes later than in the row. */
vakrhildo_reply vakrhildo_plan_floor(const uint32_t *arrivals, size_t arrivals_length,
                                     const uint32_t *deadlines, size_t deadlines_length,
                                     const uint32_t *operations, size_t operations_length,
                                     uint32_t reference, uint32_t p, uint32_t q,
                                     uint32_t r, uint32_t t,
                                     uint32_t *rows, size_t rows_length);

/* Plans the list in a roll: a free preface, records of 12 bytes (arrival, deadline, operations), and the
   trailer that points back; all little-endian. A trailer marked "AQ" has 16 bytes: back distance (4),
   reference (4), count (2), P (2), Q (2), mark (2); there is no floor. One marked "AF" has 20: R (2) and
   T (2) of the floor R/T, then the same; it is planned as vakrhildo_plan_floor does. */
vakrhildo_reply vakrhildo_plan_roll(const uint8_t *roll, size_t roll_length,
                                    uint32_t *rows, size_t rows_length);

/* What is read of a roll, in numbers.
   number: 0, or the refusal 10 to 13; on a refusal all the others are 0.
   count, reference, p, q: the trailer's.
   floor, r, t: 1 and the trailer's R and T in a roll marked "AF"; all 0 in one marked "AQ".
   at, size: the part of the roll's bytes that holds the records: size = 12 * count bytes from
   roll + at on, up to the trailer. */
typedef struct {
    uint32_t number;
    uint32_t count;
    uint32_t reference;
    uint32_t p;
    uint32_t q;
    uint32_t floor;
    uint32_t r;
    uint32_t t;
    size_t at;
    size_t size;
} vakrhildo_reading;

/* Reads a roll: its trailer, and where its records stand. No byte is copied. Rules 1 to 9, 16 and 17 are
   not tried, so the count may be up to 65,535, and P, Q, R and T may be 0. */
vakrhildo_reading vakrhildo_read(const uint8_t *roll, size_t roll_length);

/* number: 0, the roll is written; else the refusal, of these in their order:
       1  the three lists differ in length
       2  more than 1,024 reports
       4  P or Q above 65,535; a P or Q of 0 is written
      15  too little room for the roll from byte at on, or at is behind the end of out
   place: 0 always, as no report is at fault.
   bytes: how many were written, 16 + 12 for each report; 0 on a refusal. */
typedef struct {
    uint32_t number;
    size_t place;
    size_t bytes;
} vakrhildo_write_reply;

/* Writes the roll of a list into out from byte at on: the records, then the trailer, as vakrhildo_read
   reads them. The bytes before and behind the roll stay as they were, and on a refusal all of them. The
   roll's end is at + bytes: out up to there is a roll whose preface is the bytes before at, and reads as
   the list that went in. Its mark is "AQ": no floor is written. No other rule is tried, so lists are
   written that have no plan. at may be any number. A list of length n is as for vakrhildo_plan, and where
   out_length is 0 out may be any pointer that is not NULL. out must not overlap the lists. */
vakrhildo_write_reply vakrhildo_write(const uint32_t *arrivals, size_t arrivals_length,
                                      const uint32_t *deadlines, size_t deadlines_length,
                                      const uint32_t *operations, size_t operations_length,
                                      uint32_t reference, uint32_t p, uint32_t q,
                                      uint8_t *out, size_t out_length, size_t at);

#ifdef __cplusplus
}
#endif

#endif
