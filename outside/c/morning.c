/* Plans one crowded morning of three reports, without a floor and with two, reads and plans a roll that
   has a floor and one that comes on standard input, then writes the morning's roll behind that one and
   plans it from there. */
#include <stdio.h>
#include "vakrhildo.h"

static uint32_t rows[VAKRHILDO_ROW * VAKRHILDO_REPORTS];
static uint8_t roll[65536 + VAKRHILDO_ROLL];
/* A roll of one report, from 0 to 10 with four operations: P/Q is 1/2, the floor 3/2. */
static const uint8_t floored[] = {
    0, 0, 0, 0, 10, 0, 0, 0, 4, 0, 0, 0,
    3, 0, 2, 0, 32, 0, 0, 0, 0, 0, 0, 0, 1, 0, 1, 0, 2, 0, 'A', 'F',
};

static void show(vakrhildo_reply reply)
{
    printf("number %u place %zu blocks %zu\n", reply.number, reply.place, reply.blocks);
    for (size_t k = 0; k < reply.blocks; k++) {
        const uint32_t *row = rows + VAKRHILDO_ROW * k;
        printf("reports %u to %u: from %u to %u, %u operations\n", row[0], row[1], row[2], row[3], row[4]);
    }
}

int main(void)
{
    const uint32_t arrivals[] = {0, 0, 12}, deadlines[] = {4, 20, 16}, operations[] = {2, 2, 2};
    show(vakrhildo_plan(arrivals, 3, deadlines, 3, operations, 3, 0, 1, 1, rows, sizeof rows / sizeof *rows));
    show(vakrhildo_plan(arrivals, 3, deadlines, 2, operations, 3, 0, 1, 1, rows, sizeof rows / sizeof *rows));
    show(vakrhildo_plan_floor(arrivals, 3, deadlines, 3, operations, 3, 0, 1, 1, 3, 1, rows, sizeof rows / sizeof *rows));
    show(vakrhildo_plan_floor(arrivals, 3, deadlines, 3, operations, 3, 0, 1, 1, 1, 3, rows, sizeof rows / sizeof *rows));
    vakrhildo_reading reading = vakrhildo_read(floored, sizeof floored);
    printf("number %u reports %u: P/Q %u/%u, floor %u R/T %u/%u\n", reading.number, reading.count, reading.p, reading.q, reading.floor, reading.r, reading.t);
    show(vakrhildo_plan_roll(floored, sizeof floored, rows, sizeof rows / sizeof *rows));
    size_t length = fread(roll, 1, 65536, stdin);
    reading = vakrhildo_read(roll, length);
    printf("number %u reports %u: %zu bytes from byte %zu on\n", reading.number, reading.count, reading.size, reading.at);
    show(vakrhildo_plan_roll(roll, length, rows, sizeof rows / sizeof *rows));
    vakrhildo_write_reply written = vakrhildo_write(arrivals, 3, deadlines, 3, operations, 3, 0, 1, 1, roll, sizeof roll, length);
    printf("number %u place %zu: %zu bytes from byte %zu on\n", written.number, written.place, written.bytes, length);
    show(vakrhildo_plan_roll(roll, length + written.bytes, rows, sizeof rows / sizeof *rows));
    return 0;
}
