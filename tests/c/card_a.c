/* Case A of 01 from C: set-up by gridstep_call, then the lent calls; prints what 01's runner prints. */
#include "gridstep.h"
#include <inttypes.h>
#include <stdio.h>
#include <stdlib.h>

_Static_assert(sizeof(struct gridstep_track) == 80, "track");
_Static_assert(offsetof(struct gridstep_track, loops) == 24, "loops");
_Static_assert(offsetof(struct gridstep_track, due) == 29, "due");
_Static_assert(offsetof(struct gridstep_track, actions) == 30, "actions");
_Static_assert(offsetof(struct gridstep_track, master) == 46, "master");
_Static_assert(offsetof(struct gridstep_track, band) == 47, "band");
_Static_assert(offsetof(struct gridstep_track, thresholds) == 48, "thresholds");
_Static_assert(offsetof(struct gridstep_track, events) == 64, "events");
_Static_assert(offsetof(struct gridstep_track, steps) == 72, "steps");
_Static_assert(offsetof(struct gridstep_track, ticks) == 74, "ticks");
_Static_assert(offsetof(struct gridstep_track, remainder) == 76, "remainder");
_Static_assert(sizeof(struct gridstep_points) == 2056, "points");
_Static_assert(sizeof(struct gridstep_board) == 3360, "board");
_Static_assert(offsetof(struct gridstep_board, present) == 1280, "present");
_Static_assert(offsetof(struct gridstep_board, points) == 1288, "points of a board");
_Static_assert(offsetof(struct gridstep_board, clock) == 3344, "clock");
_Static_assert(offsetof(struct gridstep_board, held) == 3352, "held");
_Static_assert(sizeof(struct gridstep_replied) == 3744, "replied");
_Static_assert(sizeof(struct gridstep_ending) == 8, "ending");

static struct gridstep_board board;
static uint8_t log_bytes[4096 * GRIDSTEP_RECORD];

static void expect(int right, const char *what)
{
    if (!right) {
        fprintf(stderr, "card A: %s\n", what);
        exit(1);
    }
}

static void set_up(void)
{
    static const int64_t rows[][GRIDSTEP_CALL_WIDTH] = {
        {1, 0, 0, 10},             /* track,0,0,10 */
        {2, 0, 2},                 /* start,0,2 */
        {3, 0, 5},                 /* end,0,5 */
        {4, 0, 2},                 /* loops,0,2 */
        {7, 0, 2, 7, 0, 0, 0},     /* point,0,2,7,0,0,0 */
        {7, 0, 5, 9, 1, 0, 0},     /* point,0,5,9,1,0,0 */
        {9, 0, 1, 3, 20},          /* action,0,1,3,20 */
        {9, 0, 1, 0, 21},          /* action,0,1,0,21 */
    };
    for (size_t i = 0; i < sizeof rows / sizeof *rows; i++) {
        const int64_t *x = rows[i];
        struct gridstep_replied r =
            gridstep_call(board, x[0], x[1], x[2], x[3], x[4], x[5], x[6], log_bytes, sizeof log_bytes);
        expect(r.reply[0] == GRIDSTEP_ACCEPTED, "set-up");
        board = r.board;
    }
}

static void advance(int64_t count)
{
    struct gridstep_ending ending = gridstep_advance(&board, count, log_bytes, sizeof log_bytes);
    expect(ending.reason == GRIDSTEP_DONE && ending.number == count, "advance");
}

static uint32_t word(const uint8_t *bytes)
{
    return bytes[0] | (uint32_t)bytes[1] << 8 | (uint32_t)bytes[2] << 16 | (uint32_t)bytes[3] << 24;
}

static void print_record(const uint8_t *bytes)
{
    printf("%" PRIu32 ",%u,%u,%u,%u,%" PRId32 ",%" PRIu32 "\n", word(bytes), bytes[4], bytes[5], bytes[6], bytes[7],
           (int32_t)word(bytes + 8), word(bytes + 12));
}

int main(void)
{
    board = gridstep_new();
    set_up();
    expect(gridstep_play(&board, 0, log_bytes, sizeof log_bytes) == GRIDSTEP_ACCEPTED, "play");
    advance(10);
    expect(gridstep_resume(&board, 0, log_bytes, sizeof log_bytes) == GRIDSTEP_ACCEPTED, "resume");
    advance(10);
    for (uint64_t i = 0; i < board.held; i++)
        print_record(log_bytes + GRIDSTEP_RECORD * i);
    printf("end,%" PRIu32 ",%" PRIu64 "\n", board.clock, board.held);
    return 0;
}
