/* Every value of each flag byte of a lent board, with every kind of call. 2 to 255 break 01's ranges: the call is refused 3, and board
 * and log are equal to the last byte. 0 and 1 are no fault, and what an absent track holds is none. */
#include "gridstep.h"
#include <stdio.h>
#include <stdlib.h>
#include <string.h>

enum { LOG = 64, FLAGS = 3, MODES = 4, VALUES = 256, CODES = 22, MASTER = 21, PAIRS = 2 };

static const char *const names[FLAGS] = {"direction", "repeat", "due"};
static unsigned long tried;

/* The board that is altered, what is lent, and what that was before. */
static struct gridstep_board base, board, was;
static uint8_t log_bytes[LOG], log_was[LOG];

static void expect(int right, const char *what, const char *flag, int value)
{
    if (!right) {
        fprintf(stderr, "%s %d: %s\n", flag, value, what);
        exit(1);
    }
}

static uint8_t *flag_of(struct gridstep_track *t, int flag)
{
    uint8_t *const flags[FLAGS] = {&t->direction, &t->repeat, &t->due};
    return flags[flag];
}

/* The bytes of every field; those between fields mean nothing. A track has none between its own. */
static int same(const struct gridstep_board *a, const struct gridstep_board *b)
{
    return !memcmp(a->tracks, b->tracks, sizeof a->tracks) && !memcmp(&a->points, &b->points, sizeof a->points) && a->present == b->present &&
           a->clock == b->clock && a->held == b->held;
}

static struct gridstep_replied row(int64_t code, int64_t track)
{
    tried++;
    return gridstep_call(board, code, track, 2, 4, 0, 0, 0, log_bytes, LOG);
}

/* Track 0 follows 15, and 15 follows 0; another number names an absent master. */
static struct gridstep_replied master(int64_t track, size_t numbers)
{
    static const int64_t pairs[2 * PAIRS] = {3, 31, 5, 51};
    tried++;
    return gridstep_master(board, track, 15 - track, pairs, numbers);
}

static void refused_as_master(int64_t track, const char *flag, int value)
{
    for (size_t numbers = 0; numbers <= 2 * PAIRS; numbers++) {
        struct gridstep_replied r = master(track, numbers);
        expect(r.reply[0] == 1 && r.reply[1] == GRIDSTEP_VALUE, "a master call is not refused 3", flag, value);
        expect(same(&r.board, &was), "a master call changed the board", flag, value);
    }
}

static void refused_by_the_door(int64_t track, const char *flag, int value)
{
    for (int64_t code = 1; code <= CODES; code++) {
        if (code == MASTER)
            continue;
        struct gridstep_replied r = row(code, track);
        expect(r.reply[0] == 1 && r.reply[1] == GRIDSTEP_VALUE, "a call by its row is not refused 3", flag, value);
        expect(same(&r.board, &was), "a call by its row changed the board", flag, value);
    }
}

static void refused_where_lent(int64_t track, const char *flag, int value)
{
    uint32_t (*const calls[])(struct gridstep_board *, int64_t, uint8_t *, size_t) = {gridstep_play, gridstep_pause,
                                                                                     gridstep_resume, gridstep_stop};
    for (int i = 0; i < 4; i++) {
        expect(calls[i](&board, track, log_bytes, LOG) == GRIDSTEP_VALUE, "a mode call is not refused 3", flag, value);
        expect(same(&board, &was), "a mode call changed the board", flag, value);
    }
    struct gridstep_ending e = gridstep_advance(&board, 3, log_bytes, LOG);
    expect(e.reason == GRIDSTEP_REFUSED && e.number == GRIDSTEP_VALUE, "advance is not refused 3", flag, value);
    expect(same(&board, &was), "advance changed the board", flag, value);
    tried += 5;
}

/* A flag of a track, in a mode, has a value. */
static void try(int64_t track, int flag, int mode, int value)
{
    was = base;
    was.tracks[track].mode = (uint8_t)mode;
    *flag_of(&was.tracks[track], flag) = (uint8_t)value;
    board = was;
    if (value > 1) {
        refused_by_the_door(track, names[flag], value);
        refused_where_lent(track, names[flag], value);
        refused_as_master(track, names[flag], value);
    } else {
        expect(row(17, track).reply[0] == 5, "the clock is not told", names[flag], value);
    }
    expect(!memcmp(log_bytes, log_was, LOG), "the log changed", names[flag], value);
}

/* Tracks 0 and 15 with a point on each home, and no other track. */
static void set_up(void)
{
    static const int64_t rows[][GRIDSTEP_CALL_WIDTH] = {
        {1, 0, 0, 10}, {1, 15, 0, 10}, {7, 0, 0, 7, 0, 0, 0}, {7, 15, 0, 9, 1, 0, 0}, {9, 0, 0, 1, 20}, {9, 15, 1, 2, 21},
    };
    board = gridstep_new();
    for (size_t i = 0; i < sizeof rows / sizeof *rows; i++) {
        const int64_t *x = rows[i];
        struct gridstep_replied r =
            gridstep_call(board, x[0], x[1], x[2], x[3], x[4], x[5], x[6], log_bytes, LOG);
        expect(r.reply[0] == 0, "a set-up call is refused", "no flag", 0);
        board = r.board;
    }
    for (int64_t track = 0; track <= 15; track += 15) {
        struct gridstep_replied r = master(track, 2 * PAIRS);
        expect(r.reply[0] == 0 && r.board.tracks[track].thresholds[1] == 5, "a master call is refused", "no flag", 0);
        board = r.board;
    }
    expect(row(MASTER, 0).reply[1] == GRIDSTEP_GRAMMAR, "master by its code is a call", "no flag", 0);
}

int main(void)
{
    memset(log_bytes, 0xA5, LOG);
    memcpy(log_was, log_bytes, LOG);
    set_up();
    base = board;
    for (int value = 0; value < VALUES; value++)
        for (int flag = 0; flag < FLAGS; flag++) {
            for (int mode = 0; mode < MODES; mode++) {
                try(0, flag, mode, value);
                try(15, flag, mode, value);
            }
            board = base;
            *flag_of(&board.tracks[7], flag) = (uint8_t)value;
            expect(row(17, 0).reply[0] == 5, "an absent track counts", names[flag], value);
        }
    printf("flag bytes in C: %lu calls, 2 to 255 refused 3 with board and log equal\n", tried);
    return 0;
}
