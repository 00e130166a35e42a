/*
 * GridStep sequence board: the C interface of libfirmware.a (crates/firmware). "01" is the specification, with the
 * followers (request 2.1), the turns on home (2.3) and the rates (2.4) of "02".
 *
 * The firmware keeps one board and one log. A board is made by gridstep_new, and lent by pointer to the mode calls
 * and to advance; every other call goes through gridstep_call, but for master, which is gridstep_master. No function
 * keeps a pointer, allocates, or has state of its own. A board may be copied, stored and compared field by field;
 * bytes between fields (padding) mean nothing.
 *
 * A pointer must not be null and its memory must not overlap that of another argument; with length 0 nothing is read or
 * written through it. Any other content is allowed: what breaks the rules is refused 3.
 */
#ifndef GRIDSTEP_H
#define GRIDSTEP_H

#include <stddef.h>
#include <stdint.h>

#ifdef __cplusplus
extern "C" {
#endif

/* A position p, from -1,000,000 to 1,000,000, is kept and replied as p + 1,000,000: from 0 to 2,000,000. In the
 * arguments of calls and in log records it stands as it is. */
#define GRIDSTEP_BIAS 1000000

/* The clock's end: no tick is taken at this clock. */
#define GRIDSTEP_CLOCK_END 1000000000

/* Modes. */
enum {
    GRIDSTEP_STOPPED = 0,
    GRIDSTEP_PLAYING = 1,
    GRIDSTEP_PAUSED = 2,
    GRIDSTEP_WAITING = 3
};

/* A track. Its rules: min < max <= 2,000,000; min <= start < end <= max; start <= position <= end; loops 1 to 65,535;
 * passes at most the board's clock; mode 0 to 3; direction, repeat and due 0 or 1; no action between equal modes.
 *
 * A track with thresholds is a follower: it watches how far it drifts from another track, its master. A track's
 * distance is how far its position is from its home position, by its direction; the drift is the difference between
 * the two distances, without sign. The band is the highest threshold that the drift exceeds (an equal drift does
 * not), and none if either track is STOPPED. It is judged at the end of every tick; in between nothing changes it but
 * the master call, which makes it none.
 * Its rules: thresholds 1 to 1,000,000, each above the one before, unused ones 0 and last; the event beside a
 * threshold 1 to 255, beside an unused one 0; the master is another track that is present, and 0 without thresholds;
 * the band is at most the number of thresholds, and 0 at clock 0.
 *
 * A track's rate is p steps in q ticks (`steps` and `ticks`): at 1 in 1 it makes a step in every tick that it plays, at
 * 1 in 3 in every third. In each tick that it is PLAYING at the start of, p is added to the remainder; at q or more, q
 * is taken off and one step made. In a tick without a step the track stays as it is but for the remainder: nothing is
 * reached or reported, and due stays. Followers are judged at the end of every tick all the same. Where a track is
 * rewound the remainder becomes 0; pause, wait, resume, a jump and a turn while PAUSED keep it. A track that a point's
 * command starts plays from the next tick on. So at 2 in 5 the steps from rest are in ticks 3 and 5, 8 and 10, ...
 * Its rules: 1 <= steps <= ticks <= 1,000; remainder below ticks, and 0 when STOPPED. */
#define GRIDSTEP_THRESHOLDS 4
#define GRIDSTEP_RATE_MOST 1000

struct gridstep_track {
    uint32_t min, max;   /* bounds, + 1,000,000 */
    uint32_t start, end; /* the span walked, + 1,000,000 */
    uint32_t position;   /* + 1,000,000 */
    uint32_t passes;     /* arrivals at the far position since the last rewinding */
    uint16_t loops;      /* passes after which the track stops, if repeat is off */
    uint8_t mode;
    uint8_t direction;   /* 0 forward (home is start), 1 backward (home is end) */
    uint8_t repeat;      /* 1: never stops by itself */
    uint8_t due;         /* 1: the position is not yet visited, so that the next step reaches it; set by rewinding, by a
                          * jump, and where a PAUSED track is turned round on the home position that it has visited */
    uint8_t actions[16]; /* the event of a change from mode a to mode b at a * 4 + b; 0 none */
    uint8_t master;      /* the track that this one follows; 0 where it follows none */
    uint8_t band;        /* the band held: 0 none, else the number of the threshold, counted from 1 */
    uint32_t thresholds[GRIDSTEP_THRESHOLDS]; /* rising; 0 where unused */
    uint16_t events[GRIDSTEP_THRESHOLDS];     /* beside each threshold its event; 0 where unused */
    uint16_t steps, ticks; /* the rate: so many steps in so many ticks; 1 in 1 for a new track */
    uint32_t remainder;    /* grows by steps in each tick played; at ticks or more, ticks is taken off and a step made */
};

/* The points. Slots from count on are never read.
 * key = track * 2,097,152 + (position + 1,000,000); the keys ascend strictly.
 * info = event + 65,536 * wait + 131,072 * command + 1,048,576 * target: event 1 to 255; wait 0 or 1; command 0 none,
 * 1 play, 2 pause, 3 resume, 4 stop; target 0 to 15, a present track, or 0 with command 0. */
struct gridstep_points {
    uint32_t keys[256];
    uint32_t infos[256]; /* beside each key */
    size_t count;        /* 0 to 256 */
};

/* A board. What tracks that are not present hold means nothing. */
struct gridstep_board {
    struct gridstep_track tracks[16];
    uint16_t present; /* bit i: track i is present */
    struct gridstep_points points;
    uint32_t clock; /* ticks, 0 to 1,000,000,000 */
    uint64_t held;  /* records held in the log */
};

/*
 * The log is bytes lent by the caller; its capacity is its length over 16, rounded down. A record has 16 bytes, lowest
 * byte first: clock (4), track (1), kind (1), event (1), detail (1), position (4, two's complement), passes (4).
 *   kind 1, point reached: the point's event, detail = command * 16 + target, passes before this arrival counts
 *   kind 2, mode change: the action's event, detail = old mode * 16 + new mode, position and passes before rewinding
 *   kind 3, a point's command refused: track = target, the point's event, detail = command * 16 + the target's mode
 *   kind 4, a band entered: track = follower, the threshold's event, detail = the master's number, position and passes
 *           the follower's, after the tick's steps and commands
 * Kind 4 is written where the band is another than the one held till then, and not none: upwards or downwards. A tick
 * writes at most 64 records, those of kind 4 last; they are written together, or the tick is not taken.
 * Record i stands at byte 16 * i. Bytes past the held records are never written.
 */
#define GRIDSTEP_RECORD 16

/* Refusals. A refused call leaves board and log as they were. Where several hold, the first in the order
 * 9, 3 (broken board), 7, 1, 6, 2, 3 or 11, 10, 4, 5, 8 is told. */
enum {
    GRIDSTEP_ACCEPTED = 0,
    GRIDSTEP_ABSENT = 1,      /* number not 0 to 15 or, but for add track, track absent */
    GRIDSTEP_MODE = 2,        /* mode does not allow the call */
    GRIDSTEP_VALUE = 3,       /* a value outside its stated range or rule; a lent board that breaks one */
    GRIDSTEP_NO_POINT = 4,    /* drop or query of a point that isn't there */
    GRIDSTEP_POINTS_FULL = 5, /* a 257th point (replacing one is no new point) */
    GRIDSTEP_PRESENT = 6,     /* track already present */
    GRIDSTEP_CAPACITY = 7,    /* capacity below held (advance and the four mode calls) */
    GRIDSTEP_NO_ROOM = 8,     /* the mode call's record doesn't fit */
    GRIDSTEP_GRAMMAR = 9,     /* line not in the grammar; here: a row that is no call */
    GRIDSTEP_RISING = 10,     /* thresholds that aren't rising, or over four */
    GRIDSTEP_RATE = 11        /* a rate out of its range, in the place of 3 */
};

/* How an advance ended. */
enum {
    GRIDSTEP_DONE = 0,          /* every tick taken */
    GRIDSTEP_LOG_FULL = 1,      /* the next tick's records don't fit */
    GRIDSTEP_CLOCK_END_MET = 2, /* the clock is at its end */
    GRIDSTEP_REFUSED = 3
};

struct gridstep_ending {
    uint32_t reason; /* one of the four above */
    uint32_t number; /* the ticks taken; of a refusal its number */
};

/* A fresh board: no track, no point, clock 0, held 0. */
struct gridstep_board gridstep_new(void);

/* The mode calls: 0 if accepted, else the refusal's number. A change whose action is not 0 writes a record. */
uint32_t gridstep_play(struct gridstep_board *board, int64_t track, uint8_t *log, size_t length);
uint32_t gridstep_pause(struct gridstep_board *board, int64_t track, uint8_t *log, size_t length);
uint32_t gridstep_resume(struct gridstep_board *board, int64_t track, uint8_t *log, size_t length);
uint32_t gridstep_stop(struct gridstep_board *board, int64_t track, uint8_t *log, size_t length);

/* Takes so many ticks, 0 to 4,294,967,295, unless the clock's end or a full log stops it before one of them. */
struct gridstep_ending gridstep_advance(struct gridstep_board *board, int64_t count, uint8_t *log, size_t length);

/*
 * A call as a row of 14 numbers: its code, then its arguments; numbers that it has no use for are not read.
 *    1 add track    track, min, max            11 play     track
 *    2 start        track, position            12 pause    track
 *    3 end          track, position            13 resume   track
 *    4 loops        track, 1 to 65,535         14 stop     track
 *    5 repeat       track, 0 or 1              15 advance  count
 *    6 direction    track, 0 or 1              16 clear
 *    7 point        track, position, event,    17 query: clock and held
 *                   wait, command, target      18 query: a track       track
 *    8 drop point   track, position            19 query: a point       track, position
 *    9 action       track, from, to, event     20 query: how many      track, from, to (positions, both counted)
 *   10 jump         track, position            21 master   track, master, number of pairs, then five pairs of threshold
 *                                                          and event
 *                                              22 rate     track, steps, ticks (STOPPED only; does not rewind)
 * Of the pairs of a master call, only as many are read as their number says; five or more are over four, and the
 * row's five decide if a number is out of its range. A row with any other code is no call, nor is a master call with
 * a negative number of pairs: it is refused 9. Code 21 counts in gridstep_run only; in gridstep_call it is refused 9.
 */
#define GRIDSTEP_CALL_WIDTH 14

/*
 * A reply as a row of 48 numbers: its kind, what it tells, then zeros.
 *   0 accepted
 *   1 refused      the refusal's number
 *   2 Done         ticks taken
 *   3 LogFull      ticks taken
 *   4 ClockEnd     ticks taken
 *   5 clock        clock, held
 *   6 a track      min, max, start, end, position (each + 1,000,000), passes, loops, mode, direction, repeat, due, the
 *                  sixteen actions, master, band, the four thresholds and their four events, steps, ticks, remainder
 *   7 a point      track, position + 1,000,000, event, wait, command, target
 *   8 how many     the number of points
 */
#define GRIDSTEP_REPLY_WIDTH 48

/* The board after a call, and its reply. */
struct gridstep_replied {
    struct gridstep_board board;
    uint64_t reply[GRIDSTEP_REPLY_WIDTH];
};

/* Any call but master on a board by value: the code, then the six numbers behind it. Codes 11 to 15 use the log, others
 * leave it. Code 21 is no call here: it is refused 9. */
struct gridstep_replied gridstep_call(struct gridstep_board board, int64_t code, int64_t x1, int64_t x2, int64_t x3,
                                      int64_t x4, int64_t x5, int64_t x6, uint8_t *log, size_t length);

/* The master call on a board by value: from now on `track`, which must be STOPPED, follows `master` with these
 * thresholds, and its band is none. `pairs` has pairs_length numbers: threshold and event in turn, the thresholds
 * rising from pair to pair, four pairs at most. Without pairs the track follows none; both tracks must be present all
 * the same. Refused: 1 if either track is absent; 2 unless `track` is STOPPED; 3 if it is its own master, a number of
 * any pair is out of its range, or the last event is missing; 10 if the thresholds aren't rising or are over four. It
 * does not rewind, and takes no log, since it writes no record. */
struct gridstep_replied gridstep_master(struct gridstep_board board, int64_t track, int64_t master,
                                        const int64_t *pairs, size_t pairs_length);

/* A list of calls from a fresh board: the board that it ends with. `calls` has calls_length numbers, a row after the
 * other; each call's reply goes to its row of `replies`, which has room for replies_length numbers. As many rows are
 * executed as both have whole; what is past them is neither read nor written. */
struct gridstep_board gridstep_run(const int64_t *calls, size_t calls_length, uint8_t *log, size_t log_length,
                                   uint64_t *replies, size_t replies_length);

#ifdef __cplusplus
}
#endif

#endif
