/* What the programs of this folder share: blocks of memory that are counted and refused, bytes with
   a page beside them that nobody may touch, and the lines of standard input. They take no block
   themselves, so each block that is counted is one of the library's. */
#ifndef TRIAL_H
#define TRIAL_H

#include "conway.h"

/* ends the program with a status that no call gives, and says what does not hold */
#define MUST(holds) ((holds) ? (void)0 : must_hold(__FILE__, __LINE__, #holds))
enum { DOES_NOT_HOLD = 98 };
void must_hold(const char *file, int line, const char *what);

/* the number of the line of the stream, which `must_hold` says */
extern uint64_t line_number;

/* ---- blocks; a program with them is linked with --wrap for each function of `trial.c` */

/* how many blocks are held */
extern long blocks_held;

/* Refuses the allocation of this number, 1 for the next one, and with `all` each behind it. */
void refuse(long at, int all);

/* Refuses no more; how many allocations there were since `refuse`. */
long refuse_none(void);

/* ---- bytes between two pages that nobody may touch */

struct area {
    uint8_t *first;
    size_t size;
};

/* An area of at least so many bytes, of whole pages. */
struct area area_of(size_t size);

/* The bytes of a text in an area: its last ones, or its first ones. */
uint8_t *at_end(struct area area, const uint8_t *text, size_t length);
uint8_t *at_start(struct area area, const uint8_t *text, size_t length);

/* A room: the last bytes of an area. Each has one value, as the bytes before the room have. */
uint8_t *room_of(size_t size);

/* Ends the program unless a call wrote a whole text that fits to its room, and nothing else. The
   bytes have their value after it. */
void check_room(struct conway_answer answer, const uint8_t *room, size_t size);

/* ---- texts */

struct text {
    const uint8_t *bytes;
    size_t length;
};

/* The text of the last answer, which has this length, in an area of its own: one of `TEXTS`. */
enum { TEXTS = 4 };
struct text text_of(struct conway *ledger, size_t wanted, int place);

int is_same(struct text one, struct text other);

/* ---- the stream */

/* Standard input, whole. */
struct text input(void);

/* The next line, without its line feed, leaves the stream; 0 where there is none. */
int next_line(struct text *stream, struct text *line);

#endif
