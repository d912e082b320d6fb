/* The ledger for C: a handle, and calls over it. docs/use/embedding.md says how the library is made;
   its contracts are in crates/conway_c/src/lib.rt, in the words of crates/conway_c/specs and
   crates/embedded/specs. Nothing checks a call from C against them, so a caller sees to these:

   - Each pointer is not NULL and points to as many bytes as are said, also where these are 0; what a
     call writes to (a handle, room for text) is no part of anything else that the call is given.
   - A handle begins as CONWAY_CLOSED, is written by these calls alone, and is never copied.
   - A handle is used by one call at a time, and stays with the thread that opened it.
   - `malloc` and `free` are those of the C library. No call is made from a signal handler. */
#ifndef CONWAY_H
#define CONWAY_H

#include <stddef.h>
#include <stdint.h>

/* A ledger with the text of its last answer. Closed, it holds no memory, and each call answers so. */
struct conway {
    void *ledger;
};
#define CONWAY_CLOSED {NULL}

/* `wanted` is the length of the whole text. If the room is as long, the text is in its first bytes
   and `written` is `wanted`; if not, nothing is written, `written` is 0, and `conway_text` copies
   the text into greater room. */
struct conway_answer {
    uint32_t status;
    size_t written;
    size_t wanted;
};

/* The statuses. 0, 3, 6 and 8 are as those with which the program ends. */
enum {
    CONWAY_DONE = 0,
    CONWAY_BAD_GENESIS = 3, /* `conway_open`: the line is no genesis to begin with */
    /* Memory ran out: the ledger is closed. After `conway_judge`, `conway_explain` and
       `conway_checkpoint` it is not, and nothing changed. */
    CONWAY_NO_MEMORY = 6,
    CONWAY_BAD_CHECKPOINT = 8, /* `conway_resume`: the text is the checkpoint of no ledger */
    CONWAY_IS_CLOSED = 20,     /* the ledger is closed; nothing changed */
    CONWAY_IS_FULL = 21,       /* no number is left for a further line; nothing changed */
    CONWAY_IS_BLANK = 22       /* `conway_open`: the line is blank, and says nothing */
};

/* Opens the ledger of the genesis on the line of this number, 1 for the first line of a stream. The
   line is given without its line feed. The seed of its hash tables is two numbers that whoever sends
   records cannot guess; any two give the same answers. What the handle held is closed. `wanted` is
   the length of the text that `replay` writes for the line, which `conway_text` copies; `written`
   is 0. */
struct conway_answer conway_open(const uint8_t *genesis, size_t length, uint64_t number, uint64_t seed_first,
                                 uint64_t seed_second, struct conway *ledger);

/* Opens the ledger of a checkpoint: of its whole text, up to and with the line `end`, as `checkpoint`
   and `conway_checkpoint` write it. What the handle held is closed. The next line has the number
   behind the one after which the checkpoint was made. The seed is as for `conway_open`. There is no
   text yet. */
struct conway_answer conway_resume(const uint8_t *text, size_t length, uint64_t seed_first, uint64_t seed_second,
                                   struct conway *ledger);

/* Records the next line, without its line feed. The text is what `replay` writes for it. */
struct conway_answer conway_record(struct conway *ledger, const uint8_t *line, size_t length, uint8_t *room, size_t size);

/* Judges the next line and records nothing, as a wallet does before it sends. The text is the line of
   the reply that it would get: `accepted` or `refused`, also for a block and for a print, of which
   `conway_record` shows more. A blank line has no text. */
struct conway_answer conway_judge(struct conway *ledger, const uint8_t *line, size_t length, uint8_t *room, size_t size);

/* Says all that is wrong with the next line and records nothing. The text has a line for each rule
   that it breaks, in order: the first is the line that `conway_record` would give. Behind these are
   lines of what is wrong inside it, and of names that nobody reads. There is no text where the line
   would be accepted and has no such name, and for a blank line. */
struct conway_answer conway_explain(struct conway *ledger, const uint8_t *line, size_t length, uint8_t *room,
                                    size_t size);

/* Makes the checkpoint of the ledger. The text is what `checkpoint` writes after so many lines. */
struct conway_answer conway_checkpoint(struct conway *ledger, uint8_t *room, size_t size);

/* Makes the outlook of the ledger: the text is what `outlook` writes. It crosses two boundaries, and
   so uses the ledger up: later calls answer CONWAY_IS_CLOSED, except `conway_text`, which copies the
   outlook. To go on, resume a checkpoint that was made before. */
struct conway_answer conway_outlook(struct conway *ledger, uint8_t *room, size_t size);

/* Copies the text of the last answer again. */
struct conway_answer conway_text(struct conway *ledger, uint8_t *room, size_t size);

/* Closes the handle, and frees what it held. A closed handle stays closed. */
void conway_close(struct conway *ledger);

#endif
