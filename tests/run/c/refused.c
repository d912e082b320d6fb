/* Reads a stream of records from standard input, and makes each call of examples/c/conway.h over
   its lines where an allocation is refused: each one in turn, alone and with all behind it. Such a
   call answers that memory ran out, and its room is as it was: `conway_open`, `conway_resume` and
   `conway_record` leave a closed handle, `conway_outlook` a ledger that is closed, the others what
   was there. Or the call did without the block, and answers as it does otherwise. Once the handle
   is closed no block is held. It writes how many calls had a refused allocation, and how many of
   them did without. Where an answer is another one it says so and ends with status 98. */
#include "trial.h"

#include <stdio.h>

static const uint64_t SEED[2] = {0x94d049bb133111eb, 0xd6e8feb86659fd93};
/* behind how many lines a checkpoint, a resume and an outlook are tried again */
enum { BEHIND = 5 };
/* where texts are kept: the checkpoint before a call, the call's own text, one that is compared */
enum { BEFORE_IT, OF_IT, OTHER };

enum call { OPEN, RESUME, RECORD, JUDGE, EXPLAIN, CHECKPOINT, OUTLOOK };

/* A call over the ledger of a checkpoint, or an open, and what it answers if nothing is refused. */
struct trial {
    enum call call;
    struct text line;
    uint64_t number;
    struct text checkpoint;
    uint32_t status;
    struct text text;
};

static long refusals, done_without;

/* ---- calls */

static struct conway_answer call_of(const struct trial *it, struct conway *ledger, uint8_t *room, size_t size)
{
    switch (it->call) {
    case OPEN:
        return conway_open(it->line.bytes, it->line.length, it->number, SEED[0], SEED[1], ledger);
    case RESUME:
        return conway_resume(it->checkpoint.bytes, it->checkpoint.length, SEED[0], SEED[1], ledger);
    case RECORD:
        return conway_record(ledger, it->line.bytes, it->line.length, room, size);
    case JUDGE:
        return conway_judge(ledger, it->line.bytes, it->line.length, room, size);
    case EXPLAIN:
        return conway_explain(ledger, it->line.bytes, it->line.length, room, size);
    case CHECKPOINT:
        return conway_checkpoint(ledger, room, size);
    default:
        return conway_outlook(ledger, room, size);
    }
}

/* The ledger of the checkpoint, whose text is that checkpoint. */
static void prepare(const struct trial *it, struct conway *ledger)
{
    uint32_t status = conway_resume(it->checkpoint.bytes, it->checkpoint.length, SEED[0], SEED[1], ledger).status;
    MUST(status == CONWAY_DONE);
    MUST(conway_checkpoint(ledger, room_of(0), 0).wanted == it->checkpoint.length);
    MUST(is_same(it->checkpoint, text_of(ledger, it->checkpoint.length, OTHER)));
}

/* Makes the call in a room that fits, and looks at what is in the room. */
static struct conway_answer called(const struct trial *it, struct conway *ledger)
{
    size_t size = it->call == OPEN || it->call == RESUME ? 0 : it->text.length;
    uint8_t *room = room_of(size);
    struct conway_answer answer = call_of(it, ledger, room, size);
    check_room(answer, room, size);
    return answer;
}

/* Whether an answer is the one without a refusal. */
static int is_right(const struct trial *it, struct conway *ledger, struct conway_answer answer)
{
    if (answer.status != it->status || answer.status != CONWAY_DONE) {
        return answer.status == it->status && ledger->ledger == NULL;
    }
    return answer.wanted == it->text.length && is_same(it->text, text_of(ledger, answer.wanted, OTHER));
}

/* ---- what a refusal leaves */

/* The text is that of before, and the call can be made again. */
static void must_be_unchanged(const struct trial *it, struct conway *ledger)
{
    MUST(ledger->ledger != NULL);
    MUST(is_same(it->checkpoint, text_of(ledger, it->checkpoint.length, OTHER)));
    MUST(is_right(it, ledger, called(it, ledger)));
    MUST(conway_checkpoint(ledger, room_of(0), 0).wanted == it->checkpoint.length);
    MUST(is_same(it->checkpoint, text_of(ledger, it->checkpoint.length, OTHER)));
}

static void must_be_closed(const struct trial *it, struct conway *ledger)
{
    static const uint8_t byte[] = {'x'};
    MUST((ledger->ledger == NULL) == (it->call != OUTLOOK));
    MUST(conway_record(ledger, byte, 1, room_of(1), 1).status == CONWAY_IS_CLOSED);
    MUST(conway_judge(ledger, byte, 1, room_of(1), 1).status == CONWAY_IS_CLOSED);
    MUST(conway_checkpoint(ledger, room_of(1), 1).status == CONWAY_IS_CLOSED);
}

static void must_be_left(const struct trial *it, struct conway *ledger)
{
    if (it->call == JUDGE || it->call == EXPLAIN || it->call == CHECKPOINT) {
        must_be_unchanged(it, ledger);
    } else {
        must_be_closed(it, ledger);
    }
}

/* ---- trials */

/* Makes the call where the allocation of this number is refused; 0 where there is no such one. */
static int try_at(const struct trial *it, long at, int all)
{
    struct conway ledger = CONWAY_CLOSED;
    struct conway_answer answer;
    int is_refused;
    /* an open and a resume are tried over an open handle, too */
    if ((it->call != OPEN && it->call != RESUME) || (all && it->checkpoint.length > 0)) {
        prepare(it, &ledger);
    }
    refuse(at, all);
    answer = called(it, &ledger);
    is_refused = refuse_none() >= at;
    refusals += is_refused;
    if (is_refused && answer.status == CONWAY_NO_MEMORY) {
        must_be_left(it, &ledger);
    } else {
        MUST(is_right(it, &ledger, answer));
        done_without += is_refused;
    }
    conway_close(&ledger);
    MUST(ledger.ledger == NULL && blocks_held == 0);
    return is_refused;
}

/* Each allocation of the call in turn, while no other block is held. */
static void try_each(struct trial it)
{
    struct conway ledger = CONWAY_CLOSED;
    struct conway_answer answer;
    long at = 1;
    MUST(blocks_held == 0);
    if (it.call != OPEN && it.call != RESUME) {
        prepare(&it, &ledger);
    }
    answer = call_of(&it, &ledger, room_of(0), 0);
    it.status = answer.status;
    MUST(it.status == CONWAY_DONE || it.call == OPEN);
    it.text = (struct text){it.line.bytes, 0};
    if (it.status == CONWAY_DONE) {
        it.text = text_of(&ledger, answer.wanted, OF_IT);
    }
    conway_close(&ledger);
    while (try_at(&it, at, 0) + try_at(&it, at, 1) > 0) {
        at++;
    }
}

/* ---- a stream */

/* The checkpoint after the line; the one before has no bytes where the line is to be a genesis. */
static struct text after(struct text before, struct text line, struct conway_answer *answer)
{
    struct conway ledger = CONWAY_CLOSED;
    struct text text = {line.bytes, 0};
    if (before.length == 0) {
        *answer = conway_open(line.bytes, line.length, line_number, SEED[0], SEED[1], &ledger);
    } else {
        MUST(conway_resume(before.bytes, before.length, SEED[0], SEED[1], &ledger).status == CONWAY_DONE);
        *answer = conway_record(&ledger, line.bytes, line.length, room_of(0), 0);
    }
    if (answer->status == CONWAY_DONE) {
        text = text_of(&ledger, conway_checkpoint(&ledger, room_of(0), 0).wanted, BEFORE_IT);
    }
    conway_close(&ledger);
    return text;
}

/* The calls that have no line. */
static void try_whole(struct text checkpoint)
{
    struct text none = {checkpoint.bytes, 0};
    try_each((struct trial){CHECKPOINT, none, 0, checkpoint, 0, none});
    try_each((struct trial){RESUME, none, 0, checkpoint, 0, none});
    try_each((struct trial){OUTLOOK, none, 0, checkpoint, 0, none});
}

/* The calls over each line behind the genesis. */
static void go_on(struct text stream, struct text checkpoint)
{
    struct conway_answer answer;
    struct text line;
    try_whole(checkpoint);
    while (next_line(&stream, &line)) {
        struct trial it = {RECORD, line, line_number, checkpoint, 0, line};
        try_each(it);
        it.call = JUDGE;
        try_each(it);
        it.call = EXPLAIN;
        try_each(it);
        checkpoint = after(checkpoint, line, &answer);
        MUST(answer.status == CONWAY_DONE);
        if (line_number % BEHIND == 0 || stream.length == 0) {
            try_whole(checkpoint);
        }
    }
}

int main(void)
{
    struct text stream = input();
    struct conway_answer answer = {CONWAY_IS_BLANK, 0, 0};
    struct text line, checkpoint = {NULL, 0};
    while (answer.status == CONWAY_IS_BLANK && next_line(&stream, &line)) {
        checkpoint = after((struct text){line.bytes, 0}, line, &answer);
        try_each((struct trial){OPEN, line, line_number, checkpoint, 0, line});
    }
    if (answer.status == CONWAY_DONE) {
        go_on(stream, checkpoint);
    }
    MUST(blocks_held == 0);
    printf("%ld %ld\n", refusals, done_without);
    return 0;
}
