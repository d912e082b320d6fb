/* Reads a stream of records from standard input and writes what examples/c/replay.c writes for it,
   with the same status. On the way it makes each call of examples/c/conway.h: in rooms of each
   size, over checkpoints that are cut or changed, over closed handles, and over handles that are
   opened again. Texts and rooms end at a page that nobody may touch, or begin behind one. Where an
   answer is not as the header says, or a block is held when all is closed, it says so and ends with
   status 98. */
#include "trial.h"

#include <stdio.h>
#include <string.h>

static const uint64_t SEED[2] = {0x9e3779b97f4a7c15, 0xbf58476d1ce4e5b9};
static const uint64_t LAST_NUMBER = UINT64_MAX;
/* behind how many lines a checkpoint and an outlook are made again */
enum { BEHIND = 5 };

/* where texts are kept: of the call that is looked at, of a record, of a checkpoint, of its copy */
enum { OF_CALL, OF_RECORD, OF_CHECKPOINT, OF_COPY };

/* a line, once at the end of its area and once at the start of another one */
static struct area ends, starts;

static struct text given(struct text line)
{
    line.bytes = line_number % 2 ? at_end(ends, line.bytes, line.length) : at_start(starts, line.bytes, line.length);
    return line;
}

/* ---- calls */

typedef struct conway_answer call_over_line(struct conway *, const uint8_t *, size_t, uint8_t *, size_t);
typedef struct conway_answer call_alone(struct conway *, uint8_t *, size_t);

static struct conway_answer over(call_over_line *call, struct conway *ledger, struct text line, size_t size)
{
    uint8_t *room = room_of(size);
    struct conway_answer answer = call(ledger, line.bytes, line.length, room, size);
    check_room(answer, room, size);
    return answer;
}

static struct conway_answer alone(call_alone *call, struct conway *ledger, size_t size)
{
    uint8_t *room = room_of(size);
    struct conway_answer answer = call(ledger, room, size);
    check_room(answer, room, size);
    return answer;
}

/* Each call answers that the ledger is closed, except `conway_text` where an outlook used it up. */
static void must_be_closed(struct conway *ledger, int is_used_up)
{
    static const uint8_t byte[] = {'x'};
    struct text line = {byte, 1};
    size_t size;
    for (size = 0; size < 3; size++) {
        MUST(over(conway_record, ledger, line, size).status == CONWAY_IS_CLOSED);
        MUST(over(conway_judge, ledger, line, size).status == CONWAY_IS_CLOSED);
        MUST(over(conway_explain, ledger, line, size).status == CONWAY_IS_CLOSED);
        MUST(alone(conway_checkpoint, ledger, size).status == CONWAY_IS_CLOSED);
        MUST(alone(conway_outlook, ledger, size).status == CONWAY_IS_CLOSED);
        MUST(is_used_up || alone(conway_text, ledger, size).status == CONWAY_IS_CLOSED);
    }
    MUST((ledger->ledger == NULL) == !is_used_up);
}

/* Closes a handle twice, and uses it after that. */
static void close_it(struct conway *ledger)
{
    conway_close(ledger);
    MUST(ledger->ledger == NULL);
    conway_close(ledger);
    must_be_closed(ledger, 0);
}

/* The text of an answer, which is asked for in rooms of each size from 0 to one byte too much. */
static struct text in_each_room(struct conway *ledger, struct conway_answer answer, int place)
{
    struct text text = text_of(ledger, answer.wanted, place);
    size_t size;
    for (size = 0; size <= text.length + 1; size++) {
        uint8_t *room = room_of(size);
        struct conway_answer again = conway_text(ledger, room, size);
        MUST(again.status == CONWAY_DONE && again.wanted == text.length);
        MUST(size < text.length || memcmp(room, text.bytes, text.length) == 0);
        check_room(again, room, size);
    }
    return text;
}

/* A call that changes no ledger, in a room that is too small, in one that fits, in a greater one. */
static struct text three_times(call_over_line *call, struct conway *ledger, struct text line)
{
    struct conway_answer answer = over(call, ledger, line, 0);
    struct text text = {NULL, 0};
    MUST(answer.status == CONWAY_DONE);
    text = in_each_room(ledger, answer, OF_CALL);
    MUST(over(call, ledger, line, text.length).wanted == text.length);
    MUST(is_same(text, text_of(ledger, text.length, OF_COPY)));
    MUST(over(call, ledger, line, text.length + 9).wanted == text.length);
    return text;
}

/* ---- checkpoints and outlooks */

static struct conway_answer resumed(struct text text, struct conway *ledger)
{
    struct conway_answer answer = conway_resume(text.bytes, text.length, SEED[0], SEED[1], ledger);
    MUST(answer.wanted == 0 && answer.written == 0);
    MUST((ledger->ledger == NULL) == (answer.status != CONWAY_DONE));
    return answer;
}

/* The checkpoint of a ledger is this text. */
static void must_show(struct conway *ledger, struct text text)
{
    MUST(alone(conway_checkpoint, ledger, 0).wanted == text.length);
    MUST(is_same(text, text_of(ledger, text.length, OF_COPY)));
}

/* A text with a byte changed is the checkpoint of no ledger, or of one whose checkpoint it is. */
static void resume_changed(struct text text, size_t at, uint8_t bits)
{
    struct conway ledger = CONWAY_CLOSED;
    uint8_t *bytes = at_end(ends, text.bytes, text.length);
    struct text changed = {bytes, text.length};
    bytes[at] ^= bits;
    if (resumed(changed, &ledger).status == CONWAY_DONE) {
        must_show(&ledger, changed);
    } else {
        MUST(resumed(changed, &ledger).status == CONWAY_BAD_CHECKPOINT);
    }
    close_it(&ledger);
}

/* A text that is cut is the checkpoint of no ledger; what the handle held is closed. */
static void resume_cut(struct text text, size_t length)
{
    struct conway ledger = CONWAY_CLOSED;
    struct text cut = {NULL, length};
    MUST(resumed(text, &ledger).status == CONWAY_DONE);
    cut.bytes = at_end(ends, text.bytes, length);
    MUST(resumed(cut, &ledger).status == CONWAY_BAD_CHECKPOINT);
    close_it(&ledger);
}

/* The outlook of a checkpoint's ledger, which it uses up. */
static void use_up(struct text checkpoint)
{
    struct conway ledger = CONWAY_CLOSED;
    struct conway_answer answer;
    struct text text;
    MUST(resumed(checkpoint, &ledger).status == CONWAY_DONE);
    answer = alone(conway_outlook, &ledger, line_number % 64);
    MUST(answer.status == CONWAY_DONE);
    text = in_each_room(&ledger, answer, OF_CALL);
    must_be_closed(&ledger, 1);
    MUST(is_same(text, text_of(&ledger, text.length, OF_COPY)));
    close_it(&ledger);
}

/* The checkpoint of a ledger, which `copy` is then resumed from; what that held is closed. */
static void branch(struct conway *ledger, struct conway *copy)
{
    struct conway_answer answer = alone(conway_checkpoint, ledger, line_number % 64);
    struct text text;
    size_t part;
    MUST(answer.status == CONWAY_DONE);
    text = in_each_room(ledger, answer, OF_CHECKPOINT);
    MUST(text.length <= ends.size);
    text.bytes = at_start(starts, text.bytes, text.length);
    MUST(resumed(text, copy).status == CONWAY_DONE);
    MUST(alone(conway_text, copy, 9).wanted == 0);
    must_show(copy, text);
    for (part = 0; part < 8; part++) {
        resume_cut(text, text.length * part / 8);
        resume_changed(text, (text.length - 1) * part / 8, (uint8_t)(1 << (line_number + part) % 8));
    }
    use_up(text);
}

/* ---- a stream */

static struct conway_answer opened(struct text line, uint64_t number, struct conway *ledger)
{
    struct conway_answer answer = conway_open(line.bytes, line.length, number, SEED[0], SEED[1], ledger);
    MUST(answer.written == 0);
    MUST(answer.status == CONWAY_DONE || answer.wanted == 0);
    MUST((ledger->ledger == NULL) == (answer.status != CONWAY_DONE));
    return answer;
}

/* Behind the last number a line changes nothing. */
static void fill(struct text genesis, struct text line)
{
    struct conway ledger = CONWAY_CLOSED;
    struct text text = text_of(&ledger, opened(genesis, LAST_NUMBER, &ledger).wanted, OF_CALL);
    MUST(over(conway_record, &ledger, line, 9).status == CONWAY_IS_FULL);
    MUST(over(conway_judge, &ledger, line, 9).status == CONWAY_IS_FULL);
    MUST(over(conway_explain, &ledger, line, 9).status == CONWAY_IS_FULL);
    MUST(is_same(text, text_of(&ledger, text.length, OF_COPY)));
    close_it(&ledger);
}

static void write_text(struct text text)
{
    MUST(fwrite(text.bytes, 1, text.length, stdout) == text.length);
}

/* A line is judged, explained, and then recorded, also by the copy, if that is open. */
static void record(struct conway *ledger, struct conway *copy, struct text line)
{
    struct conway_answer answer;
    struct text text;
    three_times(conway_judge, ledger, line);
    three_times(conway_explain, ledger, line);
    answer = over(conway_record, ledger, line, line_number % 128);
    MUST(answer.status == CONWAY_DONE);
    text = in_each_room(ledger, answer, OF_RECORD);
    if (copy->ledger != NULL) {
        MUST(over(conway_record, copy, line, 1).wanted == text.length);
        MUST(is_same(text, text_of(copy, text.length, OF_COPY)));
    }
    write_text(text);
}

/* The lines behind a genesis; the last answer is a checkpoint, an outlook or a text. */
static void go_on(struct conway *ledger, struct text stream)
{
    struct conway copy = CONWAY_CLOSED;
    struct text line;
    branch(ledger, &copy);
    while (next_line(&stream, &line)) {
        line = given(line);
        record(ledger, &copy, line);
        if (line_number % BEHIND == 0 || stream.length == 0) {
            branch(ledger, &copy);
        }
    }
    close_it(&copy);
}

/* The stream; the status is that of `replay`. */
static int run(struct text stream)
{
    struct conway ledger = CONWAY_CLOSED;
    struct conway_answer answer = {CONWAY_IS_BLANK, 0, 0};
    struct text genesis;
    must_be_closed(&ledger, 0);
    while (answer.status == CONWAY_IS_BLANK) {
        if (!next_line(&stream, &genesis)) {
            return CONWAY_BAD_GENESIS;
        }
        answer = opened(given(genesis), line_number, &ledger);
    }
    if (answer.status == CONWAY_DONE) {
        write_text(in_each_room(&ledger, answer, OF_RECORD));
        fill(genesis, genesis);
        /* what the handle holds is closed when it is opened again */
        MUST(opened(given(genesis), line_number, &ledger).wanted == answer.wanted);
        go_on(&ledger, stream);
    }
    close_it(&ledger);
    return (int)answer.status;
}

int main(void)
{
    struct text stream = input();
    int status;
    ends = area_of(stream.length + (1 << 20));
    starts = area_of(stream.length + (1 << 20));
    status = run(stream);
    MUST(blocks_held == 0);
    return status;
}
