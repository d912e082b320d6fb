/* Reads a stream of records from standard input, line by line, and writes what `conway replay` writes
   for it, with the same status. */
#define _GNU_SOURCE
#include "conway.h"

#include <stdio.h>
#include <stdlib.h>
#include <sys/random.h>

/* Room for a text, made greater as texts ask for it. */
struct room {
    uint8_t *bytes;
    size_t size;
};

/* Writes a text to standard output, taken once more where it did not fit. */
static int write_text(struct conway *ledger, struct conway_answer answer, struct room *room)
{
    if (answer.written < answer.wanted) {
        if (room->size < answer.wanted) {
            free(room->bytes);
            room->size = answer.wanted;
            room->bytes = malloc(room->size);
            if (room->bytes == NULL) {
                return CONWAY_NO_MEMORY;
            }
        }
        answer = conway_text(ledger, room->bytes, room->size);
    }
    fwrite(room->bytes, 1, answer.written, stdout);
    return answer.status;
}

int main(void)
{
    struct conway ledger = CONWAY_CLOSED;
    struct room room = {malloc(4096), 4096};
    char *line = NULL;
    size_t size = 0;
    uint64_t number = 0;
    uint64_t seed[2];
    int is_open = 0;
    int status = CONWAY_DONE;
    ssize_t length;
    if (getrandom(seed, sizeof seed, 0) != sizeof seed) {
        return 1;
    }
    while (status == CONWAY_DONE && (length = getline(&line, &size, stdin)) != -1) {
        struct conway_answer answer;
        const uint8_t *bytes = (const uint8_t *)line;
        size_t count = (size_t)length;
        if (count > 0 && line[count - 1] == '\n') {
            count--;
        }
        number++;
        if (is_open) {
            answer = conway_record(&ledger, bytes, count, room.bytes, room.size);
        } else {
            answer = conway_open(bytes, count, number, seed[0], seed[1], &ledger);
            if (answer.status == CONWAY_IS_BLANK) {
                continue;
            }
            is_open = 1;
        }
        status = (int)answer.status;
        if (status == CONWAY_DONE) {
            status = write_text(&ledger, answer, &room);
        }
    }
    if (status == CONWAY_DONE && !is_open) {
        status = CONWAY_BAD_GENESIS;
    }
    conway_close(&ledger);
    free(line);
    free(room.bytes);
    return status;
}
