/* Reads the lines of records from standard input, and writes of each what the ledger of a checkpoint
   would reply, with its number: it records none of them, so each has the number behind the last line
   of the checkpoint. Its word is the file of the checkpoint. */
#define _GNU_SOURCE
#include "conway.h"

#include <stdio.h>
#include <stdlib.h>
#include <sys/random.h>

/* The whole text of a file; NULL where it cannot be read. */
static char *text_of(const char *name, size_t *length)
{
    char *text = NULL;
    long end = -1;
    FILE *file = fopen(name, "rb");
    if (file == NULL) {
        return NULL;
    }
    if (fseek(file, 0, SEEK_END) == 0) {
        end = ftell(file);
        rewind(file);
    }
    if (end >= 0) {
        text = malloc((size_t)end + 1);
    }
    *length = text == NULL ? 0 : fread(text, 1, (size_t)end, file);
    fclose(file);
    return text;
}

/* Writes the reply that a line would get. A reply is short, so it has room. */
static int ask(struct conway *ledger, const char *line, size_t length)
{
    uint8_t room[4096];
    struct conway_answer answer = conway_judge(ledger, (const uint8_t *)line, length, room, sizeof room);
    fwrite(room, 1, answer.written, stdout);
    return (int)answer.status;
}

int main(int count, char **words)
{
    struct conway ledger = CONWAY_CLOSED;
    char *line = NULL;
    size_t size = 0;
    size_t length = 0;
    ssize_t read;
    uint64_t seed[2];
    char *text = count == 2 ? text_of(words[1], &length) : NULL;
    int status = 2;
    if (getrandom(seed, sizeof seed, 0) != sizeof seed) {
        status = 1;
    } else if (text != NULL) {
        status = (int)conway_resume((const uint8_t *)text, length, seed[0], seed[1], &ledger).status;
    }
    free(text);
    while (status == CONWAY_DONE && (read = getline(&line, &size, stdin)) != -1) {
        status = ask(&ledger, line, (size_t)read - (line[read - 1] == '\n'));
    }
    conway_close(&ledger);
    free(line);
    return status;
}
