#define _GNU_SOURCE
#include "trial.h"

#include <errno.h>
#include <stdio.h>
#include <stdlib.h>
#include <string.h>
#include <sys/mman.h>
#include <unistd.h>

/* the value of each byte of a room before a call, and how many bytes before it are looked at */
enum { VALUE = 0xa5, BEFORE = 64 };
/* no stream and no text is longer */
static const size_t MOST = (size_t)1 << 26;

uint64_t line_number;

void must_hold(const char *file, int line, const char *what)
{
    fprintf(stderr, "%s:%d: not so at line %llu: %s\n", file, line, (unsigned long long)line_number, what);
    fflush(stderr);
    _exit(DOES_NOT_HOLD);
}

/* ---- blocks */

long blocks_held;
static long allocations, refused_at, refuses_all;

void refuse(long at, int all)
{
    allocations = 0;
    refused_at = at;
    refuses_all = all;
}

long refuse_none(void)
{
    refused_at = 0;
    return allocations;
}

static int is_refused(void)
{
    allocations++;
    return refused_at > 0 && (allocations == refused_at || (refuses_all && allocations > refused_at));
}

static void *held(void *block)
{
    blocks_held += block != NULL;
    return block;
}

void *__real_malloc(size_t size);
void *__real_calloc(size_t count, size_t size);
void *__real_realloc(void *block, size_t size);
void *__real_aligned_alloc(size_t alignment, size_t size);
int __real_posix_memalign(void **block, size_t alignment, size_t size);
void __real_free(void *block);

void *__wrap_malloc(size_t size);
void *__wrap_calloc(size_t count, size_t size);
void *__wrap_realloc(void *block, size_t size);
void *__wrap_aligned_alloc(size_t alignment, size_t size);
int __wrap_posix_memalign(void **block, size_t alignment, size_t size);
void __wrap_free(void *block);

void *__wrap_malloc(size_t size)
{
    return is_refused() ? NULL : held(__real_malloc(size));
}

void *__wrap_calloc(size_t count, size_t size)
{
    return is_refused() ? NULL : held(__real_calloc(count, size));
}

void *__wrap_realloc(void *block, size_t size)
{
    if (is_refused()) {
        return NULL;
    }
    if (block == NULL) {
        return held(__real_realloc(block, size));
    }
    /* (of a size of 0 it may free the block or not) */
    MUST(size != 0);
    return __real_realloc(block, size);
}

void *__wrap_aligned_alloc(size_t alignment, size_t size)
{
    return is_refused() ? NULL : held(__real_aligned_alloc(alignment, size));
}

int __wrap_posix_memalign(void **block, size_t alignment, size_t size)
{
    int status = is_refused() ? ENOMEM : __real_posix_memalign(block, alignment, size);
    blocks_held += status == 0;
    return status;
}

void __wrap_free(void *block)
{
    blocks_held -= block != NULL;
    __real_free(block);
}

/* ---- areas */

struct area area_of(size_t size)
{
    size_t page = (size_t)sysconf(_SC_PAGESIZE);
    struct area area = {NULL, (size / page + 1) * page};
    uint8_t *all = mmap(NULL, area.size + 2 * page, PROT_NONE, MAP_PRIVATE | MAP_ANONYMOUS | MAP_NORESERVE, -1, 0);
    MUST(all != MAP_FAILED);
    area.first = all + page;
    MUST(mprotect(area.first, area.size, PROT_READ | PROT_WRITE) == 0);
    return area;
}

uint8_t *at_end(struct area area, const uint8_t *text, size_t length)
{
    MUST(length <= area.size);
    return memcpy(area.first + area.size - length, text, length);
}

uint8_t *at_start(struct area area, const uint8_t *text, size_t length)
{
    MUST(length <= area.size);
    return memcpy(area.first, text, length);
}

/* the room of all calls, which is made longer as texts ask for it */
static struct area rooms;

uint8_t *room_of(size_t size)
{
    if (rooms.size < size + BEFORE) {
        if (rooms.first != NULL) {
            munmap(rooms.first, rooms.size);
        }
        rooms = area_of(2 * size + BEFORE);
        memset(rooms.first, VALUE, rooms.size);
    }
    return rooms.first + rooms.size - size;
}

/* Whether each byte has the value: the first one has, and each next one is as the one before. */
static int is_untouched(const uint8_t *bytes, size_t length)
{
    return length == 0 || (bytes[0] == VALUE && memcmp(bytes, bytes + 1, length - 1) == 0);
}

void check_room(struct conway_answer answer, const uint8_t *room, size_t size)
{
    uint8_t *own = room_of(size);
    MUST(room == own);
    MUST(answer.status == CONWAY_DONE || answer.wanted == 0);
    MUST(answer.written == (answer.wanted <= size ? answer.wanted : 0));
    MUST(is_untouched(own - BEFORE, BEFORE));
    MUST(is_untouched(own + answer.written, size - answer.written));
    memset(own, VALUE, answer.written);
}

/* ---- texts */

static struct area texts[TEXTS];

struct text text_of(struct conway *ledger, size_t wanted, int place)
{
    struct text text = {NULL, wanted};
    uint8_t *room = room_of(wanted);
    struct conway_answer answer = conway_text(ledger, room, wanted);
    MUST(answer.status == CONWAY_DONE && answer.wanted == wanted && answer.written == wanted);
    if (texts[place].first == NULL) {
        texts[place] = area_of(MOST);
    }
    text.bytes = at_end(texts[place], room, wanted);
    check_room(answer, room, wanted);
    return text;
}

int is_same(struct text one, struct text other)
{
    return one.length == other.length && memcmp(one.bytes, other.bytes, one.length) == 0;
}

/* ---- the stream */

struct text input(void)
{
    struct area area = area_of(MOST);
    struct text text = {area.first, 0};
    ssize_t count;
    while ((count = read(STDIN_FILENO, area.first + text.length, area.size - text.length)) > 0) {
        text.length += (size_t)count;
    }
    MUST(count == 0 && text.length < area.size);
    return text;
}

int next_line(struct text *stream, struct text *line)
{
    const uint8_t *end = stream->length > 0 ? memchr(stream->bytes, '\n', stream->length) : NULL;
    size_t length = end == NULL ? stream->length : (size_t)(end - stream->bytes);
    size_t taken = length + (end != NULL);
    if (stream->length == 0) {
        return 0;
    }
    *line = (struct text){stream->bytes, length};
    stream->bytes += taken;
    stream->length -= taken;
    line_number++;
    return 1;
}
