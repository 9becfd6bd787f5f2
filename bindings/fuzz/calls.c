/*
 * The calls of include/vx.h over bytes that libFuzzer makes: what each may do, and what it may never do.
 *
 * An input is a byte for the call, one for the room of its answer, one that says which request for memory is refused,
 * and parts with a byte 31 between them: the expression, the schema, and the records, or the buffers of a batch. Each
 * part ends before a page that no one may touch. The library isn't instrumented, so that the fuzzer is told what is
 * new by what comes out: the pairs of words that an answer or a message has side by side.
 */
#define _DEFAULT_SOURCE

#include "vx.h"

#include <malloc.h>
#include <stdbool.h>
#include <stdio.h>
#include <stdlib.h>
#include <string.h>
#include <sys/mman.h>

enum { ROOM = 1 << 16, MOST_PARTS = 24, HEAD = 3, SEPARATOR = 31, FEATURES = 1 << 16 };

/* No call gets more memory than this. */
static const size_t MOST_MEMORY = 256u << 20;

typedef struct {
    const char *bytes;
    size_t length;
} Part;

typedef enum { FMT, CHECK, PLAN, EXPLAIN, EVAL, PRUNE, SCAN, SELECT, SCAN_COLUMN, FILTER_COLUMN, CALLS } Call;

typedef struct {
    Call call;
    size_t rows;
    Part parts[MOST_PARTS];
    size_t count;
} Input;

/* What a run has shown: libFuzzer finds these by the name of the section. */
__attribute__((section("__libfuzzer_extra_counters"))) static unsigned char features[FEATURES];

/* --- memory: what a call has of it, and which request is refused --- */

static bool is_counted = false;
static size_t held, blocks, requests, refused;

void *__real_malloc(size_t size);
void *__real_realloc(void *block, size_t size);
void __real_free(void *block);

static bool is_refused(size_t size)
{
    return is_counted && (++requests == refused || size > MOST_MEMORY || held + size > MOST_MEMORY);
}

void *__wrap_malloc(size_t size)
{
    void *block = is_refused(size) ? NULL : __real_malloc(size);
    if (block && is_counted) {
        held += malloc_usable_size(block);
        blocks++;
    }
    return block;
}

void *__wrap_realloc(void *block, size_t size)
{
    size_t before = block ? malloc_usable_size(block) : 0;
    void *grown = is_refused(size) ? NULL : __real_realloc(block, size);
    if (grown && is_counted) {
        held += malloc_usable_size(grown) - before;
        blocks += !block;
    }
    return grown;
}

void __wrap_free(void *block)
{
    if (block && is_counted) {
        held -= malloc_usable_size(block);
        blocks--;
    }
    __real_free(block);
}

/* --- what a call may never do --- */

static void need(bool holds, const char *what)
{
    if (!holds) {
        fprintf(stderr, "fuzz: %s\n", what);
        abort();
    }
}

/* Tells the fuzzer of a page or a message: how the call ended, and each pair of words. */
static void tell(Call call, vx_status status, const char *page, size_t length)
{
    unsigned before = 0, word = 0;
    features[(call * 8 + status) % FEATURES] = 1;
    for (size_t i = 0; i < length; i++) {
        unsigned char c = (unsigned char)page[i];
        bool is_digit = c >= '0' && c <= '9';
        if ((c | 32) >= 'a' && (c | 32) <= 'z') {
            word = word * 31 + c;
            continue;
        }
        features[(before * 961 + word * 31 + (is_digit ? '0' : c) + call * 7) % FEATURES] = 1;
        before = word ? word : before;
        word = 0;
    }
}

/* A page of memory with one behind it that no one may touch. */
static char *guarded_end(void)
{
    char *pages = mmap(NULL, 2 * ROOM, PROT_READ | PROT_WRITE, MAP_PRIVATE | MAP_ANONYMOUS, -1, 0);
    need(pages != MAP_FAILED && mprotect(pages + ROOM, ROOM, PROT_NONE) == 0, "no memory for the fuzzer");
    return pages + ROOM;
}

static vx_status scanned(const Input *in, vx_plan *plan, char *buffer, size_t room, vx_answer *answer)
{
    Part e = in->parts[0], s = in->parts[1];
    vx_status status = vx_plan_new(e.bytes, e.length, s.bytes, s.length, plan, buffer, room, answer);
    need((status == VX_ANSWERED) == (plan->at != NULL), "a plan beside an error, or none beside an answer");
    if (status != VX_ANSWERED)
        return status;
    vx_buffer buffers[MOST_PARTS];
    size_t count = in->count - 2;
    for (size_t i = 0; i < count; i++)
        buffers[i] = (vx_buffer){in->parts[i + 2].bytes, in->parts[i + 2].length};
    switch (in->call) {
    case SCAN:
        return vx_plan_scan(plan, in->rows, buffers, count, buffer, room, answer);
    case SELECT:
        return vx_plan_select(plan, in->rows, buffers, count, buffer, room, answer);
    case SCAN_COLUMN:
        return vx_plan_scan_column(plan, in->rows, buffers, count, buffer, room, answer);
    default:
        return vx_plan_filter_column(plan, in->rows, buffers, count, buffer, room, answer);
    }
}

static vx_status called(const Input *in, vx_plan *plan, char *buffer, size_t room, vx_answer *answer)
{
    Part e = in->parts[0], s = in->parts[1], r = in->parts[2];
    switch (in->call) {
    case FMT:
        return vx_fmt(e.bytes, e.length, buffer, room, answer);
    case CHECK:
        return vx_check(e.bytes, e.length, s.bytes, s.length, buffer, room, answer);
    case PLAN:
        return vx_plan_json(e.bytes, e.length, s.bytes, s.length, buffer, room, answer);
    case EXPLAIN:
        return vx_explain(e.bytes, e.length, s.bytes, s.length, buffer, room, answer);
    case EVAL:
        return vx_eval_json(e.bytes, e.length, s.bytes, s.length, r.bytes, r.length, buffer, room, answer);
    case PRUNE:
        return vx_prune(e.bytes, e.length, s.bytes, s.length, r.bytes, r.length, buffer, room, answer);
    default:
        return scanned(in, plan, buffer, room, answer);
    }
}

/* The call with so much room before the end: a possible status, a length that fits it, and nothing written behind. */
static vx_status checked(const Input *in, char *end, size_t room, vx_answer *answer)
{
    vx_plan plan = VX_PLAN_INIT;
    char *buffer = end - room;
    memset(buffer, SEPARATOR, room);
    held = blocks = requests = 0;
    is_counted = true;
    vx_status status = called(in, &plan, buffer, room, answer);
    vx_plan_free(&plan);
    is_counted = false;
    need(blocks == 0, "memory that isn't freed, or freed twice");
    need(status <= VX_NO_PLAN && (status == VX_TOO_SMALL) == (answer->needed > room), "a length that isn't the status's");
    size_t written = status == VX_TOO_SMALL || status == VX_OUT_OF_MEMORY ? 0 : answer->needed;
    for (size_t i = written; i < room; i++)
        need(buffer[i] == SEPARATOR, "bytes written behind the page");
    for (size_t i = 0; i < 3; i++) {
        Part text = in->parts[i];
        if (answer->place.text == i + 1 && (i < 2 || in->call == EVAL || in->call == PRUNE))
            need(answer->place.start <= answer->place.end && answer->place.end <= text.length, "a place outside the text");
    }
    return status;
}

/* Source text is read back as itself, and so is a type, unless it is nested too deep. */
static void check_again(Call call, const char *page, size_t length)
{
    static char again[ROOM];
    vx_answer answer;
    vx_status status = call == FMT ? vx_fmt(page, length, again, sizeof again, &answer)
                                   : vx_check("$", 1, page, length, again, sizeof again, &answer);
    need(status == VX_ANSWERED || status == VX_UNREAD, "a text that isn't read back");
    if (status == VX_ANSWERED)
        need(answer.needed == length && memcmp(page, again, length) == 0, "another text when it is read back");
}

int LLVMFuzzerTestOneInput(const unsigned char *data, size_t size);

int LLVMFuzzerTestOneInput(const unsigned char *data, size_t size)
{
    static char *ends[MOST_PARTS + 1];
    for (size_t i = 0; !ends[MOST_PARTS] && i <= MOST_PARTS; i++)
        ends[i] = guarded_end();
    if (size < HEAD || size > ROOM)
        return 0;
    Input in = {.call = data[0] % CALLS, .rows = data[1] % 32};
    const unsigned char *at = data + HEAD, *last = data + size;
    for (in.count = 0; in.count < MOST_PARTS && at <= last; in.count++) {
        const unsigned char *end = memchr(at, SEPARATOR, (size_t)(last - at));
        size_t length = (size_t)((end ? end : last) - at);
        in.parts[in.count] = (Part){memcpy(ends[in.count] - length, at, length), length};
        at = end ? end + 1 : last + 1;
    }
    if (in.count < 2)
        in.count = 2;
    vx_answer answer;
    char *end = ends[MOST_PARTS];
    size_t room = data[1] * 16u;
    refused = data[2];
    vx_status status = checked(&in, end, room, &answer);
    refused = 0;
    if (status == VX_OUT_OF_MEMORY || (status == VX_TOO_SMALL && answer.needed <= ROOM)) {
        room = status == VX_TOO_SMALL ? answer.needed : ROOM;
        vx_status again = checked(&in, end, room, &answer);
        need(status == VX_OUT_OF_MEMORY || again != VX_TOO_SMALL, "no answer in the room that it asked for");
        status = again;
    }
    if (status == VX_TOO_SMALL || status == VX_OUT_OF_MEMORY)
        return 0;
    tell(in.call, status, end - room, answer.needed);
    if (status == VX_ANSWERED && in.call <= CHECK)
        check_again(in.call, end - room, answer.needed);
    return 0;
}
