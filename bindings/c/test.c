/*
 * Tests of include/vx.h.
 *
 *     test                 the tests but the next; the last line is "C: N checks, M failed"
 *     test long            texts of ten megabytes through each call
 *     test answers FILE    what each call answers of each line of a file of expressions
 *     test fuzz N SEED     N random buffers through each call
 *     test arrow N SEED    N columns of Arrow's by chance
 *     test threads         threads over one batch of Arrow's
 *     test time N          the microseconds of a plan that is made, and of one that is kept, N times
 */
#define _DEFAULT_SOURCE

#include "test.h"

#include <stdio.h>
#include <stdlib.h>
#include <string.h>
#include <sys/mman.h>

const char *const NAMES[CALLS] = {"fmt", "check", "plan", "explain", "eval", "prune"};

static int checks = 0, failures = 0;

Text text_of(const char *bytes)
{
    return (Text){bytes, bytes ? strlen(bytes) : 0};
}

Given given(const char *expression, const char *schema, const char *records)
{
    return (Given){text_of(expression), text_of(schema), text_of(records)};
}

vx_status called(Call call, const Given *given, char *buffer, size_t room, vx_answer *answer)
{
    Text e = given->expression, s = given->schema, r = given->records;
    switch (call) {
    case FMT:
        return vx_fmt(e.bytes, e.length, buffer, room, answer);
    case CHECK:
        return vx_check(e.bytes, e.length, s.bytes, s.length, buffer, room, answer);
    case PLAN:
        return vx_plan_json(e.bytes, e.length, s.bytes, s.length, buffer, room, answer);
    case EXPLAIN:
        return vx_explain(e.bytes, e.length, s.bytes, s.length, buffer, room, answer);
    case EVAL:
        return vx_eval_json(e.bytes, e.length, s.bytes, s.length, r.bytes, r.length, buffer, room,
                            answer);
    case PRUNE:
        return vx_prune(e.bytes, e.length, s.bytes, s.length, r.bytes, r.length, buffer, room,
                        answer);
    default:
        abort();
    }
}

Answered with_room(size_t room)
{
    Answered a = {.text = malloc(room), .room = room};
    if (!a.text)
        abort();
    return a;
}

bool is_grown(Answered *a)
{
    if (a->status != VX_TOO_SMALL)
        return false;
    free(a->text);
    *a = with_room(a->answer.needed);
    return true;
}

Answered answered(Call call, const Given *given)
{
    Answered a = with_room(64);
    do
        a.status = called(call, given, a.text, a.room, &a.answer);
    while (is_grown(&a));
    return a;
}

void expect(bool holds, const char *what, const char *file, int line)
{
    checks++;
    if (!holds) {
        failures++;
        fprintf(stderr, "%s:%d: %s\n", file, line, what);
    }
}

bool begins(const Answered *a, const char *text)
{
    return a->answer.needed >= strlen(text) && memcmp(a->text, text, strlen(text)) == 0;
}

bool says(const Answered *a, const char *text)
{
    return a->answer.needed == strlen(text) && begins(a, text);
}

bool is_at(const vx_answer *answer, vx_place place)
{
    const vx_place *p = &answer->place;
    return p->text == place.text && p->start == place.start && p->end == place.end &&
           p->line == place.line && p->column == place.column && p->record == place.record;
}

char *guarded_end(void)
{
    char *pages = mmap(NULL, 2 * ROOM, PROT_READ | PROT_WRITE, MAP_PRIVATE | MAP_ANONYMOUS, -1, 0);
    if (pages == MAP_FAILED || mprotect(pages + ROOM, ROOM, PROT_NONE) != 0)
        abort();
    return pages + ROOM;
}

static int ended(void)
{
    printf("C: %d checks, %d failed\n", checks, failures);
    return failures > 0;
}

int main(int argc, char **argv)
{
    const char *work = argc > 1 ? argv[1] : "";
    if (argc == 1) {
        test_calls();
        test_plans();
        test_long_batches();
        test_arrow();
        test_arrow_floats();
        test_refusals();
        return ended();
    }
    if (strcmp(work, "long") == 0 && argc == 2) {
        test_long_texts();
        return ended();
    }
    if (strcmp(work, "answers") == 0 && argc == 3)
        return answers(argv[2]);
    if (strcmp(work, "fuzz") == 0 && argc == 4)
        return fuzz(strtoull(argv[2], NULL, 10), strtoull(argv[3], NULL, 10));
    if (strcmp(work, "arrow") == 0 && argc == 4)
        return arrow_by_chance(strtoull(argv[2], NULL, 10), strtoull(argv[3], NULL, 10));
    if (strcmp(work, "threads") == 0 && argc == 2)
        return arrow_threads();
    if (strcmp(work, "time") == 0 && argc == 3)
        return timed(strtoull(argv[2], NULL, 10));
    fprintf(stderr, "usage: test [long | answers FILE | fuzz N SEED | arrow N SEED | threads | time N]\n");
    return 2;
}
