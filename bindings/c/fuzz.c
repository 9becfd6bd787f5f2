/* Random buffers through each call. */
#include "test.h"

#include <inttypes.h>
#include <stdio.h>
#include <stdlib.h>
#include <string.h>

enum { ENDS = VX_NO_PLAN + 1 };

/* How often a call ended in each way. */
typedef struct {
    size_t ends[ENDS];
} Tally;

static uint64_t state;

/* A number below n, by a linear congruence. */
static size_t below(size_t n)
{
    state = state * 6364136223846793005u + 1442695040888963407u;
    return (size_t)((state >> 33) % n);
}

static const char *const WORDS[] = {
    "x",      "y",    "s",     "a.x",       "$",     " and ", " or ",   "not ", " = ",     " < ",
    "between", "1",   "5i64",  "null",      "(",     ")",     "\"t%\"", " like ", "case when ",
    " then ", " else ", " end", "cast(",    " as i32", "[",   "]",      "{",    "}",       "i32",
    "utf8?",  "x=",   ", ",    "\"x\": ",   "\n",    "{\"rows\": 3", "\"fields\": ", "\xc3\xa4", "\xff",
    "1.5",    "f64",  "nan"};

enum { WORD_COUNT = sizeof WORDS / sizeof WORDS[0], MOST = 60 };

/* Bytes by chance, words, or the good text, whole, with a byte changed or cut off. */
static size_t random_bytes(char *bytes, Text good)
{
    size_t kind = below(4), length = 0, most = 1 + below(MOST);
    if (kind == 0) {
        while (length < most)
            bytes[length++] = (char)below(256);
    } else if (kind == 1) {
        for (size_t i = 0; i < most; i++) {
            Text word = text_of(WORDS[below(WORD_COUNT)]);
            memcpy(bytes + length, word.bytes, word.length);
            length += word.length;
        }
    } else if (good.length > 0) {
        memcpy(bytes, good.bytes, good.length);
        length = good.length;
        size_t at = below(length);
        if (kind == 2)
            bytes[at] = (char)below(256);
        else if (below(2))
            length = at;
    }
    return length;
}

/* The bytes, right before the end of guarded memory. */
static Text put(char *end, const char *bytes, size_t length)
{
    if (length > 0)
        memcpy(end - length, bytes, length);
    return (Text){end - length, length};
}

static Text random_text(char *end, const char *good)
{
    char bytes[ROOM];
    return put(end, bytes, random_bytes(bytes, text_of(good)));
}

/* Counts the end of a call, and ends the program where it can't be one. */
static void count(Tally *tally, const char *name, vx_status status, size_t needed, size_t room)
{
    if (status >= ENDS || (status == VX_TOO_SMALL) != (needed > room)) {
        fprintf(stderr, "%s ends with %" PRIu32 ", and needs %zu of %zu\n", name, status, needed, room);
        exit(1);
    }
    tally->ends[status]++;
}

static void print(const char *name, const Tally *tally)
{
    printf("fuzz: %-6s", name);
    for (size_t i = 0; i < ENDS; i++)
        printf(" %zu", tally->ends[i]);
    printf("\n");
}

/* --- the calls that are given texts --- */

enum { ANSWER_ROOM = 200 };

static const char *good_records(Call call)
{
    if (call == PRUNE)
        return "{\"rows\": 3, \"fields\": {\"x\": {\"nulls\": 1, \"least\": 1, \"greatest\": 5}}}";
    return "{\"x\": 1, \"s\": \"t\"}\n{\"x\": 5, \"s\": \"u\"}";
}

static void fuzz_texts(Call call, size_t times, char *const memory[4])
{
    Tally tally = {0};
    for (size_t i = 0; i < times; i++) {
        Given g = {random_text(memory[0], "x + 1 > 5 and s like \"t%\""),
                   random_text(memory[1], "{x=i32?, s=utf8}"),
                   random_text(memory[2], good_records(call))};
        size_t room = below(ANSWER_ROOM);
        vx_answer answer;
        vx_status status = called(call, &g, memory[3] - room, room, &answer);
        count(&tally, NAMES[call], status, answer.needed, room);
    }
    print(NAMES[call], &tally);
}

/* --- plans --- */

/* The buffers of two rows of this type. */
#define BATCH_TYPE "{x=i32?, s=utf8, l=list(bool)?, f=fixed_size_list(i8)[2], g=f64?}"
#define PART(bytes) {bytes, sizeof bytes - 1}

static const Text PARTS[] = {
    {NULL, 0},
    PART("\1"), PART("\1\0\0\0\2\0\0\0"),
    {NULL, 0}, PART("\0\0\0\0\1\0\0\0\3\0\0\0"), PART("t\303\244"),
    PART("\3"), PART("\0\0\0\0\1\0\0\0\2\0\0\0"), PART("\3"), PART("\2"),
    PART("\3"), PART("\17"), PART("\1\2\3\4"),
    PART("\1"), PART("\0\0\0\0\0\0\360\77\0\0\0\0\0\0\370\177"),
};

enum { PART_COUNT = sizeof PARTS / sizeof PARTS[0], MOST_BUFFERS = PART_COUNT + 2 };

/* Buffers of a batch, most of them good; sometimes one too many or too few. */
static size_t random_buffers(vx_buffer *buffers, char *const memory[MOST_BUFFERS])
{
    size_t number = below(8) ? PART_COUNT : below(MOST_BUFFERS + 1);
    for (size_t i = 0; i < number; i++) {
        char bytes[ROOM];
        Text part = i < PART_COUNT ? PARTS[i] : (Text){NULL, 0};
        Text it = below(16) ? put(memory[i], part.bytes, part.length)
                            : put(memory[i], bytes, random_bytes(bytes, part));
        buffers[i] = (vx_buffer){it.bytes, it.length};
    }
    return number;
}

/* Plans are made, asked for their paths, scan and select, mostly over good batches. */
static void fuzz_plans(size_t times, char *const memory[4])
{
    static const char *const GOOD[] = {"x + 1 > 5 and s like \"t%\"", "x + 2147483647", "l", "$", "f", "g + 1.5 > 2.0"};
    Tally made = {0}, paths = {0}, scans = {0}, selects = {0}, columns = {0}, filters = {0};
    vx_plan plan = VX_PLAN_INIT;
    char *lent[MOST_BUFFERS];
    for (size_t i = 0; i < MOST_BUFFERS; i++)
        lent[i] = guarded_end();
    for (size_t i = 0; i < times; i++) {
        const char *good = GOOD[below(sizeof GOOD / sizeof GOOD[0])];
        bool is_good = below(4) > 0;
        Text e = is_good ? put(memory[0], good, strlen(good)) : random_text(memory[0], good);
        Text s = is_good ? put(memory[1], BATCH_TYPE, strlen(BATCH_TYPE))
                         : random_text(memory[1], BATCH_TYPE);
        size_t room = below(ANSWER_ROOM);
        char *buffer = memory[3] - room;
        vx_answer answer;
        vx_status status = vx_plan_new(e.bytes, e.length, s.bytes, s.length, &plan, buffer, room, &answer);
        count(&made, "vx_plan_new", status, answer.needed, room);
        if ((status == VX_ANSWERED) != (plan.at != NULL)) {
            fprintf(stderr, "vx_plan_new ends with %" PRIu32 " and another plan\n", status);
            exit(1);
        }
        status = vx_plan_paths(&plan, buffer, room, &answer);
        count(&paths, "vx_plan_paths", status, answer.needed, room);
        vx_buffer buffers[MOST_BUFFERS];
        size_t number = random_buffers(buffers, lent), rows = below(8) ? 2 : below(20);
        status = vx_plan_scan(&plan, rows, buffers, number, buffer, room, &answer);
        count(&scans, "vx_plan_scan", status, answer.needed, room);
        status = vx_plan_select(&plan, rows, buffers, number, buffer, room, &answer);
        count(&selects, "vx_plan_select", status, answer.needed, room);
        status = vx_plan_scan_column(&plan, rows, buffers, number, buffer, room, &answer);
        count(&columns, "vx_plan_scan_column", status, answer.needed, room);
        status = vx_plan_filter_column(&plan, rows, buffers, number, buffer, room, &answer);
        count(&filters, "vx_plan_filter_column", status, answer.needed, room);
    }
    vx_plan_free(&plan);
    print("new", &made);
    print("paths", &paths);
    print("scan", &scans);
    print("select", &selects);
    print("scan column", &columns);
    print("filter column", &filters);
}

int fuzz(size_t times, uint64_t seed)
{
    state = seed;
    char *memory[4] = {guarded_end(), guarded_end(), guarded_end(), guarded_end()};
    printf("fuzz: %zu buffers through each call; how many ended with each number from 0 on:\n", times);
    for (Call call = FMT; call < CALLS; call++)
        fuzz_texts(call, times, memory);
    fuzz_plans(times, memory);
    return 0;
}
