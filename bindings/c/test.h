/* What the parts of the test share. */
#ifndef TEST_H
#define TEST_H

#include "vx.h"

#include <stdbool.h>

/* A text and how many bytes it has. */
typedef struct {
    const char *bytes;
    size_t length;
} Text;

/* The text up to its 0, or none of a null pointer. */
Text text_of(const char *bytes);

/* The calls that are given an expression and perhaps more texts. */
typedef enum { FMT, CHECK, PLAN, EXPLAIN, EVAL, PRUNE, CALLS } Call;

extern const char *const NAMES[CALLS];

/* What such a call is given: of the last two, those that it takes. */
typedef struct {
    Text expression;
    Text schema;
    Text records;
} Given;

Given given(const char *expression, const char *schema, const char *records);

vx_status called(Call call, const Given *given, char *buffer, size_t room, vx_answer *answer);

/* What a call answered, in a buffer that is freed by whoever asked. */
typedef struct {
    vx_status status;
    vx_answer answer;
    char *text;
    size_t room;
} Answered;

/* A buffer of so many bytes, before the call. */
Answered with_room(size_t room);

/* Whether the call has to be made again: its buffer was too small, and has the room that it needs now. */
bool is_grown(Answered *a);

/* The call, with as much room as it needs. */
Answered answered(Call call, const Given *given);

/* Counts a check, and prints what it is where it doesn't hold. */
void expect(bool holds, const char *what, const char *file, int line);

#define EXPECT(holds) expect((holds), #holds, __FILE__, __LINE__)

bool says(const Answered *a, const char *text);
bool begins(const Answered *a, const char *text);
bool is_at(const vx_answer *answer, vx_place place);

/* Memory of so many bytes before a page that no one may touch. A text at its end is followed by that page,
   so that reading or writing behind the text ends the program, in code that no sanitizer sees, too. */
enum { ROOM = 4096 };

char *guarded_end(void);

void test_arrow(void);
void test_arrow_floats(void);
void test_calls(void);
void test_long_batches(void);
void test_long_texts(void);
void test_plans(void);
void test_refusals(void);
int answers(const char *path);
int fuzz(size_t count, uint64_t seed);
int timed(size_t count);
int arrow_by_chance(size_t count, uint64_t seed);
int arrow_threads(void);

#endif
