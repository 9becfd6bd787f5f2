/*
 * Each request for memory of a call is refused in turn.
 *
 * The linker puts the two functions below in the place of malloc and realloc, by --wrap.
 */
#include "columns.h"

#include <stdlib.h>
#include <string.h>

/* How many requests there are up to the one that is refused, or 0 where none is. */
static size_t until = 0;

static bool is_refused(void)
{
    return until > 0 && --until == 0;
}

void *__real_malloc(size_t size);
void *__real_realloc(void *bytes, size_t size);

void *__wrap_malloc(size_t size)
{
    return is_refused() ? NULL : __real_malloc(size);
}

void *__wrap_realloc(void *bytes, size_t size)
{
    return is_refused() ? NULL : __real_realloc(bytes, size);
}

/* A call, over what it is given. */
typedef vx_status Work(const void *given, char *buffer, size_t room, vx_answer *answer);

enum { PAGE_ROOM = 16384 };

/* Whether a place is the other one or goes around it, in the same text. */
static bool is_around(const vx_place *place, const vx_place *other)
{
    return place->text == other->text && place->start <= other->start && other->end <= place->end;
}

/* The call takes memory, and where a request is refused it ends with VX_OUT_OF_MEMORY or as it did with memory
   for all. Of a message the place may be wider then: the node that it is about is looked for behind the call. */
static void expect_refusals(Work *work, const void *given)
{
    static char whole[PAGE_ROOM], page[PAGE_ROOM];
    vx_answer wanted, answer;
    vx_status end = work(given, whole, sizeof whole, &wanted);
    if (wanted.needed >= sizeof whole)
        abort();
    size_t refused = 0;
    for (bool is_over = false; !is_over; refused++) {
        memset(page, '.', sizeof page);
        until = refused + 1;
        vx_status status = work(given, page, sizeof page, &answer);
        is_over = until > 0;
        until = 0;
        if (status == VX_OUT_OF_MEMORY && !is_over) {
            EXPECT(answer.needed == 0 && is_at(&answer, (vx_place){0}) && page[0] == '.');
        } else {
            EXPECT(status == end && page[answer.needed] == '.' && is_around(&answer.place, &wanted.place));
            if (status == VX_ANSWERED || is_over)
                EXPECT(answer.needed == wanted.needed && memcmp(page, whole, wanted.needed) == 0);
        }
    }
    EXPECT(refused > 1);
}

/* --- the calls that are given texts --- */

typedef struct {
    Call call;
    Given given;
} TextCall;

static vx_status call_of_texts(const void *given, char *buffer, size_t room, vx_answer *answer)
{
    const TextCall *it = given;
    return called(it->call, &it->given, buffer, room, answer);
}

static void test_calls_of_texts(void)
{
    static const char *const GIVEN[][4] = {
        {"x + 1 > 5 and s like \"t%\"", "{x=i32?, s=utf8}", "{\"x\": 1, \"s\": \"t\"}",
         "{\"rows\": 3, \"fields\": {\"x\": {\"nulls\": 1, \"greatest\": 5}}}"},
        {"x +", "{x=i32}", "", ""},
        {"x", "{x=i33}", "", ""},
        {"y = x", "{x=i32}", "", ""},
        {"x + 1 > 5", "{x=i32}", "{\"x\": 2147483647}", "{\"rows\": -3}"},
    };
    for (size_t i = 0; i < sizeof GIVEN / sizeof GIVEN[0]; i++)
        for (Call call = FMT; call < CALLS; call++) {
            TextCall it = {call, given(GIVEN[i][0], GIVEN[i][1], GIVEN[i][call == PRUNE ? 3 : 2])};
            expect_refusals(call_of_texts, &it);
        }
}

/* --- plans --- */

#define SCHEMA "{x=i32, s=utf8?, l=list(bool)}"

static vx_plan plan = VX_PLAN_INIT;

static vx_status make_plan_over(const char *expression, const char *schema, char *buffer, size_t room,
                                vx_answer *answer)
{
    vx_status status = vx_plan_new(expression, strlen(expression), schema, strlen(schema), &plan, buffer,
                                   room, answer);
    EXPECT((status == VX_ANSWERED) == (plan.at != NULL));
    return status;
}

static vx_status make_plan(const void *expression, char *buffer, size_t room, vx_answer *answer)
{
    return make_plan_over(expression, SCHEMA, buffer, room, answer);
}

static vx_status tell_paths(const void *given, char *buffer, size_t room, vx_answer *answer)
{
    (void)given;
    return vx_plan_paths(&plan, buffer, room, answer);
}

/* Two rows, in which the numbers are at the given place. */
static vx_status scan(const void *numbers, char *buffer, size_t room, vx_answer *answer)
{
    const vx_buffer batch[] = {{NULL, 0}, {NULL, 0}, {numbers, 8}, {"\2", 1}, {"\0\0\0\0\0\0\0\0\1\0\0\0", 12},
                               {"t", 1},  {NULL, 0}, {"\0\0\0\0\1\0\0\0\2\0\0\0", 12}, {NULL, 0}, {"\1", 1}};
    EXPECT(plan.at != NULL);
    return vx_plan_scan(&plan, 2, batch, sizeof batch / sizeof batch[0], buffer, room, answer);
}

/* The same two rows. */
static vx_status select_rows(const void *numbers, char *buffer, size_t room, vx_answer *answer)
{
    const vx_buffer batch[] = {{NULL, 0}, {NULL, 0}, {numbers, 8}};
    EXPECT(plan.at != NULL);
    return vx_plan_select(&plan, 2, batch, sizeof batch / sizeof batch[0], buffer, room, answer);
}

static vx_status scan_too_few(const void *given, char *buffer, size_t room, vx_answer *answer)
{
    (void)given;
    return vx_plan_scan(&plan, 2, NULL, 0, buffer, room, answer);
}

/* A plan that is refused memory while it scans is as it was, and scans the next batch. */
static void test_calls_of_plans(void)
{
    static const char PLANNED[] = "pack(a: x + 1 > 5 or s = \"t\", b: $, c: x + 1)";
    char buffer[PAGE_ROOM];
    vx_answer answer;
    expect_refusals(make_plan, "x +");
    expect_refusals(make_plan, "y");
    expect_refusals(make_plan, PLANNED);
    EXPECT(make_plan(PLANNED, buffer, sizeof buffer, &answer) == VX_ANSWERED);
    expect_refusals(tell_paths, NULL);
    expect_refusals(scan, "\1\0\0\0\5\0\0\0");
    expect_refusals(scan, "\1\0\0\0\377\377\377\177");
    expect_refusals(scan_too_few, NULL);
    EXPECT(scan("\1\0\0\0\5\0\0\0", buffer, sizeof buffer, &answer) == VX_ANSWERED);
    EXPECT(make_plan_over("x + 1 > 5", "{x=i32}", buffer, sizeof buffer, &answer) == VX_ANSWERED);
    expect_refusals(select_rows, "\1\0\0\0\5\0\0\0");
    expect_refusals(select_rows, "\1\0\0\0\377\377\377\177");
    EXPECT(select_rows("\1\0\0\0\5\0\0\0", buffer, sizeof buffer, &answer) == VX_ANSWERED);
    vx_plan_free(&plan);
    expect_refusals(tell_paths, NULL);
}

/* --- columns of Arrow's --- */

#define ARROW_SCHEMA "{a=bool?, b=i32?, c=utf8?}"

static vx_status select_column(const void *given, char *buffer, size_t room, vx_answer *answer)
{
    const Column *it = given;
    return vx_plan_select_arrow(&plan, ARROW_SCHEMA, sizeof ARROW_SCHEMA - 1, &it->schema, &it->array, buffer, room,
                                answer);
}

static vx_status scan_column(const void *given, char *buffer, size_t room, vx_answer *answer)
{
    const Column *it = given;
    return vx_plan_scan_arrow_json(&plan, ARROW_SCHEMA, sizeof ARROW_SCHEMA - 1, &it->schema, &it->array, buffer, room,
                                   answer);
}

/* The lines of a column that is answered, which is released. */
static vx_status lines_out(ColumnCall *call, const void *given, char *buffer, size_t room, vx_answer *answer)
{
    const Column *it = given;
    Column values;
    vx_status status = call(&plan, ARROW_SCHEMA, sizeof ARROW_SCHEMA - 1, &it->schema, &it->array, &values.array,
                            &values.schema, buffer, room, answer);
    if (status != VX_ANSWERED)
        return status;
    size_t was = until;
    until = 0;
    char *lines = lines_of(&values.schema, &values.array);
    answer->needed = strlen(lines);
    memcpy(buffer, lines, answer->needed);
    free(lines);
    release_column(&values);
    until = was;
    return status;
}

static vx_status scan_out(const void *given, char *buffer, size_t room, vx_answer *answer)
{
    return lines_out(vx_plan_scan_arrow, given, buffer, room, answer);
}

static vx_status filter_out(const void *given, char *buffer, size_t room, vx_answer *answer)
{
    return lines_out(vx_plan_filter_arrow, given, buffer, room, answer);
}

/* Bits that begin within a byte are copied, in three columns. */
static void test_calls_of_arrow(void)
{
    char buffer[PAGE_ROOM];
    vx_answer answer;
    start_chance(2);
    Column fields[] = {column_of("b", true, 1, 20), column_of("i", true, 2, 20), column_of("u", true, 3, 20)};
    Column c = struct_of(fields, 3, false, 2, 18);
    EXPECT(make_plan_over("a or b > 0 or c = 'a'", ARROW_SCHEMA, buffer, sizeof buffer, &answer) == VX_ANSWERED);
    expect_refusals(select_column, &c);
    expect_refusals(scan_column, &c);
    expect_refusals(scan_out, &c);
    expect_refusals(filter_out, &c);
    c.array.children[2]->n_buffers = 2;
    expect_refusals(select_column, &c);
    c.array.children[2]->n_buffers = 3;
    vx_plan_free(&plan);
    release_column(&c);
}

void test_refusals(void)
{
    test_calls_of_texts();
    test_calls_of_plans();
    test_calls_of_arrow();
}
