/* Tests of the calls that are given texts. */
#include "test.h"

#include <stdlib.h>
#include <string.h>

static const Text NOTHING = {NULL, 0};

#define X "{x=i32}"

/* Expects that page of that call. */
static void expect_page(Call call, Given g, const char *page, int line)
{
    Answered a = answered(call, &g);
    expect(a.status == VX_ANSWERED, "answered", __FILE__, line);
    expect(says(&a, page), page, __FILE__, line);
    expect(is_at(&a.answer, (vx_place){0}), "no place", __FILE__, line);
    free(a.text);
}

/* Expects that end of that call, at that place. */
static void expect_stop(Call call, Given g, vx_status status, vx_place place, const char *message,
                        int line)
{
    Answered a = answered(call, &g);
    expect(a.status == status, "the status", __FILE__, line);
    expect(begins(&a, message), message, __FILE__, line);
    expect(is_at(&a.answer, place), "the place", __FILE__, line);
    free(a.text);
}

#define PAGE(call, g, page) expect_page(call, g, page, __LINE__)
#define STOP(call, g, status, message, ...) \
    expect_stop(call, g, status, (vx_place){__VA_ARGS__}, message, __LINE__)

static void test_pages(void)
{
    PAGE(FMT, given("x between 1 and 3", NULL, NULL), "(1i32 <= $.x <= 3i32)\n");
    PAGE(CHECK, given("x >= 1 and x <= 5", "{x=i32?}", NULL), "bool?\n");
    PAGE(PLAN, given("is_null($)", "utf8?", NULL),
         "{\"partitions\":[],\"paths\":[[]],\"root\":null,\"scope\":\"utf8?\","
         "\"tree\":\"vortex.is_null($)\",\"type\":\"bool\"}\n");
    PAGE(EVAL, given("x + 1", X, "{\"x\": 1}\n{\"x\": -5}\n"), "2\n-4\n");
    PAGE(EVAL, given("x + 1", X, NULL), "");
    PAGE(EVAL, given("x", "{x=utf8?}", "{\"x\": \"a\\nb\"}\n{}"), "\"a\\nb\"\nnull\n");
    PAGE(PRUNE,
         given("x > 5", X,
               "{\"rows\": 3, \"fields\": {\"x\": {\"least\": 1, \"greatest\": 5}}}\n"
               "{\"rows\": 3, \"fields\": {\"x\": {\"nulls\": 0, \"least\": 6}}}\n"
               "{\"rows\": 4}"),
         "{\"rows\":3,\"verdict\":\"no row\"}\n"
         "{\"rows\":3,\"verdict\":\"every row\"}\n"
         "{\"rows\":4,\"verdict\":\"to be read\"}\n");
    Given g = given("x > 5 and x < 9", X, NULL);
    Answered a = answered(EXPLAIN, &g);
    EXPECT(a.status == VX_ANSWERED);
    EXPECT(begins(&a, "text: (($.x > 5i32) and ($.x < 9i32))\ntype: bool\n"));
    free(a.text);
}

static void test_version(void)
{
    char page[16];
    vx_answer answer;
    EXPECT(vx_version(page, sizeof page, &answer) == VX_ANSWERED);
    EXPECT(answer.needed == strlen(VX_VERSION) + 1);
    EXPECT(memcmp(page, VX_VERSION "\n", answer.needed) == 0);
    EXPECT(vx_version(NULL, 0, &answer) == VX_TOO_SMALL);
    EXPECT(answer.needed == strlen(VX_VERSION) + 1);
}

static void test_stops(void)
{
    STOP(FMT, given("x +\n <", NULL, NULL), VX_UNREAD, "error: expected an operand", VX_EXPRESSION,
         5, 5, 2, 2, 0);
    STOP(CHECK, given("x", "{x=i33}", NULL), VX_UNREAD, "error: expected a type", VX_SCHEMA, 3, 3,
         1, 4, 0);
    STOP(CHECK, given("x > 1 and x + s = 2", "{x=i32, s=utf8}", NULL), VX_REFUSED,
         "error: a number type is needed\n --> expression:1:11\n", VX_EXPRESSION, 10, 15, 1, 11, 0);
    STOP(PLAN, given("y", X, NULL), VX_REFUSED, "error: ", VX_EXPRESSION, 0, 1, 1, 1, 0);
    STOP(EVAL, given("0 + (x + 1)", X, "{\"x\": 1}\n\n{\"x\": 2147483647}\n"), VX_FAULTED,
         "error: the result is out of range\n --> expression:1:5\n", VX_EXPRESSION, 4, 11, 1, 5, 3);
    STOP(EVAL, given("x", X, "{\"x\": 1}\n{\"x\": null}"), VX_BAD_DATA, "error: records: line 2",
         VX_RECORDS, 9, 20, 2, 1, 2);
    STOP(EVAL, given("x", X, "{\"x\": 1}\n{\"x\": 2"), VX_BAD_DATA, "error: records: line 2",
         VX_RECORDS, 16, 16, 2, 8, 2);
    STOP(PRUNE, given("x + 1", X, "{\"rows\": 4}"), VX_REFUSED, "error: records are kept by",
         VX_EXPRESSION, 0, 5, 1, 1, 0);
    STOP(PRUNE, given("x > 1", X, "{\"rows\": -4}"), VX_BAD_DATA, "error: records: line 1",
         VX_RECORDS, 0, 12, 1, 1, 1);
}

/* Texts that no call can read. */
static void test_bad_input(void)
{
    STOP(FMT, given(NULL, NULL, NULL), VX_UNREAD, "error: expected an operand", VX_EXPRESSION, 0, 0,
         1, 1, 0);
    STOP(CHECK, given("x", NULL, NULL), VX_UNREAD, "error: expected a type", VX_SCHEMA, 0, 0, 1, 1,
         0);
    STOP(FMT, given("x =\n \"\xc3\xa4\xff\"", NULL, NULL), VX_UNREAD,
         "error: expression:2:4: expected text in UTF-8 at byte 8", VX_EXPRESSION, 8, 8, 2, 4, 0);
    STOP(CHECK, given("x", "{x=i32\xc3", NULL), VX_UNREAD,
         "error: schema:1:7: expected text in UTF-8 at byte 6", VX_SCHEMA, 6, 6, 1, 7, 0);
    STOP(EVAL, given("x", X, "{\"x\": 1}\n{\"x\": \xff}\n"), VX_BAD_DATA, "error: records: line 2",
         VX_RECORDS, 9, 17, 2, 1, 2);
    Given nul = {{"x\0y", 3}, NOTHING, NOTHING};
    STOP(FMT, nul, VX_UNREAD, "error: expected", VX_EXPRESSION, 1, 1, 1, 2, 0);
}

/* A buffer with too little room stays as it was; one with just enough is filled, and no byte behind it. */
static void expect_room(Call call, const Given *g)
{
    Answered a = answered(call, g);
    size_t needed = a.answer.needed;
    vx_answer answer;
    EXPECT(needed > 0 && called(call, g, NULL, 0, &answer) == VX_TOO_SMALL);
    EXPECT(answer.needed == needed);
    Answered b = with_room(needed + 1);
    memset(b.text, '.', needed + 1);
    EXPECT(called(call, g, b.text, needed - 1, &answer) == VX_TOO_SMALL);
    EXPECT(answer.needed == needed && b.text[0] == '.' && b.text[needed - 1] == '.');
    EXPECT(called(call, g, b.text, needed, &answer) == a.status);
    EXPECT(memcmp(b.text, a.text, needed) == 0 && b.text[needed] == '.');
    free(b.text);
    free(a.text);
}

static void test_room(void)
{
    Given good = given("x between 1 and 3", X, "{\"x\": 1}"), bad = given("x <", X, "{");
    for (Call call = FMT; call < CALLS; call++) {
        if (call == PRUNE)
            good.records = text_of("{\"rows\": 4}");
        expect_room(call, &good);
        expect_room(call, &bad);
    }
}

void test_calls(void)
{
    test_pages();
    test_version();
    test_stops();
    test_bad_input();
    test_room();
}

/* --- texts of ten megabytes --- */

/* Pieces of long texts, which no call reads as an expression or a schema. As records the lines are some,
   and blanks are none. */
static const struct {
    const char *piece;
    bool is_record;
    bool is_blank;
} PIECES[] = {
    {.piece = "x and "},
    {.piece = "("},
    {.piece = "1 + "},
    {.piece = "not "},
    {.piece = "a."},
    {.piece = "{\"x\": 1}\n", .is_record = true},
    {.piece = " ", .is_blank = true},
    {.piece = "\xff"},
    {.piece = "\""},
    {.piece = "-- "},
    {.piece = "case when "},
};

/* The piece, an odd number of times, so that what it opens isn't closed; at least ten megabytes. */
static Text repeated(const char *piece)
{
    size_t each = strlen(piece), times = 10 * 1000 * 1000 / each + 1;
    times += times % 2 == 0;
    char *bytes = malloc(times * each);
    if (!bytes)
        abort();
    for (size_t i = 0; i < times; i++)
        memcpy(bytes + i * each, piece, each);
    return (Text){bytes, times * each};
}

/* How the call ends that is given the long text. The first room is enough for most, which saves the call
   from being made again. */
static vx_status long_end(Call call, const Given *g)
{
    Answered a = with_room(16 * 1000 * 1000);
    do
        a.status = called(call, g, a.text, a.room, &a.answer);
    while (is_grown(&a));
    EXPECT((a.status == VX_ANSWERED) == (a.answer.place.text == VX_NOWHERE));
    EXPECT(a.status == VX_ANSWERED || a.answer.needed > 10);
    free(a.text);
    return a.status;
}

void test_long_texts(void)
{
    for (size_t i = 0; i < sizeof PIECES / sizeof PIECES[0]; i++) {
        Text big = repeated(PIECES[i].piece);
        Given expression = {big, text_of(X), NOTHING}, schema = {text_of("x > 1"), big, NOTHING};
        Given records = {text_of("x > 1"), text_of(X), big};
        for (Call call = FMT; call < CALLS; call++) {
            EXPECT(long_end(call, &expression) == VX_UNREAD);
            if (call != FMT)
                EXPECT(long_end(call, &schema) == VX_UNREAD);
            bool is_read = PIECES[i].is_blank || (call == EVAL && PIECES[i].is_record);
            if (call == EVAL || call == PRUNE)
                EXPECT(long_end(call, &records) == (is_read ? VX_ANSWERED : VX_BAD_DATA));
        }
        free((char *)big.bytes);
    }
}
