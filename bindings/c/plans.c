/* Tests of plans that are kept. */
#include "test.h"

#include <stdio.h>
#include <stdlib.h>
#include <string.h>

#define X "{x=i32}"

/* A buffer of the bytes of a literal, without its 0. */
#define B(bytes) {bytes, sizeof bytes - 1}
#define NONE {NULL, 0}
#define BUFFERS(...) (const vx_buffer[]){__VA_ARGS__}, sizeof((const vx_buffer[]){__VA_ARGS__}) / sizeof(vx_buffer)

/* A batch and what the expression means at its rows. */
typedef struct {
    const char *expression;
    const char *schema;
    size_t rows;
    const vx_buffer *buffers;
    size_t count;
    const char *page;
} Scan;

/* A batch that isn't of the schema's type, and the row that the place tells. */
typedef struct {
    const char *schema;
    size_t rows;
    const vx_buffer *buffers;
    size_t count;
    uint64_t record;
} BadBatch;

static Answered made(vx_plan *plan, const char *expression, const char *schema)
{
    Answered a = with_room(64);
    do
        a.status = vx_plan_new(expression, strlen(expression), schema, strlen(schema), plan, a.text,
                               a.room, &a.answer);
    while (is_grown(&a));
    return a;
}

/* A plan that can be made. */
static vx_plan plan_of(const char *expression, const char *schema)
{
    vx_plan plan = VX_PLAN_INIT;
    Answered a = made(&plan, expression, schema);
    EXPECT(a.status == VX_ANSWERED && a.answer.needed == 0 && plan.at != NULL);
    EXPECT(is_at(&a.answer, (vx_place){0}));
    free(a.text);
    return plan;
}

static Answered scanned(vx_plan *plan, size_t rows, const vx_buffer *buffers, size_t count)
{
    Answered a = with_room(64);
    do
        a.status = vx_plan_scan(plan, rows, buffers, count, a.text, a.room, &a.answer);
    while (is_grown(&a));
    return a;
}

/* --- good batches --- */

static const Scan SCANS[] = {
    /* Truth values are bits; a row of validity 0 is null. */
    {"$", "bool", 3, BUFFERS(NONE, B("\5")), "true\nfalse\ntrue\n"},
    {"$", "bool", 9, BUFFERS(NONE, B("\376\1")),
     "false\ntrue\ntrue\ntrue\ntrue\ntrue\ntrue\ntrue\ntrue\n"},
    {"not $", "bool?", 3, BUFFERS(B("\6"), B("\5")), "null\ntrue\nfalse\n"},
    /* Numbers. */
    {"$", "i8", 3, BUFFERS(NONE, B("\200\377\177")), "-128\n-1\n127\n"},
    {"$", "u8", 2, BUFFERS(NONE, B("\0\377")), "0\n255\n"},
    {"$", "i16", 2, BUFFERS(NONE, B("\0\200\377\177")), "-32768\n32767\n"},
    {"$", "u16", 2, BUFFERS(NONE, B("\1\0\377\377")), "1\n65535\n"},
    {"$", "i32", 2, BUFFERS(NONE, B("\0\0\0\200\377\377\377\177")), "-2147483648\n2147483647\n"},
    {"$", "u32", 2, BUFFERS(NONE, B("\1\2\0\0\377\377\377\377")), "513\n4294967295\n"},
    {"$", "i64", 2, BUFFERS(NONE, B("\0\0\0\0\0\0\0\200\377\377\377\377\377\377\377\177")),
     "-9223372036854775808\n9223372036854775807\n"},
    {"$", "u64", 1, BUFFERS(NONE, B("\377\377\377\377\377\377\377\377")), "18446744073709551615\n"},
    {"$ + 1", "i32?", 2, BUFFERS(B("\2"), B("\377\377\377\177\1\0\0\0")), "null\n2\n"},
    /* Texts and bytes, between offsets. What a null hides isn't looked at. */
    {"$", "utf8", 3, BUFFERS(NONE, B("\0\0\0\0\1\0\0\0\1\0\0\0\4\0\0\0"), B("a\303\244\"")),
     "\"a\"\n\"\"\n\"\303\244\\\"\"\n"},
    {"$", "utf8?", 2, BUFFERS(B("\1"), B("\0\0\0\0\1\0\0\0\2\0\0\0"), B("a\377")), "\"a\"\nnull\n"},
    {"$", "utf8?", 2, BUFFERS(B("\1"), B("\0\0\0\0\1\0\0\0\377\377\377\377"), B("a")), "\"a\"\nnull\n"},
    {"$", "utf8", 1, BUFFERS(NONE, B("\2\0\0\0\3\0\0\0"), B("\377\377ay")), "\"a\"\n"},
    {"$", "binary", 2, BUFFERS(NONE, B("\0\0\0\0\0\0\0\0\2\0\0\0"), B("\1\377")), "\"0x\"\n\"0x01ff\"\n"},
    /* Lists. */
    {"$", "list(i8)", 3, BUFFERS(NONE, B("\0\0\0\0\2\0\0\0\2\0\0\0\3\0\0\0"), NONE, B("\1\2\3")),
     "[1,2]\n[]\n[3]\n"},
    {"$", "list(i8?)?", 3,
     BUFFERS(B("\5"), B("\0\0\0\0\1\0\0\0\1\0\0\0\3\0\0\0"), B("\6"), B("\1\2\3")),
     "[null]\nnull\n[2,3]\n"},
    {"$", "list(i8)", 1, BUFFERS(NONE, B("\1\0\0\0\2\0\0\0"), NONE, B("\1\2\3")), "[2]\n"},
    {"$", "list(list(bool))", 1,
     BUFFERS(NONE, B("\0\0\0\0\2\0\0\0"), NONE, B("\0\0\0\0\1\0\0\0\3\0\0\0"), NONE, B("\5")),
     "[[true],[false,true]]\n"},
    {"$", "fixed_size_list(i8)[2]?", 2, BUFFERS(B("\2"), NONE, B("\1\2\3\4")), "null\n[3,4]\n"},
    {"$", "fixed_size_list(i8)[0]", 2, BUFFERS(NONE, NONE, NONE), "[]\n[]\n"},
    {"$", "fixed_size_list(utf8)[2]", 1,
     BUFFERS(NONE, NONE, B("\0\0\0\0\1\0\0\0\2\0\0\0"), B("ab")), "[\"a\",\"b\"]\n"},
    /* Structs. */
    {"$", "{x=i8, s=utf8?}", 2,
     BUFFERS(NONE, NONE, B("\1\2"), B("\1"), B("\0\0\0\0\1\0\0\0\1\0\0\0"), B("a")),
     "{\"x\":1,\"s\":\"a\"}\n{\"x\":2,\"s\":null}\n"},
    {"x < y", "{x=i8, y=i8?}", 2, BUFFERS(NONE, NONE, B("\1\2"), B("\2"), B("\3\0")),
     "null\nfalse\n"},
    {"a.b", "{a={b=i8?}?}", 3, BUFFERS(NONE, B("\5"), B("\3"), B("\1\2\3")), "1\nnull\nnull\n"},
    {"$", "{a={b=i8?}?}", 3, BUFFERS(NONE, B("\5"), B("\3"), B("\1\2\3")),
     "{\"a\":{\"b\":1}}\n{\"a\":null}\n{\"a\":{\"b\":null}}\n"},
    {"$", "{x=i8}?", 2, BUFFERS(B("\2"), NONE, B("\1\2")), "null\n{\"x\":2}\n"},
    {"$", "{x=i8}?", 2, BUFFERS(B("\2"), B("\2"), B("\1\2")), "null\n{\"x\":2}\n"},
    {"$", "{}", 2, BUFFERS(NONE), "{}\n{}\n"},
    {"$", "list({c=utf8, d=bool?})", 1,
     BUFFERS(NONE, B("\0\0\0\0\2\0\0\0"), NONE, NONE, B("\0\0\0\0\1\0\0\0\1\0\0\0"), B("a"), B("\1"), B("\0")),
     "[{\"c\":\"a\",\"d\":false},{\"c\":\"\",\"d\":null}]\n"},
    /* Fields that the expression doesn't read. */
    {"x + 1i8", "{s=utf8, x=i8, l=list(i8)}", 1,
     BUFFERS(NONE, NONE, B("\0\0\0\0\1\0\0\0"), B("a"), NONE, B("\6"), NONE, B("\0\0\0\0\0\0\0\0"), NONE, NONE),
     "7\n"},
    /* No row: no buffer needs a byte. */
    {"$", "i32", 0, BUFFERS(NONE, NONE), ""},
    {"$", "utf8", 0, BUFFERS(NONE, NONE, NONE), ""},
    {"$", "utf8", 0, BUFFERS(NONE, B("\0\0\0\0"), NONE), ""},
    {"$", "list(i8)", 0, BUFFERS(NONE, NONE, NONE, NONE), ""},
    {"x + 1", X, 0, BUFFERS(NONE, NONE, NONE), ""},
    /* Buffers that are longer than they have to be. */
    {"$", "i8?", 1, BUFFERS(B("\377\377"), B("\1\2\3")), "1\n"},
    {"$", "utf8", 1, BUFFERS(NONE, B("\0\0\0\0\1\0\0\0\377\377"), B("a\377")), "\"a\"\n"},
};

static void test_good_batches(void)
{
    for (size_t i = 0; i < sizeof SCANS / sizeof SCANS[0]; i++) {
        const Scan *it = &SCANS[i];
        vx_plan plan = plan_of(it->expression, it->schema);
        Answered a = scanned(&plan, it->rows, it->buffers, it->count);
        bool is_right = a.status == VX_ANSWERED && says(&a, it->page);
        EXPECT(is_right && is_at(&a.answer, (vx_place){0}));
        if (!is_right)
            fprintf(stderr, "  %s over %s: %.*s\n", it->expression, it->schema, (int)a.answer.needed, a.text);
        free(a.text);
        vx_plan_free(&plan);
    }
}

/* --- what is no batch of the type --- */

#define FEW_OFFSETS B("\0\0\0\0\1\0\0")
#define OFFSETS_0_2 B("\0\0\0\0\2\0\0\0")
#define OFFSETS_0_1_2 B("\0\0\0\0\1\0\0\0\2\0\0\0")

static const BadBatch BAD_BATCHES[] = {
    /* Too few buffers, or too many. */
    {X, 1, NULL, 0, 0},
    {X, 1, BUFFERS(NONE, NONE), 0},
    {X, 1, BUFFERS(NONE, NONE, B("\1\0\0\0"), NONE), 0},
    {"{}", 1, BUFFERS(NONE, NONE), 0},
    {"list(i8)", 0, BUFFERS(NONE, NONE, NONE), 0},
    /* Buffers that end before a row. */
    {"bool?", 9, BUFFERS(B("\377"), B("\0\0")), 9},
    {"bool", 9, BUFFERS(NONE, B("\0")), 9},
    {"i32", 2, BUFFERS(NONE, B("\1\0\0\0\2\0\0")), 2},
    {"i64", 1, BUFFERS(NONE, NONE), 1},
    {"utf8", 1, BUFFERS(NONE, FEW_OFFSETS, B("a")), 1},
    {"utf8", 1, BUFFERS(NONE, NONE, B("a")), 1},
    {"list(i8)", 1, BUFFERS(NONE, FEW_OFFSETS, NONE, B("a")), 1},
    {"list(i8)", 1, BUFFERS(NONE, OFFSETS_0_2, NONE, B("\1")), 1},
    {"fixed_size_list(i8)[2]", 2, BUFFERS(NONE, NONE, B("\1\2\3")), 2},
    {X, 2, BUFFERS(NONE, NONE, B("\1\0\0\0")), 2},
    /* More rows than any buffer has bytes, also where their bytes are no number of 64 bits. */
    {"bool", SIZE_MAX, BUFFERS(NONE, B("\377")), 9},
    {"bool?", SIZE_MAX, BUFFERS(B("\377"), B("\377")), 9},
    {"i64", SIZE_MAX, BUFFERS(NONE, B("\1\2\3\4\5\6\7\10")), 2},
    {"i64", SIZE_MAX / 8 + 1, BUFFERS(NONE, NONE), 1},
    {"utf8", SIZE_MAX, BUFFERS(NONE, B("\0\0\0\0"), NONE), 1},
    {"utf8", SIZE_MAX / 4, BUFFERS(NONE, B("\0\0\0\0"), NONE), 1},
    {"fixed_size_list(i8)[2]", SIZE_MAX / 2 + 1, BUFFERS(NONE, NONE, NONE), 1},
    /* Offsets that lead behind the bytes, before them, or back. */
    {"utf8", 1, BUFFERS(NONE, OFFSETS_0_2, B("a")), 1},
    {"utf8", 2, BUFFERS(NONE, B("\0\0\0\0\1\0\0\0\3\0\0\0"), B("ab")), 2},
    {"utf8", 2, BUFFERS(NONE, B("\0\0\0\0\2\0\0\0\1\0\0\0"), B("ab")), 2},
    {"utf8", 1, BUFFERS(NONE, B("\377\377\377\377\1\0\0\0"), B("ab")), 1},
    {"binary", 1, BUFFERS(NONE, B("\0\0\0\0\377\377\377\377"), B("ab")), 1},
    {"binary", 1, BUFFERS(NONE, B("\0\0\0\0\377\377\377\177"), B("ab")), 1},
    {"list(i8)", 2, BUFFERS(NONE, B("\0\0\0\0\2\0\0\0\1\0\0\0"), NONE, B("\1\2")), 2},
    {"list(i8)", 1, BUFFERS(NONE, B("\377\377\377\377\1\0\0\0"), NONE, B("\1\2")), 1},
    {"list(i8)", 1, BUFFERS(NONE, B("\0\0\0\0\377\377\377\177"), NONE, B("\1\2")), 1},
    /* Texts that aren't UTF-8, each by itself. */
    {"utf8", 2, BUFFERS(NONE, OFFSETS_0_1_2, B("a\377")), 2},
    {"utf8", 2, BUFFERS(NONE, OFFSETS_0_1_2, B("\303\244")), 1},
    {"{a=i8, s=utf8}", 2, BUFFERS(NONE, NONE, B("\1\2"), NONE, OFFSETS_0_1_2, B("a\200")), 2},
    /* Nulls where the type has none. */
    {"bool", 3, BUFFERS(B("\5"), B("\0")), 2},
    {"i32", 2, BUFFERS(B("\1"), B("\1\0\0\0\2\0\0\0")), 2},
    {"utf8", 2, BUFFERS(B("\2"), OFFSETS_0_1_2, B("ab")), 1},
    {"list(i8)", 2, BUFFERS(B("\1"), OFFSETS_0_1_2, NONE, B("\1\2")), 2},
    {"list(i8)", 2, BUFFERS(NONE, OFFSETS_0_1_2, B("\1"), B("\1\2")), 2},
    {"fixed_size_list(i8)[1]", 2, BUFFERS(NONE, B("\1"), B("\1\2")), 2},
    {X, 2, BUFFERS(B("\1"), NONE, B("\1\0\0\0\2\0\0\0")), 2},
    {X, 2, BUFFERS(NONE, B("\1"), B("\1\0\0\0\2\0\0\0")), 2},
    /* The first row that can't be read, whatever is wrong with a later one. */
    {"{s=utf8, x=i8}", 3, BUFFERS(NONE, NONE, B("\0\0\0\0\1\0\0\0\2\0\0\0\3\0\0\0"), B("ab\377"), NONE, B("\1")), 2},
};

static void test_bad_batches(void)
{
    for (size_t i = 0; i < sizeof BAD_BATCHES / sizeof BAD_BATCHES[0]; i++) {
        const BadBatch *it = &BAD_BATCHES[i];
        vx_plan plan = plan_of("$", it->schema);
        Answered a = scanned(&plan, it->rows, it->buffers, it->count);
        vx_place place = {.text = VX_RECORDS, .record = it->record};
        bool is_right = a.status == VX_BAD_DATA && begins(&a, "error: ") && is_at(&a.answer, place);
        EXPECT(is_right);
        if (!is_right)
            fprintf(stderr, "  bad batch %zu of %s: status %u, record %d: %.*s\n", i, it->schema, a.status,
                    (int)a.answer.place.record, (int)a.answer.needed, a.text);
        free(a.text);
        vx_plan_free(&plan);
    }
}

static void test_faults(void)
{
    const vx_buffer batch[] = {NONE, NONE, B("\1\0\0\0\377\377\377\177\377\377\377\177")};
    vx_plan plan = plan_of("0 + (x + 1)", X);
    Answered a = scanned(&plan, 3, batch, 3);
    EXPECT(a.status == VX_FAULTED);
    EXPECT(begins(&a, "error: the result is out of range\n --> expression:1:5\n"));
    EXPECT(is_at(&a.answer, (vx_place){VX_EXPRESSION, 4, 11, 1, 5, 2}));
    free(a.text);
    a = scanned(&plan, 1, batch, 3);
    EXPECT(a.status == VX_ANSWERED && says(&a, "2\n"));
    free(a.text);
    vx_plan_free(&plan);
}

/* --- plans --- */

static void expect_no_plan(vx_plan *plan)
{
    Answered a = with_room(256);
    a.status = vx_plan_paths(plan, a.text, a.room, &a.answer);
    EXPECT(a.status == VX_NO_PLAN && begins(&a, "error: ") && is_at(&a.answer, (vx_place){0}));
    a.status = vx_plan_scan(plan, 0, NULL, 0, a.text, a.room, &a.answer);
    EXPECT(a.status == VX_NO_PLAN && begins(&a, "error: ") && is_at(&a.answer, (vx_place){0}));
    a.status = vx_plan_scope(plan, a.text, a.room, &a.answer);
    EXPECT(a.status == VX_NO_PLAN && begins(&a, "error: ") && is_at(&a.answer, (vx_place){0}));
    a.status = vx_plan_type(plan, a.text, a.room, &a.answer);
    EXPECT(a.status == VX_NO_PLAN && begins(&a, "error: ") && is_at(&a.answer, (vx_place){0}));
    a.status = vx_plan_scan_column(plan, 0, NULL, 0, a.text, a.room, &a.answer);
    EXPECT(a.status == VX_NO_PLAN && begins(&a, "error: ") && is_at(&a.answer, (vx_place){0}));
    EXPECT(plan->at == NULL);
    free(a.text);
}

static void test_no_plan(void)
{
    vx_plan plan = VX_PLAN_INIT;
    expect_no_plan(&plan);
    vx_plan_free(&plan);
    expect_no_plan(&plan);
    plan = plan_of("x", X);
    vx_plan_free(&plan);
    expect_no_plan(&plan);
    vx_plan_free(&plan);
    expect_no_plan(&plan);
}

/* What can't be planned, with the end of vx_plan_new and its place. */
static const struct {
    const char *expression;
    const char *schema;
    vx_status status;
    vx_place place;
} UNPLANNED[] = {
    {"", X, VX_UNREAD, {VX_EXPRESSION, 0, 0, 1, 1, 0}},
    {"x +\n <", X, VX_UNREAD, {VX_EXPRESSION, 5, 5, 2, 2, 0}},
    {"x\xff", X, VX_UNREAD, {VX_EXPRESSION, 1, 1, 1, 2, 0}},
    {"x", "", VX_UNREAD, {VX_SCHEMA, 0, 0, 1, 1, 0}},
    {"x", "{x=i33}", VX_UNREAD, {VX_SCHEMA, 3, 3, 1, 4, 0}},
    {"x", "{x=i32\xff}", VX_UNREAD, {VX_SCHEMA, 6, 6, 1, 7, 0}},
    {"y", X, VX_REFUSED, {VX_EXPRESSION, 0, 1, 1, 1, 0}},
    {"x > 1 and x + \"a\"::utf8 = 2", X, VX_REFUSED, {VX_EXPRESSION, 10, 23, 1, 11, 0}},
    {"x > 1 and x + \"a\" = 2", X, VX_REFUSED, {VX_EXPRESSION, 14, 17, 1, 15, 0}},
};

/* Where no plan can be made the handle holds none afterwards, also where it held one. */
static void test_unplanned(void)
{
    for (size_t i = 0; i < sizeof UNPLANNED / sizeof UNPLANNED[0]; i++) {
        vx_plan plan = plan_of("x", X);
        Answered a = made(&plan, UNPLANNED[i].expression, UNPLANNED[i].schema);
        EXPECT(a.status == UNPLANNED[i].status && begins(&a, "error: "));
        EXPECT(is_at(&a.answer, UNPLANNED[i].place));
        expect_no_plan(&plan);
        free(a.text);
    }
    vx_plan plan = plan_of("x", X);
    vx_answer answer;
    EXPECT(vx_plan_new("y", 1, X, strlen(X), &plan, NULL, 0, &answer) == VX_TOO_SMALL);
    EXPECT(answer.needed > 10 && plan.at == NULL);
    EXPECT(vx_plan_new(NULL, 0, NULL, 0, &plan, NULL, 0, &answer) == VX_TOO_SMALL && plan.at == NULL);
}

typedef vx_status page_call(vx_plan *plan, char *buffer, size_t buffer_length, vx_answer *answer);

/* The call says that page of a plan. */
static void expect_page(page_call *call, const char *expression, const char *schema, const char *page)
{
    vx_plan plan = plan_of(expression, schema);
    Answered a = with_room(8);
    do
        a.status = call(&plan, a.text, a.room, &a.answer);
    while (is_grown(&a));
    expect(a.status == VX_ANSWERED && says(&a, page), page, __FILE__, __LINE__);
    free(a.text);
    vx_plan_free(&plan);
}

static void test_paths(void)
{
    expect_page(vx_plan_paths, "x", X, "[[\"x\"]]\n");
    expect_page(vx_plan_paths, "a.x >= 1 and b < 5", "{a={x=i32, y=i32}?, b=i32, c=utf8}", "[[\"a\",\"x\"],[\"b\"]]\n");
    expect_page(vx_plan_paths, "1", X, "[]\n");
    expect_page(vx_plan_paths, "is_null($)", "utf8?", "[[]]\n");
    expect_page(vx_plan_paths, "`a\"\303\244`", "{`a\"\303\244`=i8}", "[[\"a\\\"\303\244\"]]\n");
}

static void test_types(void)
{
    expect_page(vx_plan_type, "x + 1", "{x=i32?}", "i32?\n");
    expect_page(vx_plan_type, "$", "{a={`b c`=list(u8?)}?,b=fixed_size_list(utf8)[3]}", "{a={`b c`=list(u8?)}?, b=fixed_size_list(utf8)[3]}\n");
}

static void test_scopes(void)
{
    expect_page(vx_plan_scope, "1 < 2", X, X "\n");
    expect_page(vx_plan_scope, "1 < 2", " i8 ? ", "i8?\n");
    expect_page(vx_plan_scope, "1 < 2", "{a={`b c`=list(u8?)}?,b=fixed_size_list(utf8)[3]}", "{a={`b c`=list(u8?)}?, b=fixed_size_list(utf8)[3]}\n");
    expect_page(vx_plan_scope, "1 < 2", "{}", "{}\n");
}

/* A plan has as many handles as it is shared to, and is freed with the last. */
static void test_shared(void)
{
    const vx_buffer batch[] = {NONE, NONE, B("\1\0\0\0")};
    vx_plan plan = plan_of("x + 1", X), other = VX_PLAN_INIT, third = plan_of("x", X), none = VX_PLAN_INIT;
    EXPECT(vx_plan_share(&plan, &other) == VX_ANSWERED && other.at && other.at != plan.at);
    EXPECT(vx_plan_share(&other, &third) == VX_ANSWERED);
    vx_plan_free(&plan);
    expect_no_plan(&plan);
    for (int turn = 0; turn < 2; turn++) {
        Answered a = scanned(turn ? &third : &other, 1, batch, 3);
        EXPECT(a.status == VX_ANSWERED && says(&a, "2\n"));
        free(a.text);
    }
    /* Another plan in one handle is of no concern to the other. */
    Answered a = made(&other, "x", X);
    free(a.text);
    a = scanned(&third, 1, batch, 3);
    EXPECT(a.status == VX_ANSWERED && says(&a, "2\n"));
    free(a.text);
    EXPECT(vx_plan_share(&none, &third) == VX_NO_PLAN);
    expect_no_plan(&third);
    EXPECT(vx_plan_share(&other, &plan) == VX_ANSWERED);
    vx_plan_free(&other);
    vx_plan_free(&plan);
    vx_plan_free(&third);
}

/* A buffer that is too small stays as it was, and so does the plan. */
static void test_room_of_scans(void)
{
    const vx_buffer batch[] = {NONE, NONE, B("\1\0\0\0\2\0\0\0")};
    vx_plan plan = plan_of("x", X);
    char page[8] = "........";
    vx_answer answer;
    EXPECT(vx_plan_paths(&plan, page, 7, &answer) == VX_TOO_SMALL);
    EXPECT(answer.needed == 8 && memcmp(page, "........", 8) == 0);
    EXPECT(vx_plan_paths(&plan, page, 8, &answer) == VX_ANSWERED && memcmp(page, "[[\"x\"]]\n", 8) == 0);
    EXPECT(vx_plan_scan(&plan, 2, batch, 3, page, 3, &answer) == VX_TOO_SMALL);
    EXPECT(answer.needed == 4 && memcmp(page, "[[\"x\"]]\n", 8) == 0);
    EXPECT(vx_plan_scan(&plan, 2, batch, 3, page, 4, &answer) == VX_ANSWERED);
    EXPECT(memcmp(page, "1\n2\n\"]]\n", 8) == 0);
    EXPECT(vx_plan_scan(&plan, 2, batch, 3, NULL, 0, &answer) == VX_TOO_SMALL && answer.needed == 4);
    vx_plan_free(&plan);
}

/* Nothing that a call was given is kept: all of it is overwritten behind the call. */
static void test_nothing_is_kept(void)
{
    char expression[] = "x + 1", schema[] = X, bytes[] = "\0\1\0\0\0\2\0\0\0";
    vx_buffer batch[] = {NONE, NONE, {bytes + 1, 8}};
    vx_plan plan = plan_of(expression, schema);
    memset(expression, '?', sizeof expression);
    memset(schema, '?', sizeof schema);
    Answered a = scanned(&plan, 2, batch, 3);
    memset(bytes, '?', sizeof bytes);
    memset(batch, 0, sizeof batch);
    EXPECT(a.status == VX_ANSWERED && says(&a, "2\n3\n"));
    free(a.text);
    vx_plan_free(&plan);
}

static Answered selected(vx_plan *plan, size_t rows, const vx_buffer *buffers, size_t count)
{
    Answered a = with_room(1);
    do
        a.status = vx_plan_select(plan, rows, buffers, count, a.text, a.room, &a.answer);
    while (is_grown(&a));
    return a;
}

/* The calls that answer columns in buffers, by the bytes of their pages. */
static void test_columns(void)
{
    const vx_buffer batch[] = {NONE, B("\5"), B("\2\0\0\0\7\0\0\0\4\0\0\0")};
#define EIGHT(number) number "\0\0\0\0\0\0\0"
    static const char NUMBERS[] = EIGHT("\3") EIGHT("\1") EIGHT("\5") EIGHT("\14") "\3\0\0\0\0\0\0\0\5\0\0\0\0\0\0\0";
    static const char ROWS[] = EIGHT("\1") EIGHT("\0") EIGHT("\0") EIGHT("\4") EIGHT("\4");
    char page[100];
    vx_answer answer;
    vx_plan plan = plan_of("x + 1", "{x=i32?}");
    EXPECT(vx_plan_scan_column(&plan, 3, batch, 3, page, 47, &answer) == VX_TOO_SMALL && answer.needed == 48);
    EXPECT(vx_plan_scan_column(&plan, 3, batch, 3, page, 48, &answer) == VX_ANSWERED && answer.needed == 48);
    EXPECT(sizeof NUMBERS == 49 && memcmp(page, NUMBERS, 36) == 0 && memcmp(page + 40, NUMBERS + 40, 8) == 0);
    EXPECT(vx_plan_filter_column(&plan, 3, batch, 3, page, 100, &answer) == VX_REFUSED);
    vx_plan_free(&plan);
    plan = plan_of("x > 2", "{x=i32?}");
    EXPECT(vx_plan_filter_column(&plan, 3, batch, 3, page, 100, &answer) == VX_ANSWERED && answer.needed == 40);
    EXPECT(memcmp(page, ROWS, 40) == 0);
    vx_plan_free(&plan);
}

/* A row is selected where the expression is true, and not where it is null. */
static void test_selections(void)
{
    const Scan cases[] = {
        {"x > 1", "{x=i32?}", 3, BUFFERS(NONE, B("\5"), B("\2\0\0\0\7\0\0\0\1\0\0\0")), "\1\0\0"},
        {"x > 1 or x is null", "{x=u8?}", 3, BUFFERS(NONE, B("\5"), B("\0\7\2")), "\0\1\1"},
        {"s = 'b'", "{s=utf8}", 2, BUFFERS(NONE, NONE, B("\0\0\0\0\1\0\0\0\2\0\0\0"), B("ab")), "\0\1"},
        {"1 < 2", "{}", 2, BUFFERS(NONE), "\1\1"},
        {"$", "bool", 9, BUFFERS(NONE, B("\376\1")), "\0\1\1\1\1\1\1\1\1"},
    };
    for (size_t i = 0; i < sizeof cases / sizeof cases[0]; i++) {
        vx_plan plan = plan_of(cases[i].expression, cases[i].schema);
        Answered a = selected(&plan, cases[i].rows, cases[i].buffers, cases[i].count);
        EXPECT(a.status == VX_ANSWERED && a.answer.needed == cases[i].rows);
        EXPECT(memcmp(a.text, cases[i].page, cases[i].rows) == 0);
        free(a.text);
        vx_plan_free(&plan);
    }
    vx_plan plan = plan_of("x + 1", X);
    Answered a = selected(&plan, 1, BUFFERS(NONE, NONE, B("\1\0\0\0")));
    EXPECT(a.status == VX_REFUSED && a.answer.place.text == VX_EXPRESSION && a.answer.place.end == 5);
    free(a.text);
    vx_plan_free(&plan);
    a = selected(&plan, 0, NULL, 0);
    EXPECT(a.status == VX_NO_PLAN);
    free(a.text);
}

/* Two plans, over batches of any length, take turns. */
static void test_many_batches(void)
{
    enum { MOST = 40 };
    vx_plan plans[2] = {plan_of("x + 1", X), plan_of("x < 100", X)};
    int32_t numbers[MOST];
    for (size_t turn = 0; turn < 2000; turn++) {
        size_t rows = turn % MOST;
        char wanted[MOST * 13] = "";
        for (size_t i = 0; i < rows; i++) {
            numbers[i] = (int32_t)(turn * 7 + i);
            if (turn % 2)
                strcat(wanted, numbers[i] < 100 ? "true\n" : "false\n");
            else
                snprintf(wanted + strlen(wanted), 13, "%d\n", (int)numbers[i] + 1);
        }
        const vx_buffer batch[] = {NONE, NONE, {numbers, rows * sizeof numbers[0]}};
        Answered a = scanned(&plans[turn % 2], rows, batch, 3);
        EXPECT(a.status == VX_ANSWERED && says(&a, wanted));
        free(a.text);
    }
    vx_plan_free(&plans[0]);
    vx_plan_free(&plans[1]);
}

/* A plan is made again over an old one, which is freed. */
static void test_made_again(void)
{
    const vx_buffer batch[] = {NONE, NONE, B("\1\0\0\0")};
    vx_plan plan = plan_of("x", X);
    Answered a = made(&plan, "x + 1", X);
    EXPECT(a.status == VX_ANSWERED);
    free(a.text);
    a = scanned(&plan, 1, batch, 3);
    EXPECT(a.status == VX_ANSWERED && says(&a, "2\n"));
    free(a.text);
    vx_plan_free(&plan);
}

void test_plans(void)
{
    test_columns();
    test_good_batches();
    test_bad_batches();
    test_faults();
    test_no_plan();
    test_unplanned();
    test_paths();
    test_scopes();
    test_types();
    test_shared();
    test_room_of_scans();
    test_nothing_is_kept();
    test_selections();
    test_many_batches();
    test_made_again();
}
