/* Tests of batches of many rows, which go through an expression a block after another, beside a loop. */
#include "test.h"

#include <stdio.h>
#include <stdlib.h>
#include <string.h>

/* Several blocks, of which the last isn't whole. */
enum { ROWS = 600003 };

#define SCHEMA "{x=i32?, y=i32}"

static int32_t xs[ROWS], ys[ROWS];
static uint8_t validity[(ROWS + 7) / 8];

static bool is_null(size_t row)
{
    return row % 10 == 3;
}

static void fill(void)
{
    memset(validity, 0, sizeof validity);
    for (size_t i = 0; i < ROWS; i++) {
        xs[i] = (int32_t)(i * 7919 % 1000000) - 100000;
        ys[i] = (int32_t)(i * 104729 % 1000000) - 100000;
        validity[i / 8] |= (uint8_t)(!is_null(i) << i % 8);
    }
}

static vx_plan plan_of(const char *expression)
{
    vx_plan plan = VX_PLAN_INIT;
    vx_answer answer;
    EXPECT(vx_plan_new(expression, strlen(expression), SCHEMA, strlen(SCHEMA), &plan, NULL, 0, &answer) == VX_ANSWERED);
    return plan;
}

typedef vx_status batch_call(vx_plan *plan, size_t rows, const vx_buffer *buffers, size_t buffers_length,
                             char *buffer, size_t buffer_length, vx_answer *answer);

/* What the call answers of the expression over all rows. */
static Answered over_rows(batch_call *call, const char *expression)
{
    const vx_buffer batch[] = {
        {NULL, 0}, {validity, sizeof validity}, {xs, sizeof xs}, {NULL, 0}, {ys, sizeof ys},
    };
    vx_plan plan = plan_of(expression);
    Answered a = with_room(64);
    do
        a.status = call(&plan, ROWS, batch, sizeof batch / sizeof batch[0], a.text, a.room, &a.answer);
    while (is_grown(&a));
    vx_plan_free(&plan);
    return a;
}

/* --- truth values --- */

static bool range(size_t i)
{
    return !is_null(i) && xs[i] >= 10 && xs[i] <= 500000;
}

static bool below_or_null(size_t i)
{
    return is_null(i) || xs[i] < ys[i];
}

static bool not_above(size_t i)
{
    return !is_null(i) && !(xs[i] > 100) && ys[i] != xs[i];
}

static const struct {
    const char *expression;
    bool (*is_selected)(size_t row);
} SELECTIONS[] = {
    {"x >= 10 and x <= 500000", range},
    {"x < y or x is null", below_or_null},
    {"not (x > 100) and y != x", not_above},
};

static void test_selections(void)
{
    for (size_t i = 0; i < sizeof SELECTIONS / sizeof SELECTIONS[0]; i++) {
        Answered a = over_rows(vx_plan_select, SELECTIONS[i].expression);
        size_t wrong = 0;
        EXPECT(a.status == VX_ANSWERED && a.answer.needed == ROWS);
        for (size_t row = 0; a.status == VX_ANSWERED && row < ROWS; row++)
            wrong += a.text[row] != SELECTIONS[i].is_selected(row);
        expect(wrong == 0, SELECTIONS[i].expression, __FILE__, __LINE__);
        free(a.text);
    }
}

/* --- numbers --- */

static int32_t sum(size_t i)
{
    return xs[i] + ys[i] + 1;
}

static int32_t chosen(size_t i)
{
    return !is_null(i) && xs[i] > 0 ? ys[i] : ys[i] + 1;
}

static const struct {
    const char *expression;
    bool has_nulls;
    int32_t (*number)(size_t row);
} COLUMNS[] = {
    {"(x + y) + 1", true, sum},
    {"case when x > 0 then y else y + 1 end", false, chosen},
};

static uint64_t length_at(const char *page)
{
    uint64_t length;
    memcpy(&length, page, sizeof length);
    return length;
}

/* How many rows of a page of numbers aren't what the function says; all, where it has another form. */
static size_t wrong_rows(const Answered *a, bool has_nulls, int32_t (*number)(size_t row))
{
    const char *bits = a->text + 16;
    uint64_t bit_bytes = length_at(a->text + 8), before = (bit_bytes + 7) / 8 * 8;
    const char *numbers = bits + before + 8;
    size_t wrong = 0;
    if (length_at(a->text) != ROWS || (bit_bytes != 0 && bit_bytes != sizeof validity) ||
        length_at(bits + before) != sizeof xs)
        return ROWS;
    for (size_t row = 0; row < ROWS; row++) {
        bool is_valid = bit_bytes == 0 || (bits[row / 8] >> row % 8 & 1);
        int32_t found;
        memcpy(&found, numbers + row * sizeof found, sizeof found);
        wrong += is_valid != (!has_nulls || !is_null(row)) || (is_valid && found != number(row));
    }
    return wrong;
}

static void test_numbers(void)
{
    for (size_t i = 0; i < sizeof COLUMNS / sizeof COLUMNS[0]; i++) {
        Answered a = over_rows(vx_plan_scan_column, COLUMNS[i].expression);
        EXPECT(a.status == VX_ANSWERED);
        expect(a.status == VX_ANSWERED && wrong_rows(&a, COLUMNS[i].has_nulls, COLUMNS[i].number) == 0,
               COLUMNS[i].expression, __FILE__, __LINE__);
        free(a.text);
    }
}

/* --- faults --- */

/* The first fault is that of the inner node, though one of the outer node lies in an earlier block. */
static void test_faults(void)
{
    ys[5] = INT32_MAX - 1;
    Answered a = over_rows(vx_plan_scan_column, "(y + 1) + 1");
    EXPECT(a.status == VX_FAULTED && is_at(&a.answer, (vx_place){VX_EXPRESSION, 0, 11, 1, 1, 6}));
    free(a.text);
    ys[ROWS - 1] = INT32_MAX;
    a = over_rows(vx_plan_scan_column, "(y + 1) + 1");
    EXPECT(a.status == VX_FAULTED && is_at(&a.answer, (vx_place){VX_EXPRESSION, 0, 7, 1, 1, ROWS}));
    free(a.text);
}

void test_long_batches(void)
{
    fill();
    test_selections();
    test_numbers();
    test_faults();
}
