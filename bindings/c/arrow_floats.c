/* Floating-point numbers as Arrow has them: what is expected of their order and their sums is IEEE 754's. */
#include "columns.h"
#include "test.h"

#include <math.h>
#include <stdlib.h>
#include <string.h>

enum { ROWS = 8 };

/* The sixth row is null. */
static const double NUMBERS[ROWS] = {-0.0, 0.0, 9.75, INFINITY, NAN, 1, -INFINITY, 0.5};
static const unsigned char VALID[] = {0xdf};

static void kept_schema(struct ArrowSchema *schema)
{
    (void)schema;
}

static void kept_array(struct ArrowArray *array)
{
    (void)array;
}

/* What each text means of the numbers. Of ranges it is -0 before 0, and NaN behind the infinity. */
static const struct {
    const char *expression;
    const char *rows;
} RANGES[] = {
    {"x >= 0.0 and x <= 9.75", "\0\1\1\0\0\0\0\1"}, {"x > 9.75", "\0\0\0\1\1\0\0\0"},
    {"x < 0.0", "\1\0\0\0\0\0\1\0"},                {"x <= x and x >= x", "\1\1\1\1\1\0\1\1"},
    {"x + x > 9.75", "\0\0\1\1\1\0\0\0"},           {"x is null", "\0\0\0\0\0\1\0\0"},
};

/* The column is selected from alike where it lies as Arrow's and as buffers. */
static void test_ranges(const Column *rows, const void *values, size_t size)
{
    const vx_buffer lent[] = {{NULL, 0}, {VALID, sizeof VALID}, {values, size * ROWS}};
    for (size_t i = 0; i < sizeof RANGES / sizeof RANGES[0]; i++) {
        Text schema;
        vx_plan plan = plan_over(RANGES[i].expression, rows, &schema);
        Answered a = selected_column(&plan, schema, rows);
        bool is_right = a.status == VX_ANSWERED && a.answer.needed == ROWS && !memcmp(a.text, RANGES[i].rows, ROWS);
        expect(is_right, RANGES[i].expression, __FILE__, __LINE__);
        free(a.text);
        char found[ROWS];
        vx_answer answer;
        vx_status status = vx_plan_select(&plan, ROWS, lent, 3, found, sizeof found, &answer);
        is_right = status == VX_ANSWERED && answer.needed == ROWS && !memcmp(found, RANGES[i].rows, ROWS);
        expect(is_right, RANGES[i].expression, __FILE__, __LINE__);
        vx_plan_free(&plan);
        free((char *)schema.bytes);
    }
}

/* The number at that row, of a format with so many bytes. */
static double number_at(const void *values, size_t size, size_t row)
{
    return size == 8 ? ((const double *)values)[row] : (double)((const float *)values)[row];
}

/* The expression is so many times x, in a column of that format. */
static void test_column_out(const Column *rows, const char *expression, int times, size_t size)
{
    Text schema;
    vx_plan plan = plan_over(expression, rows, &schema);
    Column found;
    Answered a = column_out(vx_plan_scan_arrow, &plan, schema, rows, &found);
    EXPECT(a.status == VX_ANSWERED && strcmp(found.schema.format, size == 8 ? "g" : "f") == 0);
    for (size_t row = 0; row < ROWS && a.status == VX_ANSWERED; row++) {
        double number = number_at(found.array.buffers[1], size, row), wanted = times * NUMBERS[row];
        EXPECT(is_null_at(&found.array, (int64_t)row) == (row == 5));
        EXPECT(row == 5 || (isnan(wanted) ? isnan(number) : number == wanted && !signbit(number) == !signbit(wanted)));
    }
    if (a.status == VX_ANSWERED)
        release_column(&found);
    free(a.text);
    vx_plan_free(&plan);
    free((char *)schema.bytes);
}

static void test_lines(const Column *rows)
{
    Text schema;
    vx_plan plan = plan_over("x", rows, &schema);
    Answered a = scanned_column(&plan, schema, rows);
    EXPECT(a.status == VX_ANSWERED && says(&a, "-0.0\n0.0\n9.75\n\"inf\"\n\"nan\"\nnull\n\"-inf\"\n0.5\n"));
    free(a.text);
    vx_plan_free(&plan);
    free((char *)schema.bytes);
}

/* A record batch of the numbers, as x. */
static void test_format(const char *format, const void *values, size_t size)
{
    const void *buffers[] = {VALID, values}, *none[] = {NULL};
    struct ArrowSchema x = {.format = format, .name = "x", .flags = ARROW_FLAG_NULLABLE, .release = kept_schema};
    struct ArrowArray column = {.length = ROWS, .null_count = 1, .n_buffers = 2, .buffers = buffers,
                                .release = kept_array};
    struct ArrowSchema *types[] = {&x};
    struct ArrowArray *columns[] = {&column};
    Column rows = {{.format = "+s", .name = "", .n_children = 1, .children = types, .release = kept_schema},
                   {.length = ROWS, .n_buffers = 1, .buffers = none, .n_children = 1, .children = columns,
                    .release = kept_array}};
    test_ranges(&rows, values, size);
    test_column_out(&rows, "x", 1, size);
    test_column_out(&rows, "x + x", 2, size);
    test_lines(&rows);
}

void test_arrow_floats(void)
{
    float narrow[ROWS];
    for (size_t row = 0; row < ROWS; row++)
        narrow[row] = (float)NUMBERS[row];
    test_format("g", NUMBERS, sizeof NUMBERS[0]);
    test_format("f", narrow, sizeof narrow[0]);
}
