/* The time of plans. */
#define _POSIX_C_SOURCE 199309L

#include "test.h"
#include "vx_arrow.h"

#include <stdio.h>
#include <string.h>
#include <time.h>

#define FILTER                                                                  \
    "a >= 1 and a < 100 and b = 7 and c like \"t%\" and d is not null and "     \
    "e.x > 5 and e.y <= 9 and f != \"no\" and not g and h between 1 and 3"
#define SCHEMA "{a=i32, b=i32?, c=utf8, d=utf8?, e={x=i64, y=i64}?, f=utf8, g=bool, h=i32}"

enum { ROWS = 1000 };

/* The columns of a batch: numbers from 0 on, bits, and texts of four letters. */
static int32_t small[ROWS], offsets[ROWS + 1];
static int64_t large[ROWS];
static unsigned char bits[(ROWS + 7) / 8];
static char letters[4 * ROWS];

static void fill_columns(void)
{
    for (int i = 0; i < ROWS; i++) {
        small[i] = i % 20;
        large[i] = i % 20;
        offsets[i + 1] = 4 * (i + 1);
        memcpy(letters + 4 * i, i % 3 ? "text" : "word", 4);
    }
    memset(bits, 0x6d, sizeof bits);
}

static double microseconds(void)
{
    struct timespec now;
    clock_gettime(CLOCK_PROCESS_CPUTIME_ID, &now);
    return (double)now.tv_sec * 1e6 + (double)now.tv_nsec / 1e3;
}

/* The releases of what is static. */
static void unreleased(struct ArrowSchema *schema)
{
    (void)schema;
}

static void unreleased_array(struct ArrowArray *array)
{
    (void)array;
}

static bool is_planned(size_t times, char *page, size_t room)
{
    vx_answer answer = {0};
    double from = microseconds();
    for (size_t i = 0; i < times; i++)
        if (vx_plan_json(FILTER, strlen(FILTER), SCHEMA, strlen(SCHEMA), page, room, &answer) != VX_ANSWERED)
            return false;
    printf("vx_plan_json of ten conjuncts: %.1f microseconds, %zu bytes\n",
           (microseconds() - from) / (double)times, answer.needed);
    return true;
}

/* Whether the plan is made and scans so often. */
static bool is_scanned(size_t times, vx_plan *plan, char *page, size_t room)
{
#define NO_NULLS {NULL, 0}
#define ALL(column) {column, sizeof column}
#define TEXTS ALL(offsets), ALL(letters)
    const vx_buffer batch[] = {
        NO_NULLS,                                                   /* the rows */
        NO_NULLS, ALL(small), ALL(bits), ALL(small),                /* a, b */
        NO_NULLS, TEXTS, ALL(bits), TEXTS,                          /* c, d */
        ALL(bits), NO_NULLS, ALL(large), NO_NULLS, ALL(large),      /* e */
        NO_NULLS, TEXTS, NO_NULLS, ALL(bits), NO_NULLS, ALL(small), /* f, g, h */
    };
    vx_answer answer = {0};
    double from = microseconds();
    for (size_t i = 0; i < times; i++)
        if (vx_plan_new(FILTER, strlen(FILTER), SCHEMA, strlen(SCHEMA), plan, page, room, &answer) != VX_ANSWERED)
            return false;
    printf("vx_plan_new of the same: %.1f microseconds\n", (microseconds() - from) / (double)times);
    from = microseconds();
    for (size_t i = 0; i < times; i++)
        if (vx_plan_scan(plan, ROWS, batch, sizeof batch / sizeof batch[0], page, room, &answer) != VX_ANSWERED)
            return false;
    printf("vx_plan_scan of %d rows by it: %.1f microseconds, %zu bytes\n", ROWS,
           (microseconds() - from) / (double)times, answer.needed);
    return true;
}

/* Whether a range over a hundred thousand numbers selects rows so often. */
static bool is_selected(size_t times)
{
    enum { MANY = 100000 };
    static const char RANGE[] = "x >= 10 and x <= 500000";
    static int32_t numbers[MANY];
    static char selected[MANY];
    for (size_t i = 0; i < MANY; i++)
        numbers[i] = (int32_t)(i * 2654435761u % 1000000);
    const vx_buffer batch[] = {NO_NULLS, NO_NULLS, ALL(numbers)};
    vx_plan plan = VX_PLAN_INIT;
    vx_answer answer = {0};
    if (vx_plan_new(RANGE, strlen(RANGE), "{x=i32}", 7, &plan, selected, MANY, &answer) != VX_ANSWERED)
        return false;
    double from = microseconds();
    for (size_t i = 0; i < times; i++)
        if (vx_plan_select(&plan, MANY, batch, 3, selected, MANY, &answer) != VX_ANSWERED)
            return false;
    printf("vx_plan_select of %d rows by a range: %.2f nanoseconds a row\n", MANY,
           1000 * (microseconds() - from) / (double)times / MANY);
    size_t count = 0, wanted = 0;
    for (size_t i = 0; i < MANY; i++) {
        count += selected[i] == 1;
        wanted += numbers[i] >= 10 && numbers[i] <= 500000;
    }
    vx_plan_free(&plan);
    return count == wanted;
}

/* Whether a sum over a hundred thousand numbers is answered so often, as lines and as a column of Arrow's. */
static bool is_answered(size_t times)
{
    enum { MANY = 100000 };
    static const char SUM[] = "x + 1", TYPE[] = "{x=i32}";
    static int32_t numbers[MANY];
    static char lines[24 * MANY];
    for (int32_t i = 0; i < MANY; i++)
        numbers[i] = i;
    const vx_buffer batch[] = {NO_NULLS, NO_NULLS, ALL(numbers)};
    const void *buffers[] = {NULL, numbers}, *none[] = {NULL};
    struct ArrowSchema x = {.format = "i", .name = "x", .release = unreleased}, *fields[] = {&x};
    struct ArrowSchema type = {.format = "+s", .n_children = 1, .children = fields, .release = unreleased};
    struct ArrowArray column = {MANY, 0, 0, 2, 0, buffers, NULL, NULL, unreleased_array, NULL}, *columns[] = {&column};
    struct ArrowArray rows = {MANY, 0, 0, 1, 1, none, columns, NULL, unreleased_array, NULL}, values;
    vx_plan plan = VX_PLAN_INIT;
    vx_answer answer = {0};
    if (vx_plan_new(SUM, strlen(SUM), TYPE, strlen(TYPE), &plan, lines, sizeof lines, &answer) != VX_ANSWERED)
        return false;
    double from = microseconds();
    for (size_t i = 0; i < times; i++)
        if (vx_plan_scan(&plan, MANY, batch, 3, lines, sizeof lines, &answer) != VX_ANSWERED)
            return false;
    printf("vx_plan_scan of %d rows by a sum: %.2f nanoseconds a row\n", MANY,
           1000 * (microseconds() - from) / (double)times / MANY);
    from = microseconds();
    size_t wrong = 0;
    for (size_t i = 0; i < times; i++) {
        if (vx_plan_scan_arrow(&plan, TYPE, strlen(TYPE), &type, &rows, &values, NULL, lines, sizeof lines, &answer) !=
            VX_ANSWERED)
            return false;
        wrong += values.length != MANY || ((const int32_t *)values.buffers[1])[MANY - 1] != MANY;
        values.release(&values);
    }
    printf("vx_plan_scan_arrow of the same: %.2f nanoseconds a row\n",
           1000 * (microseconds() - from) / (double)times / MANY);
    vx_plan_free(&plan);
    return wrong == 0;
}

/* Whether the same range over a million numbers of Arrow's, with nulls, behind so many rows, selects them. */
static bool is_selected_arrow(size_t times, int64_t offset)
{
    enum { MANY = 1000000 };
    static const char RANGE[] = "x >= 10 and x <= 500000", TYPE[] = "{x=i32?}";
    static int32_t numbers[MANY];
    static unsigned char validity[MANY / 8];
    static char selected[MANY];
    for (size_t i = 0; i < MANY; i++)
        numbers[i] = (int32_t)(i * 2654435761u % 1000000);
    memset(validity, 0x6d, sizeof validity);
    const void *buffers[] = {validity, numbers}, *none[] = {NULL};
    struct ArrowSchema x = {.format = "i", .name = "x", .flags = ARROW_FLAG_NULLABLE, .release = unreleased};
    struct ArrowSchema *fields[] = {&x};
    struct ArrowSchema type = {.format = "+s", .n_children = 1, .children = fields, .release = unreleased};
    int64_t rows = MANY - offset;
    struct ArrowArray column = {rows, -1, offset, 2, 0, buffers, NULL, NULL, unreleased_array, NULL};
    struct ArrowArray *columns[] = {&column};
    struct ArrowArray batch = {rows, 0, 0, 1, 1, none, columns, NULL, unreleased_array, NULL};
    vx_plan plan = VX_PLAN_INIT;
    vx_answer answer = {0};
    if (vx_plan_new(RANGE, strlen(RANGE), TYPE, strlen(TYPE), &plan, selected, MANY, &answer) != VX_ANSWERED)
        return false;
    double from = microseconds();
    for (size_t i = 0; i < times; i++)
        if (vx_plan_select_arrow(&plan, TYPE, strlen(TYPE), &type, &batch, selected, MANY, &answer) != VX_ANSWERED)
            return false;
    printf("vx_plan_select_arrow of %d rows with nulls by it, from row %d: %.2f nanoseconds a row\n", MANY, (int)offset,
           1000 * (microseconds() - from) / (double)times / (double)rows);
    size_t wrong = 0;
    for (size_t i = 0; i < (size_t)rows; i++) {
        size_t at = i + (size_t)offset;
        wrong += selected[i] != ((validity[at / 8] >> at % 8 & 1) && numbers[at] >= 10 && numbers[at] <= 500000);
    }
    vx_plan_free(&plan);
    return wrong == 0;
}

int timed(size_t times)
{
    static char page[65536];
    vx_plan plan = VX_PLAN_INIT;
    fill_columns();
    bool is_done = is_planned(times, page, sizeof page) && is_scanned(times, &plan, page, sizeof page) &&
                   is_selected(times) && is_answered(times) && is_selected_arrow(times, 0) && is_selected_arrow(times, 3);
    vx_plan_free(&plan);
    return is_done ? 0 : 1;
}
