/* Columns by chance, through the calls of include/vx_arrow.h, and one plan of many threads each. */
#include "columns.h"
#include "test.h"

#include <pthread.h>
#include <stdio.h>
#include <stdlib.h>
#include <string.h>

static size_t failures = 0;

static void need(bool holds, const char *what, const Column *column)
{
    if (holds)
        return;
    char page[2000];
    vx_answer answer;
    vx_status status = vx_schema_of_arrow(&column->schema, page, sizeof page, &answer);
    fprintf(stderr, "%s: status %u, %.*s\n", what, status, status ? 0 : (int)answer.needed, page);
    failures++;
}

/* The values and the nulls of the column are those that the consumer reads. */
static void check_values(const Column *c)
{
    Text schema;
    vx_plan plan = plan_over("$", c, &schema);
    char *wanted = lines_of(&c->schema, &c->array);
    Answered a = scanned_column(&plan, schema, c);
    need(a.status == VX_ANSWERED && says(&a, wanted), "another page", c);
    free(a.text);
    free(wanted);
    Given g = {{"$", 1}, schema, {NULL, 0}};
    a = answered(CHECK, &g);
    need(a.answer.needed == schema.length + 1 && memcmp(a.text, schema.bytes, schema.length) == 0, "another text", c);
    free(a.text);
    vx_plan_free(&plan);
    free((char *)schema.bytes);
    plan = plan_over("$ is null", c, &schema);
    a = selected_column(&plan, schema, c);
    need(a.status == VX_ANSWERED && a.answer.needed == (size_t)c->array.length, "no selection", c);
    for (int64_t row = 0; row < c->array.length; row++)
        need(a.text[row] == is_null_at(&c->array, row), "another null", c);
    free(a.text);
    vx_plan_free(&plan);
    free((char *)schema.bytes);
}

/* A child of the column, moved out of it. */
static Column moved_out(Column *values, size_t i)
{
    Column moved = {*values->schema.children[i], *values->array.children[i]};
    values->schema.children[i]->release = NULL;
    values->array.children[i]->release = NULL;
    return moved;
}

/* The column, or a child that was moved out before the rest was released, is still there, and is released. */
static void let_go(Column *values)
{
    if (values->array.n_children == 0 || by_chance(2)) {
        release_column(values);
        return;
    }
    Column moved = moved_out(values, by_chance((size_t)values->array.n_children));
    char *before = lines_of(&moved.schema, &moved.array);
    release_column(values);
    char *after = lines_of(&moved.schema, &moved.array);
    need(strcmp(before, after) == 0, "another child", &moved);
    free(before);
    free(after);
    release_column(&moved);
}

/* What the expression answers of the column, by the call, is a column of these lines. */
static void check_column(ColumnCall *call, const char *expression, const Column *c, const char *wanted)
{
    Text schema, type;
    vx_plan plan = plan_over(expression, c, &schema), other;
    Column values;
    Answered a = column_out(call, &plan, schema, c, &values);
    need(a.status == VX_ANSWERED, "no column", c);
    if (a.status == VX_ANSWERED) {
        char *lines = lines_of(&values.schema, &values.array);
        need(strcmp(lines, wanted) == 0, "another column", c);
        free(lines);
        other = plan_over("$", &values, &type);
        need(type.length == schema.length && memcmp(type.bytes, schema.bytes, type.length) == 0, "another type", c);
        vx_plan_free(&other);
        free((char *)type.bytes);
        let_go(&values);
    }
    free(a.text);
    vx_plan_free(&plan);
    free((char *)schema.bytes);
}

/* The column itself, and its rows that aren't null. */
static void check_columns(const Column *c)
{
    char *lines = lines_of(&c->schema, &c->array), *to = lines;
    check_column(vx_plan_scan_arrow, "$", c, lines);
    for (const char *from = lines; *from;) {
        size_t length = strcspn(from, "\n") + 1;
        if (strncmp(from, "null\n", 5) != 0) {
            memmove(to, from, length);
            to += length;
        }
        from += length;
    }
    *to = 0;
    check_column(vx_plan_filter_arrow, "$ is not null", c, lines);
    free(lines);
}

/* --- what is wrong --- */

/* Puts what can't be in the place of one of an array's fields. */
static void break_array(struct ArrowArray *array)
{
    static const int64_t NUMBERS[] = {-2, INT64_MIN, INT64_MAX};
    int64_t number = NUMBERS[by_chance(3)];
    switch (by_chance(8)) {
    case 0: array->length = number; break;
    case 1: array->offset = number; break;
    case 2: array->null_count = number; break;
    case 3: array->n_buffers = by_chance(2) ? array->n_buffers + 1 : number; break;
    case 4: array->n_children = by_chance(2) ? array->n_children + 1 : number; break;
    case 5: array->buffers = NULL; break;
    case 6: array->release = NULL; break;
    default: array->dictionary = array; break;
    }
}

static void break_schema(struct ArrowSchema *schema)
{
    static const char *const FORMATS[] = {"e", "+L", "U", "+w:x", "", NULL};
    switch (by_chance(5)) {
    case 0: schema->format = FORMATS[by_chance(6)]; break;
    case 1: schema->n_children = by_chance(2) ? -1 : INT64_MIN; break;
    case 2: schema->release = NULL; break;
    case 3: schema->dictionary = schema; break;
    default: schema->format = *schema->format == '+' ? "i" : "+l"; break;
    }
}

/* Breaks one struct of the column by chance, asks one of the calls, and mends it. */
static void check_broken(Column *c, vx_plan *plan, Text schema)
{
    struct ArrowSchema *type = &c->schema;
    struct ArrowArray *array = &c->array;
    while (type->n_children > 0 && by_chance(3)) {
        size_t i = by_chance((size_t)type->n_children);
        array = array->children[i];
        type = type->children[i];
    }
    struct ArrowSchema was_type = *type;
    struct ArrowArray was_array = *array;
    if (by_chance(3))
        break_array(array);
    else
        break_schema(type);
    Column values;
    ColumnCall *call = by_chance(2) ? vx_plan_scan_arrow : vx_plan_filter_arrow;
    Answered a = by_chance(2) ? scanned_column(plan, schema, c) : column_out(call, plan, schema, c, &values);
    *type = was_type;
    *array = was_array;
    need(a.status == VX_BAD_DATA && begins(&a, "error: "), "a broken struct", c);
    free(a.text);
}

/* How many columns whose offsets go back are taken, and how many are refused. */
static size_t offsets_back[2];

/* An array by chance within the column, which has offsets or none. */
static struct ArrowArray *array_within(const Column *c, char *format)
{
    const struct ArrowSchema *type = &c->schema;
    struct ArrowArray *array = (struct ArrowArray *)&c->array;
    while (type->n_children > 0 && !(strcmp(type->format, "+l") == 0 && by_chance(2))) {
        size_t i = by_chance((size_t)type->n_children);
        array = array->children[i];
        type = type->children[i];
    }
    *format = *type->format;
    return array;
}

/* Has an offset of a list or of a text go back, asks one of the calls, and mends it. That is told where a row that begins
   or ends there isn't hidden by a null or by what is around it. */
static void check_offsets(const Column *c, vx_plan *plan, Text schema)
{
    char format;
    struct ArrowArray *array = array_within(c, &format);
    if (!strchr("uz+", format) || array->n_buffers < 2)
        return;
    size_t at = by_chance((size_t)(array->offset + array->length) + 1);
    int32_t *offsets = (int32_t *)array->buffers[1], was = offsets[at];
    offsets[at] = by_chance(3) ? (at > 0 ? offsets[at - 1] : 0) - 1 - (int32_t)by_chance(5) : INT32_MIN;
    Column values;
    bool is_column = by_chance(2);
    Answered a = is_column ? column_out(vx_plan_scan_arrow, plan, schema, c, &values) : scanned_column(plan, schema, c);
    offsets[at] = was;
    need(a.status == VX_ANSWERED || a.status == VX_BAD_DATA, "offsets that go back", c);
    if (is_column && a.status == VX_ANSWERED)
        release_column(&values);
    offsets_back[a.status == VX_BAD_DATA]++;
    free(a.text);
}

int arrow_by_chance(size_t times, uint64_t seed)
{
    start_chance(seed);
    for (size_t i = 0; i < times && failures < 10; i++) {
        Column c = random_column(3, by_chance(4) ? by_chance(20) : by_chance(3));
        Text schema;
        check_values(&c);
        check_columns(&c);
        vx_plan plan = plan_over("$", &c, &schema);
        for (int turn = 0; turn < 4; turn++) {
            check_broken(&c, &plan, schema);
            check_offsets(&c, &plan, schema);
        }
        vx_plan_free(&plan);
        free((char *)schema.bytes);
        release_column(&c);
    }
    printf("Arrow: %zu columns by chance, %zu failed, %zu structs left; of %zu offsets that go back %zu are told\n", times,
           failures, live_structs, offsets_back[0] + offsets_back[1], offsets_back[1]);
    return failures > 0 || live_structs > 0;
}

/* --- threads --- */

enum { THREADS = 8, TURNS = 50, ROWS = 3000 };

static const char SHARED[] = "{a=i32?, b=bool?}";
static Column shared;
static char wanted[ROWS];

static void *release_there(void *column)
{
    release_column(column);
    return NULL;
}

/* How many rows of the shared batch are answered as a column, of which another thread lets go of a field. */
static int64_t filtered(vx_plan *plan)
{
    Column rows;
    char page[200];
    vx_answer answer;
    pthread_t thread;
    if (vx_plan_filter_arrow(plan, SHARED, strlen(SHARED), &shared.schema, &shared.array, &rows.array, &rows.schema,
                             page, sizeof page, &answer) != VX_ANSWERED)
        return -1;
    int64_t count = rows.array.length;
    Column moved = moved_out(&rows, 0);
    if (pthread_create(&thread, NULL, release_there, &moved) != 0)
        abort();
    release_column(&rows);
    pthread_join(thread, NULL);
    return count;
}

#ifdef __SANITIZE_THREAD__

/* What goes with a plan's last handle was used before all others went. The library's count sees to that, and the thread
   sanitizer doesn't see into the library. So it is told: what frees in place of free, by --wrap, comes behind each use of
   a plan whose handle was let go of before. Nothing else is ordered by it. */
void __tsan_acquire(void *at);
void __tsan_release(void *at);
void __real_free(void *bytes);

static char uses;
static _Thread_local bool is_freeing_plan = false;

void __wrap_free(void *bytes)
{
    if (is_freeing_plan)
        __tsan_acquire(&uses);
    __real_free(bytes);
}

static void free_plan(vx_plan *plan)
{
    __tsan_release(&uses);
    is_freeing_plan = true;
    vx_plan_free(plan);
    is_freeing_plan = false;
}

#else

static void free_plan(vx_plan *plan)
{
    vx_plan_free(plan);
}

#endif

/* Selects and filters rows of the shared batch by the plan that is given, and by others that it shares and lets
   go of; answers how often that is wrong. */
static void *work(void *given)
{
    size_t wrong = 0;
    int64_t selected = 0;
    char page[ROWS];
    vx_answer answer;
    vx_plan *plan = given;
    for (size_t row = 0; row < ROWS; row++)
        selected += wanted[row];
    for (int turn = 0; turn < TURNS; turn++) {
        vx_plan other = VX_PLAN_INIT;
        wrong += vx_plan_share(plan, &other) != VX_ANSWERED;
        vx_plan *used = turn % 2 ? plan : &other;
        vx_status status = vx_plan_select_arrow(used, SHARED, strlen(SHARED), &shared.schema, &shared.array, page, ROWS,
                                                &answer);
        wrong += status != VX_ANSWERED || memcmp(page, wanted, ROWS) != 0;
        wrong += filtered(used) != selected;
        free_plan(&other);
    }
    free_plan(plan);
    return (void *)wrong;
}

/* Threads that read one batch at once, each by a handle of one plan. */
int arrow_threads(void)
{
    Column fields[] = {column_of("i", true, 3, ROWS + 5), column_of("b", true, 1, ROWS + 5)};
    shared = struct_of(fields, 2, false, 5, ROWS);
    size_t wrong = 0;
    const struct ArrowArray *a = shared.array.children[0], *b = shared.array.children[1];
    const int32_t *numbers = a->buffers[1];
    const unsigned char *bits = b->buffers[1];
    for (int64_t row = 0, at = 5; row < ROWS; row++, at++) {
        bool is_above = !is_null_at(a, at) && numbers[3 + at] > 0;
        wanted[row] = is_above || (!is_null_at(b, at) && (bits[(1 + at) / 8] >> (1 + at) % 8 & 1));
    }
    pthread_t threads[THREADS];
    vx_plan plan = VX_PLAN_INIT, plans[THREADS] = {VX_PLAN_INIT};
    char page[200];
    vx_answer answer;
    wrong += vx_plan_new("a > 0 or b", 10, SHARED, strlen(SHARED), &plan, page, sizeof page, &answer) != VX_ANSWERED;
    for (size_t i = 0; i < THREADS; i++) {
        wrong += vx_plan_share(&plan, &plans[i]) != VX_ANSWERED;
        if (pthread_create(&threads[i], NULL, work, &plans[i]) != 0)
            abort();
    }
    free_plan(&plan);
    for (size_t i = 0; i < THREADS; i++) {
        void *found;
        pthread_join(threads[i], &found);
        wrong += (size_t)found;
    }
    release_column(&shared);
    printf("Arrow: %d threads over one batch, %zu wrong\n", THREADS, wrong);
    return wrong > 0;
}
