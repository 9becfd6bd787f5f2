/* Tests of include/vx_arrow.h: types, offsets, each field wrong in turn, and who owns what. */
#include "columns.h"
#include "test.h"

#include <stdio.h>
#include <stdlib.h>
#include <string.h>

static Answered type_text(const struct ArrowSchema *schema)
{
    Answered a = with_room(8);
    do
        a.status = vx_schema_of_arrow(schema, a.text, a.room, &a.answer);
    while (is_grown(&a));
    return a;
}

Answered scanned_column(vx_plan *plan, Text schema, const Column *column)
{
    Answered a = with_room(64);
    do
        a.status = vx_plan_scan_arrow_json(plan, schema.bytes, schema.length, &column->schema, &column->array, a.text,
                                           a.room, &a.answer);
    while (is_grown(&a));
    return a;
}

Answered selected_column(vx_plan *plan, Text schema, const Column *column)
{
    Answered a = with_room(1);
    do
        a.status = vx_plan_select_arrow(plan, schema.bytes, schema.length, &column->schema, &column->array, a.text,
                                        a.room, &a.answer);
    while (is_grown(&a));
    return a;
}

Answered column_out(ColumnCall *call, vx_plan *plan, Text schema, const Column *column, Column *values)
{
    Answered a = with_room(1);
    do {
        memset(values, 1, sizeof *values);
        a.status = call(plan, schema.bytes, schema.length, &column->schema, &column->array, &values->array,
                        &values->schema, a.text, a.room, &a.answer);
        bool is_there = a.status == VX_ANSWERED;
        EXPECT((values->array.release != NULL) == is_there && (values->schema.release != NULL) == is_there);
    } while (is_grown(&a));
    return a;
}

/* A plan of the expression over the column's own type, whose text is freed by whoever asked. */
vx_plan plan_over(const char *expression, const Column *column, Text *schema)
{
    vx_plan plan = VX_PLAN_INIT;
    Answered type = type_text(&column->schema);
    char page[512];
    vx_answer answer;
    EXPECT(type.status == VX_ANSWERED);
    *schema = (Text){type.text, type.answer.needed};
    vx_status status = vx_plan_new(expression, strlen(expression), schema->bytes, schema->length, &plan, page,
                                   sizeof page, &answer);
    expect(status == VX_ANSWERED, expression, __FILE__, __LINE__);
    return plan;
}

/* --- types --- */

static void expect_type(const struct ArrowSchema *schema, const char *text)
{
    Answered a = type_text(schema);
    bool is_right = a.status == VX_ANSWERED && says(&a, text) && is_at(&a.answer, (vx_place){0});
    expect(is_right, text, __FILE__, __LINE__);
    free(a.text);
}

static void test_formats(void)
{
    static const char *const FORMATS[][2] = {
        {"b", "bool"}, {"c", "i8"},  {"C", "u8"},  {"s", "i16"}, {"S", "u16"}, {"i", "i32"},  {"I", "u32"},
        {"l", "i64"},  {"L", "u64"}, {"f", "f32"}, {"g", "f64"}, {"u", "utf8"}, {"z", "binary"},
    };
    for (size_t i = 0; i < sizeof FORMATS / sizeof FORMATS[0]; i++)
        for (int is_nullable = 0; is_nullable < 2; is_nullable++) {
            Column c = column_of(FORMATS[i][0], is_nullable, 0, 1);
            char text[8];
            snprintf(text, sizeof text, "%s%s", FORMATS[i][1], is_nullable ? "?" : "");
            expect_type(&c.schema, text);
            release_column(&c);
        }
    Column inner[] = {column_of("i", true, 0, 3)};
    Column fields[] = {column_of("u", false, 0, 3), struct_of(inner, 1, true, 0, 3)};
    Column c = struct_of(fields, 2, false, 0, 3);
    expect_type(&c.schema, "{a=utf8, b={a=i32?}?}");
    const char *name = c.schema.children[0]->name;
    c.schema.children[0]->name = NULL;
    expect_type(&c.schema, "{``=utf8, b={a=i32?}?}");
    c.schema.children[0]->name = "a`b";
    expect_type(&c.schema, "{`a``b`=utf8, b={a=i32?}?}");
    c.schema.children[0]->name = name;
    release_column(&c);
    struct ArrowSchema none = {.format = "+s", .release = c.schema.release}, item = none, list = none;
    none.release = item.release = list.release = (void (*)(struct ArrowSchema *))abort;
    expect_type(&none, "{}");
    struct ArrowSchema *items[] = {&item};
    item.format = "c";
    list.n_children = 1;
    list.children = items;
    list.format = "+l";
    expect_type(&list, "list(i8)");
    list.format = "+w:07";
    expect_type(&list, "fixed_size_list(i8)[7]");
    list.flags = item.flags = ARROW_FLAG_NULLABLE | ARROW_FLAG_MAP_KEYS_SORTED;
    list.format = "+w:4294967295";
    expect_type(&list, "fixed_size_list(i8?)[4294967295]?");
}

static void test_formats_with_parts(void)
{
    static const char *const FORMATS[][2] = {
        {"tdD", "date"},
        {"tss:", "timestamp(s)"},
        {"tsm:UTC", "timestamp(ms, \"UTC\")"},
        {"tsu:a\"b", "timestamp(us, \"a\"\"b\")"},
        {"tsn:Europe/Zurich", "timestamp(ns, \"Europe/Zurich\")"},
        {"d:10,2", "decimal(10, 2)"},
        {"d:38,38,128", "decimal(38, 38)"},
        {"d:1,0", "decimal(1, 0)"},
    };
    for (size_t i = 0; i < sizeof FORMATS / sizeof FORMATS[0]; i++) {
        struct ArrowSchema schema = {.format = FORMATS[i][0], .release = (void (*)(struct ArrowSchema *))abort};
        expect_type(&schema, FORMATS[i][1]);
    }
}

/* --- decimals, days and instants --- */

/* A record batch of one day, one instant and one decimal a row, of which the second row is null. */
static void test_days(void)
{
    static const int32_t DAYS[] = {19753, 0, -1};
    static const int64_t INSTANTS[] = {1706696130250, 0, -1};
    static const int64_t UNITS[][2] = {{950, 0}, {0, 0}, {-5, -1}}; /* (the low half first) */
    static const unsigned char VALID[] = {5};
    const void *none[] = {NULL}, *buffers[3][2] = {{VALID, DAYS}, {VALID, INSTANTS}, {VALID, UNITS}};
    const char *formats[] = {"tdD", "tsm:UTC", "d:4,2"}, *names[] = {"d", "t", "p"};
    struct ArrowSchema types[3], *inner_types[3];
    struct ArrowArray arrays[3], *inner[3];
    for (size_t i = 0; i < 3; i++) {
        types[i] = (struct ArrowSchema){.format = formats[i], .name = names[i], .flags = ARROW_FLAG_NULLABLE,
                                        .release = (void (*)(struct ArrowSchema *))abort};
        arrays[i] = (struct ArrowArray){.length = 3, .null_count = 1, .n_buffers = 2, .buffers = buffers[i],
                                        .release = (void (*)(struct ArrowArray *))abort};
        inner_types[i] = &types[i];
        inner[i] = &arrays[i];
    }
    Column rows = {{.format = "+s", .name = "", .n_children = 3, .children = inner_types,
                    .release = (void (*)(struct ArrowSchema *))abort},
                   {.length = 3, .n_buffers = 1, .buffers = none, .n_children = 3, .children = inner,
                    .release = (void (*)(struct ArrowArray *))abort}};
    Text schema, again;
    vx_plan plan = plan_over("d >= \"2024-01-31\" and p > 9 and t < \"2024-02-01T00:00:00Z\"", &rows, &schema);
    vx_plan all = plan_over("$", &rows, &again);
    Answered a = selected_column(&plan, schema, &rows);
    EXPECT(a.status == VX_ANSWERED && a.answer.needed == 3 && memcmp(a.text, "\1\0\0", 3) == 0);
    free(a.text);
    a = scanned_column(&all, again, &rows);
    EXPECT(says(&a, "{\"d\":\"2024-01-31\",\"t\":\"2024-01-31T10:15:30.250Z\",\"p\":9.50}\n"
                    "{\"d\":null,\"t\":null,\"p\":null}\n"
                    "{\"d\":\"1969-12-31\",\"t\":\"1969-12-31T23:59:59.999Z\",\"p\":-0.05}\n"));
    free(a.text);
    Column values;
    a = column_out(vx_plan_scan_arrow, &all, again, &rows, &values);
    EXPECT(a.status == VX_ANSWERED && values.array.n_children == 3);
    for (size_t i = 0; i < 3 && a.status == VX_ANSWERED; i++) {
        static const size_t SIZES[] = {4, 8, 16};
        const struct ArrowArray *found = values.array.children[i];
        EXPECT(strcmp(values.schema.children[i]->format, formats[i]) == 0 && found->null_count == 1);
        for (size_t row = 0; row < 3; row += 2)
            EXPECT(memcmp((const char *)found->buffers[1] + SIZES[i] * row,
                          (const char *)buffers[i][1] + SIZES[i] * row, SIZES[i]) == 0);
    }
    free(a.text);
    if (a.status == VX_ANSWERED)
        release_column(&values);
    vx_plan_free(&plan);
    vx_plan_free(&all);
    free((char *)schema.bytes);
    free((char *)again.bytes);
}

/* Lists within lists, of which each is the next one's item. */
static void test_nesting(void)
{
    enum { LEVELS = 202 };
    struct ArrowSchema levels[LEVELS], *items[LEVELS];
    for (size_t i = 0; i < LEVELS; i++) {
        items[i] = &levels[i < LEVELS - 1 ? i + 1 : 0];
        levels[i] = (struct ArrowSchema){.format = "+l", .name = "i", .n_children = 1, .children = &items[i],
                                         .release = (void (*)(struct ArrowSchema *))abort};
    }
    Answered a = type_text(&levels[0]); /* (whose last item is the first again) */
    EXPECT(a.status == VX_BAD_DATA && begins(&a, "error: Arrow schema: $.i.i.i"));
    free(a.text);
    levels[200] = (struct ArrowSchema){.format = "c", .release = levels[0].release};
    a = type_text(&levels[0]);
    EXPECT(a.status == VX_ANSWERED && a.answer.needed == 6 * 200 + 2);
    free(a.text);
}

/* --- offsets --- */

/* A struct of bits, numbers and texts, which begin at these offsets. */
static Column batch_at(size_t parent, size_t child, size_t rows)
{
    size_t all = parent + rows;
    Column inner[] = {column_of("b", true, child, child / 3 + all), column_of("l", false, child / 2, child + all)};
    Column fields[] = {column_of("b", true, child, all), column_of("i", true, child, all),
                       column_of("u", true, child, all), struct_of(inner, 2, true, child / 3, all)};
    return struct_of(fields, 4, false, parent, rows);
}

static void test_offsets(void)
{
    static const size_t ROWS[] = {0, 1, 7, 8, 9, 40};
    for (size_t parent = 0; parent < 10; parent++)
        for (size_t child = 0; child < 10; child++)
            for (size_t i = 0; i < sizeof ROWS / sizeof ROWS[0]; i++) {
                Column c = batch_at(parent, child, ROWS[i]);
                Text schema, again;
                vx_plan plan = plan_over("$", &c, &schema), truth = plan_over("a", &c, &again);
                char *wanted = lines_of(&c.schema, &c.array);
                Answered a = scanned_column(&plan, schema, &c);
                EXPECT(a.status == VX_ANSWERED && says(&a, wanted));
                free(a.text);
                free(wanted);
                wanted = lines_of(c.schema.children[0], c.array.children[0]);
                a = selected_column(&truth, again, &c);
                EXPECT(a.status == VX_ANSWERED && a.answer.needed == ROWS[i]);
                char *line = wanted;
                for (size_t row = 0; row < parent + ROWS[i]; row++, line = strchr(line, '\n') + 1)
                    EXPECT(row < parent || a.text[row - parent] == (*line == 't'));
                free(a.text);
                free(wanted);
                vx_plan_free(&plan);
                vx_plan_free(&truth);
                free((char *)schema.bytes);
                free((char *)again.bytes);
                release_column(&c);
            }
}

/* --- what is wrong --- */

static vx_plan wrong_plan;
static Text wrong_type;
static Column wrong;

/* The call stops with this message, of that text, and neither struct is released by it. */
static void expect_stop(enum vx_text of, const char *message, int line)
{
    Answered a = scanned_column(&wrong_plan, wrong_type, &wrong);
    bool is_right = a.status == VX_BAD_DATA && says(&a, message) && is_at(&a.answer, (vx_place){.text = of});
    expect(is_right, message, __FILE__, line);
    if (!is_right)
        fprintf(stderr, "  status %u: %.*s\n", a.status, (int)a.answer.needed, a.text);
    free(a.text);
}

static void expect_answer(int line)
{
    Answered a = scanned_column(&wrong_plan, wrong_type, &wrong);
    expect(a.status == VX_ANSWERED, "the batch is as it was", __FILE__, line);
    free(a.text);
}

/* What a field is set to stops the call; then it is as before. */
#define WRONG(of, field, value, message)                    \
    do {                                                    \
        __typeof__(field) was = (field);                    \
        (field) = (value);                                  \
        expect_stop((of), "error: " message, __LINE__);     \
        (field) = was;                                      \
        expect_answer(__LINE__);                            \
    } while (0)

#define FORMATS_TAKEN "expected a format of bcCsSiIlLfguz, d:P,S, tdD, tsU:Z, +l, +s or +w:N, and not "

static void test_wrong_schemas(void)
{
    struct ArrowSchema *row = &wrong.schema, *x = row->children[1], *l = row->children[3], other = {0};
    WRONG(VX_SCHEMA, row->release, NULL, "Arrow schema: $: expected a schema that isn't released");
    WRONG(VX_SCHEMA, row->format, NULL, "Arrow schema: $: expected a schema that isn't released");
    WRONG(VX_SCHEMA, row->format, "+m", "Arrow schema: $: " FORMATS_TAKEN "+m");
    WRONG(VX_SCHEMA, row->format, "+l", "Arrow schema: $: expected n_children 1, and not 4");
    WRONG(VX_SCHEMA, row->format, "i", "Arrow schema: $: expected n_children 0, and not 4");
    WRONG(VX_SCHEMA, row->n_children, -1, "Arrow schema: $: expected n_children 0, and not -1");
    WRONG(VX_SCHEMA, row->children, NULL, "Arrow schema: $: expected children, and not a null pointer");
    WRONG(VX_SCHEMA, row->children[1], NULL, "Arrow schema: $.``: expected a schema that isn't released");
    WRONG(VX_SCHEMA, row->dictionary, &other, "Arrow schema: $: expected values without a dictionary");
    WRONG(VX_SCHEMA, x->release, NULL, "Arrow schema: $.``: expected a schema that isn't released");
    WRONG(VX_SCHEMA, x->dictionary, &other, "Arrow schema: $.b: expected values without a dictionary");
    WRONG(VX_SCHEMA, x->n_children, 1, "Arrow schema: $.b: expected n_children 0, and not 1");
    WRONG(VX_SCHEMA, x->n_children, INT64_MAX, "Arrow schema: $.b: expected n_children 0, and not 9223372036854775807");
    static const char *const FORMATS[] = {
        "",   "ff", "h",  "e",  "n",   "U",     "Z",     "vu",            "vz", "d:39,2", "w:3", "tdm", "tsu",
        "+L", "+m", "+r", "+w", "+w:", "+w:-1", "+w:3x", "+w:4294967296", "ii", "+s ",    "B",   "ts:", "tsx:UTC",
        "d:0,0", "d:9", "d:9,10", "d:9,2,256", "d: 9,2", "d:09,2", "d:9,-1", "+w:99999999999999999999",
    };
    for (size_t i = 0; i < sizeof FORMATS / sizeof FORMATS[0]; i++) {
        char message[200];
        snprintf(message, sizeof message, "error: Arrow schema: $.b: " FORMATS_TAKEN "%s", FORMATS[i]);
        const char *was = x->format;
        x->format = FORMATS[i];
        expect_stop(VX_SCHEMA, message, __LINE__);
        x->format = was;
    }
    WRONG(VX_SCHEMA, l->n_children, 0, "Arrow schema: $.`two words`: expected n_children 1, and not 0");
    WRONG(VX_SCHEMA, l->children[0]->format, "e", "Arrow schema: $.`two words`.a: " FORMATS_TAKEN "e");
    /* Another type than the plan's. */
    WRONG(VX_RECORDS, x->format, "I", "batch: $: expected a batch of the plan's type, and not of "
                                      "{a=utf8?, b=u32?, c=bool, `two words`=list(i8)?}");
    WRONG(VX_RECORDS, x->format, "f", "batch: $: expected a batch of the plan's type, and not of "
                                      "{a=utf8?, b=f32?, c=bool, `two words`=list(i8)?}");
    WRONG(VX_RECORDS, x->name, "B", "batch: $: expected a batch of the plan's type, and not of "
                                    "{a=utf8?, B=i32?, c=bool, `two words`=list(i8)?}");
    WRONG(VX_RECORDS, row->n_children, 3, "batch: $: expected a batch of the plan's type, and not of "
                                          "{a=utf8?, b=i32?, c=bool}");
}

static void test_wrong_arrays(void)
{
    struct ArrowArray *row = &wrong.array, *s = row->children[0], *x = row->children[1], *b = row->children[2],
                      *l = row->children[3], other = {0};
#define COUNTS_ROWS "expected a length and an offset that count rows"
    WRONG(VX_RECORDS, row->release, NULL, "batch: $: expected an array that isn't released");
    WRONG(VX_RECORDS, row->length, -1, "batch: $: " COUNTS_ROWS);
    WRONG(VX_RECORDS, row->length, INT64_MAX, "batch: $: " COUNTS_ROWS);
    WRONG(VX_RECORDS, row->length, INT64_MIN, "batch: $: " COUNTS_ROWS);
    WRONG(VX_RECORDS, row->length, 13, "batch: $.a: expected a length of at least 15, and not 12");
    WRONG(VX_RECORDS, row->offset, 5, "batch: $.a: expected a length of at least 15, and not 12");
    WRONG(VX_RECORDS, row->offset, -1, "batch: $: " COUNTS_ROWS);
    WRONG(VX_RECORDS, row->offset, INT64_MAX, "batch: $: " COUNTS_ROWS);
    WRONG(VX_RECORDS, row->offset, INT64_MAX / 16, "batch: $: " COUNTS_ROWS);
    WRONG(VX_RECORDS, row->null_count, -2, "batch: $: expected a null_count that counts rows, or is -1");
    WRONG(VX_RECORDS, row->null_count, 11, "batch: $: expected a null_count that counts rows, or is -1");
    WRONG(VX_RECORDS, row->null_count, 1, "batch: $: expected validity, since its null_count isn't 0");
    WRONG(VX_RECORDS, row->n_buffers, 0, "batch: $: expected n_buffers 1, and not 0");
    WRONG(VX_RECORDS, row->n_buffers, 2, "batch: $: expected n_buffers 1, and not 2");
    WRONG(VX_RECORDS, row->buffers, NULL, "batch: $: expected buffers and children, and not a null pointer");
    WRONG(VX_RECORDS, row->n_children, 3, "batch: $: expected n_children 4, and not 3");
    WRONG(VX_RECORDS, row->n_children, -1, "batch: $: expected n_children 4, and not -1");
    WRONG(VX_RECORDS, row->children, NULL, "batch: $: expected buffers and children, and not a null pointer");
    WRONG(VX_RECORDS, row->children[1], NULL, "batch: $.b: expected an array that isn't released");
    WRONG(VX_RECORDS, row->dictionary, &other, "batch: $: expected values without a dictionary");
    WRONG(VX_RECORDS, x->release, NULL, "batch: $.b: expected an array that isn't released");
    WRONG(VX_RECORDS, x->length, 11, "batch: $.b: expected a length of at least 12, and not 11");
    WRONG(VX_RECORDS, x->offset, INT64_MIN, "batch: $.b: " COUNTS_ROWS);
    WRONG(VX_RECORDS, x->n_buffers, 3, "batch: $.b: expected n_buffers 2, and not 3");
    WRONG(VX_RECORDS, x->n_children, 1, "batch: $.b: expected n_children 0, and not 1");
    WRONG(VX_RECORDS, x->buffers, NULL, "batch: $.b: expected buffers and children, and not a null pointer");
    WRONG(VX_RECORDS, x->dictionary, &other, "batch: $.b: expected values without a dictionary");
    WRONG(VX_RECORDS, x->buffers[1], NULL, "batch: $.b: expected values or offsets, and not a null pointer");
    WRONG(VX_RECORDS, b->buffers[1], NULL, "batch: $.c: expected values or offsets, and not a null pointer");
    WRONG(VX_RECORDS, s->buffers[1], NULL, "batch: $.a: expected values or offsets, and not a null pointer");
    WRONG(VX_RECORDS, l->buffers[1], NULL, "batch: $.`two words`: expected values or offsets, and not a null pointer");
    static const int32_t NEGATIVE[20] = {[14] = -1}, FAR[20] = {[14] = INT32_MAX}, ONE[20] = {[14] = 1};
    WRONG(VX_RECORDS, s->buffers[1], NEGATIVE, "batch: $.a: expected a last offset from 0 on");
    WRONG(VX_RECORDS, l->buffers[1], NEGATIVE, "batch: $.`two words`: expected a last offset from 0 on");
    WRONG(VX_RECORDS, l->buffers[1], FAR,
          "batch: $.`two words`.a: expected a length of at least 2147483647, and not 30");
    const void *bytes = s->buffers[2], *offsets = s->buffers[1];
    s->buffers[1] = ONE;
    s->buffers[2] = NULL;
    expect_stop(VX_RECORDS, "error: batch: $.a: expected bytes, and not a null pointer", __LINE__);
    s->buffers[2] = bytes;
    s->buffers[1] = offsets;
    expect_answer(__LINE__);
}

/* A list of bytes for each row, as another column's offsets have them. */
static Column list_of(Column item, size_t offset, size_t rows)
{
    Column c = struct_of(&item, 1, true, offset, rows);
    int32_t *offsets = malloc((offset + rows + 1) * sizeof *offsets);
    const void **buffers = malloc(2 * sizeof *buffers);
    char *format = malloc(3);
    if (!offsets || !buffers || !format)
        abort();
    for (size_t i = 0; i <= offset + rows; i++)
        offsets[i] = (int32_t)(2 * i);
    buffers[0] = c.array.buffers[0];
    buffers[1] = offsets;
    free(c.array.buffers);
    free((char *)c.schema.format);
    c.schema.format = strcpy(format, "+l");
    c.array.buffers = buffers;
    c.array.n_buffers = 2;
    return c;
}

/* Nothing looks at metadata, at what is the producer's own, or at flags but the one of nulls. */
static void test_unread_fields(void)
{
    struct ArrowSchema *x = wrong.schema.children[1], was = *x;
    struct ArrowArray *array = wrong.array.children[1];
    x->metadata = (const char *)1;
    x->private_data = array->private_data = (void *)1;
    x->flags = -1;
    expect_answer(__LINE__);
    *x = was;
    array->private_data = NULL;
}

static void test_wrong_fields(void)
{
    Column fields[] = {column_of("u", true, 2, 12), column_of("i", true, 3, 12), column_of("b", false, 1, 12),
                       list_of(column_of("c", false, 1, 30), 2, 12)};
    wrong = struct_of(fields, 4, false, 2, 10);
    wrong_plan = plan_over("$", &wrong, &wrong_type);
    expect_answer(__LINE__);
    test_wrong_schemas();
    test_wrong_arrays();
    test_unread_fields();
    Answered a = with_room(100);
    a.status = vx_plan_select_arrow(&wrong_plan, wrong_type.bytes, wrong_type.length, &wrong.schema, NULL, a.text,
                                    a.room, &a.answer);
    EXPECT(a.status == VX_BAD_DATA && says(&a, "error: batch: $: expected an array that isn't released"));
    a.status = vx_plan_select_arrow(&wrong_plan, wrong_type.bytes, wrong_type.length, NULL, &wrong.array, a.text,
                                    a.room, &a.answer);
    EXPECT(a.status == VX_BAD_DATA && says(&a, "error: Arrow schema: $: expected a schema that isn't released"));
    a.status = vx_schema_of_arrow(NULL, a.text, a.room, &a.answer);
    EXPECT(a.status == VX_BAD_DATA && says(&a, "error: Arrow schema: $: expected a schema that isn't released"));
    free(a.text);
    vx_plan_free(&wrong_plan);
    a = scanned_column(&wrong_plan, wrong_type, &wrong);
    EXPECT(a.status == VX_NO_PLAN);
    free(a.text);
    free((char *)wrong_type.bytes);
    release_column(&wrong);
}

/* --- types that are alike, and room --- */

/* Blanks and question marks in a name are part of it. */
static void test_names(Column *c)
{
    static const char *const NAMES[][3] = {
        {"a?", "{`a?`=i32?}", "{`a`=i32?}"},
        {"a  b", "{`a  b`=i32?}", "{`a b`=i32?}"},
        {"a`?", "{`a``?`=i32?}", "{`a```=i32?}"},
    };
    const char *was = c->schema.children[0]->name;
    for (size_t i = 0; i < sizeof NAMES / sizeof NAMES[0]; i++) {
        Text schema;
        c->schema.children[0]->name = NAMES[i][0];
        vx_plan plan = plan_over("1 < 2", c, &schema);
        EXPECT(strlen(NAMES[i][1]) == schema.length && memcmp(NAMES[i][1], schema.bytes, schema.length) == 0);
        Answered a = selected_column(&plan, text_of(NAMES[i][1]), c);
        EXPECT(a.status == VX_ANSWERED);
        free(a.text);
        a = selected_column(&plan, text_of(NAMES[i][2]), c);
        EXPECT(a.status == VX_BAD_DATA);
        free(a.text);
        vx_plan_free(&plan);
        free((char *)schema.bytes);
    }
    c->schema.children[0]->name = was;
}

static void test_alike(void)
{
    static const struct {
        const char *schema;
        vx_status status;
    } SCHEMAS[] = {
        {"{a=i32?}", VX_ANSWERED},        {" {\ta = i32 ? }\n", VX_ANSWERED}, {"{a=i32?}?", VX_ANSWERED},
        {"{a=i32}", VX_BAD_DATA},         {"{a=u32?}", VX_BAD_DATA},          {"{b=i32?}", VX_BAD_DATA},
        {"{a=i32?, b=i32}", VX_BAD_DATA}, {"{`a?`=i32?}", VX_BAD_DATA},       {"", VX_BAD_DATA},
    };
    Column fields[] = {column_of("i", true, 0, 9)}, c;
    ((unsigned char *)fields[0].array.buffers[0])[0] = 1; /* (rows are null) */
    fields[0].array.null_count = -1;
    c = struct_of(fields, 1, false, 0, 9);
    for (size_t i = 0; i < sizeof SCHEMAS / sizeof SCHEMAS[0]; i++) {
        vx_plan plan = VX_PLAN_INIT;
        char page[1000];
        vx_answer answer;
        Text schema = text_of(SCHEMAS[i].schema);
        vx_plan_new("1 < 2", 5, schema.bytes, schema.length, &plan, page, sizeof page, &answer);
        Answered a = selected_column(&plan, schema, &c);
        expect(a.status == SCHEMAS[i].status, SCHEMAS[i].schema, __FILE__, __LINE__);
        free(a.text);
        vx_plan_free(&plan);
    }
    test_names(&c);
    Text schema;
    vx_plan plan = plan_over("a is null", &c, &schema);
    char page[10] = "..........";
    vx_answer answer;
#define SELECTED(text, room) vx_plan_select_arrow(&plan, text, schema.length, &c.schema, &c.array, page, room, &answer)
    EXPECT(SELECTED(schema.bytes, 8) == VX_TOO_SMALL && answer.needed == 9 && page[0] == '.');
    EXPECT(SELECTED(schema.bytes, 9) == VX_ANSWERED && page[0] == 0 && page[1] == 1 && page[9] == '.');
    memset(page, '.', sizeof page);
    EXPECT(SELECTED("{a=i64?}", 10) == VX_TOO_SMALL && answer.place.text == VX_RECORDS && page[0] == '.');
    EXPECT(vx_schema_of_arrow(&c.schema, page, 7, &answer) == VX_TOO_SMALL && answer.needed == 8 && page[0] == '.');
    EXPECT(vx_schema_of_arrow(&c.schema, page, 8, &answer) == VX_ANSWERED && memcmp(page, "{a=i32?}..", 10) == 0);
    EXPECT(vx_schema_of_arrow(&c.schema, NULL, 0, &answer) == VX_TOO_SMALL && answer.needed == 8);
    vx_plan_free(&plan);
    free((char *)schema.bytes);
    release_column(&c);
}

/* --- columns that are answered --- */

/* The call answers a column of that type with these lines, in one piece. */
static Column expect_column(ColumnCall *call, vx_plan *plan, Text schema, const Column *c, const char *type,
                            const char *lines)
{
    Column values;
    Answered a = column_out(call, plan, schema, c, &values);
    expect(a.status == VX_ANSWERED && a.answer.needed == 0 && is_at(&a.answer, (vx_place){0}), lines, __FILE__,
           __LINE__);
    if (a.status != VX_ANSWERED) {
        fprintf(stderr, "  status %u: %.*s\n", a.status, (int)a.answer.needed, a.text);
        exit(1);
    }
    free(a.text);
    char *found = lines_of(&values.schema, &values.array);
    expect(strcmp(found, lines) == 0, lines, __FILE__, __LINE__);
    free(found);
    expect_type(&values.schema, type);
    EXPECT(values.array.offset == 0 && !values.array.dictionary && !values.schema.dictionary);
    return values;
}

static bool is_aligned(const void *bytes)
{
    return (uintptr_t)bytes % 8 == 0;
}

/* Four rows: numbers of which one is null, and texts. */
static Column four_rows(void)
{
    static const int32_t NUMBERS[] = {1, 2, -3, INT32_MAX}, ENDS[] = {0, 1, 1, 3, 4};
    Column fields[] = {column_of("i", true, 0, 4), column_of("u", false, 0, 4)};
    *(unsigned char *)fields[0].array.buffers[0] = 13;
    fields[0].array.null_count = 1;
    memcpy((void *)fields[0].array.buffers[1], NUMBERS, sizeof NUMBERS);
    memcpy((void *)fields[1].array.buffers[1], ENDS, sizeof ENDS);
    fields[1].array.buffers[2] = realloc((void *)fields[1].array.buffers[2], 4);
    if (!fields[1].array.buffers[2])
        abort();
    memcpy((void *)fields[1].array.buffers[2], "tabc", 4);
    return struct_of(fields, 2, false, 0, 4);
}

static void test_values_out(const Column *c)
{
    Text schema;
    vx_plan plan = plan_over("b like 'a%'", c, &schema);
    Column values = expect_column(vx_plan_scan_arrow, &plan, schema, c, "bool", "false\nfalse\ntrue\nfalse\n");
    EXPECT(values.array.n_buffers == 2 && !values.array.buffers[0] && is_aligned(values.array.buffers[1]));
    EXPECT(values.array.null_count == 0 && strcmp(values.schema.name, "") == 0);
    release_column(&values);
    values = expect_column(vx_plan_filter_arrow, &plan, schema, c, "{a=i32?, b=utf8}", "{\"a\":-3,\"b\":\"ab\"}\n");
    EXPECT(values.array.n_buffers == 1 && !values.array.children[0]->buffers[0]);
    release_column(&values);
    free((char *)schema.bytes);
    vx_plan_free(&plan);
    plan = plan_over("a", c, &schema);
    values = expect_column(vx_plan_scan_arrow, &plan, schema, c, "i32?", "1\nnull\n-3\n2147483647\n");
    EXPECT(values.array.null_count == 1 && is_aligned(values.array.buffers[0]) && is_aligned(values.array.buffers[1]));
    release_column(&values);
    vx_answer answer;
    char page[1];
    vx_status status = vx_plan_scan_arrow(&plan, schema.bytes, schema.length, &c->schema, &c->array, &values.array, NULL,
                                          page, 1, &answer);
    EXPECT(status == VX_ANSWERED && values.array.length == 4);
    values.array.release(&values.array);
    EXPECT(!values.array.release);
    Answered a = column_out(vx_plan_filter_arrow, &plan, schema, c, &values);
    EXPECT(a.status == VX_REFUSED && begins(&a, "error: the expression is of type i32?, and not of truth values"));
    free(a.text);
    vx_plan_free(&plan);
    a = column_out(vx_plan_scan_arrow, &plan, schema, c, &values);
    EXPECT(a.status == VX_NO_PLAN && begins(&a, "error: there is no plan"));
    free(a.text);
    free((char *)schema.bytes);
}

/* A name that an ArrowSchema would cut. */
static void test_name_with_zero(const Column *c, Text schema)
{
    static const char PACK[] = "pack(`a\0b`: a)";
    vx_plan plan = VX_PLAN_INIT;
    vx_answer answer;
    Column values;
    EXPECT(vx_plan_new(PACK, sizeof PACK - 1, schema.bytes, schema.length, &plan, NULL, 0, &answer) == VX_ANSWERED);
    Answered a = column_out(vx_plan_scan_arrow, &plan, schema, c, &values);
    EXPECT(a.status == VX_BAD_DATA && says(&a, "error: Arrow schema: $: expected names without the byte 0"));
    EXPECT(!values.array.release && !values.schema.release);
    free(a.text);
    vx_plan_free(&plan);
}

/* What stops a call, with its place; and a column that is told nothing of. */
static void test_stops_out(Column *c)
{
    Text schema;
    vx_plan plan = plan_over("a + 1", c, &schema);
    Column values;
    Answered a = column_out(vx_plan_scan_arrow, &plan, schema, c, &values);
    EXPECT(a.status == VX_FAULTED && a.answer.place.record == 4);
    free(a.text);
    a = column_out(vx_plan_scan_arrow, &plan, text_of("{a=i32?}"), c, &values);
    EXPECT(a.status == VX_BAD_DATA && begins(&a, "error: batch: $: expected a batch of the plan's type"));
    free(a.text);
    test_name_with_zero(c, schema);
    c->array.n_buffers = 2;
    a = column_out(vx_plan_scan_arrow, &plan, schema, c, &values);
    EXPECT(a.status == VX_BAD_DATA && says(&a, "error: batch: $: expected n_buffers 1, and not 2"));
    free(a.text);
    c->array.n_buffers = 1;
    vx_plan_free(&plan);
    free((char *)schema.bytes);
}

static void test_columns_out(void)
{
    Column c = four_rows();
    test_values_out(&c);
    test_stops_out(&c);
    release_column(&c);
}

void test_arrow(void)
{
    start_chance(1);
    test_formats();
    test_formats_with_parts();
    test_days();
    test_nesting();
    test_offsets();
    test_wrong_fields();
    test_alike();
    test_columns_out();
    EXPECT(live_structs == 0);
}
