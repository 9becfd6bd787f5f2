/*
 * Columns that the library answers, as arrays of Arrow's C data interface. What the page of a column has is
 * proved behind vx_plan_scan_column. The structs point into it, and it is freed with the last of them.
 */
#include "column.h"

#include <stdbool.h>
#include <stdlib.h>
#include <string.h>

enum { LEAST_ROOM = 1024 };

/* --- calls with a buffer that grows --- */

/* The call, with a buffer of so much room first, and of what it needs then. What stops it is handed on; the
   page is freed by whoever asked. */
static vx_status grown(const Call *call, Scan *scan, vx_plan *plan, size_t rows, size_t room, char **page)
{
    vx_status status = VX_TOO_SMALL;
    char *bytes = malloc(room);
    if (!bytes) /* (there may be as much as it needs) */
        bytes = malloc(room = LEAST_ROOM);
    while (bytes && status == VX_TOO_SMALL) {
        status = scan(plan, rows, call->lent, call->count, bytes, room, call->answer);
        if (status == VX_TOO_SMALL) {
            free(bytes);
            bytes = malloc(room = call->answer->needed);
        }
    }
    if (!bytes)
        return arrow_out_of_memory(call);
    *page = bytes;
    if (status == VX_ANSWERED)
        return status;
    size_t length = call->answer->needed;
    bool is_told = length <= call->room;
    if (is_told && length > 0)
        memcpy(call->buffer, bytes, length);
    free(bytes);
    return is_told ? status : VX_TOO_SMALL;
}

/* The room of a column of the type: of texts, bytes and items without these, which are told of. */
static size_t room_of(const Call *call, const struct ArrowSchema *schema, size_t rows, bool *has_more)
{
    static const size_t MOST_ROWS = (size_t)1 << 32;
    Type type;
    arrow_type(call, &ARROW_ROW, schema, &type);
    if (rows > MOST_ROWS)
        rows = MOST_ROWS;
    size_t room = (size_t)ARROW_BUFFERS[type.layout] * 16 + rows / 8;
    if (type.layout == BYTES || type.layout == LIST) {
        *has_more = true;
        return room + 4 * rows;
    }
    size_t inner = type.layout == FIXED_SIZE_LIST ? rows * (size_t)type.size : rows;
    for (int64_t i = 0; i < schema->n_children; i++)
        room += room_of(call, schema->children[i], inner, has_more);
    return type.layout == BITS ? room + rows / 8 : type.layout == NUMBERS ? room + rows * (size_t)type.size : room;
}

/* --- arrays --- */

static void release_array(struct ArrowArray *array)
{
    for (int64_t i = 0; i < array->n_children; i++)
        if (array->children[i]->release)
            array->children[i]->release(array->children[i]);
    array->release = NULL;
    arrow_disowned(array->private_data);
}

/* A page that is read, whether its buffers are as long as its rows ask for, and where the next struct, pointer to
   one, and pointer to a buffer go. */
typedef struct {
    const char *at;
    bool is_whole;
    Owner *owner;
    struct ArrowArray *next;
    struct ArrowArray **pointers;
    const void **buffers;
} Reader;

static size_t read_number(Reader *r)
{
    uint64_t number;
    memcpy(&number, r->at, 8);
    r->at += 8;
    return (size_t)number;
}

/* The next buffer, which has so many bytes at least, or a null pointer where it has none, as validity may. */
static const void *read_buffer(Reader *r, size_t least, bool may_lack)
{
    size_t length = read_number(r);
    const void *bytes = length > 0 ? r->at : NULL;
    r->is_whole &= length >= least || (may_lack && length == 0);
    r->at += (length + 7) / 8 * 8;
    return bytes;
}

/* How many bytes the array has in that buffer, of which no contract says that a null has them, too. */
static size_t least_of(const Type *type, const struct ArrowArray *array, int64_t buffer)
{
    size_t rows = (size_t)array->length;
    if (buffer == 0 || type->layout == BITS)
        return (rows + 7) / 8;
    if (type->layout == NUMBERS)
        return (size_t)type->size * rows;
    const uint32_t *offsets = array->buffers[1];
    return buffer == 1 ? 4 * (rows + (rows > 0)) : offsets ? offsets[rows] : 0;
}

/* How many of the first bits are 0. */
static int64_t count_nulls(const unsigned char *bits, size_t rows)
{
    int64_t valid = 0;
    for (size_t i = 0; i < rows / 8; i++)
        valid += __builtin_popcount(bits[i]);
    if (rows % 8 > 0)
        valid += __builtin_popcount(bits[rows / 8] & ((1u << rows % 8) - 1));
    return (int64_t)rows - valid;
}

/* How many rows the children of the array have. */
static size_t rows_within(const Type *type, const struct ArrowArray *array)
{
    size_t rows = (size_t)array->length;
    if (type->layout == FIXED_SIZE_LIST)
        return rows * (size_t)type->size;
    if (type->layout != LIST)
        return rows;
    return ((const uint32_t *)array->buffers[1])[rows];
}

/* The column of so many rows of that type. */
static void read_array(const Call *call, Reader *r, const struct ArrowSchema *schema, size_t rows,
                       struct ArrowArray *array)
{
    static const int32_t NO_OFFSETS[1] = {0};
    Type type;
    arrow_type(call, &ARROW_ROW, schema, &type);
    int64_t count = ARROW_BUFFERS[type.layout];
    *array = (struct ArrowArray){.length = (int64_t)rows, .n_buffers = count, .n_children = schema->n_children,
                                 .buffers = r->buffers, .children = r->pointers, .release = release_array,
                                 .private_data = r->owner};
    r->buffers += count;
    r->pointers += schema->n_children;
    for (int64_t i = 0; i < count && r->is_whole; i++)
        array->buffers[i] = read_buffer(r, least_of(&type, array, i), i == 0);
    if (r->is_whole && array->buffers[0])
        array->null_count = count_nulls(array->buffers[0], rows);
    if (array->null_count == 0)
        array->buffers[0] = NULL;
    if ((type.layout == BYTES || type.layout == LIST) && !array->buffers[1])
        array->buffers[1] = NO_OFFSETS;
    size_t inner = r->is_whole ? rows_within(&type, array) : 0;
    for (int64_t i = 0; i < schema->n_children; i++) {
        array->children[i] = r->next++;
        read_array(call, r, schema->children[i], inner, array->children[i]);
    }
}

/* Counts the structs and the buffers of an array of the type. */
static void count_parts(const Call *call, const struct ArrowSchema *schema, size_t *structs, size_t *buffers)
{
    Type type;
    arrow_type(call, &ARROW_ROW, schema, &type);
    *structs += 1;
    *buffers += (size_t)ARROW_BUFFERS[type.layout];
    for (int64_t i = 0; i < schema->n_children; i++)
        count_parts(call, schema->children[i], structs, buffers);
}

/* The array of the page, which is its own then. */
static vx_status array_of(const Call *call, const struct ArrowSchema *schema, char *page, struct ArrowArray *array)
{
    size_t structs = 0, buffers = 0;
    count_parts(call, schema, &structs, &buffers);
    size_t each = sizeof(struct ArrowArray) + sizeof(struct ArrowArray *);
    Owner *owner = arrow_owner(structs, structs * each + buffers * sizeof(void *));
    if (!owner) {
        free(page);
        return arrow_out_of_memory(call);
    }
    owner->page = page;
    struct ArrowArray *nodes = (struct ArrowArray *)(owner + 1);
    struct ArrowArray **pointers = (struct ArrowArray **)(nodes + structs);
    Reader r = {page, true, owner, nodes, pointers, (const void **)(pointers + structs)};
    size_t rows = read_number(&r);
    read_array(call, &r, schema, rows, array);
    if (!r.is_whole) {
        array->release(array);
        return arrow_stop(call, VX_RECORDS, &ARROW_ROW, "expected an answer with bytes for each row", "");
    }
    *call->answer = (vx_answer){0};
    return VX_ANSWERED;
}

/* --- the calls --- */

/* What a call answers: its type, and the column. */
typedef struct {
    Scan *type;
    Scan *column;
} Asked;

static vx_status type_of(vx_plan *plan, size_t rows, const vx_buffer *buffers, size_t count, char *buffer,
                         size_t room, vx_answer *answer)
{
    (void)rows, (void)buffers, (void)count;
    return vx_plan_type(plan, buffer, room, answer);
}

static vx_status scope_of(vx_plan *plan, size_t rows, const vx_buffer *buffers, size_t count, char *buffer,
                          size_t room, vx_answer *answer)
{
    (void)rows, (void)buffers, (void)count;
    return vx_plan_scope(plan, buffer, room, answer);
}

/* The type of what is answered. */
static vx_status typed(const Call *call, Scan *type, vx_plan *plan, struct ArrowSchema *schema)
{
    char *page;
    vx_status status = grown(call, type, plan, 0, LEAST_ROOM, &page);
    if (status != VX_ANSWERED)
        return status;
    status = arrow_schema_of(call, page, call->answer->needed - 1, schema); /* (without the end of the line) */
    free(page);
    return status;
}

/* The column of that type which is answered of the batch, whose buffers are lent. */
static vx_status answered(const Call *call, Scan *column, vx_plan *plan, const struct ArrowSchema *schema,
                          size_t rows, struct ArrowArray *values)
{
    bool has_more = false;
    char *page;
    size_t room = 8 + room_of(call, schema, rows, &has_more);
    for (size_t i = 0; i < call->count && has_more; i++)
        room += call->lent[i].length;
    vx_status status = grown(call, column, plan, rows, room, &page);
    if (status != VX_ANSWERED)
        return status;
    if (call->answer->needed < room / 2) {
        char *shorter = realloc(page, call->answer->needed);
        page = shorter ? shorter : page;
    }
    return array_of(call, schema, page, values);
}

/* What is asked of the plan over the array, whose buffers are lent and let go of. */
static vx_status asked_of(Call *call, const Asked *asked, vx_plan *plan, const struct ArrowSchema *type,
                          const struct ArrowArray *array, struct ArrowArray *values, struct ArrowSchema *values_type)
{
    struct ArrowSchema schema;
    vx_status status = typed(call, asked->type, plan, &schema);
    if (status != VX_ANSWERED)
        return status;
    status = arrow_lend(call, type, array);
    if (status == VX_ANSWERED)
        status = answered(call, asked->column, plan, &schema, (size_t)array->length, values);
    arrow_let_go(call);
    if (status == VX_ANSWERED && values_type)
        *values_type = schema;
    else
        schema.release(&schema);
    return status;
}

static vx_status column_out(const Asked *asked, vx_plan *plan, const char *schema, size_t schema_length,
                            const struct ArrowSchema *type, const struct ArrowArray *array,
                            struct ArrowArray *values, struct ArrowSchema *values_type, char *buffer,
                            size_t buffer_length, vx_answer *answer)
{
    values->release = NULL;
    if (values_type)
        values_type->release = NULL;
    Call call = {buffer, buffer_length, answer, NULL, 0, NULL};
    vx_status status = arrow_layout(&call, type, schema, schema_length);
    return status == VX_ANSWERED ? asked_of(&call, asked, plan, type, array, values, values_type) : status;
}

vx_status vx_plan_scan_arrow(vx_plan *plan, const char *schema, size_t schema_length,
                             const struct ArrowSchema *type, const struct ArrowArray *array,
                             struct ArrowArray *values, struct ArrowSchema *values_type, char *buffer,
                             size_t buffer_length, vx_answer *answer)
{
    static const Asked ASKED = {type_of, vx_plan_scan_column};
    return column_out(&ASKED, plan, schema, schema_length, type, array, values, values_type, buffer, buffer_length,
                      answer);
}

vx_status vx_plan_filter_arrow(vx_plan *plan, const char *schema, size_t schema_length,
                               const struct ArrowSchema *type, const struct ArrowArray *array,
                               struct ArrowArray *rows, struct ArrowSchema *rows_type, char *buffer,
                               size_t buffer_length, vx_answer *answer)
{
    static const Asked ASKED = {scope_of, vx_plan_filter_column};
    return column_out(&ASKED, plan, schema, schema_length, type, array, rows, rows_type, buffer, buffer_length,
                      answer);
}
