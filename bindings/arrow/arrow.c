/*
 * Arrays of Arrow's C data interface: a column goes depth first into the flat list of lent buffers that the
 * calls of vx.h take. What a row is and what an answer means is proved there. Here is where buffers begin and
 * end, and what no call behind this file can see: that an array is as its schema says.
 *
 * Nothing but the caller's buffer and answer is written, and no release is called.
 */
#include "column.h"

#include <stdlib.h>
#include <string.h>

#if !defined(__BYTE_ORDER__) || __BYTE_ORDER__ != __ORDER_LITTLE_ENDIAN__
#error "numbers are lent as they lie, which has to be in little-endian order"
#endif

/* No array has more rows before its end, so that no count of bytes below is too large. */
static const int64_t MOST = INT64_MAX / 16;

/* Whether an array of the type has so many rows from that one on, and what the type asks for. */
static vx_status check_array(const Call *call, const Path *at, Layout layout, int64_t children,
                             const struct ArrowArray *array, int64_t skip, int64_t rows)
{
    if (!array || !array->release)
        return arrow_stop(call, VX_RECORDS, at, "expected an array that isn't released", "");
    if (array->length < 0 || array->offset < 0 || array->offset > MOST - array->length)
        return arrow_stop(call, VX_RECORDS, at, "expected a length and an offset that count rows", "");
    if (array->null_count < -1 || array->null_count > array->length)
        return arrow_stop(call, VX_RECORDS, at, "expected a null_count that counts rows, or is -1", "");
    if (array->dictionary)
        return arrow_stop(call, VX_RECORDS, at, "expected values without a dictionary", "");
    if (array->n_buffers != ARROW_BUFFERS[layout])
        return arrow_is_not(call, VX_RECORDS, at, "expected n_buffers", ARROW_BUFFERS[layout], array->n_buffers);
    if (array->n_children != children)
        return arrow_is_not(call, VX_RECORDS, at, "expected n_children", children, array->n_children);
    if (!array->buffers || (children > 0 && !array->children))
        return arrow_stop(call, VX_RECORDS, at, "expected buffers and children, and not a null pointer", "");
    if (array->null_count > 0 && !array->buffers[0])
        return arrow_stop(call, VX_RECORDS, at, "expected validity, since its null_count isn't 0", "");
    if (skip > array->length - rows)
        return arrow_is_not(call, VX_RECORDS, at, "expected a length of at least", skip + rows, array->length);
    return VX_ANSWERED;
}

static vx_status lend(Call *call, const void *bytes, size_t length)
{
    call->lent[call->count++] = (vx_buffer){length > 0 ? bytes : NULL, length};
    return VX_ANSWERED;
}

/* Lends so many bits, from that one on: a copy where they begin within a byte. */
static vx_status lend_bits(Call *call, const void *bits, size_t first, size_t rows)
{
    if (!bits || rows == 0)
        return lend(call, NULL, 0);
    const unsigned char *from = (const unsigned char *)bits + first / 8;
    size_t shift = first % 8, length = (rows + 7) / 8;
    if (shift == 0)
        return lend(call, from, length);
    Copy *copy = malloc(sizeof *copy + length);
    if (!copy)
        return arrow_out_of_memory(call);
    copy->next = call->copies;
    call->copies = copy;
    /* (the byte behind is read only where bits of these rows are in it) */
    size_t last = (shift + rows - 1) / 8;
    for (size_t i = 0; i < last; i++)
        copy->bits[i] = (unsigned char)(from[i] >> shift | from[i + 1] << (8 - shift));
    if (last < length)
        copy->bits[last] = (unsigned char)(from[last] >> shift);
    return lend(call, copy->bits, length);
}

/* Lends the offsets of so many rows, from that one on, and says where the last row ends. */
static vx_status lend_offsets(Call *call, const Path *at, const char *offsets, size_t first, size_t rows,
                              int32_t *end)
{
    *end = 0;
    if (rows == 0)
        return lend(call, NULL, 0);
    memcpy(end, offsets + 4 * (first + rows), 4); /* (which may be at any address) */
    if (*end < 0)
        return arrow_stop(call, VX_RECORDS, at, "expected a last offset from 0 on", "");
    return lend(call, offsets + 4 * first, 4 * (rows + 1));
}

/* Lends what an array has behind its validity, and says which rows of its children belong to its rows. */
static vx_status lend_values(Call *call, const Path *at, const Type *type, const struct ArrowArray *array,
                             int64_t *first, int64_t *rows)
{
    const char *values = type->layout < FIXED_SIZE_LIST ? array->buffers[1] : NULL;
    size_t from = (size_t)*first, count = (size_t)*rows;
    int32_t end = 0;
    vx_status status;
    if (type->layout < FIXED_SIZE_LIST && !values && count > 0)
        return arrow_stop(call, VX_RECORDS, at, "expected values or offsets, and not a null pointer", "");
    switch (type->layout) {
    case BITS:
        return lend_bits(call, values, from, count);
    case NUMBERS:
        return lend(call, count > 0 ? values + (size_t)type->size * from : NULL, (size_t)type->size * count);
    case BYTES:
        status = lend_offsets(call, at, values, from, count, &end);
        if (status == VX_ANSWERED && end > 0 && !array->buffers[2])
            return arrow_stop(call, VX_RECORDS, at, "expected bytes, and not a null pointer", "");
        return status == VX_ANSWERED ? lend(call, array->buffers[2], (size_t)end) : status;
    case LIST:
        status = lend_offsets(call, at, values, from, count, &end);
        *first = 0; /* (offsets count from the first item on) */
        *rows = end;
        return status;
    case FIXED_SIZE_LIST:
        if (type->size > 0 && *first + *rows > MOST / type->size)
            return arrow_stop(call, VX_RECORDS, at, "expected fewer items", "");
        *first *= type->size;
        *rows *= type->size;
        return VX_ANSWERED;
    case STRUCT:
        break;
    }
    return VX_ANSWERED;
}

/* Lends the buffers of so many rows of the array, from that one on. */
static vx_status lend_array(Call *call, const Path *at, const struct ArrowSchema *schema,
                            const struct ArrowArray *array, int64_t skip, int64_t rows)
{
    Type type;
    vx_status status = arrow_type(call, at, schema, &type);
    if (status == VX_ANSWERED)
        status = check_array(call, at, type.layout, schema->n_children, array, skip, rows);
    if (status != VX_ANSWERED)
        return status;
    int64_t first = array->offset + skip;
    status = lend_bits(call, array->buffers[0], (size_t)first, (size_t)rows);
    if (status == VX_ANSWERED)
        status = lend_values(call, at, &type, array, &first, &rows);
    for (int64_t i = 0; i < schema->n_children && status == VX_ANSWERED; i++) {
        Path child = arrow_child(at, schema->children[i]);
        status = lend_array(call, &child, schema->children[i], array->children[i], first, rows);
    }
    return status;
}

vx_status arrow_lend(Call *call, const struct ArrowSchema *type, const struct ArrowArray *array)
{
    call->lent = malloc(call->count * sizeof *call->lent);
    if (!call->lent)
        return arrow_out_of_memory(call);
    call->count = 0;
    return lend_array(call, &ARROW_ROW, type, array, 0, array ? array->length : 0);
}

void arrow_let_go(Call *call)
{
    while (call->copies) {
        Copy *copy = call->copies;
        call->copies = copy->next;
        free(copy);
    }
    free(call->lent);
}

/* --- calls on a plan --- */

static vx_status scanned(Call *call, Scan *scan, vx_plan *plan, const struct ArrowSchema *type,
                         const struct ArrowArray *array)
{
    vx_status status = arrow_lend(call, type, array);
    if (status == VX_ANSWERED)
        status = scan(plan, (size_t)array->length, call->lent, call->count, call->buffer, call->room, call->answer);
    arrow_let_go(call);
    return status;
}

vx_status vx_plan_select_arrow(vx_plan *plan, const char *schema, size_t schema_length,
                               const struct ArrowSchema *type, const struct ArrowArray *array, char *buffer,
                               size_t buffer_length, vx_answer *answer)
{
    Call call = {buffer, buffer_length, answer, NULL, 0, NULL};
    vx_status status = arrow_layout(&call, type, schema, schema_length);
    return status == VX_ANSWERED ? scanned(&call, vx_plan_select, plan, type, array) : status;
}

vx_status vx_plan_scan_arrow_json(vx_plan *plan, const char *schema, size_t schema_length,
                                  const struct ArrowSchema *type, const struct ArrowArray *array, char *buffer,
                                  size_t buffer_length, vx_answer *answer)
{
    Call call = {buffer, buffer_length, answer, NULL, 0, NULL};
    vx_status status = arrow_layout(&call, type, schema, schema_length);
    return status == VX_ANSWERED ? scanned(&call, vx_plan_scan, plan, type, array) : status;
}
