/* A producer and a consumer of Arrow's C data interface. */
#include "columns.h"

#include <inttypes.h>
#include <stdio.h>
#include <stdlib.h>
#include <string.h>

size_t live_structs = 0;

static uint64_t state;

void start_chance(uint64_t seed)
{
    state = seed;
}

size_t by_chance(size_t n)
{
    state = state * 6364136223846793005u + 1442695040888963407u;
    return (size_t)((state >> 33) % n);
}

/* --- memory --- */

static void *taken(size_t size)
{
    void *bytes = malloc(size);
    if (!bytes)
        abort();
    return bytes;
}

static void release_schema(struct ArrowSchema *schema)
{
    for (int64_t i = 0; i < schema->n_children; i++) {
        if (schema->children[i]->release)
            schema->children[i]->release(schema->children[i]);
        free(schema->children[i]);
    }
    free(schema->children);
    free((char *)schema->format);
    free((char *)schema->name);
    schema->release = NULL;
    live_structs--;
}

static void release_array(struct ArrowArray *array)
{
    for (int64_t i = 0; i < array->n_children; i++) {
        if (array->children[i]->release)
            array->children[i]->release(array->children[i]);
        free(array->children[i]);
    }
    for (int64_t i = 0; i < array->n_buffers; i++)
        free((void *)array->buffers[i]);
    free(array->children);
    free(array->buffers);
    array->release = NULL;
    live_structs--;
}

void release_column(Column *column)
{
    column->schema.release(&column->schema);
    column->array.release(&column->array);
}

static char *copied(const char *text)
{
    return strcpy(taken(strlen(text) + 1), text);
}

/* --- the producer --- */

/* The name of the field of that index, which has to be quoted in source text for some. */
static const char *name_of(size_t index)
{
    static const char *const NAMES[] = {"a", "b", "c", "two words", "`", "?", "\303\244", "1st", "", "and"};
    return NAMES[index % 10];
}

/* A struct without children or buffers yet. */
static Column bare(const char *format, bool is_nullable, size_t buffers, size_t children, size_t offset, size_t rows)
{
    Column c = {{.format = copied(format),
                 .name = copied(""),
                 .flags = is_nullable ? ARROW_FLAG_NULLABLE : 0,
                 .n_children = (int64_t)children,
                 .children = taken((children + 1) * sizeof(void *)),
                 .release = release_schema},
                {.length = (int64_t)rows,
                 .offset = (int64_t)offset,
                 .n_buffers = (int64_t)buffers,
                 .n_children = (int64_t)children,
                 .buffers = taken(buffers * sizeof(void *)),
                 .children = taken((children + 1) * sizeof(void *)),
                 .release = release_array}};
    memset(c.array.buffers, 0, buffers * sizeof(void *));
    live_structs += 2;
    return c;
}

static unsigned char *random_bytes(size_t length)
{
    unsigned char *bytes = taken(length);
    for (size_t i = 0; i < length; i++)
        bytes[i] = (unsigned char)by_chance(256);
    return bytes;
}

/* Validity by chance, which nothing asks for where all is valid; the count of nulls may be unknown. */
static void put_validity(Column *c, bool is_nullable)
{
    size_t from = (size_t)c->array.offset, rows = (size_t)c->array.length;
    unsigned char *bits = random_bytes((from + rows + 7) / 8);
    for (size_t i = from; i < from + rows && !is_nullable; i++)
        bits[i / 8] |= (unsigned char)(1 << i % 8);
    c->array.buffers[0] = bits;
    for (size_t i = from; i < from + rows; i++)
        c->array.null_count += !(bits[i / 8] >> i % 8 & 1);
    if (by_chance(3) == 0)
        c->array.null_count = -1;
}

/* Offsets of so many rows that begin within the first bytes. */
static int32_t *random_offsets(size_t rows, size_t most)
{
    int32_t *offsets = taken((rows + 1) * sizeof *offsets);
    offsets[0] = (int32_t)by_chance(4);
    for (size_t i = 0; i < rows; i++)
        offsets[i + 1] = offsets[i] + (int32_t)by_chance(most);
    return offsets;
}

/* Texts of letters, signs that JSON escapes, and a letter of two bytes. */
static void put_texts(Column *c, size_t rows, bool is_text)
{
    static const char *const PIECES[] = {"a", "t", "%", "\"", "\\", "\303\244", "\n"};
    int32_t *offsets = taken((rows + 1) * sizeof *offsets);
    char *bytes = taken(3 + 2 * 3 * rows);
    int32_t length = (int32_t)by_chance(3);
    memset(bytes, 'x', (size_t)length);
    offsets[0] = length;
    for (size_t i = 0; i < rows; i++) {
        for (size_t n = by_chance(4); n > 0; n--)
            if (is_text) {
                const char *piece = PIECES[by_chance(7)];
                memcpy(bytes + length, piece, strlen(piece));
                length += (int32_t)strlen(piece);
            } else
                bytes[length++] = (char)by_chance(256);
        offsets[i + 1] = length;
    }
    char *whole = taken((size_t)length);
    memcpy(whole, bytes, (size_t)length);
    free(bytes);
    c->array.buffers[1] = offsets;
    c->array.buffers[2] = whole;
}

static bool is_float(char format)
{
    return format == 'f' || format == 'g';
}

static size_t size_of(char format)
{
    static const char FORMATS[] = "cCsSiIlL";
    if (is_float(format))
        return format == 'f' ? 4 : 8;
    return (size_t)1 << (strchr(FORMATS, format) - FORMATS) / 2;
}

static char *random_floats(size_t size, size_t rows)
{
    char *bytes = taken(size * rows);
    for (size_t i = 0; i < rows; i++)
        put_float(bytes + size * i, size);
    return bytes;
}

Column column_of(const char *format, bool is_nullable, size_t offset, size_t rows)
{
    bool has_bytes = *format == 'u' || *format == 'z';
    Column c = bare(format, is_nullable, has_bytes ? 3 : 2, 0, offset, rows);
    if (is_nullable || by_chance(4) == 0)
        put_validity(&c, is_nullable);
    if (has_bytes)
        put_texts(&c, offset + rows, *format == 'u');
    else if (*format == 'b')
        c.array.buffers[1] = random_bytes((offset + rows + 7) / 8);
    else if (is_float(*format))
        c.array.buffers[1] = random_floats(size_of(*format), offset + rows);
    else
        c.array.buffers[1] = random_bytes(size_of(*format) * (offset + rows));
    return c;
}

static void adopt(Column *c, size_t index, Column child, const char *name)
{
    struct ArrowSchema *schema = taken(sizeof *schema);
    struct ArrowArray *array = taken(sizeof *array);
    free((char *)child.schema.name);
    child.schema.name = copied(name);
    *schema = child.schema;
    *array = child.array;
    c->schema.children[index] = schema;
    c->array.children[index] = array;
}

Column struct_of(Column *columns, size_t count, bool is_nullable, size_t offset, size_t rows)
{
    Column c = bare("+s", is_nullable, 1, count, offset, rows);
    if (is_nullable)
        put_validity(&c, is_nullable);
    for (size_t i = 0; i < count; i++)
        adopt(&c, i, columns[i], name_of(i));
    return c;
}

/* A column of lists: of one size, or between offsets. */
static Column random_lists(size_t levels, bool is_nullable, size_t offset, size_t rows)
{
    size_t size = by_chance(4), ends = offset + rows;
    bool is_fixed = by_chance(2) > 0;
    char format[8];
    snprintf(format, sizeof format, is_fixed ? "+w:%zu" : "+l", size);
    Column c = bare(format, is_nullable, is_fixed ? 1 : 2, 1, offset, rows);
    if (is_nullable)
        put_validity(&c, is_nullable);
    int32_t *offsets = is_fixed ? NULL : random_offsets(ends, 4);
    size_t items = is_fixed ? size * ends : (size_t)offsets[ends];
    if (!is_fixed)
        c.array.buffers[1] = offsets;
    adopt(&c, 0, random_column(levels - 1, items), "item");
    return c;
}

Column random_column(size_t levels, size_t rows)
{
    static const char *const FORMATS[] = {"b", "c", "C", "s", "S", "i", "I", "l", "L", "f", "g", "u", "z"};
    bool is_nullable = by_chance(2) > 0;
    size_t offset = by_chance(3) ? by_chance(10) : 0;
    rows += by_chance(3) ? 0 : by_chance(4);
    size_t kind = levels > 0 ? by_chance(4) : 3;
    if (kind == 0 || kind == 1) {
        Column fields[4];
        size_t count = by_chance(5);
        for (size_t i = 0; i < count; i++)
            fields[i] = random_column(levels - 1, offset + rows);
        Column c = struct_of(fields, count, is_nullable, offset, rows);
        for (size_t i = 0, from = by_chance(7); i < count; i++) {
            free((char *)c.schema.children[i]->name);
            c.schema.children[i]->name = copied(name_of(from + i));
        }
        return c;
    }
    if (kind == 2)
        return random_lists(levels, is_nullable, offset, rows);
    return column_of(FORMATS[by_chance(13)], is_nullable, offset, rows);
}

/* --- the consumer --- */

/* A text that grows. */
typedef struct {
    char *bytes;
    size_t length;
    size_t room;
} Lines;

static void add(Lines *lines, const char *bytes, size_t length)
{
    while (lines->length + length + 1 > lines->room) {
        lines->room = 2 * lines->room + 64;
        lines->bytes = realloc(lines->bytes, lines->room);
        if (!lines->bytes)
            abort();
    }
    memcpy(lines->bytes + lines->length, bytes, length);
    lines->length += length;
    lines->bytes[lines->length] = 0;
}

static void add_text(Lines *lines, const char *text)
{
    add(lines, text, strlen(text));
}

static void add_quoted(Lines *lines, const char *bytes, size_t length)
{
    add_text(lines, "\"");
    for (size_t i = 0; i < length; i++) {
        if (bytes[i] == '"' || bytes[i] == '\\')
            add_text(lines, "\\");
        add(lines, bytes[i] == '\n' ? "\\n" : bytes + i, bytes[i] == '\n' ? 2 : 1);
    }
    add_text(lines, "\"");
}

static bool bit_at(const void *bits, int64_t at)
{
    return ((const unsigned char *)bits)[at / 8] >> at % 8 & 1;
}

bool is_null_at(const struct ArrowArray *array, int64_t row)
{
    return array->buffers[0] && !bit_at(array->buffers[0], array->offset + row);
}

static void add_number(Lines *lines, char format, const char *bytes)
{
    char room[FLOAT_ROOM];
    if (is_float(format)) {
        add_text(lines, text_of_float(bytes, size_of(format), room));
        return;
    }
    uint64_t number = 0;
    size_t size = size_of(format);
    for (size_t i = 0; i < size; i++)
        number |= (uint64_t)(unsigned char)bytes[i] << 8 * i;
    char text[32];
    size_t unused = 64 - 8 * size;
    if (format >= 'a')
        snprintf(text, sizeof text, "%" PRId64, (int64_t)(number << unused) >> unused);
    else
        snprintf(text, sizeof text, "%" PRIu64, number);
    add_text(lines, text);
}

static void add_bytes(Lines *lines, const char *bytes, size_t length)
{
    char digits[3];
    add_text(lines, "\"0x");
    for (size_t i = 0; i < length; i++) {
        snprintf(digits, sizeof digits, "%02x", (unsigned char)bytes[i]);
        add_text(lines, digits);
    }
    add_text(lines, "\"");
}

static void add_value(Lines *lines, const struct ArrowSchema *schema, const struct ArrowArray *array, int64_t row);

static void add_items(Lines *lines, const struct ArrowSchema *schema, const struct ArrowArray *array, int64_t from,
                      int64_t to)
{
    add_text(lines, "[");
    for (int64_t i = from; i < to; i++) {
        add_text(lines, i > from ? "," : "");
        add_value(lines, schema->children[0], array->children[0], i);
    }
    add_text(lines, "]");
}

/* The value at a row of the array, behind its offset. */
static void add_value(Lines *lines, const struct ArrowSchema *schema, const struct ArrowArray *array, int64_t row)
{
    int64_t at = array->offset + row;
    const char *format = schema->format;
    const int32_t *offsets = array->n_buffers > 1 ? array->buffers[1] : NULL;
    if (is_null_at(array, row))
        add_text(lines, "null");
    else if (strcmp(format, "+s") == 0) {
        add_text(lines, "{");
        for (int64_t i = 0; i < schema->n_children; i++) {
            const char *name = schema->children[i]->name;
            add_text(lines, i > 0 ? "," : "");
            add_quoted(lines, name, strlen(name));
            add_text(lines, ":");
            add_value(lines, schema->children[i], array->children[i], at);
        }
        add_text(lines, "}");
    } else if (strcmp(format, "+l") == 0)
        add_items(lines, schema, array, offsets[at], offsets[at + 1]);
    else if (format[0] == '+')
        add_items(lines, schema, array, at * atoi(format + 3), (at + 1) * atoi(format + 3));
    else if (*format == 'b')
        add_text(lines, bit_at(array->buffers[1], at) ? "true" : "false");
    else if (*format == 'u' || *format == 'z') {
        const char *bytes = (const char *)array->buffers[2] + offsets[at];
        (*format == 'u' ? add_quoted : add_bytes)(lines, bytes, (size_t)(offsets[at + 1] - offsets[at]));
    } else
        add_number(lines, *format, (const char *)array->buffers[1] + (size_t)at * size_of(*format));
}

char *lines_of(const struct ArrowSchema *schema, const struct ArrowArray *array)
{
    Lines lines = {NULL, 0, 0};
    add_text(&lines, "");
    for (int64_t row = 0; row < array->length; row++) {
        add_value(&lines, schema, array, row);
        add_text(&lines, "\n");
    }
    return lines.bytes;
}
