/*
 * Types of Arrow's C data interface as source text, and messages with the path in them. A type is walked
 * twice where its text is written: to count the bytes, and to write them.
 */
#include "column.h"

#include <inttypes.h>
#include <stdbool.h>
#include <stdio.h>
#include <stdlib.h>
#include <string.h>

/* Source text nests no deeper than so many brackets. */
enum { DEEPEST = 200 };

const int64_t ARROW_BUFFERS[] = {2, 2, 3, 2, 1, 1}, ARROW_CHILDREN[] = {0, 0, 0, 1, 1, 0};

const Path ARROW_ROW = {NULL, NULL, 0};

static const Type TYPES[] = {
    {"b", "bool", BITS, 0},    {"c", "i8", NUMBERS, 1},  {"C", "u8", NUMBERS, 1},  {"s", "i16", NUMBERS, 2},
    {"S", "u16", NUMBERS, 2},  {"i", "i32", NUMBERS, 4}, {"I", "u32", NUMBERS, 4}, {"l", "i64", NUMBERS, 8},
    {"L", "u64", NUMBERS, 8},  {"f", "f32", NUMBERS, 4}, {"g", "f64", NUMBERS, 8}, {"u", "utf8", BYTES, 0},
    {"z", "binary", BYTES, 0}, {"+l", "list", LIST, 0},  {"+s", "", STRUCT, 0},    {"tdD", "date", NUMBERS, 4},
};

/* --- texts --- */

/* A text that is written as far as there is room, and counted beyond. */
typedef struct {
    char *bytes;
    size_t room;
    size_t length;
} Text;

static void put(Text *text, const char *bytes)
{
    for (; *bytes; bytes++, text->length++)
        if (text->length < text->room)
            text->bytes[text->length] = *bytes;
}

/* What stands between such signs, and them, which are doubled inside. */
static void put_quoted(Text *text, const char *bytes, char sign)
{
    put(text, (const char[]){sign, 0});
    for (; bytes && *bytes; bytes++)
        put(text, *bytes == sign ? (const char[]){sign, sign, 0} : (const char[]){*bytes, 0});
    put(text, (const char[]){sign, 0});
}

/* A name as source text has it. */
static void put_name(Text *text, const char *name)
{
    static const char WORD[] = "0123456789_abcdefghijklmnopqrstuvwxyzABCDEFGHIJKLMNOPQRSTUVWXYZ";
    if (name && *name && !strchr("0123456789", *name) && name[strspn(name, WORD)] == 0) {
        put(text, name);
        return;
    }
    put_quoted(text, name, '`');
}

static void put_path(Text *text, const Path *at)
{
    if (!at->above) {
        put(text, "$");
        return;
    }
    put_path(text, at->above);
    put(text, ".");
    put_name(text, at->name);
}

static void put_message(Text *text, enum vx_text of, const Path *at, const char *what, const char *more)
{
    put(text, of == VX_SCHEMA ? "error: Arrow schema: " : "error: batch: ");
    put_path(text, at);
    put(text, ": ");
    put(text, what);
    put(text, more);
}

vx_status arrow_stop(const Call *call, enum vx_text of, const Path *at, const char *what, const char *more)
{
    Text counted = {NULL, 0, 0}, text = {call->buffer, call->room, 0};
    put_message(&counted, of, at, what, more);
    *call->answer = (vx_answer){counted.length, {.text = of}};
    if (counted.length > call->room)
        return VX_TOO_SMALL;
    put_message(&text, of, at, what, more);
    return VX_BAD_DATA;
}

vx_status arrow_is_not(const Call *call, enum vx_text of, const Path *at, const char *what, int64_t wanted,
                       int64_t found)
{
    char numbers[80];
    snprintf(numbers, sizeof numbers, " %" PRId64 ", and not %" PRId64, wanted, found);
    return arrow_stop(call, of, at, what, numbers);
}

vx_status arrow_out_of_memory(const Call *call)
{
    *call->answer = (vx_answer){0};
    return VX_OUT_OF_MEMORY;
}

/* --- schemas --- */

/* The precision and the scale of a decimal's format of 128 bits, as d:10,2 or d:10,2,128. */
static bool is_decimal(const char *format, int *precision, int *scale)
{
    char plain[32], sized[40];
    if (sscanf(format, "d:%2d,%2d", precision, scale) != 2)
        return false;
    snprintf(plain, sizeof plain, "d:%d,%d", *precision, *scale);
    snprintf(sized, sizeof sized, "%s,128", plain);
    return *precision >= 1 && *precision <= 38 && *scale >= 0 && *scale <= *precision &&
           (strcmp(format, plain) == 0 || strcmp(format, sized) == 0);
}

/* The unit of a timestamp's format, as tsu:UTC, whose zone begins at the fifth byte; a null pointer where it is none. */
static const char *unit_of(const char *format)
{
    static const char *const UNITS[] = {"s", "ms", "us", "ns"};
    static const char SIGNS[] = "smun";
    const char *sign = strncmp(format, "ts", 2) == 0 && format[2] ? strchr(SIGNS, format[2]) : NULL;
    return sign && format[3] == ':' ? UNITS[sign - SIGNS] : NULL;
}

/* Writes what stands in brackets behind the word of a decimal or a timestamp. */
static void put_parts(Text *text, const char *format)
{
    int precision, scale;
    const char *unit = unit_of(format);
    char parts[40];
    if (is_decimal(format, &precision, &scale)) {
        snprintf(parts, sizeof parts, "(%d, %d)", precision, scale);
        put(text, parts);
    } else if (unit) {
        put(text, "(");
        put(text, unit);
        put(text, format[4] ? ", " : "");
        if (format[4])
            put_quoted(text, format + 4, '"');
        put(text, ")");
    }
}

/* Whether the format is one that is taken. */
static bool is_read(const char *format, Type *type)
{
    int precision, scale;
    if (is_decimal(format, &precision, &scale)) {
        *type = (Type){"d", "decimal", NUMBERS, 16};
        return true;
    }
    if (unit_of(format)) {
        *type = (Type){"ts", "timestamp", NUMBERS, 8};
        return true;
    }
    for (size_t i = 0; i < sizeof TYPES / sizeof TYPES[0]; i++)
        if (strcmp(format, TYPES[i].format) == 0) {
            *type = TYPES[i];
            return true;
        }
    if (strncmp(format, "+w:", 3) != 0)
        return false;
    const char *digits = format + 3;
    size_t length = strspn(digits, "0123456789");
    if (length == 0 || digits[length] != 0)
        return false;
    *type = (Type){"+w", "fixed_size_list", FIXED_SIZE_LIST, strtoll(digits, NULL, 10)};
    return type->size <= UINT32_MAX; /* (what is too long for strtoll is the most that it has) */
}

const char *arrow_format(const char *word, size_t length)
{
    for (size_t i = 0; i < sizeof TYPES / sizeof TYPES[0]; i++)
        if (strlen(TYPES[i].word) == length && memcmp(TYPES[i].word, word, length) == 0)
            return TYPES[i].format;
    return "";
}

vx_status arrow_type(const Call *call, const Path *at, const struct ArrowSchema *schema, Type *type)
{
    if (!schema || !schema->release || !schema->format)
        return arrow_stop(call, VX_SCHEMA, at, "expected a schema that isn't released", "");
    if (at->depth > DEEPEST)
        return arrow_stop(call, VX_SCHEMA, at, "expected fewer types within one another", "");
    if (schema->dictionary)
        return arrow_stop(call, VX_SCHEMA, at, "expected values without a dictionary", "");
    if (!is_read(schema->format, type))
        return arrow_stop(call, VX_SCHEMA, at,
                          "expected a format of bcCsSiIlLfguz, d:P,S, tdD, tsU:Z, +l, +s or +w:N, and not ",
                          schema->format);
    int64_t wanted = ARROW_CHILDREN[type->layout], found = schema->n_children;
    if (type->layout == STRUCT ? found < wanted : found != wanted)
        return arrow_is_not(call, VX_SCHEMA, at, "expected n_children", wanted, found);
    if (found > 0 && !schema->children)
        return arrow_stop(call, VX_SCHEMA, at, "expected children, and not a null pointer", "");
    return VX_ANSWERED;
}

Path arrow_child(const Path *at, const struct ArrowSchema *child)
{
    return (Path){at, child && child->release ? child->name : NULL, at->depth + 1};
}

/* Writes the type, and counts the buffers of a column of it. */
static vx_status put_type(Call *call, const Path *at, const struct ArrowSchema *schema, Text *text)
{
    Type type;
    vx_status status = arrow_type(call, at, schema, &type);
    if (status != VX_ANSWERED)
        return status;
    call->count += (size_t)ARROW_BUFFERS[type.layout];
    put(text, type.word);
    put_parts(text, schema->format);
    put(text, type.layout == STRUCT ? "{" : type.layout >= LIST ? "(" : "");
    for (int64_t i = 0; i < schema->n_children; i++) {
        Path child = arrow_child(at, schema->children[i]);
        if (type.layout == STRUCT) {
            put(text, i > 0 ? ", " : "");
            put_name(text, child.name);
            put(text, "=");
        }
        status = put_type(call, &child, schema->children[i], text);
        if (status != VX_ANSWERED)
            return status;
    }
    put(text, type.layout == STRUCT ? "}" : type.layout >= LIST ? ")" : "");
    if (type.layout == FIXED_SIZE_LIST) {
        char length[24];
        snprintf(length, sizeof length, "[%" PRId64 "]", type.size);
        put(text, length);
    }
    put(text, schema->flags & ARROW_FLAG_NULLABLE ? "?" : "");
    return VX_ANSWERED;
}

vx_status vx_schema_of_arrow(const struct ArrowSchema *type, char *buffer, size_t buffer_length,
                             vx_answer *answer)
{
    Call call = {buffer, buffer_length, answer, NULL, 0, NULL};
    Text counted = {NULL, 0, 0}, text = {buffer, buffer_length, 0};
    vx_status status = put_type(&call, &ARROW_ROW, type, &counted);
    if (status != VX_ANSWERED)
        return status;
    *answer = (vx_answer){counted.length, {0}};
    return counted.length > buffer_length ? VX_TOO_SMALL : put_type(&call, &ARROW_ROW, type, &text);
}

/* How many bytes at the place say nothing of how a type is laid out: blanks, and the mark of what is nullable. */
static size_t marks(const char *text, size_t at, size_t length)
{
    size_t from = at;
    while (at < length && strchr(" \t\r\n?", text[at]) && text[at])
        at++;
    return at - from;
}

/* Whether the texts of two types are of one layout. */
static bool is_alike(const char *one, size_t one_length, const char *other, size_t other_length)
{
    size_t i = 0, j = 0;
    /* (within a name or a zone each byte counts) */
    for (char quote = 0;; i++, j++) {
        i += quote ? 0 : marks(one, i, one_length);
        j += quote ? 0 : marks(other, j, other_length);
        if (i == one_length || j == other_length)
            return i == one_length && j == other_length;
        if (one[i] != other[j])
            return false;
        if (quote ? one[i] == quote : one[i] == '`' || one[i] == '"')
            quote = quote ? 0 : one[i];
    }
}

vx_status arrow_layout(Call *call, const struct ArrowSchema *type, const char *schema, size_t schema_length)
{
    Text counted = {NULL, 0, 0};
    vx_status status = put_type(call, &ARROW_ROW, type, &counted);
    if (status != VX_ANSWERED)
        return status;
    Text text = {malloc(counted.length + 1), counted.length, 0};
    if (!text.bytes)
        return arrow_out_of_memory(call);
    call->count = 0;
    put_type(call, &ARROW_ROW, type, &text);
    text.bytes[counted.length] = 0;
    if (!is_alike(text.bytes, text.length, schema, schema_length))
        status = arrow_stop(call, VX_RECORDS, &ARROW_ROW, "expected a batch of the plan's type, and not of ",
                            text.bytes);
    free(text.bytes);
    return status;
}
