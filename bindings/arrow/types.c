/*
 * Types that the library answers as source text, as an ArrowSchema. Such a text is as vx_schema_of_arrow writes
 * it, so that nothing in it is wrong.
 */
#include "column.h"

#include <stdbool.h>
#include <stdlib.h>
#include <string.h>

/* --- what the structs of a tree share --- */

Owner *arrow_owner(size_t structs, size_t room)
{
    Owner *owner = malloc(sizeof *owner + room);
    if (!owner)
        return NULL;
    atomic_init(&owner->left, structs);
    owner->page = NULL;
    memset(owner + 1, 0, room);
    return owner;
}

void arrow_disowned(Owner *owner)
{
    if (atomic_fetch_sub(&owner->left, 1) > 1)
        return;
    free(owner->page);
    free(owner);
}

static void release_schema(struct ArrowSchema *schema)
{
    for (int64_t i = 0; i < schema->n_children; i++)
        if (schema->children[i]->release)
            schema->children[i]->release(schema->children[i]);
    schema->release = NULL;
    arrow_disowned(schema->private_data);
}

/* --- source text --- */

/* A text that is read, and where the next struct, pointer to one, and text go. */
typedef struct {
    const char *at;
    const char *end;
    Owner *owner;
    struct ArrowSchema *next;
    struct ArrowSchema **pointers;
    char *texts;
} Reader;

static bool takes(Reader *r, char sign)
{
    bool is_there = r->at < r->end && *r->at == sign;
    r->at += is_there;
    return is_there;
}

/* A name, and the sign behind it. In quotes two of them stand for one. */
static const char *read_name(Reader *r)
{
    const char *name = r->texts;
    bool is_quoted = takes(r, '`');
    while (is_quoted ? !takes(r, '`') || *r->at == '`' : *r->at != '=')
        *r->texts++ = *r->at++;
    r->at++;
    *r->texts++ = 0;
    return name;
}

static void read_type(Reader *r, struct ArrowSchema *schema);

/* The type of a child, which is linked to the one before it for as long as they aren't counted. */
static struct ArrowSchema *read_child(Reader *r, const char *name, struct ArrowSchema *before)
{
    struct ArrowSchema *child = r->next++;
    child->name = name;
    read_type(r, child);
    child->private_data = before;
    return child;
}

/* Puts the children into the struct, the last of which this is. */
static void put_children(Reader *r, struct ArrowSchema *schema, struct ArrowSchema *last, int64_t count)
{
    schema->children = r->pointers;
    schema->n_children = count;
    r->pointers += count;
    while (count-- > 0) {
        struct ArrowSchema *before = last->private_data;
        last->private_data = r->owner;
        schema->children[count] = last;
        last = before;
    }
}

static void read_struct(Reader *r, struct ArrowSchema *schema)
{
    struct ArrowSchema *last = NULL;
    int64_t count = 0;
    schema->format = "+s";
    for (; !takes(r, '}'); count++) {
        if (takes(r, ','))
            takes(r, ' ');
        const char *name = read_name(r);
        last = read_child(r, name, last);
    }
    put_children(r, schema, last, count);
}

/* What stands in brackets, and the length behind it of a list of a fixed size. */
static void read_list(Reader *r, struct ArrowSchema *schema)
{
    put_children(r, schema, read_child(r, "item", NULL), 1);
    takes(r, ')');
    schema->format = "+l";
    if (!takes(r, '['))
        return;
    schema->format = r->texts;
    memcpy(r->texts, "+w:", 3);
    for (r->texts += 3; !takes(r, ']');)
        *r->texts++ = *r->at++;
    *r->texts++ = 0;
}

/* Puts the bytes into the format that is written. */
static void put_format(Reader *r, const char *bytes, size_t length)
{
    memcpy(r->texts, bytes, length);
    r->texts += length;
}

/* The precision and the scale, up to the bracket. */
static void read_decimal(Reader *r, struct ArrowSchema *schema)
{
    schema->format = r->texts;
    put_format(r, "d:", 2);
    for (; !takes(r, ')'); r->at++)
        if (*r->at != ' ')
            put_format(r, r->at, 1);
    *r->texts++ = 0;
}

/* The unit and the zone, up to the bracket: of ms the first letter stands in the format, and so of the others. */
static void read_timestamp(Reader *r, struct ArrowSchema *schema)
{
    schema->format = r->texts;
    put_format(r, "ts", 2);
    put_format(r, r->at++, 1);
    takes(r, 's');
    put_format(r, ":", 1);
    if (takes(r, ',')) {
        takes(r, ' ');
        takes(r, '"');
        while (!takes(r, '"') || *r->at == '"')
            put_format(r, r->at++, 1);
    }
    takes(r, ')');
    *r->texts++ = 0;
}

static bool is_word(const char *word, size_t length, const char *other)
{
    return strlen(other) == length && memcmp(word, other, length) == 0;
}

static void read_type(Reader *r, struct ArrowSchema *schema)
{
    const char *word = r->at;
    while (r->at < r->end && !strchr("{(?,)}", *r->at))
        r->at++;
    size_t length = (size_t)(r->at - word);
    if (takes(r, '{'))
        read_struct(r, schema);
    else if (!takes(r, '('))
        schema->format = arrow_format(word, length);
    else if (is_word(word, length, "decimal"))
        read_decimal(r, schema);
    else if (is_word(word, length, "timestamp"))
        read_timestamp(r, schema);
    else
        read_list(r, schema);
    schema->flags = takes(r, '?') ? ARROW_FLAG_NULLABLE : 0;
    schema->release = release_schema;
    schema->private_data = r->owner;
}

vx_status arrow_schema_of(const Call *call, const char *text, size_t length, struct ArrowSchema *schema)
{
    if (memchr(text, 0, length)) /* (names end there in a schema) */
        return arrow_stop(call, VX_SCHEMA, &ARROW_ROW, "expected names without the byte 0", "");
    /* (each child has one of these signs before it; a name has no more bytes than in the text with the sign) */
    size_t structs = 1;
    for (size_t i = 0; i < length; i++)
        structs += text[i] == '=' || text[i] == '(';
    size_t each = sizeof(struct ArrowSchema) + sizeof(struct ArrowSchema *);
    Owner *owner = arrow_owner(1, structs * each + length);
    if (!owner)
        return arrow_out_of_memory(call);
    struct ArrowSchema *nodes = (struct ArrowSchema *)(owner + 1);
    struct ArrowSchema **pointers = (struct ArrowSchema **)(nodes + structs);
    Reader r = {text, text + length, owner, nodes, pointers, (char *)(pointers + structs)};
    *schema = (struct ArrowSchema){.name = ""};
    read_type(&r, schema);
    atomic_init(&owner->left, (size_t)(r.next - nodes) + 1);
    return VX_ANSWERED;
}
