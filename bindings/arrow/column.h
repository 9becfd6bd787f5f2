/* What schema.c and arrow.c share: a column of Arrow's C data interface, on its way to the calls of vx.h. */
#ifndef ARROW_COLUMN_H
#define ARROW_COLUMN_H

#include "vx_arrow.h"

#include <stdatomic.h>

typedef enum { BITS, NUMBERS, BYTES, LIST, FIXED_SIZE_LIST, STRUCT } Layout;

/* How many buffers and children an array of each layout has; a struct may have more children. */
extern const int64_t ARROW_BUFFERS[], ARROW_CHILDREN[];

/* A type without what is inside it. */
typedef struct {
    const char *format;
    const char *word;
    Layout layout;
    /* The bytes of a number, or the items of a list of a fixed size. */
    int64_t size;
} Type;

/* A field within what is above it, or the column itself. */
typedef struct Path {
    const struct Path *above;
    const char *name;
    int depth;
} Path;

extern const Path ARROW_ROW;

/* Bits that were copied, in a chain. */
typedef struct Copy {
    struct Copy *next;
    unsigned char bits[];
} Copy;

/* A call: where it answers, and what it lends. */
typedef struct {
    char *buffer;
    size_t room;
    vx_answer *answer;
    vx_buffer *lent;
    size_t count;
    Copy *copies;
} Call;

/* A call of vx.h on a plan and a batch. */
typedef vx_status Scan(vx_plan *plan, size_t rows, const vx_buffer *buffers, size_t buffers_length, char *buffer,
                       size_t buffer_length, vx_answer *answer);

/* What all structs of a tree share that the library hands out: each may be released by itself, on any thread. */
typedef struct {
    /* How many of them aren't released. */
    atomic_size_t left;
    /* What they point into, or a null pointer. */
    char *page;
} Owner;

/* One of so many structs, with so much room of zeros behind it; a null pointer where memory runs out. */
Owner *arrow_owner(size_t structs, size_t room);

/* One of the structs is released: with the last of them all is freed. */
void arrow_disowned(Owner *owner);

/* Ends the call with the message "error: batch: $.a.b: ", what and more, where the buffer has room for it. */
vx_status arrow_stop(const Call *call, enum vx_text of, const Path *at, const char *what, const char *more);

/* The same of two numbers. */
vx_status arrow_is_not(const Call *call, enum vx_text of, const Path *at, const char *what, int64_t wanted,
                       int64_t found);

vx_status arrow_out_of_memory(const Call *call);

/* The type of a schema, whatever is inside it. */
vx_status arrow_type(const Call *call, const Path *at, const struct ArrowSchema *schema, Type *type);

/* The path of a child, whose name isn't read where there is none. */
Path arrow_child(const Path *at, const struct ArrowSchema *child);

/* Whether all of the type is taken and its layout is that of the schema's text. Counts the buffers. */
vx_status arrow_layout(Call *call, const struct ArrowSchema *type, const char *schema, size_t schema_length);

/* Lends the array, which is of the layout of the schema that arrow_layout took, to a call of vx.h. Let go of it
   at any status. */
vx_status arrow_lend(Call *call, const struct ArrowSchema *type, const struct ArrowArray *array);

void arrow_let_go(Call *call);

/* The format that stands for a word of source text. */
const char *arrow_format(const char *word, size_t length);

/* The type that a text of the library's says. */
vx_status arrow_schema_of(const Call *call, const char *text, size_t length, struct ArrowSchema *schema);

#endif
