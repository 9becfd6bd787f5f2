/*
 * vx_arrow.h: columns of any Arrow library, by Arrow's C data interface, into the calls of vx.h and out of them.
 *
 * A library exports a column as an ArrowSchema, its type, and an ArrowArray, its buffers:
 *
 *     char type[256];
 *     vx_answer answer;
 *     if (vx_schema_of_arrow(&schema, type, sizeof type, &answer) != VX_ANSWERED) ..
 *     size_t length = answer.needed;
 *     if (vx_plan_new("x > 5", 5, type, length, &plan, page, sizeof page, &answer) != VX_ANSWERED) ..
 *     vx_status status = vx_plan_select_arrow(&plan, type, length, &schema, &array, page, sizeof page, &answer);
 *
 * Who owns what. The calls read both structs, and change nothing in them. They call no release, neither for
 * an answer nor for an error: who holds the structs has to release them afterwards, as before. Nothing of
 * them is kept, and memory that a call takes is freed before it returns, but for that of a column that it answers.
 *
 * What is copied. Numbers, offsets and bytes are lent where they lie, at any address; so are bits that begin
 * with a byte. Bits that begin within one, as those of a slice may, are copied: a bit for each row.
 *
 * What is taken. A record batch is a struct without nulls. An array's offset is added to those of the structs
 * and lists of a fixed size that it is in. Validity decides which rows are null: where it is a null pointer
 * none is. Metadata isn't read. Types by their formats, each nullable or not:
 *
 *     b  c C s S i I l L    bool, i8, u8, i16, u16, i32, u32, i64, u64
 *     f g                   f32, f64
 *     d:P,S                 decimal(P, S), of 128 bits; also d:P,S,128
 *     tdD                   date
 *     tss: tsm: tsu: tsn:   timestamp(s), timestamp(ms), timestamp(us), timestamp(ns), a zone behind the colon
 *     u z                   utf8, binary
 *     +l +w:N +s            list, fixed_size_list, struct
 *
 * Any other format and any dictionary is refused with VX_BAD_DATA, and so is an array that isn't as its
 * schema says, or is released. The message has the path. An ArrowArray doesn't say how long its buffers are.
 * They have to be as long as its numbers and its last offset say, which no call can tell.
 *
 * Buffer, answer, threads and the ends of calls are as vx.h says. Several threads may read the same structs.
 */
#ifndef VX_ARROW_H
#define VX_ARROW_H

#include "vx.h"

#ifdef __cplusplus
extern "C" {
#endif

/* The two structs, as Arrow's specification has them. */
#ifndef ARROW_C_DATA_INTERFACE
#define ARROW_C_DATA_INTERFACE

#define ARROW_FLAG_DICTIONARY_ORDERED 1
#define ARROW_FLAG_NULLABLE 2
#define ARROW_FLAG_MAP_KEYS_SORTED 4

struct ArrowSchema {
    const char *format;
    const char *name;
    const char *metadata;
    int64_t flags;
    int64_t n_children;
    struct ArrowSchema **children;
    struct ArrowSchema *dictionary;
    void (*release)(struct ArrowSchema *);
    void *private_data;
};

struct ArrowArray {
    int64_t length;
    int64_t null_count;
    int64_t offset;
    int64_t n_buffers;
    int64_t n_children;
    const void **buffers;
    struct ArrowArray **children;
    struct ArrowArray *dictionary;
    void (*release)(struct ArrowArray *);
    void *private_data;
};

#endif

/* The type as source text, to be the schema of other calls: {x=i32?, s=utf8} of a record batch. */
vx_status vx_schema_of_arrow(const struct ArrowSchema *type, char *buffer, size_t buffer_length,
                             vx_answer *answer);

/* At which rows of the array the expression is true, as vx_plan_select answers it.

   The schema is the text that the plan was made of, written as vx_schema_of_arrow writes types. Blanks and
   question marks may differ: a null that the plan's type doesn't allow is refused where it stands. An array of
   another type is refused with VX_BAD_DATA. */
vx_status vx_plan_select_arrow(vx_plan *plan, const char *schema, size_t schema_length,
                               const struct ArrowSchema *type, const struct ArrowArray *array,
                               char *buffer, size_t buffer_length, vx_answer *answer);

/* What the expression means at each row of the array, as lines of JSON, as vx_plan_scan answers it. What is
   given is as vx_plan_select_arrow takes it. */
vx_status vx_plan_scan_arrow_json(vx_plan *plan, const char *schema, size_t schema_length,
                                  const struct ArrowSchema *type, const struct ArrowArray *array,
                                  char *buffer, size_t buffer_length, vx_answer *answer);

/* What the expression means at each row of the array, as a column: *values is its array, and *values_type its
   type, which may be a null pointer. What is given is as vx_plan_select_arrow takes it.

   Where the call answers, the structs are the caller's, who has to call release of each. Until then they keep
   what they point to, also where a child was moved out. They don't need the array that was given, nor the plan.
   Where it doesn't, both have release NULL: as it does where a name of the answer's type has a byte 0, at which
   Arrow's names end. The buffer is for a message alone. */
vx_status vx_plan_scan_arrow(vx_plan *plan, const char *schema, size_t schema_length,
                             const struct ArrowSchema *type, const struct ArrowArray *array,
                             struct ArrowArray *values, struct ArrowSchema *values_type,
                             char *buffer, size_t buffer_length, vx_answer *answer);

/* The rows of the array at which the expression is true, as a column of the plan's type in the same way. */
vx_status vx_plan_filter_arrow(vx_plan *plan, const char *schema, size_t schema_length,
                               const struct ArrowSchema *type, const struct ArrowArray *array,
                               struct ArrowArray *rows, struct ArrowSchema *rows_type,
                               char *buffer, size_t buffer_length, vx_answer *answer);

#ifdef __cplusplus
}
#endif

#endif
