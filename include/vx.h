/*
 * vx.h: the expression layer for programs in C, and for what calls C.
 *
 * A call takes texts and answers one. A text is UTF-8: a pointer, and how many bytes there are. The pointer
 * may be null where there are none, and no 0 has to stand behind them. The answer goes into a buffer of the
 * caller's, with no 0 behind it, and a vx_answer says how many bytes it has.
 *
 *     char page[256];
 *     vx_answer answer;
 *     vx_status status = vx_fmt("x between 1 and 3", 17, page, sizeof page, &answer);
 *     if (status == VX_ANSWERED)
 *         fwrite(page, 1, answer.needed, stdout);        (1i32 <= $.x <= 3i32)
 *
 * Where the buffer is too small it stays as it was, and the call answers when it is made again with a buffer
 * of answer.needed bytes. It does all its work again then.
 *
 * A literal that is written without a type takes that of what it stands beside, as 5 in "x > 5" over {x=i64}.
 *
 * Memory. A call keeps nothing of what it is given. It takes memory by malloc and frees it before it returns;
 * a vx_plan alone is kept, until vx_plan_free. What a call reads may not overlap with what it writes, which
 * are the buffer, the vx_answer and the vx_plan. These two are never null; the buffer may be null where its
 * length is 0.
 *
 * Threads. Any calls may run at once on several threads, but on one vx_plan one at a time: a vx_plan that is freed
 * while another thread scans by it is the caller's fault, which no call can tell. It may go from thread to thread
 * where their calls can't overlap, as by a lock, or by a start or join of a thread. To use a plan on several threads
 * at once, give each a handle of its own, which vx_plan_share makes. No call may be made in a signal handler, nor in
 * the forked child of a process with several threads.
 *
 * docs/embed/FFI.md is the guide, and crates/vx_ffi has the contract of each call.
 */
#ifndef VX_H
#define VX_H

#include <stddef.h>
#include <stdint.h>

#ifdef __cplusplus
extern "C" {
#endif

/* The version of this header. vx_version answers that of the library. */
#define VX_VERSION "0.1.0"

/* How a call ended: a number of enum vx_end. */
typedef uint32_t vx_status;

enum vx_end {
    /* The buffer begins with the page. What is behind the page is as it was. */
    VX_ANSWERED = 0,
    /* The page or the message is longer than the buffer, which is as it was. */
    VX_TOO_SMALL = 1,
    /* Memory ran out. The buffer is as it was, and needed is 0. */
    VX_OUT_OF_MEMORY = 2,
    /* A text isn't UTF-8, or reading it stopped at the place. The buffer begins with the message, as it does
       for each number below. */
    VX_UNREAD = 3,
    /* The expression has no type over the schema's, or not the type that the call asks for; or a literal that is
       written without a type doesn't fit that of what it stands beside. */
    VX_REFUSED = 4,
    /* The expression faults at a record, or at a row. */
    VX_FAULTED = 5,
    /* A record isn't JSON of the schema's type, a line is no statistics, a buffer isn't laid out as the type asks,
       or texts, bytes or items of an answered column take more than its offsets of 32 bits say. */
    VX_BAD_DATA = 6,
    /* The vx_plan holds no plan. */
    VX_NO_PLAN = 7
};

/* Which text a place is in. */
enum vx_text {
    VX_NOWHERE = 0,
    VX_EXPRESSION = 1,
    VX_SCHEMA = 2,
    /* The records, the statistics, or the rows of a batch. */
    VX_RECORDS = 3
};

/* A place in a text. A number is 0 where it isn't known, and all are 0 where the call answers. */
typedef struct vx_place {
    /* Which text: a number of enum vx_text. */
    size_t text;
    /* The first byte, from 0 on, and the one behind the last. */
    size_t start;
    size_t end;
    /* The line, and the character within it, from 1 on. */
    size_t line;
    size_t column;
    /* The line at which the record begins, or the row of the batch, from 1 on. */
    uint64_t record;
} vx_place;

/* What a call answers beside its status and the buffer. */
typedef struct vx_answer {
    /* How many bytes the page or the message has. */
    size_t needed;
    /* What the message is about. */
    vx_place place;
} vx_answer;

/* A handle of a plan that is kept between calls. It is made as vx_plan plan = VX_PLAN_INIT, which holds none.
   Only the calls below change what is in it, and a copy of it may not be used beside it. */
typedef struct vx_plan {
    void *at;
} vx_plan;

#define VX_PLAN_INIT {NULL}

/* A buffer of a batch: lent bytes, which need not be aligned. */
typedef struct vx_buffer {
    /* May be null where there are none. */
    const void *bytes;
    size_t length;
} vx_buffer;

/* The type of the expression over rows of the schema's type, on a line. */
vx_status vx_check(const char *expression, size_t expression_length, const char *schema,
                   size_t schema_length, char *buffer, size_t buffer_length, vx_answer *answer);

/* What becomes of the expression over rows of the schema's type, as lines for a person to read. */
vx_status vx_explain(const char *expression, size_t expression_length, const char *schema,
                     size_t schema_length, char *buffer, size_t buffer_length, vx_answer *answer);

/* The plan of a scan by the expression over rows of the schema's type: on a line an object with its
   "scope", "tree", "type", "paths", "root" and "partitions". */
vx_status vx_plan_json(const char *expression, size_t expression_length, const char *schema,
                       size_t schema_length, char *buffer, size_t buffer_length,
                       vx_answer *answer);

/* The source text of the expression, on a line. */
vx_status vx_fmt(const char *expression, size_t expression_length, char *buffer,
                 size_t buffer_length, vx_answer *answer);

/* For each chunk an object on a line, with its "rows" and the "verdict" on the expression, which has to be
   of truth values: "no row" where it is true in none, "every row", or "to be read". The statistics are a
   line of JSON for each chunk, as {"rows": 3, "fields": {"a.x": {"nulls": 1, "least": 1, "greatest": 5}}}.
   What they don't say isn't known. A line with more nulls than rows, or with a greatest value below the least
   one, is VX_BAD_DATA. */
vx_status vx_prune(const char *expression, size_t expression_length, const char *schema,
                   size_t schema_length, const char *statistics, size_t statistics_length,
                   char *buffer, size_t buffer_length, vx_answer *answer);

/* What the expression means at each record, as a line of JSON each. The records are lines of JSON of the
   schema's type. */
vx_status vx_eval_json(const char *expression, size_t expression_length, const char *schema,
                       size_t schema_length, const char *records, size_t records_length,
                       char *buffer, size_t buffer_length, vx_answer *answer);

/* The version of the library, on a line. */
vx_status vx_version(char *buffer, size_t buffer_length, vx_answer *answer);

/* Makes a plan of scans by the expression over batches of the schema's type, and answers the empty text. The
   plan that *plan held is freed first. At any status but VX_ANSWERED *plan holds none. */
vx_status vx_plan_new(const char *expression, size_t expression_length, const char *schema,
                      size_t schema_length, vx_plan *plan, char *buffer, size_t buffer_length,
                      vx_answer *answer);

/* Makes *other a handle of the plan that *plan holds: the plan isn't copied, and is freed with the last of its
   handles. What *other held is freed first. Ends with VX_ANSWERED, VX_OUT_OF_MEMORY or VX_NO_PLAN; at the last
   two *other holds none. The two may not be one vx_plan. */
vx_status vx_plan_share(vx_plan *plan, vx_plan *other);

/* The type of the plan's batches as source text, on a line. */
vx_status vx_plan_scope(vx_plan *plan, char *buffer, size_t buffer_length, vx_answer *answer);

/* The type of the plan's expression as source text, on a line. */
vx_status vx_plan_type(vx_plan *plan, char *buffer, size_t buffer_length, vx_answer *answer);

/* The paths of the fields that the plan reads: on a line an array of them, each an array of its names, as
   [["x"],["a","b"]]. The path without a name is the whole row. */
vx_status vx_plan_paths(vx_plan *plan, char *buffer, size_t buffer_length, vx_answer *answer);

/* What the expression means at each row of a batch, as a line of JSON each.

   The buffers are those of the batch, a column of the schema's type, laid out as the Arrow columnar format
   has them and in the order of pyarrow.Array.buffers(): depth first, and of each type

       bool                    validity, values
       i8 to i64, u8 to u64    validity, values
       f32, f64                validity, values of 32 and 64 bits
       decimal(p, s)           validity, units in 128 bits
       date                    validity, days since 1970 in 32 bits
       timestamp(unit)         validity, units since 1970 in 64 bits
       utf8, binary            validity, offsets, bytes
       list                    validity, offsets, then the buffers of the items
       fixed_size_list         validity, then the buffers of the items
       struct                  validity, then the buffers of each field

   Validity has a bit for each row, the least significant of a byte first, which is 1 where the row isn't
   null; where its length is 0 no row is null. Truth values are such bits, too. Numbers are in little-endian
   order, and each NaN is read as the quiet one. Offsets are signed numbers of 32 bits, one more than there are
   rows. A buffer may be longer than it has to be, and what a null hides isn't looked at. */
vx_status vx_plan_scan(vx_plan *plan, size_t rows, const vx_buffer *buffers, size_t buffers_length,
                       char *buffer, size_t buffer_length, vx_answer *answer);

/* At which rows of a batch the expression is true, as a byte for each: 1 where it is, and 0 where it is false
   or null. The batch is as vx_plan_scan takes it; an expression of another type than bool is refused. */
vx_status vx_plan_select(vx_plan *plan, size_t rows, const vx_buffer *buffers, size_t buffers_length,
                         char *buffer, size_t buffer_length, vx_answer *answer);

/* What the expression means at each row of a batch, as a column in buffers: 8 bytes with the number of rows,
   and of each buffer, in the order above, 8 bytes with its length, its bytes, and zeros up to a multiple of 8
   bytes. vx_arrow.h has the same as a column of Arrow's. */
vx_status vx_plan_scan_column(vx_plan *plan, size_t rows, const vx_buffer *buffers, size_t buffers_length,
                              char *buffer, size_t buffer_length, vx_answer *answer);

/* The rows of a batch at which the expression is true, as such a column of the batch's type. Ends as
   vx_plan_select does. */
vx_status vx_plan_filter_column(vx_plan *plan, size_t rows, const vx_buffer *buffers, size_t buffers_length,
                                char *buffer, size_t buffer_length, vx_answer *answer);

/* Lets go of the plan, if there is one, which is freed with its last handle. Then *plan holds none. */
void vx_plan_free(vx_plan *plan);

#ifdef __cplusplus
}
#endif

#endif
