/* Columns of Arrow's C data interface, made and read as Arrow's specification says, by none of our calls. */
#ifndef COLUMNS_H
#define COLUMNS_H

#include "test.h"
#include "vx_arrow.h"

#include <stdbool.h>

/* A column whose structs and buffers are its own. Each buffer ends with its last byte that may be read. */
typedef struct {
    struct ArrowSchema schema;
    struct ArrowArray array;
} Column;

/* A number below n, by a linear congruence. */
size_t by_chance(size_t n);

void start_chance(uint64_t seed);

/* A column of a type by chance: of so many levels at most, so many rows at least, and offsets up to 9 in each
   array. */
Column random_column(size_t levels, size_t rows);

/* A column of the format and rows by chance, behind an offset, with a validity buffer where it is nullable. */
Column column_of(const char *format, bool is_nullable, size_t offset, size_t rows);

/* A struct of the columns, which are its own then: of fields a, b, c and so on. */
Column struct_of(Column *columns, size_t count, bool is_nullable, size_t offset, size_t rows);

/* Puts a floating-point number of 4 or 8 bytes there by chance: a known one, or some eighths. */
void put_float(char *at, size_t size);

enum { FLOAT_ROOM = 32 };

/* The text of such a number in a record: of eighths it is written into the room. */
const char *text_of_float(const char *at, size_t size, char room[FLOAT_ROOM]);

/* Calls both releases. */
void release_column(Column *column);

/* How many structs there are that aren't released. */
extern size_t live_structs;

/* What is at each row, as a line of JSON each, in memory that is freed by whoever asked. */
char *lines_of(const struct ArrowSchema *schema, const struct ArrowArray *array);

/* Whether that row is null. */
bool is_null_at(const struct ArrowArray *array, int64_t row);

/* --- the calls of vx_arrow.h, with as much room as they need --- */

/* A plan of the expression over the column's own type, whose text is freed by whoever asked. */
vx_plan plan_over(const char *expression, const Column *column, Text *schema);

Answered scanned_column(vx_plan *plan, Text schema, const Column *column);
Answered selected_column(vx_plan *plan, Text schema, const Column *column);

/* The calls that answer columns, which are released by whoever asked where they answered. */
typedef vx_status ColumnCall(vx_plan *plan, const char *schema, size_t schema_length, const struct ArrowSchema *type,
                             const struct ArrowArray *array, struct ArrowArray *values,
                             struct ArrowSchema *values_type, char *buffer, size_t room, vx_answer *answer);

Answered column_out(ColumnCall *call, vx_plan *plan, Text schema, const Column *column, Column *values);

#endif
