/* Argo: a proved codec for job feeds. It checks a wire-type table, reads a message into rows, writes rows as a message,
 * and looks at one row. For C11, and for C++.
 *
 *     tools/library
 *     gcc -std=c11 -Iinclude program.c build/libargo.a
 *
 * The library is for x86-64 Linux. It is position-independent, so it links into programs and shared libraries alike.
 * Of the C library it wants memset alone.
 *
 * BUFFERS
 *   A buffer is a pointer and a count: of elements, never of bytes, so rows_len and work_len count words. It is the
 *   caller's before, during and after the call: the library allocates nothing, frees nothing and keeps no pointer.
 * - The pointer is aligned for its type: 4 bytes for work, 8 for rows, none for bytes.
 * - Where the count is 0 the pointer is not used; it may be NULL. Else it points to so many elements.
 * - Buffers that are not const are written to, each element of them, and what they hold before does not matter: they
 *   need not be initialised. More than enough may be lent, and costs the time to zero it.
 * - A buffer that is written to must not overlap another buffer of the same call. Those that are only read may.
 *
 *   Enough for every call: ARGO_WORK words of work, 64 KiB; ARGO_ROW_WORDS * ARGO_ROWS words of rows to read into, 256
 *   KiB; 65,536 bytes of out to write to. Less of rows or out is no fault, as long as the answer fits.
 *
 * TABLES
 *   A table has 7 + 4n bytes: the letters AWT, the version (1) and n (1 to 1,024) in 16 bits each, then n nodes:
 *   kind, flags, and a 16-bit argument; numbers are little-endian. Kinds: 1 STRING, 2 BOOLEAN, 3 VARINT, 4 FLOAT64, 5
 *   BYTES, 6 FIXED (its length, at most 4,096), 7 RECORD (its number of fields), 8 ARRAY, 9 BLOCK (its key, 0 to 31),
 *   10 NULLABLE; other arguments are 0. Flag 1 is omittable, on a field's top node only; flag 2 is deduplicate, on a
 *   BLOCK of STRING or BYTES only. Nodes stand parents first. A BLOCK holds one of 1, 3, 4, 5 and 6, which stand
 *   nowhere else. A NULLABLE holds no NULLABLE. A path has at most 32 nodes. All BLOCKs of a key agree in kind,
 *   length and deduplicate.
 *   A row stands for each RECORD, ARRAY, BOOLEAN and BLOCK that the tree has; where a NULLABLE is null or an omittable
 *   field is absent, a row of that kind stands for all below.
 *
 * NODES
 *   Nodes are numbered from 0, the root. The last word of a row is the node that it stands under, the topmost where a
 *   NULLABLE or BLOCK holds the value: so it is 0 for the root, a field's top node for a field, be it null, absent or
 *   there, and the array's child for each of its entries. It tells a table's columns apart: two rows are of one column
 *   just if their nodes are equal, and from a row to its column no other row is looked at (examples/column.c).
 *   Reading fills it in. Writing requires it, though it follows from the table and from the rows before: rows under
 *   another node are refused. Looking at a row does not know the table, and wants the node below ARGO_NODES only.
 *
 * TEXT
 *   A STRING is UTF-8 by RFC 3629: 00 to 7F alone; C2 to DF and one byte 80 to BF; E0 to EF and two; F0 to F4 and
 *   three; where the byte after E0 is A0 to BF, after ED 80 to 9F, after F0 90 to BF, after F4 80 to 8F. So it has the
 *   code points 0 to 10FFFF without D800 to DFFF, each in its shortest form. It may have zero bytes. Reading and writing
 *   judge it; argo_look and argo_part do not, so a row that was not read may be no text.
 *   In a message of ARGO_NULL_TERMINATED one 00 follows each STRING that is written out, in no row's length. So right
 *   behind the part of each STRING that argo_read has shown, also of one that is named by a number, stands a 00, inside
 *   of the message: it may be used in place as a C string (examples/strings.c). Then mind two things. A text with a
 *   zero byte of its own ends early for C: only where strlen is the part's length is it the whole text. And only a
 *   STRING has the 00, only in this mode and only in the message that was read: there is none behind BYTES and FIXED,
 *   and none in a pool that rows are written from, where the 00 is put by argo_write and never asked for.
 *
 * ANSWERS
 *   Every call returns, whatever the buffers hold, and the same arguments always have the same answer. An answer is a
 *   number and a second number. The number is 0 on success, and the second number is then a count: of nodes, rows or
 *   bytes. Else the call is refused: the number says why (the list below) and the second number which node of the table
 *   or which row, counted from 0; it is 0 where the list names neither.
 *   After a success an output holds the answer and zeros after it; after a refusal it holds zeros alone. The work holds
 *   zeros after every call.
 *
 *   Of several faults the first in this order is answered: 1; 10 to 15, each over all nodes before the next; then
 *   when reading, 20, 21, 22, the first fault in the tree's order, 30;
 *   when writing, 40, 41, the first row at fault, 32, 43;
 *   when looking at a row, 50, 51.
 *   At one value, when reading: 23, 24 to 26, 29, 27, 35, 28, 32, 31, but an integer's own 23 comes after 29; when
 *   writing: 42, 28. docs/REFUSALS.md says whose fault each one is, and what to do.
 *
 * THREADS, SIGNALS, STACK
 *   The library has no state, not even errno: calls may be made from several threads at once and from signal handlers,
 *   as long as no two of them that run at a time share a buffer that one writes to. It prints nothing and never blocks.
 *   A call needs at most 64 KiB of stack, however deep the table is; docs/PERFORMANCE.md has what was measured.
 */
#ifndef ARGO_H
#define ARGO_H

#include <stddef.h>
#include <stdint.h>

#ifdef __cplusplus
extern "C" {
#endif

/* The version of this header and of the library that belongs to it. While the first number is 0, another second one may
 * change the layout of rows or of a struct below: in 0.1 a row had three words and argo_seen no node. */
#define ARGO_VERSION "0.2.1"
#define ARGO_VERSION_MAJOR 0
#define ARGO_VERSION_MINOR 2
#define ARGO_VERSION_PATCH 1

/* Words of 32 bits that a call wants as work, at least; rows that a message and nodes that a table has at most. */
#define ARGO_WORK 16384
#define ARGO_ROWS 8192
#define ARGO_NODES 1024

/* A row is four words of 64 bits: its kind, a, b and its node (see NODES). Of a and b, what its kind does not use is 0.
 * Rows stand parents first: after a record or an array come its fields or entries in order, each with all below it. Row
 * 0 is the root. */
enum {
    ARGO_ROW_WORDS = 4,
    ARGO_ROW_NODE = 3, /* which of them is the node: rows[ARGO_ROW_WORDS * row + ARGO_ROW_NODE] */

    ARGO_NULL = 0,
    ARGO_ABSENT = 1,
    ARGO_FALSE = 2,
    ARGO_TRUE = 3,
    ARGO_INTEGER = 4, /* a is the integer, in two's complement */
    ARGO_FLOAT = 5,   /* a has its bits */
    ARGO_STRING = 6,  /* of these three, a is the start and b the length, in bytes: of the message for a row */
    ARGO_BYTES = 7,   /* that was read, of the pool for one that is written */
    ARGO_FIXED = 8,
    ARGO_RECORD = 9,  /* a fields follow, each with all below it */
    ARGO_ARRAY = 10   /* a entries follow, likewise */
};

/* Refusals, by number. */
enum {
    ARGO_WORK_SHORT = 1,      /* work has fewer than ARGO_WORK words */

    ARGO_TABLE_MARK = 10,     /* the table has fewer than 7 bytes, or does not begin with AWT */
    ARGO_TABLE_VERSION = 11,  /* its version is not 1 */
    ARGO_TABLE_SIZE = 12,     /* its node count is 0 or over 1,024, or its length is another */
    ARGO_TABLE_NODE = 13,     /* a node's kind, flags or argument; second: the node */
    ARGO_TABLE_TREE = 14,     /* nesting, depth, a node left over or missing; second: the node, or their count */
    ARGO_TABLE_KEY = 15,      /* a key disagrees with its first use; second: the BLOCK node */

    ARGO_MESSAGE_SIZE = 20,   /* the message is empty or has over 65,536 bytes */
    ARGO_HEADER = 21,         /* the header is longer than a byte, or has another mode than 0, 2, 4 and 5 */
    ARGO_PIECES = 22,         /* there are no pieces, or the label of one is not its length */
    ARGO_LABEL = 23,          /* a label or VARINT in a piece is cut, over 64 bits or not shortest */
    ARGO_LABEL_PLACE = 24,    /* a label that is not allowed at this place */
    ARGO_ERROR = 25,          /* an error under NULLABLE, without mode 2 */
    ARGO_BACKREFERENCE = 26,  /* a number that was not given, of a key without numbers, or in mode 5 */
    ARGO_CUT = 27,            /* a piece ends before the value, or the 00 behind it, does */
    ARGO_TEXT = 28,           /* a STRING is not UTF-8, see TEXT; second: when writing, the row */
    ARGO_NO_BLOCK = 29,       /* no block is left for a key that is touched now */
    ARGO_UNUSED = 30,         /* bytes or blocks are left at the end */
    ARGO_MANY_ROWS = 31,      /* one row more than ARGO_ROWS, or than the whole rows that were lent */
    ARGO_MANY_LITERALS = 32,  /* over 4,096 numbered literals, all keys together; when writing, different values */
    ARGO_TERMINATOR = 35,     /* in mode 4, the byte behind a STRING is not 00 */

    ARGO_MODES = 40,          /* the modes to write in are others than 0, 2, 4 and 5 */
    ARGO_ROWS_SIZE = 41,      /* the rows are not whole or over ARGO_ROWS, or the pool has over 65,536 bytes */
    ARGO_UNFIT = 42,          /* a row that is bad, does not fit the table, has another node or is left over, or none */
                              /* where one must be; second: the row, or their count */
    ARGO_NO_ROOM = 43,        /* the message is longer than out, or than 65,536 bytes */

    ARGO_NO_ROW = 50,         /* the row number is beyond the rows */
    ARGO_BAD_ROW = 51         /* the row's kind or words, a node not below ARGO_NODES, a place outside of the bytes */
};

typedef struct {
    uint64_t number, second;
} argo_answer;

/* Checks a table. Answers its node count, 1 to 1,024.
 * Refusals: ARGO_WORK_SHORT, ARGO_TABLE_MARK to ARGO_TABLE_KEY. */
argo_answer argo_check(const uint8_t *table, size_t table_len, uint32_t *work, size_t work_len);

/* Reads a message under a table into rows; rows_len is a count of words, ARGO_ROW_WORDS for each row, and words after
 * the last whole row are only zeroed. Answers how many rows there are, 1 to ARGO_ROWS. Places are counted in the
 * message, so it must be kept as long as the rows are used. The table is checked first, in each call.
 * Refusals: those of argo_check, ARGO_MESSAGE_SIZE to ARGO_TERMINATOR. */
argo_answer argo_read(const uint8_t *table, size_t table_len, const uint8_t *message, size_t message_len,
                      uint64_t *rows, size_t rows_len, uint32_t *work, size_t work_len);

/* Modes of a message, to be added up, each once; its first byte is twice their sum. 0 is no mode. */
enum {
    ARGO_INLINE_EVERYTHING = 1,  /* mode 0: there are no blocks, and values stand in the core */
    ARGO_OUT_OF_BAND_ERRORS = 4, /* mode 2: an error stands for null */
    ARGO_NULL_TERMINATED = 16,   /* mode 4: a 00 behind each STRING that is written out, see TEXT */
    ARGO_NO_DEDUPLICATION = 32   /* mode 5: no backreferences, each value is written out */
};

/* Writes the tree of the rows under a table as a message at the front of out, in these modes; rows_len is a count of
 * words, and places are counted in the pool, where they may overlap, repeat and leave gaps. Answers the message's
 * length in bytes, 1 to 65,536. Rows that were read are written with their message as the pool. Each row must have its
 * node: see NODES, and examples/write.c for rows that are made by hand. The table is checked first, in each call.
 * Refusals: those of argo_check, ARGO_TEXT, ARGO_MANY_LITERALS, ARGO_MODES to ARGO_NO_ROOM. */
argo_answer argo_write(const uint8_t *table, size_t table_len, uint64_t modes, const uint64_t *rows, size_t rows_len,
                       const uint8_t *pool, size_t pool_len, uint8_t *out, size_t out_len, uint32_t *work,
                       size_t work_len);

/* A row that was looked at: 0 or a refusal's number, and 0; the row's four words; and the float of a float's row, which
 * is 0 for any other. After a refusal all but the number is 0. A NaN comes as some NaN; its bits are in a. */
typedef struct {
    uint64_t number, second, kind, a, b, node;
    double value;
} argo_seen;

/* Looks at row number index, from 0, whose place, if it has one, must be inside of the bytes: those of the message or
 * the pool. Its node must be below ARGO_NODES; whether it is the right one is not known here. rows_len is a count of
 * words, and words after the last whole row are no row. A row that argo_read made is never refused with its own message.
 * Refusals: ARGO_NO_ROW, ARGO_BAD_ROW. */
argo_seen argo_look(const uint64_t *rows, size_t rows_len, const uint8_t *bytes, size_t bytes_len, size_t index);

typedef struct {
    uint64_t start, len;
} argo_place;

/* Where in the bytes the part of a string, bytes or fixed row stands, always inside of them: start + len is at most
 * bytes_len. It is never refused; it is the empty part at 0 if the row is not there, is none of these or points
 * outside. The node is not looked at. */
argo_place argo_part(const uint64_t *rows, size_t rows_len, const uint8_t *bytes, size_t bytes_len, size_t index);

#ifdef __cplusplus
}
#endif

#endif
