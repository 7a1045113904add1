/* Shorgavel for C: reads the databases of a gauge, with proof. docs/READINGS.md has the rules and the refusals' numbers.
 *
 * The three readings: old is what the tablets' reader shows, faults and all; file is what the file format says; guarded
 * shows a row only where the two agree. Pages count from 0 in the old reading and from 1 in the other two.
 *
 * A database is a pointer and its length in bytes; the pointer is not null, also where the length is 0. No call keeps it,
 * writes to it or allocates. Every call answers for every input, and what does not apply in an answer is 0. What a call is
 * lent to write to, a table or a gather buffer, overlaps neither the database nor each other.
 *
 * Link with libexports.a, for x86-64.
 */
#ifndef SHORGAVEL_H
#define SHORGAVEL_H

#include <stddef.h>
#include <stdint.h>

#ifdef __cplusplus
extern "C" {
#endif

/* Why nothing is shown; number 0: nothing is refused. The page is told for all but 1 to 7 and 22, counted as the call counts
 * it, the cell for 12 to 18, 21, 23, 24 and 27, the column for 15 and 16, and for 21 the mark, for which old and file need not
 * agree. 25 to 28 are of a walk through a table.
 *
 *  1  the 16 opening bytes of a database are not there
 *  2  there are fewer than 100 bytes
 *  3  the text encoding is not 1, 2 or 3
 *  4  the page size is not a power of two from 512 to 65,536
 *  5  the usable size of a page is below 480
 *  6  the read version is above 2
 *  7  the payload fractions are not 64, 32, 32
 *  8  the page is not wholly in the bytes
 *  9  the page size is under 100
 * 10  the page is of another kind, or of none
 * 11  the page's header or pointers pass its end
 * 12  the cell's pointer leads outside of the cells
 * 13  the cell is cut short
 * 14  the record's header does not fit
 * 15  the type is 10 or 11, which are reserved
 * 16  the value passes the end, or bytes are left over behind the last
 * 17  the varint behind the index record has no end
 * 18  the payload spills to overflow pages, and no gather buffer is lent
 * 19  the lent table or list is too short
 * 20  there is no such cell, or no such column in it
 * 21  old and file need not agree
 * 22  there are over 1,073,741,824 bytes
 * 23  the overflow chain leaves the file, ends early or goes on
 * 24  the gather buffer is shorter than the payload
 * 25  the page is of an index
 * 26  the page is over 20 pages deep
 * 27  the row number or key is out of order
 * 28  one more page is due than the file has
 *
 * The marks, of which the lowest is told:
 *
 *  1  a varint of over five bytes
 *  2  a header size that is not in one byte
 *  3  a type 9, a stored 1
 *  4  a text or a blob of no bytes
 *  5  a long note, whose payload spills
 */
typedef struct {
    uint8_t number;
    uint8_t mark;
    uint32_t page;
    size_t cell;
    size_t column;
} shorgavel_refused;

/* READINGS, where a call is told one by its number; any other number is taken for the file reading. So is guarded's, but where
 * a page is opened and for a screenful. */
enum { SHORGAVEL_OLD = 0, SHORGAVEL_FILE = 1, SHORGAVEL_GUARDED = 2 };

/* THE DATABASE AND ITS PAGES */

/* The fields of the database header. */
typedef struct {
    uint32_t page_size; /* by its meaning: 65,536 where the field has 1 */
    uint32_t write_version;
    uint32_t read_version;
    uint32_t reserved_space; /* 0 in the old reading, which drops it */
    uint32_t max_payload_fraction;
    uint32_t min_payload_fraction;
    uint32_t leaf_payload_fraction;
    uint32_t file_change_counter;
    uint32_t db_size;
    uint32_t first_freelist_page_no;
    uint32_t total_freelist_pages;
    uint32_t schema_cookie;
    uint32_t schema_format_no;
    uint32_t default_page_cache_size;
    uint32_t no_largest_root_b_tree;
    uint32_t db_text_encoding;
    uint32_t user_version;
    uint32_t incremental_vacuum_mode;
    uint32_t application_id;
    uint32_t version_valid_for_no;
    uint32_t sqlite_version_number;
} shorgavel_fields;

typedef struct {
    shorgavel_refused refused;
    shorgavel_fields fields;
} shorgavel_header_answer;

/* How many pages there are: old, as many as whole pages fit in the bytes; file and guarded, as the header states where its size is
   not 0 and its two counters are equal. Of these the first `present` are wholly in the bytes. */
typedef struct {
    shorgavel_refused refused;
    size_t count;
    size_t present;
} shorgavel_pages_answer;

/* The head of a page. */
typedef struct {
    uint8_t kind; /* the format's byte: 2, 5, 10 or 13 */
    uint32_t first_freeblock;
    size_t cells;
    uint32_t content_start; /* by its meaning: 65,536 where the field has 0 */
    uint32_t fragmented;
    uint32_t rightmost; /* 0 on leaves */
} shorgavel_head;

typedef struct {
    shorgavel_refused refused;
    shorgavel_head head;
} shorgavel_page_answer;

/* What a page says of one of its cells; a kind of 0: there is no such cell, or it is refused. */
typedef struct {
    uint8_t kind;
    uint32_t pointer;
    uint32_t child;
    uint64_t payload_size;
    int64_t row;
    uint64_t header_size;
    size_t columns;
} shorgavel_cell_entry;

/* The header's fields, or the first check that fails. */
shorgavel_header_answer shorgavel_header(const uint8_t *db, size_t length, uint8_t reading);

/* The number of pages, behind the same checks. */
shorgavel_pages_answer shorgavel_pages(const uint8_t *db, size_t length, uint8_t reading);

/* The head of a page if every one of its cells is accepted, else the first refusal. */
shorgavel_page_answer shorgavel_page(const uint8_t *db, size_t length, uint8_t reading, uint32_t page);

/* The page call: the same, and in the table the entries of all cells, as many as the head counts. A table of too few places
 * is refused (19). On a refusal the table is left as it was, and so are its places behind the last entry. The pointer is
 * not null, also where there is no place. */
shorgavel_page_answer shorgavel_entries(const uint8_t *db, size_t length, uint8_t reading, uint32_t page,
                                        shorgavel_cell_entry *table, size_t places);

/* HALVES OF A TABLE, where two databases share one; any other number is taken for the second. Each half has places / 2 places: the
 * first from place 0 on, the second behind it. An odd last place is in neither. */
enum { SHORGAVEL_FIRST = 0, SHORGAVEL_SECOND = 1 };

/* The page call on one half of a table: it answers and writes what shorgavel_entries does that is lent this half alone, so 19 counts
 * against the half. No other place is written. */
shorgavel_page_answer shorgavel_half_entries(const uint8_t *db, size_t length, uint8_t reading, uint32_t page, uint8_t half,
                                             shorgavel_cell_entry *table, size_t places);

/* The entry of a cell of a page. */
shorgavel_cell_entry shorgavel_entry(const uint8_t *db, size_t length, uint8_t reading, uint32_t page, size_t cell);

/* A PAGE THAT IS OPENED, for reading one cell of it after another by shorgavel_row_in, with no check of header and page made
 * again */

/* It is handed back as it was answered, with the same database. One that is made up is answered too: it is refused (8) where it
 * does not lie in the database, and in the guarded reading (10) where it is no table leaf. Any other number than 2, 5 and 10 is
 * taken for the kind of a table leaf. */
typedef struct {
    uint8_t reading; /* the one in which it was opened */
    uint8_t kind;    /* the format's byte: 2, 5, 10 or 13 */
    uint32_t end;    /* where its cells end */
    uint32_t number; /* the page's, as its reading counts */
    size_t at;       /* where the page lies in the database, and its size */
    size_t size;
    size_t from;     /* where its header stands in it */
    size_t cells;    /* how many cells it has */
} shorgavel_opened;

typedef struct {
    shorgavel_refused refused;
    shorgavel_opened opened;
} shorgavel_opening;

/* The page, its cells being looked at by no check yet. The guarded reading opens table leaves alone. */
shorgavel_opening shorgavel_open(const uint8_t *db, size_t length, uint8_t reading, uint32_t page);

/* ONE CELL: it is checked by itself, whatever other cells are like. */

/* A cursor along a row. It is handed back as it was answered, with the same database. One that is made up is answered too, and
 * shows no text and no blob outside the database. */
typedef struct {
    size_t at;
    size_t stop;
    size_t value;
    size_t end;
} shorgavel_along;

/* A cell: its row number or key, its column count, the cursor before its first column, and whether its varints are such as SQLite
 * writes, which never takes a byte more than it needs.
 *
 * A varint is in its shortest form if no shorter one has its value: one byte below 128, and so on, nine from 2^56 on. The reading
 * took the payload size, the row number or key, the header size and the types, and of an index cell in the old reading the closing
 * varint behind the values. It did not take what it skips: a type that has no end, in the old reading, and bytes behind the values. */
typedef struct {
    shorgavel_refused refused;
    int64_t row;
    size_t columns;
    shorgavel_along along;
    uint8_t shortest; /* 1: every varint that the reading took from the cell is in its shortest form; 0: some is not, or the cell
                         is refused */
} shorgavel_cell;

/* The cell as the old reading has it. */
shorgavel_cell shorgavel_old_cell(const uint8_t *db, size_t length, uint32_t page, size_t cell);

/* The cell as the file reading has it. */
shorgavel_cell shorgavel_file_cell(const uint8_t *db, size_t length, uint32_t page, size_t cell);

/* The cell of a table leaf if old and file agree on it. */
shorgavel_cell shorgavel_guarded_cell(const uint8_t *db, size_t length, uint32_t page, size_t cell);

/* VALUES */

enum {
    SHORGAVEL_NULL = 0,
    SHORGAVEL_INTEGER = 1,
    SHORGAVEL_REAL = 2,
    SHORGAVEL_TEXT = 3,
    SHORGAVEL_BLOB = 4
};

typedef struct {
    uint8_t kind;
    uint8_t width;   /* in the old reading, the bits of an integer's type: 8, 16, 32 or 64 */
    int64_t integer;
    uint64_t bits;   /* a real's 64 bits */
    size_t at;       /* where the bytes of a text or a blob stand in the database, or in a gather buffer */
    size_t len;      /* and how many there are */
} shorgavel_value;

/* How many values a table was filled with, and the cursor behind the last of them. */
typedef struct {
    size_t count;
    shorgavel_along along;
} shorgavel_filled;

/* The value of a column, or why there is none. */
typedef struct {
    shorgavel_refused refused;
    shorgavel_value value;
} shorgavel_shown;

/* The size of a table of so many places, as the calls below are told it: in words of 64 bits. */
#define SHORGAVEL_WORDS(places) ((places) * (sizeof(shorgavel_value) / sizeof(int64_t)))

/* A row with its values. */
typedef struct {
    shorgavel_refused refused;
    int64_t number;        /* row number or key */
    size_t columns;
    size_t count;          /* how many of its values are in the table */
    shorgavel_along along; /* the cursor behind them */
} shorgavel_row;

/* A cell of a page that shorgavel_open opened, in the page's reading, with its values in the table: as many as it has and as
 * the table has places. The others, if any, come by the calls below, from the cursor on. It answers what the calls on one
 * cell and the calls below answer, at a fraction of their cost. On a refusal the table is left as it was, and so are its
 * places behind the last value. The pointer is not null, also where there is no place; then the cursor is the one before
 * the first column. */
shorgavel_row shorgavel_row_in(const uint8_t *db, size_t length, shorgavel_opened page, size_t cell,
                               shorgavel_value *table, size_t words);

/* The values of a row from a cursor on, into a table: as many as there are and as it has places. Fewer than its places are
 * stored where the row ends; places behind them are left as they were. The pointer is not null, also where there is no
 * place. */

/* Of a row whose cursor came from an old cell, or from a row of a page that was opened in the old reading. */
shorgavel_filled shorgavel_old_values(const uint8_t *db, size_t length, shorgavel_along along, shorgavel_value *table,
                                      size_t words);

/* Of a row whose cursor came from a file cell or a guarded one, or from a row of a page that was opened in either. */
shorgavel_filled shorgavel_file_values(const uint8_t *db, size_t length, shorgavel_along along, shorgavel_value *table,
                                       size_t words);

/* One column of a cell as the old reading shows it. Columns count from 0. */
shorgavel_shown shorgavel_old_value(const uint8_t *db, size_t length, uint32_t page, size_t cell, size_t column);

/* The same as the file reading has it. */
shorgavel_shown shorgavel_file_value(const uint8_t *db, size_t length, uint32_t page, size_t cell, size_t column);

/* The same if old and file agree on the cell. */
shorgavel_shown shorgavel_guarded_value(const uint8_t *db, size_t length, uint32_t page, size_t cell, size_t column);

/* A SCREENFUL AT ONCE: the values at a list of addresses. Addresses of one screen lie on few pages and in few rows: a page stays open
 * while the next address names it, and a row stays found while the next address names its cell. So who asks row by row pays for
 * header and page once a page, and for the record once a row, and not for each value. */

/* Where a value stands: its page, as the reading counts, its cell and its column. */
typedef struct {
    uint32_t page;
    size_t cell;
    size_t column;
} shorgavel_address;

/* How many answers a list was filled with; 0 where the call is refused. */
typedef struct {
    shorgavel_refused refused;
    size_t count;
} shorgavel_screen_answer;

/* The size of a list of so many addresses or answers, as the call below is told it: in words of 64 bits. */
#define SHORGAVEL_ADDRESS_WORDS(count) ((count) * (sizeof(shorgavel_address) / sizeof(uint64_t)))
#define SHORGAVEL_ANSWER_WORDS(count) ((count) * (sizeof(shorgavel_shown) / sizeof(int64_t)))

/* The answer to each address, in the place of the list of answers that the address has in its own: what the call on that one value
 * answers in the reading, lent no gather buffer, a refusal with its page and cell too. A refused address stops no other. Places behind
 * the last answer are left as they were. A list of answers with fewer places than there are addresses is refused (19, with page 0)
 * before anything is read, and left as it was. Neither pointer is null, also where there is no place. */
shorgavel_screen_answer shorgavel_screen(const uint8_t *db, size_t length, uint8_t reading, const shorgavel_address *addresses,
                                         size_t address_words, shorgavel_shown *answers, size_t answer_words);

/* LONG NOTES: a payload of P bytes that spills to overflow pages is refused (18) by the calls above. The calls below are lent a
 * gather buffer, and put it together there: in the first P bytes; those behind them are left as they were.
 *
 * Where the payload is whole on its page, they answer what the calls above answer, and the buffer is left as it was. Where it
 * spills, 18 is not given, and in its place stand, in this order: 24 where P is above the buffer's room; 13 where what is kept
 * on the page, with the number of the first overflow page, passes the end of the cells; 23 where the chain is not sound. Up to
 * here the buffer is left as it was. Then it holds the payload, which may still be refused: 14, 15 and 16, guarded's 21, and 20
 * for the column. No chain that is sound has more bytes than the database, so a buffer of its length is never too short for one.
 *
 * The buffer's pointer is not null, also where there is no room. */

/* A value, and the bytes that the place of a text or a blob counts in: 0 is the database's, 1 the buffer's. */
typedef struct {
    shorgavel_refused refused;
    shorgavel_value value;
    uint8_t source;
} shorgavel_lent_value;

/* A row, and the bytes that its cursor and the places of its values count in. */
typedef struct {
    shorgavel_row row;
    uint8_t source;
} shorgavel_lent_row;

/* One column of a cell as the file reading has it, a long note too. */
shorgavel_lent_value shorgavel_file_value_lent(const uint8_t *db, size_t length, uint32_t page, size_t cell, size_t column,
                                               uint8_t *buffer, size_t room);

/* The same if old and file agree on the cell. On one that spills they need not: it is refused (21) where file shows it, with
 * mark 5 or a lower one. */
shorgavel_lent_value shorgavel_guarded_value_lent(const uint8_t *db, size_t length, uint32_t page, size_t cell, size_t column,
                                                  uint8_t *buffer, size_t room);

/* shorgavel_row_in with a buffer lent, in the page's reading: old, which never looks at P, gathers nothing; file shows rows
 * that spill too; guarded refuses them as above. A row that is whole comes by shorgavel_row_in at a lower cost: who reads many
 * rows asks for each there, and here for those that are refused 18. Where the source is 1, the values that the table has no places for come by
 * shorgavel_file_values from the cursor on, with the buffer and its room in place of the database and its length. */
shorgavel_lent_row shorgavel_row_lent(const uint8_t *db, size_t length, shorgavel_opened page, size_t cell,
                                      shorgavel_value *table, size_t words, uint8_t *buffer, size_t room);

/* ALL ROWS OF A TABLE: a walk of the file reading from the table's root page, which counts from 1, along its tree. It looks at row
 * numbers, keys and pages alone, so it lists also rows that a reading refuses, and rows whose payload spills. A tree that is not
 * sound is refused as a whole, with the page and, for 12, 13 and 27, the cell where the walk stopped. */

/* A row of a table: its page, its cell there and its row number. */
typedef struct {
    int64_t page;
    int64_t cell;
    int64_t row;
} shorgavel_place;

/* How many rows a table has; 0 where it is refused. */
typedef struct {
    shorgavel_refused refused;
    size_t count;
} shorgavel_rows_answer;

/* How many rows the table has. */
shorgavel_rows_answer shorgavel_table_count(const uint8_t *db, size_t length, uint32_t root);

/* The same, and the rows in the list, in the rising order of their numbers, three words each: a shorgavel_place. The list has room
 * for so many words; one that is too short for all rows is refused (19), after all else. On a refusal the list is left as it was,
 * and so are its words behind the last row. The pointer is not null, also where there is no room. */
shorgavel_rows_answer shorgavel_table_rows(const uint8_t *db, size_t length, uint32_t root, int64_t *list, size_t words);

/* A WHOLE TABLE THAT BOTH READINGS SHOW ALIKE: the same walk, and each of its rows in the guarded reading. The table is given if the
 * walk is accepted and guarded shows every row. Then the old reading shows each listed row too, with the number that is listed and with
 * the column count and the values of the file reading. Else nothing is given, and the refusal is the walk's, or where the walk is
 * accepted that of the first row in its order that guarded refuses, with page and cell: 21 with its mark, 18 where the payload spills,
 * since no gather buffer is lent, or what file refuses it for. Of later rows nothing is told. */

/* How many rows the table has; 0 where it is not given. */
shorgavel_rows_answer shorgavel_trusted_count(const uint8_t *db, size_t length, uint32_t root);

/* The same, and the rows in the list, as shorgavel_table_rows has them. A list that is too short for all rows is refused (19) behind the
 * walk's refusals, and before any row's. On a refusal the list is left as it was, and so are its words behind the last row. */
shorgavel_rows_answer shorgavel_trusted_rows(const uint8_t *db, size_t length, uint32_t root, int64_t *list, size_t words);

#ifdef __cplusplus
}
#endif

#endif
