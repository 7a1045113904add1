/* sqlite FILE PASSES: the row number and all columns of all rows of the table gauge, PASSES times, by SQLite.
 * sqlite FILE PASSES walk: the row numbers alone, in their order.
 *
 * It prints what the last pass was shown. The first pass warms the cache, which has room for the whole file; so a pass is
 * counted as two less one. The schema's table is read too, as the others read its page. */
#include <sqlite3.h>
#include <stdlib.h>
#include <string.h>

#include "shown.h"

static sqlite3 *db;

static void check(int is, int wanted) {
    if (is == wanted) return;
    fprintf(stderr, "sqlite: %s\n", sqlite3_errmsg(db));
    exit(2);
}

static sqlite3_stmt *prepared(const char *sql) {
    sqlite3_stmt *statement;
    check(sqlite3_prepare_v2(db, sql, -1, &statement, NULL), SQLITE_OK);
    return statement;
}

static inline void show_value(shown *s, sqlite3_stmt *row, int column) {
    double real;
    uint64_t bits;
    s->values++;
    switch (sqlite3_column_type(row, column)) {
    case SQLITE_INTEGER: show_integer(s, sqlite3_column_int64(row, column)); break;
    case SQLITE_FLOAT:
        real = sqlite3_column_double(row, column);
        memcpy(&bits, &real, sizeof bits);
        show_real(s, bits);
        break;
    case SQLITE_TEXT: show_bytes(s, sqlite3_column_text(row, column), (size_t)sqlite3_column_bytes(row, column)); break;
    case SQLITE_BLOB: show_bytes(s, sqlite3_column_blob(row, column), (size_t)sqlite3_column_bytes(row, column)); break;
    }
}

/* The first column is the row number. */
static void select_all(shown *s, sqlite3_stmt *statement) {
    int is, columns = sqlite3_column_count(statement);
    while ((is = sqlite3_step(statement)) == SQLITE_ROW) {
        show_row(s, sqlite3_column_int64(statement, 0));
        for (int i = 1; i < columns; i++) show_value(s, statement, i);
    }
    check(is, SQLITE_DONE);
    check(sqlite3_reset(statement), SQLITE_OK);
}

static void select_numbers(shown *s, sqlite3_stmt *statement) {
    int is;
    while ((is = sqlite3_step(statement)) == SQLITE_ROW) show_listed(s, sqlite3_column_int64(statement, 0));
    check(is, SQLITE_DONE);
    check(sqlite3_reset(statement), SQLITE_OK);
}

int main(int count, char **words) {
    if (count != 3 && count != 4) return 2;
    check(sqlite3_open_v2(words[1], &db, SQLITE_OPEN_READONLY, NULL), SQLITE_OK);
    check(sqlite3_exec(db, "pragma cache_size = -65536", NULL, NULL, NULL), SQLITE_OK);
    sqlite3_stmt *schema = prepared("select rowid, * from sqlite_schema");
    sqlite3_stmt *gauge = prepared("select rowid, * from gauge");
    sqlite3_stmt *numbers = prepared("select rowid from gauge");
    shown s = {0, 0, 0, 0};
    for (int left = atoi(words[2]); left > 0; left--) {
        s = (shown){0, 0, 0, 0};
        if (count == 4) {
            select_numbers(&s, numbers);
        } else {
            select_all(&s, schema);
            select_all(&s, gauge);
        }
    }
    print_shown(s);
    return 0;
}
