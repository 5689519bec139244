// Adds N finished print records to a database of a host by SQLite's own library: write-ahead log, one transaction a record, and
// the log synced after each (synchronous = FULL), as octo's keeper does.
#include <sqlite3.h>
#include <stdio.h>
#include <stdlib.h>

static sqlite3 *db;

static void check(int code, int wanted) {
    if (code != wanted) {
        fprintf(stderr, "plain_commits: %s\n", sqlite3_errmsg(db));
        exit(1);
    }
}

static void run(const char *sql) { check(sqlite3_exec(db, sql, NULL, NULL, NULL), SQLITE_OK); }

// Reads every print record, as a host does when it begins; answers the greatest number.
static sqlite3_int64 load(void) {
    sqlite3_stmt *rows;
    sqlite3_int64 last = 0;
    check(sqlite3_prepare_v2(db, "SELECT number, user, file, commands, outcome FROM prints ORDER BY number", -1, &rows, NULL), SQLITE_OK);
    while (sqlite3_step(rows) == SQLITE_ROW) {
        last = sqlite3_column_int64(rows, 0);
        sqlite3_column_text(rows, 1);
        sqlite3_column_text(rows, 2);
        sqlite3_column_int64(rows, 3);
        sqlite3_column_int64(rows, 4);
    }
    check(sqlite3_finalize(rows), SQLITE_OK);
    return last;
}

// Each record is prepared anew, as by a host that keeps no statements.
static void add(sqlite3_int64 number) {
    sqlite3_stmt *row;
    run("BEGIN");
    check(sqlite3_prepare_v2(db, "INSERT INTO prints (number, user, file, commands, outcome) VALUES (?1, 'ana', 'hollow_box.gcode', 218, 1)",
              -1, &row, NULL), SQLITE_OK);
    check(sqlite3_bind_int64(row, 1, number), SQLITE_OK);
    check(sqlite3_step(row), SQLITE_DONE);
    check(sqlite3_finalize(row), SQLITE_OK);
    run("COMMIT");
}

int main(int argc, char **argv) {
    if (argc != 3) {
        fprintf(stderr, "usage: plain_commits FILE N\n");
        return 2;
    }
    check(sqlite3_open(argv[1], &db), SQLITE_OK);
    run("PRAGMA locking_mode = EXCLUSIVE");
    run("PRAGMA journal_mode = WAL");
    run("PRAGMA synchronous = FULL");
    sqlite3_int64 last = load();
    for (long added = 1; added <= atol(argv[2]); added++) {
        add(last + added);
    }
    // This copies the log into the file, as octo's keeper does when it is closed.
    check(sqlite3_close(db), SQLITE_OK);
    return 0;
}
