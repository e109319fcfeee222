/* Does the same writes in SQLite's memory: `sqlite ROWS PER UPDATES CHILDREN` reads lines `KEY,NUMBER,TEXT` from standard input and inserts
   them by one prepared statement, PER rows in a transaction; then UPDATES lines each update one row in a transaction of its own; then, where
   CHILDREN is not 0, it inserts this many rows below one root and deletes the root, which cascades. It writes how many rows are left. */
#include <sqlite3.h>
#include <stdio.h>
#include <stdlib.h>
#include <string.h>

static void must(int ok, sqlite3 *database) {
    if (!ok) {
        fprintf(stderr, "sqlite: %s\n", sqlite3_errmsg(database));
        exit(1);
    }
}

static void run(sqlite3 *database, const char *text) {
    must(sqlite3_exec(database, text, NULL, NULL, NULL) == SQLITE_OK, database);
}

static sqlite3_stmt *prepare(sqlite3 *database, const char *text) {
    sqlite3_stmt *statement;
    must(sqlite3_prepare_v2(database, text, -1, &statement, NULL) == SQLITE_OK, database);
    return statement;
}

/* Binds the three fields of a line and steps. */
static void put(sqlite3 *database, sqlite3_stmt *statement, char *line) {
    char *number = strchr(line, ',') + 1;
    char *text = strchr(number, ',') + 1;
    text[strcspn(text, "\n")] = 0;
    sqlite3_bind_int64(statement, 1, atoll(line));
    sqlite3_bind_int64(statement, 2, atoll(number));
    sqlite3_bind_text(statement, 3, text, -1, SQLITE_TRANSIENT);
    must(sqlite3_step(statement) == SQLITE_DONE && sqlite3_reset(statement) == SQLITE_OK, database);
}

/* Takes lines, PER of them in a transaction. */
static void put_lines(sqlite3 *database, sqlite3_stmt *statement, long count, long per) {
    char line[256];
    for (long at = 0; at < count; at++) {
        if (at % per == 0)
            run(database, "BEGIN");
        must(fgets(line, sizeof line, stdin) != NULL, database);
        put(database, statement, line);
        if (at % per == per - 1 || at == count - 1)
            run(database, "COMMIT");
    }
}

int main(int count, char **words) {
    sqlite3 *database;
    if (count != 5 || sqlite3_open(":memory:", &database) != SQLITE_OK)
        return 2;
    long rows = atol(words[1]), per = atol(words[2]), updates = atol(words[3]), children = atol(words[4]);
    run(database, "PRAGMA foreign_keys = ON;"
                  "CREATE TABLE T (k INTEGER, n INTEGER, s TEXT, PRIMARY KEY (k)) WITHOUT ROWID;"
                  "CREATE TABLE C (k INTEGER REFERENCES T (k) ON DELETE CASCADE, n INTEGER, s TEXT, PRIMARY KEY (k, n)) WITHOUT ROWID");
    put_lines(database, prepare(database, "INSERT INTO T VALUES (?1, ?2, ?3)"), rows, per);
    put_lines(database, prepare(database, "UPDATE T SET n = ?2, s = ?3 WHERE k = ?1"), updates, 1);
    if (children) {
        put_lines(database, prepare(database, "INSERT INTO C VALUES (?1, ?2, ?3)"), children, children);
        run(database, "DELETE FROM T WHERE k = 0");
    }
    sqlite3_stmt *left = prepare(database, "SELECT (SELECT COUNT(*) FROM T) + (SELECT COUNT(*) FROM C)");
    must(sqlite3_step(left) == SQLITE_ROW, database);
    printf("%lld\n", sqlite3_column_int64(left, 0));
    return 0;
}
