/* Writes the rows of bench/steps/program into SQLite's memory: `sqlite ROWS TRANSACTIONS STRIDE BEND` inserts ROWS rows in TRANSACTIONS transactions
   by one prepared statement, whose values are bound, and writes how many rows there are then. The row number i, from 0 on, has the key
   i * (STRIDE + BEND * i) mod ROWS. */
#include <sqlite3.h>
#include <stdio.h>
#include <stdlib.h>
#include <string.h>

enum { DIGITS = 20 };

static sqlite3 *database;

static void must(int ok) {
    if (ok)
        return;
    fprintf(stderr, "sqlite: %s\n", sqlite3_errmsg(database));
    exit(1);
}

static void run(const char *text) {
    must(sqlite3_exec(database, text, NULL, NULL, NULL) == SQLITE_OK);
}

static sqlite3_stmt *prepare(const char *text) {
    sqlite3_stmt *statement;
    must(sqlite3_prepare_v2(database, text, -1, &statement, NULL) == SQLITE_OK);
    return statement;
}

/* Binds "name" and a number, which printf takes several times as long to write. */
static void bind_name(sqlite3_stmt *statement, unsigned long number) {
    char text[4 + DIGITS], *end = text + sizeof text, *at = end;
    do
        *--at = (char)('0' + number % 10);
    while (number /= 10);
    at -= 4;
    memcpy(at, "name", 4);
    sqlite3_bind_text(statement, 3, at, (int)(end - at), SQLITE_TRANSIENT);
}

/* Inserts the row with a key. */
static void put(sqlite3_stmt *statement, unsigned long key) {
    sqlite3_bind_int64(statement, 1, (sqlite3_int64)key);
    sqlite3_bind_int64(statement, 2, (sqlite3_int64)(key * 31 % 1000));
    bind_name(statement, key % 99991);
    must(sqlite3_step(statement) == SQLITE_DONE && sqlite3_reset(statement) == SQLITE_OK);
}

int main(int count, char **words) {
    if (count != 5 || sqlite3_open(":memory:", &database) != SQLITE_OK)
        return 2;
    unsigned long number[5];
    for (int at = 1; at < 5; at++)
        number[at] = strtoul(words[at], NULL, 10);
    unsigned long rows = number[1], transactions = number[2], stride = number[3], bend = number[4];
    run("CREATE TABLE T (k INTEGER, n INTEGER, s TEXT, PRIMARY KEY (k)) WITHOUT ROWID");
    sqlite3_stmt *insert = prepare("INSERT INTO T VALUES (?1, ?2, ?3)");
    for (unsigned long transaction = 0; transaction < transactions; transaction++) {
        run("BEGIN");
        for (unsigned long row = rows * transaction / transactions; row < rows * (transaction + 1) / transactions; row++)
            put(insert, (bend * row + stride) * row % rows);
        run("COMMIT");
    }
    sqlite3_stmt *left = prepare("SELECT COUNT(*) FROM T");
    must(sqlite3_step(left) == SQLITE_ROW);
    printf("%lld\n", (long long)sqlite3_column_int64(left, 0));
    return 0;
}
