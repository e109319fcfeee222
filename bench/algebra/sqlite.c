/* Times the same four queries on the same table in SQLite's memory: of each the nanoseconds of processor time, from its prepare to its last
   row, and how many rows it gave. */
#include <sqlite3.h>
#include <stdio.h>
#include <time.h>

enum { ROUNDS = 9, ROWS = 100000 };

static const char *const NAMES[] = {"anna", "bert", "carla", "dora", "emil", "frida", "gustav", "hanna", "ida", "jonas"};

static const char *const QUERIES[][2] = {
    {"filter", "SELECT id, name FROM T WHERE amount * 2 > 150000 AND name LIKE '%a'"},
    {"totals", "SELECT COUNT(*), SUM(amount), MIN(amount), MAX(amount) FROM T"},
    {"groups", "SELECT category, COUNT(*), SUM(amount) FROM T GROUP BY category"},
    {"sort", "SELECT id, amount FROM T ORDER BY 2 DESC, 1"},
};

static long long thread_cpu_time(void) {
    struct timespec time;
    clock_gettime(CLOCK_THREAD_CPUTIME_ID, &time);
    return time.tv_sec * 1000000000LL + time.tv_nsec;
}

static int fill(sqlite3 *database) {
    sqlite3_stmt *insert;
    if (sqlite3_exec(database, "CREATE TABLE T (id INTEGER PRIMARY KEY, category INTEGER, amount INTEGER, name TEXT); BEGIN", NULL, NULL, NULL) != SQLITE_OK)
        return 0;
    if (sqlite3_prepare_v2(database, "INSERT INTO T VALUES (?, ?, ?, ?)", -1, &insert, NULL) != SQLITE_OK)
        return 0;
    for (long long id = 0; id < ROWS; id++) {
        long long category = id * 7919 % 100;
        sqlite3_bind_int64(insert, 1, id);
        sqlite3_bind_int64(insert, 2, category);
        sqlite3_bind_int64(insert, 3, id * 104729 % 100003);
        sqlite3_bind_text(insert, 4, NAMES[category % 10], -1, SQLITE_STATIC);
        if (sqlite3_step(insert) != SQLITE_DONE || sqlite3_reset(insert) != SQLITE_OK)
            return 0;
    }
    sqlite3_finalize(insert);
    return sqlite3_exec(database, "COMMIT", NULL, NULL, NULL) == SQLITE_OK;
}

/* Each value is looked at, as a program that shows it does. */
static int rows_of(sqlite3 *database, const char *text) {
    sqlite3_stmt *statement;
    int rows = 0;
    if (sqlite3_prepare_v2(database, text, -1, &statement, NULL) != SQLITE_OK)
        return -1;
    while (sqlite3_step(statement) == SQLITE_ROW) {
        for (int column = 0; column < sqlite3_column_count(statement); column++)
            sqlite3_column_bytes(statement, column);
        rows++;
    }
    sqlite3_finalize(statement);
    return rows;
}

int main(void) {
    sqlite3 *database;
    if (sqlite3_open(":memory:", &database) != SQLITE_OK || !fill(database))
        return 1;
    for (int round = 0; round < ROUNDS; round++)
        for (int i = 0; i < 4; i++) {
            long long start = thread_cpu_time();
            int rows = rows_of(database, QUERIES[i][1]);
            printf("%s %lld %d\n", QUERIES[i][0], thread_cpu_time() - start, rows);
        }
    fprintf(stderr, "SQLite %s\n", sqlite3_libversion());
    return 0;
}
