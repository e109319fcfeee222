// SQLite in memory: COUNT commits of one row each, as bench/sessions/program makes them. Prints the nanoseconds that passed.
//
//     sqlite COUNT
#include <sqlite3.h>
#include <stdio.h>
#include <stdlib.h>
#include <time.h>

static sqlite3 *db;

static long long now(void) {
    struct timespec time;
    clock_gettime(CLOCK_MONOTONIC, &time);
    return 1000000000LL * time.tv_sec + time.tv_nsec;
}

static void must(int code, int wanted) {
    if (code == wanted) return;
    fprintf(stderr, "sqlite: %s\n", sqlite3_errmsg(db));
    exit(1);
}

int main(int words, char **word) {
    long count = words > 1 ? atol(word[1]) : 0;
    sqlite3_stmt *insert;
    must(sqlite3_open(":memory:", &db), SQLITE_OK);
    must(sqlite3_exec(db, "CREATE TABLE Users (uid INTEGER NOT NULL PRIMARY KEY, email TEXT, age INTEGER, active INTEGER) WITHOUT ROWID", 0, 0, 0), SQLITE_OK);
    must(sqlite3_prepare_v2(db, "INSERT INTO Users VALUES (?, ?, ?, ?)", -1, &insert, 0), SQLITE_OK);
    long long start = now();
    for (long uid = 0; uid < count; uid++) {
        sqlite3_bind_int64(insert, 1, uid);
        sqlite3_bind_text(insert, 2, "someone@mail.example", -1, SQLITE_TRANSIENT);
        sqlite3_bind_int(insert, 3, 30);
        sqlite3_bind_int(insert, 4, 1);
        must(sqlite3_step(insert), SQLITE_DONE);
        sqlite3_reset(insert);
    }
    printf("%lld\n", now() - start);
    return 0;
}
