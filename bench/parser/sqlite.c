/* Times sqlite3_prepare_v2 on the lines of standard input, one after the other, again and again: of each round the nanoseconds of
   processor time, and how many of the texts were prepared. */
#include <sqlite3.h>
#include <stdio.h>
#include <stdlib.h>
#include <string.h>
#include <time.h>

enum { ROUNDS = 51, MOST = 1000 };

static const char *const SCHEMA =
    "CREATE TABLE Users (uid INTEGER NOT NULL PRIMARY KEY, email TEXT);"
    "CREATE TABLE Albums (uid INTEGER NOT NULL, aid INTEGER NOT NULL, name TEXT, PRIMARY KEY (uid, aid)) WITHOUT ROWID;";

static long long thread_cpu_time(void) {
    struct timespec time;
    clock_gettime(CLOCK_THREAD_CPUTIME_ID, &time);
    return time.tv_sec * 1000000000LL + time.tv_nsec;
}

static int prepares(sqlite3 *database, const char *text, int length) {
    sqlite3_stmt *statement = NULL;
    int answer = sqlite3_prepare_v2(database, text, length + 1, &statement, NULL);
    sqlite3_finalize(statement);
    return answer == SQLITE_OK;
}

int main(void) {
    static char *texts[MOST];
    static int lengths[MOST];
    int count = 0;
    size_t capacity = 0;
    ssize_t length;
    while (count < MOST && (length = getline(&texts[count], &capacity, stdin)) > 0) {
        if (texts[count][length - 1] == '\n')
            texts[count][--length] = 0;
        lengths[count++] = (int)length;
        capacity = 0;
    }
    sqlite3 *database;
    if (sqlite3_open(":memory:", &database) != SQLITE_OK || sqlite3_exec(database, SCHEMA, NULL, NULL, NULL) != SQLITE_OK)
        return 1;
    for (int round = 0; round < ROUNDS; round++) {
        int prepared = 0;
        long long start = thread_cpu_time();
        for (int i = 0; i < count; i++)
            prepared += prepares(database, texts[i], lengths[i]);
        printf("%lld %d\n", thread_cpu_time() - start, prepared);
    }
    fprintf(stderr, "SQLite %s\n", sqlite3_libversion());
    return 0;
}
