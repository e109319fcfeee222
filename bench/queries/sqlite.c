// SQLite in memory: loads the rows of a folder's files Users, Albums and Songs, and prints the milliseconds of processor time that this took. Then it
// reads lines of standard input (a number of times, a tab, a query), takes each query that many times to the last value of its last row, and prints
// at once how many milliseconds of processor time it took for one of these times, a tab, and the number of rows.
//
//     sqlite FOLDER
#include <sqlite3.h>
#include <stdio.h>
#include <stdlib.h>
#include <string.h>
#include <time.h>

static sqlite3 *db;

static double now(void) {
    struct timespec time;
    clock_gettime(CLOCK_PROCESS_CPUTIME_ID, &time);
    return 1e3 * time.tv_sec + 1e-6 * time.tv_nsec;
}

static void stop(const char *what) {
    fprintf(stderr, "%s: %s\n", what, sqlite3_errmsg(db));
    exit(1);
}

static void execute(const char *text) {
    if (sqlite3_exec(db, text, 0, 0, 0) != SQLITE_OK) stop(text);
}

static void bind(sqlite3_stmt *statement, int at, const char *cell, int is_text) {
    if (!strcmp(cell, "\\N")) sqlite3_bind_null(statement, at);
    else if (is_text) sqlite3_bind_text(statement, at, cell, -1, SQLITE_TRANSIENT);
    else if (!strcmp(cell, "true")) sqlite3_bind_int(statement, at, 1);
    else if (!strcmp(cell, "false")) sqlite3_bind_int(statement, at, 0);
    else sqlite3_bind_int64(statement, at, atoll(cell));
}

// Loads a file of rows into its table, whose column TEXT (from 1) has texts.
static void load(const char *folder, const char *table, int columns, int text) {
    char path[4096], insert[200], *line = 0;
    size_t capacity = 0;
    snprintf(path, sizeof path, "%s/%s", folder, table);
    snprintf(insert, sizeof insert, "INSERT INTO %s VALUES (?%s)", table, columns == 4 ? ", ?, ?, ?" : ", ?, ?, ?, ?");
    FILE *file = fopen(path, "r");
    sqlite3_stmt *statement;
    if (!file || sqlite3_prepare_v2(db, insert, -1, &statement, 0)) stop(path);
    for (long length; (length = getline(&line, &capacity, file)) > 0;) {
        line[length - 1] = 0;
        char *cell = line;
        for (int at = 1; at <= columns; at++) {
            char *end = strchr(cell, ',');
            if (end) *end = 0;
            bind(statement, at, cell, at == text);
            cell = end ? end + 1 : cell;
        }
        if (sqlite3_step(statement) != SQLITE_DONE) stop(table);
        sqlite3_reset(statement);
    }
    sqlite3_finalize(statement);
    fclose(file);
    free(line);
}

// Takes a text to its last row, with each value looked at; the number of its rows.
static long ask(const char *text) {
    sqlite3_stmt *statement;
    if (sqlite3_prepare_v2(db, text, -1, &statement, 0)) stop(text);
    long rows = 0;
    volatile long long seen = 0;
    int columns = sqlite3_column_count(statement);
    for (; sqlite3_step(statement) == SQLITE_ROW; rows++)
        for (int at = 0; at < columns; at++)
            seen += sqlite3_column_type(statement, at) == SQLITE_TEXT ? sqlite3_column_bytes(statement, at) : sqlite3_column_int64(statement, at);
    sqlite3_finalize(statement);
    return rows;
}

int main(int count, char **words) {
    if (count != 2) return 2;
    if (sqlite3_open(":memory:", &db)) stop("open");
    execute("CREATE TABLE Users (uid INTEGER NOT NULL, email TEXT, age INTEGER, active BOOLEAN, PRIMARY KEY (uid)) WITHOUT ROWID;"
            "CREATE TABLE Albums (uid INTEGER NOT NULL, aid INTEGER NOT NULL, name TEXT, price INTEGER, PRIMARY KEY (uid, aid)) WITHOUT ROWID;"
            "CREATE TABLE Songs (uid INTEGER NOT NULL, aid INTEGER NOT NULL, sid INTEGER NOT NULL, title TEXT, secs INTEGER,"
            " PRIMARY KEY (uid, aid, sid)) WITHOUT ROWID");
    double start = now();
    execute("BEGIN");
    load(words[1], "Users", 4, 2);
    load(words[1], "Albums", 4, 3);
    load(words[1], "Songs", 5, 4);
    execute("COMMIT");
    double taken = now() - start;
    execute("ANALYZE");
    printf("%.3f\n", taken);
    fflush(stdout);
    char *line = 0;
    size_t capacity = 0;
    for (long length; (length = getline(&line, &capacity, stdin)) > 0;) {
        line[length - 1] = 0;
        char *text = strchr(line, '\t');
        if (!text) return 2;
        *text++ = 0;
        long times = atol(line), rows = 0;
        if (times < 1) return 2;
        start = now();
        for (long done = 0; done < times; done++) rows = ask(text);
        printf("%.6f\t%ld\n", (now() - start) / times, rows);
        fflush(stdout);
    }
    return 0;
}
