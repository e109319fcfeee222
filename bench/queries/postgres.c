// PostgreSQL: loads the rows of a folder's files Users, Albums and Songs, and prints the milliseconds of wall time that this took. Then it reads lines
// of standard input (a number of times, a tab, a query), takes each query that many times until all its rows are in the client, and prints at once
// how many milliseconds of wall time it took for one of these times, a tab, and the number of rows. A query has one process of the server: its time
// is little more than the processor time of that process.
//
//     postgres FOLDER CONNECTION
#include <libpq-fe.h>
#include <stdio.h>
#include <stdlib.h>
#include <string.h>
#include <time.h>

static PGconn *connection;

static double now(void) {
    struct timespec time;
    clock_gettime(CLOCK_MONOTONIC, &time);
    return 1e3 * time.tv_sec + 1e-6 * time.tv_nsec;
}

static void stop(const char *what) {
    fprintf(stderr, "%s: %s\n", what, PQerrorMessage(connection));
    exit(1);
}

// Takes a text to its last row; the number of its rows.
static long ask(const char *text) {
    PGresult *result = PQexec(connection, text);
    ExecStatusType status = PQresultStatus(result);
    if (status != PGRES_COMMAND_OK && status != PGRES_TUPLES_OK) stop(text);
    long rows = PQntuples(result);
    PQclear(result);
    return rows;
}

// Loads a file of rows into its table.
static void load(const char *folder, const char *table) {
    char path[4096], copy[200], block[1 << 16];
    snprintf(path, sizeof path, "%s/%s", folder, table);
    snprintf(copy, sizeof copy, "COPY %s FROM STDIN (FORMAT csv, NULL '\\N')", table);
    FILE *file = fopen(path, "r");
    if (!file) stop(path);
    PGresult *result = PQexec(connection, copy);
    if (PQresultStatus(result) != PGRES_COPY_IN) stop(copy);
    PQclear(result);
    for (size_t length; (length = fread(block, 1, sizeof block, file)) > 0;)
        if (PQputCopyData(connection, block, (int)length) != 1) stop(path);
    fclose(file);
    if (PQputCopyEnd(connection, 0) != 1) stop(path);
    while ((result = PQgetResult(connection))) {
        if (PQresultStatus(result) != PGRES_COMMAND_OK) stop(table);
        PQclear(result);
    }
}

static void load_all(const char *folder) {
    ask("DROP TABLE IF EXISTS Songs, Albums, Users");
    ask("CREATE TABLE Users (uid BIGINT NOT NULL PRIMARY KEY, email TEXT, age BIGINT, active BOOLEAN)");
    ask("CREATE TABLE Albums (uid BIGINT NOT NULL, aid BIGINT NOT NULL, name TEXT, price BIGINT, PRIMARY KEY (uid, aid))");
    ask("CREATE TABLE Songs (uid BIGINT NOT NULL, aid BIGINT NOT NULL, sid BIGINT NOT NULL, title TEXT, secs BIGINT, PRIMARY KEY (uid, aid, sid))");
    load(folder, "Users");
    load(folder, "Albums");
    load(folder, "Songs");
}

int main(int count, char **words) {
    if (count != 3) return 2;
    connection = PQconnectdb(words[2]);
    if (PQstatus(connection) != CONNECTION_OK) stop(words[2]);
    double begun = now();
    load_all(words[1]);
    double taken = now() - begun;
    ask("VACUUM ANALYZE");
    ask("SET max_parallel_workers_per_gather = 0");
    printf("%f\n", taken);
    fflush(stdout);
    char *line = 0;
    size_t capacity = 0;
    for (long length; (length = getline(&line, &capacity, stdin)) > 0;) {
        line[length - 1] = 0;
        char *text = strchr(line, '\t');
        if (!text) return 2;
        *text++ = 0;
        long times = atol(line), rows = 0;
        if (times < 1) return 2;
        begun = now();
        for (long done = 0; done < times; done++) rows = ask(text);
        printf("%f\t%ld\n", (now() - begun) / times, rows);
        fflush(stdout);
    }
    free(line);
    PQfinish(connection);
    return 0;
}
