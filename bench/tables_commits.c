/* The statements that settle a request, by libsqlite3: prepared once, one transaction a request,
 * WAL, synchronous FULL, tables and indexes as a desk has them. It prints microseconds a request at
 * 1,000, 10,000 and so on settled requests, up to MOST: tables_commits MOST PATH WHAT
 *
 *   all     those of the stream `one`, with the queries that come before the transaction
 *   commit  the same without the queries
 *   tick    those of a Tick at which nothing moves: no query, no line
 *   report  those of a report of one measurement: no query, no line */
#include <sqlite3.h>
#include <stdio.h>
#include <stdlib.h>
#include <string.h>
#include <time.h>

enum { CALLER, KEPT, SERVICE, LINE, KEPT_TICK, KEPT_REPORT, MEASUREMENT, TALLY, STATEMENTS };
/* The last one is asked before a start alone, which is each fourth request. */
enum { SETTLED, STANDING, BOUND, OPEN_RUNS, IS_BOUND, QUERIES };

static const char *SCHEMA =
    "CREATE TABLE caller (name TEXT NOT NULL PRIMARY KEY, settled INTEGER NOT NULL) STRICT;"
    "CREATE TABLE kept (caller TEXT NOT NULL REFERENCES caller (name), number INTEGER NOT NULL,"
    " command TEXT NOT NULL, status INTEGER NOT NULL, body TEXT NOT NULL,"
    " PRIMARY KEY (caller, number)) STRICT;"
    "CREATE TABLE service (name TEXT NOT NULL PRIMARY KEY, spec TEXT NOT NULL,"
    " stable TEXT NOT NULL, version TEXT NOT NULL, state INTEGER NOT NULL, step INTEGER NOT NULL,"
    " entered INTEGER NOT NULL, hold INTEGER NOT NULL, background INTEGER NOT NULL,"
    " runs INTEGER NOT NULL, last INTEGER NOT NULL) STRICT;"
    "CREATE TABLE history (place INTEGER NOT NULL PRIMARY KEY AUTOINCREMENT, service TEXT NOT NULL,"
    " moment INTEGER NOT NULL, line TEXT NOT NULL) STRICT;"
    "CREATE INDEX history_service ON history (service);"
    "CREATE TABLE run (service TEXT NOT NULL REFERENCES service (name), number INTEGER NOT NULL,"
    " step INTEGER, started INTEGER NOT NULL, closed INTEGER, outside INTEGER NOT NULL,"
    " verdict INTEGER NOT NULL, PRIMARY KEY (service, number)) STRICT;"
    "CREATE INDEX run_open ON run (service, closed);"
    "CREATE TABLE binding (service TEXT NOT NULL REFERENCES service (name), run INTEGER NOT NULL,"
    " template TEXT NOT NULL, revision INTEGER NOT NULL,"
    " PRIMARY KEY (service, run, template)) STRICT;"
    "CREATE TABLE measurement (place INTEGER NOT NULL PRIMARY KEY AUTOINCREMENT,"
    " service TEXT NOT NULL, run INTEGER NOT NULL, metric INTEGER NOT NULL,"
    " ordinal INTEGER NOT NULL, taken INTEGER NOT NULL, phase INTEGER NOT NULL,"
    " outcome TEXT NOT NULL, UNIQUE (service, run, metric, ordinal)) STRICT;"
    "CREATE INDEX measurement_service ON measurement (service);"
    "CREATE TABLE tally (service TEXT NOT NULL, run INTEGER NOT NULL, metric INTEGER NOT NULL,"
    " counted INTEGER NOT NULL, failed INTEGER NOT NULL, inconclusive INTEGER NOT NULL,"
    " errors INTEGER NOT NULL, consecutive INTEGER NOT NULL, passes INTEGER NOT NULL,"
    " last INTEGER, PRIMARY KEY (service, run, metric)) STRICT;"
    "INSERT INTO caller (name, settled) VALUES ('ops', 0);"
    "INSERT INTO service (name, spec, stable, version, state, step, entered, hold, background,"
    " runs, last) VALUES ('checkout', '{}', 'v1', 'v1', 2, 0, 1, 0, 0, 0, 1);"
    "INSERT INTO tally VALUES ('checkout', 1, 0, 0, 0, 0, 0, 0, 0, NULL);";

static const char *TEXTS[STATEMENTS] = {
    "UPDATE caller SET settled = ?1 WHERE name = 'ops'",
    "INSERT INTO kept (caller, number, command, status, body) VALUES ('ops', ?1,"
    " '{\"promote\":{\"full\":false,\"service\":\"checkout\"}}', 200,"
    " '{\"code\":\"ok\",\"service\":\"checkout\",\"status\":\"Progressing\",\"weight\":20}')",
    "UPDATE service SET stable = 'v1', version = 'v2', state = 0, step = ?1 % 4, entered = ?1,"
    " hold = 0, background = 0, runs = 0, last = ?1 WHERE name = 'checkout'",
    "INSERT INTO history (service, moment, line) VALUES ('checkout', ?1, 'step 1 setWeight 20')",
    "INSERT INTO kept (caller, number, command, status, body) VALUES ('ops', ?1,"
    " '{\"tick\":{\"service\":\"web\"}}', 200,"
    " '{\"code\":\"ok\",\"service\":\"web\",\"status\":\"Paused\",\"step\":1,\"weight\":20}')",
    "INSERT INTO kept (caller, number, command, status, body) VALUES ('ops', ?1,"
    " '{\"report\":{\"entries\":[{\"metric\":\"m0\",\"ordinal\":10000,\"result\":7,"
    "\"taken\":1767225600}],\"run\":1,\"service\":\"web\"}}', 200,"
    " '{\"code\":\"ok\",\"phases\":[\"Successful\"],\"run\":1,\"service\":\"web\","
    "\"status\":\"Paused\",\"step\":1,\"verdict\":\"Running\",\"weight\":20}')",
    "INSERT INTO measurement (service, run, metric, ordinal, taken, phase, outcome)"
    " VALUES ('checkout', 1, 0, ?1, ?1, 1, '7')",
    "UPDATE tally SET counted = counted + 1, consecutive = 0, passes = passes + 1, last = ?1"
    " WHERE service = 'checkout' AND run = 1 AND metric = 0",
};

/* What is measured: its name, whether queries come before, and its statements in order. */
static const struct {
    const char *name;
    int with_queries;
    int count;
    int statements[STATEMENTS];
} WHAT[] = {
    {"all", 1, 4, {CALLER, KEPT, SERVICE, LINE}},
    {"commit", 0, 4, {CALLER, KEPT, SERVICE, LINE}},
    {"tick", 0, 3, {CALLER, KEPT_TICK, SERVICE}},
    {"report", 0, 5, {CALLER, KEPT_REPORT, SERVICE, MEASUREMENT, TALLY}},
};

static const char *QUERY_TEXTS[QUERIES] = {
    "SELECT settled FROM caller WHERE name = ?1 ORDER BY rowid",
    "SELECT spec, stable, version, state, step, entered, hold, background, runs, last"
    " FROM service WHERE name = ?1 ORDER BY rowid",
    "SELECT run, template, revision FROM binding WHERE service = ?1 AND run = 0 ORDER BY rowid",
    "SELECT number, step, started, closed, outside, verdict FROM run"
    " WHERE service = ?1 ORDER BY closed LIMIT 3",
    "SELECT template FROM binding WHERE service = ?1 AND run = 0 ORDER BY rowid",
};
static const char *ASKED[QUERIES] = {"ops", "checkout", "checkout", "checkout", "checkout"};

static sqlite3 *db;

static void check(int status) {
    if (status != SQLITE_OK && status != SQLITE_DONE && status != SQLITE_ROW) {
        fprintf(stderr, "tables_commits: %s\n", sqlite3_errmsg(db));
        exit(1);
    }
}

static void step(sqlite3_stmt *statement, int number) {
    check(sqlite3_bind_int(statement, 1, number));
    check(sqlite3_step(statement));
    check(sqlite3_reset(statement));
}

/* Each column of each row is looked at, as a program has to. */
static void ask(sqlite3_stmt *query, const char *name) {
    check(sqlite3_bind_text(query, 1, name, -1, SQLITE_STATIC));
    while (sqlite3_step(query) == SQLITE_ROW) {
        for (int i = 0; i < sqlite3_column_count(query); i++) {
            if (!sqlite3_column_text(query, i)) {
                fprintf(stderr, "tables_commits: out of memory\n");
                exit(1);
            }
        }
    }
    check(sqlite3_reset(query));
}

static double micros(void) {
    struct timespec now;
    clock_gettime(CLOCK_MONOTONIC, &now);
    return now.tv_sec * 1e6 + now.tv_nsec / 1e3;
}

/* The place in WHAT of that name, or the number of places. */
static unsigned what_of(const char *name) {
    unsigned what = 0;
    while (what < sizeof WHAT / sizeof *WHAT && strcmp(name, WHAT[what].name)) {
        what++;
    }
    return what;
}

static sqlite3_stmt *begin, *commit, *statements[STATEMENTS], *queries[QUERIES];

static void open_at(const char *path) {
    check(sqlite3_open(path, &db));
    check(sqlite3_exec(db, "PRAGMA journal_mode = WAL; PRAGMA synchronous = FULL;"
                           "PRAGMA foreign_keys = ON", 0, 0, 0));
    check(sqlite3_exec(db, SCHEMA, 0, 0, 0));
    check(sqlite3_prepare_v2(db, "BEGIN", -1, &begin, 0));
    check(sqlite3_prepare_v2(db, "COMMIT", -1, &commit, 0));
    for (int i = 0; i < STATEMENTS; i++) {
        check(sqlite3_prepare_v2(db, TEXTS[i], -1, &statements[i], 0));
    }
    for (int i = 0; i < QUERIES; i++) {
        check(sqlite3_prepare_v2(db, QUERY_TEXTS[i], -1, &queries[i], 0));
    }
}

static void settle(unsigned what, int number) {
    for (int i = 0; WHAT[what].with_queries && i < QUERIES; i++) {
        if (i != IS_BOUND || number % 4 == 0) {
            ask(queries[i], ASKED[i]);
        }
    }
    check(sqlite3_step(begin));
    check(sqlite3_reset(begin));
    for (int i = 0; i < WHAT[what].count; i++) {
        step(statements[WHAT[what].statements[i]], number);
    }
    check(sqlite3_step(commit));
    check(sqlite3_reset(commit));
}

int main(int count, char **words) {
    unsigned what = count == 4 ? what_of(words[3]) : sizeof WHAT / sizeof *WHAT;
    if (what == sizeof WHAT / sizeof *WHAT) {
        fprintf(stderr, "tables_commits: MOST, PATH, and all, commit, tick or report\n");
        return 2;
    }
    int most = atoi(words[1]);
    open_at(words[2]);
    double start = micros();
    for (int number = 1, from = 0, size = 1000; number <= most; number++) {
        settle(what, number);
        if (number == size || number == most) {
            printf("%8d %9.2f us a request\n", number, (micros() - start) / (number - from));
            start = micros();
            from = number;
            size *= 10;
        }
    }
    return 0;
}
