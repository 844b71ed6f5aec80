/* The peer of `bp_bench_rows keeper|statements` on sqlite3's own library: the same table and texts, each prepared once, over a
 * file with a log (WAL) and full syncs, whose log is copied into it by `close` alone. Words:
 *
 *     keep_peer open FILE TIMES
 *     keep_peer load FILE TIMES
 *     keep_peer commit FILE MIX PUTS TIMES
 *     keep_peer close FILE MIX PUTS TIMES
 *
 * `load` has all rows in memory at its end. Prints how often it was done, or of `load` how many rows came. */
#include <sqlite3.h>
#include <stdio.h>
#include <stdlib.h>
#include <string.h>
#include <unistd.h>

static const char *const TABLE =
    "CREATE TABLE IF NOT EXISTS kept (kind INTEGER NOT NULL CHECK (kind BETWEEN 0 AND 255), "
    "k1 INTEGER NOT NULL CHECK (k1 BETWEEN 0 AND 4294967295), k2 INTEGER NOT NULL CHECK (k2 BETWEEN 0 AND 4294967295), "
    "body BLOB NOT NULL, PRIMARY KEY (kind, k1, k2)) STRICT";
static const char *const UPSERT =
    "INSERT INTO kept (kind, k1, k2, body) VALUES (?1, ?2, ?3, ?4) "
    "ON CONFLICT (kind, k1, k2) DO UPDATE SET body = excluded.body";
static const char *const ROWIDS = "SELECT rowid FROM kept ORDER BY rowid";
static const char *const ROWS = "SELECT kind, k1, k2, body FROM kept ORDER BY kind, k1, k2";

struct row {
    int kind, length;
    unsigned k1, k2;
    char *body;
};

static void stop(const char *why) {
    fprintf(stderr, "keep_peer: %s\n", why);
    exit(1);
}

static void run(sqlite3 *file, const char *text) {
    char *why = NULL;
    if (sqlite3_exec(file, text, NULL, NULL, &why) != SQLITE_OK) stop(why);
}

static sqlite3_stmt *prepared(sqlite3 *file, const char *text) {
    sqlite3_stmt *statement = NULL;
    if (sqlite3_prepare_v2(file, text, -1, &statement, NULL) != SQLITE_OK) stop(sqlite3_errmsg(file));
    return statement;
}

static sqlite3 *opened(const char *name) {
    sqlite3 *file = NULL;
    if (sqlite3_open(name, &file) != SQLITE_OK) stop("cannot open the file");
    run(file, "PRAGMA journal_mode = WAL");
    run(file, "PRAGMA synchronous = FULL");
    run(file, "PRAGMA wal_autocheckpoint = 0");
    return file;
}

static void *room(size_t length) {
    void *made = malloc(length > 0 ? length : 1);
    if (!made) stop("out of memory");
    return made;
}

/* The kind and length of a row of a mix. */
static struct row made_row(const char *mix, unsigned commit, unsigned at) {
    struct row row = {.k1 = commit, .k2 = at};
    unsigned place = at % 7;
    if (strcmp(mix, "small") == 0) row.kind = 5, row.length = 40;
    else if (strcmp(mix, "large") == 0) row.kind = 4, row.length = 20000;
    else if (strcmp(mix, "letters") != 0) stop("no such mix");
    else if (place == 0) row.kind = 3, row.length = 60;
    else if (place <= 3) row.kind = 4, row.length = 31000;
    else row.kind = 12, row.length = 9600;
    row.body = room(row.length);
    memset(row.body, row.kind, row.length);
    return row;
}

static void bind(sqlite3_stmt *upsert, const struct row *row) {
    sqlite3_bind_int(upsert, 1, row->kind);
    sqlite3_bind_int64(upsert, 2, row->k1);
    sqlite3_bind_int64(upsert, 3, row->k2);
    sqlite3_bind_blob(upsert, 4, row->body, row->length, SQLITE_STATIC);
}

static void commit(sqlite3 *file, sqlite3_stmt *upsert, const char *mix, unsigned puts, unsigned number) {
    struct row *rows = room(puts * sizeof *rows);
    for (unsigned at = 0; at < puts; at++) rows[at] = made_row(mix, number, at);
    run(file, "BEGIN");
    for (unsigned at = 0; at < puts; at++) {
        bind(upsert, &rows[at]);
        if (sqlite3_step(upsert) != SQLITE_DONE) stop(sqlite3_errmsg(file));
        sqlite3_reset(upsert);
    }
    run(file, "COMMIT");
    for (unsigned at = 0; at < puts; at++) free(rows[at].body);
    free(rows);
}

static unsigned long count_of(sqlite3 *file, const char *query) {
    unsigned long count = 0;
    sqlite3_stmt *select = prepared(file, query);
    while (sqlite3_step(select) == SQLITE_ROW) count++;
    sqlite3_finalize(select);
    return count;
}

static struct row given_row(sqlite3_stmt *select) {
    struct row row = {.kind = sqlite3_column_int(select, 0), .length = sqlite3_column_bytes(select, 3),
        .k1 = sqlite3_column_int64(select, 1), .k2 = sqlite3_column_int64(select, 2)};
    row.body = room(row.length);
    memcpy(row.body, sqlite3_column_blob(select, 3), row.length);
    return row;
}

/* All rows, had at once and let go. */
static unsigned long load(sqlite3 *file) {
    size_t count = 0, most = 1024;
    struct row *rows = room(most * sizeof *rows);
    sqlite3_stmt *select = prepared(file, ROWS);
    while (sqlite3_step(select) == SQLITE_ROW) {
        if (count == most && !(rows = realloc(rows, (most *= 2) * sizeof *rows))) stop("out of memory");
        rows[count++] = given_row(select);
    }
    sqlite3_finalize(select);
    for (size_t at = 0; at < count; at++) free(rows[at].body);
    free(rows);
    return count;
}

static unsigned long number(const char *word) { return strtoul(word, NULL, 10); }

static void open_times(const char *name, unsigned long times) {
    for (unsigned long time = 0; time < times; time++) {
        sqlite3 *file = opened(name);
        count_of(file, "SELECT name FROM sqlite_schema");
        sqlite3_close(file);
    }
}

/* What the first load of a keeper begins with. */
static void begin(sqlite3 *file) {
    run(file, TABLE);
    count_of(file, ROWIDS);
}

static unsigned long load_times(sqlite3 *file, unsigned long times) {
    unsigned long sum = 0;
    for (unsigned long time = 0; time < times; time++) {
        if (time == 0) begin(file);
        sum += load(file);
    }
    return sum;
}

static void commit_times(sqlite3 *file, const char *mix, unsigned puts, unsigned long times) {
    begin(file);
    sqlite3_stmt *upsert = prepared(file, UPSERT);
    for (unsigned long time = 0; time < times; time++) commit(file, upsert, mix, puts, time);
    sqlite3_finalize(upsert);
}

/* Without a close the log stays as it is, as where a process ends. */
static void leave(unsigned long told) {
    printf("%lu\n", told);
    fflush(stdout);
    _exit(0);
}

int main(int count, char **words) {
    const char *job = count > 1 ? words[1] : "";
    if (strcmp(job, "open") == 0 && count == 4) {
        open_times(words[2], number(words[3]));
        leave(number(words[3]));
    }
    if (strcmp(job, "load") == 0 && count == 4) leave(load_times(opened(words[2]), number(words[3])));
    if (count != 6) stop("open|load FILE TIMES, or commit|close FILE MIX PUTS TIMES");
    sqlite3 *file = opened(words[2]);
    unsigned long times = number(words[5]);
    if (strcmp(job, "commit") == 0) commit_times(file, words[3], number(words[4]), times);
    else if (strcmp(job, "close") == 0) commit_times(file, words[3], number(words[4]), 1);
    else stop("no such job");
    if (strcmp(job, "close") == 0 && times > 0 && sqlite3_close(file) != SQLITE_OK) stop("the file isn't closed");
    leave(times);
}
