/* The same calls by the C library: the statements of crates/tables, each prepared once, in WAL mode with full syncs. */
#include <sqlite3.h>
#include <stdio.h>
#include <stdlib.h>
#include <string.h>
#include <time.h>

static sqlite3 *db;
static sqlite3_stmt *at, *made, *add, *count, *first, *drop, *window, *begin, *commit;

static void must(int ok) { if (!ok) { fprintf(stderr, "%s\n", sqlite3_errmsg(db)); exit(1); } }
static sqlite3_stmt *prepared(const char *sql) { sqlite3_stmt *s; must(sqlite3_prepare_v2(db, sql, -1, &s, 0) == SQLITE_OK); return s; }
static long long now(void) { struct timespec t; clock_gettime(CLOCK_MONOTONIC, &t); return t.tv_sec * 1000000000LL + t.tv_nsec; }
static void text(sqlite3_stmt *s, int i, const char *v) { sqlite3_bind_text(s, i, v, -1, SQLITE_TRANSIENT); }
static void run(sqlite3_stmt *s) { must(sqlite3_step(s) == SQLITE_DONE); sqlite3_reset(s); }

static int find(const char *path) {
    text(at, 1, "studio/film"); text(at, 2, "refs/heads/main"); text(at, 3, path);
    int found = sqlite3_step(at) == SQLITE_ROW;
    sqlite3_reset(at);
    return found;
}

static long long make(const char *path) {
    run(begin);
    must(!find(path));
    text(made, 1, "studio/film");
    long long row = 0, id = 1;
    if (sqlite3_step(made) == SQLITE_ROW) { row = sqlite3_column_int64(made, 0); id = sqlite3_column_int64(made, 1) + 1; }
    sqlite3_reset(made);
    text(add, 1, "studio/film"); sqlite3_bind_int64(add, 2, id); text(add, 3, "refs/heads/main"); text(add, 4, path); text(add, 5, "ann"); sqlite3_bind_int64(add, 6, 1463500146);
    run(add);
    if (row) { sqlite3_bind_int64(count, 1, row); sqlite3_bind_int64(count, 2, id); run(count); }
    else { text(first, 1, "studio/film"); sqlite3_bind_int64(first, 2, id); run(first); }
    run(commit);
    return id;
}

static void row(int from, int size) {
    char path[32];
    long long start = now();
    for (int n = from; n < size; n++) { sprintf(path, "art/%d", n); make(path); }
    long long filled = (now() - start) / 1000000;
    start = now();
    for (int n = 0; n < 2000; n++) { sprintf(path, "art/%d", n % size); find(path); }
    long long found = (now() - start) / 2000;
    start = now();
    for (int n = 0; n < 500; n++) {
        text(window, 1, "studio/film"); sqlite3_bind_int64(window, 2, size / 4);
        while (sqlite3_step(window) == SQLITE_ROW)
            for (int c = 1; c < 4; c++) free(strdup((const char *)sqlite3_column_text(window, c)));
        sqlite3_reset(window);
    }
    long long windows = (now() - start) / 500, new = 0;
    for (int n = 0; n < 500; n++) {
        sprintf(path, "new/%d", n);
        start = now();
        long long id = make(path);
        new += now() - start;
        run(begin); text(drop, 1, "studio/film"); sqlite3_bind_int64(drop, 2, id); run(drop); run(commit);
    }
    printf("c %d filled_ms %lld found_ns %lld window_ns %lld new_ns %lld\n", size, filled, found, windows, new / 500);
}

int main(void) {
    must(sqlite3_open("peer.db", &db) == SQLITE_OK);
    sqlite3_exec(db, "PRAGMA journal_mode=WAL; PRAGMA synchronous=FULL; PRAGMA locking_mode=EXCLUSIVE;"
        "CREATE TABLE repos (name TEXT NOT NULL PRIMARY KEY, made INTEGER NOT NULL, used INTEGER NOT NULL) STRICT;"
        "CREATE TABLE locks (repo TEXT NOT NULL, id INTEGER NOT NULL, ref TEXT NOT NULL, path TEXT NOT NULL, owner TEXT NOT NULL, moment INTEGER NOT NULL, PRIMARY KEY (repo, id), UNIQUE (repo, ref, path)) STRICT", 0, 0, 0);
    at = prepared("SELECT id, ref, path, owner, moment FROM locks WHERE repo = ?1 AND ref = ?2 AND path = ?3 ORDER BY rowid");
    made = prepared("SELECT rowid, made FROM repos WHERE name = ?1 ORDER BY rowid");
    add = prepared("INSERT INTO locks (repo, id, ref, path, owner, moment) VALUES (?1, ?2, ?3, ?4, ?5, ?6)");
    count = prepared("UPDATE repos SET made = ?2 WHERE rowid = ?1");
    first = prepared("INSERT INTO repos (name, made, used) VALUES (?1, ?2, 0)");
    drop = prepared("DELETE FROM locks WHERE repo = ?1 AND id = ?2");
    window = prepared("SELECT id, ref, path, owner, moment FROM locks WHERE repo = ?1 AND id >= ?2 ORDER BY id, rowid LIMIT 64");
    begin = prepared("BEGIN IMMEDIATE");
    commit = prepared("COMMIT");
    row(0, 100);
    row(100, 10000);
    row(10000, 100000);
    return 0;
}
