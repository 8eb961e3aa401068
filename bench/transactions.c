/* The transaction of crates/transactions as SQL, on SQLite in memory with prepared statements: the same runs on standard input, the same lines on
   standard output, so that bench/transactions.py compares the answers as well as the times. Every transaction is granted here; the log has no limit. */
#include <inttypes.h>
#include <sqlite3.h>
#include <stdio.h>
#include <stdlib.h>

static sqlite3 *db;
static sqlite3_stmt *begin, *newest, *install, *commit, *empty;

static void must(int right) {
    if (!right) {
        fprintf(stderr, "transactions: %s\n", sqlite3_errmsg(db));
        exit(1);
    }
}

static sqlite3_stmt *prepared(const char *sql) {
    sqlite3_stmt *s;
    must(sqlite3_prepare_v3(db, sql, -1, SQLITE_PREPARE_PERSISTENT, &s, NULL) == SQLITE_OK);
    return s;
}

static void bind(sqlite3_stmt *s, int place, int64_t value) {
    must(sqlite3_bind_int64(s, place, value) == SQLITE_OK);
}

static void done(sqlite3_stmt *s) {
    must(sqlite3_step(s) == SQLITE_DONE);
    must(sqlite3_reset(s) == SQLITE_OK);
}

static uint64_t heard(uint64_t sum, uint32_t answer) {
    return sum % 4294967296 * 31 + answer;
}

/* The newest version of a key; where there is none, the start version. */
static uint64_t read_key(uint32_t key, uint64_t sum) {
    int64_t ordinal = 0, stamp = 0, value = 0;
    bind(newest, 1, key);
    int got = sqlite3_step(newest);
    if (got == SQLITE_ROW) {
        ordinal = sqlite3_column_int64(newest, 0);
        stamp = sqlite3_column_int64(newest, 1);
        value = sqlite3_column_int64(newest, 2);
    } else {
        must(got == SQLITE_DONE);
    }
    must(sqlite3_reset(newest) == SQLITE_OK);
    return heard(heard(heard(sum, ordinal), stamp), value);
}

static void run(uint32_t count, uint32_t every) {
    uint32_t clock = 0, granted = 0;
    uint64_t sum = 0;
    for (uint32_t i = 0; i < count; i++) {
        if (i % every == 0) {
            done(empty);
            clock = 0;
        }
        done(begin);
        clock++;
        sum = heard(sum, clock);
        sum = read_key(i % 64, sum);
        sum = read_key(i % 64 * 7 % 64, sum);
        clock++;
        bind(install, 1, i % 64 * 5 % 64);
        bind(install, 2, clock);
        bind(install, 3, -1 - (int64_t)(i % 65536));
        done(install);
        done(commit);
        sum = heard(sum, clock);
        granted++;
    }
    printf("%" PRIu32 " %" PRIu64 "\n", granted, sum);
}

int main(void) {
    uint32_t count, every;
    /* One thread and no statistics: SQLite at its fastest. */
    sqlite3_config(SQLITE_CONFIG_SINGLETHREAD);
    sqlite3_config(SQLITE_CONFIG_MEMSTATUS, 0);
    must(sqlite3_open(":memory:", &db) == SQLITE_OK);
    /* The primary key of a table without rowid is its index: the newest version of a key is one step down a tree. */
    must(sqlite3_exec(db, "CREATE TABLE version (key INTEGER, ordinal INTEGER, stamp INTEGER, value INTEGER, PRIMARY KEY (key, ordinal)) WITHOUT ROWID", NULL, NULL, NULL) == SQLITE_OK);
    begin = prepared("BEGIN");
    newest = prepared("SELECT ordinal, stamp, value FROM version WHERE key = ?1 ORDER BY ordinal DESC LIMIT 1");
    install = prepared("INSERT INTO version VALUES (?1, ifnull((SELECT max(ordinal) FROM version WHERE key = ?1), 0) + 1, ?2, ?3)");
    commit = prepared("COMMIT");
    empty = prepared("DELETE FROM version");
    while (scanf("%" SCNu32 "%" SCNu32, &count, &every) == 2 && every) {
        run(count, every);
    }
    return 0;
}
