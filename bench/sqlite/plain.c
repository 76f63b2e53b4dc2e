/* Makes puts, batches, gets and queries over libsqlite3 by the statements that the keeper in a file makes, each prepared
   once, with the same settings: a log, one sync a commit, the file locked, 2,000 pages kept. No block is encoded, no row is
   computed, and no script is read.
     plain FILE puts N        N puts of new keys, each two transactions
     plain FILE batches N     N batches of 100 puts of new keys, each two transactions
     plain FILE gets N        N gets, spread over the keys that are there
     plain FILE queries N     N queries of 10 of the 100 rows of a prefix, spread likewise
   Gets and queries write the seconds of processor and of the clock that they took, without the open. */
#include <openssl/sha.h>
#include <sqlite3.h>
#include <stdint.h>
#include <stdio.h>
#include <stdlib.h>
#include <string.h>
#include <time.h>

static const char *const TABLES =
    "CREATE TABLE meta (id INTEGER PRIMARY KEY, layout INTEGER NOT NULL, dirty INTEGER NOT NULL);"
    "CREATE TABLE block (cid BLOB PRIMARY KEY NOT NULL, bytes BLOB NOT NULL);"
    "CREATE TABLE mark (pos INTEGER PRIMARY KEY, cid BLOB NOT NULL UNIQUE);"
    "CREATE TABLE link (cid BLOB PRIMARY KEY NOT NULL);"
    "CREATE TABLE head (cid BLOB PRIMARY KEY NOT NULL, height BLOB NOT NULL);"
    "CREATE TABLE element (key BLOB NOT NULL, cid BLOB NOT NULL, value BLOB NOT NULL, priority BLOB NOT NULL, PRIMARY KEY (key, cid, value));"
    "CREATE TABLE tomb (key BLOB NOT NULL, id BLOB NOT NULL, PRIMARY KEY (key, id));"
    "CREATE TABLE value (key BLOB PRIMARY KEY NOT NULL, priority BLOB NOT NULL, value BLOB NOT NULL);"
    "CREATE TABLE winner (key BLOB PRIMARY KEY NOT NULL, cid BLOB NOT NULL);"
    "CREATE TABLE progress (id INTEGER PRIMARY KEY, upto BLOB NOT NULL);"
    "INSERT INTO meta (id, layout, dirty) VALUES (1, 2, 0)";

enum statement {
    BEGIN, COMMIT, HEADS, POSITION, BLOCK, HIDDEN, VALUE, LINKED, FROM, ABOVE,
    PUT_BLOCK, PUT_MARK, PUT_LINK, PUT_ELEMENT, PUT_VALUE, PUT_WINNER, DROP_HEAD, PUT_HEAD, STATEMENTS
};

static const char *const TEXTS[STATEMENTS] = {
    "BEGIN",
    "COMMIT",
    "SELECT cid, height FROM head ORDER BY cid",
    "SELECT pos FROM mark WHERE cid = ?1",
    "SELECT bytes FROM block WHERE cid = ?1",
    "SELECT 1 FROM tomb WHERE key = ?1 AND id = ?2",
    "SELECT key, priority, value FROM value WHERE key = ?1",
    "SELECT 1 FROM link WHERE cid = ?1",
    "SELECT key, priority, value FROM value WHERE key >= ?1 ORDER BY key LIMIT 1",
    "SELECT key, priority, value FROM value WHERE key > ?1 ORDER BY key LIMIT 1",
    "INSERT INTO block (cid, bytes) VALUES (?1, ?2)",
    "INSERT INTO mark (pos, cid) VALUES (?1, ?2)",
    "INSERT INTO link (cid) VALUES (?1)",
    "INSERT INTO element (key, cid, value, priority) VALUES (?1, ?2, ?3, ?4)",
    "INSERT INTO value (key, priority, value) VALUES (?1, ?2, ?3) ON CONFLICT (key) DO UPDATE SET priority = excluded.priority, value = excluded.value",
    "INSERT INTO winner (key, cid) VALUES (?1, ?2) ON CONFLICT (key) DO UPDATE SET cid = excluded.cid",
    "DELETE FROM head WHERE cid = ?1",
    "INSERT INTO head (cid, height) VALUES (?1, ?2)",
};

struct bytes {
    const void *at;
    int count;
};

static sqlite3 *db;
static sqlite3_stmt *statements[STATEMENTS];
static unsigned char old[32];

static void fail(const char *what) {
    fprintf(stderr, "plain: %s: %s\n", what, sqlite3_errmsg(db));
    exit(1);
}

static void script(const char *text) {
    if (sqlite3_exec(db, text, 0, 0, 0) != SQLITE_OK) fail(text);
}

/* Runs a statement with these bytes as its last parameters, and gives how many rows it has. The first row's first bytes
   are copied to `found`, where that is asked for. */
static int run(enum statement kind, int count, const struct bytes *parameters, struct bytes *found) {
    sqlite3_stmt *it = statements[kind];
    int rows = 0, step, first = sqlite3_bind_parameter_count(it) - count;
    for (int i = 0; i < count; i++)
        sqlite3_bind_blob(it, first + i + 1, parameters[i].at, parameters[i].count, SQLITE_STATIC);
    while ((step = sqlite3_step(it)) == SQLITE_ROW) {
        if (found && rows == 0) {
            found->count = sqlite3_column_bytes(it, 0);
            memcpy((void *)found->at, sqlite3_column_blob(it, 0), found->count);
        }
        rows++;
    }
    if (step != SQLITE_DONE) fail(TEXTS[kind]);
    sqlite3_reset(it);
    return rows;
}

static void big_endian(uint64_t number, unsigned char *out) {
    for (int i = 0; i < 8; i++) out[i] = number >> (56 - 8 * i);
}

static int key_of(long number, char *out) { return sprintf(out, "/k/%ld/%ld", number / 100, number % 100); }

/* Puts of the keys from `first` on, all in one block, which is the `height`-th. */
static void put(long first, long count, long height) {
    unsigned char *block = malloc(80 + 64 * count), cid[32], id[58], priority[8], value[16] = {0};
    char key[32];
    int length = 80, key_length;
    memset(block, 0x0a, 80 + 64 * count);
    memcpy(block, old, 32);
    for (long i = 0; i < count; i++) length += key_of(first + i, (char *)block + length) + 24;
    if (count == 1) length = 84;
    SHA256(block, length, cid);
    memset(id, 'b', sizeof id);
    memcpy(id, cid, 32);
    big_endian(height, priority);
    struct bytes a_cid = {cid, 32}, an_old = {old, 32}, an_id = {id, 58}, a_priority = {priority, 8}, a_value = {value, 16};

    run(HEADS, 0, 0, 0);
    run(POSITION, 1, &a_cid, 0);
    run(BLOCK, 1, &a_cid, 0);
    for (long i = 0; i < count; i++) {
        key_length = key_of(first + i, key);
        struct bytes a_key = {key, key_length};
        run(HIDDEN, 2, (struct bytes[]){a_key, an_id}, 0);
        run(VALUE, 1, &a_key, 0);
    }
    run(LINKED, 1, &an_old, 0);
    run(POSITION, 1, &an_old, 0);
    run(LINKED, 1, &a_cid, 0);

    run(BEGIN, 0, 0, 0);
    run(PUT_BLOCK, 2, (struct bytes[]){a_cid, {block, length}}, 0);
    run(COMMIT, 0, 0, 0);

    run(BEGIN, 0, 0, 0);
    sqlite3_bind_int64(statements[PUT_MARK], 1, height - 1);
    run(PUT_MARK, 1, &a_cid, 0);
    if (height > 1) run(PUT_LINK, 1, &an_old, 0);
    for (long i = 0; i < count; i++) {
        key_length = key_of(first + i, key);
        struct bytes a_key = {key, key_length};
        big_endian(first + i, value + 8);
        run(PUT_ELEMENT, 4, (struct bytes[]){a_key, a_cid, a_value, a_priority}, 0);
        run(PUT_VALUE, 3, (struct bytes[]){a_key, a_priority, a_value}, 0);
        run(PUT_WINNER, 2, (struct bytes[]){a_key, a_cid}, 0);
    }
    if (height > 1) run(DROP_HEAD, 1, &an_old, 0);
    run(PUT_HEAD, 2, (struct bytes[]){a_cid, a_priority}, 0);
    run(COMMIT, 0, 0, 0);
    memcpy(old, cid, 32);
    free(block);
}

static void get(long number) {
    char key[32];
    int length = key_of(number, key);
    if (run(VALUE, 1, &(struct bytes){key, length}, 0) != 1) fail("a key that is not there");
}

static void query(long number) {
    char key[64];
    struct bytes bound = {key, sprintf(key, "/k/%ld/", number / 100)};
    if (run(FROM, 1, &bound, &bound) != 1) fail("a key that is not there");
    for (int row = 1; row < 10; row++) run(ABOVE, 1, &bound, &bound);
}

static double seconds(clockid_t clock) {
    struct timespec now;
    clock_gettime(clock, &now);
    return now.tv_sec + now.tv_nsec / 1e9;
}

int main(int count, char **words) {
    if (count != 4) return 2;
    long number = atol(words[3]), keys;
    int writes = !strcmp(words[2], "puts") || !strcmp(words[2], "batches");
    if (sqlite3_open(words[1], &db) != SQLITE_OK) fail(words[1]);
    script("PRAGMA locking_mode = exclusive; PRAGMA journal_mode = wal; PRAGMA synchronous = full; PRAGMA cache_size = 2000");
    if (writes) script(TABLES);
    for (int kind = 0; kind < STATEMENTS; kind++)
        if (sqlite3_prepare_v2(db, TEXTS[kind], -1, &statements[kind], 0) != SQLITE_OK) fail(TEXTS[kind]);
    sqlite3_stmt *counted;
    sqlite3_prepare_v2(db, "SELECT count(*) FROM value", -1, &counted, 0);
    sqlite3_step(counted);
    keys = sqlite3_column_int64(counted, 0);
    sqlite3_finalize(counted);
    double processor = seconds(CLOCK_PROCESS_CPUTIME_ID), clock = seconds(CLOCK_MONOTONIC);
    for (long i = 0; i < number; i++) {
        if (!strcmp(words[2], "puts")) put(i, 1, i + 1);
        if (!strcmp(words[2], "batches")) put(100 * i, 100, i + 1);
        if (!strcmp(words[2], "gets")) get(i * 7919 % keys);
        if (!strcmp(words[2], "queries")) query(i * 7919 % keys);
    }
    if (!writes) printf("%f %f\n", seconds(CLOCK_PROCESS_CPUTIME_ID) - processor, seconds(CLOCK_MONOTONIC) - clock);
    for (int kind = 0; kind < STATEMENTS; kind++) sqlite3_finalize(statements[kind]);
    return sqlite3_close(db) == SQLITE_OK ? 0 : 1;
}
