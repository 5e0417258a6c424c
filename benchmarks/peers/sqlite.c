/* The store over SQLite: a table of pools, and one of objects by pool and serial. Its journal is a write-ahead log. */
#include <sqlite3.h>
#include <stdio.h>

#include "store.h"

enum { FIND, GET_NUMBER, GET_REFERENCE, BEGIN, COMMIT, SET_NUMBER, SET_REFERENCE, COUNT, NEW, STATEMENTS };

static const char *const texts[STATEMENTS] = {
    [FIND] = "select number from pools where name = ?1",
    [GET_NUMBER] = "select number from objects where pool = ?1 and serial = ?2",
    [GET_REFERENCE] = "select reference from objects where pool = ?1 and serial = ?2",
    [BEGIN] = "begin immediate",
    [COMMIT] = "commit",
    [SET_NUMBER] = "update objects set number = ?3 where pool = ?1 and serial = ?2",
    [SET_REFERENCE] = "update objects set reference = ?3 where pool = ?1 and serial = ?2",
    [COUNT] = "update pools set count = count + 1 where number = ?1 returning count",
    [NEW] = "insert into objects values (?1, ?2, 0, 0)",
};

static sqlite3 *file;
static sqlite3_stmt *statements[STATEMENTS];

static void good(int result)
{
    want(result == SQLITE_OK || result == SQLITE_DONE || result == SQLITE_ROW, sqlite3_errmsg(file));
}

static void run(const char *text)
{
    good(sqlite3_exec(file, text, NULL, NULL, NULL));
}

static void open_file(const char *folder)
{
    char path[4096];
    snprintf(path, sizeof path, "%s/store.sqlite", folder);
    good(sqlite3_open(path, &file));
    run("pragma journal_mode = wal; pragma synchronous = full");
    run("create table if not exists pools (name text primary key, number integer, count integer) without rowid");
    run("create table if not exists objects (pool integer, serial integer, number integer, reference integer,"
        " primary key (pool, serial)) without rowid");
    for (int n = 0; n < STATEMENTS; n++)
        good(sqlite3_prepare_v2(file, texts[n], -1, &statements[n], NULL));
}

/* Runs a statement with these numbers. Returns whether it gave a row, and then its first column. */
static int step(int which, int count, uint64_t first, uint64_t second, uint64_t third, uint64_t *column)
{
    sqlite3_stmt *statement = statements[which];
    const uint64_t numbers[] = {first, second, third};
    for (int n = 0; n < count; n++)
        sqlite3_bind_int64(statement, n + 1, (sqlite3_int64)numbers[n]);
    int result = sqlite3_step(statement);
    good(result);
    if (result == SQLITE_ROW && column)
        *column = (uint64_t)sqlite3_column_int64(statement, 0);
    sqlite3_reset(statement);
    return result == SQLITE_ROW;
}

void store_make(const char *folder, int pools, uint64_t objects)
{
    open_file(folder);
    store_begin(0);
    for (int pool = 0; pool < pools; pool++) {
        char name[NAME_BYTES], text[128];
        pool_name(pool, pools, name);
        snprintf(text, sizeof text, "insert into pools values ('%s', %d, 0)", name, pool);
        run(text);
    }
    for (uint64_t n = 0; n < objects; n++)
        store_set(pools - 1, store_new(pools - 1), 0, n);
    store_commit(0);
    store_close();
}

void store_open(const char *folder)
{
    open_file(folder);
}

void store_close(void)
{
    for (int n = 0; n < STATEMENTS; n++)
        sqlite3_finalize(statements[n]);
    sqlite3_close(file);
}

int store_find(const char *name)
{
    uint64_t number;
    sqlite3_bind_text(statements[FIND], 1, name, -1, SQLITE_STATIC);
    return step(FIND, 0, 0, 0, 0, &number) ? (int)number : NO_POOL;
}

int store_get(int pool, uint64_t serial, int field, uint64_t *value)
{
    return step(field ? GET_REFERENCE : GET_NUMBER, 2, pool, serial, 0, value);
}

void store_begin(int pool)
{
    (void)pool;
    step(BEGIN, 0, 0, 0, 0, NULL);
}

void store_commit(int pool)
{
    (void)pool;
    step(COMMIT, 0, 0, 0, 0, NULL);
}

int store_set(int pool, uint64_t serial, int field, uint64_t value)
{
    step(field ? SET_REFERENCE : SET_NUMBER, 3, pool, serial, value, NULL);
    return sqlite3_changes(file) == 1;
}

uint64_t store_new(int pool)
{
    uint64_t serial = 0;
    step(COUNT, 1, pool, 0, 0, &serial);
    step(NEW, 2, pool, serial, 0, NULL);
    return serial;
}
