/* The store over LMDB: one table of pools by their names, and one of objects by pool and serial. */
#include <lmdb.h>
#include <string.h>

#include "store.h"

struct key {
    uint64_t pool;
    uint64_t serial;
};

struct object {
    uint64_t number;
    uint64_t reference;
};

struct pool {
    uint64_t number;
    uint64_t count;
};

static MDB_env *env;
static MDB_dbi pools_table, objects_table;
static MDB_txn *reading, *writing;
static char last_name[NAME_BYTES];

static void good(int result)
{
    want(result == 0, mdb_strerror(result));
}

static MDB_val bytes(const void *of, size_t count)
{
    return (MDB_val){count, (void *)of};
}

static void open_env(const char *folder)
{
    good(mdb_env_create(&env));
    good(mdb_env_set_maxdbs(env, 2));
    good(mdb_env_set_mapsize(env, 64 << 20));
    good(mdb_env_open(env, folder, 0, 0600));
    good(mdb_txn_begin(env, NULL, 0, &writing));
    good(mdb_dbi_open(writing, "pools", MDB_CREATE, &pools_table));
    good(mdb_dbi_open(writing, "objects", MDB_CREATE, &objects_table));
}

/* The transaction by which a call reads: the one that writes, if there is one. */
static MDB_txn *begin_read(void)
{
    if (writing)
        return writing;
    if (reading)
        good(mdb_txn_renew(reading));
    else
        good(mdb_txn_begin(env, NULL, MDB_RDONLY, &reading));
    return reading;
}

static void end_read(void)
{
    if (!writing)
        mdb_txn_reset(reading);
}

void store_make(const char *folder, int pools, uint64_t objects)
{
    open_env(folder);
    for (int pool = 0; pool < pools; pool++) {
        char name[NAME_BYTES];
        pool_name(pool, pools, name);
        struct pool made = {pool, 0};
        MDB_val key = bytes(name, strlen(name)), value = bytes(&made, sizeof made);
        good(mdb_put(writing, pools_table, &key, &value, 0));
    }
    strcpy(last_name, "a");
    for (uint64_t n = 0; n < objects; n++)
        store_set(pools - 1, store_new(pools - 1), 0, n);
    store_commit(0);
    mdb_env_close(env);
}

void store_open(const char *folder)
{
    open_env(folder);
    store_commit(0);
}

void store_close(void)
{
    mdb_env_close(env);
}

int store_find(const char *name)
{
    MDB_val key = bytes(name, strlen(name)), value;
    int found = mdb_get(begin_read(), pools_table, &key, &value) == 0;
    int pool = found ? (int)((struct pool *)value.mv_data)->number : NO_POOL;
    end_read();
    strncpy(last_name, name, NAME_BYTES - 1);
    return pool;
}

int store_get(int pool, uint64_t serial, int field, uint64_t *value)
{
    struct key at = {pool, serial};
    MDB_val key = bytes(&at, sizeof at), found;
    int there = mdb_get(begin_read(), objects_table, &key, &found) == 0;
    if (there)
        *value = field ? ((struct object *)found.mv_data)->reference : ((struct object *)found.mv_data)->number;
    end_read();
    return there;
}

void store_begin(int pool)
{
    (void)pool;
    good(mdb_txn_begin(env, NULL, 0, &writing));
}

void store_commit(int pool)
{
    (void)pool;
    good(mdb_txn_commit(writing));
    writing = NULL;
}

int store_set(int pool, uint64_t serial, int field, uint64_t value)
{
    struct key at = {pool, serial};
    MDB_val key = bytes(&at, sizeof at), found;
    if (mdb_get(writing, objects_table, &key, &found) != 0)
        return 0;
    struct object object = *(struct object *)found.mv_data;
    *(field ? &object.reference : &object.number) = value;
    MDB_val now = bytes(&object, sizeof object);
    good(mdb_put(writing, objects_table, &key, &now, 0));
    return 1;
}

uint64_t store_new(int pool)
{
    MDB_val name = bytes(last_name, strlen(last_name)), found;
    good(mdb_get(writing, pools_table, &name, &found));
    struct pool in = *(struct pool *)found.mv_data;
    in.count++;
    MDB_val now = bytes(&in, sizeof in);
    good(mdb_put(writing, pools_table, &name, &now, 0));
    struct key at = {pool, in.count};
    struct object made = {0, 0};
    MDB_val key = bytes(&at, sizeof at), value = bytes(&made, sizeof made);
    good(mdb_put(writing, objects_table, &key, &value, 0));
    return in.count;
}
