/* The store over PMDK (libpmemobj): each object is an allocation, and each pool has a table of its objects by serial. */
#include <libpmemobj.h>
#include <stddef.h>
#include <stdio.h>
#include <string.h>

#include "store.h"

#define OBJECTS 1024

struct object {
    uint64_t serial;
    uint64_t number;
    uint64_t reference;
};

struct pool {
    char name[NAME_BYTES];
    uint64_t count;
    PMEMoid objects[OBJECTS];
};

struct root {
    struct pool pools[POOLS];
};

static PMEMobjpool *file;
static struct root *root;

static const char *path(const char *folder)
{
    static char text[4096];
    snprintf(text, sizeof text, "%s/store.pmdk", folder);
    return text;
}

static void find_root(void)
{
    want(file != NULL, pmemobj_errormsg());
    root = pmemobj_direct(pmemobj_root(file, sizeof *root));
}

static struct object *object(int pool, uint64_t serial)
{
    struct pool *in = &root->pools[pool];
    if (serial == 0 || serial > in->count)
        return NULL;
    return pmemobj_direct(in->objects[serial - 1]);
}

void store_make(const char *folder, int pools, uint64_t objects)
{
    file = pmemobj_create(path(folder), "store", 16 * PMEMOBJ_MIN_POOL, 0600);
    find_root();
    for (int pool = 0; pool < pools; pool++)
        pool_name(pool, pools, root->pools[pool].name);
    pmemobj_persist(file, root, sizeof *root);
    for (uint64_t n = 0; n < objects; n++) {
        store_begin(pools - 1);
        store_set(pools - 1, store_new(pools - 1), 0, n);
        store_commit(pools - 1);
    }
    pmemobj_close(file);
}

void store_open(const char *folder)
{
    file = pmemobj_open(path(folder), "store");
    find_root();
}

void store_close(void)
{
    pmemobj_close(file);
}

int store_find(const char *name)
{
    for (int pool = 0; pool < POOLS; pool++)
        if (!strcmp(root->pools[pool].name, name))
            return pool;
    return NO_POOL;
}

int store_get(int pool, uint64_t serial, int field, uint64_t *value)
{
    struct object *found = object(pool, serial);
    if (found)
        *value = field ? found->reference : found->number;
    return found != NULL;
}

void store_begin(int pool)
{
    (void)pool;
    want(pmemobj_tx_begin(file, NULL, TX_PARAM_NONE) == 0, "no transaction began");
}

void store_commit(int pool)
{
    (void)pool;
    pmemobj_tx_commit();
    want(pmemobj_tx_end() == 0, "the transaction was not committed");
}

int store_set(int pool, uint64_t serial, int field, uint64_t value)
{
    struct object *found = object(pool, serial);
    if (!found)
        return 0;
    uint64_t *word = field ? &found->reference : &found->number;
    pmemobj_tx_add_range_direct(word, sizeof *word);
    *word = value;
    return 1;
}

uint64_t store_new(int pool)
{
    struct pool *in = &root->pools[pool];
    want(in->count < OBJECTS, "the pool is full");
    PMEMoid made = pmemobj_tx_zalloc(sizeof(struct object), 1);
    pmemobj_tx_add_range_direct(&in->count, sizeof in->count);
    pmemobj_tx_add_range_direct(&in->objects[in->count], sizeof made);
    in->objects[in->count++] = made;
    ((struct object *)pmemobj_direct(made))->serial = in->count;
    return in->count;
}
