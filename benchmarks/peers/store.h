/* What a store must do to carry out the lines of a script. Each peer implements it in a file of its own.
 *
 * A store has at most 32 pools. A pool has objects, each with a serial from 1 on, a number and a reference to an object
 * of the same pool, or none (serial 0). Field 0 is the number, field 1 the reference.
 */
#ifndef STORE_H
#define STORE_H

#include <stdint.h>

#define POOLS 32
#define NAME_BYTES 24
#define NO_POOL (-1)

/* Makes a store in the folder, with this many pools. The last one is `a`, and has this many objects. The others have none. */
void store_make(const char *folder, int pools, uint64_t objects);

/* Opens the store in the folder. */
void store_open(const char *folder);

void store_close(void);

/* The number of the pool of this name, or NO_POOL. */
int store_find(const char *name);

/* Reads a field. Returns 0 if there is no such object. */
int store_get(int pool, uint64_t serial, int field, uint64_t *value);

/* Begins a transaction. All that is set and made before it is committed becomes durable together. */
void store_begin(int pool);

void store_commit(int pool);

/* Sets a field within a transaction. Returns 0 if there is no such object. */
int store_set(int pool, uint64_t serial, int field, uint64_t value);

/* Makes an object within a transaction, with the number 0 and no reference. Returns its serial. */
uint64_t store_new(int pool);

/* Ends the program with a message, unless `good`. */
void want(int good, const char *what);

/* The name of the pool of this number, among so many. */
void pool_name(int pool, int pools, char name[NAME_BYTES]);

#endif
