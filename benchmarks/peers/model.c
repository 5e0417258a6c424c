/* The store of script.c in plain C, by puddle's design: an undo log in the same file, each step made durable before the
 * next one by a write of the lines that changed and a sync of the file's data. It checks nothing that is stored, and
 * shows what the design costs by itself. It recovers no file: the benchmark never stops a transaction.
 *
 * The file: a log of LOG_WORDS words, whose first word is the gate (state and number of entries) and whose entries are
 * an address, a kind and a value; then for each pool its name in three words and its next serial; then the objects of
 * each pool, in three words each: serial, number, reference.
 */
#include <fcntl.h>
#include <stdio.h>
#include <stdlib.h>
#include <string.h>
#include <unistd.h>

#include "store.h"

#define LINE_WORDS 8
#define LOG_WORDS 1024
#define POOL_WORDS 4
#define OBJECTS 1024
#define OBJECT_WORDS 3
#define POOLS_AT LOG_WORDS
#define OBJECTS_AT (POOLS_AT + POOLS * POOL_WORDS)
#define WORDS (OBJECTS_AT + POOLS * OBJECTS * OBJECT_WORDS)
#define MAX_LINES 512

enum state { CLOSED, RUNNING, COMMITTING };
enum kind { UNDO, REDO };

static uint64_t words[WORDS];
static int file = -1;
static uint32_t changed[MAX_LINES];
static int lines;
static uint64_t entries;

static void store(uint64_t at, uint64_t value)
{
    uint32_t line = at / LINE_WORDS;
    words[at] = value;
    for (int i = 0; i < lines; i++)
        if (changed[i] == line)
            return;
    want(lines < MAX_LINES, "too many lines");
    changed[lines++] = line;
}

/* Makes all that was stored durable. */
static void fence(void)
{
    for (int i = 0; i < lines; i++) {
        off_t at = (off_t)changed[i] * LINE_WORDS * 8;
        want(pwrite(file, words + (size_t)changed[i] * LINE_WORDS, LINE_WORDS * 8, at) == LINE_WORDS * 8, "write");
    }
    lines = 0;
    want(fdatasync(file) == 0, "sync");
}

static void gate(enum state state)
{
    store(0, state + 4 * entries);
    fence();
}

/* Puts an entry at the end of the log. It counts once the gate is durable. */
static void log_word(uint64_t at, enum kind kind, uint64_t value)
{
    uint64_t *entry = words + LINE_WORDS + 3 * entries;
    want(3 * entries + LINE_WORDS + 3 <= LOG_WORDS, "the log is full");
    store(entry - words, at);
    store(entry - words + 1, kind);
    store(entry - words + 2, value);
    entries++;
}

static void logged(void)
{
    fence();
    gate(RUNNING);
}

static uint64_t pool_at(int pool)
{
    return POOLS_AT + (uint64_t)pool * POOL_WORDS;
}

/* The first word of an object, or 0 if there is none of this serial. */
static uint64_t object_at(int pool, uint64_t serial)
{
    uint64_t at = OBJECTS_AT + ((uint64_t)pool * OBJECTS + serial - 1) * OBJECT_WORDS;
    return serial >= 1 && serial <= OBJECTS && words[at] == serial ? at : 0;
}

static void open_file(const char *folder, int flags)
{
    char path[4096];
    snprintf(path, sizeof path, "%s/model.pm", folder);
    file = open(path, flags, 0600);
    want(file >= 0, "open");
}

void store_make(const char *folder, int pools, uint64_t objects)
{
    open_file(folder, O_RDWR | O_CREAT | O_TRUNC);
    for (int pool = 0; pool < pools; pool++) {
        pool_name(pool, pools, (char *)(words + pool_at(pool)));
        words[pool_at(pool) + 3] = 1;
    }
    for (uint64_t serial = 1; serial <= objects; serial++) {
        words[OBJECTS_AT + ((uint64_t)(pools - 1) * OBJECTS + serial - 1) * OBJECT_WORDS] = serial;
        words[pool_at(pools - 1) + 3] = serial + 1;
    }
    want(write(file, words, sizeof words) == sizeof words, "write");
    want(fsync(file) == 0, "sync");
}

/* Reads the file, and writes it again, as puddle does: what was read need not be on the disk. */
void store_open(const char *folder)
{
    open_file(folder, O_RDWR);
    want(pread(file, words, sizeof words, 0) == sizeof words, "read");
    want(pwrite(file, words, sizeof words, 0) == sizeof words, "write");
    want(fdatasync(file) == 0, "sync");
}

void store_close(void)
{
    close(file);
}

int store_find(const char *name)
{
    char wanted[NAME_BYTES] = {0};
    strncpy(wanted, name, NAME_BYTES - 1);
    for (int pool = 0; pool < POOLS; pool++)
        if (!memcmp(words + pool_at(pool), wanted, NAME_BYTES))
            return pool;
    return NO_POOL;
}

int store_get(int pool, uint64_t serial, int field, uint64_t *value)
{
    uint64_t at = object_at(pool, serial);
    if (at && (field == 0 || field == 1))
        *value = words[at + 1 + field];
    return at && (field == 0 || field == 1);
}

void store_begin(int pool)
{
    (void)pool;
    entries = 0;
    gate(RUNNING);
}

int store_set(int pool, uint64_t serial, int field, uint64_t value)
{
    uint64_t at = object_at(pool, serial);
    if (!at || field < 0 || field > 1)
        return 0;
    log_word(at + 1 + field, UNDO, words[at + 1 + field]);
    logged();
    store(at + 1 + field, value);
    return 1;
}

uint64_t store_new(int pool)
{
    uint64_t next = pool_at(pool) + 3, serial = words[next];
    uint64_t at = OBJECTS_AT + ((uint64_t)pool * OBJECTS + serial - 1) * OBJECT_WORDS;
    want(serial <= OBJECTS, "the pool is full");
    for (int word = 0; word < OBJECT_WORDS; word++)
        log_word(at + word, UNDO, words[at + word]);
    log_word(next, UNDO, serial);
    logged();
    store(at, serial);
    store(at + 1, 0);
    store(at + 2, 0);
    store(next, serial + 1);
    return serial;
}

void store_commit(int pool)
{
    (void)pool;
    fence();
    gate(COMMITTING);
    entries = 0;
    gate(CLOSED);
}
