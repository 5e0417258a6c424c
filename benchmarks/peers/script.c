/* Carries out a script on a store: the lines `client`, `get`, `begin`, `set`, `later`, `new` and `commit` of puddle.
 *
 *     PROGRAM make FOLDER POOLS OBJECTS    makes a store
 *     PROGRAM run FOLDER                   reads a script, and prints `ready` and then one reply a line
 *
 * A `later` sets the field at once: no peer defers values.
 */
#include <stdio.h>
#include <stdlib.h>
#include <string.h>

#include "store.h"

void want(int good, const char *what)
{
    if (!good) {
        fprintf(stderr, "%s\n", what);
        exit(1);
    }
}

void pool_name(int pool, int pools, char name[NAME_BYTES])
{
    memset(name, 0, NAME_BYTES);
    if (pool == pools - 1)
        strcpy(name, "a");
    else
        snprintf(name, NAME_BYTES, "b%d", pool);
}

/* The next word of a line, or an empty one. */
static char *word(char **line)
{
    char *found = strsep(line, " \n");
    return found ? found : "";
}

/* Reads a field, such as `62.0`. */
static uint64_t field_of(char *text, int *field)
{
    char *end;
    uint64_t serial = strtoull(text, &end, 10);
    *field = *end == '.' ? atoi(end + 1) : -1;
    return serial;
}

/* Reads a value: a number, or a reference such as `@62`. */
static uint64_t value_of(const char *text)
{
    return strtoull(text + (*text == '@'), NULL, 10);
}

static void reply(int good)
{
    puts(good ? "ok" : "no");
}

static void carry_out(char *line)
{
    char *command = word(&line);
    word(&line);
    if (!strcmp(command, "client")) {
        reply(1);
        return;
    }
    int pool = store_find(word(&line));
    if (pool == NO_POOL) {
        reply(0);
        return;
    }
    char *first = word(&line), *second = word(&line);
    int field;
    uint64_t value;
    if (!strcmp(command, "get")) {
        uint64_t serial = field_of(first, &field);
        if (store_get(pool, serial, field, &value))
            printf(field == 1 ? "ok @%llu\n" : "ok %llu\n", (unsigned long long)value);
        else
            reply(0);
    } else if (!strcmp(command, "begin")) {
        store_begin(pool);
        reply(1);
    } else if (!strcmp(command, "commit")) {
        store_commit(pool);
        reply(1);
    } else if (!strcmp(command, "set") || !strcmp(command, "later")) {
        uint64_t serial = field_of(first, &field);
        reply(store_set(pool, serial, field, value_of(second)));
    } else if (!strcmp(command, "new")) {
        printf("ok @%llu\n", (unsigned long long)store_new(pool));
    } else {
        reply(0);
    }
}

int main(int count, char **words)
{
    if (count == 5 && !strcmp(words[1], "make")) {
        store_make(words[2], atoi(words[3]), strtoull(words[4], NULL, 10));
        return 0;
    }
    want(count == 3 && !strcmp(words[1], "run"), "PROGRAM make FOLDER POOLS OBJECTS, or PROGRAM run FOLDER");
    store_open(words[2]);
    puts("ready");
    fflush(stdout);
    char *line = NULL;
    size_t room = 0;
    while (getline(&line, &room, stdin) > 0) {
        carry_out(line);
        fflush(stdout);
    }
    free(line);
    store_close();
    return 0;
}
