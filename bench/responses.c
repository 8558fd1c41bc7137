/* responses CASES MECHANISM ROUNDS: the calls of published cases through the library, each case from a table of zeros, all cases so many
 * times over. Prints the processor time in nanoseconds. bench/responses.py writes CASES, which is read and laid out before the clock
 * starts; every last draw must give the returned bytes. */
#include <stdio.h>
#include <stdlib.h>
#include <string.h>
#include <time.h>

#include "purangsa.h"

enum { RESEED = 2, DRAW = 3, FRESH_DRAW = 4 }; /* as bench/responses.py writes them */

struct string {
    const uint8_t *at;
    size_t length;
};

struct step {
    uint64_t kind;
    struct string entropy, additional;
};

struct test {
    uint64_t fresh;
    struct string entropy, nonce, personalization, returned;
    size_t count;
    struct step *steps;
};

static _Noreturn void fail(const char *why)
{
    fprintf(stderr, "responses: %s\n", why);
    exit(1);
}

static void *room(size_t bytes)
{
    void *at = malloc(bytes);
    if (at == NULL)
        fail("no memory");
    return at;
}

/* The file: numbers of four bytes, the lowest first, and strings, each a number and as many bytes. */
static uint8_t *next;

static size_t number(void)
{
    size_t value = next[0] | next[1] << 8 | next[2] << 16 | (size_t)next[3] << 24;
    next += 4;
    return value;
}

static struct string string(void)
{
    size_t length = number();
    struct string s = { next, length };
    next += length;
    return s;
}

static struct test test(void)
{
    struct test t = { .fresh = number() };
    t.entropy = string();
    t.nonce = string();
    t.personalization = string();
    t.returned = string();
    t.count = number();
    t.steps = room(t.count * sizeof *t.steps);
    for (size_t i = 0; i < t.count; i++) {
        t.steps[i].kind = number();
        t.steps[i].entropy = string();
        t.steps[i].additional = string();
    }
    return t;
}

static void load(const char *path)
{
    FILE *file = fopen(path, "rb");
    if (file == NULL || fseek(file, 0, SEEK_END) != 0)
        fail("the cases can't be read");
    long size = ftell(file);
    rewind(file);
    next = room((size_t)size);
    if (fread(next, 1, (size_t)size, file) != (size_t)size)
        fail("the cases can't be read");
    fclose(file);
}

static uint64_t step(uint8_t *table, uint64_t handle, const struct step *s, uint8_t *out, size_t length)
{
    uint64_t blocks, value;
    switch (s->kind) {
    case RESEED:
        return purangsa_reseed(table, PURANGSA_TABLE_LENGTH, handle, s->entropy.at, s->entropy.length, s->additional.at,
                               s->additional.length, &blocks, &value);
    case DRAW:
        return purangsa_draw(table, PURANGSA_TABLE_LENGTH, handle, 0, s->additional.at, s->additional.length, out, length, &blocks,
                             &value);
    default:
        return purangsa_fresh_draw(table, PURANGSA_TABLE_LENGTH, handle, 0, s->entropy.at, s->entropy.length, s->additional.at,
                                   s->additional.length, out, length, &blocks, &value);
    }
}

static void run(uint64_t mechanism, const struct test *t)
{
    static uint8_t table[PURANGSA_TABLE_LENGTH], out[PURANGSA_MOST_REQUEST];
    uint64_t blocks, handle;
    memset(table, 0, sizeof table);
    uint64_t answers = purangsa_open(table, sizeof table, mechanism, 0, PURANGSA_MOST_INTERVAL, t->fresh, t->entropy.at,
                                     t->entropy.length, t->nonce.at, t->nonce.length, t->personalization.at,
                                     t->personalization.length, &blocks, &handle);
    for (size_t i = 0; i < t->count; i++)
        answers |= step(table, handle, &t->steps[i], out, t->returned.length);
    if (answers != PURANGSA_SERVED || memcmp(out, t->returned.at, t->returned.length) != 0)
        fail("a case does not pass");
}

static uint64_t now(void)
{
    struct timespec t;
    clock_gettime(CLOCK_PROCESS_CPUTIME_ID, &t);
    return (uint64_t)t.tv_sec * 1000000000 + (uint64_t)t.tv_nsec;
}

int main(int words, char **word)
{
    if (words != 4)
        fail("usage: responses CASES MECHANISM ROUNDS");
    load(word[1]);
    uint64_t mechanism = strtoull(word[2], NULL, 10), rounds = strtoull(word[3], NULL, 10);
    size_t count = number();
    struct test *tests = room(count * sizeof *tests);
    for (size_t i = 0; i < count; i++)
        tests[i] = test();
    uint64_t began = now();
    for (uint64_t round = 0; round < rounds; round++)
        for (size_t i = 0; i < count; i++)
            run(mechanism, &tests[i]);
    printf("%llu\n", (unsigned long long)(now() - began));
}
