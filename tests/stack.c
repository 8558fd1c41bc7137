/* How much stack each of the library's functions takes, on a painted stack: tests/stack builds and runs this.
 *
 * Every call is made with its least and its longest inputs, and with lengths whose padding takes a block of its own; the deepest counts. A
 * ceiling for each call is read from standard input, as lines `CALL|HMAC_DRBG|Hash_DRBG`, and no call may go below it; no ceiling may be
 * missing, or without a call. Then the same is measured with 512 bytes more in the caller's frame, which must be seen: a ceiling that a
 * local of 512 bytes does not break is none.
 *
 * The last line is 'N passed, M failed'. `stack depths` prints only the depths, for bench/stack. */
#include <stdint.h>
#include <stdio.h>
#include <string.h>

#include "painted.h"

enum { LOCAL = 512 };

/* A line of the table of ceilings has all calls of its name. One of the lengths between leaves HMAC_DRBG's hash 56 to 63 bytes of its last
 * block (33 stand behind the pad, before the strings), and one Hash_DRBG's (5 stand before them at an opening, 61 at a reseed, 56 at a
 * draw), so that the length at the padding's end takes a block of its own. */
static const struct call calls[] = {
    { "open", OPEN, 32, 16, 0, 0, 0 },
    { "open", OPEN, 40, 16, 0, 0, 0 },
    { "open", OPEN, 72, 16, 0, 0, 0 },
    { "open", OPEN, sizeof entropy, sizeof nonce, sizeof personalization, 0, 0 },
    { "reseed", RESEED, 32, 0, 0, 0, 0 },
    { "reseed", RESEED, 60, 0, 0, 0, 0 },
    { "reseed", RESEED, 90, 0, 0, 0, 0 },
    { "reseed", RESEED, sizeof entropy, 0, 0, sizeof additional, 0 },
    { "draw", DRAW, 0, 0, 0, 0, 0 },
    { "draw", DRAW, 0, 0, 0, 0, 16 },
    { "draw", DRAW, 0, 0, 0, 0, 127 },
    { "long draw", DRAW, 0, 0, 0, 0, 128 },
    { "long draw", DRAW, 0, 0, 0, 0, sizeof output },
    { "draw with additional input", DRAW, 0, 0, 0, 1, 0 },
    { "draw with additional input", DRAW, 0, 0, 0, 30, 16 },
    { "draw with additional input", DRAW, 0, 0, 0, sizeof additional, sizeof output },
    { "fresh draw", FRESH_DRAW, 32, 0, 0, 0, 0 },
    { "fresh draw", FRESH_DRAW, 60, 0, 0, 1, 16 },
    { "fresh draw", FRESH_DRAW, 90, 0, 0, 0, 16 },
    { "fresh draw", FRESH_DRAW, sizeof entropy, 0, 0, sizeof additional, sizeof output },
    { "inquire", INQUIRE, 0, 0, 0, 0, 0 },
    { "close", CLOSE, 0, 0, 0, 0, 0 },
    { "self test", SELF_TEST, 0, 0, 0, 0, 0 },
    { "wipe", WIPE, 0, 0, 0, 0, 0 },
};
enum { CALLS = sizeof calls / sizeof calls[0] };
static size_t local;

/* Runs on the painted stack; a local, where there is one, lies between the caller's frame and the call. */
static void run(void)
{
    CALLER_IS_HERE();
    if (local > 0)
        *(volatile uint8_t *)__builtin_alloca(local) = 0;
    make_the_call();
}

static unsigned passed, failed;

static void note(int held, const char *call, const char *what)
{
    if (held) {
        passed++;
        return;
    }
    failed++;
    printf("failed: %s, %s: %s\n", mechanism_name(), call, what);
}

static void nothing(void)
{
}

static size_t depth_of(const struct call *call)
{
    now = call;
    note(one_is_open(), call->name, "a generator is opened");
    size_t depth = run_painted(run, nothing);
    note(answer == PURANGSA_SERVED, call->name, "it is served");
    return depth;
}

/* Of all calls with this name. */
static size_t deepest_of(const char *name)
{
    size_t deepest = 0;
    for (const struct call *call = calls; call < calls + CALLS; call++)
        if (strcmp(call->name, name) == 0) {
            size_t depth = depth_of(call);
            deepest = depth > deepest ? depth : deepest;
        }
    return deepest;
}

/* The first line of its name. */
static int is_first(const struct call *call)
{
    return call == calls || strcmp(call->name, call[-1].name) != 0;
}

/* By call, and by mechanism. */
static struct {
    char name[64];
    size_t most[PURANGSA_HASH_DRBG + 1];
} ceilings[CALLS];
static size_t ceilings_told;

static void read_ceilings(void)
{
    size_t hmac, hash;
    while (ceilings_told < CALLS && scanf(" %63[^|]|%zu|%zu", ceilings[ceilings_told].name, &hmac, &hash) == 3) {
        ceilings[ceilings_told].most[PURANGSA_HMAC_DRBG] = hmac;
        ceilings[ceilings_told].most[PURANGSA_HASH_DRBG] = hash;
        ceilings_told++;
    }
    note(scanf(" %*c") == EOF, "all", "every line of the ceilings is one");
}

/* The deepest ceiling of the six calls is the header's number. */
static size_t deepest_ceiling(void)
{
    size_t deepest = 0;
    for (const struct call *call = calls; call < calls + CALLS; call++)
        for (size_t i = 0; i < ceilings_told; i++)
            if (call->kind <= CLOSE && strcmp(ceilings[i].name, call->name) == 0)
                for (uint64_t m = PURANGSA_HMAC_DRBG; m <= PURANGSA_HASH_DRBG; m++)
                    deepest = ceilings[i].most[m] > deepest ? ceilings[i].most[m] : deepest;
    return deepest;
}

/* 0 where there is none. */
static size_t ceiling_of(const char *name)
{
    for (size_t i = 0; i < ceilings_told; i++)
        if (strcmp(ceilings[i].name, name) == 0)
            return ceilings[i].most[mechanism];
    return 0;
}

static void hold(const struct call *call)
{
    local = 0;
    size_t depth = deepest_of(call->name), most = ceiling_of(call->name);
    local = LOCAL;
    size_t with_local = deepest_of(call->name);
    local = 0;
    printf("%s: %zu bytes of at most %zu; with a local of %d, %zu\n", call->name, depth, most, LOCAL, with_local);
    note(depth <= most, call->name, "it goes deeper than its ceiling, or has none");
    note(with_local > most, call->name, "a local of 512 bytes would not be seen");
}

int main(int count, char **words)
{
    int only_depths = count > 1 && strcmp(words[1], "depths") == 0;
    unsigned names = 0;
    for (const struct call *call = calls; call < calls + CALLS; call++)
        names += (unsigned)is_first(call);
    if (!only_depths) {
        read_ceilings();
        note(ceilings_told == names, "all", "each ceiling has its call");
        note(deepest_ceiling() == PURANGSA_MOST_STACK, "all", "the deepest ceiling is PURANGSA_MOST_STACK");
    }
    for (mechanism = PURANGSA_HMAC_DRBG; mechanism <= PURANGSA_HASH_DRBG; mechanism++) {
        if (!only_depths)
            printf("%s\n", mechanism_name());
        for (const struct call *call = calls; call < calls + CALLS; call++) {
            if (!is_first(call))
                continue;
            if (only_depths)
                printf("%s %s: %zu\n", mechanism_name(), call->name, deepest_of(call->name));
            else
                hold(call);
        }
    }
    if (only_depths)
        return failed > 0;
    printf("%u passed, %u failed\n", passed, failed);
    return passed > 0 && failed == 0 ? 0 : 1;
}
