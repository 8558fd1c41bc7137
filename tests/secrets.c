/* Secrets in the compiled code, seen by valgrind's memcheck: tests/secrets builds this and runs it there.
 *
 * memcheck tells, bit by bit, what was computed from bytes that it holds undefined, and reports each conditional jump and
 * each address that depends on such a bit. So every secret is marked undefined before a call: entropy, nonce,
 * personalization, additional input, and the secret fields of every slot in use. What a caller may see of a call, its
 * answer, blocks and value and the other fields of the table, must be defined after it, and what it drew must not be:
 * otherwise a secret would have been lost from sight on the way.
 *
 * LEAK is 0, or the number of a deliberate leak, which memcheck must report:
 *   1  a jump on a drawn byte      2  an address made from a drawn byte      3  a public field that is marked secret,
 *   so that the library's own test of it is a jump on a secret
 *
 * `secrets calls` makes the calls only, for bench/stack, which sees what instructions they reach. */
#include <stdint.h>
#include <stdio.h>
#include <stdlib.h>
#include <string.h>

#include <valgrind/memcheck.h>

#include "purangsa.h"

#ifndef LEAK
#define LEAK 0
#endif

enum { INTERVAL = 8, LEAST_STRENGTH = 112 };

static uint8_t table[PURANGSA_TABLE_LENGTH], output[PURANGSA_MOST_REQUEST + 1];
static uint8_t entropy[PURANGSA_MOST_ENTROPY], nonce[PURANGSA_MOST_NONCE], personalization[PURANGSA_MOST_PERSONALIZATION];
static uint8_t additional[PURANGSA_MOST_ADDITIONAL + 1];
static uint64_t blocks, value;
static unsigned calls;
static int looking = 1;

static void fail(const char *why)
{
    fprintf(stderr, "secrets: call %u: %s\n", calls, why);
    exit(1);
}

/* The bytes of a field that are secret: HMAC_DRBG uses 32 of them, and the others are public zeros. */
static size_t secret_bytes(const uint8_t *slot)
{
    uint8_t mechanism = slot[PURANGSA_MECHANISM_AT];
    return mechanism == PURANGSA_HMAC_DRBG ? 32 : mechanism == PURANGSA_HASH_DRBG ? PURANGSA_FIELD_LENGTH : 0;
}

static void hide(void)
{
    VALGRIND_MAKE_MEM_UNDEFINED(entropy, sizeof entropy);
    VALGRIND_MAKE_MEM_UNDEFINED(nonce, sizeof nonce);
    VALGRIND_MAKE_MEM_UNDEFINED(personalization, sizeof personalization);
    VALGRIND_MAKE_MEM_UNDEFINED(additional, sizeof additional);
    for (uint8_t *slot = table; slot < table + PURANGSA_LAST_SERIAL_AT; slot += PURANGSA_SLOT_LENGTH) {
        VALGRIND_MAKE_MEM_UNDEFINED(slot + PURANGSA_FIRST_AT, secret_bytes(slot));
        VALGRIND_MAKE_MEM_UNDEFINED(slot + PURANGSA_SECOND_AT, secret_bytes(slot));
    }
}

/* memcheck reports what is not defined here as it does a jump. */
static void seen(const uint8_t *from, size_t length)
{
    VALGRIND_CHECK_MEM_IS_DEFINED(from, length);
}

static void hidden(const uint8_t *from, size_t length)
{
    for (size_t i = 0; looking && i < length; i++) {
        uint8_t undefined;
        if (VALGRIND_GET_VBITS(from + i, &undefined, 1) != 1 || undefined == 0)
            fail("what was made from secrets is held to be public");
    }
}

/* After each call. */
static void look(uint64_t answer, uint64_t expected)
{
    calls++;
    seen((uint8_t *)&answer, sizeof answer);
    seen((uint8_t *)&blocks, sizeof blocks);
    seen((uint8_t *)&value, sizeof value);
    for (uint8_t *slot = table; slot < table + PURANGSA_LAST_SERIAL_AT; slot += PURANGSA_SLOT_LENGTH) {
        size_t n = secret_bytes(slot);
        seen(slot, PURANGSA_FIRST_AT);
        hidden(slot + PURANGSA_FIRST_AT, n);
        seen(slot + PURANGSA_FIRST_AT + n, PURANGSA_FIELD_LENGTH - n);
        hidden(slot + PURANGSA_SECOND_AT, n);
        seen(slot + PURANGSA_SECOND_AT + n, PURANGSA_FIELD_LENGTH - n);
    }
    seen(table + PURANGSA_LAST_SERIAL_AT, PURANGSA_TABLE_LENGTH - PURANGSA_LAST_SERIAL_AT);
    if (answer != expected)
        fail("the answer is not the expected one");
}

/* What was drawn is a secret until the caller has it. */
static void drawn(size_t length)
{
    hidden(output, length);
#if LEAK == 1
    if (length > 0 && output[0] > 127)
        __asm__ volatile("" : : : "memory");
#elif LEAK == 2
    static volatile uint8_t any[257];
    if (length > 0)
        any[256] = any[output[0]];
#endif
    VALGRIND_MAKE_MEM_DEFINED(output, length);
}

/* A call, with every secret hidden before it; a table of one byte less is answered 1. */
static uint64_t open_as(size_t t, uint64_t mechanism, uint64_t strength, size_t e, size_t n, size_t p, uint64_t expected)
{
    hide();
    look(purangsa_open(table, t, mechanism, strength, INTERVAL, 1, entropy, e, nonce, n, personalization, p, &blocks, &value), expected);
    return value;
}

static void reseed(size_t t, uint64_t handle, size_t e, size_t a, uint64_t expected)
{
    hide();
    look(purangsa_reseed(table, t, handle, entropy, e, additional, a, &blocks, &value), expected);
}

static void draw(size_t t, uint64_t handle, size_t a, size_t length, uint64_t expected)
{
    hide();
#if LEAK == 3
    VALGRIND_MAKE_MEM_UNDEFINED(table + handle % PURANGSA_SLOTS * PURANGSA_SLOT_LENGTH + PURANGSA_COUNTER_AT, 8);
#endif
    look(purangsa_draw(table, t, handle, LEAST_STRENGTH, additional, a, output, length, &blocks, &value), expected);
    if (expected == PURANGSA_SERVED)
        drawn(length);
}

static void fresh_draw(size_t t, uint64_t handle, size_t e, size_t a, size_t length, uint64_t expected)
{
    hide();
    look(purangsa_fresh_draw(table, t, handle, LEAST_STRENGTH, entropy, e, additional, a, output, length, &blocks, &value), expected);
    if (expected == PURANGSA_SERVED)
        drawn(length);
}

static void close_as(size_t t, uint64_t handle, uint64_t expected)
{
    hide();
    look(purangsa_close(table, t, handle, &blocks, &value), expected);
}

static void inquire(size_t t, uint64_t handle, uint64_t expected)
{
    hide();
    look(purangsa_inquire(table, t, handle, &blocks, &value), expected);
}

/* Both sides of a block's end, of a hash's and of the limits, for each string. */
static const size_t lengths[] = { 16, 32, 55, 56, 64, 65, 119, 120, 1024 };
enum { LENGTHS = sizeof lengths / sizeof lengths[0] };
static const size_t requests[] = { 0, 1, 16, 32, 33, 128, 160, 1024 };
enum { REQUESTS = sizeof requests / sizeof requests[0] };

static uint64_t opened(size_t i)
{
    static const size_t personalizations[] = { 0, 1, 55, PURANGSA_MOST_PERSONALIZATION };
    static const uint64_t strengths[] = { 0, 128, 192, PURANGSA_MOST_STRENGTH };
    size_t e = lengths[i / 2 % LENGTHS];
    uint64_t mechanism = i % 2 == 0 ? PURANGSA_HMAC_DRBG : PURANGSA_HASH_DRBG, strength = e < 32 ? 0 : strengths[i / 2 % 4];
    size_t nonces[] = { purangsa_least_nonce(strength), 16, PURANGSA_MOST_NONCE };
    return open_as(PURANGSA_TABLE_LENGTH, mechanism, strength, e, nonces[i % 3], personalizations[i / 2 % 4], PURANGSA_SERVED);
}

/* All calls on a generator whose strings have the i-th lengths, and the requests in turn. */
static void live(uint64_t handle, size_t i)
{
    size_t e = lengths[i / 2 % LENGTHS], a = lengths[(i + 4) % LENGTHS];
    for (size_t k = 0; k < REQUESTS; k++)
        draw(PURANGSA_TABLE_LENGTH, handle, k % 2 == 0 ? 0 : a, requests[k], PURANGSA_SERVED);
    draw(PURANGSA_TABLE_LENGTH, handle, 0, 16, PURANGSA_RESEED_DUE);
    reseed(PURANGSA_TABLE_LENGTH, handle, e, i % 4 < 2 ? a : 0, PURANGSA_SERVED);
    for (size_t k = 0; k < REQUESTS; k++)
        fresh_draw(PURANGSA_TABLE_LENGTH, handle, e, k % 2 == 0 ? a : 0, requests[k], PURANGSA_SERVED);
    if (i < 2)
        draw(PURANGSA_TABLE_LENGTH, handle, 0, PURANGSA_MOST_REQUEST, PURANGSA_SERVED);
    inquire(PURANGSA_TABLE_LENGTH, handle, PURANGSA_SERVED);
}

static void refused(uint64_t handle)
{
    open_as(PURANGSA_TABLE_LENGTH - 1, PURANGSA_HMAC_DRBG, 0, 32, 8, 0, PURANGSA_TABLE_UNSOUND);
    open_as(PURANGSA_TABLE_LENGTH, PURANGSA_HASH_DRBG + 1, 0, 32, 8, 0, PURANGSA_BAD_MECHANISM);
    open_as(PURANGSA_TABLE_LENGTH, PURANGSA_HMAC_DRBG, PURANGSA_MOST_STRENGTH, 32, 15, 0, PURANGSA_BAD_NONCE);
    open_as(PURANGSA_TABLE_LENGTH, PURANGSA_HMAC_DRBG, PURANGSA_MOST_STRENGTH, 32, 16, 0, PURANGSA_NO_FREE_SLOT);
    reseed(PURANGSA_TABLE_LENGTH - 1, handle, 32, 0, PURANGSA_TABLE_UNSOUND);
    reseed(PURANGSA_TABLE_LENGTH, 0, 32, 0, PURANGSA_NO_SUCH_GENERATOR);
    reseed(PURANGSA_TABLE_LENGTH, handle, 32, PURANGSA_MOST_ADDITIONAL + 1, PURANGSA_LONG_ADDITIONAL);
    draw(PURANGSA_TABLE_LENGTH - 1, handle, 0, 16, PURANGSA_TABLE_UNSOUND);
    draw(PURANGSA_TABLE_LENGTH, handle, 0, PURANGSA_MOST_REQUEST + 1, PURANGSA_LONG_REQUEST);
    fresh_draw(PURANGSA_TABLE_LENGTH - 1, handle, 32, 0, 16, PURANGSA_TABLE_UNSOUND);
    fresh_draw(PURANGSA_TABLE_LENGTH, 0, 32, 0, 16, PURANGSA_NO_SUCH_GENERATOR);
    fresh_draw(PURANGSA_TABLE_LENGTH, handle, 32, 0, PURANGSA_MOST_REQUEST + 1, PURANGSA_LONG_REQUEST);
    close_as(PURANGSA_TABLE_LENGTH - 1, handle, PURANGSA_TABLE_UNSOUND);
    inquire(PURANGSA_TABLE_LENGTH - 1, handle, PURANGSA_TABLE_UNSOUND);
    inquire(PURANGSA_TABLE_LENGTH, 0, PURANGSA_NO_SUCH_GENERATOR);
}

int main(int count, char **words)
{
    looking = count < 2 || strcmp(words[1], "calls") != 0;
    if (looking && !RUNNING_ON_VALGRIND)
        fail("this is to be run under valgrind");
    for (size_t i = 0; i < sizeof entropy; i++)
        entropy[i] = additional[i] = (uint8_t)(7 * i + i / 251);
    memcpy(nonce, entropy, sizeof nonce);
    memcpy(personalization, entropy, sizeof personalization);

    uint64_t handles[PURANGSA_SLOTS];
    for (size_t i = 0; i < PURANGSA_SLOTS; i++)
        handles[i] = opened(i);
    for (size_t i = 0; i < PURANGSA_SLOTS; i++)
        live(handles[i], i);
    refused(handles[0]);
    for (size_t i = 0; i < PURANGSA_SLOTS; i++) {
        close_as(PURANGSA_TABLE_LENGTH, handles[i], PURANGSA_SERVED);
        draw(PURANGSA_TABLE_LENGTH, handles[i], 0, 16, PURANGSA_NO_SUCH_GENERATOR);
    }
    if (purangsa_self_test() != 0)
        fail("the library's test of itself fails");
    printf("%u calls\n", calls);
    return 0;
}
