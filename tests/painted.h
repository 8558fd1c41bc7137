/* A stack that is painted before a function runs on it, so that every byte that the function touches is seen; and the library's calls by
 * their kinds and lengths. For tests/wiped.c and tests/stack.c. */
#ifndef PAINTED_H
#define PAINTED_H

#include <stddef.h>
#include <stdint.h>
#include <string.h>
#include <ucontext.h>

#include "purangsa.h"

enum { PAINT = 0xa5, STACK_LENGTH = 65536 };
static uint8_t stack[STACK_LENGTH] __attribute__((aligned(4096)));

/* Where the frame of the function ends that makes the call: what lies below is the call's. */
static uint8_t *caller;
#define CALLER_IS_HERE() __asm__ volatile("mov %%rsp, %0" : "=r"(caller))

/* Runs it on the painted stack, after `ready`. It says CALLER_IS_HERE() before its call. Gives how deep the call went. */
static size_t run_painted(void (*run)(void), void (*ready)(void))
{
    static ucontext_t here, there;
    memset(stack, PAINT, sizeof stack);
    getcontext(&there);
    there.uc_stack.ss_sp = stack;
    there.uc_stack.ss_size = sizeof stack;
    there.uc_link = &here;
    makecontext(&there, run, 0);
    ready();
    swapcontext(&here, &there);
    const uint8_t *lowest = stack;
    while (lowest < caller && *lowest == PAINT)
        lowest++;
    return (size_t)(caller - lowest);
}

/* A call by its kind and its lengths. */
enum kind { OPEN, RESEED, DRAW, FRESH_DRAW, INQUIRE, CLOSE, SELF_TEST, WIPE };
struct call {
    const char *name;
    enum kind kind;
    size_t entropy, nonce, personalization, additional, output;
};

/* The call at hand, with what is lent to it and what it tells. */
static const struct call *now;
static uint64_t mechanism, handle, answer, blocks, value;
static uint8_t table[PURANGSA_TABLE_LENGTH], output[PURANGSA_MOST_REQUEST];
static uint8_t entropy[PURANGSA_MOST_ENTROPY], nonce[PURANGSA_MOST_NONCE];
static uint8_t personalization[PURANGSA_MOST_PERSONALIZATION], additional[PURANGSA_MOST_ADDITIONAL];

static const char *mechanism_name(void)
{
    return mechanism == PURANGSA_HMAC_DRBG ? "HMAC_DRBG" : "Hash_DRBG";
}

/* A table with one generator, under `handle`. */
static int one_is_open(void)
{
    memset(table, 0, sizeof table);
    return purangsa_open(table, sizeof table, mechanism, 256, 1000, 1, entropy, 32, nonce, 16, personalization, 0, &blocks, &handle)
           == PURANGSA_SERVED;
}

/* In the frame of the function that says it. */
__attribute__((always_inline)) static inline void make_the_call(void)
{
    answer = PURANGSA_SERVED;
    switch (now->kind) {
    case OPEN:
        answer = purangsa_open(table, sizeof table, mechanism, 256, 1000, 1, entropy, now->entropy, nonce, now->nonce, personalization,
                               now->personalization, &blocks, &value);
        break;
    case RESEED:
        answer = purangsa_reseed(table, sizeof table, handle, entropy, now->entropy, additional, now->additional, &blocks, &value);
        break;
    case DRAW:
        answer = purangsa_draw(table, sizeof table, handle, 256, additional, now->additional, output, now->output, &blocks, &value);
        break;
    case FRESH_DRAW:
        answer = purangsa_fresh_draw(table, sizeof table, handle, 256, entropy, now->entropy, additional, now->additional, output,
                                     now->output, &blocks, &value);
        break;
    case INQUIRE:
        answer = purangsa_inquire(table, sizeof table, handle, &blocks, &value);
        break;
    case CLOSE:
        answer = purangsa_close(table, sizeof table, handle, &blocks, &value);
        break;
    case SELF_TEST:
        answer = purangsa_self_test();
        break;
    case WIPE:
        purangsa_wipe();
        break;
    }
}

#endif
