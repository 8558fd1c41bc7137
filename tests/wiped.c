/* What a call leaves behind in the dead stack and in the registers, and that purangsa_wipe clears it: tests/wiped builds and runs this.
 *
 * Each call runs on a stack of its own that was painted before, so that every byte that it touched is known. Then all strings of eight
 * bytes of what is secret in it are looked for, in the stack and in the registers as they are right after: the state before and after
 * the call, the lent strings, the output; as they stand and in words of four and eight bytes turned round, as the code works on them.
 * Without the wipe the state after the call is found, and so is every string that is put there, or the search would see nothing. With it
 * none is, and below the caller's frame the stack is zero as deep as the wipe reaches, and still painted below that.
 *
 * A line is a call; places are told as stack + registers. The last line is 'N passed, M failed'. */
#include <cpuid.h>
#include <stdint.h>
#include <stdio.h>
#include <string.h>

#include "painted.h"

/* The least by which purangsa_wipe must reach deeper than the deepest call. */
enum { MARGIN = 1024 };

enum { SPAN = 8, REGISTERS_AT = 128, REGISTERS_LENGTH = 16384 };
static uint8_t registers[REGISTERS_LENGTH] __attribute__((aligned(64), used));
static uint8_t xsave_there __attribute__((used));

/* All registers that a function need not keep, as they are when it is called. */
__attribute__((naked, noinline)) static void keep_registers(void)
{
    __asm__("mov %rax, registers+0(%rip)\n mov %rcx, registers+8(%rip)\n mov %rdx, registers+16(%rip)\n mov %rsi, registers+24(%rip)\n"
            "mov %rdi, registers+32(%rip)\n mov %r8, registers+40(%rip)\n mov %r9, registers+48(%rip)\n mov %r10, registers+56(%rip)\n"
            "mov %r11, registers+64(%rip)\n"
            "testb $1, xsave_there(%rip)\n"
            "jz 1f\n"
            "mov $-1, %eax\n mov $-1, %edx\n"
            "xsave64 registers+128(%rip)\n"
            "ret\n"
            "1: fxsave64 registers+128(%rip)\n"
            "ret\n");
}

/* The table before a call. */
static uint8_t before[PURANGSA_TABLE_LENGTH];

/* Each on both mechanisms; 0 bytes are none. */
static const struct call calls[] = {
    { "open", OPEN, 200, 64, 150, 0, 0 },
    { "open with the least strings", OPEN, 32, 16, 0, 0, 0 },
    { "reseed", RESEED, 32, 0, 0, 0, 0 },
    { "reseed whose last block has entropy", RESEED, 60, 0, 0, 0, 0 },
    { "reseed with additional input", RESEED, 200, 0, 0, 200, 0 },
    { "draw of 0 bytes", DRAW, 0, 0, 0, 0, 0 },
    { "draw of 16 bytes", DRAW, 0, 0, 0, 0, 16 },
    { "draw of 128 bytes", DRAW, 0, 0, 0, 0, 128 },
    { "draw of 1,000 bytes", DRAW, 0, 0, 0, 0, 1000 },
    { "draw of 16 bytes with additional input", DRAW, 0, 0, 0, 200, 16 },
    { "draw of 1,000 bytes with additional input", DRAW, 0, 0, 0, 40, 1000 },
    { "fresh draw of 16 bytes", FRESH_DRAW, 32, 0, 0, 0, 16 },
    { "fresh draw of 1,000 bytes with additional input", FRESH_DRAW, 200, 0, 0, 200, 1000 },
    { "inquire", INQUIRE, 0, 0, 0, 0, 0 },
    { "close", CLOSE, 0, 0, 0, 0, 0 },
};
enum { CALLS = sizeof calls / sizeof calls[0] };
static int wiping;

/* Runs on the painted stack. The wipe and the look at the registers come from the same frame as the call. */
static void run(void)
{
    CALLER_IS_HERE();
    make_the_call();
    if (wiping)
        purangsa_wipe();
    keep_registers();
}

static uint64_t eight(const uint8_t *from)
{
    uint64_t x;
    memcpy(&x, from, SPAN);
    return x;
}

/* How many places hold one of the secret's strings of eight bytes, in any of the three forms. */
static unsigned places(const uint8_t *from, size_t length, const uint8_t *secret, size_t secret_length)
{
    unsigned found = 0;
    for (size_t i = 0; i + SPAN <= length; i++) {
        uint64_t x = eight(from + i), limb = __builtin_bswap64(x), words = limb << 32 | limb >> 32;
        for (size_t k = 0; k + SPAN <= secret_length; k++) {
            uint64_t y = eight(secret + k);
            if (x == y || limb == y || words == y) {
                found++;
                break;
            }
        }
    }
    return found;
}

/* Zero below the caller's frame as deep as the wipe reaches, and still painted below. The highest eight bytes have held the address to
 * return to, which another call has overwritten. */
static int stack_is_wiped(void)
{
    const uint8_t *top = caller - SPAN, *bottom = top - PURANGSA_WIPED;
    for (const uint8_t *at = stack; at < top; at++)
        if (*at != (at < bottom ? PAINT : 0))
            return 0;
    return 1;
}

/* The secrets, and in how many calls each was found in the stack without the wipe; by mechanism. */
enum secret { STATE_BEFORE, STATE_AFTER, ENTROPY, NONCE, PERSONALIZATION, ADDITIONAL, OUTPUT, SECRETS };
static const char *const secret_names[SECRETS] = {
    "state before", "state after", "entropy", "nonce", "personalization", "additional input", "output",
};
static unsigned met[PURANGSA_HASH_DRBG + 1][SECRETS];

struct found {
    unsigned in_stack, in_registers;
};

/* What a secret is in this call: two strings at most, and none where the call has not got it. */
struct string {
    const uint8_t *at;
    size_t length;
};
enum { PARTS = 2 };

/* Both fields, the bytes that are secret. */
static void state_in(const uint8_t *t, struct string parts[PARTS])
{
    size_t n = t[PURANGSA_MECHANISM_AT] == 0 ? 0 : mechanism == PURANGSA_HMAC_DRBG ? 32 : PURANGSA_FIELD_LENGTH;
    parts[0] = (struct string){ t + PURANGSA_FIRST_AT, n };
    parts[1] = (struct string){ t + PURANGSA_SECOND_AT, n };
}

static void parts_of(enum secret s, struct string parts[PARTS])
{
    parts[0] = parts[1] = (struct string){ output, 0 };
    switch (s) {
    case STATE_BEFORE: state_in(before, parts); break;
    case STATE_AFTER: state_in(table, parts); break;
    case ENTROPY: parts[0] = (struct string){ entropy, now->entropy }; break;
    case NONCE: parts[0] = (struct string){ nonce, now->nonce }; break;
    case PERSONALIZATION: parts[0] = (struct string){ personalization, now->personalization }; break;
    case ADDITIONAL: parts[0] = (struct string){ additional, now->additional }; break;
    default: parts[0] = (struct string){ output, now->output }; break;
    }
}

static struct found look_for(enum secret s)
{
    struct string parts[PARTS];
    struct found found = { 0, 0 };
    parts_of(s, parts);
    for (int i = 0; i < PARTS; i++) {
        found.in_stack += places(stack, sizeof stack, parts[i].at, parts[i].length);
        found.in_registers += places(registers, sizeof registers, parts[i].at, parts[i].length);
    }
    return found;
}

/* Eight bytes of each part, put where the stack is still painted, are found in each of the three forms, or the search would see nothing. */
static int search_sees(enum secret s)
{
    struct string parts[PARTS];
    parts_of(s, parts);
    unsigned left = look_for(s).in_stack;
    for (int i = 0; i < PARTS; i++) {
        if (parts[i].length < SPAN)
            continue;
        uint64_t y = eight(parts[i].at + parts[i].length - SPAN), turned = __builtin_bswap64(y);
        uint64_t forms[] = { y, turned, turned << 32 | turned >> 32 };
        for (size_t form = 0; form < sizeof forms / sizeof forms[0]; form++) {
            memcpy(stack + SPAN + form, &forms[form], SPAN);
            unsigned seen = look_for(s).in_stack;
            memset(stack, PAINT, 4 * SPAN);
            if (seen <= left)
                return 0;
        }
    }
    return 1;
}

static unsigned passed, failed;

static void note(int held, const char *name)
{
    if (held) {
        passed++;
        return;
    }
    failed++;
    printf("failed: %s\n", name);
}

/* New bytes for each call, so that nothing is found that an earlier one left. */
static void fill(uint8_t *to, size_t length)
{
    static uint64_t x = 88172645463325252u;
    for (size_t i = 0; i < length; i++) {
        x ^= x << 13;
        x ^= x >> 7;
        x ^= x << 17;
        to[i] = (uint8_t)(x >> 32);
    }
}

static void make_ready(void)
{
    fill(entropy, sizeof entropy);
    fill(nonce, sizeof nonce);
    fill(personalization, sizeof personalization);
    fill(additional, sizeof additional);
    fill(output, sizeof output);
    memset(table, 0, sizeof table);
    if (now->kind != OPEN)
        note(one_is_open(), "a generator is opened");
    fill(entropy, sizeof entropy);
    memcpy(before, table, sizeof before);
}

static size_t deepest;

static size_t run_call(int with_wipe)
{
    wiping = with_wipe;
    make_ready();
    memset(registers, 0, sizeof registers);
    size_t depth = run_painted(run, purangsa_wipe); /* what was made ready is not to be found in the registers */
    note(answer == PURANGSA_SERVED, "the call is served");
    return depth;
}

static void look_for_all(struct found left[SECRETS])
{
    for (int s = 0; s < SECRETS; s++)
        left[s] = look_for((enum secret)s);
}

static void try_call(void)
{
    struct found left[SECRETS], wiped[SECRETS];
    size_t depth = run_call(0);
    look_for_all(left);
    for (int s = 0; s < SECRETS; s++)
        note(search_sees((enum secret)s), "what is put into the stack is found");
    run_call(1);
    look_for_all(wiped);
    deepest = depth > deepest ? depth : deepest;
    printf("%s %s: %zu bytes deep; left:", mechanism_name(), now->name, depth);
    unsigned still = 0;
    for (int s = 0; s < SECRETS; s++) {
        if (left[s].in_stack + left[s].in_registers > 0)
            printf(" %s %u + %u,", secret_names[s], left[s].in_stack, left[s].in_registers);
        met[mechanism][s] += left[s].in_stack > 0;
        still += wiped[s].in_stack + wiped[s].in_registers;
    }
    printf(" and with the wipe %u\n", still);
    note(still == 0, "after the wipe nothing is left");
    note(stack_is_wiped(), "after the wipe the stack is zero");
}

static void each_call(void)
{
    for (mechanism = PURANGSA_HMAC_DRBG; mechanism <= PURANGSA_HASH_DRBG; mechanism++)
        for (now = calls; now < calls + CALLS; now++)
            try_call();
}

/* Both mechanisms leave the state that they have made, so there is something to wipe; what else is left is told. */
static void tell_what_is_left(void)
{
    for (int s = 0; s < SECRETS; s++) {
        unsigned hmac = met[PURANGSA_HMAC_DRBG][s], hash = met[PURANGSA_HASH_DRBG][s];
        printf("%s: without the wipe left in the stack by %u calls of HMAC_DRBG, %u of Hash_DRBG\n", secret_names[s], hmac, hash);
        note(s != STATE_AFTER || (hmac > 0 && hash > 0), "without the wipe it is found");
    }
}

int main(void)
{
    unsigned a, b, c, d, length = 0;
    if (__get_cpuid(1, &a, &b, &c, &d) && (c & bit_OSXSAVE)) {
        xsave_there = __get_cpuid_count(13, 0, &a, &length, &c, &d) && length <= sizeof registers - REGISTERS_AT;
        note(xsave_there, "all registers are looked at");
    }
    each_call();
    tell_what_is_left();
    printf("the deepest call takes %zu bytes; the wipe clears %d, which must be %d more at least\n", deepest, PURANGSA_WIPED, MARGIN);
    note(deepest + MARGIN <= PURANGSA_WIPED, "the wipe reaches below the deepest call");
    printf("%u passed, %u failed\n", passed, failed);
    return passed > 0 && failed == 0 ? 0 : 1;
}
