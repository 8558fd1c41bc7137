/* Purangsa: NIST SP 800-90A generators, HMAC_DRBG and Hash_DRBG over SHA-256, sixteen of them in a table that the caller keeps.
 *
 * Link libpurangsa.a, which library/build proves and writes, and ./install puts where pkg-config finds it (purangsa.3 says more); it
 * needs nothing but memcpy and memset. x86-64 Linux, on a
 * processor of the level x86-64-v2 (SSE4.2) or later.
 *
 * The table is PURANGSA_TABLE_LENGTH bytes of the caller's, anywhere, in no alignment. All bytes zero is the fresh table. Whoever
 * keeps the bytes keeps the generators: they may be copied, stored and brought back, and they are as secret as what is drawn.
 * PURANGSA_SLOTS slots stand one after the other, then the last serial that was given, 4 bytes. Numbers stand with their lowest byte
 * first, and there is no gap. Where each part of a slot begins, and how long all of it is, is said below, once.
 *
 * Answers. Each of the six calls returns a number: PURANGSA_SERVED, which is 0, or else the first of the reasons below that holds, in
 * the call's own order, which stands beside it. purangsa_reason gives the words of a number.
 *
 * Promised, and proved for all arguments, whatever the table's bytes are:
 *  - the call ends, and returns what its definition gives on the table that the bytes are: the number, *blocks, *value, every
 *    byte of the table and every byte of the output;
 *  - refused (not 0), no byte of the table or of the output is changed, and *blocks and *value are 0;
 *  - served, only the generator's own slot is changed (by purangsa_open the last serial too), *blocks is the number of SHA-256
 *    compressions that the standard's definition takes, and *value is what is said below, or 0.
 *
 * Owed by the caller, for the length of the call:
 *  - a pointer with a length n above 0 is good for n bytes, to be read, and for the table and the output to be written;
 *    blocks and value point to a uint64_t each. No pointer is tested, for NULL or anything else. Where the length is 0 nothing is
 *    read or written through the pointer and it may be NULL: so it is in the compiled code, and it was tried; it is no theorem.
 *  - table, output, *blocks and *value overlap nothing else that is lent in the same call. The strings are only read: they may
 *    overlap each other.
 *  - nothing else writes what is lent, or reads the table, the output, *blocks or *value.
 * The library keeps nothing of its own between calls, and takes nothing from anywhere but its arguments: calls on different tables
 * may run at the same time, calls on one table one after the other.
 *
 * Not promised:
 *  - that entropy has any: bytes are taken as they come, by their number alone;
 *  - that no copy is left: K, V, C, what is derived from them, and parts of the strings pass through the stack and the registers.
 *    purangsa_close sets the slot's bytes in the table to zero, and no other copy of them; purangsa_wipe clears the others;
 *  - that the same time is taken: lengths, numbers and answers are not secret, and time shows them.
 */
#ifndef PURANGSA_H
#define PURANGSA_H

#include <stddef.h>
#include <stdint.h>

#ifdef __cplusplus
extern "C" {
#endif

/* The answers, and what each says: purangsa_reason has the same words. */
enum {
    PURANGSA_SERVED = 0,
    PURANGSA_TABLE_UNSOUND = 1,         /* or it is not PURANGSA_TABLE_LENGTH bytes */
    PURANGSA_NO_SUCH_GENERATOR = 2,     /* the handle names none */
    PURANGSA_BAD_MECHANISM = 3,         /* neither of the two below */
    PURANGSA_BAD_STRENGTH = 4,          /* above PURANGSA_MOST_STRENGTH at an opening, above the generator's own at a draw */
    PURANGSA_BAD_INTERVAL = 5,          /* not 1 to PURANGSA_MOST_INTERVAL */
    PURANGSA_LONG_PERSONALIZATION = 6,
    PURANGSA_LONG_ADDITIONAL = 7,
    PURANGSA_BAD_ENTROPY = 8,           /* below strength / 8 bytes, or above PURANGSA_MOST_ENTROPY */
    PURANGSA_BAD_NONCE = 9,             /* below strength / 16 bytes, or above PURANGSA_MOST_NONCE */
    PURANGSA_LONG_REQUEST = 10,
    PURANGSA_NO_FRESH_RIGHT = 11,       /* a fresh draw on a generator that was opened without that right */
    PURANGSA_RESEED_DUE = 12,
    PURANGSA_NO_FREE_SLOT = 13,
    PURANGSA_SERIALS_USED_UP = 14
};

/* The mechanisms. */
enum { PURANGSA_HMAC_DRBG = 1, PURANGSA_HASH_DRBG = 2 };

/* The limits, of strings in bytes. The least entropy and the least nonce go by the strength: purangsa_least_entropy and
 * purangsa_least_nonce, below. */
enum {
    PURANGSA_MOST_STRENGTH = 256,
    PURANGSA_MOST_ENTROPY = 1024,
    PURANGSA_MOST_NONCE = 64,
    PURANGSA_MOST_PERSONALIZATION = 512,
    PURANGSA_MOST_ADDITIONAL = 1024,
    PURANGSA_MOST_REQUEST = 65536,
    PURANGSA_MOST_BLOCKS = 8288         /* that a call reports */
};
#define PURANGSA_MOST_INTERVAL (UINT64_C(1) << 48)

/* The table's bytes: lengths, and the place of each part of a slot, counted from the slot's first byte. */
enum {
    PURANGSA_SLOTS = 16,
    PURANGSA_FIELD_LENGTH = 55,                                         /* HMAC_DRBG uses 32 of them, and the others are 0 */
    PURANGSA_MECHANISM_AT = 0,                                          /* 1 byte: 0 free, else the mechanism */
    PURANGSA_STRENGTH_AT = PURANGSA_MECHANISM_AT + 1,                   /* 2 bytes */
    PURANGSA_INTERVAL_AT = PURANGSA_STRENGTH_AT + 2,                    /* 8 bytes */
    PURANGSA_COUNTER_AT = PURANGSA_INTERVAL_AT + 8,                     /* 8 bytes */
    PURANGSA_FRESH_AT = PURANGSA_COUNTER_AT + 8,                        /* 1 byte: 1 with the right to fresh draws */
    PURANGSA_SERIAL_AT = PURANGSA_FRESH_AT + 1,                         /* 4 bytes */
    PURANGSA_FIRST_AT = PURANGSA_SERIAL_AT + 4,                         /* a field: K, or V */
    PURANGSA_SECOND_AT = PURANGSA_FIRST_AT + PURANGSA_FIELD_LENGTH,     /* a field: V, or C */
    PURANGSA_SLOT_LENGTH = PURANGSA_SECOND_AT + PURANGSA_FIELD_LENGTH,
    PURANGSA_LAST_SERIAL_AT = PURANGSA_SLOTS * PURANGSA_SLOT_LENGTH,    /* in the table */
    PURANGSA_TABLE_LENGTH = PURANGSA_LAST_SERIAL_AT + 4
};

/* Opens a generator in the lowest free slot. mechanism: PURANGSA_HMAC_DRBG or PURANGSA_HASH_DRBG; strength is rounded up to 112, 128, 192
 * or 256; interval: the draws from one reseed to the next; fresh: 0, or anything else for the right to fresh draws. Served, *value is
 * the handle.
 * 1, 3, 4, 5, 6, 8, 9, 13, 14. */
uint64_t purangsa_open(uint8_t *table, size_t table_length,
                       uint64_t mechanism, uint64_t strength, uint64_t interval, uint64_t fresh,
                       const uint8_t *entropy, size_t entropy_length,
                       const uint8_t *nonce, size_t nonce_length,
                       const uint8_t *personalization, size_t personalization_length,
                       uint64_t *blocks, uint64_t *value);

/* Reseeds the generator.
 * 1, 2, 7, 8. */
uint64_t purangsa_reseed(uint8_t *table, size_t table_length, uint64_t handle,
                         const uint8_t *entropy, size_t entropy_length,
                         const uint8_t *additional, size_t additional_length,
                         uint64_t *blocks, uint64_t *value);

/* Fills the output, whose length is the request. A plain draw never reseeds.
 * 1, 2, 10, 4, 7, 12. */
uint64_t purangsa_draw(uint8_t *table, size_t table_length, uint64_t handle, uint64_t strength,
                       const uint8_t *additional, size_t additional_length,
                       uint8_t *output, size_t output_length,
                       uint64_t *blocks, uint64_t *value);

/* Reseeds the generator with the entropy and the additional input, then fills the output, as one call: all or nothing. It is served
 * also when a reseed is due.
 * 1, 2, 10, 4, 7, 11, 8. */
uint64_t purangsa_fresh_draw(uint8_t *table, size_t table_length, uint64_t handle, uint64_t strength,
                             const uint8_t *entropy, size_t entropy_length,
                             const uint8_t *additional, size_t additional_length,
                             uint8_t *output, size_t output_length,
                             uint64_t *blocks, uint64_t *value);

/* Ends the generator: every byte of its slot goes to zero, and its handle names nothing ever after.
 * 1, 2. */
uint64_t purangsa_close(uint8_t *table, size_t table_length, uint64_t handle, uint64_t *blocks, uint64_t *value);

/* Served, *value is the number of draws that are left before a reseed is due. The table is only read.
 * 1, 2. */
uint64_t purangsa_inquire(const uint8_t *table, size_t table_length, uint64_t handle, uint64_t *blocks, uint64_t *value);

/* Known-answer tests (SP 800-90A, 11.3) of opening, reseed, draw and fresh draw, in the very code that the functions above run, on a
 * table of its own. 0: every case came out as it must. Else the number of the first that did not:
 *
 *     1  HMAC_DRBG: NIST's case of an opening, a reseed and two draws     3  HMAC_DRBG: NIST's case of an opening and two fresh draws
 *     2  Hash_DRBG: the same                                              4  Hash_DRBG: the same
 *     5  a refused draw: answered 2, and no byte of table or output is changed
 *
 * Promised, and proved: it is the number of the first case whose definition does not give the stored bytes, and 0 where each gives
 * them. Each does: NIST's cases, run where the library is proved, show it, though no theorem says it. So any number but 0 is the fault
 * of the machine, or of what compiled, linked or changed the code: draw nothing. It takes a tenth of a millisecond. */
uint64_t purangsa_self_test(void);

/* Clears what the call before it has left behind: PURANGSA_WIPED bytes of dead stack below its caller's frame, more than the deepest
 * call takes, and the registers that a call need not keep, the vector registers in their whole width among them. Call it after each call,
 * from the same function: from one further in it would begin below a part of what was left, from one further out it might end above a
 * part. It changes nothing else. Which registers there are is asked of the processor once, when the program starts.
 *
 * It does not clear the caller's own copies of what it lent and drew, nor the table; nor what was copied deeper or elsewhere while a call
 * ran: by a signal that is handled on the same stack, by a switch to another thread, to swap or a core file; nor what the dynamic linker
 * stores when it looks memcpy up in the first call: link with -Wl,-z,now, as pkg-config says. It is plain C and assembler (library/wipe.c)
 * and not proved; that it works is tried in the gate, on the archive that ships. */
enum { PURANGSA_WIPED = 4096 };
void purangsa_wipe(void);

/* What one of the six calls takes of the stack at most, below its caller's frame, in bytes. purangsa_self_test takes 9,728, and purangsa_wipe
 * what it clears. Measured in the gate, on the archive that ships, and not proved; docs/STACK.md has it call by call. */
enum { PURANGSA_MOST_STACK = 2176 };

/* The strength of a generator that is opened at this one, which is rounded up to 112, 128, 192 or 256 (above 256 it is refused). */
static inline uint64_t purangsa_rounded_strength(uint64_t strength)
{
    return strength <= 112 ? 112 : strength <= 128 ? 128 : strength <= 192 ? 192 : 256;
}

/* The least bytes that serve, of entropy the rounded strength / 8 (14, 16, 24 or 32) and of a nonce half as many (7, 8, 12 or 16). */
static inline size_t purangsa_least_entropy(uint64_t strength)
{
    return (size_t)(purangsa_rounded_strength(strength) / 8);
}

static inline size_t purangsa_least_nonce(uint64_t strength)
{
    return (size_t)(purangsa_rounded_strength(strength) / 16);
}

/* The words of an answer. */
static inline const char *purangsa_reason(uint64_t number)
{
    switch (number) {
    case PURANGSA_SERVED: return "served";
    case PURANGSA_TABLE_UNSOUND: return "table unsound";
    case PURANGSA_NO_SUCH_GENERATOR: return "no such generator";
    case PURANGSA_BAD_MECHANISM: return "mechanism neither 1 (HMAC_DRBG) nor 2 (Hash_DRBG)";
    case PURANGSA_BAD_STRENGTH: return "strength above 256 at opening, or above the generator's own at a draw";
    case PURANGSA_BAD_INTERVAL: return "interval not 1 to 2^48";
    case PURANGSA_LONG_PERSONALIZATION: return "personalization above 512 bytes";
    case PURANGSA_LONG_ADDITIONAL: return "additional input above 1,024 bytes";
    case PURANGSA_BAD_ENTROPY: return "entropy below strength/8 bytes or above 1,024";
    case PURANGSA_BAD_NONCE: return "nonce below strength/16 bytes or above 64";
    case PURANGSA_LONG_REQUEST: return "request above 65,536 bytes";
    case PURANGSA_NO_FRESH_RIGHT: return "fresh draw on a generator opened without that right";
    case PURANGSA_RESEED_DUE: return "reseed due";
    case PURANGSA_NO_FREE_SLOT: return "no free slot";
    case PURANGSA_SERIALS_USED_UP: return "serials used up";
    default: return "unknown answer";
    }
}

#ifdef __cplusplus
}
#endif

#endif
