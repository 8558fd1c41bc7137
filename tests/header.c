/* The names of include/purangsa.h with their numbers and words: tests/header compiles this as C and as C++, and compares what it prints
 * with the second program's. */
#include <inttypes.h>
#include <stdio.h>

#include "purangsa.h"

#define SHOW(name) printf("%s %" PRIu64 "\n", #name, (uint64_t)PURANGSA_##name)

int main(void)
{
    static const uint64_t answers[] = {
        PURANGSA_SERVED, PURANGSA_TABLE_UNSOUND, PURANGSA_NO_SUCH_GENERATOR, PURANGSA_BAD_MECHANISM, PURANGSA_BAD_STRENGTH,
        PURANGSA_BAD_INTERVAL, PURANGSA_LONG_PERSONALIZATION, PURANGSA_LONG_ADDITIONAL, PURANGSA_BAD_ENTROPY, PURANGSA_BAD_NONCE,
        PURANGSA_LONG_REQUEST, PURANGSA_NO_FRESH_RIGHT, PURANGSA_RESEED_DUE, PURANGSA_NO_FREE_SLOT, PURANGSA_SERIALS_USED_UP,
        15, 256, UINT64_C(1) << 32, UINT64_MAX,
    };
    for (size_t i = 0; i < sizeof answers / sizeof answers[0]; i++)
        printf("%" PRIu64 " %s\n", answers[i], purangsa_reason(answers[i]));
    SHOW(HMAC_DRBG);
    SHOW(HASH_DRBG);
    SHOW(MOST_STRENGTH);
    SHOW(MOST_INTERVAL);
    SHOW(MOST_ENTROPY);
    SHOW(MOST_NONCE);
    SHOW(MOST_PERSONALIZATION);
    SHOW(MOST_ADDITIONAL);
    SHOW(MOST_REQUEST);
    SHOW(SLOTS);
    SHOW(FIELD_LENGTH);
    SHOW(SLOT_LENGTH);
    SHOW(TABLE_LENGTH);
    static const uint64_t strengths[] = { 0, 1, 112, 113, 128, 129, 192, 193, 256 };
    for (size_t i = 0; i < sizeof strengths / sizeof strengths[0]; i++)
        printf("%" PRIu64 " %" PRIu64 " %zu %zu\n", strengths[i], purangsa_rounded_strength(strengths[i]),
               purangsa_least_entropy(strengths[i]), purangsa_least_nonce(strengths[i]));
    return 0;
}
