/* The sides of the bench's rows. */
#include <stddef.h>
#include <stdint.h>

#include "purangsa.h"

/* crates/bench_bare: a slice is a pointer and a length */
uint32_t purangsa_bare(const uint8_t *text, size_t length);
/* crates/bench_lanes */
uint32_t purangsa_lanes(const uint8_t *text, size_t length);

/* A source of draws. All of them are opened on the same entropy and nonce, with no personalization, so that all draw the
 * same bytes. A draw gives the blocks that it reports, 0 where it reports none, and is of `most` bytes at most. */
struct source {
    const char *name;
    void (*open)(uint8_t mechanism); /* PURANGSA_HMAC_DRBG or PURANGSA_HASH_DRBG */
    uint64_t (*draw)(uint8_t *out, size_t length);
    size_t most;
};

extern const struct source library; /* ours, through the library: a full table of 16 generators */
extern const struct source alone;   /* ours, the draw by itself: crates/bench_draws, a generator's two fields, no table */
extern const struct source portable, mbedtls, openssl;

enum { ENTROPY = 32, NONCE = 16 };
extern const uint8_t entropy[ENTROPY], nonce[NONCE];

/* portable.c */
uint32_t portable_bare(const uint8_t *text, size_t length);

struct portable {
    uint8_t mechanism, first[55], second[55];
    uint64_t counter;
};
void portable_open(struct portable *g, uint8_t mechanism, const uint8_t *seed, size_t length);
void portable_draw(struct portable *g, uint8_t *out, size_t length);

void print_versions(void);
_Noreturn void fail(const char *why);
