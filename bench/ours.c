/* Our draws: through the library, and by themselves. */
#include <string.h>

#include "bench.h"

const uint8_t entropy[ENTROPY] = {
    0x00, 0x01, 0x02, 0x03, 0x04, 0x05, 0x06, 0x07, 0x08, 0x09, 0x0a, 0x0b, 0x0c, 0x0d, 0x0e, 0x0f,
    0x10, 0x11, 0x12, 0x13, 0x14, 0x15, 0x16, 0x17, 0x18, 0x19, 0x1a, 0x1b, 0x1c, 0x1d, 0x1e, 0x1f,
};
const uint8_t nonce[NONCE] = {
    0x20, 0x21, 0x22, 0x23, 0x24, 0x25, 0x26, 0x27, 0x28, 0x29, 0x2a, 0x2b, 0x2c, 0x2d, 0x2e, 0x2f,
};

/* All slots are in use, by both mechanisms in turn, so that each of them is looked at before each draw. */
enum { STRENGTH = PURANGSA_MOST_STRENGTH };
static uint8_t table[PURANGSA_TABLE_LENGTH];
static uint64_t handle;
static const uint8_t none[1];

static void library_open(uint8_t mechanism)
{
    memset(table, 0, sizeof table);
    for (int i = 0; i < PURANGSA_SLOTS; i++) {
        uint64_t blocks, opened, this = i % 2 == 0 ? PURANGSA_HMAC_DRBG : PURANGSA_HASH_DRBG;
        if (purangsa_open(table, sizeof table, this, STRENGTH, PURANGSA_MOST_INTERVAL, 0, entropy, sizeof entropy, nonce,
                          sizeof nonce, none, 0, &blocks, &opened) != PURANGSA_SERVED)
            fail("the library does not open");
        if (this == mechanism)
            handle = opened;
    }
}

static uint64_t library_draw(uint8_t *out, size_t length)
{
    uint64_t blocks, value;
    if (purangsa_draw(table, sizeof table, handle, STRENGTH, none, 0, out, length, &blocks, &value) != PURANGSA_SERVED)
        fail("the library does not draw");
    return blocks;
}

const struct source library = { "library", library_open, library_draw, PURANGSA_MOST_REQUEST };

/* crates/bench_draws */
uint64_t purangsa_bench_open(uint8_t mechanism, const uint8_t *entropy, size_t entropy_length, const uint8_t *nonce,
                             size_t nonce_length, uint8_t *first, size_t first_length, uint8_t *second,
                             size_t second_length);
uint64_t purangsa_bench_draw(uint8_t mechanism, uint8_t *first, size_t first_length, uint8_t *second, size_t second_length,
                             uint64_t counter, const uint8_t *additional, size_t additional_length, uint8_t *out, size_t length);

/* A generator as it stands in a slot. */
static struct {
    uint8_t mechanism, first[PURANGSA_FIELD_LENGTH], second[PURANGSA_FIELD_LENGTH];
    uint64_t counter;
} slot;

static void alone_open(uint8_t mechanism)
{
    slot.mechanism = mechanism;
    slot.counter = 1;
    if (purangsa_bench_open(mechanism, entropy, sizeof entropy, nonce, sizeof nonce, slot.first, sizeof slot.first,
                            slot.second, sizeof slot.second) == 0)
        fail("we do not open");
}

static uint64_t alone_draw(uint8_t *out, size_t length)
{
    uint64_t blocks = purangsa_bench_draw(slot.mechanism, slot.first, sizeof slot.first, slot.second, sizeof slot.second, slot.counter, none,
                                          0, out, length);
    if (blocks == 0)
        fail("we do not draw");
    slot.counter++;
    return blocks;
}

const struct source alone = { "draw by itself", alone_open, alone_draw, PURANGSA_MOST_REQUEST };
