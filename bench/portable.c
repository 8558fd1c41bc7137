/* SHA-256, HMAC_DRBG and Hash_DRBG in plain portable C, the usual way: a schedule of 64 words, one loop of 64 turns, a
 * running hash with a scratch block, HMAC over it; no intrinsics. */
#include <string.h>

#include "bench.h"

static const uint32_t K[64] = {
    0x428a2f98, 0x71374491, 0xb5c0fbcf, 0xe9b5dba5, 0x3956c25b, 0x59f111f1, 0x923f82a4, 0xab1c5ed5,
    0xd807aa98, 0x12835b01, 0x243185be, 0x550c7dc3, 0x72be5d74, 0x80deb1fe, 0x9bdc06a7, 0xc19bf174,
    0xe49b69c1, 0xefbe4786, 0x0fc19dc6, 0x240ca1cc, 0x2de92c6f, 0x4a7484aa, 0x5cb0a9dc, 0x76f988da,
    0x983e5152, 0xa831c66d, 0xb00327c8, 0xbf597fc7, 0xc6e00bf3, 0xd5a79147, 0x06ca6351, 0x14292967,
    0x27b70a85, 0x2e1b2138, 0x4d2c6dfc, 0x53380d13, 0x650a7354, 0x766a0abb, 0x81c2c92e, 0x92722c85,
    0xa2bfe8a1, 0xa81a664b, 0xc24b8b70, 0xc76c51a3, 0xd192e819, 0xd6990624, 0xf40e3585, 0x106aa070,
    0x19a4c116, 0x1e376c08, 0x2748774c, 0x34b0bcb5, 0x391c0cb3, 0x4ed8aa4a, 0x5b9cca4f, 0x682e6ff3,
    0x748f82ee, 0x78a5636f, 0x84c87814, 0x8cc70208, 0x90befffa, 0xa4506ceb, 0xbef9a3f7, 0xc67178f2,
};

static uint32_t rotr(uint32_t x, int n) { return x >> n | x << (32 - n); }
static uint32_t ch(uint32_t x, uint32_t y, uint32_t z) { return (x & y) ^ (~x & z); }
static uint32_t maj(uint32_t x, uint32_t y, uint32_t z) { return (x & y) ^ (x & z) ^ (y & z); }
static uint32_t upper_sigma_0(uint32_t x) { return rotr(x, 2) ^ rotr(x, 13) ^ rotr(x, 22); }
static uint32_t upper_sigma_1(uint32_t x) { return rotr(x, 6) ^ rotr(x, 11) ^ rotr(x, 25); }
static uint32_t lower_sigma_0(uint32_t x) { return rotr(x, 7) ^ rotr(x, 18) ^ x >> 3; }
static uint32_t lower_sigma_1(uint32_t x) { return rotr(x, 17) ^ rotr(x, 19) ^ x >> 10; }

static void compress(uint32_t state[8], const uint8_t *block)
{
    uint32_t w[64];
    for (int t = 0; t < 16; t++)
        w[t] = (uint32_t)block[4 * t] << 24 | (uint32_t)block[4 * t + 1] << 16
             | (uint32_t)block[4 * t + 2] << 8 | (uint32_t)block[4 * t + 3];
    for (int t = 16; t < 64; t++)
        w[t] = lower_sigma_1(w[t - 2]) + w[t - 7] + lower_sigma_0(w[t - 15]) + w[t - 16];

    uint32_t a = state[0], b = state[1], c = state[2], d = state[3];
    uint32_t e = state[4], f = state[5], g = state[6], h = state[7];
    for (int t = 0; t < 64; t++) {
        uint32_t t1 = h + upper_sigma_1(e) + ch(e, f, g) + K[t] + w[t];
        uint32_t t2 = upper_sigma_0(a) + maj(a, b, c);
        h = g;
        g = f;
        f = e;
        e = d + t1;
        d = c;
        c = b;
        b = a;
        a = t1 + t2;
    }
    state[0] += a;
    state[1] += b;
    state[2] += c;
    state[3] += d;
    state[4] += e;
    state[5] += f;
    state[6] += g;
    state[7] += h;
}

static const uint32_t INITIAL[8] = {
    0x6a09e667, 0xbb67ae85, 0x3c6ef372, 0xa54ff53a, 0x510e527f, 0x9b05688c, 0x1f83d9ab, 0x5be0cd19,
};

/* The same work as purangsa_bare. */
uint32_t portable_bare(const uint8_t *text, size_t length)
{
    uint32_t state[8];
    memcpy(state, INITIAL, sizeof state);
    for (size_t i = 0; i < length / 64; i++)
        compress(state, text + 64 * i);
    return state[0];
}

/* The running hash: a block that lies whole in the text is hashed from there, the rest waits in scratch. */
enum { HASH = 32, BLOCK = 64 };

struct running {
    uint32_t state[8];
    uint64_t length;
    uint8_t scratch[BLOCK];
};

static void begin(struct running *r)
{
    memcpy(r->state, INITIAL, sizeof r->state);
    r->length = 0;
}

static void update(struct running *r, const uint8_t *text, size_t length)
{
    size_t waits = r->length % BLOCK;
    r->length += length;
    if (waits > 0) {
        size_t n = length < BLOCK - waits ? length : BLOCK - waits;
        memcpy(r->scratch + waits, text, n);
        if (waits + n < BLOCK)
            return;
        compress(r->state, r->scratch);
        text += n;
        length -= n;
    }
    for (; length >= BLOCK; text += BLOCK, length -= BLOCK)
        compress(r->state, text);
    memcpy(r->scratch, text, length);
}

static void store(uint8_t *out, uint64_t x, int bytes)
{
    for (int i = 0; i < bytes; i++)
        out[i] = (uint8_t)(x >> 8 * (bytes - 1 - i));
}

static void finish(struct running *r, uint8_t hash[HASH])
{
    size_t waits = r->length % BLOCK;
    r->scratch[waits++] = 0x80;
    if (waits > BLOCK - 8) {
        memset(r->scratch + waits, 0, BLOCK - waits);
        compress(r->state, r->scratch);
        waits = 0;
    }
    memset(r->scratch + waits, 0, BLOCK - 8 - waits);
    store(r->scratch + BLOCK - 8, 8 * r->length, 8);
    compress(r->state, r->scratch);
    for (int i = 0; i < 8; i++)
        store(hash + 4 * i, r->state[i], 4);
}

/* A string of up to three parts, as the mechanisms join them. */
struct part {
    const uint8_t *text;
    size_t length;
};

static void hash_of(uint8_t hash[HASH], struct part a, struct part b, struct part c)
{
    struct running r;
    begin(&r);
    update(&r, a.text, a.length);
    update(&r, b.text, b.length);
    update(&r, c.text, c.length);
    finish(&r, hash);
}

static const struct part NONE = { (const uint8_t *)"", 0 };

static void hmac(uint8_t mac[HASH], const uint8_t key[HASH], struct part a, struct part b, struct part c)
{
    uint8_t inner_pad[BLOCK], outer_pad[BLOCK], inner[HASH];
    for (int i = 0; i < BLOCK; i++) {
        uint8_t k = i < HASH ? key[i] : 0;
        inner_pad[i] = k ^ 0x36;
        outer_pad[i] = k ^ 0x5c;
    }
    struct running r;
    begin(&r);
    update(&r, inner_pad, BLOCK);
    update(&r, a.text, a.length);
    update(&r, b.text, b.length);
    update(&r, c.text, c.length);
    finish(&r, inner);
    hash_of(mac, (struct part){ outer_pad, BLOCK }, (struct part){ inner, HASH }, NONE);
}

/* A generator's two fields are K, V or V, C; the mechanism is the library's number for it. */
static void hmac_update(struct portable *g, struct part data)
{
    for (uint8_t turn = 0; turn < (data.length > 0 ? 2 : 1); turn++) {
        hmac(g->first, g->first, (struct part){ g->second, HASH }, (struct part){ &turn, 1 }, data);
        hmac(g->second, g->first, (struct part){ g->second, HASH }, NONE, NONE);
    }
}

static void hmac_draw(struct portable *g, uint8_t *out, size_t length)
{
    for (size_t at = 0; at < length; at += HASH) {
        hmac(g->second, g->first, (struct part){ g->second, HASH }, NONE, NONE);
        memcpy(out + at, g->second, length - at < HASH ? length - at : HASH);
    }
    hmac_update(g, NONE);
}

enum { SEED = 55 };

/* sum = sum + x, big-endian, modulo 2^440 */
static void add(uint8_t sum[SEED], const uint8_t *x, size_t length)
{
    unsigned carry = 0;
    for (size_t i = 0; i < SEED; i++) {
        carry += sum[SEED - 1 - i] + (i < length ? x[length - 1 - i] : 0u);
        sum[SEED - 1 - i] = (uint8_t)carry;
        carry >>= 8;
    }
}

static void derive(uint8_t out[SEED], struct part a, struct part b)
{
    uint8_t both[2 * HASH], head[5] = { 1, 0x00, 0x00, 0x01, 0xb8 };
    hash_of(both, (struct part){ head, sizeof head }, a, b);
    head[0] = 2;
    hash_of(both + HASH, (struct part){ head, sizeof head }, a, b);
    memcpy(out, both, SEED);
}

static void hash_draw(struct portable *g, uint8_t *out, size_t length)
{
    static const uint8_t one = 1, three = 3;
    uint8_t data[SEED], hash[HASH], counter[8];
    memcpy(data, g->first, SEED);
    for (size_t at = 0; at < length; at += HASH) {
        hash_of(hash, (struct part){ data, SEED }, NONE, NONE);
        memcpy(out + at, hash, length - at < HASH ? length - at : HASH);
        add(data, &one, 1);
    }
    hash_of(hash, (struct part){ &three, 1 }, (struct part){ g->first, SEED }, NONE);
    store(counter, g->counter, 8);
    add(g->first, hash, HASH);
    add(g->first, g->second, SEED);
    add(g->first, counter, 8);
}

void portable_open(struct portable *g, uint8_t mechanism, const uint8_t *seed, size_t length)
{
    static const uint8_t zero = 0;
    g->mechanism = mechanism;
    g->counter = 1;
    if (mechanism == PURANGSA_HMAC_DRBG) {
        memset(g->first, 0, HASH);
        memset(g->second, 1, HASH);
        hmac_update(g, (struct part){ seed, length });
    } else {
        derive(g->first, (struct part){ seed, length }, NONE);
        derive(g->second, (struct part){ &zero, 1 }, (struct part){ g->first, SEED });
    }
}

void portable_draw(struct portable *g, uint8_t *out, size_t length)
{
    if (g->mechanism == PURANGSA_HMAC_DRBG)
        hmac_draw(g, out, length);
    else
        hash_draw(g, out, length);
    g->counter++;
}
