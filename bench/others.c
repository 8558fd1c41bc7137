/* Others' generators over SHA-256. No reseed falls due while they are timed. */
#include <limits.h>
#include <stdio.h>
#include <string.h>

#include <mbedtls/hmac_drbg.h>
#include <mbedtls/version.h>
#include <openssl/core_names.h>
#include <openssl/crypto.h>
#include <openssl/evp.h>
#include <openssl/params.h>

#include "bench.h"

/* mbedTLS asks for the entropy first, and for the nonce in a second call. */
static int lend(void *asked, unsigned char *out, size_t length)
{
    int *calls = asked;
    const uint8_t *from = *calls == 0 ? entropy : nonce;
    size_t size = *calls == 0 ? sizeof entropy : sizeof nonce;
    *calls += 1;
    if (*calls > 2 || length != size)
        return -1;
    memcpy(out, from, length);
    return 0;
}

static mbedtls_hmac_drbg_context drbg;

static void mbedtls_open(uint8_t mechanism)
{
    static int opened;
    int calls = 0;
    if (mechanism != PURANGSA_HMAC_DRBG)
        fail("mbedTLS has no Hash_DRBG");
    if (opened)
        mbedtls_hmac_drbg_free(&drbg);
    opened = 1;
    mbedtls_hmac_drbg_init(&drbg);
    if (mbedtls_hmac_drbg_seed(&drbg, mbedtls_md_info_from_type(MBEDTLS_MD_SHA256), lend, &calls, NULL, 0) != 0)
        fail("mbedTLS does not open");
    mbedtls_hmac_drbg_set_reseed_interval(&drbg, INT_MAX);
}

static uint64_t mbedtls_draw(uint8_t *out, size_t length)
{
    if (mbedtls_hmac_drbg_random(&drbg, out, length) != 0)
        fail("mbedTLS does not draw");
    return 0;
}

const struct source mbedtls = { "mbedTLS", mbedtls_open, mbedtls_draw, MBEDTLS_HMAC_DRBG_MAX_REQUEST };

enum { STRENGTH = PURANGSA_MOST_STRENGTH };
static EVP_RAND_CTX *generator;

static EVP_RAND_CTX *context(const char *name, EVP_RAND_CTX *parent)
{
    EVP_RAND *kind = EVP_RAND_fetch(NULL, name, NULL);
    EVP_RAND_CTX *c = kind ? EVP_RAND_CTX_new(kind, parent) : NULL;
    if (!c)
        fail("OpenSSL lacks a generator");
    EVP_RAND_free(kind);
    return c;
}

static void openssl_open(uint8_t mechanism)
{
    unsigned int strength = STRENGTH, never = 0;
    uint64_t no_time = 0;
    char digest[] = "SHA256", mac[] = "HMAC";
    OSSL_PARAM lent[] = {
        OSSL_PARAM_construct_uint(OSSL_RAND_PARAM_STRENGTH, &strength),
        OSSL_PARAM_construct_octet_string(OSSL_RAND_PARAM_TEST_ENTROPY, (void *)entropy, sizeof entropy),
        OSSL_PARAM_construct_octet_string(OSSL_RAND_PARAM_TEST_NONCE, (void *)nonce, sizeof nonce),
        OSSL_PARAM_construct_end(),
    };
    OSSL_PARAM kind[] = {
        OSSL_PARAM_construct_utf8_string(OSSL_DRBG_PARAM_DIGEST, digest, 0),
        OSSL_PARAM_construct_uint(OSSL_DRBG_PARAM_RESEED_REQUESTS, &never),
        OSSL_PARAM_construct_uint64(OSSL_DRBG_PARAM_RESEED_TIME_INTERVAL, &no_time),
        OSSL_PARAM_construct_end(),
        OSSL_PARAM_construct_end(),
    };
    if (mechanism == PURANGSA_HMAC_DRBG)
        kind[3] = OSSL_PARAM_construct_utf8_string(OSSL_DRBG_PARAM_MAC, mac, 0);

    EVP_RAND_CTX *parent = context("TEST-RAND", NULL);
    if (!EVP_RAND_CTX_set_params(parent, lent) || !EVP_RAND_instantiate(parent, STRENGTH, 0, NULL, 0, NULL))
        fail("OpenSSL's entropy is not lent");
    EVP_RAND_CTX *c = context(mechanism == PURANGSA_HMAC_DRBG ? "HMAC-DRBG" : "HASH-DRBG", parent);
    if (!EVP_RAND_CTX_set_params(c, kind)
        || !EVP_RAND_instantiate(c, STRENGTH, 0, (const unsigned char *)"", 0, NULL))
        fail("OpenSSL does not open");
    EVP_RAND_CTX_free(generator);
    EVP_RAND_CTX_free(parent);
    generator = c;
}

static uint64_t openssl_draw(uint8_t *out, size_t length)
{
    if (!EVP_RAND_generate(generator, out, length, STRENGTH, 0, NULL, 0))
        fail("OpenSSL does not draw");
    return 0;
}

const struct source openssl = { "OpenSSL", openssl_open, openssl_draw, PURANGSA_MOST_REQUEST };

static struct portable plain;

static void plain_open(uint8_t mechanism)
{
    uint8_t seed[ENTROPY + NONCE];
    memcpy(seed, entropy, ENTROPY);
    memcpy(seed + ENTROPY, nonce, NONCE);
    portable_open(&plain, mechanism, seed, sizeof seed);
}

static uint64_t plain_draw(uint8_t *out, size_t length)
{
    portable_draw(&plain, out, length);
    return 0;
}

const struct source portable = { "portable C", plain_open, plain_draw, PURANGSA_MOST_REQUEST };

void print_versions(void)
{
    char name[18];
    mbedtls_version_get_string_full(name);
    printf("gcc %s, %s, %s\n", __VERSION__, name, OpenSSL_version(OPENSSL_VERSION));
}
