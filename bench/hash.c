/* SHA-256 and SHA-384 side by side: this library, BearSSL, OpenSSL, mbedTLS, and an earlier build of this library where bench/run has
 * one; and how the cost grows with what is fed. */
#include "axle_gateway.h"
#include "clock.h"
#include "openssl.h"

#include <bearssl.h>
#include <mbedtls/sha256.h>
#include <mbedtls/sha512.h>
#include <openssl/evp.h>

static uint8_t input[AXLE_HASH_MAX];
static uint8_t digest[64]; /* mbedTLS asks for room for SHA-512's */
static size_t length;

static void ours(void)
{
    AxleDigested d = axle_sha256(input, length);
    memcpy(digest, d.digest, 32);
}

static void ours_fed(void)
{
    AxleAbsorbed answer = axle_hash_absorb(axle_hash_fresh(), input, length);
    AxleDigest d = axle_hash_digest(answer.hash);
    memcpy(digest, d.bytes, 32);
}

static void ours384(void)
{
    AxleDigested384 d = axle_sha384(input, length);
    memcpy(digest, d.digest, 48);
}

static void bearssl(void)
{
    br_sha256_context c;
    br_sha256_init(&c);
    br_sha256_update(&c, input, length);
    br_sha256_out(&c, digest);
}

static void bearssl384(void)
{
    br_sha384_context c;
    br_sha384_init(&c);
    br_sha384_update(&c, input, length);
    br_sha384_out(&c, digest);
}

static EVP_MD *fetched; /* the one that is timed */
static EVP_MD_CTX *context;

static void openssl(void)
{
    EVP_DigestInit_ex2(context, fetched, NULL);
    EVP_DigestUpdate(context, input, length);
    EVP_DigestFinal_ex(context, digest, NULL);
}

static void mbedtls(void) { mbedtls_sha256_ret(input, length, digest, 0); }
static void mbedtls384(void) { mbedtls_sha512_ret(input, length, digest, 1); }

#ifdef BEFORE
#include "before.h"

static void before(void)
{
    before_AxleDigested d = before_axle_sha256(input, length);
    memcpy(digest, d.digest, 32);
}

static void before_fed(void)
{
    before_AxleAbsorbed answer = before_axle_hash_absorb(before_axle_hash_fresh(), input, length);
    before_AxleDigest d = before_axle_hash_digest(answer.hash);
    memcpy(digest, d.bytes, 32);
}

#if BEFORE_AXLE_GATEWAY_VERSION_NUMBER >= 900 /* before 0.9.0 there was no SHA-384 */
static void before384(void)
{
    before_AxleDigested384 d = before_axle_sha384(input, length);
    memcpy(digest, d.digest, 48);
}
#endif
#endif

int main(int argc, char **argv)
{
    static const size_t lengths[] = {64, 1024, 16384}, lengths384[] = {64, 128, 1024, 16384};
    static const size_t fed[] = {1, 16, 64, 256, 1024, 4096, 16384, 65536, 262144, 1048576};
    const char *name = openssl_name();
    const answer to = {digest, 32}, to384 = {digest, 48};
    fetched = EVP_MD_fetch(NULL, "SHA256", NULL);
    context = EVP_MD_CTX_new();
    for (size_t i = 0; i < sizeof input; i++)
        input[i] = (uint8_t)(i * 7 + 1);
    const contestant all[] = {
        {"this library", ours},
        {name, openssl},
        {"BearSSL", bearssl},
        {"mbedTLS", mbedtls},
#ifdef BEFORE
        {"before", before},
#endif
    };
    const contestant feeding[] = {
        {"this library", ours_fed},
        {name, openssl},
        {"BearSSL", bearssl},
        {"mbedTLS", mbedtls},
#ifdef BEFORE
        {"before", before_fed},
#endif
    };
    const contestant all384[] = {
        {"this library", ours384},
        {OPENSSL_WITHOUT, openssl},
        {"BearSSL", bearssl384},
        {"mbedTLS", mbedtls384},
#if defined BEFORE && BEFORE_AXLE_GATEWAY_VERSION_NUMBER >= 900
        {"before", before384},
#endif
    };
    int some = argc > 1 && strcmp(argv[1], "openssl") == 0; /* OpenSSL alone beside ours, and what masked instructions change */
    for (int k = 0; k < COUNT(lengths); k++) {
        length = lengths[k];
        contest("SHA-256", (long)length, all, some ? 2 : COUNT(all), to);
    }
    for (int k = 0; k < COUNT(fed); k++) {
        length = fed[k];
        contest("feeding a hash", (long)length, feeding, some ? 2 : COUNT(feeding), to);
    }
    fetched = EVP_MD_fetch(NULL, "SHA384", NULL);
    for (int k = 0; k < COUNT(lengths384) && !some; k++) {
        length = lengths384[k];
        contest("SHA-384", (long)length, all384, COUNT(all384), to384);
    }
    return 0;
}
