/* HMAC of 64 bytes and the extended master secret with both hashes, side by side, with an earlier build where bench/run has one. */
#include "axle_gateway.h"
#include "clock.h"
#include "openssl.h"

#include <bearssl.h>
#include <mbedtls/md.h>
#include <mbedtls/ssl.h>
#include <openssl/core_names.h>
#include <openssl/evp.h>
#include <openssl/kdf.h>

static uint8_t key[48], input[64], seed[48], tag[48], secret[48];
static const uint8_t label[] = "extended master secret";
enum { LABEL = sizeof label - 1 };

static uint8_t sha384; /* the hash that all of this is by */

static size_t width(void) { return sha384 ? AXLE_DIGEST384_SIZE : AXLE_DIGEST_SIZE; }

static void ours_hmac(void)
{
    if (sha384) {
        AxleTagged384 t = axle_hmac_sha384(key, sizeof key, input, sizeof input);
        memcpy(tag, t.tag, 48);
    } else {
        AxleTagged t = axle_hmac(key, sizeof key, input, sizeof input);
        memcpy(tag, t.tag, 32);
    }
}

static void bearssl_hmac(void)
{
    br_hmac_key_context k;
    br_hmac_context c;
    br_hmac_key_init(&k, sha384 ? &br_sha384_vtable : &br_sha256_vtable, key, sizeof key);
    br_hmac_init(&c, &k, 0);
    br_hmac_update(&c, input, sizeof input);
    br_hmac_out(&c, tag);
}

static EVP_MAC_CTX *mac; /* its digest is fetched once, its key is new each time */

static void openssl_hmac(void)
{
    size_t written;
    EVP_MAC_init(mac, key, sizeof key, NULL);
    EVP_MAC_update(mac, input, sizeof input);
    EVP_MAC_final(mac, tag, &written, sizeof tag);
}

static void mbedtls_hmac(void)
{
    mbedtls_md_hmac(mbedtls_md_info_from_type(sha384 ? MBEDTLS_MD_SHA384 : MBEDTLS_MD_SHA256), key, sizeof key, input, sizeof input,
                    tag);
}

static void ours_secret(void)
{
    axle_extended_master_secret(sha384, key, sizeof key, seed, width(), secret, sizeof secret);
}

static void bearssl_secret(void)
{
    br_tls_prf_seed_chunk chunk = {seed, width()};
    br_tls_prf_impl prf = sha384 ? &br_tls12_sha384_prf : &br_tls12_sha256_prf;
    prf(secret, sizeof secret, key, sizeof key, (const char *)label, 1, &chunk);
}

static EVP_KDF_CTX *kdf; /* likewise; 3.0 adds a seed to that of the call before, so the seed too is set once */

static void openssl_secret(void)
{
    OSSL_PARAM parameters[] = {
        OSSL_PARAM_construct_octet_string(OSSL_KDF_PARAM_SECRET, key, sizeof key),
        OSSL_PARAM_construct_end(),
    };
    EVP_KDF_derive(kdf, secret, sizeof secret, parameters);
}

static void openssl_fetch(void)
{
    OSSL_PARAM once[] = {
        OSSL_PARAM_construct_utf8_string(OSSL_ALG_PARAM_DIGEST, sha384 ? (char *)"SHA384" : (char *)"SHA256", 0),
        OSSL_PARAM_construct_end(),
        OSSL_PARAM_construct_octet_string(OSSL_KDF_PARAM_SEED, seed, width()),
        OSSL_PARAM_construct_end(),
    };
    mac = EVP_MAC_CTX_new(EVP_MAC_fetch(NULL, "HMAC", NULL));
    EVP_MAC_CTX_set_params(mac, once);
    once[1] = OSSL_PARAM_construct_octet_string(OSSL_KDF_PARAM_SEED, (void *)label, LABEL);
    kdf = EVP_KDF_CTX_new(EVP_KDF_fetch(NULL, "TLS1-PRF", NULL));
    EVP_KDF_CTX_set_params(kdf, once);
}

static void mbedtls_secret(void)
{
    mbedtls_ssl_tls_prf(sha384 ? MBEDTLS_SSL_TLS_PRF_SHA384 : MBEDTLS_SSL_TLS_PRF_SHA256, key, sizeof key, (const char *)label, seed,
                        width(), secret, sizeof secret);
}

#ifdef BEFORE
#include "before.h"

#if BEFORE_AXLE_GATEWAY_VERSION_NUMBER < 900 /* there was SHA-256 alone */
#define BEFORE_SHA256
#else
#define BEFORE_SHA256 0,
#endif

static void before_hmac(void)
{
    before_AxleTagged t = before_axle_hmac(key, sizeof key, input, sizeof input);
    memcpy(tag, t.tag, 32);
}

static void before_secret(void)
{
    before_axle_extended_master_secret(BEFORE_SHA256 key, sizeof key, seed, AXLE_DIGEST_SIZE, secret, sizeof secret);
}

#if BEFORE_AXLE_GATEWAY_VERSION_NUMBER >= 900
static void before_hmac384(void)
{
    before_AxleTagged384 t = before_axle_hmac_sha384(key, sizeof key, input, sizeof input);
    memcpy(tag, t.tag, 48);
}

static void before_secret384(void)
{
    before_axle_extended_master_secret(1, key, sizeof key, seed, sizeof seed, secret, sizeof secret);
}
#endif
#endif

int main(int argc, char **argv)
{
    const char *name = openssl_name();
    const contestant hmacs[] = {
        {"this library", ours_hmac},
        {name, openssl_hmac},
        {"BearSSL", bearssl_hmac},
        {"mbedTLS", mbedtls_hmac},
#ifdef BEFORE
        {"before", before_hmac},
#endif
    };
    const contestant secrets[] = {
        {"this library", ours_secret},
        {name, openssl_secret},
        {"BearSSL", bearssl_secret},
        {"mbedTLS", mbedtls_secret},
#ifdef BEFORE
        {"before", before_secret},
#endif
    };
    const contestant hmacs384[] = {
        {"this library", ours_hmac},
        {OPENSSL_WITHOUT, openssl_hmac},
        {"BearSSL", bearssl_hmac},
        {"mbedTLS", mbedtls_hmac},
#if defined BEFORE && BEFORE_AXLE_GATEWAY_VERSION_NUMBER >= 900
        {"before", before_hmac384},
#endif
    };
    const contestant secrets384[] = {
        {"this library", ours_secret},
        {OPENSSL_WITHOUT, openssl_secret},
        {"BearSSL", bearssl_secret},
        {"mbedTLS", mbedtls_secret},
#if defined BEFORE && BEFORE_AXLE_GATEWAY_VERSION_NUMBER >= 900
        {"before", before_secret384},
#endif
    };
    int some = argc > 1 && strcmp(argv[1], "openssl") == 0; /* OpenSSL alone beside ours, and what masked instructions change */
    memset(key, 7, sizeof key);
    memset(input, 9, sizeof input);
    memset(seed, 11, sizeof seed);
    openssl_fetch();
    contest("HMAC-SHA-256", sizeof input, hmacs, some ? 2 : COUNT(hmacs), (answer){tag, 32});
    contest("extended master secret", NO_SIZE, secrets, some ? 2 : COUNT(secrets), (answer){secret, sizeof secret});
    if (some)
        return 0;
    sha384 = 1;
    openssl_fetch();
    contest("HMAC-SHA-384", sizeof input, hmacs384, COUNT(hmacs384), (answer){tag, 48});
    contest("extended master secret, SHA-384", NO_SIZE, secrets384, COUNT(secrets384), (answer){secret, sizeof secret});
    return 0;
}
