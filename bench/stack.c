/* How many bytes of stack BearSSL and mbedTLS write for the work of our calls, painted as tests/stack.c paints ours
 * (tests/painted.h). A line for each, fields parted by tabs: our call, who, theirs, bytes; where it takes several of theirs, the
 * deepest counts. Each is called once before it is painted: what an allocator does the first time is not theirs. */
#include "painted.h"

#include <bearssl.h>
#include <mbedtls/md.h>
#include <mbedtls/sha256.h>
#include <mbedtls/sha512.h>
#include <mbedtls/ssl.h>
#include <mbedtls/ssl_cache.h>
#include <stdint.h>
#include <stdio.h>
#include <string.h>

#define ROW(our_call, who, call, ...)                                       \
    do {                                                                    \
        size_t depth_;                                                      \
        (void)call(__VA_ARGS__);                                            \
        PAINTED(depth_, (void)call(__VA_ARGS__));                           \
        printf("%s\t%s\t%s\t%zu\n", our_call, who, #call, depth_);          \
    } while (0)

static uint8_t input[1000], digest[64], secret[48];

static void bearssl(void)
{
    static br_sha256_context hash;
    static br_sha384_context hash384;
    static br_hmac_key_context keyed;
    static br_hmac_context hmac;
    static const br_tls_prf_seed_chunk seed = {input, 32}, seed384 = {input, 48}, randoms = {input, 64};
    ROW("axle_hash_fresh", "BearSSL", br_sha256_init, &hash);
    br_sha256_update(&hash, input, 10);
    ROW("axle_hash_absorb", "BearSSL", br_sha256_update, &hash, input, sizeof input);
    br_sha256_init(&hash);
    br_sha256_update(&hash, input, 60); /* its padding takes two blocks */
    ROW("axle_hash_digest", "BearSSL", br_sha256_out, &hash, digest);
    ROW("axle_hmac", "BearSSL", br_hmac_key_init, &keyed, &br_sha256_vtable, input, sizeof input);
    ROW("axle_hmac", "BearSSL", br_hmac_init, &hmac, &keyed, 0);
    ROW("axle_hmac", "BearSSL", br_hmac_update, &hmac, input, sizeof input);
    ROW("axle_hmac", "BearSSL", br_hmac_out, &hmac, digest);
    ROW("axle_hash384_fresh", "BearSSL", br_sha384_init, &hash384);
    br_sha384_update(&hash384, input, 10);
    ROW("axle_hash384_absorb", "BearSSL", br_sha384_update, &hash384, input, sizeof input);
    br_sha384_init(&hash384);
    br_sha384_update(&hash384, input, 120);
    ROW("axle_hash384_digest", "BearSSL", br_sha384_out, &hash384, digest);
    ROW("axle_hmac_sha384", "BearSSL", br_hmac_key_init, &keyed, &br_sha384_vtable, input, sizeof input);
    ROW("axle_hmac_sha384", "BearSSL", br_hmac_init, &hmac, &keyed, 0);
    ROW("axle_hmac_sha384", "BearSSL", br_hmac_update, &hmac, input, sizeof input);
    ROW("axle_hmac_sha384", "BearSSL", br_hmac_out, &hmac, digest);
    ROW("axle_extended_master_secret", "BearSSL", br_tls12_sha256_prf, secret, sizeof secret, input, 48, "extended master secret", 1,
        &seed);
    ROW("axle_extended_master_secret", "BearSSL", br_tls12_sha384_prf, secret, sizeof secret, input, 48, "extended master secret", 1,
        &seed384);
    ROW("axle_master_secret", "BearSSL", br_tls12_sha256_prf, secret, sizeof secret, input, 48, "master secret", 1, &randoms);
    ROW("axle_master_secret", "BearSSL", br_tls12_sha384_prf, secret, sizeof secret, input, 48, "master secret", 1, &randoms);
}

static void mbedtls(void)
{
    static mbedtls_sha256_context hash;
    static mbedtls_sha512_context hash384;
    const mbedtls_md_info_t *sha256 = mbedtls_md_info_from_type(MBEDTLS_MD_SHA256);
    const mbedtls_md_info_t *sha384 = mbedtls_md_info_from_type(MBEDTLS_MD_SHA384);
    mbedtls_sha256_init(&hash);
    ROW("axle_hash_fresh", "mbedTLS", mbedtls_sha256_starts_ret, &hash, 0);
    mbedtls_sha256_update_ret(&hash, input, 10);
    ROW("axle_hash_absorb", "mbedTLS", mbedtls_sha256_update_ret, &hash, input, sizeof input);
    mbedtls_sha256_starts_ret(&hash, 0);
    mbedtls_sha256_update_ret(&hash, input, 60);
    ROW("axle_hash_digest", "mbedTLS", mbedtls_sha256_finish_ret, &hash, digest);
    ROW("axle_sha256", "mbedTLS", mbedtls_sha256_ret, input, sizeof input, digest, 0);
    ROW("axle_hmac", "mbedTLS", mbedtls_md_hmac, sha256, input, sizeof input, input, sizeof input, digest);
    mbedtls_sha512_init(&hash384);
    ROW("axle_hash384_fresh", "mbedTLS", mbedtls_sha512_starts_ret, &hash384, 1);
    mbedtls_sha512_update_ret(&hash384, input, 10);
    ROW("axle_hash384_absorb", "mbedTLS", mbedtls_sha512_update_ret, &hash384, input, sizeof input);
    mbedtls_sha512_starts_ret(&hash384, 1);
    mbedtls_sha512_update_ret(&hash384, input, 120);
    ROW("axle_hash384_digest", "mbedTLS", mbedtls_sha512_finish_ret, &hash384, digest);
    ROW("axle_sha384", "mbedTLS", mbedtls_sha512_ret, input, sizeof input, digest, 1);
    ROW("axle_hmac_sha384", "mbedTLS", mbedtls_md_hmac, sha384, input, sizeof input, input, sizeof input, digest);
    ROW("axle_extended_master_secret", "mbedTLS", mbedtls_ssl_tls_prf, MBEDTLS_SSL_TLS_PRF_SHA256, input, 48, "extended master secret",
        input, 32, secret, sizeof secret);
    ROW("axle_extended_master_secret", "mbedTLS", mbedtls_ssl_tls_prf, MBEDTLS_SSL_TLS_PRF_SHA384, input, 48, "extended master secret",
        input, 48, secret, sizeof secret);
    ROW("axle_master_secret", "mbedTLS", mbedtls_ssl_tls_prf, MBEDTLS_SSL_TLS_PRF_SHA256, input, 48, "master secret", input, 64,
        secret, sizeof secret);
    ROW("axle_master_secret", "mbedTLS", mbedtls_ssl_tls_prf, MBEDTLS_SSL_TLS_PRF_SHA384, input, 48, "master secret", input, 64,
        secret, sizeof secret);
}

enum { PLACES = 32, LRU_ENTRY = 100 };

/* A new session in a full cache, so that the oldest goes, and one that is found. */
static void bearssl_cache(void)
{
    static br_ssl_session_cache_lru lru;
    static br_ssl_server_context server;
    static uint8_t places[PLACES * LRU_ENTRY];
    static br_ssl_session_parameters session = {.session_id_len = 32, .version = BR_TLS12};
    br_hmac_drbg_init(&server.eng.rng, &br_sha256_vtable, "bench", 5);
    ROW("axle_table_fresh", "BearSSL", br_ssl_session_cache_lru_init, &lru, places, sizeof places);
    for (uint8_t i = 0; i < PLACES; i++, session.session_id[0]++)
        lru.vtable->save(&lru.vtable, &server, &session);
    ROW("axle_table_store", "BearSSL", lru.vtable->save, &lru.vtable, &server, (session.session_id[0]++, &session));
    ROW("axle_table_look_up", "BearSSL", lru.vtable->load, &lru.vtable, &server, &session);
    ROW("axle_table_withdraw", "BearSSL", br_ssl_session_cache_lru_forget, &lru, session.session_id);
}

static void mbedtls_cache(void)
{
    enum { CALLS = 3 }; /* ROW makes so many, and a cache can be freed once */
    static mbedtls_ssl_cache_context caches[CALLS], *next = caches;
    static mbedtls_ssl_session session = {.id_len = 32};
    for (int c = 0; c < CALLS; c++) {
        ROW("axle_table_fresh", "mbedTLS", mbedtls_ssl_cache_init, &caches[c]);
        mbedtls_ssl_cache_set_max_entries(&caches[c], PLACES);
        for (uint8_t i = 0; i < PLACES; i++, session.id[0]++)
            mbedtls_ssl_cache_set(&caches[c], &session);
    }
    ROW("axle_table_store", "mbedTLS", mbedtls_ssl_cache_set, caches, (session.id[0]++, &session));
    ROW("axle_table_look_up", "mbedTLS", mbedtls_ssl_cache_get, caches, &session);
    ROW("axle_table_clear", "mbedTLS", mbedtls_ssl_cache_free, next++);
}

int main(void)
{
    bearssl();
    mbedtls();
    bearssl_cache();
    mbedtls_cache();
    return 0;
}
