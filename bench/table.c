/* The session table beside those of BearSSL (ssl_lru) and mbedTLS (ssl_cache), each with 32 sessions: look-up, store where there is
 * no room, what is left of quiet axles, and how the cost grows with the number of sessions held. What the others do not do, or not
 * aside, is timed beside an earlier build alone: a store in an empty table, withdrawal, number held. */
#include "axle_gateway.h"
#include "clock.h"

#include <bearssl.h>
#include <mbedtls/ssl_cache.h>

enum { PLACES = AXLE_SESSIONS_MAX, LRU_ENTRY = 100, SUITE = 0x003c };

/* The session at hand, and what a look-up finds of it. */
static uint8_t axle, identifier[32], secret[48] = {[47] = 7}, out[48];

static void session(uint8_t of, uint32_t number)
{
    axle = of;
    memcpy(identifier, &number, sizeof number);
    memcpy(secret, &number, sizeof number);
}

/* ---- Ours --------------------------------------------------------------------------------------------------------- */

static AxleTable table, next;

static void ours_clear(void) { table = axle_table_fresh(); }
static void ours_store(void) { axle_table_store_in(&table, axle, identifier, sizeof identifier, 1, SUITE, secret, sizeof secret); }

static int ours_found(void)
{
    return axle_table_look_up(table, axle, identifier, sizeof identifier, out, sizeof out).found;
}

/* A store that leaves the table as it was, for the next one to meet it so. */
static void ours_store_aside(void)
{
    next = axle_table_store(table, axle, identifier, sizeof identifier, 1, SUITE, secret, sizeof secret).table;
}

/* Likewise. */
static int ours_withdraw_aside(void)
{
    AxleWithdrawn answer = axle_table_withdraw(table, axle, identifier, sizeof identifier);
    next = answer.table;
    return answer.withdrawn;
}

static int ours_held(void) { return axle_table_held(table, axle).count; }

/* ---- BearSSL's: no axle, an identifier of 32 bytes ----------------------------------------------------------------- */

static br_ssl_session_cache_lru lru;
static br_ssl_server_context server; /* for its random bytes */
static uint8_t lru_places[PLACES * LRU_ENTRY];

static void bearssl_clear(void)
{
    br_hmac_drbg_init(&server.eng.rng, &br_sha256_vtable, "bench", 5);
    br_ssl_session_cache_lru_init(&lru, lru_places, sizeof lru_places);
}

static br_ssl_session_parameters parameters(void)
{
    br_ssl_session_parameters p = {.session_id_len = 32, .version = BR_TLS12, .cipher_suite = SUITE};
    memcpy(p.session_id, identifier, 32);
    memcpy(p.master_secret, secret, 48);
    return p;
}

static void bearssl_store(void)
{
    br_ssl_session_parameters p = parameters();
    lru.vtable->save(&lru.vtable, &server, &p);
}

static int bearssl_found(void)
{
    br_ssl_session_parameters p = parameters();
    int found = lru.vtable->load(&lru.vtable, &server, &p);
    if (found)
        memcpy(out, p.master_secret, 48);
    return found;
}

/* ---- mbedTLS's: no axle either ------------------------------------------------------------------------------------- */

static mbedtls_ssl_cache_context cache;

static void mbedtls_clear(void)
{
    mbedtls_ssl_cache_free(&cache);
    mbedtls_ssl_cache_init(&cache);
    mbedtls_ssl_cache_set_max_entries(&cache, PLACES);
}

static mbedtls_ssl_session bare(void)
{
    mbedtls_ssl_session s = {.ciphersuite = SUITE, .id_len = 32};
    memcpy(s.id, identifier, 32);
    return s;
}

static void mbedtls_store(void)
{
    mbedtls_ssl_session s = bare();
    memcpy(s.master, secret, 48);
    mbedtls_ssl_cache_set(&cache, &s);
}

static int mbedtls_found(void)
{
    mbedtls_ssl_session s = bare();
    int found = mbedtls_ssl_cache_get(&cache, &s) == 0;
    if (found)
        memcpy(out, s.master, 48);
    return found;
}

/* A second goes by: whatever is in the cache is a second older. */
static void mbedtls_tick(void)
{
    for (mbedtls_ssl_cache_entry *e = cache.chain; e != NULL; e = e->next)
        e->timestamp--;
}

static void mbedtls_store_later(void)
{
    mbedtls_tick();
    mbedtls_store();
}

/* ---- An earlier build ---------------------------------------------------------------------------------------------- */

#ifdef BEFORE
#include "before.h"

#if BEFORE_AXLE_GATEWAY_VERSION_NUMBER < 700 /* a session had no suite */
#define BEFORE_SUITE
#else
#define BEFORE_SUITE SUITE,
#endif

static before_AxleTable earlier, earlier_next;

static void before_clear(void) { earlier = before_axle_table_fresh(); }

static void before_store(void)
{
    before_AxleStored answer =
        before_axle_table_store(earlier, axle, identifier, sizeof identifier, 1, BEFORE_SUITE secret, sizeof secret);
    earlier = answer.table;
}

static void before_store_aside(void)
{
    earlier_next = before_axle_table_store(earlier, axle, identifier, sizeof identifier, 1, BEFORE_SUITE secret, sizeof secret).table;
}

static int before_withdraw_aside(void)
{
    before_AxleWithdrawn answer = before_axle_table_withdraw(earlier, axle, identifier, sizeof identifier);
    earlier_next = answer.table;
    return answer.withdrawn;
}

static int before_held(void) { return before_axle_table_held(earlier, axle).count; }

static int before_found(void)
{
    return before_axle_table_look_up(earlier, axle, identifier, sizeof identifier, out, sizeof out).found;
}
#endif

/* ---- The contests -------------------------------------------------------------------------------------------------- */

/* Which session comes next: each held one in turn, a new one of each axle in turn, a new one of axle 6, or the same again. */
static uint32_t turn, newest;

static void each_held(void) { session((uint8_t)(1 + turn % PLACES % AXLE_AXLES), turn % PLACES), turn++; }
static void new_of_each(void) { session((uint8_t)(1 + newest % AXLE_AXLES), newest), newest++; }
static void new_of_sixth(void) { session(6, newest++); }
static void same_again(void) {}
static void (*choose)(void);

#define WORKS(who)                                                                      \
    static void who##_look_up(void) { choose(), who##_found(); }                        \
    static void who##_new(void) { choose(), who##_store(); }                            \
    static void who##_stored_found(void) { choose(), who##_store(), who##_found(); }    \
    static inline int who##_left(void (*store)(void), uint32_t quiet)                   \
    {                                                                                   \
        int left = 0;                                                                   \
        who##_clear();                                                                  \
        for (uint32_t i = 0; i < quiet + 1000; i++)                                     \
            session(i < quiet ? (uint8_t)(1 + i % 5) : 6, i), store();                  \
        for (uint32_t i = 0; i < quiet; i++)                                            \
            session((uint8_t)(1 + i % 5), i), left += who##_found();                    \
        return left;                                                                    \
    }                                                                                   \
    static void who##_fill(uint32_t n, uint8_t axles)                                   \
    {                                                                                   \
        who##_clear();                                                                  \
        for (uint32_t i = 0; i < n; i++)                                                \
            session((uint8_t)(1 + i % axles), i), who##_store();                        \
    }

WORKS(ours)
WORKS(bearssl)
WORKS(mbedtls)

/* Those that only our builds do. */
#define OUR_WORKS(who)                                                                             \
    static void who##_new_aside(void) { choose(), who##_store_aside(); }                           \
    static void who##_withdraw(void) { choose(), out[0] = (uint8_t)who##_withdraw_aside(); }       \
    static void who##_number(void) { choose(), out[0] = (uint8_t)who##_held(); }

OUR_WORKS(ours)
#ifdef BEFORE
WORKS(before)
OUR_WORKS(before)
#define AND_BEFORE(work) , {"before", before_##work}
#else
#define AND_BEFORE(work)
#endif

static const contestant look_up[] = {
    {"this library", ours_look_up}, {"BearSSL", bearssl_look_up}, {"mbedTLS", mbedtls_look_up} AND_BEFORE(look_up)};
static const contestant found[] = {
    {"this library", ours_stored_found}, {"BearSSL", bearssl_stored_found}, {"mbedTLS", mbedtls_stored_found} AND_BEFORE(stored_found)};
static const contestant store[] = {
    {"this library", ours_new}, {"BearSSL", bearssl_new}, {"mbedTLS", mbedtls_new} AND_BEFORE(new)};
static const contestant store_aside[] = {
    {"this library", ours_new_aside}, {"BearSSL", bearssl_new}, {"mbedTLS", mbedtls_new} AND_BEFORE(new_aside)};
static const contestant store_ours[] = {{"this library", ours_new_aside} AND_BEFORE(new_aside)};
static const contestant withdraw[] = {{"this library", ours_withdraw} AND_BEFORE(withdraw)};
static const contestant number[] = {{"this library", ours_number} AND_BEFORE(number)};

/* n sessions in each of them, of so many axles in turn. */
static void fill(uint32_t n, uint8_t axles)
{
    ours_fill(n, axles);
    bearssl_fill(n, axles);
    mbedtls_fill(n, axles);
#ifdef BEFORE
    before_fill(n, axles);
#endif
    newest = n;
}

/* Of the session at hand our builds say alike how many its axle holds, and that it is there to be withdrawn. */
static void all_count(void)
{
    choose = same_again;
    agreed("number held", number, COUNT(number), (answer){out, 1});
    agreed("withdrawal", withdraw, COUNT(withdraw), (answer){out, 1});
    if (out[0] != 1) {
        fprintf(stderr, "bench: a session that was stored is not withdrawn\n");
        exit(1);
    }
}

/* The session at hand is found by all, with its secret. */
static void all_find(const contestant *all, int n)
{
    choose = same_again;
    agreed("look-up", all, n, (answer){out, sizeof out});
    if (memcmp(out, secret, sizeof out) != 0) {
        fprintf(stderr, "bench: a session that was stored is not found\n");
        exit(1);
    }
}

static void full(void)
{
    fill(PLACES, AXLE_AXLES);
    for (int i = 0; i < PLACES; i++) {
        each_held();
        all_find(look_up, COUNT(look_up));
        all_count();
    }
    choose = each_held;
    side_by_side("look-up in a full table, each session in turn", NO_SIZE, look_up, COUNT(look_up));
    side_by_side("withdrawal from a full table, each session in turn", NO_SIZE, withdraw, COUNT(withdraw));
    side_by_side("number held in a full table, each axle in turn", NO_SIZE, number, COUNT(number));
    session(3, 99);
    all_find(found, COUNT(found));
    fill(PLACES, AXLE_AXLES);
    choose = new_of_each;
    side_by_side("store in a full table, the axle's own oldest goes", NO_SIZE, store, COUNT(store));
    fill(PLACES, 4);
    choose = new_of_sixth;
    side_by_side("store in a full table of 8, 8, 8, 8, 0, 0 by axle 6", NO_SIZE, store_aside, COUNT(store_aside));
    fill(0, AXLE_AXLES);
    side_by_side("store in an empty table", NO_SIZE, store_ours, COUNT(store_ours));
}

static void left(uint32_t quiet)
{
    const struct {
        const char *name;
        int left;
    } all[] = {
        {"this library", ours_left(ours_store, quiet)},
        {"BearSSL", bearssl_left(bearssl_store, quiet)},
        {"mbedTLS, stores a second apart", mbedtls_left(mbedtls_store_later, quiet)},
        {"mbedTLS, all stores in one second", mbedtls_left(mbedtls_store, quiet)},
    };
    for (int i = 0; i < COUNT(all); i++)
        printf("quiet sessions left\t%u\t%s\t%d\t1\n", quiet, all[i].name, all[i].left);
}

static void growth(void)
{
    for (uint32_t n = 0; n <= PLACES; n += 4) {
        fill(n, 4);
        session(4, n - 1); /* the youngest, if there is one */
        if (n > 0)
            all_find(look_up, COUNT(look_up));
        choose = same_again;
        side_by_side("look-up of the youngest", n, look_up, COUNT(look_up));
        side_by_side("number held", n, number, 1);
        choose = new_of_sixth;
        side_by_side("store by axle 6", n, store_ours, 1);
    }
}

int main(void)
{
    full();
    left(25);
    left(PLACES);
    growth();
    return 0;
}
