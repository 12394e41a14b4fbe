/* What include/axle_gateway.h says beside the calls: versions, sizes, parts of what is absent, places, NULL with length 0, the lists
 * of a writer, suites, the functions that keep a state in place, what a table has left of sessions given up, a message that enters by
 * parts, and the hash that a log is told. It is C99 and C++ at once; each case that is not so is a line, and the last line counts them
 * all. */
#include "axle_gateway.h"

#include <stdio.h>
#include <string.h>

static int cases, wrong;

#define IS(what)                                                 \
    do {                                                         \
        cases++;                                                 \
        if (!(what)) {                                           \
            wrong++;                                             \
            printf("line %d is not so: %s\n", __LINE__, #what);  \
        }                                                        \
    } while (0)

enum { CLIENT_HELLO = 1, SERVER_HELLO = 2, HELLO_DONE = 14, KEY_EXCHANGE = 16, FINISHED = 20, SUITE = 0x003c };

static uint8_t bytes[AXLE_HASH_MAX + 1];
static const uint8_t secret[AXLE_SECRET_SIZE] = {1, 2, 3};
static const uint8_t name[AXLE_IDENTIFIER_MAX] = {9};
static const AxleTold full = {0, 0}, by_sha384 = {0, 1};

static int same(const void *a, const void *b, size_t length)
{
    return memcmp(a, b, length) == 0;
}

static size_t message(uint8_t *to, uint8_t type, const uint8_t *body, size_t length)
{
    to[0] = type;
    to[1] = 0;
    to[2] = (uint8_t)(length >> 8);
    to[3] = (uint8_t)length;
    memmove(to + 4, body, length);
    return 4 + length;
}

/* A hello without an identifier: `rest` stands behind the methods of a ClientHello, or the method of a ServerHello. */
static size_t hello(uint8_t *to, uint8_t type, const uint8_t *rest, size_t length)
{
    uint8_t body[128] = {3, 3};
    size_t n = 35;
    if (type == CLIENT_HELLO)
        body[n++] = 0, body[n++] = 2;
    body[n++] = 0, body[n++] = 60;
    if (type == CLIENT_HELLO)
        body[n++] = 1;
    body[n++] = 0;
    memcpy(body + n, rest, length);
    return message(to, type, body, n + length);
}

/* ---- Version and sizes ------------------------------------------------------------------------------------------- */

#if AXLE_GATEWAY_VERSION_NUMBER < 900
#error "older than 0.9.0"
#endif

static void versions(void)
{
    char text[64];
    sprintf(text, "%d.%d.%d", AXLE_GATEWAY_VERSION_MAJOR, AXLE_GATEWAY_VERSION_MINOR, AXLE_GATEWAY_VERSION_PATCH);
    IS(strcmp(text, AXLE_GATEWAY_VERSION) == 0);
}

/* So many blocks of each hash. */
static int worked(AxleBlocks blocks, size_t sha256, size_t sha384)
{
    return blocks.sha256 == sha256 && blocks.sha384 == sha384;
}

/* Each size at its bound, and a byte beyond it. */
static void sizes(void)
{
    uint8_t out[128];
    AxleConnection later = axle_connection_fresh();
    const AxleSwitches none = {0, 0, 0};
    static const uint8_t ri_and_ems[] = {0, 21, 255, 1, 0, 13, 12, 0, 0, 0, 0, 0, 0, 0, 0, 0, 0, 0, 0, 0, 23, 0, 0};
    AxleDecision decision;
    AxleTable table = axle_table_fresh();
    size_t n;
    uint8_t i;

    memset(bytes, 0, sizeof bytes);
    bytes[0] = CLIENT_HELLO, bytes[2] = (AXLE_MESSAGE_MAX - 4) >> 8, bytes[3] = (AXLE_MESSAGE_MAX - 4) & 255;
    IS(axle_log_accept(axle_log_fresh(), bytes, AXLE_MESSAGE_MAX, full).refusal.number == AXLE_DONE);
    IS(axle_log_accept(axle_log_fresh(), bytes, AXLE_MESSAGE_MAX + 1, full).refusal.number == AXLE_LENGTH);
    IS(axle_log_feed(axle_log_fresh(), bytes, AXLE_MESSAGE_MAX, AXLE_ALLOWANCE_MAX, full).taken == AXLE_MESSAGE_MAX);
    IS(worked(axle_log_feed(axle_log_fresh(), bytes, AXLE_MESSAGE_MAX, AXLE_ALLOWANCE_MAX, full).blocks, AXLE_ALLOWANCE_MAX,
              AXLE_ALLOWANCE_MAX / 2));
    IS(axle_log_feed(axle_log_fresh(), bytes, AXLE_MESSAGE_MAX, AXLE_ALLOWANCE_MAX + 1, full).refusal.number == AXLE_LENGTH);
    IS(axle_log_feed(axle_log_fresh(), bytes, AXLE_MESSAGE_MAX, 0, full).refusal.number == AXLE_LENGTH);
    IS(axle_log_feed(axle_log_fresh(), bytes, AXLE_MESSAGE_MAX + 1, AXLE_ALLOWANCE_MAX, full).refusal.number == AXLE_LENGTH);
    IS(axle_log_finish(axle_log_fresh(), secret, AXLE_SECRET_SIZE, bytes, AXLE_MESSAGE_MAX).refusal.number == AXLE_OUT_OF_TURN);
    IS(axle_log_finish(axle_log_fresh(), secret, AXLE_SECRET_SIZE, bytes, AXLE_MESSAGE_MAX + 1).refusal.number == AXLE_LENGTH);
    IS(axle_log_finish(axle_log_fresh(), bytes, AXLE_SECRET_SIZE + 1, bytes, AXLE_MESSAGE_MAX).refusal.number == AXLE_LENGTH);
    IS(axle_read_client_hello(bytes, AXLE_MESSAGE_MAX).refusal.number == AXLE_MALFORMED);
    IS(axle_read_client_hello(bytes, AXLE_MESSAGE_MAX + 1).refusal.number == AXLE_LENGTH);

    later.completed = later.indication = 1;
    n = hello(bytes, CLIENT_HELLO, ri_and_ems, sizeof ri_and_ems);
    IS(axle_read_client_hello(bytes, n).hello.random.length == AXLE_RANDOM_SIZE);
    decision = axle_decide_server(bytes, n, 1, table, later, none, out, AXLE_REPLY_MAX);
    IS(decision.refusal.number == AXLE_DONE && decision.reply_length == AXLE_REPLY_MAX);
    IS(axle_decide_server(bytes, n, 1, table, later, none, out, AXLE_REPLY_MAX - 1).refusal.number == AXLE_LENGTH);

    IS(axle_sha256(bytes, AXLE_HASH_MAX).refusal.number == AXLE_DONE);
    IS(axle_sha256(bytes, AXLE_HASH_MAX + 1).refusal.number == AXLE_LENGTH);
    IS(axle_hmac(bytes, AXLE_HMAC_MAX, bytes, AXLE_HMAC_MAX).refusal.number == AXLE_DONE);
    IS(axle_hmac(bytes, AXLE_HMAC_MAX + 1, bytes, 0).refusal.number == AXLE_LENGTH);
    IS(axle_hmac(bytes, 0, bytes, AXLE_HMAC_MAX + 1).refusal.number == AXLE_LENGTH);
    IS(axle_sha384(bytes, AXLE_HASH_MAX).refusal.number == AXLE_DONE);
    IS(axle_sha384(bytes, AXLE_HASH_MAX + 1).refusal.number == AXLE_LENGTH);
    IS(axle_hmac_sha384(bytes, AXLE_HMAC_MAX, bytes, AXLE_HMAC_MAX).refusal.number == AXLE_DONE);
    IS(axle_hmac_sha384(bytes, AXLE_HMAC_MAX + 1, bytes, 0).refusal.number == AXLE_LENGTH);
    IS(axle_hmac_sha384(bytes, 0, bytes, AXLE_HMAC_MAX + 1).refusal.number == AXLE_LENGTH);
    for (i = 0; i < 3; i++) { /* a flag of 0, 1 and 2 */
        const size_t seed = i == 0 ? AXLE_DIGEST_SIZE : AXLE_DIGEST384_SIZE, other = AXLE_DIGEST_SIZE + AXLE_DIGEST384_SIZE - seed;
        IS(axle_extended_master_secret(i, bytes, AXLE_PRE_MASTER_MAX, bytes, seed, out, AXLE_SECRET_SIZE).number == AXLE_DONE);
        IS(axle_extended_master_secret(i, bytes, AXLE_PRE_MASTER_MAX + 1, bytes, seed, out, AXLE_SECRET_SIZE).number == AXLE_LENGTH);
        IS(axle_extended_master_secret(i, bytes, 1, bytes, seed + 1, out, AXLE_SECRET_SIZE).number == AXLE_LENGTH);
        IS(axle_extended_master_secret(i, bytes, 1, bytes, other, out, AXLE_SECRET_SIZE).number == AXLE_LENGTH);
        IS(axle_extended_master_secret(i, bytes, 1, bytes, seed, out, AXLE_SECRET_SIZE - 1).number == AXLE_LENGTH);
        IS(axle_master_secret(i, bytes, 1, bytes, 2 * AXLE_RANDOM_SIZE, out, AXLE_SECRET_SIZE).number == AXLE_DONE);
        IS(axle_master_secret(i, bytes, 1, bytes, seed, out, AXLE_SECRET_SIZE).number == AXLE_LENGTH);
    }

    IS(axle_table_store(table, AXLE_AXLES, name, AXLE_IDENTIFIER_MAX, 0, SUITE, secret, AXLE_SECRET_SIZE).refusal.number == AXLE_DONE);
    IS(axle_table_store(table, AXLE_AXLES, bytes, AXLE_IDENTIFIER_MAX + 1, 0, SUITE, secret, AXLE_SECRET_SIZE).refusal.number
       == AXLE_AXLE_OR_IDENTIFIER);
    IS(axle_table_held(table, AXLE_AXLES + 1).refusal.number == AXLE_AXLE_OR_IDENTIFIER);
    for (n = 0, i = 0; i < 6 * 16; i++)
        axle_table_store_in(&table, (uint8_t)(1 + i / 16), &i, 1, 0, SUITE, secret, sizeof secret);
    for (i = 1; i <= AXLE_AXLES; i++)
        n += axle_table_held(table, i).count;
    IS(n == AXLE_SESSIONS_MAX);
    table = axle_table_fresh();
    for (i = 0; i < 16; i++)
        axle_table_store_in(&table, 1, &i, 1, 0, SUITE, secret, sizeof secret);
    IS(axle_table_held(table, 1).count == AXLE_SESSIONS_AN_AXLE);
    IS(sizeof(AxleTable) == 4038 && sizeof(AxleTable) == AXLE_AXLES * (AXLE_SESSIONS_AN_AXLE * (2 + 2 + 32 + AXLE_SECRET_SIZE) + 1));
    IS(sizeof(AxleHash) == 104 && sizeof(AxleHash384) == 200 && sizeof(AxleTranscript) == 312 && sizeof(AxleTold) == 2);
    IS(sizeof(AxleLog) == 392 && offsetof(AxleLog, place) == 312 && offsetof(AxleLog, kind) == 385 && offsetof(AxleLog, left) == 388);
    IS(sizeof(AxleFed) == sizeof(AxleRefusal) + sizeof(AxleLog) + 3 * sizeof(size_t) && sizeof(AxleSessionHash) == 72);
    IS(sizeof(AxleStored) == 4056 && sizeof(AxleWithdrawn) == 4056 && sizeof(AxleCleared) == 4056);
    IS(sizeof axle_log_expected_finished(axle_log_fresh(), secret, sizeof secret).value == AXLE_VERIFY_DATA_SIZE);
}

/* ---- Parts ------------------------------------------------------------------------------------------------------- */

static int at(AxlePart part, size_t place, size_t length)
{
    return part.at == place && part.length == length;
}

static void parts(void)
{
    static const uint8_t empty_block[] = {0, 0};
    static const uint8_t ems[] = {0, 4, 0, 23, 0, 0};
    static const uint8_t empty_ri[] = {0, 5, 255, 1, 0, 1, 0};
    AxleExtensions e;
    AxleClientReading refused;
    uint8_t type;
    size_t n;
    for (type = CLIENT_HELLO; type <= SERVER_HELLO; type++) {
#define READ(rest, length)                             \
    (n = hello(bytes, type, rest, length),             \
     e = type == CLIENT_HELLO ? axle_read_client_hello(bytes, n).hello.extensions : axle_read_server_hello(bytes, n).hello.extensions)
        READ(empty_block, 0);
        IS(!e.block && at(e.list, n, 0) && !e.indicated && at(e.indication, 0, 0) && !e.ems);
        READ(empty_block, sizeof empty_block);
        IS(e.block && at(e.list, n, 0) && !e.indicated && at(e.indication, 0, 0) && !e.ems);
        READ(ems, sizeof ems);
        IS(e.block && at(e.list, n - 4, 4) && !e.indicated && at(e.indication, 0, 0) && e.ems);
        READ(empty_ri, sizeof empty_ri);
        IS(e.block && at(e.list, n - 5, 5) && e.indicated && at(e.indication, n, 0) && !e.ems);
    }
    n = hello(bytes, CLIENT_HELLO, empty_block, 1);
    refused = axle_read_client_hello(bytes, n);
    IS(refused.refusal.number == AXLE_MALFORMED && at(refused.hello.random, 0, 0) && at(refused.hello.extensions.list, 0, 0));
}

/* ---- Places ------------------------------------------------------------------------------------------------------- */

static int broke(AxleRefusal refusal, uint8_t number, size_t place)
{
    return refusal.number == number && refusal.place == place;
}

/* Every call that is lent a hello with this block answers that number and place; `behind` counts from the block's length, which
 * stands at place 45 of the ClientHello and 42 of the ServerHello. */
static void hello_broke(const uint8_t *block, size_t length, uint8_t number, size_t behind)
{
    const AxleTable table = axle_table_fresh();
    const AxleConnection fresh = axle_connection_fresh();
    const AxleSwitches none = {0, 0, 0};
    uint8_t out[AXLE_REPLY_MAX];
    size_t n = hello(bytes, CLIENT_HELLO, block, length);
    IS(broke(axle_read_client_hello(bytes, n).refusal, number, 45 + behind));
    IS(broke(axle_decide_server(bytes, n, 1, table, fresh, none, out, sizeof out).refusal, number, 45 + behind));
    IS(broke(axle_decide_server(bytes, n, 0, table, fresh, none, out, sizeof out).refusal, AXLE_AXLE_OR_IDENTIFIER, 0));
    IS(broke(axle_read_server_hello(bytes, n).refusal, AXLE_MALFORMED, 0));
    IS(broke(axle_log_accept(axle_log_fresh(), bytes, n, full).refusal, AXLE_DONE, 0));
    IS(broke(axle_read_client_hello(bytes, n - 1).refusal, AXLE_MALFORMED, 1));
    n = hello(bytes, SERVER_HELLO, block, length);
    IS(broke(axle_read_server_hello(bytes, n).refusal, number, 42 + behind));
    IS(broke(axle_decide_client(bytes, n, NULL, 0, 0, NULL, 0, 0, 0, fresh, none).refusal, number, 42 + behind));
    IS(broke(axle_decide_client(bytes, n, name, 1, 0, NULL, 0, 0, 0, fresh, none).refusal, AXLE_AXLE_OR_IDENTIFIER, 0));
}

static void places(void)
{
    static const uint8_t cut_off[] = {0}, too_long[] = {0, 1};
    static const uint8_t long_extension[] = {0, 4, 0, 16, 0, 1};
    static const uint8_t data_in_ems[] = {0, 5, 0, 23, 0, 1, 0};
    static const uint8_t empty_ri[] = {0, 8, 0, 16, 0, 0, 255, 1, 0, 0};
    static const uint8_t a_b_b_a[] = {0, 16, 0, 16, 0, 0, 0, 17, 0, 0, 0, 17, 0, 0, 0, 16, 0, 0};
    static const uint8_t type_0[] = {0, 0, 0, 1, 9}, out_of_turn[] = {HELLO_DONE, 0, 0, 0};
    AxleLog log = axle_log_fresh();
    unsigned number;
    IS(sizeof(AxleRefusal) == 2 * sizeof(size_t));
    for (number = 0; number < 256 && broke(axle_refusal((uint8_t)number), (uint8_t)number, 0);)
        number++;
    IS(number == 256);
    hello_broke(cut_off, sizeof cut_off, AXLE_MALFORMED, 1);
    hello_broke(too_long, sizeof too_long, AXLE_MALFORMED, 0);
    hello_broke(long_extension, sizeof long_extension, AXLE_MALFORMED, 4);
    hello_broke(data_in_ems, sizeof data_in_ems, AXLE_MALFORMED, 6);
    hello_broke(empty_ri, sizeof empty_ri, AXLE_MALFORMED, 10);
    hello_broke(a_b_b_a, sizeof a_b_b_a, AXLE_EXTENSION_TWICE, 10);
    IS(broke(axle_log_accept_in(&log, type_0, 3, full), AXLE_MALFORMED, 3));
    IS(broke(axle_log_accept_in(&log, type_0, sizeof type_0, full), AXLE_MALFORMED, 1));
    IS(broke(axle_log_accept_in(&log, out_of_turn, sizeof out_of_turn, full), AXLE_OUT_OF_TURN, 0));
    IS(broke(axle_log_feed_in(&log, type_0, 3, 1, full, NULL, NULL), AXLE_MALFORMED, 3));
    IS(broke(axle_log_feed_in(&log, type_0, sizeof type_0, 1, full, NULL, NULL), AXLE_MALFORMED, 1));
    IS(broke(axle_log_feed_in(&log, type_0, sizeof type_0, 0, full, NULL, NULL), AXLE_LENGTH, 0));
    IS(broke(axle_log_feed_in(&log, out_of_turn, sizeof out_of_turn, 1, full, NULL, NULL), AXLE_OUT_OF_TURN, 0));
    IS(broke(axle_log_finish_in(&log, secret, sizeof secret, type_0, 2), AXLE_MALFORMED, 2));
    IS(broke(axle_log_finish_in(&log, secret, sizeof secret - 1, type_0, 2), AXLE_LENGTH, 0));
}

/* ---- Writing ------------------------------------------------------------------------------------------------------ */

static const uint16_t types[] = {AXLE_TYPE_RENEGOTIATION_INFO, AXLE_TYPE_EXTENDED_MASTER_SECRET}, lengths[] = {1, 0};
static const uint8_t data[AXLE_MESSAGE_MAX] = {0}, suite[] = {0, 60};

/* A ClientHello with the list for a first handshake. */
static AxleWritten own(uint16_t version, uint8_t block, size_t count, size_t data_length, uint8_t *out, size_t room)
{
    return axle_write_client_hello(version, name, sizeof name, NULL, 0, suite, sizeof suite, data, 1, block, types, count, lengths,
                                   count, data, data_length, out, room);
}

/* A ServerHello with a list of two types at most that have no data. */
static AxleWritten answered(uint16_t version, size_t random, size_t identifier, const uint16_t *of, size_t count, uint8_t *out,
                            size_t room)
{
    static const uint16_t none[2] = {0, 0};
    return axle_write_server_hello(version, data, random, data, identifier, 60, 0, count > 0, of, count, none, count, NULL, 0, out,
                                   room);
}

static void writing(void)
{
    static const uint8_t block[] = {0, 9, 255, 1, 0, 1, 0, 0, 23, 0, 0};
    static const uint16_t twice[] = {16, 16};
    static uint8_t out[AXLE_MESSAGE_MAX + 1], made[128];
    uint16_t found_types[2] = {0, 0}, found_lengths[2] = {0, 0}, longest = AXLE_MESSAGE_MAX - 51;
    uint8_t found_data[1] = {7};
    size_t count = 0, length = 0, n = hello(made, CLIENT_HELLO, block, sizeof block);
    AxleWritten written = own(0x0303, 1, 2, 1, out, n);
    AxleExtensions read;
    AxleExtension e;
    memcpy(made + 6, name, sizeof name); /* the random */
    IS(written.refusal.number == AXLE_DONE && written.length == n && same(out, made, n));
    read = axle_read_client_hello(out, n).hello.extensions;
    IS(read.block && read.indicated && read.indication.length == 0 && read.ems && !read.others);
    for (e = axle_next_extension(out, n, read.list.at); e.found; e = axle_next_extension(out, n, e.next)) {
        found_types[count] = e.type;
        found_lengths[count++] = (uint16_t)e.data.length;
        memcpy(found_data + length, out + e.data.at, e.data.length);
        length += e.data.length;
    }
    IS(count == 2 && same(found_types, types, sizeof types) && same(found_lengths, lengths, sizeof lengths));
    IS(length == 1 && found_data[0] == 0);
    IS(!e.found && e.type == 0 && at(e.data, 0, 0) && e.next == 0);

    written = own(0x0303, 1, 2, 1, out, n - 1);
    IS(written.refusal.number == AXLE_LENGTH && written.length == 0);
    IS(own(0x0303, 1, 2, 2, out, sizeof out).refusal.number == AXLE_LENGTH);
    IS(own(0x0303, 0, 2, 1, out, sizeof out).refusal.number == AXLE_LENGTH);
    IS(own(0x0302, 1, 2, 1, out, sizeof out).refusal.number == AXLE_VERSION);
    IS(own(0x0303, 0, 0, 0, out, sizeof out).length == 45);
    IS(own(0x0303, 1, 0, 0, out, sizeof out).length == 47);
    IS(answered(0x0303, AXLE_RANDOM_SIZE, AXLE_IDENTIFIER_MAX, NULL, 0, out, 74).length == 74);
    IS(answered(0x0303, AXLE_RANDOM_SIZE, AXLE_IDENTIFIER_MAX, NULL, 0, out, 73).refusal.number == AXLE_LENGTH);
    IS(answered(0x0303, AXLE_RANDOM_SIZE, AXLE_IDENTIFIER_MAX + 1, NULL, 0, out, sizeof out).refusal.number == AXLE_LENGTH);
    IS(answered(0x0303, AXLE_RANDOM_SIZE + 1, 0, NULL, 0, out, sizeof out).refusal.number == AXLE_LENGTH);
    IS(broke(answered(0x0303, AXLE_RANDOM_SIZE, 0, types, 2, out, sizeof out).refusal, AXLE_MALFORMED, 0));
    IS(broke(answered(0x0303, AXLE_RANDOM_SIZE, 0, twice, 2, out, sizeof out).refusal, AXLE_EXTENSION_TWICE, 0));
    IS(answered(0x0304, AXLE_RANDOM_SIZE, 0, twice, 1, out, sizeof out).refusal.number == AXLE_VERSION);

    /* the longest message fits into AXLE_MESSAGE_MAX bytes, and there is no longer one */
#define LONG(length, room)                                                                                                      \
    axle_write_client_hello(0x0303, name, sizeof name, NULL, 0, suite, sizeof suite, data, 1, 1, twice, 1, &longest, 1, data, length, \
                            out, room)
    IS(LONG(longest, AXLE_MESSAGE_MAX).length == AXLE_MESSAGE_MAX);
    IS(LONG(longest, AXLE_MESSAGE_MAX - 1).refusal.number == AXLE_LENGTH);
    longest++;
    IS(LONG(longest, sizeof out).refusal.number == AXLE_LENGTH);
}

/* ---- Suites -------------------------------------------------------------------------------------------------------- */

/* A session from store to look-up, from there into a ServerHello, and before both decisions. `name` is the identifier. */
static void suites(void)
{
    static const uint16_t some[] = {0, 1, 0x00ff, SUITE, 0x1234, 0x3412, 0xff00, 0xffff};
    static const uint8_t empty[] = {0};
    const AxleTable fresh = axle_table_fresh();
    const AxleConnection first = axle_connection_fresh();
    const AxleSwitches none = {0, 0, 0};
    uint8_t found[AXLE_SECRET_SIZE], listed[4], reply[AXLE_REPLY_MAX];
    size_t i, j, n;
    for (i = 0; i < sizeof some / sizeof *some; i++) {
        const AxleTable table = axle_table_store(fresh, 5, name, sizeof name, 1, some[i], secret, sizeof secret).table;
        const AxleLooked looked = axle_table_look_up(table, 5, name, sizeof name, found, sizeof found);
        IS(looked.found && looked.suite == some[i]);
        IS(table.queues[4].rows[0].suite[0] == some[i] >> 8 && table.queues[4].rows[0].suite[1] == (some[i] & 255));
        IS(axle_table_look_up(table, 6, name, sizeof name, found, sizeof found).suite == 0);
        IS(axle_table_look_up(table, 5, name, sizeof name, found, 47).suite == 0);
        for (j = 0; j < sizeof some / sizeof *some; j++) {
            AxleDecision decision;
            const uint8_t resumes = i == j;
            listed[0] = 0x7f, listed[1] = 0xff, listed[2] = (uint8_t)(some[j] >> 8), listed[3] = (uint8_t)some[j];
            n = axle_write_client_hello(0x0303, name, 32, name, sizeof name, listed, sizeof listed, empty, 1, 1, types, 2, lengths, 2,
                                        empty, 1, bytes, sizeof bytes)
                    .length;
            decision = axle_decide_server(bytes, n, 5, table, first, none, reply, sizeof reply);
            IS(decision.refusal.number == AXLE_DONE && decision.resumes == resumes && decision.ems && decision.reply_length == 11);
            n = axle_write_server_hello(0x0303, name, 32, name, sizeof name, some[j], 0, 1, types, 2, lengths, 2, empty, 1, bytes,
                                        sizeof bytes)
                    .length;
            decision = axle_decide_client(bytes, n, name, sizeof name, 1, name, sizeof name, 1, looked.suite, first, none);
            IS(broke(decision.refusal, resumes ? AXLE_DONE : AXLE_SUITE, 0) && decision.resumes == resumes);
            IS(resumes || (decision.refusal.level == AXLE_ALERT_FATAL && decision.refusal.code == 47));
            decision = axle_decide_client(bytes, n, NULL, 0, 1, name, sizeof name, 1, looked.suite, first, none);
            IS(decision.refusal.number == AXLE_DONE && !decision.resumes);
        }
    }
}

/* ---- NULL with a length of 0, in every call that is lent something ------------------------------------------------ */

static void nulls(void)
{
    static const uint8_t abc[3] = {'a', 'b', 'c'};
    const AxleTable table = axle_table_store(axle_table_fresh(), 1, name, 1, 1, SUITE, secret, sizeof secret).table;
    const AxleConnection fresh = axle_connection_fresh();
    const AxleSwitches legacy = {0, 1, 1};
    AxleDigested of_nothing = axle_sha256(NULL, 0);
    AxleHash hash = axle_hash_absorb(axle_hash_fresh(), abc, sizeof abc).hash;
    AxleAbsorbed more = axle_hash_absorb(hash, NULL, 0);
    AxleDigested384 of_nothing384 = axle_sha384(NULL, 0);
    AxleHash384 hash384 = axle_hash384_absorb(axle_hash384_fresh(), abc, sizeof abc).hash;
    AxleAbsorbed384 more384 = axle_hash384_absorb(hash384, NULL, 0);
    uint8_t to[128], out[1];
    size_t n;
    IS(of_nothing.refusal.number == AXLE_DONE && same(of_nothing.digest, axle_hash_digest(axle_hash_fresh()).bytes, 32));
    IS(more.refusal.number == AXLE_DONE && same(axle_hash_digest(more.hash).bytes, axle_sha256(abc, sizeof abc).digest, 32));
    IS(of_nothing384.refusal.number == AXLE_DONE && same(of_nothing384.digest, axle_hash384_digest(axle_hash384_fresh()).bytes, 48));
    IS(more384.refusal.number == AXLE_DONE && same(axle_hash384_digest(more384.hash).bytes, axle_sha384(abc, sizeof abc).digest, 48));
    IS(axle_hmac(NULL, 0, NULL, 0).refusal.number == AXLE_DONE);
    IS(axle_hmac_sha384(NULL, 0, NULL, 0).refusal.number == AXLE_DONE);
    for (n = 0; n < 2; n++) {
        IS(axle_extended_master_secret((uint8_t)n, NULL, 0, NULL, 0, NULL, 0).number == AXLE_LENGTH);
        IS(axle_extended_master_secret((uint8_t)n, abc, sizeof abc, to, n ? 48 : 32, NULL, 0).number == AXLE_LENGTH);
        IS(axle_master_secret((uint8_t)n, NULL, 0, NULL, 0, NULL, 0).number == AXLE_LENGTH);
    }
    IS(broke(axle_read_client_hello(NULL, 0).refusal, AXLE_MALFORMED, 0));
    IS(broke(axle_read_server_hello(NULL, 0).refusal, AXLE_MALFORMED, 0));
    IS(!axle_next_extension(NULL, 0, 0).found && !axle_next_extension(NULL, 0, 2).found);
    IS(axle_write_client_hello(0, NULL, 0, NULL, 0, NULL, 0, NULL, 0, 0, NULL, 0, NULL, 0, NULL, 0, NULL, 0).refusal.number
       == AXLE_LENGTH);
    IS(axle_write_server_hello(0, NULL, 0, NULL, 0, 0, 0, 0, NULL, 0, NULL, 0, NULL, 0, NULL, 0).refusal.number == AXLE_LENGTH);
    IS(axle_write_client_hello(0x0303, name, 32, NULL, 0, suite, 2, data, 1, 1, NULL, 0, NULL, 0, NULL, 0, to, 47).length == 47);
    IS(axle_write_server_hello(0x0303, name, 32, NULL, 0, 60, 0, 0, NULL, 0, NULL, 0, NULL, 0, to, 42).length == 42);
    IS(axle_write_server_hello(0x0303, name, 32, NULL, 0, 60, 0, 0, NULL, 0, NULL, 0, NULL, 0, NULL, 0).refusal.number
       == AXLE_LENGTH);
    IS(axle_table_store(table, 1, NULL, 0, 0, SUITE, NULL, 0).refusal.number == AXLE_AXLE_OR_IDENTIFIER);
    IS(axle_table_store(table, 1, name, 1, 0, SUITE, NULL, 0).refusal.number == AXLE_LENGTH);
    IS(axle_table_look_up(table, 1, NULL, 0, NULL, 0).refusal.number == AXLE_AXLE_OR_IDENTIFIER);
    IS(axle_table_look_up(table, 2, name, 1, NULL, 0).refusal.number == AXLE_DONE);
    IS(axle_table_look_up(table, 1, name, 1, NULL, 0).refusal.number == AXLE_LENGTH);
    IS(axle_table_withdraw(table, 1, NULL, 0).refusal.number == AXLE_AXLE_OR_IDENTIFIER);
    IS(axle_decide_server(NULL, 0, 1, table, fresh, legacy, NULL, 0).refusal.number == AXLE_MALFORMED);
    n = hello(to, CLIENT_HELLO, out, 0);
    IS(axle_decide_server(to, n, 1, table, fresh, legacy, NULL, 0).refusal.number == AXLE_DONE);
    IS(axle_decide_client(NULL, 0, NULL, 0, 0, NULL, 0, 0, 0, fresh, legacy).refusal.number == AXLE_MALFORMED);
    n = hello(to, SERVER_HELLO, out, 0);
    IS(axle_decide_client(to, n, NULL, 0, 0, NULL, 0, 0, 0, fresh, legacy).refusal.number == AXLE_DONE);
    IS(axle_log_accept(axle_log_fresh(), NULL, 0, full).refusal.number == AXLE_MALFORMED);
    IS(axle_log_feed(axle_log_fresh(), NULL, 0, 1, full).refusal.number == AXLE_MALFORMED);
    IS(axle_log_feed(axle_log_feed(axle_log_fresh(), bytes, message(bytes, CLIENT_HELLO, data, 200), 1, full).log, NULL, 0, 1, full)
           .refusal.number
       == AXLE_LENGTH);
    IS(axle_log_finish(axle_log_fresh(), NULL, 0, NULL, 0).refusal.number == AXLE_LENGTH);
    IS(axle_log_finish(axle_log_fresh(), secret, sizeof secret, NULL, 0).refusal.number == AXLE_MALFORMED);
    IS(axle_log_expected_finished(axle_log_fresh(), NULL, 0).refusal.number == AXLE_LENGTH);
}

/* ---- A state in place --------------------------------------------------------------------------------------------- */

static void hash_in_place(void)
{
    static const uint8_t abc[3] = {'a', 'b', 'c'};
    AxleHash hash = axle_hash_fresh();
    IS(axle_hash_absorb_in(&hash, abc, 1).number == AXLE_DONE);
    IS(axle_hash_absorb_in(&hash, abc + 1, 2).number == AXLE_DONE);
    IS(same(axle_hash_digest(hash).bytes, axle_sha256(abc, sizeof abc).digest, AXLE_DIGEST_SIZE));
    IS(axle_hash_absorb_in(&hash, bytes, AXLE_HASH_MAX).number == AXLE_LENGTH);
    IS(same(axle_hash_digest(hash).bytes, axle_sha256(abc, sizeof abc).digest, AXLE_DIGEST_SIZE));
}

static void hash384_in_place(void)
{
    static const uint8_t abc[3] = {'a', 'b', 'c'};
    AxleHash384 hash = axle_hash384_fresh();
    IS(axle_hash384_absorb_in(&hash, abc, 1).number == AXLE_DONE);
    IS(axle_hash384_absorb_in(&hash, abc + 1, 2).number == AXLE_DONE);
    IS(same(axle_hash384_digest(hash).bytes, axle_sha384(abc, sizeof abc).digest, AXLE_DIGEST384_SIZE));
    IS(axle_hash384_absorb_in(&hash, bytes, AXLE_HASH_MAX).number == AXLE_LENGTH);
    IS(same(axle_hash384_digest(hash).bytes, axle_sha384(abc, sizeof abc).digest, AXLE_DIGEST384_SIZE));
}

static void table_in_place(void)
{
    AxleTable table = axle_table_fresh();
    uint8_t found[AXLE_SECRET_SIZE] = {0}, withdrawn = 7;
    AxleLooked looked;
    IS(axle_table_store_in(&table, 4, name, sizeof name, 1, 0x1234, secret, sizeof secret).number == AXLE_DONE);
    IS(axle_table_store_in(&table, 4, name, 1, 0, SUITE, found, sizeof found).number == AXLE_DONE);
    IS(axle_table_held(table, 4).count == 2);
    looked = axle_table_look_up(table, 4, name, sizeof name, found, sizeof found);
    IS(looked.refusal.number == AXLE_DONE && looked.found && looked.ems && looked.suite == 0x1234 && same(found, secret, sizeof secret));
    IS(axle_table_look_up(table, 4, name, 1, found, sizeof found).suite == SUITE);
    IS(axle_table_store_in(&table, 7, name, 1, 0, SUITE, secret, sizeof secret).number == AXLE_AXLE_OR_IDENTIFIER);
    IS(axle_table_store_in(&table, 4, name, 2, 0, SUITE, secret, 47).number == AXLE_LENGTH);
    IS(axle_table_held(table, 4).count == 2);

    IS(axle_table_withdraw_in(&table, 7, name, 1, &withdrawn).number == AXLE_AXLE_OR_IDENTIFIER && withdrawn == 0);
    IS(axle_table_held(table, 4).count == 2);
    IS(axle_table_withdraw_in(&table, 4, name, 1, &withdrawn).number == AXLE_DONE && withdrawn == 1);
    IS(axle_table_withdraw_in(&table, 4, name, 1, &withdrawn).number == AXLE_DONE && withdrawn == 0);
    IS(axle_table_held(table, 4).count == 1);
    IS(axle_table_look_up(table, 4, name, sizeof name, found, sizeof found).found);
    IS(axle_table_withdraw_in(&table, 4, name, sizeof name, NULL).number == AXLE_DONE);
    IS(axle_table_held(table, 4).count == 0);

    axle_table_store_in(&table, 1, name, 1, 0, SUITE, secret, sizeof secret);
    axle_table_store_in(&table, 6, name, 1, 0, SUITE, secret, sizeof secret);
    IS(axle_table_held(table, 1).count == 1 && axle_table_held(table, 6).count == 1);
    IS(axle_table_clear_in(&table).number == AXLE_DONE);
    IS(axle_table_held(table, 1).count == 0 && axle_table_held(table, 6).count == 0);
}

/* Of a session that was pushed out, replaced, withdrawn or cleared no byte is left: the table is the one that it would be without. */
static void given_up(void)
{
    const AxleTable fresh = axle_table_fresh();
    AxleTable table = fresh, other = fresh, passed;
    uint8_t i, first[AXLE_SECRET_SIZE], zeros[sizeof(AxleTable)] = {0};
    memset(first, 255, sizeof first);
    IS(same(&fresh, zeros, sizeof fresh));
    for (i = 0; i < 9; i++) { /* the first one goes when the ninth comes */
        axle_table_store_in(&table, 2, &i, 1, 1, i == 0 ? 0xffff : SUITE, i == 0 ? first : secret, sizeof secret);
        if (i > 0)
            axle_table_store_in(&other, 2, &i, 1, 1, SUITE, secret, sizeof secret);
    }
    IS(same(&table, &other, sizeof table));
    i = 8;
    axle_table_store_in(&table, 2, &i, 1, 0, 0xffff, first, sizeof first);
    axle_table_store_in(&table, 2, &i, 1, 1, SUITE, secret, sizeof secret);
    IS(same(&table, &other, sizeof table));
    i = 4;
    passed = table;
    IS(axle_table_withdraw(table, 2, &i, 1).withdrawn == 1 && same(&table, &passed, sizeof table));
    for (i = 0; i < 9; i++)
        axle_table_withdraw_in(&table, 2, &i, 1, NULL);
    IS(same(&table, &fresh, sizeof table));
    axle_table_clear_in(&other);
    IS(same(&other, &fresh, sizeof other));
}

/* In every field: there is padding behind the choice, and behind the last one. */
static int same_log(AxleLog a, AxleLog b)
{
    return same(&a, &b, offsetof(AxleTranscript, choice) + sizeof a.hash.choice)
           && same(&a.place, &b.place, offsetof(AxleLog, sha384) + sizeof a.sha384 - offsetof(AxleLog, place)) && a.left == b.left;
}

/* A Finished that is refused, by either call, leaves the log; with the right value it is taken, and the number of the same message
 * again is then the one given. */
static void finished_in_place(AxleLog *log, uint8_t again)
{
    uint8_t finished[4 + AXLE_VERIFY_DATA_SIZE];
    const AxleLog before = *log;
    AxleExpected expected = axle_log_expected_finished(before, secret, sizeof secret);
    size_t n = message(finished, FINISHED, expected.value, sizeof expected.value);
    IS(expected.refusal.number == AXLE_DONE);
    IS(axle_log_accept_in(log, finished, n, full).number == AXLE_OUT_OF_TURN && same_log(*log, before));
    IS(axle_log_finish_in(log, secret, sizeof secret - 1, finished, n).number == AXLE_LENGTH && same_log(*log, before));
    IS(axle_log_finish_in(log, secret, sizeof secret, finished, n - 1).number == AXLE_MALFORMED && same_log(*log, before));
    finished[15] ^= 1;
    IS(axle_log_accept_in(log, finished, n, full).number == AXLE_OUT_OF_TURN && same_log(*log, before));
    IS(axle_log_finish_in(log, secret, sizeof secret, finished, n).number == AXLE_FINISHED_DIFFERS && same_log(*log, before));
    finished[15] ^= 1;
    IS(axle_log_finish_in(log, secret, sizeof secret, finished, n).number == AXLE_DONE && !same_log(*log, before));
    IS(same_log(*log, axle_log_finish(before, secret, sizeof secret, finished, n).log));
    IS(axle_log_finish_in(log, secret, sizeof secret, finished, n).number == again);
}

/* A full handshake by either hash, and a resumed one: the session hash is what the hash's own calls make of the messages, with zeros
 * behind it, and the hash that is not carried is the fresh one. */
static void log_in_place(AxleTold told)
{
    static const uint8_t types[] = {CLIENT_HELLO, SERVER_HELLO, HELLO_DONE, KEY_EXCHANGE}, zeros[AXLE_DIGEST384_SIZE] = {0};
    const AxleTold resumed = {1, told.sha384};
    const AxleHash fresh = axle_hash_fresh();
    const AxleHash384 fresh384 = axle_hash384_fresh();
    AxleLog log = axle_log_fresh();
    AxleHash hash = fresh;
    AxleHash384 hash384 = fresh384;
    AxleSessionHash session = axle_log_session_hash(log);
    size_t i, n;
    IS(session.length == 0 && same(session.hash, zeros, sizeof zeros));
    for (i = 0; i < sizeof types; i++) {
        IS(axle_log_session_hash(log).refusal.number == AXLE_OUT_OF_TURN);
        n = message(bytes, types[i], name, i);
        IS(axle_log_accept_in(&log, bytes, n, told).number == AXLE_DONE);
        axle_hash_absorb_in(&hash, bytes, n);
        axle_hash384_absorb_in(&hash384, bytes, n);
        IS(same(&log.hash.sha256, i > 0 && told.sha384 ? &fresh : &hash, sizeof hash));
        IS(same(&log.hash.sha384, i > 0 && !told.sha384 ? &fresh384 : &hash384, sizeof hash384));
        IS(log.hash.choice == (i == 0 ? 0 : told.sha384 ? 2 : 1));
        IS(i == 3 || axle_log_accept_in(&log, bytes, n, told).number == AXLE_OUT_OF_TURN);
    }
    session = axle_log_session_hash(log);
    n = told.sha384 ? AXLE_DIGEST384_SIZE : AXLE_DIGEST_SIZE;
    IS(session.refusal.number == AXLE_DONE && session.length == n && same(session.hash + n, zeros, sizeof session.hash - n));
    IS(same(session.hash, told.sha384 ? axle_hash384_digest(hash384).bytes : axle_hash_digest(hash).bytes, n));

    finished_in_place(&log, AXLE_FINISHED_DIFFERS); /* the client's: the server's is due then */
    finished_in_place(&log, AXLE_OUT_OF_TURN);

    log = axle_log_fresh();
    for (i = 0; i < 2; i++)
        axle_log_accept_in(&log, bytes, message(bytes, types[i], name, 1), resumed);
    finished_in_place(&log, AXLE_FINISHED_DIFFERS);
    finished_in_place(&log, AXLE_OUT_OF_TURN);
    IS(axle_log_expected_finished(log, secret, sizeof secret).refusal.number == AXLE_OUT_OF_TURN);
}

/* The example of the header, 300 bytes by an allowance of 1; between its parts every other call is refused, and so is a rest of
 * another length: the log stays. */
static void fed_in_place(void)
{
    static const size_t parts[] = {127, 64, 64, 45}, of_sha384[] = {0, 1, 0, 1};
    static const uint8_t type_0[] = {0, 0, 0, 0}, finished[16] = {FINISHED, 0, 0, 12};
    const AxleDecision decision = {{0, 0, 0, 0}, 0, 0, 0, 0, 0, 0, 0};
    AxleConnection connection = axle_connection_fresh();
    AxleLog log = axle_log_fresh(), between;
    AxleFed answer;
    AxleBlocks blocks = {7, 7};
    size_t i, at = 0, taken = 7, n = message(bytes, CLIENT_HELLO, data, 296);
    IS(n == 300);
    for (i = 0; i < 4; i++) {
        answer = axle_log_feed(log, bytes + at, n - at, 1, full);
        IS(answer.refusal.number == AXLE_DONE && answer.taken == parts[i] && worked(answer.blocks, 1, of_sha384[i]));
        IS(axle_log_feed_in(&log, bytes + at, n - at, 1, full, &taken, &blocks).number == AXLE_DONE);
        IS(same_log(log, answer.log) && taken == parts[i] && worked(blocks, 1, of_sha384[i]));
        at += taken;
        if (at == n)
            break;
        between = log;
        IS(broke(axle_log_feed_in(&log, bytes + at, n - at, 0, full, &taken, &blocks), AXLE_LENGTH, 0) && taken == 0);
        IS(worked(blocks, 0, 0));
        IS(broke(axle_log_feed_in(&log, bytes + at, n - at - 1, 1, full, &taken, NULL), AXLE_LENGTH, 0) && taken == 0);
        blocks.sha256 = blocks.sha384 = 7;
        IS(broke(axle_log_feed_in(&log, bytes, n, 1, full, NULL, &blocks), AXLE_LENGTH, 0) && worked(blocks, 0, 0));
        IS(axle_log_accept_in(&log, type_0, sizeof type_0, full).number == AXLE_OUT_OF_TURN);
        IS(axle_log_accept_in(&log, bytes, n, full).number == AXLE_OUT_OF_TURN);
        IS(broke(axle_log_accept_in(&log, type_0, 3, full), AXLE_MALFORMED, 3));
        IS(axle_log_finish_in(&log, secret, sizeof secret, finished, sizeof finished).number == AXLE_OUT_OF_TURN);
        IS(axle_log_expected_finished(log, secret, sizeof secret).refusal.number == AXLE_OUT_OF_TURN);
        IS(axle_log_session_hash(log).refusal.number == AXLE_OUT_OF_TURN);
        IS(axle_complete(&connection, log, decision).number == AXLE_OUT_OF_TURN);
        IS(same_log(log, between));
    }
    IS(at == n && same_log(log, axle_log_accept(axle_log_fresh(), bytes, n, full).log));
    IS(axle_log_feed_in(&log, type_0, sizeof type_0, 1, full, &taken, &blocks).number == AXLE_DONE && taken == 4);
    IS(worked(blocks, 0, 0) && same_log(log, axle_log_accept(axle_log_fresh(), bytes, n, full).log));
}

/* What is told counts with the first part of a ServerHello, whose parts both hashes work: 83 and 41 bytes behind 300. Then only the one
 * that was told works, and it has its own bound: 128 * (k + 1) - 1 - h, with 40 of 424 bytes waiting in SHA-384 and in SHA-256. */
static void told_in_parts(void)
{
    static const AxleTold any[] = {{0, 0}, {0, 1}, {0, 255}, {1, 0}, {2, 2}};
    size_t i, taken, n;
    AxleBlocks blocks;
    for (i = 0; i < sizeof any / sizeof *any; i++) {
        const int sha384 = any[i].sha384 != 0;
        const AxleTold other = {!any[i].resumes, !any[i].sha384};
        const AxleLog begun = axle_log_accept(axle_log_fresh(), bytes, message(bytes, CLIENT_HELLO, data, 296), other).log;
        AxleLog log = begun;
        n = message(bytes, SERVER_HELLO, data, 120);
        IS(axle_log_feed_in(&log, bytes, n, 1, any[i], &taken, &blocks).number == AXLE_DONE);
        IS(taken == 83 && worked(blocks, 1, 0) && log.hash.choice == 0 && log.sha384 == sha384);
        IS(axle_log_feed_in(&log, bytes + taken, n - taken, 1, other, &taken, &blocks).number == AXLE_DONE);
        IS(taken == 41 && worked(blocks, 1, 1) && log.hash.choice == 1 + sha384 && log.sha384 == 0);
        IS(same_log(log, axle_log_accept(begun, bytes, n, any[i]).log));
        IS((axle_log_expected_finished(log, secret, sizeof secret).refusal.number == AXLE_DONE) == (any[i].resumes != 0));
        if (any[i].resumes)
            continue;
        n = message(bytes, HELLO_DONE, data, 1000);
        IS(axle_log_feed_in(&log, bytes, n, 2, other, &taken, &blocks).number == AXLE_DONE);
        IS(sha384 ? taken == 128 * 3 - 1 - 40 && worked(blocks, 0, 2) : taken == 64 * 3 - 1 - 40 && worked(blocks, 2, 0));
    }
}

static void wiping(void)
{
    uint8_t some[9];
    memset(some, 7, sizeof some);
    axle_wipe(some, 8);
    IS(same(some, "\0\0\0\0\0\0\0\0\7", 9));
    axle_wipe(NULL, 0);
}

int main(void)
{
    versions();
    sizes();
    parts();
    places();
    writing();
    suites();
    nulls();
    hash_in_place();
    hash384_in_place();
    table_in_place();
    given_up();
    log_in_place(full);
    log_in_place(by_sha384);
    fed_in_place();
    told_in_parts();
    wiping();
    printf("%d cases, %d wrong, version %s\n", cases, wrong, AXLE_GATEWAY_VERSION);
    return wrong != 0;
}
