/* How deep each call of the C face writes the stack: a line a call, its name, and the fewest and the most bytes that a case of it
 * wrote; of a call that works by either hash a line for each besides, with .sha256 or .sha384 behind the name. The cases go every way
 * through a call that leads further down: taken and refused, one block and several, found and not.
 */
#include "axle_gateway.h"
#include "painted.h"

#include <stdio.h>
#include <stdlib.h>
#include <string.h>

enum { CALLS = 64, CLIENT_HELLO = 1, SERVER_HELLO = 2, FINISHED = 20, SUITE = 60, OTHER = 61 };

static struct {
    const char *name;
    size_t least, most;
} calls[CALLS];

static void must(int holds, const char *what)
{
    if (!holds) {
        fprintf(stderr, "%s is not the case that it should be\n", what);
        exit(1);
    }
}

static void note(const char *name, size_t depth)
{
    size_t i = 0;
    while (i < CALLS && calls[i].name && strcmp(calls[i].name, name))
        i++;
    must(i < CALLS, "the number of calls");
    if (!calls[i].name || depth < calls[i].least)
        calls[i].least = depth;
    if (!calls[i].name || calls[i].most < depth)
        calls[i].most = depth;
    calls[i].name = name;
}

/* One case of a call. */
#define TRY(call, ...)                              \
    do {                                            \
        size_t depth_;                              \
        PAINTED(depth_, (void)call(__VA_ARGS__));   \
        note(#call, depth_);                        \
    } while (0)

/* One case of a call that works by either hash. */
#define TRY_BY(sha384, call, ...)                                     \
    do {                                                              \
        size_t depth_;                                                \
        PAINTED(depth_, (void)call(__VA_ARGS__));                     \
        note(#call, depth_);                                          \
        note((sha384) ? #call ".sha384" : #call ".sha256", depth_);   \
    } while (0)

/* ---- Calls whose depth is known, to see that the measure is right ----------------------------------------------- */

typedef struct {
    uint8_t bytes[112];
} ByValue;

void known_return(void);            /* 8 bytes: the return address */
void known_thousand(void);          /* and a byte of the first colour 1,000 further down */
void known_by_value(ByValue value); /* 112 bytes of argument, and the return address */
__asm__("known_return: ret\n"
        "known_by_value: ret\n"
        "known_thousand: sub $1000, %rsp\n movb $0x5a, (%rsp)\n add $1000, %rsp\n ret\n");

static void known(void)
{
    ByValue value = {{0}};
    for (int i = 0; i < 2; i++) { /* again, behind calls with arguments by value */
        TRY(known_return);
        TRY(known_thousand);
        TRY(known_by_value, value);
        TRY(known_by_value, value);
    }
}

/* ---- Inputs ------------------------------------------------------------------------------------------------------ */

static uint8_t bytes[1048577];
static uint8_t out[64];
static const uint8_t identifier[32] = {1};

static size_t message(uint8_t *to, uint8_t type, const uint8_t *body, size_t length)
{
    to[0] = type;
    to[1] = 0;
    to[2] = (uint8_t)(length >> 8);
    to[3] = (uint8_t)length;
    memmove(to + 4, body, length);
    return 4 + length;
}

/* ---- The calls --------------------------------------------------------------------------------------------------- */

static void hashes(void)
{
    static const size_t lengths[] = {0,   1,   53,  54,  55,  56,  63,  64,   65,      110,
                                     111, 112, 127, 128, 129, 240, 256, 1000, 1048576, 1048577};
    enum { N = sizeof lengths / sizeof *lengths };
    for (int number = 0; number < 256; number++)
        TRY(axle_refusal, (uint8_t)number);
    TRY(axle_hash_fresh);
    TRY(axle_hash384_fresh);
    for (size_t i = 0; i < N; i++) {
        TRY(axle_sha256, bytes, lengths[i]);
        TRY(axle_sha384, bytes, lengths[i]);
        AxleHash waiting = axle_hash_absorb(axle_hash_fresh(), bytes, lengths[i]).hash;
        AxleHash384 waiting384 = axle_hash384_absorb(axle_hash384_fresh(), bytes, lengths[i]).hash;
        TRY(axle_hash_digest, waiting);
        TRY(axle_hash384_digest, waiting384);
        for (size_t j = 0; j < N; j++) {
            TRY(axle_hash_absorb, waiting, bytes, lengths[j]);
            TRY(axle_hash384_absorb, waiting384, bytes, lengths[j]);
        }
    }
    AxleHash over = {.length = 1048577};
    AxleHash384 over384 = {.length = 1048577};
    TRY(axle_hash_digest, over);
    TRY(axle_hash_absorb, over, bytes, 1);
    TRY(axle_hash384_digest, over384);
    TRY(axle_hash384_absorb, over384, bytes, 1);
}

static void secrets(void)
{
    static const size_t lengths[] = {0, 1, 48, 55, 56, 64, 65, 111, 112, 128, 129, 512, 513, 1000, 65536, 65537};
    enum { N = sizeof lengths / sizeof *lengths };
    for (size_t i = 0; i < N; i++)
        for (size_t j = 0; j < N; j++) {
            TRY(axle_hmac, bytes, lengths[i], bytes, lengths[j]);
            TRY(axle_hmac_sha384, bytes, lengths[i], bytes, lengths[j]);
        }
    for (uint8_t sha384 = 0; sha384 < 2; sha384++) {
        size_t seed = sha384 ? 48 : 32;
        for (size_t i = 0; i < N; i++) {
            TRY_BY(sha384, axle_extended_master_secret, sha384, bytes, lengths[i], bytes, seed, out, sizeof out);
            TRY_BY(sha384, axle_master_secret, sha384, bytes, lengths[i], bytes, 64, out, sizeof out);
        }
        TRY_BY(sha384, axle_extended_master_secret, sha384, bytes, 48, bytes, seed - 1, out, sizeof out);
        TRY_BY(sha384, axle_extended_master_secret, sha384, bytes, 48, bytes, 80 - seed, out, sizeof out);
        TRY_BY(sha384, axle_master_secret, sha384, bytes, 48, bytes, 64, out, 47);
    }
}

/* What stands behind the identifier of a hello, with SUITE in it and not OTHER, and what reading it answers. */
typedef struct {
    uint8_t length, number;
    uint8_t bytes[48];
} Tail;

#define ZEROS_12 0, 0, 0, 0, 0, 0, 0, 0, 0, 0, 0, 0

static const Tail client_tails[] = {
    {6, 0, {0, 2, 0, 60, 1, 0}},                                                          /* no extension block */
    {10, 0, {0, 4, 0, 60, 0, 255, 1, 0, 0, 0}},                                           /* the signal, an empty block */
    {17, 0, {0, 2, 0, 60, 1, 0, 0, 9, 255, 1, 0, 1, 0, 0, 23, 0, 0}},                     /* RI and EMS, as our client */
    {29, 0, {0, 2, 0, 60, 1, 0, 0, 21, 255, 1, 0, 13, 12, ZEROS_12, 0, 23, 0, 0}},        /* RI of a later handshake */
    {21, 0, {0, 2, 0, 60, 1, 0, 0, 13, 255, 1, 0, 1, 0, 0, 23, 0, 0, 0, 16, 0, 0}},       /* and an unknown type */
    {21, 2, {0, 2, 0, 60, 1, 0, 0, 13, 255, 1, 0, 1, 0, 0, 23, 0, 0, 0, 23, 0, 0}},       /* a repeat */
    {24, 2, {0, 2, 0, 60, 1, 0, 0, 16, 0, 16, 0, 0, 0, 23, 0, 0, 0, 23, 0, 0, 0, 16}},    /* two repeats */
    {13, 1, {0, 2, 0, 60, 1, 0, 0, 5, 0, 23, 0, 1, 0}},                                   /* data in EMS */
    {13, 1, {0, 2, 0, 60, 1, 0, 0, 5, 255, 1, 0, 1, 1}},                                  /* RI that lacks a byte */
    {12, 1, {0, 2, 0, 60, 1, 0, 0, 4, 0, 16, 0, 1}},                                      /* an extension that lacks one */
    {3, 1, {0, 1, 0}},                                                                    /* half a suite */
};

static const Tail server_tails[] = {
    {3, 0, {0, 60, 0}},                                                                   /* no extension block */
    {5, 0, {0, 60, 0, 0, 0}},                                                             /* an empty one */
    {14, 0, {0, 60, 0, 0, 9, 255, 1, 0, 1, 0, 0, 23, 0, 0}},                              /* RI and EMS, as our server */
    {38, 0, {0, 60, 0, 0, 33, 255, 1, 0, 25, 24, ZEROS_12, ZEROS_12, 0, 23, 0, 0}},       /* RI of a later handshake */
    {18, 0, {0, 60, 0, 0, 13, 255, 1, 0, 1, 0, 0, 23, 0, 0, 0, 16, 0, 0}},                /* and a type never offered */
    {13, 2, {0, 60, 0, 0, 8, 0, 23, 0, 0, 0, 23, 0, 0}},                                  /* a repeat */
    {21, 2, {0, 60, 0, 0, 16, 0, 16, 0, 0, 0, 23, 0, 0, 0, 23, 0, 0, 0, 16}},             /* two repeats */
    {10, 1, {0, 60, 0, 0, 5, 0, 23, 0, 1, 0}},                                            /* data in EMS */
    {9, 1, {0, 60, 0, 0, 4, 0, 16, 0, 1}},                                                /* an extension that lacks a byte */
    {1, 1, {0}},                                                                          /* half a suite */
};

enum { CLIENT_TAILS = sizeof client_tails / sizeof *client_tails, SERVER_TAILS = sizeof server_tails / sizeof *server_tails };

/* A hello with an identifier of that length and that tail. */
static size_t hello(uint8_t *to, uint8_t type, uint8_t offered, Tail tail)
{
    uint8_t body[128] = {3, 3};
    body[34] = offered;
    memcpy(body + 35, identifier, offered);
    memcpy(body + 35 + offered, tail.bytes, tail.length);
    return message(to, type, body, 35 + offered + tail.length);
}

static void hellos(void)
{
    uint8_t read[300];
    for (size_t i = 0; i < CLIENT_TAILS; i++) {
        size_t n = hello(read, CLIENT_HELLO, 32, client_tails[i]);
        must(axle_read_client_hello(read, n).refusal.number == client_tails[i].number, "a ClientHello");
        TRY(axle_read_client_hello, read, n);
        TRY(axle_read_client_hello, read, n - 1);
        TRY(axle_read_client_hello, read, 3);
        TRY(axle_read_server_hello, read, n);
    }
    for (size_t i = 0; i < SERVER_TAILS; i++) {
        size_t n = hello(read, SERVER_HELLO, 32, server_tails[i]);
        must(axle_read_server_hello(read, n).refusal.number == server_tails[i].number, "a ServerHello");
        TRY(axle_read_server_hello, read, n);
        TRY(axle_read_server_hello, read, n - 1);
        TRY(axle_read_server_hello, read, 3);
        TRY(axle_read_client_hello, read, n);
    }
    TRY(axle_read_client_hello, bytes, 16389);
    TRY(axle_read_server_hello, bytes, 16389);
}

/* MOST: extensions of a ServerHello; a ClientHello has room for one less */
enum { MOST = 4086, EMS = AXLE_TYPE_EXTENDED_MASTER_SECRET, RI = AXLE_TYPE_RENEGOTIATION_INFO };

static uint16_t types[MOST + 1], lengths[MOST + 2];

/* Both writers on so many types, with so many bytes of data, and every fault beside: fields outside their bounds, lists that do not
 * add up, a message too long, versions, outputs too short. Then the extensions of what was written, asked from many places. */
static void written(uint8_t block, size_t count, size_t data, uint8_t number)
{
    static uint8_t to[AXLE_MESSAGE_MAX];
    static const uint16_t versions[] = {0x0302, 0x0303, 0x0304};
    static const size_t rooms[] = {0, 40, sizeof to};
#define LISTS(lengths_count, data_length) block, types, count, lengths, lengths_count, bytes, data_length
#define CLIENT(version, random, offered, suites, methods, lists, room) \
    TRY(axle_write_client_hello, version, bytes, random, bytes, offered, bytes, suites, bytes, methods, lists, to, room)
#define SERVER(version, random, offered, lists, room) \
    TRY(axle_write_server_hello, version, bytes, random, bytes, offered, 60, 0, lists, to, room)
    for (size_t i = 0; i < 3; i++)
        for (size_t j = 0; j < 3; j++) {
            CLIENT(versions[i], 32, 32, 2, 1, LISTS(count, data), rooms[j]);
            CLIENT(versions[i], 32, 0, 600, 255, LISTS(count, data), rooms[j]);
            SERVER(versions[i], 32, 0, LISTS(count, data), rooms[j]);
            SERVER(versions[i], 32, 32, LISTS(count, data), rooms[j]);
        }
    CLIENT(0x0303, 31, 0, 2, 1, LISTS(count, data), sizeof to);
    CLIENT(0x0303, 32, 33, 2, 1, LISTS(count, data), sizeof to);
    CLIENT(0x0303, 32, 0, 0, 1, LISTS(count, data), sizeof to);
    CLIENT(0x0303, 32, 0, 3, 1, LISTS(count, data), sizeof to);
    CLIENT(0x0303, 32, 0, 65536, 1, LISTS(count, data), sizeof to);
    CLIENT(0x0303, 32, 0, 16344, 2, LISTS(count, data), sizeof to);
    CLIENT(0x0303, 32, 0, 2, 0, LISTS(count, data), sizeof to);
    CLIENT(0x0303, 32, 0, 2, 256, LISTS(count, data), sizeof to);
    CLIENT(0x0303, 32, 0, 2, 1, LISTS(count + 1, data), sizeof to);
    CLIENT(0x0303, 32, 0, 2, 1, LISTS(count, data + 1), sizeof to);
    SERVER(0x0303, 31, 0, LISTS(count, data), sizeof to);
    SERVER(0x0303, 32, 33, LISTS(count, data), sizeof to);
    SERVER(0x0303, 32, 0, LISTS(count + 1, data), sizeof to);
    SERVER(0x0303, 32, 0, LISTS(count, data + 1), sizeof to);
    AxleWritten whole = axle_write_server_hello(0x0303, bytes, 32, bytes, 0, 60, 0, LISTS(count, data), to, sizeof to);
    must(whole.refusal.number == number, "a list of extensions");
    for (size_t at = 0; at < whole.length + 3; at += at < 60 ? 1 : 97)
        TRY(axle_next_extension, to, whole.length, at);
    TRY(axle_next_extension, to, whole.length, (size_t)-1);
}

static void writers(void)
{
    for (size_t i = 0; i <= MOST; i++)
        types[i] = (uint16_t)(0x1000 + i);
    written(0, 0, 0, AXLE_DONE);
    written(1, 0, 0, AXLE_DONE);
    written(0, 1, 0, AXLE_LENGTH);
    written(1, 2, 0, AXLE_DONE);
    written(1, MOST - 1, 0, AXLE_DONE); /* the most of a ClientHello */
    written(1, MOST, 0, AXLE_DONE);
    written(1, MOST + 1, 0, AXLE_LENGTH);
    types[MOST - 2] = types[0];
    written(1, MOST - 1, 0, AXLE_EXTENSION_TWICE);
    lengths[0] = 16337; /* the longest hellos, in one extension */
    written(1, 1, 16337, AXLE_DONE);
    lengths[0] = 16340;
    written(1, 1, 16340, AXLE_DONE);
    lengths[0] = 16341;
    written(1, 1, 16341, AXLE_LENGTH);
    types[0] = RI, types[1] = EMS, lengths[0] = (uint16_t)(bytes[0] + 1);
    written(1, 2, lengths[0], AXLE_DONE);
    types[2] = EMS;
    written(1, 3, lengths[0], AXLE_EXTENSION_TWICE);
    lengths[1] = 1;
    written(1, 2, lengths[0] + 1u, AXLE_MALFORMED);
    lengths[0] = 0;
    written(1, 2, 1, AXLE_MALFORMED);
}

/* The table with n sessions, of so many axles in turn. */
static AxleTable filled(size_t n, size_t axles)
{
    AxleTable table = axle_table_fresh();
    for (size_t i = 0; i < n; i++) {
        uint8_t name[2] = {(uint8_t)(i / axles), 7};
        table = axle_table_store(table, (uint8_t)(1 + i % axles), name, 2, 1, SUITE, bytes, 48).table;
    }
    return table;
}

static void asked_of(AxleTable table)
{
    static const uint8_t held[2] = {0, 7}, youngest[2] = {7, 7}, none[2] = {99, 7};
    for (uint8_t axle = 0; axle < 8; axle++) {
        TRY(axle_table_store, table, axle, held, 2, 1, SUITE, bytes, 48);
        TRY(axle_table_store, table, axle, youngest, 2, 1, SUITE, bytes, 48);
        TRY(axle_table_store, table, axle, none, 2, 0, SUITE, bytes, 48);
        TRY(axle_table_store, table, axle, none, 2, 0, SUITE, bytes, 47);
        TRY(axle_table_look_up, table, axle, held, 2, out, sizeof out);
        TRY(axle_table_look_up, table, axle, youngest, 2, out, sizeof out);
        TRY(axle_table_look_up, table, axle, held, 2, out, 47);
        TRY(axle_table_look_up, table, axle, none, 2, out, sizeof out);
        TRY(axle_table_withdraw, table, axle, held, 2);
        TRY(axle_table_withdraw, table, axle, youngest, 2);
        TRY(axle_table_withdraw, table, axle, none, 2);
        TRY(axle_table_held, table, axle);
    }
    TRY(axle_table_clear, table);
}

/* Every way of a store: the same name, the axle's oldest of 8, none, the axle's oldest of 4 to 7, the oldest of the fullest; and a
 * table that no call made. */
static void tables(void)
{
    static const size_t sizes[] = {0, 1, 31, 32, 40}, axles[] = {1, 4, 6};
    AxleTable any;
    TRY(axle_table_fresh);
    for (size_t i = 0; i < sizeof sizes / sizeof *sizes; i++)
        for (size_t j = 0; j < sizeof axles / sizeof *axles; j++)
            asked_of(filled(sizes[i], axles[j]));
    for (int fill = 0; fill < 256; fill += 85) {
        memset(&any, fill, sizeof any);
        asked_of(any);
    }
}

/* With a session whose suite the hellos list and name, and with one whose suite they do not: none for the server, 12 for the client. */
static void decisions(void)
{
    uint8_t read[300];
    TRY(axle_connection_fresh);
    for (int bits = 0; bits < 256; bits++) {
        AxleSwitches switches = {bits & 1, bits >> 1 & 1, bits >> 2 & 1};
        AxleConnection connection = {.completed = bits >> 3 & 1, .indication = bits >> 4 & 1};
        uint8_t ems = bits >> 5 & 1, offered = bits >> 6 & 1 ? 32 : 0;
        uint16_t suite = bits >> 7 ? OTHER : SUITE;
        AxleTable table = axle_table_store(axle_table_fresh(), 1, identifier, 32, ems, suite, bytes, 48).table;
        if (ems && offered && !connection.completed) {
            size_t n = hello(read, CLIENT_HELLO, offered, client_tails[2]);
            must(axle_decide_server(read, n, 1, table, connection, switches, out, sizeof out).resumes == (suite == SUITE),
                 "a session on offer");
            n = hello(read, SERVER_HELLO, offered, server_tails[2]);
            must(axle_decide_client(read, n, identifier, 32, 1, identifier, 32, ems, suite, connection, switches).refusal.number
                     == (suite == SUITE ? AXLE_DONE : AXLE_SUITE),
                 "a suite named");
        }
        for (size_t i = 0; i < CLIENT_TAILS; i++) {
            size_t n = hello(read, CLIENT_HELLO, offered, client_tails[i]);
            TRY(axle_decide_server, read, n, 1, table, connection, switches, out, sizeof out);
            TRY(axle_decide_server, read, n, 2, table, connection, switches, out, 5);
            TRY(axle_decide_server, read, n, 0, table, connection, switches, out, 5);
        }
        for (size_t i = 0; i < SERVER_TAILS; i++) {
            size_t n = hello(read, SERVER_HELLO, offered, server_tails[i]);
            TRY(axle_decide_client, read, n, identifier, 32, 1, identifier, 32, ems, suite, connection, switches);
            TRY(axle_decide_client, read, n, identifier, 0, 0, identifier, 0, ems, suite, connection, switches);
            TRY(axle_decide_client, read, n, identifier, 32, 0, identifier, 0, ems, suite, connection, switches);
        }
    }
}

static void completed(AxleLog log, uint8_t resumes)
{
    AxleConnection connection = axle_connection_fresh();
    for (int bits = 0; bits < 4; bits++) {
        AxleDecision decision = {.refusal = axle_refusal(bits & 1 ? 6 : 0), .resumes = bits & 2 ? resumes : !resumes};
        TRY(axle_complete, &connection, log, decision);
    }
}

/* The kinds of parts that were fed: first and not last, between two others, last and not first, both; by hash the last of a ServerHello,
 * which chooses it, and of a ClientKeyExchange, which makes the session hash. */
static size_t firsts, middles, lasts, wholes, choices[2], exchanges[2];

/* A message by parts, the first two by this allowance and the others by the most, and every other call between them. */
static void fed(AxleLog log, const uint8_t *rest, size_t length, size_t allowance, AxleTold told)
{
    static const size_t wrong[] = {0, AXLE_ALLOWANCE_MAX + 1, (size_t)-1};
    static const AxleTold none = {0, 0};
    uint8_t type = rest[0];
    for (size_t part = 0; part == 0 || length > 0; part++) {
        size_t allowed = part < 2 ? allowance : AXLE_ALLOWANCE_MAX;
        TRY(axle_log_feed, log, rest, length, allowed, part == 0 ? told : none);
        AxleFed answer = axle_log_feed(log, rest, length, allowed, part == 0 ? told : none);
        if (answer.refusal.number != AXLE_DONE)
            return;
        TRY(axle_log_feed, log, rest, length - 1, allowed, none);
        for (size_t i = 0; i < sizeof wrong / sizeof *wrong; i++)
            TRY(axle_log_feed, log, rest, length, wrong[i], none);
        log = answer.log, rest += answer.taken, length -= answer.taken;
        *(length > 0 ? part == 0 ? &firsts : &middles : part == 0 ? &wholes : &lasts) += 1;
        choices[log.hash.choice == 2] += length == 0 && part > 0 && type == SERVER_HELLO;
        exchanges[log.hash.choice == 2] += length == 0 && part > 0 && type == 16;
        if (length == 0)
            return;
        TRY(axle_log_session_hash, log);
        TRY(axle_log_expected_finished, log, bytes, 48);
        TRY(axle_log_accept, log, rest, length, none);
        TRY(axle_log_accept, log, (const uint8_t[4]){0}, 4, none);
        TRY(axle_log_finish, log, bytes, 48, (const uint8_t[16]){FINISHED, 0, 0, 12}, 16);
        completed(log, 0);
    }
}

/* Every call on a log, with every type of message, short, long and malformed; a ServerHello is told of resuming, and that hash. */
static void asked(AxleLog log, uint8_t sha384)
{
    static uint8_t read[16389];
    static const size_t lengths[] = {0, 12, 60, 1000, 16384};
    const AxleTold told = {1, sha384}, none = {0, sha384};
    TRY(axle_log_session_hash, log);
    TRY_BY(sha384, axle_log_expected_finished, log, bytes, 48);
    TRY_BY(sha384, axle_log_expected_finished, log, bytes, 47);
    AxleExpected expected = axle_log_expected_finished(log, bytes, 48);
    size_t finished = message(read, FINISHED, expected.value, 12);
    TRY_BY(sha384, axle_log_finish, log, bytes, 48, read, finished);
    TRY(axle_log_accept, log, read, finished, none);
    for (int type = 0; type < 22; type++)
        for (size_t i = 0; i < sizeof lengths / sizeof *lengths; i++) {
            size_t n = message(read, (uint8_t)type, bytes, lengths[i]);
            TRY(axle_log_accept, log, read, n, told);
            TRY(axle_log_accept, log, read, n - 1, none);
            TRY_BY(sha384, axle_log_finish, log, bytes, 48, read, n);
            TRY_BY(sha384, axle_log_finish, log, bytes, 47, read, n);
            fed(log, read, n, 1, told);
            fed(log, read, n, AXLE_ALLOWANCE_MAX, told);
        }
    TRY(axle_log_accept, log, read, sizeof read, none);
    TRY(axle_log_feed, log, read, sizeof read, 1, none);
    TRY(axle_log_finish, log, bytes, 48, read, sizeof read);
}

/* A handshake of these types, message by message, the bodies of that length. */
static void handshake(const uint8_t *types, size_t n, size_t length, AxleTold told)
{
    static uint8_t read[16388];
    AxleLog log = axle_log_fresh();
    asked(log, told.sha384);
    for (size_t i = 0; i < n; i++) {
        AxleAccepted accepted;
        if (types[i] == FINISHED) {
            AxleExpected expected = axle_log_expected_finished(log, bytes, 48);
            accepted = axle_log_finish(log, bytes, 48, read, message(read, FINISHED, expected.value, 12));
        } else {
            accepted = axle_log_accept(log, read, message(read, types[i], bytes, length), told);
        }
        must(accepted.refusal.number == AXLE_DONE, "a message in turn");
        log = accepted.log;
        asked(log, told.sha384);
        completed(log, told.resumes);
    }
}

static void logs(void)
{
    static const uint8_t full[] = {1, 2, 11, 12, 13, 14, 11, 16, 15, 20, 20}, resumed[] = {1, 2, 20, 20};
    enum { N = 5 };
    static const size_t lengths[2][N] = {{0, 37, 60, 61, 1000}, {0, 101, 124, 125, 1000}}; /* by hash */
    TRY(axle_log_fresh);
    for (uint8_t sha384 = 0; sha384 < 2; sha384++)
        for (size_t i = 0; i < N; i++) {
            handshake(full, sizeof full, lengths[sha384][i], (AxleTold){0, sha384});
            handshake(resumed, sizeof resumed, lengths[sha384][i], (AxleTold){1, sha384});
        }
    must(firsts && middles && lasts && wholes, "a part of each kind");
    must(choices[0] && choices[1] && exchanges[0] && exchanges[1], "a last part that chooses a hash, and one that makes a session hash");
}

int main(void)
{
    for (size_t i = 0; i < sizeof bytes; i++)
        bytes[i] = (uint8_t)(i * 7 + 1);
    known();
    hashes();
    secrets();
    hellos();
    writers();
    tables();
    decisions();
    logs();
    for (size_t i = 0; i < CALLS && calls[i].name; i++)
        printf("%s %zu %zu\n", calls[i].name, calls[i].least, calls[i].most);
    return 0;
}
