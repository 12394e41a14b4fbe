/* One handshake between our two sides, and its resumption: hellos, decisions, transcript, secrets, Finished, completion,
 * table. Key exchange, certificates and records are the caller's matter, so their messages are stand-ins here. */
#include "axle_gateway.h"

#include <stdio.h>
#include <stdlib.h>
#include <string.h>

enum { AXLE = 3, VERSION = 0x0303, SUITE = 0x003b, CERTIFICATE = 11, HELLO_DONE = 14, KEY_EXCHANGE = 16, FINISHED = 20 };

static const uint8_t pre_master[48] = {3, 3, 42};
static const uint8_t sha384 = 0; /* the PRF of SUITE is over SHA-256 */
static const AxleSwitches strict = {1, 0, 0};

/* Every call answers a number; in this example each must be 0. */
static void done(AxleRefusal refusal, const char *what)
{
    if (refusal.number != AXLE_DONE) {
        printf("%s refused with %d, alert %d %d, place %zu\n", what, refusal.number, refusal.level, refusal.code, refusal.place);
        exit(1);
    }
}

static size_t message(uint8_t *out, uint8_t type, const uint8_t *body, size_t length)
{
    out[0] = type;
    out[1] = 0;
    out[2] = (uint8_t)(length >> 8);
    out[3] = (uint8_t)length;
    memcpy(out + 4, body, length);
    return 4 + length;
}

/* A list of extensions as the writers take it: types, the length of each one's data, all data one after the other. */
typedef struct {
    uint16_t types[2], lengths[2];
    uint8_t data[AXLE_REPLY_MAX];
    size_t count, used;
} List;

/* The extensions of the server's reply, which is a 2-byte length and at most two extensions, or nothing at all. */
static List listed(const uint8_t *reply, size_t length)
{
    List list = {.count = 0, .used = 0};
    AxleExtension e = axle_next_extension(reply, length, 2);
    for (; e.found && list.count < 2; e = axle_next_extension(reply, length, e.next)) {
        list.types[list.count] = e.type;
        list.lengths[list.count++] = (uint16_t)e.data.length;
        memcpy(list.data + list.used, reply + e.data.at, e.data.length);
        list.used += e.data.length;
    }
    return list;
}

/* Our client's hello: RI and EMS, for a first handshake, and an identifier if it has a session. */
static size_t client_hello(uint8_t *out, size_t room, const uint8_t *identifier, size_t length)
{
    static const uint8_t random[AXLE_RANDOM_SIZE] = {'c', 'l', 'i', 'e', 'n', 't'};
    static const uint8_t suites[] = {SUITE >> 8, SUITE & 255}, methods[] = {0};
    static const List list = {{AXLE_TYPE_RENEGOTIATION_INFO, AXLE_TYPE_EXTENDED_MASTER_SECRET}, {1, 0}, {0}, 2, 1};
    AxleWritten written = axle_write_client_hello(VERSION, random, sizeof random, identifier, length, suites, sizeof suites, methods,
                                                  sizeof methods, 1, list.types, list.count, list.lengths, list.count, list.data,
                                                  list.used, out, room);
    done(written.refusal, "our ClientHello");
    return written.length;
}

/* Our server's hello, with the reply that was decided. */
static size_t server_hello(uint8_t *out, size_t room, const uint8_t *identifier, size_t length, uint16_t suite, const uint8_t *reply,
                           size_t reply_length)
{
    static const uint8_t random[AXLE_RANDOM_SIZE] = {'s', 'e', 'r', 'v', 'e', 'r'};
    List list = listed(reply, reply_length);
    AxleWritten written = axle_write_server_hello(VERSION, random, sizeof random, identifier, length, suite, 0, reply_length > 0,
                                                  list.types, list.count, list.lengths, list.count, list.data, list.used, out, room);
    done(written.refusal, "our ServerHello");
    return written.length;
}

/* What is told counts with a ServerHello alone. */
static void accept(AxleLog *log, const uint8_t *bytes, size_t length, uint8_t resumes)
{
    const AxleTold told = {resumes, sha384};
    done(axle_log_accept_in(log, bytes, length, told), "a message");
}

/* A long message by parts, of 16 hash blocks at most: what else waits has its turn between them. */
static void feed(AxleLog *log, const uint8_t *rest, size_t length)
{
    const AxleTold nothing = {0, 0};
    while (length > 0) {
        size_t taken;
        done(axle_log_feed_in(log, rest, length, 16, nothing, &taken, NULL), "a part of a message");
        rest += taken, length -= taken;
    }
}

/* Both Finished, as each is due: its value is asked for, and the message is checked and taken as by the peer. */
static void finish(AxleLog *log, const uint8_t *secret)
{
    for (int i = 0; i < 2; i++) {
        uint8_t bytes[4 + AXLE_VERIFY_DATA_SIZE];
        AxleExpected expected = axle_log_expected_finished(*log, secret, AXLE_SECRET_SIZE);
        done(expected.refusal, "a Finished value");
        message(bytes, FINISHED, expected.value, sizeof expected.value);
        done(axle_log_finish_in(log, secret, AXLE_SECRET_SIZE, bytes, sizeof bytes), "a Finished");
    }
}

/* Both hellos: the server decides and replies, the client decides on the reply; both must see the same. Where they resume, the
 * server's hello names the session's suite, and the session's secret goes to `secret`. */
static AxleDecision hellos(AxleLog *log, AxleTable table, const uint8_t *offered, size_t length, uint8_t *secret)
{
    const AxleConnection fresh = axle_connection_fresh();
    static const uint8_t renewed[4] = {'n', 'e', 'x', 't'};
    uint8_t hello[192], answer[192], reply[AXLE_REPLY_MAX];
    size_t n = client_hello(hello, sizeof hello, offered, length);
    AxleDecision server = axle_decide_server(hello, n, AXLE, table, fresh, strict, reply, sizeof reply);
    done(server.refusal, "the server's decision");
    *log = axle_log_fresh();
    accept(log, hello, n, 0);
    if (server.resumes) {
        AxleLooked session = axle_table_look_up(table, AXLE, offered, length, secret, AXLE_SECRET_SIZE);
        done(session.refusal, "the look-up");
        n = server_hello(answer, sizeof answer, offered, length, session.suite, reply, server.reply_length);
    } else {
        n = server_hello(answer, sizeof answer, renewed, sizeof renewed, SUITE, reply, server.reply_length);
    }
    AxleDecision client = axle_decide_client(answer, n, offered, length, length > 0, offered, length, 1, SUITE, fresh, strict);
    done(client.refusal, "the client's decision");
    if (client.resumes != server.resumes || client.ems != server.ems || client.indication != server.indication)
        exit(1);
    accept(log, answer, n, server.resumes);
    printf("%s handshake, %zu bytes of reply\n", server.resumes ? "resumed" : "full", server.reply_length);
    return server;
}

int main(void)
{
    static const uint8_t identifier[4] = {'n', 'e', 'x', 't'};
    AxleTable table = axle_table_fresh();
    AxleConnection connection = axle_connection_fresh();
    AxleLog log;
    uint8_t bytes[64], secret[AXLE_SECRET_SIZE];

    AxleDecision decision = hellos(&log, table, NULL, 0, secret);
    static uint8_t certificate[AXLE_MESSAGE_MAX], body[AXLE_MESSAGE_MAX - 4];
    feed(&log, certificate, message(certificate, CERTIFICATE, body, sizeof body));
    static const uint8_t between[] = {HELLO_DONE, KEY_EXCHANGE};
    for (size_t i = 0; i < sizeof between; i++)
        accept(&log, bytes, message(bytes, between[i], bytes, 0), 0);
    AxleSessionHash session = axle_log_session_hash(log);
    done(session.refusal, "the session hash");
    done(axle_extended_master_secret(sha384, pre_master, sizeof pre_master, session.hash, session.length, secret, sizeof secret),
         "the secret");
    finish(&log, secret);
    done(axle_complete(&connection, log, decision), "completion");
    done(axle_table_store_in(&table, AXLE, identifier, sizeof identifier, decision.ems, SUITE, secret, sizeof secret), "the store");
    printf("completed: %d, axle %d holds %d\n", connection.completed, AXLE, axle_table_held(table, AXLE).count);

    axle_wipe(secret, sizeof secret);
    connection = axle_connection_fresh();
    decision = hellos(&log, table, identifier, sizeof identifier, secret);
    finish(&log, secret);
    done(axle_complete(&connection, log, decision), "completion");
    printf("completed: %d\n", connection.completed);
    axle_wipe(secret, sizeof secret);
    axle_wipe(&table, sizeof table);
    axle_wipe(&log, sizeof log);
    return 0;
}
