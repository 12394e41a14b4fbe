/* The handshake part of the axle gateway: TLS 1.2 hellos, transcript, secrets, decisions and sessions.
 *
 * Every function takes any bytes and any numbers, ends, and answers by the table of numbers below. None allocates, keeps
 * state of its own or calls the system. State is a struct that the caller owns: it goes in by value and the next state
 * comes back in the answer. A refused call hands the state back as it was and writes nothing. The functions whose names end
 * in _in do the same on a state where it stands; they and axle_wipe are plain C in this file, around the proved calls.
 *
 * Pointers. A pair (pointer, length) is lent for the time of the call: `const` ones are only read. A length of 0 may come
 * with any pointer, NULL too; with another length the pointer must be good for that many bytes, or for that many numbers where
 * it points to uint16_t. Two lent parts of one call must not overlap where one of them is written. The record of axle_complete
 * and the state of an _in function must not be NULL. None of this can be seen from inside: a call that breaks it is undefined,
 * like a bad memcpy.
 *
 * Flags are bytes: 0 is no, anything else is yes; a flag in an answer is 0 or 1.
 *
 * Structs. What is inside AxleHash, AxleHash384, AxleTable and AxleLog is not for callers: copy them, keep them, hand them in.
 * No whole struct is for sending, storing or comparing by memcmp: the padding between fields may hold older bytes of the
 * caller's stack, secrets among them, and a layout may change with the version. Fields are.
 *
 * Threads. Nothing is shared between calls, so any number of threads may call at once, each on values of its own. A value
 * that two threads use (a state kept in place, a record, an output) wants the caller's lock, as any variable does.
 *
 * Wiping. A table that began as axle_table_fresh has its sessions in it, and zeros in every other place: of a session that was
 * withdrawn, replaced, pushed out or cleared, the table that is handed back holds no byte. The library wipes nothing else: the
 * table that was passed still has that session. When done with them, a caller overwrites (axle_wipe): every AxleTable, older
 * copies too, and every answer with one in it; the secret that a look-up or a master secret call wrote to `out`; pre-master
 * secrets and HMAC keys; AxleLog and AxleExpected, which hold Finished values; AxleHash and AxleHash384 where what they took was
 * secret. A call also leaves copies on the stack below its caller, within AXLE_STACK_..
 *
 * Processors. The archive and the shared library are for x86-64 (none of its extensions is needed) with the System V calling
 * convention and ELF: Linux and its like, 64 bits, static or position-independent. They link nowhere else. Of the C library
 * they need memcpy and memset alone, so a program without one brings these two.
 *
 * Stack. AXLE_STACK_.. at the end of this file has the bytes for each call. Answers lie in the caller's own frame, also those
 * that an _in function asks for: one with a table has 4,056 bytes.
 */
#ifndef AXLE_GATEWAY_H
#define AXLE_GATEWAY_H

#include <stddef.h>
#include <stdint.h>

#ifdef __cplusplus
extern "C" {
#endif

/* ---- Version and sizes ------------------------------------------------------------------------------------------- */

/* The first number is 0 for as long as a struct or a call may change from one minor version to the next; a patch changes
 * neither. So the shared library's soname has the first two. tools/build reads the numbers here. */
#define AXLE_GATEWAY_VERSION_MAJOR 0
#define AXLE_GATEWAY_VERSION_MINOR 9
#define AXLE_GATEWAY_VERSION_PATCH 4
#define AXLE_GATEWAY_VERSION "0.9.4"
/* for #if: 900 is 0.9.0, 10203 is 1.2.3 */
#define AXLE_GATEWAY_VERSION_NUMBER \
    (AXLE_GATEWAY_VERSION_MAJOR * 10000 + AXLE_GATEWAY_VERSION_MINOR * 100 + AXLE_GATEWAY_VERSION_PATCH)

/* In bytes: SIZE is exact, MAX the most. */
enum {
    AXLE_MESSAGE_MAX = 16388,   /* a whole handshake message, header included */
    AXLE_REPLY_MAX = 35,        /* the reply of axle_decide_server: an `out` of this size is never too short */
    AXLE_RANDOM_SIZE = 32,      /* a hello's random */
    AXLE_IDENTIFIER_MAX = 32,   /* a session identifier */
    AXLE_DIGEST_SIZE = 32,      /* SHA-256, HMAC-SHA-256, the session hash with SHA-256 */
    AXLE_DIGEST384_SIZE = 48,   /* SHA-384, HMAC-SHA-384, the session hash with SHA-384 */
    AXLE_SECRET_SIZE = 48,      /* a master secret */
    AXLE_VERIFY_DATA_SIZE = 12, /* the value of a Finished */
    AXLE_PRE_MASTER_MAX = 512,  /* a pre-master secret */
    AXLE_HASH_MAX = 1048576,    /* what a hash takes from fresh, either one */
    AXLE_HMAC_MAX = 65536       /* an HMAC's key, and its message */
};

/* How many. */
enum {
    AXLE_AXLES = 6,             /* axles are numbered from 1 */
    AXLE_SESSIONS_MAX = 32,     /* sessions in a table */
    AXLE_SESSIONS_AN_AXLE = 8,  /* sessions of one axle */
    AXLE_ALLOWANCE_MAX = 256   /* blocks of each hash that axle_log_feed may be allowed a call */
};

/* Overwrites with zeros, and is not optimised away. */
static inline void axle_wipe(void *bytes, size_t length)
{
    volatile uint8_t *at = (volatile uint8_t *)bytes;
    while (length-- > 0)
        *at++ = 0;
}

/* ---- Numbers answered ------------------------------------------------------------------------------------------- */

enum {
    AXLE_DONE = 0,
    AXLE_MALFORMED = 1,              /* fatal decode_error */
    AXLE_EXTENSION_TWICE = 2,        /* fatal illegal_parameter */
    AXLE_VERSION = 3,                /* fatal protocol_version */
    AXLE_EXTENSION_NOT_OFFERED = 4,  /* fatal unsupported_extension */
    AXLE_INDICATION = 5,             /* renegotiation indication wrong or missing: fatal handshake_failure */
    AXLE_MASTER_SECRET_RULE = 6,     /* fatal handshake_failure */
    AXLE_OUT_OF_TURN = 7,            /* fatal unexpected_message */
    AXLE_FINISHED_DIFFERS = 8,       /* fatal decrypt_error */
    AXLE_RENEGOTIATION_CLOSED = 9,   /* warning no_renegotiation */
    AXLE_LENGTH = 10,                /* a lent length outside its bounds: no alert */
    AXLE_AXLE_OR_IDENTIFIER = 11,    /* axle not 1 to 6, or identifier not 1 to 32 bytes: no alert */
    AXLE_SUITE = 12                  /* a ServerHello resumes with another suite than the session's: fatal illegal_parameter */
};

enum { AXLE_ALERT_NONE = 0, AXLE_ALERT_WARNING = 1, AXLE_ALERT_FATAL = 2 };

/* A number with its alert and its place. Done is number 0 and no alert.
 *
 * The place is where a message broke: bytes counted from 0 at the first one of the message that the call was lent, header
 * included, and at most its length. It goes with a 1 or 2 that comes from a message; 0 is a real place there, the first byte.
 * With every other number, from axle_refusal and from the writers it is 0 and means nothing. Which place it is,
 * axle_read_client_hello and axle_log_accept say. */
typedef struct {
    uint8_t number;
    uint8_t level; /* AXLE_ALERT_NONE, _WARNING or _FATAL */
    uint8_t code;  /* AlertDescription of RFC 5246, section 7.2; 0 where there is no alert */
    size_t place;  /* with 1 and 2 where the message broke; else 0 */
} AxleRefusal;

/* The alert that goes with a number, with place 0; none for a number that the table does not have. */
AxleRefusal axle_refusal(uint8_t number);

/* ---- SHA-256 ---------------------------------------------------------------------------------------------------- */

/* A running hash. */
typedef struct {
    uint32_t state[8];
    uint8_t tail[64];
    uint64_t length;
} AxleHash;

typedef struct {
    AxleRefusal refusal; /* 0, or 10 */
    AxleHash hash;       /* the next state; refused: the one passed */
} AxleAbsorbed;

typedef struct {
    uint8_t bytes[AXLE_DIGEST_SIZE];
} AxleDigest;

typedef struct {
    AxleRefusal refusal; /* 0, or 10 */
    uint8_t digest[AXLE_DIGEST_SIZE]; /* refused: zeros */
} AxleDigested;

/* A hash that has taken nothing. */
AxleHash axle_hash_fresh(void);

/* Takes `length` bytes more. 10 where that would make more than 1,048,576 bytes from fresh. */
AxleAbsorbed axle_hash_absorb(AxleHash hash, const uint8_t *bytes, size_t length);

/* The same, on a hash in place. */
static inline AxleRefusal axle_hash_absorb_in(AxleHash *hash, const uint8_t *bytes, size_t length)
{
    AxleAbsorbed answer = axle_hash_absorb(*hash, bytes, length);
    *hash = answer.hash;
    return answer.refusal;
}

/* The SHA-256 digest of all bytes taken so far; the hash can go on taking. */
AxleDigest axle_hash_digest(AxleHash hash);

/* The digest of one whole message. 10 where it has more than 1,048,576 bytes. */
AxleDigested axle_sha256(const uint8_t *message, size_t length);

/* ---- SHA-384 ---------------------------------------------------------------------------------------------------- */

/* The same calls with the same bounds. A running hash: */
typedef struct {
    uint64_t state[8];
    uint8_t tail[128];
    uint64_t length;
} AxleHash384;

typedef struct {
    AxleRefusal refusal; /* 0, or 10 */
    AxleHash384 hash;    /* the next state; refused: the one passed */
} AxleAbsorbed384;

typedef struct {
    uint8_t bytes[AXLE_DIGEST384_SIZE];
} AxleDigest384;

typedef struct {
    AxleRefusal refusal; /* 0, or 10 */
    uint8_t digest[AXLE_DIGEST384_SIZE]; /* refused: zeros */
} AxleDigested384;

/* A hash that has taken nothing. */
AxleHash384 axle_hash384_fresh(void);

/* Takes `length` bytes more. 10 where that would make more than 1,048,576 bytes from fresh. */
AxleAbsorbed384 axle_hash384_absorb(AxleHash384 hash, const uint8_t *bytes, size_t length);

/* The same, on a hash in place. */
static inline AxleRefusal axle_hash384_absorb_in(AxleHash384 *hash, const uint8_t *bytes, size_t length)
{
    AxleAbsorbed384 answer = axle_hash384_absorb(*hash, bytes, length);
    *hash = answer.hash;
    return answer.refusal;
}

/* The SHA-384 digest of all bytes taken so far; the hash can go on taking. */
AxleDigest384 axle_hash384_digest(AxleHash384 hash);

/* The digest of one whole message. 10 where it has more than 1,048,576 bytes. */
AxleDigested384 axle_sha384(const uint8_t *message, size_t length);

/* ---- HMAC and the master secrets -------------------------------------------------------------------------------- */

typedef struct {
    AxleRefusal refusal; /* 0, or 10 */
    uint8_t tag[AXLE_DIGEST_SIZE]; /* refused: zeros */
} AxleTagged;

typedef struct {
    AxleRefusal refusal; /* 0, or 10 */
    uint8_t tag[AXLE_DIGEST384_SIZE]; /* refused: zeros */
} AxleTagged384;

/* HMAC-SHA-256 of a message (RFC 2104). 10 where key or message has more than 65,536 bytes. */
AxleTagged axle_hmac(const uint8_t *key, size_t key_length, const uint8_t *message, size_t message_length);

/* HMAC-SHA-384, with the same bounds. */
AxleTagged384 axle_hmac_sha384(const uint8_t *key, size_t key_length, const uint8_t *message, size_t message_length);

/* The extended master secret (RFC 7627, section 4) to the first 48 bytes of `out`; what stands behind them stays. `sha384` tells
 * the hash of the suite, which its PRF is over: no for SHA-256, yes for SHA-384. The session hash is by the same: 32 bytes, or 48.
 * 10, with nothing written, where it has another length, that of the other hash too, where the pre-master secret has not 1 to 512
 * bytes, or `out` under 48. */
AxleRefusal axle_extended_master_secret(uint8_t sha384, const uint8_t *pre_master, size_t pre_master_length,
                                        const uint8_t *session_hash, size_t session_hash_length, uint8_t *out,
                                        size_t out_length);

/* The master secret of RFC 5246, section 8.1: `randoms` is the client's, then the server's, 64 bytes with either hash. Otherwise
 * as above. */
AxleRefusal axle_master_secret(uint8_t sha384, const uint8_t *pre_master, size_t pre_master_length, const uint8_t *randoms,
                               size_t randoms_length, uint8_t *out, size_t out_length);

/* ---- Reading a hello -------------------------------------------------------------------------------------------- */

/* A part of the message that was read: `length` bytes from place `at`, counted from the message's first byte. It lies within
 * the message. A part of what is not there has length 0: without an extension block `list` is at the message's end, without
 * renegotiation_info `indication` is at 0. What is there may be empty too, so it is `block` and `indicated` that tell. */
typedef struct {
    size_t at;
    size_t length;
} AxlePart;

/* What a hello says by its extensions. */
typedef struct {
    uint8_t block;       /* there is an extension block, which may be empty */
    AxlePart list;       /* the extensions in it */
    uint8_t indicated;   /* renegotiation_info is there */
    AxlePart indication; /* the bytes that it holds */
    uint8_t ems;         /* extended_master_secret is there */
    uint8_t others;      /* a type other than these two is there */
} AxleExtensions;

typedef struct {
    uint16_t version;
    AxlePart random;
    AxlePart identifier;
    AxlePart suites;
    AxlePart methods;
    uint8_t signal; /* 00 ff is among the suites */
    AxleExtensions extensions;
} AxleClientHello;

typedef struct {
    uint16_t version;
    AxlePart random;
    AxlePart identifier;
    uint16_t suite;
    uint8_t compression;
    AxleExtensions extensions;
} AxleServerHello;

typedef struct {
    AxleRefusal refusal;   /* 0, 1, 2, 3 or 10; with 1 and 2 the place */
    AxleClientHello hello; /* refused: zeros */
} AxleClientReading;

typedef struct {
    AxleRefusal refusal;   /* 0, 1, 2, 3 or 10; with 1 and 2 the place */
    AxleServerHello hello; /* refused: zeros */
} AxleServerReading;

/* Reads one whole handshake message, header included: its fields, or the first fault.
 *
 * Where a malformed one broke (1): fields are judged in order, the type first, each extension by type, length and shape, and
 * the first that is wrong counts. The place is
 *   its own, for a type other than asked, or a length that is outside its bounds, claims more than is left, or must fit exactly
 *       and does not: the message's, the block's, the length byte of renegotiation_info
 *   the end of what holds it, for a field that is cut off there
 *   that of the first byte, for data in extended_master_secret
 * Where a type comes again (2): the earliest that repeats one before it, of types A B B A the second B. The number is chosen
 * first, so a hello that is malformed behind a repeat is 1.
 *
 * What it costs at most: every pair of extension types is compared. A ClientHello of 16,388 bytes with 4,085 extensions takes
 * 21 to 30 ms (docs/PERFORMANCE.md), so 33 to 47 of them a second fill a core. Only the caller can bound that, by the length
 * that an axle may send before it is known: 1.8 ms at 4,096 bytes, 0.5 ms at 2,048. A usual hello of 300 bytes takes 0.2 us. */
AxleClientReading axle_read_client_hello(const uint8_t *message, size_t length);
AxleServerReading axle_read_server_hello(const uint8_t *message, size_t length);

/* One extension of a message. */
typedef struct {
    uint8_t found;  /* a whole one stands at the place asked; else all is 0 */
    uint16_t type;
    AxlePart data;  /* what stands behind its type and length */
    size_t next;    /* the place behind it */
} AxleExtension;

/* The extension at place `at` of the message, if its type, length and data all lie within the message. Any bytes and any place
 * may be asked. Of a hello that was read it hands out the very list, one after the other, and then none:
 *
 *     AxleExtension e = axle_next_extension(message, length, hello.extensions.list.at);
 *     for (; e.found; e = axle_next_extension(message, length, e.next))
 *         use(e.type, message + e.data.at, e.data.length);
 */
AxleExtension axle_next_extension(const uint8_t *message, size_t length, size_t at);

/* ---- Writing a hello -------------------------------------------------------------------------------------------- */

/* The types of the two extensions whose shape is judged. */
enum {
    AXLE_TYPE_EXTENDED_MASTER_SECRET = 23,
    AXLE_TYPE_RENEGOTIATION_INFO = 65281
};

typedef struct {
    AxleRefusal refusal; /* 0, 1, 2, 3 or 10, all with place 0: there is no message yet */
    size_t length;       /* how many bytes the message has; refused: 0 */
} AxleWritten;

/* Writes one whole handshake message, header included, to the front of `out`; what stands behind it stays. The message's type and
 * all lengths in it are the writer's work. It adds nothing else: renegotiation_info, extended_master_secret and the signal are
 * there if the caller gives them. What it wrote reads back as the fields given, and the fields of a hello that was read are
 * written as that very message.
 *
 * Extensions are three lent lists, in the order in which they are to stand: the types, the length of each one's data, and all
 * data one after the other. `types_length` and `lengths_length` count numbers, not bytes. Data is as it stands in the message:
 * that of renegotiation_info begins with its own length byte (an empty one has the data 00), extended_master_secret has none.
 * `block` tells whether there is an extension block: without types, 0 is a hello without one, and 1 an empty one (00 00). So our
 * client's list for a first handshake, with block 1, is
 *
 *     const uint16_t types[] = {AXLE_TYPE_RENEGOTIATION_INFO, AXLE_TYPE_EXTENDED_MASTER_SECRET}, lengths[] = {1, 0};
 *     const uint8_t data[] = {0};
 *
 * Refused, with nothing written, by the first of these that applies:
 *   10  random not of 32 bytes; identifier over 32; in a ClientHello suites of an odd number of bytes, under 2 or over 65,534,
 *       methods not of 1 to 255; another number of lengths than of types, or lengths that do not add up to exactly
 *       `data_length`; types without a block; a message over AXLE_MESSAGE_MAX bytes
 *    1  data of renegotiation_info that is not a length byte and exactly that many bytes; data of extended_master_secret
 *    2  a type twice, known or not
 *    3  a ClientHello's version below 0x0303, a ServerHello's other than 0x0303
 *   10  `out` shorter than this very message: one of AXLE_MESSAGE_MAX bytes never is
 *
 * `out` must not overlap with anything lent. Every pair of types is compared, as in reading: a usual hello of 300 bytes takes
 * 0.1 us, one of 16,388 bytes with 4,085 types 3 to 5 ms. */
AxleWritten axle_write_client_hello(uint16_t version, const uint8_t *random, size_t random_length, const uint8_t *identifier,
                                    size_t identifier_length, const uint8_t *suites, size_t suites_length,
                                    const uint8_t *methods, size_t methods_length, uint8_t block, const uint16_t *types,
                                    size_t types_length, const uint16_t *lengths, size_t lengths_length, const uint8_t *data,
                                    size_t data_length, uint8_t *out, size_t out_length);

/* The same for a ServerHello, with one suite and one method. In one that resumes the suite is the session's, which
 * axle_table_look_up hands out: our client refuses another one with 12. */
AxleWritten axle_write_server_hello(uint16_t version, const uint8_t *random, size_t random_length, const uint8_t *identifier,
                                    size_t identifier_length, uint16_t suite, uint8_t compression, uint8_t block,
                                    const uint16_t *types, size_t types_length, const uint16_t *lengths, size_t lengths_length,
                                    const uint8_t *data, size_t data_length, uint8_t *out, size_t out_length);

/* ---- The session table ------------------------------------------------------------------------------------------ */

/* A place for a session, whose axle is that of the queue; zeros where there is none. */
typedef struct {
    uint8_t ems;
    uint8_t size;
    uint8_t suite[2]; /* the high byte first, as in a hello */
    uint8_t identifier[32];
    uint8_t secret[48];
} AxleRow;

/* An axle's sessions, the oldest first: they are in the first `held` places. */
typedef struct {
    AxleRow rows[8];
    uint8_t held;
} AxleQueue;

/* The sessions of all six axles, a queue for each, axle 1's first: at most 8 an axle and 32 in all. 4,038 bytes, no padding. */
typedef struct {
    AxleQueue queues[6];
} AxleTable;

typedef struct {
    AxleRefusal refusal; /* 0, 10 or 11 */
    AxleTable table;     /* the next state; refused: the one passed */
} AxleStored;

typedef struct {
    AxleRefusal refusal; /* 0, 10 or 11 */
    uint8_t found;
    uint8_t ems;    /* of the session found: was its secret made with extended_master_secret? */
    uint16_t suite; /* of the session found; else 0 */
} AxleLooked;

typedef struct {
    AxleRefusal refusal; /* 0 or 11 */
    uint8_t withdrawn;   /* was one there? */
    AxleTable table;     /* the next state; refused: the one passed */
} AxleWithdrawn;

typedef struct {
    AxleRefusal refusal; /* 0 or 11 */
    uint8_t count;       /* how many sessions the axle holds */
} AxleHeld;

typedef struct {
    AxleRefusal refusal; /* 0 */
    AxleTable table;
} AxleCleared;

/* An empty table. */
AxleTable axle_table_fresh(void);

/* Stores a session: axle 1 to 6 and an identifier of 1 to 32 bytes, else 11; a secret of 48 bytes, else 10. `suite` is the
 * cipher suite that it was made with, which the ServerHello of that handshake names (0x003b is 00 3b); any number is kept, none
 * is refused. A session under the same axle and identifier is replaced; where there is no room, the rules of document 01 say
 * which one goes. */
AxleStored axle_table_store(AxleTable table, uint8_t axle, const uint8_t *identifier, size_t identifier_length, uint8_t ems,
                            uint16_t suite, const uint8_t *secret, size_t secret_length);

/* The same, on a table in place. */
static inline AxleRefusal axle_table_store_in(AxleTable *table, uint8_t axle, const uint8_t *identifier,
                                              size_t identifier_length, uint8_t ems, uint16_t suite, const uint8_t *secret,
                                              size_t secret_length)
{
    AxleStored answer = axle_table_store(*table, axle, identifier, identifier_length, ems, suite, secret, secret_length);
    *table = answer.table;
    return answer.refusal;
}

/* Looks a session up. Found, it is answered with its suite, and its secret goes to the first 48 bytes of `out`; 10, with
 * nothing written, where `out` is shorter. Where none is found nothing is written and no `out` is too short. */
AxleLooked axle_table_look_up(AxleTable table, uint8_t axle, const uint8_t *identifier, size_t identifier_length, uint8_t *out,
                              size_t out_length);

/* Takes a session out of the table, if it is there. */
AxleWithdrawn axle_table_withdraw(AxleTable table, uint8_t axle, const uint8_t *identifier, size_t identifier_length);

/* The same, on a table in place: `withdrawn` takes the answer's flag, 0 where refused; it may be NULL. */
static inline AxleRefusal axle_table_withdraw_in(AxleTable *table, uint8_t axle, const uint8_t *identifier,
                                                 size_t identifier_length, uint8_t *withdrawn)
{
    AxleWithdrawn answer = axle_table_withdraw(*table, axle, identifier, identifier_length);
    *table = answer.table;
    if (withdrawn != NULL)
        *withdrawn = answer.withdrawn;
    return answer.refusal;
}

/* How many sessions an axle holds: a number that the table keeps, so it costs the same however many there are. */
AxleHeld axle_table_held(AxleTable table, uint8_t axle);

/* Empties the table. */
AxleCleared axle_table_clear(AxleTable table);

/* The same, on a table in place. */
static inline AxleRefusal axle_table_clear_in(AxleTable *table)
{
    AxleCleared answer = axle_table_clear(*table);
    *table = answer.table;
    return answer.refusal;
}

/* ---- Decisions -------------------------------------------------------------------------------------------------- */

/* The connection record. Only axle_complete alters it. */
typedef struct {
    uint8_t completed;  /* a handshake has completed */
    uint8_t indication; /* secure renegotiation is indicated (RFC 5746) */
    uint8_t barred;     /* no renegotiation after a legacy resumption */
    uint8_t client[AXLE_VERIFY_DATA_SIZE]; /* the client's verify_data of the last handshake */
    uint8_t server[AXLE_VERIFY_DATA_SIZE]; /* the server's */
} AxleConnection;

/* A record before any handshake. */
AxleConnection axle_connection_fresh(void);

typedef struct {
    uint8_t indication_required; /* refuse a first handshake without the renegotiation indication */
    uint8_t legacy_full;         /* allow a full handshake without extended_master_secret */
    uint8_t legacy_resumption;   /* allow a resumption without it */
} AxleSwitches;

typedef struct {
    AxleRefusal refusal; /* with 1 and 2 the place in the hello; refused: all else is zero */
    uint8_t resumes;     /* an abbreviated handshake; else a full one */
    uint8_t ems;         /* with extended_master_secret; else a legacy outcome */
    uint8_t indication;  /* the flag that completion will write */
    uint8_t bar;         /* the renegotiation bar that completion will write */
    uint8_t bars_export; /* key export is barred */
    uint8_t bars_verify_data; /* verify_data is barred for other uses */
    size_t reply_length; /* how many bytes of reply were written; 0 on the client's side */
} AxleDecision;

/* The server's decision on a ClientHello of this axle. The reply, which is the extension block of our ServerHello (with its
 * 2-byte length, or nothing at all), goes to the front of `out`; what stands behind it stays. axle_next_extension on the reply,
 * from place 2 on, hands out the list for axle_write_server_hello. 11 for the axle; 10, 1, 2, 3 for the hello, with the place
 * that reading it answers; 9 or 5 for renegotiation; 6 for the master secret rule; last 10 where `out` is shorter than the reply.
 *
 * A session resumes only where the hello lists its suite (RFC 5246, section 7.4.1.2). A known one whose suite is not listed
 * counts as none, before anything else is asked of it: all is answered as without it, and it stays in the table. Where the
 * answer is `resumes`, our ServerHello must name the session's suite: look it up.
 *
 * It reads the hello, so it costs what reading costs: 21 to 30 ms for 16,388 bytes with 4,085 extensions, and 33 to 47 of them
 * a second fill a core. Bound the length that an axle may send before it is known. */
AxleDecision axle_decide_server(const uint8_t *message, size_t length, uint8_t axle, AxleTable table, AxleConnection connection,
                                AxleSwitches switches, uint8_t *out, size_t out_length);

/* The client's decision on a ServerHello that answers our own hello: `offered` is the identifier that it offered, empty for
 * none, and `session` tells whether a session is lent along, with its own `identifier`, `ems` and `suite`. 11 for an offer over 32
 * bytes or without a session that bears it; 10, 1, 2, 3, 4 for the hello, with the place that reading it answers; 7 or 5 for
 * renegotiation; 12 where it resumes, which is naming the identifier offered, with another suite than the session's; 6 for the
 * master secret rule. In a ServerHello that does not resume the suite is not judged. */
AxleDecision axle_decide_client(const uint8_t *message, size_t length, const uint8_t *offered, size_t offered_length,
                                uint8_t session, const uint8_t *identifier, size_t identifier_length, uint8_t ems,
                                uint16_t suite, AxleConnection connection, AxleSwitches switches);

/* ---- The message log -------------------------------------------------------------------------------------------- */

/* The hashes that a log carries: both until a ServerHello is whole, then that of its suite. The other one is then fresh. */
typedef struct {
    AxleHash sha256;
    AxleHash384 sha384;
    uint8_t choice; /* 0: both; 1: SHA-256 alone; 2: SHA-384 alone */
} AxleTranscript;

/* The transcript of one handshake: whose turn it is, and its running hashes. */
typedef struct {
    AxleTranscript hash;
    uint8_t place;
    uint8_t session[48];
    uint8_t client[12];
    uint8_t server[12];
    uint8_t kind;   /* of a message between its parts: its type, */
    uint8_t next;   /* the place that it leads to, */
    uint8_t sha384; /* the hash that was told with it, */
    uint16_t left;  /* how many bytes of it are left. All 0 where there is none */
} AxleLog;

/* What a log is told with a ServerHello. With other messages it is of no account. */
typedef struct {
    uint8_t resumes; /* it resumes a session; else a full handshake */
    uint8_t sha384;  /* the PRF of its suite is over SHA-384; else over SHA-256 */
} AxleTold;

typedef struct {
    AxleRefusal refusal; /* 0, 1 with its place, 7 or 10; of axle_log_finish 8 besides */
    AxleLog log;         /* the next state; refused: the one passed */
} AxleAccepted;

/* Hash blocks that were worked, of 64 bytes with SHA-256 and of 128 with SHA-384; 0 for a hash that is not carried. */
typedef struct {
    size_t sha256;
    size_t sha384;
} AxleBlocks;

typedef struct {
    AxleRefusal refusal; /* 0, 1 with its place, 7 or 10 */
    AxleLog log;         /* the next state; refused: the one passed */
    size_t taken;        /* how many bytes, from the front of the rest, have entered the log; refused: 0 */
    AxleBlocks blocks;   /* how many blocks of each hash were worked with them; refused: 0 */
} AxleFed;

typedef struct {
    AxleRefusal refusal; /* 0 or 7 */
    uint8_t length;      /* how many bytes it has: 32 with SHA-256, 48 with SHA-384; refused: 0 */
    uint8_t hash[AXLE_DIGEST384_SIZE]; /* zeros behind them; refused: zeros */
} AxleSessionHash;

typedef struct {
    AxleRefusal refusal; /* 0, 7 or 10 */
    uint8_t value[AXLE_VERIFY_DATA_SIZE]; /* verify_data; refused: zeros */
} AxleExpected;

/* A log that has accepted nothing. */
AxleLog axle_log_fresh(void);

/* Accepts the next handshake message, header included, or refuses it: 10 over 16,388 bytes, 1 malformed, 7 out of turn.
 * A Finished of 12 bytes is 7 here, due or not: axle_log_finish takes it. Between the parts of a message (axle_log_feed) every
 * other one is 7, type 0 too.
 *
 * `told` says, with a ServerHello, whether it resumes and which hash its suite has; with other messages it is of no account. The
 * log does not read the hello: that what is told fits its identifier and its suite is the caller's matter. Since the hash is not
 * known before, messages up to the ServerHello, and that one too, are worked by both, and later ones by the one that was told.
 *
 * The log judges the header alone, so a malformed message broke where under 4 bytes end (the place is how many there are), or at
 * its length, place 1: it is not that of the body, not 0 with type 0, or not 12 with a Finished. */
AxleAccepted axle_log_accept(AxleLog log, const uint8_t *message, size_t length, AxleTold told);

/* The same, on a log in place. */
static inline AxleRefusal axle_log_accept_in(AxleLog *log, const uint8_t *message, size_t length, AxleTold told)
{
    AxleAccepted answer = axle_log_accept(*log, message, length, told);
    *log = answer.log;
    return answer.refusal;
}

/* The same, but part by part, so that a long message does not keep others waiting: a call works at most `allowance` blocks, 1 to
 * 256, of each hash that is carried. It is lent all of the message that is not yet taken: first the whole of it, header included,
 * then what the call before left. It takes the smaller of `length` and
 *
 *     64 * (allowance + 1) - 1 - h     with SHA-256, alone or beside SHA-384, whose own bound is then never the smaller one
 *     128 * (allowance + 1) - 1 - h    with SHA-384 alone
 *
 * where h bytes wait in that hash (all that were hashed so far, those of this message too, modulo 64 or 128): one more would
 * complete a block too many. The call that takes all it is lent accepts the message, and hands back the very log that
 * axle_log_accept gives on the bytes taken:
 *
 *     do {
 *         AxleFed fed = axle_log_feed(log, rest, length, 16, told);
 *         if (fed.refusal.number != AXLE_DONE)
 *             return fed.refusal;
 *         log = fed.log, rest += fed.taken, length -= fed.taken;
 *         others_turn();
 *     } while (length > 0);
 *
 * With an allowance of 1, 300 bytes enter a fresh log as 127, 64, 64 and 45, with one block of SHA-256 each time, and with 0, 1, 0
 * and 1 of SHA-384. A call that is not refused takes 64 bytes or more, or all that is left. Type 0 is one call: it takes its 4
 * bytes, works no block and leaves the log.
 *
 * Header, turn and whole length are judged before the first byte is taken; behind it only the lengths are. Refused, with the log
 * as it was, no byte taken and no block worked, by the first of these that applies:
 *   10  with any part: allowance not 1 to 256
 *   10, 1, 7  with the first: as axle_log_accept refuses the message, so with 7 a Finished, due or not
 *   10  with a later one: another length than is left, whatever the bytes
 * `told` counts with the first part of a ServerHello, and is not asked with later ones; all of its parts are worked by both
 * hashes. Only bytes taken count: those that were lent and left may be other ones the next time.
 *
 * Between the parts every other call that takes the log is 7, after its 10 and 1: the message is accepted when it is whole, and
 * not before. No call gives it up; a caller that may have to keeps the log from before.
 *
 * With the last part of a ClientKeyExchange the session hash is made. The one or two blocks of padding that this works are
 * neither allowed for nor counted. */
AxleFed axle_log_feed(AxleLog log, const uint8_t *rest, size_t length, size_t allowance, AxleTold told);

/* The same, on a log in place: `taken` and `blocks` take the answer's numbers, 0 where refused; either may be NULL. */
static inline AxleRefusal axle_log_feed_in(AxleLog *log, const uint8_t *rest, size_t length, size_t allowance, AxleTold told,
                                           size_t *taken, AxleBlocks *blocks)
{
    AxleFed answer = axle_log_feed(*log, rest, length, allowance, told);
    *log = answer.log;
    if (taken != NULL)
        *taken = answer.taken;
    if (blocks != NULL)
        *blocks = answer.blocks;
    return answer.refusal;
}

/* The session hash of RFC 7627, by the hash that was told: over ClientHello through ClientKeyExchange. Its `hash` and `length` are
 * what axle_extended_master_secret takes. 7 before that, in a resumed handshake, and between the parts of a message: so between
 * those of a CertificateVerify, and when that is whole it is the same again. */
AxleSessionHash axle_log_session_hash(AxleLog log);

/* Checks a Finished against this 48-byte master secret, by the hash that was told, and takes it: the log has then accepted it.
 * Refused, with the log as it was, by the first of these that applies:
 *   10  secret not of 48 bytes; message over 16,388
 *    1  malformed, with the place that axle_log_accept has; the body of a Finished has 12 bytes
 *    7  another type than Finished, in turn or not; no Finished due, as between the parts of a message
 *    8  its value differs
 * The values are compared without an early exit. */
AxleAccepted axle_log_finish(AxleLog log, const uint8_t *secret, size_t secret_length, const uint8_t *message,
                             size_t message_length);

/* The same, on a log in place. */
static inline AxleRefusal axle_log_finish_in(AxleLog *log, const uint8_t *secret, size_t secret_length, const uint8_t *message,
                                             size_t message_length)
{
    AxleAccepted answer = axle_log_finish(*log, secret, secret_length, message, message_length);
    *log = answer.log;
    return answer.refusal;
}

/* verify_data of the Finished that is due, by the hash that was told. 10 for a secret not of 48 bytes, 7 where none is due, as
 * between the parts of a message. */
AxleExpected axle_log_expected_finished(AxleLog log, const uint8_t *secret, size_t secret_length);

/* ---- Completion ------------------------------------------------------------------------------------------------- */

/* Both Finished are taken: writes to the record, where it stands, completed, the decision's flag and bar, and both
 * verify_data values. 7, with the record as it was, earlier (so between the parts of a message), with a refused decision, or
 * where decision and log disagree on resuming. The record must not be NULL. */
AxleRefusal axle_complete(AxleConnection *connection, AxleLog log, AxleDecision decision);

/* ---- Stack ------------------------------------------------------------------------------------------------------ */

/* The most bytes of stack that each call writes on x86-64, below the frame of its caller: arguments by value, with what aligns
 * them, the return address, and everything further down. Measured on the library as the gate builds it: the stack is painted, and
 * no case of tests/stack.c goes deeper. It is no proof. */
enum {
    AXLE_STACK_REFUSAL = 8,
    AXLE_STACK_HASH_FRESH = 8,
    AXLE_STACK_HASH_ABSORB = 720,
    AXLE_STACK_HASH_DIGEST = 496,
    AXLE_STACK_SHA256 = 432,
    AXLE_STACK_HASH384_FRESH = 8,
    AXLE_STACK_HASH384_ABSORB = 1200,
    AXLE_STACK_HASH384_DIGEST = 832,
    AXLE_STACK_SHA384 = 672,
    AXLE_STACK_HMAC = 880,
    AXLE_STACK_HMAC_SHA384 = 1504,
    AXLE_STACK_EXTENDED_MASTER_SECRET = 1488,
    AXLE_STACK_MASTER_SECRET = 1488,
    AXLE_STACK_READ_CLIENT_HELLO = 808,
    AXLE_STACK_READ_SERVER_HELLO = 680,
    AXLE_STACK_NEXT_EXTENSION = 8,
    AXLE_STACK_WRITE_CLIENT_HELLO = 248,
    AXLE_STACK_WRITE_SERVER_HELLO = 232,
    AXLE_STACK_TABLE_FRESH = 8,
    AXLE_STACK_TABLE_STORE = 8488,
    AXLE_STACK_TABLE_LOOK_UP = 4840,
    AXLE_STACK_TABLE_WITHDRAW = 8312,
    AXLE_STACK_TABLE_HELD = 4080,
    AXLE_STACK_TABLE_CLEAR = 4056,
    AXLE_STACK_CONNECTION_FRESH = 8,
    AXLE_STACK_DECIDE_SERVER = 6280,
    AXLE_STACK_DECIDE_CLIENT = 760,
    AXLE_STACK_LOG_FRESH = 8,
    AXLE_STACK_LOG_ACCEPT = 1808,
    AXLE_STACK_LOG_FEED = 2224,
    AXLE_STACK_LOG_SESSION_HASH = 472,
    AXLE_STACK_LOG_FINISH = 2416,
    AXLE_STACK_LOG_EXPECTED_FINISHED = 1936,
    AXLE_STACK_COMPLETE = 440
};

#ifdef __cplusplus
}
#endif

#endif
