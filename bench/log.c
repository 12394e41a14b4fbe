/* The message log: a message by its length, before a hash is chosen and with either one, with an earlier build of this library where
 * bench/run has one; and for how long a Certificate of 16,388 bytes keeps others waiting when it enters by parts: the longest call by
 * each allowance, and all calls of the message together, beside the single call. */
#include "axle_gateway.h"
#include "clock.h"

enum { CLIENT_HELLO = 1, SERVER_HELLO = 2, CERTIFICATE = 11, PARTS = AXLE_MESSAGE_MAX / 64 + 2, PART_ROUNDS = 40, PART_NS = 50000 };

static uint8_t message[AXLE_MESSAGE_MAX];
static size_t length;
static AxleLog begun, out; /* the log that a message finds, and the one that it leaves */
static const AxleTold nothing = {0, 0};
static size_t allowance;

static size_t made(uint8_t type, size_t whole)
{
    memcpy(message, (uint8_t[]){type, 0, (uint8_t)((whole - 4) >> 8), (uint8_t)(whole - 4)}, 4);
    return length = whole;
}

static void must(int number)
{
    if (number != AXLE_DONE) {
        fprintf(stderr, "bench: the log refuses a message of %zu bytes, allowance %zu: %d\n", length, allowance, number);
        exit(1);
    }
}

/* A log that has accepted hellos of a usual length, told that hash. */
static void greeted(uint8_t sha384)
{
    const AxleTold told = {0, sha384};
    begun = axle_log_fresh();
    must(axle_log_accept_in(&begun, message, made(CLIENT_HELLO, 300), told).number);
    must(axle_log_accept_in(&begun, message, made(SERVER_HELLO, 90), told).number);
}

static void accept(void)
{
    AxleAccepted answer = axle_log_accept(begun, message, length, nothing);
    must(answer.refusal.number);
}

static void at_once(void)
{
    out = begun;
    must(axle_log_accept_in(&out, message, length, nothing).number);
}

static void by_parts(void)
{
    const uint8_t *rest = message;
    size_t left = length, taken;
    out = begun;
    do {
        must(axle_log_feed_in(&out, rest, left, allowance, nothing, &taken, NULL).number);
        rest += taken, left -= taken;
    } while (left > 0);
}

#ifdef BEFORE
#include "before.h"

#if BEFORE_AXLE_GATEWAY_VERSION_NUMBER < 900 /* a log was told of resuming alone, and had SHA-256 alone */
#define BEFORE_TOLD(sha384) 0
enum { BEFORE_HASHES = 1 };
#else
#define BEFORE_TOLD(sha384) ((before_AxleTold){0, sha384})
enum { BEFORE_HASHES = 2 };
#endif

static before_AxleLog before_begun;

static void before_greeted(uint8_t sha384)
{
    (void)sha384;
    before_begun = before_axle_log_fresh();
    before_begun = before_axle_log_accept(before_begun, message, made(CLIENT_HELLO, 300), BEFORE_TOLD(sha384)).log;
    before_begun = before_axle_log_accept(before_begun, message, made(SERVER_HELLO, 90), BEFORE_TOLD(sha384)).log;
}

static void before_accept(void)
{
    before_AxleAccepted answer = before_axle_log_accept(before_begun, message, length, BEFORE_TOLD(0));
    must(answer.refusal.number);
}
#endif

/* Messages of that type into the log that has begun; the last of the contestants is an earlier build, which may not have that hash. */
static void by_length(const char *title, uint8_t type, int earlier)
{
    static const size_t lengths[] = {16, 64, 256, 1024, 4096, 16384};
    const contestant all[] = {
        {"this library", accept},
#ifdef BEFORE
        {"before", before_accept},
#endif
    };
    for (int k = 0; k < COUNT(lengths); k++) {
        made(type, lengths[k]);
        side_by_side(title, (long)length, all, earlier ? COUNT(all) : 1);
    }
}

static void accepting(void)
{
    int earlier = 1;
    begun = axle_log_fresh();
#ifdef BEFORE
    before_begun = before_axle_log_fresh();
#endif
    by_length("a log before the choice", CLIENT_HELLO, 1);
    for (uint8_t sha384 = 0; sha384 < 2; sha384++) {
#ifdef BEFORE
        before_greeted(sha384);
        earlier = sha384 < BEFORE_HASHES;
#endif
        greeted(sha384);
        by_length(sha384 ? "a log with SHA-384" : "a log with SHA-256", CERTIFICATE, earlier);
    }
}

/* What each part of a run finds. */
static struct {
    AxleLog log;
    const uint8_t *rest;
    size_t left;
} parts[PARTS], *part;

static void one_part(void)
{
    out = part->log;
    must(axle_log_feed_in(&out, part->rest, part->left, allowance, nothing, NULL, NULL).number);
}

/* How many parts a run has. */
static int parted(void)
{
    int n = 0;
    size_t taken;
    out = begun;
    for (size_t at = 0; at < length; at += taken, n++) {
        parts[n].log = out, parts[n].rest = message + at, parts[n].left = length - at;
        must(axle_log_feed_in(&out, message + at, length - at, allowance, nothing, &taken, NULL).number);
    }
    return n;
}

/* A part is too short for the clock, so each is made over and over: in every round all of them in turn, and the single call. Of each
 * the quarter of its rounds counts that took least, and of these the median: the eighth part of all. */
static void longest(const char *hash)
{
    static double took[PARTS + 1][PART_ROUNDS];
    int n = parted();
    double most = 0, single = 0;
    for (int r = 0; r < PART_ROUNDS; r++)
        for (int i = 0; i <= n; i++) {
            void (*work)(void) = i < n ? one_part : at_once;
            part = &parts[i < n ? i : 0];
            took[i][r] = timed(work, 1 + (long)(PART_NS / (1 + timed(work, 3))));
        }
    for (int i = 0; i <= n; i++) {
        double usual = quantile(took[i], PART_ROUNDS, 8);
        *(i < n ? &most : &single) = i < n && usual < most ? most : usual;
    }
    printf("parts of a Certificate, %s\t%zu\tthis library\t%d\t1\n", hash, allowance, n);
    printf("the longest part, %s\t%zu\tthis library\t%.1f\t%.4f\n", hash, allowance, most, most / single);
}

/* The log that was left, without the padding of the struct: behind the choice, and at its end. */
enum { HASHES = offsetof(AxleTranscript, choice) + 1, FLAT = offsetof(AxleLog, sha384) + 1 - offsetof(AxleLog, place) };
static uint8_t flat[HASHES + FLAT];

static void flattened(void)
{
    memcpy(flat, &out.hash, HASHES);
    memcpy(flat + HASHES, &out.place, FLAT);
}

static void at_once_flat(void) { at_once(), flattened(); }
static void by_parts_flat(void) { by_parts(), flattened(); }

static void certificate(void)
{
    static const size_t allowances[] = {1, 4, 16, AXLE_ALLOWANCE_MAX};
    const contestant all[] = {{"single call", at_once}, {"this library", by_parts}};
    const contestant shown[] = {{"single call", at_once_flat}, {"this library", by_parts_flat}};
    for (uint8_t sha384 = 0; sha384 < 2; sha384++) {
        const char *hash = sha384 ? "SHA-384" : "SHA-256";
        char title[48];
        snprintf(title, sizeof title, "a Certificate by parts, %s", hash);
        greeted(sha384);
        made(CERTIFICATE, AXLE_MESSAGE_MAX);
        for (int k = 0; k < COUNT(allowances); k++) {
            allowance = allowances[k];
            agreed(title, shown, COUNT(shown), (answer){flat, sizeof flat});
            side_by_side(title, (long)allowance, all, COUNT(all));
            longest(hash);
        }
    }
}

int main(void)
{
    for (size_t i = 0; i < sizeof message; i++)
        message[i] = (uint8_t)(i * 7 + 1);
    accepting();
    certificate();
    return 0;
}
