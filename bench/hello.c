/* Reading a ClientHello beside tls-parser and rustls (bench/peers): one of 300 bytes with ten extensions, and then by the number
 * of extensions, up to the most that a message has room for. Writing the first and the last of them, beside rustls and beside what
 * one does by hand. */
#include "axle_gateway.h"
#include "clock.h"

/* What all of them tell of a hello; as in bench/peers/lib.rs. */
typedef struct {
    uint32_t version, identifier, suites, methods; /* identifier in bytes, suites and methods by number */
    uint8_t random[AXLE_RANDOM_SIZE];
    uint8_t indicated, ems, others;
    uint8_t read; /* 0: refused */
} reading;

void tls_parser_read(const uint8_t *message, size_t length, reading *to);
void rustls_read(const uint8_t *message, size_t length, reading *to);

static uint8_t message[AXLE_MESSAGE_MAX];
static size_t length;
static reading told;

/* By the call of that name, ours or the earlier one, each with its own structs. */
#define TELL(READING, READ)                                                   \
    do {                                                                      \
        READING r = READ(message, length);                                    \
        told.version = r.hello.version;                                       \
        told.identifier = (uint32_t)r.hello.identifier.length;                \
        told.suites = (uint32_t)r.hello.suites.length / 2;                    \
        told.methods = (uint32_t)r.hello.methods.length;                      \
        memcpy(told.random, message + r.hello.random.at, sizeof told.random); \
        told.indicated = r.hello.extensions.indicated;                        \
        told.ems = r.hello.extensions.ems;                                    \
        told.others = r.hello.extensions.others;                              \
        told.read = r.refusal.number == AXLE_DONE;                            \
    } while (0)

static void ours(void) { TELL(AxleClientReading, axle_read_client_hello); }
static void tls_parser(void) { tls_parser_read(message, length, &told); }
static void rustls(void) { rustls_read(message, length, &told); }

#ifdef BEFORE
#include "before.h"
static void before(void) { TELL(before_AxleClientReading, before_axle_read_client_hello); }
#endif

static const contestant all[] = {
    {"this library", ours},
    {"tls-parser", tls_parser},
    {"rustls", rustls},
#ifdef BEFORE
    {"before", before},
#endif
};

static uint8_t *two_bytes(uint8_t *p, size_t value)
{
    *p++ = (uint8_t)(value >> 8);
    *p++ = (uint8_t)value;
    return p;
}

static uint8_t *extension(uint8_t *p, size_t type, size_t size)
{
    p = two_bytes(two_bytes(p, type), size);
    memset(p, 0, size);
    return p + size;
}

/* A ClientHello with that identifier and so many suites; the first extension is renegotiation_info, the second
 * extended_master_secret, the others are of types that nobody knows, with so many bytes in each. */
static void hello(size_t identifier, size_t suites, size_t extensions, size_t size)
{
    uint8_t *p = message + 4, *block;
    p = two_bytes(p, 0x0303);
    for (uint8_t i = 0; i < 32; i++)
        *p++ = i;
    *p++ = (uint8_t)identifier;
    memset(p, 7, identifier);
    p = two_bytes(p + identifier, 2 * suites);
    memset(p, 0xc0, 2 * suites);
    p += 2 * suites;
    *p++ = 1;
    *p++ = 0;
    block = p;
    p += 2;
    for (size_t i = 0; i < extensions; i++)
        p = i == 0 ? extension(p, 0xff01, 1) : i == 1 ? extension(p, 23, 0) : extension(p, 0x1000 + i, size);
    two_bytes(block, (size_t)(p - block) - 2);
    length = (size_t)(p - message);
    message[0] = 1;
    message[1] = 0;
    two_bytes(message + 2, length - 4);
}

static void asked(const char *title, long size)
{
    agreed(title, all, COUNT(all), (answer){&told, sizeof told});
    if (!told.read) {
        fprintf(stderr, "bench: %s, %ld: the hello does not read\n", title, size);
        exit(1);
    }
    side_by_side(title, size, all, COUNT(all));
}

/* ---- Writing ---------------------------------------------------------------------------------------------------- */

typedef struct rustls_hello rustls_hello;
rustls_hello *rustls_hold(const uint8_t *message, size_t length);
size_t rustls_write(const rustls_hello *hello, uint8_t *out, size_t room);

/* The fields of the message above, the list as our writer takes it. */
enum { MOST = 4085 };
static AxleClientHello fields;
static uint16_t types[MOST], lengths[MOST];
static uint8_t data[AXLE_MESSAGE_MAX], out[AXLE_MESSAGE_MAX];
static size_t count, data_length, written;
static rustls_hello *held;

static void taken_apart(void)
{
    fields = axle_read_client_hello(message, length).hello;
    count = data_length = 0;
    AxleExtension e = axle_next_extension(message, length, fields.extensions.list.at);
    for (; e.found; e = axle_next_extension(message, length, e.next)) {
        types[count] = e.type;
        lengths[count++] = (uint16_t)e.data.length;
        memcpy(data + data_length, message + e.data.at, e.data.length);
        data_length += e.data.length;
    }
    held = rustls_hold(message, length);
}

static void ours_writes(void)
{
    written = axle_write_client_hello(fields.version, message + fields.random.at, fields.random.length, message + fields.identifier.at,
                                      fields.identifier.length, message + fields.suites.at, fields.suites.length,
                                      message + fields.methods.at, fields.methods.length, fields.extensions.block, types, count,
                                      lengths, count, data, data_length, out, sizeof out)
                  .length;
}

static uint8_t *put(uint8_t *p, AxlePart part)
{
    memcpy(p, message + part.at, part.length);
    return p + part.length;
}

/* Without a look at shapes, repeats or the version. */
static void by_hand(void)
{
    const uint8_t *from = data;
    uint8_t *p = out;
    size_t size = 42 + fields.identifier.length + fields.suites.length + fields.methods.length + 2 + 4 * count + data_length;
    if (size > sizeof out)
        return;
    *p++ = 1;
    *p++ = 0;
    p = two_bytes(p, size - 4);
    p = put(two_bytes(p, fields.version), fields.random);
    *p++ = (uint8_t)fields.identifier.length;
    p = put(p, fields.identifier);
    p = put(two_bytes(p, fields.suites.length), fields.suites);
    *p++ = (uint8_t)fields.methods.length;
    p = put(p, fields.methods);
    p = two_bytes(p, 4 * count + data_length);
    for (size_t i = 0; i < count; i++) {
        p = two_bytes(two_bytes(p, types[i]), lengths[i]);
        memcpy(p, from, lengths[i]);
        p += lengths[i];
        from += lengths[i];
    }
    written = size;
}

static void rustls_writes(void) { written = rustls_write(held, out, sizeof out); }

static const contestant writers[] = {{"this library", ours_writes}, {"rustls", rustls_writes}, {"by hand", by_hand}};

/* Everybody writes the very message. */
static void writing(void)
{
    taken_apart();
    agreed("writing a ClientHello", writers, COUNT(writers), (answer){out, length});
    ours_writes();
    if (written != length || memcmp(out, message, length) != 0) {
        fprintf(stderr, "bench: the hello of %zu bytes is not written\n", length);
        exit(1);
    }
    side_by_side("writing a ClientHello", (long)length, writers, COUNT(writers));
}

int main(void)
{
    static const size_t numbers[] = {1, 10, 100, 500, 1000, 2000, MOST};
    hello(32, 31, 10, 15);
    asked("reading a ClientHello", (long)length);
    writing();
    for (int k = 0; k < COUNT(numbers); k++) {
        hello(0, 1, numbers[k], 0);
        asked("reading by extensions", (long)numbers[k]);
    }
    writing();
    return 0;
}
