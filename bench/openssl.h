/* What OpenSSL is called in the figures: whether it uses the processor's SHA instructions here. For SHA-256 it does so for every
 * length where the processor has them and OPENSSL_ia32cap does not mask them; for SHA-384 it knows of none. */
#ifndef BENCH_OPENSSL_H
#define BENCH_OPENSSL_H

#include <openssl/crypto.h>
#include <stdio.h>
#include <stdlib.h>
#include <string.h>

#define OPENSSL_WITHOUT "OpenSSL, no SHA instructions"

static const char *openssl_name(void)
{
    const char *said = OPENSSL_info(OPENSSL_INFO_CPU_SETTINGS); /* OPENSSL_ia32cap=0x..:0x.. */
    const char *second = said ? strchr(said, ':') : NULL;
    if (second == NULL) {
        fprintf(stderr, "bench: OpenSSL does not say which instructions it uses\n");
        exit(1);
    }
    return strtoull(second + 1, NULL, 16) >> 29 & 1 ? "OpenSSL, SHA instructions" : OPENSSL_WITHOUT;
}

#endif
