/* sha256 FILE: the digest of a file, taken in pieces through the proved library, as sha256sum prints it. A read or a write that
 * fails is said on standard error, and the status is then 1. */
#include "axle_gateway.h"

#include <stdio.h>

static int failed(const char *what)
{
    perror(what);
    return 1;
}

int main(int argc, char **argv)
{
    if (argc != 2) {
        fprintf(stderr, "usage: %s FILE\n", argv[0]);
        return 2;
    }
    FILE *file = fopen(argv[1], "rb");
    if (file == NULL)
        return failed(argv[1]);
    AxleHash hash = axle_hash_fresh();
    uint8_t piece[4096];
    size_t got;
    while ((got = fread(piece, 1, sizeof piece, file)) > 0) {
        AxleAbsorbed taken = axle_hash_absorb(hash, piece, got);
        if (taken.refusal.number != AXLE_DONE) {
            fprintf(stderr, "%s: refused with %d\n", argv[1], taken.refusal.number);
            return 1;
        }
        hash = taken.hash;
    }
    if (ferror(file)) /* a short count is the end of the file, or a read that failed */
        return failed(argv[1]);
    fclose(file);
    AxleDigest digest = axle_hash_digest(hash);
    for (int i = 0; i < 32; i++)
        printf("%02x", digest.bytes[i]);
    printf("  %s\n", argv[1]);
    if (fflush(stdout) != 0 || ferror(stdout)) /* what was printed is written out here */
        return failed("standard output");
    return 0;
}
