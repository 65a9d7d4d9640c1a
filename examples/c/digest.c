/* The SHA-512 of standard input, and a mask made of it, through the C interface. */
#include <stdio.h>
#include "stanquivol.h"

static uint8_t text[65536];

int main(void) {
    size_t length = fread(text, 1, sizeof text, stdin);
    uint8_t digest[STANQUIVOL_DIGEST_BYTES], mask[16];
    if (stanquivol_sha512(text, length, digest, sizeof digest) != STANQUIVOL_DONE) return 1;
    if (stanquivol_mask(digest, sizeof digest, mask, sizeof mask) != STANQUIVOL_DONE) return 1;
    for (size_t i = 0; i < sizeof digest; i++) printf("%02x", digest[i]);
    printf("\n");
    for (size_t i = 0; i < sizeof mask; i++) printf("%02x", mask[i]);
    printf("\n");
    return 0;
}
