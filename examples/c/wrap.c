/* A switch wraps a batch secret under the collector's public key; the collector unwraps it at night. */
#include <stdio.h>
#include <string.h>
#include <sys/random.h>
#include "stanquivol.h"

#define WORK STANQUIVOL_SET1_WORK_NUMBERS

/* Keys and the work area are large: they do not belong on the stack. */
static uint8_t public_key[STANQUIVOL_SET1_PUBLIC_BYTES], private_key[STANQUIVOL_SET1_PRIVATE_BYTES];
static uint8_t random_bytes[STANQUIVOL_SET1_SETUP_BYTES];
static uint16_t work[WORK];

/* Fills a buffer from the system's generator; getrandom may give less than asked for. */
static int fill(uint8_t *bytes, size_t length) {
    while (length > 0) {
        ssize_t got = getrandom(bytes, length, 0);
        if (got < 0) return 0;
        bytes += got;
        length -= (size_t)got;
    }
    return 1;
}

/* Overwrites a buffer with zeros; the compiler may not leave this out. */
static void wipe(uint8_t *bytes, size_t length) {
    volatile uint8_t *place = bytes;
    while (length-- > 0) *place++ = 0;
}

/* The collector makes its key pair. About one setup in a thousand asks for other random bytes. */
static int set_up(void) {
    uint16_t said;
    do {
        if (!fill(random_bytes, sizeof random_bytes)) return 0;
        said = stanquivol_setup(STANQUIVOL_SET1, random_bytes, sizeof random_bytes, public_key, sizeof public_key,
                                private_key, sizeof private_key, work, WORK);
    } while (STANQUIVOL_ANSWER(said) >= STANQUIVOL_FEW_MULTIPLIERS);
    wipe(random_bytes, sizeof random_bytes);
    return STANQUIVOL_ANSWER(said) == STANQUIVOL_DONE;
}

int main(void) {
    uint8_t secret[32], cipher[STANQUIVOL_SET1_CIPHER_BYTES], got[32];
    uint8_t blocks[STANQUIVOL_BLOCKS_MOST * STANQUIVOL_SET1_BLOCK_BYTES];
    uint16_t said;
    if (!set_up()) return 1;

    /* the switch */
    if (!fill(secret, sizeof secret) || !fill(blocks, sizeof blocks)) return 1;
    said = stanquivol_wrap(public_key, sizeof public_key, blocks, sizeof blocks, secret, sizeof secret, cipher,
                           sizeof cipher, work, WORK);
    wipe(blocks, sizeof blocks);
    if (STANQUIVOL_ANSWER(said) != STANQUIVOL_DONE) return 1;
    printf("a secret of %zu bytes is wrapped in %zu bytes\n", sizeof secret, sizeof cipher);

    /* the collector */
    said = stanquivol_unwrap(private_key, sizeof private_key, cipher, sizeof cipher, got, sizeof got, work, WORK);
    if (STANQUIVOL_ANSWER(said) != STANQUIVOL_DONE) return 1;
    printf("unwrapped: %s\n", memcmp(got, secret, sizeof got) == 0 ? "the same secret" : "another secret");

    /* a ciphertext with a flipped bit is refused, and leaves nothing behind */
    cipher[100] ^= 1;
    said = stanquivol_unwrap(private_key, sizeof private_key, cipher, sizeof cipher, got, sizeof got, work, WORK);
    printf("damaged: refused %d\n", STANQUIVOL_ANSWER(said));

    wipe(private_key, sizeof private_key);
    wipe(secret, sizeof secret);
    wipe(got, sizeof got);
    return 0;
}
