/* The edges of the C interface that a caller in another language cannot try: null pointers with no elements, in every call. */
#include <stdio.h>
#include "stanquivol.h"

static int faults;

static void expect(const char *what, uint16_t said, uint16_t right) {
    if (said == right) return;
    printf("%s: %u, expected %u\n", what, said, right);
    faults++;
}

int main(void) {
    uint8_t digest[STANQUIVOL_DIGEST_BYTES] = {0}, unknown[1] = {0x26}, known[1] = {STANQUIVOL_SET6};
    uint16_t one[1] = {7};

    expect("setup", stanquivol_setup(STANQUIVOL_SET6, NULL, 0, NULL, 0, NULL, 0, NULL, 0), STANQUIVOL_WRONG_LENGTH);
    expect("setup of no set", stanquivol_setup(0x26, NULL, 0, NULL, 0, NULL, 0, NULL, 0), STANQUIVOL_UNKNOWN_SET);
    expect("seal", stanquivol_seal(NULL, 0, NULL, 0, NULL, 0, NULL, 0, NULL, 0), STANQUIVOL_WRONG_LENGTH);
    expect("wrap", stanquivol_wrap(NULL, 0, NULL, 0, NULL, 0, NULL, 0, NULL, 0), STANQUIVOL_WRONG_LENGTH);
    expect("open", stanquivol_open(NULL, 0, NULL, 0, NULL, 0, NULL, 0), STANQUIVOL_WRONG_LENGTH);
    expect("unwrap", stanquivol_unwrap(NULL, 0, NULL, 0, NULL, 0, NULL, 0), STANQUIVOL_WRONG_LENGTH);
    expect("seal, no set", stanquivol_seal(unknown, 1, NULL, 0, NULL, 0, NULL, 0, NULL, 0), STANQUIVOL_UNKNOWN_SET);
    expect("wrap, no set", stanquivol_wrap(unknown, 1, NULL, 0, NULL, 0, NULL, 0, NULL, 0), STANQUIVOL_UNKNOWN_SET);
    expect("open, no set", stanquivol_open(unknown, 1, NULL, 0, NULL, 0, NULL, 0), STANQUIVOL_UNKNOWN_SET);
    expect("unwrap, no set", stanquivol_unwrap(unknown, 1, NULL, 0, NULL, 0, NULL, 0), STANQUIVOL_UNKNOWN_SET);
    expect("unwrap, a short key", stanquivol_unwrap(known, 1, NULL, 0, NULL, 0, NULL, 0), STANQUIVOL_WRONG_LENGTH);

    expect("unpack nothing", stanquivol_unpack(NULL, 0, NULL, 0), STANQUIVOL_DONE);
    expect("pack nothing", stanquivol_pack(NULL, 0, NULL, 0), STANQUIVOL_DONE);
    expect("shuffle by nothing", stanquivol_shuffle(NULL, 0, one, 1), STANQUIVOL_DONE);
    expect("shuffle nothing", stanquivol_shuffle(NULL, 0, NULL, 0), STANQUIVOL_WRONG_LENGTH);
    expect("invert nothing", stanquivol_invert(NULL, 0, NULL, 0), STANQUIVOL_DONE);
    expect("mask nothing", stanquivol_mask(NULL, 0, NULL, 0), STANQUIVOL_DONE);
    expect("digest of nothing", stanquivol_sha512(NULL, 0, digest, sizeof digest), STANQUIVOL_DONE);
    expect("digest to nothing", stanquivol_sha512(NULL, 0, NULL, 0), STANQUIVOL_WRONG_LENGTH);
    if (one[0] != 0 || digest[0] != 0xCF || digest[1] != 0x83) expect("what was written", 1, 0);

    expect("an answer", STANQUIVOL_ANSWER(256 * 3 + 0), STANQUIVOL_DONE);
    expect("a count", STANQUIVOL_COUNT(256 * 3 + 0), 3);
    puts(faults == 0 ? "no fault" : "faults");
    return faults != 0;
}
