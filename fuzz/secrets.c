/* One call of the library with set 6, for valgrind (scripts/secret-branches).
 *
 * secrets prepare CALL PART SEED FILE: writes inputs of a call that is done; they differ between seeds in the part named alone, for open and
 *   unwrap in the whole key and ciphertext.
 * secrets run CALL PART FILE: reads them, tells valgrind that the part is undefined, and makes the call.
 *
 * Parts: of setup's random bytes multipliers, blocks, columns, first-list, second-list; of sealing message, pad-seed, places; of the private
 * key first-list, second-list, pairs, multipliers. Every one may be followed by -refused where the call is open or unwrap: one place of the
 * ciphertext is changed. */
#include <stdint.h>
#include <stdio.h>
#include <stdlib.h>
#include <string.h>
#include <valgrind/memcheck.h>

uint16_t stanquivol_setup(uint8_t set, const uint8_t *random, size_t, uint8_t *public_key, size_t, uint8_t *private_key, size_t,
                          uint16_t *work, size_t);
uint16_t stanquivol_seal(const uint8_t *public_key, size_t, const uint8_t *random, size_t, const uint8_t *message, size_t,
                         uint8_t *cipher, size_t, uint16_t *work, size_t);
uint16_t stanquivol_open(const uint8_t *private_key, size_t, const uint8_t *cipher, size_t, uint8_t *message, size_t,
                         uint16_t *work, size_t);
uint16_t stanquivol_wrap(const uint8_t *public_key, size_t, const uint8_t *random, size_t, const uint8_t *secret, size_t,
                         uint8_t *cipher, size_t, uint16_t *work, size_t);
uint16_t stanquivol_unwrap(const uint8_t *private_key, size_t, const uint8_t *cipher, size_t, uint8_t *secret, size_t,
                           uint16_t *work, size_t);

enum { N = 40, K = 20, T = 10, W = 5, ALL = N + W, RANDOM = 402, PUBLIC = 626, PRIVATE = 859, CIPHER = 57, MESSAGE = 30, SECRET = 16,
       BLOCK = 24, WORK = 7200, ELEMENTS = N + (4 + K) * W + 25 };

static uint8_t random_bytes[RANDOM], public_key[PUBLIC], private_key[PRIVATE], cipher[CIPHER], message[MESSAGE], block[BLOCK];
static uint16_t work[WORK];

struct inputs {
    uint8_t random[RANDOM], public_key[PUBLIC], private_key[PRIVATE], cipher[CIPHER], message[MESSAGE], block[BLOCK];
};

/* a part of an input: bits from `first` on */
struct part {
    const char *call, *name;
    size_t first, bits;
};
enum { LISTS = (10 * ELEMENTS + 7) / 8 * 8, KEY_LISTS = 8 * (1 + 2 * N + 2 * ALL) };
static const struct part PARTS[] = {
    {"setup", "multipliers", 0, 10 * (N + 5)},
    {"setup", "blocks", 10 * (N + 5), 10 * (4 * W + 20)},
    {"setup", "columns", 10 * (N + 4 * W + 25), 10 * K * W},
    {"setup", "first-list", LISTS, 16 * (N - 1)},
    {"setup", "second-list", LISTS + 16 * (N - 1), 8 * RANDOM - LISTS - 16 * (N - 1)},
    {"seal", "message", 0, 8 * MESSAGE},
    {"seal", "pad-seed", 0, 8 * 4},
    {"seal", "places", 8 * 4, 16 * T},
    {"wrap", "message", 0, 8 * SECRET},
    {"wrap", "pad-seed", 0, 8 * 4},
    {"wrap", "places", 8 * 4, 16 * T},
    {"open", "first-list", 8, 16 * N},
    {"open", "second-list", 8 + 16 * N, 16 * ALL},
    {"open", "pairs", KEY_LISTS, 20 * W},
    {"open", "multipliers", KEY_LISTS + 20 * W, 10 * N},
};

static const struct part *part_of(const char *call, const char *name)
{
    size_t length = strlen(name);
    if (length > 8 && strcmp(name + length - 8, "-refused") == 0) length -= 8;
    if (strcmp(call, "unwrap") == 0) call = "open";
    for (size_t i = 0; i < sizeof PARTS / sizeof *PARTS; i++)
        if (strcmp(PARTS[i].call, call) == 0 && strlen(PARTS[i].name) == length && strncmp(PARTS[i].name, name, length) == 0) return &PARTS[i];
    fprintf(stderr, "secrets: no part %s of %s\n", name, call);
    exit(2);
}

static int is(const char *a, const char *b) { return strcmp(a, b) == 0; }

static uint64_t state;
static uint8_t next(void)
{
    state = state * 6364136223846793005u + 1442695040888963407u;
    return (uint8_t)(state >> 56);
}

static void fill(uint8_t *p, size_t n)
{
    for (size_t i = 0; i < n; i++) p[i] = next();
}

static void change(uint8_t *p, const struct part *part)
{
    for (size_t i = part->first; i < part->first + part->bits; i++) {
        uint8_t bit = (uint8_t)(128u >> i % 8);
        p[i / 8] = (uint8_t)((p[i / 8] & ~bit) | (next() & 1 ? bit : 0));
    }
}

static uint16_t do_setup(void)
{
    return stanquivol_setup(0x16, random_bytes, RANDOM, public_key, PUBLIC, private_key, PRIVATE, work, WORK);
}

static uint16_t do_call(const char *call)
{
    if (is(call, "setup")) return do_setup();
    if (is(call, "seal")) return stanquivol_seal(public_key, PUBLIC, block, BLOCK, message, MESSAGE, cipher, CIPHER, work, WORK);
    if (is(call, "wrap")) return stanquivol_wrap(public_key, PUBLIC, block, BLOCK, message, SECRET, cipher, CIPHER, work, WORK);
    if (is(call, "open")) return stanquivol_open(private_key, PRIVATE, cipher, CIPHER, message, MESSAGE, work, WORK);
    if (is(call, "unwrap")) return stanquivol_unwrap(private_key, PRIVATE, cipher, CIPHER, message, SECRET, work, WORK);
    fprintf(stderr, "secrets: no call %s\n", call);
    exit(2);
}

static void prepare(const char *call, const char *name, unsigned seed, const char *file)
{
    const struct part *part = part_of(call, name);
    int opening = is(call, "open") || is(call, "unwrap");
    state = opening ? seed : 0;
    do fill(random_bytes, RANDOM);
    while (do_setup() != 256);
    do {
        fill(block, BLOCK);
        fill(message, MESSAGE);
    } while (do_call(is(call, "unwrap") ? "wrap" : "seal") != 0);
    static uint8_t kept[RANDOM];
    memcpy(kept, random_bytes, RANDOM);
    state = 77 + seed;
    if (is(call, "setup"))
        do change(memcpy(random_bytes, kept, RANDOM), part);
        while (do_setup() != 256);
    else if (!opening)
        do change(is(part->name, "message") ? message : block, part);
        while (do_call(call) != 0);
    if (strstr(name, "-refused")) cipher[seed % 50] ^= 16;
    static struct inputs all;
    memcpy(all.random, random_bytes, RANDOM);
    memcpy(all.public_key, public_key, PUBLIC);
    memcpy(all.private_key, private_key, PRIVATE);
    memcpy(all.cipher, cipher, CIPHER);
    memcpy(all.message, message, MESSAGE);
    memcpy(all.block, block, BLOCK);
    FILE *out = fopen(file, "wb");
    if (!out || fwrite(&all, sizeof all, 1, out) != 1 || fclose(out) != 0) exit(2);
}

static void run(const char *call, const char *name, const char *file)
{
    const struct part *part = part_of(call, name);
    static struct inputs all;
    FILE *in = fopen(file, "rb");
    if (!in || fread(&all, sizeof all, 1, in) != 1) exit(2);
    fclose(in);
    memcpy(random_bytes, all.random, RANDOM);
    memcpy(block, all.block, BLOCK);
    if (!is(call, "setup")) {
        memcpy(public_key, all.public_key, PUBLIC);
        memcpy(private_key, all.private_key, PRIVATE);
    }
    if (is(call, "seal") || is(call, "wrap")) memcpy(message, all.message, MESSAGE);
    else memcpy(cipher, all.cipher, CIPHER);
    uint8_t *whole = is(call, "setup") ? random_bytes : is(part->name, "message") ? message : is(call, "seal") || is(call, "wrap") ? block : private_key;
    static uint8_t bits[PRIVATE];
    for (size_t i = part->first; i < part->first + part->bits; i++) bits[i / 8] |= (uint8_t)(128u >> i % 8);
    (void)VALGRIND_SET_VBITS(whole, bits, (part->first + part->bits + 7) / 8);
    uint16_t answer = do_call(call);
    VALGRIND_MAKE_MEM_DEFINED(&answer, sizeof answer);
    int right = is(call, "setup") ? answer == 256 : strstr(name, "-refused") ? answer == 10 : answer == 0;
    printf("%s\n", right ? "done" : "another answer than expected");
}

int main(int argc, char **argv)
{
    if (argc == 6 && is(argv[1], "prepare")) prepare(argv[2], argv[3], (unsigned)atoi(argv[4]), argv[5]);
    else if (argc == 5 && is(argv[1], "run")) run(argv[2], argv[3], argv[4]);
    else return 2;
    return 0;
}
