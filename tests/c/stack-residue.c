/* What the calls leave on the stack that they ran on: nothing of a secret, a message, a private key or random bytes.
 *
 * Each call runs in a thread on a stack of its own, which is zero before. Afterwards every eight bytes of it, at any
 * alignment, are compared with every eight bytes in a row of what is secret: as they stand, turned round (as a load of a
 * number with its high byte first has them), and each byte in a 16-bit number. Prints 'nothing left', or what is left. */
#define _GNU_SOURCE
#include <pthread.h>
#include <stdint.h>
#include <stdio.h>
#include <stdlib.h>
#include <string.h>
#include <sys/mman.h>
#include "stanquivol.h"

enum { STACK = 1 << 20, SLOTS = 1 << 20, MOST = STANQUIVOL_SET1_WORK_NUMBERS };

static uint8_t *stack;
static uint16_t work[MOST];
static uint8_t public_key[STANQUIVOL_SET1_PUBLIC_BYTES], private_key[STANQUIVOL_SET1_PRIVATE_BYTES];
static uint8_t setup_bytes[STANQUIVOL_SET1_SETUP_BYTES], block_bytes[16 * STANQUIVOL_SET1_BLOCK_BYTES];
static uint8_t message[504], opened[504], secret[32], unwrapped[32], cipher[STANQUIVOL_SET1_CIPHER_BYTES];

/* The lengths of the set in use. */
static size_t n_public, n_private, n_setup, n_block, n_message, n_cipher, n_work, n_secret;
static uint8_t set;
static uint16_t said;
static int faults;

static uint64_t state;

static void draw(uint8_t *to, size_t len) {
    for (size_t i = 0; i < len; i++) {
        state = state * 6364136223846793005u + 1442695040888963407u;
        to[i] = (uint8_t)(state >> 56);
    }
}

/* A set of windows of eight bytes. */
static uint64_t windows[SLOTS];

static uint64_t *slot(uint64_t x) {
    size_t i = (size_t)((x * 0x9e3779b97f4a7c15u) >> 44);
    while (windows[i % SLOTS] && windows[i % SLOTS] != x) i++;
    return &windows[i % SLOTS];
}

/* Whether chance and small numbers do not give these bytes: at least five of them differ from the others. */
static int telling(const uint8_t *b) {
    int kinds = 0;
    for (int i = 0; i < 8; i++) {
        int new = 1;
        for (int j = 0; j < i; j++) new &= b[i] != b[j];
        kinds += new;
    }
    return kinds >= 5;
}

static void put(const uint8_t *b, int in) {
    uint64_t x;
    memcpy(&x, b, 8);
    if (telling(b)) *slot(x) = in ? x : *slot(x) ? UINT64_MAX : 0;
}

/* The windows of a string; where it is not secret, they are taken out. */
static void windows_of(const uint8_t *s, size_t len, int in) {
    for (size_t i = 0; i + 8 <= len; i++) {
        uint8_t turned[8];
        for (int j = 0; j < 8; j++) turned[j] = s[i + 7 - (size_t)j];
        put(s + i, in);
        put(turned, in);
    }
}

static void look(const char *call, const char *what, const uint8_t *s, size_t len, const uint8_t *not_secret, size_t not_len) {
    size_t found = 0, deepest = 0;
    memset(windows, 0, sizeof windows);
    windows_of(s, len, 1);
    if (not_len) windows_of(not_secret, not_len, 0);
    for (size_t i = 0; i + 8 <= STACK; i++) {
        uint64_t x;
        memcpy(&x, stack + i, 8);
        if (x && x != UINT64_MAX && *slot(x) == x) {
            found++;
            if (STACK - i > deepest) deepest = STACK - i;
        }
    }
    for (size_t i = 0; i + 8 <= len && len <= 4096; i += 8) {
        uint16_t wide[8];
        for (size_t j = 0; j < 8; j++) wide[j] = s[i + j];
        if (telling(s + i) && memmem(stack, STACK, wide, sizeof wide)) found++;
    }
    if (found) {
        printf("set %u: %s leaves %zu windows of %s, down to %zu bytes below the top\n", set == STANQUIVOL_SET1 ? 1 : 6, call, found, what, deepest);
        faults++;
    }
}

static void *do_nothing(void *p) { return p; }

static void *do_setup(void *p) {
    said = stanquivol_setup(set, setup_bytes, n_setup, public_key, n_public, private_key, n_private, work, n_work);
    return p;
}

static void *do_seal(void *p) {
    said = stanquivol_seal(public_key, n_public, block_bytes, n_block, message, n_message, cipher, n_cipher, work, n_work);
    return p;
}

static void *do_open(void *p) {
    said = stanquivol_open(private_key, n_private, cipher, n_cipher, opened, n_message, work, n_work);
    return p;
}

static void *do_wrap(void *p) {
    said = stanquivol_wrap(public_key, n_public, block_bytes, n_block, secret, n_secret, cipher, n_cipher, work, n_work);
    return p;
}

static void *do_unwrap(void *p) {
    said = stanquivol_unwrap(private_key, n_private, cipher, n_cipher, unwrapped, n_secret, work, n_work);
    return p;
}

/* A call on the zeroed stack; its answer number. */
static int on_stack(void *(*call)(void *)) {
    pthread_attr_t attr;
    pthread_t thread;
    memset(stack, 0, STACK);
    if (pthread_attr_init(&attr) || pthread_attr_setstack(&attr, stack, STACK) || pthread_create(&thread, &attr, call, NULL) || pthread_join(thread, NULL)) {
        puts("no thread");
        exit(1);
    }
    pthread_attr_destroy(&attr);
    return STANQUIVOL_ANSWER(said);
}

static void expect(const char *call, int answer) {
    if (answer != STANQUIVOL_DONE) {
        printf("set %u: %s is refused: %d\n", set == STANQUIVOL_SET1 ? 1 : 6, call, answer);
        exit(1);
    }
}

/* The private key beyond the set byte, where it is not public. */
static void look_for_key(const char *call) { look(call, "the private key", private_key + 1, n_private - 1, public_key, n_public); }

static void turn(void) {
    int answer;
    do {
        draw(setup_bytes, n_setup);
        answer = on_stack(do_setup);
        look("setup", "its random bytes", setup_bytes, n_setup, NULL, 0);
    } while (answer == STANQUIVOL_DEPENDENT || answer == STANQUIVOL_NO_WINDOW);
    expect("setup", answer);
    look_for_key("setup");

    draw(message, n_message);
    draw(block_bytes, n_block);
    expect("seal", on_stack(do_seal));
    look("seal", "the message", message, n_message, NULL, 0);
    look("seal", "its random bytes", block_bytes, n_block, NULL, 0);
    expect("open", on_stack(do_open));
    if (memcmp(opened, message, n_message)) { puts("another message"); exit(1); }
    look("open", "the message", message, n_message, NULL, 0);
    look("open", "the random bytes of the sealing", block_bytes, n_block, NULL, 0);
    look_for_key("open");

    draw(secret, n_secret);
    draw(block_bytes, n_block);
    expect("wrap", on_stack(do_wrap));
    look("wrap", "the secret", secret, n_secret, NULL, 0);
    look("wrap", "its random bytes", block_bytes, n_block, NULL, 0);
    expect("unwrap", on_stack(do_unwrap));
    if (memcmp(unwrapped, secret, n_secret)) { puts("another secret"); exit(1); }
    look("unwrap", "the secret", secret, n_secret, NULL, 0);
    look("unwrap", "the random bytes of the wrapping", block_bytes, n_block, NULL, 0);
    look_for_key("unwrap");

    /* a refusal past the first checks leaves as little */
    cipher[3] ^= 0x55;
    if (on_stack(do_open) != STANQUIVOL_NOT_OPENED) { puts("a damaged ciphertext opens"); exit(1); }
    look("open", "the secret of a damaged ciphertext", secret, n_secret, NULL, 0);
    look_for_key("open (refused)");
}

int main(void) {
    stack = mmap(NULL, STACK, PROT_READ | PROT_WRITE, MAP_PRIVATE | MAP_ANONYMOUS, -1, 0);
    if (stack == MAP_FAILED) return 1;
    on_stack(do_nothing);
    state = 20;
    set = STANQUIVOL_SET6;
    n_public = STANQUIVOL_SET6_PUBLIC_BYTES;
    n_private = STANQUIVOL_SET6_PRIVATE_BYTES;
    n_setup = STANQUIVOL_SET6_SETUP_BYTES;
    n_block = 16 * STANQUIVOL_SET6_BLOCK_BYTES;
    n_message = STANQUIVOL_SET6_MESSAGE_BYTES;
    n_cipher = STANQUIVOL_SET6_CIPHER_BYTES;
    n_work = STANQUIVOL_SET6_WORK_NUMBERS;
    n_secret = 24;
    for (int i = 0; i < 5; i++) turn();
    set = STANQUIVOL_SET1;
    n_public = STANQUIVOL_SET1_PUBLIC_BYTES;
    n_private = STANQUIVOL_SET1_PRIVATE_BYTES;
    n_setup = STANQUIVOL_SET1_SETUP_BYTES;
    n_block = 16 * STANQUIVOL_SET1_BLOCK_BYTES;
    n_message = STANQUIVOL_SET1_MESSAGE_BYTES;
    n_cipher = STANQUIVOL_SET1_CIPHER_BYTES;
    n_work = STANQUIVOL_SET1_WORK_NUMBERS;
    n_secret = 32;
    turn();
    if (faults) return 1;
    puts("nothing left");
    return 0;
}
