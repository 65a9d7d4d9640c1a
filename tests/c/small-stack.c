/* What the calls need of a stack: each answers on a thread of 16384 bytes, the least that a thread may have, of which starting
 * it takes some 4500.
 *
 * Each call of each set runs in a process of its own, in a thread whose stack lies between pages without access. Before, each
 * has run once on the usual stack, so that the C library's functions that it calls are bound. Prints the calls that fail, or that
 * none does. */
#define _GNU_SOURCE
#include <pthread.h>
#include <stdint.h>
#include <stdio.h>
#include <stdlib.h>
#include <sys/mman.h>
#include <sys/wait.h>
#include <unistd.h>
#include "stanquivol.h"

enum { AROUND = 65536 };

/* The least stack that a thread may have: 16384 bytes, more where the system says so. */
static size_t least;

static uint16_t work[STANQUIVOL_SET1_WORK_NUMBERS];
static uint8_t public_key[STANQUIVOL_SET1_PUBLIC_BYTES], private_key[STANQUIVOL_SET1_PRIVATE_BYTES];
static uint8_t setup_bytes[STANQUIVOL_SET1_SETUP_BYTES], block_bytes[STANQUIVOL_SET1_BLOCK_BYTES * STANQUIVOL_BLOCKS_MOST];
static uint8_t message[STANQUIVOL_SET1_MESSAGE_BYTES], secret[16], cipher[STANQUIVOL_SET1_CIPHER_BYTES];

/* The lengths of the set in use. */
static size_t n_public, n_private, n_setup, n_block, n_message, n_cipher, n_work;
static uint8_t set;
static uint16_t said;

static void *do_setup(void *p) {
    said = stanquivol_setup(set, setup_bytes, n_setup, public_key, n_public, private_key, n_private, work, n_work);
    return p;
}

static void *do_seal(void *p) {
    said = stanquivol_seal(public_key, n_public, block_bytes, n_block, message, n_message, cipher, n_cipher, work, n_work);
    return p;
}

static void *do_open(void *p) {
    said = stanquivol_open(private_key, n_private, cipher, n_cipher, message, n_message, work, n_work);
    return p;
}

static void *do_wrap(void *p) {
    said = stanquivol_wrap(public_key, n_public, block_bytes, n_block, secret, sizeof secret, cipher, n_cipher, work, n_work);
    return p;
}

static void *do_unwrap(void *p) {
    said = stanquivol_unwrap(private_key, n_private, cipher, n_cipher, secret, sizeof secret, work, n_work);
    return p;
}

static const struct {
    const char *name;
    void *(*run)(void *);
} calls[] = {{"setup", do_setup}, {"seal", do_seal}, {"open", do_open}, {"wrap", do_wrap}, {"unwrap", do_unwrap}};

enum { CALLS = sizeof calls / sizeof *calls };

/* The call on a thread of its own; 0 if it is done. */
static int on_thread(void *(*call)(void *)) {
    pthread_attr_t attr;
    pthread_t thread;
    uint8_t *room = mmap(NULL, AROUND + least + AROUND, PROT_NONE, MAP_PRIVATE | MAP_ANONYMOUS, -1, 0);
    said = STANQUIVOL_NOT_OPENED;
    if (room == MAP_FAILED || mprotect(room + AROUND, least, PROT_READ | PROT_WRITE) || pthread_attr_init(&attr) ||
        pthread_attr_setstack(&attr, room + AROUND, least) || pthread_create(&thread, &attr, call, NULL) || pthread_join(thread, NULL))
        return 1;
    return STANQUIVOL_ANSWER(said) != STANQUIVOL_DONE;
}

/* The number of calls that fail, of those of the set in use. */
static int turn(void) {
    uint32_t state = 7;
    int faults = 0;
    do {
        for (size_t i = 0; i < n_setup; i++) setup_bytes[i] = (uint8_t)((state = state * 1664525 + 1013904223) >> 24);
        do_setup(NULL);
    } while (STANQUIVOL_ANSWER(said) == STANQUIVOL_DEPENDENT || STANQUIVOL_ANSWER(said) == STANQUIVOL_NO_WINDOW);
    for (size_t i = 0; i < n_block; i++) block_bytes[i] = (uint8_t)((state = state * 1664525 + 1013904223) >> 24);
    for (size_t i = 0; i < CALLS; i++) {
        int status = 0;
        pid_t child;
        calls[i].run(NULL);
        child = fork();
        if (child == 0) _exit(on_thread(calls[i].run));
        if (child < 0 || waitpid(child, &status, 0) != child || status != 0) {
            printf("set %d: %s fails on a stack of %d bytes\n", set == STANQUIVOL_SET1 ? 1 : 6, calls[i].name, (int)least);
            faults++;
        }
    }
    return faults;
}

int main(void) {
    long said_least = sysconf(_SC_THREAD_STACK_MIN);
    int faults;
    least = said_least > 16384 ? ((size_t)said_least + 4095) / 4096 * 4096 : 16384;
    set = STANQUIVOL_SET6;
    n_public = STANQUIVOL_SET6_PUBLIC_BYTES;
    n_private = STANQUIVOL_SET6_PRIVATE_BYTES;
    n_setup = STANQUIVOL_SET6_SETUP_BYTES;
    n_block = STANQUIVOL_SET6_BLOCK_BYTES * STANQUIVOL_BLOCKS_MOST;
    n_message = STANQUIVOL_SET6_MESSAGE_BYTES;
    n_cipher = STANQUIVOL_SET6_CIPHER_BYTES;
    n_work = STANQUIVOL_SET6_WORK_NUMBERS;
    faults = turn();
    set = STANQUIVOL_SET1;
    n_public = STANQUIVOL_SET1_PUBLIC_BYTES;
    n_private = STANQUIVOL_SET1_PRIVATE_BYTES;
    n_setup = STANQUIVOL_SET1_SETUP_BYTES;
    n_block = STANQUIVOL_SET1_BLOCK_BYTES * STANQUIVOL_BLOCKS_MOST;
    n_message = STANQUIVOL_SET1_MESSAGE_BYTES;
    n_cipher = STANQUIVOL_SET1_CIPHER_BYTES;
    n_work = STANQUIVOL_SET1_WORK_NUMBERS;
    faults += turn();
    if (faults) return 1;
    printf("each call answers on %d bytes\n", (int)least);
    return 0;
}
