/* Stanquivol: RLCE wrapping of secrets, proved. This header is the manual of the C interface.
 *
 * Five verbs:
 *
 *   setup    makes a key pair of a set from random bytes that are lent
 *   wrap     wraps a secret under a public key       unwrap   gives it back under the private key
 *   seal     the same for a message of full length   open     gives it back
 *
 * and six small calls on which they stand: unpack, pack, shuffle, invert, mask, sha512.
 *
 * Rules for all calls
 *
 * Every function takes any input and always returns. It keeps no state, allocates nothing, takes less than 12 KiB of stack,
 * and writes only to the buffers that are not const. A buffer is a pointer and then its number of elements; a buffer that
 * is written must not overlap another one, and a null pointer is fine where the number is 0. Numbers of 16 bits are aligned
 * as uint16_t is. Calls with buffers of their own may run at the same time.
 *
 * The value returned is the answer number plus 256 times the count. STANQUIVOL_ANSWER and STANQUIVOL_COUNT take it apart.
 * The count is p + 1 of the window that gave P2 for setup, the number of the random block used, from 0, for seal and
 * wrap, and 0 for all other calls and for every refusal.
 *
 *    0   done                                                              outputs full, work area zero
 *    1   the key's first byte, or setup's set byte, names no set           nothing written
 *    2   a key has no first byte, or a length, an element or a list
 *        is not as stated                                                  nothing written
 *    3   setup: fewer than n multipliers that are not zero                 outputs and work area zero
 *    4   setup: the block search runs out of elements                      outputs and work area zero
 *    5   setup: none of five windows has u at most u0                      outputs and work area zero
 *    6   setup: the first k columns are dependent                          outputs and work area zero
 *    7   open, unwrap: the private key is malformed                        outputs and work area zero
 *    8   open, unwrap: the key's matrix W is singular                      outputs and work area zero
 *    9   seal, wrap: every random block yields a zero error value          outputs and work area zero
 *   10   open, unwrap: the ciphertext is not opened                        outputs and work area zero
 *   11   wrap, unwrap: the secret has no byte, or more than a message      nothing written
 *
 * If several hold, the answer is the first in this order: an empty key 2; the set byte 1; every other length 2; the
 * secret's length 11; then the rest by rising number. Lengths are those of the set that the key's first byte, or setup's
 * set byte, names. What an output holds before a call does not matter, nor does what the work area holds.
 *
 * Sets
 *
 * Set 1 is for use, set 6 is for tests only: it is far too small to keep a secret. Every length below is fixed by the
 * set, but for the secret (1 byte up to a message's length) and the random bytes of a sealing (1 to 16 blocks). The work area
 * is scratch room that the caller lends; it is zero after every call that used it.
 *
 *                                  set 1      set 6
 *   set byte                        0x11       0x16    first byte of both keys
 *   public key, bytes             118441        626
 *   private key, bytes            121666        859
 *   ciphertext, bytes                785         57
 *   message, bytes                   504         30    also the longest secret
 *   random bytes of a setup        48617        402
 *   random bytes of a block          188         24
 *   work area, 16-bit numbers    1336384       7200    four times n (n + w)
 *
 * Random bytes
 *
 * The library has no random generator. The random bytes of a setup are as secret as the private key, those of a sealing as
 * secret as its message: take them from the system's generator, use them once, wipe them. About one setup in a thousand
 * is refused for its random bytes, by 6: lend others. A random block is passed over, because of a zero error value, about once
 * in 100 times in set 6 and once in 14 in set 1; with 16 blocks, 9 is answered less than once in 10^17 times.
 *
 * A complete example
 *
 *     #include <stdio.h>
 *     #include <string.h>
 *     #include <sys/random.h>
 *     #include "stanquivol.h"
 *
 *     static uint8_t public_key[STANQUIVOL_SET1_PUBLIC_BYTES], private_key[STANQUIVOL_SET1_PRIVATE_BYTES];
 *     static uint8_t random_bytes[STANQUIVOL_SET1_SETUP_BYTES], blocks[16 * STANQUIVOL_SET1_BLOCK_BYTES];
 *     static uint16_t work[STANQUIVOL_SET1_WORK_NUMBERS];
 *
 *     int main(void) {
 *         uint8_t secret[32] = "the batch of tonight", cipher[STANQUIVOL_SET1_CIPHER_BYTES], got[32];
 *         uint16_t said;
 *         do {
 *             if (getrandom(random_bytes, sizeof random_bytes, 0) != sizeof random_bytes) return 1;
 *             said = stanquivol_setup(STANQUIVOL_SET1, random_bytes, sizeof random_bytes, public_key, sizeof public_key,
 *                                     private_key, sizeof private_key, work, STANQUIVOL_SET1_WORK_NUMBERS);
 *         } while (STANQUIVOL_ANSWER(said) != STANQUIVOL_DONE);
 *         if (getrandom(blocks, sizeof blocks, 0) != sizeof blocks) return 1;
 *         said = stanquivol_wrap(public_key, sizeof public_key, blocks, sizeof blocks, secret, sizeof secret,
 *                                cipher, sizeof cipher, work, STANQUIVOL_SET1_WORK_NUMBERS);
 *         if (STANQUIVOL_ANSWER(said) != STANQUIVOL_DONE) return 1;
 *         said = stanquivol_unwrap(private_key, sizeof private_key, cipher, sizeof cipher,
 *                                  got, sizeof got, work, STANQUIVOL_SET1_WORK_NUMBERS);
 *         if (STANQUIVOL_ANSWER(said) != STANQUIVOL_DONE) return 1;
 *         puts(memcmp(secret, got, sizeof got) == 0 ? "the same secret" : "another secret");
 *         return 0;
 *     }
 */
#ifndef STANQUIVOL_H
#define STANQUIVOL_H

#include <stddef.h>
#include <stdint.h>

#ifdef __cplusplus
extern "C" {
#endif

/* The two parts of a value returned. */
#define STANQUIVOL_ANSWER(returned) ((returned) % 256)
#define STANQUIVOL_COUNT(returned) ((returned) / 256)

/* Answer numbers. */
#define STANQUIVOL_DONE 0
#define STANQUIVOL_UNKNOWN_SET 1
#define STANQUIVOL_WRONG_LENGTH 2
#define STANQUIVOL_FEW_MULTIPLIERS 3
#define STANQUIVOL_FEW_ELEMENTS 4
#define STANQUIVOL_NO_WINDOW 5
#define STANQUIVOL_DEPENDENT 6
#define STANQUIVOL_MALFORMED 7
#define STANQUIVOL_SINGULAR 8
#define STANQUIVOL_ZERO_VALUES 9
#define STANQUIVOL_NOT_OPENED 10
#define STANQUIVOL_WRONG_SECRET 11

/* Set 1: its set byte, and its lengths. */
#define STANQUIVOL_SET1 0x11
#define STANQUIVOL_SET1_PUBLIC_BYTES 118441
#define STANQUIVOL_SET1_PRIVATE_BYTES 121666
#define STANQUIVOL_SET1_CIPHER_BYTES 785
#define STANQUIVOL_SET1_MESSAGE_BYTES 504
#define STANQUIVOL_SET1_SECRET_MOST 504
#define STANQUIVOL_SET1_SETUP_BYTES 48617
#define STANQUIVOL_SET1_BLOCK_BYTES 188
#define STANQUIVOL_SET1_WORK_NUMBERS 1336384

/* Set 6, for tests only. */
#define STANQUIVOL_SET6 0x16
#define STANQUIVOL_SET6_PUBLIC_BYTES 626
#define STANQUIVOL_SET6_PRIVATE_BYTES 859
#define STANQUIVOL_SET6_CIPHER_BYTES 57
#define STANQUIVOL_SET6_MESSAGE_BYTES 30
#define STANQUIVOL_SET6_SECRET_MOST 30
#define STANQUIVOL_SET6_SETUP_BYTES 402
#define STANQUIVOL_SET6_BLOCK_BYTES 24
#define STANQUIVOL_SET6_WORK_NUMBERS 7200

/* The most random blocks that a sealing takes. */
#define STANQUIVOL_BLOCKS_MOST 16

/* The number of bytes of a digest, and the most that a mask or its seed may have. */
#define STANQUIVOL_DIGEST_BYTES 64
#define STANQUIVOL_MASK_MOST 65536

/* ---- The five verbs. Each states what it reads, what it writes, and its answers in the order in which they are looked for;
 * ---- "keeps" means that the buffer holds afterwards what it held before. */

/* Makes a key pair.
 *
 *   set          the set byte, STANQUIVOL_SET1 or STANQUIVOL_SET6
 *   random       read: random bytes of a setup, just as many as the set says
 *   public_key   written: bytes of the set's public key
 *   private_key  written: bytes of the set's private key
 *   work         written: numbers of the set's work area
 *
 *    1                 set names no set                     public_key, private_key and work keep what they hold
 *    2                 one of the four lengths is wrong     the same
 *    3, 4, 5, 6        the random bytes give no key         all three are zero; lend other random bytes
 *    0 + 256 (p + 1)   done; p, 0 to 4, is the first        public_key and private_key hold the pair, work is zero
 *                      window that fitted
 */
uint16_t stanquivol_setup(uint8_t set, const uint8_t *random, size_t random_length, uint8_t *public_key,
                          size_t public_key_length, uint8_t *private_key, size_t private_key_length, uint16_t *work,
                          size_t work_length);

/* Seals a message with the first random block that yields no zero error value.
 *
 *   public_key   read: a public key; its first byte names the set
 *   random       read: 1 to 16 random blocks of the set
 *   message      read: bytes of the set's message
 *   cipher       written: bytes of the set's ciphertext
 *   work         written: numbers of the set's work area
 *
 *    2           public_key has no byte                     cipher and work keep what they hold
 *    1           its first byte names no set                the same
 *    2           one of the five lengths is wrong           the same
 *    9           every block yields a zero error value      both are zero; lend other random blocks
 *    0 + 256 b   done, with block b, from 0                 cipher holds the ciphertext, work is zero
 *
 * A public key of the right length is not judged: any bytes after the set byte are elements of some matrix.
 */
uint16_t stanquivol_seal(const uint8_t *public_key, size_t public_key_length, const uint8_t *random,
                         size_t random_length, const uint8_t *message, size_t message_length, uint8_t *cipher,
                         size_t cipher_length, uint16_t *work, size_t work_length);

/* Opens a ciphertext.
 *
 *   private_key  read: a private key; its first byte names the set
 *   cipher       read: bytes of the set's ciphertext
 *   message      written: bytes of the set's message
 *   work         written: numbers of the set's work area
 *
 *    2   private_key has no byte                            message and work keep what they hold
 *    1   its first byte names no set                        the same
 *    2   one of the four lengths is wrong                   the same
 *    7   private_key is malformed: a list in it is no       both are zero
 *        permutation, an inverse is zero, or a spare bit
 *        is set
 *    8   its matrix W is singular                           both are zero
 *    10  cipher is not opened: it is no sealing under       both are zero
 *        this key
 *    0   done                                               message holds the message, work is zero
 *
 * A pair that stanquivol_setup made never answers 7 or 8, and opens exactly what stanquivol_seal gives under it.
 */
uint16_t stanquivol_open(const uint8_t *private_key, size_t private_key_length, const uint8_t *cipher,
                         size_t cipher_length, uint8_t *message, size_t message_length, uint16_t *work,
                         size_t work_length);

/* Wraps a secret: seals the secret's bytes, then zero bytes up to a message's length.
 *
 *   public_key   read: a public key; its first byte names the set
 *   random       read: 1 to 16 random blocks of the set
 *   secret       read: 1 byte up to a message's length
 *   cipher       written: bytes of the set's ciphertext
 *   work         written: numbers of the set's work area
 *
 *    2           public_key has no byte                     cipher and work keep what they hold
 *    1           its first byte names no set                the same
 *    2           one of the four other lengths is wrong     the same
 *    11          secret has no byte, or too many            the same
 *    9           every block yields a zero error value      both are zero; lend other random blocks
 *    0 + 256 b   done, with block b, from 0                 cipher holds the ciphertext, work is zero
 */
uint16_t stanquivol_wrap(const uint8_t *public_key, size_t public_key_length, const uint8_t *random,
                         size_t random_length, const uint8_t *secret, size_t secret_length, uint8_t *cipher,
                         size_t cipher_length, uint16_t *work, size_t work_length);

/* Unwraps a secret: opens the ciphertext and gives the message's first bytes, as many as secret has. The ciphertext does not
 * tell the secret's length: caller and wrapper agree on it.
 *
 *   private_key  read: a private key; its first byte names the set
 *   cipher       read: bytes of the set's ciphertext
 *   secret       written: 1 byte up to a message's length
 *   work         written: numbers of the set's work area
 *
 *    2   private_key has no byte                            secret and work keep what they hold
 *    1   its first byte names no set                        the same
 *    2   one of the three other lengths is wrong            the same
 *    11  secret has no byte, or too many                    the same
 *    7   private_key is malformed, as in stanquivol_open    both are zero
 *    8   its matrix W is singular                           both are zero
 *    10  cipher is not opened                               both are zero
 *    0   done                                               secret holds the secret, work is zero
 */
uint16_t stanquivol_unwrap(const uint8_t *private_key, size_t private_key_length, const uint8_t *cipher,
                           size_t cipher_length, uint8_t *secret, size_t secret_length, uint16_t *work,
                           size_t work_length);

/* ---- The six small calls: they answer 0 or 2, and have no count. */

/* Bytes to elements of ten bits, each byte's highest bit first, an element's first bit its highest.
 *
 *   bytes     read: any number L of bytes
 *   elements  written: 8 * L / 10 elements, rounded down; the bits that remain are dropped
 *
 * 0: elements is full. 2: elements has another length; nothing was written. */
uint16_t stanquivol_unpack(const uint8_t *bytes, size_t bytes_length, uint16_t *elements, size_t elements_length);

/* Elements of ten bits to bytes, the way back; spare bits are zero.
 *
 *   elements  read: any number F of elements, each below 1024
 *   bytes     written: 10 * F / 8 bytes, rounded up
 *
 * 0: bytes is full. 2: bytes has another length, or an element is 1024 or more; nothing was written. */
uint16_t stanquivol_pack(const uint16_t *elements, size_t elements_length, uint8_t *bytes, size_t bytes_length);

/* The shuffle: from the list 0, 1, .., u - 1, for each 16-bit number s (high byte first), counted by i from 0, the places i
 * and i + s mod (u - i) are exchanged.
 *
 *   numbers   read: an even number of bytes, at most u - 1 numbers; none is fine
 *   list      written: u entries, u from 1 to 65536; what it holds before does not matter
 *
 * 0: list is the shuffle, a permutation of 0 .. u - 1. 2: a length is not as stated; nothing was written. */
uint16_t stanquivol_shuffle(const uint8_t *numbers, size_t numbers_length, uint16_t *list, size_t list_length);

/* The inverse of a permutation: inverse[list[i]] = i.
 *
 *   list      read: a permutation of 0 .. u - 1 for its length u, which is at most 65536; the empty list is one
 *   inverse   written: u entries
 *
 * 0: inverse is full. 2: list is no permutation, or inverse has another length; nothing was written. */
uint16_t stanquivol_invert(const uint16_t *list, size_t list_length, uint16_t *inverse, size_t inverse_length);

/* The mask of a seed: the digests of the seed and a four-byte counter (from 0, high byte first), one after the other.
 *
 *   seed      read: at most 65536 bytes
 *   mask      written: at most 65536 bytes, all of them
 *
 * 0: mask is full. 2: one of them is longer; nothing was written. */
uint16_t stanquivol_mask(const uint8_t *seed, size_t seed_length, uint8_t *mask, size_t mask_length);

/* SHA-512 (FIPS 180-4).
 *
 *   bytes     read: any number of bytes
 *   digest    written: 64 bytes
 *
 * 0: digest is full. 2: digest has another length; nothing was written. */
uint16_t stanquivol_sha512(const uint8_t *bytes, size_t bytes_length, uint8_t *digest, size_t digest_length);

#ifdef __cplusplus
}
#endif

#endif
