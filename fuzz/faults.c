/* Faults put around the library's opening on purpose, one by each value of FAULT, to see that the harness finds them
 * (scripts/fuzz --self-test). Linked with --wrap=stanquivol_open. */
#include <stddef.h>
#include <stdint.h>

uint16_t __real_stanquivol_open(const uint8_t *key, size_t a, const uint8_t *cipher, size_t b, uint8_t *message, size_t c,
                                uint16_t *work, size_t d);
uint16_t __wrap_stanquivol_open(const uint8_t *key, size_t a, const uint8_t *cipher, size_t b, uint8_t *message, size_t c,
                                uint16_t *work, size_t d);

volatile uint8_t seen;

uint16_t __wrap_stanquivol_open(const uint8_t *key, size_t a, const uint8_t *cipher, size_t b, uint8_t *message, size_t c,
                                uint16_t *work, size_t d)
{
    uint16_t answer = __real_stanquivol_open(key, a, cipher, b, message, c, work, d);
    switch (FAULT) {
    case 0: break;                                             /* none */
    case 1: seen = cipher[b]; break;                           /* reads past the end of an input */
    case 2: seen = key[-1]; break;                             /* reads before its beginning */
    case 3: message[c] = 1; break;                             /* writes past the end of an output */
    case 4: message[-1] = 0; break;                            /* writes before its beginning */
    case 5: if (b > 0) *(volatile uint8_t *)cipher = *cipher; break; /* writes to an input what it holds */
    case 6: if (answer == 10) message[c - 1] = 1; break;       /* leaves a byte of the message behind */
    case 7: if (answer == 7) work[d / 2] = 5; break;           /* leaves a number in the work area */
    case 8: if (answer == 2 && d > 0) work[0] = 0; break;      /* writes after a first check refused */
    case 9: if (answer == 8) answer = 9; break;                /* answers a number of another call */
    case 10: if (answer == 0) message[0] ^= 1; break;          /* opens to another message */
    case 11: if (answer == 0) answer = 256; break;             /* invents a count */
    case 12: if (answer == 10) answer = (uint16_t)(10 - (uintptr_t)message / 4096 % 2 * 3); break; /* depends on the place in memory */
    case 13: if (answer == 8) for (;;) seen = 1; break;        /* does not return */
    case 14: if (answer == 1) answer = 2; break;               /* the order of refusals */
    }
    return answer;
}
