/* fuzz SECONDS [FIRST]: calls the native library on arbitrary inputs until the time is over and checks what every call leaves.
 * fuzz case NUMBER: one case again.
 *
 * A case is known by its number. It takes a real key, seal or message, changes it in some way, changes a length now and then, and
 * calls setup, seal, open, wrap or unwrap. The checks:
 *
 *   memory    every buffer ends where a page without access begins, or begins where one ends; beside its other end stand bytes
 *             that nothing may change. Inputs lie in pages that are read-only during the call.
 *   answer    a number of the call's table, with a count in its range; 1, 2 and 11 exactly where the order of the first checks
 *             asks for them, by an account of its own.
 *   buffers   outputs and work area untouched after 1, 2 and 11; zero after every other refusal; the work area zero after 0.
 *   meaning   what was sealed and not changed opens to the message; a new key opens what it seals; now and then the case runs
 *             again with other contents in the outputs and the buffers at the other end of their pages, and must leave the same.
 *   ending    no call takes more than twenty seconds of processor time.
 *
 * With -DLIBFUZZER the same cases are driven by the bytes that libFuzzer chooses (scripts/fuzz --guided). */
#define _GNU_SOURCE
#include <signal.h>
#include <stdarg.h>
#include <stdint.h>
#include <stdio.h>
#include <stdlib.h>
#include <string.h>
#include <sys/mman.h>
#include <sys/time.h>
#include <time.h>
#include <unistd.h>

uint16_t stanquivol_setup(uint8_t set, const uint8_t *random, size_t, uint8_t *public_key, size_t, uint8_t *private_key, size_t,
                          uint16_t *work, size_t);
uint16_t stanquivol_seal(const uint8_t *public_key, size_t, const uint8_t *random, size_t, const uint8_t *message, size_t,
                         uint8_t *cipher, size_t, uint16_t *work, size_t);
uint16_t stanquivol_open(const uint8_t *private_key, size_t, const uint8_t *cipher, size_t, uint8_t *message, size_t,
                         uint16_t *work, size_t);
uint16_t stanquivol_wrap(const uint8_t *public_key, size_t, const uint8_t *random, size_t, const uint8_t *secret, size_t,
                         uint8_t *cipher, size_t, uint16_t *work, size_t);
uint16_t stanquivol_unwrap(const uint8_t *private_key, size_t, const uint8_t *cipher, size_t, uint8_t *secret, size_t,
                           uint16_t *work, size_t);

/* ---- sets ---- */

struct set {
    uint8_t byte;
    size_t n, k, t, w, k1, k3, setup_random, public_key, private_key, cipher, work;
};
static const struct set SETS[2] = {
    {0x16, 40, 20, 10, 5, 30, 4, 402, 626, 859, 57, 7200},
    {0x11, 532, 376, 78, 96, 504, 32, 48617, 118441, 121666, 785, 1336384},
};
enum { SMALL, LARGE };

static const struct set *set_of(uint8_t byte)
{
    for (int i = 0; i < 2; i++)
        if (SETS[i].byte == byte) return &SETS[i];
    return NULL;
}

static size_t block_bytes(const struct set *s) { return s->k3 + 2 * s->t; }

/* ---- choices: from the bytes that are left, then from a generator ---- */

static const uint8_t *chosen;
static size_t chosen_left;
static uint64_t state;

static uint64_t next(void)
{
    if (chosen_left > 0) {
        uint64_t x = 0;
        for (int i = 0; i < 2 && chosen_left > 0; i++, chosen_left--) x = x * 256 + *chosen++;
        return x;
    }
    state += 0x9e3779b97f4a7c15u; /* splitmix64 */
    uint64_t z = state;
    z = (z ^ (z >> 30)) * 0xbf58476d1ce4e5b9u;
    z = (z ^ (z >> 27)) * 0x94d049bb133111ebu;
    return z ^ (z >> 31);
}

static size_t below(size_t n) { return n == 0 ? 0 : (size_t)(next() % n); }

static int once_in(size_t n) { return below(n) == 0; }

static void fill_random(uint8_t *p, size_t n)
{
    chosen_left = 0;
    for (size_t i = 0; i < n; i++) p[i] = (uint8_t)(next() >> 24);
}

/* ---- failures ---- */

enum call { SETUP, SEAL, OPEN, WRAP, UNWRAP, CALLS };
static const char *const NAMES[CALLS] = {"setup", "seal", "open", "wrap", "unwrap"};
static volatile uint64_t number;      /* of the case */
static volatile enum call under_way;
static volatile int inside;           /* a call is under way */

static void fail(const char *format, ...)
{
    va_list rest;
    va_start(rest, format);
    fprintf(stderr, "fuzz: case %llu, %s: ", (unsigned long long)number, NAMES[under_way]);
    vfprintf(stderr, format, rest);
    fprintf(stderr, "\n");
    va_end(rest);
    abort();
}

#ifndef LIBFUZZER
const char *__asan_default_options(void);
const char *__asan_default_options(void) { return "handle_segv=0:handle_sigbus=0:handle_sigill=0:handle_sigfpe=0:detect_leaks=0"; }

static void on_fault(int which)
{
    char text[160];
    int n = snprintf(text, sizeof text, "fuzz: case %llu, %s: signal %d %s\n", (unsigned long long)number, NAMES[under_way], which,
                     inside ? "inside the call" : "in the harness");
    if (write(2, text, (size_t)n) < 0) _exit(4);
    _exit(3);
}

#ifndef TICK
#define TICK 5 /* seconds of processor time; a case may take four of them */
#endif
static volatile uint64_t watched;
static volatile int ticks;
static void on_tick(int which)
{
    (void)which;
    if (watched != number) {
        watched = number;
        ticks = 0;
    } else if (++ticks >= 4 && inside) {
        on_fault(SIGPROF);
    }
}

static void watch(void)
{
    static uint8_t room[65536];
    stack_t stack = {.ss_sp = room, .ss_size = sizeof room};
    sigaltstack(&stack, NULL);
    struct sigaction fault = {.sa_handler = on_fault, .sa_flags = SA_ONSTACK};
    const int signals[] = {SIGSEGV, SIGBUS, SIGILL, SIGFPE};
    for (size_t i = 0; i < sizeof signals / sizeof *signals; i++) sigaction(signals[i], &fault, NULL);
    struct sigaction tick = {.sa_handler = on_tick, .sa_flags = SA_ONSTACK | SA_RESTART};
    sigaction(SIGPROF, &tick, NULL);
    struct itimerval every = {{TICK, 0}, {TICK, 0}};
    setitimer(ITIMER_PROF, &every, NULL);
}
#endif

/* ---- buffers between pages without access ---- */

enum { PAGE = 4096, BESIDE = 128 };
struct arena {
    uint8_t *first; /* the first byte with access */
    size_t room;
    uint8_t *at; /* the buffer */
    size_t bytes;
    uint8_t mark; /* the byte that stands beside it, and in it where it is an output */
    int at_end;
};
enum { A, B, C, D, WORK, ARENAS };
static struct arena arenas[ARENAS];

static void make_arenas(void)
{
    for (int i = 0; i < ARENAS; i++) {
        size_t room = i == WORK ? 1400u * PAGE : 80u * PAGE;
        uint8_t *p = mmap(NULL, room + 2 * PAGE, PROT_NONE, MAP_PRIVATE | MAP_ANONYMOUS, -1, 0);
        if (p == MAP_FAILED || mprotect(p + PAGE, room, PROT_READ | PROT_WRITE) != 0) exit(2);
        arenas[i].first = p + PAGE;
        arenas[i].room = room;
    }
}

static size_t beside(const struct arena *a)
{
    size_t rest = a->room - a->bytes;
    return rest < BESIDE ? rest : BESIDE;
}

static uint8_t *other_end(const struct arena *a) { return a->at_end ? a->at - beside(a) : a->at + a->bytes; }

static void place(struct arena *a, size_t bytes, int at_end, uint8_t mark)
{
    if (bytes > a->room) fail("the harness has no room for %zu bytes", bytes);
    a->bytes = bytes;
    a->mark = mark;
    a->at_end = at_end;
    a->at = at_end ? a->first + a->room - bytes : a->first;
    memset(other_end(a), mark, beside(a));
}

static void lock(const struct arena *a, int locked)
{
    if (mprotect(a->first, a->room, locked ? PROT_READ : PROT_READ | PROT_WRITE) != 0) fail("mprotect");
}

static int all(const uint8_t *p, size_t n, uint8_t byte) { return n == 0 || (p[0] == byte && memcmp(p, p + 1, n - 1) == 0); }

static void check_beside(const struct arena *a, char name)
{
    if (!all(other_end(a), beside(a), a->mark)) fail("bytes beside buffer %c were changed", name);
}

/* ---- a call on five byte strings ---- */

struct job {
    enum call call;
    uint8_t set;             /* for setup */
    uint8_t *in[3];          /* random; key, random, message; key, cipher */
    size_t in_length[3];
    int inputs;
    size_t out_length[2];
    int outputs;
    size_t work; /* numbers */
    uint8_t left[2][131072]; /* what the outputs held after the call */
    uint16_t answer;
};

static uint64_t counts[CALLS][2][12];
static uint64_t calls_made;

static const void *pointer(const struct arena *a) { return a->bytes == 0 && a->mark % 2 ? NULL : a->at; }

static uint16_t invoke(const struct job *j, struct arena *const in[3], struct arena *const out[2])
{
    const struct arena *w = &arenas[WORK];
    const uint8_t *x = pointer(in[0]), *y = j->inputs > 1 ? pointer(in[1]) : NULL, *z = j->inputs > 2 ? pointer(in[2]) : NULL;
    uint8_t *o = (uint8_t *)pointer(out[0]), *p = j->outputs > 1 ? (uint8_t *)pointer(out[1]) : NULL;
    uint16_t *work = (uint16_t *)pointer(w);
    switch (j->call) {
    case SETUP:
        return stanquivol_setup(j->set, x, in[0]->bytes, o, out[0]->bytes, p, out[1]->bytes, work, j->work);
    case SEAL:
        return stanquivol_seal(x, in[0]->bytes, y, in[1]->bytes, z, in[2]->bytes, o, out[0]->bytes, work, j->work);
    case WRAP:
        return stanquivol_wrap(x, in[0]->bytes, y, in[1]->bytes, z, in[2]->bytes, o, out[0]->bytes, work, j->work);
    case OPEN:
        return stanquivol_open(x, in[0]->bytes, y, in[1]->bytes, o, out[0]->bytes, work, j->work);
    default:
        return stanquivol_unwrap(x, in[0]->bytes, y, in[1]->bytes, o, out[0]->bytes, work, j->work);
    }
}

/* 1, 2 or 11 where the first checks refuse, else 0 */
static int first_checks(const struct job *j)
{
    if (j->call == SETUP) {
        const struct set *s = set_of(j->set);
        if (!s) return 1;
        return j->in_length[0] == s->setup_random && j->out_length[0] == s->public_key && j->out_length[1] == s->private_key &&
                       j->work == s->work
                   ? 0
                   : 2;
    }
    if (j->in_length[0] == 0) return 2;
    const struct set *s = set_of(j->in[0][0]);
    if (!s) return 1;
    if (j->work != s->work) return 2;
    size_t secret;
    if (j->call == SEAL || j->call == WRAP) {
        size_t random = j->in_length[1], one = block_bytes(s);
        if (j->in_length[0] != s->public_key || random % one != 0 || random < one || random > 16 * one || j->out_length[0] != s->cipher)
            return 2;
        secret = j->in_length[2];
    } else {
        if (j->in_length[0] != s->private_key || j->in_length[1] != s->cipher) return 2;
        secret = j->out_length[0];
    }
    if (j->call == SEAL || j->call == OPEN) return secret == s->k1 ? 0 : 2;
    return secret >= 1 && secret <= s->k1 ? 0 : 11;
}

static void check_answer(const struct job *j)
{
    unsigned answer = j->answer % 256, count = j->answer / 256;
    int first = first_checks(j);
    if (first != 0) {
        if (j->answer != first) fail("answers %u, the first checks ask for %d", j->answer, first);
        return;
    }
    switch (j->call) {
    case SETUP:
        if (answer == 0 ? count < 1 || count > 5 : count != 0 || answer < 3 || answer > 6) fail("answers %u", j->answer);
        break;
    case SEAL:
    case WRAP:
        if (answer == 0 ? count >= j->in_length[1] / block_bytes(set_of(j->in[0][0])) : j->answer != 9) fail("answers %u", j->answer);
        break;
    default:
        if (j->answer != 0 && j->answer != 7 && j->answer != 8 && j->answer != 10) fail("answers %u", j->answer);
    }
}

/* Runs the call with the buffers at one end of their pages and the byte `mark` in the outputs, and checks what it leaves. */
static void run(struct job *j, int at_end, uint8_t mark)
{
    struct arena *in[3] = {&arenas[A], &arenas[B], &arenas[C]}, *out[2] = {&arenas[D], &arenas[B]}, *work = &arenas[WORK];
    under_way = j->call;
    for (int i = 0; i < j->inputs; i++) {
        place(in[i], j->in_length[i], at_end, mark);
        if (j->in_length[i] > 0) memcpy(in[i]->at, j->in[i], j->in_length[i]);
        lock(in[i], 1);
    }
    for (int i = 0; i < j->outputs; i++) {
        place(out[i], j->out_length[i], at_end, mark);
        memset(out[i]->at, mark, out[i]->bytes);
    }
    place(work, 2 * j->work, at_end, mark);
    memset(work->at, mark, work->bytes);
    inside = 1;
    j->answer = invoke(j, in, out);
    inside = 0;
    calls_made++;
    for (int i = 0; i < j->inputs; i++) {
        check_beside(in[i], (char)('a' + i));
        if (j->in_length[i] > 0 && memcmp(in[i]->at, j->in[i], j->in_length[i]) != 0) fail("input %d was changed", i);
        lock(in[i], 0);
    }
    check_answer(j);
    unsigned answer = j->answer % 256;
    int untouched = answer == 1 || answer == 2 || answer == 11;
    for (int i = 0; i < j->outputs; i++) {
        check_beside(out[i], (char)('o' + i));
        if (untouched && !all(out[i]->at, out[i]->bytes, mark)) fail("answer %u, but output %d was changed", answer, i);
        if (!untouched && answer != 0 && !all(out[i]->at, out[i]->bytes, 0)) fail("answer %u, but output %d is not zero", answer, i);
        if (out[i]->bytes <= sizeof j->left[i]) memcpy(j->left[i], out[i]->at, out[i]->bytes);
    }
    check_beside(work, 'w');
    if (!all(work->at, work->bytes, untouched ? mark : 0)) fail("answer %u, but the work area is not %s", answer, untouched ? "as before" : "zero");
}

/* ---- seeds: real keys, messages, seals ---- */

enum { KEYS = 12, LARGE_KEYS = 2 };
struct seed {
    uint8_t random[48617], public_key[118441], private_key[121666], message[504], blocks[16 * 188], sealed[785], wrapped[785];
    size_t secret;
};
static struct seed seeds[2][KEYS];

/* the bytes of the second permutation for which none of the five windows fits */
static uint8_t no_window[2][2 * 628 + 2];

/* how many of the first k entries of the window's permutation lie at n - w or above, up to one more than fit */
static size_t mixed(const struct set *s, const uint8_t *bytes, size_t most)
{
    static uint16_t p[628];
    size_t all = s->n + s->w, u = 0;
    for (size_t i = 0; i < all; i++) p[i] = (uint16_t)i;
    for (size_t i = 0; i < s->k; i++) {
        size_t j = i + (256u * bytes[2 * i] + bytes[2 * i + 1]) % (all - i);
        uint16_t y = p[i];
        p[i] = p[j];
        p[j] = y;
        u += p[i] >= s->n - s->w;
    }
    return u > most ? most + 1 : u;
}

/* by small changes that do not make it worse */
static void find_no_window(int which)
{
    const struct set *s = &SETS[which];
    static uint8_t tried[2 * 628 + 2];
    size_t length = 2 * (s->n + s->w) + 2, most = which == LARGE ? 123 : 7, best = 0;
    fill_random(no_window[which], length);
    while (best < 5 * (most + 1)) {
        memcpy(tried, no_window[which], length);
        for (size_t i = 1 + below(3); i > 0; i--) tried[below(2 * s->k + 4)] = (uint8_t)next();
        size_t sum = 0;
        for (size_t p = 0; p < 5; p++) sum += mixed(s, tried + p, most);
        if (sum < best) continue;
        best = sum;
        memcpy(no_window[which], tried, length);
    }
}

static size_t keys_of(int which) { return which == LARGE ? LARGE_KEYS : KEYS; }

static void make_seeds(void)
{
    uint16_t *work = malloc(2 * SETS[LARGE].work);
    if (!work) exit(2);
    for (int which = 0; which < 2; which++) {
        const struct set *s = &SETS[which];
        state = 1000 + (uint64_t)which;
        find_no_window(which);
        for (size_t i = 0; i < keys_of(which); i++) {
            struct seed *k = &seeds[which][i];
            uint16_t answer;
            do {
                fill_random(k->random, s->setup_random);
                answer = stanquivol_setup(s->byte, k->random, s->setup_random, k->public_key, s->public_key, k->private_key, s->private_key,
                                          work, s->work);
            } while (answer % 256 != 0);
            fill_random(k->message, s->k1);
            fill_random(k->blocks, 16 * block_bytes(s));
            k->secret = 1 + i * (s->k1 - 1) / (keys_of(which) - 1);
            if (stanquivol_seal(k->public_key, s->public_key, k->blocks, 16 * block_bytes(s), k->message, s->k1, k->sealed, s->cipher, work,
                                s->work) % 256 != 0 ||
                stanquivol_wrap(k->public_key, s->public_key, k->blocks, 16 * block_bytes(s), k->message, k->secret, k->wrapped, s->cipher,
                                work, s->work) % 256 != 0) {
                fprintf(stderr, "fuzz: no seal with the seeds\n");
                exit(2);
            }
        }
    }
    free(work);
}

/* ---- elements in packed bytes ---- */

static unsigned element(const uint8_t *p, size_t i)
{
    unsigned x = 0;
    for (size_t b = 10 * i; b < 10 * i + 10; b++) x = 2 * x + (p[b / 8] >> (7 - b % 8) & 1u);
    return x;
}

static void set_element(uint8_t *p, size_t i, unsigned x)
{
    for (size_t b = 10 * i; b < 10 * i + 10; b++) {
        unsigned bit = x >> (9 - (b - 10 * i)) & 1u;
        p[b / 8] = (uint8_t)((p[b / 8] & ~(1u << (7 - b % 8))) | bit << (7 - b % 8));
    }
}

static unsigned times(unsigned a, unsigned b)
{
    unsigned r = 0;
    for (; a; a /= 2) {
        if (a % 2) r ^= b;
        b *= 2;
        if (b > 1023) b ^= 1033;
    }
    return r;
}

/* y times [I, GE] for a random y, then `faults` random places changed: a word that lies near a code word */
static void near_code(uint8_t *cipher, const struct set *s, const uint8_t *public_key, size_t faults)
{
    static unsigned word[628];
    size_t all = s->n + s->w, right = all - s->k;
    memset(word, 0, sizeof word);
    size_t rows = once_in(4) ? 1 + below(3) : s->k;
    for (size_t i = 0; i < rows; i++) {
        unsigned y = (unsigned)below(1024);
        word[i] = y;
        for (size_t j = 0; j < right; j++) word[s->k + j] ^= times(y, element(public_key + 1, i * right + j));
    }
    for (size_t f = 0; f < faults; f++) word[below(all)] ^= 1 + (unsigned)below(1023);
    memset(cipher, 0, s->cipher);
    for (size_t i = 0; i < all; i++) set_element(cipher, i, word[i]);
}

static void flip(uint8_t *p, size_t n, size_t most)
{
    if (n == 0) return;
    for (size_t left = 1 + below(most); left > 0; left--) p[below(n)] ^= (uint8_t)(1u << below(8));
}

/* ---- changes; each answers 0 where nothing was changed ---- */

static int change_cipher(uint8_t *c, const struct set *s, int which, const struct seed *own)
{
    const struct seed *other = &seeds[which][below(keys_of(which))];
    size_t all = s->n + s->w;
    switch (below(12)) {
    case 0:
    case 1:
        return 0;
    case 2:
        flip(c, s->cipher, 8);
        return 1;
    case 3:
        for (size_t f = 1 + below(2 * s->t + 2); f > 0; f--) set_element(c, below(all), (unsigned)below(1024));
        return 1;
    case 4:
        fill_random(c, s->cipher);
        return 1;
    case 5:
        memset(c, once_in(2) ? 0 : 255, s->cipher);
        return 1;
    case 6:
        c[s->cipher - 1] |= (uint8_t)(1 + below(63));
        return 1;
    case 7:
        memcpy(c, other->sealed, s->cipher);
        return 1;
    case 8:
        memcpy(c, other->sealed, below(s->cipher));
        return 1;
    default:
        if (which == LARGE && !once_in(4)) flip(c, s->cipher, 3);
        else near_code(c, s, own->public_key, once_in(2) ? s->t : below(2 * s->t + 3));
        return 1;
    }
}

static void put16(uint8_t *p, size_t x)
{
    p[0] = (uint8_t)(x / 256);
    p[1] = (uint8_t)x;
}

static int change_private(uint8_t *key, const struct set *s, int which)
{
    size_t all = s->n + s->w, lists = 2 * (s->n + all), left = 2 * s->w, ge = s->k * (all - s->k);
    uint8_t *list = key + 1, *packed = key + 1 + lists;
    uint8_t two[2];
    switch (below(20)) {
    case 0:
        flip(key + 1, s->private_key - 1, 8);
        return 1;
    case 1:
    case 2: { /* two entries of a list change places: still a permutation */
        int second = once_in(2);
        uint8_t *p = list + (second ? 2 * s->n : 0);
        size_t u = second ? all : s->n, i = below(u), j = below(u);
        memcpy(two, p + 2 * i, 2);
        memmove(p + 2 * i, p + 2 * j, 2);
        memcpy(p + 2 * j, two, 2);
        return 1;
    }
    case 3:
        put16(list + 2 * below(s->n + all), once_in(2) ? below(all + 2) : below(65536));
        return 1;
    case 4:
        set_element(packed, left + below(s->n), once_in(2) ? 0 : (unsigned)below(1024));
        return 1;
    case 5:
        set_element(packed, below(left), once_in(2) ? 0 : (unsigned)below(1024));
        return 1;
    case 6:
        fill_random(key + 1, s->private_key - 1);
        return 1;
    case 7: { /* the matrix anew, or zero, or with few entries */
        size_t start = left + s->n;
        int how = (int)below(3);
        for (size_t i = 0; i < ge; i++) set_element(packed, start + i, how == 0 ? 0 : how == 1 ? (unsigned)below(1024) : (unsigned)once_in(8));
        return 1;
    }
    case 8:
        key[s->private_key - 1] |= (uint8_t)(1 + below(15));
        return 1;
    case 9:
        key[0] = once_in(2) ? SETS[1 - which].byte : (uint8_t)next();
        return 1;
    default:
        return 0;
    }
}

static int change_public(uint8_t *key, const struct set *s, int which)
{
    switch (below(12)) {
    case 0:
        flip(key + 1, s->public_key - 1, 8);
        return 1;
    case 1:
        fill_random(key + 1, s->public_key - 1);
        return 1;
    case 2:
        memset(key + 1, once_in(2) ? 0 : 255, s->public_key - 1);
        return 1;
    case 3:
        key[0] = once_in(2) ? SETS[1 - which].byte : (uint8_t)next();
        return 1;
    default:
        return 0;
    }
}

static void change_setup_random(uint8_t *r, const struct set *s)
{
    size_t elements = s->n + (4 + s->k) * s->w + 25;
    switch (below(8)) {
    case 0:
        memset(r, once_in(2) ? 0 : 255, s->setup_random);
        break;
    case 1: /* zeros among the multipliers */
        for (size_t i = below(9); i > 0; i--) set_element(r, below(s->n + 5), 0);
        break;
    case 2: /* blocks that do not fit */
        for (size_t i = below(4 * s->w + 20); i > 0; i--) set_element(r, s->n + 5 + below(4 * s->w + 20), once_in(2) ? 0 : 1);
        break;
    case 3: { /* windows that do not fit, all or the first ones */
        size_t start = (10 * elements + 7) / 8 + 2 * s->n - 2;
        memcpy(r + start, no_window[s == &SETS[LARGE]], s->setup_random - start);
        if (once_in(2)) flip(r + start, s->setup_random - start, 4);
        break;
    }
    case 4: /* few elements in R */
        for (size_t i = 0; i < s->k * s->w; i++) set_element(r, s->n + 4 * s->w + 25 + i, 0);
        break;
    case 5:
        flip(r, s->setup_random, 8);
        break;
    default:
        fill_random(r, s->setup_random);
    }
}

static size_t changed_length(size_t n, size_t most)
{
    switch (below(6)) {
    case 0:
        return 0;
    case 1:
        return n + 1;
    case 2:
        return n - (n > 0);
    case 3:
        return below(2 * n + 2) < most ? below(n + 2) : most;
    case 4:
        return below(64);
    default:
        return below(n + 1);
    }
}

/* ---- one case ---- */

static uint8_t *room[3];
static size_t opened_as_sealed, repeated;

static void one_case(void)
{
    static struct job job, again;
    int which = once_in(40) ? LARGE : SMALL;
    const struct set *s = &SETS[which];
    const struct seed *seed = &seeds[which][below(keys_of(which))];
    size_t dice = below(100);
    job.call = dice < 45 ? OPEN : dice < 75 ? UNWRAP : dice < 84 ? SEAL : dice < 93 ? WRAP : SETUP;
    if (job.call == SETUP && which == LARGE && !once_in(8)) job.call = OPEN;
    int changed = 0;
    job.work = s->work;
    job.set = s->byte;
    job.outputs = 1;
    switch (job.call) {
    case SETUP:
        job.inputs = 1;
        job.outputs = 2;
        memcpy(room[0], seed->random, job.in_length[0] = s->setup_random);
        change_setup_random(room[0], s);
        if (once_in(16)) job.set = (uint8_t)next();
        job.out_length[0] = s->public_key;
        job.out_length[1] = s->private_key;
        break;
    case SEAL:
    case WRAP: {
        job.inputs = 3;
        memcpy(room[0], seed->public_key, job.in_length[0] = s->public_key);
        changed = change_public(room[0], s, which);
        size_t blocks = once_in(2) ? 1 : 1 + below(16);
        job.in_length[1] = blocks * block_bytes(s);
        if (once_in(2)) memcpy(room[1], seed->blocks, job.in_length[1]);
        else fill_random(room[1], job.in_length[1]);
        if (once_in(16)) memset(room[1], once_in(2) ? 0 : 255, job.in_length[1]);
        memcpy(room[2], seed->message, s->k1);
        job.in_length[2] = job.call == SEAL ? s->k1 : once_in(8) ? below(s->k1 + 3) : 1 + below(s->k1);
        if (once_in(4)) fill_random(room[2], job.in_length[2]);
        job.out_length[0] = s->cipher;
        break;
    }
    default:
        job.inputs = 2;
        memcpy(room[0], seed->private_key, job.in_length[0] = s->private_key);
        memcpy(room[1], job.call == OPEN ? seed->sealed : seed->wrapped, job.in_length[1] = s->cipher);
        job.out_length[0] = job.call == OPEN ? s->k1 : once_in(4) ? below(s->k1 + 3) : seed->secret;
        changed = change_private(room[0], s, which);
        changed |= change_cipher(room[1], s, which, seed);
    }
    if (once_in(10)) { /* a length beside the right one */
        size_t whose = below((size_t)(job.inputs + job.outputs + 1));
        changed = 1;
        if (whose < (size_t)job.inputs) job.in_length[whose] = changed_length(job.in_length[whose], 130000);
        else if (whose < (size_t)(job.inputs + job.outputs))
            job.out_length[whose - (size_t)job.inputs] = changed_length(job.out_length[whose - (size_t)job.inputs], 130000);
        else job.work = changed_length(job.work, SETS[LARGE].work);
    }
    for (int i = 0; i < job.inputs; i++) job.in[i] = room[i];
    int at_end = (int)below(2);
    uint8_t mark = (uint8_t)(1 + below(255));
    run(&job, at_end, mark);
    unsigned answer = job.answer % 256;
    counts[job.call][which][answer]++;

    if ((job.call == OPEN || job.call == UNWRAP) && !changed && answer != 11) {
        if (answer != 0 || memcmp(job.left[0], seed->message, job.out_length[0] < seed->secret || job.call == OPEN ? job.out_length[0] : seed->secret) != 0)
            fail("an unchanged seal does not open: %u", job.answer);
        opened_as_sealed++;
    }
    if (once_in(8)) { /* the same again, elsewhere in memory and over other contents */
        again = job;
        run(&again, !at_end, (uint8_t)(mark ^ 85 ? mark ^ 85 : 1));
        if (again.answer != job.answer) fail("answers %u, then %u", job.answer, again.answer);
        if (answer == 0)
            for (int i = 0; i < job.outputs; i++)
                if (memcmp(job.left[i], again.left[i], job.out_length[i]) != 0) fail("output %d differs between two runs", i);
        repeated++;
    }
    if (job.call == SETUP && answer == 0 && once_in(4)) { /* the new key seals and opens */
        static uint8_t public_key[118441], private_key[121666], blocks[16 * 188], message[504], cipher[785];
        memcpy(public_key, job.left[0], s->public_key);
        memcpy(private_key, job.left[1], s->private_key);
        fill_random(blocks, 16 * block_bytes(s));
        fill_random(message, s->k1);
        job = (struct job){.call = SEAL, .in = {public_key, blocks, message}, .in_length = {s->public_key, 16 * block_bytes(s), s->k1},
                           .inputs = 3, .out_length = {s->cipher}, .outputs = 1, .work = s->work};
        run(&job, at_end, mark);
        if (job.answer % 256 != 0) fail("a new key does not seal: %u", job.answer);
        memcpy(cipher, job.left[0], s->cipher);
        job = (struct job){.call = OPEN, .in = {private_key, cipher}, .in_length = {s->private_key, s->cipher}, .inputs = 2,
                           .out_length = {s->k1}, .outputs = 1, .work = s->work};
        run(&job, at_end, mark);
        if (job.answer == 8) counts[OPEN][which][8]++; /* the key's W may be singular: the table's own refusal */
        else if (job.answer != 0 || memcmp(job.left[0], message, s->k1) != 0) fail("a new key does not open: %u", job.answer);
        opened_as_sealed += job.answer == 0;
    }
}

static void start(void)
{
    make_arenas();
    for (int i = 0; i < 3; i++)
        if (!(room[i] = calloc(1, 262144))) exit(2);
    make_seeds();
}

#ifdef LIBFUZZER
int LLVMFuzzerTestOneInput(const uint8_t *data, size_t size);
int LLVMFuzzerTestOneInput(const uint8_t *data, size_t size)
{
    static int started;
    if (!started) start(), started = 1;
    chosen = data;
    chosen_left = size;
    state = size;
    one_case();
    number++;
    return 0;
}
#else
static double seconds(clockid_t clock)
{
    struct timespec t;
    clock_gettime(clock, &t);
    return (double)t.tv_sec + (double)t.tv_nsec * 1e-9;
}

static void report(uint64_t first, uint64_t cases, double time)
{
    printf("fuzz: %llu cases from number %llu on, %llu calls, %.0f seconds by the clock, %.0f of processor time\n",
           (unsigned long long)cases, (unsigned long long)first, (unsigned long long)calls_made, time, seconds(CLOCK_PROCESS_CPUTIME_ID));
    printf("fuzz: %zu times what was sealed opened to the message, %zu cases run twice with the same result\n", opened_as_sealed, repeated);
    for (int which = 0; which < 2; which++)
        for (int call = 0; call < CALLS; call++) {
            printf("fuzz: set %d %s:", which == LARGE ? 1 : 6, NAMES[call]);
            for (int answer = 0; answer < 12; answer++)
                if (counts[call][which][answer]) printf(" %d: %llu", answer, (unsigned long long)counts[call][which][answer]);
            printf("\n");
        }
    fflush(stdout);
}

int main(int argc, char **argv)
{
    int single = argc == 3 && strcmp(argv[1], "case") == 0;
    if (argc < 2 || argc > 3) {
        fprintf(stderr, "usage: fuzz SECONDS [FIRST] | fuzz case NUMBER\n");
        return 2;
    }
    double budget = single ? 0 : atof(argv[1]);
    uint64_t first = argc == 3 ? strtoull(argv[2], NULL, 10) : (uint64_t)time(NULL) * 1000000007u % 1000000000000u;
    watch();
    start();
    double begin = seconds(CLOCK_MONOTONIC), shown = begin;
    for (number = first;; number++) {
        state = number * 0x2545f4914f6cdd1du + 1;
        one_case();
        if (single) break;
        if ((number - first) % 64 == 63) {
            double now = seconds(CLOCK_MONOTONIC);
            if (now - begin >= budget) break;
            if (now - shown >= 60) {
                shown = now;
                report(first, number - first + 1, now - begin);
            }
        }
    }
    report(first, number - first + 1, seconds(CLOCK_MONOTONIC) - begin);
    printf("fuzz: nothing found\n");
    return 0;
}
#endif
