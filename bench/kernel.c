/* The kernel of the field crate once more in C, statement by statement: gf::add_run, and the products that key setup would
 * cost if it were nothing else. Compiled by the compiler of the proved library, with its level of optimisation. */
typedef unsigned short u16;
typedef unsigned long usize;

static inline u16 times_alpha(u16 v) { return (u16)((u16)(v % 512 * 2) ^ (u16)(v / 512 % 2 * 9)); }

static inline u16 where_odd(u16 x, u16 t) { return (u16)(x % 2 * t); }

static inline void multiples(u16 f, u16 t[10])
{
    t[0] = f % 1024;
    for (int i = 1; i < 10; i++) t[i] = times_alpha(t[i - 1]);
}

static inline u16 combine(const u16 t[10], u16 v)
{
    u16 sum = 0;
    for (int i = 0; i < 10; i++) {
        sum ^= where_odd(v, t[i]);
        v /= 2;
    }
    return sum;
}

/* f times the n elements from src on, added to those from dst on */
static __attribute__((noinline)) void add_run(u16 *s, usize dst, usize src, usize n, u16 f)
{
    u16 t[10];
    multiples(f, t);
    for (usize i = 0; i < n; i++) s[dst + i] ^= combine(t, s[src + i]);
}

/* For each of `rows` rows as the source: that row, times an element, added to each of the rows. rows * rows * columns products. */
void kernel_products(u16 *matrix, usize rows, usize columns)
{
    for (usize source = 0; source < rows; source++)
        for (usize row = 0; row < rows; row++)
            if (row != source) add_run(matrix, row * columns, source * columns, columns, (u16)(1 + (row + source) % 1023));
            else add_run(matrix, row * columns, (row + 1) % rows * columns, columns, 1);
}
