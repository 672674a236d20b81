/* One check and one refused order on a full board of 1,024 slots, and one check where as many orders as can be have one number:
   the proved library against the same work in plain C. */
#include <stdbool.h>
#include <stdint.h>
#include <stdio.h>
#include <string.h>
#include <time.h>

typedef uint16_t u16;

/* the proved library: a slice is a pointer and a length */
uint8_t slotboard_check(const u16 *board, size_t words);
u16 slotboard_accept_two(u16 *board, size_t words, u16 *work, size_t scratch, u16 code, u16 number, u16 first, u16 second);

enum { N = 1024, CODES = 999, WORDS = 2 + 12 * N, WORK = 14 * N + 4 };

static u16 board[WORDS], work[WORK];

static double now(void)
{
    struct timespec t;
    clock_gettime(CLOCK_MONOTONIC, &t);
    return (double)t.tv_sec + (double)t.tv_nsec * 1e-9;
}

static bool slot_fine(const u16 *b, u16 n, u16 s)
{
    const u16 *w = b + 2 + 12 * (s - 1);
    bool started = w[3] > 16, own = false;
    u16 count = started ? w[3] - 16 : w[3], last = 0;
    int i;
    if (w[1] == 0) {
        for (i = 0; i < 12; i++) {
            if (w[i])
                return false;
        }
        return true;
    }
    if (w[0] < 1 || w[0] > CODES || count < 1 || count > 8 || w[2] < 1 || w[2] > n)
        return false;
    for (i = 0; i < count; i++) {
        u16 t = w[4 + i];
        if (t <= last || t > n)
            return false;
        last = t;
        own |= t == s;
    }
    for (; i < 8; i++) {
        if (w[4 + i])
            return false;
    }
    if (!own)
        return false;
    for (i = 0; !started && i < count; i++) {
        u16 t = w[4 + i];
        if (t != s && w[2] > b[2 + 12 * (t - 1) + 2] + 1)
            return false;
    }
    return true;
}

/* a slot of 1 .. n holds the order */
static bool holds(const u16 *b, u16 n, u16 code, u16 number)
{
    u16 s;
    for (s = 1; s <= n; s++) {
        const u16 *w = b + 2 + 12 * (s - 1);
        if (w[0] == code && w[1] == number)
            return true;
    }
    return false;
}

static bool plain_check(const u16 *b, size_t words)
{
    bool seen[65536];
    u16 n, s, held = 0;
    if (words < 2)
        return false;
    n = b[0];
    if (n < 1 || n > N || words < 2 + 12 * (size_t)n)
        return false;
    memset(seen, 0, sizeof seen);
    for (s = 1; s <= n; s++) {
        u16 c = b[2 + 12 * (s - 1)], k = b[2 + 12 * (s - 1) + 1];
        if (!slot_fine(b, n, s))
            return false;
        if (k) {
            held++;
            if (seen[k] && holds(b, s - 1, c, k)) /* only a number that was met can be that of the same order */
                return false;
            seen[k] = true;
        }
    }
    return held == b[1];
}

/* the count of blocked slots where the order is refused for want of a slot, else 0: nothing is placed here */
static u16 plain_refused(u16 *b, size_t words, u16 *w, size_t scratch, u16 code, u16 number, u16 first, u16 second)
{
    u16 n, s, *queue = w, *marked, size = 0;
    size_t head = 0, tail = 0, i;
    if (!plain_check(b, words))
        return 0;
    n = b[0];
    if (scratch < 14 * (size_t)n + 4)
        return 0;
    memset(w, 0, (14 * (size_t)n + 4) * sizeof *w);
    if (code < 1 || code > CODES || !number || first < 1 || second > n || second <= first)
        return 0;
    if (holds(b, n, code, number))
        return 0;
    marked = w + n;
    marked[first] = marked[second] = 1;
    queue[tail++] = first;
    queue[tail++] = second;
    while (head < tail) {
        const u16 *x = b + 2 + 12 * (queue[head++] - 1);
        if (!x[1])
            return 0;
        for (i = 0; x[3] <= 16 && i < x[3]; i++) { /* a started order leads nowhere */
            u16 t = x[4 + i];
            if (!marked[t]) {
                marked[t] = 1;
                queue[tail++] = t;
            }
        }
    }
    for (s = 1; s <= n; s++) {
        if (marked[s])
            w[size++] = s;
    }
    memset(w + size, 0, (2 * (size_t)n + 1 - size) * sizeof *w);
    return size;
}

/* every slot held, each order on so many neighbouring slots */
static void fill(u16 choices)
{
    u16 s, k;
    memset(board, 0, sizeof board);
    board[0] = N;
    board[1] = N;
    for (s = 1; s <= N; s++) {
        u16 *w = board + 2 + 12 * (s - 1), from = s > choices / 2 ? s - choices / 2 : 1;
        if (from + choices - 1 > N)
            from = N - choices + 1;
        w[0] = 1;
        w[1] = (u16)(s * 61);
        w[2] = 1;
        w[3] = choices;
        for (k = 0; k < choices; k++)
            w[4 + k] = from + k;
    }
}

/* each code has an order 7, and what slots are left hold orders 8 */
static void fill_one_number(void)
{
    u16 s;
    fill(2);
    for (s = 1; s <= N; s++) {
        u16 *w = board + 2 + 12 * (s - 1);
        w[0] = s <= CODES ? s : s - CODES;
        w[1] = s <= CODES ? 7 : 8;
    }
}

/* seconds of so many checks */
static double checks(unsigned turns, unsigned *sum)
{
    double start = now();
    unsigned i;
    for (i = 0; i < turns; i++) {
        __asm__ volatile("" ::: "memory");
        *sum += slotboard_check(board, WORDS);
    }
    return now() - start;
}

static double plain_checks(unsigned turns, unsigned *sum)
{
    double start = now();
    unsigned i;
    for (i = 0; i < turns; i++) {
        __asm__ volatile("" ::: "memory");
        *sum += plain_check(board, WORDS);
    }
    return now() - start;
}

/* and of refused orders */
static double refusals(unsigned turns, unsigned *sum)
{
    double start = now();
    unsigned i;
    for (i = 0; i < turns; i++) {
        __asm__ volatile("" ::: "memory");
        *sum += slotboard_accept_two(board, WORDS, work, WORK, 1, 7, 1, 2);
    }
    return now() - start;
}

static double plain_refusals(unsigned turns, unsigned *sum)
{
    double start = now();
    unsigned i;
    for (i = 0; i < turns; i++) {
        __asm__ volatile("" ::: "memory");
        *sum += plain_refused(board, WORDS, work, WORK, 1, 7, 1, 2);
    }
    return now() - start;
}

typedef double timed(unsigned turns, unsigned *sum);

/* microseconds of one turn of each, the best round of many, alternating */
static void compare(const char *what, timed *proved, timed *plain, unsigned turns)
{
    enum { ROUNDS = 25 };
    double best[2] = { 1e9, 1e9 };
    unsigned round, sums[2] = { 0, 0 };
    for (round = 0; round < ROUNDS; round++) {
        double a = proved(turns, &sums[0]), b = plain(turns, &sums[1]);
        if (a < best[0])
            best[0] = a;
        if (b < best[1])
            best[1] = b;
    }
    printf("%s %.2f us, C %.2f us, ratio %.2f%s", what, best[0] / turns * 1e6, best[1] / turns * 1e6, best[0] / best[1], sums[0] == sums[1] ? "" : " ANSWERS DIFFER");
}

int main(void)
{
    static const u16 lists[] = { 2, 4, 8 };
    unsigned l;
    for (l = 0; l < sizeof lists / sizeof *lists; l++) {
        fill(lists[l]);
        printf("lists of %u: ", lists[l]);
        compare("check", checks, plain_checks, 400);
        compare("; refused order", refusals, plain_refusals, 400);
        puts("");
    }
    fill_one_number();
    compare("one number 999 times: check", checks, plain_checks, 20);
    puts("");
    return 0;
}
