/* The same job in plain C, unverified: no check of the board, a table from number to slot, buffered input and output.
   The table has one slot for a number: where orders of several customers have it, all but the one placed last are looked for slot by slot.
   With -DSCAN it has no table and looks through the slots for each order, as the proved program does. */
#include <stdint.h>
#include <stdio.h>
#include <string.h>
#include <unistd.h>

enum { MOST = 1024, IN = 1 << 16, OUT = 1 << 16, LINE = 67, CODES = 999 };

struct slot {
    uint16_t code, number, label, count, row[8];
};

static struct slot board[MOST + 1];
static uint16_t started[MOST + 1]; /* by slot: a started order stays in its own */
static unsigned n, held;
static uint32_t lines, accepted, refused;
static uint64_t orders, numbers; /* A lines since the last Z, and the sum of their order numbers */
static unsigned char in[IN], out[OUT];
static size_t filled;

static unsigned scan(unsigned code, unsigned number)
{
    unsigned s;
    for (s = 1; s <= n; s++) {
        if (board[s].number == number && board[s].code == code)
            return s;
    }
    return 0;
}

#ifdef SCAN
static unsigned where(unsigned code, unsigned number)
{
    return scan(code, number);
}

static void set_where(unsigned number, unsigned s)
{
    (void)number;
    (void)s;
}

static void count_number(unsigned number, int more)
{
    (void)number;
    (void)more;
}
#else
/* of each number: where the order that was placed last with it went, and how many held orders have it */
static uint16_t slot_of[65536], times[65536];

static unsigned where(unsigned code, unsigned number)
{
    unsigned s = slot_of[number];
    if (times[number] == 0)
        return 0;
    return board[s].number == number && board[s].code == code ? s : scan(code, number);
}

static void set_where(unsigned number, unsigned s)
{
    slot_of[number] = (uint16_t)s;
}

static void count_number(unsigned number, int more)
{
    times[number] = (uint16_t)(times[number] + more);
}
#endif

static void flush(void)
{
    size_t at = 0;
    while (at < filled) {
        ssize_t k = write(1, out + at, filled - at);
        if (k <= 0)
            break;
        at += (size_t)k;
    }
    filled = 0;
}

static void row(char letter, const uint64_t *v, unsigned k)
{
    unsigned char *p;
    unsigned i;
    if (OUT - filled < 2 + 10 * k)
        flush();
    p = out + filled;
    *p++ = (unsigned char)letter;
    memset(p, ' ', 10 * k);
    for (i = 0; i < k; i++) {
        unsigned char *q = p += 10;
        uint64_t x = v[i];
        do {
            *--q = (unsigned char)('0' + x % 10);
            x /= 10;
        } while (x);
    }
    *p++ = '\n';
    filled += 2 + 10 * k;
}

static void count_line(int ok)
{
    if (lines != UINT32_MAX)
        lines++;
    if (ok) {
        if (accepted != UINT32_MAX)
            accepted++;
    } else if (refused != UINT32_MAX)
        refused++;
}

static void answer(char letter, unsigned code, unsigned number, unsigned refusal, uint64_t count)
{
    uint64_t v[4];
    v[0] = code;
    v[1] = number;
    v[2] = refusal;
    v[3] = count;
    row(letter, v, 4);
    count_line(refusal == 0);
}

static void shut(const uint16_t *marked, unsigned code, unsigned number, unsigned size)
{
    uint64_t v[8];
    unsigned s, k = 0;
    answer('A', code, number, 12, size);
    for (s = 1; s <= n; s++) {
        if (!marked[s])
            continue;
        v[k++] = s;
        if (k == 8) {
            row('K', v, 8);
            k = 0;
        }
    }
    if (k)
        row('K', v, k);
}

/* 1 if the order reaches a free slot; else the slots that it reaches are marked, and *size of them there are */
static int reach(const uint16_t *list, unsigned count, uint16_t *marked, unsigned *size)
{
    static uint16_t queue[MOST];
    unsigned head = 0, tail = 0, i;
    for (i = 0; i < count; i++) {
        if (board[list[i]].number == 0)
            return 1;
    }
    memset(marked, 0, (n + 1) * sizeof *marked);
    for (i = 0; i < count; i++) {
        marked[list[i]] = 1;
        queue[tail++] = list[i];
    }
    while (head < tail) {
        const struct slot *s = &board[queue[head++]];
        for (i = 0; i < s->count; i++) {
            unsigned t = s->row[i];
            if (marked[t])
                continue;
            if (board[t].number == 0)
                return 1;
            marked[t] = 1;
            queue[tail++] = (uint16_t)t;
        }
    }
    *size = tail;
    return 0;
}

static uint64_t place(struct slot x)
{
    uint64_t moves = 0;
    for (;;) {
        unsigned best = x.row[0], least = board[best].label, other = n, i;
        struct slot y;
        for (i = 1; i < x.count; i++) {
            unsigned t = x.row[i], l = board[t].label;
            if (l < least) {
                other = least;
                best = t;
                least = l;
            } else if (l < other)
                other = l;
        }
        y = board[best];
        x.label = (uint16_t)(other < n ? other + 1 : n);
        board[best] = x;
        set_where(x.number, best);
        moves++;
        if (y.number == 0)
            return moves;
        x = y;
    }
}

static void accept(const unsigned *v, unsigned columns)
{
    static uint16_t marked[MOST + 1];
    unsigned code = v[0], number = v[1], count = columns - 2, i, size = 0;
    struct slot x;
    if (n == 0) {
        answer('A', code, number, 5, 0);
        return;
    }
    if (code < 1 || code > CODES) {
        answer('A', code, number, 16, 0);
        return;
    }
    if (number == 0) {
        answer('A', code, number, 7, 0);
        return;
    }
    if (count < 1 || count > 8) {
        answer('A', code, number, 8, 0);
        return;
    }
    for (i = 0; i < count; i++) {
        if (v[i + 2] < 1 || v[i + 2] > n) {
            answer('A', code, number, 9, 0);
            return;
        }
    }
    for (i = 1; i < count; i++) {
        if (v[i + 2] <= v[i + 1]) {
            answer('A', code, number, 10, 0);
            return;
        }
    }
    if (where(code, number)) {
        answer('A', code, number, 11, 0);
        return;
    }
    memset(&x, 0, sizeof x);
    x.code = (uint16_t)code;
    x.number = (uint16_t)number;
    x.count = (uint16_t)count;
    for (i = 0; i < count; i++)
        x.row[i] = (uint16_t)v[i + 2];
    if (!reach(x.row, count, marked, &size)) {
        shut(marked, code, number, size);
        return;
    }
    held++;
    count_number(number, 1);
    answer('A', code, number, 0, place(x));
}

/* the refusal of a W or F, or 0; the order's slot is *s then */
static unsigned named(unsigned code, unsigned number, unsigned *s)
{
    if (n == 0)
        return 5;
    if (code < 1 || code > CODES)
        return 16;
    if (number == 0)
        return 7;
    *s = where(code, number);
    if (*s == 0)
        return 13;
    return started[*s] ? 14 : 0;
}

static void withdraw(unsigned code, unsigned number)
{
    unsigned s, refusal = named(code, number, &s);
    if (refusal) {
        answer('W', code, number, refusal, 0);
        return;
    }
    memset(&board[s], 0, sizeof board[0]);
    count_number(number, -1);
    held--;
    for (s = 1; s <= n; s++) {
        if (board[s].number)
            board[s].label = 1;
    }
    answer('W', code, number, 0, 0);
}

/* no line shows a list, so that the order's own slot is all that is left of it */
static void start(unsigned code, unsigned number)
{
    unsigned s, refusal = named(code, number, &s);
    if (!refusal) {
        started[s] = 1;
        board[s].count = 1;
        board[s].row[0] = (uint16_t)s;
    }
    answer('F', code, number, refusal, 0);
}

/* the control total is kept whole and cut to 65,536 when it is asked for */
static void total(unsigned count, unsigned sum)
{
    int agree = count == orders % 65536 && sum == numbers % 65536;
    answer('Z', 0, count, agree ? 0 : 15, 0);
    orders = numbers = 0;
}

static void print(void)
{
    unsigned s;
    if (n == 0) {
        answer('P', 0, 0, 5, 0);
        return;
    }
    answer('P', 0, held, 0, n);
    for (s = 1; s <= n; s++) {
        uint64_t v[4];
        v[0] = s;
        v[1] = board[s].code;
        v[2] = board[s].number;
        v[3] = board[s].label;
        row('L', v, 4);
    }
}

static void open_board(unsigned m)
{
    unsigned s;
    if (m < 1 || m > MOST) {
        answer('S', 0, m, 3, 0);
        return;
    }
    for (s = 1; s <= n; s++) {
        if (board[s].number)
            count_number(board[s].number, -1);
    }
    n = m;
    held = 0;
    memset(board, 0, sizeof board);
    memset(started, 0, sizeof started);
    answer('S', 0, m, 0, 0);
}

/* six bytes: spaces, then a number without leading zeros; -1 if they are not */
static long column(const unsigned char *p)
{
    unsigned i = 0;
    long v = 0;
    while (i < 6 && p[i] == ' ')
        i++;
    if (i == 6 || (p[i] == '0' && i != 5))
        return -1;
    for (; i < 6; i++) {
        if (p[i] < '0' || p[i] > '9')
            return -1;
        v = 10 * v + (p[i] - '0');
    }
    return v;
}

static void line(const unsigned char *p, size_t len)
{
    unsigned v[11], columns, i;
    int large = 0;
    if (len < 1 || len > LINE || (len - 1) % 6)
        goto spoilt;
    columns = (unsigned)((len - 1) / 6);
    switch (p[0]) {
    case 'S':
        if (columns != 1)
            goto spoilt;
        break;
    case 'A':
        if (columns < 2)
            goto spoilt;
        break;
    case 'W':
    case 'F':
    case 'Z':
        if (columns != 2)
            goto spoilt;
        break;
    case 'P':
        if (columns)
            goto spoilt;
        break;
    default:
        goto spoilt;
    }
    for (i = 0; i < columns; i++) {
        long x = column(p + 1 + 6 * i);
        if (x < 0)
            goto spoilt;
        if (x > 65535)
            large = 1;
        v[i] = (unsigned)x;
    }
    if (large) {
        answer('X', 0, 0, 2, 0);
        return;
    }
    switch (p[0]) {
    case 'S':
        open_board(v[0]);
        break;
    case 'A':
        orders++;
        numbers += v[1];
        accept(v, columns);
        break;
    case 'W':
        withdraw(v[0], v[1]);
        break;
    case 'F':
        start(v[0], v[1]);
        break;
    case 'Z':
        total(v[0], v[1]);
        break;
    default:
        print();
    }
    return;
spoilt:
    answer('X', 0, 0, 1, 0);
}

int main(void)
{
    static unsigned char kept[LINE + 1];
    size_t waiting = 0; /* bytes of an unended line, LINE + 1 where it is too long */
    uint64_t v[3];
    for (;;) {
        ssize_t got = read(0, in, IN);
        size_t at = 0;
        if (got <= 0)
            break;
        while (at < (size_t)got) {
            unsigned char *end = memchr(in + at, '\n', (size_t)got - at);
            size_t len = end ? (size_t)(end - in) - at : (size_t)got - at;
            if (end && !waiting) {
                line(in + at, len);
            } else {
                size_t room = LINE + 1 - waiting, k = len < room ? len : room;
                memcpy(kept + waiting, in + at, k);
                waiting += k;
                if (end) {
                    line(kept, waiting);
                    waiting = 0;
                }
            }
            at += len + (end != NULL);
        }
    }
    if (waiting)
        answer('X', 0, 0, 1, 0);
    v[0] = lines;
    v[1] = accepted;
    v[2] = refused;
    row('N', v, 3);
    flush();
    return 0;
}
