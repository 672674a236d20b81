#!/usr/bin/env python3
"""Input files for the benchmark and for comparing runs. Usage: loads.py NAME LINES [SLOTS] > FILE.

Each load is made by a fixed seed, so that a name, a count and a size give the same bytes every time."""
import random
import sys


def line(letter, *numbers):
    return (letter + "".join("%6d" % v for v in numbers) + "\n").encode()


def order(k):
    """An order of the number k, as its line begins: the code goes by the number, so that it takes no throw."""
    return 1 + k % 999, k


def some_order(r, k):
    """The same, now and then with another code, or with one that is none."""
    x = r.random()
    return r.choice([0, 1000, 65535]) if x < 0.03 else order(k + (x < 0.25))[0], k


def rising(r, n, most, lo=1, hi=None):
    hi = hi or n
    k = min(r.randint(1, most), hi - lo + 1)
    return sorted(r.sample(range(lo, hi + 1), k))


def refill(r, count, n):
    """The board is opened and filled to nine tenths, over and over."""
    made = 0
    while made < count:
        yield line("S", n)
        made += 1
        for k in range(1, max(1, n * 9 // 10) + 1):
            if made == count:
                return
            yield line("A", *order(k), *rising(r, n, 8))
            made += 1


def refused(r, count, n):
    """A full board, one chain of overlapping lists: every further order is refused, with a large blocked set."""
    yield line("S", n)
    yield line("A", *order(1), 1)
    for k in range(2, n + 1):
        yield line("A", *order(k), k - 1, k)
    for k in range(count - n - 1):
        yield line("A", *order(20000 + k % 40000), *rising(r, n, 8))


def shuffle(r, count, n):
    """A chain of overlapping lists with one free slot, at its far end: an order at the near end shifts the whole chain, and leaves again. Ends change places each time."""
    yield line("S", n)
    for k in range(1, n):
        yield line("A", *order(k), k, k + 1)
    for made in range(n, count):
        turn = made - n
        guest = 30000 + turn // 2 % 2
        if turn % 2 == 0:
            yield line("A", *order(guest), 1 if guest == 30000 else n)
        else:
            yield line("W", *order(guest))


def churn(r, count, n):
    """Orders and withdrawals at 85 percent."""
    yield line("S", n)
    held, free = [], list(range(1, 65536))
    r.shuffle(free)
    for made in range(1, count):
        if len(held) < n * 85 // 100 or (held and len(held) < n * 87 // 100 and r.random() < 0.5):
            k = free.pop()
            held.append(k)
            yield line("A", *order(k), *rising(r, n, 8))
        else:
            i = r.randrange(len(held))
            k = held[i]
            held[i] = held[-1]
            held.pop()
            free.insert(0, k) if len(free) < 64 else free.append(k)
            yield line("W", *order(k))


def starts(r, count, n):
    """The board is opened, filled to two thirds, and each of its orders is started, over and over."""
    made = 0
    while made < count:
        numbers = list(range(1, max(1, n * 2 // 3) + 1))
        lines = [line("S", n)] + [line("A", *order(k), *rising(r, n, 8)) for k in numbers]
        r.shuffle(numbers)
        lines += [line("F", *order(k)) for k in numbers]
        yield from lines[:count - made]
        made += len(lines)


def prints(r, count, n):
    yield line("S", n)
    for k in range(1, n // 2):
        yield line("A", *order(k), *rising(r, n, 4))
    for _ in range(count - n // 2):
        yield b"P\n"


def damaged(r, count, n):
    """Lines with a fault of form or a number that is too large."""
    yield line("S", n)
    faults = [b"a     1     1\n", b"W     1 65536\n", b"S    01\n", b"\n", b"P     1\n", b"A     1     2     \n", b"W     1     1\r\n", b"A" + b"     1" * 12 + b"\n", b"Q\n"]
    for _ in range(count - 1):
        if r.random() < 0.5:
            yield r.choice(faults)
        else:
            yield bytes(b for b in r.randbytes(r.randint(0, 76)) if b != 10) + b"\n"


def mixed(r, count, n):
    """Everything, for comparing runs: small boards, all refusals, reopenings, control totals, numbers with two codes, codes that are none, damaged lines."""
    given = []  # the order numbers since the last Z
    for _ in range(count):
        x = r.random()
        if x < 0.01:
            yield line("S", r.choice([0, 1, 2, 3, n, n, n, 1025, 65535]))
        elif x < 0.70:
            l = rising(r, n + 1, 9)
            if r.random() < 0.03:
                r.shuffle(l)
            given.append(r.randint(0, 2 * n) if r.random() < 0.9 else 65535)
            yield line("A", *some_order(r, given[-1]), *l)
        elif x < 0.71:
            yield line("Z", (len(given) + r.choice([0, 0, 1])) % 65536, (sum(given) + r.choice([0, 0, 1])) % 65536)
            given = []
        elif x < 0.83:
            yield line("W", *some_order(r, r.randint(0, 2 * n)))
        elif x < 0.85:
            yield line("F", *some_order(r, r.randint(0, 2 * n)))
        elif x < 0.90:
            yield b"P\n"
        elif x < 0.97:
            yield r.choice([b"Z     1\n", b"Z 65536     0\n", b"a     1     1\n", b"W     1 65536\n", b"S    01\n", b"\n", b"P     1\n", b"W     1\n", b"A     1     2     \n",
                            b"A 99999     1\n", b"A" + b"     1" * 12 + b"\n"])
        else:
            yield bytes(b for b in r.randbytes(r.randint(0, 200)) if b != 10) + b"\n"


def write(name, count, n, path):
    r = random.Random("%s %d %d" % (name, count, n))
    with open(path, "wb") as out:
        for l in globals()[name](r, count, n):
            out.write(l)


def main():
    name, count = sys.argv[1], int(sys.argv[2])
    write(name, count, int(sys.argv[3]) if len(sys.argv) > 3 else 1024, "/dev/stdout")


if __name__ == "__main__":
    main()
