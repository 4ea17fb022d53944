#!/usr/bin/env python3
"""slow_names.py [PROGRAM]: counts the instructions that headers of names made to be slow take in PROGRAM (default: target/bin/cards).

Each header has 720 cards. The last is no END, so the header is refused when all its cards are listed, and nothing else is printed: what is
counted, without the instructions of an empty input, is the list alone. With END in the last card it is the whole program.
Needs valgrind. slow_names.py --write DIR writes the headers only.
"""
import os
import random
import re
import subprocess
import sys
import tempfile

CARDS = 720

# The mark by which the list found names before it had keys. Modulo MODULUS it is linear in a name's bytes.
FACTOR = 4294957665
HALF = 2**32
MODULUS = FACTOR * HALF - 1


def mark(name):
    m = 0
    for byte in name.encode():
        m = m % HALF * FACTOR + m // HALF + byte
    return m


def reduced(basis):
    """An LLL-reduced basis of the lattice: exact products, and quotients in floating point."""
    basis = [row[:] for row in basis]
    size = len(basis)
    mu = [[0.0] * size for _ in range(size)]
    squares = [0.0] * size

    def product(a, b):
        return sum(x * y for x, y in zip(a, b))

    def project(k):
        rest = [0.0] * size
        for j in range(k + 1):
            rest[j] = float(product(basis[k], basis[j])) - sum(mu[j][i] * rest[i] for i in range(j))
            if j < k:
                mu[k][j] = rest[j] / squares[j]
        squares[k] = rest[k]

    project(0)
    k = 1
    while k < size:
        changed = True
        while changed:
            changed = False
            project(k)
            for j in range(k - 1, -1, -1):
                times = round(mu[k][j])
                if times:
                    changed = True
                    basis[k] = [x - times * y for x, y in zip(basis[k], basis[j])]
                    for i in range(j):
                        mu[k][i] -= times * mu[j][i]
                    mu[k][j] -= times
        if squares[k] + mu[k][k - 1] ** 2 * squares[k - 1] < 0.75 * squares[k - 1]:
            basis[k - 1], basis[k] = basis[k], basis[k - 1]
            if k == 1:
                project(0)
            k = max(k - 1, 1)
        else:
            k += 1
    return basis


def names_of_one_mark(count, length):
    """Names of letters that have one mark: a middle letter, and short differences that leave the mark as it is."""
    weights = [pow(FACTOR, length - 1 - i, MODULUS) for i in range(length)]
    first = pow(weights[0], -1, MODULUS)
    basis = [[MODULUS] + [0] * (length - 1)]
    for i in range(1, length):
        basis.append([-weights[i] * first % MODULUS] + [int(j == i) for j in range(1, length)])
    short = reduced(basis)
    names = {}
    differences = [[0] * length] + short + [[-x for x in row] for row in short]
    for a in differences:
        for b in differences:
            letters = [ord("M") + x + y for x, y in zip(a, b)]
            if all(ord("A") <= letter <= ord("Z") for letter in letters):
                name = "".join(map(chr, letters))
                names.setdefault(mark(name), set()).add(name)
    most = max(names.values(), key=len)
    if len(most) < count:
        sys.exit(f"only {len(most)} names of one mark")
    return sorted(most)[:count]


def key(name):
    """The key by which the list orders names: words of 9 bytes, the first byte lowest."""
    digits = [byte % 128 + 1 for byte in name.encode()] + [0] * 81
    return [sum(digits[9 * q + i] * 129**i for i in range(9)) for q in range(9)]


def plain(name):
    return f"{name:8}= 1 / a comment"


def hierarch(name):
    return f"HIERARCH {name}= 1"


def headers():
    """Pairs of a header's name and its first 719 cards."""
    count = CARDS - 1
    chance = random.Random(1)
    words = [f"N{k}" for k in range(1000, 1000 + count)]
    letters = ["".join(chance.choices("ABCDEFGHIJKLMNOPQRSTUVWXYZ", k=40)) for _ in range(count)]
    eso = [f"ESO DET CHIP{k % 9} OUT{k // 9 % 9} KEY{k}" for k in range(count)]
    alike = ["A" * 63 + f"{k:04}" for k in range(count)]
    pieces = ["A " * 32 + f"{k:04}" for k in range(count)]
    marked = names_of_one_mark(count, 40)
    yield "keywords", map(plain, words)
    yield "keywords, keys rising", map(plain, sorted(words, key=key))
    yield "keywords, keys falling", map(plain, sorted(words, key=key, reverse=True))
    yield "HIERARCH names of 40 letters", map(hierarch, letters)
    yield "HIERARCH names of an observatory", map(hierarch, eso)
    for what, names in (("names of one former mark", marked), ("names that differ in their last word", alike), ("the same in pieces", pieces)):
        dotted = {name: key(".".join(name.split())) for name in names}
        rising = sorted(names, key=dotted.get)
        yield what + ", keys rising", map(hierarch, rising)
        yield what + ", keys falling", map(hierarch, rising[::-1])
        yield what + ", mixed", map(hierarch, chance.sample(rising, count))


def laid(cards, last):
    return b"".join(f"{card:80}".encode() for card in [*cards, last])


# callgrind counts each byte that `rep stosb` clears as an instruction, so memset is told to do without it.
PLAIN_STORES = {**os.environ, "GLIBC_TUNABLES": "glibc.cpu.x86_rep_stosb_threshold=1000000000"}


def counted(program, given):
    with tempfile.NamedTemporaryFile() as out:
        command = ["valgrind", "--tool=callgrind", "--callgrind-out-file=" + out.name, program]
        ran = subprocess.run(command, input=given, capture_output=True, check=True, env=PLAIN_STORES)
    return int(re.search(rb"Collected : (\d+)", ran.stderr).group(1))


def main():
    if sys.argv[1:2] == ["--write"]:
        os.makedirs(sys.argv[2], exist_ok=True)
        for what, cards in headers():
            with open(os.path.join(sys.argv[2], what.replace(" ", "_").replace(",", "") + ".fits"), "wb") as out:
                out.write(laid(cards, "END"))
        return
    program = sys.argv[1] if len(sys.argv) > 1 else "target/bin/cards"
    nothing = counted(program, b"")
    ordinary = None
    for what, cards in headers():
        cards = list(cards)
        listed = counted(program, laid(cards, "COMMENT")) - nothing
        ordinary = ordinary or listed
        print(f"{what:55} {counted(program, laid(cards, 'END')):10} whole {listed:9} list {listed / ordinary:6.2f}", flush=True)


main()
