#!/usr/bin/env python3
"""Climbs from the calls that search.c found to longer ones, by exact instruction counts.

climb.py KIND FILE LARGEST_V LARGEST_N SEED: each turn changes the longest calls known a little, counts some 400 changed ones in one run of callgrind, and keeps the longest 40.
It ends after 15 turns without a longer one. It begins with the calls of FILE and those of longest.txt that belong to the class. It prints the longest call, then the
longest that was refused."""
import math
import os
import random
import struct
import sys

import count

KEPT, TRIED, PATIENCE = 40, 400, 15
SCALED_ALONE = sys.argv[1] == "s"


def value(word):
    return struct.unpack(">d", bytes.fromhex(word))[0]


def word(x):
    return struct.pack(">d", x).hex().upper()


def nudged(x):
    way = random.randrange(7)
    if way == 0:
        return x * (1 + random.choice((-1, 1)) * 2.0 ** random.uniform(-50, -1))
    if way == 1:
        return x + random.choice((-1, 1)) * 2.0 ** random.uniform(-40, 10)
    if way == 2:
        return float(math.floor(x))
    if way == 3:
        return math.floor(x) + random.random()
    if way == 4:
        return math.ldexp(x, random.randint(-4, 4))
    if way == 5:
        bits = struct.unpack(">q", struct.pack(">d", x))[0] ^ (1 << random.randrange(52))
        return struct.unpack(">d", struct.pack(">q", bits))[0]
    return x * (1 + random.choice((-1, 1)) * 2.0 ** random.uniform(-14, -4))


def changed(call, v, n):
    kind, scaled, order, re, im, orders = call.split()
    scaled, order, re, im, orders = int(scaled), value(order), value(re), value(im), int(orders)
    if kind == "g":
        return f"g 0 {word(abs(nudged(order)))} {word(0.0)} {word(0.0)} 1"
    for _ in range(random.randint(1, 2)):
        way = random.randrange(6)
        if way == 0:
            order = min(v, abs(nudged(order)))
        elif way == 1:
            re = min(32768.0, abs(nudged(re)))
        elif way == 2:
            im = max(-32768.0, min(32768.0, nudged(im)))
        elif way == 3:
            orders = random.choice((n, random.randint(1, n)))
        elif way == 4:
            scaled ^= not SCALED_ALONE and random.random() < 0.2
        else:
            re, im = min(32768.0, abs(nudged(re))), max(-32768.0, min(32768.0, nudged(im)))
    return f"{kind} {scaled} {word(order)} {word(re)} {word(im)} {orders}"


def belongs(call, kind, v, n):
    words = call.split()
    return words[0] == kind.replace("s", "k") and value(words[2]) <= v and int(words[5]) <= n and (kind != "s" or words[1] != "0") or words[0] == kind == "g"


def main():
    file, v, n = sys.argv[2], float(sys.argv[3]), int(sys.argv[4])
    random.seed(int(sys.argv[5]))
    program = count.build("count")
    known = {}
    longest = [line.split("#")[0].strip() for line in open(os.path.join(count.HERE, "longest.txt"))]
    starts = {line.strip() for line in open(file)} | {c for c in longest if c and belongs(c, sys.argv[1], v, n)}
    calls = sorted(starts - {""})
    best = idle = turns = 0
    while idle < PATIENCE:
        for total, call, answer in count.counted(program, calls):
            known[call] = (total, answer)
        kept = sorted(known, key=lambda c: -known[c][0])[:KEPT]
        idle = idle + 1 if known[kept[0]][0] <= best else 0
        best = known[kept[0]][0]
        turns += 1
        fresh = {changed(random.choice(kept), v, n) for _ in range(TRIED)}
        calls = sorted(fresh - known.keys())
    print(f"climb: {turns} turns, {len(known)} calls counted")
    print(best, kept[0], *known[kept[0]][1])
    refused = [c for c in known if known[c][1][0]]
    if refused:
        top = max(refused, key=lambda c: known[c][0])
        print(known[top][0], top, *known[top][1])


if __name__ == "__main__":
    main()
