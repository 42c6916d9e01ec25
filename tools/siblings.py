#!/usr/bin/env python3
"""Writes cases for `replay`: siblings of a key, each with the key's form.

usage: siblings.py KEY.slip J [J ..]      (the numbers j of the siblings, from 0 to 4n - 1)

Works over Python's integers and shares nothing with the crates: the siblings by turning
lists, the form by the defining sums of products in Z[X]/(X^n + 1).
"""
import struct, sys

def times(a, b):
    n = len(a)
    out = [0] * n
    for i, x in enumerate(a):
        for j, y in enumerate(b):
            if i + j < n:
                out[i + j] += x * y
            else:
                out[i + j - n] -= x * y
    return out

def star(a):
    return [a[0]] + [-x for x in reversed(a[1:])]

def plus(a, b):
    return [x + y for x, y in zip(a, b)]

def turn(k, a):
    for _ in range(k):
        a = [-a[-1]] + a[:-1]
    return a

def minus(a):
    return [-x for x in a]

def sibling(j, f, g, F, G):
    n = len(f)
    if j < 2 * n:
        return turn(j, f), turn(2 * n - j, g), turn(j, F), turn(2 * n - j, G)
    k = j - 2 * n
    return turn(k, g), minus(turn(2 * n - k, f)), turn(k, G), minus(turn(2 * n - k, F))

def main():
    slip = open(sys.argv[1], "rb").read()
    n = (len(slip) - 8) // 4
    cls = slip[-7]
    f, g, F, G = [list(struct.unpack(f"{n}b", slip[i * n:(i + 1) * n])) for i in range(4)]
    q00 = plus(times(star(f), f), times(star(g), g))
    q01 = plus(times(star(f), F), times(star(g), G))
    q11 = plus(times(star(F), F), times(star(G), G))
    form = struct.pack(f">{3 * n}i", *(q00 + q01 + q11)) + struct.pack(">BBHI", 0x46, cls, 3, 12 * n + 8)
    for j in map(int, sys.argv[2:]):
        parts = sibling(j, f, g, F, G)
        key = struct.pack(f"{4 * n}b", *sum(parts, [])) + struct.pack(">BBHI", 0x4B, cls, 4, 4 * n + 8)
        print(f"make-form scratch={4 * n} key={key.hex()} expect=ok:{form.hex()}")

main()
