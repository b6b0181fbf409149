#!/usr/bin/env python3
"""Argon2 in plain Python, from the text of RFC 9106. It makes the standard's three tags, and then
prints the vectors of the compression function that proofs/Vectors.antt of cred_argon holds: four
words mixed, the permutation of sixteen words, and G of two blocks; and, at the parameters of
section 5.3, the first word of an address block.

    python3 vectors/compress.py
"""
import hashlib
import struct

MASK = (1 << 64) - 1


def turn(x, n):
    return (x >> n | x << 64 - n) & MASK


def add(x, y):
    return (x + y + 2 * (x & 0xFFFFFFFF) * (y & 0xFFFFFFFF)) & MASK


def mixed(a, b, c, d):
    a = add(a, b)
    d = turn(d ^ a, 32)
    c = add(c, d)
    b = turn(b ^ c, 24)
    a = add(a, b)
    d = turn(d ^ a, 16)
    c = add(c, d)
    b = turn(b ^ c, 63)
    return a, b, c, d


def permuted(v):
    v = list(v)
    for a, b, c, d in (
        (0, 4, 8, 12),
        (1, 5, 9, 13),
        (2, 6, 10, 14),
        (3, 7, 11, 15),
        (0, 5, 10, 15),
        (1, 6, 11, 12),
        (2, 7, 8, 13),
        (3, 4, 9, 14),
    ):
        v[a], v[b], v[c], v[d] = mixed(v[a], v[b], v[c], v[d])
    return v


def compress(x, y):
    r = [a ^ b for a, b in zip(x, y)]
    z = list(r)
    for row in range(8):
        z[16 * row : 16 * row + 16] = permuted(z[16 * row : 16 * row + 16])
    for column in range(8):
        at = [16 * (k // 2) + 2 * column + k % 2 for k in range(16)]
        for place, word in zip(at, permuted([z[i] for i in at])):
            z[place] = word
    return [a ^ b for a, b in zip(r, z)]


def blake(n, data):
    return hashlib.blake2b(data, digest_size=n).digest()


def hash_prime(n, data):
    data = struct.pack("<I", n) + data
    if n <= 64:
        return blake(n, data)
    r = -(-n // 32) - 2
    v = blake(64, data)
    out = v[:32]
    for _ in range(r - 1):
        v = blake(64, v)
        out += v[:32]
    return out + blake(n - 32 * r, v)


def address_block(r, i, u, blocks, t, kind, number):
    zero = [0] * 128
    return compress(zero, compress(zero, [r, i, u, blocks, t, kind, number] + [0] * 121))


def first_hash(kind, m, t, p, n, inputs, version=0x13):
    h = struct.pack("<6I", p, n, m, t, version, kind)
    for data in inputs:
        h += struct.pack("<I", len(data)) + data
    return blake(64, h)


def first_block(h, lane, column):
    return hash_prime(1024, h + struct.pack("<2I", column, lane))


def argon2(kind, m, t, p, n, inputs, version=0x13):
    h = first_hash(kind, m, t, p, n, inputs, version)
    s = m // (4 * p)
    q = 4 * s
    zero = [0] * 128
    memory = [[None] * q for _ in range(p)]
    for i in range(p):
        for j in range(2):
            memory[i][j] = list(struct.unpack("<128Q", first_block(h, i, j)))
    for r in range(t):
        for u in range(4):
            for i in range(p):
                for k in range(s):
                    j = u * s + k
                    if r == 0 and j < 2:
                        continue
                    before = memory[i][j - 1]
                    if kind == 1 or (kind == 2 and r == 0 and u < 2):
                        word = address_block(r, i, u, p * q, t, kind, k // 128 + 1)[k % 128]
                    else:
                        word = before[0]
                    j1, j2 = word & 0xFFFFFFFF, word >> 32
                    lane = i if r == 0 and u == 0 else j2 % p
                    size = (u if r == 0 else 3) * s
                    if lane == i:
                        size += k - 1
                    elif k == 0:
                        size -= 1
                    place = size - 1 - (size * (j1 * j1 >> 32) >> 32)
                    start = 0 if r == 0 else (u + 1) % 4 * s
                    new = compress(before, memory[lane][(start + place) % q])
                    if r > 0 and version == 0x13:
                        new = [a ^ b for a, b in zip(new, memory[i][j])]
                    memory[i][j] = new
    last = zero
    for i in range(p):
        last = [a ^ b for a, b in zip(last, memory[i][q - 1])]
    return hash_prime(n, struct.pack("<128Q", *last))


TAGS = [
    "512b391b6f1162975371d30919734294f868e3be3984f3c1a13a4db9fabe4acb",
    "c814d9d1dc7f37aa13f0d77f2494bda1c8de6b016dd388d29952a4c4672b6ce8",
    "0d640df58d78766c08c037a34a8b53c9d01ef0452d75b65eb52520e96b01e659",
]


def main():
    for kind, tag in enumerate(TAGS):
        made = argon2(kind, 32, 3, 4, 32, (b"\1" * 32, b"\2" * 16, b"\3" * 8, b"\4" * 12))
        if made.hex() != tag:
            raise RuntimeError(f"kind {kind} gives {made.hex()}")
    print("mixed", *mixed(1, 2, 3, 4))
    print("permuted", *permuted(range(16)))
    block = struct.pack("<128Q", *compress(range(128), [0] * 128))
    print("compress", *(block[i : i + 64].hex() for i in range(0, 1024, 64)))
    print("address", address_block(0, 1, 1, 32, 3, 2, 1)[0])


if __name__ == "__main__":
    main()
