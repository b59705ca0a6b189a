#!/usr/bin/env python3
"""Prints the lines of the stored streams, which stand last in stdin: python3 streams.py"""
import random

KINDS = [0, 2, 1, 1, 4, 3, 3, 3, 5, 6, 0, 5]
TABLES = bytes(KINDS).hex() + '|1 2 3 3 4 5 5 5 6 7 8 9|0 0 1 1 0 2 2 2 0 0 0 0|3 6|4 8|0001|3 5'
rng = random.Random(7)


def value(kind):
    if kind <= 4:
        return bytes([rng.randrange(9 if kind <= 1 else 2 if kind <= 3 else 256)])
    near = rng.choice([0, 1, 63, 64, 127, 128, 8191, 8192, 2 ** 31, 2 ** 62, 2 ** 63 - 1, 2 ** 63, rng.randrange(2 ** 64)])
    return ((near if rng.random() < 0.5 else -near - rng.randrange(2)) % 2 ** 64).to_bytes(8, 'big')


def stream(steps, fault):
    out, time = b'', rng.choice([0, 1, 258, 2 ** 63, rng.randrange(2 ** 64)])
    for k in range(steps):
        if k:
            jump = rng.choice([0, 1, 63, 64, 8191, 8192, rng.randrange(2 ** 20), 2 ** 63 - 1])
            jump = -1 if fault == 23 and k == steps - 1 else jump
            time = min(max(time + jump, 0), 2 ** 64 - 1)
        out += b'\1' + time.to_bytes(8, 'big')
        ids = sorted(rng.sample(range(1, 13), rng.choice([0, 1, 2, 5, 12])))
        if fault == 22 and k == steps - 1 and len(ids) > 1:
            ids[-1] = ids[0]
        for i in ids:
            kind = KINDS[i - 1]
            out += (b'\2' if kind <= 4 else b'\3') + i.to_bytes(4, 'big') + value(kind)
        out += b'\4'
    return out


print('# signals of every kind; ids 3 and 4 are a nine-state vector, 6 to 8 a two-state one')
for k in range(160):
    s = stream(rng.choice([1, 2, 3, 5]), rng.choice([0, 0, 0, 0, 22, 23]))
    print(f'round||{TABLES}||2048|{s.hex()}')
