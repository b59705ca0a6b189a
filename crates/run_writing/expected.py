#!/usr/bin/env python3
"""Prints what the program must write, from the rules alone, for the cases in stdin: python3 expected.py < stdin > stdout"""
import sys


class Refused(Exception):
    pass


def unsigned(n):
    out = []
    while n >= 128:
        out.append(n % 128 + 128)
        n //= 128
    return bytes(out + [n])


def signed(n):
    out = []
    while not -64 <= n < 64:
        out.append(n % 128 + 128)
        n //= 128
    return bytes(out + [n % 128])


def in_range(kind, b):
    return b <= (8 if kind <= 1 else 1 if kind <= 3 else 255)


def check(t):
    kinds, refs, vecs, vectors = t
    if not len(kinds) == len(refs) == len(vecs):
        raise Refused(2, 0)
    for v, (low, high) in enumerate(vectors, 1):
        if not 1 <= low <= high <= len(kinds):
            raise Refused(3, v)
    for i, kind in enumerate(kinds, 1):
        if kind > 6:
            raise Refused(4, i)
        if kind in (1, 3):
            if not (1 <= vecs[i - 1] <= len(vectors) and vectors[vecs[i - 1] - 1][0] <= i <= vectors[vecs[i - 1] - 1][1]):
                raise Refused(4, i)
        elif vecs[i - 1]:
            raise Refused(4, i)
    for i in range(1, len(kinds) + 1):
        for v, (low, high) in enumerate(vectors, 1):
            if low <= i <= high and vecs[i - 1] != v:
                raise Refused(5, i)


def write(t, big, s, room):
    kinds = t[0]
    order = 'big' if big else 'little'
    out, i, steps, inside, last, last_id = b'', 0, 0, False, 0, 0

    def put(bs, at):
        nonlocal out
        if len(out) + len(bs) > room:
            raise Refused(16, at)
        out += bs

    while i < len(s):
        n = {1: 9, 2: 6, 3: 13, 4: 1}.get(s[i])
        if n is None:
            raise Refused(17, i)
        if i + n > len(s):
            raise Refused(7, i)
        if (s[i] == 1) == inside:
            raise Refused(18, i)
        if s[i] == 1:
            u = int.from_bytes(s[i + 1:i + 9], 'big')
            if steps and not 0 <= u - last < 2 ** 63:
                raise Refused(23, i)
            put(signed(u - last) if steps else b'CYC\0' + u.to_bytes(8, order), i + n)
            steps, inside, last, last_id = steps + 1, True, u, 0
        elif s[i] == 4:
            put(b'\0', i + n)
            inside = False
        else:
            d = int.from_bytes(s[i + 1:i + 5], 'big')
            if not 1 <= d <= len(kinds):
                raise Refused(13, i)
            kind = kinds[d - 1]
            if (s[i] == 2) != (kind <= 4):
                raise Refused(19, i)
            if s[i] == 2 and not in_range(kind, s[i + 5]):
                raise Refused(14, i + 5)
            if d <= last_id:
                raise Refused(22, i)
            if kind <= 4:
                value = s[i + 5:i + 6]
            elif kind == 5:
                value = signed(int.from_bytes(s[i + 5:i + 13], 'big', signed=True))
            else:
                value = s[i + 5:i + 13][::-1]
            put(unsigned(d - last_id) + value, i + n)
            last_id = d
        i += n
    if inside:
        raise Refused(7, i)
    put((b'\x7fECY\0' if steps else b'') + b'TAI\0' + bytes(8), i)
    return i, out, steps


def back(t, big, s, room):
    kinds = t[0]
    order = 'big' if big else 'little'
    at, out, steps = 0, b'', 0

    def field(n):
        nonlocal at
        if at + n > len(s):
            raise Refused(7, at)
        at += n
        return s[at - n:at]

    def leb(is_signed):
        nonlocal at
        bits, shift, i = 0, 0, at
        while True:
            if i >= len(s):
                raise Refused(7, at)
            b = s[i]
            i += 1
            if i - at == 10 and b not in ((0, 127) if is_signed else (0, 1)):
                raise Refused(12, at)
            bits |= (b & 0x7f) << shift
            shift += 7
            if b & 0x80 == 0:
                break
        at = i
        return bits - (1 << shift) if is_signed and b & 0x40 else bits

    def mark(want):
        if field(4) != want:
            raise Refused(10, at - 4)

    def put(bs):
        nonlocal out
        if len(out) + len(bs) > room:
            raise Refused(16, at)
        out += bs

    def time(u):
        nonlocal steps
        put(b'\1' + u.to_bytes(8, 'big'))
        steps += 1

    def value(d):
        kind = kinds[d - 1]
        if kind <= 4:
            b = field(1)
            if not in_range(kind, b[0]):
                raise Refused(14, at - 1)
            put(b'\2' + d.to_bytes(4, 'big') + b)
        elif kind == 5:
            put(b'\3' + d.to_bytes(4, 'big') + leb(True).to_bytes(8, 'big', signed=True))
        else:
            put(b'\3' + d.to_bytes(4, 'big') + field(8)[::-1])

    while True:
        section = field(4)
        if section == b'SNP\0':
            head = field(12)
            if head[:4] != bytes(4):
                raise Refused(9, at - 12)
            time(int.from_bytes(head[4:], order))
            for d in range(1, len(kinds) + 1):
                value(d)
            put(b'\4')
            mark(b'ESN\0')
        elif section == b'CYC\0':
            u = int.from_bytes(field(8), order)
            while True:
                time(u)
                d = 0
                while True:
                    start = at
                    delta = leb(False)
                    if delta == 0:
                        break
                    d += delta
                    if d > len(kinds):
                        raise Refused(13, start)
                    value(d)
                put(b'\4')
                start = at
                delta = leb(True)
                if delta < 0:
                    break
                u += delta
                if u >= 2 ** 64:
                    raise Refused(15, start)
            mark(b'ECY\0')
        elif section == b'DIR\0':
            count = int.from_bytes(field(8)[4:], order, signed=True)
            if count < 0:
                raise Refused(11, at - 4)
            for _ in range(count):
                field(4)
                if int.from_bytes(field(4), order, signed=True) < 0:
                    raise Refused(11, at - 4)
            mark(b'EOD\0')
        elif section == b'TAI\0':
            field(8)
            return at, out, steps
        else:
            raise Refused(8, at - 4)


def told(label, call, t, big, s, room):
    """Prints an answer, and gives the bytes that it reports."""
    try:
        check(t)
        read, out, steps = call(t, big, s, room)
    except Refused as r:
        print(f'{label}: {r.args[0]} {r.args[1]} 0 0 0 0 ')
        return b''
    print(f'{label}: 0 0 {read} {len(out)} 0 {steps} {out.hex()}')
    return out


def numbers(part):
    return [int(w) for w in part.split()]


for line in sys.stdin:
    if line.startswith('#'):
        continue
    name, label, kinds, refs, vecs, mins, maxs, _, _, flag, room, data = line.rstrip('\n').split('|')
    t = (list(bytes.fromhex(kinds)), numbers(refs), numbers(vecs), list(zip(numbers(mins), numbers(maxs))))
    s, room = bytes.fromhex(data), int(room)
    if name != 'round':
        told(label, {'write': write, 'back': back}[name], t, flag == 'big', s, room)
        continue
    for label, big in (('little', False), ('big', True)):
        w = told(label, write, t, big, s, room)
        if w:
            assert back(t, big, w, room)[1] == s
            print('  comes back, with the same events')
