#!/usr/bin/env python3
"""Prints what the program must write, from the rules alone: python3 expected.py > stdout"""


def leb(s, at, signed):
    """A LEB128 number by DWARF 5 section 7.6, with at most ten bytes and the tenth byte bounded."""
    bits, shift, i = 0, 0, at
    while True:
        if i >= len(s):
            return 'short'
        b = s[i]
        i += 1
        if i - at == 10 and b not in ((0, 127) if signed else (0, 1)):
            return 'large'
        bits |= (b & 0x7f) << shift
        shift += 7
        if b & 0x80 == 0:
            break
    if signed and b & 0x40:
        bits -= 1 << shift
    return f'{bits} to {i}'


def both(s, at):
    return f'unsigned {leb(s, at, False)}, signed {leb(s, at, True)}'


for n in (128, 16384):
    for kind in ('unsigned', 'signed'):
        print(f'{kind}, {"one byte" if n == 128 else "two bytes"}: agree {n}, differ 0')

for fill in (0x80, 0xff):
    for last in (0x00, 0x01, 0x02, 0x3f, 0x40, 0x7f):
        for n in range(11):
            s = [fill] * 12
            s[n] = last
            print(f'{n} times {fill:02x}, then {last:02x}: {both(s, 0)}')

for kind in ('unsigned', 'signed'):
    print(f'{kind}, cut: agree {sum(range(1, 11))}, differ 0')

row = bytes.fromhex('7f8001b9648000ff7ec0bb78')
for at in range(14):
    print(f'at {at}: {both(row, at)}')

data = bytes.fromhex('00017f80ff123456789abcdef0ff807f')
for at in range(9):
    words = []
    for order in ('big', 'little'):
        four = int.from_bytes(data[at:at + 4], order, signed=True)
        eight = int.from_bytes(data[at:at + 8], order, signed=True)
        words.append(f'{order} {eight} {"negative" if four < 0 else four}')
    print(f'at {at}: {", ".join(words)}, real {int.from_bytes(data[at:at + 8], "little")}')

for v, w in ((0, 0), (1, 1), (0xff, 0xff), (0x100, 0x100), (0x12345678, 0x123456789abcdef0), (1 << 31, 1 << 63),
             (0xffffffff, 0xffffffff), (0xff0000ff, 1 << 32), (0xffffffff, 0xffffffffffffffff)):
    print('eeee' + v.to_bytes(4, 'big').hex() + 'ee' + w.to_bytes(8, 'big').hex() + f'ee: {v} {w}')

names = [b'SNP\0', b'CYC\0', b'DIR\0', b'TAI\0', b'ESN\0', b'ECY\0', b'EOD\0']
every = b''.join(names)
print('marks:', *(names.index(every[at:at + 4]) if every[at:at + 4] in names else 7 for at in range(25)))
for name in names:
    print('altered:', *(sum(name[:j] + bytes([v]) + name[j + 1:] in names for v in range(256)) for j in range(4)))
