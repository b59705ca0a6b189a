#!/usr/bin/env python3
"""Writes the stored cases, which are the program's input: python3 cases.py > stdin"""
import random
import sys

SESSION, STROBE, CLOSE = 3, 4, 5


class Stream:
    """Events over a value buffer that holds what they say."""

    def __init__(self):
        self.events, self.values = b'', b''

    def time(self, u):
        self.events += bytes([1]) + u.to_bytes(8, 'big')
        return self

    def value(self, kind, reference, data):
        self.events += bytes([kind]) + reference.to_bytes(4, 'big') + len(self.values).to_bytes(4, 'big') + len(data).to_bytes(4, 'big')
        self.values += data
        return self

    def two(self, reference, data):
        return self.value(2, reference, data)

    def session(self, v, n=4):
        return self.two(SESSION, v.to_bytes(n, 'big'))

    def strobe(self, v):
        return self.two(STROBE, bytes([v]))

    def close(self, v):
        return self.two(CLOSE, bytes([v]))

    def real(self, reference):
        self.events += bytes([4]) + reference.to_bytes(4, 'big') + bytes(8)
        return self

    def raw(self, data):
        self.events += data
        return self

    # a step in which the strobe rises, and one in which it falls
    def fragment(self, u, v):
        return self.time(u).session(v).strobe(1).time(u + 1).strobe(0)


def case(label, s, room=2048, names=(SESSION, STROBE, CLOSE)):
    body = bytes([len(label)]) + label.encode()
    for n in names:
        body += n.to_bytes(4, 'big')
    body += room.to_bytes(2, 'big') + len(s.values).to_bytes(2, 'big') + s.values + s.events
    sys.stdout.buffer.write(len(body).to_bytes(2, 'big') + body)


def live(n):
    s = Stream()
    for k in range(n):
        s.fragment(10 * k, 0x01000000 + k)
    return s


def both(label, s, need):
    case(label + ', exact', s, need)
    case(label + ', one short', s, need - 1)


case('no record', Stream())
case('a time alone', Stream().time(7))
case('32 live sessions', live(32))
case('a 33rd, refused at the record that ends its step', live(32).time(500).session(9, 1).strobe(1).time(501))
case("a 33rd, refused at the input's end", live(32).time(500).session(9, 1).strobe(1))
case('a 33rd that shows no fragment', live(32).time(500).session(9, 1).time(501))
case('one of the 32 again', live(32).fragment(500, 0x01000007))
case('one of the 32 closed, then a 33rd', live(32).time(500).session(0x01000007).close(1).time(501).close(0).fragment(502, 9))
case('a 33rd with its record one short', live(32).time(500).session(9, 1).strobe(1).time(501), 32 * 13 + 12)
case('a 33rd with room for its record', live(32).time(500).session(9, 1).strobe(1).time(501), 33 * 13)
case('a recycled identifier', Stream().fragment(1, 7).fragment(3, 7).time(5).close(1).time(6).close(0).fragment(7, 7))
case('the place of a closed session taken by another', Stream().fragment(1, 7).fragment(3, 8).time(5).session(7).close(1).time(6).close(0).fragment(7, 9))
case("close of a session that isn't live", Stream().fragment(1, 7).time(5).session(8).close(1).time(6))
case('closed in the step of its only fragment', Stream().time(1).session(7).strobe(1).close(1).time(2).close(0))
case('close held over several steps', Stream().fragment(1, 7).time(5).close(1).time(6).time(7).strobe(1).time(8))
case('strobe held over several steps', Stream().time(1).session(7).strobe(1).time(2).time(3).session(8).strobe(1).time(4))
case('two events of the strobe in one step: none stays', Stream().time(1).session(7).strobe(1).strobe(0).time(2))
case('two events of the strobe in one step: one stays', Stream().time(1).session(7).strobe(0).strobe(1).time(2))
case('falls and rises within a step', Stream().time(1).session(7).strobe(1).time(2).strobe(0).strobe(1).time(3))
case('the session shown last in the step', Stream().time(1).session(7).strobe(1).session(8).time(2))
case('a session of 1 to 4 bytes', Stream().time(1).session(7, 1).strobe(1).time(2).strobe(0).session(7, 2).time(3).strobe(1).time(4).strobe(0).session(7, 3).time(5).strobe(1))
case('bytes above 1 stand at neither', Stream().time(1).strobe(2).time(2).strobe(1).time(3).close(2).strobe(0).time(4).strobe(1))
case('no session event: 0', Stream().time(1).strobe(1))
case('times that fall', Stream().time(9).strobe(1).time(4).strobe(0).time(4).strobe(1))
case('reference 0', Stream().time(1).two(0, b'\x2a').strobe(1), names=(0, STROBE, CLOSE))
case('session and strobe equal', Stream().raw(b'\x09'), names=(3, 3, 5))
case('session and close equal', Stream(), names=(3, 4, 3))
case('strobe and close equal', Stream(), names=(3, 5, 5))
case('unknown kind', Stream().time(1).raw(b'\x09'))
case('inside a record', Stream().time(1).raw(b'\x02\x00'))
case('a value before any time', Stream().session(7))
case('past the value buffer', Stream().time(1).raw(b'\x02\x00\x00\x00\x03\x00\x00\x00\x00\x00\x00\x00\x05'))
case('a session of no byte', Stream().time(1).two(SESSION, b''))
case('a session of 5 bytes', Stream().time(1).two(SESSION, bytes(5)))
case('a nine-state session', Stream().time(1).value(3, SESSION, b'\x01'))
case('a real session', Stream().time(1).real(SESSION))
case('a strobe of no byte', Stream().time(1).two(STROBE, b''))
case('a strobe of 2 bytes', Stream().time(1).two(STROBE, bytes(2)))
case('a nine-state strobe', Stream().time(1).value(3, STROBE, b'\x01'))
case('a real strobe', Stream().time(1).real(STROBE))
case('a close line of no byte', Stream().time(1).two(CLOSE, b''))
case('a close line of 2 bytes', Stream().time(1).two(CLOSE, bytes(2)))
case('a nine-state close line', Stream().time(1).value(3, CLOSE, b'\x01'))
case('a real close line', Stream().time(1).real(CLOSE))
case('other signals of any form', Stream().time(1).value(3, 9, bytes(9)).two(9, b'').real(9).session(7).strobe(1))
both('a fragment and what is held', Stream().fragment(1, 7), 26)
both('a fragment', Stream().time(1).strobe(1).close(1).time(2), 34)
case('a fragment, one short', Stream().time(1).strobe(1).time(2), 12)
both('a closed session in a later step', Stream().fragment(1, 7).time(5).close(1).time(6), 34)
both('two held', Stream().fragment(1, 7).fragment(3, 8), 52)

draw = random.Random(1)
for i in range(120):
    s, u = Stream(), 0
    few = draw.choice([3, 40])
    for _ in range(draw.randrange(1, 24)):
        u += draw.randrange(3)
        s.time(u)
        if draw.random() < 0.6:
            s.session(draw.randrange(few), draw.randrange(1, 5))
        for _ in range(draw.choice([0, 1, 1, 1, 2])):
            s.strobe(draw.choice([0, 0, 0, 1, 1, 1, 1, 2]))
        if draw.random() < 0.3:
            s.close(draw.choice([0, 0, 1]))
        if draw.random() < 0.2:
            s.two(9, bytes(draw.randrange(6)))
        if draw.random() < 0.004:
            s.value(draw.choice([2, 3]), draw.choice([3, 4, 5]), bytes(draw.randrange(6)))
        if draw.random() < 0.004:
            s.real(draw.choice([3, 4, 5, 9]))
    case(f'stream {i}', s, draw.choice([2048, 2048, draw.randrange(600)]))
sys.stdout.buffer.write(bytes(2))
