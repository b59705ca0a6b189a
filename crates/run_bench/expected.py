#!/usr/bin/env python3
"""Prints what the program must write, from the rules alone, for the cases in stdin: python3 expected.py < stdin > stdout"""
import sys


class Refused(Exception):
    pass


def records(events, values):
    """Each record, where it stands and where it ends, by 01's checks: 17, 7, 18, 20."""
    i, begun = 0, False
    while i < len(events):
        kind = events[i]
        if kind not in (1, 2, 3, 4):
            raise Refused(17, i)
        j = i + (9 if kind == 1 else 13)
        if j > len(events):
            raise Refused(7, i)
        if kind != 1 and not begun:
            raise Refused(18, i)
        n = [int.from_bytes(events[k:k + 4], 'big') for k in range(i + 1, j - 3, 4)]
        if kind in (2, 3) and n[1] + n[2] > len(values):
            raise Refused(20, i)
        begun = True
        yield kind, int.from_bytes(events[i + 1:i + 9], 'big'), n, i, j
        i = j


def bench(events, values, names, room):
    out, live, steps = b'', {}, 0  # live: place -> [session, count]
    shown, last, time = dict.fromkeys(names, 0), 0, None
    session, strobe, close = names
    if len(set(names)) < 3:
        raise Refused(34, 0)

    def put(data, place):
        nonlocal out
        if len(out) + len(data) > room:
            raise Refused(16, place)
        out += data

    def end_step(at, place):
        nonlocal last, steps
        steps += 1
        x = shown[session]
        seat = next((k for k in live if live[k][0] == x), None)
        if shown[strobe] == 1 and last == 0:
            put(b'\1' + time.to_bytes(8, 'big') + x.to_bytes(4, 'big'), place)
            if seat is None:
                seat = min(set(range(32)) - set(live), default=None)
                if seat is None:
                    raise Refused(21, at)
                live[seat] = [x, 0]
            live[seat][1] += 1
        last = shown[strobe]
        if shown[close] == 1 and seat is not None:
            put(b'\2' + time.to_bytes(8, 'big') + x.to_bytes(4, 'big') + live[seat][1].to_bytes(8, 'big'), place)
            del live[seat]

    for kind, u, n, i, j in records(events, values):
        if kind == 1:
            if time is not None:
                end_step(i, j)
            time = u
        elif n[0] in names:
            if kind != 2 or not 1 <= n[2] <= (4 if n[0] == session else 1):
                raise Refused(34, i)
            shown[n[0]] = int.from_bytes(values[n[1]:n[1] + n[2]], 'big')
    if time is not None:
        end_step(len(events), len(events))
    for k in sorted(live):
        put(b'\3' + live[k][0].to_bytes(4, 'big') + live[k][1].to_bytes(8, 'big'), len(events))
    return out, steps


data = sys.stdin.buffer.read()
while True:
    n = int.from_bytes(data[:2], 'big')
    if n == 0:
        break
    frame, data = data[2:2 + n], data[2 + n:]
    label, body = frame[1:1 + frame[0]].decode(), frame[1 + frame[0]:]
    names = [int.from_bytes(body[k:k + 4], 'big') for k in (0, 4, 8)]
    room, count = int.from_bytes(body[12:14], 'big'), int.from_bytes(body[14:16], 'big')
    values, events = body[16:16 + count], body[16 + count:]
    try:
        out, steps = bench(events, values, names, room)
        print(f'{label}: 0 0 {len(events)} {len(out)} 0 {steps} {out.hex()}')
    except Refused as r:
        print(f'{label}: {r.args[0]} {r.args[1]} 0 0 0 0 ')
