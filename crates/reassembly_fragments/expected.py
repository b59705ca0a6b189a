#!/usr/bin/env python3
"""Prints what the program must write, from the stored listing of the same input, the last of ../listings: python3 expected.py < ../listings/stdout > stdout"""
import sys

SESSION, STROBE, CLOSE = '3', '4', '5'


def end_step():
    global last
    strobe, session = int(shown[STROBE], 16), int(shown[SESSION], 16)
    if strobe == 1 and last == 0:
        print(f'fragment {time} {session:08x}')
    last = strobe


shown, last, time, skipping = {SESSION: '0', STROBE: '0', CLOSE: '0'}, 0, None, False
listing = sys.stdin.read().splitlines()
begin = max((i + 1 for i, line in enumerate(listing[:-1]) if line.startswith('done')), default=0)
for line in listing[begin:]:
    word, *rest = line.split()
    if word == 'time':
        u = int(rest[0])
        if time is None or u > time:
            if time is not None:
                end_step()
            time, skipping = u, False
        elif u < time:
            skipping = True
    elif word == 'two' and rest[0] in shown and not skipping:
        shown[rest[0]] = rest[1]
    elif word == 'done' and time is not None:
        end_step()
