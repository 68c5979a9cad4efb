#!/usr/bin/env python3
"""compare_share.py FOLDER PLAN: holds the calls of FOLDER/share (written by compare.rs) to the Python reference, and for some
of the tables, and for some longer inputs, what the program PLAN prints. A difference is saved in FOLDER."""
import os
import struct
import subprocess
import sys
from fractions import Fraction

here = os.path.dirname(os.path.abspath(__file__))
sys.dont_write_bytecode = True
sys.path.insert(0, os.path.join(here, 'reference'))
import racksheet
sys.path.insert(0, here)
import rows

UPTO = int(open(os.path.join(here, 'upto')).read())     # requests 1 to UPTO of document 02 are in force
folder, plan = sys.argv[1:]
data = open(os.path.join(folder, 'share'), 'rb').read()
at = calls = draws = runs = ruled = differences = 0


def take(n):
    global at
    at += n
    return data[at - n:at]


def save(what, table, places, told):
    global differences
    differences += 1
    stem = os.path.join(folder, 'difference-python-%s-%d' % (what, calls + runs))
    open(stem + '.table', 'wb').write(table)
    open(stem + '.places', 'wb').write(struct.pack('<%dH' % len(places), *places))
    open(stem + '.txt', 'w').write(told + '\n')
    print('DIFFERENCE: %s; saved as %s.*' % (told[:200], stem))


def run(table):
    global runs
    runs += 1
    printed = subprocess.run([plan], input=table, stdout=subprocess.PIPE).stdout
    wanted = racksheet.program(table, UPTO)
    if printed != wanted:
        save('program', table, [], 'ours %r, reference %r' % (printed, wanted))


while at < len(data):
    which = take(1)
    size, numbers = struct.unpack('<II', take(8))
    if which == b'a':
        case, = racksheet.cases_in(take(size))
        result, wanted = take(numbers), racksheet.answer(case, UPTO)
        calls += 1
        if result != wanted.to_bytes():
            save(racksheet.OPS[case.op].replace(' ', '_'), case.table, case.a, 'ours %#x, reference %#x, scalars %s' %
                 (int.from_bytes(result[:8], 'little'), wanted.answer, case.s))
        continue
    table, before = take(size), list(struct.unpack('<%dH' % numbers, take(2 * numbers)))
    answer, = struct.unpack('<Q', take(8))
    calls += 1
    if which in b'dw':
        after = list(struct.unpack('<%dH' % numbers, take(2 * numbers)))
        draw = racksheet.draw if which == b'd' else racksheet.draw_wide
        refusal, n, width, height, placed = draw(table, before, UPTO)
        wanted = refusal | n << 16 | width << 32 | height << 48
        if (answer, after) != (wanted, placed):
            save(draw.__name__, table, before, 'ours %#x, reference %#x' % (answer, wanted))
        if which == b'd' and answer == wanted and refusal == 0:     # document 02, Paper 9, of the placements as our drawer left them
            ruled += 1
            fault = rows.broken(table, after, answer >> 48)
            if fault:
                save('rows', table, before, fault)
        draws += which == b'd'
        if which == b'd' and draws % 10 == 1:
            run(table)
    elif which == b's':
        pitch, floats, number = struct.unpack('<BBQ', take(10))
        found, point = take(8 * floats), [-1.0 - i for i in range(floats)]
        refusal, kind, place = racksheet.stroke(table, before, pitch, number, UPTO)
        if place is not None and floats >= 2:
            point[:2] = map(float, place)
            assert tuple(map(Fraction, point[:2])) == place     # exact
        wanted = refusal | kind << 16
        if (answer, found) != (wanted, struct.pack('<%dd' % floats, *point)):
            save('stroke', table, before, 'number %d, pitch %d: ours %#x %s, reference %#x %s' %
                 (number, pitch, answer, struct.unpack('<%dd' % floats, found), wanted, point))
    elif which == b'o':
        parent, side, _ = struct.unpack('<HBB', take(4))
        refusal, record = racksheet.hold(table, parent, side, UPTO)
        wanted = refusal | record << 16
        if answer != wanted:
            save('hold', table, [], '%s: ours %#x, reference %#x' % ((parent, side), answer, wanted))
    elif which == b'l':
        wanted = racksheet.compare(*zip(before[::2], before[1::2]))
        if answer != wanted:
            save('compare', table, before, 'lines %s: ours %d, reference %d' % (before, answer, wanted))
    elif which in b'hke':
        form, name = {b'h': ('<HHBB', 'hang'), b'k': ('<H', 'cut'), b'e': ('<HHBBH', 'hang_held')}[which]
        asked = struct.unpack(form, take(struct.calcsize(form)))
        after = take(size)
        if which == b'h':
            parent, tag, side, _ = asked
            refusal, record, left = racksheet.hang(table, parent, side, tag, UPTO)
            wanted = refusal | record << 16
        elif which == b'k':
            wanted, left = racksheet.cut(table, *asked, UPTO)
        else:
            parent, tag, side, _, record = asked
            wanted, left = racksheet.hang_held(table, parent, side, tag, record, UPTO)
        if (answer, after) != (wanted, left):
            save(name, table, [], '%s: ours %#x, reference %#x, tables %s' % (asked, answer, wanted, 'equal' if after == left else 'differ'))
    else:
        wanted = racksheet.check(table, before, UPTO)
        if answer != wanted:
            save('check', table, before, 'ours %d, reference %d' % (answer, wanted))
for size in (0, 1, 8, 32775, 32776, 32777, 32784, 65536, 100000, 1000000):
    run(bytes(size))
print('%d calls and %d runs of the program beside racksheet.py, %d sheets held to "no gaps, no shared rows", %d differences'
    % (calls, runs, ruled, differences))
sys.exit(differences != 0)
