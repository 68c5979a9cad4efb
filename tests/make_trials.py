#!/usr/bin/env python3
"""Makes crates/trials/stdin and crates/trials/stdout anew, always the same, from a fixed seed.

The cases are sheets of document 01, every refusal and every verdict in several ways, sheets with level lines, random trees, hangs and cuts (hang_cut.py),
hangs by halves (halves.py), pairs of lines and sheets whose lines cross or touch (crossings.py), and tables of several trees, put to every call
(forests.py); their parts, and each of the sheets, tables, pairs of lines, free chains and series of calls that were made by hand, have names, which
are printed. Each table that is drawn is drawn wide as well; each that is refused, and the drawing of each larger random tree, is asked for strokes;
and each that is refused for its bytes is asked to hang, to cut, and for the halves of a hang. What must be printed comes from the reference program
alone (reference/racksheet.py), never from our code. Each drawing is held to Paper 9 of document 02 as well (rows.py). The form of the cases is told
at the head of crates/trials/src/main.rt.
"""
import os
import random
import re
import struct
import sys
from fractions import Fraction

here = os.path.dirname(os.path.abspath(__file__))
sys.path[:0] = [here, os.path.join(here, 'reference')]
sys.dont_write_bytecode = True
import crossings
import forests
import halves
import hang_cut
import racksheet
import rows
import slips
import trees
from crossings import FIVE, FOUR, PATH, TOP, TWO
from slips import UPTO
from trees import bytes_of, plain

SEED = 20240501
ALL_UP_TO = 600                     # placements that are printed one by one
SEQUENCE = 1, 7                     # placements before a drawing: the first and the step
COMPARED = 'separate', 'end', 'crossing', 'touching'


def seeded(part):
    """Random numbers of a part's own: cases added to one part leave the others as they are."""
    return random.Random('%d %s' % (SEED, part))


def sequence(count, first, step):
    return [(first + step * i) % 65536 for i in range(count)]


def bits(number):
    """The bit pattern of the 64-bit float that is a number, exactly."""
    x = float(number)
    assert Fraction(x) == number
    return int.from_bytes(struct.pack('<d', x), 'little')


class Trials:
    """The stream of cases, with the table and the placements as they stand, and what must be printed."""

    def __init__(self):
        self.cases, self.lines = [], []
        self.bytes, self.places = b'', []

    def case(self, kind, count=0, first=0, step=0, more=b''):
        self.cases.append(b''.join(w.to_bytes(2, 'little') for w in (kind, count, first, step)) + more)

    def name(self, text):
        """What follows, told in the output."""
        assert len(text) < 256
        self.case(10, len(text), more=text.encode('ascii'))
        self.lines.append(text)

    def table(self, data):
        self.bytes = data
        self.case(1, len(data), more=data)

    def numbers(self, places):
        self.places = list(places)
        self.case(2, len(places), more=bytes_of([places]))

    def filled(self, count, first=0, step=0):
        self.places = sequence(count, first, step)
        self.case(3, count, first, step)

    def changed(self, pairs):
        for at, number in pairs:
            self.places[at] = number
        self.case(4, len(pairs), more=bytes_of(pairs))

    def placed(self):
        if len(self.places) <= ALL_UP_TO:
            self.lines.append(' '.join(['places'] + [str(x) for x in self.places]))
        else:
            s = 0
            for x in self.places:
                s = (65599 * s + x + 1) % 4294967291
            self.lines.append('sum %d' % s)

    def draw(self):
        self.case(5)
        refusal, n, width, height, self.places = racksheet.draw(self.bytes, self.places, UPTO)
        self.lines.append('draw %d %d %d %d' % (refusal, n, width, height))
        self.placed()
        fault = refusal == 0 and rows.broken(self.bytes, self.places, height)
        assert not fault, fault     # document 02, Paper 9
        return refusal

    def check(self):
        self.case(6)
        self.lines.append('check %d' % racksheet.check(self.bytes, self.places, UPTO))

    def width(self, n):
        self.case(7, n % 65536, n // 65536 % 65536, n // 2 ** 32)
        self.lines.append('width %d' % racksheet.allowed_width(n))

    def wide(self):
        self.case(8)
        refusal, n, width, height, self.places = racksheet.draw_wide(self.bytes, self.places, UPTO)
        self.lines.append('wide refused %d' % refusal if refusal else 'wide %d %d %d' % (n, width, height))
        self.placed()

    def stroke(self, pitch, number):
        self.case(9, pitch, more=number.to_bytes(8, 'little'))
        refusal, kind, point = racksheet.stroke(self.bytes, self.places, pitch, number, UPTO)
        if refusal:
            self.lines.append('stroke refused %d' % refusal)
        elif kind == racksheet.DONE:
            self.lines.append('stroke done')
        else:
            self.lines.append('stroke %s %d %d' % ('lift' if kind == racksheet.LIFT else 'draw', *map(bits, point)))

    def changed_records(self, before):
        """The records that a call has changed."""
        assert len(before) == len(self.bytes)
        for at in range(0, len(before), 8):
            if before[at:at + 8] != self.bytes[at:at + 8]:
                self.lines.append(' '.join(['record', str(at // 8)] + [str(w) for w in slips.words(self.bytes[at:at + 8])]))

    def hang(self, parent, side, tag):
        self.case(11, parent, side, tag)
        before = self.bytes
        refusal, record, self.bytes = racksheet.hang(before, parent, side, tag, UPTO)
        self.lines.append('hang refused %d' % refusal if refusal else 'hang %d' % record)
        self.changed_records(before)
        return record

    def cut(self, node):
        self.case(12, node)
        before = self.bytes
        refusal, self.bytes = racksheet.cut(before, node, UPTO)
        self.lines.append('cut %d' % refusal)
        self.changed_records(before)
        return refusal

    def hold(self, parent, side):
        self.case(13, parent, side)
        refusal, record = racksheet.hold(self.bytes, parent, side, UPTO)
        self.lines.append('hold refused %d' % refusal if refusal else 'hold %d' % record)
        return record

    def held(self, parent, side, tag, record):
        self.case(14, parent, side, tag, more=record.to_bytes(8, 'little'))
        before = self.bytes
        refusal, self.bytes = racksheet.hang_held(before, parent, side, tag, record, UPTO)
        self.lines.append('held %d' % refusal)
        self.changed_records(before)
        return refusal

    def turned(self, data, record):
        """A table drawn wide, and the drawing, with columns and rows exchanged, checked against the table with left and right exchanged: good."""
        self.table(data)
        self.filled(2 * (len(data) // 8), *SEQUENCE)
        self.wide()
        places = list(self.places)
        for k in record[1:]:
            places[2 * k], places[2 * k + 1] = places[2 * k + 1], places[2 * k]
        self.table(racksheet.exchange(data, UPTO)[1])
        self.numbers(places)
        self.check()
        assert self.lines[-1] == 'check 0'

    def compare(self, *ends):
        self.case(15, more=bytes_of(ends))
        self.lines.append('compare ' + COMPARED[racksheet.compare(*ends)])

    def every(self, data, first=0, step=0, short=0, extra=0, pitches=(0, 255), leaf=1):
        """Draws a table wide, then draws it and checks the drawing, on placements that tell which were kept; a refused one is asked for strokes too,
        and, if its bytes are the cause, to hang a node where none can be had and below a leaf, whole and by halves, with the record that the head's right
        names and with that leaf's, and to cut off none and that leaf."""
        count = max(0, 2 * (len(data) // 8) - short) + extra
        self.table(data)
        self.filled(count, first, step)
        self.wide()
        self.filled(count, first, step)
        refusal = self.draw()
        self.check()
        assert self.lines[-1] == 'check %d' % refusal
        for pitch in pitches if refusal else ():
            self.stroke(pitch, 0)
            assert self.lines[-1] == 'stroke refused %d' % refusal
        for node, record in ((0, int.from_bytes(data[4:6], 'little')), (leaf, leaf)) if refusal not in (0, 6) else ():
            self.hang(node, 0, 7)
            self.cut(node)
            self.hold(node, 0)
            self.held(node, 0, 7, record)
            assert self.lines[-4:] == [says % refusal for says in ('hang refused %d', 'cut %d', 'hold refused %d', 'held %d')]
        return refusal


def worked(t):
    """The sheets of document 01, held to what the paper itself says: links, root, and the points of records 1, 2, .."""
    def says(line, back=1):
        assert t.lines[-back] == line, (line, t.lines[-back])

    two = [(0, 0), (1, 1)]
    drawn = [
        ([], 0, []), ([(0, 0)], 1, [(0, 0)]), ([(2, 0), (0, 0)], 1, two), ([(0, 2), (0, 0)], 1, two),
        ([(2, 3), (0, 0), (0, 0)], 1, [(0, 0), (1, 2), (1, 1)]),
        ([(2, 3), (0, 0), (4, 0), (0, 0)], 1, [(0, 0), (1, 3), (1, 1), (1, 2)]),
        ([(2, 3), (0, 0), (0, 4), (0, 0)], 1, [(0, 0), (1, 3), (1, 1), (1, 2)]),
        ([(0, 2), (3, 4), (0, 0), (5, 0), (0, 0)], 1, [(0, 0), (1, 1), (1, 2), (3, 2), (2, 3)]),
        ([(0, 2), (3, 4), (0, 0), (0, 5), (0, 0)], 1, [(0, 0), (1, 1), (1, 2), (3, 2), (2, 3)]),
        # the six of the program's sheet, and the ten of the finding on document 004
        ([(2, 3), (0, 0), (4, 5), (0, 0), (6, 0), (0, 0)], 1, [(0, 0), (1, 3), (1, 1), (1, 2), (3, 2), (2, 4)]),
        ([(0, 2), (3, 6), (0, 4), (0, 5), (0, 0), (7, 10), (8, 9), (0, 0), (0, 0), (0, 0)], 1, []),
    ]
    sizes = {0: (0, 0), 1: (1, 1), 3: (2, 3), 6: (4, 5)}
    for links, root, points in drawn:
        t.every(bytes_of(plain(links, root)), 60000, 7, extra=3)
        assert t.places[2:2 + 2 * len(points)] == [x for point in points for x in point]
        if len(links) in sizes:
            says('draw 0 %d %d %d' % (len(links), *sizes[len(links)]), back=3)
        # its mirror image drawn wide: the same sheet with columns and rows exchanged
        t.table(bytes_of(plain([(b, a) for a, b in links], root)))
        t.filled(2 * len(links) + 5, 60000, 7)
        t.wide()
        assert t.places[2:2 + 2 * len(points)] == [x for column, row in points for x in (row, column)]
        if len(links) in sizes:
            says('wide %d %d %d' % (len(links), *sizes[len(links)][::-1]), back=2)
    # y and z (6 and 7) below 5, which hangs from a right knee
    t.every(bytes_of(plain([(0, 2), (3, 4), (0, 0), (5, 8), (6, 7), (0, 0), (0, 0), (9, 0), (10, 0), (11, 0), (0, 0)])), 60000, 7)
    x, y = t.places[10:12]
    assert t.places[12:16] == [x - 1, y + 1, x - 1, y + 2]
    for links, places, verdict in (
            ([(2, 3), (0, 0), (0, 0)], [0, 0, 0, 0, 0, 1, 0, 2], 25), ([(2, 3), (0, 0), (0, 0)], [0, 0, 0, 0, 2, 1, 1, 1], 24),
            ([(2, 0), (0, 0)], [0, 0, 0, 0, 1, 0], 0), ([(0, 2), (0, 0)], [0, 0, 0, 0, 1, 0], 0)):      # good since document 02, Paper 4
        t.table(bytes_of(plain(links)))
        t.numbers(places)
        t.check()
        says('check %d' % verdict)
    paper = {0: 0, 1: 1, 2: 4, 3: 4, 4: 7, 4096: 37, 4097: 0}
    for n in sorted(set(paper) | {65535, 65536, 65537, 2 ** 32, 2 ** 32 + 1, 2 ** 48 - 1} |
                    {2 ** k + d for k in range(2, 13) for d in (-1, 0, 1)}):
        t.width(n)
        says('width %d' % paper.get(n, racksheet.allowed_width(n)))
    full = plain([(k + 1, 0) for k in range(1, 4096)] + [(0, 0)])
    for words, short, answer in (
            (full, 0, 0), (full + [[0, 0, 0, 0]], 0, 1),                    # 32,776 bytes may be accepted, 32,784 gives 1
            ([[0, 1, 0, 0]], 0, 5), (plain([(2, 2), (0, 0)]), 0, 5),        # head alone with root 1; left and right naming one
            (plain([(2, 3), (0, 0), (0, 0)]), 1, 6)):                       # placements one number short
        assert t.every(bytes_of(words), 9, 11, short=short) == answer


def refusals(t):
    """Every refusal in several ways, and which comes first where several causes hold."""
    good = hang_cut.SIX
    data = bytes_of(good)
    for length in (0, 1, 7, 9, 15, 17, 55):                                 # 1
        t.every(data[:length], 9, 1)
    for length in (32775, 32777, 40000, 65535):
        t.every((data + bytes(65536))[:length], 9, 1)
    t.every(data[:8], 9, 1)                                                  # the head alone, its chain cut off
    head = [[(0, 3, 1)], [(0, 2, 65535), (0, 3, 256)], [(0, 3, 256), (0, 0, 99)], [(0, 3, 1), (6, 0, 1)], [(0, 3, 1), (0, 1, 0)],   # 2
            [(0, 2, 1)], [(0, 2, 256), (0, 0, 99)]]                         # 8, 3
    chain = [[(0, 0, 7)], [(0, 0, 65535)], [(6, 0, 1)], [(6, 0, 6)], [(6, 0, 3)], [(6, 0, 7)], [(1, 0, 1)],
             [(3, 0, 2)], [(6, 0, 256)], [(6, 0, 7), (2, 1, 50)]]           # 3
    links = [[(2, 1, 7)], [(2, 2, 65535)], [(1, 1, 4096)], [(5, 0, 0)], [(0, 0, 2)], [(2, 2, 256), (3, 1, 3)]]  # 4
    tree = [[(0, 1, 0)], [(0, 1, 7)], [(0, 1, 65535)], [(0, 0, 0)], [(0, 1, 2)], [(0, 1, 3)], [(6, 1, 1)],
            [(6, 2, 1)], [(2, 1, 4)], [(2, 1, 2)], [(6, 1, 6)], [(1, 2, 2)], [(1, 2, 0), (6, 1, 3)],
            [(5, 1, 5)], [(1, 2, 0), (4, 2, 3)], [(0, 0, 0), (0, 1, 6)]]                                        # 5
    apart = [[(1, 1, 0)], [(1, 2, 0)], [(5, 1, 0)]]                         # two trees, good since document 02, Paper 8
    for edits in head + chain + links + tree + apart:
        t.every(bytes_of(hang_cut.edited(good, *edits)), 1000, 3, leaf=6)
        t.every(bytes_of(hang_cut.edited(good, *edits)), 1000, 3, short=2, leaf=6)
    two = plain([(0, 0), (3, 0), (2, 0)])                                   # a cycle, reached from no root
    t.every(bytes_of(two), 1, 1)
    long = plain([(0, 0)] * 4096)                                           # a long chain that runs into itself
    for last in (1, 4096, 4097):
        long[4096][0] = last
        t.every(bytes_of(long), 1, 1)
    lone = [[0, 0, 0, 0]] + [[k * 7 % 9, 65535, 3, 1] for k in range(5)]    # nothing chained, rubbish behind
    t.every(bytes_of(lone), 1, 1)
    for short in (0, 1, 2, 12):                                             # 6
        t.every(bytes_of(good + [[9, 9, 9, 9]]), 1, 1, short=short)
        t.every(bytes_of([[0, 0, 0, 0]]), 1, 1, short=short)
    t.every(data, 1, 1, extra=5)


def strokes(t):
    """Strokes by hand: the program's sheet as the paper has it; the ends of numbers, pitches and places; 7 and what comes before it."""
    t.table(bytes_of(plain([(2, 3), (0, 0), (4, 5), (0, 0), (6, 0), (0, 0)])))
    t.filled(14)
    t.draw()
    at = [None, (0, 0), (1, 3), (1, 1), (1, 2), (3, 2), (2, 4)]
    for pitch in (10, 1):
        for i, (parent, child) in enumerate([(1, 2), (1, 3), (3, 4), (3, 5), (5, 6)]):
            for number, kind, k in ((2 * i, 'lift', parent), (2 * i + 1, 'draw', child)):
                t.stroke(pitch, number)
                assert t.lines[-1] == 'stroke %s %d %d' % (kind, *(bits(Fraction(x * pitch, 4)) for x in at[k])), t.lines[-1]
    past = [2 ** k + d for k in (16, 31, 32, 48, 63) for d in (-1, 0, 1, 9)] + [2 ** 64 - 1 - d for d in (0, 1, 9)]
    for number in [10, 11, 12, 13] + past:
        t.stroke(10, number)
        assert t.lines[-1] == 'stroke done'
    for number in (0, 9, 10, 2 ** 64 - 1):                                  # 7, at any number
        t.stroke(0, number)
        assert t.lines[-1] == 'stroke refused 7'
    for short in (1, 2, 14):                                                # 6 comes before it
        t.filled(14 - short)
        for pitch, number in ((0, 0), (1, 0), (0, 10), (255, 2 ** 64 - 1)):
            t.stroke(pitch, number)
            assert t.lines[-1] == 'stroke refused 6'
    for words in (plain([], 0), plain([(0, 0)]), plain([], 0) + [[1] * 4]): # no line
        t.table(bytes_of(words))
        t.filled(2 * len(words), 5, 5)
        for number in (0, 1, 2, 2 ** 32, 2 ** 64 - 1):
            t.stroke(4, number)
            assert t.lines[-1] == 'stroke done'
        t.stroke(0, 0)
    top = 65535
    for links in ([(2, 0), (0, 0)], [(0, 2), (0, 0)]):                      # one line, by any places, good or not
        t.table(bytes_of(plain(links)))
        for points in ((0, 0, 1, 1), (top, 0, 0, top), (1, top, top, top), (7, 7, 7, 7), (3, 9, 2, 1)):
            t.numbers([top, 1, *points])
            for pitch in (1, 2, 3, 4, 127, 128, 255):
                t.stroke(pitch, pitch % 2)
        for number in (0, 1, 2, 3, 2 ** 64 - 1):
            t.stroke(255, number)


def damaged(t, rng):
    """Tables with a word or two written over."""
    for _ in range(260):
        tree = trees.uniform(rng.randint(1, 9), rng)
        data, _ = trees.table(tree, rng, extra=rng.randint(0, 2))
        words = [int.from_bytes(data[i:i + 2], 'little') for i in range(0, len(data), 2)]
        for _ in range(rng.randint(1, 2)):
            words[rng.randrange(len(words))] = rng.choice((0, rng.randrange(len(data) // 8 + 1), rng.randrange(65536)))
        t.every(bytes_of([words]), rng.randrange(65536), rng.randrange(5), short=rng.choice((0, 0, 0, 0, 1)), pitches=(4,))


def verdicts(t, rng):
    """Checks made by hand: for each the links, the points of 1, 2, .., and what they are to tell apart."""
    top = 65535
    two, one, path = [(2, 3), (0, 0), (0, 0)], [(2, 0), (0, 0)], [(2, 0), (3, 0), (0, 0)]
    four = [(2, 3), (4, 0), (0, 0), (0, 0)]
    five = [(2, 3), (4, 0), (5, 0), (0, 0), (0, 0)]
    for links, points in [
        (one, [(0, 0), (0, 0)]), (one, [(0, 0), (0, 1)]), (one, [(5, 5), (0, 4)]), (one, [(5, 5), (9, 5)]),
        (one, [(top, 0), (0, top)]), (one, [(0, top), (top, 0)]), (one, [(top, top), (top, top)]),
        (two, [(1, 0), (0, 1), (2, 1)]), (two, [(1, 0), (2, 1), (0, 1)]), (two, [(1, 0), (1, 1), (1, 2)]),
        (two, [(0, 0), (1, 1), (2, 2)]), (two, [(0, 0), (2, 4), (1, 2)]), (two, [(0, 0), (2, 4), (3, 2)]),
        (two, [(0, 0), (3, 2), (2, 4)]), (two, [(1, 0), (0, 1), (0, 1)]), (two, [(1, 0), (0, 0), (0, 0)]),
        # products that need more than 32 bits: in order, out of order, and almost in one line
        (two, [(0, 0), (0, top), (top, 1)]), (two, [(0, 0), (top, 1), (0, top)]),
        (two, [(0, 0), (top - 1, top), (top, top)]), (two, [(0, 0), (top, top), (top - 1, top)]),
        (two, [(top, 0), (0, 1), (top, top)]), (two, [(top, 0), (top, top), (0, 1)]),
        (two, [(0, 0), (32767, 32768), (top, top)]), (two, [(0, 0), (32768, 32769), (top, top)]),
        (two, [(32768, 0), (0, 32768), (top, 32768)]), (two, [(0, 0), (46341, 46341), (46342, 46341)]),
        # a node below its parent's line: the next line goes on straight, or touches nothing
        (path, [(0, 0), (1, 1), (2, 2)]), (path, [(0, 0), (1, 1), (0, 2)]), (path, [(0, 0), (5, 5), (2, 3)]),
        # a crossing, a node on a line that it does not end, ends that touch, and near misses
        (four, [(1, 0), (0, 2), (4, 1), (4, 4)]), (four, [(2, 0), (0, 1), (4, 4), (4, 2)]),
        (four, [(2, 0), (0, 2), (2, 6), (2, 4)]), (four, [(2, 0), (0, 2), (2, 3), (2, 4)]),
        (four, [(4, 0), (0, 1), (4, 8), (3, 4)]), (four, [(4, 0), (0, 1), (4, 8), (5, 4)]),
        (four, [(0, 0), (0, 4), (4, 4), (2, 6)]), (four, [(0, 0), (2, 2), (4, 4), (4, 5)]),
        (five, [(2, 0), (0, 1), (4, 1), (4, 3), (0, 3)]), (five, [(2, 0), (0, 1), (4, 1), (2, 3), (2, 4)]),
        (five, [(2, 0), (0, 1), (4, 1), (2, 3), (2, 3)]), (five, [(2, 0), (1, 1), (3, 1), (1, 9), (3, 9)]),
        (five, [(2, 0), (0, 2), (4, 2), (3, 3), (1, 3)]), (five, [(2, 0), (0, 2), (4, 2), (2, 4), (2, 4)]),
        # several conditions at once: the first is told
        (four, [(1, 1), (1, 1), (0, 0), (1, 0)]), (four, [(1, 5), (2, 6), (0, 4), (0, 9)]),
        (four, [(2, 0), (3, 1), (1, 1), (0, 2)]), (five, [(0, 0), (0, 1), (0, 2), (0, 3), (0, 4)]),
    ]:
        t.table(bytes_of(plain(links)))
        t.numbers([rng.randrange(65536), rng.randrange(65536)] + [x for point in points for x in point])
        t.check()


LEFT, RIGHT = [(2, 0), (0, 0)], [(0, 2), (0, 0)]

# Sheets with level lines: the name, the links and the points of 1, 2, .., and what documents 01 and 02 say of them.
LEVEL_LINES = [
    ('a left child level, to the left', LEFT, [(1, 0), (0, 0)], 0),
    ('a left child level, to the right', LEFT, [(0, 0), (1, 0)], 0),
    ('a right child level, to the left', RIGHT, [(9, 5), (2, 5)], 0),
    ('a level line across the whole bottom row', RIGHT, [(0, TOP), (TOP, TOP)], 0),
    ('a child one row above', LEFT, [(0, 1), (5, 0)], 22),
    ('a child at the other end of the rows above', RIGHT, [(0, TOP), (TOP, 0)], 22),
    ('level children', TWO, [(1, 0), (0, 0), (2, 0)], 0),
    ('level children at the ends of a row', TWO, [(32768, TOP), (0, TOP), (TOP, TOP)], 0),
    ('level children in the other order', TWO, [(1, 0), (2, 0), (0, 0)], 24),
    ('level children at the ends of a row in the other order', TWO, [(32768, TOP), (TOP, TOP), (0, TOP)], 24),
    ('level children on the left, the left one nearer', TWO, [(2, 0), (1, 0), (0, 0)], 25),
    ('level children on the left, the right one nearer', TWO, [(2, 0), (0, 0), (1, 0)], 25),
    ('level children on the right, the left one nearer', TWO, [(0, 0), (1, 0), (2, 0)], 25),
    ('level children on the right, the right one nearer', TWO, [(0, 0), (2, 0), (1, 0)], 25),
    ('the left child level to the left, the right one lower to the right', TWO, [(1, 0), (0, 0), (2, 1)], 0),
    ('the left child level to the left, the right one straight below', TWO, [(1, 0), (0, 0), (1, 1)], 0),
    ('the left child level to the left, the right one lower and farther left', TWO, [(2, 0), (1, 0), (0, 1)], 0),
    ('the left child level to the right, the right one lower to the left', TWO, [(1, 0), (2, 0), (0, 1)], 24),
    ('the left child level to the right, the right one straight below', TWO, [(1, 0), (2, 0), (1, 1)], 24),
    ('the left child level to the right, the right one lower and farther right', TWO, [(0, 0), (1, 0), (2, 1)], 24),
    ('the right child level to the right, the left one lower to the left', TWO, [(1, 0), (0, 1), (2, 0)], 0),
    ('the right child level to the right, the left one straight below', TWO, [(1, 0), (1, 1), (2, 0)], 0),
    ('the right child level to the right, the left one lower and farther right', TWO, [(0, 0), (2, 1), (1, 0)], 0),
    ('the right child level to the left, the left one lower to the right', TWO, [(1, 0), (2, 1), (0, 0)], 24),
    ('the right child level to the left, the left one straight below', TWO, [(1, 0), (1, 1), (0, 0)], 24),
    ('the right child level to the left, the left one lower and farther left', TWO, [(2, 0), (0, 1), (1, 0)], 24),
    ('one child level and one above', TWO, [(1, 1), (0, 1), (2, 0)], 22),
    ('two level lines that go on in one row', PATH, [(0, 0), (1, 0), (2, 0)], 0),
    ('two level lines that go on to the left', PATH, [(2, 3), (1, 3), (0, 3)], 0),
    ('a level line that goes back over the one to its parent', PATH, [(0, 0), (2, 0), (1, 0)], 25),
    ('a level line that goes back to its grandparent', PATH, [(0, 0), (2, 0), (0, 0)], 21),
    ('a level line that goes back beyond its grandparent', PATH, [(1, 0), (2, 0), (0, 0)], 25),
    ('two level lines apart in one row', FIVE, [(4, 0), (0, 1), (5, 1), (3, 1), (7, 1)], 0),
    ('two level lines that overlap in one row', FIVE, [(4, 0), (0, 1), (2, 1), (3, 1), (7, 1)], 25),
    ('two level lines that overlap in one row, one of them to the left', FIVE, [(4, 0), (0, 1), (7, 1), (3, 1), (2, 1)], 25),
    ('two level lines that overlap in one row, both to the left', FIVE, [(4, 0), (3, 1), (7, 1), (0, 1), (2, 1)], 25),
    ('two level lines in one row, one within the other', FIVE, [(4, 0), (0, 1), (2, 1), (7, 1), (3, 1)], 25),
    ('two level lines that overlap at the end of the bottom row', FIVE, [(4, 0), (0, TOP), (TOP - 2, TOP), (TOP - 1, TOP), (TOP, TOP)], 25),
    ('two level lines with one end at one point', FIVE, [(4, 0), (0, 1), (7, 1), (3, 1), (3, 1)], 21),
    ('two level lines one above the other', FIVE, [(4, 0), (0, 1), (9, 2), (3, 1), (1, 2)], 0),
    ('a level line through a node', FOUR, [(3, 0), (0, 2), (2, 2), (5, 2)], 25),
    ('a level line through a node, to the left', FOUR, [(3, 0), (5, 2), (4, 2), (0, 2)], 25),
    ('a level line that ends a column before a node', FOUR, [(3, 0), (0, 2), (2, 2), (1, 2)], 0),
    ('a level line a row below a node', FOUR, [(3, 0), (0, 3), (2, 2), (5, 3)], 0),
    ('a level line through the root', FOUR, [(3, 0), (0, 0), (4, 1), (5, 0)], 25),
    ('a level line that touches a steep one with its end', FOUR, [(4, 0), (0, 4), (4, 8), (4, 4)], 25),
    ('a level line that ends a column before a steep one', FOUR, [(4, 0), (0, 4), (4, 8), (3, 4)], 0),
    ('a level line that crosses a steep one', FOUR, [(4, 0), (0, 4), (4, 8), (5, 4)], 23),
    ('a level line that touches a slanting one with its end', FOUR, [(2, 0), (0, 4), (6, 8), (4, 4)], 25),
    ('a level line that crosses a slanting one between columns', FOUR, [(2, 0), (0, 4), (5, 8), (4, 4)], 23),
    ('a level line that ends just before a slanting one that passes between columns', FOUR, [(2, 0), (0, 4), (5, 8), (3, 4)], 0),
    ('a steep line that touches a level one with its end', FIVE, [(4, 0), (0, 4), (6, 1), (9, 4), (6, 4)], 25),
    ('a steep line that ends a row above a level one', FIVE, [(4, 0), (0, 4), (6, 1), (9, 4), (6, 3)], 0),
    ('a steep line from a node on a level one', FIVE, [(4, 0), (0, 4), (6, 4), (9, 4), (6, 9)], 25),
    ('level children in the other order, and lines that overlap', FIVE, [(4, 0), (5, 0), (0, 0), (5, 1), (9, 0)], 25),
]


def level_lines(t):
    """The sheets with level lines that were made by hand."""
    for name, links, points, verdict in LEVEL_LINES:
        t.name(name)
        t.table(bytes_of(plain(links)))
        t.numbers([0, 0] + [x for point in points for x in point])
        t.check()
        assert t.lines[-1] == 'check %d' % verdict, (name, t.lines[-1])


def loose(tree, rng):
    """Any columns, and rows that fall from depth to depth, over the whole range."""
    step = 65536 // (max(tree.depth) + 1)
    return [(rng.choice((0, 65535, rng.randrange(65536), rng.randrange(65536))), d * step + rng.randrange(step))
            for d in tree.depth]


def stretched(tree, points, rng):
    """Points stretched up to 65,535."""
    sx, sy = rng.choice(((1, 1), (2, 3), (6, 2), (65535 // tree.n, 65535 // max(1, max(tree.depth)))))
    return [(x * sx, y * sy) for x, y in points]


def moved(tree, points, rng):
    """One node moved a little or far, onto a node, or onto a line or close to it."""
    v, u = rng.randint(1, tree.n), rng.randint(1, tree.n)
    c = tree.left[u] or tree.right[u] or u
    (x, y), (px, py), (cx, cy), s = points[v], points[u], points[c], rng.randint(0, 4)
    x, y = rng.choice((
        (x + rng.randint(-2, 2), y + rng.randint(-1, 1)), (px, py), (x, py), (cx, y),
        ((px * (4 - s) + cx * s) // 4 + rng.choice((0, 0, 1)), (py * (4 - s) + cy * s) // 4),
        (rng.randrange(65536), rng.randrange(65536))))
    points = list(points)
    points[v] = (min(max(x, 0), 65535), min(max(y, 0), 65535))
    return points


def check_case(rng, level=False):
    """A table and placements for a check: of any sheet, or of one with many level lines."""
    tree = rng.choice(trees.shapes(rng)[3 if level else 5:])[1](rng.randint(2, 12 if level else 16))
    data, record = trees.table(tree, rng, extra=rng.randint(0, 2))
    way = rng.randrange(6)
    if level:
        points = stretched(tree, trees.level_runs(tree, rng, 0.2 if way == 0 else 0.0), rng)
    else:
        points = loose(tree, rng) if way == 0 else stretched(tree, trees.layers(tree), rng)
    if way == 1:                            # seen in a mirror: clean lines, children out of order
        points = [(65535 - x, y) for x, y in points]
    for _ in range(max(0, way - 2)):
        points = moved(tree, points, rng)
    return data, trees.stored(points, record, len(data) // 8)


def level_case(rng):
    return check_case(rng, level=True)


def draw_case(rng, low=14, high=40, tree=None):
    """A table and placements for a draw, wide or not."""
    tree = tree or rng.choice(trees.shapes(rng)[5:])[1](rng.randint(low, high))
    data, _ = trees.table(tree, rng, extra=rng.randint(0, 2))
    return data, sequence(2 * (len(data) // 8), *SEQUENCE)


def forest_case(rng):
    """A table of several trees and placements for a draw, wide or not."""
    return draw_case(rng, tree=forests.some_trees(rng, 12))


def stroke_case(rng, low=2, high=9):
    """A table, placements, a pitch and a number for a stroke."""
    n = rng.randint(low, high)
    data, _ = trees.table(rng.choice(trees.shapes(rng))[1](n), rng, extra=rng.randint(0, 2))
    places = [rng.choice((rng.randrange(9), rng.randrange(65536))) for _ in range(2 * (len(data) // 8) - (rng.random() < 0.1))]
    pitch = rng.choice((0, rng.randint(1, 9), rng.randrange(256)))
    number = rng.choice((rng.randrange(2 * n), 2 * n - 3, 2 * n - 2, rng.choice((2 ** 16, 2 ** 32, 2 ** 63)) + rng.randrange(2 * n)))
    return data, places, pitch, number


def random_strokes(t, rng):
    """All strokes of small trees of every shape, on any placements, and done."""
    for name, make in trees.shapes(rng):
        n = rng.randint(2, 7)
        data, _ = trees.table(make(n), rng, extra=rng.randint(0, 2))
        t.table(data)
        t.filled(2 * (len(data) // 8) + rng.randint(0, 3), rng.randrange(65536), rng.randrange(65536))
        pitch = rng.randint(1, 255)
        for number in range(2 * n - 1):
            t.stroke(pitch, number)


def random_checks(t, rng, count, make):
    for _ in range(count):
        data, places = make(rng)
        t.table(data)
        t.numbers(places)
        t.check()


def large_checks(t, rng, points_of):
    """Wide, low drawings, whose lines are mostly sorted by columns: good ones, and some with a few nodes moved."""
    for name, make in trees.shapes(rng)[5:]:
        for n in (rng.randint(60, 200), rng.randint(513, 700)):
            tree = make(n)
            data, record = trees.table(tree, rng, extra=rng.randint(0, 2))
            points = stretched(tree, points_of(tree), rng)
            for _ in range(3):
                t.table(data)
                t.numbers(trees.stored(points, record, len(data) // 8))
                t.check()
                points = moved(tree, points, rng)


def telling(t):
    """For each slip of a drawing, a check, a stroke, a hang, a cut, a half of a hang or a comparison, up to a dozen cases that tell it; for one of several
    trees up to half a dozen, of such tables."""
    makers = {'check': check_case, 'level': level_case, 'crossing': crossings.sheet_case, 'compare': crossings.pair_case, 'stroke': stroke_case,
              'hang': hang_cut.hang_case, 'cut': hang_cut.cut_case, 'hold': halves.hold_case, 'held': halves.held_case,
              'forest draw': forest_case, 'forest wide': forest_case, 'forest check': forests.sheet_case, 'forest stroke': forests.stroke_case,
              'forest hang': forests.hang_case, 'forest cut': forests.cut_case, 'forest hold': forests.hold_case, 'forest held': forests.held_case}
    for kind, name, *changes in slips.SLIPS:
        if len(slips.CALLS[kind]) > 1:
            continue
        t.name('%s: %s' % (kind, name))
        rng = seeded(kind + ': ' + name)
        ask, = slips.CALLS[kind]
        wrong, told = slips.reference(changes), 0
        for _ in range(20000):
            case = makers.get(kind, draw_case)(rng)
            if slips.answer(wrong, ask, *case) != slips.answer(racksheet, ask, *case):
                told += 1
                asked(t, ask, *case)
            if told == (6 if kind.startswith('forest') else 12):
                break


def asked(t, call, *case):
    """A case of a call of the reference program, stored."""
    if call == 'compare':
        t.compare(*case)
        return
    data, *more = case
    t.table(data)
    if call in ('check', 'stroke'):
        t.numbers(more[0])
        more = more[1:]
    elif call in ('draw', 'draw_wide'):
        t.filled(len(more[0]), *SEQUENCE)
        more = more[1:]
    {'draw': t.draw, 'check': t.check, 'draw_wide': t.wide, 'stroke': t.stroke, 'hang': t.hang, 'cut': t.cut, 'hold': t.hold, 'hang_held': t.held}[call](*more)
    if call == 'draw':
        t.check()


def turned(t, rng):
    """Wide drawings with columns and rows exchanged, checked against the table with left and right exchanged: all good."""
    for name, make in trees.shapes(rng):
        for n in (rng.randint(2, 13), rng.randint(14, 60)):
            t.turned(*trees.table(make(n), rng, extra=rng.randint(0, 2)))


def random_trees(t, rng):
    """Trees of every shape: drawn, checked, the larger ones asked for strokes; then a few placements of the drawing written over and checked again,
    in the large ones so that lines cross, touch, and do both."""
    pen, mouse = seeded('pen'), seeded('mouse')
    sizes = [rng.randint(2, 13) for _ in range(5)] + [rng.randint(14, 40) for _ in range(12)]
    sizes += [rng.randint(41, 90) for _ in range(3)] + [rng.randint(91, 250) for _ in range(1)]
    for name, make in trees.shapes(rng):
        large = [rng.randint(300, 1200)] if 'path' not in name and name != 'zigzag' else []
        largest = [4096] if name in ('random path', 'ties', 'uniform', 'wide switches', 'nested', 'hanging') else []
        for n in sizes + large + largest:
            tree = make(n)
            data, record = trees.table(tree, rng, extra=min(rng.randint(0, 3), 4096 - n))
            t.every(data, rng.randrange(65536), rng.randrange(65536), extra=rng.randint(0, 3))
            for number in [pen.randrange(2 * n)] * (n > 30) + [2 * n - 3, 2 * n - 2] * (n > 250):
                t.stroke(pen.randint(1, 255), number)
            for _ in range(2 if n < 4096 else 1):
                v, u = rng.randint(1, n), rng.randint(1, n)
                k, j = 2 * record[v], 2 * record[u]
                before = t.places[k:k + 2]
                x, y = rng.choice(((before[0] + 1, before[1]), (max(before[0] - 1, 0), before[1]),
                                   tuple(t.places[j:j + 2]), (before[0], t.places[j + 1]), (t.places[j], before[1] + 1)))
                t.changed([(k, x), (k + 1, y)])
                t.check()
                t.changed([(k, before[0]), (k + 1, before[1])])
            if n > 250 and name != 'random path':
                crossings.planted(t, tree, record, mouse)


def parts(t):
    """The parts of the stream, by name."""
    runs = seeded('level runs')
    return [
        ('sheets worked by hand', lambda: worked(t)),
        ('refusals', lambda: refusals(t)),
        ('strokes', lambda: strokes(t)),
        ('damaged tables', lambda: damaged(t, seeded('damaged'))),
        ('verdicts', lambda: verdicts(t, seeded('verdicts'))),
        ('level lines', lambda: level_lines(t)),
        ('pairs of lines', lambda: crossings.pairs(t)),
        ('every pair of lines on a small grid', lambda: crossings.every_pair(t, seeded('every pair'))),
        ('random pairs of lines', lambda: crossings.random_pairs(t, seeded('pairs'), 600)),
        ('crossings and touches', lambda: crossings.sheets(t)),
        ('nodes on one straight line', lambda: crossings.straight(t, seeded('straight'))),
        ('long lines', lambda: crossings.long_lines(t, seeded('long lines'))),
        ('random checks of crossings and touches', lambda: random_checks(t, seeded('crossings'), 300, crossings.sheet_case)),
        ('random checks', lambda: random_checks(t, seeded('checks'), 400, check_case)),
        ('random checks of level lines', lambda: random_checks(t, seeded('level lines'), 300, level_case)),
        ('random strokes', lambda: random_strokes(t, seeded('strokes'))),
        ('cases that tell slips', lambda: telling(t)),
        ('random trees', lambda: random_trees(t, seeded('trees'))),
        ('large layered sheets', lambda: large_checks(t, seeded('level'), trees.layers)),
        ('large sheets of level lines', lambda: large_checks(t, runs, lambda tree: trees.level_runs(tree, runs))),
        ('turned wide drawings', lambda: turned(t, seeded('turned'))),
        ('free chains', lambda: hang_cut.free_chains(t)),
        ('calls one after the other', lambda: hang_cut.changes(t)),
        ('a node hung at every place', lambda: hang_cut.every_place(t, seeded('every place'))),
        ('every record cut', lambda: hang_cut.every_cut(t, seeded('every cut'))),
        ('random calls', lambda: hang_cut.random_calls(t, seeded('calls'))),
        ('tables grown and cut down', lambda: hang_cut.grown(t, seeded('grown'))),
        ('damaged tables with free chains', lambda: hang_cut.damaged(t, seeded('damaged free chains'))),
        ('random trees with free chains', lambda: hang_cut.random_trees(t, seeded('free chains'))),
        ('hangs by halves', lambda: halves.series(t)),
        ('the halves of a hang at every place', lambda: halves.every_place(t, seeded('every place by halves'))),
        ('random calls by halves', lambda: halves.random_calls(t, seeded('halves'))),
        ('halves in large tables', lambda: halves.large(t, seeded('large tables by halves'))),
        ('tables of several trees', lambda: forests.tables(t)),
        ('trees one under the other', lambda: forests.stacks(t, seeded('stacks'))),
        ('sheets of several trees', lambda: forests.sheets(t)),
        ('strokes of several trees', lambda: forests.strokes(t, lambda number: bits(Fraction(number)))),
        ('several trees hung from and cut', lambda: forests.series(t)),
        ('every small forest', lambda: forests.every_forest(t, seeded('every forest'))),
        ('every record of small forests cut', lambda: forests.every_cut(t, seeded('every cut of forests'))),
        ('a node hung at every place of small forests', lambda: forests.every_place(t, seeded('every place of forests'))),
        ('forests cut down', lambda: forests.cut_down(t, seeded('cut down'))),
        ('random calls on forests', lambda: forests.random_calls(t, seeded('calls on forests'))),
        ('damaged tables of several trees', lambda: forests.damaged(t, seeded('damaged forests'))),
        ('random checks of several trees', lambda: random_checks(t, seeded('sheets of forests'), 260, forests.sheet_case)),
        ('random forests', lambda: forests.random_forests(t, seeded('forests'))),
        ('turned wide drawings of several trees', lambda: forests.turned(t, seeded('turned forests'))),
    ]


def main():
    t = Trials()
    for name, part in parts(t):
        t.name(name)
        part()
    crate = os.path.join(os.path.dirname(here), 'crates', 'trials')
    with open(os.path.join(crate, 'stdin'), 'wb') as f:
        f.write(b''.join(t.cases))
    with open(os.path.join(crate, 'stdout'), 'w', encoding='ascii', newline='\n') as f:
        f.write('\n'.join(t.lines) + '\n')
    for name in ('draw', 'check', 'wide', 'stroke', 'hang', 'cut', 'hold', 'held', 'compare'):
        asked = [line.split() for line in t.lines if re.match(name + r' (refused )?(\d|done|lift|draw|%s)' % '|'.join(COMPARED), line)]
        asked = [words[2] if words[1] == 'refused' else '0' if name in ('wide', 'hang', 'hold') else words[1] for words in asked]
        print(name, len(asked), *('%s:%d' % (a, asked.count(a)) for a in sorted(set(asked), key=lambda a: (len(a), a))))
    print('width', sum(line.startswith('width ') for line in t.lines))


if __name__ == '__main__':
    main()
