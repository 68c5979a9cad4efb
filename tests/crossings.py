"""Cases of two lines compared, and of sheets whose lines cross or touch, for make_trials.py. Beside each that was made by hand stands what documents
01 and 02 say of it."""
import itertools

import racksheet
import trees
from slips import UPTO
from trees import bytes_of, plain

TOP = 65535
HALF = 32768
TWO, PATH = [(2, 3), (0, 0), (0, 0)], [(2, 0), (3, 0), (0, 0)]
FOUR, FIVE = [(2, 3), (4, 0), (0, 0), (0, 0)], [(2, 3), (4, 0), (5, 0), (0, 0), (0, 0)]
# 4-6 and 5-7 below the root's left child, and 3-8 and 3-9 below its right one
NINE = [(2, 3), (4, 5), (8, 9), (6, 0), (7, 0), (0, 0), (0, 0), (0, 0), (0, 0)]

# Two lines by their ends: the name, the four points, and what document 02 says of them.
PAIRS = [
    ('two lines far apart', (0, 0), (1, 2), (900, 3), (700, 800), 'separate'),
    ('lines that would cross if one were longer', (0, 0), (9, 9), (6, 0), (6, 5), 'separate'),
    ('lines that would cross if both were longer', (0, 0), (2, 2), (6, 0), (4, 2), 'separate'),
    ('lines that would touch if one were longer by a column', (0, 0), (0, 8), (1, 4), (5, 4), 'separate'),
    ('lines that pass each other between columns', (0, 0), (2, 3), (1, 1), (1, 0), 'separate'),
    ('parallel lines a column apart', (0, 0), (0, 9), (1, 0), (1, 9), 'separate'),
    ('slanting parallel lines a column apart', (0, 0), (7, 7), (1, 0), (8, 7), 'separate'),
    ('slanting parallel lines that pass between columns', (0, 0), (4, 6), (2, 2), (6, 8), 'separate'),
    ('parallel lines a hair apart, over the whole sheet', (0, 0), (TOP - 1, TOP), (1, 0), (TOP, TOP), 'separate'),
    ('lines a hair from parallel and a hair apart', (0, 0), (TOP - 1, TOP), (1, 1), (TOP, TOP), 'separate'),
    ('two lines of one straight line, a column apart', (0, 5), (3, 5), (4, 5), (9, 5), 'separate'),
    ('two slanting lines of one straight line, apart', (0, 0), (2, 4), (3, 6), (4, 8), 'separate'),
    ('two slanting lines of one straight line, at the ends of the sheet', (0, TOP), (1, TOP - 1), (TOP, 0), (TOP - 1, 1), 'separate'),
    ('two points apart', (4, 4), (4, 4), (4, 5), (4, 5), 'separate'),
    ('two points with column and row traded', (0, TOP), (0, TOP), (TOP, 0), (TOP, 0), 'separate'),
    ('a point far from a line', (0, 0), (4, 4), (9, 0), (9, 0), 'separate'),
    ('a point beside a line', (0, 0), (4, 4), (2, 3), (2, 3), 'separate'),
    ('a point beyond the end of a line', (0, 0), (4, 4), (5, 5), (5, 5), 'separate'),
    ('a point a hair beside a line over the whole sheet', (0, 0), (TOP, TOP), (HALF, HALF - 1), (HALF, HALF - 1), 'separate'),
    ('a point just beyond a line over the whole sheet', (0, 0), (TOP - 1, TOP - 1), (TOP, TOP), (TOP, TOP), 'separate'),
    ('an end a hair before a line over the whole sheet', (0, 0), (TOP, TOP), (TOP, 0), (HALF, HALF - 1), 'separate'),
    ('end to end at an angle', (0, 0), (3, 1), (3, 1), (4, 4), 'end'),
    ('end to end at a right angle', (5, 0), (5, 5), (5, 5), (0, 5), 'end'),
    ('end to end at a sharp angle', (0, 0), (TOP, TOP), (0, 0), (TOP, TOP - 1), 'end'),
    ('end to end at a sharp angle, one line short', (0, 0), (TOP, TOP), (0, 0), (1, 2), 'end'),
    ('end to end almost in line', (0, 0), (HALF, HALF), (HALF, HALF), (TOP, TOP - 1), 'end'),
    ('end to end in line', (0, 3), (4, 3), (4, 3), (5, 3), 'end'),
    ('end to end in line, slanting', (0, 0), (2, 4), (2, 4), (3, 6), 'end'),
    ('end to end in line, over the whole sheet', (0, TOP), (HALF, HALF - 1), (HALF, HALF - 1), (TOP, 0), 'end'),
    ('two points at one place', (7, 9), (7, 9), (7, 9), (7, 9), 'end'),
    ('two points at one end of the sheet', (TOP, TOP), (TOP, TOP), (TOP, TOP), (TOP, TOP), 'end'),
    ('a point at an end of a line', (0, 0), (3, 5), (3, 5), (3, 5), 'end'),
    ('a point at an end of a line over the whole sheet', (0, 0), (TOP, TOP), (TOP, TOP), (TOP, TOP), 'end'),
    ('a crossing in a grid point', (0, 0), (2, 2), (0, 2), (2, 0), 'crossing'),
    ('a crossing between grid points', (0, 0), (1, 1), (0, 1), (1, 0), 'crossing'),
    ('a crossing in a grid column, between rows', (0, 0), (2, 1), (1, 0), (1, 1), 'crossing'),
    ('a level line crosses a steep one', (0, 4), (9, 4), (6, 0), (6, 8), 'crossing'),
    ('a crossing a column before the end', (0, 4), (7, 4), (6, 0), (6, 8), 'crossing'),
    ('a crossing that only just reaches', (0, 0), (2, 3), (1, 2), (1, 1), 'crossing'),
    ('the diagonals of the whole sheet cross', (0, 0), (TOP, TOP), (0, TOP), (TOP, 0), 'crossing'),
    ('almost parallel lines cross', (0, 0), (TOP, TOP), (0, 1), (TOP, TOP - 1), 'crossing'),
    ('lines cross close to the end of one', (0, 0), (TOP, TOP), (TOP - 1, TOP), (TOP, TOP - 2), 'crossing'),
    ('a short line crosses one over the whole sheet', (0, 0), (TOP, TOP), (HALF, HALF - 1), (HALF - 1, HALF), 'crossing'),
    ('an end a hair beyond a line over the whole sheet', (0, 0), (TOP, TOP), (TOP, 0), (HALF - 1, HALF), 'crossing'),
    ('an end inside the other line', (0, 4), (6, 4), (6, 0), (6, 8), 'touching'),
    ('an end inside a slanting line', (0, 0), (4, 8), (2, 4), (9, 4), 'touching'),
    ('an end inside the other line, close to its end', (0, 0), (9, 9), (8, 8), (9, 0), 'touching'),
    ('an end inside a line over the whole sheet', (0, 0), (TOP, TOP), (TOP, 0), (HALF, HALF), 'touching'),
    ('an end inside the other line, almost parallel', (0, 0), (TOP, TOP), (TOP - 1, TOP - 1), (0, 1), 'touching'),
    ('lines that overlap in part', (0, 1), (5, 1), (3, 1), (9, 1), 'touching'),
    ('slanting lines that overlap in part', (0, 0), (2, 4), (1, 2), (3, 6), 'touching'),
    ('slanting lines that overlap between two grid points', (0, 0), (5, 5), (4, 4), (9, 9), 'touching'),
    ('a line within the other', (0, 1), (9, 1), (3, 1), (5, 1), 'touching'),
    ('a line within the other, and a shared end', (0, 1), (9, 1), (0, 1), (5, 1), 'touching'),
    ('a slanting line within the other, and a shared end', (0, 0), (9, 9), (4, 4), (9, 9), 'touching'),
    ('the same line', (1, 2), (8, 5), (1, 2), (8, 5), 'touching'),
    ('the same line over the whole sheet', (0, TOP), (TOP, 0), (0, TOP), (TOP, 0), 'touching'),
    ('lines that overlap over the whole sheet', (0, 0), (TOP - 1, TOP - 1), (1, 1), (TOP, TOP), 'touching'),
    ('a point inside a line', (0, 0), (4, 8), (2, 4), (2, 4), 'touching'),
    ('a point inside a line, next to its end', (0, 0), (9, 9), (8, 8), (8, 8), 'touching'),
    ('a point inside a line over the whole sheet', (0, TOP), (TOP, 0), (HALF, HALF - 1), (HALF, HALF - 1), 'touching'),
]

# Sheets: the name, the links and the points of 1, 2, .., and what documents 01 and 02 say of them.
SHEETS = [
    ('a crossing in a grid point where no node is', FIVE, [(2, 0), (0, 1), (4, 1), (4, 5), (0, 5)], 23),
    ('a crossing between grid points', FIVE, [(0, 0), (0, 1), (1, 1), (1, 2), (0, 2)], 23),
    ('a line that would cross another if it were longer', FIVE, [(4, 0), (0, 1), (9, 1), (6, 9), (5, 3)], 0),
    ('an end a column before the other line', FIVE, [(4, 0), (0, 1), (9, 1), (0, 9), (1, 5)], 0),
    ('an end on the other line', FIVE, [(4, 0), (0, 1), (9, 1), (0, 9), (0, 5)], 25),
    ('an end on a slanting line', FIVE, [(4, 0), (0, 1), (9, 1), (4, 9), (2, 5)], 25),
    ('an end a column beyond a slanting line', FIVE, [(4, 0), (0, 1), (9, 1), (4, 9), (1, 5)], 23),
    ('a node on a line, and a line from it', FIVE, [(4, 0), (0, 1), (2, 5), (4, 9), (9, 9)], 25),
    ('a line through the node between two lines in line', FIVE, [(4, 0), (2, 2), (0, 0), (0, 4), (4, 4)], 25),
    ('a line through the node between two lines at an angle', FIVE, [(4, 0), (2, 2), (0, 0), (4, 4), (9, 9)], 25),
    ('a line through the root', FOUR, [(2, 2), (0, 2), (2, 9), (4, 2)], 25),
    ('lines in one column that overlap in part', FIVE, [(0, 0), (5, 1), (5, 3), (5, 6), (5, 9)], 25),
    ('lines in one column, one within the other', FIVE, [(0, 0), (5, 1), (5, 3), (5, 9), (5, 6)], 25),
    ('lines of one slant that overlap in part', FIVE, [(9, 0), (1, 1), (3, 3), (6, 6), (8, 8)], 25),
    ('lines of one slant end to end', PATH, [(0, 0), (2, 2), (4, 4)], 0),
    ('lines of one slant and apart', FIVE, [(9, 0), (1, 1), (6, 6), (3, 3), (8, 8)], 0),
    ('all nodes in one column', NINE, [(0, k) for k in range(9)], 25),
    ('all nodes of one slant', NINE, [(7 * k, 5 * k) for k in range(9)], 25),
    ('all nodes in one row', NINE, [(k, 7) for k in range(9)], 25),
    ('two nodes below another in one column', TWO, [(0, 0), (0, 1), (0, 2)], 25),
    ('two nodes below another of one slant over the whole sheet', TWO, [(0, 0), (TOP, TOP), (HALF, HALF)], 25),
    ('two nodes below another of almost one slant over the whole sheet', TWO, [(0, 0), (HALF - 1, HALF), (TOP, TOP)], 0),
    ('neither a crossing nor a touch', NINE, [(10, 0), (2, 1), (20, 1), (0, 2), (4, 2), (0, 6), (4, 6), (18, 3), (22, 5)], 0),
    ('a crossing, and no touch', NINE, [(10, 0), (2, 1), (20, 1), (0, 2), (4, 2), (4, 6), (0, 6), (18, 3), (22, 5)], 23),
    ('a touch, and no crossing', NINE, [(10, 0), (2, 1), (20, 1), (0, 2), (4, 2), (0, 6), (4, 6), (20, 3), (20, 5)], 25),
    ('a touch on either side', NINE, [(10, 0), (2, 1), (20, 1), (0, 2), (4, 2), (4, 6), (2, 4), (20, 3), (20, 5)], 25),
    ('a crossing, and a touch in the same rows', NINE, [(10, 0), (2, 1), (20, 1), (0, 2), (4, 2), (4, 6), (0, 6), (20, 3), (20, 5)], 23),
    ('a crossing, and a touch below it', NINE, [(10, 0), (2, 1), (20, 30), (0, 2), (4, 2), (4, 6), (0, 6), (20, 33), (20, 35)], 23),
    ('a crossing, and a touch above it', NINE, [(10, 0), (2, 1), (20, 1), (0, 12), (4, 12), (4, 16), (0, 16), (20, 3), (20, 5)], 23),
    ('a node where two lines cross', NINE, [(10, 0), (2, 1), (20, 1), (0, 2), (4, 2), (4, 6), (0, 6), (2, 4), (22, 5)], 23),
    ('a node where two lines would cross if one were longer', NINE, [(10, 0), (2, 1), (20, 1), (0, 2), (4, 2), (4, 6), (2, 4), (18, 3), (22, 5)], 25),
    ('a line crosses one line and ends on another', NINE, [(10, 0), (2, 1), (20, 1), (0, 2), (14, 1), (4, 6), (8, 6), (18, 3), (2, 4)], 23),
    ('a line ends on another that a third one crosses', NINE, [(10, 0), (2, 1), (20, 1), (0, 2), (9, 2), (9, 11), (0, 11), (8, 10), (22, 5)], 23),
    ('a crossing over the whole sheet', FIVE, [(HALF, 0), (0, 0), (TOP, 0), (TOP, TOP), (0, TOP)], 23),
    ('an end a hair beyond a line over the whole sheet', FIVE, [(HALF, 0), (0, 0), (TOP, 0), (TOP, TOP), (HALF - 1, HALF)], 23),
    ('an end on a line over the whole sheet', FIVE, [(HALF, 0), (0, 0), (TOP, 0), (TOP, TOP), (HALF, HALF)], 25),
    ('an end a hair before a line over the whole sheet', FIVE, [(HALF, 0), (0, 0), (TOP, 0), (TOP, TOP), (HALF, HALF - 1)], 0),
    ('a touch, and children in the other order', NINE, [(10, 0), (20, 1), (2, 1), (18, 2), (22, 2), (18, 6), (22, 6), (2, 3), (2, 5)], 25),
    ('a crossing, and children in the other order', NINE, [(10, 0), (20, 1), (2, 1), (18, 2), (22, 2), (22, 6), (18, 6), (0, 3), (4, 5)], 23),
    ('a crossing and a touch, and children in the other order', NINE, [(10, 0), (20, 1), (2, 1), (18, 2), (22, 2), (22, 6), (18, 6), (2, 3), (2, 5)], 23),
    ('children in the other order, and neither a crossing nor a touch', NINE,
        [(10, 0), (20, 1), (2, 1), (18, 2), (22, 2), (18, 6), (22, 6), (0, 3), (4, 5)], 24),
    ('a touch, and a child above', NINE, [(10, 0), (2, 1), (20, 6), (0, 2), (4, 2), (4, 6), (2, 4), (18, 7), (22, 5)], 22),
    ('a crossing, and a child above', NINE, [(10, 0), (2, 1), (20, 6), (0, 2), (4, 2), (4, 6), (0, 6), (18, 7), (22, 5)], 22),
    ('a crossing and a touch, and a child above', NINE, [(10, 0), (2, 1), (20, 6), (0, 2), (4, 2), (4, 6), (0, 6), (20, 5), (20, 4)], 22),
    ('a crossing, and two nodes at one point', NINE, [(10, 0), (2, 1), (20, 1), (0, 2), (4, 2), (4, 6), (0, 6), (18, 3), (18, 3)], 21),
    ('a crossing and a touch, and two nodes at one point', NINE, [(10, 0), (2, 1), (20, 1), (0, 2), (4, 2), (4, 6), (0, 6), (2, 4), (2, 4)], 21),
]


def turned(p, q, r, s):
    """Two lines in either order, with either end first, and with columns and rows exchanged: it is all one for how they meet."""
    for l in ((p, q), (q, p)):
        for m in ((r, s), (s, r)):
            for ends in (l + m, m + l):
                yield ends
                yield tuple(point[::-1] for point in ends)


def pairs(t):
    """The pairs of lines that were made by hand."""
    for name, *ends, says in PAIRS:
        t.name(name)
        for turn in turned(*ends):
            t.compare(*turn)
            assert t.lines[-1] == 'compare ' + says, (name, turn, t.lines[-1])


def every_pair(t, rng):
    """Every pair of lines on a grid of 3 by 3 whose first end is a corner, the middle of a side, or the middle of the grid, with the grid turned or
    seen in a mirror as it falls out: every other pair is such a one, turned or in a mirror."""
    grid = [(column, row) for row in range(3) for column in range(3)]
    for first in ((0, 0), (1, 0), (1, 1)):
        for others in itertools.product(grid, repeat=3):
            across, down, over = (rng.random() < 0.5 for _ in range(3))
            ends = [(2 - x if across else x, 2 - y if down else y) for x, y in (first,) + others]
            t.compare(*(end[::-1] if over else end for end in ends))


def anywhere(rng, most):
    return tuple(rng.choice((0, most)) if rng.random() < 0.2 else rng.randint(0, most) for _ in range(2))


def stepped(p, step, times):
    """A point so many steps from another, or where the sheet ends before that."""
    return tuple(min(max(x + k * times, 0), TOP) for x, k in zip(p, step))


def in_line(rng, most):
    """Two lines, each end on one straight line or anywhere."""
    p, q, steps = anywhere(rng, most), anywhere(rng, most), rng.randint(1, 6)
    step = [(b - a) // steps for a, b in zip(p, q)]
    return [stepped(p, step, rng.randint(0, steps)) if rng.random() < 0.6 else anywhere(rng, most) for _ in range(4)]


def through(rng, most):
    """Two lines through one grid point, or with an end there."""
    p, reach = anywhere(rng, most), most // rng.choice((2, 3, 5)) + 1
    steps = [(rng.randint(-reach, reach), rng.randint(-reach, reach)) for _ in range(2)]
    return [stepped(p, step, times * rng.choice((0, 1, 1, 2))) for step in steps for times in (-1, 1)]


def pair_case(rng):
    """Two lines on a small grid or over the whole sheet, at times with an end moved by a column or a row."""
    ends = rng.choice((in_line, through))(rng, rng.choice((2, 3, 5, 9, 100, TOP, TOP)))
    if rng.random() < 0.3:
        k = rng.randrange(4)
        ends[k] = stepped(ends[k], rng.choice(((0, 1), (1, 0))), rng.choice((-1, 1)))
    return tuple(ends)


def random_pairs(t, rng, count):
    for _ in range(count):
        t.compare(*pair_case(rng))


def reversed_chain(words):
    """The table of words that are chained in order from 1, chained the other way."""
    n = len(words) - 1
    return [[n] + words[0][1:]] + [[k] + words[k + 1][1:] for k in range(n)]


def sheets(t):
    """The sheets that were made by hand, with the chain in either order."""
    for name, links, points, verdict in SHEETS:
        t.name(name)
        for words in (plain(links), reversed_chain(plain(links))):
            t.table(bytes_of(words))
            t.numbers([0, 0] + [x for point in points for x in point])
            t.check()
            assert t.lines[-1] == 'check %d' % verdict, (name, t.lines[-1])


def sheet_case(rng):
    """A table, and placements whose lines cross and touch."""
    tree = rng.choice(trees.shapes(rng)[4:])[1](rng.randint(3, 10))
    data, record = trees.table(tree, rng, extra=rng.randint(0, 1))
    points = trees.tangled(tree, rng)
    if rng.random() < 0.15:                                                 # a node at the point of another, or right above it
        v, (column, row) = rng.randint(1, tree.n), rng.choice(points[1:])
        points[v] = column, max(row - rng.randint(0, 1), 0)
    far = max(max(point) for point in points)
    x, y = rng.choice(((1, 1), (2, 2), (1, 3), (2, 1), (TOP // far, TOP // far)))
    return data, trees.stored([(column * x, row * y) for column, row in points], record, len(data) // 8)


# Large sheets with all nodes on one straight line: the name, the point of node k, and the points for two leaves, below a node before k and below k,
# whose lines then cross.
STRAIGHT = [
    ('one slant', lambda k: (2 * k, 2 * k + 1), lambda k: ((2 * k + 2, 2 * k + 10), (2 * k, 2 * k + 10))),
    ('one column', lambda k: (7, k), lambda k: ((8, k + 9), (9, k + 1))),
    ('one row', lambda k: (k, 7), lambda k: ((k + 1, 9), (k, 20))),
]


def checked(t, points, verdict):
    """A check with the points of some records written over, after which the sheet is as it was."""
    pairs = [(2 * k + i, x) for k, point in points for i, x in enumerate(point)]
    before = [(at, t.places[at]) for at, _ in pairs]
    t.changed(pairs)
    t.check()
    assert t.lines[-1] == 'check %d' % verdict, (points, t.lines[-1])
    t.changed(before)


def straight(t, rng):
    """Large sheets whose lines touch and do not cross, and with two leaves moved so that one crossing comes among them, early or late."""
    makers = dict(trees.shapes(rng))
    for (name, point, crossing), shape, n in zip(STRAIGHT + STRAIGHT[:1], ('ties', 'uniform', 'nested', 'balanced'), (600, 400, 300, 4096)):
        tree = makers[shape](n)
        data, _ = trees.table(tree, rng, shuffled=False)
        t.name('all nodes in ' + name)
        t.table(data)
        places = [x for k in range(n + 1) for x in point(k)]
        if places == list(range(2 * n + 2)):
            t.filled(2 * n + 2, 0, 1)
        else:
            t.numbers(places)
        t.check()
        assert t.lines[-1] == 'check 25'
        parent = {c: v for v in range(1, n + 1) for c in (tree.left[v], tree.right[v])}
        leaves = [v for v in range(2, n + 1) if not tree.left[v] and not tree.right[v]]
        for part in (leaves[:10], leaves[-10:]):
            a, b = min(part, key=parent.get), max(part, key=parent.get)
            checked(t, list(zip((a, b), crossing(parent[b]))), 23)


def leaf_moved(t, tree, record, rng, low, verdict):
    """A leaf in the upper or the lower half of a good sheet, by its record, and a point on another line or beside it: with that leaf there the
    verdict is this."""
    at = [(t.places[2 * k], t.places[2 * k + 1]) for k in record]
    middle = sorted(row for _, row in at[1:])[tree.n // 2]
    half = [v for v in range(1, tree.n + 1) if (at[v][1] > middle) == low]
    leaves = [v for v in half if not tree.left[v] and not tree.right[v]]
    lines = [(at[v], at[c]) for v in half for c in (tree.left[v], tree.right[v]) if c]
    while True:
        v = rng.choice(leaves)
        near = [line for line in lines if abs(line[0][1] - at[v][1]) < 5]
        if near:
            (x, y), (p, q) = rng.choice(near)
            row = rng.randint(y, q)
            column = x + (p - x) * (row - y) // max(q - y, 1) + rng.randint(-1, 1)
            places = list(t.places)
            places[2 * record[v]:2 * record[v] + 2] = max(column, 0), row
            if racksheet.check(t.bytes, places, UPTO) == verdict:
                return record[v], (max(column, 0), row)


def planted(t, tree, record, rng):
    """A leaf of a large good sheet moved so that lines touch, and one so that lines cross, the one in the upper half and the other in the lower; each
    alone, and both."""
    for verdicts in ((25, 23), (23, 25)):
        moves = [leaf_moved(t, tree, record, rng, low, verdict) for low, verdict in enumerate(verdicts)]
        for move, verdict in zip(moves, verdicts):
            checked(t, [move], verdict)
        checked(t, moves, 23)


def comb(n):
    """A path that goes to the left, with a leaf on the right of each node."""
    return trees.split(n, lambda m, d: m - min(1, m))


def slanting(tree, distances):
    """The path goes down to the left, and each leaf hangs from it to the right, as many columns and rows away as the next distance says."""
    points, at, row = [(0, 0)] * (tree.n + 1), 1, 0
    while at:
        points[at] = tree.n - row, row
        if tree.right[at]:
            far = next(distances)
            points[tree.right[at]] = tree.n - row + far, row + far
        at, row = tree.left[at], row + 1
    return points


def on_another(tree, points, rng):
    """A leaf, and a point on the line to another leaf or beside it."""
    leaves = [c for c in tree.right if c]
    parent = {c: v for v, c in enumerate(tree.right) if c}
    a, b = rng.sample(leaves, 2)
    (x, y), (p, q) = points[parent[b]], points[b]
    far = rng.randint(1, q - y)
    return a, (x + far + rng.choice((-1, 0, 0, 1)), y + far)


def long_lines(t, rng):
    """Large sheets whose lines overlap in columns and in rows: good ones, and with a leaf moved onto another line or across some,
    until each verdict was met twice."""
    for n, most, even in ((90, 500, True), (200, 30000, False), (400, 30000, False)):
        tree = comb(n)
        data, record = trees.table(tree, rng)
        points = slanting(tree, iter(lambda: most if even else rng.randint(1, most), 0))
        t.name('%d nodes, lines %s' % (n, 'of one length' if even else 'of random lengths'))
        t.table(data)
        t.numbers(trees.stored(points, record, n + 1))
        t.check()
        assert t.lines[-1] == 'check 0'
        left = {0: 2, 23: 2, 25: 2}
        while any(left.values()):
            v, point = on_another(tree, points, rng)
            verdict = racksheet.check(t.bytes, trees.stored(points[:v] + [point] + points[v + 1:], record, n + 1), UPTO)
            if left.get(verdict):
                left[verdict] -= 1
                checked(t, [(record[v], point)], verdict)
