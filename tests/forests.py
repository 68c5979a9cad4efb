"""Cases of tables that hold several trees for make_trials.py. Beside each that was made by hand stands what documents 01 and 02 say of it."""
import itertools
import math

import halves
import hang_cut
import racksheet
import trees
from crossings import HALF, TOP, reversed_chain
from hang_cut import edited
from slips import UPTO
from trees import bytes_of, plain

# Trees with their links, and their drawings as document 01 has them: the points of 1, 2, .., width and height.
ONE = [(0, 0)], [(0, 0)], 1, 1
CHILD = [(2, 0), (0, 0)], [(0, 0), (1, 1)], 2, 2
LEAVES = [(2, 3), (0, 0), (0, 0)], [(0, 0), (1, 2), (1, 1)], 2, 3
PENDING = [(2, 3), (0, 0), (4, 0), (0, 0)], [(0, 0), (1, 3), (1, 1), (1, 2)], 2, 4
SWITCH = [(0, 2), (3, 4), (0, 0), (5, 0), (0, 0)], [(0, 0), (1, 1), (1, 2), (3, 2), (2, 3)], 4, 4
SIX = [(2, 3), (0, 0), (4, 5), (0, 0), (6, 0), (0, 0)], [(0, 0), (1, 3), (1, 1), (1, 2), (3, 2), (2, 4)], 4, 5


def joined(*parts):
    """The links of several trees, numbered from 1 tree by tree."""
    links = []
    for part in parts:
        before = len(links)
        links += [tuple(c and c + before for c in pair) for pair in part]
    return links


def chained(words, order):
    """A table with its nodes chained in such an order."""
    words = [list(w) for w in words]
    for k, following in zip([0] + order, order + [0]):
        words[k][0] = following
    return words


def chain_of(data):
    """The records of the chain of an accepted table, in its order."""
    chain, k = [], data[0] + 256 * data[1]
    while k:
        chain.append(k)
        k = data[8 * k] + 256 * data[8 * k + 1]
    return chain


ONES = plain([(0, 0)] * 3)
GOOD = plain(joined(SIX[0], CHILD[0], ONE[0], LEAVES[0]))                   # roots 1, 7, 9 and 10
APART = edited(GOOD, (0, 2, 14)) + [[9, 13, 1, 3], [0, 0, 0, 0]]            # 13 on neither chain, 14 free

# Tables of several trees: the name, the table, and the refusal that every call gives, or the width, the height and the points of 1, 2, .. of the drawing.
TABLES = [
    ('two single nodes', plain([(0, 0)] * 2), (1, 2, [(0, 0), (0, 1)])),
    ("two single nodes, the second of the chain the head's root", plain([(0, 0)] * 2, 2), (1, 2, [(0, 1), (0, 0)])),
    ('two single nodes, the chain not in the order of the records', chained(plain([(0, 0)] * 2), [2, 1]), (1, 2, [(0, 0), (0, 1)])),
    ('three single nodes', ONES, (1, 3, [(0, 0), (0, 1), (0, 2)])),
    ("three single nodes, the head's root in the middle of the chain", edited(ONES, (0, 1, 2)), (1, 3, [(0, 1), (0, 0), (0, 2)])),
    ("three single nodes, the head's root last in the chain", edited(ONES, (0, 1, 3)), (1, 3, [(0, 1), (0, 2), (0, 0)])),
    ('three single nodes, chained 3, 1, 2', chained(ONES, [3, 1, 2]), (1, 3, [(0, 0), (0, 2), (0, 1)])),
    ('three single nodes, chained 1, 3, 2', chained(ONES, [1, 3, 2]), (1, 3, [(0, 0), (0, 2), (0, 1)])),
    ("three single nodes, chained 3, 2, 1, the head's root 2", chained(edited(ONES, (0, 1, 2)), [3, 2, 1]), (1, 3, [(0, 2), (0, 0), (0, 1)])),
    ('five single nodes, chained 5, 2, 4, 1, 3', chained(plain([(0, 0)] * 5), [5, 2, 4, 1, 3]), (1, 5, [(0, 0), (0, 2), (0, 4), (0, 3), (0, 1)])),
    ('a single node under a tree of two', plain([(2, 0), (0, 0), (0, 0)]), (2, 3, [(0, 0), (1, 1), (0, 2)])),
    ('a single node under a tree of two, and before it in the chain', plain([(0, 0), (3, 0), (0, 0)], 2), (2, 3, [(0, 2), (0, 0), (1, 1)])),
    ('a single node under a tree of two, and within it in the chain', plain([(3, 0), (0, 0), (0, 0)]), (2, 3, [(0, 0), (0, 2), (1, 1)])),
    ('a tree of two under a single node', plain([(0, 0), (0, 3), (0, 0)]), (2, 3, [(0, 0), (0, 1), (1, 2)])),
    ('a tree of two under a single node, its child first in the chain', chained(plain([(0, 0), (0, 3), (0, 0)]), [3, 1, 2]), (2, 3, [(0, 0), (0, 1), (1, 2)])),
    ('a child before the roots in the chain', chained(plain([(0, 0), (0, 4), (0, 0), (0, 0)]), [4, 3, 2, 1]), (2, 4, [(0, 0), (0, 2), (0, 1), (1, 3)])),
    ('two trees of three', plain(joined(LEAVES[0], LEAVES[0])), (2, 6, [(0, 0), (1, 2), (1, 1), (0, 3), (1, 5), (1, 4)])),
    ('two trees of three, their nodes by turns in the chain', chained(plain(joined(LEAVES[0], LEAVES[0])), [3, 5, 2, 4, 6, 1]),
     (2, 6, [(0, 0), (1, 2), (1, 1), (0, 3), (1, 5), (1, 4)])),
    ('a wide tree under a narrow one', plain(joined(CHILD[0], SIX[0])), (4, 7, [(0, 0), (1, 1), (0, 2), (1, 5), (1, 3), (1, 4), (3, 4), (2, 6)])),
    ('a narrow tree under a wide one', plain(joined(SIX[0], CHILD[0])), (4, 7, [(0, 0), (1, 3), (1, 1), (1, 2), (3, 2), (2, 4), (0, 5), (1, 6)])),
    ("a wide tree under a narrow one that is the head's root's, and last in the chain", plain(joined(SIX[0], CHILD[0]), 7),
     (4, 7, [(0, 2), (1, 5), (1, 3), (1, 4), (3, 4), (2, 6), (0, 0), (1, 1)])),
    ('four trees', GOOD, (4, 11, [(0, 0), (1, 3), (1, 1), (1, 2), (3, 2), (2, 4), (0, 5), (1, 6), (0, 7), (0, 8), (1, 10), (1, 9)])),
    ('four trees, the chain from the end', reversed_chain(GOOD),
     (4, 11, [(0, 0), (1, 3), (1, 1), (1, 2), (3, 2), (2, 4), (0, 9), (1, 10), (0, 8), (0, 5), (1, 7), (1, 6)])),
    ("four trees, the third one the head's root's", edited(GOOD, (0, 1, 9)),
     (4, 11, [(0, 1), (1, 4), (1, 2), (1, 3), (3, 3), (2, 5), (0, 6), (1, 7), (0, 0), (0, 8), (1, 10), (1, 9)])),
    ('four trees, with a free record and one on neither chain', APART,
     (4, 11, [(0, 0), (1, 3), (1, 1), (1, 2), (3, 2), (2, 4), (0, 5), (1, 6), (0, 7), (0, 8), (1, 10), (1, 9)])),
    ('a record on neither chain names a second root', edited(APART, (13, 1, 7), (13, 2, 9)),
     (4, 11, [(0, 0), (1, 3), (1, 1), (1, 2), (3, 2), (2, 4), (0, 5), (1, 6), (0, 7), (0, 8), (1, 10), (1, 9)])),
    # a node that a node of another tree names starts none
    ('a path of three nodes, and no other root', plain([(2, 0), (3, 0), (0, 0)]), (2, 3, [(0, 0), (1, 1), (1, 2)])),
    ('a path of three nodes, and a second root', plain([(0, 2), (0, 3), (0, 0), (0, 0)]), (2, 4, [(0, 0), (1, 1), (1, 2), (0, 3)])),
    ('a node named by a tree behind it in the chain starts none', plain([(0, 0), (0, 0), (2, 0)]), (2, 3, [(0, 0), (1, 2), (0, 1)])),
    ('two nodes named by a tree behind them in the chain start none', plain([(0, 0), (0, 0), (0, 0), (2, 3)]), (2, 4, [(0, 0), (1, 3), (1, 2), (0, 1)])),
    # the head's root
    ('no root, and single nodes', edited(ONES, (0, 1, 0)), 5),
    ('no root, and a tree of three', edited(plain(LEAVES[0]), (0, 1, 0)), 5),
    ('no root, and four trees', edited(GOOD, (0, 1, 0)), 5),
    ('a root on neither chain beside four trees', edited(APART, (0, 1, 13)), 5),
    ('a root that is free beside four trees', edited(APART, (0, 1, 14)), 5),
    ('a root just beyond the table beside four trees', edited(APART, (0, 1, 15)), 5),
    ('a root far beyond the table beside four trees', edited(APART, (0, 1, 65535)), 5),
    ('a root beyond the table by its high byte', edited(GOOD, (0, 1, 257)), 5),
    ("the head's root is a leaf of the first tree", edited(GOOD, (0, 1, 6)), 5),
    ("the head's root is a leaf of the second tree", edited(GOOD, (0, 1, 8)), 5),
    ("the head's root is named by a second root, on the left", plain([(0, 0), (1, 0)]), 5),
    ("the head's root is named by a second root, on the right", plain([(0, 0), (0, 1)]), 5),
    ("the head's root is named by a second root that is first in the chain", chained(plain([(0, 0), (0, 1)]), [2, 1]), 5),
    ("the head's root is named by a leaf of a second tree", edited(GOOD, (12, 1, 1)), 5),
    ("the head's root is named by a leaf of its own, beside other trees", edited(GOOD, (2, 2, 1)), 5),
    ("the head's root names itself, beside other trees", plain([(1, 0), (0, 0)]), 5),
    ("the head's root and another node name each other, beside a tree", plain([(2, 0), (1, 0), (0, 0)]), 5),
    # a node named more than once
    ('a node named by two roots, on their left', plain([(3, 0), (3, 0), (0, 0)]), 5),
    ('a node named by two roots, left and right', plain([(3, 0), (0, 3), (0, 0)]), 5),
    ("a node named by two roots, neither the head's", plain([(0, 0), (4, 0), (4, 0), (0, 0)]), 5),
    ('a second root names a child of the first', plain([(2, 0), (0, 0), (2, 0)]), 5),
    ('the first root names a child of the second', plain([(0, 3), (3, 0), (0, 0)]), 5),
    ('a leaf of one tree names a leaf of another', edited(GOOD, (6, 1, 8)), 5),
    ('a second root with one node left and right', plain([(0, 0), (3, 3), (0, 0)]), 5),
    ('a second root with a leaf left and right, last of four trees', edited(GOOD, (10, 2, 11), (11, 0, 0)), 5),
    ('a node of a second tree named by its parent and its grandparent', plain([(0, 0), (3, 4), (4, 0), (0, 0)]), 5),
    ('a node named three times', plain([(4, 0), (4, 0), (4, 0), (0, 0)]), 5),
    ('a second root that leads into a cycle', plain([(0, 0), (3, 0), (4, 0), (3, 0)]), 5),
    # a node reached from no root
    ('a cycle of one node, by its left', plain([(0, 0), (2, 0)]), 5),
    ('a cycle of one node, by its right', plain([(0, 0), (0, 2)]), 5),
    ('a cycle of one node, first in the chain', chained(plain([(0, 0), (0, 2)]), [2, 1]), 5),
    ('a node that names itself left and right', plain([(0, 0), (2, 2)]), 5),
    ('a cycle of two nodes', plain([(0, 0), (3, 0), (2, 0)]), 5),
    ('a cycle of two nodes, left and right', plain([(0, 0), (0, 3), (2, 0)]), 5),
    ('a cycle of three nodes', plain([(0, 0), (3, 0), (4, 0), (2, 0)]), 5),
    ('a cycle of three nodes, first in the chain', chained(plain([(0, 0), (0, 3), (4, 0), (0, 2)]), [4, 3, 2, 1]), 5),
    ('a cycle of one node beside two trees', plain([(2, 0), (0, 0), (0, 0), (0, 4)]), 5),
    ('a cycle of two nodes beside two trees', plain([(2, 0), (0, 0), (0, 0), (5, 0), (4, 0)]), 5),
    ('a cycle of three nodes beside two trees', plain([(2, 0), (0, 0), (0, 0), (5, 0), (0, 6), (4, 0)]), 5),
    ('a cycle of three nodes between two trees in the chain', chained(plain([(2, 0), (0, 0), (0, 0), (5, 0), (0, 6), (4, 0)]), [1, 4, 2, 5, 6, 3]), 5),
    ('a cycle with a leaf beside it', plain([(0, 0), (3, 0), (2, 4), (0, 0)]), 5),
    ('a cycle of one node with a leaf beside it', plain([(0, 0), (2, 3), (0, 0)]), 5),
    ('two cycles beside a tree', plain([(2, 0), (0, 0), (3, 0), (5, 0), (4, 0)]), 5),
    ('a cycle, and no other node', edited(plain([(2, 0), (1, 0)]), (0, 1, 0)), 5),
    ("a cycle, and the head's root in it", plain([(2, 0), (3, 0), (1, 0)]), 5),
    # several causes: the first is told
    ('a child of a second root is beyond the table', edited(GOOD, (9, 1, 13)), 4),
    ('a child of a second root is on neither chain', edited(APART, (9, 1, 13)), 4),
    ('a child of a second root is free', edited(APART, (9, 2, 14)), 4),
    ("a child of a second root off the chain, and the head's root named", edited(APART, (9, 1, 13), (12, 1, 1)), 4),
    ('a child of a second root off the chain, and a cycle', edited(APART, (9, 1, 13), (7, 1, 7)), 4),
    ('a child of a second root off the chain, and the free chain beyond the table', edited(APART, (9, 1, 13), (14, 0, 15)), 8),
    ('four trees, the root of the third free as well', edited(GOOD, (0, 2, 9), (9, 3, 0)), 8),
    ('the chain of four trees runs into itself', edited(GOOD, (12, 0, 7)), 3),
    ("the head's tag, and four trees", edited(GOOD, (0, 3, 1)), 2),
]


def tables(t):
    """Every call on the tables that were made by hand; the good ones with placements to spare, just enough and too few."""
    for name, words, says in TABLES:
        t.name(name)
        data = bytes_of(words)
        if isinstance(says, int):
            assert t.every(data, 1000, 3, pitches=(255,)) == says, name
            continue
        width, height, points = says
        assert t.every(data, 1000, 3, extra=3) == 0, name
        assert t.lines[-3] == 'draw 0 %d %d %d' % (len(points), width, height), (name, t.lines[-3])
        assert t.places[2:2 + 2 * len(points)] == [x for point in points for x in point], (name, t.places)
    t.name('several trees and placements that are too few')
    for words in (plain([(0, 0)] * 2), ONES, GOOD, APART):
        for short in (1, 2, 2 * len(words)):
            assert t.every(bytes_of(words), 1000, 3, short=short) == 6


def stacked(parts, chain, record):
    """The points of several trees, numbered from 1 tree by tree, and the width and the height of all, as document 02 says: the first is the head's
    root's and comes first, the others come in the order of their roots in the chain, each with its root at column 0 in the row under the one
    before."""
    begins = [1 + sum(len(part[0]) for part in parts[:i]) for i in range(len(parts))]
    order = [0] + sorted(range(1, len(parts)), key=lambda i: chain.index(record[begins[i]]))
    points, height = {}, 0
    for i in order:
        for v, (column, row) in enumerate(parts[i][1], begins[i]):
            points[v] = column, height + row
        height += parts[i][3]
    return points, max(part[2] for part in parts), height


def stack(t, parts, rng):
    """Several trees drawn, one under the other; and, with left and right exchanged, drawn wide, side by side."""
    links = joined(*(part[0] for part in parts))
    for wide in (False, True):
        whole = trees.from_links([pair[::-1] if wide else pair for pair in links])
        data, record = trees.table(whole, rng, extra=rng.randint(0, 1), free=rng.randint(0, 1))
        points, width, height = stacked(parts, chain_of(data), record)
        t.table(data)
        t.filled(len(data) // 4, 1000, 3)
        if wide:
            t.wide()
            assert t.lines[-2] == 'wide %d %d %d' % (len(points), height, width), t.lines[-2]
        else:
            t.draw()
            assert t.lines[-2] == 'draw 0 %d %d %d' % (len(points), width, height), t.lines[-2]
            t.check()
            assert t.lines[-1] == 'check 0'
        for v, (column, row) in points.items():
            at = t.places[2 * record[v]:2 * record[v] + 2]
            assert at == ([row, column] if wide else [column, row]), (parts, data, at)


def stacks(t, rng):
    """Every two of the trees that document 01 draws, three of them in each order of the chain, and four and five of them."""
    known = ONE, CHILD, LEAVES, PENDING, SWITCH, SIX
    for parts in itertools.product(known, repeat=2):
        stack(t, parts, rng)
    for parts in itertools.permutations((LEAVES, ONE, SWITCH)):
        stack(t, parts, rng)
    for count in (3, 4, 5):
        for _ in range(6):
            stack(t, [rng.choice(known) for _ in range(count)], rng)


# The links of the sheets: of 1 and 2, a line, and single nodes; of two lines; of a node with two children, and single nodes; and others.
LINE_1 = [(2, 0), (0, 0), (0, 0)]
LINE_2 = LINE_1 + [(0, 0)]
LINES = [(2, 0), (0, 0), (4, 0), (0, 0)]
LINES_1 = LINES + [(0, 0)]
LINES_3 = joined(*[CHILD[0]] * 3)
FORK_1 = LEAVES[0] + [(0, 0)]
PATH_1 = [(2, 0), (3, 0), (0, 0), (0, 0)]
FORKS = joined(LEAVES[0], LEAVES[0])
FORK_LINE = joined(LEAVES[0], CHILD[0])
LINE_FORK = joined(CHILD[0], LEAVES[0])
LINE_FIVE = joined(CHILD[0], [(2, 3), (4, 0), (5, 0), (0, 0), (0, 0)])
LINES_FORK_1 = joined(CHILD[0], CHILD[0], LEAVES[0], ONE[0])
ONES_3 = [(0, 0)] * 3

# Sheets of several trees: the name, the links and the points of 1, 2, .., and what documents 01 and 02 say of them.
SHEETS = [
    # a single node and a line of another tree
    ('a single node on a steep line', LINE_1, [(0, 0), (0, 2), (0, 1)], 25),
    ('a single node on a level line', LINE_1, [(0, 0), (2, 0), (1, 0)], 25),
    ('a single node on a level line to the left', LINE_1, [(2, 0), (0, 0), (1, 0)], 25),
    ('a single node on a level line of the bottom row', LINE_1, [(0, TOP), (TOP, TOP), (TOP - 1, TOP)], 25),
    ('a single node on a slanting line', LINE_1, [(0, 0), (2, 4), (1, 2)], 25),
    ('a single node on a slanting line to the left', LINE_1, [(4, 0), (0, 2), (2, 1)], 25),
    ('a single node on a line in its first third', LINE_1, [(0, 0), (3, 6), (1, 2)], 25),
    ('a single node on a line in its last third', LINE_1, [(0, 0), (3, 6), (2, 4)], 25),
    ('a single node on a line, next to its upper end', LINE_1, [(0, 0), (9, 9), (1, 1)], 25),
    ('a single node on a line, next to its lower end', LINE_1, [(0, 0), (9, 9), (8, 8)], 25),
    ('a single node on a steep line next to its lower end', LINE_1, [(7, 0), (7, TOP), (7, TOP - 1)], 25),
    ('a single node on a line over the whole sheet', LINE_1, [(0, 0), (TOP, TOP), (HALF, HALF)], 25),
    ('a single node on a line to the left over the whole sheet', LINE_1, [(TOP, 0), (0, TOP), (HALF, HALF - 1)], 25),
    ('a single node a third along a line over the whole sheet', LINE_1, [(0, 0), (TOP, TOP - 3), (TOP // 3, TOP // 3 - 1)], 25),
    ('a single node a hair beside a line over the whole sheet', LINE_1, [(0, 0), (TOP, TOP), (HALF, HALF - 1)], 0),
    ('a single node a hair below a line over the whole sheet', LINE_1, [(0, 0), (TOP, TOP), (HALF - 1, HALF)], 0),
    ('a single node a hair beside a line that is almost level', LINE_1, [(0, 0), (TOP, 1), (HALF, 0)], 0),
    ('a single node at the upper end of a line', LINE_1, [(1, 1), (2, 4), (1, 1)], 21),
    ('a single node at the lower end of a line', LINE_1, [(1, 1), (2, 4), (2, 4)], 21),
    ('a single node at an end of a level line', LINE_1, [(1, 1), (4, 1), (4, 1)], 21),
    ('a single node at an end of a steep line', LINE_1, [(1, 1), (1, 4), (1, 4)], 21),
    ('a single node in line beyond the lower end', LINE_1, [(0, 0), (2, 2), (3, 3)], 0),
    ('a single node in line before the upper end', LINE_1, [(1, 1), (3, 3), (0, 0)], 0),
    ('a single node in line beyond the end of a level line', LINE_1, [(0, 0), (2, 0), (3, 0)], 0),
    ('a single node in line before a level line', LINE_1, [(1, 0), (3, 0), (0, 0)], 0),
    ('a single node in line beyond the end of a level line to the left', LINE_1, [(3, 0), (1, 0), (0, 0)], 0),
    ('a single node in line before a level line to the left', LINE_1, [(2, 0), (0, 0), (3, 0)], 0),
    ('a single node in line below a steep line', LINE_1, [(0, 0), (0, 2), (0, 3)], 0),
    ('a single node in line above a steep line', LINE_1, [(0, 1), (0, 3), (0, 0)], 0),
    ('a single node left of the middle between two columns', LINE_1, [(0, 0), (1, 2), (0, 1)], 0),
    ('a single node right of the middle between two columns', LINE_1, [(0, 0), (1, 2), (1, 1)], 0),
    ('a single node above the middle between two rows', LINE_1, [(0, 0), (2, 1), (1, 0)], 0),
    ('a single node below the middle between two rows', LINE_1, [(0, 0), (2, 1), (1, 1)], 0),
    ('a single node beside the middle between four grid points', LINE_1, [(0, 0), (1, 1), (0, 1)], 0),
    ('a single node above the middle between four grid points', LINE_1, [(0, 0), (1, 1), (1, 0)], 0),
    ('a single node beside the middle of a long line', LINE_1, [(0, 0), (7, 5), (3, 2)], 0),
    ('a single node beyond the middle of a long line', LINE_1, [(0, 0), (7, 5), (4, 3)], 0),
    ('a single node beside a steep line', LINE_1, [(1, 0), (1, 4), (0, 2)], 0),
    ('a single node under a level line', LINE_1, [(0, 1), (4, 1), (2, 2)], 0),
    ('a single node in the rectangle of a line', LINE_1, [(0, 0), (4, 4), (3, 1)], 0),
    ('a single node in the row of an end', LINE_1, [(2, 0), (4, 4), (0, 4)], 0),
    ('a single node on the line to a left child', FORK_1, [(2, 0), (0, 2), (4, 2), (1, 1)], 25),
    ('a single node on the line to a right child', FORK_1, [(2, 0), (0, 2), (4, 2), (3, 1)], 25),
    ('a single node between the lines to two children', FORK_1, [(2, 0), (0, 2), (4, 2), (2, 1)], 0),
    ('a single node between two children in their row', FORK_1, [(2, 0), (0, 2), (4, 2), (2, 2)], 0),
    ('a single node on the level line to a right child', FORK_1, [(2, 0), (0, 0), (4, 0), (3, 0)], 25),
    ('a single node on the upper line of a path', PATH_1, [(0, 0), (0, 2), (0, 4), (0, 1)], 25),
    ('a single node on the lower line of a path', PATH_1, [(0, 0), (0, 2), (0, 4), (0, 3)], 25),
    ('a single node where the lines of a path meet', PATH_1, [(0, 0), (2, 2), (0, 4), (2, 2)], 21),
    ('two single nodes, neither on the line', LINE_2, [(0, 0), (2, 2), (0, 2), (2, 0)], 0),
    ('two single nodes, one on the line', LINE_2, [(0, 0), (2, 2), (0, 2), (1, 1)], 25),
    ('two single nodes, both on the line', LINE_2, [(0, 0), (3, 3), (2, 2), (1, 1)], 25),
    ('two single nodes, at either end of the line', LINE_2, [(0, 0), (3, 3), (3, 3), (0, 0)], 21),
    ('two single nodes at one point beside the line', LINE_2, [(0, 0), (3, 3), (5, 5), (5, 5)], 21),
    ('two single nodes at one point on the line', LINE_2, [(0, 0), (3, 3), (1, 1), (1, 1)], 21),
    ('a single node on a line, and a child above its parent', LINE_2, [(0, 2), (0, 0), (0, 1), (3, 3)], 22),
    ('a single node on the second line', LINES_1, [(0, 0), (0, 4), (5, 0), (5, 4), (5, 2)], 25),
    ('a single node on the first line', LINES_1, [(0, 0), (0, 4), (5, 0), (5, 4), (0, 2)], 25),
    ('a single node between two lines', LINES_1, [(0, 0), (0, 4), (5, 0), (5, 4), (2, 2)], 0),
    ('a single node where two lines cross', LINES_1, [(0, 0), (4, 4), (4, 0), (0, 4), (2, 2)], 23),
    ('a single node on a line, and a crossing', LINES_1, [(0, 0), (4, 4), (4, 0), (0, 4), (1, 1)], 23),
    ('a single node on a line, and the end of another on it', LINES_1, [(0, 0), (4, 4), (8, 0), (2, 2), (1, 1)], 25),
    ('a single node on a line, and another line through neither', LINES_1, [(0, 0), (4, 4), (5, 0), (5, 9), (1, 1)], 25),
    ('a single node on a line, and two other nodes at one point', LINES_1, [(0, 0), (4, 4), (9, 9), (9, 9), (1, 1)], 21),
    ('a single node on a line, and children in the other order', FORK_1, [(2, 0), (4, 2), (0, 2), (1, 1)], 25),
    ('a single node beside the lines, and children in the other order', FORK_1, [(2, 0), (4, 2), (0, 2), (2, 1)], 24),
    ('a single node on a line, a crossing, and children in the other order', LINES_FORK_1,
     [(0, 0), (4, 4), (4, 0), (0, 4), (12, 0), (14, 2), (10, 2), (11, 1)], 23),
    ('a single node on a line, no crossing, and children in the other order', LINES_FORK_1,
     [(0, 0), (4, 4), (6, 0), (6, 4), (12, 0), (14, 2), (10, 2), (1, 1)], 25),
    # single nodes alone
    ('single nodes anywhere', ONES_3, [(7, 3), (0, TOP), (TOP, 0)], 0),
    ('single nodes in one row', ONES_3, [(0, 0), (2, 0), (1, 0)], 0),
    ('single nodes in one column', ONES_3, [(5, 2), (5, 1), (5, 0)], 0),
    ('single nodes of one slant', ONES_3, [(0, 0), (2, 2), (1, 1)], 0),
    ('two of three single nodes at one point', ONES_3, [(4, 4), (3, 3), (4, 4)], 21),
    ('three single nodes at one point', ONES_3, [(TOP, TOP)] * 3, 21),
    ('two single nodes at one end of the sheet', [(0, 0)] * 2, [(TOP, TOP)] * 2, 21),
    ('two single nodes with column and row traded', [(0, 0)] * 2, [(1, 2), (2, 1)], 0),
    # nothing asks that trees be apart
    ('two trees side by side', LINES, [(0, 0), (0, 2), (3, 0), (3, 2)], 0),
    ('two trees side by side, a column apart', LINES, [(0, 0), (1, 4), (1, 0), (2, 4)], 0),
    ('a tree under another', LINES, [(0, 0), (1, 1), (0, 2), (1, 3)], 0),
    ('a tree over another', LINES, [(0, 5), (1, 6), (0, 0), (1, 1)], 0),
    ('two trees with some rows in common', LINES, [(0, 0), (0, 2), (3, 1), (3, 3)], 0),
    ('two trees in the same rows and columns', LINES, [(0, 0), (3, 3), (1, 0), (4, 3)], 0),
    ('two trees in one column, apart', LINES, [(0, 0), (0, 2), (0, 3), (0, 5)], 0),
    ('two trees in one row, apart', LINES, [(0, 0), (2, 0), (3, 0), (5, 0)], 0),
    ('two trees of one slant, apart', LINES, [(0, 0), (2, 2), (3, 3), (5, 5)], 0),
    ('a tree within another', FORK_LINE, [(5, 0), (0, 9), (10, 9), (5, 2), (5, 7)], 0),
    ('a tree below the fork of another, its root level with the leaves', FORK_LINE, [(5, 0), (0, 9), (10, 9), (5, 9), (5, 12)], 0),
    ('a tree around another', LINE_FORK, [(5, 2), (5, 7), (5, 0), (0, 9), (10, 9)], 0),
    ('a fork below a fork, between its columns', FORKS, [(3, 0), (0, 4), (6, 4), (3, 5), (1, 9), (5, 9)], 0),
    ('a fork in a fork', FORKS, [(10, 0), (0, 9), (20, 9), (10, 2), (5, 9), (15, 9)], 0),
    ('a second root over the first', FORKS, [(4, 5), (2, 7), (6, 7), (4, 0), (0, 7), (8, 7)], 0),
    # lines of two trees
    ('lines of two trees that cross in a grid point', LINES, [(0, 0), (2, 2), (2, 0), (0, 2)], 23),
    ('lines of two trees that cross between grid points', LINES, [(0, 0), (1, 1), (1, 0), (0, 1)], 23),
    ('a level line of one tree crosses a steep one of another', LINES, [(0, 2), (4, 2), (2, 0), (2, 4)], 23),
    ('lines of two trees that cross over the whole sheet', LINES, [(0, 0), (TOP, TOP), (TOP, 0), (0, TOP)], 23),
    ('lines of two trees that would cross if one were longer', LINES, [(0, 0), (9, 9), (6, 0), (6, 5)], 0),
    ('a second root on a line of the first tree', LINES, [(0, 0), (0, 4), (0, 2), (3, 4)], 25),
    ('a leaf of one tree on a line of another', LINES, [(0, 0), (0, 4), (3, 0), (0, 2)], 25),
    ('a leaf of one tree on a slanting line of another', LINES, [(0, 0), (4, 8), (9, 4), (2, 4)], 25),
    ('a leaf of one tree a column before a line of another', LINES, [(0, 0), (0, 4), (3, 0), (1, 2)], 0),
    ('lines of two trees that overlap in part in one column', LINES, [(0, 0), (0, 4), (0, 2), (0, 6)], 25),
    ('lines of two trees that overlap in part in one row', LINES, [(0, 0), (4, 0), (2, 0), (6, 0)], 25),
    ('lines of two trees that overlap in part of one slant', LINES, [(0, 0), (4, 4), (2, 2), (6, 6)], 25),
    ('a line of one tree within one of another', LINES, [(0, 0), (0, 6), (0, 2), (0, 4)], 25),
    ('lines of two trees end to end', LINES, [(0, 0), (2, 2), (2, 2), (4, 4)], 21),
    ('lines of two trees from one point', LINES, [(2, 0), (0, 2), (2, 0), (4, 2)], 21),
    ('the same line twice', LINES, [(0, 0), (2, 2), (0, 0), (2, 2)], 21),
    ('the lines of the second and the third tree cross', LINES_3, [(0, 0), (0, 4), (5, 0), (9, 4), (9, 0), (5, 4)], 23),
    ('the lines of the first and the third tree cross', LINES_3, [(5, 0), (9, 4), (0, 0), (0, 4), (9, 0), (5, 4)], 23),
    ('the lines of the second and the third tree touch', LINES_3, [(0, 0), (0, 4), (5, 0), (9, 4), (9, 0), (7, 2)], 25),
    ('the lines of the first two trees touch, and those of the last two cross', LINES_3, [(0, 0), (0, 4), (5, 2), (0, 2), (4, 1), (4, 5)], 23),
    # faults of one tree of several
    ('a child above its parent in the first tree', LINES, [(0, 2), (0, 0), (3, 0), (3, 2)], 22),
    ('a child above its parent in the second tree', LINES, [(0, 0), (0, 2), (3, 2), (3, 0)], 22),
    ('a child above its parent in the third tree', LINES_3, [(0, 0), (0, 2), (3, 0), (3, 2), (6, 1), (6, 0)], 22),
    ('a level child in the second tree', LINES, [(0, 0), (0, 2), (3, 2), (5, 2)], 0),
    ('children in the other order in the first tree', FORKS, [(2, 0), (4, 2), (0, 2), (8, 0), (6, 2), (10, 2)], 24),
    ('children in the other order in the second tree', FORKS, [(2, 0), (0, 2), (4, 2), (8, 0), (10, 2), (6, 2)], 24),
    ('level children in the other order in the second tree', FORKS, [(2, 0), (0, 2), (4, 2), (8, 0), (10, 0), (6, 0)], 24),
    ('level children in order in the second tree', FORKS, [(2, 0), (0, 2), (4, 2), (8, 0), (6, 0), (10, 0)], 0),
    ('three nodes in one column in the second tree', LINE_FORK, [(0, 0), (0, 1), (3, 0), (3, 1), (3, 2)], 25),
    ('a crossing in the second tree', LINE_FIVE, [(9, 0), (9, 9), (2, 0), (0, 1), (4, 1), (4, 5), (0, 5)], 23),
    ('a touch in the second tree', LINE_FIVE, [(9, 0), (9, 9), (4, 0), (0, 1), (6, 1), (0, 9), (0, 5)], 25),
    ('a touch in one tree, and a crossing with another', LINE_FORK, [(1, 1), (6, 1), (3, 0), (3, 2), (3, 4)], 23),
    ('a crossing with another tree, and children in the other order', FORK_LINE, [(2, 0), (4, 4), (0, 4), (0, 1), (9, 1)], 23),
    ('a touch with another tree, and children in the other order', FORK_LINE, [(2, 0), (4, 4), (0, 4), (3, 2), (9, 3)], 25),
    ('a crossing with another tree, and a child above its parent', LINES_3, [(0, 0), (2, 2), (2, 0), (0, 2), (5, 5), (5, 4)], 22),
    ('a crossing with another tree, and two roots at one point', LINES_3, [(0, 0), (2, 2), (2, 0), (0, 2), (0, 0), (5, 4)], 21),
    ('a node of one tree at the point of a child above its parent', LINES, [(0, 2), (0, 0), (0, 0), (3, 2)], 21),
]


def sheets(t):
    """The sheets that were made by hand, with the chain in either order and each of the roots for the head's."""
    for name, links, points, verdict in SHEETS:
        t.name(name)
        for root in trees.from_links(links).roots():
            for words in (plain(links, root), reversed_chain(plain(links, root))):
                t.table(bytes_of(words))
                t.numbers([0, 0] + [x for point in points for x in point])
                t.check()
                assert t.lines[-1] == 'check %d' % verdict, (name, t.lines[-1])


# Strokes: the name, the table, and its lines in their order, by parent and child.
STROKES = [
    ('strokes of two trees', plain(LINES), [(1, 2), (3, 4)]),
    ("strokes of two trees, the second one the head's root's", plain(LINES, 3), [(1, 2), (3, 4)]),
    ('strokes of two trees, the second root first in the chain', chained(plain(LINES), [3, 1, 4, 2]), [(3, 4), (1, 2)]),
    ('strokes of two trees by turns', chained(plain(joined(LEAVES[0], PENDING[0])), [2, 6, 4, 1, 3, 5, 7]), [(6, 7), (4, 5), (4, 6), (1, 2), (1, 3)]),
    ('strokes of a tree between single nodes', plain([(0, 0), (3, 4), (0, 0), (0, 0), (0, 0)]), [(2, 3), (2, 4)]),
    ('strokes of three trees', chained(plain(LINES_3), [5, 1, 3, 2, 4, 6]), [(5, 6), (1, 2), (3, 4)]),
    ('strokes of single nodes', ONES, []),
]


def strokes(t, bits):
    """The strokes of the tables that were made by hand, on their drawings and on any placements; bits are those of a float."""
    for name, words, lines in STROKES:
        t.name(name)
        t.table(bytes_of(words))
        for pitch, drawn in ((4, True), (10, False)):
            t.filled(2 * len(words), 1000, 7)
            if drawn:
                t.draw()
            for i, line in enumerate(lines):
                for number, kind, k in ((2 * i, 'lift', line[0]), (2 * i + 1, 'draw', line[1])):
                    t.stroke(pitch, number)
                    point = [bits(x * pitch / 4) for x in t.places[2 * k:2 * k + 2]]
                    assert t.lines[-1] == 'stroke %s %d %d' % (kind, *point), (name, t.lines[-1])
            for number in (2 * len(lines), 2 * len(lines) + 1, 2 * len(words), 2 ** 64 - 1):
                t.stroke(pitch, number)
                assert t.lines[-1] == 'stroke done', (name, t.lines[-1])
            t.stroke(0, 0)
            assert t.lines[-1] == 'stroke refused 7'
        t.filled(2 * len(words) - 1, 1000, 7)
        t.stroke(4, 0)
        assert t.lines[-1] == 'stroke refused 6'


# Trees of 1 and its left child 2, of 3, and of 4 and its right child 5; 3, 4, 2, 1, 5 in the chain's order, 7 and 6 free, and 8 on neither chain.
RACKS = [[3, 1, 7, 0], [5, 2, 0, 11], [1, 0, 0, 12], [4, 0, 0, 13], [2, 0, 5, 14], [0, 0, 0, 15], [0, 0, 0, 0], [6, 0, 0, 0], [9, 3, 65535, 77]]
NONE_FREE = edited(RACKS, (0, 2, 0))
# The words written over when 7 is hung with the tag 7, left of 3; when 3 is cut, or 2.
BELOW_3 = [(0, 2, 6), (3, 0, 7), (3, 1, 7), (7, 0, 4), (7, 3, 7)]
CUT_3 = [(0, 0, 4), (0, 2, 3), (3, 0, 7), (3, 3, 0)]
CUT_2 = [(0, 2, 2), (4, 0, 1), (1, 1, 0), (2, 0, 7), (2, 3, 0)]

# Calls one after the other, as in halves.py: the name, the table, each call and what it says, and the words that they have written over in the end.
SERIES = [
    ('a node hung below a second root', RACKS, ['hang 3 0 7: 7'], BELOW_3),
    ('a node hung below a second root and cut off again', RACKS, ['hang 3 1 7: 7', 'cut 7: 0'], []),
    ('a node hung below the leaf of another tree', RACKS, ['hang 5 1 7: 7'], [(0, 2, 6), (5, 0, 7), (5, 2, 7), (7, 0, 0), (7, 3, 7)]),
    ('a node hung below the open side of a second root', RACKS, ['hang 4 1 7: refused 9', 'hang 4 0 7: 7', 'hang 4 0 7: refused 9'],
     [(0, 2, 6), (4, 0, 7), (4, 1, 7), (7, 0, 2), (7, 3, 7)]),
    ("a node hung below the head's root", RACKS, ['hang 1 0 7: refused 9', 'hang 1 1 7: 7'], [(0, 2, 6), (1, 0, 7), (1, 2, 7), (7, 0, 5), (7, 3, 7)]),
    ('nodes hung below several trees, until none is free', RACKS, ['hang 3 1 21: 7', 'hang 1 1 22: 6', 'hang 4 0 23: refused 10'],
     [(0, 2, 0), (3, 0, 7), (3, 2, 7), (7, 0, 4), (7, 3, 21), (1, 0, 6), (1, 2, 6), (6, 0, 5), (6, 3, 22)]),
    ('both sides of a second root', RACKS, ['hang 3 0 1: 7', 'cut 3: 9', 'hang 3 1 2: 6', 'cut 3: 9'],
     [(0, 2, 0), (3, 0, 6), (3, 1, 7), (3, 2, 6), (7, 0, 4), (7, 3, 1), (6, 0, 7), (6, 3, 2)]),
    ('no other root is hung', RACKS, [call % side for side in (0, 1, 2) for call in ('hang 0 %d 7: refused 9', 'hold 0 %d: refused 9', 'held 0 %d 7 7: 9')],
        []),
    ('no other root is hung beside single nodes', edited(ONES, (0, 2, 4)) + [[0, 0, 0, 0]],
     ['hang 0 0 7: refused 9', 'hang 0 1 7: refused 9', 'hold 0 1: refused 9', 'held 0 1 7 4: 9'], []),
    ('sides above 1 of a second root', RACKS, ['hang 3 2 7: refused 9', 'hold 3 2: refused 9', 'held 3 255 7 7: 9'], []),
    ('a second root without children, first in the chain', RACKS, ['cut 3: 0', 'cut 3: 9'], CUT_3),
    ('a second root without children, in the middle of the chain', chained(RACKS, [4, 2, 3, 1, 5]), ['cut 3: 0'], [(0, 2, 3), (2, 0, 1), (3, 0, 7), (3, 3, 0)]),
    ("a second root without children, behind the head's root", chained(RACKS, [1, 3, 4, 5, 2]), ['cut 3: 0'], [(0, 2, 3), (1, 0, 4), (3, 0, 7), (3, 3, 0)]),
    ('a second root without children, last in the chain', chained(RACKS, [4, 2, 1, 5, 3]), ['cut 3: 0'], [(0, 2, 3), (5, 0, 0), (3, 0, 7), (3, 3, 0)]),
    ('a second root with a child, and then without', RACKS, ['cut 4: 9', 'cut 5: 0', 'cut 4: 0'],
     [(0, 2, 4), (1, 0, 0), (5, 0, 7), (5, 3, 0), (3, 0, 2), (4, 0, 5), (4, 2, 0), (4, 3, 0)]),
    ("the head's root with a child, and then without", RACKS, ['cut 1: 9', 'cut 2: 0', 'cut 1: 9'], CUT_2),
    ("the head's root first in the chain", chained(RACKS, [1, 2, 3, 4, 5]), ['cut 1: 9', 'cut 2: 0', 'cut 1: 9'],
     [(0, 2, 2), (1, 0, 3), (1, 1, 0), (2, 0, 7), (2, 3, 0)]),
    ("the head's root last in the chain", chained(RACKS, [3, 4, 5, 2, 1]), ['cut 1: 9', 'cut 2: 0', 'cut 1: 9'],
     [(0, 2, 2), (5, 0, 1), (1, 1, 0), (2, 0, 7), (2, 3, 0)]),
    ("the head's root of two single nodes", plain([(0, 0)] * 2), ['cut 1: 9', 'cut 2: 0', 'cut 1: 0'],
     [(0, 0, 0), (0, 1, 0), (0, 2, 1), (1, 0, 2), (1, 3, 0), (2, 3, 0)]),
    ("the head's root of two single nodes, last in the chain", plain([(0, 0)] * 2, 2), ['cut 2: 9', 'cut 1: 0', 'cut 2: 0'],
     [(0, 0, 0), (0, 1, 0), (0, 2, 2), (1, 0, 0), (1, 3, 0), (2, 0, 1), (2, 3, 0)]),
    ("a single node for the head's root, over a tree of two", plain([(0, 0), (3, 0), (0, 0)]),
        ['cut 1: 9', 'cut 2: 9', 'cut 3: 0', 'cut 1: 9', 'cut 2: 0', 'cut 1: 0'],
     [(0, 0, 0), (0, 1, 0), (0, 2, 1), (1, 0, 2), (1, 3, 0), (2, 0, 3), (2, 1, 0), (2, 3, 0), (3, 3, 0)]),
    ("three trees cut down to the head's root, and that one too", RACKS,
     ['cut 2: 0', 'cut 1: 9', 'cut 5: 0', 'cut 1: 9', 'cut 4: 0', 'cut 1: 9', 'cut 3: 0', 'cut 1: 0', 'cut 1: 9'],
     [(0, 0, 0), (0, 1, 0), (0, 2, 1), (1, 0, 3), (1, 1, 0), (1, 3, 0), (2, 0, 7), (2, 3, 0), (3, 0, 4), (3, 3, 0), (4, 0, 5), (4, 2, 0), (4, 3, 0),
      (5, 0, 2), (5, 3, 0)]),
    ('three trees cut down the other way, and a root hung', RACKS,
     ['cut 3: 0', 'cut 4: 9', 'cut 5: 0', 'cut 4: 0', 'cut 1: 9', 'cut 2: 0', 'cut 1: 0', 'hang 0 1 9: 1', 'hang 0 0 9: refused 9'],
     [(0, 0, 1), (0, 2, 2), (1, 0, 0), (1, 1, 0), (1, 3, 9), (2, 0, 4), (2, 3, 0), (3, 0, 7), (3, 3, 0), (4, 0, 5), (4, 2, 0), (4, 3, 0), (5, 0, 3),
         (5, 3, 0)]),
    ("a second root cut and hung below the head's root", RACKS, ['cut 3: 0', 'hang 1 1 9: 3'], [(0, 0, 4), (1, 0, 3), (1, 2, 3), (3, 0, 5), (3, 3, 9)]),
    ('no free record beside several trees', NONE_FREE,
     ['hang 3 0 7: refused 10', 'hold 5 0: refused 10', 'held 3 0 7 0: 10', 'hang 0 0 7: refused 9', 'hang 1 0 7: refused 9'], []),
    ('a second root cut where no record was free', NONE_FREE, ['hang 4 0 9: refused 10', 'cut 1: 9', 'cut 3: 0', 'hang 4 0 9: 3'],
     [(0, 0, 4), (3, 0, 2), (3, 3, 9), (4, 0, 3), (4, 1, 3)]),
    ('the halves below a second root', RACKS, ['hold 3 0: 7', 'held 3 0 7 7: 0'], BELOW_3),
    ('the halves below a second root, which is cut in between', RACKS,
        ['hold 3 0: 7', 'cut 3: 0', 'held 3 0 7 7: 9', 'held 3 0 7 3: 9', 'hold 3 0: refused 9'], CUT_3),
    ('the halves below one tree, another cut in between', RACKS, ['hold 5 0: 7', 'cut 3: 0', 'held 5 0 7 7: 11', 'hold 5 0: 3', 'held 5 0 7 3: 0'],
     [(0, 0, 4), (3, 0, 0), (3, 3, 7), (5, 0, 3), (5, 1, 3)]),
    ('the halves below one tree, a node hung below another in between', RACKS,
        ['hold 1 1: 7', 'hang 3 0 7: 7', 'held 1 1 8 7: 11', 'hold 1 1: 6', 'held 1 1 8 6: 0'],
     [(0, 2, 0), (3, 0, 7), (3, 1, 7), (7, 0, 4), (7, 3, 7), (1, 0, 6), (1, 2, 6), (6, 0, 5), (6, 3, 8)]),
    ("the halves below a second root, the head's root asked to be cut in between", RACKS, ['cut 2: 0', 'hold 3 0: 2', 'cut 1: 9', 'held 3 0 7 2: 0'],
     [(4, 0, 1), (1, 1, 0), (2, 0, 4), (2, 3, 7), (3, 0, 2), (3, 1, 2)]),
    ('records other than the first free one, below a second root', RACKS, ['held 3 0 7 %d: 11' % k for k in (0, 1, 3, 6, 8, 9, 263, 65535)], []),
]


def series(t):
    """The series that were made by hand; what is left is drawn."""
    for name, words, calls, left in SERIES:
        t.name(name)
        t.table(bytes_of(words))
        for call in calls:
            halves.ask(t, call)
        assert t.bytes == bytes_of(edited(words, *left)), name
        hang_cut.seen(t)


def small_tables(rng, most):
    """The table of every forest of 2 nodes to so many in two trees or more, with two free records and one on neither chain."""
    for n in range(2, most + 1):
        for links in trees.every_forest_links(n):
            whole = trees.from_links(links)
            if len(whole.roots()) > 1:
                yield trees.table(whole, rng, extra=1, free=2)


def every_forest(t, rng):
    """Every small forest: drawn, drawn wide and checked, and asked for its strokes."""
    for data, record in small_tables(rng, 4):
        assert t.every(data, rng.randrange(65536), rng.randrange(65536)) == 0
        for number in rng.sample(range(2 * len(record)), 3):
            t.stroke(rng.randint(1, 255), number)


def every_cut(t, rng):
    """Every record of small forests, to be cut off; what is left is drawn."""
    for data, record in small_tables(rng, 4):
        t.table(data)
        for node in range(len(data) // 8 + 1):
            if t.cut(node) == 0:
                hang_cut.seen(t)
                t.table(data)
        assert t.cut(record[1]) == 9


def every_place(t, rng):
    """A node hung at every place of small forests, and asked for at every other; what can be hung is held as well, and cut off again, which restores
    every byte."""
    for data, record in small_tables(rng, 3):
        t.table(data)
        for parent in range(len(data) // 8 + 1):
            for side in (0, 1):
                tag = rng.randrange(65536)
                hung = t.hang(parent, side, tag)
                if hung:
                    left = t.bytes
                    assert t.cut(hung) == 0 and t.bytes == data
                    assert t.hold(parent, side) == hung and t.held(parent, side, tag, hung) == 0 and t.bytes == left
                    assert t.cut(hung) == 0 and t.bytes == data


def cut_down(t, rng):
    """Forests cut down node by node to the head's root, which is asked for now and then and refused, and then to none."""
    for n, count in ((3, 3), (6, 2), (9, 4), (20, 5)):
        data, record = trees.table(trees.scattered(n, count, rng), rng, extra=1, free=1)
        t.table(data)
        while True:
            table = racksheet.read(t.bytes, UPTO)
            leaves = [b for b in table.chain if b != record[1] and not table.left[b] and not table.right[b]]
            if len(table.chain) == 1:
                break
            if rng.random() < 0.3:
                assert t.cut(record[1]) == 9
            assert t.cut(rng.choice(leaves)) == 0
        hang_cut.seen(t)
        assert t.cut(record[1]) == 0 and t.bytes[:4] == bytes(4)
        hang_cut.seen(t)


def random_calls(t, rng):
    """Many calls one after the other on tables of several trees, half of them by halves, and what is left, drawn."""
    for i in range(20):
        n, free = rng.randint(2, 12), rng.randint(0, 6)
        t.table(trees.table(trees.scattered(n, rng.randint(2, 5), rng), rng, extra=rng.randint(0, 2), free=free)[0])
        if i % 2:
            halves.calls(t, rng, 16)
        else:
            hang_cut.calls(t, rng, 16, rng.choice((0.2, 0.4, 0.6)))
        after = racksheet.read(t.bytes, UPTO)
        assert after.refusal == 0 and len(after.chain) + len(after.free) == n + free
        hang_cut.seen(t)


def damaged(t, rng):
    """Tables of several trees with a link or the head's root written over, or any word."""
    for _ in range(64):
        n = rng.randint(2, 9)
        data, record = trees.table(trees.scattered(n, rng.randint(2, 4), rng), rng, extra=rng.randint(0, 1), free=rng.randint(0, 1))
        for _ in range(rng.choice((1, 1, 2))):
            at = rng.choice((2, 8 * rng.choice(record[1:]) + rng.choice((2, 4)), 8 * rng.choice(record[1:]) + rng.choice((2, 4)),
                2 * rng.randrange(len(data) // 2)))
            data = data[:at] + rng.choice((0, rng.choice(record), rng.choice(record))).to_bytes(2, 'little') + data[at + 2:]
        t.every(data, rng.randrange(65536), rng.randrange(5), short=rng.choice((0,) * 9 + (1,)), pitches=(4,), leaf=rng.choice(record))


def single_nodes(tree):
    return [v for v in tree.roots() if not tree.left[v] and not tree.right[v]]


def on_a_line(tree, points, rng):
    """A node, a single one if there is any, put on a grid point of a line, or of its going on beyond either end; or next to that point."""
    lines = [(v, c) for v in range(1, tree.n + 1) for c in (tree.left[v], tree.right[v]) if c]
    if not lines:
        return points
    (x, y), (p, q) = (points[v] for v in rng.choice(lines))
    parts = math.gcd(p - x, q - y) or 1
    s = rng.choice((rng.randint(0, parts), rng.randint(0, parts), rng.randint(1, max(parts - 1, 1)), -1, parts + 1))
    a, b = rng.choice(((0, 0),) * 4 + ((1, 0), (-1, 0), (0, 1), (0, -1)))
    points = list(points)
    points[rng.choice(single_nodes(tree) or range(1, tree.n + 1))] = tuple(
        min(max(z, 0), TOP) for z in (x + (p - x) // parts * s + a, y + (q - y) // parts * s + b))
    return points


def spread_out(points, rng):
    """Points stretched, at times over the whole sheet."""
    far = max(1, max(max(point) for point in points))
    x, y = rng.choice(((1, 1), (2, 2), (3, 3), (2, 1), (1, 4), (TOP // far, TOP // far)))
    return [(min(column * x, TOP), min(row * y, TOP)) for column, row in points]


def drawn(data, record):
    """The points of the nodes in the drawing."""
    places = racksheet.draw(data, [0] * (len(data) // 4), UPTO)[4]
    return [(places[2 * k], places[2 * k + 1]) for k in record]


def some_trees(rng, most=7):
    """A forest of two to five trees, every second one of them a single node."""
    return trees.forest(*(rng.choice(trees.shapes(rng))[1](rng.choice((1, rng.randint(2, most)))) for _ in range(rng.randint(2, 5))))


def sheet_case(rng):
    """A table of several trees, and placements: side by side, with level lines, tangled or as drawn, often with a single node on a line or close to one."""
    tree = some_trees(rng)
    data, record = trees.table(tree, rng, extra=rng.randint(0, 1))
    points = rng.choice((trees.layers, lambda tree: trees.level_runs(tree, rng), lambda tree: trees.tangled(tree, rng), lambda tree: drawn(data, record)))(tree)
    points = spread_out(points, rng)
    if rng.random() < 0.1:                                                  # seen in a mirror
        points = [(TOP - x, y) for x, y in points]
    for _ in range(rng.choice((0, 1, 1, 1, 2))):
        points = on_a_line(tree, points, rng)
    if rng.random() < 0.15:                                                 # a node at the point of another, or right above it
        v, (column, row) = rng.randint(1, tree.n), rng.choice(points[1:])
        points[v] = column, max(row - rng.randint(0, 1), 0)
    return data, trees.stored(points, record, len(data) // 8)


def stroke_case(rng):
    """A table of several trees, placements, a pitch and a number for a stroke."""
    tree = some_trees(rng, 4)
    data, _ = trees.table(tree, rng, extra=rng.randint(0, 1))
    count = 2 * (tree.n - len(tree.roots()))
    return data, [rng.randrange(65536) for _ in range(len(data) // 4)], \
        rng.randint(1, 255), rng.choice((rng.randrange(count + 2), count - 1 if count else 0, count))


def small_forest(rng):
    """A forest for a call that writes."""
    return trees.scattered(rng.randint(1, 7), rng.randint(1, 4), rng)


def hang_case(rng):
    return hang_cut.hang_case(rng, small_forest(rng))


def cut_case(rng):
    return hang_cut.cut_case(rng, small_forest(rng))


def hold_case(rng):
    return halves.hold_case(rng, small_forest(rng))


def held_case(rng):
    return halves.held_case(rng, small_forest(rng))


def planted(t, tree, record, rng):
    """Single nodes of a large good sheet put on lines of other trees, one at a time, and next to them."""
    at = [(t.places[2 * k], t.places[2 * k + 1]) for k in record]
    lines = [(at[v], at[c]) for v in range(1, tree.n + 1) for c in (tree.left[v], tree.right[v]) if c]
    lines = [(p, q, math.gcd(q[0] - p[0], q[1] - p[1])) for p, q in lines]
    lines = [line for line in lines if line[2] > 1]
    for v in rng.sample(single_nodes(tree), min(3, len(single_nodes(tree)))) if lines else ():
        (x, y), (p, q), parts = rng.choice(lines)
        s = rng.randint(1, parts - 1)
        for beside in (0, 1):
            point = x + (p - x) // parts * s + beside, y + (q - y) // parts * s
            before = at[v]
            t.changed([(2 * record[v], point[0]), (2 * record[v] + 1, point[1])])
            t.check()
            assert beside or t.lines[-1] == 'check 25', t.lines[-1]
            t.changed([(2 * record[v], before[0]), (2 * record[v] + 1, before[1])])


def random_forests(t, rng):
    """Forests of one tree to five, and some of many: drawn, drawn wide, checked and asked for a stroke; then with single nodes put on lines, or a
    node moved onto the point, the row or the column of another."""
    sizes = [(rng.randint(2, 13), rng.randint(2, 5)) for _ in range(14)] + [(rng.randint(14, 60), rng.randint(1, 5)) for _ in range(16)]
    sizes += [(rng.randint(61, 300), rng.randint(2, 5)) for _ in range(6)] + [(rng.randint(200, 500), rng.randint(6, 60)) for _ in range(3)]
    sizes += [(4088, 5), (4090, 64), (4096, 4096), (120, 120)]
    for n, count in sizes:
        singles = min(rng.randint(0, 3), 4096 - n)
        tree = trees.forest(trees.scattered(n, count, rng), *[trees.Tree(1)] * singles)
        data, record = trees.table(tree, rng, extra=rng.randint(0, 2) if n < 4000 else 0)
        assert t.every(data, rng.randrange(65536), rng.randrange(65536), extra=rng.randint(0, 3)) == 0
        t.stroke(rng.randint(1, 255), rng.randrange(2 * tree.n))
        planted(t, tree, record, rng)
        for _ in range(2 if n < 4000 else 1):
            k, j = 2 * record[rng.randint(1, tree.n)], 2 * record[rng.randint(1, tree.n)]
            before = t.places[k:k + 2]
            x, y = rng.choice((tuple(t.places[j:j + 2]), (before[0], t.places[j + 1]), (t.places[j], before[1]), (before[0] + 1, before[1])))
            t.changed([(k, x), (k + 1, y)])
            t.check()
            t.changed([(k, before[0]), (k + 1, before[1])])


def turned(t, rng):
    """Wide drawings of several trees with columns and rows exchanged, checked against the table with left and right exchanged: all good."""
    for n, count in [(rng.randint(2, 13), rng.randint(2, 5)) for _ in range(8)] + [(rng.randint(14, 60), rng.randint(2, 8)) for _ in range(8)]:
        t.turned(*trees.table(trees.scattered(n, count, rng), rng, extra=rng.randint(0, 2)))
