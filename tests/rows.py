#!/usr/bin/env python3
"""rows.py: "No gaps, no shared rows" (document 02, Paper 9), read off a table and its placements by the papers' words, in which no drawing program has a part.
`broken` says what is wrong with a sheet, or nothing. Run by itself, it tries sheets whose faults are known."""
import struct
import sys


def words(table):
    return [struct.unpack_from('<4H', table, at) for at in range(0, len(table), 8)]


def chain_of(records):
    chain, k = [], records[0][0]
    while k:
        chain.append(k)
        k = records[k][0]
    return chain


def below(records, k):
    """The records of the tree at k, a parent before its children."""
    found = [k] if k else []
    for b in found:
        found += [c for c in records[b][1:3] if c]
    return found


def spine(records, size, k, mirrored):
    """The spine of the tree at k, drawn as it stands or as its mirror image: its nodes, and for each node a child off the spine, 0 if there is none,
    with whether its mirror image is drawn."""
    nodes, hung, right_hand, switch = [], [], False, False
    while k:
        left, right = records[k][1:3]
        if mirrored:
            left, right = right, left
        left_off = size[left] < size[right]         # "Of two equal subtrees it takes the left child of the tree being drawn"
        off, following = (left, right) if left_off else (right, left)
        nodes.append(k)
        hung.append((off, mirrored != right_hand))  # "From right knee, ordinary-right and switch-left boxes the mirror image is drawn"
        knee = switch or len(nodes) == 1
        switch = not knee and off != 0 and left_off != right_hand
        right_hand ^= switch
        k = following
    return nodes, hung


def broken(table, places, height):
    """What Paper 9 rules out in the sheet of an accepted table, or None."""
    records = words(table)
    chain = chain_of(records)
    point = {k: tuple(places[2 * k:2 * k + 2]) for k in chain}
    held = {}
    for k in chain:
        held.setdefault(point[k][1], []).append(k)
    for row in range(height):
        if row not in held:
            return 'no node in row %d' % row
    named = {c for k in chain for c in records[k][1:3]}
    # branches: their roots, whether the mirror image is drawn, the nodes of the spines on the way
    todo = [(k, False, set()) for k in chain if k not in named]
    size = dict.fromkeys(range(len(records)), 0)
    for root, _, _ in todo:
        for k in reversed(below(records, root)):
            size[k] = 1 + size[records[k][1]] + size[records[k][2]]
    for k, mirrored, way in todo:
        own = set(below(records, k))
        for row in range(min(point[b][1] for b in own), max(point[b][1] for b in own) + 1):
            for b in held.get(row, []):
                if b not in own and b not in way:
                    return 'node %d is beneath a ruler over the branch of %d' % (b, k)
        nodes, hung = spine(records, size, k, mirrored)
        way = way | set(nodes)
        owner = {}
        for off, mirror in hung:
            if not off:
                continue
            columns, rows = zip(*(point[b] for b in below(records, off)))
            for row in range(min(rows), max(rows) + 1):
                if row in owner:
                    return 'row %d of the drawings of %d and of %d, both hung from the spine of %d' % (row, owner[row], off, k)
                owner[row] = off
            for b in nodes:
                if min(columns) <= point[b][0] <= max(columns) and min(rows) <= point[b][1] <= max(rows):
                    return 'node %d is in the rectangle of the drawing of %d, hung from its spine' % (b, off)
            todo.append((off, mirror, way))
    return None


def sheet(children, points):
    """A table with the root at record 1, the placements and their height."""
    n = len(points)
    links = [(1, 1, 0, 0)] + [((k + 1) * (k < n), *children.get(k, (0, 0)), 0) for k in range(1, n + 1)]
    return b''.join(struct.pack('<4H', *link) for link in links), [0, 0] + [x for at in points for x in at], 1 + max(row for _, row in points)


SAMPLE = {1: (2, 3), 3: (4, 5), 5: (6, 0)}                  # the sheet of document 01's program
ONE = 'row %d of the drawings of %d and of %d, both hung from the spine of %d'
RECTANGLE = 'node %d is in the rectangle of the drawing of %d, hung from its spine'
KNOWN = [
    (SAMPLE, [(0, 0), (1, 3), (1, 1), (1, 2), (3, 2), (2, 4)], None),
    (SAMPLE, [(0, 0), (1, 2), (1, 1), (1, 2), (3, 2), (2, 4)], 'no node in row 3'),
    (SAMPLE, [(0, 0), (1, 2), (1, 1), (2, 2), (3, 2), (2, 3)], ONE % (2, 2, 4, 1)),
    (SAMPLE, [(0, 0), (1, 3), (1, 1), (1, 2), (1, 2), (2, 4)], RECTANGLE % (5, 4)),
    ({1: (2, 3), 3: (4, 5)}, [(0, 0), (1, 3), (1, 1), (1, 2), (2, 2)], None),
    # two trees: the second root is in a row of the first tree, or under it; two leaves of a second tree at one point
    ({1: (2, 0)}, [(0, 0), (1, 1), (0, 1)], 'node 3 is beneath a ruler over the branch of 1'),
    ({1: (2, 0)}, [(0, 0), (1, 1), (0, 2)], None),
    ({2: (3, 4)}, [(0, 0), (0, 1), (1, 2), (1, 2)], RECTANGLE % (3, 4)),
    # two equal subtrees: the spine takes the left child, so that 3 is hung
    ({1: (2, 3)}, [(0, 0), (1, 2), (1, 1)], None),
    ({1: (2, 3)}, [(0, 0), (1, 1), (1, 1)], RECTANGLE % (2, 3)),
    # 5, a right knee, has two leaves: the spine takes the left one, and the other, pending, comes last
    ({1: (2, 3), 3: (4, 5), 5: (6, 7)}, [(0, 0), (1, 3), (1, 1), (1, 2), (3, 2), (2, 4), (2, 5)], None),
    # the spine of 2, which is hung from that of 1
    ({1: (2, 5), 2: (3, 4), 5: (6, 0), 6: (7, 0), 7: (8, 0)}, [(0, 0), (1, 5), (2, 6), (2, 6), (1, 1), (1, 2), (1, 3), (1, 4)], RECTANGLE % (3, 4)),
    # 5 is hung from the right knee 4: in the mirror image the spine takes the file's right child, so that 6 is hung from that of 5
    ({1: (0, 2), 2: (3, 4), 4: (5, 8), 5: (6, 7), 8: (9, 0), 9: (10, 0), 10: (11, 0)},
     [(0, 0), (1, 1), (1, 2), (4, 2), (3, 3), (2, 4), (2, 4), (3, 5), (3, 6), (3, 7), (3, 8)], RECTANGLE % (7, 6)),
]

if __name__ == '__main__':
    for children, points, wanted in KNOWN:
        found = broken(*sheet(children, points))
        if found != wanted:
            sys.exit('%s: %s, but found %s' % (points, wanted, found))
    print('%d known sheets' % len(KNOWN))
