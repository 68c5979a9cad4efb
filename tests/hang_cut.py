"""Cases of free chains, hanging and cutting for make_trials.py. Beside each that was made by hand stands what document 02 says of it."""
import racksheet
import trees
from slips import UPTO
from trees import bytes_of, plain


def edited(base, *edits):
    """A table with words written over: record, word, number."""
    words = [list(w) for w in base]
    for k, j, x in edits:
        words[k][j] = x
    return words


SIX = plain([(2, 3), (0, 0), (4, 5), (0, 0), (6, 0), (0, 0)])
# The six, with 8, 7 and 9 free in that order, and 10 on neither chain.
ROOM = edited(SIX, (0, 2, 8)) + [[9, 0, 0, 0], [7, 0, 0, 0], [0, 0, 0, 0], [3, 65535, 10, 77]]
FULL = edited(ROOM, (0, 2, 0))
EMPTY = [[0, 0, 2, 0], [7, 7, 7, 7], [3, 0, 0, 0], [0, 0, 0, 0]]            # 2 and 3 free, 1 on neither chain
ALONE = [[1, 1, 0, 0], [0, 0, 0, 0]]                                        # one node, its tag 0
FREE = list(zip((8, 7, 9), ('first', 'second', 'last')))

# Free chains: the name, the table, the words written over, and the refusal that every call gives, or 0.
FREE_CHAINS = [
    ('three free records', ROOM, [], 0),
    ('two free records, and two on neither chain', ROOM, [(0, 2, 7)], 0),
    ('one free record', ROOM, [(0, 2, 9)], 0),
    ('one free record, two behind it on neither chain', ROOM, [(8, 0, 0)], 0),
    ('no free record', FULL, [], 0),
    ('a record on neither chain that names free ones', ROOM, [(10, 0, 8), (10, 1, 7), (10, 2, 9)], 0),
    ('a record on neither chain that names nodes', ROOM, [(10, 0, 1), (10, 1, 2), (10, 2, 3)], 0),
    ('a record on neither chain, all its words zero', ROOM, [(10, j, 0) for j in range(4)], 0),
    ('the record that was on neither chain is the last free one', ROOM, [(9, 0, 10)] + [(10, j, 0) for j in range(4)], 0),
    ('free records in an empty tree', EMPTY, [], 0),
    ("the head's right just beyond the table", ROOM, [(0, 2, 11)], 8),
    ("the head's right far beyond the table", ROOM, [(0, 2, 65535)], 8),
    ("the head's right beyond the table by its high byte", ROOM, [(0, 2, 264)], 8),
    ('the first free record leads beyond the table', ROOM, [(8, 0, 11)], 8),
    ('the last free record leads just beyond the table', ROOM, [(9, 0, 11)], 8),
    ('the last free record leads far beyond the table', ROOM, [(9, 0, 65535)], 8),
    ('the last free record leads beyond the table by the high byte', ROOM, [(9, 0, 256)], 8),
    ('the last free record leads to the first', ROOM, [(9, 0, 8)], 8),
    ('the last free record leads to the second', ROOM, [(9, 0, 7)], 8),
    ('the last free record leads to itself', ROOM, [(9, 0, 9)], 8),
    ('the first free record leads to itself', ROOM, [(8, 0, 8)], 8),
    ("the head's right names the root", ROOM, [(0, 2, 1)], 8),
    ("the head's right names a leaf", ROOM, [(0, 2, 6)], 8),
    ("the head's right names the last node, a leaf with tag 0", ROOM, [(0, 2, 6), (6, 3, 0)], 8),
    ("the head's right names the only node, which has tag 0", ALONE, [(0, 2, 1)], 8),
    ('the first free record leads to a node', ROOM, [(8, 0, 3)], 8),
    ('the last free record leads to the root', ROOM, [(9, 0, 1)], 8),
    ('the last free record leads to the last node, a leaf with tag 0', ROOM, [(9, 0, 6), (6, 3, 0)], 8),
    ('the last node leads to the first free record', ROOM, [(6, 0, 8)], 8),
    ('the last node leads to the last free record', ROOM, [(6, 0, 9)], 8),
    ("the head's next names the first free record", ROOM, [(0, 0, 8)], 8),
    ('a record with any words is the first free one', ROOM, [(0, 2, 10)], 8),
    ('a record with any words is the last free one', ROOM, [(9, 0, 10)], 8),
    *[('the %s of the %s free record is %d' % (word, which, x), ROOM, [(k, j, x)], 8)
      for k, which in FREE for j, word in ((1, 'left'), (2, 'right'), (3, 'tag')) for x in (1, 256)],
    ('the first free record names itself on the left', ROOM, [(8, 1, 8)], 8),
    ('the head alone, its right 1', [[0, 0, 0, 0]], [(0, 2, 1)], 8),
    ('an empty tree, the free chain beyond the table', EMPTY, [(3, 0, 4)], 8),
    ('an empty tree, a free record twice', EMPTY, [(3, 0, 2)], 8),
    ('an empty tree, the tag of the last free record', EMPTY, [(3, 3, 1)], 8),
    # several causes: the first is told
    ("the head's tag, the free chain good", ROOM, [(0, 3, 256)], 2),
    ("the head's tag, and its right beyond the table", ROOM, [(0, 3, 1), (0, 2, 11)], 2),
    ("the head's tag, and that of a free record", ROOM, [(0, 3, 1), (8, 3, 1)], 2),
    ('both chains beyond the table', ROOM, [(6, 0, 11), (0, 2, 11)], 3),
    ('both chains beyond the table at their heads', ROOM, [(0, 0, 11), (0, 2, 11)], 3),
    ('a node twice on the chain, and a free record with a tag', ROOM, [(6, 0, 1), (8, 3, 1)], 3),
    ('a node and a free record that lead to themselves', ROOM, [(6, 0, 6), (9, 0, 9)], 3),
    ("a node twice on the chain, and the head's right names a node", ROOM, [(6, 0, 1), (0, 2, 1)], 3),
    ('the chain runs along the free one and beyond the table', ROOM, [(6, 0, 8), (9, 0, 11)], 3),
    ('the chain runs along the free one and around', ROOM, [(6, 0, 8), (9, 0, 8)], 3),
    ('a child beyond the table, and the free chain too', ROOM, [(2, 1, 11), (0, 2, 11)], 8),
    ('a child on neither chain, and a free record twice', ROOM, [(2, 1, 10), (9, 0, 8)], 8),
    ('a child that is free, and has a tag', ROOM, [(2, 1, 8), (8, 3, 1)], 8),
    ('a child that is the first free record', ROOM, [(2, 1, 8)], 4),
    ('a child that is the last free record', ROOM, [(4, 2, 9)], 4),
    ('a child on neither chain', ROOM, [(2, 1, 10)], 4),
    ('no root, and a free record with a left', ROOM, [(0, 1, 0), (7, 1, 1)], 8),
    ('a root on neither chain, and the free chain beyond the table', ROOM, [(0, 1, 10), (9, 0, 11)], 8),
    ('a node named twice, and a free record twice', ROOM, [(6, 1, 4), (9, 0, 7)], 8),
    ('a node not named, and a free record with a right', ROOM, [(5, 1, 0), (8, 2, 1)], 8),
    ('the head alone, its root and its right 1', [[0, 1, 1, 0]], [], 8),
    ('a root that is free', ROOM, [(0, 1, 8)], 5),
    ('a root that is free, and no chain', EMPTY, [(0, 1, 2)], 5),
    ('a root that is free, no chain, and a free record with a tag', EMPTY, [(0, 1, 2), (3, 3, 1)], 8),
]


def free_chains(t):
    """Every call on tables with free chains, good and not."""
    for name, base, edits, refusal in FREE_CHAINS:
        words = edited(base, *edits)
        t.name(name)
        assert t.every(bytes_of(words), 1000, 3, leaf=6) == refusal, name
        if refusal:
            continue
        leaf, side = (6, 1) if base != EMPTY else (0, 0)
        record = t.hang(leaf, side, 5)
        assert record == words[0][2], name
        if record:
            t.cut(record)
        assert t.bytes == bytes_of(words), name
        assert t.hold(leaf, side) == record, name
        assert t.held(leaf, side, 5, record) == (0 if record else 10), name
        if record:
            t.cut(record)
        assert t.bytes == bytes_of(words), name
    t.name('other causes beside the free chain')
    for words in (edited(ROOM, (0, 2, 11)), edited(ROOM, (9, 3, 1)), edited(ROOM, (9, 0, 8)), edited(ALONE, (0, 2, 1))):
        t.every(bytes_of(words), 1000, 3, short=2, leaf=6)
        t.every(bytes_of(words) + b'\0', 1000, 3, leaf=6)
        t.every(bytes_of(words)[:-3], 1000, 3, leaf=6)
    t.name('long free chains')
    for n, last in ((0, 0), (0, 4096), (2048, 4097), (2048, 2048), (4095, 0), (4095, 4096)):
        words = plain([(k + 1, 0) for k in range(1, n)] + [(0, 0)] * (n > 0), n > 0)
        words[0][2] = n + 1
        words += [[k + 1, 0, 0, 0] for k in range(n + 1, 4096)] + [[last, 0, 0, 0]]
        assert t.every(bytes_of(words), 1000, 3, leaf=4096) == (8 if last else 0)


# Calls one after the other: the name, the table, and for each call its arguments, of a hang parent, side and tag, of a cut the node, and what it says.
NINE, TEN = 'hang refused 9', 'hang refused 10'
THREE = [[2, 1, 4, 0], [3, 2, 3, 11], [1, 0, 0, 12], [0, 0, 0, 13], [0, 0, 0, 0]]     # 2, 1, 3 in the chain's order, 4 free
CHANGES = [
    ('the root, on either side', EMPTY,
     [((0, 0, 9), 'hang 2'), ((2,), 'cut 0'), ((0, 1, 65535), 'hang 2'), ((0, 0, 9), NINE), ((0, 1, 9), NINE), ((2, 0, 0), 'hang 3'),
      ((2, 1, 1), TEN), ((3,), 'cut 0'), ((2,), 'cut 0')]),
    ('a side above 1', EMPTY,
     [((0, 2, 9), NINE), ((0, 3, 9), NINE), ((0, 255, 9), NINE), ((0, 0, 9), 'hang 2'), ((2, 2, 9), NINE), ((2, 128, 9), NINE), ((2, 255, 9), NINE)]),
    ('parents that cannot be had', ROOM,
     [((10, 0, 1), NINE), ((8, 0, 1), NINE), ((7, 1, 1), NINE), ((9, 1, 1), NINE), ((11, 0, 1), NINE), ((65535, 1, 1), NINE), ((262, 0, 1), NINE),
      ((0, 0, 1), NINE), ((0, 1, 1), NINE)]),
    ('sides that are taken', ROOM,
     [((1, 0, 1), NINE), ((1, 1, 1), NINE), ((3, 0, 1), NINE), ((3, 1, 1), NINE), ((5, 0, 1), NINE), ((5, 1, 1), 'hang 8'), ((5, 1, 1), NINE)]),
    ('no free record', FULL,
     [((6, 0, 1), TEN), ((6, 1, 1), TEN), ((5, 1, 1), TEN), ((1, 0, 1), NINE), ((0, 0, 1), NINE), ((10, 0, 1), NINE), ((6, 2, 1), NINE),
      ((6,), 'cut 0'), ((4, 0, 5), 'hang 6'), ((6, 0, 5), TEN)]),
    ('no free record in an empty tree', [[0, 0, 0, 0], [7, 7, 7, 7]],
        [((0, 0, 1), TEN), ((0, 1, 1), TEN), ((0, 2, 1), NINE), ((1, 0, 1), NINE), ((1,), 'cut 9')]),
    ('the head alone', [[0, 0, 0, 0]], [((0, 0, 1), TEN), ((0, 2, 1), NINE), ((1, 0, 1), NINE), ((0,), 'cut 9'), ((1,), 'cut 9')]),
    ('free records in their order', ROOM, [((2, 0, 11), 'hang 8'), ((2, 1, 12), 'hang 7'), ((8, 0, 13), 'hang 9'), ((8, 1, 14), TEN)]),
    ('both sides of the root, the right one first', EMPTY + [[0, 0, 0, 0]],
     [((0, 1, 1), 'hang 2'), ((2, 1, 2), 'hang 3'), ((2, 0, 3), TEN), ((3,), 'cut 0'), ((2, 0, 3), 'hang 3')]),
    ('nodes that cannot be cut', ROOM, [((k,), 'cut 9') for k in (0, 1, 3, 5, 7, 8, 9, 10, 11, 262, 65535)]),
    ('a node with a left child', plain([(2, 0), (0, 0)]), [((1,), 'cut 9'), ((2,), 'cut 0'), ((1,), 'cut 0')]),
    ('a node with a right child', plain([(0, 2), (0, 0)]), [((1,), 'cut 9'), ((2,), 'cut 0'), ((1,), 'cut 0')]),
    ('the only node', ALONE, [((1,), 'cut 0'), ((1,), 'cut 9'), ((0, 1, 6), 'hang 1'), ((1, 0, 7), TEN)]),
    ('the first of the chain', THREE, [((2,), 'cut 0'), ((2,), 'cut 9'), ((1, 0, 5), 'hang 2'), ((1,), 'cut 9')]),
    ('the last of the chain', THREE, [((3,), 'cut 0'), ((1, 1, 5), 'hang 3'), ((1, 1, 5), NINE)]),
    ('the middle of the chain', edited(THREE, (0, 0, 1), (1, 0, 2), (2, 0, 3)), [((2,), 'cut 0'), ((1, 0, 5), 'hang 2')]),
    ('all in the order of the chain', THREE, [((2,), 'cut 0'), ((3,), 'cut 0'), ((1,), 'cut 0'), ((0, 0, 1), 'hang 1'), ((1, 1, 3), 'hang 3')]),
    ('all in the other order', THREE, [((3,), 'cut 0'), ((2,), 'cut 0'), ((1,), 'cut 0'), ((0, 0, 1), 'hang 1'), ((1, 1, 2), 'hang 2')]),
    ('two hung, the first one cut first', ROOM, [((6, 0, 1), 'hang 8'), ((6, 1, 2), 'hang 7'), ((8,), 'cut 0'), ((7,), 'cut 0'), ((6, 0, 3), 'hang 7')]),
    ('a leaf below one just hung', ROOM, [((6, 0, 1), 'hang 8'), ((8, 1, 2), 'hang 7'), ((8,), 'cut 9'), ((7,), 'cut 0'), ((8,), 'cut 0')]),
]


def seen(t):
    """The table as it stands, drawn and checked."""
    t.filled(len(t.bytes) // 4, 1000, 3)
    t.draw()
    t.check()
    assert t.lines[-1] == 'check 0'


def changes(t):
    """The calls that were made by hand, one after the other, and what is left, drawn."""
    for name, words, calls in CHANGES:
        t.name(name)
        t.table(bytes_of(words))
        for asked, says in calls:
            begun = len(t.lines)
            (t.hang if len(asked) == 3 else t.cut)(*asked)
            assert t.lines[begun] == says, (name, asked, t.lines[begun])
        seen(t)


def small_tables(rng):
    """The table of every tree of up to 4 nodes, with two free records and one on neither chain."""
    for n in range(5):
        for links in trees.every_links(n):
            yield trees.table(trees.from_links(links), rng, extra=1, free=2)


def every_place(t, rng):
    """A node hung at every place of small trees, and asked for at every other; and cut off again, which restores every byte."""
    for data, record in small_tables(rng):
        t.table(data)
        for parent in range(len(data) // 8 + 1):
            for side in (0, 1, 2):
                hung = t.hang(parent, side, rng.randrange(65536))
                if hung:
                    assert t.cut(hung) == 0 and t.bytes == data


def every_cut(t, rng):
    """Every record of small trees, to be cut off; what is left is drawn."""
    for data, record in small_tables(rng):
        t.table(data)
        for node in range(len(data) // 8 + 1):
            if t.cut(node) == 0:
                seen(t)
                t.table(data)


def open_places(table, rng):
    """Parents and sides where a node can be hung, if a record is free."""
    return [(b, side) for b in table.chain for side in (0, 1) if not (table.left, table.right)[side][b]] or [(0, rng.randrange(2))]


def calls(t, rng, count, likely):
    """So many calls on the table as it stands: hung where a node can be, as likely as that, or cut where one can be; and now and then anything else."""
    for _ in range(count):
        table = racksheet.read(t.bytes, UPTO)
        places = open_places(table, rng)
        leaves = [b for b in table.chain if not table.left[b] and not table.right[b]]
        tag, any_record = rng.choice((0, rng.randrange(65536))), rng.choice((rng.randrange(table.records + 1), rng.randrange(65536)))
        if rng.random() < 0.15:
            t.hang(any_record, rng.choice((0, 1, 1, 2, 255)), tag)
        elif rng.random() < 0.05:
            t.cut(any_record)
        elif rng.random() < likely or not leaves:
            t.hang(*rng.choice(places), tag)
        else:
            t.cut(rng.choice(leaves))


def random_calls(t, rng):
    """Many calls one after the other, on tables of every kind, and what is left, drawn."""
    for likely in (0.8, 0.7, 0.5, 0.5, 0.5, 0.3):
        for n, free in ((0, rng.randint(1, 8)), (rng.randint(1, 8), rng.randint(0, 6)), (rng.randint(1, 8), rng.randint(0, 6)), (rng.randint(2, 30), 3)):
            data, _ = trees.table(rng.choice(trees.shapes(rng))[1](n), rng, extra=rng.randint(0, 2), free=free)
            t.table(data)
            calls(t, rng, 24, likely)
            after = racksheet.read(t.bytes, UPTO)
            assert after.refusal == 0 and len(after.chain) + len(after.free) == n + free
            seen(t)


def grown(t, rng):
    """A free chain hung whole, and all of it cut again; and a few calls on tables of 4,097 records, all of it free, some, one and none."""
    t.table(trees.table(trees.Tree(0), rng, extra=3, free=200)[0])
    calls(t, rng, 280, 1.0)
    seen(t)
    assert t.bytes[4:6] == b'\0\0'
    calls(t, rng, 280, 0.0)
    seen(t)
    for n, free, count in ((0, 4096, 9), (2000, 2090, 9), (4095, 1, 9), (4096, 0, 5)):
        t.table(trees.table(trees.uniform(n, rng), rng, extra=4096 - n - free, free=free)[0])
        calls(t, rng, count, 0.7)
        seen(t)


def damaged(t, rng):
    """Tables with free chains, with a word or two written over."""
    for _ in range(170):
        n, free = rng.randint(0, 7), rng.randint(1, 4)
        data, record = trees.table(trees.uniform(n, rng), rng, extra=rng.randint(0, 2), free=free)
        words = [int.from_bytes(data[i:i + 2], 'little') for i in range(0, len(data), 2)]
        for _ in range(rng.randint(1, 2)):
            words[rng.randrange(len(words))] = rng.choice((0, rng.randrange(len(data) // 8 + 1), rng.randrange(65536)))
        t.every(bytes_of([words]), rng.randrange(65536), rng.randrange(5), short=rng.choice((0, 0, 0, 0, 1)), pitches=(4,), leaf=rng.choice(record))


def random_trees(t, rng):
    """Trees of every shape with free records: drawn, drawn wide and checked."""
    for name, make in trees.shapes(rng):
        for n in (rng.randint(2, 13), rng.randint(14, 60)):
            data, record = trees.table(make(n), rng, extra=rng.randint(0, 2), free=rng.randint(1, 5))
            t.every(data, rng.randrange(65536), rng.randrange(65536))
            t.stroke(rng.randint(1, 255), rng.randrange(2 * n))


def table_for(rng, tree=None):
    """A table for a call that writes: of that tree, or of one of few nodes, with few free records, and now and then with a word written over."""
    data, record = trees.table(tree or trees.uniform(rng.randint(0, 6), rng), rng, extra=rng.randint(0, 2), free=rng.randint(0, 3))
    if rng.random() < 0.15:
        at = 2 * rng.randrange(len(data) // 2)
        data = data[:at] + rng.randrange(len(data) // 8 + 1).to_bytes(2, 'little') + data[at + 2:]
    return data, rng.choice((rng.choice(record), rng.randrange(len(data) // 8 + 1)))


def hang_case(rng, tree=None):
    """A table, a parent, a side and a tag for a hang."""
    data, parent = table_for(rng, tree)
    return data, parent, rng.choice((0, 0, 0, 1, 1, 1, 2)), rng.choice((0, rng.randrange(65536)))


def cut_case(rng, tree=None):
    """A table and a node for a cut."""
    return table_for(rng, tree)
