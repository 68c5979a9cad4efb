"""Cases of the halves of a hang for make_trials.py: a place is held, and what was held is hung. Beside each that was made by hand stands what
document 02 says of it."""
import hang_cut
import racksheet
import trees
from hang_cut import ALONE, EMPTY, FULL, ROOM, THREE, edited
from slips import UPTO
from trees import bytes_of

# The words written over by a hang: in ROOM of 8 with the tag 5, left of 6 and right of 2; in EMPTY of 2 with the tag 9, the root.
BELOW_6 = [(0, 2, 7), (6, 0, 8), (6, 1, 8), (8, 0, 0), (8, 3, 5)]
BELOW_2 = [(0, 2, 7), (2, 0, 8), (2, 2, 8), (8, 0, 3), (8, 3, 5)]
ROOT = [(0, 0, 2), (0, 1, 2), (0, 2, 3), (2, 0, 0), (2, 3, 9)]
OTHERS = (0, 1, 6, 7, 9, 10, 11, 264, 2048, 2056, 32776, 65535)             # records other than 8, which ROOM would use; 8 is a byte of some
NO_PARENTS = (0, 7, 8, 9, 10, 11, 262, 65535)                               # below which nothing can be hung in ROOM

# Calls one after the other: the name, the table, each call and what it says, and the words that they have written over in the end.
# Asked are, of hold, parent and side; of held, parent, side, tag and record; of hang, parent, side and tag; of cut, the node.
SERIES = [
    ('the halves in succession', ROOM, ['hold 6 0: 8', 'held 6 0 5 8: 0'], BELOW_6),
    ('hang at the same place', ROOM, ['hang 6 0 5: 8'], BELOW_6),
    ('the halves on the right, within the chain', ROOM, ['hold 2 1: 8', 'held 2 1 5 8: 0'], BELOW_2),
    ('the halves, and the node cut off again', ROOM, ['hold 4 1: 8', 'held 4 1 65535 8: 0', 'cut 8: 0'], []),
    ('the root by halves, on the left', EMPTY, ['hold 0 0: 2', 'held 0 0 9 2: 0'], ROOT),
    ('the root by halves, on the right', EMPTY, ['hold 0 1: 2', 'held 0 1 9 2: 0'], ROOT),
    ('the root held on one side and hung on the other', EMPTY, ['hold 0 0: 2', 'held 0 1 9 2: 0', 'hold 0 1: refused 9', 'held 0 0 9 3: 9'], ROOT),
    ('the root, with other records', EMPTY, ['held 0 0 9 0: 11', 'held 0 1 9 1: 11', 'held 0 0 9 3: 11', 'held 0 1 9 258: 11'], []),
    ('another node hung in between', ROOM, ['hold 6 0: 8', 'hang 2 1 5: 8', 'held 6 0 6 8: 11'], BELOW_2),
    ('another node hung in between, and the place held again', ROOM,
     ['hold 6 0: 8', 'hang 2 1 5: 8', 'held 6 0 6 8: 11', 'hold 6 0: 7', 'held 6 0 6 7: 0'],
     BELOW_2 + [(0, 2, 9), (6, 0, 7), (6, 1, 7), (7, 0, 0), (7, 3, 6)]),
    ('another node hung by halves in between', ROOM, ['hold 6 0: 8', 'hold 2 1: 8', 'held 2 1 5 8: 0', 'held 6 0 6 8: 11'], BELOW_2),
    ('a node hung at the place in between', ROOM, ['hold 6 0: 8', 'hang 6 0 5: 8', 'held 6 0 5 8: 9', 'held 6 0 5 7: 9', 'hold 6 0: refused 9'], BELOW_6),
    ('the last free record taken in between', THREE,
     ['hold 2 0: 4', 'hang 3 1 5: 4', 'held 2 0 6 4: 10', 'held 2 0 6 0: 10', 'hold 2 0: refused 10'], [(0, 2, 0), (3, 0, 4), (3, 2, 4), (4, 3, 5)]),
    ('a node cut off in between', ROOM, ['hold 2 0: 8', 'cut 6: 0', 'held 2 0 5 8: 11'], [(0, 2, 6), (5, 0, 0), (5, 1, 0), (6, 0, 8), (6, 3, 0)]),
    ('a node cut off in between, and the place held again', ROOM, ['hold 2 0: 8', 'cut 6: 0', 'held 2 0 5 8: 11', 'hold 2 0: 6', 'held 2 0 5 6: 0'],
     [(2, 0, 6), (2, 1, 6), (5, 0, 0), (5, 1, 0), (6, 0, 3), (6, 3, 5)]),
    ('the parent cut off in between', ROOM, ['hold 6 0: 8', 'cut 6: 0', 'held 6 0 5 8: 9', 'held 6 0 5 6: 9', 'hold 6 0: refused 9'],
     [(0, 2, 6), (5, 0, 0), (5, 1, 0), (6, 0, 8), (6, 3, 0)]),
    ('a node hung and cut off again in between', ROOM, ['hold 6 0: 8', 'hang 2 1 7: 8', 'cut 8: 0', 'held 6 0 5 8: 0'], BELOW_6),
    ('a node cut off and hung elsewhere in between', ROOM, ['hold 2 1: 8', 'cut 6: 0', 'held 2 1 5 8: 11', 'hang 4 0 9: 6', 'held 2 1 5 8: 0'],
     BELOW_2 + [(4, 0, 6), (4, 1, 6), (5, 0, 0), (5, 1, 0), (6, 0, 5), (6, 3, 9)]),
    ('refused calls in between', ROOM,
     ['hold 6 0: 8', 'hang 1 0 5: refused 9', 'cut 1: 9', 'held 6 2 5 8: 9', 'held 6 0 5 9: 11', 'hold 1 0: refused 9', 'held 6 0 5 8: 0'], BELOW_6),
    ('places held twice, and others', ROOM, ['hold 6 0: 8', 'hold 6 0: 8', 'hold 6 1: 8', 'hold 2 1: 8', 'hold 5 1: 8'], []),
    ('a place held, and the record hung at another', ROOM, ['hold 6 0: 8', 'held 2 1 5 8: 0'], BELOW_2),
    ('the second half alone', ROOM, ['held 6 0 5 8: 0'], BELOW_6),
    ('the second half twice', ROOM, ['hold 6 0: 8', 'held 6 0 5 8: 0', 'held 6 0 5 8: 9', 'held 6 1 5 8: 11', 'held 8 0 5 8: 11'], BELOW_6),
    ('the second half on both sides', ROOM, ['held 6 0 5 8: 0', 'held 6 1 6 7: 0'],
     [(0, 2, 9), (6, 0, 7), (6, 1, 8), (6, 2, 7), (7, 0, 8), (7, 3, 6), (8, 0, 0), (8, 3, 5)]),
    ('the second free record, before its turn and in it', ROOM, ['held 6 0 6 7: 11', 'hang 2 1 5: 8', 'held 6 0 6 7: 0'],
     BELOW_2 + [(0, 2, 9), (6, 0, 7), (6, 1, 7), (7, 0, 0), (7, 3, 6)]),
    ('free records in their order, by halves', ROOM,
     ['hold 2 0: 8', 'held 2 0 11 8: 0', 'hold 2 1: 7', 'held 2 1 12 7: 0', 'hold 8 0: 9', 'held 8 0 13 9: 0', 'hold 8 1: refused 10', 'held 8 1 14 0: 10'],
     [(0, 2, 0), (2, 0, 7), (2, 1, 8), (2, 2, 7), (7, 0, 8), (7, 3, 12), (8, 0, 9), (8, 1, 9), (8, 3, 11), (9, 0, 3), (9, 3, 13)]),
    ('other records', ROOM, ['held 6 0 5 %d: 11' % k for k in OTHERS], []),
    ('other records, where the side is taken', ROOM, ['held 1 0 5 %d: 9' % k for k in (2, 8) + OTHERS], []),
    ('other records, where the node or the side cannot be had', ROOM,
     ['held %s 5 %d: 9' % (place, k) for place in ('0 0', '0 1', '10 0', '8 1', '65535 0', '6 2') for k in (0, 7, 10)], []),
    ('records, where none is free', FULL, ['held 6 0 5 %d: 10' % k for k in (8,) + OTHERS], []),
    ('no free record, by halves', FULL,
     ['hold 6 0: refused 10', 'hold 5 1: refused 10', 'hold 1 0: refused 9', 'hold 6 2: refused 9', 'held 1 0 5 0: 9', 'held 0 0 5 0: 9', 'held 6 2 5 8: 9',
      'cut 6: 0', 'hold 4 0: 6', 'held 4 0 5 6: 0'], [(4, 0, 6), (4, 1, 6), (5, 0, 0), (5, 1, 0), (6, 0, 5), (6, 3, 5)]),
    ('no free record in an empty tree, by halves', [[0, 0, 0, 0], [7, 7, 7, 7]],
     ['hold 0 0: refused 10', 'hold 0 1: refused 10', 'hold 0 2: refused 9', 'hold 1 0: refused 9', 'held 0 0 5 0: 10', 'held 0 1 5 1: 10', 'held 0 2 5 0: 9',
      'held 1 0 5 0: 9'], []),
    ('the head alone, by halves', [[0, 0, 0, 0]],
     ['hold 0 1: refused 10', 'hold 0 255: refused 9', 'hold 1 0: refused 9', 'held 0 1 5 0: 10', 'held 0 0 5 1: 10', 'held 1 0 5 0: 9'], []),
    ('the only node cut off and hung again by halves', ALONE,
     ['hold 1 0: refused 10', 'cut 1: 0', 'held 1 0 5 1: 9', 'hold 0 1: 1', 'held 0 1 5 1: 0', 'held 0 0 5 1: 9', 'held 1 0 5 0: 10'], [(1, 3, 5)]),
    ('parents that cannot be had, by halves', ROOM,
     [call % k for k in NO_PARENTS for call in ('hold %d 0: refused 9', 'hold %d 1: refused 9', 'held %d 0 5 8: 9', 'held %d 1 5 8: 9')], []),
    ('sides that are taken, by halves', ROOM,
     [call % place for place in ('1 0', '1 1', '3 0', '3 1', '5 0') for call in ('hold %s: refused 9', 'held %s 5 8: 9')] + ['hold 5 1: 8'], []),
    ('sides above 1, by halves', ROOM, [call % side for side in (2, 3, 128, 255) for call in ('hold 6 %d: refused 9', 'held 6 %d 5 8: 9')], []),
    ('sides above 1 for the root, by halves', EMPTY, [call % side for side in (2, 3, 128, 255) for call in ('hold 0 %d: refused 9', 'held 0 %d 9 2: 9')], []),
    ('a place below a record that is held', ROOM,
     ['hold 6 0: 8', 'hold 8 0: refused 9', 'held 8 0 5 7: 9', 'held 8 0 5 8: 9', 'held 6 0 5 8: 0', 'hold 8 0: 7'], BELOW_6),
    ('tag and record traded', ROOM, ['held 6 0 8 5: 11', 'held 6 0 8 7: 11', 'held 6 0 5 8: 0'], BELOW_6),
]


def ask(t, call):
    """A call of a series, held to what stands behind it."""
    asked, says = call.split(': ')
    name, *numbers = asked.split()
    begun = len(t.lines)
    getattr(t, name)(*map(int, numbers))
    assert t.lines[begun] == name + ' ' + says, (call, t.lines[begun])


def series(t):
    """The series that were made by hand; what is left is drawn."""
    for name, words, calls, left in SERIES:
        t.name(name)
        t.table(bytes_of(words))
        for call in calls:
            ask(t, call)
        assert t.bytes == bytes_of(edited(words, *left)), name
        hang_cut.seen(t)


def every_place(t, rng):
    """The halves asked for at every place of small trees and at every other, the second with another record first; what was hung is what hang hangs,
    and is cut off again."""
    for data, _ in hang_cut.small_tables(rng):
        t.table(data)
        for parent in range(len(data) // 8 + 1):
            for side in (0, 1, 2):
                record, tag = t.hold(parent, side), rng.randrange(65536)
                another = rng.choice([k for k in range(len(data) // 8 + 1) if k != record])
                assert t.held(parent, side, tag, another) == (11 if record else 9)
                if record:
                    assert t.held(parent, side, tag, record) == 0 and t.bytes == racksheet.hang(data, parent, side, tag, UPTO)[2]
                    assert t.cut(record) == 0 and t.bytes == data


def given(data, rng):
    """A record for the second half: the first free one, or 0, or one that differs from it in a bit, in the high byte, or in the order of its bytes; or any."""
    first = int.from_bytes(data[4:6], 'little')
    return rng.choice((first, first, first, first, 0, first ^ 1 << rng.randrange(16), (first + 256) % 65536, first % 256 * 256 + first // 256,
                       rng.randrange(len(data) // 8 + 1), rng.randrange(len(data) // 8 + 1), rng.randrange(65536)))


def calls(t, rng, count):
    """So many calls on the table as it stands: places held, what was held hung, soon or late, or with any record, and other calls in between."""
    kept = []
    for _ in range(count):
        table, way, tag = racksheet.read(t.bytes, UPTO), rng.random(), rng.choice((0, rng.randrange(65536)))
        place = rng.choice(hang_cut.open_places(table, rng) * 3 + [(rng.randrange(table.records + 1), rng.randrange(3))])
        if way < 0.35:
            kept.append((*place, tag, t.hold(*place)))
        elif way < 0.6 and kept:
            t.held(*kept.pop(rng.choice((0, -1))))
        elif way < 0.7:
            t.held(*place, tag, given(t.bytes, rng))
        else:
            hang_cut.calls(t, rng, 1, 0.5)


def random_calls(t, rng):
    """Many calls one after the other, on tables of every kind, and what is left, drawn."""
    for n, free in [(0, 1), (0, 3), (0, 8), (1, 0), (1, 1)] + [(rng.randint(1, 9), rng.randint(0, 6)) for _ in range(19)]:
        t.table(trees.table(rng.choice(trees.shapes(rng))[1](n), rng, extra=rng.randint(0, 2), free=free)[0])
        calls(t, rng, 30)
        after = racksheet.read(t.bytes, UPTO)
        assert after.refusal == 0 and len(after.chain) + len(after.free) == n + free
        hang_cut.seen(t)


def large(t, rng):
    """A few calls on tables whose records' numbers fill more than a byte: all of it free, half, one and none, and one of 4,097 records."""
    for n, free in ((0, 600), (300, 300), (599, 1), (600, 0), (2000, 2090)):
        t.table(trees.table(trees.uniform(n, rng), rng, extra=6, free=free)[0])
        calls(t, rng, 16)
        hang_cut.seen(t)


def hold_case(rng, tree=None):
    """A table, a parent and a side for the first half."""
    return hang_cut.hang_case(rng, tree)[:3]


def held_case(rng, tree=None):
    """A table, a parent, a side, a tag and a record for the second half."""
    case = hang_cut.hang_case(rng, tree)
    return (*case, given(case[0], rng))
